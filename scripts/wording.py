"""Words for places, points, boxes and regions, as the scripts that explain an answer say them."""
from missiontext import box_words

WIDTH = 100


def offset_of_line(text, number):
    """Where a line begins."""
    at = 0
    for _ in range(number - 1):
        at = text.find('\n', at) + 1
    return at


def shown(text):
    """A piece of the input as a terminal may show it."""
    said = text.encode('latin-1').decode('utf-8', 'replace')
    return ''.join(letter if letter.isprintable() else ' ' if letter == '\t' else '?' for letter in said)


def caret(line, number, column):
    """A line of the input with a mark under one column, as rustc prints it. Both count from 1, columns in bytes."""
    begin = max(0, column - 1 - WIDTH * 2 // 3)
    before, piece = shown(line[begin:column - 1]), shown(line[begin:begin + WIDTH])
    lead = '.. ' if begin else ''
    tail = ' ..' if len(line) > begin + WIDTH else ''
    margin = ' ' * len(str(number))
    return [f'{number} | {lead}{piece}{tail}', f'{margin} | {" " * len(lead + before)}^']


def region_words(plant, boxes):
    said = ' or '.join(box_words(plant, box) for box in boxes[:3]) or 'nowhere'
    return said + (f' or in {len(boxes) - 3} boxes more' if len(boxes) > 3 else '')


def tuple_words(point):
    return '(' + ', '.join(map(str, point)) + ')'


def ticks(count):
    return f'{count} tick' + ('' if count == 1 else 's')


def decimals(count):
    """A count of decimals."""
    return 'no decimals' if count == 0 else f'{count} decimal' + ('' if count == 1 else 's')


def listing(names, most=8):
    """Names with commas between, at most so many."""
    names = list(names)
    return ', '.join(f'`{shown(name)}`' for name in names[:most]) + (' ..' if len(names) > most else '') or 'none'
