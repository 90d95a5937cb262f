"""What scripts read of a mission's text: sections, declarations, certificate, flight and trace.

It serves the scripts that draw, tabulate and explain what `soter` has judged. It is tested and not proved, and no
answer of `soter` rests on it. Texts are bytes as latin-1, so that columns count bytes, as `soter` counts them. All
numbers are mantissas, whole numbers of the last decimal; `decimal` writes one as people read it.
"""
import collections
import json
import re

SECTIONS = ('certificate', 'flight', 'trace')
TOKEN = re.compile(r'[ \t\r\n]+|#[^\n]*|([A-Za-z_][A-Za-z0-9_]*|[0-9]+(?:\.[0-9]+)?|:=|\.\.|[<>=!]=|.)', re.S)
JSON_BLANK = re.compile(r'[ \t\r\n]*')
JSON_TOKEN = re.compile(r'"(?:[^"\\]|\\.)*"|[^][{},:"\s]+|.', re.S)
DEEPEST_JSON = 127
LONGEST_NUMBER = 40

REFUSED = re.compile(r'refused (?P<no>\d+|start)(?: (?P<kind>[A-Z]\w+))?(?: module (?P<module>\w+))?(?: node (?P<node>\w+))?(?: (?:safe|safer))?(?: topic (?P<topic>\w+))?'
                     r'(?: cell (?P<cell>\d+) tick (?P<tick>\d+))?(?: box \[(?P<box>[^]]*)\])?(?: point \((?P<point>[^)]*)\))?(?: line (?P<line>\d+) column (?P<column>\d+))?')

Scalar = collections.namedtuple('Scalar', 'kind scale lo hi')
Topic = collections.namedtuple('Topic', 'name outside fields scalars initial')
Plant = collections.namedtuple('Plant', 'name line states scales inputs noise bounds')
Node = collections.namedtuple('Node', 'name line coded period offset reads writes')
Module = collections.namedtuple('Module', 'name line ac sc period offset plant safe safer')
Halves = collections.namedtuple('Halves', 'first second line')
Event = collections.namedtuple('Event', 'line time kind name writes numbers')
Outside = collections.namedtuple('Outside', 'time plant state lo hi value')
# a line that was not taken: `ignored` or `blind`, what an ignored one began with, and why
Untaken = collections.namedtuple('Untaken', 'time kind about why')
# a line of a robot in its talk: the time when it came, and its number behind %observed
Said = collections.namedtuple('Said', 'time number line')


# what a robot may say, and what soter_guard does
NUMBERS_SAID = r'-?\d+(?:,-?\d+)*'
WRITES_SAID = r'(?: \w+(?:\.\w+)?[=!]-?\d+)*'
TOLD = re.compile(rf'start \w+\({NUMBERS_SAID}\)|input \w+={NUMBERS_SAID}|draft \w+{WRITES_SAID}|go|resume'
                  rf'|tick(?: \w+\({NUMBERS_SAID}\))*', re.A)
ANSWERED = re.compile(
    r'accepted|modules \d+ nodes \d+ cells \d+|says (?:state|command|input|draft) \w+ \w+(?:\.\w+)? scale \d+ range -?\d+ -?\d+'
    rf'|says (?:external|module) \w+|says all|\d+ input \w+={NUMBERS_SAID}|\d+ decide \w+ (?:ac|sc)'
    rf'|\d+ (?:fire|idle) \w+{WRITES_SAID}|\d+ hold \w+(?: \w+(?:\.\w+)?=-?\d+)*|\d+ (?:begins|ready)(?: \w+)*'
    r'|\d+ outside plant \w+ state \w+ \[-?\d+\.\.-?\d+\] observed -?\d+|\d+ ignored (?:draft|input|resume)(?: \w+)? \w+|\d+ blind \w+'
    r'|\d+ resumed|\d+ refused resume module \w+'
    r'|end \d+ events \d+|fault observed line \d+ \w+|refused start module \w+ point \(.*\)', re.A)
ASIDES = ('draft', 'input', 'resume')


class NotRead(Exception):
    """The text is none that this module reads."""


def decimal(mantissa, scale):
    """A mantissa of that many decimals, as it is written in a program."""
    digits = str(abs(mantissa)).rjust(scale + 1, '0')
    point = f'{digits[:-scale]}.{digits[-scale:]}' if scale else digits
    return '-' + point if mantissa < 0 else point


# --- sections ---------------------------------------------------------------------------------------------------

class Sections:
    """The parts of a text between its section lines, each with the file's line at which it begins."""

    def __init__(self, text):
        self.text, self.parts, self.lines, self.heads = text, {}, {}, []
        name, begin, at, line = 'program', 0, 0, 1
        self.lines[name] = 1
        while at < len(text):
            end = text.find('\n', at)
            end = len(text) if end < 0 else end
            if text[at] == '%':
                self.parts.setdefault(name, text[begin:at])
                name, begin = text[at:end].rstrip('\r')[1:], end + 1
                self.heads.append((line, '%' + name))
                # a talk may say at which time it begins
                name = re.sub(r'^observed (?:0|[1-9][0-9]*)$', 'observed', name)
                self.lines.setdefault(name, line + 1)
            at, line = end + 1, line + 1
        self.parts.setdefault(name, text[begin:])
        # a text that ends with a line end has no line behind it
        self.count = line - 1

    def has(self, name):
        return name in self.parts


def halves_of(text):
    """What stands before the first line `%bridge` and behind it, and the line at which the second begins; None where there is no such line."""
    at, line = 0, 1
    while at < len(text):
        end = text.find('\n', at)
        end = len(text) if end < 0 else end
        if text[at:end] in ('%bridge', '%bridge\r'):
            return Halves(text[:at], text[end + 1:], line + 1)
        at, line = end + 1, line + 1
    return None


def in_front(text, name):
    """What stands before the first section line of that name; behind `%observed` a time may stand."""
    found = re.search(rf'^%{name}(?: [0-9]+)?\r?$', text, re.M)
    return text[:found.start()] if found else text


def line_of(text, number):
    """Line number of a text, from 1, without its line end; empty where there is none."""
    at = 0
    for _ in range(number - 1):
        at = text.find('\n', at) + 1
        if at == 0:
            return ''
    end = text.find('\n', at)
    return text[at:end if end >= 0 else len(text)].rstrip('\r')


def place_in(text, offset):
    """Line and column, both from 1, of a place in a text."""
    return text.count('\n', 0, offset) + 1, offset - text.rfind('\n', 0, offset)


# --- the program ------------------------------------------------------------------------------------------------

class Tokens:
    """The tokens of a program one by one, with the line of the present one."""

    def __init__(self, text):
        self.pieces, self.now, self.line, self.counted = TOKEN.finditer(text), '', 1, 0
        self.text = text
        self.next()

    def next(self):
        """Hands out the present token, and goes on to the next; the end of the text is the empty token."""
        said, self.now = self.now, ''
        for piece in self.pieces:
            if piece[1]:
                self.line += self.text.count('\n', self.counted, piece.start())
                self.now, self.counted = piece[1], piece.start()
                break
        return said

    def take(self, word):
        """Goes over this token, if it is the present one, and tells whether it was."""
        return self.next() == word if self.now == word else False

    def want(self, word):
        if not self.take(word):
            raise NotRead(f'{word} does not stand where it should, at line {self.line}')

    def name(self):
        if not (self.now[:1].isalpha() or self.now[:1] == '_'):
            raise NotRead(f'no name where one should stand, at line {self.line}')
        return self.next()

    def number(self):
        """A literal: its mantissa, and its count of decimals."""
        sign = -1 if self.take('-') else 1
        said = self.next()
        if not said[:1].isdigit() or len(said) > LONGEST_NUMBER:
            raise NotRead(f'no number where one should stand, at line {self.line}')
        return sign * int(said.replace('.', '')), len(said.partition('.')[2])


def names_of(tokens):
    """A list of names, and the `;` behind it."""
    names = [tokens.name()]
    while tokens.take(','):
        names.append(tokens.name())
    tokens.want(';')
    return names


def range_of(tokens):
    """`lo..hi`."""
    lo = tokens.number()[0]
    tokens.want('..')
    return lo, tokens.number()[0]


def scale_of(tokens):
    """The decimals behind `int` or `fix`."""
    if tokens.take('int'):
        return 0
    tokens.want('fix')
    tokens.want('(')
    scale = tokens.number()[0]
    tokens.want(')')
    return scale


def scalar_of(tokens):
    if tokens.take('bool'):
        return Scalar('bool', 0, 0, 1)
    kind, scale = tokens.now, scale_of(tokens)
    tokens.want('[')
    lo, hi = range_of(tokens)
    tokens.want(']')
    return Scalar(kind, scale, lo, hi)


def constant_of(tokens):
    if tokens.now in ('true', 'false'):
        return int(tokens.next() == 'true')
    return tokens.number()[0]


def fields_of(tokens):
    """`NAME: scalar` with commas between, as two lists."""
    names, scalars = [], []
    while True:
        names.append(tokens.name())
        tokens.want(':')
        scalars.append(scalar_of(tokens))
        if not tokens.take(','):
            return names, scalars


def topic_of(tokens, outside):
    name = tokens.name()
    tokens.want(':')
    if tokens.take('{'):
        fields, scalars = fields_of(tokens)
        tokens.want('}')
    else:
        fields, scalars = [None], [scalar_of(tokens)]
    tokens.want('=')
    initial = []
    braces = tokens.take('{')
    while not initial or tokens.take(','):
        initial.append(constant_of(tokens))
    if braces:
        tokens.want('}')
    tokens.want(';')
    return Topic(name, outside, fields, scalars, initial)


def skipped(tokens, end):
    """Goes behind the first such token that stands in no braces of its own."""
    depth = 0
    while tokens.now:
        said = tokens.next()
        depth += (said == '{') - (said == '}')
        if depth == 0 and said == end:
            return
    raise NotRead('the text ends inside a declaration')


def plant_of(tokens):
    line, name = tokens.line, tokens.name()
    tokens.want('{')
    tokens.want('state')
    states, scales, inputs, noise, bounds = [], [], [], [], []
    while not states or tokens.take(','):
        states.append(tokens.name())
        tokens.want(':')
        scales.append(scale_of(tokens))
    tokens.want(';')
    if tokens.take('input'):
        inputs = names_of(tokens)
    if tokens.take('sees'):
        names_of(tokens)
    if tokens.take('noise'):
        noise, bounds = fields_of(tokens)
        tokens.want(';')
    while tokens.take('next'):
        skipped(tokens, ';')
    tokens.want('}')
    return Plant(name, line, states, scales, inputs, noise, bounds)


def timing_of(tokens):
    tokens.want('period')
    period = tokens.number()[0]
    tokens.want('offset')
    return period, tokens.number()[0]


def node_of(tokens, coded):
    line, name = tokens.line, tokens.name()
    period, offset = timing_of(tokens)
    tokens.want('{')
    reads = names_of(tokens) if tokens.take('reads') else []
    writes = names_of(tokens) if tokens.take('writes') else []
    while tokens.take('local'):
        skipped(tokens, ';')
    if coded:
        tokens.want('do')
        skipped(tokens, '}')
    tokens.want('}')
    return Node(name, line, coded, period, offset, reads, writes)


def region_of(tokens):
    """A region as a list of boxes, and the `;` behind it. `none` is the empty list."""
    boxes = []
    if not tokens.take('none'):
        while not boxes or tokens.take('|'):
            tokens.want('[')
            box = [range_of(tokens)]
            while tokens.take(','):
                box.append(range_of(tokens))
            tokens.want(']')
            boxes.append(box)
    tokens.want(';')
    return boxes


def module_of(tokens):
    line, name = tokens.line, tokens.name()
    tokens.want('{')
    said = {}
    for word in ('ac', 'sc'):
        tokens.want(word)
        said[word] = names_of(tokens)[0]
    period, offset = timing_of(tokens)
    tokens.want(';')
    tokens.want('plant')
    plant = names_of(tokens)[0]
    for word in ('safe', 'safer'):
        tokens.want(word)
        said[word] = region_of(tokens)
    tokens.want('}')
    return Module(name, line, said['ac'], said['sc'], period, offset, plant, said['safe'], said['safer'])


class Program:
    """The declarations of a program, in their order; bodies and formulas are passed over."""

    def __init__(self, text):
        self.topics, self.plants, self.nodes, self.modules = {}, {}, {}, {}
        tokens = Tokens(text)
        while tokens.now:
            kind = tokens.next()
            if kind == 'environment':
                tokens.want('topic')
            if kind in ('topic', 'environment'):
                found, among = topic_of(tokens, kind == 'environment'), self.topics
            elif kind == 'plant':
                found, among = plant_of(tokens), self.plants
            elif kind in ('node', 'external'):
                found, among = node_of(tokens, kind == 'node'), self.nodes
            elif kind == 'module':
                found, among = module_of(tokens), self.modules
            else:
                raise NotRead(f'no declaration at line {tokens.line}')
            among.setdefault(found.name, found)

    def scalars(self):
        """Each scalar of each topic by the name that a trace gives it, in order."""
        return {scalar_name(topic, field): scalar for topic in self.topics.values()
                for field, scalar in zip(topic.fields, topic.scalars)}


def scalar_name(topic, field):
    return topic.name if field is None else f'{topic.name}.{field}'


# --- JSON -------------------------------------------------------------------------------------------------------

def json_of(text):
    """The value that a section says. Keys that are repeated count once, the last one."""
    try:
        return json.loads(text.encode('latin-1').decode('utf-8'))
    except (ValueError, RecursionError) as fault:
        raise NotRead(str(fault)) from fault


def json_fault(text):
    """Where a section is no JSON, and why: line and column within it, both from 1, and a phrase. None where python3 finds none."""
    raw = text.encode('latin-1')
    try:
        said = raw.decode('utf-8')
        json.loads(said, parse_constant=odd_word)
    except UnicodeDecodeError as fault:
        return (*place_in(text, fault.start), 'this byte is no UTF-8')
    except json.JSONDecodeError as fault:
        offset = len(said[:fault.pos].encode('utf-8'))
        return (*place_in(text, offset), fault.msg)
    except (RecursionError, ValueError, NotRead):
        pass
    return odd_json(text)


def odd_word(word):
    raise NotRead(word)


def odd_json(text):
    """As `json_fault`, for what python3 takes and `soter` does not: nests too deep, numbers past all floats, and words."""
    depth = 0
    for piece in JSON_TOKEN.finditer(text):
        token = piece[0]
        depth += (token in '[{') - (token in ']}')
        if depth > DEEPEST_JSON:
            return (*place_in(text, piece.start()), f'it nests more than {DEEPEST_JSON} levels')
        if token in ('NaN', 'Infinity', '-Infinity') or (token[:1] in '-0123456789' and abs(float_of(token)) == float('inf')):
            return (*place_in(text, piece.start()), f'{token[:40]} is no number of JSON')
    return None


def float_of(token):
    try:
        return float(token)
    except ValueError:
        return 0.0


def pointed(text, pointer):
    """The offset in a section's JSON of the value at a JSON pointer; of a missing key, or where the pointer is `/`, of what should hold it."""
    keys = [] if pointer == '/' else [key.replace('~1', '/').replace('~0', '~') for key in pointer[1:].split('/')]
    at = JSON_BLANK.match(text).end()
    for key in keys:
        inside = member_at(text, at, key)
        if inside is None:
            return at
        at = inside
    return at


def member_at(text, at, key):
    """Where the value of a key, the last of that name, or of an item stands in the object or list that begins at a place; None where there is none."""
    found, depth, count, name, listed = None, 0, 0, None, text[at:at + 1] == '['
    for piece in JSON_TOKEN.finditer(text, at):
        token = piece[0]
        if token.isspace():
            continue
        if depth == 1 and token not in ']},:':
            if listed and str(count) == key:
                return piece.start()
            if not listed and name is not None and name == key:
                found = piece.start()
            name = string_of(token) if not listed and name is None else None
        if depth == 1 and token == ',':
            count, name = count + 1, None
        depth += (token in '[{') - (token in ']}')
        if depth <= 0:
            break
    return found


def string_of(token):
    """What a piece of JSON says as a key; itself where it is no text."""
    try:
        return json.loads(token.encode('latin-1').decode('utf-8')) if token[:1] == '"' else token
    except ValueError:
        return token


# --- answers ----------------------------------------------------------------------------------------------------

def refusal_of(answer):
    """What a refusal names, by the words of its line: numbers as such, a box as sides, a point as a list. None for another answer."""
    found = REFUSED.match(answer)
    if not found or not (found['kind'] or found['no'] == 'start'):
        return None
    said = found.groupdict()
    for name in ('cell', 'tick', 'line', 'column'):
        said[name] = said[name] and int(said[name])
    said['point'] = said['point'] and whole_numbers(said['point'])
    said['box'] = said['box'] and [tuple(whole_numbers(side.replace('..', ' '))) for side in said['box'].split(', ')]
    return said


def whole_numbers(text):
    return [int(number) for number in re.findall(r'-?\d+', text)]


def point_words(plant, point):
    """A point as people read it: each state variable with its number."""
    return ', '.join(f'{state} {decimal(number, scale)}' for state, scale, number in zip(plant.states, plant.scales, point))


def box_words(plant, box):
    return ', '.join(f'{state} {decimal(lo, scale)}..{decimal(hi, scale)}' for state, scale, (lo, hi) in zip(plant.states, plant.scales, box))


# --- the trace --------------------------------------------------------------------------------------------------

class Trace:
    """The lines of a trace: where plants start, and the events. It has to be one that `soter` wrote or found legal, or the front of one."""

    def __init__(self, text):
        self.starts, self.events, self.horizon = {}, [], None
        for number, line in enumerate(text.split('\n'), 1):
            words = line.rstrip('\r').split(' ')
            if words[0] == 'start':
                self.starts[words[1]] = numbers_of(words[2])
            elif words[0] == 'end':
                self.horizon = int(words[1])
            elif words[0].isdigit():
                self.events.append(event_of(number, words))

    def last(self):
        """The last time of which the trace tells something."""
        time = self.horizon or 0
        for event in self.events:
            time = max(time, event.time + (event.kind in ('tick', 'unseen')))
        return time


class Talk(Trace):
    """Both sides of a talk with a robot: where plants were observed, the events, who was observed outside, and which
    lines were not taken.

    It has to be one that `soter_guard` answered. Each side's lines stand in their order; how they lie between those of
    the other side does not count. Of a tick the disturbances are not known. A tick in whose place a line was not taken
    is an event `unseen`. `lost` has the time and the line of each loss of trust, `resumed` the times at which it came
    back, `unheld` the time and the module of each resume that was refused.
    """

    def __init__(self, text):
        self.starts, self.events, self.horizon, self.outside = {}, [], None, None
        self.lost, self.resumed, self.unheld = [], [], []
        self.untaken, self.asides, self.blinds, self.fault = [], [], [], None
        told, lines = [], text.split('\n')
        for number, line in enumerate(lines[:-1] if lines[-1] == '' else lines, 1):
            line = line.rstrip('\r')
            if ANSWERED.fullmatch(line):
                self.take_answer(number, line.split(' ') + [''])
            else:
                told.append((number, line))
        self.hear(told if self.fault is None else told[:self.fault - 1])
        self.events.sort(key=lambda event: (event.time, event.kind in ('tick', 'unseen')))

    def take_answer(self, number, words):
        """A line of the program."""
        if words[0] == 'says':
            return
        if words[0] == 'end':
            self.horizon = int(words[1])
        elif words[:2] == ['fault', 'observed']:
            self.fault = int(words[3])
        elif words[1] in ('input', 'decide', 'fire', 'idle'):
            self.events.append(event_of(number, words[:-1]))
        elif words[1] == 'outside':
            lo, hi = words[6][1:-1].split('..')
            self.outside = self.outside or Outside(int(words[0]), words[3], words[5], int(lo), int(hi), int(words[8]))
            self.end_trust(int(words[0]), ' '.join(words[:-1]))
        elif words[1] == 'resumed':
            self.resumed.append(int(words[0]))
        elif words[1:3] == ['refused', 'resume']:
            self.unheld.append((int(words[0]), words[4]))
        elif words[1] in ('ignored', 'blind'):
            about = words[2] if words[1] == 'ignored' else ''
            self.untaken.append(Untaken(int(words[0]), words[1], about, words[-2]))
            if words[1] == 'blind':
                self.end_trust(int(words[0]), ' '.join(words[:-1]))

    def end_trust(self, time, line):
        """From then on the models are not trusted, up to a line `resumed`; the first such line counts."""
        if len(self.lost) == len(self.resumed):
            self.lost.append((time, line))

    def is_trusted(self, time):
        """Whether the models are trusted at a time, in the instant once it was gone through."""
        return sum(at <= time for at, _ in self.lost) == sum(at <= time for at in self.resumed)

    def count(self, kind):
        """How many lines were answered so, by the time."""
        return collections.Counter(one.time for one in self.untaken if one.kind == kind)

    def hear(self, told):
        """Goes over the robot's lines, which tell by turns what comes in an instant and where plants are after it."""
        blind, ignored, time, turn = self.count('blind'), self.count('ignored'), 0, 'start'
        for place, (number, line) in enumerate(told):
            plant = line[len('start '):].partition('(')[0]
            if turn == 'start' and line.startswith('start ') and TOLD.fullmatch(line) and plant not in self.starts:
                self.starts.update(places_of(line.split(' ')[1:]))
                continue
            turn = 'instant' if turn == 'start' else turn
            if line.startswith(ASIDES):
                if not TOLD.fullmatch(line) and not ignored[time]:
                    raise NotRead(not_talked(line, number))
                self.asides.append(Said(time, number, line))
            elif turn == 'instant' and line == 'go':
                turn = 'tick'
            elif turn == 'tick' and is_tick(line) and (not blind[time + 1] or blind[time + 1] <= stray(told[place + 1:])):
                states = {plant: (None, point) for plant, point in places_of(line.split(' ')[1:]).items()}
                self.events.append(Event(number, time, 'tick', '', [], states))
                time, turn = time + 1, 'instant'
            else:
                if turn == 'tick':
                    self.events.append(Event(number, time, 'unseen', '', [], None))
                    time, turn = time + 1, 'tick' if line == 'go' else 'instant'
                if not blind[time]:
                    raise NotRead(not_talked(line, number))
                blind[time] -= 1
                self.blinds.append(Said(time, number, line))


def is_tick(line):
    return line.startswith('tick') and TOLD.fullmatch(line)


def stray(told):
    """How many lines up to the next `go` may not stand in an instant."""
    lines = [line for _, line in told]
    instant = lines[:lines.index('go')] if 'go' in lines else lines
    return sum(not line.startswith(ASIDES) for line in instant)


def not_talked(line, number):
    """Why a line is none of a talk."""
    who = re.match(r'(you|it|robot|guard|[<>]+):?[ \t]+', line)
    rest = who and line[who.end():]
    known = rest is not None and (TOLD.fullmatch(rest) or ANSWERED.fullmatch(rest))
    if not known and TOLD.fullmatch(line):
        return f'line {number} behind %observed stands out of turn, and no line `blind` answers it'
    more = f': take `{who[1]}` off the front of the lines' if known else ''
    return f'line {number} behind %observed is no line of a talk, neither of the robot nor of soter_guard{more}'


def places_of(words):
    """`PLANT(X,..)` of each word."""
    return {plant: numbers_of(states.rstrip(')')) for plant, _, states in (word.partition('(') for word in words)}


def numbers_of(text):
    return [int(number) for number in text.split(',')] if text else []


def event_of(number, words):
    """One event. `writes` are (scalar, mark, number) of a firing; `numbers` the value of an input, or (disturbances, states) by plant of a tick."""
    time, kind, name, writes, numbers = int(words[0]), words[1], words[2] if len(words) > 2 else '', [], None
    if kind == 'input':
        name, _, value = name.partition('=')
        numbers = numbers_of(value)
    elif kind in ('fire', 'idle'):
        for word in words[3:]:
            mark = '!' if '!' in word else '='
            scalar, _, value = word.partition(mark)
            writes.append((scalar, mark, int(value)))
    elif kind == 'decide':
        numbers = words[3]
    elif kind == 'tick':
        name, numbers = '', {}
        for word in words[2:]:
            head, _, states = word.partition('=')
            plant, _, noise = head.rstrip(')').partition('(')
            numbers[plant] = (numbers_of(noise), numbers_of(states))
    return Event(number, time, kind, name, writes, numbers)
