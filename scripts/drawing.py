"""SVG by hand: axes that map whole numbers to pixels, and the elements that pictures are made of.

Coordinates are pixels with two decimals. What an element shows exactly stands in its `data-` attributes, as mantissas.
"""
from xml.sax.saxutils import escape, quoteattr

from missiontext import decimal

STYLE = '''
text{font:11px sans-serif;fill:#222}
.head{font-weight:bold;font-size:13px}
.small{font-size:10px;fill:#555}
.paper{fill:#fff}
.frame{fill:none;stroke:#999}
.grid{stroke:#ddd}
.safe{fill:#d4e4f7}
.safer{fill:#b5dfb8}
.bound{fill:#eee}
.closed{fill:none;stroke:#6b7f99;stroke-width:.8}
.reach{fill:none;stroke:#2e7d32;stroke-width:1;stroke-dasharray:4 2}
.faint{stroke-opacity:.3}
.path{fill:none;stroke:#14418b;stroke-width:1.5;stroke-linejoin:round}
.start{fill:#14418b}
.noise{fill:none;stroke:#7a3e9d}
.ac{fill:#e69f00}
.sc{fill:#56a0d3}
.fire{stroke:#222;stroke-width:1.5}
.idle{stroke:#bbb;stroke-width:1.5}
.refused{stroke:#c00;stroke-width:1.5}
.ignored{stroke:#b36b00;stroke-width:1.5}
.blind{stroke:#c00;stroke-width:2.5}
.lost{stroke:#c00;stroke-dasharray:4 3}
.badbox{fill:#d00;fill-opacity:.12;stroke:#d00;stroke-dasharray:2 2}
.badcell{fill:none;stroke:#d00;stroke-width:2}
.badpoint{fill:#d00}
.bad{fill:#b00}
'''
DARK = '''
@media (prefers-color-scheme:dark){
text{fill:#ddd}
.small{fill:#aaa}
.paper{fill:#14171a}
.frame{stroke:#777}
.grid{stroke:#333}
.safe{fill:#1d3552}
.safer{fill:#1f5130}
.bound{fill:#26292d}
.closed{stroke:#8ea3bf}
.reach{stroke:#7fcf86}
.path{stroke:#9cc4ff}
.start{fill:#9cc4ff}
.noise{stroke:#c99be6}
.ac{fill:#c98a00}
.sc{fill:#3d7fb0}
.fire{stroke:#eee}
.idle{stroke:#666}
.refused{stroke:#ff6b6b}
.ignored{stroke:#f0b050}
.blind{stroke:#ff6b6b}
.lost{stroke:#ff6b6b}
.badbox{fill:#ff6b6b;stroke:#ff6b6b}
.badcell{stroke:#ff6b6b}
.badpoint{fill:#ff6b6b}
.bad{fill:#ff8a8a}
}
'''

# of a talk in which trust came back alone: one colour on light and dark paper
RESUMED = '.resumed{stroke:#2a9d2a;stroke-dasharray:4 3}\n'


def pixels(number):
    return f'{number:.2f}'


class Axis:
    """Whole numbers from lo to hi on pixels from one end to the other.

    Each number has a width of its own where `cells` says so, half to each side of its point; else the ends are points.
    """

    def __init__(self, lo, hi, begin, end, scale=0, cells=True):
        self.lo, self.hi, self.begin, self.end, self.scale, self.half = lo, hi, begin, end, scale, 0.5 if cells else 0
        self.width = max(hi - lo + 2 * self.half, 1)

    def at(self, number):
        """The pixel of a number, within the axis."""
        number = min(max(number, self.lo - self.half), self.hi + self.half)
        return self.begin + (number - self.lo + self.half) * (self.end - self.begin) / self.width

    def edge(self, number):
        """The pixel of the edge below a number, within the axis."""
        return self.at(number - self.half)

    def side(self, lo, hi):
        """Where a range begins and how long it is, at least a pixel."""
        ends = sorted((self.at(lo - self.half), self.at(hi + self.half)))
        return ends[0], max(ends[1] - ends[0], 1)

    def marks(self, most):
        """At most so many round numbers on the axis, at least one."""
        step = 1
        while (self.hi - self.lo) // step + 1 > most:
            step = next_step(step)
        first = -(-self.lo // step) * step
        return range(first, self.hi + 1, step) if first <= self.hi else [self.lo]

    def data(self, name):
        """The axis as attributes."""
        return {f'data-{name}-lo': self.lo, f'data-{name}-hi': self.hi, f'data-{name}-scale': self.scale,
                f'data-{name}-from': pixels(self.begin), f'data-{name}-to': pixels(self.end)}

    def words(self, number):
        return decimal(number, self.scale)


def next_step(step):
    """1, 2, 5, 10, 20, 50 and so on."""
    return step * 5 // 2 if str(step)[0] == '2' else step * 2


def outline(boxes):
    """The edges of all that boxes of two sides hold, in whole numbers: level ones as (y, x, x), upright ones as (x, y, y). A side lo..hi goes from lo to hi + 1."""
    cuts = sorted({lo for (lo, _), _ in boxes} | {hi + 1 for (_, hi), _ in boxes})
    level, upright, before, open_at = [], [], [], {}
    for begin, end in zip(cuts, cuts[1:] + [None]):
        here = merged([(lo, hi + 1) for (left, right), (lo, hi) in boxes if end is not None and left <= begin and end <= right + 1])
        upright += [(begin, lo, hi) for lo, hi in differing(before, here)]
        edges = {edge for side in here for edge in side}
        for edge in list(open_at):
            if edge not in edges:
                level.append((edge, open_at.pop(edge), begin))
        for edge in edges:
            open_at.setdefault(edge, begin)
        before = here
    return level, upright


def merged(sides):
    """Half-open ranges as the fewest that hold the same numbers."""
    found = []
    for lo, hi in sorted(sides):
        if found and lo <= found[-1][1]:
            found[-1] = (found[-1][0], max(found[-1][1], hi))
        else:
            found.append((lo, hi))
    return found


def differing(one, other):
    """Where one list of ranges has numbers that the other has not."""
    ends = sorted({end for side in one + other for end in side})
    inside = lambda sides, at: any(lo <= at < hi for lo, hi in sides)
    return merged([(lo, hi) for lo, hi in zip(ends, ends[1:]) if inside(one, lo) != inside(other, lo)])


class Sheet:
    """The elements of a picture, from the first to the last."""

    def __init__(self):
        self.parts = []

    def open(self, name, **attributes):
        self.parts.append(f'<{name}{attributes_of(attributes)}>')

    def close(self, name):
        self.parts.append(f'</{name}>')

    def put(self, name, title='', **attributes):
        """One element, with a title that shows where a pointer rests on it."""
        inside = f'<title>{escape(title)}</title>' if title else ''
        self.parts.append(f'<{name}{attributes_of(attributes)}' + (f'>{inside}</{name}>' if inside else '/>'))

    def text(self, x, y, said, style='', anchor='start'):
        anchor = '' if anchor == 'start' else anchor
        self.parts.append(f'<text{attributes_of({"x": x, "y": y, "class": style, "text-anchor": anchor})}>{escape(said)}</text>')

    def whole(self, width, height, title, description):
        style = STYLE + DARK + (RESUMED if any('class="resumed"' in part for part in self.parts) else '')
        head = (f'<svg xmlns="http://www.w3.org/2000/svg" width="{width}" height="{height}" viewBox="0 0 {width} {height}" role="img">\n'
                f'<title>{escape(title)}</title>\n<desc>{escape(description)}</desc>\n<style>{style}</style>\n'
                f'<rect class="paper" x="0" y="0" width="{width}" height="{height}"/>\n')
        return head + '\n'.join(self.parts) + '\n</svg>\n'


def attributes_of(attributes):
    """Attributes as text. Pixels get two decimals; an underscore stands for a dash, and empty ones are left out."""
    said = ''
    for name, value in attributes.items():
        if value != '':
            said += f' {name.rstrip("_").replace("_", "-")}={quoteattr(pixels(value) if isinstance(value, float) else str(value))}'
    return said
