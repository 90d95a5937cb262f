"""What a program means: values of expressions, executions of bodies, and least intervals of both.

It serves `scripts/observed.py` and the scripts over it, and is written from docs/LANGUAGE.md and docs/SEMANTICS.md
alone, so that what a built program says can be held beside it. It reads programs that `soter` accepts, and tells no
fault. All numbers are mantissas.
"""
import missiontext
from missiontext import NotRead, constant_of, fields_of, names_of, scalar_name, scalar_of, scale_of, timing_of

LEAST, MOST = -2 ** 63, 2 ** 63 - 1
COMPARISONS = ('<', '<=', '>', '>=', '==', '!=')


class Trap(Exception):
    """No value: a result of more than 64 bits, a divisor of 0, or a number outside its target's range; or one that may be so."""


def whole(number):
    if not LEAST <= number <= MOST:
        raise Trap('Wide')
    return number


# --- values and intervals of operators ------------------------------------------------------------------------------

def quotient(a, b):
    if b == 0:
        raise Trap('ZeroDivisor')
    return whole(a // b)


def rescaled(a, shift):
    """With so many decimals more, or fewer."""
    return whole(a * 10 ** shift) if shift >= 0 else a // 10 ** -shift


VALUES = {
    '+': lambda a, b: whole(a + b), '-': lambda a, b: whole(a - b), '*': lambda a, b: whole(a * b), '/': quotient,
    'negate': lambda a: whole(-a), 'abs': lambda a: whole(abs(a)), 'min': min, 'max': max,
    'clamp': lambda a, lo, hi: max(lo, min(a, hi)),
    '<': lambda a, b: int(a < b), '<=': lambda a, b: int(a <= b), '>': lambda a, b: int(a > b),
    '>=': lambda a, b: int(a >= b), '==': lambda a, b: int(a == b), '!=': lambda a, b: int(a != b),
    'and': lambda a, b: int(a != 0 and b != 0), 'or': lambda a, b: int(a != 0 or b != 0), 'not': lambda a: int(a == 0),
}


def hull(numbers):
    return whole(min(numbers)), whole(max(numbers))


def by_ends(op):
    """The interval of an operator that is monotone in each operand: its least and greatest value are at ends."""
    def bounds(*sides):
        rows = [()]
        for side in sides:
            rows = [row + (end,) for row in rows for end in side]
        return hull([op(*row) for row in rows])
    return bounds


def quotients(a, b):
    if b[0] <= 0 <= b[1]:
        raise Trap('ZeroDivisor')
    return by_ends(lambda x, y: x // y)(a, b)


def magnitudes(a):
    ends = [abs(end) for end in a]
    return whole(0 if a[0] <= 0 <= a[1] else min(ends)), whole(max(ends))


def rests(a, count):
    """All rests, where two numbers of the side have other quotients; else those from the one end to the other."""
    if a[0] // count != a[1] // count:
        return 0, count - 1
    return a[0] % count, a[1] % count


def either(always, never):
    """A truth value that is known, or may be both."""
    return (1, 1) if always else (0, 0) if never else (0, 1)


def equals(a, b):
    return either(a[0] == a[1] == b[0] == b[1], a[1] < b[0] or b[1] < a[0])


def opposite(side):
    return 1 - side[1], 1 - side[0]


def truth(side):
    return either(not side[0] <= 0 <= side[1], side == (0, 0))


def less(a, b):
    return either(a[1] < b[0], a[0] >= b[1])


BOUNDS = {
    '+': lambda a, b: hull((a[0] + b[0], a[1] + b[1])), '-': lambda a, b: hull((a[0] - b[1], a[1] - b[0])),
    '*': by_ends(lambda a, b: a * b), '/': quotients,
    'negate': lambda a: hull((-a[1], -a[0])), 'abs': magnitudes, 'min': by_ends(min), 'max': by_ends(max),
    'clamp': by_ends(lambda a, lo, hi: max(lo, min(a, hi))),
    '<': less, '>': lambda a, b: less(b, a), '<=': lambda a, b: opposite(less(b, a)), '>=': lambda a, b: opposite(less(a, b)),
    '==': equals, '!=': lambda a, b: opposite(equals(a, b)),
    'and': lambda a, b: (truth(a)[0] & truth(b)[0], truth(a)[1] & truth(b)[1]),
    'or': lambda a, b: (truth(a)[0] | truth(b)[0], truth(a)[1] | truth(b)[1]), 'not': lambda a: opposite(truth(a)),
}


class Term:
    """An expression: its decimals, its value where names have these numbers, and its interval where they have these sides."""

    def __init__(self, scale, value, bounds):
        self.scale, self.value, self.bounds = scale, value, bounds


def literal(number, scale):
    return Term(scale, lambda names: number, lambda sides: (number, number))


def named(name, scale):
    return Term(scale, lambda names: names[name], lambda sides: sides[name])


def applied(op, scale, parts, values=None, bounds=None):
    """An operator over parts, which are taken from the left to the right."""
    value_of, bounds_of = values or VALUES[op], bounds or BOUNDS[op]
    return Term(scale, lambda names: value_of(*[part.value(names) for part in parts]),
                lambda sides: bounds_of(*[part.bounds(sides) for part in parts]))


def chosen(condition, first, second):
    """An `if` expression: one branch where the condition is decided, and else the hull of both."""
    def bounds(sides):
        side = truth(condition.bounds(sides))
        if side == (0, 1):
            a, b = first.bounds(sides), second.bounds(sides)
            return min(a[0], b[0]), max(a[1], b[1])
        return (first if side == (1, 1) else second).bounds(sides)
    return Term(first.scale, lambda names: (first if condition.value(names) else second).value(names), bounds)


# --- expressions as they are spelled --------------------------------------------------------------------------------

class Spelled:
    """Reads expressions, where names have these decimals."""

    def __init__(self, tokens, scales):
        self.tokens, self.scales = tokens, scales

    def term(self):
        if self.tokens.take('if'):
            condition = self.term()
            self.tokens.want('then')
            first = self.term()
            self.tokens.want('else')
            return chosen(condition, first, self.term())
        return self.joined('or', lambda: self.joined('and', self.denied))

    def joined(self, word, part):
        found = part()
        while self.tokens.take(word):
            found = applied(word, 0, [found, part()])
        return found

    def denied(self):
        if self.tokens.take('not'):
            return applied('not', 0, [self.denied()])
        found = self.sum()
        if self.tokens.now in COMPARISONS:
            return applied(self.tokens.next(), 0, [found, self.sum()])
        return found

    def sum(self):
        found = self.product()
        while self.tokens.now in ('+', '-'):
            found = applied(self.tokens.next(), found.scale, [found, self.product()])
        return found

    def product(self):
        found = self.unary()
        while self.tokens.now in ('*', '/', '%'):
            op = self.tokens.next()
            if op == '%':
                count = self.tokens.number()[0]
                found = applied(op, found.scale, [found], lambda a, k=count: a % k, lambda a, k=count: rests(a, k))
                continue
            part = self.unary()
            found = applied(op, found.scale + part.scale if op == '*' else found.scale - part.scale, [found, part])
        return found

    def unary(self):
        if self.tokens.take('-'):
            part = self.unary()
            return applied('negate', part.scale, [part])
        return self.atom()

    def atom(self):
        word = self.tokens.now
        if word[:1].isdigit():
            return literal(*self.tokens.number())
        if word in ('true', 'false'):
            return literal(int(self.tokens.next() == 'true'), 0)
        if self.tokens.take('('):
            found = self.term()
            self.tokens.want(')')
            return found
        if word in ('min', 'max', 'abs', 'clamp', 'rescale'):
            return self.call()
        name = dotted(self.tokens)
        if name not in self.scales:
            raise NotRead(f'{name} is not known, at line {self.tokens.line}')
        return named(name, self.scales[name])

    def call(self):
        op = self.tokens.next()
        self.tokens.want('(')
        parts = [self.term()]
        if op == 'rescale':
            self.tokens.want(',')
            scale = self.tokens.number()[0]
            shift = scale - parts[0].scale
            found = applied(op, scale, parts, lambda a: rescaled(a, shift), lambda a: (rescaled(a[0], shift), rescaled(a[1], shift)))
        else:
            while self.tokens.take(','):
                parts.append(self.term())
            found = applied(op, parts[0].scale, parts)
        self.tokens.want(')')
        return found


def dotted(tokens):
    """A name, or a name with its field."""
    name = tokens.name()
    return f'{name}.{tokens.name()}' if tokens.take('.') else name


# --- bodies ---------------------------------------------------------------------------------------------------------

class Body:
    """The statements of a coded node."""

    def __init__(self, tokens, scales):
        self.tokens, self.spelled = tokens, Spelled(tokens, scales)
        self.statements = self.block()

    def block(self):
        self.tokens.want('{')
        found = []
        while not self.tokens.take('}'):
            found.append(self.statement())
        return found

    def statement(self):
        if self.tokens.take('if'):
            condition, first = self.spelled.term(), self.block()
            return 'if', condition, first, self.block() if self.tokens.take('else') else []
        if self.tokens.take('repeat'):
            return 'repeat', self.tokens.number()[0], self.block()
        kind, sign = ('publish', '=') if self.tokens.take('publish') else ('set', ':=')
        name = dotted(self.tokens)
        self.tokens.want(sign)
        term = self.spelled.term()
        self.tokens.want(';')
        return kind, name, term

    def run(self, names, ranges):
        """The numbers of names afterwards, and the draft by scalars; where no trap is met. Targets have these ranges."""
        names, draft = dict(names), {}
        self.go(self.statements, names, draft, ranges)
        return names, draft

    def go(self, block, names, draft, ranges):
        for kind, *said in block:
            if kind == 'if':
                condition, first, second = said
                self.go(first if condition.value(names) else second, names, draft, ranges)
            elif kind == 'repeat':
                for _ in range(said[0]):
                    self.go(said[1], names, draft, ranges)
            else:
                name, term = said
                number = term.value(names)
                if not ranges[name].lo <= number <= ranges[name].hi:
                    raise Trap('OutsideRange')
                (names if kind == 'set' else draft)[name] = number


# --- programs with their bodies and formulas ------------------------------------------------------------------------

class Mover:
    """A plant: what `missiontext` reads of it, what it sees, and its next state."""

    def __init__(self, name, states, scales, inputs, sees, noise, bounds, following):
        self.name, self.states, self.scales, self.inputs, self.sees = name, states, scales, inputs, sees
        self.noise, self.bounds, self.following = noise, bounds, following

    def next_point(self, names):
        return [term.value(names) for term in self.following]

    def next_box(self, sides):
        return [term.bounds(sides) for term in self.following]


class Fired:
    """A node: when it fires, what it reads and writes as scalars, its locals, and its body, which an external one has not."""

    def __init__(self, name, period, offset, reads, writes, local_ranges, first, body):
        self.name, self.period, self.offset, self.reads, self.writes = name, period, offset, reads, writes
        self.local_ranges, self.first, self.body = local_ranges, first, body


class Meaning:
    """A program with all that it means, each thing in declared order."""

    def __init__(self, text):
        self.declared = missiontext.Program(text)
        self.ranges = self.declared.scalars()
        self.of_topic = {topic.name: [scalar_name(topic, field) for field in topic.fields] for topic in self.declared.topics.values()}
        self.initial = {name: number for topic in self.declared.topics.values() for name, number in zip(self.of_topic[topic.name], topic.initial)}
        self.modules = list(self.declared.modules.values())
        self.plants, self.nodes = [], []
        tokens = missiontext.Tokens(text)
        while tokens.now:
            kind = tokens.next()
            if kind == 'plant':
                self.plants.append(self.plant(tokens))
            elif kind in ('node', 'external'):
                self.nodes.append(self.node(tokens))
            else:
                missiontext.skipped(tokens, '}' if kind == 'module' else ';')

    def scales_of(self, names):
        """The decimals of what a list of topics and plants names."""
        found = {}
        for name in names:
            if name in self.of_topic:
                found.update((scalar, self.ranges[scalar].scale) for scalar in self.of_topic[name])
            else:
                plant = self.declared.plants[name]
                found.update((f'{name}.{state}', scale) for state, scale in zip(plant.states, plant.scales))
        return found

    def plant(self, tokens):
        name = tokens.name()
        known = self.declared.plants[name]
        tokens.want('{')
        missiontext.skipped(tokens, ';')
        inputs = names_of(tokens) if tokens.take('input') else []
        sees = names_of(tokens) if tokens.take('sees') else []
        if tokens.take('noise'):
            fields_of(tokens)
            tokens.want(';')
        scales = {**self.scales_of(inputs + sees), **dict(zip(known.states, known.scales)),
                  **{noise: bound.scale for noise, bound in zip(known.noise, known.bounds)}}
        following = []
        while tokens.take('next'):
            tokens.name()
            tokens.want('=')
            following.append(Spelled(tokens, scales).term())
            tokens.want(';')
        tokens.want('}')
        held = [scalar for topic in inputs for scalar in self.of_topic[topic]]
        return Mover(name, known.states, known.scales, held, sees, known.noise, known.bounds, following)

    def node(self, tokens):
        name = tokens.name()
        period, offset = timing_of(tokens)
        tokens.want('{')
        reads = names_of(tokens) if tokens.take('reads') else []
        writes = [scalar for topic in (names_of(tokens) if tokens.take('writes') else []) for scalar in self.of_topic[topic]]
        ranges, first = {}, {}
        while tokens.take('local'):
            local = tokens.name()
            tokens.want(':')
            ranges[local] = scalar_of(tokens)
            tokens.want('=')
            first[local] = constant_of(tokens)
            tokens.want(';')
        scales = {**self.scales_of(reads), **{local: scalar.scale for local, scalar in ranges.items()}}
        body = Body(tokens, scales) if tokens.take('do') else None
        tokens.want('}')
        return Fired(name, period, offset, list(self.scales_of(reads)), writes, ranges, first, body)


def covers(boxes, box):
    """Whether each point of the box is in one of the boxes: what one leaves of it, the others have to cover."""
    for place, other in enumerate(boxes):
        if any(lo > high or hi < low for (lo, hi), (low, high) in zip(box, other)):
            continue
        rest = list(box)
        for axis, (low, high) in enumerate(other):
            lo, hi = rest[axis]
            for side in ((lo, low - 1), (high + 1, hi)):
                if side[0] <= side[1] and not covers(boxes[place + 1:], rest[:axis] + [side] + rest[axis + 1:]):
                    return False
            rest[axis] = max(lo, low), min(hi, high)
        return True
    return False
