"""Formulas over flights: where the text of one is at fault, and which part of one fails at a moment.

It serves hints, and is written from docs/LANGUAGE.md, Formulas, alone. It is tested and not proved.
"""
import collections
import difflib
import re

import missiontext
from missiontext import decimal, scalar_name
from wording import decimals, listing

COMPARISONS = {'<': lambda a, b: a < b, '<=': lambda a, b: a <= b, '>': lambda a, b: a > b, '>=': lambda a, b: a >= b,
               '==': lambda a, b: a == b, '!=': lambda a, b: a != b}
# how many parts a word joins at least and at most
PARTS = {'not': (1, 1), 'and': (2, 64), 'or': (2, 64), 'implies': (2, 2), 'once': (1, 1), 'always': (1, 1), 'since': (2, 2), 'within': (2, 2)}
ELSEWHERE = {
    'globally': 'a formula is asked at each moment, so write what is to hold alone, without `globally`',
    'historically': 'for "at all moments so far" write `always(f)`',
    'eventually': 'a formula looks back: write `once(f)` for what has held at some moment before, or `within(n, f)`',
    'next': 'a formula looks back and not ahead: write `within(1, f)`',
    'until': 'a formula looks back: write `since(f, g)`',
    'abs': 'there is no arithmetic in a formula: write `and(x >= -1, x <= 1)` for `abs(x) <= 1`',
}
TOKEN = re.compile(r'[ \t\r\n]+|#[^\n]*|([A-Za-z_][A-Za-z0-9_]*|[0-9]+(?:\.[0-9]+)?|:=|\.\.|[<>=!]=|.)', re.S)

# kind: true, false, a word of PARTS or compare; parts: formulas; ref, sign, number, scale of a comparison; count of a within;
# pair: the sign and the name of a second quantity on the left; other: the name on the right, where no number stands there
Formula = collections.namedtuple('Formula', 'kind at end parts ref sign number scale count pair other', defaults=(None, None))


def taken(word):
    """How many parts a word takes."""
    least, most = PARTS[word]
    return f'{least} part{"s" * (least > 1)}' if least == most else f'{least} to {most} parts'


class BadFormula(Exception):
    """Where a text is no formula, from 0, and why."""

    def __init__(self, at, why):
        super().__init__(why)
        self.at = at


class Reader:
    """Reads one formula."""

    def __init__(self, text):
        self.tokens = [(piece[1], piece.start()) for piece in TOKEN.finditer(text) if piece[1]]
        self.text, self.place = text, 0

    @property
    def now(self):
        return self.tokens[self.place][0] if self.place < len(self.tokens) else ''

    @property
    def at(self):
        return self.tokens[self.place][1] if self.place < len(self.tokens) else len(self.text)

    def fail(self, why):
        raise BadFormula(self.at, why)

    def next(self):
        found = self.now
        self.place += 1
        return found

    def whole(self):
        found = self.formula()
        if self.now in ('and', 'or'):
            self.fail(f'`{self.now}` stands in front of its two parts: write `{self.now}({self.text[:self.at].strip()}, ..)`')
        if self.now:
            self.fail(f'the formula ends before `{self.now}`' + (': `&&` is written `and(f, g)`' if self.now == '&' else ': `||` is written `or(f, g)`' if self.now == '|' else ''))
        return found

    def formula(self):
        at, word = self.at, self.now
        if word in ('true', 'false'):
            self.next()
            return Formula(word, at, self.at, (), None, None, None, None, None)
        if word in ('not', 'and', 'or') or (word in PARTS and self.follows('(')):
            return self.applied(at, word)
        if word == '!':
            self.fail('`!f` is written `not(f)`')
        if word in ELSEWHERE and self.follows('('):
            self.fail(ELSEWHERE[word])
        if re.match(r'[A-Za-z_]', word):
            return self.comparison(at)
        if word == '(':
            self.fail(f'parentheses stand behind {listing(f"`{word}`" for word in PARTS)} alone')
        self.fail('a formula is wanted here' + (f', and not `{word}`: a name stands on the left of a comparison, a number on the right' if word else ''))

    def follows(self, sign):
        return self.place + 1 < len(self.tokens) and self.tokens[self.place + 1][0] == sign

    def applied(self, at, word):
        self.next()
        if self.now != '(':
            self.fail(f'behind `{word}` stands `(`')
        self.next()
        count, parts = None, []
        if word == 'within':
            count = self.whole_number()
            self.comma(word, 1)
            parts = [self.formula()]
        else:
            least, most = PARTS[word]
            while len(parts) < least or (len(parts) < most and self.now == ','):
                if parts:
                    self.comma(word, len(parts))
                parts.append(self.formula())
        self.close(word)
        return Formula(word, at, self.at, tuple(parts), None, None, None, None, count)

    def comma(self, word, place):
        if self.now == ',':
            self.next()
            return
        if self.now == ')':
            self.fail(f'`{word}` takes {taken(word)}, and here are {place}')
        self.infix()
        self.fail(f'a comma is missing between the parts of `{word}`')

    def infix(self):
        if self.now in ('and', 'or', '&', '|'):
            self.fail(f'`{"and" if self.now in ("and", "&") else "or"}` stands in front of its two parts, as `and(f, g)`')

    def close(self, word):
        if self.now == ')':
            self.next()
            return
        if self.now == ',':
            self.fail(f'`{word}` takes {taken(word)}' + (f': write `{word}({word}(..), ..)`' if word in ('and', 'or') else ''))
        self.infix()
        self.fail(f'`)` is missing behind the last part of `{word}`')

    def whole_number(self):
        if not self.now.isdigit():
            self.fail('behind `within(` stands a whole number of ticks')
        if int(self.now) > 100000:
            self.fail('within looks back over at most 100000 ticks')
        return int(self.next())

    def comparison(self, at):
        return self.compared(at, self.reference(at))

    def reference(self, at):
        name = self.next()
        if name == 'mode' and self.now == '(':
            self.next()
            module = self.next()
            if self.now != ')':
                self.fail('`mode` names one module, as `mode(nav)`')
            self.next()
            name = f'mode({module})'
        elif self.now == '.':
            self.next()
            if not re.match(r'[A-Za-z_]', self.now):
                self.fail('behind the point stands the name of a field or a state variable')
            name += '.' + self.next()
        elif self.now == '(':
            raise BadFormula(at, f'there is no `{name}(..)`: a formula has {", ".join(PARTS)} and mode')
        return name

    def pair(self):
        """The second quantity of a sum or a difference."""
        sign, at = self.next(), self.at
        if not re.match(r'[A-Za-z_]', self.now):
            self.fail(f'behind `{sign}` stands a name')
        return sign, self.reference(at)

    def compared(self, at, name):
        pair = self.pair() if self.now in ('+', '-') else None
        sign = self.now
        if sign == '=':
            self.fail('`=` is written `==`')
        if sign in ('+', '-', '*', '/', '%'):
            self.fail('on the left stands one name, or a sum or a difference of two')
        if sign not in COMPARISONS:
            self.fail(f'a comparison is missing behind `{name}`: of a truth value write `{name} == 1`')
        self.next()
        negative = self.now == '-'
        if negative:
            self.next()
        literal = self.now
        if literal in ('true', 'false'):
            self.fail(f'a truth value is compared with 1 or 0: write `{name} {sign} {int(literal == "true")}`')
        if re.match(r'[A-Za-z_]', literal) and not pair and not negative:
            other = self.reference(self.at)
            return Formula('compare', at, self.at, (), name, sign, None, None, None, None, other)
        if not literal[:1].isdigit():
            self.fail(f'on the right of `{sign}` stands a number' + (f', and not `{literal}`' if re.match(r'[A-Za-z_]', literal) else ''))
        self.next()
        number = int(literal.replace('.', '')) * (-1 if negative else 1)
        return Formula('compare', at, self.at, (), name, sign, number, len(literal.partition('.')[2]), None, pair)


def formula_of(text):
    """The formula that a text says; BadFormula where it says none."""
    return Reader(text).whole()


def comparisons(formula):
    if formula.kind == 'compare':
        yield formula
    for part in formula.parts:
        yield from comparisons(part)


def names_of(formula):
    """What a comparison names."""
    return [name for name in (formula.ref, formula.pair and formula.pair[1], formula.other) if name]


# --- names ----------------------------------------------------------------------------------------------------------

def scales_of(program):
    """What a formula may name, with its decimals."""
    found = {name: scalar.scale for name, scalar in program.scalars().items()}
    for plant in program.plants.values():
        found.update((f'{plant.name}.{state}', scale) for state, scale in zip(plant.states, plant.scales))
    found.update((f'mode({module})', 0) for module in program.modules)
    return found


def unknown_words(name, program):
    """Why a name is none that a formula may use, and which one may be meant."""
    known = scales_of(program)
    if name in program.topics:
        fields = [scalar_name(program.topics[name], field) for field in program.topics[name].fields]
        return f'`{name}` is a record: name one field of it, {listing(fields)}'
    if name in program.plants:
        return f'`{name}` is a plant: name a state variable of it, {listing(f"{name}.{state}" for state in program.plants[name].states)}'
    last = name.split('.')[-1]
    same = [full for full in known if full.split('.')[-1] == last]
    close = same or difflib.get_close_matches(name, known, 2, 0.6)
    if name.startswith('mode('):
        return f'there is no module `{name[5:-1]}`; the modules: {listing(program.modules)}'
    return f'the program has no `{name}`' + (f'; it has {listing(close)}' if close else f'; it has {listing(known)}')


# --- what holds -----------------------------------------------------------------------------------------------------

def moments_of(program, trace):
    """The number of each name at each moment of a flight: just before each tick, and at its end."""
    now = {scalar_name(topic, field): number for topic in program.topics.values() for field, number in zip(topic.fields, topic.initial)}
    now.update((f'mode({module})', 0) for module in program.modules)
    for plant, numbers in trace.starts.items():
        now.update(states_of(program, plant, numbers))
    found = []
    for event in trace.events:
        if event.kind == 'tick':
            found.append(dict(now))
            for plant, (_, numbers) in event.numbers.items():
                now.update(states_of(program, plant, numbers))
        elif event.kind == 'input':
            topic = program.topics[event.name]
            now.update((scalar_name(topic, field), number) for field, number in zip(topic.fields, event.numbers))
        elif event.kind == 'decide':
            now[f'mode({event.name})'] = int(event.numbers == 'ac')
        elif event.kind == 'fire':
            now.update((name, number) for name, mark, number in event.writes if mark == '=')
    return found + [now]


def states_of(program, plant, numbers):
    return {f'{plant}.{state}': number for state, number in zip(program.plants[plant].states, numbers)}


def held(formula, moments):
    """Whether a formula holds at each moment."""
    parts = [held(part, moments) for part in formula.parts]
    found = []
    for i, now in enumerate(moments):
        found.append(holds_at(formula, parts, found, i, now))
    return found


def holds_at(formula, parts, before, i, now):
    kind = formula.kind
    if kind in ('true', 'false'):
        return kind == 'true'
    if kind == 'compare':
        left = now[formula.ref]
        if formula.pair:
            left += now[formula.pair[1]] * (1 if formula.pair[0] == '+' else -1)
        return COMPARISONS[formula.sign](left, now[formula.other] if formula.other else formula.number)
    if kind == 'not':
        return not parts[0][i]
    if kind == 'and':
        return all(part[i] for part in parts)
    if kind == 'or':
        return any(part[i] for part in parts)
    if kind == 'implies':
        return parts[1][i] or not parts[0][i]
    if kind == 'always':
        return parts[0][i] and (i == 0 or before[i - 1])
    if kind == 'once':
        return parts[0][i] or (i > 0 and before[i - 1])
    if kind == 'since':
        return parts[1][i] or (parts[0][i] and i > 0 and before[i - 1])
    return any(parts[0][max(0, i - formula.count):i + 1])


class Why:
    """Says of a formula that is false, or true inside a `not`, which part of it is to blame at a moment."""

    def __init__(self, text, program, moments):
        self.text, self.scales, self.moments = text, scales_of(program), moments

    def said(self, formula):
        return ' '.join(self.text[formula.at:formula.end].split())

    def value(self, name, i):
        return decimal(self.moments[i][name], self.scales[name])

    def lines(self, formula, i, wanted=True):
        """What a formula has at moment i, where it has not what is wanted."""
        if formula.kind == 'compare':
            return [f'`{self.said(formula)}` {"fails" if wanted else "holds"} at moment {i}: '
                    + ' and '.join(f'`{name}` is {self.value(name, i)}' for name in names_of(formula)) + ' there']
        if formula.kind == 'not':
            return self.lines(formula.parts[0], i, not wanted)
        if formula.kind in ('and', 'or'):
            return [line for part in formula.parts if held(part, self.moments)[i] != wanted for line in self.lines(part, i, wanted)]
        if formula.kind == 'implies':
            premise, conclusion = formula.parts
            if wanted:
                return self.lines(premise, i, False) + self.lines(conclusion, i)
            return self.lines(conclusion, i, False) if held(conclusion, self.moments)[i] else self.lines(premise, i)
        if formula.kind in ('once', 'always', 'within', 'since'):
            return self.past(formula, i, wanted)
        return [f'`{formula.kind}` {"never holds" if formula.kind == "false" else "always holds"}']

    def past(self, formula, i, wanted):
        """A formula that looks back."""
        part = formula.parts[-1]
        times = [at for at, holds in enumerate(held(part, self.moments)[:i + 1]) if holds]
        last = f'it held last at moment {times[-1]}' if times else 'it never held up to there'
        if not wanted:
            return [f'`{self.said(formula)}` holds at moment {i}']
        if formula.kind == 'always':
            first = next(at for at in range(i + 1) if at not in times)
            return self.lines(part, first)
        if formula.kind == 'since' and times:
            first = next(at for at in range(times[-1] + 1, i + 1) if not held(formula.parts[0], self.moments)[at])
            return [f'`{self.said(part)}` held last at moment {times[-1]}, and behind it'] + self.lines(formula.parts[0], first)
        span = f'within the last {formula.count} ticks up to' if formula.kind == 'within' else 'at or before'
        return [f'`{self.said(part)}` does not hold {span} moment {i}: {last}']


def scale_words(formula, program):
    """A comparison of two scales."""
    scales = scales_of(program)
    scale = scales.get(formula.ref)
    for name in names_of(formula)[1:]:
        if scales.get(name) != scale:
            return f'`{formula.ref}` has {decimals(scale)}, and `{name}` has {decimals(scales[name])}' if scale is not None and name in scales else ''
    if scale is None or formula.other or scale == formula.scale:
        return ''
    more = f': write `{decimal(formula.number * 10 ** (scale - formula.scale), scale)}`' if scale > formula.scale else f': write it with {decimals(scale)}'
    return f'`{formula.ref}` has {decimals(scale)}, and the number behind it has {decimals(formula.scale)}' + more
