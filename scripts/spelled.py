"""Expressions and statements of a program as trees, each part with its place in the text and its decimals.

It serves hints and lints. It reads programs that the grammar allows, also such as break a rule of typing, and tells no
fault. Offsets count bytes of the text from 0.
"""
import collections

import missiontext
from missiontext import NotRead

TRUTH = 'truth'
COMPARISONS = ('<', '<=', '>', '>=', '==', '!=')
CALLS = ('min', 'max', 'abs', 'clamp', 'rescale')

# word: the operator, call, name or literal; at: where that stands; begin, end: where the whole stands
Tree = collections.namedtuple('Tree', 'kind word at begin end parts')
# an expression where it stands: its tree, the decimals of the names that it may use, who owns it and what takes its value
Place = collections.namedtuple('Place', 'tree scales owner target target_at')
# a statement: `publish`, `set`, `if` or `repeat`, with its name or its blocks
Statement = collections.namedtuple('Statement', 'kind name at tree blocks')
# a plant or a coded node with its expressions; `reads` are the names of its clauses
Owner = collections.namedtuple('Owner', 'kind name reads writes locals body next')


class Words:
    """The tokens of a text with their offsets."""

    def __init__(self, text):
        self.all = [(piece[1], piece.start()) for piece in missiontext.TOKEN.finditer(text) if piece[1]]
        self.place, self.length = 0, len(text)

    @property
    def now(self):
        return self.all[self.place][0] if self.place < len(self.all) else ''

    @property
    def at(self):
        return self.all[self.place][1] if self.place < len(self.all) else self.length

    @property
    def before(self):
        """Where the token in front ends."""
        word, at = self.all[self.place - 1]
        return at + len(word)

    def next(self):
        found = self.now
        self.place += 1
        return found

    def take(self, word):
        if self.now != word:
            return False
        self.place += 1
        return True

    def want(self, word):
        if not self.take(word):
            raise NotRead(f'{word} does not stand where it should, at byte {self.at}')


# --- expressions ----------------------------------------------------------------------------------------------------

def expression(words):
    begin, at = words.at, words.at
    if words.take('if'):
        condition = expression(words)
        words.want('then')
        first = expression(words)
        words.want('else')
        second = expression(words)
        return Tree('if', 'if', at, begin, words.before, (condition, first, second))
    return chain(words, ('or',), lambda: chain(words, ('and',), lambda: denied(words)))


def chain(words, signs, part):
    """Operators of one level, which group to the left."""
    begin = words.at
    found = part()
    while words.now in signs:
        at, sign = words.at, words.next()
        other = part()
        found = Tree('operator', sign, at, begin, words.before, (found, other))
    return found


def denied(words):
    begin = words.at
    if words.take('not'):
        inner = denied(words)
        return Tree('not', 'not', begin, begin, words.before, (inner,))
    found = added(words)
    if words.now in COMPARISONS:
        at, sign = words.at, words.next()
        other = added(words)
        return Tree('operator', sign, at, begin, words.before, (found, other))
    return found


def added(words):
    return chain(words, ('+', '-'), lambda: chain(words, ('*', '/', '%'), lambda: signed(words)))


def signed(words):
    begin = words.at
    if words.take('-'):
        if words.now[:1].isdigit():
            number = words.next()
            return Tree('number', '-' + number, begin, begin, words.before, ())
        inner = signed(words)
        return Tree('minus', '-', begin, begin, words.before, (inner,))
    return atom(words)


def atom(words):
    begin, word = words.at, words.next()
    if word[:1].isdigit():
        return Tree('number', word, begin, begin, words.before, ())
    if word in ('true', 'false'):
        return Tree('truth', word, begin, begin, words.before, ())
    if word == '(':
        inner = expression(words)
        words.want(')')
        return inner._replace(begin=begin, end=words.before)
    if word in CALLS:
        return call(words, word, begin)
    if not (word[:1].isalpha() or word[:1] == '_'):
        raise NotRead(f'no expression at byte {begin}')
    if words.take('.'):
        word += '.' + words.next()
    return Tree('name', word, begin, begin, words.before, ())


def call(words, word, begin):
    words.want('(')
    parts = [expression(words)]
    while words.take(','):
        parts.append(expression(words))
    words.want(')')
    return Tree('call', word, begin, begin, words.before, tuple(parts))


def parts_of(tree):
    """The tree and all that is inside it."""
    yield tree
    for part in tree.parts:
        yield from parts_of(part)


def names_in(tree):
    """The names of a tree, each as often as it stands there."""
    return [part.word for part in parts_of(tree) if part.kind == 'name']


def decimals_of(tree, scales):
    """The decimals of an expression, TRUTH of a truth value, and None where that is not known."""
    if tree.kind == 'number':
        return len(tree.word.partition('.')[2])
    if tree.kind in ('truth', 'not') or tree.word in COMPARISONS or tree.word in ('and', 'or'):
        return TRUTH
    if tree.kind == 'name':
        return scales.get(tree.word)
    if tree.word == 'rescale':
        count = tree.parts[-1].word
        return int(count) if count.isdigit() else None
    if tree.word in ('*', '/'):
        one, other = (decimals_of(part, scales) for part in tree.parts)
        known = isinstance(one, int) and isinstance(other, int)
        return (one + other if tree.word == '*' else one - other) if known else None
    return decimals_of(tree.parts[1 if tree.kind == 'if' else 0], scales)


# --- declarations ---------------------------------------------------------------------------------------------------

class Reader:
    """The plants and coded nodes of a program, with all their expressions."""

    def __init__(self, text):
        self.text, self.declared = text, missiontext.Program(text)
        self.owners = []
        words = Words(text)
        while words.now:
            kind = words.next()
            if kind == 'plant':
                self.owners.append(self.plant(words))
            elif kind == 'node':
                self.owners.append(self.node(words))
            else:
                passed(words, '}' if kind in ('module', 'external') else ';')

    def said(self, tree):
        """A tree as it stands in the text, on one line."""
        return ' '.join(self.text[tree.begin:tree.end].split())

    def scales_of(self, names):
        """The decimals of all that a list of topics and plants lets an expression name."""
        found = {}
        for name in names:
            topic, plant = self.declared.topics.get(name), self.declared.plants.get(name)
            if topic:
                for field, scalar in zip(topic.fields, topic.scalars):
                    found[missiontext.scalar_name(topic, field)] = TRUTH if scalar.kind == 'bool' else scalar.scale
            elif plant:
                found.update((f'{name}.{state}', scale) for state, scale in zip(plant.states, plant.scales))
        return found

    def plant(self, words):
        name = words.next()
        words.want('{')
        reads, following = [], []
        while words.now in ('state', 'input', 'sees', 'noise'):
            clause = words.next()
            if clause in ('input', 'sees'):
                reads += listed(words)
            else:
                passed(words, ';')
        known = self.declared.plants[name]
        scales = {**self.scales_of(reads), **dict(zip(known.states, known.scales)),
                  **{noise: bound.scale for noise, bound in zip(known.noise, known.bounds)}}
        while words.take('next'):
            at, state = words.at, words.next()
            words.want('=')
            following.append(Place(expression(words), scales, name, state, at))
            words.want(';')
        words.want('}')
        return Owner('plant', name, reads, [], {}, [], following)

    def node(self, words):
        name = words.next()
        while not words.take('{'):
            words.next()
        lists, inside = {'reads': [], 'writes': []}, {}
        while words.now in ('reads', 'writes'):
            clause = words.next()
            lists[clause] += listed(words)
        while words.take('local'):
            local = words.next()
            words.want(':')
            inside[local] = local_decimals(words)
        scales = {**self.scales_of(lists['reads']), **inside}
        words.want('do')
        body = block(words)
        words.want('}')
        targets = {**self.scales_of(lists['writes']), **inside}
        return Owner('node', name, lists['reads'], lists['writes'], {**targets, 'reads': scales}, body, [])

    def places(self):
        """Each expression of the program."""
        for owner in self.owners:
            yield from owner.next
            if owner.kind == 'node':
                yield from body_places(owner.body, owner.locals['reads'], owner.name)

    def owner_at(self, offset):
        """The plant or coded node around an offset, of those that were declared before it the last."""
        found = None
        for owner in self.owners:
            begin = declared_at(self.text, owner)
            if begin <= offset:
                found = owner
        return found


def declared_at(text, owner):
    words = Words(text)
    while words.now:
        at, word = words.at, words.next()
        if word == owner.kind and words.now == owner.name:
            return at
    return len(text)


def local_decimals(words):
    """The decimals of a local's type; goes behind its `;`."""
    kind, scale = words.now, 0
    if kind == 'fix':
        words.next()
        words.want('(')
        scale = int(words.next()) if words.now.isdigit() else 0
    passed(words, ';')
    return TRUTH if kind == 'bool' else scale


def listed(words):
    names = [words.next()]
    while words.take(','):
        names.append(words.next())
    words.want(';')
    return names


def passed(words, end):
    """Goes behind the first such token that stands in no braces of its own."""
    depth = 0
    while words.now:
        word = words.next()
        depth += (word == '{') - (word == '}')
        if depth == 0 and word == end:
            return


def block(words):
    words.want('{')
    found = []
    while not words.take('}'):
        found.append(statement(words))
    return found


def statement(words):
    at = words.at
    if words.take('if'):
        condition, first = expression(words), block(words)
        return Statement('if', '', at, condition, (first, block(words) if words.take('else') else []))
    if words.take('repeat'):
        count = atom(words)
        return Statement('repeat', count.word, at, count, (block(words),))
    kind = 'publish' if words.take('publish') else 'set'
    at, name = words.at, words.next()
    if words.take('.'):
        name += '.' + words.next()
    words.next()
    tree = expression(words)
    words.want(';')
    return Statement(kind, name, at, tree, ())


def body_places(body, scales, owner):
    for said in body:
        if said.kind != 'repeat':
            yield Place(said.tree, scales, owner, said.name, said.at)
        for inner in said.blocks:
            yield from body_places(inner, scales, owner)


def published(body):
    """The scalars that a body drafts whatever its conditions are, and those that it drafts at all."""
    surely, maybe = set(), set()
    for said in body:
        if said.kind == 'publish':
            surely.add(said.name)
            maybe.add(said.name)
        elif said.kind == 'repeat':
            inner = published(said.blocks[0])
            surely, maybe = surely | inner[0], maybe | inner[1]
        elif said.kind == 'if':
            one, other = (published(inner) for inner in said.blocks)
            surely, maybe = surely | (one[0] & other[0]), maybe | one[1] | other[1]
    return surely, maybe
