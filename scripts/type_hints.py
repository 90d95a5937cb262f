"""What a fault of typing, or code that may trap, leaves out: the names, both sides with their decimals, and what to write.

It is tested and not proved. Each function gets what was asked, and answers no line where it cannot name the thing.
"""
import difflib
import re

import missiontext
from missiontext import decimal
from spelled import TRUTH, Reader, declared_at, decimals_of, parts_of
from wording import decimals, listing, offset_of_line

CALL_PARTS = {'min': 2, 'max': 2, 'abs': 1, 'clamp': 3, 'rescale': 2}


def named_fault(asked):
    """The lines about a fault of typing, by its kind."""
    _, _, _, line, _, column, kind = asked.answer.split()
    at = offset_of_line(asked.source, int(line)) + int(column) - 1
    how = {'ScaleDiffers': scale_lines, 'KindDiffers': kind_lines, 'Unknown': unknown_lines}.get(kind)
    return how(Reader(asked.source), at) if how else []


def tree_at(reader, at):
    """The operator, call or `if` that stands at a place, and where its expression is."""
    for place in reader.places():
        for tree in parts_of(place.tree):
            if tree.at == at and tree.parts:
                return tree, place
    return None, None


def target_at(reader, at):
    """The expression whose target stands at a place."""
    return next((place for place in reader.places() if place.target_at == at), None)


def target_decimals(reader, place):
    owner = next(owner for owner in reader.owners if owner.name == place.owner)
    return (place.scales if owner.kind == 'plant' else owner.locals).get(place.target)


# --- decimals -------------------------------------------------------------------------------------------------------

def count_words(said, count):
    return f'`{said}` has {decimals(count)}'


def scale_lines(reader, at):
    tree, place = tree_at(reader, at)
    if tree:
        return operator_scales(reader, tree, place.scales)
    place = target_at(reader, at)
    if place:
        count, wanted = decimals_of(place.tree, place.scales), target_decimals(reader, place)
        if isinstance(count, int) and isinstance(wanted, int):
            return [f'{count_words(place.target, wanted)}, and {count_words(reader.said(place.tree), count)}' + cure(reader, place.tree, count, wanted)]
    return number_scale(reader, at)


def operator_scales(reader, tree, scales):
    """Both sides of an operator, or all parts of a call or an `if`, with their decimals."""
    parts = tree.parts[1:] if tree.kind == 'if' else tree.parts
    known = [(reader.said(part), decimals_of(part, scales), part) for part in parts]
    if any(not isinstance(count, int) for _, count, _ in known):
        return []
    if tree.word in ('*', '/') and len(known) == 2:
        result = known[0][1] + known[1][1] if tree.word == '*' else known[0][1] - known[1][1]
        what = 'the product has the sum of both, and at most 6' if tree.word == '*' else 'the quotient has the difference, and at least 0'
        return [f'{count_words(*known[0][:2])} and {count_words(*known[1][:2])}: {what}, and here it would have {result}']
    most = max(known, key=lambda one: (one[2].kind != 'number', one[1]))
    lines = [', and '.join(count_words(said, count) for said, count, _ in known)]
    for _, count, part in known:
        if count != most[1]:
            lines[0] += cure(reader, part, count, most[1])
            break
    return lines


def cure(reader, tree, count, wanted):
    """How to write an expression with other decimals."""
    said = reader.said(tree)
    if tree.kind == 'number':
        mantissa = int(said.replace('.', '').replace(' ', ''))
        if wanted >= count:
            return f': write `{decimal(mantissa * 10 ** (wanted - count), wanted)}`'
        if mantissa % 10 ** (count - wanted) == 0:
            return f': write `{decimal(mantissa // 10 ** (count - wanted), wanted)}`'
        return f': a number of {decimals(wanted)} is wanted there'
    if tree.word == '/' and tree.parts[1].kind == 'number' and count < wanted and '.' not in tree.parts[1].word:
        return f': write `rescale({reader.said(tree.parts[0])}, {wanted}) / {tree.parts[1].word}`'
    return f': write `rescale({said}, {wanted})`'


def number_scale(reader, at):
    """A literal that belongs to no expression: a period, a range, an initial value, a side of a region."""
    text = reader.text
    found = re.match(r'-?\s*\d+(?:\.\d+)?', text[at:])
    if not found:
        return []
    said, head = found[0], text[max(0, at - 40):at]
    count = len(said.partition('.')[2])
    before = re.search(r'\b(period|offset|repeat)\s*$', head)
    if before:
        return [f'`{said}` stands where a whole number of ticks is wanted: choose how long a tick lasts, and count in ticks'
                if before[1] != 'repeat' else f'`{said}` stands where a whole count of rounds is wanted']
    wanted = wanted_decimals(reader, at)
    if wanted is None or wanted == count:
        return []
    mantissa = int(re.sub(r'[\s.]', '', said))
    instead = f': write `{decimal(mantissa * 10 ** (wanted - count), wanted)}`' if wanted > count else f': write it with {decimals(wanted)}'
    return [f'`{said}` has {decimals(count)}, and {decimals(wanted)} are wanted there' + instead]


def wanted_decimals(reader, at):
    """The decimals of the type in whose range or initial value a place stands, or of the state whose side of a region it is."""
    text = reader.text
    begin = max(text.rfind(';', 0, at), text.rfind('}', 0, at), 0)
    clause = text[begin:at]
    region = re.search(r'\b(safe|safer)\b', clause)
    if region:
        module = next((module for module in reader.declared.modules.values() if text.find('module', 0, at) >= 0 and inside(text, module.name, at)), None)
        plant = module and reader.declared.plants.get(module.plant)
        side = clause[clause.rfind('['):].count(',')
        return plant.scales[side] if plant and side < len(plant.scales) else None
    types = re.findall(r'\b(int|fix\s*\(\s*(\d+)\s*\))', clause)
    return None if not types else 0 if types[-1][0] == 'int' else int(types[-1][1])


def inside(text, module, at):
    """Whether a place is in the declaration of a module."""
    found = re.search(rf'\bmodule\s+{module}\b', text)
    return bool(found) and found.start() < at <= text.find('}', found.start())


# --- kinds ----------------------------------------------------------------------------------------------------------

def kind_lines(reader, at):
    tree, place = tree_at(reader, at)
    if tree:
        return operator_kinds(reader, tree, place.scales)
    place = target_at(reader, at)
    if not place:
        return []
    wanted, given = target_decimals(reader, place), decimals_of(place.tree, place.scales)
    said = reader.said(place.tree)
    if wanted == TRUTH and isinstance(given, int):
        return [f'`{place.target}` is a truth value, and `{said}` a number: write `true` or `false`, or compare, as `{said} != 0`']
    if isinstance(wanted, int) and given == TRUTH:
        return [f'`{place.target}` is a number, and `{said}` a truth value: write `if {said} then 1 else 0`']
    return []


def operator_kinds(reader, tree, scales):
    parts = [(part, reader.said(part), decimals_of(part, scales)) for part in tree.parts]
    if tree.word in ('==', '!='):
        for (one, _, _), (_, other, kind) in (parts, parts[::-1]):
            if one.kind == 'truth' and kind == TRUTH:
                return [f'truth values are not compared: write `{other}`' if (one.word == 'true') == (tree.word == '==') else f'truth values are not compared: write `not {other}`']
    numbers = tree.word in ('and', 'or', 'not') or tree.kind == 'if'
    for part, said, kind in parts[:1] if tree.kind == 'if' else parts:
        if numbers and isinstance(kind, int):
            return [f'`{said}` is a number where a truth value is wanted: compare it, as `{said} != {decimal(0, kind)}`']
        if not numbers and kind == TRUTH:
            return [f'`{said}` is a truth value where a number is wanted: write `if {said} then 1 else 0`']
    return []


# --- names ----------------------------------------------------------------------------------------------------------

def unknown_lines(reader, at):
    """What a name may mean: a state or a field without its owner, one that is not listed, one that is spelled in another way, or a constant."""
    found = re.match(r'[A-Za-z_]\w*', reader.text[at:])
    if not found:
        return []
    name, owner = found[0], owner_around(reader, at)
    before = reader.text[:at].rstrip()
    if before.endswith('.'):
        return field_lines(reader, name, before)
    if owner is None:
        return near_lines(reader, name)
    plants = [plant.name for plant in reader.declared.plants.values() if name in plant.states]
    if owner.kind == 'node' and plants:
        return [f'`{name}` is a state of plant `{plants[0]}`: write `{plants[0]}.{name}`' + unlisted(owner, plants[0])]
    topics = [topic for topic in reader.declared.topics.values() if name in topic.fields]
    if topics:
        return [f'`{name}` is a field of topic `{topics[0].name}`: write `{topics[0].name}.{name}`' + unlisted(owner, topics[0].name)]
    if name in reader.declared.topics or name in reader.declared.plants:
        return [f'`{name}` is declared, and not listed in {owner.kind} `{owner.name}`: {clause_for(reader, owner, name)}']
    near = near_lines(reader, name, owner)
    if near:
        return near
    return [f'`{name}` is declared nowhere. A program has no constants: write the number itself where `{name}` stands' + (
        '; a tick is the unit of time, so a rate is already per tick' if name in ('dt', 'DT', 'dT', 'T', 'Ts') else '')]


def owner_around(reader, at):
    """The plant or node in whose declaration a place is."""
    owner = reader.owner_at(at)
    if owner is None:
        return None
    behind = re.compile(r'\b(?:topic|plant|node|external|module|environment)\s+\w+').search(reader.text, declared_at(reader.text, owner) + len(owner.kind) + 1)
    return owner if not behind or at < behind.start() else None


def unlisted(owner, name):
    return '' if name in owner.reads else f', and list `{name}` under `reads`' if owner.kind == 'node' else f', and list `{name}` under `input`'


def clause_for(reader, owner, name):
    if owner.kind == 'node':
        return f'add `reads {name};`'
    return f'add `sees {name};`' if name in reader.declared.plants else f'add `input {name};`'


def field_lines(reader, name, before):
    """A field or a state that its owner has not."""
    of = re.search(r'([A-Za-z_]\w*)\s*\.$', before)[1]
    topic, plant = reader.declared.topics.get(of), reader.declared.plants.get(of)
    if plant:
        return [f'plant `{of}` has no state `{name}`; its states: {listing(plant.states)}']
    if topic and topic.fields != [None]:
        return [f'topic `{of}` has no field `{name}`; its fields: {listing(topic.fields)}']
    return [f'topic `{of}` is one number, without fields: write `{of}`'] if topic else []


def near_lines(reader, name, owner=None):
    """A name that is spelled almost so."""
    declared = reader.declared
    known = [*declared.topics, *declared.plants, *declared.nodes, *declared.modules]
    if owner is not None:
        known += [word for word in (owner.locals.get('reads') or {}) if word != 'reads'] if owner.kind == 'node' else [*declared.plants[owner.name].states, *declared.plants[owner.name].noise]
    close = difflib.get_close_matches(name, known, 1, 0.75)
    return [f'`{name}` is not declared; `{close[0]}` is'] if close and close[0] != name else []


# --- code that may trap ---------------------------------------------------------------------------------------------

def trap_lines(asked, said):
    """What the operand may be, and what its place holds."""
    found = re.search(r' (OutsideRange|ZeroDivisor|Wide) \[(-?\d+)\.\.(-?\d+)\]', asked.answer)
    if not found:
        return []
    kind, low, high = found[1], int(found[2]), int(found[3])
    reader = Reader(asked.source)
    at = offset_of_line(asked.source, said['line']) + said['column'] - 1
    if kind == 'OutsideRange':
        place = target_at(reader, at)
        return outside_lines(reader, place, low, high) if place else []
    tree, place = tree_at(reader, at)
    if not tree:
        return []
    if kind == 'ZeroDivisor':
        divisor = tree.parts[-1]
        scale = decimals_of(divisor, place.scales) or 0
        return [f'the divisor `{reader.said(divisor)}` may be anything in {decimal(low, scale)}..{decimal(high, scale)}, so also 0: keep it away from 0, as by `max(.., {decimal(1, scale)})`']
    return [f'`{reader.said(tree)}` may come to a number of more than 64 bits: narrow the ranges of what it names, or clamp its parts']


def outside_lines(reader, place, low, high):
    """A value that its target does not hold."""
    scalar = target_scalar(reader, place)
    if scalar is None:
        return []
    given = decimal(low, scalar.scale) if low == high else f'{decimal(low, scalar.scale)}..{decimal(high, scalar.scale)}'
    ends = decimal(scalar.lo, scalar.scale), decimal(scalar.hi, scalar.scale)
    verb = 'is' if low == high else 'may be anything in'
    widen = f'clamp({reader.said(place.tree)}, {ends[0]}, {ends[1]})'
    return [f'`{place.target}` holds {ends[0]}..{ends[1]}, and `{reader.said(place.tree)}` {verb} {given}: write `{widen}`, or give `{place.target}` a wider range']


def target_scalar(reader, place):
    """The type of a topic's scalar or of a local."""
    found = reader.declared.scalars().get(place.target)
    if found:
        return found
    spelled = re.search(rf'\blocal\s+{re.escape(place.target)}\s*:\s*((?:int|fix\s*\([^)]*\))\s*\[[^]]*\])', reader.text)
    return missiontext.scalar_of(missiontext.Tokens(spelled[1])) if spelled else None
