"""What a program may mean otherwise than it says: warnings of scripts/lint. `soter` says nothing of them, and accepts such programs.

It is tested and not proved.
"""
import re

import missiontext
from missiontext import NotRead, decimal
from spelled import Reader, decimals_of, names_in, parts_of, published


def warnings(source):
    """Each warning of a program as its offset and words, in the order of the text; none of a text that is no program."""
    try:
        reader = Reader(source)
        found = [warning for owner in reader.owners for warning in (of_plant(reader, owner) if owner.kind == 'plant' else [])]
        for module in reader.declared.modules.values():
            found += of_module(reader, module)
    except (NotRead, LookupError, StopIteration, ValueError):
        return []
    return sorted(set(found))


def of_plant(reader, owner):
    """A plant without disturbances, floors that no disturbance covers, and variables that stand twice."""
    plant = reader.declared.plants[owner.name]
    found = [] if plant.noise else [(named_at(reader, 'plant', owner.name), f'`{owner.name}` has no disturbance: everything that is said holds of a plant that moves exactly so')]
    for place in owner.next:
        covered = any(name in plant.noise for name in names_in(place.tree))
        if not covered:
            found += [(tree.at, f'the floor of `{reader.said(tree)}` always rounds down, and no disturbance stands in this formula to cover what it cuts off: '
                       f'add a noise of 0..{decimal(1, decimals_of(tree, place.scales) or 0)}') for tree in parts_of(place.tree) if cuts(tree, place.scales)]
        for name in sorted(set(names_in(place.tree))):
            if times(place.tree, name) > 1:
                found.append((place.target_at, f'`{name}` stands more than once in the formula of `{place.target}`: over a box each is taken apart, so `{name} - {name}` is not 0; '
                              'write it once where you can, or expect wider boxes'))
    return found


def cuts(tree, scales):
    """Whether an operator may cut off decimals."""
    if tree.word == 'rescale':
        given, wanted = decimals_of(tree.parts[0], scales), decimals_of(tree, scales)
        return isinstance(given, int) and isinstance(wanted, int) and wanted < given
    if tree.word != '/' or len(tree.parts) != 2:
        return False
    above, below = tree.parts
    if above.word == 'rescale' and below.kind == 'number':
        given, wanted = decimals_of(above.parts[0], scales), decimals_of(above, scales)
        divisor = int(below.word.replace('.', '').replace('-', '') or 0)
        return not (isinstance(given, int) and wanted >= given and divisor and 10 ** (wanted - given) % divisor == 0)
    return True


def times(tree, name):
    """How often a name stands on one way through a formula; of an `if` one branch counts, and not its condition."""
    if tree.kind == 'name':
        return int(tree.word == name)
    if tree.kind == 'if':
        return max(times(part, name) for part in tree.parts[1:])
    return sum(times(part, name) for part in tree.parts)


def of_module(reader, module):
    """A safe node that may publish nothing, or fires less often than its module decides."""
    node = next(owner for owner in reader.owners if owner.kind == 'node' and owner.name == module.sc)
    declared, found = reader.declared, []
    at = named_at(reader, 'node', node.name)
    surely, _ = published(node.body)
    wanted = [missiontext.scalar_name(declared.topics[topic], field) for topic in declared.nodes[node.name].writes for field in declared.topics[topic].fields]
    for name in wanted:
        if name not in surely:
            found.append((at, f'the safe node `{node.name}` does not always publish `{name}`: where it does not, the last command stays, and the check takes any of its type'))
    if declared.nodes[node.name].period > module.period:
        found.append((at, f'the safe node `{node.name}` has period {declared.nodes[node.name].period}, and its module `{module.name}` decides each {module.period}: it may not be longer (refusal 1)'))
    return found


def named_at(reader, kind, name):
    """Where a declaration has its name."""
    return re.search(rf'\b{kind}\s+({name})\b', reader.text).start(1)
