"""What a fault of a certificate or a flight leaves out: which keys belong there, how a value is written, and in which unit.

It is tested and not proved.
"""
import json

import missiontext
from missiontext import NotRead, decimal, scalar_name
from wording import decimals, listing, shown

KEYS = {'certificate': ('format', 'modules'), 'flight': ('format', 'horizon', 'start', 'inputs', 'sway', 'crew')}
OF_KIND = {'low': ('kind',), 'high': ('kind',), 'list': ('kind', 'values'), 'seed': ('kind', 'seed', 'stream'),
           'edge': ('kind', 'hold', 'seed', 'stream'), 'script': ('kind', 'drafts'), 'wild': ('kind', 'seed', 'stream'), 'guest': ('kind', 'index')}


def named_value(asked, family, path, kind):
    """The lines about the value at a path."""
    if kind not in ('Missing', 'Unknown', 'NotWhole', 'WrongShape', 'Width'):
        return []
    value = value_at(asked, family, path)
    if kind == 'Missing':
        return [f'the object there has no key `{path[-1]}`']
    if kind == 'Unknown':
        return unknown_keys(asked, family, path, value)
    if kind == 'NotWhole':
        return not_whole(asked, family, path)
    said = shape_of(asked, family, path, value) if kind == 'WrongShape' else width_of(asked, family, path)
    return [said] if said else []


def value_at(asked, family, path):
    """The value at a path; None where there is none."""
    value = missiontext.json_of(asked.sections.parts[family])
    for key in path if path != [''] else ():
        try:
            value = value[int(key)] if isinstance(value, list) else value[key]
        except (LookupError, TypeError, ValueError):
            return None
    return value


def written(value):
    said = json.dumps(value, separators=(',', ':'))
    return said if len(said) <= 60 else said[:56] + ' ..'


# --- keys -----------------------------------------------------------------------------------------------------------

def keys_there(asked, family, path, value):
    """What keys an object may have there, and what they are."""
    tables = asked.tables()
    if path == ['']:
        return KEYS[family] + (('jitter',) if family == 'certificate' and value.get('format') == 2 else ()), 'the keys there'
    if path == ['modules']:
        return tuple(tables.modules), 'the modules of the program'
    if path == ['start']:
        return tuple(tables.plants), 'the plants of the program'
    if path == ['sway']:
        return tuple(name for name, plant in tables.plants.items() if plant.noise), 'the plants that have disturbances'
    if path == ['crew']:
        return tuple(name for name, node in tables.nodes.items() if not node.coded), 'the external nodes of the program'
    if path[0] == 'modules':
        return ('closed', 'reach'), 'the keys there'
    if path[0] == 'inputs':
        return ('at', 'topic', 'value'), 'the keys there'
    return OF_KIND.get(value.get('kind'), ('kind',)), f'the keys there, for the kind `{value.get("kind")}`'


def unknown_keys(asked, family, path, value):
    if path[-1] == 'topic':
        outside = [topic.name for topic in asked.tables().topics.values() if topic.outside]
        return [f'`{shown(str(value))[:64]}` is no environment topic; those of the program: {listing(outside)}']
    if not isinstance(value, dict):
        return []
    allowed, what = keys_there(asked, family, path, value)
    odd = [key for key in value if key not in allowed]
    if family == 'certificate' and path == [''] and 'jitter' in odd:
        return ['`jitter` belongs to format 2: write `"format":2`, or take the key `jitter` out']
    lines = []
    for key in odd[:5]:
        node, plant = asked.tables().nodes.get(key), asked.tables().plants.get(key)
        if path == ['crew'] and node:
            lines.append(f'`{key}` is coded, so nobody drafts for it: leave it out; {what}: {listing(allowed)}')
        elif path == ['sway'] and plant:
            lines.append(f'`{key}` has no disturbances: leave it out; {what}: {listing(allowed)}')
        else:
            lines.append(f'no key `{shown(key)[:64]}` belongs there; {what}: {listing(allowed)}')
    return lines


# --- numbers --------------------------------------------------------------------------------------------------------

def scalars_written(asked, node):
    """Name and type of each scalar that a node writes, in order."""
    tables = asked.tables()
    return [(scalar_name(tables.topics[topic], field), scalar) for topic in tables.nodes[node].writes
            for field, scalar in zip(tables.topics[topic].fields, tables.topics[topic].scalars)]


def unit_of(asked, family, path):
    """Whose number stands at a path, and its decimals: a state, a disturbance, a drafted scalar, an input; None else."""
    tables = asked.tables()
    if path[0] == 'modules' and len(path) == 6:
        plant, place = asked.plant_of(path[1]), int(path[4])
        return f'the state `{plant.states[place]}`', plant.scales[place]
    if path[0] == 'start' and len(path) == 3:
        plant, place = tables.plants[path[1]], int(path[2])
        return f'the state `{plant.states[place]}`', plant.scales[place]
    if path[0] == 'sway' and len(path) == 5:
        plant, place = tables.plants[path[1]], int(path[4])
        return f'the disturbance `{plant.noise[place]}`', plant.bounds[place].scale
    if path[0] == 'crew' and len(path) == 5:
        name, scalar = scalars_written(asked, path[1])[int(path[4])]
        return f'`{name}`', scalar.scale
    if path[0] == 'inputs' and len(path) == 4:
        topic = tables.topics[value_at(asked, family, path[:2])['topic']]
        return f'`{scalar_name(topic, topic.fields[int(path[3])])}`', topic.scalars[int(path[3])].scale
    return None


def not_whole(asked, family, path):
    """How the number is written as a mantissa."""
    found = unit_of(asked, family, path)
    if not found:
        return []
    name, scale = found
    value = value_at(asked, family, path)
    if scale == 0:
        return [f'this number is of {name}, which has no decimals: write it without a point']
    mantissa = round(float(value) * 10 ** scale)
    return [f'this number is of {name}, which has {decimals(scale)}: {decimal(mantissa, scale)} is written {mantissa}']


# --- shapes ---------------------------------------------------------------------------------------------------------

def shape_of(asked, family, path, value):
    """How the value there is to be written."""
    if isinstance(value, bool):
        return f'truth values are 0 or 1 here: write {int(value)}'
    if isinstance(value, str) and path[-1] not in ('kind', 'topic'):
        return f'write the number without quotes: {shown(value)[:40]}' if value.lstrip('-').replace('.', '').isdigit() else ''
    return certificate_shape(asked, path, value) if family == 'certificate' else flight_shape(asked, path, value)


def certificate_shape(asked, path, value):
    modules = list(asked.tables().modules)
    if path == ['modules']:
        entries = ','.join(f'"{name}":{{..}}' for name in modules[:3]) + (',..' if len(modules) > 3 else '')
        return f'`modules` is an object with an entry a module, by name: write `"modules":{{{entries}}}`'
    if len(path) == 2 and path[0] == 'modules':
        return 'an entry is an object: `{"closed":[..],"reach":[..]}`'
    if len(path) == 3 and path[0] == 'modules':
        return f'`{path[2]}` is a list of cells'
    if len(path) in (4, 5) and path[0] == 'modules':
        plant = asked.plant_of(path[1])
        return f'a cell is a list of {len(plant.states)} side{"s" * (len(plant.states) > 1)}, one for each state ({", ".join(plant.states)}), each with two numbers: `[{",".join(["[lo,hi]"] * len(plant.states))}]`'
    return ''


def flight_shape(asked, path, value):
    tables = asked.tables()
    if path[0] == 'start' and len(path) == 2 and path[1] in tables.plants:
        plant = tables.plants[path[1]]
        numbers = [value.get(state) for state in plant.states] if isinstance(value, dict) else [value] if len(plant.states) == 1 else []
        known = f': write `{written(numbers)}`' if numbers and all(isinstance(number, int) for number in numbers) else ''
        return f'a start is a list with a number for each state in declared order ({", ".join(plant.states)}){known}'
    if path[0] == 'crew' and len(path) >= 3 and path[2] == 'drafts' and path[1] in tables.nodes:
        names = ', '.join(name for name, _ in scalars_written(asked, path[1])) or 'none'
        drafts = value_at(asked, 'flight', path[:3])
        flat = isinstance(drafts, list) and all(not isinstance(item, (list, dict)) for item in drafts)
        return f'`drafts` is a list of lists, one a firing, each with a number or `null` for each scalar ({names})' + (f': write `{written([drafts])}`' if flat and drafts else '')
    if path[0] == 'sway' and len(path) >= 3 and path[2] == 'values' and path[1] in tables.plants:
        values = value_at(asked, 'flight', path[:3])
        flat = isinstance(values, list) and all(not isinstance(item, (list, dict)) for item in values)
        return f'`values` is a list of lists, one a tick, each with a number for each disturbance ({", ".join(tables.plants[path[1]].noise)})' + (f': write `{written([values])}`' if flat and values else '')
    if path[-1] == 'kind':
        wanted = 'low, high, list, seed or edge' if path[0] == 'sway' else 'script, wild, edge or guest'
        return f'the kind of a {path[0]} is {wanted}'
    return ''


def width_of(asked, family, path):
    """For what a list has its numbers."""
    tables = asked.tables()
    if family == 'certificate':
        return certificate_shape(asked, path, None) if len(path) in (4, 5) else ''
    if path[0] == 'start':
        return f'a number for each state of `{path[1]}`, in declared order: {", ".join(tables.plants[path[1]].states)}'
    if path[0] == 'sway':
        return f'a number for each disturbance of `{path[1]}`, in declared order: {", ".join(tables.plants[path[1]].noise)}'
    if path[0] == 'crew':
        return f'a number or `null` for each scalar that `{path[1]}` writes, in order: {", ".join(name for name, _ in scalars_written(asked, path[1]))}'
    return ''
