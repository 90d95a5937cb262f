"""What a fault of syntax leaves out: the innermost rule of the grammar at the place, and what is meant by a usual slip.

It is tested and not proved. Tokens are those in front of the place, and those from it on.
"""
import re

from wording import listing

# the words that begin a clause, in the order of the grammar
HEADS = set('topic plant state input sees noise next node external period offset reads writes local do publish if repeat module ac sc safe safer :='.split())
RULES = {'reads': 'names', 'writes': 'names', 'input': 'names', 'sees': 'names', 'state': 'var', 'period': 'timing', 'offset': 'timing', 'do': 'block',
         'plant': 'plant', 'node': 'coded', 'external': 'external', 'module': 'module', 'ac': 'module', 'sc': 'module', 'next': 'expr', 'publish': 'stmt',
         'if': 'stmt', 'repeat': 'stmt', ':=': 'expr', 'safe': 'region', 'safer': 'region'}
NUMBER_TYPES = ('float', 'double', 'real', 'number', 'decimal', 'fixed', 'uint', 'integer', 'u8', 'i32', 'u32', 'f32', 'f64')
CALLS = ('min', 'max', 'abs', 'clamp', 'rescale')


def clause_of(before):
    """The last word that begins a clause, and the tokens behind it."""
    place = max((i for i, token in enumerate(before) if token in HEADS), default=None)
    return ('', before) if place is None else (before[place], before[place + 1:])


def rule_name(before):
    """The innermost rule of the grammar that the place is in; empty where none is known."""
    head, behind = clause_of(before)
    if head in ('topic', 'noise', 'local'):
        return type_rule(head, behind)
    if head in ('safe', 'safer'):
        return 'box' if behind.count('[') > behind.count(']') else 'region'
    if head in ('next', 'publish', ':=', 'if'):
        expression = head in (':=', 'if') or '=' in behind
        return 'atom' if expression and behind and not behind[-1] == ';' else RULES[head]
    return RULES.get(head, '')


def type_rule(head, behind):
    """Within a declaration with a type."""
    if ':' not in behind:
        return {'topic': 'topic', 'noise': 'plant', 'local': 'coded'}[head]
    if '=' in behind:
        return 'value' if head == 'topic' else 'const'
    if behind.count('[') > behind.count(']'):
        return 'range'
    inside = behind[behind.index(':') + 1:]
    return 'type' if head == 'topic' and (not inside or inside[0] == '{' and ':' not in inside) else 'scalar'


def meant(before, after, source):
    """One line on what is meant, where that is plain; none else."""
    here, next_one = (after + ['', ''])[:2]
    last = before[-1] if before else ''
    head, behind = clause_of(before)
    return (without_publish(before, here, next_one, source) or of_types(head, behind, here, last) or of_calls(before, here, last)
            or of_names(head, here, last))


def without_publish(before, here, next_one, source):
    """A topic that is set as a local is."""
    statement = before[max((i for i, token in enumerate(before) if token in (';', '{', '}')), default=-1) + 1:]
    if here not in ('=', ':=') or not statement or 'do' not in before or statement[0] in HEADS:
        return ''
    name = ''.join(statement)
    if re.search(rf'\btopic\s+{re.escape(statement[0])}\s*:', source):
        return f'`publish` is missing: write `publish {name} = ..;`'
    return f'a local is set by `:=`: write `{name} := ..;`' if here == '=' else ''


def of_types(head, behind, here, last):
    """A type in another language's form."""
    if head == 'state':
        if here == '[':
            return 'a state variable has no range: end it behind its type, as `state v: fix(2);`; the box under `safe` is what bounds it'
        if last == ':' and here not in ('int', 'fix'):
            return f'there is no type `{here}`: a state variable is `int`, or `fix(d)` with d decimals'
    if head in ('topic', 'noise', 'local') and '=' not in behind:
        if last == ':' and here == '[':
            return 'in front of the range stands its type: `int[..]` for whole numbers, or `fix(d)[..]` for numbers of d decimals'
        if last == ':' and here in NUMBER_TYPES:
            return f'there is no type `{here}`: write `fix(d)[lo..hi]` for numbers of d decimals, `int[lo..hi]` for whole ones, or `bool`'
        if head == 'topic' and here in (',', '}') and behind[1:3] == [':', '{'] and ':' not in behind[2:]:
            return 'there are no enumerations: number the values, as `int[0..1]`, and say in a comment what each means; a record has a type behind each field'
    if head in ('topic', 'local') and behind[-1:] == ['='] and re.match(r'[A-Za-z_]', here):
        return f'`{here}` is no value: behind `=` stands a number, `true` or `false`'
    return ''


def of_calls(before, here, last):
    """A function that the language has not, or with other parts."""
    if here == '(' and re.match(r'[A-Za-z_]\w*$', last) and last not in HEADS and any(token in before for token in ('next', 'do')):
        return f'there is no function `{last}`: the calls are min, max, abs, clamp and rescale. Bend a curve into straight pieces, and add a noise for what they miss'
    depth = 0
    for place in range(len(before) - 1, 0, -1):
        depth += (before[place] == ')') - (before[place] == '(')
        if depth < 0:
            return call_parts(before[place - 1], before[place + 1:], here)
    return ''


def call_parts(name, parts, here):
    wanted = {'min': 2, 'max': 2, 'abs': 1, 'clamp': 3, 'rescale': 2}.get(name)
    if wanted is None or here not in (',', ')'):
        return ''
    depth, commas = 0, 0
    for token in parts:
        depth += (token in '([') - (token in ')]')
        commas += token == ',' and depth == 0
    if here == ',' and commas + 1 >= wanted and name in ('min', 'max'):
        return f'`{name}` takes two parts: write `{name}(a, {name}(b, c))`'
    if (here == ',') != (commas + 1 < wanted):
        return f'`{name}` takes {wanted} part{"s" * (wanted > 1)}, with commas between'
    return ''


def of_names(head, here, last):
    """More than names where names stand."""
    if head in ('reads', 'writes', 'input', 'sees') and here in ('[', ':', '(', '=', '.') and last not in HEADS:
        return f'under `{head}` stand names alone, here `{last}`: type and range stand at the topic, and a record is named as a whole'
    return ''
