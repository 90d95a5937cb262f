#!/usr/bin/env python3
"""scripts/hints.py STATUS INPUT --answer FILE COMMAND [WORD ..], or --program FILE: what to do about an answer of `soter`, on standard error.

`./soter` calls it at status 1 and 3. INPUT is the file with what the command read. The answer is taken from a file, or
asked again of a built program with the same words, which is then also asked what `fly` would have written where a trace
differs; of `soter_bridge` behind the word `bridge`; of `soter_guard` behind `guard`, by its lines `outside`, `ignored` and
`blind` and the last one. It says the row of the docs' tables for the refusal or fault, with what the answer leaves out:
decimals, lines, cells, carets. It is tested and not proved, and writes nothing to standard output.
"""
import collections
import os
import re
import subprocess
import sys

sys.dont_write_bytecode = True
import doctables
import formulas
import missiontext
import runs
import syntax_hints
import talk_hints
import type_hints
import value_hints
from spelled import Reader, published
from missiontext import NotRead, box_words, decimal, point_words, whole_numbers
from wording import WIDTH, caret, offset_of_line, region_words, shown, ticks, tuple_words

SECONDS, LIMIT = 20, 16777216
ROBOT = 'docs/ROBOT.md'
NEEDED = {'check': ('certificate',), 'recover': ('certificate',), 'fly': ('certificate', 'flight'), 'watch': ('certificate', 'flight'), 'replay': ('certificate', 'flight', 'trace')}
KEYWORDS = set('topic environment int fix bool true false plant state input sees noise next node external period offset reads writes local do publish if then else '
               'repeat module ac sc safe safer none and or not min max abs clamp rescale'.split())
CLAUSES = {'state', 'input', 'sees', 'noise', 'next', 'period', 'offset', 'reads', 'writes', 'local', 'do', 'ac', 'sc', 'plant', 'safe', 'safer'}
# words with a name behind them
NAMED = {'topic', 'plant', 'node', 'external', 'module', 'local', 'publish', 'state', 'noise'}
COMPARISONS = {'<', '<=', '>', '>=', '==', '!='}


class Asked:
    """What was asked, and what came."""

    def __init__(self, command, text, answer, program, words=(), whole=''):
        self.command, self.answer, self.program, self.words, self.whole = command, answer, program, words, whole or answer
        self.sections, self.advice, self.kept = missiontext.Sections(text), doctables.Advice(), None
        # what `format`, `certify` and `regions` read is a program to its end, whatever begins its lines
        self.source = text if command in ('format', 'certify', 'regions') else self.sections.parts['program']

    def tables(self):
        """The declarations of the program."""
        if self.kept is None:
            self.kept = missiontext.Program(self.source)
        return self.kept

    def plant_of(self, module):
        return self.tables().plants[self.tables().modules[module].plant]

    def fly(self):
        """The lines that `fly` writes for this mission, or none where that is not known."""
        if not self.program:
            return []
        mission = self.sections.text[:offset_of_line(self.sections.text, self.sections.lines['trace'] - 1)]
        status, said = ask(self.program, 'fly', mission)
        return said.split('\n') if status == 0 else []


def ask(program, command, text, *words):
    """The status and the text of a built program."""
    command = [] if command == 'bridge' else [command]
    try:
        done = subprocess.run([program, *command, *words], input=text.encode('latin-1'), stdout=subprocess.PIPE, stderr=subprocess.DEVNULL, timeout=SECONDS)
        return done.returncode, done.stdout.decode('latin-1')
    except (OSError, subprocess.TimeoutExpired):
        return None, ''


def distance(point, cell):
    return sum(max(lo - x, 0, x - hi) for x, (lo, hi) in zip(point, cell))


# --- refusals -----------------------------------------------------------------------------------------------------

def cells_of(asked, module, kind):
    return missiontext.json_of(asked.sections.parts['certificate'])['modules'][module][kind]


def about_gap(asked, said, kind, region):
    """A point of a region in no cell, and the cell that is nearest to it."""
    plant, point = asked.plant_of(said['module']), said['point']
    cells = cells_of(asked, said['module'], kind)
    nearest = min(range(len(cells)), key=lambda i: distance(point, cells[i]), default=None)
    near = '' if nearest is None else f'. The nearest is {kind} cell {nearest}, {box_words(plant, cells[nearest])}'
    return [f'{tuple_words(point)} is {point_words(plant, point)}: it is in `{region}`, and in no {kind} cell{near}']


def about_leaving(asked, said, kind, how):
    """A cell whose box is at some tick not inside the safe region."""
    plant = asked.plant_of(said['module'])
    cell = cells_of(asked, said['module'], kind)[said['cell']]
    point = f'{tuple_words(said["point"])} is {point_words(plant, said["point"])}, which is not in `safe`'
    if said['tick'] == 0:
        return [f'{kind} cell {said["cell"]}, {box_words(plant, cell)}, is not inside `safe`: {point}']
    box = f'{box_words(plant, said["box"])} after {ticks(said["tick"])}'
    return [f'from {kind} cell {said["cell"]}, {box_words(plant, cell)}, {how}, {plant.name} may be anywhere in {box}: {point}']


def about_trap(asked, said, kind):
    """A step of the plant that may trap."""
    plant = asked.plant_of(said['module'])
    cell = cells_of(asked, said['module'], kind)[said['cell']]
    return about_code(asked, said) + [f'it may trap {ticks(said["tick"])} after {kind} cell {said["cell"]}, {box_words(plant, cell)}']


def about_periods(asked, said):
    module, node = asked.tables().modules[said['module']], asked.tables().nodes[said['node']]
    return [f'the period of {node.name} is {node.period}, and that of {module.name} is {module.period}']


def about_outputs(asked, said):
    module = asked.tables().modules[said['module']]
    writers = [node for node in (module.ac, module.sc) if said['topic'] in asked.tables().nodes[node].writes]
    return [f'{" and ".join(writers)} writes {said["topic"]}, and the other one of {module.ac} and {module.sc} does not']


def about_code(asked, said):
    return caret(missiontext.line_of(asked.source, said['line']), said['line'], said['column'])


def about_trapping_code(asked, said):
    return about_code(asked, said) + type_hints.trap_lines(asked, said)


def about_no_cells(asked, said):
    return ['`./soter certify` makes cells: sed \'/^%/,$d\' my.mission | ./soter certify']


ABOUT = {
    '1': about_periods,
    '2': about_outputs,
    '4': lambda asked, said: about_gap(asked, said, 'closed', 'safe'),
    '5': lambda asked, said: about_trap(asked, said, 'closed'),
    '6': lambda asked, said: about_leaving(asked, said, 'closed', 'with what the safe node publishes there'),
    '7': lambda asked, said: about_gap(asked, said, 'reach', 'safer'),
    '8': lambda asked, said: about_leaving(asked, said, 'reach', 'with any commands'),
    '9': lambda asked, said: about_trap(asked, said, 'reach'),
    '14': about_trapping_code,
    '15': about_no_cells,
}


def about_condition(asked):
    """A mission that fails one of the fifteen conditions."""
    said = missiontext.refusal_of(asked.answer)
    run = [LOOKS] if said['no'] in ('5', '6', '8', '9') else []
    return (ABOUT[said['no']](asked, said) if said['no'] in ABOUT else []) + run


def condition_to_do(asked, family, key):
    """The row of the page; of a program alone with `safer none`, who finds that region."""
    if asked.command == 'certify' and key == '3' and asked.answer.endswith(' safer'):
        return [f'`safer none` asks `./soter regions < FILE` to find the region; `certify` needs one ({doctables.LANGUAGE}, Choosing regions)']
    return to_do(asked, family, key)


LOOKS = '`./soter why < FILE` looks for a run that shows how it is lost'


def about_start(asked):
    """A plant that starts outside its module's safer region."""
    said = missiontext.refusal_of(asked.answer)
    plant, region = asked.plant_of(said['module']), asked.tables().modules[said['module']].safer
    return [f'{plant.name} starts at {point_words(plant, said["point"])}, and `safer` of {said["module"]} is {region_words(plant, region)}']


def about_certify(asked):
    """A program for whose regions halving makes no certificate."""
    words = asked.answer.split()
    readings, where = asked.advice.certify('TooMany' if words[-1] == 'TooMany' else f'{words[4]} point')
    lines = [f'either {readings[0]}', f'or {readings[1]} ({where})'] if readings else []
    if 'point' in words:
        plant, region = asked.plant_of(words[3]), 'safe' if words[4] == 'closed' else 'safer'
        numbers = asked.answer.partition('point ')[2]
        lines.insert(0, f'{numbers} is {point_words(plant, whole_numbers(numbers))}, a state of `{region}` of {words[3]}')
        lines.append(LOOKS.replace('why', 'why certify'))
    return lines


def about_recover(asked):
    """Each module without a rank."""
    return [said for line in asked.whole.split('\n') if line.startswith('refused recover') for said in about_unrecovered(asked, line)]


def about_unrecovered(asked, line):
    """A module without a rank: whether its safe node stops, a disturbance holds the plant away, or nothing of the kind was found."""
    words, numbers = line.split(), line.partition('point ')[2]
    plant = asked.plant_of(words[3])
    lines = [f'{numbers} is {point_words(plant, whole_numbers(numbers))}, a state of `safe` of {words[3]}']
    situation = runs.situation_of(asked.source, words[3])
    how = runs.stays_away(situation, whole_numbers(numbers))
    return lines + [RECOVERS[how].format(node=situation.node.name, plant=plant.name)]


RECOVERS = {
    'stops': 'from there `{node}` does not bring {plant} back, also without a disturbance: it stops, or goes round, outside `safer`. No cells can help: let `{node}` steer into `safer`, '
             'or widen `safer`; a node that only stops is safe all the same',
    'noise': 'from there a disturbance that always pushes one way holds {plant} outside `safer` against `{node}`. No cells can help: let `{node}` push more strongly than the disturbance, or widen `safer`',
    '': 'the runs that were tried from there come back, so the cells may be too large: make the closed cells smaller, as wide as a hold takes the plant nearer',
}


def about_regions(asked):
    """A module without regions: a safe node that does not always publish, if that may be the reason."""
    found = re.match(r'refused regions module (\S+) safe', asked.answer)
    if not found:
        return []
    module, reader = asked.tables().modules[found[1]], Reader(asked.source)
    node = next(owner for owner in reader.owners if owner.name == module.sc)
    surely, _ = published(node.body)
    writes = [name for topic in node.writes for name in (missiontext.scalar_name(asked.tables().topics[topic], field) for field in asked.tables().topics[topic].fields)]
    silent = [name for name in writes if name not in surely]
    lines = [f'`{node.name}` does not always publish `{name}`: where it drafts nothing, the last command stays, and that is taken to be any of its type; give each `if` an `else` that publishes' for name in silent[:1]]
    return lines + coarse(asked.answer) + ([] if asked.answer.endswith('TooMany') else [LOOKS])


def coarse(answer):
    """That a search went in steps above one unit, where it did."""
    grain = re.search(r'safe none grain \(([^)]*)\)', answer)
    if not grain or max(whole_numbers(f'({grain[1]})')) < 2:
        return []
    return [f'the search went in steps of ({grain[1]}) units, and what they round off counts as a disturbance: state variables with fewer decimals are searched in smaller steps; let a `noise` hold what their '
            'rounding leaves out']


def about_replay(asked):
    """A trace that is none of the flight."""
    _, _, _, number, kind = asked.answer.split()
    number, lines = int(number), asked.sections.parts['trace'].split('\n')
    place = f'that is line {asked.sections.lines["trace"] + number - 1} of the input'
    if number > len(lines) or lines[number - 1:] == ['']:
        return [f'{place}, where the text has ended']
    instead = flown_instead(asked, [line.rstrip('\r') for line in lines], number) if kind == 'Differs' else []
    return [f'{place}: {shown(lines[number - 1])[:WIDTH]}'] + instead


def flown_instead(asked, lines, number):
    """The line that belongs there: of the end its counts; of others the one of `fly`, where the lines before it are the same, in its order or in another one."""
    here, before = lines[number - 1].split(' '), lines[:number - 1]
    if here[0] == 'end':
        events = [line for line in before if line[:1].isdigit()]
        return [f'the end of these lines is: end {here[1]} events {len(events)} refused {sum(line.count("!") for line in events)}']
    flown = asked.fly()
    if len(flown) < number or sorted(before) != sorted(flown[:number - 1]):
        return []
    if before == flown[:number - 1]:
        return [f'`fly` writes there: {shown(flown[number - 1])[:WIDTH]}']
    same = [line for line in flown[number - 1:] if line.split(' ')[:2] == here[:2] and here[1] == 'tick']
    return [f'`fly`, which takes what comes in one instant in another order, writes: {shown(same[0])[:WIDTH]}'] if same else []


# --- faults -------------------------------------------------------------------------------------------------------

def about_section(asked):
    """A section line that is missing, unknown or out of order."""
    _, _, _, number, kind = asked.answer.split()
    heads = ', '.join(f'`{shown(head)[:40]}` at line {line}' for line, head in asked.sections.heads[:6]) or 'none'
    if kind != 'Missing':
        return caret(missiontext.line_of(asked.sections.text, int(number)), int(number), 1) + [f'section lines found: {heads}']
    needed = NEEDED[asked.command]
    lacks = next((name for name in needed if not asked.sections.has(name)), needed[-1])
    names = ', '.join(f'`%{name}`' for name in needed)
    return [f'`{asked.command}` needs the section line{"s" * (len(needed) > 1)} {names}; found: {heads}; so `%{lacks}` is missing'] + strays(asked)


def strays(asked):
    """What looks like a section line and is none, or ends lines by CR alone."""
    text = asked.sections.text
    found = re.search(r'^[ \t\xef\xbb\xbf]+%(?:certificate|flight|trace)\b', text, re.M)
    if found:
        return [f'line {missiontext.place_in(text, found.start())[0]} has a section line that does not begin with `%`']
    if '\r' in text and '\n' not in text:
        return ['the lines of this text end by CR alone, which ends no line here']
    if '\0%' in text or text[:2] in ('\xff\xfe', '\xfe\xff'):
        return ['this text is UTF-16: keep it as UTF-8']
    return []


def about_place(asked):
    """A place in the program."""
    _, _, _, line, _, column, _ = asked.answer.split()
    return caret(missiontext.line_of(asked.source, int(line)), int(line), int(column))


def tokens_around(asked):
    """The tokens of the twenty lines in front of a place, which show the clause that it is in, and the ones from it on; and the place."""
    _, _, _, line, _, column, _ = asked.answer.split()
    begin = offset_of_line(asked.source, max(1, int(line) - 20))
    at = offset_of_line(asked.source, int(line)) + int(column) - 1
    before, after = ([piece[1] for piece in missiontext.TOKEN.finditer(asked.source, *ends) if piece[1]] for ends in ((begin, at), (at, at + 200)))
    return before, after, at


def cause_of(asked):
    """The usual cause of such a token or byte, as docs/LANGUAGE.md tells it, where one fits."""
    kind, source = asked.answer.split()[-1], asked.source
    before, after, at = tokens_around(asked)
    first = source[source.rfind('\n', 0, at) + 1:at].strip() == ''
    wanted = cause_words(before, after, source[at:at + 12], first) if kind in ('Token', 'BadByte') else ''
    if kind == 'BadByte' and 'bytes' not in wanted:
        return []
    cut = f"; cut it off: sed '/^%/,$d' my.mission | ./soter {asked.command}" if 'handed' in wanted else ''
    return [f'often the cause: {cause}' + (f', for example {example}' if example else '') + cut + f' ({doctables.LANGUAGE}, Faults of syntax)'
            for cause, example, _ in asked.advice.causes() if wanted and wanted in cause][:1]


def cause_words(before, after, text, first):
    """Words of the cause in the table that fits, by the tokens in front of the place and from it on, and whether it is the first of its line; none where none does."""
    here, next_one = (after + ['', ''])[:2]
    last, second = before[-1] if before else '', before[-2] if len(before) > 1 else ''
    statement = before[max((i for i, token in enumerate(before) if token in (';', '{', '}')), default=-1) + 1:]
    rules = (
        (text.startswith(tuple('%' + name for name in missiontext.SECTIONS)), 'handed to `format` or `certify`'),
        (not here, 'a closing brace is missing'),
        (here in tuple('?\'"^&!~@$`\\') or (here == '|' and next_one == '|'), 'bytes that the language has not'),
        (here == 'if' and last == 'else', '`else if` of statements'),
        (here == '/' or (here in ('+', '-', '*') and here in (last, next_one)), 'an operator of another language'),
        (here in ('=', ':=', '=='), '`=` for `:=`'),
        (here in COMPARISONS and any(token in COMPARISONS for token in statement), 'comparisons in a chain'),
        (here == '.' or last == '.', 'a point without digits'),
        (last == '%', 'a rest by no number'),
        (last == ',' and here == ';', 'a comma behind the last name'),
        (last == 'repeat' or (statement[:1] == ['if'] and 'then' not in statement and here not in ';{}'), 'a statement without braces'),
        (here in ';)' and 'then' in statement and statement.count('then') > statement.count('else'), 'an `if` expression without its `else`'),
        (here in ('(', ',', '[', 'or') and ('int' in before[-5:] or 'fix' in before[-5:] or 'safe' in statement or 'safer' in statement), 'a range or a type in another form'),
        (here in KEYWORDS and (last in NAMED or (last == ',' and next_one in (':', ',', ';'))), 'a keyword as a name'),
        ((here in CLAUSES and last in (';', '{', '}')) or here in ('offset', 'period'), 'clauses in another order'),
        (last not in (';', '{', '}', '') and (first or here == '}' or here in CLAUSES), 'a `;` is missing'),
        (last in ('}', ';') and here in ('topic', 'plant', 'node', 'external', 'module', 'environment'), 'a closing brace is missing'),
    )
    return next((words for fits, words in rules if fits), '')


def about_json(asked):
    """A value of the certificate or the flight."""
    _, family, path, kind = asked.answer.split()
    text, first = asked.sections.parts[family], asked.sections.lines[family]
    found = missiontext.json_fault(text) if kind == 'NotJson' else (*missiontext.place_in(text, missiontext.pointed(text, path)), '')
    if not found:
        return []
    line, column, why = found
    lines = caret(missiontext.line_of(text, line), first + line - 1, column)
    return lines + ([f'line {first + line - 1}, column {column}: {why}'] if why else []) + value_hints.named_value(asked, family, path.split('/')[1:], kind)


def value_to_do(asked, family, key):
    """What to do about a value. A number outside its range of the certificate is not always the jitter, of which the row speaks."""
    path = asked.answer.split()[2]
    if family == 'certificate' and key == 'OutsideRange' and path != '/jitter':
        name, wanted = ('format', 'is') if path == '/format' else ('a number', 'limit')
        return [f'what to do: {name} is {asked.advice.value(name, wanted)} ({doctables.FORMATS}, The certificate)']
    return to_do(asked, family, key)


# --- bridges ------------------------------------------------------------------------------------------------------

class Crossed:
    """Two missions with a bridge between them, and the words: their declarations and flights, as far as they can be read."""

    def __init__(self, halves, words):
        self.from_name, self.to_name, self.delay = words[0], words[1], int(words[2])
        sections = [missiontext.Sections(text) for text in (halves.first, halves.second)]
        self.tables = [missiontext.Program(half.parts['program']) for half in sections]
        self.horizons = [missiontext.json_of(half.parts['flight'])['horizon'] for half in sections]

    def topics(self):
        """The topic of the first mission, and that of the second."""
        return self.tables[0].topics[self.from_name], self.tables[1].topics[self.to_name]

    def sends(self):
        """How often nodes that write the topic are due, which is how often something is sent at most."""
        due = [(self.horizons[0] - node.offset) // node.period + 1 for node in self.tables[0].nodes.values()
               if any(name.split('.')[0] == self.from_name for name in node.writes) and node.offset <= self.horizons[0]]
        return sum(due)


def about_no_bridge(text):
    """Lines that look like the one that divides two missions, and are not."""
    near = re.search(r'^[^\n%a-z]*%bridge[^\n]*', text, re.M | re.I)
    if not near:
        return ['no line of the input begins with `%bridge`']
    line = missiontext.place_in(text, near.start())[0]
    return [f'line {line} is `{shown(near[0].rstrip(chr(13)))[:WIDTH]}`, and has to be `%bridge`, with nothing before or behind it']


def about_names(crossed):
    """Which of the two names is unknown, and which topics there are."""
    lines = []
    for name, outside, which, tables in ((crossed.from_name, False, 'first', crossed.tables[0]), (crossed.to_name, True, 'second', crossed.tables[1])):
        found, sort = tables.topics.get(name), 'environment topics' if outside else 'topics of nodes'
        there = ', '.join([topic.name for topic in tables.topics.values() if topic.outside == outside][:8]) or 'none'
        if not found:
            lines.append(f'the {which} mission has no topic `{shown(name)[:64]}`; its {sort}: {there}')
        elif found.outside != outside:
            lines.append(f'`{name}` of the {which} mission is {"no" if outside else "an"} environment topic; its {sort}: {there}')
    return lines


def scalar_words(scalar):
    if scalar.kind == 'bool':
        return 'bool'
    return f'{"int" if scalar.kind == "int" else f"fix({scalar.scale})"}[{decimal(scalar.lo, scalar.scale)}..{decimal(scalar.hi, scalar.scale)}]'


def about_topics(crossed):
    """The first scalars that do not match."""
    ours, theirs = crossed.topics()
    if len(ours.scalars) != len(theirs.scalars):
        return [f'a value of `{ours.name}` has {len(ours.scalars)} numbers, and one of `{theirs.name}` {len(theirs.scalars)}']
    for number, (one, other) in enumerate(zip(ours.scalars, theirs.scalars), 1):
        if (one.kind == 'bool', one.scale) != (other.kind == 'bool', other.scale) or one.lo < other.lo or one.hi > other.hi:
            return [f'number {number} of `{ours.name}` in the first mission is {scalar_words(one)}, and of `{theirs.name}` in the second {scalar_words(other)}']
    return []


def about_horizons(crossed):
    first, second = crossed.horizons
    return [f'the first flies {ticks(first)}, what it sends comes {ticks(crossed.delay)} later, and the second flies {ticks(second)}: it needs {first + crossed.delay}']


def about_room(crossed):
    return [f'`{crossed.from_name}` may be sent {crossed.sends()} times, with {len(crossed.topics()[0].scalars)} of its numbers each']


CROSSINGS = {'Unknown': about_names, 'Type': about_topics, 'Horizon': about_horizons, 'TooManyEvents': about_room, 'TooManyNumbers': about_room}


def bridge_hint(text, words, answer):
    """The lines to say about an answer of `soter_bridge`: those of `fly` about the one mission, or why the two do not join."""
    halves, said = missiontext.halves_of(text), re.match(r'([ab]) (.*)', answer)
    if said and halves:
        half, where = (halves.first, 'of the first mission') if said[1] == 'a' else (halves.second, f'of the second mission, whose line 1 is line {halves.line} of the input')
        return [f'{where}:'] + hint_of(Asked('fly', half, said[2], None))
    said = re.match(r'fault bridge (\w+)', answer)
    if not said:
        return []
    try:
        lines = CROSSINGS[said[1]](Crossed(halves, words)) if halves else about_no_bridge(text)
    except (NotRead, LookupError, TypeError, ValueError):
        lines = []
    advised, where = doctables.Advice().to_do('bridge', said[1])
    return lines + [f'what to do: {advised} ({where})']


# --- talks with a robot -------------------------------------------------------------------------------------------

def guard_hint(answer, text):
    """The lines to say about what `soter_guard` said: its last line, and those that were no part of a run.

    `text` is what it heard, as far as that was kept.
    """
    mission, _, heard = text.partition('\n%observed')
    told, said = heard.removesuffix('\n').split('\n')[1:], answer.rstrip('\n').split('\n')
    asked = Asked('check', mission + '\n', said[-1], None)
    fault = re.match(r'fault observed line (\d+) (\w+)', said[-1])
    if fault:
        found = heard_lines(asked, told, int(fault[1]), fault[2])
        return found + to_do(asked, 'observed', fault[2])
    if said[-1].startswith('refused start '):
        return unheld_start_lines(asked)
    return talk_lines(asked, told, said) if said[-1].startswith('end ') else hint_of(asked)


def unheld_start_lines(asked):
    """A plant that the first commands may lead out of its safe region before its safe node fires."""
    said = missiontext.refusal_of(asked.answer)
    plant, module = asked.plant_of(said['module']), asked.tables().modules[said['module']]
    return [f'{plant.name} starts at {point_words(plant, said["point"])}, and `safe` of {module.name} is {region_words(plant, module.safe)}',
            f'from there the initial commands do not hold it in `safe` until `{module.sc}` fires',
            f'what to do: bring the robot further inside, or begin with another initial value ({ROBOT}, Trust comes back)']


def talk_lines(asked, told, said):
    """Of a talk that has ended: who was outside, and which lines were not taken; of one sort the first."""
    try:
        talk = missiontext.Talk('\n'.join(told + said) + '\n')
    except (NotRead, LookupError, ValueError):
        talk = missiontext.Talk('\n'.join(said) + '\n')
    lines = outside_lines(asked, talk.outside) if talk.outside else []
    lines += unheld_lines(talk) if talk.unheld else []
    counts, firsts = collections.Counter(one[1:] for one in talk.untaken), {}
    for one in talk.untaken:
        firsts.setdefault(one[1:], one)
    for sort, one in firsts.items():
        lines += untaken_lines(asked, talk, one, counts[sort]) + to_do(asked, 'observed', one.why)
    return lines


def outside_lines(asked, said):
    """An observed state that its model does not allow, in the decimals of the program."""
    try:
        plant = asked.tables().plants[said.plant]
        scale = plant.scales[plant.states.index(said.state)]
    except (NotRead, LookupError, ValueError):
        scale = 0
    lo, hi, value = (decimal(number, scale) for number in (said.lo, said.hi, said.value))
    return [f'time {said.time}: {said.plant} was observed at {said.state} {value}, where its model allows '
            f'{lo}..{hi}; {LATCHED}', f'see {ROBOT}, When `outside` comes']


LATCHED = 'from then on every module is in mode `sc`, until a line `resume` is answered `resumed`'


def unheld_lines(talk):
    """A resume that was refused: which module the commands in force do not hold safe."""
    time, module = talk.unheld[0]
    more = f' ({len(talk.unheld)} of them; this is the first)' if len(talk.unheld) > 1 else ''
    return [f'time {time}: no resume, since the commands in force may lead the plant of `{module}` out of its safe region '
            f'before its safe node fires{more}', f'see {ROBOT}, Trust comes back']


def untaken_lines(asked, talk, one, count):
    """A line that was not taken, what follows from that, and the line itself where it is known which one."""
    more = f' ({count} lines of this sort; this is the first)' if count > 1 else ''
    if one.kind == 'ignored':
        what = f'a line `{one.about}` was ignored ({one.why}), and changed nothing'
    else:
        what = f'a line was not taken ({one.why}), so the plants are not seen; {LATCHED}'
    lines = [f'time {one.time}: {what}{more}']
    said = line_not_taken(asked, talk, one)
    if said is None:
        return lines
    spelled = spelling(asked, said) if one.why == 'NotALine' else []
    return lines + (spelled or [f'{said.number} | {shown(said.line)[:WIDTH]}'])


def line_not_taken(asked, talk, one):
    """The robot's line that such an answer is about; None where several may be it."""
    if one.kind == 'blind':
        # the lines and their answers come in the same order
        place = [other for other in talk.untaken if other.kind == 'blind'].index(one)
        return talk.blinds[place] if place < len(talk.blinds) else None
    came = [said for said in talk.asides if said.time == one.time and said.line.startswith(one.about)]
    if one.why == 'NotALine':
        came = [said for said in came if spelling(asked, said)][:1]
    elif one.why == 'AlreadyDrafted':
        names = [said.line.split(' ')[1:2] for said in came]
        came = [said for place, said in enumerate(came) if names[place] in names[:place]][:1]
    return came[0] if len(came) == 1 else None


def spelling(asked, said):
    """What is wrong with the spelling of a line, or nothing."""
    try:
        return talk_hints.lines_about(said.line, said.number, asked.tables())
    except (NotRead, LookupError, ValueError):
        return []


def heard_lines(asked, lines, number, kind):
    """The robot's line that is at fault, and of one that says nothing the column."""
    if number > len(lines):
        return []
    line = lines[number - 1].rstrip('\r')
    found = spelling(asked, missiontext.Said(0, number, line)) if kind == 'NotALine' else []
    return found or [f'{number} | {shown(line)[:WIDTH]}']


# --- all of them --------------------------------------------------------------------------------------------------

def to_do(asked, family, key):
    """What to do, and where the docs say it; of a trace, what the line says of it."""
    said, where = asked.advice.to_do(family, key)
    lead = key if family == 'replay' else 'what to do'
    return [f'{lead}: {said} ({where})' if said else f'see {where}']


def token_to_do(asked, family, key):
    """What is meant, or the usual cause; the innermost rule of the grammar at the place; and the row where neither is known."""
    if key != 'Token':
        return cause_of(asked) or to_do(asked, family, key)
    before, after, _ = tokens_around(asked)
    meant = syntax_hints.meant(before, after, asked.source)
    rule = asked.advice.rule(syntax_hints.rule_name(before))
    ruled = [f'the grammar there: {rule}'] if rule else []
    if meant:
        return [f'{meant} ({doctables.LANGUAGE}, The grammar)'] + ruled
    return cause_of(asked) or ruled + to_do(asked, family, key)


def about_typing(asked):
    """The place, and what is named there."""
    return about_place(asked) + type_hints.named_fault(asked)


def typing_to_do(asked, family, key):
    """The row of the page; where the names were told, its place alone."""
    try:
        named = type_hints.named_fault(asked)
    except (NotRead, LookupError, TypeError, ValueError):
        named = []
    return [f'see {asked.advice.to_do(family, key)[1]}'] if named else to_do(asked, family, key)


def about_section_or_program(asked):
    """A section that is missing; of a program alone, that a certificate can be made of it."""
    lines = about_section(asked)
    if asked.command in ('check', 'recover') and not asked.sections.heads and asked.source.strip() and asked.answer.endswith('Missing'):
        lines.append(f'this is a program alone: `./soter regions < FILE` finds regions and makes the certificate, and `./soter certify < FILE` makes one for the regions that it has; '
                     'both tell a fault of the program first, which `check` does not reach')
    return lines


# --- formulas -----------------------------------------------------------------------------------------------------

def about_formula(asked):
    """Where the word is no formula, or which name or number of it is at fault."""
    text, kind = asked.words[0], asked.answer.split()[2]
    try:
        formula = formulas.formula_of(text)
    except formulas.BadFormula as why:
        return caret(text, 1, why.at + 1) + [f'column {why.at + 1}: {why}']
    for said in formulas.comparisons(formula):
        unknown = [name for name in formulas.names_of(said) if name not in formulas.scales_of(asked.tables())]
        wrong = unknown if kind == 'Unknown' else formulas.scale_words(said, asked.tables())
        if wrong:
            return caret(text, 1, said.at + 1) + [formulas.unknown_words(unknown[0], asked.tables()) if kind == 'Unknown' else wrong]
    return []


def formula_to_do(asked, family, key):
    """The rule of a formula, or where its page is."""
    where = asked.advice.to_do(family, key)[1]
    return to_do(asked, family, key) if key == 'Form' else [f'see {where}']


def about_watch(asked):
    """What stands at the first moment at which a formula fails, and which part of it does."""
    time = int(asked.answer.split()[-1])
    moments = formulas.moments_of(asked.tables(), missiontext.Trace(asked.whole))
    formula = formulas.formula_of(asked.words[0])
    why = formulas.Why(asked.words[0], asked.tables(), moments)
    names = dict.fromkeys(name for said in formulas.comparisons(formula) for name in formulas.names_of(said))
    values = ', '.join(f'{name} {why.value(name, time)}' for name in names)
    return why.lines(formula, time)[:6] + ([f'at moment {time}: {values}'] if len(names) > 1 else [])


def section_to_do(asked, family, key):
    alone = key == 'Missing' and not asked.sections.heads and asked.source.strip() != ''
    return [f'see {asked.advice.to_do(family, key)[1]}'] if alone and asked.command in ('check', 'recover') else to_do(asked, family, key)


def recover_to_do(asked, family, key):
    return [f'see {asked.advice.to_do(family, key)[1]}']


def nothing(*_):
    return []


# what begins an answer: its family, what the answer leaves out, and what to do
FAMILIES = (
    (re.compile(r'refused (\d+)'), 'refused', about_condition, condition_to_do),
    (re.compile(r'refused start()'), 'start', about_start, to_do),
    (re.compile(r'refused certify()'), 'certify', about_certify, nothing),
    (re.compile(r'refused regions (?:module \S+ )?(jitter|safe none|safe TooMany|safer none)'), 'regions', about_regions, to_do),
    (re.compile(r'refused (recover)'), 'recover', about_recover, recover_to_do),
    (re.compile(r'refused (watch) time'), 'watch', about_watch, to_do),
    (re.compile(r'fault formula (\w+)'), 'formula', about_formula, formula_to_do),
    (re.compile(r'refused replay line \d+ (\w+)'), 'replay', about_replay, to_do),
    (re.compile(r'fault observed line \d+ (\w+)'), 'observed', nothing, to_do),
    (re.compile(r'fault section line \d+ (\w+)'), 'section', about_section_or_program, section_to_do),
    (re.compile(r'fault syntax line \d+ column \d+ (\w+)'), 'syntax', about_place, token_to_do),
    (re.compile(r'fault type line \d+ column \d+ (\w+)'), 'type', about_typing, typing_to_do),
    (re.compile(r'fault certificate \S+ (\w+)'), 'certificate', about_json, value_to_do),
    (re.compile(r'fault flight \S+ (\w+)'), 'flight', about_json, value_to_do),
)


def hint_of(asked):
    """The lines to say about an answer. Where the mission cannot be read so far, the row of the docs stands alone."""
    for pattern, family, about, advice in FAMILIES:
        said = pattern.match(asked.answer)
        if said:
            try:
                lines = about(asked)
            except (NotRead, LookupError, TypeError, ValueError):
                lines = []
            return lines + advice(asked, family, said[1])
    return []


def line_of(answer):
    """The line to explain: the first one, or that behind a trace."""
    lines = answer.split('\n')
    return lines[-2] if lines[0].startswith('soter trace') and len(lines) > 2 else lines[0]


def main(words):
    if len(words) < 5 or words[2] not in ('--answer', '--program'):
        sys.exit(__doc__)
    status, path, how, file, command, *more = words
    with open(path, 'rb') as source:
        text = source.read(LIMIT + 1).decode('latin-1')
    program = file if how == '--program' else None
    if program:
        again, answer = ask(program, command, text, *more)
        if str(again) != status:
            # the input was another one when it was read, so nothing is said of it
            return
    else:
        with open(file, 'rb') as source:
            answer = source.read(LIMIT).decode('latin-1')
    said = line_of(answer)
    if command == 'guard':
        lines = guard_hint(answer, text)
    else:
        lines = bridge_hint(text, more, said) if command == 'bridge' else hint_of(Asked(command, text, said, program, more, answer))
    for line in lines:
        print('soter: ' + line, file=sys.stderr)


if __name__ == '__main__':
    main(sys.argv[1:])
