#!/usr/bin/env python3
"""scripts/observed.py < TEXT: what `soter_guard` has to answer to an accepted mission, a line `%observed` and a robot's lines.

It is a second program of the same meaning, in Python, written from docs/LANGUAGE.md, docs/SEMANTICS.md and
docs/ROBOT.md and not from the program that is proved. It believes the certificate: whether a mission is accepted
`soter check` tells. Its status is that of the program. `scripts/robot` holds each line of the program beside it.
"""
import re
import sys

sys.dont_write_bytecode = True
import missiontext
from meaning import LEAST, MOST, Meaning, Trap, covers

HORIZON, LONGEST, TOO_LONG = 10 ** 12, 30, 65536
ASIDES = ('draft', 'input', 'resume')
NAME = r'[A-Za-z_][A-Za-z0-9_]*'
NUMBER = r'(?:0|-?[1-9][0-9]*)'
NUMBERS = rf'{NUMBER}(?:,{NUMBER})*'
PLACE = re.compile(rf' ({NAME})\(({NUMBERS})\)')
START = re.compile(rf'start({PLACE.pattern})', re.A)
INPUT = re.compile(rf'input ({NAME})=({NUMBERS})', re.A)
DRAFT = re.compile(rf'draft ({NAME})((?: {NAME}(?:\.{NAME})?[=!]{NUMBER})*)', re.A)
TICK = re.compile(rf'tick((?:{PLACE.pattern})*)', re.A)
ABOUT = re.compile(r'(draft|input) (\w+)', re.A)
WRITE = re.compile(rf' ({NAME}(?:\.{NAME})?)[=!]({NUMBER})', re.A)


class Misheard(Exception):
    """A line of the robot is at fault, and why."""


class Refused(Exception):
    """A plant starts where the first commands do not hold its module safe."""


def numbers_of(text):
    return [number_of(number) for number in text.split(',')]


def number_of(text):
    """The number; one of more digits than any of 64 bits counts as one that is too large."""
    return int(text[:LONGEST])


def said_of(meaning, line):
    """What a line says, by the names of the program; None where it says nothing."""
    if line in ('go', 'resume'):
        return (line,)
    found = START.fullmatch(line)
    if found:
        place = [plant for plant in meaning.plants if plant.name == found[2]]
        point = numbers_of(found[3])
        return ('start', found[2], point) if place and len(place[0].states) == len(point) else None
    found = INPUT.fullmatch(line)
    if found:
        topic, value = meaning.declared.topics.get(found[1]), numbers_of(found[2])
        return ('input', found[1], value) if topic and topic.outside and len(topic.fields) == len(value) else None
    found = DRAFT.fullmatch(line)
    if found:
        return draft_of(meaning, found[1], WRITE.findall(found[2]))
    found = TICK.fullmatch(line)
    return tick_of(meaning, PLACE.findall(found[1])) if found else None


def draft_of(meaning, name, writes):
    """A draft: of the scalars that the node writes some, each once and in their order."""
    node = next((node for node in meaning.nodes if node.name == name), None)
    if node is None:
        return None
    rest = iter(node.writes)
    if not all(scalar in rest for scalar, _ in writes):
        return None
    return 'draft', name, {scalar: number_of(number) for scalar, number in writes}


def tick_of(meaning, places):
    """The states of all plants, in declared order."""
    points = [numbers_of(numbers) for _, numbers in places]
    named = [name for name, _ in places] == [plant.name for plant in meaning.plants]
    return ('tick', points) if named and all(len(point) == len(plant.states) for point, plant in zip(points, meaning.plants)) else None


def is_large(numbers):
    return any(not LEAST <= number <= MOST for number in numbers)


class Guard:
    """A mission beside plants that are observed."""

    def __init__(self, meaning, jitter, first=0):
        """`first` is the time at which the talk begins."""
        self.meaning, self.jitter, self.first, self.kept = meaning, jitter, first, {}
        self.begin()

    def begin(self):
        """Before the first plant was observed; what was found of points is kept."""
        self.time, self.events, self.trusted, self.seen, self.turn, self.outside = self.first, 0, True, True, 'start', None
        self.scalars = dict(self.meaning.initial)
        self.modes = {module.name: 'sc' for module in self.meaning.modules}
        self.locals = {node.name: dict(node.first) for node in self.meaning.nodes}
        self.points, self.drafts, self.left, self.begun = [], {}, set(), []
        self.note_due()
        self.open_up()

    # --- time ---------------------------------------------------------------------------------------------------------

    def due_now(self):
        """The nodes and modules that are due."""
        return {thing.name for thing in [*self.meaning.nodes, *self.meaning.modules] if is_due(thing, self.time)}

    def asked(self, time):
        """The external nodes that are due at a time."""
        return [node.name for node in self.meaning.nodes if node.body is None and is_due(node, time)]

    def note_due(self):
        self.left |= self.due_now()

    def open_up(self):
        """The talk begins once all plants were observed, where the first commands hold each module safe; that is told then."""
        if len(self.points) < len(self.meaning.plants):
            return
        self.turn = 'instant'
        module = self.first_unsafe(self.left)
        if module:
            raise Refused(f'refused start module {module.name} point ({", ".join(map(str, self.point_of(module.plant)))})')
        self.begun = [' '.join([f'{self.time} begins', *self.asked(self.time)])]

    def may_start(self, points):
        """Whether a talk may begin with the plants at these points."""
        self.begin()
        self.points = points
        return self.first_unsafe(self.left) is None

    def first_unsafe(self, left):
        """The first module that the commands in force do not hold safe until its safe node fires; `left` is what is to fire."""
        return next((module for module in self.meaning.modules if not self.is_held(module, left)), None)

    def is_held(self, module, left):
        plant = next(plant for plant in self.meaning.plants if plant.name == module.plant)
        held = {name: (self.scalars[name], self.scalars[name]) for name in plant.inputs}
        return self.tube_stays(module, self.point_of(module.plant), held, self.until_fires(module.sc, left))

    def until_fires(self, name, left):
        """So many ticks until a node fires at the latest."""
        node = next(node for node in self.meaning.nodes if node.name == name)
        if name in left:
            return self.jitter
        wait = node.offset - self.time if self.time < node.offset else node.period - (self.time - node.offset) % node.period
        return wait + self.jitter

    def point_of(self, name):
        return self.points[[plant.name for plant in self.meaning.plants].index(name)]

    def is_over(self):
        return self.turn == 'tick' and self.time >= HORIZON

    # --- what is heard ------------------------------------------------------------------------------------------------

    def hear(self, line):
        """The lines that a line of the robot is answered with. Once the talk has begun no line is at fault."""
        try:
            return self.take(line)
        except Misheard as why:
            if self.turn == 'start':
                raise
            return self.ignore(line, why) if line.startswith(ASIDES) else self.go_blind(line, why)

    def ignore(self, line, why):
        """A draft, an input or a resume that is not taken changes nothing."""
        kind = next(word for word in ASIDES if line.startswith(word))
        return [' '.join([f'{self.time} ignored {kind}', *self.about(line), str(why)])]

    def about(self, line):
        """The node or the topic that such a line is about, where one of that name is declared."""
        found = ABOUT.match(line)
        names = self.meaning.declared.topics if found and found[1] == 'input' else [node.name for node in self.meaning.nodes]
        return [found[2]] if found and found[2] in names else []

    def go_blind(self, line, why):
        """Another line is not taken: a tick that was to come passes unseen, and the models are trusted no more."""
        if self.turn == 'tick':
            self.pass_tick(self.points)
            self.seen = False
        self.withdraw()
        return [f'{self.time} blind {why}'] + (self.go() if line == 'go' else [])

    def take(self, line):
        """The answer to a line that is taken."""
        said = said_of(self.meaning, line)
        if said is None:
            raise Misheard('NotALine')
        kind, *parts = said
        if self.turn == 'start':
            return self.start(*parts) if kind == 'start' else misheard('OutOfTurn')
        if kind == 'start' or (kind == 'tick') != (self.turn == 'tick'):
            raise Misheard('OutOfTurn')
        return {'input': self.input, 'draft': self.draft, 'go': self.go, 'tick': self.tick, 'resume': self.resume}[kind](*parts)

    def start(self, name, point):
        if name != self.meaning.plants[len(self.points)].name:
            raise Misheard('OutOfTurn')
        if is_large(point):
            raise Misheard('OutsideType')
        self.points.append(point)
        self.open_up()
        return self.begun

    def input(self, topic, value):
        names = self.meaning.of_topic[topic]
        if any(not self.meaning.ranges[name].lo <= number <= self.meaning.ranges[name].hi for name, number in zip(names, value)):
            raise Misheard('OutsideType')
        self.scalars.update(zip(names, value))
        self.events += 1
        return [f'{self.time} input {topic}={",".join(map(str, value))}']

    def draft(self, name, numbers):
        node = next(node for node in self.meaning.nodes if node.name == name)
        if is_large(numbers.values()):
            raise Misheard('OutsideType')
        if node.body is not None:
            raise Misheard('NotALine')
        if name not in self.left:
            raise Misheard('NotDue')
        if name in self.drafts:
            raise Misheard('AlreadyDrafted')
        self.drafts[name] = numbers
        return []

    def go(self):
        lines = [self.decide(module) for module in self.meaning.modules if module.name in self.left]
        lines += [self.fire(node) for node in self.meaning.nodes if node.name in self.left]
        self.events += len(lines)
        self.left, self.drafts, self.turn = set(), {}, 'tick'
        for plant in self.meaning.plants:
            lines.append(f'{self.time} hold {plant.name}' + ''.join(f' {name}={self.scalars[name]}' for name in plant.inputs))
        return lines + [' '.join([f'{self.time} ready', *self.asked(self.time + 1)])]

    def resume(self):
        """The models are trusted again, where the commands in force hold every module safe; what is due is left to fire."""
        if self.trusted:
            raise Misheard('NotDue')
        if not self.seen:
            raise Misheard('NotSeen')
        due = self.due_now()
        module = self.first_unsafe(due)
        if module:
            return [f'{self.time} refused resume module {module.name}']
        self.trusted, self.left = True, due
        return [f'{self.time} resumed']

    def tick(self, points):
        if self.time >= HORIZON:
            raise Misheard('TooFar')
        if is_large(number for point in points for number in point):
            raise Misheard('OutsideType')
        outside = self.first_outside(points) if self.trusted else None
        self.pass_tick(points)
        if outside is None:
            return []
        plant, state, (lo, hi), number = outside
        self.withdraw()
        self.outside = self.time
        return [f'{self.time} outside plant {plant} state {state} [{lo}..{hi}] observed {number}']

    def pass_tick(self, points):
        self.time, self.points, self.turn, self.seen = self.time + 1, points, 'instant', True
        self.events += 1
        self.note_due()

    def withdraw(self):
        """The models are trusted no more, and the safe nodes are asked at once, due or not."""
        self.trusted = False
        self.modes = {module.name: 'sc' for module in self.meaning.modules}
        self.left.update(module.sc for module in self.meaning.modules)

    # --- what happens -------------------------------------------------------------------------------------------------

    def decide(self, module):
        mode, point = self.modes[module.name], tuple(self.point_of(module.plant))
        if self.trusted and mode == 'sc' and is_in(module.safer, point):
            mode = 'ac'
        elif self.trusted and mode == 'ac' and not self.keeps(module, point):
            mode = 'sc'
        self.modes[module.name] = mode
        return f'{self.time} decide {module.name} {mode}'

    def fire(self, node):
        enabled = all(self.modes[module.name] == ('ac' if node.name == module.ac else 'sc')
                      for module in self.meaning.modules if node.name in (module.ac, module.sc))
        draft = self.drafts.get(node.name, {}) if node.body is None else self.run(node)
        words = ''
        for scalar in node.writes:
            if scalar in draft:
                number, of = draft[scalar], self.meaning.ranges[scalar]
                inside = of.lo <= number <= of.hi
                words += f' {scalar}{"=" if inside else "!"}{number}'
                if enabled and inside:
                    self.scalars[scalar] = number
        return f'{self.time} {"fire" if enabled else "idle"} {node.name}{words}'

    def run(self, node):
        """The draft of a coded node; where its body traps, which it may once no model is trusted, nothing, and its locals stay."""
        names = {name: number for name, number in {**self.scalars, **self.states()}.items() if name in node.reads}
        try:
            after, draft = node.body.run({**names, **self.locals[node.name]}, {**self.meaning.ranges, **node.local_ranges})
        except Trap:
            return {}
        self.locals[node.name] = {name: after[name] for name in node.local_ranges}
        return draft

    def states(self):
        return {f'{plant.name}.{state}': number for plant, point in zip(self.meaning.plants, self.points) for state, number in zip(plant.states, point)}

    # --- what the models allow ----------------------------------------------------------------------------------------

    def box_of(self, plant, sides):
        """The least box after a tick, of the plant's states, its inputs and what it sees in these sides, and disturbances in their bounds."""
        return plant.next_box({**sides, **{name: (bound.lo, bound.hi) for name, bound in zip(plant.noise, plant.bounds)}})

    def boxes(self):
        """The box in which each plant has to be after the tick, from where it was observed and with the commands in force."""
        seen = {name: (number, number) for name, number in {**self.scalars, **self.states()}.items()}
        return [self.box_of(plant, {**seen, **{state: (number, number) for state, number in zip(plant.states, point)}})
                for plant, point in zip(self.meaning.plants, self.points)]

    def first_outside(self, points):
        """The first state variable of the first plant outside its interval, with both."""
        for plant, box, point in zip(self.meaning.plants, self.boxes(), points):
            for state, (lo, hi), number in zip(plant.states, box, point):
                if not lo <= number <= hi:
                    return plant.name, state, (lo, hi), number
        return None

    def keeps(self, module, point):
        """Whether the tube of two periods, each longer by the jitter, stays inside the safe region from a point, whatever is commanded."""
        if (module.name, point) not in self.kept:
            self.kept[module.name, point] = self.stays(module, point)
        return self.kept[module.name, point]

    def stays(self, module, point):
        plant = next(plant for plant in self.meaning.plants if plant.name == module.plant)
        anything = {name: (self.meaning.ranges[name].lo, self.meaning.ranges[name].hi) for name in plant.inputs}
        return self.tube_stays(module, point, anything, 2 * (module.period + self.jitter))

    def tube_stays(self, module, point, commands, ticks):
        """Whether the tube of so many ticks stays inside the safe region from a point, with these commands."""
        plant = next(plant for plant in self.meaning.plants if plant.name == module.plant)
        around = dict(commands)
        for name in plant.sees:
            around.update(self.hull_of(name))
        box = [(number, number) for number in point]
        for _ in range(ticks):
            if not covers(module.safe, box):
                return False
            try:
                box = self.box_of(plant, {**around, **dict(zip(plant.states, box))})
            except Trap:
                return False
        return covers(module.safe, box)

    def hull_of(self, name):
        """The least box around a plant's safe region, by its states' names."""
        safe = next(module.safe for module in self.meaning.modules if module.plant == name)
        plant = self.meaning.declared.plants[name]
        return {f'{name}.{state}': (min(box[i][0] for box in safe), max(box[i][1] for box in safe)) for i, state in enumerate(plant.states)}


def is_due(thing, time):
    return time >= thing.offset and (time - thing.offset) % thing.period == 0


def misheard(kind):
    raise Misheard(kind)


def is_in(region, point):
    return any(all(lo <= number <= hi for (lo, hi), number in zip(box, point)) for box in region)


# --- a whole talk ---------------------------------------------------------------------------------------------------

def parts_of(text):
    """The mission in front of the line `%observed`, the robot's lines behind it, without their line ends, and the time at which it begins."""
    marks = re.finditer(r'^%observed(?: (0|[1-9][0-9]*))?\r?(?:\n|\Z)', text, re.M)
    found = next((mark for mark in marks if number_of(mark[1] or '0') <= HORIZON), None)
    if not found:
        raise missiontext.NotRead('there is no line %observed')
    lines = text[found.end():].split('\n')
    if lines[-1] == '':
        lines.pop()
    return text[:found.start()], [line if len(line) >= TOO_LONG else line.removesuffix('\r') for line in lines], int(found[1] or '0')


def mark_of(first):
    """The line behind which a talk begins at the time `first`."""
    return f'%observed {first}\n' if first else '%observed\n'


def outline_of(meaning):
    """What a robot has to know of a mission: each number that it tells or is told, with its decimals and its range."""
    ranges, topics = meaning.ranges, meaning.declared.topics.values()
    lines = []
    for plant in meaning.plants:
        lines += [f'state {plant.name} {state} scale {scale} range {LEAST} {MOST}' for state, scale in zip(plant.states, plant.scales)]
        lines += [told_scalar('command', plant.name, name, ranges[name]) for name in plant.inputs]
    lines += [told_scalar('input', topic.name, name, ranges[name]) for topic in topics if topic.outside for name in meaning.of_topic[topic.name]]
    for node in meaning.nodes:
        if node.body is None:
            lines += [f'external {node.name}', *(told_scalar('draft', node.name, name, ranges[name]) for name in node.writes)]
    lines += [f'module {module.name}' for module in meaning.modules]
    return [f'says {line}' for line in [*lines, 'all']]


def told_scalar(kind, owner, name, scalar):
    return f'{kind} {owner} {name} scale {scalar.scale} range {scalar.lo} {scalar.hi}'


def guard_of(mission):
    """A guard of an accepted mission, and what is said before the first line of a robot."""
    sections = missiontext.Sections(mission)
    cert = missiontext.json_of(sections.parts['certificate'])
    meaning = Meaning(sections.parts['program'])
    cells = sum(len(entry['closed']) + len(entry['reach']) for entry in cert['modules'].values())
    accepted = ['accepted', f'modules {len(meaning.modules)} nodes {len(meaning.nodes)} cells {cells}']
    return meaning, cert.get('jitter', 0), accepted + outline_of(meaning)


def answers(mission, lines, first=0):
    """The status and the lines of the whole answer to a talk that begins at the time `first`."""
    meaning, jitter, said = guard_of(mission)
    number = 0
    try:
        guard = Guard(meaning, jitter, first)
        said += guard.begun
        for number, line in enumerate(lines, 1):
            if len(line) >= TOO_LONG:
                raise Misheard('NotALine')
            said += guard.hear(line)
            if guard.is_over():
                break
        if guard.turn == 'start':
            number += 1
            raise Misheard('Missing')
    except Misheard as fault:
        return 3, said + [f'fault observed line {number} {fault}']
    except Refused as why:
        return 1, said + [str(why)]
    return int(not guard.trusted), said + [f'end {guard.time} events {guard.events}']


def main():
    try:
        status, said = answers(*parts_of(sys.stdin.buffer.read().decode('latin-1')))
    except (missiontext.NotRead, KeyError) as why:
        sys.exit(f'scripts/observed.py: {why}')
    sys.stdout.write(''.join(line + '\n' for line in said))
    return status


if __name__ == '__main__':
    if sys.argv[1:]:
        sys.exit(__doc__)
    sys.exit(main())
