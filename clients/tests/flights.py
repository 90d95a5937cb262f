"""Simulated robots that fly with a client of the guard, for `scripts/try_clients`.

Both clients are driven through one interface, so that one flight can be flown with each and compared.
"""
import dataclasses
import os
import random
import subprocess
import sys

HERE = os.path.dirname(os.path.realpath(__file__))
TOP = os.path.join(HERE, '..', '..')
sys.path[:0] = [os.path.join(TOP, 'scripts'), os.path.join(TOP, 'clients', 'python')]
import observed
import soter_guard

STANDIN = [os.path.join(HERE, 'standin')]
PATIENCE = 20.0   # seconds: a deadline that no test is to come to


class Wrong(Exception):
    """Something differs from what it has to be."""


def want(there, wanted, what):
    """One thing is what it has to be."""
    if there != wanted:
        raise Wrong(f'{what} is {there!r}, and has to be {wanted!r}')


@dataclasses.dataclass
class Seen:
    """What a client said of an instant."""
    time: int
    is_trusted: bool
    ignored: int
    trouble: str
    held: dict


def read_of(path):
    """The front of a mission's file, what it means, and what a client is told of it."""
    with open(path, encoding='latin-1', newline='') as file:
        text = soter_guard.front_of(file.read())
    meaning = observed.guard_of(text)[0]
    return text, meaning, soter_guard.Mission(observed.outline_of(meaning))


class PythonClient:
    """The client in Python."""

    def __init__(self, mission, log, program):
        self.fallen = []
        self.guard = soter_guard.Guard(mission, self.fallen.append, program=program,
                                       deadline=PATIENCE, log=log)
        self.start, self.tick = self.guard.start, self.guard.tick
        self.draft, self.text = self.guard.draft, self.guard.draft_text
        self.input, self.resume = self.guard.input, self.guard.resume
        self.is_due = self.guard.is_due

    def go(self):
        instant = self.guard.go()
        trouble = instant.outside or instant.blind or 'none'
        return Seen(instant.time, self.guard.is_trusted, len(instant.ignored), trouble, instant.mantissas)

    def close(self):
        return self.guard.close(), len(self.fallen)


class CClient:
    """The client in C, by lines that a driver reads."""

    def __init__(self, mission, log, program, driver, deadline=PATIENCE):
        text, _, self.mission = read_of(mission)
        self.front = log + '.mission'
        with open(self.front, 'w', encoding='latin-1', newline='') as file:
            file.write(text)
        self.process = subprocess.Popen([*driver, self.front, log, str(deadline), *program], text=True,
                                        stdin=subprocess.PIPE, stdout=subprocess.PIPE, bufsize=1)

    def do(self, *words):
        """The lines that come of a command, and its result behind them."""
        self.process.stdin.write(' '.join(map(str, words)) + '\n')
        lines = []
        for line in self.process.stdout:
            if line.startswith(f'{words[0]} result '):
                return lines, int(line.split()[2])
            lines.append(line.rstrip('\n'))
        raise Wrong(f'the driver ended behind {words[0]}: {lines}')

    def pairs(self, names, values):
        return [word for name, value in zip(names, values)
                for word in (self.mission.decimals[name], repr(float(value)))]

    def place(self, plant, values):
        return [plant, *self.pairs([f'{plant}.{state}' for state in self.mission.states[plant]], values)]

    def start(self, places):
        for plant, values in places.items():
            want(self.do('start', *self.place(plant, values)), ([], 0), f'the start of {plant}')

    def tick(self, places):
        words = []
        for plant, values in places.items():
            words += ['/', *self.place(plant, values)]
        lines, result = self.do('tick', *words[1:])
        return lines == [] and result == 0

    def input(self, topic, values):
        return self.do('input', topic, *self.pairs(self.mission.fields[topic], values)) == ([], 0)

    def draft(self, node, wanted):
        words = [word for name in self.mission.drafts[node] if name in wanted
                 for word in (name, *self.pairs([name], [wanted[name]]))]
        return self.do('draft', node, *words) == ([], 0)

    def text(self, node, text):
        return self.do('text', node, text.replace('\n', '\\n')) == ([], 0)

    def go(self):
        lines, result = self.do('go')
        want(result, 0, f'the result of go behind {lines}')
        words = lines[-1].split(' ', 7)
        held = {plant: {scalar: self.held(plant, scalar) for scalar in scalars}
                for plant, scalars in self.mission.inputs.items()}
        return Seen(int(words[1]), words[3] == '1', int(words[5]), words[7], held)

    def is_due(self, node):
        lines, result = self.do('due', node)
        want(result, 0, f'the result of due {node}')
        return lines == ['due 1']

    def resume(self):
        lines, result = self.do('resume')
        want(result, 0, 'the result of resume')
        return lines == ['trusted 1']

    def held(self, plant, scalar):
        lines, result = self.do('held', plant, scalar)
        want(result, 0, f'the result of held {plant} {scalar}')
        return int(lines[0].split()[1])

    def close(self):
        """The status of the guard, and how often the fallback was called."""
        rest, _ = self.process.communicate(timeout=PATIENCE)
        want(self.process.returncode, 0, f'the status of the driver, which said {rest!r},')
        words = rest.splitlines()[-1].split()
        return int(words[1]), int(words[3])


class Flight:
    """A robot that moves by the formulas of a mission, with the commands that a client holds."""

    def __init__(self, mission, seed):
        self.text, self.meaning, self.known = read_of(mission)
        self.choice = random.Random(seed)
        self.points = [self.first(plant) for plant in self.meaning.plants]
        self.told = []

    def first(self, plant):
        """A point of the safer region of the plant's module."""
        module = next(module for module in self.meaning.modules if module.plant == plant.name)
        return [self.choice.randint(lo, hi) for lo, hi in self.choice.choice(module.safer)]

    def places(self):
        """Where all plants are, in units."""
        return {plant.name: self.in_units([f'{plant.name}.{state}' for state in plant.states], point)
                for plant, point in zip(self.meaning.plants, self.points)}

    def in_units(self, names, mantissas):
        return [soter_guard.value_of(number, self.known.decimals[name])
                for name, number in zip(names, mantissas)]

    def move(self, held):
        """All plants move, with disturbances within their bounds."""
        states = {f'{plant.name}.{state}': number for plant, point in zip(self.meaning.plants, self.points)
                  for state, number in zip(plant.states, point)}
        moved = []
        for plant, point in zip(self.meaning.plants, self.points):
            noise = {name: self.choice.randint(bound.lo, bound.hi) for name, bound in zip(plant.noise, plant.bounds)}
            moved.append(plant.next_point({**states, **dict(zip(plant.states, point)), **held[plant.name], **noise}))
        self.points = moved

    def drafts(self, client, time):
        """Each external node that is due wants something, and at times what no number tells."""
        for node in self.meaning.nodes:
            name, due = node.name, observed.is_due(node, time)
            if node.body is not None:
                continue
            want(client.is_due(name), due, f'whether {name} is due at {time}')
            if due:
                ranges = [self.meaning.ranges[scalar] for scalar in node.writes]
                numbers = [self.choice.randint(of.lo - 1, of.hi + 1) for of in ranges]
                wanted = dict(zip(node.writes, self.in_units(node.writes, numbers)))
                if wanted and self.choice.random() < 0.1:
                    wanted[node.writes[0]] = self.choice.choice((float('nan'), float('-inf'), 1e19, 1e300))
                self.told.append(client.draft(name, wanted))

    def inputs(self, client):
        for name in self.known.fields:
            if self.choice.random() < 0.3:
                scalars = self.known.fields[name]
                numbers = [self.choice.randint(self.meaning.ranges[scalar].lo, self.meaning.ranges[scalar].hi + 1)
                           for scalar in scalars]
                self.told.append(client.input(name, self.in_units(scalars, numbers)))

    def fly(self, client, ticks, lost=None, resumes=False):
        """The instants of a flight; at the tick `lost` the first sensor says no number. Trust is asked back where told."""
        seen = []
        client.start(self.places())
        for time in range(ticks):
            if resumes and seen and not seen[-1].is_trusted:
                self.told.append(client.resume())
            self.inputs(client)
            self.drafts(client, time)
            seen.append(client.go())
            self.move(seen[-1].held)
            places = self.places()
            if time == lost:
                next(iter(places.values()))[0] = float('nan')
            self.told.append(client.tick(places))
        return seen


def sides_of(log):
    """The mission in a log, what the robot said in it, and what the guard said."""
    with open(log, encoding='latin-1', newline='') as file:
        mission, _, talk = file.read().partition('%observed\n')
    lines = talk.splitlines()
    robot = [line for line in lines if line.split(' ')[0] in ('start', 'input', 'draft', 'go', 'tick', 'resume')]
    return mission, robot, [line for line in lines if line not in robot]
