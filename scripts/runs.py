"""Runs of a program by exact evaluation, which look for a way out of a region: under a safe node, or under any commands.

It serves `scripts/why` and hints. It knows what `meaning.py` knows of a program, and no box: what it finds is a run, and
where it finds none nothing is said. It is tested and not proved. All numbers are mantissas.
"""
import collections
import itertools
import time

from meaning import Meaning, Trap

LONGEST = 400           # so many ticks a run is followed
CORNERS = 16            # so many corners of disturbances and commands are tried at each tick
SECONDS = 4             # so long a search goes on

# what came in one tick: what each node drafted that fired, the commands in force, the disturbances, and where all plants are after it
Step = collections.namedtuple('Step', 'time fired commands noise points')


class Run:
    """Where all plants start, the ticks, and how it ended: `outside`, `trap`, or nothing."""

    def __init__(self, start, plant):
        self.start, self.plant, self.steps, self.ended, self.scalars = start, plant, [], '', {}

    def points(self):
        """The places of the plant, from the start on."""
        return [self.start[self.plant]] + [step.points[self.plant] for step in self.steps if step.points]


def is_in(region, point):
    return any(all(lo <= number <= hi for (lo, hi), number in zip(box, point)) for box in region)


def margin(region, point):
    """How far inside a region a point is, in shares of a box's sides; below 0 outside."""
    best = None
    for box in region:
        room = min(min(number - lo, hi - number) / max(hi - lo, 1) for (lo, hi), number in zip(box, point))
        best = room if best is None or room > best else best
    return -1.0 if best is None else best


def corners(sides, most=CORNERS):
    """Corners of a box, at most so many, and the middle; of a box of few points all of them."""
    if not sides:
        return [()]
    points = 1
    for lo, hi in sides:
        points *= hi - lo + 1
    if points <= most:
        return list(itertools.product(*(range(lo, hi + 1) for lo, hi in sides)))
    middle = tuple(0 if lo <= 0 <= hi else (lo + hi) // 2 for lo, hi in sides)
    found = list(itertools.islice(itertools.product(*((lo, hi) if lo != hi else (lo,) for lo, hi in sides)), most))
    return found + [middle] if middle not in found else found


class Situation:
    """A module of a program, with all of its plants, and all modules in the hands of their safe nodes."""

    def __init__(self, meaning, module, jitter=0):
        self.meaning, self.module, self.jitter = meaning, module, jitter
        self.plant = next(plant for plant in meaning.plants if plant.name == module.plant)
        self.node = next(node for node in meaning.nodes if node.name == module.sc)
        advanced = {other.ac for other in meaning.modules}
        self.heard = [node for node in meaning.nodes if node.body is not None and node.name not in advanced]
        self.noises = corners([(bound.lo, bound.hi) for bound in self.plant.bounds])
        self.commands = corners([(meaning.ranges[name].lo, meaning.ranges[name].hi) for name in self.plant.inputs])
        self.until = time.process_time() + SECONDS

    def is_late(self):
        return time.process_time() > self.until

    def around(self, point, where=0):
        """All plants, the one of the module at this point and the others in their safe regions: in the middle of a box, at its low or at its high corner."""
        found = {}
        for plant in self.meaning.plants:
            safe = next((module.safe for module in self.meaning.modules if module.plant == plant.name), None)
            box = safe[0] if safe else [(0, 0)] * len(plant.states)
            found[plant.name] = [((lo + hi) // 2, lo, hi)[where] for lo, hi in box]
        found[self.plant.name] = list(point)
        return found

    def starts(self, point):
        """Where all plants may be with the one of the module at this point: the others are tried at three places."""
        return [self.around(point, where) for where in range(3 if len(self.meaning.plants) > 1 else 1)]

    # --- one run ------------------------------------------------------------------------------------------------------

    def flown(self, start, region, choose, command=None, limit=LONGEST, scalars=None):
        """The run from there until the plant is outside the region. `choose` gives the disturbances of a tick, `command`
        the commands where no safe node is in charge."""
        state = State(self, start, scalars)
        run = Run({name: list(point) for name, point in start.items()}, self.plant.name)
        run.scalars = dict(state.scalars)
        if not is_in(region, start[self.plant.name]):
            run.ended = 'outside'
            return run
        for tick in range(limit):
            fired = state.fire(tick, command is None)
            if command is not None:
                state.scalars.update(zip(self.plant.inputs, command(state, tick)))
            noise = {plant.name: choose(state, tick) if plant is self.plant else middle(plant) for plant in self.meaning.plants}
            commands = dict(state.scalars)
            try:
                state.tick(noise)
            except Trap:
                run.steps.append(Step(tick, fired, commands, noise, None))
                run.ended = 'trap'
                return run
            run.steps.append(Step(tick, fired, commands, noise, dict(state.points)))
            if not self.others_are_safe(state.points):
                return run
            if not is_in(region, state.points[self.plant.name]):
                run.ended = 'outside'
                return run
        return run

    def others_are_safe(self, points):
        return all(is_in(module.safe, points[module.plant]) for module in self.meaning.modules if module.plant != self.plant.name)

    # --- ways to lead a plant out -------------------------------------------------------------------------------------

    def adversaries(self, region):
        """Ways to choose disturbances: each corner all along, and the one that leads nearest to the edge at each tick."""
        constant = [lambda state, tick, row=row: row for row in self.noises]
        return constant + [lambda state, tick: self.worst_noise(state, region)]

    def worst_noise(self, state, region):
        return min(self.noises, key=lambda row: self.room_after(state, region, row, None))

    def room_after(self, state, region, noise, commands):
        names = state.names(self.plant, noise)
        if commands is not None:
            names.update(zip(self.plant.inputs, commands))
        try:
            return margin(region, self.plant.next_point(names))
        except Trap:
            return -2.0

    def commanders(self, region):
        """Ways to choose commands: each corner all along, and the one that leads nearest to the edge at each tick."""
        constant = [lambda state, tick, row=row: row for row in self.commands]
        return constant + [lambda state, tick: min(self.commands, key=lambda row: min(self.room_after(state, region, noise, row) for noise in self.noises))]

    def shortest(self, start, region, limit=LONGEST, held=None):
        """The shortest run out of the region that some disturbances lead, with the safe node in charge; None where none was found. `held` is what the topics hold at first, where that is known."""
        found = None
        for scalars, choose in itertools.product([held] if held else self.first_scalars(start), self.adversaries(region)):
            if self.is_late():
                break
            run = self.flown(start, region, choose, limit=len(found.steps) if found else limit, scalars=scalars)
            if run.ended and (found is None or len(run.steps) < len(found.steps)):
                found = run
        return found

    def first_scalars(self, start):
        """What the topics may hold at the start. Where the safe node does not publish all of its commands at once, the advanced node may have left any there."""
        initial = self.meaning.initial
        drafted = State(self, start, None).fire(0, True).get(self.node.name, {})
        if all(name in drafted for name in self.plant.inputs if name in self.node.writes):
            return [initial]
        return [{**initial, **dict(zip(self.plant.inputs, row))} for row in self.commands]

    def shortest_commanded(self, start, region, limit):
        """The same under any commands, within so many ticks."""
        found = None
        for command, choose in itertools.product(self.commanders(region), self.adversaries(region)):
            if self.is_late():
                break
            run = self.flown(start, region, choose, command, len(found.steps) if found else limit)
            if run.ended and (found is None or len(run.steps) < len(found.steps)):
                found = run
        return found

    def held_with(self, run, tick, commands):
        """Whether other commands, held from a tick of a run on to its end, keep the plant inside there, with the run's disturbances."""
        start = run.start if tick == 0 else run.steps[tick - 1].points
        state = State(self, start, None)
        for step in run.steps[tick:]:
            state.scalars = {**step.commands, **dict(zip(self.plant.inputs, commands))}
            try:
                state.tick(step.noise)
            except Trap:
                return False
            if not is_in(self.module.safe, state.points[self.plant.name]):
                return False
        return True


class State:
    """A program at a time, with the safe node of one module firing at time 0."""

    def __init__(self, situation, points, scalars):
        meaning = situation.meaning
        self.situation, self.points = situation, {name: list(point) for name, point in points.items()}
        self.scalars = dict(scalars or meaning.initial)
        self.locals = {node.name: dict(node.first) for node in meaning.nodes}

    def states(self):
        return {f'{plant.name}.{state}': number for plant in self.situation.meaning.plants for state, number in zip(plant.states, self.points[plant.name])}

    def fire(self, tick, with_safe):
        """What the nodes draft that fire at a tick; published at once."""
        fired = {}
        for node in self.situation.heard:
            tested = node is self.situation.node
            offset = 0 if tested else node.offset
            if (tested and not with_safe) or tick < offset or (tick - offset) % node.period:
                continue
            names = {name: number for name, number in {**self.scalars, **self.states()}.items() if name in node.reads}
            try:
                after, draft = node.body.run({**names, **self.locals[node.name]}, {**self.situation.meaning.ranges, **node.local_ranges})
            except Trap:
                after, draft = self.locals[node.name], {}
            self.locals[node.name] = {name: after[name] for name in node.local_ranges}
            fired[node.name] = draft
            self.scalars.update(draft)
        return fired

    def names(self, plant, noise):
        """What a plant's formulas may name."""
        return {**self.scalars, **self.states(), **dict(zip(plant.states, self.points[plant.name])), **dict(zip(plant.noise, noise))}

    def tick(self, noise):
        self.points = {plant.name: plant.next_point(self.names(plant, noise[plant.name])) for plant in self.situation.meaning.plants}


def middle(plant):
    """No disturbance, or the middle of what there is."""
    return tuple(0 if bound.lo <= 0 <= bound.hi else (bound.lo + bound.hi) // 2 for bound in plant.bounds)


def sampled(region, most):
    """Points of a region: corners, middles and places between, spread over its boxes."""
    found, each = [], max(most // max(len(region), 1), 5)
    for box in region:
        across = max(int(each ** (1 / len(box))), 2)
        sides = [sorted({lo + (hi - lo) * i // (across - 1) for i in range(across)} | {(lo + hi) // 2}) for lo, hi in box]
        found += itertools.product(*sides)
    return list(dict.fromkeys(found))[:4 * most]


# --- what recover leaves open -----------------------------------------------------------------------------------------

def stays_away(situation, point):
    """How a plant stays outside `safer` under its safe node for good: `stops` without a disturbance, `noise` with one; '' where it was seen to come back."""
    still = middle(situation.plant)
    rows = [still] + [row for row in situation.noises if row != still]
    for row in rows:
        if cycles_outside(situation, point, row):
            return 'stops' if row == still else 'noise'
    return ''


def cycles_outside(situation, point, row):
    """Whether the plant, always with this disturbance, comes again to a state where it was, with one outside `safer` in between."""
    state, seen, path = State(situation, situation.around(point), None), {}, []
    period = situation.node.period
    for hold in range(2000):
        key = (tuple(map(tuple, state.points.values())), tuple(state.locals[situation.node.name].values()), tuple(state.scalars.values()))
        if key in seen:
            return any(not is_in(situation.module.safer, one) for one in path[seen[key]:])
        seen[key] = len(path)
        path.append(state.points[situation.plant.name])
        for tick in range(period):
            state.fire(tick, True)
            try:
                state.tick({plant.name: row if plant is situation.plant else middle(plant) for plant in situation.meaning.plants})
            except Trap:
                return False
        if situation.is_late():
            return False
    return False


def situation_of(text, name, jitter=0):
    """A module of a program's text by its name."""
    meaning = Meaning(text)
    return Situation(meaning, next(module for module in meaning.modules if module.name == name), jitter)
