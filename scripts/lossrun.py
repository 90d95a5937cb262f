"""What scripts/why finds of an answer: the run that leaves a region, why, and the mission that flies it.

It is tested and not proved. All numbers are mantissas; `decimal` writes one as people read it.
"""
import re

import missiontext
import runs
from meaning import Meaning
from missiontext import decimal, point_words, whole_numbers
from wording import ticks

SAMPLES = 80
SHOWN = 10              # so many ticks at the beginning and at the end of a run are written
MOST_TICKS = 900


class NotAsked(Exception):
    """The answer is none of which a run can tell, and why."""


class Loss:
    """A region that is lost: of which module, under whom, from where, and the run that was found, if any."""

    def __init__(self, situation, kind, region, text):
        self.situation, self.kind, self.region, self.text = situation, kind, region, text
        self.run, self.looked_at, self.survivor, self.turn, self.limit = None, 0, None, None, None
        self.how, self.gap, self.enough = '', False, 1

    # --- looking for it -----------------------------------------------------------------------------------------------

    def shortest_from(self, point):
        """The shortest run from a point that was found: under the safe node, or under any commands and then, where that is asked, the safe node."""
        best = None, None
        for start in self.situation.starts(point):
            most = self.run and self.how == 'soonest' and len(self.run.steps)
            if self.kind == 'closed':
                run, turn = self.situation.shortest(start, self.region, most or runs.LONGEST), None
            else:
                run, turn = self.situation.shortest_commanded(start, self.region, min(most or self.limit, self.limit)), None
                if run is None and self.how == 'longest':
                    run, turn = self.handed_over(start)
            if run and (best[0] is None or len(run.steps) < len(best[0].steps)):
                best = run, turn
        return best

    def handed_over(self, start):
        """Any commands for two periods, and then the safe node, which comes too late."""
        situation, best = self.situation, (None, None)
        choose = situation.adversaries(self.region)[-1]
        for command in situation.commanders(self.region):
            first = situation.flown(start, self.region, choose, command, self.limit)
            if first.ended or not first.steps or situation.is_late():
                continue
            late = situation.shortest(first.steps[-1].points, self.region, held=first.steps[-1].commands)
            if late and late.steps and (best[0] is None or len(late.steps) < len(best[0].steps) - self.limit):
                best = joined(first, late), len(first.steps)
        return best

    def search(self, points, how):
        """Of these points the one whose shortest run is the longest, or the shortest; none where one of them has no run, or none has."""
        self.how, best = how, None
        for point in points:
            if best and (self.situation.is_late() or (how == 'soonest' and len(best.steps) <= self.enough)):
                break
            self.looked_at += 1
            run, turn = self.shortest_from(point)
            if run is None:
                self.survivor = self.survivor or point
                if how == 'longest':
                    return
                continue
            if best is None or (len(run.steps) > len(best.steps)) == (how == 'longest'):
                best = run
                self.run, self.turn = run, turn

    # --- saying it ----------------------------------------------------------------------------------------------------

    def lines(self):
        if self.run is None:
            return self.not_found()
        return self.head() + [''] + self.table() + [''] + self.end() + self.causes()

    def not_found(self):
        point = point_words(self.situation.plant, self.survivor) if self.survivor is not None else 'any of these states'
        tried = f'no run found: from {point} {self.situation.plant.name} stays inside, in all {len(self.situation.noises) + 1} ways to choose disturbances that were tried'
        if self.gap:
            return [f'{tried}. So the state is just in no cell: add one that holds it']
        return [f'{tried}. So the boxes may be too coarse, and not the node: write each state variable once in a formula, use fewer decimals, or narrow the region']

    def head(self):
        plant, node, count = self.situation.plant, self.situation.node, self.looked_at
        who = f'the safe node `{node.name}` in charge' if self.kind == 'closed' else 'any commands' + (f' for {ticks(self.turn)}, and then the safe node `{node.name}`' if self.turn else '')
        which = '' if count == 1 else f', of {count} states that were looked at the one that lasts longest' if self.how == 'longest' else f', of {count} states of the cell the one that is lost soonest'
        return [f'a run of {plant.name} from {point_words(plant, self.run.start[plant.name])}{which}, with {who}, and with disturbances that lead out:']

    def table(self):
        """The run tick by tick, with its middle left out where it is long."""
        plant, rows = self.situation.plant, []
        rows.append(['tick', *plant.states, 'published', *plant.inputs, *plant.noise])
        points = self.run.points()
        for number, step in enumerate(self.run.steps):
            rows.append([str(number), *self.state_words(points[number]), self.draft_words(step, number),
                         *(decimal(step.commands[name], self.situation.meaning.ranges[name].scale) for name in plant.inputs),
                         *(decimal(value, bound.scale) for value, bound in zip(step.noise[plant.name], plant.bounds))])
        if self.run.ended == 'outside':
            rows.append([str(len(self.run.steps)), *self.state_words(points[-1])] + [''] * (1 + len(plant.inputs) + len(plant.noise)))
        widths = [max(len(row[i]) for row in rows) for i in range(len(rows[0]))]
        said = ['  '.join(cell.rjust(width) for cell, width in zip(row, widths)).rstrip() for row in rows]
        if len(said) > 2 * SHOWN + 3:
            said = said[:SHOWN + 1] + [f'{"..".rjust(widths[0])}'] + said[-SHOWN - 1:]
        return said

    def state_words(self, point):
        return [decimal(number, scale) for number, scale in zip(point, self.situation.plant.scales)]

    def draft_words(self, step, number):
        """What the safe node did in a tick."""
        if self.kind != 'closed' and not (self.turn and number >= self.turn):
            return 'any'
        if self.situation.node.name not in step.fired:
            return '-'
        draft = step.fired[self.situation.node.name]
        return 'yes' if all(name in draft for name in self.own_inputs()) else 'some' if draft else 'nothing'

    def own_inputs(self):
        """The inputs of the plant that the safe node writes."""
        return [name for name in self.situation.plant.inputs if name in self.situation.node.writes]

    def end(self):
        plant, last = self.situation.plant, len(self.run.steps)
        if self.run.ended == 'trap':
            return [f'at tick {last - 1} the formula of {plant.name} has no value: a divisor of 0, or a number of more than 64 bits']
        point = self.run.points()[-1]
        return [f'at tick {last} {plant.name} is at {point_words(plant, point)}: outside what was asked{self.side_words(point)}']

    def side_words(self, point):
        """Which state variable is past which end of all boxes; nothing where it is a gap between them."""
        plant = self.situation.plant
        for state, number, scale, place in zip(plant.states, point, plant.scales, range(len(point))):
            lo, hi = min(box[place][0] for box in self.region), max(box[place][1] for box in self.region)
            if not lo <= number <= hi:
                return f', whose {state} is {decimal(lo, scale)}..{decimal(hi, scale)}'
        return ', between its boxes'

    # --- why ----------------------------------------------------------------------------------------------------------

    def causes(self):
        if self.run.ended == 'trap':
            return ['keep the divisor away from 0, or leave such states out of the region']
        if self.kind != 'closed' and self.turn is None:
            return [f'the check allows any commands for twice the module\'s period, here {ticks(self.limit)}: leave such states out of `safer`, or give the module a shorter period']
        firings = [number for number, step in enumerate(self.run.steps) if self.situation.node.name in step.fired and number >= (self.turn or 0)]
        silent = [number for number in firings if any(name not in self.run.steps[number].fired[self.situation.node.name] for name in self.own_inputs())]
        helped = self.help_at(firings)
        lines = []
        if silent:
            missing = [name for name in self.own_inputs() if name not in self.run.steps[silent[-1]].fired[self.situation.node.name]]
            lines.append(f'`{self.situation.node.name}` published nothing on {", ".join(missing)} at tick {silent[-1]}: the last command stays there')
        if helped:
            number, commands = helped
            lines.append(f'it pushed the wrong way, or too weakly: held from tick {number} on, {self.command_words(commands)} in place of {self.command_words(self.commands_at(number))} '
                         f'keeps {self.situation.plant.name} inside up to tick {len(self.run.steps)}, with the same disturbances')
        elif not silent:
            lines.append(self.no_help(firings))
        if self.turn:
            lines.append(f'the safe node came after {ticks(self.turn)} of any commands: a shorter period of the module, or a slower plant, leaves it more room')
        return lines

    def no_help(self, firings):
        """No command that was tried helps: at its end of the range, or not."""
        ends = [(self.situation.meaning.ranges[name].lo, self.situation.meaning.ranges[name].hi) for name in self.own_inputs()]
        full = firings and all(number in side for at in firings for number, side in zip(self.commands_at(at), ends))
        if full:
            return f'`{self.situation.node.name}` published the end of its range at each firing, and no other command that was tried helps: a stronger actuator, a weaker disturbance, or a region that leaves such states out'
        return 'no command that was tried, held to the end, helps from any firing on: the region asks for too much there, or the disturbance is too strong'

    def commands_at(self, number):
        return tuple(self.run.steps[number].commands[name] for name in self.situation.plant.inputs)

    def command_words(self, commands):
        ranges = self.situation.meaning.ranges
        return ' '.join(f'{name}={decimal(number, ranges[name].scale)}' for name, number in zip(self.situation.plant.inputs, commands)) or 'nothing'

    def help_at(self, firings):
        """The last firing from which on other commands keep the plant inside to the end of the run, and these."""
        if self.run.ended != 'outside':
            return None
        for number in reversed(firings[-60:]):
            for commands in self.situation.commands:
                if commands != self.commands_at(number) and self.situation.held_with(self.run, number, commands):
                    return number, commands
        return None


def joined(first, late):
    """Two runs, one behind the other."""
    whole = runs.Run(first.start, first.plant)
    whole.scalars = first.scalars
    whole.steps = first.steps + [step._replace(time=step.time + len(first.steps)) for step in late.steps]
    whole.ended = late.ended
    return whole


# --- from an answer -----------------------------------------------------------------------------------------------------

def loss_of(text, command, answer, jitter):
    """The loss that an answer tells of, with the run that was found."""
    program = text if command in ('regions', 'certify') else missiontext.Sections(text).parts['program']
    found = of_regions(program, answer, jitter) or of_certify(program, answer) or (of_check(program, text, answer) if command == 'check' else None)
    if found is None:
        raise NotAsked('soter\'s answer tells of no cell and of no region that is lost; it has to be `safe none`, `safer none`, a point, a gap or a cell')
    return found


def situation_in(program, name, jitter):
    meaning = Meaning(program)
    return runs.Situation(meaning, next(module for module in meaning.modules if module.name == name), jitter)


def of_regions(program, answer, jitter):
    said = re.match(r'refused regions module (\S+) (safe|safer) (none|TooMany)', answer)
    if not said:
        return None
    if said[3] == 'TooMany':
        raise NotAsked('`TooMany` is no word on the node: there may be a region, of more boxes. Narrow `safe`, or use fewer decimals')
    situation = situation_in(program, said[1], jitter)
    loss = Loss(situation, 'closed' if said[2] == 'safe' else 'reach', situation.module.safe, program)
    loss.limit = 2 * (situation.module.period + jitter)
    loss.search(ordered(runs.sampled(situation.module.safe, SAMPLES), situation.module.safe), 'longest')
    return loss


def ordered(points, region):
    """Those that are the farthest inside first, so that one that is not lost is found soon."""
    return sorted(points, key=lambda point: -runs.margin(region, point))


def of_certify(program, answer):
    said = re.match(r'refused certify module (\S+) (closed|reach) (point \((.*)\)|TooMany)', answer)
    if not said:
        return None
    if said[3] == 'TooMany':
        raise NotAsked('`TooMany` is no word on the node: other cells may show it')
    situation = situation_in(program, said[1], 0)
    loss = Loss(situation, said[2], situation.module.safe, program)
    loss.limit = 2 * situation.module.period
    loss.search([whole_numbers(said[4])], 'evidence')
    return loss


def of_check(program, text, answer):
    said = missiontext.refusal_of(answer)
    if not said or said['no'] not in ('4', '5', '6', '7', '8', '9'):
        return None
    cert = missiontext.json_of(missiontext.Sections(text).parts['certificate'])
    situation = situation_in(program, said['module'], cert.get('jitter', 0))
    kind = 'closed' if said['no'] in ('4', '5', '6') else 'reach'
    loss = Loss(situation, kind, situation.module.safe, program)
    loss.limit = 2 * (situation.module.period + situation.jitter)
    if said['cell'] is None:
        loss.gap = True
        loss.search([said['point']], 'evidence')
        return loss
    cell = [tuple(side) for side in cert['modules'][said['module']][kind][said['cell']]]
    inside = [point for point in runs.sampled([cell], SAMPLES) if runs.is_in(situation.module.safe, point)]
    if not inside:
        raise NotAsked(f'{kind} cell {said["cell"]} lies outside `safe`: make it smaller')
    loss.enough = said['tick'] or 1
    loss.search(sorted(inside, key=lambda point: runs.margin(situation.module.safe, point)), 'soonest')
    return loss


# --- the run as a flight --------------------------------------------------------------------------------------------------

def flight_of(loss):
    """A mission whose flight is the run: the same formulas, held to the box around the run, which is then its region. None where there is none."""
    run, situation = loss.run, loss.situation
    if run.ended != 'outside' or len(run.steps) >= MOST_TICKS:
        return None
    boxes = {name: box_around([run.start[name]] + [step.points[name] for step in run.steps]) for name in run.start}
    program = Rewritten(loss, boxes).text()
    cells = ','.join(f'"{module.name}":{{"closed":[{cell_text(boxes[module.plant])}],"reach":[{cell_text(boxes[module.plant])}]}}' for module in situation.meaning.modules)
    return (f'# The run that scripts/why found: {situation.plant.name} is led out of what was asked at tick {len(run.steps)}.\n'
            '# The formulas are held to the box around the run, which is its region here, and the run touches no bound from inside.\n'
            f'{program}%certificate\n{{"format":1,"modules":{{{cells}}}}}\n%flight\n{flight_text(loss)}\n')


def box_around(points):
    return [(min(side), max(side)) for side in zip(*points)]


def cell_text(box):
    return '[' + ','.join(f'[{lo},{hi}]' for lo, hi in box) + ']'


class Rewritten:
    """The canonical text of the program with other regions and times: the module decides so late, or at once, that the run is the safe node's, or the commands' own."""

    def __init__(self, loss, boxes):
        self.loss, self.boxes = loss, boxes
        self.meaning, self.declared = loss.situation.meaning, loss.situation.meaning.declared
        self.lines, self.owner, self.dropped = [], ('', ''), False

    def text(self):
        for line in canonical(self.loss.text).split('\n'):
            head = re.match(r'(plant|module|node|external|topic) (\w+)', line)
            if head:
                self.owner = head[1], head[2]
            self.take(line)
        return '\n'.join(self.lines)

    def take(self, line):
        kind, name = self.owner
        if kind == 'topic' and line.startswith('topic '):
            line = self.of_topic(line, name)
        elif kind == 'plant' and line.startswith('  next '):
            line = self.held_next(line, name)
        elif kind == 'module':
            line = self.of_module(line, name)
        elif kind in ('node', 'external'):
            line = self.of_node(line, kind, name)
        if line is not None:
            self.lines.append(line)

    def of_topic(self, line, name):
        """With what it holds at the start of the run."""
        topic = self.declared.topics[name]
        values = [self.loss.run.scalars[missiontext.scalar_name(topic, field)] for field in topic.fields]
        said = ', '.join('false' if scalar.kind == 'bool' and not value else 'true' if scalar.kind == 'bool' else decimal(value, scalar.scale) for value, scalar in zip(values, topic.scalars))
        return line[:line.index(' = ')] + (f' = {said};' if topic.fields == [None] else f' = {{{said}}};')

    def held_next(self, line, name):
        plant = self.declared.plants[name]
        state, _, formula = line[len('  next '):-1].partition(' = ')
        place = plant.states.index(state)
        lo, hi = (decimal(end, plant.scales[place]) for end in self.boxes[name][place])
        return f'  next {state} = clamp({formula}, {lo}, {hi});'

    def of_module(self, line, name):
        tested = name == self.loss.situation.module.name
        if line.startswith('  period '):
            return '  period 1000 offset 0;' if tested and self.loss.kind == 'reach' else '  period 1000 offset 999;'
        if line.startswith(('  safe ', '  safer ')):
            plant = self.declared.plants[self.declared.modules[name].plant]
            sides = ', '.join(f'{decimal(lo, scale)}..{decimal(hi, scale)}' for (lo, hi), scale in zip(self.boxes[plant.name], plant.scales))
            return f'{line.split(" [")[0].split(" none")[0]} [{sides}];'
        return line

    def of_node(self, line, kind, name):
        module = self.loss.situation.module
        if self.loss.kind == 'reach' and name == module.ac:
            return self.of_commander(line, kind, name)
        if name == module.sc and line.startswith(f'{kind} {name} period '):
            return re.sub(r'offset \d+', 'offset 0', line)
        return line

    def of_commander(self, line, kind, name):
        """The advanced node, which drafts the commands of the run tick by tick."""
        if line.startswith(f'{kind} {name} period '):
            self.dropped = False
            return f'external {name} period 1 offset 0 {{'
        if line.startswith(('  local ', '  do ')):
            self.dropped = line.startswith('  do ')
            return None
        if self.dropped:
            self.dropped = line != '  }'
            return None
        return line


def canonical(text):
    import judged
    return judged.ask(judged.SOTER, 'format', text, SOTER_HINTS='0')[1]


def flight_text(loss):
    run, situation = loss.run, loss.situation
    declared, module = situation.meaning.declared, situation.module
    starts = ','.join(f'"{name}":{listed(point)}' for name, point in run.start.items())
    sway = ','.join(f'"{plant.name}":{{"kind":"list","values":[{",".join(listed(step.noise[plant.name]) for step in run.steps)}]}}'
                    for plant in situation.meaning.plants if plant.noise)
    crew = []
    for node in declared.nodes.values():
        of = next(other for other in situation.meaning.nodes if other.name == node.name)
        if loss.kind == 'reach' and node.name == module.ac:
            crew.append((node.name, [listed(step.commands[name] for name in of.writes) for step in run.steps]))
        elif not node.coded:
            crew.append((node.name, [listed('null' for _ in of.writes)]))
    crews = ','.join(f'"{name}":{{"kind":"script","drafts":[{",".join(rows)}]}}' for name, rows in crew)
    return f'{{"format":1,"horizon":{len(run.steps)},"start":{{{starts}}},"inputs":[],"sway":{{{sway}}},"crew":{{{crews}}}}}'


def listed(numbers):
    return '[' + ','.join(map(str, numbers)) + ']'
