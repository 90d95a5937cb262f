"""What scripts/picture draws of a module: its regions, cells, and what was flown over the ticks and in planes of two state variables."""
import itertools

import missiontext
from drawing import Axis, Sheet, outline
from missiontext import box_words, decimal, point_words

WIDTH, LEFT, RIGHT = 880, 110, 24
MOST_MODULES = 20
FEW = 40
MANY = 60
REGIONS = ('safe', 'safer')
CELLS = ('closed', 'reach')
SHADOWS = ' (shadows)'
LEGEND = {
    'safe': 'safe region', 'safer': 'safer region', 'closed': 'closed cell', 'reach': 'reach cell', 'path': 'state of the plant',
    'ac': 'advanced node enabled', 'sc': 'safe node enabled', 'fire': 'fired', 'idle': 'fired, not heard', 'refused': 'a number refused',
    'ignored': 'a line ignored: a draft, an input or a resume', 'blind': 'a line not taken: the robot is not seen', 'lost': 'the models are trusted no more',
    'resumed': 'the models are trusted again',
    'noise': 'disturbance', 'bound': 'its bounds', 'badcell': 'failing cell', 'badbox': 'where it may come to', 'badpoint': 'failing point',
}
OBSERVED = {'path': 'observed state', 'badbox': 'where its model allows it to be', 'badpoint': 'observed outside'}


class View:
    """What is drawn of one module: its plant, regions, cells, what failed, and what was flown."""

    def __init__(self, judged, module):
        self.module, self.plant, self.program = module, judged.program.plants[module.plant], judged.program
        entry = judged.cells.get(module.name) or {}
        self.boxes = {'safe': module.safe, 'safer': module.safer}
        self.boxes.update({kind: [[tuple(side) for side in cell] for cell in entry.get(kind, [])] for kind in CELLS})
        self.failed = missiontext.refusal_of(judged.answer) if judged.status == 1 else None
        if self.failed and self.failed['module'] != module.name:
            self.failed = None
        self.last, self.path, self.noise, self.modes, self.firings = judged.trace.last(), [], [], [(0, 'sc')], {}
        self.talk, self.outside = judged.talk, judged.talk and judged.talk.outside
        if self.outside and self.outside.plant != self.plant.name:
            self.outside = None
        self.lost = judged.talk.lost if judged.talk else []
        self.resumed = judged.talk.resumed if judged.talk else []
        self.to_lose = [at for at, _ in self.lost]
        self.fly_over(judged.trace)

    def fly_over(self, trace):
        """Takes from the trace what is of this module."""
        if self.plant.name in trace.starts:
            self.path.append(trace.starts[self.plant.name])
        for event in trace.events:
            self.lose_trust(event.time)
            if event.kind == 'unseen':
                # the plant counts as where it was observed last
                self.path.append(self.path[-1])
            elif event.kind == 'tick':
                noise, states = event.numbers[self.plant.name]
                self.path.append(states)
                self.noise += [noise] if noise is not None else []
            elif event.kind == 'decide' and event.name == self.module.name and event.numbers != self.modes[-1][1]:
                self.modes.append((event.time, event.numbers))
            elif event.kind in ('fire', 'idle') and event.name in (self.module.ac, self.module.sc):
                kinds = [event.kind] + ['refused'] * any(mark == '!' for _, mark, _ in event.writes)
                for kind in kinds:
                    self.firings.setdefault((event.name, kind), []).append(event.time)
        self.lose_trust(self.last)

    def lose_trust(self, time):
        """Once the models are trusted no more the safe node is in charge at once, and not first when its module decides."""
        while self.to_lose and time >= self.to_lose[0]:
            at = self.to_lose.pop(0)
            if self.modes[-1][1] != 'sc':
                self.modes.append((at, 'sc'))

    def bad(self):
        """What failed, as (class, box or point, words)."""
        if not self.failed:
            return []
        found, kind = [], 'reach' if self.failed['no'] in ('7', '8', '9') else 'closed'
        cell = self.failed['cell']
        if self.failed['box']:
            found.append(('badbox', self.failed['box'], f'after {self.failed["tick"]} ticks: {box_words(self.plant, self.failed["box"])}'))
        if cell is not None:
            box = self.boxes[kind][cell]
            found.append(('badcell', box, f'{kind} cell {cell}: {box_words(self.plant, box)}'))
        if self.failed['point']:
            found.append(('badpoint', [(number, number) for number in self.failed['point']], f'point {point_words(self.plant, self.failed["point"])}'))
        return found

    def bad_time(self):
        """The tick of the point that failed, of a mission that was flown: its start."""
        return 0

    def cut(self, kind, shown):
        """The boxes of a region or of a list of cells that are drawn in these variables, each once, with their places: shadows, or cut at the point that failed."""
        point, found = self.failed and self.failed['point'], {}
        for place, box in enumerate(self.boxes[kind]):
            if point and not all(lo <= point[i] <= hi for i, (lo, hi) in enumerate(box) if i not in shown):
                continue
            found.setdefault(tuple(box[i] for i in shown), []).append(place)
        return found

    def reach_of(self, state):
        """The numbers of a state variable that are to be seen: all regions, cells and the path, and of what failed as much as is in sight of them."""
        sides = [box[state] for kind in REGIONS + CELLS for box in self.boxes[kind]] + [(point[state],) * 2 for point in self.path]
        bad = [box[state] for _, box, _ in self.bad()]
        lo, hi = ends_of(sides or bad or [(0, 0)])
        sight = max((hi - lo) // 4, 1)
        for side in bad:
            lo, hi = min(lo, max(side[0], lo - sight)), max(hi, min(side[1], hi + sight))
        return lo, hi

    def near(self, state):
        """The numbers of a state variable that are near to its line, or to the point that failed; few numbers are seen whole."""
        lo, hi = self.reach_of(state)
        points = self.path or [point for point in (self.failed and self.failed['point'],) if point]
        if not points or hi - lo <= FEW:
            return lo, hi
        low, high = ends_of([(point[state],) * 2 for point in points])
        margin = max((high - low) // 2, (hi - lo) // (20 if self.path else 8))
        return max(lo, low - margin), min(hi, high + margin)


def ends_of(sides):
    """The least range around ranges."""
    return min(side[0] for side in sides), max(side[1] for side in sides)


def union(sides):
    """Ranges as the fewest that hold the same numbers."""
    found = []
    for lo, hi in sorted(sides):
        if found and lo <= found[-1][1] + 1:
            found[-1] = (found[-1][0], max(found[-1][1], hi))
        else:
            found.append((lo, hi))
    return found


def seen(axis, sides):
    """The ranges of which something is on the axis."""
    return [(lo, hi) for lo, hi in sides if hi >= axis.lo and lo <= axis.hi]


def listed(numbers):
    return ' '.join(map(str, numbers))


class Picture:
    """Draws views from the top down."""

    def __init__(self, judged, near):
        self.judged, self.near, self.sheet, self.y, self.used = judged, near, Sheet(), 0.0, set()
        self.legend = {**LEGEND, **(OBSERVED if judged.talk else {})}

    def draw(self, view):
        """All of one module."""
        self.y += 26
        module, plant = view.module, view.plant
        self.sheet.open('g', class_='module', data_module=module.name, data_plant=plant.name)
        self.sheet.text(14.0, self.y, f'module {module.name}: plant {plant.name}, advanced node {module.ac}, safe node {module.sc}', 'head')
        self.y += 10
        if len(view.path) > 0:
            for state in range(len(plant.states)):
                self.draw_state(view, state)
            self.draw_modes(view)
            self.draw_untaken(view)
            for node in (module.ac, module.sc):
                self.draw_firings(view, node)
            for noise in range(len(plant.noise) if not view.talk else 0):
                self.draw_noise(view, noise)
            self.draw_ticks(view)
        if len(plant.states) == 1:
            self.draw_line(view)
        else:
            self.draw_planes(view)
        self.sheet.close('g')

    def ticks(self, view):
        """The axis of time."""
        return Axis(0, max(view.last, 1), LEFT, WIDTH - RIGHT, cells=False)

    def show(self, kind):
        """Tells the legend of a class."""
        self.used.add(kind)
        return kind

    def draw_scale(self, axis, x, length, said, count):
        """The numbers of an upright axis, with lines across, and its name left of them."""
        longest = 0
        for number in axis.marks(count):
            y = axis.at(number)
            self.sheet.put('path', class_='grid', d=f'M{x:.2f} {y:.2f}h{length:.2f}')
            self.sheet.text(x - 6.0, y + 3.5, axis.words(number), 'small', 'end')
            longest = max(longest, len(axis.words(number)))
        self.sheet.text(x - 14 - 6.2 * longest, (axis.begin + axis.end) / 2 + 4, said, '', 'end')

    def draw_foot(self, axis, y, said):
        """The numbers of a level axis, below it."""
        for number in axis.marks(7):
            x = axis.at(number)
            self.sheet.put('path', class_='frame', d=f'M{x:.2f} {y:.2f}v4')
            self.sheet.text(x, y + 14, axis.words(number), 'small', 'middle')
        self.sheet.text(axis.end, y + 26, said, '', 'end')

    def draw_state(self, view, state):
        """One state variable over the ticks."""
        name, scale, height = view.plant.states[state], view.plant.scales[state], 110
        self.y += 18
        time, axis = self.ticks(view), Axis(*view.near(state), self.y + height, self.y, scale)
        self.sheet.open('g', class_='state', data_state=name, **time.data('x'), **axis.data('y'))
        for kind in REGIONS:
            for lo, hi in seen(axis, union([box[state] for box in view.boxes[kind]])):
                self.draw_band(axis, kind, lo, hi, f'{LEGEND[kind]}: {name} {decimal(lo, scale)}..{decimal(hi, scale)}')
        self.draw_scale(axis, LEFT, WIDTH - RIGHT - LEFT, name, 5)
        values = [point[state] for point in view.path]
        places = ' '.join(f'{time.at(tick):.2f},{axis.at(value):.2f}' for tick, value in enumerate(values))
        self.sheet.put('polyline', f'{view.plant.name}.{name}', class_=self.show('path'), points=places, data_values=listed(values))
        self.draw_bad_start(view, state, time, axis)
        self.draw_outside(view, state, time, axis)
        marks = [('lost', at, words) for at, words in view.lost] + [('resumed', at, f'{at} resumed') for at in view.resumed]
        for kind, at, words in marks:
            self.sheet.put('path', f'{words}: {LEGEND[kind]}', class_=self.show(kind), d=f'M{time.at(at):.2f} {self.y:.2f}v{height}', data_time=at)
        self.sheet.close('g')
        self.y += height

    def draw_band(self, axis, kind, lo, hi, title):
        """A range of an upright axis over all ticks."""
        begin, length = axis.side(lo, hi)
        self.sheet.put('rect', title, class_=f'{self.show(kind)} band', x=float(LEFT), y=begin, width=float(WIDTH - RIGHT - LEFT), height=length, data_lo=lo, data_hi=hi)

    def draw_bad_start(self, view, state, time, axis):
        """The point of a plant that starts outside."""
        for kind, box, words in view.bad():
            if kind == 'badpoint':
                self.sheet.put('circle', words, class_=self.show(kind), cx=time.at(view.bad_time()), cy=axis.at(box[state][0]), r=4, data_point=box[state][0])

    def draw_outside(self, view, state, time, axis):
        """The state that was told to be outside, and the interval that its model allows there."""
        said = view.outside
        if not said or said.state != view.plant.states[state]:
            return
        scale, (begin, length) = view.plant.scales[state], axis.side(said.lo, said.hi)
        words = f'{said.state} {decimal(said.value, scale)} observed, and allowed {decimal(said.lo, scale)}..{decimal(said.hi, scale)}'
        self.sheet.put('rect', words, class_=self.show('badbox'), x=time.at(said.time) - 3.0, y=begin, width=6.0, height=length, data_lo=said.lo, data_hi=said.hi)
        self.sheet.put('circle', words, class_=self.show('badpoint'), cx=time.at(said.time), cy=axis.at(said.value), r=4, data_point=said.value)

    def draw_modes(self, view):
        """Which of the two nodes is enabled."""
        self.y += 12
        time, ends = self.ticks(view), [at for at, _ in view.modes[1:]] + [view.last]
        self.sheet.open('g', class_='modes', **time.data('x'))
        self.sheet.text(LEFT - 6.0, self.y + 10, 'mode', '', 'end')
        for (begin, mode), end in zip(view.modes, ends):
            if end > begin or (begin, mode) == view.modes[-1]:
                length = max(time.at(end) - time.at(begin), 1.0)
                self.sheet.put('rect', f'{LEGEND[mode]}, {begin} to {end}', class_=self.show(mode), x=time.at(begin), y=self.y, width=length, height=12.0, data_from=begin, data_to=end)
        self.sheet.close('g')
        self.y += 14

    def draw_untaken(self, view):
        """When the program answered `ignored` or `blind`; nothing where each line of the talk was taken."""
        if not view.talk or not view.talk.untaken:
            return
        time = self.ticks(view)
        self.sheet.open('g', class_='untaken', **time.data('x'))
        self.sheet.text(LEFT - 6.0, self.y + 10, 'not taken', '', 'end')
        for kind in ('ignored', 'blind'):
            found = [one for one in view.talk.untaken if one.kind == kind]
            if found:
                words = ', '.join(dict.fromkeys(' '.join(filter(None, (kind, one.about, one.why))) for one in found))
                place = ''.join(f'M{time.at(one.time):.2f} {self.y + 2:.2f}v8' for one in found)
                self.sheet.put('path', words, class_=self.show(kind), d=place, data_times=listed(one.time for one in found))
        self.sheet.close('g')
        self.y += 14

    def draw_firings(self, view, node):
        """When a node fired: heard or not, and where a number of its draft was refused."""
        time = self.ticks(view)
        self.sheet.open('g', class_='firings', data_node=node, **time.data('x'))
        self.sheet.text(LEFT - 6.0, self.y + 10, node if len(node) < 17 else node[:15] + '..', '', 'end')
        for kind in ('idle', 'fire', 'refused'):
            times = view.firings.get((node, kind), [])
            if times:
                place = ''.join(f'M{time.at(at):.2f} {self.y + (9 if kind == "refused" else 2):.2f}v{3 if kind == "refused" else 8}' for at in times)
                self.sheet.put('path', f'{node}: {LEGEND[kind]}', class_=self.show(kind), d=place, data_times=listed(times))
        self.sheet.close('g')
        self.y += 14

    def draw_noise(self, view, noise):
        """One disturbance: what it was in each tick, within its bounds."""
        name, bound, height = view.plant.noise[noise], view.plant.bounds[noise], 34
        self.y += 18
        time, axis = self.ticks(view), Axis(bound.lo, bound.hi, self.y + height, self.y, bound.scale)
        self.sheet.open('g', class_='noise-of', data_noise=name, **time.data('x'), **axis.data('y'))
        self.draw_band(axis, 'bound', bound.lo, bound.hi, f'{name} in {decimal(bound.lo, bound.scale)}..{decimal(bound.hi, bound.scale)}')
        self.draw_scale(axis, LEFT, WIDTH - RIGHT - LEFT, name, 2)
        values = [numbers[noise] for numbers in view.noise]
        steps = ' '.join(f'{time.at(tick):.2f},{axis.at(value):.2f} {time.at(tick + 1):.2f},{axis.at(value):.2f}' for tick, value in enumerate(values))
        if steps:
            self.sheet.put('polyline', f'{view.plant.name}: {name}', class_=self.show('noise'), points=steps, data_values=listed(values))
        self.sheet.close('g')
        self.y += height

    def draw_ticks(self, view):
        self.y += 6
        self.draw_foot(self.ticks(view), self.y, 'ticks')
        self.y += 30

    def draw_line(self, view):
        """A plant of one state variable: its regions and cells one below another, along one axis."""
        plant = view.plant
        axis = Axis(*view.reach_of(0), LEFT, WIDTH - RIGHT, plant.scales[0])
        self.y += 10
        self.sheet.open('g', class_='line', data_state=plant.states[0], **axis.data('x'))
        top = self.y
        for kind in REGIONS + CELLS:
            self.sheet.text(LEFT - 6.0, self.y + 11, kind, '', 'end')
            for (side,), places in view.cut(kind, (0,)).items():
                self.draw_side(axis, kind, side, self.y + 1, 13.0, self.titled(view, kind, places, [side], (0,)), places)
            self.y += 17
        for kind, box, words in view.bad():
            if kind == 'badpoint':
                self.sheet.put('circle', words, class_=self.show(kind), cx=axis.at(box[0][0]), cy=self.y + 7.5, r=4, data_point=box[0][0])
            else:
                self.draw_side(axis, kind, box[0], top if kind == 'badcell' else self.y + 1, self.y - top if kind == 'badcell' else 13.0, words, [])
        self.y += 17 if view.bad() else 0
        self.draw_foot(axis, self.y + 2, plant.states[0])
        self.sheet.close('g')
        self.y += 32

    def draw_side(self, axis, kind, side, y, height, title, places):
        begin, length = axis.side(*side)
        self.sheet.put('rect', title, class_=f'{self.show(kind)} box', x=begin, y=y, width=length, height=height, data_box=f'{side[0]}..{side[1]}', data_places=listed(places))

    def titled(self, view, kind, places, sides, shown):
        """What is shown where a pointer rests on a box."""
        names, scales = ([of[i] for i in shown] for of in (view.plant.states, view.plant.scales))
        where = ', '.join(f'{name} {decimal(lo, scale)}..{decimal(hi, scale)}' for name, scale, (lo, hi) in zip(names, scales, sides))
        some = listed(places[:8]) + (' ..' if len(places) > 8 else '')
        return f'{LEGEND[kind]} {some}: {where}'

    def draw_planes(self, view):
        """Each two state variables, two planes in a row."""
        pairs = list(itertools.combinations(range(len(view.plant.states)), 2))
        across = WIDTH - RIGHT - LEFT if len(pairs) == 1 else (WIDTH - RIGHT - 2 * LEFT) // 2
        height = 380 if len(pairs) == 1 else 290
        for place, pair in enumerate(pairs):
            column = place % 2
            if column == 0:
                self.y += 22
            self.draw_plane(view, pair, LEFT + column * (across + LEFT), across, height)
            if column == 1 or place == len(pairs) - 1:
                self.y += height + 36

    def draw_plane(self, view, pair, left, width, height):
        names, scales = ([of[i] for i in pair] for of in (view.plant.states, view.plant.scales))
        ends = [view.near(i) if self.near else view.reach_of(i) for i in pair]
        across, up = Axis(*ends[0], left, left + width, scales[0]), Axis(*ends[1], self.y + height, self.y, scales[1])
        self.sheet.open('g', class_='plane', data_states=' '.join(names), **across.data('x'), **up.data('y'))
        for kind in REGIONS:
            self.draw_boxes(view, kind, pair, across, up)
        self.draw_scale(up, left, width, names[1], 8)
        self.draw_foot(across, self.y + height, names[0] + self.cut_words(view, pair))
        self.sheet.put('rect', class_='frame', x=float(left), y=self.y, width=float(width), height=float(height))
        for kind in CELLS:
            self.draw_boxes(view, kind, pair, across, up)
        for kind, box, words in view.bad():
            if kind == 'badpoint':
                x, y = (box[i][0] for i in pair)
                self.sheet.put('circle', words, class_=self.show(kind), cx=across.at(x), cy=up.at(y), r=4, data_point=f'{x},{y}')
            else:
                self.draw_box(across, up, kind, [box[i] for i in pair], words, [])
        self.draw_path(view, pair, across, up)
        self.sheet.close('g')

    def cut_words(self, view, pair):
        """Where the plane is cut, or that it shows shadows."""
        others = [i for i in range(len(view.plant.states)) if i not in pair]
        if not others:
            return ''
        point = view.failed and view.failed['point']
        if not point:
            return SHADOWS
        return ' (at ' + ', '.join(f'{view.plant.states[i]} {decimal(point[i], view.plant.scales[i])}' for i in others) + ')'

    def draw_boxes(self, view, kind, pair, across, up):
        boxes = view.cut(kind, pair)
        if kind in CELLS and len(boxes) > MANY:
            self.draw_outline(kind, boxes, across, up)
            return
        faint = ' faint' if kind in CELLS and self.cut_words(view, pair) == SHADOWS else ''
        for sides, places in boxes.items():
            if seen(across, sides[:1]) and seen(up, sides[1:]):
                self.draw_box(across, up, kind, sides, self.titled(view, kind, places, sides, pair), places, faint)

    def draw_outline(self, kind, boxes, across, up):
        """Very many cells: the edge of all that they hold."""
        level, upright = outline(list(boxes))
        place = ''.join(f'M{across.edge(left):.2f} {up.edge(y):.2f}H{across.edge(right):.2f}' for y, left, right in level)
        place += ''.join(f'M{across.edge(x):.2f} {up.edge(low):.2f}V{up.edge(high):.2f}' for x, low, high in upright)
        said = ' '.join(','.join(f'{lo}..{hi}' for lo, hi in sides) for sides in boxes)
        self.sheet.put('path', f'the outline of {len(boxes)} cells', class_=f'{self.show(kind)} outline', d=place, data_boxes=said)

    def draw_box(self, across, up, kind, sides, title, places, more=''):
        (x, width), (y, height) = across.side(*sides[0]), up.side(*sides[1])
        said = ','.join(f'{lo}..{hi}' for lo, hi in sides)
        self.sheet.put('rect', title, class_=f'{self.show(kind)} box{more}', x=x, y=y, width=width, height=height, data_box=said, data_places=listed(places))

    def draw_path(self, view, pair, across, up):
        if not view.path:
            return
        xs, ys = ([point[i] for point in view.path] for i in pair)
        places = ' '.join(f'{across.at(x):.2f},{up.at(y):.2f}' for x, y in zip(xs, ys))
        self.sheet.put('polyline', 'path', class_=self.show('path'), points=places, data_x=listed(xs), data_y=listed(ys))
        self.sheet.put('circle', f'start: {point_words(view.plant, view.path[0])}', class_='start', cx=across.at(xs[0]), cy=up.at(ys[0]), r=3)

    def said(self):
        """What was said of the mission, and whether that is bad."""
        judged, talk = self.judged, self.judged.talk
        if talk and judged.status == 0:
            return (f'soter_guard: {talk.lost[0][1]}', True) if talk.lost else ('soter_guard: no plant outside its model', False)
        return f'soter {judged.command}: {judged.answer if judged.command == "check" or judged.status else "accepted and flown"}', judged.status != 0

    def text(self, about):
        """The whole picture, with the answer and the legend at its head."""
        head = Sheet()
        words, bad = self.said()
        head.text(14.0, 20.0, words, 'head bad' if bad else 'head')
        x, y = 14.0, 30.0
        for kind in [kind for kind in LEGEND if kind in self.used]:
            width = 26 + 6.2 * len(self.legend[kind])
            if x + width > WIDTH - 10:
                x, y = 14.0, y + 18
            self.swatch(head, kind, x, y)
            head.text(x + 20, y + 10, self.legend[kind], 'small')
            x += width
        height = y + 22
        head.open('g', transform=f'translate(0 {height:.2f})')
        head.parts += self.sheet.parts
        head.close('g')
        return head.whole(WIDTH, round(height + self.y + 14), f'soter: {about}', words)

    def swatch(self, head, kind, x, y):
        if kind in ('path', 'noise', 'fire', 'idle', 'refused', 'ignored', 'blind', 'lost', 'resumed'):
            head.put('path', class_=kind, d=f'M{x:.2f} {y + 6:.2f}h15')
        elif kind == 'badpoint':
            head.put('circle', class_=kind, cx=x + 8, cy=y + 6, r=4)
        else:
            head.put('rect', class_=kind, x=x, y=y + 1, width=15.0, height=10.0)
