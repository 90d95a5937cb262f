"""Bounds of a whole range: of the flow less its form, and of what happens between ticks."""
import heapq
import itertools

from . import affine, forms
from .expressions import names_in, slope_of
from .faults import Fault, Split
from .flow import polynomial_in
from .intervals import INF, add, around, down, hull, mag, neg, sum_up, up
from .limits import Limit

NEAR = 0.01  # part of the noise to which bounds are made exact
SMALLEST = 2e-4  # part of its range to which a side is cut, where there is no bound
MOST_FACES = 2000
FEW = 256  # cells in which an affine flow is looked at between its ticks


def bounded(system, flow):
    """Rows and limits of all states, and a word on how near they are."""
    check_kept(system, flow)
    found = affine.affine_of(system)
    if found:
        rows, limits = affine.bounds(system, found)
        look_between(system, flow, limits)
        return rows, limits, ""
    try:
        rows = forms.chosen(system, flow)
    except (ArithmeticError, ValueError) as why:
        what = "a division by 0" if isinstance(why, ZeroDivisionError) else "numbers beyond floats"
        raise Fault(
            "state", f"somewhere in the range the rates have no value for a tick: {what}"
        ) from None
    search = Search(system, flow, rows)
    search.run()
    note = f"The range of {system.name} was cut into {search.made} boxes; "
    note += f"finer ones could take at most {100 * search.worst:.0f} % more off its noise."
    return rows, search.limits, note


def check_kept(system, flow):
    """Of a state that its rate keeps in its range: at each end the rate leads inwards or is 0, wherever the others
    are within a tick, so that no solution leaves (Nagumo). The faces are cut until their boxes show it."""
    within = within_ticks(system, flow)
    for i, s in enumerate(system.states):
        for end, sign in ((s.lo, 1), (s.hi, -1)) if s.keeps else ():
            face = list(within)
            face[i] = around(end)
            if not is_kept(system, flow, face, i, sign):
                text = f"at {float(end):g} the rate may lead out of the range"
                raise Fault(f"state.{s.name}.keeps", text)


def within_ticks(system, flow):
    """The ranges of a cell, but of states that may leave theirs between two samples: what a tick leads through."""
    ranges, kept = flow.ranges(), [s for s in system.states if s.keeps]
    named = set().union(*[names_in(s.rate) for s in kept])
    loose = [not (s.safe or s.keeps or s.stops or system.boxes) for s in system.states]
    if not any(out and s.name in named for out, s in zip(loose, system.states)):
        return ranges
    tube, stack = None, [ranges]
    while stack:
        cell = stack.pop()
        try:
            seen = flow.walk(cell).tube
            tube = seen if tube is None else [hull(a, b) for a, b in zip(tube, seen)]
        except Split as why:
            stack += halves(flow, cell, None, str(why))
    return [t if out else r for t, out, r in zip(tube, loose, ranges)] + ranges[flow.n :]


def is_kept(system, flow, face, i, sign):
    stack, seen = [face], 0
    while stack:
        cell, seen = stack.pop(), seen + 1
        try:
            rate = flow.field(cell[: flow.n], cell, flow.whole)[i]
            if (rate if sign > 0 else neg(rate))[0] >= -1e-290:  # 0, but for the last rounding
                continue
        except Split:
            pass
        if seen > MOST_FACES:
            return False
        try:
            stack += halves(flow, cell, None, "")
        except Fault:
            return False
    return True


def halves(flow, cell, axis, why):
    """The two halves of a cell, along an axis or its widest side."""
    if axis is None:
        parts = flow.parts(cell)
        axis = parts.index(max(parts))
        if parts[axis] < SMALLEST:
            at = ", ".join(f"{k} = {c[0]:.4g}" for k, c in zip(flow.free, cell))
            raise Fault("state", f"near {at} the rates have no bound for a tick: {why}")
    lo, hi = cell[axis]
    mid = (lo + hi) / 2
    return [cell[:axis] + [side] + cell[axis + 1 :] for side in ((lo, mid), (mid, hi))]


def look_between(system, flow, limits):
    """What an affine flow does between its ticks, over a few cells."""
    stack, done = [flow.ranges()], 0
    while stack:
        cell = stack.pop()
        try:
            tick = flow.walk(cell)
        except Split as why:
            stack += halves(flow, cell, None, str(why))
            continue
        done += 1
        if done + len(stack) < FEW and any(tick.span):
            parts = flow.parts(cell)
            axis = parts.index(max(parts[: flow.n]))
            if parts[axis] > SMALLEST:
                stack += halves(flow, cell, axis, "")
                continue
        note_between(system, limits, tick)
        for limit, rate in zip(limits, tick.rates):
            limit.goes((), rate)


def note_between(system, limits, tick):
    """What is between ticks counts for a state where solutions from the cell can leave what was asked."""
    for i, (s, limit) in enumerate(zip(system.states, limits)):
        (lo, hi), far = tick.tube[i], tick.span[i]
        if lo < s.asked[0]:
            limit.below = max(limit.below, far)
        if hi > s.asked[1]:
            limit.above = max(limit.above, far)
        limit.chord = max(limit.chord, tick.chord[i])
        limit.moves = max(limit.moves, tick.moves[i])


class Search:
    """Cuts the range where a bound is worst, till all are near what the middles of cells show."""

    def __init__(self, system, flow, rows):
        self.system, self.flow, self.rows = system, flow, rows
        self.limits = [Limit() for _ in rows]
        self.heaps, self.best, self.leaves = {}, {}, {}
        self.todo, self.fresh, self.made, self.worst = [], itertools.count(), 0, 0.0
        for row, limit in zip(rows, self.limits):
            limit.rounded = float(row.rounded)
        self.begin()

    def begin(self):
        """A cell for each choice of pieces; the state is within r of the sample, which is in the piece."""
        cuts = {}
        for row in self.rows:
            for v, ends in row.cuts.items():
                cuts[v] = sorted(set(cuts.get(v, [])) | set(ends))
        for choice in forms.choices(cuts):
            ranges = forms.part_ranges(self.system, cuts, dict(zip(cuts, choice)))
            cell = []
            for v in self.system.states:
                lo, hi = ranges[v.name]
                cell.append(around(max(v.lo, lo - v.shift - v.r), min(v.hi, hi - v.shift + v.r)))
            cell += [around(*ranges[h.name]) for h in self.system.inputs]
            cell += [around(lo, hi) for _, lo, hi in self.system.unsure]
            pieces = []
            for row in self.rows:
                own = [sum(1 for c in ends if c <= ranges[v][0]) for v, ends in row.cuts.items()]
                pieces.append(tuple(own))
            self.todo.append((cell, pieces))
            self.note_reading(cell, pieces)

    def note_reading(self, cell, pieces):
        """What the form changes by where the state is not what was read."""
        env = self.flow.read_as(cell)
        env |= {s.name: add(env[s.name], around(-s.r, s.r)) for s in self.system.states}
        for row, limit, piece in zip(self.rows, self.limits, pieces):
            slopes = [mag(polynomial_in(slope_of(row.forms[piece], x), env)) for x in self.flow.xs]
            halves_of = [around(s.q / 2)[1] for s in self.system.states]
            errors = [around(s.error)[1] for s in self.system.states]
            limit.read = max(limit.read, sum_up(k * h for k, h in zip(slopes, halves_of)))
            limit.read_error = max(limit.read_error, sum_up(k * e for k, e in zip(slopes, errors)))

    def forms_of(self, pieces):
        return [row.forms[piece] for row, piece in zip(self.rows, pieces)]

    def look(self, cell, pieces):
        try:
            got, tick = self.flow.error(cell, self.forms_of(pieces))
        except Split as why:
            self.todo.extend((c, pieces) for c in halves(self.flow, cell, None, str(why)))
            return
        key = next(self.fresh)
        self.leaves[key] = (cell, pieces, got, tick)
        for i, (whole, value, _, _) in enumerate(got):
            off, centre = tick.off[i], sum(value) / 2
            for side, top, seen in ((0, whole[1], centre), (1, -whole[0], -centre)):
                group = (i, pieces[i], side)
                heapq.heappush(self.heaps.setdefault(group, []), (-top - off, key))
                self.best[group] = max(self.best.get(group, -INF), seen + off)

    def run(self):
        while True:
            while self.todo:
                self.look(*self.todo.pop())
                self.made += 1
                if self.made > 20 * self.system.cells:
                    raise Fault(
                        "cells",
                        "the range falls into too many boxes: a shorter tick, or a narrower range",
                    )
            goal = self.widest()
            if goal is None or self.made >= self.system.cells or not self.cut(*goal):
                break
        for leaf in self.leaves.values():
            self.note(*leaf)
        for limit in self.limits:
            limit.misfit = max(0.0, (limit.high - limit.low) / 2 - limit.disturbance)

    def widest(self):
        """The group whose bound is farthest from what the middles show, and its cell."""
        self.worst, goal = 0.0, None
        for heap in self.heaps.values():
            while heap[0][1] not in self.leaves:
                heapq.heappop(heap)
        for (i, piece, side), heap in self.heaps.items():
            other = self.heaps[i, piece, 1 - side]
            wide = -heap[0][0] - other[0][0] + 2 * float(self.system.states[i].r)
            gap = (-heap[0][0] - self.best[i, piece, side]) / wide
            if gap > self.worst:
                self.worst, goal = gap, (i, heap[0][1])
        return goal if self.worst >= NEAR else None

    def cut(self, i, key):
        """Cuts a cell; tells whether that was possible."""
        cell, pieces, got, _ = self.leaves[key]
        _, _, adds, rest = got[i]
        axis = adds.index(max(adds))
        parts = self.flow.parts(cell)
        if rest > max(adds):  # the enclosure is too wide: the state with the widest part
            axis = parts.index(max(parts))
        if parts[axis] < SMALLEST:
            return False
        del self.leaves[key]
        self.todo.extend((c, pieces) for c in halves(self.flow, cell, axis, ""))
        return True

    def note(self, cell, pieces, got, tick):
        note_between(self.system, self.limits, tick)
        for i, limit in enumerate(self.limits):
            whole, off = got[i][0], tick.off[i]
            limit.meet(pieces[i], down(whole[0] - off), up(whole[1] + off))
            limit.goes(pieces[i], tick.rates[i])
            limit.disturbance = max(limit.disturbance, off)
