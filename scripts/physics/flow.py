"""A tick of the flow from a box, in intervals of floats.

A cell is a list of ranges: of the states, the inputs, and the unsure constants, in this order.
"""
import math
from dataclasses import dataclass

from . import series
from .expressions import has_kink, names_in, slope_of
from .faults import Rough, Split
from .intervals import (
    UNIT,
    ZERO,
    add,
    around,
    div,
    dot,
    hull,
    mag,
    middle,
    mul,
    outward,
    power,
    sub,
    sum_up,
    thin,
)

TERMS = 24  # of the series that bounds what disturbances do
TRIES = 12  # of boxes around a step
ROOM = 1 + 1e-14  # for the last places of a few products


@dataclass
class Tick:
    """What is known of a tick from a cell."""

    tube: list  # a box that every solution stays in
    rates: list  # the ranges of the rates in it
    off: list  # how far disturbances lead from the flow with all of them in their middles
    span: list  # how far a state leaves the span of its samples in between
    chord: list  # how far it leaves the line between them
    moves: list  # how far it is from the nearer of the two
    values: list  # the flow from the cell's middle, with what the series leaves out anywhere
    slopes: list  # of the flow, along all directions, anywhere in the cell
    middle: list
    radius: list  # the cell less its middle


def polynomial_in(form, env):
    """The range of a polynomial over ranges of its names."""
    total = ZERO
    for m, c in form.items():
        term = around(c)
        for name in sorted(set(m)):
            term = mul(term, power(env[name], m.count(name)))
        total = add(total, term)
    return total


class Flow:
    """Bounds for one tick of a system."""

    def __init__(self, system):
        self.system = system
        self.xs = [s.name for s in system.states]
        self.us = [h.name for h in system.inputs]
        self.free = self.xs + self.us + [name for name, _, _ in system.unsure]
        self.n, self.t = len(self.xs), around(system.tick)
        self.rates = [s.rate for s in system.states]
        self.jumps = [s.jump for s in system.states]
        self.named = set().union(*map(names_in, self.rates + self.jumps))
        self.whole = {name: around(lo, hi) for name, lo, hi in system.disturbances}
        self.mean = {name: around((lo + hi) / 2) for name, lo, hi in system.disturbances}
        self.spread = {name: around((hi - lo) / 2)[1] for name, lo, hi in system.disturbances}
        self.parts_of_tick = None

    def ranges(self):
        found = [around(v.lo, v.hi) for v in self.system.variables]
        return found + [around(lo, hi) for _, lo, hi in self.system.unsure]

    def parts(self, cell):
        """Which part of its range each side of the cell is, of those that stand in a rate."""
        return [
            (c[1] - c[0]) / (w[1] - w[0]) if w[1] > w[0] and name in self.named else 0.0
            for name, c, w in zip(self.free, cell, self.ranges())
        ]

    def env(self, cell, disturbances, order, seeds):
        """Series of the names, constant in time, with slopes along the seeds."""
        out, rest = {}, [series.NONE] * order
        for name, value in [*zip(self.free, cell), *disturbances.items()]:
            slopes = None
            if name in seeds:
                slopes = tuple(UNIT if s == name else ZERO for s in seeds)
            out[name] = [(value, slopes)] + rest
        return out

    def field(self, box, cell, disturbances):
        env = self.env(list(box) + list(cell[self.n :]), disturbances, 0, ())
        return [series.evaluated(r, env, 0)[0][0] for r in self.rates]

    def series(self, cell, order, seeds, rough=(), cap=0):
        """Coefficients 0..order in time of the states, disturbances in their middles; of rough ones 0..cap."""
        env = self.env(cell, self.mean, order, seeds)
        for x in self.xs:
            env[x] = env[x][:1]
        for j in range(order):
            new = []
            for i, (x, rate) in enumerate(zip(self.xs, self.rates)):
                if i not in rough or j < cap:
                    new.append((x, series.evaluated(rate, env, j)[j]))
            for x, c in new:
                env[x].append(series.scaled(c, div(UNIT, thin(float(j + 1)))))
        return [env[x] for x in self.xs]

    def kinked(self):
        """The states that depend on a rate with a kink in it."""
        found = {i for i, r in enumerate(self.rates) if has_kink(r)}
        for _ in self.xs:
            named = {self.xs[j] for j in found}
            found |= {i for i, r in enumerate(self.rates) if names_in(r) & named}
        return found

    # --- a box that the flow stays in ----------------------------------------------------------------

    def enclosure(self, cell, h):
        """A box in which every solution from the cell stays for the time h (Picard)."""
        start, span = cell[: self.n], (0.0, h[1])

        def image(box):
            return [add(x, mul(span, f)) for x, f in zip(start, self.field(box, cell, self.whole))]

        box = wider(image(start))
        for _ in range(TRIES):
            got = image(box)
            left = [g[0] < b[0] or b[1] < g[1] for b, g in zip(box, got)]
            if not any(left):
                return image(got)
            more = wider([hull(b, g) for b, g in zip(box, got)])
            box = [m if out else b for b, m, out in zip(box, more, left)]
        raise Split("no box was found that the flow stays in for a tick")

    def steps(self):
        """In how many steps a tick is walked, so that these boxes are near: a guess, with no promise."""
        if self.parts_of_tick is None:
            ranges, fast = self.ranges(), 0.0
            corners = [[thin(middle(r)) for r in ranges]]
            corners += [[thin(r[k]) for r in ranges] for k in (0, 1)]
            for corner in corners:
                try:
                    env = self.env(corner, self.mean, 0, self.xs)
                    rows = [series.evaluated(r, env, 0)[0][1] or () for r in self.rates]
                    fast = max(fast, max(sum(mag(g) for g in row) for row in rows))
                except (Split, Rough):
                    continue
            self.parts_of_tick = min(40, max(1, math.ceil(self.t[1] * fast / 0.6)))
        return self.parts_of_tick

    # --- a tick --------------------------------------------------------------------------------------

    def kicked(self, cell, mid):
        """The states behind the jumps at the tick's start: middle, slopes, what the middle is off, and the box."""
        directions = range(len(cell))
        values = self.env(mid, self.mean, 0, ())
        over = self.env(cell, self.mean, 0, self.free)
        centre, lead, rest, box = [], [], [], []
        for i, jump in enumerate(self.jumps):
            value = add(mid[i], series.evaluated(jump, values, 0)[0][0])
            range_of, slopes = series.evaluated(jump, over, 0)[0]
            own = tuple(UNIT if j == i else ZERO for j in directions)
            lead.append(series.each(add, own, slopes) if slopes else own)
            centre.append(thin(middle(value)))
            rest.append(sub(value, centre[-1]))
            box.append(add(cell[i], range_of))
        return centre, lead, rest, box

    def walk(self, cell):
        """The tick from the cell, step by step: the flow with mid disturbances is centre + lead (cell - its middle)
        + rest, and all solutions are within `off` of it."""
        n, parts = self.n, self.steps()
        h = div(self.t, thin(float(parts)))
        mid = [thin(middle(c)) for c in cell]
        radius, tail = [sub(c, m) for c, m in zip(cell, mid)], cell[n:]
        centre, lead, rest, box = self.kicked(cell, mid)
        wide, seen = box, Seen()
        for k in range(parts):
            around_step = self.enclosure(wide + tail, h)
            seen.meet(around_step, *self.slopes_of(around_step, tail))
            off = self.led_off(seen.slopes, seen.push, mul(h, thin(float(k + 1))))
            values, turns = self.step(centre, mid[n:], box, tail, around_step, h)
            old = rest
            lead = [self.turned(turn, lead) for turn in turns]
            centre = [thin(middle(v)) for v in values]
            rest = [
                add(sub(v, c), dot(turn[:n], old)) for v, c, turn in zip(values, centre, turns)
            ]
            box = [add(add(c, r), dot(g, radius)) for c, r, g in zip(centre, rest, lead)]
            wide = [add(b, (-z, z)) if z else b for b, z in zip(box, off)]
        apart = self.between(cell, seen)
        values = [add(c, r) for c, r in zip(centre, rest)]
        return Tick(seen.tube, seen.rates, off, *apart, values, lead, mid, radius)

    def turned(self, turn, lead):
        """The slopes behind a step of slopes `turn`, where they were `lead` before it."""
        n = self.n
        return tuple(
            add(dot(turn[:n], [g[j] for g in lead]), turn[j] if j >= n else ZERO)
            for j in range(len(self.free))
        )

    def slopes_of(self, box, tail):
        """Over a box: the rates, their slopes along the states, and what disturbances push."""
        n, seeds = self.n, self.xs + list(self.whole)
        env = self.env(box + tail, self.whole, 0, seeds)
        field = [series.evaluated(r, env, 0)[0] for r in self.rates]
        rows = [d[1] or (ZERO,) * len(seeds) for d in field]
        push = [
            sum_up(mag(g) * self.spread[x] for g, x in zip(row[n:], self.whole)) for row in rows
        ]
        return [d[0] for d in field], rows, push

    def step(self, *where):
        try:
            return self.step_of(*where, ())
        except Rough:
            return self.step_of(*where, self.kinked())

    def step_of(self, centre, mid_tail, box, tail, around_step, h, rough):
        """The value after a step from the centre, with what the series leaves out anywhere, and its slopes over the
        box; of rough states to order 2."""
        order, none = self.system.order, (ZERO,) * len(self.free)
        at = self.series(centre + mid_tail, order - 1, (), rough, 1)
        over = self.series(box + tail, order - 1, self.free, rough, 1)
        far = self.series(around_step + tail, order, (), rough, 2)
        values, turns = [], []
        for i in range(self.n):
            value, slopes, h_power = ZERO, none, UNIT
            own = 2 if i in rough else order
            for j in range(own):
                value = add(value, mul(h_power, at[i][j][0]))
                if over[i][j][1] is not None:
                    slopes = tuple(add(s, mul(h_power, g)) for s, g in zip(slopes, over[i][j][1]))
                h_power = mul(h_power, h)
            values.append(add(value, mul(h_power, far[i][own][0])))
            turns.append(slopes)
        return values, turns

    def led_off(self, slopes, push, t):
        """Bounds of the integral of exp(M s) push, M the slopes' bounds with magnitudes off the diagonal."""
        if not any(push):
            return [0.0] * self.n
        m = [
            [thin(mag(g)) if i != j else thin(g[1]) for j, g in enumerate(row[: self.n])]
            for i, row in enumerate(slopes)
        ]
        size = max(sum(abs(x[0]) for x in row) for row in m) * t[1]
        if size > 4:
            raise Split("the tick is too long for the fastest motion")
        term = [thin(w) for w in push]
        total = [mul(t, x) for x in term]
        for k in range(2, TERMS):  # 1 / k is off by a last place, which the last line has room for
            term = [mul(mul(t, thin(1 / k)), dot(row, term)) for row in m]
            total = [add(a, mul(t, x)) for a, x in zip(total, term)]
        left = t[1] * max(push) * size**TERMS / math.factorial(TERMS) * 2
        left += 1e-13 * max(mag(x) for x in total)
        return [max(0.0, x[1] + left) for x in total]

    def between(self, cell, seen):
        """How far each state leaves the span of its two samples, the line between them, and the nearer of them."""
        span, chord, moves, t = [], [], [], self.t[1]
        kicks = self.env(cell, self.mean, 0, ())
        for i, (a, b) in enumerate(seen.rates):
            turn = sum_up(mag(g) * mag(v) for g, v in zip(seen.slopes[i][: self.n], seen.rates))
            bent = sum_up((turn * t * t / 8 * ROOM, seen.push[i] * t / 2 * ROOM))
            kick = mag(series.evaluated(self.jumps[i], kicks, 0)[0][0])
            known = a >= 0 or b <= 0
            off = 0.0 if known else min(t * -a * b / (b - a) * ROOM, bent)
            span.append(sum_up((off, kick)))
            chord.append(sum_up((bent, kick)))
            moves.append(sum_up((max(abs(a), abs(b)) * t / 2 * ROOM, kick)))
        return span, chord, moves

    def error(self, cell, forms):
        """For each state the flow less its form: the range over the cell, at its middle, what each direction adds to
        it, and the width of the rest; and the tick."""
        tick = self.walk(cell)
        at_middle, over = self.read_as(tick.middle), self.read_as(cell)
        out = []
        for form, value, slopes, s in zip(forms, tick.values, tick.slopes, self.system.states):
            whole = value = sub(add(value, around(s.shift)), polynomial_in(form, at_middle))
            adds = []
            for s, x, radius in zip(slopes, self.free, tick.radius):
                adds.append(mul(sub(s, polynomial_in(slope_of(form, x), over)), radius))
                whole = add(whole, adds[-1])
            out.append((whole, value, [a[1] - a[0] for a in adds], value[1] - value[0]))
        return out, tick

    def read_as(self, cell):
        """The ranges of the names as a form has them: states as they are read, but for r."""
        env = dict(zip(self.free, cell))
        for s in self.system.states:
            env[s.name] = add(env[s.name], around(s.shift))
        return env


class Seen:
    """The hull of what was seen in the steps of a tick."""

    def __init__(self):
        self.tube = self.rates = self.slopes = self.push = None

    def meet(self, box, rates, slopes, push):
        if self.tube is None:
            self.tube, self.rates, self.slopes, self.push = box, rates, slopes, push
            return
        self.tube = [hull(a, b) for a, b in zip(self.tube, box)]
        self.rates = [hull(a, b) for a, b in zip(self.rates, rates)]
        self.slopes = [series.each(hull, a, b) for a, b in zip(self.slopes, slopes)]
        self.push = [max(a, b) for a, b in zip(self.push, push)]


def wider(box, part=0.1):
    found = []
    for a, b in box:
        room = part * (b - a) + 1e-12 * (1 + max(abs(a), abs(b)))
        found.append(outward(a - room, b + room))
    return found
