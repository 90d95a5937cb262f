"""Affine rates with exact constants: a tick in fractions."""
from fractions import Fraction as Q

from . import matrices
from .expressions import names_in, polynomial
from .faults import Fault
from .forms import Row, settled
from .intervals import around
from .limits import Limit


def affine_of(system):
    """(A, B, E, c) of rates that are affine in everything, with exact constants; else None."""
    unsure = {name for name, _, _ in system.unsure}
    if any(unsure & (names_in(s.rate) | names_in(s.jump)) for s in system.states):
        return None
    rows = [polynomial(s.rate) for s in system.states]
    if any(p is None or any(len(m) > 1 for m in p) for p in rows + jumps_of(system)):
        return None
    kinds = (
        [s.name for s in system.states],
        [h.name for h in system.inputs],
        [name for name, _, _ in system.disturbances],
    )
    parts = [[[p.get((k,), Q(0)) for k in kind] for p in rows] for kind in kinds]
    return (*parts, [p.get((), Q(0)) for p in rows])


def jumps_of(system):
    return [polynomial(s.jump) for s in system.states]


def bounds(system, found):
    """For each state its row and the bounds of (flow less form), all from fractions."""
    a, b, e, c = found
    t, n = system.tick, len(system.states)
    exact, whole, off = matrices.flow(a, t)
    middle = [(lo + hi) / 2 for _, lo, hi in system.disturbances]
    radius = [(hi - lo) / 2 for _, lo, hi in system.disturbances]
    steady = [cr + sum(x * m for x, m in zip(er, middle)) for er, cr in zip(e, c)]
    drive = matrices.product(whole, [[*br, k] for br, k in zip(b, steady)])
    jumps = [
        [p.get((h.name,), Q(0)) for h in system.inputs] + [p.get((), Q(0))]
        for p in jumps_of(system)
    ]
    drive = matrices.plus(drive, matrices.product(exact, jumps))
    top = [max(abs(v.lo), abs(v.hi)) for v in system.variables] + [Q(1)]
    pushed = sum(t * abs(x) * k for br, s in zip(b, steady) for x, k in zip([*br, s], top[n:]))
    kicked = sum(abs(x) * k for row in jumps for x, k in zip(row, top[n:]))
    shed = off * (sum(top[:n], Q(0)) + pushed + kicked)
    noise = matrices.reach_of_disturbance(a, e, t) if radius else [[]] * n
    shifts = [x.shift for x in system.states]
    for i, s in enumerate(system.states):  # all in numbers as they are read
        drive[i][-1] += s.shift - sum(k * shift for k, shift in zip(exact[i], shifts))
    rows, limits = [], []
    for i, s in enumerate(system.states):
        push = sum((x * r for x, r in zip(noise[i], radius)), Q(0))
        row, limit = bound_of(system, i, exact[i] + drive[i], shed, push)
        limit.read = above(
            sum(((abs(k) + off) * x.q / 2 for k, x in zip(exact[i], system.states)), Q(0))
        )
        limit.read_error = above(
            sum(((abs(k) + off) * x.error for k, x in zip(exact[i], system.states)), Q(0))
        )
        rows.append(row)
        limits.append(limit)
    return rows, limits


def above(number):
    return around(number)[1]


def bound_of(system, i, coefficients, shed, push):
    """The row of one state, and its bounds but for what reading costs."""
    s = system.states[i]
    names = [(v.name,) for v in system.variables] + [()]
    form = {m: k for m, k in zip(names, coefficients) if k}
    asked, style, _ = settled(system, i, [system.forms.get(s.name, form)])
    if any(len(m) > 1 for m in asked[0]):
        raise Fault(f"form.{s.name}", "the rates are affine: so is the form")
    row, limit = Row({}), Limit()
    row.forms, row.style = {(): asked[0]}, style
    low = high = Q(0)
    for m, v in zip(names, system.variables + [None]):
        k = form.get(m, 0) - asked[0].get(m, 0)
        wide = getattr(v, "r", 0)  # samples may be so far out of the range
        ends = (k, k) if v is None else (k * (v.least - wide), k * (v.greatest + wide))
        low, high = low + min(ends), high + max(ends)
    limit.rounded, limit.misfit, limit.disturbance = (
        above((high - low) / 2),
        above(shed),
        above(push),
    )
    limit.meet((), around(low - shed - push)[0], around(high + shed + push)[1])
    return row, limit
