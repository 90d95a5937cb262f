"""Forms: the polynomials that stand in `next`. They are fitted in floats, and a bad fit costs noise alone."""
import itertools
import math
from fractions import Fraction as Q

from .expressions import curved, names_in, number
from .faults import Fault
from .values import WORK, even_cuts

ROUNDS = 25  # of weights
MOST_PIECES = 16
SMALL = 50  # what coefficients are rounded by costs at most this part of a unit
STYLES = 10


class Row:
    """The form of one state: for each piece (a choice of one part of each cut variable) a polynomial.

    Coefficients are written as they stand; `style` is 0 for literals, else the power of ten that divides the row.
    """

    def __init__(self, cuts):
        self.cuts, self.forms, self.style, self.rounded = cuts, {}, 0, Q(0)


def settled(system, i, forms):
    """The forms with coefficients as they can be written, the style, and what this changes at most."""
    s, places = system.states[i], {v.name: v.decimals for v in system.variables}
    largest = {v.name: max(abs(v.least), abs(v.greatest)) for v in system.variables}
    reach = lambda m: math.prod((largest[v] for v in m), start=Q(1))
    for m in {m for form in forms for m in form}:
        if sum(places[v] for v in m) > WORK:
            what = "*".join(m)
            key = "form" if s.name in system.forms else "terms"
            raise Fault(
                f"{key}.{s.name}",
                f"the product {what} has more than {WORK} decimals: take fewer, or another form",
            )
    for style in range(STYLES):
        out, worst = [], Q(0)
        for form in forms:
            got, off = rounded(form, style, places, reach)
            out.append(got)
            worst = max(worst, off)
        size = max(sum(abs(c) * reach(m) for m, c in form.items()) for form in out)
        if size * 4 * 10 ** (WORK + style) >= 2**63:
            break
        if worst <= s.q / SMALL or style == STYLES - 1:
            return out, style, worst
    text = (
        "its products do not fit 64 bits with coefficients that are exact enough: fewer decimals"
    )
    raise Fault(f"state.{s.name}.decimals", text)


def rounded(form, style, places, reach):
    """A form with coefficients of decimals that can be written, and what that changes at most."""
    got, off = {}, Q(0)
    for m, c in form.items():
        own = WORK if not m else style or WORK - sum(places[v] for v in m)
        near = Q(round(c * 10**own), 10**own)
        off += abs(near - c) * reach(m)
        if near:
            got[m] = near
    return got, off


# --- fits -------------------------------------------------------------------------------------------


def nominal(system, flow, x, u):
    """One tick of samples in floats, disturbances and unsure constants in their middles."""
    x = [a - float(s.shift) for a, s in zip(x, system.states)]
    env = dict(zip(flow.us, u))
    env |= {k: float(lo + hi) / 2 for k, lo, hi in system.unsure + system.disturbances}
    h = float(system.tick) / 8
    x = [a + number(jump, env) for a, jump in zip(x, flow.jumps)]

    def rates(y):
        env.update(zip(flow.xs, y))
        return [number(r, env) for r in flow.rates]

    for _ in range(8):
        k1 = rates(x)
        k2 = rates([a + h / 2 * b for a, b in zip(x, k1)])
        k3 = rates([a + h / 2 * b for a, b in zip(x, k2)])
        k4 = rates([a + h * b for a, b in zip(x, k3)])
        x = [a + h / 6 * (b + 2 * c + 2 * d + e) for a, b, c, d, e in zip(x, k1, k2, k3, k4)]
    return [a + float(s.shift) for a, s in zip(x, system.states)]


def solve(a, b):
    """A solution of a linear system; a pivot of 0 counts as a small one."""
    n = len(b)
    rows = [row[:] + [v] for row, v in zip(a, b)]
    for c in range(n):
        pivot = max(range(c, n), key=lambda r: abs(rows[r][c]))
        rows[c], rows[pivot] = rows[pivot], rows[c]
        if abs(rows[c][c]) < 1e-13:
            rows[c][c] = 1e-13
        for r in range(n):
            if r != c:
                k = rows[r][c] / rows[c][c]
                rows[r] = [x - k * y for x, y in zip(rows[r], rows[c])]
    return [rows[i][n] / rows[i][i] for i in range(n)]


def fit(points, values, monomials):
    """Coefficients with a small greatest miss (Lawson's weights), and that miss."""
    columns = [[math.prod((p[v] for v in m), start=1.0) for p in points] for m in monomials]
    size = [max(map(abs, c)) or 1.0 for c in columns]
    columns = [[x / s for x in c] for c, s in zip(columns, size)]
    weights, best = [1.0] * len(points), None
    for _ in range(ROUNDS):
        a = [[sum(w * x * y for w, x, y in zip(weights, c, e)) for e in columns] for c in columns]
        b = [sum(w * x * y for w, x, y in zip(weights, c, values)) for c in columns]
        found = solve(a, b)
        miss = [
            abs(v - sum(k * c[j] for k, c in zip(found, columns))) for j, v in enumerate(values)
        ]
        top = max(miss)
        if best is None or top < best[1]:
            best = (found, top)
        if top < 1e-12:
            break
        weights = [w * (m / top + 1e-3) for w, m in zip(weights, miss)]
        total = sum(weights)
        weights = [w / total * len(weights) for w in weights]
    return [c / s for c, s in zip(best[0], size)], best[1]


def part_ranges(system, cuts, piece):
    """The ranges of all variables in a piece; a number at which it is cut belongs to the piece above."""
    out = {}
    for v in system.variables:
        inner = cuts.get(v.name, [])
        k, unit = piece.get(v.name, 0), Q(1, 10**v.decimals)
        lo = inner[k - 1] if k else v.least
        hi = inner[k] - unit if k < len(inner) else v.greatest
        out[v.name] = (min(lo, hi), hi) if k == 0 else (lo, max(lo, hi))
    return out


def choices(cuts):
    """All pieces: which part of each cut variable."""
    return itertools.product(*[range(len(c) + 1) for c in cuts.values()])


def points_of(system, flow, ranges, bent):
    """Where a fit looks: the ends of what is straight, and more of what is bent."""
    axes = []
    for name in flow.xs + flow.us:
        a, b = map(float, ranges[name])
        nodes = [-1, 1]
        if name in bent:
            nodes = [-1, -0.7, 0, 0.7, 1] if len(bent) < 4 else [-1, 0, 1]
        axes.append([(a + b) / 2 + (b - a) / 2 * z for z in nodes])
    return list(itertools.product(*axes))


def fitted(system, flow, i, cuts, bent):
    """Fitted forms of state i for all pieces, and the greatest miss at the points that were looked at."""
    s, names = system.states[i], flow.xs + flow.us
    monomials = [()] + [(v,) for v in names if relevant(system, flow, i, v)]
    monomials += [m for m in system.terms.get(s.name, []) if m not in monomials]
    forms, worst = {}, 0.0
    for choice in choices(cuts):
        ranges = part_ranges(system, cuts, dict(zip(cuts, choice)))
        grid = points_of(system, flow, ranges, bent)
        out = [nominal(system, flow, g[: flow.n], g[flow.n :])[i] for g in grid]
        here = [m for m in monomials if not m or any(ranges[v][0] < ranges[v][1] for v in m)]
        found, miss = fit([dict(zip(names, g)) for g in grid], out, here)
        reach = lambda m: math.prod((max(abs(float(e)) for e in ranges[v]) for v in m), start=1.0)
        small = float(s.q) * 1e-4
        forms[choice] = {m: Q(k) for m, k in zip(here, found) if abs(k) * reach(m) > small}
        worst = max(worst, miss)
    return forms, worst


def relevant(system, flow, i, name):
    """Whether the tick of state i may depend on a variable at all."""
    inside = {flow.xs[i]}
    for _ in flow.xs:
        for x, rate, jump in zip(flow.xs, flow.rates, flow.jumps):
            if x in inside:
                inside |= names_in(rate) | names_in(jump)
    return name in inside


def chosen(system, flow):
    """The rows of all states."""
    return [chosen_row(system, flow, i) for i in range(flow.n)]


def chosen_row(system, flow, i):
    s = system.states[i]
    if s.name in system.forms:
        row = Row({})
        forms, row.style, row.rounded = settled(system, i, [system.forms[s.name]])
        row.forms = {(): forms[0]}
        return row
    variables = set(flow.xs + flow.us)
    bent = curved(s.rate) & variables
    near = [flow.rates[flow.xs.index(v)] for v in names_in(s.rate) if v in flow.xs]
    nodes = (bent | set().union(*map(curved, near), set())) & variables
    cuts = {v: c for v, c in system.pieces.items() if c and bent and relevant(system, flow, i, v)}
    forms, cuts = more_pieces(system, flow, i, cuts, nodes, bent)
    row = Row(cuts)
    got, row.style, row.rounded = settled(system, i, list(forms.values()))
    row.forms = dict(zip(forms, got))
    return row


def more_pieces(system, flow, i, cuts, nodes, bent):
    """Cuts where none were asked for, while they pay: until the misfit is a quarter of the other noise."""
    s = system.states[i]
    forms, miss = fitted(system, flow, i, cuts, nodes)
    spread = sum(float(hi - lo) for k, lo, hi in system.disturbances if k in names_in(s.rate))
    others = float(2 * s.r) + float(system.tick) * spread / 2
    by_name = {v.name: v for v in system.variables}
    while miss > others / 4 and math.prod(len(c) + 1 for c in cuts.values()) < MOST_PIECES:
        tries = []
        for v in sorted(bent - set(system.pieces)):
            more = even_cuts(by_name[v], len(cuts.get(v, [])) + 2)
            if len(more) > len(cuts.get(v, [])):
                tries.append((*fitted(system, flow, i, cuts | {v: more}, nodes), cuts | {v: more}))
        if not tries:
            break
        new, less, cuts_new = min(tries, key=lambda t: t[1])
        if less > 0.9 * miss:
            break
        forms, miss, cuts = new, less, cuts_new
    return forms, cuts
