"""Other coordinates z = M x, and stairs of boxes along what is asked of x.

M is made of decimals and its inverse is exact, so nothing rests on the eigenvalues that it was found by.
"""
import math
from dataclasses import replace
from fractions import Fraction as Q

from . import affine, matrices
from .expressions import replaced
from .faults import Fault
from .values import WORK, check_keys, count, exact, fresh, need, pair, short, text_of

KEYS = "kind rows names decimals range units slices".split()
MOST_BOXES = 256


def change(system, table, seen):
    """The system in the coordinates of the table."""
    place, n = "coordinates", len(system.states)
    check_keys(table, KEYS, place)
    if any(s.hold or s.keeps or s.stops for s in system.states):
        raise Fault(place, "no state with hold, keeps or stops may be mixed with others")
    if system.boxes:
        raise Fault(place, "stand beside no union of boxes")
    m = rows_of(system, table, place)
    back = matrices.inverse(m, place)
    names, decimals = need(table, "names", place), need(table, "decimals", place)
    for key, value in (("names", names), ("decimals", decimals)):
        if not isinstance(value, list) or len(value) != n:
            raise Fault(f"{place}.{key}", f"a list of {n} is wanted, one a state")
    slices = count(table.get("slices", 1), f"{place}.slices", 1, 64)
    if slices ** (n - 1) > MOST_BOXES:
        raise Fault(f"{place}.slices", f"makes more than {MOST_BOXES} boxes")
    asked = [s.asked for s in system.states]
    box = box_of(table, m, back, asked, slices, place)
    if slices == 1:
        check_box(system, back, box, asked, place)
    by = {s.name: combined(names, row) for s, row in zip(system.states, back)}
    units = table.get("units", [""] * n)
    if not isinstance(units, list) or len(units) != n:
        raise Fault(f"{place}.units", f"a list of {n} is wanted, one a state")
    found = []
    for row, name, places, ends, unit in zip(m, names, decimals, box, units):
        fresh(name, f"{place}.names", seen)
        rate = mixed(row, [replaced(s.rate, by) for s in system.states])
        jump = mixed(row, [s.jump for s in system.states])
        error = sum((abs(c) * s.error for c, s in zip(row, system.states)), Q(0))
        places = count(places, f"{place}.decimals", 0, WORK)
        first = system.states[0]
        unit = text_of(unit, f"{place}.units")
        found.append(
            replace(
                first,
                name=name,
                unit=unit,
                decimals=places,
                lo=ends[0],
                hi=ends[1],
                safe=ends,
                error=error,
                rate=rate,
                jump=jump,
            )
        )
    system.physical, system.states, system.matrix, system.slices = system.states, found, m, slices


def combined(names, row):
    return mixed(row, [("var", name) for name in names])


def mixed(row, trees):
    """The sum of the trees, each times its number."""
    total = ("num", Q(0))
    for c, tree in zip(row, trees):
        if c and tree != ("num", Q(0)):
            part = ("*", ("num", c), tree)
            total = part if total == ("num", Q(0)) else ("+", total, part)
    return total


def rows_of(system, table, place):
    n = len(system.states)
    if ("kind" in table) == ("rows" in table):
        raise Fault(place, 'either kind = "modal" or rows is wanted')
    if "rows" in table:
        rows = table["rows"]
        square = isinstance(rows, list) and len(rows) == n
        if not square or any(not isinstance(r, list) or len(r) != n for r in rows):
            raise Fault(f"{place}.rows", f"{n} rows of {n} numbers are wanted")
        return [[exact(x, f"{place}.rows") for x in row] for row in rows]
    if table["kind"] != "modal":
        raise Fault(f"{place}.kind", 'is "modal"')
    found = affine.affine_of(system)
    if found is None:
        raise Fault(place, 'kind = "modal" is for affine rates with exact constants: give rows')
    return modal_rows([[float(x) for x in row] for row in found[0]])


def box_of(table, m, back, asked, slices, place):
    """The ranges of the z: as given; else with slices the least box around all x, without them the largest of its
    shape in which all x are as asked, and each side as far as the others leave room."""
    n = len(m)
    if "range" in table:
        given = table["range"]
        if not isinstance(given, list) or len(given) != n:
            raise Fault(f"{place}.range", f"{n} ranges are wanted")
        return [pair(v, f"{place}.range") for v in given]
    middle = [(a + b) / 2 for a, b in asked]
    room = [(b - a) / 2 for a, b in asked]
    at = [sum(c * x for c, x in zip(row, middle)) for row in m]
    want = [sum(abs(c) * r for c, r in zip(row, room)) for row in m]
    if slices == 1:
        part = min(r / sum(abs(c) * w for c, w in zip(row, want)) for r, row in zip(room, back))
        want = [part * w for w in want]
        for j in range(n):
            left = [r - sum(abs(c) * w for c, w in zip(row, want)) for r, row in zip(room, back)]
            want[j] += min(spare / abs(row[j]) for spare, row in zip(left, back) if row[j])
    return [(a - w, a + w) for a, w in zip(at, want)]


def check_box(system, back, box, asked, place):
    """A box of z has to hold each x in what was asked of it."""
    for s, row, (lo, hi) in zip(system.states, back, asked):
        ends = [sorted((c * a, c * b)) for c, (a, b) in zip(row, box)]
        least, greatest = sum(e[0] for e in ends), sum(e[1] for e in ends)
        if least < lo or greatest > hi:
            text = f"lets {s.name} be {short(least)}..{short(greatest)}, and {short(lo)}..{short(hi)} is asked"
            raise Fault(f"{place}.range", text)


# --- stairs -----------------------------------------------------------------------------------------


def stairs(system, spare):
    """Boxes of mantissas of the z in which, with `spare` around each z, all x are as asked.

    All but the last coordinate are cut into slices; the last one then has the range that is left in all of the slice.
    """
    back = matrices.inverse(system.matrix, "coordinates")
    walls = []
    for s, row in zip(system.physical, back):
        drawn = sum(abs(c) * e for c, e in zip(row, spare))
        walls.append((row, s.asked[0] + drawn, s.asked[1] - drawn))
    return [box for box in sliced(system.states, walls, system.slices, [])]


def sliced(states, walls, slices, front):
    k = len(front)
    s = states[k]
    lo, hi = math.ceil((s.lo + s.r) / s.q), math.floor((s.hi - s.r) / s.q)
    if k == len(states) - 1:
        last = left_over(states, walls, front, lo, hi)
        return [front + [last]] if last else []
    found = []
    for part in range(slices):
        a, b = lo + (hi - lo + 1) * part // slices, lo + (hi - lo + 1) * (part + 1) // slices - 1
        if a <= b:
            found += sliced(states, walls, slices, front + [(a, b)])
    return found


def left_over(states, walls, front, lo, hi):
    """The range of the last coordinate's mantissas with which no wall is passed anywhere in the slice."""
    q = states[-1].q
    for row, least, greatest in walls:
        ends = [sorted((c * s.q * a, c * s.q * b)) for c, s, (a, b) in zip(row, states, front)]
        low, high = least - sum(e[0] for e in ends), greatest - sum(e[1] for e in ends)
        c = row[-1]
        if c == 0:
            if low > 0 or high < 0:
                return None
            continue
        sides = sorted((low / c, high / c)) if low <= high else (Q(1), Q(0))
        lo, hi = max(lo, math.ceil(sides[0] / q)), min(hi, math.floor(sides[1] / q))
    return (lo, hi) if lo <= hi else None


# --- modal coordinates: a search in floats, of which nothing is promised but an inverse --------------


def float_product(a, b):
    return [[sum(x * b[k][j] for k, x in enumerate(row)) for j in range(len(b))] for row in a]


def characteristic(a):
    """The coefficients of the characteristic polynomial (Faddeev, Le Verrier)."""
    n = len(a)
    coefficients = [1.0]
    m = [[float(i == j) for j in range(n)] for i in range(n)]
    for k in range(1, n + 1):
        am = float_product(a, m)
        c = -sum(am[i][i] for i in range(n)) / k
        coefficients.append(c)
        m = [[x + (c if i == j else 0.0) for j, x in enumerate(row)] for i, row in enumerate(am)]
    return coefficients


def eigenvalues(a):
    """Roots of the characteristic polynomial (Durand, Kerner), each with its count; near ones count as one."""
    n, coefficients = len(a), characteristic(a)
    sizes = [abs(c) ** (1 / i) for i, c in enumerate(coefficients[1:], 1)]
    size = max(1e-9, max(sizes))
    roots = [size * (0.4 + 0.9j) ** i for i in range(1, n + 1)]
    for _ in range(500):
        for i, z in enumerate(roots):
            value = sum(c * z ** (n - k) for k, c in enumerate(coefficients))
            others = math.prod([z - w for j, w in enumerate(roots) if j != i], start=1)
            roots[i] = z - value / (others or 1e-30)
    groups = []
    for z in sorted(roots, key=lambda w: (round(w.real / size, 4), abs(w.imag))):
        z = complex(z.real, abs(z.imag) if abs(z.imag) > 1e-3 * size else 0.0)
        near = next((g for g in groups if abs(g[0] - z) < 2e-3 * size), None)
        if near:
            near[1] += 1
        else:
            groups.append([z, 1])
    return groups


def modal_rows(a):
    """Rows of z = M x in which A is nearly in blocks."""
    rows = []
    for z, times in eigenvalues(a):
        basis = vectors_of(a, z, times)
        together = 2 if z.imag else 1
        for k in range(0, len(basis), together):
            top = max(abs(x) for v in basis[k : k + together] for x in v) or 1.0
            rows += [[Q(round(x / top * 1000), 1000) for x in v] for v in basis[k : k + together]]
    return rows


def vectors_of(a, z, times):
    n = len(a)
    shifted = [
        [x - (z.real if i == j else 0.0) for j, x in enumerate(row)] for i, row in enumerate(a)
    ]
    f = shifted
    if z.imag:
        square = float_product(shifted, shifted)
        f = [
            [x + (z.imag**2 if i == j else 0.0) for j, x in enumerate(row)]
            for i, row in enumerate(square)
        ]
        times //= 2
    power = [[float(i == j) for j in range(n)] for i in range(n)]
    for _ in range(times):
        power = float_product(power, f)
    basis = left_null(power, times * (2 if z.imag else 1))
    if not z.imag:
        return basis
    pairs = []  # v and v (A - re) / im turn as one
    for v in basis[:times]:
        pairs += [v, [sum(v[k] * shifted[k][j] for k in range(n)) / z.imag for j in range(n)]]
    return pairs


def left_null(a, size):
    """`size` vectors v with v A near 0: Gauss on the transpose, with the largest pivots."""
    n, pivots = len(a), []
    rows = [[a[i][j] for i in range(n)] for j in range(n)]
    for k in range(n - size):
        free = [(r, c) for r in range(k, n) for c in range(n) if c not in pivots]
        r, c = max(free, key=lambda place: abs(rows[place[0]][place[1]]))
        rows[k], rows[r] = rows[r], rows[k]
        pivot = rows[k][c] or 1e-30
        rows[k] = [x / pivot for x in rows[k]]
        for i in range(n):
            if i != k:
                rows[i] = [x - rows[i][c] * y for x, y in zip(rows[i], rows[k])]
        pivots.append(c)
    out = []
    for free in [c for c in range(n) if c not in pivots]:
        v = [0.0] * n
        v[free] = 1.0
        for k, c in enumerate(pivots):
            v[c] = -rows[k][free]
        out.append(v)
    return out
