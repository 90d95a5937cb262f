"""Matrices of fractions, and the flow of affine rates."""
import math
from fractions import Fraction as Q

from .faults import Fault

SERIES_ERROR = Q(1, 10**15)
PARTS = 64


def product(a, b):
    columns = range(len(b[0]))
    return [[sum(x * b[k][j] for k, x in enumerate(row) if x) for j in columns] for row in a]


def identity(n):
    return [[Q(int(i == j)) for j in range(n)] for i in range(n)]


def times(a, k):
    return [[x * k for x in row] for row in a]


def plus(a, b):
    return [[x + y for x, y in zip(r, s)] for r, s in zip(a, b)]


def inverse(a, place):
    n = len(a)
    rows = [list(row) + unit for row, unit in zip(a, identity(n))]
    for c in range(n):
        pivot = max(range(c, n), key=lambda r: abs(rows[r][c]))
        if rows[pivot][c] == 0:
            raise Fault(place, "the matrix has no inverse")
        rows[c], rows[pivot] = rows[pivot], rows[c]
        rows[c] = [x / rows[c][c] for x in rows[c]]
        for r in range(n):
            if r != c and rows[r][c]:
                k = rows[r][c]
                rows[r] = [x - k * y for x, y in zip(rows[r], rows[c])]
    return [row[n:] for row in rows]


def norm(a):
    return max((sum(abs(x) for x in row) for row in a), default=Q(0))


def flow(a, t):
    """exp(A t), its integral, and a bound of what each entry of the first is off.

    Of the integral each entry is off by at most t times that. What the series to order K - 1 leaves out is at most
    |A t|^K / K! / (1 - |A t| / (K + 1)).
    """
    n, size = len(a), norm(a) * t
    if size > 50:
        raise Fault("tick", f"it is {float(size):.0f} times as long as the fastest motion")
    at = times(a, t)
    term, total, whole, k = identity(n), identity(n), times(identity(n), t), 1
    while True:
        term = times(product(term, at), Q(1, k))
        if k > size:
            left = size**k / math.factorial(k) / (1 - size / (k + 1))
            if left < SERIES_ERROR:
                return total, whole, left
        total = plus(total, term)
        whole = plus(whole, times(term, t / (k + 1)))
        k += 1


def reach_of_disturbance(a, e, t):
    """Bounds of the integral over the tick of |exp(A s) E|, entry by entry.

    In each part: the value at its middle, and half the part times a bound of the slope.
    """
    n, size = len(a), norm(a)
    grow, _, off = flow([[size]], t)
    slope = size * (grow[0][0] + off) * norm(e)
    out = [[Q(0)] * len(e[0]) for _ in range(n)]
    half = t / (2 * PARTS)
    for part in range(PARTS):
        exact, _, off = flow(a, half * (2 * part + 1))
        at_middle = product(exact, e)
        for i in range(n):
            for j in range(len(e[0])):
                lost = off * norm([[row[j] for row in e]])
                out[i][j] += 2 * half * (abs(at_middle[i][j]) + lost + half * slope / 2)
    return out
