"""Intervals of floats, rounded outwards.

An interval is a pair (lo, hi). Each operation computes its ends in floats, whose errors are below one unit of the last
place for + - * / and the root (IEEE 754), and steps one float outwards. For sin, cos and exp the C library is taken to be
right to 8 units of the last place. Whatever has no bound in floats raises `Split`.
"""
import math
from fractions import Fraction as Q

from .faults import Split

INF, ZERO, UNIT = math.inf, (0.0, 0.0), (1.0, 1.0)
LIBRARY = 2e-15  # 8 units of the last place, and a little more
WIDEST_ANGLE = 1e4
down = lambda x: math.nextafter(x, -INF)
up = lambda x: math.nextafter(x, INF)


def outward(lo, hi):
    """The interval one float wider on both sides."""
    if not (math.isfinite(lo) and math.isfinite(hi)):
        raise Split("numbers beyond floats")
    return down(lo), up(hi)


def exact_zero(bounds, lo, hi):
    """The bounds, but for ends of 0 that are known to be exact."""
    return (0.0 if lo == 0.0 else bounds[0]), (0.0 if hi == 0.0 else bounds[1])


def around(least, greatest=None):
    """The interval around the fractions least..greatest."""
    greatest = least if greatest is None else greatest
    lo, hi = float(least), float(greatest)
    return lo if Q(lo) <= least else down(lo), hi if Q(hi) >= greatest else up(hi)


def thin(x):
    return x, x


def middle(a):
    """A float in the interval, near its middle."""
    return (a[0] + a[1]) / 2


def add(a, b):
    if a == ZERO:
        return b
    if b == ZERO:
        return a
    lo, hi = a[0] + b[0], a[1] + b[1]
    return exact_zero(outward(lo, hi), lo, hi)  # a sum of floats is 0 only where it is exactly so


def neg(a):
    return -a[1], -a[0]


def sub(a, b):
    return add(a, neg(b))


def mul(a, b):
    if a == ZERO or b == ZERO:
        return ZERO
    if a == UNIT:
        return b
    if b == UNIT:
        return a
    ends = (a[0] * b[0], a[0] * b[1], a[1] * b[0], a[1] * b[1])
    bounds = outward(min(ends), max(ends))
    if 0.0 in ends and (0.0 in a or 0.0 in b) and not any(underflows(x, y) for x in a for y in b):
        return exact_zero(bounds, min(ends), max(ends))
    return bounds


def underflows(x, y):
    return x != 0.0 and y != 0.0 and x * y == 0.0


def div(a, b):
    if b[0] <= 0 <= b[1]:
        raise Split("a division by a range with 0 in it")
    if a == ZERO:
        return a
    ends = (a[0] / b[0], a[0] / b[1], a[1] / b[0], a[1] / b[1])
    return outward(min(ends), max(ends))


def sqr(a):
    least = 0.0 if a[0] <= 0 <= a[1] else min(abs(a[0]), abs(a[1]))
    got = outward(least * least, mag(a) * mag(a))
    return max(got[0], 0.0), got[1]


def mag(a):
    return max(abs(a[0]), abs(a[1]))


def hull(a, b):
    return min(a[0], b[0]), max(a[1], b[1])


def grown(lo, hi):
    """Room for the last places of the C library's functions."""
    return outward(lo - LIBRARY * abs(lo) - 1e-300, hi + LIBRARY * abs(hi) + 1e-300)


def root(a):
    if a[0] < 0:
        raise Split("a root of a number below 0")
    return max(0.0, grown(math.sqrt(a[0]), 0)[0]), grown(0, math.sqrt(a[1]))[1]


def exp(a):
    if a[1] > 600:
        raise Split("an exponential beyond floats")
    return max(0.0, grown(math.exp(a[0]), 0)[0]), grown(0, math.exp(a[1]))[1]


def wave(a, function, top, bottom):
    """sin or cos, whose greatest value stands at top + 2 pi k and the least at bottom + 2 pi k."""
    if mag(a) > WIDEST_ANGLE:
        raise Split("an angle beyond 10000")
    ends = (function(a[0]), function(a[1]))
    lo, hi = min(ends) - LIBRARY, max(ends) + LIBRARY
    for peak, value in ((top, 1.0), (bottom, -1.0)):
        k = math.ceil((a[0] - peak) / (2 * math.pi) - 1e-9)
        if peak + 2 * math.pi * k <= a[1] + 1e-9:
            lo, hi = min(lo, value), max(hi, value)
    return max(lo, -1.0), min(hi, 1.0)


def sin(a):
    return wave(a, math.sin, math.pi / 2, -math.pi / 2)


def cos(a):
    return wave(a, math.cos, 0.0, math.pi)


def power(a, n):
    """a^n, n a whole number from 0; even powers are not below 0."""
    if n == 0:
        return UNIT
    if n == 1:
        return a
    half = power(a, n // 2)
    return sqr(half) if n % 2 == 0 else mul(a, sqr(half))


def dot(row, column):
    total = ZERO
    for a, b in zip(row, column):
        total = add(total, mul(a, b))
    return total


def sum_up(items):
    """A float that is not below the sum of products of two floats each, where none of them is below 0."""
    total = 0.0
    for x in items:
        total = up(total + up(x)) if x else total
    return total
