"""Series in time, with slopes.

A *dual* is (value, slopes): the range of a value, and the ranges of its slopes along the free directions, or None where
all are 0. A series is a list of duals, the coefficients in time. Kinks have Clarke's hull of slopes to order 1.
"""
from . import intervals as iv
from .faults import Rough
from .intervals import UNIT, ZERO, add, div, mul, neg

NONE = (ZERO, None)


def constant(value):
    return value, None


def each(function, a, b=None):
    if b is None:
        return tuple(function(x) for x in a)
    return tuple(function(x, y) for x, y in zip(a, b))


def plus(a, b):
    slopes = b[1] if a[1] is None else a[1] if b[1] is None else each(add, a[1], b[1])
    return add(a[0], b[0]), slopes


def minus(a):
    return neg(a[0]), a[1] and each(neg, a[1])


def scaled(a, k):
    return mul(a[0], k), a[1] and tuple(mul(x, k) for x in a[1])


def chained(value, *parts):
    """The value with slopes: the sum of slope times the slopes within."""
    slopes = None
    for slope, inner in parts:
        if inner is not None and slope != ZERO:
            more = tuple(mul(slope, x) for x in inner)
            slopes = more if slopes is None else each(add, slopes, more)
    return value, slopes


def times(a, b):
    if a == NONE or b == NONE:
        return NONE
    return chained(mul(a[0], b[0]), (b[0], a[1]), (a[0], b[1]))


def squared(a):
    return chained(iv.sqr(a[0]), (mul((2.0, 2.0), a[0]), a[1]))


def divided(a, b):
    value = div(a[0], b[0])
    return chained(value, (div(UNIT, b[0]), a[1]), (neg(div(value, b[0])), b[1]))


def rooted(a):
    value = iv.root(a[0])
    if a[1] is None:
        return value, None
    return chained(value, (div(UNIT, mul((2.0, 2.0), value)), a[1]))


def evaluated(tree, env, order):
    """The coefficients 0..order of the tree's series; env has lists of at least as many duals."""
    op = tree[0]
    if op == "num":
        return [constant(iv.around(tree[1]))] + [NONE] * order
    if op == "var":
        return env[tree[1]][: order + 1]
    a = evaluated(tree[1], env, order)
    if op in OF_ONE:
        return OF_ONE[op](a, order)
    if op == "^":
        return powered(a, tree[2], order)
    if op == "*" and tree[1] == tree[2]:
        return square(a, order)
    return OF_TWO[op](a, evaluated(tree[2], env, order), order)


def product(a, b, order):
    out = []
    for j in range(order + 1):
        total = NONE
        for i in range(j + 1):
            total = plus(total, times(a[i], b[j - i]))
        out.append(total)
    return out


def square(a, order):
    return [squared(a[0])] + product(a, a, order)[1:]


def powered(a, n, order):
    """Powers by squares, so that even ones stay above 0."""
    if n == 0:
        return [constant(UNIT)] + [NONE] * order
    out = None
    while n:
        if n & 1:
            out = a if out is None else product(out, a, order)
        n >>= 1
        a = square(a, order) if n else a
    return out


def quotient(a, b, order):
    out = []
    for j in range(order + 1):
        rest = a[j]
        for i in range(j):
            rest = plus(rest, minus(times(out[i], b[j - i])))
        out.append(divided(rest, b[0]) if rest != NONE else NONE)
    return out


def root(a, order):
    out = [rooted(a[0])]
    for j in range(1, order + 1):
        rest = a[j]
        for i in range(1, j):
            rest = plus(rest, minus(times(out[i], out[j - i])))
        out.append(divided(rest, scaled(out[0], (2.0, 2.0))) if rest != NONE else NONE)
    return out


def by_parts(a, e, j):
    """(1 / j) times the sum of i a_i e_(j - i), i from 1 to j."""
    total = NONE
    for i in range(1, j + 1):
        total = plus(total, scaled(times(a[i], e[j - i]), (float(i), float(i))))
    return scaled(total, div(UNIT, (float(j), float(j)))) if total != NONE else total


def exponential(a, order):
    value = iv.exp(a[0][0])
    out = [chained(value, (value, a[0][1]))]
    for j in range(1, order + 1):
        out.append(by_parts(a, out, j))
    return out


def waves(a, order):
    sine, cosine = iv.sin(a[0][0]), iv.cos(a[0][0])
    s, c = [chained(sine, (cosine, a[0][1]))], [chained(cosine, (neg(sine), a[0][1]))]
    for j in range(1, order + 1):
        s_next, c_next = by_parts(a, c, j), minus(by_parts(a, s, j))
        s.append(s_next)
        c.append(c_next)
    return s, c


def kink(a, b, order, pick):
    """max or min of two series. Where the box has the kink in it there are the orders 0 and 1 alone."""
    lead = iv.sub(a[0][0], b[0][0])
    if lead[0] >= 0:
        return a if pick is max else b
    if lead[1] <= 0:
        return b if pick is max else a
    if order > 1 or (order == 1 and (a[1][1] is not None or b[1][1] is not None)):
        raise Rough
    out = [(tuple(map(pick, a[0][0], b[0][0])), hull_of_slopes(a[0][1], b[0][1]))]
    if order == 1:
        out.append((iv.hull(a[1][0], b[1][0]), None))
    return out


def hull_of_slopes(a, b):
    if a is None and b is None:
        return None
    none = (ZERO,) * len(a or b)
    return each(iv.hull, a or none, b or none)


OF_ONE = {
    "neg": lambda a, order: [minus(x) for x in a],
    "sqrt": root,
    "exp": exponential,
    "sin": lambda a, order: waves(a, order)[0],
    "cos": lambda a, order: waves(a, order)[1],
    "abs": lambda a, order: kink(a, [minus(x) for x in a], order, max),
}
OF_TWO = {
    "+": lambda a, b, order: [plus(x, y) for x, y in zip(a, b)],
    "-": lambda a, b, order: [plus(x, minus(y)) for x, y in zip(a, b)],
    "*": product,
    "/": quotient,
    "max": lambda a, b, order: kink(a, b, order, max),
    "min": lambda a, b, order: kink(a, b, order, min),
}
