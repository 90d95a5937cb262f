"""Decimals of states that name none: the fewest with which rounding is no main part of the noise.

It is an estimate in floats at a few points of the ranges, and nothing is promised of it: each choice is sound.
"""
from .expressions import number

MOST = 5
PART = 0.5  # of what else is unsure within a tick
NUMBERS = 200_000  # a state variable has at most so many, where decimals are chosen


def choose(reader):
    """Sets the decimals that are missing."""
    open_states = [s for s in reader.states if s.decimals is None]
    for s in open_states:
        s.decimals = MOST
    for _ in range(2):
        for s in open_states:
            s.decimals = fewest(s, unsure_of(reader, s))


def unsure_of(reader, state):
    """How far a tick may lead the state from where it is expected, its own rounding left out; the most of what is
    seen at the middle of all ranges and at their ends."""
    tick, most = float(reader.lengths[1]), 0.0
    ranges = [(name, float(hi - lo) / 2) for name, lo, hi in reader.disturbances + reader.unsure]
    for part in (0.5, 0.0, 1.0):
        env = at_part(reader, part)
        reads = []
        for s in reader.states:
            if s is not state:
                led = rate_spread(s, env, ranges) * tick / 2  # within the tick, at its middle
                reads.append((s.name, float(s.r) + led))
        most = max(most, rate_spread(state, env, ranges + reads) * tick)
    return 2 * float(state.error) + most


def at_part(reader, part):
    """A point of the ranges of states and inputs; disturbances and constants in their middles."""
    between = lambda lo, hi, part: float(lo) + part * float(hi - lo)
    env = {s.name: between(s.lo, s.hi, part) for s in reader.states}
    env |= {h.name: between(h.lo, h.hi, part) for h in reader.inputs}
    ranges = reader.disturbances + reader.unsure
    return env | {name: between(lo, hi, 0.5) for name, lo, hi in ranges}


def rate_spread(state, env, ways):
    """How much the rate changes, at most, where each of the names goes as far as it may."""
    total = 0.0
    for name, far in ways:
        try:
            ends = [number(state.rate, env | {name: env[name] + side * far}) for side in (-1, 1)]
            total += abs(ends[1] - ends[0]) / 2
        except (ArithmeticError, ValueError):
            continue
    return total


def fewest(state, unsure):
    if unsure == 0:
        unsure = float(state.hi - state.lo) / 1000
    for places in range(MOST + 1):
        numbers = float(state.hi - state.lo) * 10 ** (places + 1)
        if 10.0**-places <= PART * unsure or numbers > NUMBERS:
            return places
    return MOST
