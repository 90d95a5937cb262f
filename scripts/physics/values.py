"""Values of a description: each is taken exactly as its decimals are written, or is a fault with its place."""
import re
from decimal import Decimal
from fractions import Fraction as Q

from . import expressions
from .faults import Fault

NAME = re.compile(r"[A-Za-z_][A-Za-z0-9_]{0,59}\Z", re.A)
KEYWORDS = set(
    """topic environment int fix bool true false plant state input sees noise next node external period
offset reads writes local do publish if then else repeat module ac sc safe safer none and or not min max abs clamp
rescale""".split()
)
WORK = 6  # the decimals in which `next` computes: the language's most
LARGEST = Q(10) ** 9


def check_keys(table, known, place):
    """The table, whose keys are known ones."""
    if not isinstance(table, dict):
        raise Fault(place, "a table is wanted")
    for key in table:
        if key not in known:
            here = f"{place}.{key}" if place else key
            raise Fault(here, f"no such key; here may stand {', '.join(known)}")
    return table


def need(table, key, place):
    if key not in table:
        raise Fault(f"{place}.{key}" if place else key, "is missing")
    return table[key]


def exact(value, place):
    if isinstance(value, bool) or not isinstance(value, (int, Decimal)):
        raise Fault(place, "a number is wanted, without quotes")
    if isinstance(value, Decimal) and not value.is_finite():
        raise Fault(place, "a finite number is wanted")
    if isinstance(value, Decimal) and value and abs(value.adjusted()) > 12:
        raise Fault(
            place, "a number of a magnitude from 1e-12 to 1e9 is wanted: take another unit"
        )
    if abs(Q(value)) > LARGEST:
        raise Fault(place, "a number of at most 1e9 is wanted: take another unit")
    return Q(value)


def pair(value, place):
    """A range [least, greatest]."""
    if not isinstance(value, list) or len(value) != 2:
        raise Fault(place, "a range [least, greatest] is wanted")
    lo, hi = exact(value[0], place), exact(value[1], place)
    if lo > hi:
        raise Fault(place, "the range is empty: its least number is above its greatest")
    return lo, hi


def on_grid(number, decimals):
    return (number * 10**decimals).denominator == 1


def count(value, place, lo, hi):
    if isinstance(value, bool) or not isinstance(value, int) or not lo <= value <= hi:
        raise Fault(place, f"a whole number from {lo} to {hi} is wanted")
    return value


def text_of(value, place):
    if not isinstance(value, str):
        raise Fault(place, "a text in quotes is wanted")
    return value


def truth(value, place):
    if not isinstance(value, bool):
        raise Fault(place, "true or false is wanted")
    return value


def fresh(name, place, seen):
    """A new name, which joins those that were seen."""
    if not isinstance(name, str) or not NAME.match(name):
        raise Fault(place, f"{name!r} is no name: a letter, then letters, digits and _")
    if (
        name in KEYWORDS
        or name in expressions.OF_ONE
        or name in expressions.OF_TWO
        or name == "tick"
    ):
        raise Fault(place, f"{name} is a word of the language, and no name")
    if name in seen:
        raise Fault(place, f"the name {name} is there twice")
    seen.add(name)
    return name


def literal(number, decimals):
    """A number as the language writes it, with so many decimals."""
    mantissa = number * 10**decimals
    if mantissa.denominator != 1:
        raise AssertionError(f"{number} has more than {decimals} decimals")
    whole, part = divmod(abs(mantissa.numerator), 10**decimals)
    sign = "-" if mantissa < 0 else ""
    return sign + (f"{whole}.{part:0{decimals}d}" if decimals else str(whole))


def type_of(decimals):
    return f"fix({decimals})" if decimals else "int"


def short(number):
    return f"{float(number):.4g}"


def even_cuts(var, parts):
    """The range of a variable in so many parts, at numbers of its decimals."""
    step = (var.greatest - var.least) / parts
    unit = 10**var.decimals
    cuts = {Q(round((var.least + step * i) * unit), unit) for i in range(1, parts)}
    return sorted(c for c in cuts if var.least < c < var.greatest)
