"""The text of a plant: its disturbances, its `next` clauses, and the region that is left to its samples."""
import math
from fractions import Fraction as Q

from . import coordinates, expressions, forms
from .faults import Fault
from .flow import polynomial_in
from .intervals import around
from .values import WORK, literal, type_of

LAST = 10**WORK  # last units of the decimals in which `next` computes
MOST_BOXES = 256


class Clause:
    """One state's noise and `next`."""

    def __init__(self, system, state, row, limit):
        self.system, self.state, self.row, self.limit = system, state, row, limit
        self.places = {v.word: v.decimals for v in system.variables}
        self.words = {v.name: v.word for v in system.variables}
        self.unit = 10 ** (WORK - state.decimals)
        self.ends = {piece: self.ends_of(*both) for piece, both in limit.pieces.items()}
        self.low = min(lo for lo, _ in self.ends.values())
        self.high = max(hi for _, hi in self.ends.values())
        self.top = self.top_of() if state.hold else self.high
        self.check()

    def ends_of(self, low, high):
        """The noise, in last units, with which each next sample is reached, and no other, as far as that is known.

        The form is 10^6 F - t units, t in [0, 1) where it is divided at the end; a next sample N is reached where the
        noise is from N unit - that to one unit less than the next."""
        read = Q(self.limit.read) + Q(self.limit.read_error)
        greatest = Q(high) + read + self.state.r
        least = Q(low) - read - self.state.r
        divided = 1 if self.row.style else 0
        return math.ceil(least * LAST) + self.unit - 1, math.floor(greatest * LAST + divided)

    def top_of(self):
        """At the top of a state that is held the state is anything above it."""
        env = samples_in(
            {v.name: (v.least, v.greatest) for v in self.system.variables}, self.system
        )
        env[self.state.name] = around(self.state.hi)
        least = min(Q(polynomial_in(form, env)[0]) for form in self.row.forms.values())
        return max(self.high, math.ceil((self.state.hi - least) * LAST) + 1)

    def check(self):
        place = f"state.{self.state.name}"
        if self.top - self.low >= 2**32 or max(abs(self.top), abs(self.low)) > 10**12:
            raise Fault(place, "its noise has more than 2^32 numbers: scale the quantity")

    @property
    def name(self):
        return f"w_{self.state.name}"

    def noise(self):
        lo, hi = literal(Q(self.low, LAST), WORK), literal(Q(self.top, LAST), WORK)
        return f"{self.name}: fix({WORK})[{lo}..{hi}]"

    # --- what is added -----------------------------------------------------------------------------

    def kept_side(self, piece):
        """1 or -1 where rounding keeps the direction of the tick: the rate's sign is known and nothing is unsure
        about the reading but its rounding; 0 elsewhere, and where the noise does not go the other way.
        """
        s = self.state
        if s.error or s.jump != ("num", Q(0)):
            return 0
        least, greatest = self.limit.signs.get(piece, (-1.0, 1.0))
        side = 2 if least == greatest == 0 else 1 if least >= 0 else -1 if greatest <= 0 else 0
        return side if self.goes_back(piece, side) else 0

    def goes_back(self, piece, side):
        """Whether form and noise can lead against the rate's direction somewhere in the piece."""
        ranges = forms.part_ranges(self.system, self.row.cuts, dict(zip(self.row.cuts, piece)))
        env = samples_in(ranges, self.system)
        step = expressions.summed(self.row.forms[piece], {(self.state.name,): Q(1)}, -1)
        least, greatest = polynomial_in(step, env)
        lo, hi = self.ends[piece]
        back = least * LAST + lo < 0
        return side == 2 or side == 1 and back or side == -1 and greatest * LAST + hi >= self.unit

    def keeps_direction(self):
        return any(self.kept_side(piece) for piece in self.row.forms)

    def is_plain(self):
        """Whether one noise stands behind the form, whatever its piece is."""
        close = self.unit // 10 + 1 + (self.high - self.low) // 50
        same = all(
            lo <= self.low + close and hi >= self.high - close for lo, hi in self.ends.values()
        )
        return same and not self.keeps_direction()

    def added(self, piece):
        """The noise as it is added in a piece."""
        s = self.state
        lo, hi = (self.low, self.high) if piece is None else self.ends[piece]
        low_text, high_text = (literal(Q(end, LAST), WORK) for end in (lo, hi))
        if s.hold and self.top > hi:  # at the top the state may be far above it
            top = literal(Q(self.top, LAST), WORK)
            most = f"if {s.word} >= {literal(s.hi, s.decimals)} then {top} else {high_text}"
            least = f"max({self.name}, {low_text})" if lo > self.low else self.name
            return f"min({least}, {most})"
        if lo > self.low or hi < self.top:
            return f"clamp({self.name}, {low_text}, {high_text})"
        return self.name

    def with_noise(self, piece, form):
        text = f"{form} + {self.added(piece)}"
        side, here = self.kept_side(piece), scaled(self.state.word, self.state.decimals)
        if side == 2:
            return here
        if side == 1:
            return f"max({text}, {here})"
        if side == -1:
            return f"min({text}, {here} + {literal(Q(self.unit - 1, LAST), WORK)})"
        return text

    # --- the clause --------------------------------------------------------------------------------

    def text(self):
        s, plain = self.state, self.is_plain()
        whole = self.pieces(list(self.row.cuts.items()), [], plain)
        if plain:
            whole += f" + {self.added(None)}"
        if s.decimals != WORK:
            whole = f"rescale({whole}, {s.decimals})"
        if s.keeps or s.stops:
            least, greatest = stays(s)
            whole = f"clamp({whole}, {mantissa(least, s)}, {mantissa(greatest, s)})"
        if s.hold:
            whole = f"min({whole}, {literal(s.hi, s.decimals)})"
        return f"  next {s.name} = {whole};"

    def pieces(self, cuts, choice, plain):
        """A choice of pieces by halves, so that it nests little."""
        if not cuts:
            piece = tuple(choice)
            text = form_text(self.row.forms[piece], self.row.style, self.places, self.words)
            return text if plain else self.with_noise(piece, text)
        (name, ends), rest = cuts[0], cuts[1:]

        def between(a, b):
            if a == b:
                return self.pieces(rest, choice + [a], plain)
            k = (a + b) // 2
            word = self.words[name]
            end = literal(ends[k], self.places[word])
            return f"(if {word} < {end} then {between(a, k)} else {between(k + 1, b)})"

        return between(0, len(ends))


def samples_in(ranges, system):
    """Intervals around all samples of states, and all inputs, in such ranges."""
    wide = {s.name: s.r for s in system.states}
    return {k: around(lo - wide.get(k, 0), hi + wide.get(k, 0)) for k, (lo, hi) in ranges.items()}


def scaled(text, decimals):
    return text if decimals == WORK else f"rescale({text}, {WORK})"


def form_text(form, style, places, words):
    """The form in WORK decimals: exact with style 0; else up to one last unit less, by the one division."""
    order = list(words)
    parts, after = [], []
    for m in sorted(form, key=lambda m: (not m, len(m), [order.index(v) for v in m])):
        c, decimals = form[m], sum(places[words[v]] for v in m)
        product = " * ".join(words[v] for v in m)
        if not m:
            after.append((c < 0, literal(abs(c), WORK)))
        elif style:
            factor = literal(abs(c) * 10**style, 0)
            parts.append((c < 0, f"{scaled(product, decimals)} * {factor}"))
        elif abs(c) == 1 and decimals == WORK:
            parts.append((c < 0, product))
        else:
            parts.append((c < 0, f"{product} * {literal(abs(c), WORK - decimals)}"))
    if style and parts:
        return f"({joined(parts)}) / {10 ** style}" + "".join(signed(*item) for item in after)
    return joined(parts + after) or literal(Q(0), WORK)


def signed(minus, item):
    return (" - " if minus else " + ") + item


def joined(items):
    text = ""
    for minus, item in items:
        if text:
            text += signed(minus, item)
        else:
            text = f"{literal(Q(0), WORK)} - {item}" if minus else item
    return text


# --- the region of samples --------------------------------------------------------------------------


def mantissa(number, state):
    return literal(number * state.q, state.decimals)


def stays(s):
    """The samples, as whole numbers, of a state that is in its range."""
    least, greatest = math.ceil((s.least - s.r) / s.q), math.floor((s.greatest + s.r) / s.q)
    if s.error == 0 and s.shift > 0:  # what is rounded up is above its number nowhere
        greatest = math.ceil(s.hi / s.q)
    if s.error == 0 and s.shift < 0:
        least = math.floor(s.lo / s.q)
    return least, greatest


def drawn_in(s, asked, below, above):
    """The samples with which the state is in what was asked, between its ticks too, and in its range."""
    least = max(s.least, asked[0] + s.shift + below) + s.r
    greatest = min(s.greatest, asked[1] + s.shift - above) - s.r
    lo, hi = math.ceil(least / s.q), math.floor(greatest / s.q)
    if s.keeps or s.stops:
        ends = stays(s)
        lo, hi = ends[0] if asked[0] == s.lo else lo, ends[1] if asked[1] == s.hi else hi
    if s.hold and asked[1] == s.hi:
        hi = s.hi / s.q
    return lo, hi


def region(system, limits):
    """The boxes of whole numbers that are written as `safe`."""
    own = [(i, s) for i, s in enumerate(system.states) if not s.seen]
    if system.slices > 1:
        spare = [s.r + Q(limit.chord) for s, limit in zip(system.states, limits)]
        boxes = coordinates.stairs(system, spare)
    elif system.boxes:
        boxes = [
            [drawn_in(s, box[i], Q(limits[i].moves), Q(limits[i].moves)) for i, s in own]
            for box in system.boxes
        ]
    else:
        return [[simple_side(s, limits[i]) for i, s in own]]
    boxes = [box for box in boxes if all(lo <= hi for lo, hi in box)]
    if not boxes:
        raise Fault(
            "safe" if system.boxes else "coordinates.slices",
            "of no box is anything left: rounding, measurement and what is between ticks take all",
        )
    return boxes


def simple_side(s, limit):
    asked = s.safe or (s.lo, s.hi)
    between = (Q(limit.below), Q(limit.above)) if s.safe else (Q(0), Q(0))
    lo, hi = drawn_in(s, asked, *between)
    if lo > hi:
        text = "nothing is left of its range: rounding, measurement and what is between ticks take all"
        raise Fault(f"state.{s.name}", text)
    return lo, hi


def region_text(system, boxes):
    """The region as the language writes it, delayed inputs behind the states."""
    late = [
        f"{literal(h.lo, h.decimals)}..{literal(h.hi, h.decimals)}"
        for h in system.inputs
        if h.delay
    ]
    texts = []
    for box in boxes:
        sides = [f"{mantissa(lo, s)}..{mantissa(hi, s)}" for s, (lo, hi) in zip(system.own, box)]
        texts.append("[" + ", ".join(sides + late) + "]")
    return " | ".join(texts)


def plant_text(system, clauses):
    """The plant's declaration."""
    late = [h for h in system.inputs if h.delay]
    kinds = [(s.name, s.decimals) for s in system.own] + [(h.name, h.decimals) for h in late]
    out = [f"plant {system.name} {{"]
    out.append("  state " + ", ".join(f"{name}: {type_of(d)}" for name, d in kinds) + ";")
    used = [h.topic for h in system.inputs]
    if used:
        out.append("  input " + ", ".join(used) + ";")
    plants = list(dict.fromkeys(s.plant for s in system.states if s.seen))
    if plants:
        out.append("  sees " + ", ".join(plants) + ";")
    out.append("  noise " + ", ".join(clause.noise() for clause in clauses) + ";")
    out += [clause.text() for clause in clauses]
    out += [f"  next {h.name} = {h.topic};" for h in late]
    return "\n".join(out + ["}"])


def topic_text(h):
    kind = type_of(h.decimals)
    lo, hi, start = (literal(x, h.decimals) for x in (h.lo, h.hi, h.start))
    return f"topic {h.topic}: {kind}[{lo}..{hi}] = {start};"
