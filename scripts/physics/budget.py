"""The error budget: what makes each state's noise, and what would make it less."""
from .plant import LAST
from .values import literal, short

ADVICE = {
    "rounding": "one more decimal of {name}, or of what it moves by",
    "coefficients": "fewer decimals of what it is multiplied with, or a narrower range",
    "form": "more pieces, a narrower range, narrower constants, or terms of a higher degree",
    "disturbance": "a shorter tick, or a smaller disturbance",
    "measurement": "a sensor with a smaller error, or a longer tick",
}


class Share:
    """The parts of one state's noise, as half widths in the state's own unit."""

    def __init__(self, system, state, row, limit, clause):
        self.state, self.row, self.limit = state, row, limit
        rounded = float(limit.rounded)
        self.terms = {
            "rounding": limit.read + float(state.q / 2),
            "coefficients": rounded,
            "form": max(0.0, limit.misfit - rounded),
            "disturbance": limit.disturbance,
            "measurement": limit.read_error + float(state.error),
        }
        self.half = (clause.high - clause.low + clause.unit) / LAST / 2
        self.direction = clause.keeps_direction()
        way = "up" if state.shift > 0 else "down" if state.shift < 0 else "to the nearest, ties up"
        self.rounded = way if state.shift or self.direction else None
        if system.slices > 1:
            self.between = limit.chord
        elif system.boxes:
            self.between = limit.moves
        else:
            self.between = max(limit.below, limit.above) if state.safe else None

    def largest(self):
        name = max(self.terms, key=self.terms.get)
        total = sum(self.terms.values()) or 1.0
        return name, round(100 * self.terms[name] / total)

    def advice(self):
        return ADVICE[self.largest()[0]].format(name=self.state.name)


def columns(rows):
    widths = [max(len(row[i]) for row in rows) for i in range(len(rows[0]))]
    return ["  ".join(x.ljust(w) for x, w in zip(row, widths)).rstrip() for row in rows]


def table(system, shares, boxes):
    """The budget as lines of text."""
    head = ["state", "unit", *shares[0].terms, "noise", "between", "asked", "left"]
    rows = [head]
    for k, share in enumerate(shares):
        s, unit = share.state, f" {share.state.unit}" if share.state.unit else ""
        sides = [box[k] for box in boxes]
        left = (min(lo for lo, _ in sides), max(hi for _, hi in sides))
        rows.append(
            [s.name, f"{float(s.q):g}{unit}"]
            + [f"{v:.2g}" for v in share.terms.values()]
            + [f"{share.half:.3g}", "-" if share.between is None else f"{share.between:.2g}"]
            + ["..".join(map(short, s.asked))]
            + ["..".join(literal(n * s.q, s.decimals) for n in left)]
        )
    return columns(rows)


def words(share):
    """A line on what is largest in a state's noise."""
    name, part = share.largest()
    pieces = f", in {len(share.row.forms)} pieces" if share.row.cuts else ""
    return (
        f"{share.state.name}: {name} is {part} % of its noise{pieces}; less by {share.advice()}."
    )


def matrix_lines(system):
    """How coordinates are computed."""
    lines = []
    for s, row in zip(system.states, system.matrix or []):
        parts = [f"({decimal_text(c)}) {x.name}" for c, x in zip(row, system.physical) if c]
        lines.append(f"{s.name} = " + " + ".join(parts))
    return lines


def decimal_text(number):
    """A number of decimals, exactly."""
    for places in range(13):
        if (number * 10**places).denominator == 1:
            return literal(number, places)
    return f"{float(number):.12g}"
