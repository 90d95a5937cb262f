"""A description made into a program."""
import re
from dataclasses import dataclass

from . import bounds, budget, plant
from .description import read
from .faults import Fault, Rough, Split
from .flow import Flow
from .values import short

REGION = re.compile(r"\bSAFE(?:_\w+)?\b")
FAULTS = (Fault, Split, Rough, ArithmeticError, RecursionError, UnicodeDecodeError)
PROMISE = (
    "Samples of these rates are a run of this plant as long as they are in `safe`: each tick a whole number of units, at",
    "most half a unit (where nothing else is said) and the measurement's error away. Where two samples in a row are in",
    "it, the state leaves nothing that was asked in between. Half widths, in the states' own units:",
)


@dataclass
class Made:
    """One plant with what it was made of."""

    system: object
    rows: list
    limits: list
    clauses: list
    boxes: list
    shares: list
    note: str

    @property
    def safe(self):
        return plant.region_text(self.system, self.boxes)


def make(text):
    """The plants of a description, and the program behind them."""
    systems, program = read(text)
    check_regions([system.name for system in systems], program)
    return [made_of(system) for system in systems], program


def check_regions(plants, program):
    """A program has the region of each plant, since another one would not be what is asked."""
    if not program.strip():
        return
    words = set(REGION.findall(program))
    known = {"SAFE"} | {f"SAFE_{plant}" for plant in plants}
    for word in sorted(words - known):
        raise Fault("program", f"{word} names no plant; there may stand {', '.join(sorted(known))}")
    for k, plant in enumerate(plants):
        names = ["SAFE", f"SAFE_{plant}"] if k == 0 else [f"SAFE_{plant}"]
        if not words & set(names):
            raise Fault("program", f"{' or '.join(names)} is missing: the region of plant {plant}")


def fault_text(why):
    """What is told of an exception of `make`, as one line with its place."""
    if isinstance(why, Rough):
        return "state: a kink stands where the series needs more orders"
    if isinstance(why, RecursionError):
        return "state: an expression nests too deep, or has too many terms"
    if isinstance(why, UnicodeDecodeError):
        return "toml: it is no UTF-8"
    if isinstance(why, ArithmeticError):
        return "state: numbers beyond floats"
    return " ".join(str(why).split())


def made_of(system):
    flow = Flow(system)
    rows, limits, note = bounds.bounded(system, flow)
    clauses, shares = [], []
    for s, row, limit in zip(system.states, rows, limits):
        if not s.seen:
            clause = plant.Clause(system, s, row, limit)
            clauses.append(clause)
            shares.append(budget.Share(system, s, row, limit, clause))
    boxes = plant.region(system, limits)
    if len(boxes) > plant.MOST_BOXES:
        raise Fault("safe", f"has more than {plant.MOST_BOXES} boxes")
    return Made(system, rows, limits, clauses, boxes, shares, note)


def tick_text(system):
    lo, hi = system.lengths
    return short(lo) if lo == hi else f"{short(lo)} to {short(hi)}"


def comment(made, source):
    """The comment in front of a program: the promise, the budget, and the coordinates."""
    lines = [
        f"Made from {source} by scripts/model. A tick is {tick_text(made[0].system)}.",
        *PROMISE,
    ]
    for one in made:
        if len(made) > 1:
            lines.append(f"Plant {one.system.name}:")
        lines += ["  " + line for line in budget.table(one.system, one.shares, one.boxes)]
        lines += [budget.words(share) for share in one.shares]
        lines += budget.matrix_lines(one.system)
        for way in ("to the nearest, ties up", "up", "down"):
            kept = [share.state.name for share in one.shares if share.rounded == way]
            if kept:
                lines.append(f"Rounded {way}, always: {', '.join(kept)}.")
        if one.note:
            lines.append(one.note)
    return ["# " + line for line in lines]


def program_text(made, program, source):
    """The whole text: the comment, the topics, the plants, and the program with its regions."""
    out, topics = comment(made, source), {}
    for one in made:
        for h in one.system.inputs:
            topics.setdefault(h.topic, plant.topic_text(h))
    out += topics.values()
    out += [plant.plant_text(one.system, one.clauses) for one in made]
    if program:
        by = {f"SAFE_{one.system.name}": one.safe for one in made} | {"SAFE": made[0].safe}
        out.append(REGION.sub(lambda m: by[m[0]], program.strip("\n")))
    else:
        out += [f"# safe of {one.system.name}: {one.safe};" for one in made]
    return "\n".join(out) + "\n"


def explained(made):
    """The budget as text."""
    out = []
    for one in made:
        out.append(f"plant {one.system.name}, a tick of {tick_text(one.system)}")
        out += budget.table(one.system, one.shares, one.boxes)
        for share in one.shares:
            out.append("")
            out += explained_state(share)
        if one.note:
            out += ["", one.note]
    return "\n".join(out) + "\n"


def explained_state(share):
    s = share.state
    lines = [budget.words(share)]
    total = sum(share.terms.values()) or 1.0
    for name, half in sorted(share.terms.items(), key=lambda term: -term[1]):
        if half > 0:
            lines.append(f"  {name:12}  {half:10.3g}  {100 * half / total:5.1f} %")
    unit = float(s.q)
    if share.half > 0 and unit * 20 < share.half:
        lines.append(
            f"  The unit {unit:g} is fine beside the noise: one decimal less would cost little."
        )
    lost = (s.asked[1] - s.asked[0]) and share.between
    if lost:
        part = 100 * share.between / float(s.asked[1] - s.asked[0])
        lines.append(
            f"  Between ticks: {share.between:.3g} is taken off a side, {part:.2g} % of what was asked."
        )
    if share.direction:
        lines.append("  Where its rate has one sign, rounding does not lead it the other way.")
    return lines
