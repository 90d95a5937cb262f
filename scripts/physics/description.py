"""A description of physics (a TOML file), read into one System a plant."""
import tomllib
from dataclasses import dataclass, field, replace
from decimal import Decimal
from fractions import Fraction as Q

from . import coordinates, decimals
from .expressions import names_in, parse, polynomial, replaced
from .faults import Fault
from .values import (
    WORK,
    check_keys,
    count,
    even_cuts,
    exact,
    fresh,
    need,
    on_grid,
    pair,
    short,
    text_of,
    truth,
)

MOST_STATES = 4  # state variables of a plant of the language
TOP_KEYS = "name tick state input disturbance constant safe form terms pieces coordinates program flight cells order".split()
STATE_KEYS = "rate decimals range safe unit error round hold keeps stops jump plant".split()
ROUNDS = {"nearest": 0, "up": 1, "down": -1}
INPUT_KEYS = "unit decimals range start delay".split()
FLIGHT_KEYS = "horizon seed start crew".split()
MOST_TICKS = 100_000  # of a flight


@dataclass
class State:
    """A state variable: its range, what it must never leave, its rate, and how it is read."""

    name: str
    unit: str
    decimals: int
    lo: Q
    hi: Q
    safe: tuple
    error: Q
    rate: tuple
    jump: tuple = ("num", Q(0))
    hold: bool = False
    keeps: bool = False
    stops: bool = False
    plant: str = ""
    seen: bool = False
    shift: Q = Q(0)  # what is added to the true state, so that it is read by the nearest number

    @property
    def q(self):
        """The unit of the last decimal."""
        return Q(1, 10**self.decimals)

    @property
    def r(self):
        """How far the state may be from what is read: half a unit and the measurement's error."""
        return self.q / 2 + self.error

    @property
    def word(self):
        """How a plant's text names it."""
        return f"{self.plant}.{self.name}" if self.seen else self.name

    @property
    def least(self):
        """The range's lower end, as it is read."""
        return self.lo + self.shift

    @property
    def greatest(self):
        return self.hi + self.shift

    @property
    def asked(self):
        return self.safe or (self.lo, self.hi)


@dataclass
class Held:
    """An input: held over a tick. `name` stands in rates and forms, `topic` is what is written."""

    name: str
    topic: str
    unit: str
    decimals: int
    lo: Q
    hi: Q
    start: Q
    delay: int

    @property
    def word(self):
        return self.name

    @property
    def least(self):
        return self.lo

    @property
    def greatest(self):
        return self.hi


@dataclass
class System:
    """What one plant is made of: its own states, and those that it sees."""

    name: str
    tick: Q
    lengths: tuple
    states: list
    inputs: list
    disturbances: list
    unsure: list
    constants: dict
    boxes: list = None
    matrix: list = None
    physical: list = None
    slices: int = 1
    forms: dict = field(default_factory=dict)
    terms: dict = field(default_factory=dict)
    pieces: dict = field(default_factory=dict)
    cells: int = 1500
    order: int = 4

    @property
    def own(self):
        return [s for s in self.states if not s.seen]

    @property
    def variables(self):
        return self.states + self.inputs


def read(text):
    """The systems of a description in the order of its plants, and the program behind them."""
    try:
        doc = tomllib.loads(text, parse_float=Decimal)
    except (tomllib.TOMLDecodeError, ValueError) as why:
        raise Fault("toml", str(why)) from None
    except RecursionError:
        raise Fault("toml", "it nests too deep") from None
    return Reader(doc).systems()


class Reader:
    """Reads the tables one by one."""

    def __init__(self, doc):
        check_keys(doc, TOP_KEYS, "")
        self.doc, self.seen = doc, set()
        self.name = fresh(need(doc, "name", ""), "name", self.seen)
        self.lengths = self.tick_of(need(doc, "tick", ""))
        self.program = text_of(doc.get("program", ""), "program")
        self.read_constants()
        self.disturbances = []
        for key, table in self.tables("disturbance"):
            place = f"disturbance.{key}"
            check_keys(table, ["range", "unit"], place)
            text_of(table.get("unit", ""), f"{place}.unit")
            self.disturbances.append((key, *pair(need(table, "range", place), f"{place}.range")))
        self.read_inputs()
        self.read_states()
        self.apply_stops()
        self.read_boxes()
        self.check_flight()

    def tick_of(self, value):
        """The least and the greatest length of a tick."""
        lo, hi = pair(value, "tick") if isinstance(value, list) else (exact(value, "tick"),) * 2
        if lo <= 0:
            raise Fault("tick", "is above 0")
        return lo, hi

    def tables(self, key, kind=dict, named=True):
        table = self.doc.get(key, {})
        check_keys(table, table, key)
        for name, value in table.items():
            if not isinstance(value, kind):
                raise Fault(
                    f"{key}.{name}", "a table is wanted" if kind is dict else "has another form"
                )
            if named:
                fresh(name, f"{key}.{name}", self.seen)
            yield name, value

    def read_constants(self):
        self.constants, self.unsure = {}, []
        for key, value in self.tables("constant", (list, int, Decimal)):
            place = f"constant.{key}"
            lo, hi = pair(value, place) if isinstance(value, list) else (exact(value, place),) * 2
            if lo == hi:
                self.constants[key] = ("num", lo)
            else:
                self.unsure.append((key, lo, hi))

    def read_inputs(self):
        self.inputs, self.late = [], {}
        for key, table in self.tables("input"):
            place = f"input.{key}"
            check_keys(table, INPUT_KEYS, place)
            places = count(need(table, "decimals", place), f"{place}.decimals", 0, WORK)
            lo, hi = pair(need(table, "range", place), f"{place}.range")
            if not (on_grid(lo, places) and on_grid(hi, places)):
                raise Fault(f"{place}.range", "an end has more decimals than `decimals` says")
            start = min(max(Q(0), lo), hi)
            if "start" in table:
                start = exact(table["start"], f"{place}.start")
            if not lo <= start <= hi or not on_grid(start, places):
                raise Fault(f"{place}.start", "is in the range, with its decimals")
            delay = count(table.get("delay", 0), f"{place}.delay", 0, 1)
            name = fresh(f"last_{key}", place, self.seen) if delay else key
            self.late[key] = ("var", name)
            unit = text_of(table.get("unit", ""), f"{place}.unit")
            self.inputs.append(Held(name, key, unit, places, lo, hi, start, delay))

    def read_states(self):
        if not self.doc.get("state"):
            raise Fault("state", "is missing")
        rows = list(self.tables("state"))
        known = self.seen - {self.name}
        self.states = [self.state_of(key, table, known) for key, table in rows]
        for plant in dict.fromkeys(s.plant for s in self.states):
            if plant != self.name:
                fresh(plant, "state.plant", self.seen)
        decimals.choose(self)
        for s in self.states:
            self.check_state(s)
            s.shift = ROUNDS[self.doc["state"][s.name].get("round", "nearest")] * s.q / 2

    def tree(self, table, key, place, known):
        text = text_of(table[key], f"{place}.{key}")
        found = parse(text, f"{place}.{key}", known)
        return replaced(replaced(found, self.late), self.constants)

    def state_of(self, key, table, known):
        place = f"state.{key}"
        check_keys(table, STATE_KEYS, place)
        need(table, "rate", place)
        places = None
        if "decimals" in table:
            places = count(table["decimals"], f"{place}.decimals", 0, WORK)
        lo, hi = pair(need(table, "range", place), f"{place}.range")
        safe = pair(table["safe"], f"{place}.safe") if "safe" in table else None
        if safe and not lo <= safe[0] <= safe[1] <= hi:
            raise Fault(f"{place}.safe", f"lies inside the range {short(lo)}..{short(hi)}")
        error = exact(table.get("error", 0), f"{place}.error")
        if error < 0:
            raise Fault(f"{place}.error", "is not below 0")
        if table.get("hold", "above") != "above":
            raise Fault(f"{place}.hold", 'is "above", or left out')
        plant = text_of(table.get("plant", self.name), f"{place}.plant")
        jump = self.jump_of(table, place, known)
        return State(
            key,
            text_of(table.get("unit", ""), f"{place}.unit"),
            places,
            lo,
            hi,
            safe,
            error,
            self.tree(table, "rate", place, known),
            jump,
            "hold" in table,
            truth(table.get("keeps", False), f"{place}.keeps"),
            truth(table.get("stops", False), f"{place}.stops"),
            plant,
        )

    def jump_of(self, table, place, known):
        """What is added at the tick's start: of inputs and constants alone."""
        if "jump" not in table:
            return ("num", Q(0))
        jump = self.tree(table, "jump", place, known)
        held = {h.name for h in self.inputs} | {k for k, _, _ in self.unsure}
        if not names_in(jump) <= held:
            raise Fault(f"{place}.jump", "is made of inputs and constants alone")
        return jump

    def check_state(self, s):
        place = f"state.{s.name}"
        if s.hold + s.keeps + s.stops > 1:
            raise Fault(place, "has one of hold, keeps and stops at most")
        if (s.keeps or s.stops) and s.jump != ("num", Q(0)):
            raise Fault(f"{place}.jump", "stands beside no keeps and no stops")
        if s.hold and not on_grid(s.hi, s.decimals):
            raise Fault(
                f"{place}.range", "an end that is held has more decimals than `decimals` says"
            )
        if s.hold and any(s.name in names_in(t.rate) for t in self.states):
            raise Fault(
                f"{place}.hold", "a state that is held stands in no rate, its own among them"
            )
        if s.stops and not (on_grid(s.lo, s.decimals) and on_grid(s.hi, s.decimals)):
            raise Fault(f"{place}.range", "a stop has more decimals than `decimals` says")
        way = self.doc["state"][s.name].get("round", "nearest")
        if way not in ROUNDS:
            raise Fault(f"{place}.round", 'is "nearest", "up" or "down"')
        if way != "nearest" and (s.hold or "coordinates" in self.doc):
            raise Fault(f"{place}.round", "stands beside no hold, and in no other coordinates")
        if s.stops and s.error:
            raise Fault(f"{place}.error", "a state with stops is read without an error")
        others = {t.name for t in self.states} - {s.name}
        if s.stops and names_in(s.rate) & others:
            raise Fault(
                f"{place}.stops", "the rate of a state with stops has no other state in it"
            )

    def apply_stops(self):
        """A state with stops stands in all rates as it is between them."""
        by = {}
        for s in self.states:
            if s.stops:
                above = ("max", ("var", s.name), ("num", s.lo))
                by[s.name] = ("min", above, ("num", s.hi))
        self.states = [replace(s, rate=replaced(s.rate, by)) for s in self.states]

    def read_boxes(self):
        """A union of boxes that must never be left: each a table of ranges, by states."""
        self.boxes = None
        if "safe" not in self.doc:
            return
        listed = self.doc["safe"]
        if not isinstance(listed, list) or not listed:
            raise Fault("safe", "a list of boxes is wanted, each a table of ranges by states")
        self.boxes = []
        for number, table in enumerate(listed, 1):
            place = f"safe.{number}"
            check_keys(table, [s.name for s in self.states], place)
            box = {s.name: (s.lo, s.hi) for s in self.states}
            for key, value in table.items():
                inside = box[key]
                box[key] = pair(value, f"{place}.{key}")
                if not inside[0] <= box[key][0] <= box[key][1] <= inside[1]:
                    raise Fault(f"{place}.{key}", "lies inside the state's range")
            self.boxes.append(box)
        self.boxed = {s.plant for s in self.states if any(s.name in table for table in listed)}
        if len(self.boxed) > 1:
            raise Fault("safe", "its boxes name states of one plant alone")
        if any(s.safe for s in self.states if s.plant in self.boxed):
            raise Fault("safe", "stands beside no safe of a single state of its plant")

    def check_flight(self):
        """The table `flight`, as far as it can be told here: `soter fly` reads the rest."""
        table = self.doc.get("flight", {})
        check_keys(table, FLIGHT_KEYS, "flight")
        count(table.get("horizon", 60), "flight.horizon", 0, MOST_TICKS)
        count(table.get("seed", 42), "flight.seed", 0, 2**31 - 1)
        plants = list(dict.fromkeys(s.plant for s in self.states))
        start, crew = table.get("start", {}), table.get("crew", {})
        lists = [*check_keys(start, plants, "flight.start").items()]
        lists += check_keys(crew, crew, "flight.crew").items()
        for name, value in lists:
            if not isinstance(value, list):
                key = "start" if name in start else "crew"
                raise Fault(f"flight.{key}.{name}", "a list is wanted")

    # --- one system a plant ----------------------------------------------------------------------

    def systems(self):
        plants = list(dict.fromkeys(s.plant for s in self.states))
        if len(plants) > 1 and "coordinates" in self.doc:
            raise Fault("coordinates", "stand in a description of one plant alone")
        found = [self.system(plant) for plant in plants]
        self.check_sections(found)
        return found, self.program

    def closure(self, plant):
        """The states of a plant and all that their rates depend on."""
        inside = {s.name for s in self.states if s.plant == plant}
        names = {s.name for s in self.states}
        while True:
            more = set().union(*[names_in(s.rate) for s in self.states if s.name in inside])
            if more & names <= inside:
                return [s for s in self.states if s.name in inside]
            inside |= more & names

    def system(self, plant):
        states = [replace(s, seen=s.plant != plant) for s in self.closure(plant)]
        rates = lambda chosen: set().union(
            *[names_in(s.rate) | names_in(s.jump) for s in chosen], set()
        )
        own, far = rates([s for s in states if not s.seen]), rates([s for s in states if s.seen])
        named, disturbances, inputs = own | far, [], []
        kicks = set().union(*[names_in(s.jump) for s in states])
        unsure = [u for u in self.unsure if u[0] in named]
        if len(set(s.plant for s in self.states)) == 1:
            own = own | {h.name for h in self.inputs}
        for h in self.inputs:
            if h.name in own and h.name in far:
                raise Fault(f"input.{h.topic}", "moves a plant and one that it sees")
            if h.name in own:
                inputs.append(h)
            elif h.name in kicks:  # held over the tick, like a constant
                unsure.append((h.name, h.lo, h.hi))
            elif h.name in far:
                disturbances.append((h.name, h.lo, h.hi))
        disturbances += [d for d in self.disturbances if d[0] in named]
        system = System(
            plant,
            self.lengths[0],
            self.lengths,
            states,
            inputs,
            disturbances,
            unsure,
            self.constants,
            cells=count(self.doc.get("cells", 1500), "cells", 1, 1_000_000),
            order=count(self.doc.get("order", 4), "order", 2, 8),
        )
        if self.lengths[0] != self.lengths[1]:
            self.stretch(system)
        if self.boxes and plant in self.boxed:
            system.boxes = [[box[s.name] for s in states] for box in self.boxes]
        if "coordinates" in self.doc:
            coordinates.change(system, self.doc["coordinates"], self.seen)
        for s in system.own:
            fresh(f"w_{s.name}", f"state.{s.name}", self.seen)
        slots = len(system.own) + sum(h.delay for h in inputs)
        if slots > MOST_STATES:
            raise Fault(
                "state",
                f"{plant} has {slots} state variables, delayed inputs among them, and a plant has at most 4",
            )
        self.read_forms(system)
        self.read_pieces(system)
        return system

    def stretch(self, system):
        """A tick of unsure length is one of length 1, in which everything moves by that length."""
        system.tick = Q(1)
        system.unsure = system.unsure + [("tick", *self.lengths)]
        for s in system.states:
            s.rate = ("*", ("var", "tick"), s.rate)

    def check_sections(self, systems):
        """Of sections by variables: each names one that some plant has."""
        moved = {h.topic for system in systems for h in system.inputs}
        for h in self.inputs:
            if h.topic not in moved:
                raise Fault(f"input.{h.topic}", "stands in the rate and jump of no plant")
        own = {s.name for system in systems for s in system.own}
        also = {word for system in systems for h in system.inputs for word in (h.name, h.topic)}
        for key, known in (("form", own), ("terms", own), ("pieces", own | also)):
            for name in self.doc.get(key, {}):
                if name not in known:
                    what = "state variable or input" if key == "pieces" else "state variable"
                    raise Fault(f"{key}.{name}", f"is no {what} of the plant")

    def read_forms(self, system):
        mean = ("num", (self.lengths[0] + self.lengths[1]) / 2)
        by = dict(self.constants) | {"tick": mean} | self.late
        allowed = {s.name for s in system.states} | {h.name for h in system.inputs}
        here = allowed | {h.topic for h in system.inputs} | set(by)
        own = {s.name for s in system.own}
        for section, store in (("form", system.forms), ("terms", system.terms)):
            for key, value in self.tables(
                section, str if section == "form" else list, named=False
            ):
                if key not in own:
                    continue
                place, found = f"{section}.{key}", []
                for text in [value] if section == "form" else value:
                    p = polynomial(replaced(parse(text_of(text, place), place, here), by))
                    if p is None or not set().union(*map(set, p)) <= allowed:
                        raise Fault(
                            place,
                            "is a polynomial of state variables and inputs, with exact constants",
                        )
                    found.append(p)
                store[key] = found[0] if section == "form" else [m for p in found for m in p]

    def read_pieces(self, system):
        for key, value in self.tables("pieces", (list, int), named=False):
            place = f"pieces.{key}"
            var = next(
                (v for v in system.variables if key in (v.name, getattr(v, "topic", v.name))), None
            )
            if var is None:
                continue
            if isinstance(value, int):
                system.pieces[var.name] = even_cuts(var, count(value, place, 1, 64))
                continue
            cuts = sorted({exact(c, place) for c in value})
            if any(
                not on_grid(c, var.decimals) or not var.least < c <= var.greatest for c in cuts
            ):
                raise Fault(
                    place, "the ends between pieces lie inside the range and have its decimals"
                )
            system.pieces[var.name] = cuts
