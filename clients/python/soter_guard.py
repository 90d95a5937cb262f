"""A client of the program `soter_guard`, which runs a checked mission beside a robot.

It needs python3's own library alone, and a POSIX system. docs/CLIENTS.md tells how it is used. It is tested and not
proved.

    with Guard('line.mission', fallback=stop_the_motor, deadline=0.1) as guard:
        guard.start({'pos': position()})
        while flying():
            guard.draft('fast', {'cmd': wanted()})
            drive(guard.go().held['pos']['cmd'])
            wait_for_the_clock()
            guard.tick({'pos': position()})

Numbers are handed over in units, and told as mantissas, rounded to the nearest and half to even. Where the guard is
lost, `fallback` is called once, before anything else, and each later call raises GuardLost. One thread uses a guard.
"""
import dataclasses
import fractions
import math
import numbers
import os
import re
import select
import subprocess
import time
from typing import Callable, Dict, List, Mapping, Optional, Sequence, Set, TextIO, Tuple, Union

LEAST, MOST = -2 ** 63, 2 ** 63 - 1
LONGEST = 65000       # bytes of a line that is told; the guard ends where one has 65,536
LAST_TIME = 10 ** 12  # the time at which a talk ends
LAST_SAID = 'says all'  # behind it nothing more is said of the mission
UNSEEN = 'tick lost'  # says nothing to the guard, which is blind then
AT_ONCE = 65536       # bytes that are read at once

Number = Union[int, float]
States = Union[Number, Sequence[Number], Mapping[str, Number], None]


class GuardError(Exception):
    """The base of all that this client raises."""


class GuardLost(GuardError):
    """The guard is heard no more, and the fallback has been called."""


class NotANumber(GuardError):
    """A plant's first observation has no number that can be told; nothing was told."""


class OutOfTurn(GuardError):
    """The call may not come here; nothing was told."""


# --- numbers --------------------------------------------------------------------------------------

def mantissa_of(value: object, decimals: int) -> Optional[int]:
    """The nearest mantissa of so many decimals, half to even. None where 64 bits have none."""
    if not isinstance(value, numbers.Rational):
        if not isinstance(value, numbers.Real) or not math.isfinite(value):
            return None
        value = float(value)
    found = round(fractions.Fraction(value) * 10 ** decimals)
    return found if LEAST <= found <= MOST else None


def value_of(mantissa: int, decimals: int) -> Number:
    """What a mantissa stands for: a whole number where there are no decimals."""
    return mantissa / 10 ** decimals if decimals else mantissa


# --- what the guard says of a mission -------------------------------------------------------------

def front_of(text: str) -> str:
    """The program and its certificate, without the sections behind them."""
    for found in re.finditer(r'^%(.*?)\r?$', text, re.M):
        if found[1] != 'certificate':
            text = text[:found.start()]
            break
    return text if text.endswith('\n') else text + '\n'


class Mission:
    """What a client has to know of a mission, by the lines `says ..` of the guard. It reads no mission itself.

    `states` has the states of each plant, `inputs` the commands that hold it, `fields` the scalars of each environment
    topic, and `drafts` those that each external node may draft, all in order. `decimals` and `ranges` have a count and
    two mantissas for each scalar and each state, by names as `cmd`, `pose.x` and `pos.x`.
    """

    def __init__(self, lines: Sequence[str]):
        self.decimals: Dict[str, int] = {}
        self.ranges: Dict[str, Tuple[int, int]] = {}
        self.states: Dict[str, List[str]] = {}
        self.inputs: Dict[str, List[str]] = {}
        self.fields: Dict[str, List[str]] = {}
        self.drafts: Dict[str, List[str]] = {}
        self.modules: List[str] = []
        for line in lines:
            self._take(line.split(' ')[1:])

    def _take(self, words: List[str]) -> None:
        """One line. A kind that is not known here is passed over, so that a later guard may say more."""
        kind = words[0]
        if kind == 'external':
            self.drafts[words[1]] = []
        elif kind == 'module':
            self.modules.append(words[1])
        elif kind in ('state', 'command', 'input', 'draft'):
            self._take_number(*words)

    def _take_number(self, kind: str, owner: str, name: str, _: str, scale: str, __: str, low: str, high: str) -> None:
        """A state of a plant, or a scalar of a plant, a topic or a node."""
        if kind == 'state':
            self.inputs.setdefault(owner, [])
        among = {'state': self.states, 'command': self.inputs, 'input': self.fields, 'draft': self.drafts}[kind]
        among.setdefault(owner, []).append(name)
        full = f'{owner}.{name}' if kind == 'state' else name
        self.decimals[full], self.ranges[full] = int(scale), (int(low), int(high))


# --- what is heard --------------------------------------------------------------------------------

@dataclasses.dataclass
class Instant:
    """What the guard said of one instant.

    `held` are the commands in force until the next tick, by plant and scalar, in units; `mantissas` the same as they
    were told. `modes` are those of all modules. `outside` and `blind` are the lines that end the trust in the models,
    in the instant in which they come. `ignored` are the lines that tell of a draft, an input or a resume which was not
    taken. `resumes` are the other answers to `resume`. `due` are the external nodes that are due after the tick.
    """
    time: int
    held: Dict[str, Dict[str, Number]] = dataclasses.field(default_factory=dict)
    mantissas: Dict[str, Dict[str, int]] = dataclasses.field(default_factory=dict)
    modes: Dict[str, str] = dataclasses.field(default_factory=dict)
    outside: Optional[str] = None
    blind: Optional[str] = None
    ignored: List[str] = dataclasses.field(default_factory=list)
    resumes: List[str] = dataclasses.field(default_factory=list)
    due: List[str] = dataclasses.field(default_factory=list)
    lines: List[str] = dataclasses.field(default_factory=list)

    @property
    def is_last(self) -> bool:
        """Whether the talk has come to its end with it: the next call finds no guard."""
        return self.time >= LAST_TIME


# an answer to `resume`
RESUME = re.compile(r'\d+ (?:resumed|refused resume module \w+|ignored resume \w+)', re.A)


def is_ready(line: str) -> bool:
    """Whether a line is the last one of an instant: `T ready`, and the external nodes that are due after the tick."""
    return line.split(' ')[1:2] == ['ready']


def is_trusted_after(lines: List[str], trusted: bool) -> bool:
    """Whether the models are trusted behind these lines of the guard."""
    for line in lines:
        kind = line.split(' ')[1]
        trusted = kind == 'resumed' or trusted and kind not in ('outside', 'blind')
    return trusted


def instant_of(mission: Mission, lines: List[str], now: int, modes: Dict[str, str]) -> Instant:
    """An instant by its lines, of which the last one is `T ready NODE ..`; ValueError where it is none."""
    instant = Instant(now, modes=dict(modes), lines=lines)
    for line in lines:
        words = line.split(' ')
        kind = words[1]
        if kind == 'hold':
            pairs = [word.split('=') for word in words[3:]]
            instant.mantissas[words[2]] = {name: int(number) for name, number in pairs}
        elif kind == 'decide':
            instant.modes[words[2]] = words[3]
        elif kind == 'ignored':
            instant.ignored.append(line)
        elif RESUME.fullmatch(line):
            instant.resumes.append(line)
        elif kind in ('outside', 'blind'):
            setattr(instant, kind, line)
            instant.modes = dict.fromkeys(modes, 'sc')
    if {plant: list(held) for plant, held in instant.mantissas.items()} != mission.inputs:
        raise ValueError('the commands in force are not those of all plants')
    time, _, *instant.due = lines[-1].split(' ')
    if time != str(now):
        raise ValueError(f'the guard is at another time than {now}')
    if not set(instant.due) <= set(mission.drafts):
        raise ValueError('what is due is no external node')
    for plant, held in instant.mantissas.items():
        instant.held[plant] = {name: value_of(number, mission.decimals[name])
                               for name, number in held.items()}
    return instant


# --- the talk -------------------------------------------------------------------------------------

class Guard:
    """A talk with the program, from the mission to the end."""

    def __init__(self, mission: Union[str, 'os.PathLike[str]'], fallback: Callable[[str], None],
                 program: Union[str, Sequence[str]] = 'soter_guard', deadline: float = 0.1,
                 opening_deadline: float = 60.0, decimals: Optional[Mapping[str, int]] = None,
                 log: Union[str, 'os.PathLike[str]', None] = None, first_time: int = 0):
        """Starts the program with the mission of a file, and waits until it is accepted and the guard has said what it has.

        `decimals` are counts that the robot takes for granted; ValueError where the mission has others. `fallback` brings the robot to rest without a guard, and is told why. `deadline` is the longest time in
        seconds for an answer, and `opening_deadline` that for the check of the mission. `log` is a file for both
        sides of the talk, as `scripts/picture` reads it. `first_time` is the time in ticks at which the talk begins.
        """
        with open(mission, encoding='latin-1', newline='') as file:
            front = front_of(file.read())
        self.deadline, self.time, self.is_trusted = deadline, first_time, True
        self.due: Set[str] = set()
        self.lost: Optional[str] = None
        self._fallback, self._turn = fallback, 'start'
        self._waiting, self._heard, self._lines = bytearray(), bytearray(), []
        self._process: Optional['subprocess.Popen[bytes]'] = None
        self._log: Optional[TextIO] = None
        if log is not None:
            self._log = open(log, 'w', encoding='latin-1', newline='')
        self._open([program] if isinstance(program, str) else list(program), front, opening_deadline)
        self.mission = self._said_of_mission()
        self.modes = dict.fromkeys(self.mission.modules, 'sc')
        for name, count in (decimals or {}).items():
            self._want_decimals(name, count)

    def _open(self, words: List[str], front: str, seconds: float) -> None:
        try:
            self._process = subprocess.Popen(words, stdin=subprocess.PIPE, stdout=subprocess.PIPE,
                                             bufsize=0)
        except OSError as why:
            self._lose(f'the program does not start: {why}')
        os.set_blocking(self._process.stdin.fileno(), False)
        os.set_blocking(self._process.stdout.fileno(), False)
        self._tell(front + (f'%observed {self.time}\n' if self.time else '%observed\n'))
        self._pump(lambda: self._lines and (self._lines[0] != 'accepted' or LAST_SAID in self._lines), seconds)
        if self._lines[0] != 'accepted':
            self._lose(f'the mission is not accepted: {self._lines[0]}')

    def _said_of_mission(self) -> Mission:
        """What the guard has said of the mission, up to the last line of that."""
        end = self._lines.index(LAST_SAID)
        said = [line for line in self._lines[:end] if line.startswith('says ')]
        del self._lines[:end + 1]
        try:
            return Mission(said)
        except (ValueError, TypeError, IndexError) as why:
            self._lose(f'what the guard says of the mission is not understood: {why}')

    def _want_decimals(self, name: str, count: int) -> None:
        there = self.mission.decimals.get(name)
        if there != count:
            self.lost = 'the mission has other decimals'
            self._stop()
            raise ValueError(f'the mission has {"no" if there is None else there} decimals of {name}, and not {count}')

    def __enter__(self) -> 'Guard':
        return self

    def __exit__(self, kind: object, *_: object) -> None:
        """Ends the talk. Where the block was left by an exception, the fallback is called."""
        if kind is None and self.lost is None:
            self.close()
        elif self.lost is None:
            self._fall_back('the block of the guard was left by an exception')

    # --- what the robot says ----------------------------------------------------------------------

    def start(self, places: Mapping[str, States]) -> None:
        """Where each plant was observed first; it waits until the guard says that the talk begins."""
        self._want('start')
        lines = []
        for plant in self._plants_of(places):
            place = self._place_of(plant, places[plant])
            if place is None:
                raise NotANumber(f'{plant} starts at {places[plant]!r}, which no 64 bits tell')
            lines.append(f'start {place}\n')
        self._turn = 'instant'
        self._say(''.join(lines))
        self._pump(lambda: self._lines, self.deadline)
        begun = self._lines.pop(0).split(' ')
        if begun[:2] != [str(self.time), 'begins'] or not set(begun[2:]) <= set(self.mission.drafts):
            self._lose(f'the talk does not begin: {" ".join(begun)}')
        self.due = set(begun[2:])

    def tick(self, places: Mapping[str, States]) -> bool:
        """Where all plants were observed after a tick.

        What is no number of 64 bits is never told as one: None, NaN, an infinity or a number that is too large is
        told as `tick lost`, which makes the guard blind. It returns whether the plants were seen.
        """
        self._want('tick')
        told = [self._place_of(plant, places[plant]) for plant in self._plants_of(places)]
        self._turn, self.time = 'instant', self.time + 1
        self._say((UNSEEN if None in told else ' '.join(['tick', *told])) + '\n')
        return None not in told

    def input(self, topic: str, values: States) -> bool:
        """What came on an environment topic; False where it is left out, as it is no number."""
        self._want('instant')
        if topic not in self.mission.fields:
            raise ValueError(f'the mission has no environment topic {topic}')
        told = self._told(self.mission.fields[topic], len(topic) + 1, values, topic)
        if told is None:
            return False
        self._say(f'input {topic}={told}\n')
        return True

    def draft(self, node: str, wanted: Mapping[str, Number]) -> bool:
        """What an external node wants, of its scalars some or all.

        It is left out, and False returned, where the node is not due, or a value is no number of 64 bits.
        """
        self._want('instant')
        scalars = self._scalars_of(node)
        for name in wanted:
            if name not in scalars:
                raise ValueError(f'{node} writes no {name}')
        told = {name: mantissa_of(wanted[name], self.mission.decimals[name]) for name in wanted}
        if node not in self.due or None in told.values():
            return False
        words = [f'{name}={told[name]}' for name in scalars if name in told]
        self._say(' '.join(['draft', node, *words]) + '\n')
        return True

    def draft_text(self, node: str, text: str) -> bool:
        """As `draft`, by what a planner wrote itself, as `cmd=2`, in mantissas.

        Of the text at most one line is told, and what is too long is cut between two words.
        """
        self._want('instant')
        if not self.is_due(node):
            return False
        front = f'draft {node} '
        self._say(front + cut(text, LONGEST - len(front)) + '\n')
        return True

    def is_due(self, node: str) -> bool:
        """Whether an external node is due in this instant, or behind a `go` in the next, by what the guard said."""
        self._scalars_of(node)
        return node in self.due

    def resume(self) -> bool:
        """Asks that the models are trusted again, in this instant; it waits for the answer, and returns whether they are.

        They are where every plant was observed at this time, and the commands in force hold every module safe until
        its safe node fires. Else the answer stands in the `resumes` or the `ignored` of the instant.
        """
        self._want('instant')
        before = len(self._resumes())
        self._say('resume\n')
        self._pump(lambda: len(self._resumes()) > before, self.deadline)
        self.is_trusted = is_trusted_after(self._lines, self.is_trusted)
        return self._resumes()[-1].endswith(' resumed')

    def _resumes(self) -> List[str]:
        """The answers to `resume` that were heard in this instant."""
        return [line for line in self._lines if RESUME.fullmatch(line)]

    def go(self) -> Instant:
        """All of this instant was said: what happened, and the commands in force."""
        self._want('instant')
        self._say('go\n')
        self._pump(lambda: any(is_ready(line) for line in self._lines), self.deadline)
        end = 1 + next(i for i, line in enumerate(self._lines) if is_ready(line))
        try:
            instant = instant_of(self.mission, self._lines[:end], self.time, self.modes)
        except (ValueError, IndexError, KeyError) as why:
            self._lose(f'what the guard says is not understood: {why}')
        self._turn, self._lines, self.modes = 'tick', self._lines[end:], instant.modes
        self.due = set(instant.due)
        self.is_trusted = is_trusted_after(instant.lines, self.is_trusted)
        self._keep('')
        return instant

    def close(self) -> int:
        """Ends the talk, where the robot is at rest: the status of the program."""
        self._want(self._turn)
        self._pump(lambda: not self._waiting, self.deadline)
        self.lost = 'the talk was ended'
        try:
            rest, _ = self._process.communicate(timeout=self.deadline)
            self._keep((self._heard + rest).decode('latin-1'))
        except subprocess.TimeoutExpired:
            pass
        return self._stop()

    # --- names ------------------------------------------------------------------------------------

    def _plants_of(self, places: Mapping[str, States]) -> List[str]:
        """All plants in order; each of them has to have its place."""
        if set(places) != set(self.mission.states):
            raise ValueError(f'the plants are {", ".join(self.mission.states)}, '
                             f'and not {", ".join(map(str, places))}')
        return list(self.mission.states)

    def _scalars_of(self, node: str) -> List[str]:
        """What an external node may draft."""
        if node not in self.mission.drafts:
            raise ValueError(f'the mission has no external node {node}')
        return self.mission.drafts[node]

    def _place_of(self, plant: str, values: States) -> Optional[str]:
        names = [f'{plant}.{state}' for state in self.mission.states[plant]]
        told = self._told(names, len(plant) + 1, values, plant)
        return None if told is None else f'{plant}({told})'

    def _told(self, names: List[str], front: int, values: States, whose: str) -> Optional[str]:
        """Numbers as they are told; None where one is no number of 64 bits, or all are missing."""
        if values is None:
            return None
        if isinstance(values, Mapping):
            keys = [name[front:] for name in names]
            if set(values) != set(keys):
                raise ValueError(f'{whose} has {", ".join(keys)}, and not {", ".join(values)}')
            values = [values[key] for key in keys]
        row = list(values) if hasattr(values, '__len__') else [values]
        if len(row) != len(names):
            raise ValueError(f'{whose} has {len(names)} numbers, and not {len(row)}')
        found = [mantissa_of(value, self.mission.decimals[name]) for name, value in zip(names, row)]
        return None if None in found else ','.join(map(str, found))

    # --- the pipes --------------------------------------------------------------------------------

    def _want(self, turn: str) -> None:
        if self.lost is not None:
            raise GuardLost(self.lost)
        if self._turn != turn:
            raise OutOfTurn(f'the guard waits for {self._turn}, and not for {turn}')

    def _say(self, text: str) -> None:
        """Tells the program a text, and hears what it says meanwhile."""
        self._tell(text)
        self._pump(lambda: not self._waiting, self.deadline)

    def _tell(self, text: str) -> None:
        self._waiting += text.encode('latin-1', 'replace')
        self._keep(text)

    def _pump(self, is_done: Callable[[], object], seconds: float) -> None:
        """Writes what waits, and hears lines, until it is done. Past the deadline the guard is lost."""
        end = time.monotonic() + seconds
        while not is_done():
            left = end - time.monotonic()
            if left <= 0:
                self._lose(f'there was no answer within {seconds} s')
            there = select.poll()
            there.register(self._process.stdout, select.POLLIN)
            if self._waiting:
                there.register(self._process.stdin, select.POLLOUT)
            ready = [number for number, _ in there.poll(math.ceil(left * 1000))]
            try:
                # what it said comes first: a guard that ends has said why
                if self._process.stdout.fileno() in ready:
                    self._hear(os.read(self._process.stdout.fileno(), AT_ONCE))
                elif ready:
                    del self._waiting[:os.write(self._process.stdin.fileno(), self._waiting)]
            except BlockingIOError:
                pass
            except OSError as why:
                self._lose(f'the pipe to the guard broke: {why}; it said last: {self._last()}')

    def _hear(self, read: bytes) -> None:
        """Lines that are complete; nothing at all where the program has ended."""
        if not read:
            self._lose(f'the guard has ended; it said last: {self._last()}')
        self._heard += read
        *lines, rest = self._heard.split(b'\n')
        self._heard = bytearray(rest)
        for line in lines:
            self._lines.append(line.decode('latin-1'))
            self._keep(self._lines[-1] + '\n')

    def _last(self) -> str:
        """The last line that was heard of this instant."""
        return self._lines[-1] if self._lines else 'nothing'

    # --- the end ----------------------------------------------------------------------------------

    def _lose(self, why: str) -> None:
        """The guard is lost: first of all the robot falls back, then the program is ended."""
        try:
            self._fall_back(why)
        except Exception as fault:
            raise GuardLost(f'{why}; and the fallback failed: {fault!r}') from fault
        raise GuardLost(why)

    def _fall_back(self, why: str) -> None:
        self.lost = why
        try:
            self._fallback(why)
        finally:
            self._stop()

    def _stop(self) -> int:
        """Ends the program, where it still runs, and closes what is open."""
        if self._process is not None:
            self._process.kill()
            self._process.wait()
            for pipe in (self._process.stdin, self._process.stdout):
                try:
                    pipe.close()
                except OSError:
                    pass
        if self._log is not None:
            self._log.close()
            self._log = None
        return self._process.returncode if self._process is not None else -1

    def _keep(self, text: str) -> None:
        """Keeps a text in the log. A log that fails is given up, and the talk goes on."""
        if self._log is None:
            return
        try:
            self._log.write(text.encode('latin-1', 'replace').decode('latin-1'))
            if not text:
                self._log.flush()
        except OSError:
            self._log = None


def cut(text: str, room: int) -> str:
    """The first line of a text, and of that no more words than there is room for."""
    line = re.split('[\r\n]', text, maxsplit=1)[0]
    return line if len(line) <= room else line[:max(line.rfind(' ', 0, room + 1), 0)]
