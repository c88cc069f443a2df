"""Where the cycles of a window went, node by node: from a trace, or from what `avrora monitor` writes (docs/FORMATS.md,
"Profiles")."""
import collections
import itertools
import math
import re
from collections.abc import Callable, Iterable, Iterator, Mapping
from dataclasses import dataclass, field
from typing import NamedTuple

from avrora_tools import files, programs
from avrora_tools.errors import BadInput
from avrora_tools.events import Enter, Event, Instr, Sent, Stop
from avrora_tools.instructions import CALLS, RETI, SLEEP
from avrora_tools.scenarios import Scenario
from avrora_tools.traces import Trace

SEND_CHARGE, BUSY_CHARGE, ASLEEP_CHARGE = 512, 8, 1

NOTHING_TRACED = "no instruction is traced: run the scenario with a window, as the tool window does"
NOTHING_MONITORED = "a report of no cycles: the scenario has no window. `avrora monitor FILE 0 {}` is of all its cycles"


@dataclass
class Share:
    """What an instruction or an entry has of the window: how often it came, and its cycles."""

    count: int = 0
    cycles: int = 0


@dataclass
class Spent:
    """What one node spent of the window: cycles, and the shares of instructions and of interrupts by their words."""

    lead: int = 0  # before the node's first row
    asleep: int = 0
    stopped: int = 0
    charge: int = 0
    at: dict[int, Share] = field(default_factory=lambda: collections.defaultdict(Share))
    vector: dict[int, Share] = field(default_factory=lambda: collections.defaultdict(Share))

    def busy(self) -> int:
        return sum(share.cycles for share in itertools.chain(self.at.values(), self.vector.values()))

    def total(self) -> int:
        return self.busy() + self.lead + self.asleep + self.stopped


class Owner(NamedTuple):
    """The row that owns the cycles from its own on: None where the node stopped."""

    cycle: int
    event: Instr | Enter | None


# A call: the node, what called (a word, or the name of an interrupt), the callee's word.
Call = tuple[int, int | str, int]


class TraceReader:
    """Adds up the rows of a trace."""

    def __init__(self, window: tuple[int, int] | None, scenario: Scenario | None = None) -> None:
        """Where no `window` is named it is that of the `scenario`, unless the trace turns out to be of another one.
        Without either, what lies behind an instruction or entry row counts once the next one has come."""
        self.scenario = None if window else scenario
        first, end = window or (scenario.window if scenario else (None, None))
        self.first: int | None = first
        self.end: float | None = end
        self.traced: tuple[int, int] | None = None
        self.spent: dict[int, Spent] = collections.defaultdict(Spent)
        self.owners: dict[int, Owner] = {}
        self.calls: collections.Counter[Call] = collections.Counter()
        self.calling: dict[int, int | str] = {}  # by node what called, until the callee's first row
        # By node the handlers before whose jump at the vector another interrupt came: the vector, and what called.
        self.interrupted: dict[int, list[tuple[int, int | str]]] = collections.defaultdict(list)
        self.returned: set[int] = set()  # nodes whose last row is RETI
        self.sends: collections.Counter[int] = collections.Counter()
        self.early_sends: collections.Counter[int] = collections.Counter()
        self.late_sends: collections.Counter[int] = collections.Counter()
        self.late_stops: list[tuple[int, int]] = []  # cycle, node

    def read(self, cycle: int, node: int, event: Event) -> None:
        spent = self.spent[node]
        if isinstance(event, Instr):
            self.go_on(cycle)
            self.own(node, Owner(cycle, event))
            spent.at[event.address].count += 1
            self.note_call(node, event)
        elif isinstance(event, Enter):
            self.go_on(cycle)
            self.own(node, Owner(cycle, event))
            spent.vector[event.vector].count += 1
            self.note_interrupted(node, event.back)
            self.calling[node] = programs.vector_name(event.vector)
        elif isinstance(event, Stop):
            if self.end is None:
                self.late_stops.append((cycle, node))
            else:
                self.own(node, Owner(cycle, None))
        elif isinstance(event, Sent):
            self.read_sent(cycle, node)

    def read_sent(self, cycle: int, node: int) -> None:
        if self.first is None or self.end is None:
            self.late_sends[node] += self.first is not None
        else:
            sends = self.sends if self.traced else self.early_sends
            sends[node] += self.first <= cycle < self.end

    def go_on(self, cycle: int) -> None:
        """An instruction or entry row: the window begins or goes on, where none is named."""
        self.traced = self.traced[0] if self.traced else cycle, cycle
        if self.scenario and self.first is not None and self.end is not None and not self.first <= cycle < self.end:
            self.first, self.end = min(self.first, cycle), math.inf  # not the scenario's; `bound` bounds it
        self.first = cycle if self.first is None else self.first
        self.sends += self.late_sends
        self.late_sends.clear()

    def own(self, node: int, owner: Owner) -> None:
        self.charge(node, owner.cycle)
        self.owners[node] = owner

    def charge(self, node: int, until: float) -> None:
        """Charges the cycles below `until` that are not charged yet to their owner."""
        owner, spent = self.owners.get(node), self.spent[node]
        start = self.first or 0
        end = until if self.end is None else min(until, self.end)
        cycles = int(end - max(owner.cycle if owner else start, start)) if end < math.inf else 0
        if cycles <= 0:
            return
        self.charged(node, owner, cycles)
        if owner is None:
            spent.lead += cycles
        elif owner.event is None:
            spent.stopped += cycles
        elif isinstance(owner.event, Enter):
            spent.vector[owner.event.vector].cycles += cycles
        elif owner.event.instruction == SLEEP:
            spent.at[owner.event.address].cycles += 1
            spent.asleep += cycles - 1
        else:
            spent.at[owner.event.address].cycles += cycles

    def charged(self, node: int, owner: Owner | None, cycles: int) -> None:
        """So many cycles of a node are their owner's: for readers that add up more than this one does."""

    def note_interrupted(self, node: int, back: int) -> None:
        """An interrupt comes before the code at `back`. If that was called, its call counts: the interrupt may never
        return. What is called by way of the jump at a vector is not known yet."""
        caller = self.calling.get(node)
        if caller is not None and back in programs.VECTORS:
            self.interrupted[node].append((back, caller))
        elif caller is not None:
            self.calls[node, caller, back] += 1

    def note_call(self, node: int, event: Instr) -> None:
        caller = self.calling.pop(node, None)
        if node in self.returned:
            self.returned.discard(node)
            caller = self.called_before(node, event.address)
        if isinstance(caller, str) and event.address in programs.VECTORS:
            self.calling[node] = caller  # the jump at the vector
        elif caller is not None:
            self.calls[node, caller, event.address] += 1
        if event.instruction.partition(" ")[0] in CALLS:
            self.calling[node] = event.address
        elif event.instruction == RETI and self.interrupted[node]:
            self.returned.add(node)

    def called_before(self, node: int, word: int) -> int | str | None:
        """What called the code at a word, before the interrupt that has returned there."""
        waiting = self.interrupted[node]
        for place in reversed(range(len(waiting))):
            if waiting[place][0] == word:
                return waiting.pop(place)[1]
        return None

    def bound(self, limit: int | None) -> int:
        """Sets the window's bounds to what they are known to be once all rows are read; `limit` is the trace's."""
        if self.scenario:
            first, self.end = self.scenario.window_of(self.traced, limit)
            for spent in self.spent.values():
                spent.lead -= min(spent.lead, max(0, first - (self.first or 0)))
            if first > (self.first or 0):
                self.early_sends.clear()
            self.first = first
        self.sends += self.early_sends
        if not self.traced and not self.end:
            raise BadInput(NOTHING_TRACED)
        if self.end is None and self.traced:
            self.end = self.traced[1]
        elif limit is not None:
            self.end = min(self.end or 0, limit)
        return int(self.end or 0)

    def finish(self, limit: int | None) -> None:
        end = self.bound(limit)
        for cycle, node in self.late_stops:
            self.own(node, Owner(cycle, None))
        for node, spent in self.spent.items():
            self.charge(node, end)
            spent.charge = BUSY_CHARGE * spent.busy() + ASLEEP_CHARGE * spent.asleep + SEND_CHARGE * self.sends[node]


def read_trace(
    trace: Trace, window: tuple[int, int] | None, scenario: Scenario | None, all_programs: programs.Programs
) -> TraceReader:
    """What each node spent by the rows of a trace."""
    reader = TraceReader(window, scenario)
    for cycle, node, event in trace:
        all_programs.compare(node, event)
        reader.read(cycle, node, event)
    reader.finish(trace.limit if trace.epochs is None else trace.bound)
    return reader


# The lines of a node in a monitor's output, in their order; of `at` and `vector` there are any number.
LINES = ("lead", "at", "vector", "asleep", "stopped", "charge")
NUMBER = "(0|[1-9][0-9]{0,12})"
MONITOR = re.compile(
    f"([0-9]|[1-5][0-9]|6[0-3]) (?:(lead|asleep|stopped|charge) {NUMBER}|(at|vector) ([0-9A-F]{{4}}) {NUMBER} {NUMBER})"
)
LONGEST_LINE = 80


class MonitorReader:
    """Reads what `avrora monitor` wrote: of each node of a scenario, in their order, all its lines.

    The cycles are those of `window`; without one those of the scenario's window, or all of its cycles, where there are
    so many."""

    def __init__(self, name: str, scenario: Scenario, window: tuple[int, int] | None = None) -> None:
        self.name, self.scenario, self.window = name, scenario, window
        self.spent: list[Spent] = []
        self.line = LINES.index("charge")  # the kind of the last line
        self.word = -1  # of the last line

    def read(self, lines: Iterable[str]) -> dict[int, Spent]:
        number = 0
        for number, line in enumerate(lines, 1):
            match = MONITOR.fullmatch(line)
            if not match or not self.follows(match):
                raise BadInput(f"{self.name}, line {number}: no line of a monitor here: {files.printable(line[:60])}")
        self.finish(number)
        return dict(enumerate(self.spent))

    def follows(self, match: re.Match[str]) -> bool:
        """Takes a line in; whether it may stand here."""
        name = match[2] or match[4]
        kind, node = LINES.index(name), int(match[1])
        if name == "lead":
            if self.line != LINES.index("charge") or node != len(self.spent):
                return False
            self.spent.append(Spent())
        elif node != len(self.spent) - 1:
            return False
        word = int(match[5], 16) if match[5] else -1
        if not self.may_come(name, kind, word):
            return False
        self.line, self.word = kind, word
        spent = self.spent[-1]
        if match[2]:
            setattr(spent, name, int(match[3]))
        else:
            share = Share(int(match[6]), int(match[7]))
            (spent.at if name == "at" else spent.vector)[word] = share
            return 1 <= share.count <= share.cycles
        return True

    def may_come(self, name: str, kind: int, word: int) -> bool:
        """Whether a line of the kind may follow the last one."""
        if name == "lead":
            return True
        if kind == self.line:
            return name in ("at", "vector") and word > self.word
        if name in ("stopped", "charge"):
            return kind == self.line + 1
        return LINES.index("lead") <= self.line < kind

    def finish(self, lines: int) -> None:
        if lines == 0:
            raise BadInput(f"{self.name}: it has no line of a monitor")
        count = len(self.scenario.images)
        if self.line != LINES.index("charge") or len(self.spent) != count:
            raise BadInput(f"{self.name}: it ends with node {len(self.spent) - 1}, and the scenario has {count} nodes")
        cycles = self.cycles()
        for node, spent in enumerate(self.spent):
            rest = spent.charge - BUSY_CHARGE * spent.busy() - ASLEEP_CHARGE * spent.asleep
            if spent.total() != cycles:
                raise BadInput(
                    f"{self.name}: the lines of node {node} do not add up to the {cycles:,} cycles of the window, "
                    "but to "
                    f"{spent.total():,}: if `avrora monitor FILE FROM TO` wrote it, --window FROM..TO says the window"
                )
            if rest < 0 or rest % SEND_CHARGE:
                raise BadInput(f"{self.name}: the lines of node {node} do not add up to their charge")
        if cycles == 0:
            raise BadInput(f"{self.name}: {NOTHING_MONITORED.format(self.scenario.cycles)}")

    def cycles(self) -> int:
        """How many cycles each node is to have."""
        first, end = self.span()
        return end - first

    def span(self) -> tuple[int, int]:
        """The cycles that the report is of: the first, and the one behind the last."""
        if self.window is None and all(spent.total() == self.scenario.cycles for spent in self.spent):
            return 0, self.scenario.cycles
        return self.window or self.scenario.window


def text_lines(blocks: Iterable[bytes], name: str) -> Iterator[str]:
    """The lines of a text. Raises BadInput where the last one has no end, or one is longer than any of a monitor."""
    rest = b""
    for block in blocks:
        *lines, rest = (rest + block).split(b"\n")
        for line in lines:
            yield line.decode("ascii", "replace")
        if len(rest) > LONGEST_LINE:
            raise BadInput(f"{name}: no line of a monitor: {files.printable(rest[:60].decode('ascii', 'replace'))}")
    if rest:
        raise BadInput(f"{name}: cut off in its last line")


def is_monitor(beginning: bytes) -> bool:
    """Whether a text begins as what a monitor writes."""
    return bool(re.match(rb"\d+ lead ", beginning))


# ---- tables

# Names what an instruction of a node belongs to.
Namer = Callable[[int, int], str]


class Taken(NamedTuple):
    """What something took: its cycles, how many rows it has (None where it has none), its name."""

    cycles: int
    rows: int | None
    name: str


def by_name(spent: Mapping[int, Spent], name_of: Namer) -> list[Taken]:
    """Cycles by name, most first, and then what belongs to no instruction; `name_of(node, word)` names what an
    instruction belongs to."""
    cycles: collections.Counter[str] = collections.Counter()
    counts: collections.Counter[str] = collections.Counter()
    for node, one in spent.items():
        for word, share in one.at.items():
            name = name_of(node, word)
            cycles[name] += share.cycles
            counts[name] += share.count
    entries = [share for one in spent.values() for share in one.vector.values()]
    found = [Taken(taken, counts[name], name) for name, taken in sorted(cycles.items(), key=lambda it: (-it[1], it[0]))]
    found += [
        Taken(sum(share.cycles for share in entries), sum(share.count for share in entries), "(entering interrupts)"),
        Taken(sum(one.asleep for one in spent.values()), None, "(asleep)"),
        Taken(sum(one.stopped for one in spent.values()), None, "(stopped)"),
        Taken(sum(one.lead for one in spent.values()), None, "(before the first row)"),
    ]
    return [one for one in found if one.cycles]


class Ran(NamedTuple):
    """How many instructions of a function ran, of how many."""

    function: programs.Function
    ran: int
    of: int


def covered(spent: Mapping[int, Spent], all_programs: programs.Programs, program: programs.Program) -> list[Ran]:
    """Which part of each function of a program its nodes executed."""
    hit = {
        word
        for node, one in spent.items()
        if all_programs.of(node) is program
        for word, share in one.at.items()
        if share.count
    }
    words = [(function, list(program.instructions(function))) for function in program.functions]
    return [Ran(function, len(hit.intersection(every)), len(every)) for function, every in words]


class Names:
    """What instructions belong to."""

    def __init__(self, all_programs: programs.Programs) -> None:
        self.programs = all_programs

    def function(self, node: int, word: int) -> str:
        program = self.programs.of(node)
        function = program.function_at(word) if program else None
        return function.name if function else f"{word:04X}"

    def is_room(self, node: int, caller: int | str, callee: int) -> bool:
        """Whether a call is one of the next word, where no function begins: so compilers make room on the stack."""
        program = self.programs.of(node)
        function = program.function_at(callee) if program else None
        return function is not None and function.first != callee and caller == callee - 1

    def line(self, node: int, word: int) -> str:
        program = self.programs.of(node)
        line = program.line_at(word) if program else None
        return line or f"{self.function(node, word)} (no line)"
