"""What is drawn of a trace, node by node, and how it is thinned where it is too much for a page."""
import json
from array import array
from collections.abc import Iterable, Iterator
from typing import Any, NamedTuple

from avrora_tools import lines, programs
from avrora_tools.errors import BadInput
from avrora_tools.events import CLASH, NOTHING, End, Enter, Event, Heard, Instr, Sent, Serial, Stop
from avrora_tools.hearing import Hearing
from avrora_tools.instructions import SLEEP
from avrora_tools.scenarios import DEFAULT_TIME, Scenario
from avrora_tools.showing import printable
from avrora_tools.traces import LAST_LIMIT, Trace
from avrora_tools.tracks import Track

MAX_WAYS = 250  # lines from sends to where they were heard

LONGEST_INSTRUCTION = 6  # no instruction takes so many cycles

# What is drawn of a node, each kind with how many numbers an event of it has, of which the first is its cycle.
FIELDS = {"sent": 2, "heard": 4, "clash": 3, "quiet": 1, "serial": 2, "lines": 3, "asleep": 2, "enter": 2, "stop": 2}

TRACK = "track"  # the kind of what variables are over time, which are not events

# An event that is drawn: its cycle, and what its kind has more.
Drawn = tuple[Any, ...]


class Numbers:
    """Events of whole numbers alone, without an object for each."""

    def __init__(self, fields: int) -> None:
        self.fields = fields
        self.flat = array("q")

    def append(self, event: tuple[int, ...]) -> None:
        self.flat.extend(event)

    def __len__(self) -> int:
        return len(self.flat) // self.fields

    def __iter__(self) -> Iterator[tuple[int, ...]]:
        return zip(*[iter(self.flat)] * self.fields)


class Lane:
    """All that is drawn of one node."""

    def __init__(self) -> None:
        self.sent = Numbers(FIELDS["sent"])  # cycle, byte
        self.heard = Numbers(FIELDS["heard"])  # cycle, byte, age, sender or -1
        self.clash: list[tuple[int, int, list[int]]] = []  # cycle, OR of the bytes, senders
        self.quiet = Numbers(FIELDS["quiet"])  # cycle of a sample that heard nothing
        self.serial = Numbers(FIELDS["serial"])  # cycle, byte
        self.lines: list[tuple[int, int, str]] = []  # cycle, cycles to its last byte, text of a line of USART0
        self.asleep = Numbers(FIELDS["asleep"])  # cycle, cycles
        self.enter = Numbers(FIELDS["enter"])  # cycle, vector
        self.stop: list[tuple[int, str]] = []  # cycle, address and cause
        self.state = ""
        self.fell_asleep: int | None = None
        self.stopped: int | None = None  # the cycle
        self.last_instruction: tuple[int, int] | None = None  # its cycle, its address
        self.where: dict[int, str] = {}  # by the cycle of an event: which line of source was executed
        self.tracks: list[Track] = []  # of variables and registers
        self.rest: list[int] = []  # in how many cycles of each span of the drawing it slept

    def events(self, kind: str) -> Iterable[Drawn]:
        found: Iterable[Drawn] = getattr(self, kind)
        return found

    def count(self, *kinds: str) -> int:
        return sum(len(getattr(self, kind)) for kind in kinds)


class Way(NamedTuple):
    """From a send to where it was heard."""

    kind: str
    sender: int
    sent: int
    hearer: int
    cycle: int


class Drawing:
    """The rows of a trace, by node."""

    def __init__(
        self,
        scenario: Scenario | None,
        name: str,
        first: int = 0,
        end: int | None = None,
        nodes: set[int] | None = None,
        all_programs: programs.Programs | None = None,
    ) -> None:
        """What a trace called `name` has of the `nodes` (None: of all) from the cycle `first` on and before `end`. With
        programs it is told which line of source was executed, as far as rows tell."""
        self.first, self.end, self.nodes = first, end, nodes
        self.scenario, self.programs = scenario, all_programs
        self.hearing = Hearing(scenario, name) if scenario else None
        self.lanes: dict[int, Lane] = {}
        self.last = self.last_cycle = 0
        self.ways: list[Way] = []
        self.gap: int | None = None  # the least distance of two sends of one node
        self.last_sent: dict[int, int] = {}
        self.lines = lines.Lines(self.note_line)
        self.window = (0, 0)
        self.byte_time = DEFAULT_TIME
        self.spans: list[int] = []  # the ends of spans of which it is known how long nodes slept

    @classmethod
    def of(
        cls,
        trace: Trace,
        first: int = 0,
        end: int | None = None,
        nodes: set[int] | None = None,
        all_programs: programs.Programs | None = None,
    ) -> "Drawing":
        """What a trace has, which is read for it."""
        drawing = cls(trace.scenario, trace.name, first, end, nodes, all_programs)
        for cycle, node, event in trace:
            drawing.read(cycle, node, event)
        drawing.finish(trace)
        return drawing

    def finish(self, trace: Trace) -> None:
        """What is known once all rows are read."""
        self.lines.end_all()
        if trace.epochs:
            self.last = max(self.last, trace.bound - 1)
        self.last_cycle = self.last + 1 if self.end is None else self.end
        if self.lanes and self.last_cycle <= self.first:
            raise BadInput(f"the trace ends in cycle {self.last}, before --from {self.first}")
        if self.scenario:
            self.window = self.scenario.window_of(trace.traced, trace.limit)
        for lane in self.lanes.values():
            self.finish_sleep(lane)
        gap = min(DEFAULT_TIME, self.gap or DEFAULT_TIME)
        self.byte_time = self.scenario.byte_time if self.scenario else gap

    def closed(self, hearer: int) -> list[tuple[int, int, int]]:
        """The spans of what is drawn in which a link to a node is not open: the first cycle, the one behind the last,
        and the sender."""
        found = []
        for link in self.scenario.links if self.scenario else ():
            if link.hearer != hearer or link.spans is None:
                continue
            begun = self.first
            for first, end in [*link.spans, (self.last_cycle, self.last_cycle)]:
                if begun < min(first, self.last_cycle):
                    found.append((begun, min(first, self.last_cycle), link.sender))
                begun = max(begun, end)
        return sorted(found)

    def read(self, cycle: int, node: int, event: Event) -> None:
        on_air = self.hearing.row(cycle, node, event) if self.hearing else ()
        if isinstance(event, Sent):
            self.note_send(cycle, node)
        if self.nodes is not None and node not in self.nodes:
            return
        lane = self.lanes.get(node)
        if lane is None:
            lane = self.lanes[node] = Lane()
        if isinstance(event, End):
            self.last = max(self.last, cycle - 1)
            lane.state = event.state
            return
        if isinstance(event, (Instr, Enter, Stop)):
            if isinstance(event, Stop):
                lane.stopped = cycle
            else:
                self.note_sleep(lane, cycle, event)
            if isinstance(event, Instr):
                if self.programs:
                    self.programs.compare(node, event)
                lane.last_instruction = cycle, event.address
        if cycle < self.first or self.end is not None and cycle >= self.end:
            return
        self.last = max(self.last, cycle)
        if isinstance(event, Heard):
            self.read_heard(lane, cycle, node, event, on_air)
        elif isinstance(event, Enter):
            lane.enter.append((cycle, event.vector))
        elif isinstance(event, Serial):
            lane.serial.append((cycle, event.byte))
            self.lines.write(cycle, node, event.byte)
        elif isinstance(event, Sent):
            lane.sent.append((cycle, event.byte))
        elif isinstance(event, Stop):
            lane.stop.append((cycle, event.rest))
            lane.last_instruction = cycle, event.address
        if self.programs and not isinstance(event, Instr):
            self.note_place(lane, cycle, node)

    def note_place(self, lane: Lane, cycle: int, node: int) -> None:
        """Which line of source a node executes at an event, where its rows tell."""
        program = self.programs.of(node) if self.programs else None
        if program and lane.last_instruction and cycle - lane.last_instruction[0] < LONGEST_INSTRUCTION:
            lane.where[cycle] = program.place(lane.last_instruction[1])

    def note_line(self, line: lines.Line) -> None:
        self.lanes[line.node].lines.append((line.first, line.last - line.first, line.text))

    def note_send(self, cycle: int, node: int) -> None:
        if node in self.last_sent:
            gap = cycle - self.last_sent[node]
            self.gap = min(gap, self.gap or gap)
        self.last_sent[node] = cycle

    def note_sleep(self, lane: Lane, cycle: int, event: Instr | Enter) -> None:
        """A node sleeps from behind its SLEEP to the interrupt that wakes it."""
        if lane.fell_asleep is not None:
            self.add_sleep(lane, lane.fell_asleep, cycle)
            lane.fell_asleep = None
        if isinstance(event, Instr) and event.instruction == SLEEP:
            lane.fell_asleep = cycle + 1

    def finish_sleep(self, lane: Lane) -> None:
        """Ends a sleep that the trace leaves open: where the node stops, or the window, behind which no row tells what
        wakes it."""
        if lane.fell_asleep is not None:
            end = self.window[1] if lane.stopped is None else min(self.window[1], lane.stopped)
            self.add_sleep(lane, lane.fell_asleep, end)

    def add_sleep(self, lane: Lane, first: int, end: int) -> None:
        first, end = max(first, self.first), end if self.end is None else min(end, self.end)
        if first < end:
            lane.asleep.append((first, end - first))

    def read_heard(self, lane: Lane, cycle: int, node: int, event: Heard, on_air: Iterable[Any]) -> None:
        if event.status == NOTHING:
            lane.quiet.append((cycle,))
            return
        senders = [one.sender for one in on_air]
        kind = "clash" if event.status == CLASH else "heard"
        if len(self.ways) <= MAX_WAYS:
            self.ways += [Way(kind, one.sender, one.cycle, node, cycle) for one in on_air]
        if event.status == CLASH:
            lane.clash.append((cycle, event.byte, senders))
        else:
            lane.heard.append((cycle, event.byte, event.age, senders[0] if len(senders) == 1 else -1))

    def name(self, node: int) -> str:
        if not self.scenario:
            return str(node)
        return f"{node} {printable(programs.stem(self.scenario.images[node]))}"


def flat(events: Iterable[Drawn], kind: str) -> list[Any]:
    """Events as one list, the cycle of each counted from the one before. Samples that heard nothing, which a program
    makes at regular distances, are pairs of a distance and how often it comes."""
    found: list[Any] = []
    last = 0
    for cycle, *rest in events:
        if kind != "quiet":
            found += [cycle - last, *rest]
        elif found and found[-2] == cycle - last:
            found[-1] += 1
        else:
            found += [cycle - last, 1]
        last = cycle
    return found


class Thinning(NamedTuple):
    """Which events are left out: those of the kinds that lie less than `step` cycles behind the last one that is
    kept."""

    kinds: tuple[str, ...] = ()
    step: int = 0

    def of(self, kind: str, lane: Lane) -> Iterable[Drawn]:
        """What is kept of the events of a kind."""
        events = lane.events(kind)
        return thinned(events, self.step) if kind in self.kinds else events

    def of_tracks(self, lane: Lane) -> list[dict[str, Any]]:
        """What is kept of the tracks, as data of a page."""
        return [track.content(self.step if TRACK in self.kinds else 0) for track in lane.tracks]

    def __str__(self) -> str:
        words = ", ".join(WORDS[kind] for kind in self.kinds)
        return f"thinned to one in {self.step:,} cycles: {words}" if self.step else ""


WORDS = {
    "quiet": "samples of nothing",
    "enter": "interrupts",
    "asleep": "sleep",
    "heard": "heard",
    "serial": "USART0",
    "lines": "lines of USART0",
    "sent": "sent",
    TRACK: "variables",
    "clash": "clashes",
}

# In which order kinds are thinned: clashes last, stops never.
THINNED = (
    ("quiet",),
    ("quiet", "enter", "asleep"),
    ("quiet", "enter", "asleep", TRACK),
    ("quiet", "enter", "asleep", TRACK, "heard", "serial", "lines", "sent"),
    ("quiet", "enter", "asleep", TRACK, "heard", "serial", "lines", "sent", "clash"),
)

FINEST, COARSEST = 1 << 14, 1 << 9  # in how many parts a thinning divides what is drawn


def thinnings(drawing: Drawing, has_tracks: bool) -> Iterator[Thinning]:
    """None, and then more and more of it."""
    yield Thinning()
    span = drawing.last_cycle - drawing.first
    for every in THINNED:
        kinds = tuple(kind for kind in every if has_tracks or kind != TRACK)
        parts = FINEST
        while parts >= COARSEST:
            yield Thinning(kinds, max(1, span // parts))
            parts //= 2


# What has no shorter text as a thinning.
MOST_WORDS = Thinning(THINNED[-1], LAST_LIMIT)


def least_thinning(drawing: Drawing, most: int) -> Thinning:
    """The first thinning with which the events take at most so many bytes as JSON; the coarsest where none does."""
    sizes: dict[tuple[str, int], int] = {}
    thinning = Thinning()
    has_tracks = any(lane.tracks for lane in drawing.lanes.values())
    for thinning in thinnings(drawing, has_tracks):
        steps = [(kind, thinning.step if kind in thinning.kinds else 0) for kind in (*FIELDS, TRACK)]
        for kind, step in steps:
            if (kind, step) not in sizes:
                sizes[kind, step] = sum(size_of(kind, thinning, lane) for lane in drawing.lanes.values())
        if sum(sizes[one] for one in steps) <= most:
            break
    return thinning


def size_of(kind: str, thinning: Thinning, lane: Lane) -> int:
    """How many bytes the events of a kind take as JSON, without the brackets about them."""
    if kind == TRACK:
        step = thinning.step if TRACK in thinning.kinds else 0
        return sum(track.size(step) + len(",") for track in lane.tracks)
    return len(json.dumps(flat(thinning.of(kind, lane), kind), separators=(",", ":"))) - len("[]")


def thinned(events: Iterable[Drawn], step: int) -> Iterator[Drawn]:
    last = -step
    for event in events:
        if event[0] - last >= step:
            last = event[0]
            yield event
