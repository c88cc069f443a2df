"""Reading traces: what `avrora run`, `node`, `head` and `resume` write (docs/FORMATS.md, "The trace").

A trace is read once, in blocks, and its rows are checked as they come, so memory does not grow with it.
"""
import argparse
import enum
import os
from collections.abc import Iterable, Iterator
from operator import length_hint
from typing import BinaryIO, NamedTuple

from avrora_tools import files, terminal
from avrora_tools.cli import MAX_NODES
from avrora_tools.errors import BadInput
from avrora_tools.events import KINDS, NOTHING, STOPPED, Care, End, Event, Events, Heard, Sent, Stop, event_of
from avrora_tools.scenarios import BYTE_TIME, MAX_CYCLES, MAX_WINDOW, Scenario
from avrora_tools.states import EPOCH, State
from avrora_tools.wholeness import Lacking

# A row: its cycle, its node, and what it says.
TraceRow = tuple[int, int, Event]

# What a row says behind its cycle: its place among the rows of a cycle, whose places rise; the `Care` of its event; its
# node; its event.
Said = tuple[int, int, int, Event]

BLOCK = 1 << 15  # bytes that are read at once
LONGEST_ROW = 256  # more bytes than a row has
LAST_LIMIT = max(MAX_CYCLES.values())
NEVER = 1 << 62
RANK_BITS = 2  # of a place, below the node

# The events of all traces that were read: many runs of one program say the same.
SEEN = Events()


class Form(enum.Enum):
    """Which part of a run's rows a trace is to have."""

    WHOLE = "a whole trace"  # of `run` and `node`: from reset to the end rows of all nodes
    ENDED = "a trace with its end rows"  # also of `resume` and of the tool window, which begin later
    HEAD = "the beginning of a trace"  # of `head`: without end rows
    ROWS = "rows of a trace"  # any of them, in their order, as grep and awk leave them


class Texts(dict[str, Said]):
    """What rows say by their texts behind the cycle, as far as they came: one look-up for the node and the event of a
    row.

    A text raises KeyError that says nothing, or is of a node that is none of `nodes`. Where one leaves them the texts
    are to be forgotten, too."""

    MOST = 50_000  # beyond which all are forgotten, so that memory does not grow with a trace

    def __init__(self, nodes: dict[str, int]) -> None:
        self.nodes, self.events = nodes, SEEN
        self.tells_hearing = False  # whether what was heard is looked at

    def __missing__(self, text: str) -> Said:
        digits, _, event = text.partition(" ")
        said = said_of(self.nodes[digits], self.events[event], self.tells_hearing)
        if len(self) >= self.MOST:
            self.clear()
        self[text] = said
        return said


def said_of(node: int, event: Event, tells_hearing: bool = False) -> Said:
    is_told = tells_hearing and isinstance(event, Heard) and event.status != NOTHING
    return node << RANK_BITS | event.rank, int(Care.MORE if is_told else event.care), node, event


class Trace:
    """A trace as an iterable of its rows, to be gone through once.

    Going through it raises BadInput at the first row that no trace of the form has, and at the end where rows are
    missing. Behind the end `limit`, `count` and `traced` tell more of it.
    """

    def __init__(
        self,
        blocks: Iterable[bytes],
        name: str,
        form: Form,
        *,
        scenario: Scenario | None = None,
        state: State | None = None,
        epochs: int | None = None,
        least_gap: int | None = None,
        lacking: Lacking | None = None,
    ) -> None:
        """`blocks` are the bytes of the trace, and `name` stands in messages. A `scenario` is the one that was run, a
        `state` the one from which `resume` ran on, `epochs` how many of them `head` wrote; `least_gap` is the least
        distance of two sends of one node, where it is not the byte time of the scenario; `lacking` finds rows that are
        missing, where the trace may be a part of one."""
        self.blocks, self.name, self.form = blocks, name, form
        self.scenario, self.state, self.epochs = scenario, state, epochs
        self.first = state.cycle if state else 0  # no row stands before it
        self.limit: int | None = None  # the cycle of the end rows
        self.bound = epochs * EPOCH if epochs else scenario.cycles if scenario else LAST_LIMIT
        self.least_gap = least_gap or (scenario.byte_time if scenario else BYTE_TIME.start)
        self.count = 0  # of rows
        self.first_traced: int | None = None  # the cycles of the first and the last row of the window
        self.last_traced = 0
        self.first_row: int | None = None  # the cycle of the first row
        self.ended: dict[int, End] = {}
        self.last_sent: dict[int, int] = {}
        self.most_nodes = len(scenario.images) if scenario else len(state.nodes) if state else MAX_NODES
        # The nodes that may have rows of any kind, by their digits; those that stopped may have an end row alone.
        self.nodes = {str(node): node for node in range(self.most_nodes)}
        self.texts = Texts(self.nodes)
        self.stopped: set[int] = set()
        self.lacking = lacking
        self.texts.tells_hearing = lacking is not None and lacking.sends is not None
        self.remaining: Iterator[str] = iter(())  # what is left of the lines of the block
        for node, one in enumerate(state.nodes if state else ()):
            if one.stop():
                self.note_stop(node)

    def __iter__(self) -> Iterator[TraceRow]:
        texts, bound, traced, lacking = self.texts, self.bound, int(Care.TRACED), self.lacking
        # Of the row before: its cycle, the digits of that, and how many they are; its place in the cycle.
        cycle, digits, length, before = -1, " ", 0, -1
        window_end = -1
        for lines in self.lines():
            self.remaining = iter(lines)
            if self.first_row is None:
                self.first_row = leading_number(lines[0])
            for line in self.remaining:
                text, _, rest = line.partition(" ")
                try:
                    place, care, node, event = texts[rest]
                except KeyError:
                    place, care, node, event = self.unusual(line)
                if text != digits:
                    try:
                        now = int(text)
                    except ValueError:
                        now = NEVER
                    # A higher number than the one before in as many characters has no others than its digits.
                    if now <= cycle or now >= bound or len(text) != length:
                        self.check_cycle(line, text, now, cycle)
                        length = len(text)
                    cycle, digits = now, text
                elif place <= before:
                    raise self.fault(out_of_order(cycle, node, before), line)
                before = place
                if care:
                    if care != traced:
                        self.note(line, cycle, node, event)
                    else:
                        if cycle < window_end:
                            self.last_traced = cycle
                        else:
                            window_end = self.window_end_of(line, cycle)
                        if lacking:
                            self.look_behind(lacking, line, cycle, node, event)
                yield cycle, node, event
        self.finish()

    @property
    def traced(self) -> tuple[int, int] | None:
        """The cycles of the first and of the last row of the window, as far as the trace is read."""
        return None if self.first_traced is None else (self.first_traced, self.last_traced)

    def lines(self) -> Iterator[list[str]]:
        """The lines of the trace, those of a block at a time."""
        rest = b""
        for block in self.blocks:
            cut = block.rfind(b"\n")
            if cut < 0:
                rest += block
                if len(rest) > LONGEST_ROW:
                    self.count += 1
                    raise self.no_row(ascii_of(rest))
                continue
            lines = ascii_of(rest + block[:cut]).split("\n")
            rest = block[cut + 1 :]
            self.count += len(lines)
            yield lines
        if rest:
            raise BadInput(f"{self.name}, line {self.count + 1}: the trace is cut off in this line")

    def number(self) -> int:
        """The number of the line that is looked at."""
        return self.count - length_hint(self.remaining)

    def fault(self, why: str, line: str) -> BadInput:
        return BadInput(f"{self.name}, line {self.number()}: {why}: {files.printable(line[:60])}")

    def look_behind(self, lacking: Lacking, line: str, cycle: int, node: int, event: Event) -> None:
        if why := lacking.before(cycle, node, event):
            raise self.fault(f"rows are missing: {why}", line)

    def no_row(self, line: str) -> BadInput:
        parts = line[:LONGEST_ROW].split(" ", 3)
        if len(parts) > 2 and parts[0].isdigit() and parts[1].isdigit():
            if parts[2].isidentifier() and parts[2] not in KINDS:
                return self.fault(f"no row has the kind {parts[2]}", line)
        return self.fault("no row of a trace", line)

    def unusual(self, line: str) -> Said:
        """What a row says that a node may have no more, or BadInput that says what is wrong with it."""
        parts = line.split(" ", 2)
        event = event_of(parts[2]) if len(parts) == 3 else None
        if event is None:
            raise self.no_row(line)
        digits = parts[1]
        if not digits.isdigit() or str(int(digits[:9])) != digits or int(digits) >= MAX_NODES:
            raise self.no_row(line)
        node = int(digits)
        if node in self.ended:
            raise self.fault(f"the end row of node {node} stands before", line)
        if node in self.stopped and not isinstance(event, End):
            raise self.fault(f"node {node} stopped before", line)
        if node >= self.most_nodes:
            what = "the scenario" if self.scenario else "the state"
            raise self.fault(f"{what} has {self.most_nodes} nodes, so it is not its trace", line)
        if not isinstance(event, End):
            raise self.fault("a row behind an end row", line)
        return said_of(node, event)

    def check_cycle(self, line: str, text: str, cycle: int, before: int) -> None:
        """A cycle that is another than `before`, that of the row before: how it is spelled, its bounds, its order."""
        if str(cycle) != text:
            raise self.no_row(line)
        if not self.first <= cycle < self.bound:
            self.check_bounds(line, cycle)
        if cycle < before:
            raise self.fault(f"cycle {cycle} stands behind cycle {before}", line)

    def check_bounds(self, line: str, cycle: int) -> None:
        """A cycle that is not within the bounds of the rows: only an end row may have it."""
        if not 0 <= cycle <= LAST_LIMIT:
            raise self.no_row(line)
        if cycle < self.first:
            raise self.fault(f"a row before cycle {self.first:,}, of which the state is", line)
        if cycle > self.bound or line.split(" ", 3)[2] != End.kind:
            raise self.fault(f"a row behind the limit of {self.bound:,} cycles", line)

    def window_end_of(self, line: str, cycle: int) -> int:
        """Notes the first row of the window; returns the cycle before which all its rows stand."""
        if self.first_traced is not None:
            raise self.fault(f"more than {MAX_WINDOW:,} cycles from the first to the last row of a window", line)
        self.first_traced = self.last_traced = cycle
        if not self.scenario or self.form is not Form.WHOLE:
            return cycle + MAX_WINDOW
        first, end = self.scenario.window
        if not first <= cycle < end:
            raise self.fault(f"outside of the scenario's window [{first}, {end}], so it is not its trace", line)
        return end

    def note(self, line: str, cycle: int, node: int, event: Event) -> None:
        """A row that says more than what happened."""
        if self.lacking:
            self.look_behind(self.lacking, line, cycle, node, event)
        if isinstance(event, Sent):
            if cycle - self.last_sent.get(node, -NEVER) < self.least_gap:
                raise self.fault(f"node {node} sent less than {self.least_gap} cycles before", line)
            self.last_sent[node] = cycle
        elif isinstance(event, Stop):
            self.note_stop(node)
        elif isinstance(event, End):
            self.note_end(line, cycle, node, event)

    def note_stop(self, node: int) -> None:
        del self.nodes[str(node)]
        self.texts.clear()
        self.stopped.add(node)

    def note_end(self, line: str, cycle: int, node: int, event: End) -> None:
        if self.form is Form.HEAD:
            raise self.fault("an end row, which what `head` writes does not have", line)
        if self.limit is None:
            self.limit = cycle
        has_stopped = node in self.stopped
        if cycle != self.limit:
            raise self.fault(f"an end row of another cycle than {self.limit}", line)
        if self.form is not Form.ROWS and node != len(self.ended):
            raise self.fault(f"no end row of node {len(self.ended)} stands before", line)
        goes_on = has_stopped and event.state != STOPPED
        if goes_on or self.is_from_reset() and not has_stopped and event.state == STOPPED:
            raise self.fault(f"node {node} {'stopped' if has_stopped else 'did not stop'} before", line)
        if event.instructions > cycle:
            raise self.fault("more instructions than cycles", line)
        self.ended[node] = event
        self.nodes.clear()
        self.texts.clear()

    def is_from_reset(self) -> bool:
        """Whether the trace has all stops of the run."""
        return self.form is Form.WHOLE or self.state is not None

    def finish(self) -> None:
        """What is due once all rows are read."""
        if self.count == 0:
            raise BadInput(f"{self.name}: an empty trace")
        if self.form in (Form.WHOLE, Form.ENDED):
            self.finish_ended()
        if self.scenario and self.form is not Form.WHOLE:
            self.finish_of_scenario(self.scenario)

    def finish_ended(self) -> None:
        wanted = len(self.scenario.images) if self.scenario else len(self.state.nodes) if self.state else 1
        if len(self.ended) < wanted:
            raise BadInput(
                f"{self.name}: no end row of node {len(self.ended)}: the trace is cut off, a part of one, or of "
                "another "
                "network"
            )
        silent = set(self.last_sent) - set(self.ended)
        if silent:
            raise BadInput(f"{self.name}: no end row of node {min(silent)}, which has other rows: no whole trace")
        if self.form is Form.WHOLE and self.scenario and self.limit != self.scenario.cycles:
            raise BadInput(
                f"{self.name}: it ends in cycle {self.limit:,}, and the scenario in cycle {self.scenario.cycles:,}: "
                "not its "
                "trace"
            )
        if self.lacking and (why := self.lacking.at_end(self.limit or 0, len(self.ended))):
            raise BadInput(f"{self.name}: rows are missing: {why}")
        if self.lacking and (doubt := self.lacking.doubt(self.first_row or 0)):
            terminal.warn(f"{self.name}: {doubt}")

    def finish_of_scenario(self, scenario: Scenario) -> None:
        """The trace of a scenario, or of a window that the tool window made of it, ends and is traced where that is."""
        if self.limit is not None and self.limit - (self.first_row or 0) <= MAX_WINDOW:
            return
        if self.limit is not None and self.limit != scenario.cycles:
            raise BadInput(
                f"{self.name}: it ends in cycle {self.limit:,}, and the scenario in cycle {scenario.cycles:,}: not "
                "its trace"
            )
        first, end = scenario.window
        if self.form is not Form.ROWS and self.traced and not (first <= self.traced[0] and self.traced[1] < end):
            raise BadInput(
                f"{self.name}: instructions are traced from cycle {self.traced[0]:,} to {self.traced[1]:,}, and the "
                f"scenario's window is [{first}, {end}]: not its trace"
            )


def form_of(arguments: argparse.Namespace) -> Form:
    """The form of the trace of a tool that takes one with its end rows, or by --head the beginning of one."""
    return Form.HEAD if arguments.head else Form.ENDED


def out_of_order(cycle: int, node: int, before: int) -> str:
    """What is wrong with a row that does not come behind the one of the place `before` in its cycle."""
    if node < before >> RANK_BITS:
        return f"node {node} stands behind node {before >> RANK_BITS} in cycle {cycle}"
    return f"a node's rows of cycle {cycle} are out of order"


def leading_number(line: str) -> int:
    digits = line.partition(" ")[0]
    return int(digits) if digits.isdigit() and len(digits) < LONGEST_ROW else 0


def ascii_of(content: bytes) -> str:
    """A text in which what is no ASCII can be no part of a row."""
    return content.decode("ascii", "replace")


def blocks_of(file: BinaryIO, name: str = "", prints: bool = False) -> Iterator[bytes]:
    """The content of a file as it comes. A line on the terminal says how far it is read, where that takes long;
    `prints` is for tools that print as they read: they show it only where their output is not a terminal."""
    progress = terminal.Progress(prints)
    size = 0
    if progress.shows and name and name != files.STANDARD_STREAM and not name.endswith(".gz"):
        size = os.path.getsize(name)
    done = 0
    read = getattr(file, "read1", file.read)
    while block := read(BLOCK):
        yield block
        done += len(block)
        if progress.due():
            progress.tell(f"{files.shown(name)}: {done:,} bytes{f' ({100 * done // size}%)' if size else ''}")
    progress.end()


def file_blocks(name: str, prints: bool = False, is_named_by_file: bool = False) -> Iterator[bytes]:
    """The content of the file `name`, or of the standard input. Raises BadInput where it cannot be read, and where
    another file names it also where it is a device or a pipe."""
    with files.opened_named(name) if is_named_by_file else files.opened(name) as file:
        blocks = blocks_of(file, name, prints)
        while True:
            with files.readable(name):
                block = next(blocks, None)
            if block is None:
                return
            yield block


def read(
    name: str,
    form: Form,
    *,
    scenario: Scenario | None = None,
    state: State | None = None,
    epochs: int | None = None,
    least_gap: int | None = None,
    prints: bool = False,
    lacking: Lacking | None = None,
) -> Trace:
    """The trace in the file `name`, or in the standard input."""
    return Trace(
        file_blocks(name, prints),
        files.shown(name),
        form,
        scenario=scenario,
        state=state,
        epochs=epochs,
        least_gap=least_gap,
        lacking=lacking,
    )


class Row(NamedTuple):
    """A row as the words of its line."""

    cycle: int
    node: int
    kind: str
    rest: str


def rows(name: str, whole: bool = False, prints: bool = False) -> Iterator[Row]:
    """The rows of the file `name`: of a whole trace, else of any part of one."""
    for cycle, node, event in read(name, Form.WHOLE if whole else Form.ROWS, prints=prints):
        yield Row(cycle, node, event.kind, event.rest)
