"""Whether a trace meets the expectations of a case.

A trace is read once, row by row, to its end; what is kept of it is a few rows for the report.
"""
import collections
import contextlib
import difflib
import io
import os
import subprocess
import tempfile
from collections.abc import Callable, Iterable, Iterator
from typing import IO, TYPE_CHECKING, BinaryIO, NamedTuple, Protocol, cast

from avrora_tools import expressions, files, groups, showing, traces
from avrora_tools.cases import (
    COMPARISONS,
    Case,
    Count,
    Expected,
    Golden,
    Lines,
    Never,
    Only,
    Statement,
    Text,
    outcomes_of,
    read_case,
    why_count_is_certain,
)
from avrora_tools.errors import BadInput, CannotWork, Status, ToolError
from avrora_tools.events import KINDS, TRACED, Serial, event_of
from avrora_tools.fields import EVERY, Span, cover
from avrora_tools.opening import Where, debug_command
from avrora_tools.patterns import Extent, Place
from avrora_tools.scenarios import BYTE_TIME, MAX_WINDOW, Scenario
from avrora_tools.wholeness import Lacking
from avrora_tools.writing import Folder

if TYPE_CHECKING:
    from avrora_tools.observing.expecting import Observer

__all__ = ["Case", "Golden", "Outcome", "RUNS", "check", "read_case", "run_case"]

RUNS = groups.Groups()  # of the simulator, of all cases that are checked at a time

CONTEXT = 3  # rows before and behind the row at fault
MOST_ROWS = 10  # that a report of a count tells

# Statuses of the simulator that tell that its input is at fault: a file cannot be read, or is refused.
REFUSALS = (2, 3, 4, 5, 7, 8)


class Outcome(NamedTuple):
    """What a check found: None or the text of all that is not met; rows that were looked at; expectations of the case;
    and what is the matter where it is not met."""

    failure: str | None
    rows: int
    expectations: int
    status: Status = Status.GOOD


class NoRoom(BadInput):
    """A row that is never to come has no room between those that were found about it: so in this trace, and not in
    each."""

    def __init__(self, path: str, line: int, why: str) -> None:
        super().__init__(f"{path}, line {line}: {why}, where the rows about it were found")
        self.place = f"{path}, line {line}"


class Unmet(Exception):
    """A golden trace is not saved: something else is not met."""


def line_of(row: traces.TraceRow) -> str:
    cycle, node, event = row
    return f"{cycle} {node} {event.text}"


class Report:
    """What is not met, with the rows about it, which come as they come."""

    def __init__(self, statement: Statement, why: str, details: Iterable[str] = ()) -> None:
        self.statement, self.why, self.details = statement, why, list(details)
        self.row: traces.TraceRow | None = None
        self.instead: traces.TraceRow | None = None  # what came in place of what is missing, or else before it
        self.before: list[traces.TraceRow] = []
        self.after: list[traces.TraceRow] = []
        self.again = 0  # how often it happened once more

    def show_after(self, row: traces.TraceRow) -> None:
        if self.row is not row and len(self.after) < CONTEXT:
            self.after.append(row)

    @property
    def where(self) -> Where | None:
        """Where one looks first: at the row that was not to come, or came instead; else at the one found last
        before."""
        row = self.row or self.instead
        return Where(row[0], row[1]) if row else None

    def text(self, path: str) -> str:
        lines = [f"{path}, line {self.statement.line}: {self.why}", *self.details]
        if self.row:
            lines += [f"  {line_of(row)}" for row in self.before] + [f"> {line_of(self.row)}"]
            lines += [f"  {line_of(row)}" for row in self.after]
        if self.again:
            lines.append(f"and {self.again:,} more")
        return "\n".join(lines)


class Near(NamedTuple):
    """The rows that were looked at last, and the reports of rows."""

    before: collections.deque[traces.TraceRow]
    told: list[Report]


class Gap(NamedTuple):
    """Where a row was looked for that is never to come: between the row found above it and the one found below it, None
    where these are the trace's ends; and what was expected below."""

    never: Never
    above: traces.TraceRow | None
    below: traces.TraceRow | None
    expected: Expected | None

    @property
    def base(self) -> int:
        return self.above[0] if self.above else 0


class Watcher(Protocol):
    """Looks at each row, and tells at the end what is not met."""

    def feed(self, row: traces.TraceRow) -> None:
        ...

    def finish(self) -> list[Report]:
        ...


class Sequence:
    """The rows that are expected in order, and those that must not come between."""

    def __init__(self, case: Case, near: Near, gaps: list[Gap]) -> None:
        """All gaps of rows that were found are noted in `gaps`."""
        self.near, self.gaps = near, gaps
        self.steps = [s for s in case.statements if isinstance(s, Expected) or isinstance(s, Never) and not s.span]
        self.base = 0  # the cycle of the row found last
        self.found: traces.TraceRow | None = None
        self.reports: list[Report] = []
        self.unwanted: dict[int, Report] = {}  # by the line of the statement
        self.begin(0)

    def begin(self, step: int) -> None:
        """Waits for the next expected row from `step` on."""
        end = step
        while end < len(self.steps) and isinstance(self.steps[end], Never):
            end += 1
        self.nevers = [s for s in self.steps[step:end] if isinstance(s, Never)]
        self.step = end
        expected = self.steps[end] if end < len(self.steps) else None
        self.expected = expected if isinstance(expected, Expected) else None
        self.between: list[
            traces.TraceRow
        ] = []  # what came instead, for the report: the first, or the first of its kin
        self.passed = 0

    def feed(self, row: traces.TraceRow) -> None:
        cycle, node, event = row
        expected = self.expected
        if expected:
            if expected.pattern.matches(cycle, node, event, self.base):
                self.gaps += [Gap(never, self.found, row, expected) for never in self.nevers]
                self.base, self.found = cycle, row
                self.begin(self.step + 1)
                return
            self.passed += 1
            if len(self.between) < CONTEXT and (expected.most is not None or expected.pattern.is_kin(node, event)):
                self.between.append(row)
            if expected.most is not None and self.passed > expected.most:
                self.reports.append(self.missing(expected, f"was to come {rows_on(expected.most)}, and came not"))
                self.begin(self.step + 1)
        for never in self.nevers:
            if never.pattern.matches(cycle, node, event, self.base):
                note_unwanted(self.unwanted, never, self.near, row)

    def finish(self) -> list[Report]:
        if self.expected:
            report = self.missing(self.expected, "did not come")
            behind = sum(isinstance(step, Expected) for step in self.steps[self.step + 1 :])
            if behind:
                report.details.append(
                    f"so {behind} more, expected behind it, {'was' if behind == 1 else 'were'} not looked for"
                )
            self.reports.append(report)
        else:
            self.gaps += [Gap(never, self.found, None, None) for never in self.nevers]
        return self.reports + list(self.unwanted.values())

    def missing(self, expected: Expected, what: str) -> Report:
        details = [f"- {expected.pattern.text}"]
        details += ["after this one:", f"  {line_of(self.found)}"] if self.found else []
        if self.between:
            details += ["but these:" if expected.most is not None else "but of its node and kind:"]
            details += [f"+ {line_of(row)}" for row in self.between]
        elif expected.most is None:
            details += ["and none of its node and kind"]
        report = Report(expected, f"this row {what}:", details)
        report.instead = self.between[0] if self.between else self.found
        return report


def rows_on(most: int) -> str:
    return "next" if most == 0 else f"behind at most {most} others"


def note_unwanted(reports: dict[int, Report], never: Never, near: Near, row: traces.TraceRow) -> None:
    """Notes a row that was never to come; the first of a statement is told with the rows about it."""
    if never.line in reports:
        reports[never.line].again += 1
        return
    report = Report(never, "this row was never to come:", [f"- {never.pattern.text}", "but it did:"])
    reports[never.line] = report
    report.before, report.row = list(near.before), row
    near.told.append(report)


class NeverWithin:
    """A row that must not come within a span."""

    def __init__(self, never: Never, span: Span, near: Near) -> None:
        self.never, self.span, self.near = never, span, near
        self.reports: dict[int, Report] = {}

    def feed(self, row: traces.TraceRow) -> None:
        cycle, node, event = row
        if self.span.has(cycle) and self.never.pattern.matches(cycle, node, event, 0):
            note_unwanted(self.reports, self.never, self.near, row)

    def finish(self) -> list[Report]:
        return list(self.reports.values())


class Counter:
    """How many rows match, in all or within a span."""

    def __init__(self, count: Count) -> None:
        self.count, self.came = count, 0
        self.rows: list[traces.TraceRow] = []

    def feed(self, row: traces.TraceRow) -> None:
        cycle, node, event = row
        if (not self.count.span or self.count.span.has(cycle)) and self.count.pattern.matches(cycle, node, event, 0):
            self.came += 1
            if len(self.rows) < MOST_ROWS:
                self.rows.append(row)

    def finish(self) -> list[Report]:
        count = self.count
        if COMPARISONS[count.comparison](self.came, count.wanted):
            return []
        why = f"{count.comparison} {count.wanted} rows wanted{within(count.span)}, {self.came} came:"
        details = [f"- {count.pattern.text}", *(f"+ {line_of(row)}" for row in self.rows)]
        if self.came > len(self.rows):
            details.append(f"and {self.came - len(self.rows):,} more")
        return [Report(count, why, details)]


def within(span: Span | None) -> str:
    return f" within {span}" if span else ""


class Writes:
    """What a node writes to USART0, of which a text must be a part."""

    SHOWN = 200  # bytes of what was written, for the report

    def __init__(self, text: Text, name: str, searches: expressions.Searches) -> None:
        """`name` is what messages call the case, whose searches these are."""
        self.text, self.name, self.searches = text, name, searches
        self.written = bytearray()
        self.found = False

    def feed(self, row: traces.TraceRow) -> None:
        cycle, node, event = row
        text = self.text
        if self.found or node != text.node or not isinstance(event, Serial) or text.span and not text.span.has(cycle):
            return
        self.written.append(event.byte)
        if not text.expression:
            self.found = self.written.endswith(text.text)
            del self.written[: -max(self.SHOWN, len(text.text))]

    def finish(self) -> list[Report]:
        text = self.text
        if self.found or text.expression and self.matches(text.expression):
            return []
        wanted = printed(text.expression or text.text)
        what = "did not write what matches" if text.expression else "did not write"
        details = [f"- {wanted}", "what it wrote ends with:", f"+ {printed(bytes(self.written[-self.SHOWN :]))}"]
        return [Report(text, f"node {text.node} {what}{within(text.span)}:", details)]

    def matches(self, expression: bytes) -> bool:
        try:
            return self.searches.has(expression, self.written)
        except expressions.TooLong:
            raise CannotWork(f"{self.name}, line {self.text.line}: {expressions.TOO_LONG}") from None


def printed(data: bytes) -> str:
    return ascii(data)[1:]  # without the b


class WrittenLines:
    """How many lines a node writes to USART0."""

    def __init__(self, lines: Lines) -> None:
        self.lines, self.came = lines, 0

    def feed(self, row: traces.TraceRow) -> None:
        cycle, node, event = row
        if node == self.lines.node and isinstance(event, Serial) and event.byte == ord("\n"):
            self.came += not self.lines.span or self.lines.span.has(cycle)

    def finish(self) -> list[Report]:
        lines = self.lines
        if COMPARISONS[lines.comparison](self.came, lines.wanted):
            return []
        why = (
            f"{lines.comparison} {lines.wanted} lines of node {lines.node} wanted{within(lines.span)}, {self.came} came"
        )
        return [Report(lines, why)]


def is_row(line: str, with_cycle: bool) -> bool:
    """Whether a line of a golden trace is a row."""
    parts = line.rstrip("\n").split(" ", 2 if with_cycle else 1)
    is_number = all(part.isdigit() for part in parts[:-1])
    return line.endswith("\n") and len(parts) == 2 + with_cycle and is_number and event_of(parts[-1]) is not None


class GoldenTrace:
    """The rows of a file, all of them and no others."""

    def __init__(self, golden: Golden, folder: str, stack: contextlib.ExitStack) -> None:
        """`folder` is that of the case."""
        self.golden, self.folder = golden, folder
        self.name = files.shown(golden.path)
        try:
            content = stack.enter_context(files.opened_named(golden.path))
        except BadInput as fault:
            raise BadInput(f"{fault} (--save writes it)") from None
        self.file = stack.enter_context(io.TextIOWrapper(content, encoding="ascii", errors="replace", newline="\n"))
        self.number = 0
        self.before: collections.deque[str] = collections.deque(maxlen=CONTEXT)
        self.report: Report | None = None
        self.came: list[str] = []  # from the difference on
        self.wanted: list[str] = []

    def shown(self, row: traces.TraceRow) -> str:
        cycle, node, event = row
        return f"{cycle} {node} {event.text}" if self.golden.with_cycles else f"{node} {event.text}"

    def next_row(self) -> str | None:
        """The next row of the file. Raises BadInput where it is none."""
        with files.readable(self.golden.path):
            line = self.file.readline(traces.LONGEST_ROW)
        if not line:
            return None
        self.number += 1
        if not is_row(line, self.golden.with_cycles):
            with files.untold(self.golden.path, self.folder):
                raise BadInput(f"{self.name}, line {self.number}: no row: {files.printable(line[:60].rstrip())}")
        return line.rstrip("\n")

    def feed(self, row: traces.TraceRow) -> None:
        if self.report:
            if len(self.came) < 1 + CONTEXT:
                self.came.append(self.shown(row))
            return
        came = self.shown(row)
        wanted = self.next_row()
        if came != wanted:
            self.differ(wanted, [came])
        self.before.append(came)

    def differ(self, wanted: str | None, came: list[str]) -> None:
        number = self.number + (wanted is None)
        self.report = Report(self.golden, f"row {number} differs from {self.name}:", ["--- expected", "+++ came"])
        self.wanted = [row for row in [wanted, *(self.next_row() for _ in range(CONTEXT))] if row is not None]
        self.came = came
        self.shared = list(self.before)

    def finish(self) -> list[Report]:
        if not self.report:
            wanted = self.next_row()
            if wanted is None:
                return []
            self.differ(wanted, [])
        assert self.report
        while self.next_row() is not None:  # what is not a row is refused, wherever it stands
            pass
        diff = difflib.unified_diff(self.shared + self.wanted, self.shared + self.came, n=CONTEXT, lineterm="")
        self.report.details += list(diff)[3:]
        return [self.report]


class SavedTrace:
    """Writes the rows to the file of a golden trace, below the folder of its case."""

    def __init__(self, golden: Golden, folder: str, stack: contextlib.ExitStack) -> None:
        self.golden = golden
        path = os.path.relpath(golden.path, folder)
        above, name = os.path.split(path)
        try:
            with Folder.named(folder) as place:
                inner = stack.enter_context(place.below(above))
            self.refuse_other(path, inner.is_file(name))
            self.file: IO[str] = stack.enter_context(inner.file(name))
        except OSError as fault:
            raise CannotWork(f"cannot write {files.shown(golden.path)}: {fault.strerror}") from None

    def refuse_other(self, path: str, is_there: bool) -> None:
        """Raises BadInput where something else than a golden trace has the name: a case may be a stranger's, and name
        the sources of a user, or what git keeps."""
        name = files.shown(self.golden.path)
        if any(part.startswith(".") for part in path.split(os.sep) if part != os.pardir):
            raise BadInput(f"{name}: --save writes nothing that is hidden")
        if is_there:
            with files.opened_named(self.golden.path) as file:
                line = file.readline(traces.LONGEST_ROW).decode("ascii", "replace")
            if line and not is_row(line, True) and not is_row(line, False):
                raise BadInput(f"{name}: this is no golden trace; --save writes over no other file")

    def feed(self, row: traces.TraceRow) -> None:
        cycle, node, event = row
        self.file.write(f"{cycle} {node} {event.text}\n" if self.golden.with_cycles else f"{node} {event.text}\n")

    def finish(self) -> list[Report]:
        return []


# Called behind the last row with whether one came; raises what is wrong with how the trace was made.
Ended = Callable[[bool], None]


def check(
    case: Case,
    source: Iterable[bytes] | BinaryIO,
    save: bool = False,
    name: str = "the trace",
    ended: Ended | None = None,
    window: range | None = None,
    lacking: Lacking | None = None,
    conditions: Callable[[], Iterable[str]] | None = None,
) -> Outcome:
    """Whether a trace, a file or an iterable of bytes, meets the case: all that is not met, or none. With `save` golden
    traces are written anew, whatever they were, unless another expectation is not met. `ended` is called behind the
    last row; `window` has the cycles in which the run traced instructions, where they are known otherwise than by its
    rows; `lacking` finds rows that are missing, where no simulator has just made them; `conditions` tells what is not
    met of those on variables. Raises BadInput where the trace is not whole, or can never meet what is expected."""
    blocks = traces.blocks_of(cast(BinaryIO, source)) if hasattr(source, "read") else iter(source)
    # A case may expect what a scenario's byte time allows and another's does not.
    trace = traces.Trace(blocks, name, traces.Form.WHOLE, least_gap=BYTE_TIME.start, lacking=lacking)
    if case.conditions and conditions is None:
        why = "a condition on variables is judged over a run, by `expect`, `campaign` and `report`, and not over a trace"
        raise BadInput(f"{files.shown(case.path)}, line {case.conditions[0].line}: {why}")
    looked = 0
    gaps: list[Gap] = []
    failures: list[str] = []
    with contextlib.suppress(Unmet), contextlib.ExitStack() as stack:
        made: Iterable[traces.TraceRow] = trace
        if ended:
            made = whole_trace(trace, blocks, ended)
        reports, looked = watch(case, made, save, stack, gaps)
        extent = extent_of(trace, window)
        refuse_impossible(case, extent)
        if not reports:
            refuse_gaps(case, extent, gaps)
        reports.sort(key=lambda report: report.statement.line)
        failures = [
            showing.printable_lines("\n".join([report.text(files.shown(case.path)), *opened(case, report.where)]))
            for report in reports
        ]
        failures += conditions() if conditions else []
        if failures:
            raise Unmet
    status = Status.NOT_MET if failures else Status.GOOD
    return Outcome("\n".join(failures) or None, looked, len(case.statements), status)


def opened(case: Case, where: Where | None) -> list[str]:
    """The line that says how to open gdb there, where the case runs a scenario."""
    if where is None or case.source is None or case.source[0] != "run":
        return []
    parts = (word.rpartition("=") for word in case.elfs)
    elfs = [f"{nodes}{sign}{os.path.relpath(os.path.join(case.folder, path))}" for nodes, sign, path in parts]
    scenario = os.path.relpath(os.path.join(case.folder, case.source[1]))
    return [f"debug: {debug_command(scenario, where, elfs)}"]


def whole_trace(trace: traces.Trace, blocks: Iterator[bytes], ended: Ended) -> Iterator[traces.TraceRow]:
    """The rows of a trace whose maker ended well. How it ended goes before what its rows lack."""
    came = False
    try:
        for row in trace:
            came = True
            yield row
    except BadInput:
        if next(blocks, None) is None:
            ended(came)
        raise
    ended(came)


def watch(
    case: Case, rows: Iterable[traces.TraceRow], save: bool, stack: contextlib.ExitStack, gaps: list[Gap]
) -> tuple[list[Report], int]:
    """Shows the watchers of a case all rows; what they report, and how many rows were looked at."""
    before: collections.deque[traces.TraceRow] = collections.deque(maxlen=CONTEXT)
    told: list[Report] = []  # reports of rows, which tell what came behind
    watchers, writers = watchers_of(case, save, stack, Near(before, told), gaps)
    feeds = [watcher.feed for watcher in watchers if not isinstance(watcher, Sequence) or watcher.steps]
    tells_context = any(isinstance(statement, Never) for statement in case.statements)
    nodes, kinds = case.nodes, case.kinds
    looks_at_all = nodes is None and kinds is None
    looked = 0
    for row in rows:
        _, node, event = row
        if writers and isinstance(event, Serial):
            for writer in writers:
                writer.feed(row)
        if looks_at_all or (nodes is None or node in nodes) and (kinds is None or event.kind in kinds):
            looked += 1
            for feed in feeds:
                feed(row)
            if tells_context:
                before.append(row)
                for report in told:
                    report.show_after(row)
    return [report for watcher in watchers + writers for report in watcher.finish()], looked


def watchers_of(
    case: Case, save: bool, stack: contextlib.ExitStack, near: Near, gaps: list[Gap]
) -> tuple[list[Watcher], list[Watcher]]:
    """What looks at each row, and what looks at what is written to USART0."""
    watchers: list[Watcher] = [Sequence(case, near, gaps)]
    writers: list[Watcher] = []
    searches = expressions.Searches()
    for statement in case.statements:
        if isinstance(statement, Golden):
            if save:
                watchers.append(SavedTrace(statement, case.folder, stack))
            else:
                watchers.append(GoldenTrace(statement, case.folder, stack))
        elif isinstance(statement, Count):
            watchers.append(Counter(statement))
        elif isinstance(statement, Never) and statement.span:
            watchers.append(NeverWithin(statement, statement.span, near))
        elif isinstance(statement, Text):
            writers.append(Writes(statement, files.shown(case.path), searches))
        elif isinstance(statement, Lines):
            writers.append(WrittenLines(statement))
    return watchers, writers


def extent_of(trace: traces.Trace, window: range | None) -> Extent:
    """Where the trace, which is read, can have rows. Where nothing else tells the window its rows do: what they do not
    show, no check of them can tell."""
    traced = trace.traced if window is None else (window[0], window[-1]) if window else None
    return Extent(len(trace.ended), trace.limit or 0, Span(*traced) if traced else None)


def refuse_impossible(case: Case, extent: Extent) -> None:
    """Raises BadInput where no row of the trace can match what a case expects: of a node that it does not have, or in
    cycles in which it has no such rows."""
    name = files.shown(case.path)
    for node in sorted(case.nodes or ()):
        if node >= extent.nodes:
            raise BadInput(f"{name}: `only` names node {node}, but the trace has {extent.nodes} nodes")
    for kind in sorted(case.kinds or ()):
        if kind in TRACED and extent.window is None:
            raise BadInput(f"{name}: `only` names {kind}: {extent.why_not(kind)}")
    for statement in case.statements:
        if why := why_impossible(statement, extent, Only(case.nodes, case.kinds)):
            raise BadInput(f"{name}, line {statement.line}: {why}")


def refuse_gaps(case: Case, extent: Extent, gaps: list[Gap]) -> None:
    """Raises NoRoom where the rows that were found leave no room between them for one that was never to come."""
    for gap in gaps:
        if why := why_no_room(case, extent, gap):
            raise NoRoom(files.shown(case.path), gap.never.line, why)


def why_no_room(case: Case, extent: Extent, gap: Gap) -> str:
    pattern, span = gap.never.pattern, Span(gap.base, gap.below[0] if gap.below else extent.limit)
    if why := pattern.why_not(extent, span, gap.base):
        return why
    kinds = case.kinds or KINDS.keys()
    if not pattern.has_room(extent, place_of(gap.above), place_of(gap.below), gap.base, list(kinds)):
        return "no such row can stand between two others"
    if gap.expected and gap.expected.most is None:
        other = gap.expected.pattern
        cycles = [both for one in pattern.spans(gap.base) if (both := one.both(span))]
        if other.nodes >= pattern.nodes and other.covers_events(pattern) and cover(other.spans(gap.base), cycles):
            return f"such a row is the one that line {gap.expected.line} expects"
    return ""


def place_of(row: traces.TraceRow | None) -> Place | None:
    return Place(row[0], row[1], row[2].rank) if row else None


def why_impossible(statement: Statement, extent: Extent, only: Only) -> str:
    """Why no row can meet a statement, whatever its place, or why each trace meets it; "" where neither is so."""
    if isinstance(statement, Expected):
        return statement.pattern.why_not(extent)
    if isinstance(statement, (Never, Count)) and (why := statement.pattern.why_not(extent, statement.span or EVERY)):
        return why
    if isinstance(statement, Count):
        return why_count_is_certain(statement, only, extent) or ""
    if isinstance(statement, (Text, Lines)) and statement.node >= extent.nodes:
        return f"the trace has no node {statement.node}, but nodes 0 to {extent.nodes - 1}"
    if isinstance(statement, (Text, Lines)) and statement.span and statement.span.first >= extent.limit:
        return f"the trace ends in cycle {extent.limit}, and not within {statement.span}"
    return why_lines_are_certain(statement, extent) if isinstance(statement, Lines) else ""


def why_lines_are_certain(lines: Lines, extent: Extent) -> str:
    """Why each trace of an extent meets a count of lines: a node writes at most a byte a cycle."""
    span = (lines.span or EVERY).both(Span(0, max(extent.limit - 1, 0)))
    most = span.last - span.first + 1 if span and span.last is not None else 0
    return f"at most {most} lines can be written, so it cannot fail" if outcomes_of(lines, 0, most) == {True} else ""


def refuse_endless(case: Case) -> None:
    """Raises BadInput where the simulator would read what may have no end: a device or a pipe that a file names."""
    what, *words = case.source or ("trace",)
    paths = words[:1]
    if what == "run":
        with contextlib.suppress(ToolError):  # whether it is a scenario the simulator says
            paths += Scenario.of_text(files.read_named_text(os.path.join(case.folder, words[0])), "").images
    for path in paths:
        files.refuse_endless(os.path.join(case.folder, path))


def window_of(case: Case) -> range | None:
    """The cycles in which a run of the case traces instructions; None where only its rows can tell."""
    what, *words = case.source or ("trace",)
    if what == "node":
        return range(min(MAX_WINDOW, int(words[1]))) if words[1].isdigit() and len(words[1]) < 20 else None
    if what == "run":
        with contextlib.suppress(ToolError):  # whether it is a scenario the simulator says
            return range(*Scenario.load(os.path.join(case.folder, words[0])).window)
    return None


def run_case(case: Case, avrora: str, save: bool = False) -> Outcome:
    """Makes the trace of the case, by the simulator `avrora` in the case's folder, and checks it as it comes. Raises
    BadInput where the case names no source or no trace, and where the run is refused; CannotWork where it fails."""
    if case.source is None:
        raise BadInput(f"{files.shown(case.path)}: no run, node or trace says where the rows come from")
    if case.source[0] == "trace":
        path = os.path.join(case.folder, case.source[1])
        with files.untold(path, case.folder):
            rows = traces.file_blocks(path, is_named_by_file=True)
            return check(case, rows, save, files.shown(path), lacking=Lacking())
    refuse_endless(case)
    observer = observer_of(case, avrora)
    words = [avrora, *case.source]
    with tempfile.TemporaryFile() as errors:
        streams = {"stdin": subprocess.DEVNULL, "stdout": subprocess.PIPE, "stderr": errors}
        with RUNS.started(words, cwd=case.folder, **streams) as process:
            return checked_run(case, process, errors, save, observer)


def observer_of(case: Case, avrora: str) -> "Observer | None":
    """What judges the conditions of a case, if it states any; nothing of it is read for another case."""
    if not case.conditions:
        return None
    from avrora_tools.observing.expecting import Observer

    return Observer.of_case(case, avrora)


def checked_run(
    case: Case, process: subprocess.Popen[bytes], errors: IO[bytes], save: bool, observer: "Observer | None"
) -> Outcome:
    words = f"avrora {files.printable(' '.join(case.source or ()))}"

    def ended(came: bool) -> None:
        """Raises what is due where the run ended otherwise than well."""
        status = process.wait()
        if status:
            errors.seek(0)
            said = files.printable(errors.read(4096).decode(errors="replace").strip())
            fault: type[ToolError] = BadInput if status in REFUSALS else CannotWork
            raise fault(f"{files.shown(case.path)}: {words}: status {status}: {said}")

    assert process.stdout
    rows = traces.blocks_of(cast(BinaryIO, process.stdout))
    conditions = observer.failures if observer else None
    return check(case, rows, save, words, ended, window_of(case), conditions=conditions)
