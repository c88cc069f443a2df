"""What is known of one run: its scenario is run by the simulator, or its trace is given, and all that the tools tell of
it is put together."""
import contextlib
import hashlib
import os
import subprocess
import tempfile
from collections.abc import Iterator, Sequence
from dataclasses import dataclass, field
from typing import Any, NamedTuple

from avrora_tools import budgets, drawings, expectations, files, programs, scenarios, shipping, toml, traces
from avrora_tools.budgets import Account, Table
from avrora_tools.errors import BadInput, CannotWork, Status, ToolError
from avrora_tools.events import End, Enter, Instr
from avrora_tools.expectations import REFUSALS, Case, Outcome
from avrora_tools.exports import coverage
from avrora_tools.exports.walking import Functions, NodeCosts, StackReader
from avrora_tools.fates import Reader
from avrora_tools.listening import Radio, watched_radios
from avrora_tools.observing import tracks
from avrora_tools.observing.running import Network, Run
from avrora_tools.profiles import Spent
from avrora_tools.reporting import resting
from avrora_tools.reporting.case_sections import Checked
from avrora_tools.scenarios import MAX_WINDOW, Scenario
from avrora_tools.sweeping.simulation import Simulator, ending, scenario_text
from avrora_tools.wholeness import Lacking

Window = tuple[int, int]


class Image(NamedTuple):
    """An image of the network: its name, how many bytes the file has, its SHA-256, and which nodes run it."""

    name: str
    size: int
    sha256: str
    nodes: list[int]


@dataclass
class Gathered:
    """All that is known of a run."""

    path: str
    scenario: Scenario
    document: dict[str, Any]
    sha256: str
    images: list[Image]
    program: str  # what the simulator says of itself, and its SHA-256
    drawing: drawings.Drawing
    reader: Reader  # of links, samples and sends
    clashes: list[str]  # as lines, the first ones
    faults: list[str]
    ended: dict[int, End]
    rows: int
    spent: dict[int, Spent]
    programs: programs.Programs
    costs: dict[int, NodeCosts] = field(default_factory=dict)
    stacks: Window | None = None  # the cycles of which the call stacks are told
    table: Table | None = None
    radios: list[Radio] = field(default_factory=list)
    accounts: list[Account] = field(default_factory=list)
    cases: list[Checked] = field(default_factory=list)
    watched: Sequence[str] = ()  # the words of what is watched


@dataclass(frozen=True)
class Wishes:
    """What is gathered beside the rows of the run."""

    trace: str | None = None
    currents: str | None = None
    always_listening: bool = False
    stacks: Window | None = None
    sleep: bool = True
    watch: Sequence[str] = ()  # variables and registers, or patterns of them


MOST_VERSION = 200  # characters of what the simulator says of itself
MOST_CLASHES = 200  # that are told one by one


class Notes:
    """The lines that a reader of rows tells: clashes, and what is not as it should be; stops are told elsewhere."""

    def __init__(self) -> None:
        self.clashes: list[str] = []
        self.faults: list[str] = []

    def tell(self, line: str) -> None:
        if " clash at node " in line:
            if len(self.clashes) < MOST_CLASHES:
                self.clashes.append(line)
        elif " stopped at " not in line:
            self.faults.append(line)


def gathered(path: str, simulator: Simulator, all_programs: programs.Programs, wishes: Wishes) -> Gathered:
    """What is known of the run of the scenario in the file `path`."""
    text = files.read_text(path)
    scenario = Scenario.of_text(text, files.shown(path), os.path.dirname(path))
    scenario.refuse_endless()
    document = toml.loads(text)
    with tempfile.TemporaryDirectory(prefix="avrora-report-") as folder:
        trace_path = wishes.trace or os.path.join(folder, "trace")
        if not wishes.trace:
            run_into(simulator, trace_path, "run", "--plain", os.path.abspath(path))
        notes, reader, trace = linked(scenario, trace_path, wishes.trace)
        drawing = drawings.Drawing.of(read(scenario, trace_path, wishes.trace), all_programs=all_programs)
        spent = resting.monitored(simulator, os.path.abspath(path), scenario, 0, scenario.cycles)
        found = Gathered(
            path=path,
            scenario=scenario,
            document=document,
            sha256=hashlib.sha256(text.encode()).hexdigest(),
            images=images_of(scenario),
            program=told_of(simulator),
            drawing=drawing,
            reader=reader,
            clashes=notes.clashes,
            faults=notes.faults,
            ended=trace.ended,
            rows=trace.count,
            spent=dict(enumerate(spent)),
            programs=all_programs,
            watched=wishes.watch,
        )
        if wishes.sleep:
            resting.add_to(drawing, simulator, os.path.abspath(path), scenario, spent)
        if wishes.watch:
            run = Run.of(simulator.program, path, scenario.cycles)
            tracks.add_to(drawing, run, Network(scenario, all_programs), wishes.watch)
        if all_programs.all:
            add_stacks(found, simulator, trace_path, wishes.stacks)
    if wishes.currents:
        add_currents(found, simulator, wishes.currents, wishes.always_listening)
    return found


def run_into(simulator: Simulator, path: str, *words: str) -> None:
    """Writes what the simulator writes to a file. Raises BadInput where it refuses its input, CannotWork where it
    fails."""
    with open(path, "wb") as output, tempfile.TemporaryFile() as errors:
        streams = {"stdin": subprocess.DEVNULL, "stdout": output, "stderr": errors}
        with simulator.groups.started([simulator.program, *words], cwd=simulator.folder, **streams) as process:
            try:
                status = process.wait(simulator.timeout)
            except subprocess.TimeoutExpired:
                raise CannotWork(f"a run took more than {simulator.timeout:g} seconds (--timeout)") from None
        if status:
            errors.seek(0)
            said = files.printable(errors.read(4096).decode(errors="replace").strip())
            if status in REFUSALS:
                raise BadInput(f"{words[0]}: {said}")
            raise CannotWork(f"avrora {words[0]}: {ending(status)}{f': {said}' if said else ''}")


def read(scenario: Scenario, path: str, name: str | None, lacking: Lacking | None = None) -> traces.Trace:
    blocks = traces.file_blocks(path)
    least_gap = scenarios.BYTE_TIME.start if lacking else None
    shown = files.shown(name) if name else "the run"
    return traces.Trace(blocks, shown, traces.Form.WHOLE, scenario=scenario, lacking=lacking, least_gap=least_gap)


def linked(scenario: Scenario, path: str, name: str | None) -> tuple[Notes, Reader, traces.Trace]:
    """What became of each send, as the tool `links` tells it, and the trace, which is read."""
    notes = Notes()
    reader = Reader(scenario, None, True, notes.tell)
    trace = read(scenario, path, name, Lacking(scenario.window, looks_at_samples=False))
    reader.read(trace)
    return notes, reader, trace


def images_of(scenario: Scenario) -> list[Image]:
    found = []
    for name in dict.fromkeys(scenario.images):
        content = files.read_named(os.path.join(scenario.folder, name))
        nodes = [node for node, image in enumerate(scenario.images) if image == name]
        found.append(Image(name, len(content), hashlib.sha256(content).hexdigest(), nodes))
    return found


def told_of(simulator: Simulator) -> str:
    """What the simulator says of its version, and which program it is."""
    version = ""
    with contextlib.suppress(ToolError):
        version = simulator.call("--version").decode(errors="replace").strip().partition("\n")[0][:MOST_VERSION]
    digest = ""
    with contextlib.suppress(ToolError):
        digest = hashlib.sha256(shipping.program(simulator.program)).hexdigest()
    return f"{files.printable(version)}\n{digest}"


def add_currents(found: Gathered, simulator: Simulator, name: str, always_listening: bool) -> None:
    """What the nodes draw, as the tool `energy` tells it."""
    table = budgets.table_of(files.read_text(name), files.shown(name))
    nodes = list(found.spent.values())
    if unknown := sorted(set(table.by_node) - set(range(len(nodes)))):
        raise BadInput(f"{files.shown(name)}: there is no node {unknown[0]}")
    if always_listening:
        radios = [budgets.always_selected(node, found.scenario.byte_time) for node in nodes]
    else:
        radios = watched_radios(simulator, found.scenario, found.document, (0, found.scenario.cycles), nodes)
    found.table, found.radios = table, radios
    byte_time = found.scenario.byte_time
    found.accounts = [
        budgets.account(node, table.of(number), byte_time, table.hz, radios[number])
        for number, node in enumerate(nodes)
    ]


# ---- call stacks


def add_stacks(found: Gathered, simulator: Simulator, trace_path: str, wanted: Window | None) -> None:
    """The call stacks of a window: of the one that is wanted, else of the scenario's, else of the busiest cycles."""
    scenario = found.scenario
    own = scenario.window if scenario.window[1] > scenario.window[0] else None
    window = wanted or own or busiest(found.drawing)
    window = window[0], min(window[1], scenario.cycles)
    if window[1] <= window[0]:
        raise BadInput(f"--stacks {window[0]:,}..: the run ends in cycle {scenario.cycles:,}")
    if window[1] - window[0] > MAX_WINDOW:
        raise BadInput(f"--stacks: a window has at most {MAX_WINDOW:,} cycles")
    reader = StackReader(window, None, Functions(found.programs))
    for row in rows_of(found, simulator, trace_path, window):
        found.programs.compare(row[1], row[2])
        if isinstance(row[2], (Instr, Enter)):
            reader.read(*row)
    with contextlib.suppress(BadInput):  # no instruction is executed there
        reader.finish(window[1])
    found.stacks = window
    found.costs = {node: costs for node, costs in sorted(reader.costs.items()) if costs.words}


def rows_of(found: Gathered, simulator: Simulator, trace_path: str, window: Window) -> Iterator[traces.TraceRow]:
    """The rows of a run whose instructions are traced in a window."""
    if window == found.scenario.window:
        yield from read(found.scenario, trace_path, None)
        return
    document = {**found.document, "cycles": window[1], "window": list(window)}
    with tempfile.TemporaryDirectory(prefix="avrora-report-") as folder:
        path, rows = os.path.join(folder, "window.toml"), os.path.join(folder, "rows")
        with open(path, "w", encoding="utf-8") as file:
            file.write(scenario_text(document))
        run_into(simulator, rows, "run", "--plain", path)
        yield from traces.Trace(traces.file_blocks(rows), "a window of the run", traces.Form.ENDED)


def busiest(drawing: drawings.Drawing) -> Window:
    """The cycles of a window in which nodes send and write most."""
    counts: dict[int, int] = {}
    half = MAX_WINDOW // 2
    for lane in drawing.lanes.values():
        for kind in ("sent", "serial", "heard"):
            for event in lane.events(kind):
                counts[event[0] // half] = counts.get(event[0] // half, 0) + 1
    best = max(counts, key=lambda at: (counts[at] + counts.get(at + 1, 0), -at), default=0)
    return best * half, best * half + MAX_WINDOW


def covered_by(found: Gathered) -> coverage.Covered:
    """How often the instructions of the programs were executed."""
    counts = coverage.Covered()
    for node, spent in found.spent.items():
        if program := found.programs.of(node):
            counts.add(program, {word: share.count for word, share in spent.at.items()})
    return counts


# ---- cases


def checked(case: Case, found: Gathered, trace_path: str | None, avrora: str) -> Outcome:
    """What came of a case of `expect`."""
    try:
        if trace_path and case.source and case.source[0] == "run":
            source = os.path.join(case.folder, case.source[1])
            if os.path.realpath(source) == os.path.realpath(found.path):
                observer = expectations.observer_of(case, avrora)
                return expectations.check(
                    case,
                    traces.file_blocks(trace_path),
                    name=files.shown(trace_path),
                    lacking=Lacking(),
                    conditions=observer.failures if observer else None,
                )
        return expectations.run_case(case, avrora)
    except ToolError as fault:
        return Outcome(str(fault), 0, len(case.statements), fault.status)


def status_of(found: Gathered) -> Status:
    """The status of a report: a case that is not met, or a sample that is not what the sends give."""
    worst = max((one.outcome.status for one in found.cases), default=Status.GOOD)
    return max(worst, Status.NOT_MET if found.reader.faults else Status.GOOD)
