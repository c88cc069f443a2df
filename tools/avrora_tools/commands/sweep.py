"""Moves one event of a scenario, or two, cycle by cycle, and tells after which moves a check fails, and where."""
import argparse
import contextlib
import os
import re
import shlex
import time
from collections.abc import Iterator
from dataclasses import replace

import avrora_tools
from avrora_tools import cases, cli, files, programs, scenarios, shipping, toml
from avrora_tools.errors import BadInput, BadWords, Status
from avrora_tools.reporting import findings as page_findings
from avrora_tools.reporting import sweep_sections
from avrora_tools.reporting.findings import Search
from avrora_tools.states import State
from avrora_tools.sweeping.always import AlwaysCheck, always_check
from avrora_tools.sweeping.cluster import WRITTEN, ClusterTails
from avrora_tools.sweeping.events import InputByte, Move, Moved, MovedScenario, moved_scenario, parsed_event
from avrora_tools.sweeping.findings import ranges
from avrora_tools.sweeping.journal import Journal, digest
from avrora_tools.sweeping.limits import Limit
from avrora_tools.sweeping.rows import stops, written, written_before
from avrora_tools.sweeping.sharing import Sharing, objects_of
from avrora_tools.sweeping.simulation import ProcessTails, Simulator
from avrora_tools.sweeping.sweep import ALL_FAIL, Options, Sweep
from avrora_tools.sweeping.telling import (
    compares_nothing,
    debugged,
    first_move,
    print_cost,
    print_plan,
    print_totals,
    run_all,
    shown_command,
    write_earliest,
)
from avrora_tools.sweeping.verdicts import (
    CaseCheck,
    Check,
    Compare,
    PredicateCheck,
    SerialCheck,
    nodes_of,
    predicate_of,
)
from avrora_tools.sweeping.wording import lines_of, search_of, told

SUMMARY = "moves an event cycle by cycle, and tells which moves break a run and where"

DESCRIPTION = """Moves an event of a scenario through a span of cycles and checks each run. What moves, with its span
A..B:
  --input N:I=A..B       byte I of node N's input, with the bytes behind it, or alone with --alone
  --start N=A..B         the first byte of node N's input, by which its program starts
  --latency F-T=A..B     the latency of the link from node F to node T
Two of them make a grid; A..B/STEP takes each STEP-th value alone.

Cycles in which a byte's arrival leads to the same execution are one class, and the tool makes one run of each class.
It runs all classes, unless --quick, --runs, --stop, --per-place or a step says otherwise; then it tells how many
it did not run. --quick is a first look: a clean one proves nothing.

It checks each run at its end, which is the deadline of all that is checked: the scenario's `cycles`, or --until. Unless
--expect, --check or --always says otherwise, each node must write to USART0 what it writes in the run that is not
moved. With -e (the program of the node whose byte moves) the tool names functions, lines and what handlers share with
main, and tells where a failing run parts from one that passes.

Status 0: no run fails; 1: one does; 2: the words or the files are bad."""


def run(arguments: argparse.Namespace) -> int:
    options = Options(
        arguments.quick, arguments.grid, arguments.all, arguments.per_place, arguments.stop, arguments.runs
    )
    with Limit(arguments.seconds).by_signals() as limit, prepared(arguments, limit) as sweep:
        print_plan(sweep)
        if len(sweep.cells) > ALL_FAIL and not arguments.scheduler:
            print_cost(sweep, seconds_of_one(sweep), arguments.jobs)
        results = run_all(sweep, options)
        print_totals(sweep, results, options)
        found = []
        for number, finding in enumerate(sweep.findings(), 1):
            found.append(told(sweep, finding))
            print("\n".join(lines_of(number, found[-1])))
        earliest = None
        if found and arguments.out:
            command = write_earliest(arguments.out, sweep, found[0].finding.first())
            earliest = shown_command(sweep.tails.simulator, command)
            print(f"earliest: {earliest}")
            if opened := debugged(command, sweep, found[0].finding.first(), [arguments.elf] if arguments.elf else []):
                print(f"debug: {opened}")
        write_pages(arguments, sweep, search_of(sweep, options, found, [own_command(arguments)], earliest))
        if compares_nothing(sweep) and not results.failures:
            if limit.is_over():
                return limit.status(Status.GOOD)
            raise BadInput(
                "nothing was compared: neither the run that is not moved nor a moved one writes anything to USART0 "
                f"from cycle {first_move(sweep.scenario):,} "
                f"on{', except what --drop leaves out' * bool(arguments.drop)}; "
                "--expect or --check checks what is not written"
            )
    return Status.NOT_MET if results.failures else limit.status(Status.GOOD)


def seconds_of_one(sweep: Sweep) -> float:
    """How long a run takes."""
    begun = time.monotonic()
    sweep.tails.output(sweep.cells[0].move())
    return time.monotonic() - begun


def own_command(arguments: argparse.Namespace) -> str:
    """A command that makes the same runs and judges them so again, on this machine."""
    words = [word for option, value in arguments.moved for word in (f"--{option}", value)]
    for option in ("until", "state", "elf", "drop", "per_place", "runs"):
        words += valued(option, getattr(arguments, option))
    words += [f"--{option}" for option in ("alone", "force", "all", "quick", "stop") if getattr(arguments, option)]
    words += ["--nodes", ranges(sorted(arguments.nodes))] if arguments.nodes else []
    words += [word for value in arguments.base or () for word in ("--base", str(value))]
    words += valued("compare", arguments.compare if arguments.compare != Compare.BYTES.value else None)
    words += valued("grid", arguments.grid if arguments.quick else None)
    words += cli.check_words(arguments)
    return shlex.join(["avrora-tools", "sweep", *map(files.printable, words), files.shown(arguments.scenario)])


def valued(option: str, value: object) -> list[str]:
    """An option with its value as words; none where it has none."""
    return [f"--{option.replace('_', '-')}", str(value)] if value else []


def write_pages(arguments: argparse.Namespace, sweep: Sweep, search: Search) -> None:
    """The page, and the findings as data, where they are asked for."""
    if arguments.html:
        title = files.shown(os.path.basename(arguments.scenario))
        text = sweep_sections.page(sweep, search, title, f"by avrora-tools {avrora_tools.__version__}")
        files.write_whole(arguments.html, text)
    if arguments.findings:
        files.write_whole(arguments.findings, page_findings.written(search))


@contextlib.contextmanager
def prepared(arguments: argparse.Namespace, limit: Limit | None = None) -> Iterator[Sweep]:
    """The sweep that the words say, with its classes, before any of them is run. The run that is not moved is made and
    checked first."""
    document = document_of(arguments.scenario)
    moved, order = moved_events(arguments)
    if arguments.quick and not (arguments.elf and isinstance(moved[-1].event, InputByte)):
        raise BadWords("--quick goes by what handlers share with main: it needs -e, and a byte that moves")
    cli.one_check(arguments)
    if arguments.state and arguments.expect:
        raise BadWords("--expect needs the whole trace: a run from a state has no rows of what was before")
    state = files.read_bytes(arguments.state) if arguments.state else None
    state_cycle = State.of_text(state.decode("ascii", "replace"), arguments.state).cycle if state else None
    scenario = moved_scenario(document, moved, arguments.until, state_cycle)
    simulator = Simulator(cli.simulator(arguments.avrora), folder_of(arguments.scenario), arguments.timeout)
    with contextlib.ExitStack() as stack:
        tails = stack.enter_context(tails_of(arguments, simulator, scenario, state))
        check = check_of(arguments, tails, scenario, order)
        check_unmoved(arguments, tails, scenario, check)
        program, sharing = program_of(arguments, simulator, document, moved[-1])
        journal = journal_of(arguments, tails, order) if arguments.resume else None
        if journal:
            stack.enter_context(contextlib.closing(journal))
        sweep = Sweep(tails, scenario, check, program, sharing, limit, journal)
        yield sweep


def tails_of(
    arguments: argparse.Namespace, simulator: Simulator, scenario: MovedScenario, state: bytes | None
) -> ProcessTails:
    """What makes the runs: processes of this machine, or the workers of a scheduler."""
    if not arguments.scheduler:
        return ProcessTails(simulator, scenario, arguments.jobs, state)
    if arguments.alone:
        raise BadWords("--alone works only with runs on this machine")
    tails = ClusterTails(simulator, scenario, state)
    try:
        reads_all = arguments.quick or arguments.expect or arguments.check
        tails.connect(arguments.scheduler, shipping.program(arguments.avrora), () if reads_all else WRITTEN)
    except BaseException as fault:
        tails.__exit__(type(fault), fault, None)
        raise
    return tails


def folder_of(scenario: str) -> str:
    """Where the images of a scenario are."""
    return os.path.dirname(os.path.abspath(scenario))


def document_of(path: str) -> dict[str, object]:
    """A scenario's document. Raises BadInput where the simulator would refuse it."""
    text = files.read_text(path)
    scenarios.Scenario.of_text(text, files.shown(path), os.path.dirname(path)).refuse_endless()
    return toml.loads(text)


def moved_events(arguments: argparse.Namespace) -> tuple[list[Moved], list[int]]:
    """What moves, a byte last where there is one; and the place in it of each event of the command line."""
    words = arguments.moved or []
    if not 1 <= len(words) <= 2:
        raise BadWords("name one event or two that move: --input, --start, --latency")
    given = [parsed_event(kind, text) for kind, text in words]
    order = sorted(range(len(given)), key=lambda i: isinstance(given[i].event, InputByte))
    if len(given) == 2 and given[0].event == given[1].event:
        raise BadWords("the two events are the same")
    if arguments.alone:
        last = given[order[-1]]
        if not isinstance(last.event, InputByte):
            raise BadWords("--alone moves a byte")
        given[order[-1]] = replace(last, event=replace(last.event, is_alone=True))
    return [given[i] for i in order], [order.index(i) for i in range(len(given))]


def program_of(
    arguments: argparse.Namespace, simulator: Simulator, document: dict[str, object], last: Moved
) -> tuple[programs.Program | None, Sharing | None]:
    if not arguments.elf:
        return None, None
    event = last.event
    node = event.node if isinstance(event, InputByte) else event.hearer
    scenario = scenarios.Scenario.load(arguments.scenario)
    program = programs.Programs([f"{node}={arguments.elf}"], scenario, arguments.force).of(node)
    assert program is not None
    nodes: list[dict[str, str]] = document["node"]  # type: ignore[assignment]
    listing = simulator.call("disasm", nodes[node]["image"]).decode().splitlines()
    return program, Sharing(program, listing, objects_of(arguments.elf))


def check_of(arguments: argparse.Namespace, tails: ProcessTails, scenario: MovedScenario, order: list[int]) -> Check:
    if arguments.always:
        elfs = [arguments.elf] if arguments.elf else []
        return always_check(arguments.always, tails, arguments.scenario, elfs, arguments.force)
    if arguments.check:
        return PredicateCheck(tails.head, predicate_of(arguments.check), order)
    if arguments.expect:
        return CaseCheck(tails.head, cases.read_case(arguments.expect))
    nodes = nodes_of(len(scenario.document["node"]), arguments.nodes)
    rows = reference(arguments, tails, scenario, scenario.until)
    return SerialCheck(
        tails.head,
        written(rows),
        nodes,
        Compare(arguments.compare),
        dropped(arguments.drop),
        lambda: written(reference(arguments, tails, scenario, scenario.document["cycles"])),
        stops(rows),
        written_before(rows, first_move(scenario)),
    )


def check_unmoved(
    arguments: argparse.Namespace, tails: ProcessTails, scenario: MovedScenario, check: Check
) -> None:
    """Checks the run that is not moved, so that a check that fails anyway, or cannot work, is told at once. Where that
    run cannot be made the first move shows at least that the check works."""
    if not isinstance(check, (CaseCheck, PredicateCheck, AlwaysCheck)):
        return  # that run is what it compares with
    try:
        *head, rows = reference(arguments, tails, scenario, scenario.until)
    except BadInput:
        first = tuple(m.span.first for m in scenario.moved)
        check.failure(first, tails.output(first))
        return
    move = base_move(arguments.base, scenario) if arguments.base else scenario.unmoved()
    if not isinstance(check, AlwaysCheck):
        check = replace(check, head=b"".join(head))
    if wrong := check.failure(move, rows):
        raise BadInput(
            f"the run that is not moved fails too: {wrong}. Either the check is wrong for this scenario, or the "
            f"deadline in cycle {scenario.until:,} (--until) is too near; --base VALUE names another run to begin with"
        )


def journal_of(arguments: argparse.Namespace, tails: ProcessTails, order: list[int]) -> Journal:
    """The file that --resume names, of this sweep alone."""
    if arguments.quick:
        raise BadWords("--resume goes on with all classes, but --quick runs only some: give one of them")
    scenario = tails.scenario
    nodes: list[dict[str, str]] = scenario.document["node"]
    images = sorted({node["image"] for node in nodes})
    named = {"check": arguments.check, "expect": arguments.expect, "elf": arguments.always and arguments.elf}
    parts: dict[str, object] = {
        "scenario": scenario.document,
        "images": [digest({name: files.read_bytes(os.path.join(tails.simulator.folder, name))}) for name in images],
        "moved": [scenario.moved, order, scenario.until, scenario.begins],
        "state": tails.state or b"",
        "simulator": shipping.program(arguments.avrora),
        "words": [arguments.compare, arguments.drop, sorted(arguments.nodes or []), arguments.base, arguments.all],
        "always": arguments.always or [],
        **{name: files.read_bytes(path) for name, path in named.items() if path},
    }
    return Journal(arguments.resume, digest(parts))


def dropped(pattern: str) -> re.Pattern[bytes] | None:
    """What is left out of serial output."""
    try:
        return re.compile(os.fsencode(pattern)) if pattern else None
    except re.error as fault:
        raise BadWords(f"--drop: {fault}; what nodes write are bytes, and \\xHH is one") from None


def reference(
    arguments: argparse.Namespace, tails: ProcessTails, scenario: MovedScenario, until: int
) -> tuple[bytes, ...]:
    """The rows of the run that is not moved, up to a cycle, in pieces."""
    unmoved = scenario.unmoved() if not arguments.base else base_move(arguments.base, scenario)
    if any(v >= scenario.until for v, m in zip(unmoved, scenario.moved) if isinstance(m.event, InputByte)):
        raise BadInput(
            f"the run that is not moved has its event behind cycle {scenario.until:,}, in which the runs end: --base "
            "names a "
            "value for another run to compare with"
        )
    comes_later = all(
        value >= scenario.begins for value, m in zip(unmoved, scenario.moved) if isinstance(m.event, InputByte)
    )
    if comes_later:
        return tails.head, tails.output(unmoved, until=until)
    if arguments.state or arguments.base:
        raise BadInput(
            f"the run that is not moved has its event before cycle {scenario.begins:,}, in which the runs begin: "
            "--base names "
            "a value for another run to compare with"
        )
    path = tails.written({**scenario.document, "cycles": until, "window": [0, 0]})
    return (tails.simulator.call("run", "--plain", path),)


def base_move(values: list[int], scenario: MovedScenario) -> Move:
    if len(values) != len(scenario.moved):
        raise BadWords(f"--base takes a value for each event that moves, {len(scenario.moved)} in all, bytes last")
    return tuple(values)


# ---- the command line


class AddMoved(argparse.Action):
    """Collects what moves, in the order of the command line."""

    def __call__(
        self, parser: object, namespace: argparse.Namespace, values: object, option: str | None = None
    ) -> None:
        namespace.moved = [*(namespace.moved or []), ((option or "").lstrip("-"), values)]


def configure(parser: argparse.ArgumentParser) -> None:
    cli.describe(parser, DESCRIPTION, "sweep torn.toml --start 0=270_000..273_999 --until 300_000 -e torn.elf")
    parser.set_defaults(moved=None)
    for option, form in (("--input", "N:I=A..B"), ("--start", "N=A..B"), ("--latency", "F-T=A..B")):
        parser.add_argument(option, action=AddMoved, metavar=form, help="what moves, and its span")
    parser.add_argument(
        "--alone",
        action="store_true",
        help="move one byte alone, between its neighbours: the bytes behind it stay where they are",
    )
    parser.add_argument(
        "--until", type=cli.positive, metavar="CYCLE", help="where each run ends: the deadline of all that is checked"
    )
    parser.add_argument("--state", metavar="STATE", help="go on from this state of the scenario")
    cli.add_checks(parser)
    parser.add_argument(
        "--compare",
        choices=[it.value for it in Compare],
        default=Compare.BYTES.value,
        help="how serial output is compared: byte for byte, or with bytes or lines in any order (%(default)s)",
    )
    parser.add_argument(
        "--drop", default="", metavar="PATTERN", help="before the comparison, leave out of the serial output what matches"
    )
    cli.add_nodes(parser)
    parser.add_argument(
        "--base", type=cli.natural, action="append", metavar="VALUE", help="compare with the run of this move"
    )
    parser.add_argument("-e", "--elf", metavar="ELF", help="the ELF file of the node whose byte moves")
    parser.add_argument("--force", action="store_true", help="take an ELF file that is not that of the node's image")
    parser.add_argument(
        "--out",
        metavar="FILE",
        help="write the earliest failing scenario, with a window about the arrival, and FILE.state and FILE.moves "
        "where it needs them",
    )
    parser.add_argument("--html", metavar="FILE", help="write a page too: the findings, and which moves fail")
    parser.add_argument("--findings", metavar="FILE", help="write the findings as JSON too, for `report`")
    parser.add_argument("--all", action="store_true", help="run each move, and not one of each class")
    parser.add_argument("--quick", action="store_true", help="a first look, which does not run all classes")
    parser.add_argument(
        "--grid", type=cli.positive, default=64, metavar="N", help="with --quick: run at least each N-th class (%(default)s)"
    )
    parser.add_argument(
        "--per-place", type=cli.positive, metavar="N", help="run at most N classes of each interrupted instruction"
    )
    parser.add_argument(
        "--seconds", type=cli.positive, metavar="N", help="end after N seconds, and tell what was run"
    )
    parser.add_argument(
        "--resume", metavar="FILE", help="keep what came of each run in FILE, and go on with what is not there yet"
    )
    parser.add_argument("--stop", action="store_true", help="end at the first failure")
    parser.add_argument("--runs", type=cli.positive, metavar="N", help="end after N runs")
    parser.add_argument(
        "--jobs", type=cli.positive, default=processors(), metavar="N", help="runs at a time (%(default)s)"
    )
    parser.add_argument(
        "--scheduler", metavar="ADDRESS", help="run on the workers of a scheduler of dask, as tcp://HOST:8786"
    )
    parser.add_argument(
        "--timeout", type=cli.positive, default=60, metavar="S", help="seconds that a run may take (%(default)s)"
    )
    cli.add_simulator(parser)
    parser.add_argument("scenario", metavar="SCENARIO")


def processors() -> int:
    return len(os.sched_getaffinity(0))
