"""What a sweep tells: its plan, its totals, its findings, and the scenario of its earliest failing run."""
import os
from collections.abc import Sequence

from avrora_tools import files
from avrora_tools.opening import Where, debug_command
from avrora_tools.showing import shell_folder, shell_line
from avrora_tools.sweeping.events import InputByte, MovedScenario, is_alone
from avrora_tools.sweeping.limits import shown_time
from avrora_tools.sweeping.plans import Cell
from avrora_tools.sweeping.simulation import Simulator, scenario_text
from avrora_tools.sweeping.sweep import ALL_FAIL, Options, Results, Sweep
from avrora_tools.sweeping.verdicts import SerialCheck
from avrora_tools.sweeping.wording import shown_move

BEFORE, BEHIND = 200, 2_000  # cycles of the window of the earliest failing run, about where its byte is noticed

LONG = 600  # seconds, above which it is told what would make a sweep shorter


def first_move(scenario: MovedScenario) -> int:
    """The first cycle in which something moves."""
    return min(m.span.first if isinstance(m.event, InputByte) else 0 for m in scenario.moved)


def compares_nothing(sweep: Sweep) -> bool:
    return isinstance(sweep.check, SerialCheck) and sweep.check.compares_nothing()


def print_plan(sweep: Sweep) -> None:
    events = " and ".join(f"{m.event} from {m.span.first:,} to {m.span.last:,}" for m in sweep.scenario.moved)
    moves = sum(len(cell.arrivals.moves) for cell in sweep.cells)
    print(f"{events}: {moves:,} moves, {len(sweep.cells):,} classes; each run ends at {sweep.scenario.until:,}")
    if compares_nothing(sweep):
        print(
            "the run that is not moved writes nothing from there on: only what is written too much, and stops, can "
            "be told"
        )
    for doubt in sweep.doubts:
        print(f"{doubt}: each move is a class")
    if sweep.stores:
        more = f" and {len(sweep.stores) - 1:,} more" if len(sweep.stores) > 1 else ""
        print(
            f"interrupts are off at the store through a pointer at {sweep.shown_address(sweep.stores[0])}{more}, "
            "which may write "
            "SREG: behind it they count as on, which makes more classes"
        )
    if sweep.sharing and sweep.sharing.things:
        print(f"used by handlers and by main: {', '.join(sweep.sharing.things)}")


def run_all(sweep: Sweep, options: Options) -> Results:
    told = False
    results = sweep.results
    for results in sweep.run(options):
        if results.first_failure and not told:
            move, wrong, runs, seconds = results.first_failure
            print(f"first failure: run {runs:,}, {seconds:.2f} s: {shown_move(move)}: {wrong}", flush=True)
            told = True
        if sweep.teller.is_due():
            done, total = len(results.ran), len(sweep.cells)
            left = results.seconds * (total - done) / results.runs
            about = f"; about {shown_time(left)} to go" if not options.quick else ""
            sweep.teller.tell(f"{done:,} of {total:,} classes run, {len(results.failures):,} fail{about}")
    return results


def print_cost(sweep: Sweep, seconds_a_run: float, jobs: int) -> None:
    """How long all classes take, by one run, and what would make it shorter where that is long."""
    expected = len(sweep.cells) * seconds_a_run / jobs
    print(f"all classes take about {shown_time(expected)}, {jobs} at a time, by the time of one run", flush=True)
    if expected >= LONG:
        print(
            "shorter: --seconds N ends in time and --resume FILE goes on from there; a span about one place "
            "(`avrora-tools when` tells its cycles); --quick with -e is a first look; --per-place N; A..B/STEP; "
            "--until nearer to the span",
            flush=True,
        )


def print_totals(sweep: Sweep, results: Results, options: Options) -> None:
    speed = results.runs / results.seconds if results.seconds else 0
    earlier = f" and {results.before:,} before" if results.before else ""
    print(
        f"{len(results.failures):,} of {len(results.ran):,} classes fail; {results.runs:,} runs in "
        f"{results.seconds:.1f} s "
        f"({speed:.0f} a second){earlier}"
    )
    if sweep.counted_to is not None:
        print(f"classes were counted up to cycle {sweep.counted_to:,} alone, as counting took half of the time")
    if sweep.limit.is_over():
        print(f"cut: {sweep.limit.reason()}")
    if results.all_fail:
        told = "and others far from them: the deadline (--until) or the check, no race"
        print(f"the first {ALL_FAIL} runs all fail, {told}")
    if missed := sweep.classes_not_run():
        print(f"{missed:,} of {len(sweep.cells):,} classes were not run")
    if options.quick and not results.failures:
        print("this was a first look, which proves nothing: without --quick all classes are run")


def write_earliest(path: str, sweep: Sweep, cell: Cell) -> list[str]:
    """Writes the scenario of a failing run with a window about where its byte is noticed; a state and moves too where
    it needs them. Returns the words by which the simulator runs it."""
    move, point, scenario = cell.move(), cell.arrivals.point, sweep.scenario
    at = point.cycle if point else move[-1] if isinstance(scenario.moved[-1].event, InputByte) else 0
    window = max(scenario.begins, at - BEFORE), min(scenario.until, at + BEHIND)
    whole = (
        None
        if sweep.tails.begins_in_given_state or is_alone(scenario.moved[-1].event)
        else scenario.whole_scenario(move, window)
    )
    told = (*move[:-1], None) if is_alone(scenario.moved[-1].event) else move
    document = whole or scenario.scenario(told, window)
    words, note = ["run", path], ""
    if whole is None:
        files.write_whole(f"{path}.state", sweep.tails.state or b"")
        words = ["resume", path, f"{path}.state"]
        note = "It begins in the state beside it: "
    if is_alone(scenario.moved[-1].event):
        files.write_whole(f"{path}.moves", scenario.line(move[-1]))
        words = ["sweep", path, f"{path}.state", f"{path}.moves"]
        note = (
            f"What arrives at node {sweep.node} is said by the moves beside it, and not here; it begins in the state "
            "beside it:\n# "
        )
    events = " and ".join(f"{m.event} at {value:,}" for m, value in zip(scenario.moved, move))
    command = shell_line(["avrora", words[0], *(os.path.basename(word) for word in words[1:])])
    notes = f"# The run of a sweep with {events}.\n# {note}{command}\n"
    files.write_whole(path, notes + scenario_text(document))
    return [words[0], *(os.path.abspath(word) for word in words[1:])]


def debugged(words: Sequence[str], sweep: Sweep, cell: Cell, elfs: Sequence[str]) -> str | None:
    """The command that opens gdb where the byte of a failing run is noticed, over the scenario that the simulator runs
    by these words (`write_earliest`); None where moves say what arrives, which a debugger cannot follow."""
    move, point, last = cell.move(), cell.arrivals.point, sweep.scenario.moved[-1].event
    if is_alone(last):
        return None
    at = point.cycle if point else move[-1] if isinstance(last, InputByte) else sweep.scenario.begins
    path, *state = map(os.path.relpath, words[1:])
    return debug_command(path, Where(at, sweep.node), elfs, state[0] if state else None, sweep.tails.simulator.folder)


def shown_command(simulator: Simulator, words: Sequence[str]) -> str:
    """A line for a shell, from where this tool is called, that runs the simulator where the images are."""
    command = shell_line([simulator.program, *words])
    here = os.path.relpath(simulator.folder)
    return command if here == os.curdir else f"(cd {shell_folder(here)} && {command})"
