"""Runs a scenario again up to a window, and writes what happens in it, instruction by instruction."""
import argparse
import os
import subprocess
import sys
import tempfile
from typing import IO, BinaryIO, cast

from avrora_tools import cli, files, showing, toml, traces
from avrora_tools.errors import BadInput, CannotWork, Status
from avrora_tools.expectations import REFUSALS
from avrora_tools.scenarios import MAX_WINDOW, Scenario
from avrora_tools.states import State

MOST_SAID = 65_536  # bytes of what the simulator said that are shown

SUMMARY = "runs a scenario again, with all instructions of a window"

DESCRIPTION = f"""Runs a scenario again up to cycle END with the window [FIRST, END], of at most {MAX_WINDOW:,} cycles,
and writes the rows from FIRST on: the instructions of all nodes too. The scenario's file stays as it is. All happens as
in the whole run; the last rows, of kind end, tell each node's state at END. With --state, which `avrora save` wrote,
it runs only the rest. Status 0: all is written; 2: no scenario, no such window, or the simulator refuses something;
3: the simulator fails."""


def windowed(text: str, first: int, end: int) -> str:
    """The scenario's text with another cycle limit and window."""
    lines = text.split("\n")  # the line ends that TOML has, and none of the others that Python knows
    name = ""
    for tokens in toml.statements(text):
        words = [word for word, _ in tokens]
        if words[0] == "[":
            name = words[0]
        elif not name and toml.bare(words[0]) in ("cycles", "window") and words[1:2] == ["="]:
            for number in range(tokens[0][1], tokens[-1][1] + 1):
                lines[number - 1] = ""
    return f"cycles = {end}\nwindow = [{first}, {end}]\n" + "\n".join(lines)


def configure(parser: argparse.ArgumentParser) -> None:
    cli.describe(parser, DESCRIPTION, "window flood.toml 15_400 15_600 | avrora-tools annotate -e flood.elf")
    cli.add_simulator(parser)
    parser.add_argument("--plain", action="store_true", help="on one thread")
    parser.add_argument("--state", metavar="STATE", help="a state of the scenario, from which it runs on one thread")
    parser.add_argument("scenario", metavar="SCENARIO")
    parser.add_argument("first", type=cli.natural, metavar="FIRST", help="a cycle; digits may be grouped, as in 15_400")
    parser.add_argument("end", type=cli.positive, metavar="END")


def run(arguments: argparse.Namespace) -> int:
    first, end = arguments.first, arguments.end
    name = files.shown(arguments.scenario)
    text = files.read_text(arguments.scenario)
    scenario = Scenario.of_text(text, name, os.path.dirname(arguments.scenario))
    scenario.refuse_endless()
    if not first < end <= min(scenario.cycles, first + MAX_WINDOW):
        raise BadInput(
            f"[{first}, {end}] is not a window of 1 to {MAX_WINDOW:,} cycles below the limit of {scenario.cycles:,}"
        )
    if arguments.state:
        cycle = State.load(arguments.state).cycle
        if first < cycle:
            raise BadInput(
                f"{files.shown(arguments.state)}: it is of cycle {cycle:,}, and the window begins before that"
            )
    text = windowed(text.removeprefix(toml.BYTE_ORDER_MARK), first, end)
    Scenario.of_text(text, f"{name} with the window")
    with tempfile.NamedTemporaryFile("w", suffix=".toml", encoding="utf-8", newline="") as file:
        file.write(text)
        file.flush()
        return filtered(arguments, file.name)


def filtered(arguments: argparse.Namespace, scenario: str) -> int:
    """Runs `scenario` in the folder of the one it was made from, where its images are."""
    words = [cli.simulator(arguments.avrora), "run", *["--plain"] * arguments.plain, scenario]
    if arguments.state:
        words[1:] = ["resume", scenario, os.path.abspath(arguments.state)]
    folder = os.path.dirname(os.path.abspath(arguments.scenario))
    with tempfile.TemporaryFile() as said:
        try:
            process = subprocess.Popen(
                words, cwd=folder, stdin=subprocess.DEVNULL, stdout=subprocess.PIPE, stderr=said
            )
        except OSError as fault:
            raise CannotWork(f"cannot run {files.shown(words[0])}: {fault.strerror}") from None
        with process:
            try:
                write_rows(cast(BinaryIO, process.stdout), arguments.first)
            except BadInput as fault:
                if not process.wait():
                    raise CannotWork(str(fault)) from None
            except BaseException:
                process.kill()
                raise
            status = process.wait()
        show_said(said)
    if status in REFUSALS:
        return Status.BAD_INPUT  # of which the simulator has told
    if status:
        raise CannotWork(f"the simulator ended with status {status}")
    return Status.GOOD


def show_said(said: IO[bytes]) -> None:
    """Shows what the simulator said, in which names of files are."""
    said.seek(0)
    text = said.read(MOST_SAID).decode(errors="surrogateescape")
    if text:
        print(showing.printable_lines(text.rstrip("\n")), file=sys.stderr)


def write_rows(output: BinaryIO, first: int) -> None:
    """Writes the rows of a trace from the cycle `first` on."""
    write = sys.stdout.write
    for cycle, node, event in traces.Trace(traces.blocks_of(output), "what the simulator wrote", traces.Form.ENDED):
        if cycle >= first:
            write(f"{cycle} {node} {event.text}\n")
