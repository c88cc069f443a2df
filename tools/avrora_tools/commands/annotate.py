"""Writes beside the rows of a trace where their addresses lie in the source."""
import argparse
import sys

from avrora_tools import cli, programs, scenarios, traces
from avrora_tools.events import Enter, Event, Instr, Stop
from avrora_tools.opening import Where, debug_command

SUMMARY = "the function and source line of each address of a trace"

DESCRIPTION = """Writes a trace, and behind each instruction, entry and stop row the function and the source line of its
address. Interrupts have their names. With the scenario (-s) a stop row also has the command that opens gdb there.
Source lines need a program that was compiled with -gdwarf-2. The tool takes any rows of a trace."""

COLUMN = 44  # where the notes begin
MOST_NOTES = 65_536  # that are kept


class Notes:
    """What is said of a row."""

    def __init__(self, all_programs: programs.Programs) -> None:
        self.programs = all_programs
        self.known: dict[tuple[int, Event], str] = {}

    def place(self, node: int, word: int) -> str:
        program = self.programs.of(node)
        return program.place(word) if program else ""

    def of(self, node: int, event: Event) -> str:
        note = self.known.get((node, event))
        if note is None:
            if len(self.known) > MOST_NOTES:
                self.known.clear()
            note = self.known[node, event] = self.made(node, event)
        return note

    def made(self, node: int, event: Event) -> str:
        if isinstance(event, (Instr, Stop)):
            return self.place(node, event.address)
        if isinstance(event, Enter):
            back = self.place(node, event.back)
            return programs.vector_name(event.vector) + (f", from {back}" if back else "")
        return ""


def configure(parser: argparse.ArgumentParser) -> None:
    cli.describe(parser, DESCRIPTION, "annotate -s relay.toml -e relay.elf relay.trace")
    programs.add_programs(parser)
    cli.add_trace(parser)


def run(arguments: argparse.Namespace) -> int:
    scenario = scenarios.Scenario.load(arguments.scenario) if arguments.scenario else None
    all_programs = programs.Programs(arguments.elf, scenario, arguments.force)
    notes = Notes(all_programs)
    write = sys.stdout.write
    for cycle, node, event in traces.read(arguments.trace, traces.Form.ROWS, scenario=scenario, prints=True):
        all_programs.compare(node, event)
        text = f"{cycle} {node} {event.text}"
        note = notes.of(node, event)
        if isinstance(event, Stop) and arguments.scenario:
            opened = debug_command(arguments.scenario, Where(cycle, node), arguments.elf)
            note = f"{note}; {opened}" if note else opened
        write(f"{text:<{COLUMN}} ; {note}\n" if note else f"{text}\n")
    return 0
