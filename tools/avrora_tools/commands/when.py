"""Tells in which cycles a node executes a function, a source line or an instruction."""
import argparse
import itertools

from avrora_tools import cli, occurrences, programs, scenarios
from avrora_tools.commands.sweep import document_of, folder_of
from avrora_tools.errors import BadInput, Status
from avrora_tools.sweeping.simulation import Simulator

SUMMARY = "in which cycles a node executes a function, a line or an address"

DESCRIPTION = """Tells in which cycles node NODE of a scenario executes PLACE: a function (where it is entered), a
source line FILE:LINE (where each piece of its code begins), or a word address of four digits, as traces have them. It
tells how often, between which cycles, and the cycles: a span for `sweep`, `window` or `gdb --at`. A function that the
compiler inlined has no entry of its own: take FILE:LINE. Functions and lines need the ELF file of the node (-e).

Status 0: it is executed; 1: never; 2: there is no such place, or the words or the files are bad."""

MOST = 20  # cycles that are told


def run(arguments: argparse.Namespace) -> int:
    document = document_of(arguments.scenario)
    scenario = scenarios.Scenario.load(arguments.scenario)
    if arguments.node >= len(scenario.images):
        raise BadInput(f"there is no node {arguments.node}: the scenario has {len(scenario.images)}")
    end = arguments.end if arguments.end is not None else scenario.cycles
    if not arguments.first < end <= scenario.cycles:
        raise BadInput(
            f"{arguments.first:,} to {end:,} is not a span of cycles below the scenario's limit of {scenario.cycles:,}"
        )
    words = [f"{arguments.node}={arguments.elf}"] if arguments.elf else []
    program = programs.Programs(words, scenario, arguments.force).of(arguments.node)
    addresses = occurrences.addresses_of(arguments.place, program)
    simulator = Simulator(cli.simulator(arguments.avrora), folder_of(arguments.scenario), arguments.timeout)
    executions = occurrences.Executions(simulator, document)
    count, last, shown = 0, 0, []
    for cycle, address in executions.cycles(arguments.node, addresses, arguments.first, end):
        count, last = count + 1, cycle
        if arguments.all or count <= MOST:
            shown.append((cycle, address))
    print_found(arguments, program, addresses, count, (shown[0][0], last) if shown else None)
    for cycle, address in shown:
        print(f"{cli.shown_cycle(cycle, arguments.hz)}" + (f"  {address:04X}" if len(addresses) > 1 else ""))
    if count > len(shown):
        print(f"and {count - len(shown):,} more: --all tells them, --from and --to look at a part")
    return Status.GOOD if count else Status.NOT_MET


def print_found(
    arguments: argparse.Namespace,
    program: programs.Program | None,
    addresses: list[int],
    count: int,
    span: tuple[int, int] | None,
) -> None:
    """How often a place is executed, and between which cycles."""
    names = [f"{program.place(it)} ({it:04X})" if program else f"{it:04X}" for it in itertools.islice(addresses, MOST)]
    what = f"node {arguments.node}, {', '.join(names)}"
    if span is None:
        print(f"{what}: never")
    else:
        times = "once" if count == 1 else f"{count:,} times"
        print(f"{what}: {times}, from cycle {span[0]:,} to {span[1]:,}")


def configure(parser: argparse.ArgumentParser) -> None:
    cli.describe(parser, DESCRIPTION, "when -e alarm.elf alarm.toml 2 alarm.c:24")
    parser.add_argument("-e", "--elf", metavar="ELF", help="the ELF file of the node")
    parser.add_argument("--force", action="store_true", help="take an ELF file that is not that of the node's image")
    parser.add_argument(
        "--from", dest="first", type=cli.natural, default=0, metavar="CYCLE", help="from this cycle on (%(default)s)"
    )
    parser.add_argument(
        "--to", dest="end", type=cli.positive, metavar="CYCLE", help="before this cycle; else to the end"
    )
    parser.add_argument("--all", action="store_true", help=f"tell all cycles, and not the first {MOST}")
    cli.add_clock(parser)
    parser.add_argument(
        "--timeout", type=cli.positive, default=60, metavar="S", help="seconds that a run may take (%(default)s)"
    )
    cli.add_simulator(parser)
    parser.add_argument("scenario", metavar="SCENARIO")
    parser.add_argument("node", type=cli.natural, metavar="NODE")
    parser.add_argument("place", metavar="PLACE")
