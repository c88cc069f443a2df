"""Tells who wrote a variable, when, and with which value."""
import argparse
from collections.abc import Iterator, Sequence

from avrora_tools import cli, files, terminal
from avrora_tools.debugging.history import History, history
from avrora_tools.errors import BadInput, BadWords, Status
from avrora_tools.observing.conditions import Reader
from avrora_tools.observing.running import Network, Observed, Run
from avrora_tools.observing.searching import Broken, Watched, breaks, last_before
from avrora_tools.observing.settling import SETTLING, Moment
from avrora_tools.observing.writers import Writers
from avrora_tools.programs import Programs, add_elf
from avrora_tools.scenarios import Scenario

SUMMARY = "who wrote a variable, when, and with which value"

DESCRIPTION = f"""Runs a scenario and tells each change of variables and registers: the cycle of the write, the node,
the value before and the new one, the instruction that wrote it, by function and source line, and the handler in which
it ran. NAME is a variable (static in a function: FUNCTION.NAME), a part of one such as queue.items[3].length, a
register (PORTB, SP, SREG, r24), a bit of one (PORTB.3, SREG.I), or a pattern of names: 'queue*'. An array or a structure
stands for all that is in it.

  --last-before CYCLE   only the last change of each variable before that cycle
  --breaks CONDITION    the first cycle in which a condition such as 'queued <= 3 && state != BROKEN' does not hold, the
                        values then, and who wrote the last of them

A value of several bytes is written byte by byte. A new value counts from its last byte on, once no other byte of it
changes for {SETTLING} cycles; --torn tells each byte at once. Status 0: all is told; 1: with --breaks, a condition does
not hold; 2 and 3 as with all tools."""


class Teller:
    """Shows changes."""

    def __init__(self, network: Network, past: History, hz: int | None, names_writers: bool) -> None:
        self.network, self.past, self.hz = network, past, hz
        self.writers = Writers(past) if names_writers else None

    def line(self, moment: Moment) -> str:
        targets = self.network.names(moment.node).targets
        old, new = (moment.quantity.shown(held, targets) for held in (moment.before, moment.held))
        at = f"{cli.shown_cycle(moment.cycle, self.hz)} {moment.node:>2}"
        return f"{at}  {moment.quantity.name}: {old} -> {new}{self.by(moment)}"

    def by(self, moment: Moment) -> str:
        if self.writers is None:
            return ""
        return f"   by {self.writers.writer(moment.node, moment.cycle, self.network.programs.of(moment.node)).text}"

    def broken(self, found: Broken) -> Iterator[str]:
        """That a condition does not hold, with its values and what changed the last of them."""
        node, condition = found.watched.node, found.watched.condition
        targets = self.network.names(node).targets
        values = [f"{one.name} is {one.shown(found.values[one.name], targets)}" for one in condition.named]
        when = "as it begins" if found.moment is None else "from there on"
        at = cli.shown_cycle(found.cycle, self.hz).strip()
        shown = files.printable(condition.text)
        yield f"node {node}: `{shown}` does not hold in cycle {at} ({when}): {', '.join(values)}"
        if found.moment:
            yield self.line(found.moment)


def changes_of(
    arguments: argparse.Namespace, network: Network, run: Run, past: History, nodes: Sequence[int]
) -> Iterator[Moment]:
    observed = Observed(run, network.selected(arguments.names, nodes), arguments.torn)
    first, end = span_of(arguments, run)
    if arguments.last_before is not None:
        return iter(last_before(past, observed, end, first))
    return observed.moments(first, end)


def span_of(arguments: argparse.Namespace, run: Run) -> tuple[int, int]:
    """The cycles that are looked at. Raises BadWords where the run does not have them."""
    first = run.first if arguments.first is None else arguments.first
    end = run.limit if arguments.end is None else arguments.end
    if arguments.last_before is not None:
        end = arguments.last_before
    if not run.first <= first <= end <= run.limit:
        raise BadWords(f"{first:,} to {end:,}: the run has the cycles {run.first:,} to {run.limit:,}")
    return first, end


def run(arguments: argparse.Namespace) -> int:
    if bool(arguments.names) == bool(arguments.breaks):
        raise BadWords("name what to watch (-w), or a condition (--breaks)")
    if arguments.last_before is not None and (arguments.breaks or arguments.end is not None):
        raise BadWords("--last-before takes names (-w), and no --until")
    scenario = Scenario.load(arguments.scenario)
    nodes = sorted(arguments.nodes if arguments.nodes is not None else range(len(scenario.images)))
    if nodes[-1] >= len(scenario.images):
        raise BadInput(
            f"{files.shown(arguments.scenario)}: there is no node {nodes[-1]}: the scenario has {len(scenario.images)}"
        )
    network = Network(scenario, Programs(arguments.elf, scenario, arguments.force))
    simulator = cli.simulator(arguments.avrora)
    the_run = Run.of(simulator, arguments.scenario, scenario.cycles, arguments.state)
    with history(arguments.scenario, simulator, arguments.state) as past:
        teller = Teller(network, past, arguments.hz, not arguments.no_writers)
        if arguments.breaks:
            return tell_broken(arguments, network, the_run, teller, nodes)
        count = 0
        for moment in changes_of(arguments, network, the_run, past, nodes):
            print(teller.line(moment))
            count += 1
        if not count:
            terminal.say("nothing changed")
    return Status.GOOD


def tell_broken(
    arguments: argparse.Namespace, network: Network, the_run: Run, teller: Teller, nodes: Sequence[int]
) -> int:
    conditions = [Watched(node, Reader(network.names(node)).read(text)) for node in nodes for text in arguments.breaks]
    first, end = span_of(arguments, the_run)
    status = Status.GOOD
    for found in breaks(the_run, conditions, first, end, arguments.torn):
        status = Status.NOT_MET
        print("\n".join(teller.broken(found)))
    if status == Status.GOOD:
        print(f"each condition holds in the cycles {first:,} to {end:,}")
    return status


def configure(parser: argparse.ArgumentParser) -> None:
    cli.describe(parser, DESCRIPTION, "changes -e packet.elf -n 0 -w 'whole*' --last-before 172_721 packet.toml")
    cli.add_simulator(parser)
    cli.add_nodes(parser)
    cli.add_clock(parser)
    add_elf(parser)
    parser.add_argument(
        "-w",
        "--watch",
        action="append",
        default=[],
        dest="names",
        metavar="NAME",
        help="a variable, register or pattern",
    )
    parser.add_argument("--state", metavar="STATE", help="a state of the scenario in which the run begins; else reset")
    parser.add_argument(
        "--from", dest="first", type=cli.natural, metavar="CYCLE", help="from this cycle on; else from the beginning"
    )
    parser.add_argument(
        "--until", dest="end", type=cli.natural, metavar="CYCLE", help="before this cycle; else to the end"
    )
    parser.add_argument(
        "--last-before", type=cli.natural, metavar="CYCLE", help="only the last change of each variable before this cycle"
    )
    parser.add_argument("--breaks", action="append", metavar="CONDITION", help="where a condition first does not hold")
    parser.add_argument("--torn", action="store_true", help="tell each byte of a value at once")
    parser.add_argument(
        "--no-writers", action="store_true", help="do not tell who wrote; the search takes a moment for each change"
    )
    parser.add_argument("scenario", metavar="SCENARIO")
