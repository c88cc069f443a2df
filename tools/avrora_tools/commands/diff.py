"""Tells what differs between two traces."""
import argparse
from collections.abc import Iterator, Sequence

from avrora_tools import cli, events, programs, scenarios, traces
from avrora_tools.commands.annotate import Notes
from avrora_tools.differences import Alignment, NodeDifference, differences
from avrora_tools.errors import BadInput, BadWords, Status
from avrora_tools.events import TRACED
from avrora_tools.opening import Where, debug_command
from avrora_tools.traces import Row

SUMMARY = "what differs between two traces: first rows, and what is later, gone or new"

DESCRIPTION = """Compares two traces node by node. For each node that differs it shows the first row that is not the
same, with the rows about it: `-` stands before those of the first trace, `+` before those of the second. Of the later rows
it tells, by kind, how many are the same in other cycles, by how much, and which are gone or new. For this it compares
the rows of a kind in their order, without their cycles, and samples without their age too. If two differ, it looks
for the next equal ones among 64.

Status 0: no row differs; 1: one does; 2: bad words, a file that is not a trace, or neither trace can have such rows."""

COLUMN = 44  # where notes on a row begin


def run(arguments: argparse.Namespace) -> int:
    if arguments.first == arguments.second == "-":
        raise BadWords("only one of two traces can come from the standard input")
    scenario = scenarios.Scenario.load(arguments.scenario) if arguments.scenario else None
    notes = Notes(programs.Programs(arguments.elf, scenario, arguments.force))
    came: set[tuple[int, str]] = set()
    first, second = (chosen(arguments, name, came) for name in (arguments.first, arguments.second))
    nodes = differences(first, second, not arguments.without_cycles)
    refuse_unseen(arguments, came)
    same = [number for number, node in nodes.items() if not node.has_parted]
    for number, node in nodes.items():
        if node.has_parted:
            print_node(number, node, notes)
    if same:
        print(f"the same: node{'s' * (len(same) > 1)} {', '.join(map(str, same))}")
    if arguments.scenario and (parted := [one for one in nodes.items() if one[1].has_parted]):
        print(f"debug: {debug_command(arguments.scenario, first_parting(parted), arguments.elf)}")
    if not nodes:
        print("the same: neither trace has such a row")
    return Status.GOOD if len(same) == len(nodes) else Status.NOT_MET


def chosen(arguments: argparse.Namespace, name: str, came: set[tuple[int, str]]) -> Iterator[Row]:
    """The rows of the nodes and kinds that are asked for; `came` has the nodes and kinds of all rows then."""
    for row in traces.rows(name):
        came.add((row.node, row.kind))
        if (arguments.nodes is None or row.node in arguments.nodes) and row.kind in arguments.kinds:
            yield row


def refuse_unseen(arguments: argparse.Namespace, came: set[tuple[int, str]]) -> None:
    """Raises BadInput where no row of the traces can be one that is asked for."""
    missing = sorted((arguments.nodes or set()) - {node for node, _ in came})
    if missing:
        raise BadInput(f"neither trace has a row of node {missing[0]}")
    if arguments.kinds <= TRACED and not any(kind in TRACED for _, kind in came):
        raise BadInput(
            f"neither trace has a window, and {' and '.join(sorted(arguments.kinds))} rows stand only in a window"
        )


def print_node(number: int, node: NodeDifference, notes: Notes) -> None:
    print(f"node {number}: {node.same:,} rows are the same, and then")
    for mark, rows in ((" ", node.before), ("-", node.behind[0]), ("+", node.behind[1])):
        for row in rows:
            print(f"  {mark} {row_text(row, notes)}")
        if not rows and mark != " ":
            print(f"  {mark} no row more")
    for kind, alignment in node.rest.items():
        print(f"  {kind}: {', '.join(counts(alignment))}")


def first_parting(nodes: Sequence[tuple[int, NodeDifference]]) -> Where:
    """Where the traces part first: at the earliest row that the other one does not have there."""
    return min(Where(row.cycle, number) for number, node in nodes for rows in node.behind for row in rows[:1])


def row_text(row: Row, notes: Notes) -> str:
    text = " ".join(map(str, row))
    event = events.event_of(f"{row.kind} {row.rest}")
    if event is None:
        return text
    notes.programs.compare(row.node, event)
    note = notes.of(row.node, event)
    return f"{text:<{COLUMN}} ; {note}" if note else text


def counts(alignment: Alignment) -> Iterator[str]:
    """What became of the rows of a kind, in words."""
    if alignment.unmoved:
        yield f"{alignment.unmoved:,} the same"
    if alignment.moved:
        yield f"{alignment.moved:,} the same but {shift_text(*alignment.shifts)}"
    for word, count, rows in (
        ("gone", alignment.gone_count, alignment.gone),
        ("new", alignment.new_count, alignment.new),
    ):
        if count:
            told = ", ".join(f"{row.rest} in {row.cycle}" for row in rows)
            yield f"{count:,} {word} ({told}{', ..' if count > len(rows) else ''})"


def shift_text(least: int, most: int) -> str:
    if least == most:
        return f"{abs(least):,} cycles {'later' if least > 0 else 'earlier'}"
    if least > 0:
        return f"{least:,} to {most:,} cycles later"
    if most < 0:
        return f"{-most:,} to {-least:,} cycles earlier"
    return f"{-least:,} cycles earlier to {most:,} later"


def kinds(text: str) -> set[str]:
    """The kinds of rows that a text such as serial,sent lists, for argparse."""
    found = set(text.split(","))
    if unknown := sorted(found - set(events.KINDS)):
        raise argparse.ArgumentTypeError(f"{unknown[0] or 'nothing'} is not a kind of row: {', '.join(events.KINDS)}")
    return found


def configure(parser: argparse.ArgumentParser) -> None:
    cli.describe(parser, DESCRIPTION, "diff -e relay.elf before.trace after.trace")
    cli.add_nodes(parser)
    parser.add_argument(
        "-k", "--kinds", type=kinds, default=set(events.KINDS), help="only these kinds of rows, such as serial,sent"
    )
    parser.add_argument(
        "--without-cycles", action="store_true", help="do not count a row as different if only its cycle is"
    )
    programs.add_programs(parser)
    parser.add_argument("first", metavar="A", help="a trace: a file, .gz too, or - for the standard input")
    parser.add_argument("second", metavar="B", help="the trace to compare it with")
