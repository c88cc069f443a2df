"""Where the cycles of a window went: by function, by source line, by caller."""
import argparse
import collections
import itertools
from collections.abc import Mapping

from avrora_tools import cli, files, programs, profiles, traces
from avrora_tools.errors import BadInput, BadWords
from avrora_tools.profiles import Call, Namer, Names, Spent
from avrora_tools.scenarios import Scenario

SUMMARY = "cycles by function, line and caller; coverage"

DESCRIPTION = """Tells where the cycles of the window went: reads a trace with its end rows, also one of `avrora resume`
and of the tool window, or with --head the beginning of one; or what `avrora monitor` writes, with its scenario (-s),
which tells whether it is whole. A row's cycles are those up to the node's next row. A node is asleep from the end of
its SLEEP until an interrupt wakes it. The window is that of --window or of the scenario (-s), as far as the trace
goes. Without these, or if the trace has another window than the scenario's (as the tool window makes it), it goes
from the first instruction or entry row to the last, or to the trace's end. Charge is in units: 8 for each busy cycle, 1 for each
asleep, 512 for each byte sent in the window."""

def print_nodes(spent: Mapping[int, Spent]) -> None:
    print(f"{'node':>5} {'busy':>12} {'asleep':>12} {'stopped':>12} {'unknown':>8} {'charge':>14}")
    for node in sorted(spent):
        one = spent[node]
        print(f"{node:>5} {one.busy():>12,} {one.asleep:>12,} {one.stopped:>12,} {one.lead:>8,} {one.charge:>14,}")


def print_flat(title: str, spent: Mapping[int, Spent], name_of: Namer) -> None:
    """Cycles by name, most first; `name_of(node, word)` names what an instruction belongs to."""
    total = sum(one.total() for one in spent.values())
    print(f"\n{title}\n{'cycles':>12} {'%':>6} {'rows':>10}")
    for taken, count, name in profiles.by_name(spent, name_of):
        print(f"{taken:>12,} {100 * taken / total:>6.2f} {'' if count is None else count:>10}  {name}")


INTERRUPT = "(interrupt)"  # what calls the handler that has its name


def print_callers(calls: Mapping[Call, int], names: Names) -> None:
    by_name: collections.Counter[tuple[str, str]] = collections.Counter()
    for (node, caller, callee), count in calls.items():
        if names.is_room(node, caller, callee):
            continue
        called = names.function(node, callee)
        by = names.function(node, caller) if isinstance(caller, int) else INTERRUPT if caller == called else caller
        by_name[by, called] += count
    print(f"\ncalls\n{'calls':>12}")
    for (by, called), count in sorted(by_name.items(), key=lambda item: (-item[1], item[0])):
        print(f"{count:>12,}  {by} > {called}")


def print_coverage(spent: Mapping[int, Spent], all_programs: programs.Programs) -> None:
    for program in all_programs.all:
        print(f"\ninstructions of {program.name} that ran\n{'ran':>7} {'of':>6} {'%':>5}")
        for function, ran, of in profiles.covered(spent, all_programs, program):
            print(f"{ran:>7} {of:>6} {100 * ran / max(1, of):>5.0f}  {function.name}")


def configure(parser: argparse.ArgumentParser) -> None:
    cli.describe(parser, DESCRIPTION, "profile --callers -s relay.toml -e relay.elf relay.trace")
    programs.add_programs(parser)
    cli.add_nodes(parser)
    parser.add_argument(
        "--window",
        type=cli.window,
        metavar="A..B",
        help="the cycles that are counted; of a monitor's report its FROM and TO",
    )
    parser.add_argument("--by-node", action="store_true", help="a table for each node too")
    parser.add_argument("--lines", action="store_true", help="by source line too")
    parser.add_argument("--callers", action="store_true", help="who called whom too")
    parser.add_argument("--coverage", action="store_true", help="how many instructions of each function ran, too")
    cli.add_head(parser)
    cli.add_trace(parser)


def run(arguments: argparse.Namespace) -> int:
    scenario = Scenario.load(arguments.scenario) if arguments.scenario else None
    all_programs = programs.Programs(arguments.elf, scenario, arguments.force)
    if arguments.coverage and not all_programs.all:
        raise BadWords("--coverage needs the program (-e)")
    spent, calls = read(arguments, scenario, all_programs)
    spent = {node: one for node, one in spent.items() if arguments.nodes is None or node in arguments.nodes}
    if not spent:
        raise BadInput("the trace has no row of these nodes")
    if arguments.callers and calls is None:
        raise BadWords("--callers needs a trace: a monitor's report has no calls")
    names = Names(all_programs)
    print_nodes(spent)
    print_flat("all nodes", spent, names.function)
    for node in sorted(spent) if arguments.by_node else ():
        print_flat(f"node {node}", {node: spent[node]}, names.function)
    if arguments.lines:
        print_flat("by source line", spent, names.line)
    if arguments.callers and calls is not None:
        print_callers({key: count for key, count in calls.items() if key[0] in spent}, names)
    if arguments.coverage:
        print_coverage(spent, all_programs)
    return 0


def read(
    arguments: argparse.Namespace, scenario: Scenario | None, all_programs: programs.Programs
) -> tuple[Mapping[int, Spent], Mapping[Call, int] | None]:
    """What each node spent, and the calls where a trace tells them."""
    name = files.shown(arguments.trace)
    blocks = traces.file_blocks(arguments.trace)
    first = next(blocks, b"")
    blocks = itertools.chain([first], blocks)
    if profiles.is_monitor(first):
        if scenario is None:
            raise BadWords(f"{name} is what a monitor wrote: its scenario (-s) tells whether it is whole")
        return profiles.MonitorReader(name, scenario, arguments.window).read(profiles.text_lines(blocks, name)), None
    trace = traces.Trace(blocks, name, traces.form_of(arguments), scenario=scenario, epochs=arguments.head)
    reader = profiles.read_trace(trace, arguments.window, scenario, all_programs)
    return reader.spent, reader.calls
