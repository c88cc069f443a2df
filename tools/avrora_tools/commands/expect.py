"""Checks traces against cases: regression tests of firmware and networks."""
import argparse
import functools
import os
import shlex
import time
from collections.abc import Iterable, Iterator, Sequence
from typing import Any, NamedTuple

import avrora_tools
from avrora_tools import cli, expectations, files, processes, showing, terminal, traces
from avrora_tools.errors import BadWords, Status, ToolError
from avrora_tools.expectations import Case, Outcome
from avrora_tools.reporting import case_sections
from avrora_tools.reporting.case_sections import Checked
from avrora_tools.wholeness import Lacking

SUMMARY = "checks traces against cases: regression tests"

DESCRIPTION = """Checks traces against cases, and writes TAP 13. A case is a text file (tools/README.md has all of it):

  run relay.toml              the trace of `avrora run`; or: node IMAGE CYCLES; or: trace FILE
  only 0,1 sent serial stop   the nodes and kinds that are looked at; without this line all
  9000..9999 1 sent 72        rows in this order; parts: *, A..B, C+-D, {X,Y}, +A..B for cycles since the row before
  next 2: * 1 heard 1 *       at most 2 rows come before this one; `next` alone: none does
  never * * stop *            no such row between the row above and the one below
  count == 5: * 4 serial *    how many rows there are in all
  text 4 "relay"              what a node wrote to USART0 has this in it; also: matches "EXPRESSION", lines == 5
  within 0..40_000: text 4 "r"   before never, count and text, and what follows
  elf FILE                    the program whose variables are named below; or NODES=FILE
  always NODE CONDITION       in each cycle this holds of the node's variables: always 1 queued <= 3
  never NODE CONDITION        in no cycle
  reaches NODE CONDITION      in one cycle at least
  before 9000: always 1 ok    the same as within 0..8999
  golden relay.rows           all rows that are looked at are those of the file; `golden relay.rows without cycles`:
                              the same rows, whenever they come

Files are looked for in the case's folder. A trace must be whole, with an end row of each of its nodes.
The tool notices rows that were cut away at the front only if the window or a sample needs them (tools/README.md). It
refuses what no trace can meet, and what this trace cannot meet: a node that it does not have, cycles behind its end,
cycles for which the rows about them leave no room, instructions and entries outside of its window. It tells all that
is not met. Status 0: all cases are met; 1: one is not; 2: one is not a case, or there is no whole trace for it (a file
or scenario is not there, is refused, or is cut off); 3: the simulator failed or took too long."""


def configure(parser: argparse.ArgumentParser) -> None:
    cli.describe(parser, DESCRIPTION, "expect --junit report.xml tests/*.expect")
    cli.add_simulator(parser)
    parser.add_argument(
        "--trace", metavar="FILE", help="check this trace (-: the standard input) instead of the one that the case names"
    )
    parser.add_argument("--junit", metavar="FILE", help="write a report in JUnit's XML too (needs python3-junit.xml)")
    parser.add_argument("--html", metavar="FILE", help="write a page too: all cases, and what was not met")
    parser.add_argument("--save", action="store_true", help="write the golden files anew")
    parser.add_argument("--jobs", type=cli.positive, default=1, metavar="N", help="cases at once (%(default)s)")
    timeout = "that a case may take: its run, and its check"
    parser.add_argument("--timeout", type=cli.positive, metavar="S", help=timeout)
    parser.add_argument("case", nargs="+", metavar="CASE")


def run(arguments: argparse.Namespace) -> int:
    if arguments.trace == "-" and len(arguments.case) > 1:
        raise BadWords("--trace - is read once, so it serves one case")
    cases = [read(path, len(arguments.case) == 1) for path in arguments.case]
    avrora = None if arguments.trace else cli.simulator(arguments.avrora)
    junit_xml = junit_module() if arguments.junit else None
    print(f"TAP version 13\n1..{len(cases)}", flush=True)
    results = []
    for result in results_of(cases, arguments, avrora):
        results.append(result)
        tell(len(results), result)
    if arguments.junit:
        files.write_whole(arguments.junit, junit(results, junit_xml))
    if arguments.html:
        files.write_whole(arguments.html, page(results, arguments.case))
    return max(result.outcome.status for result in results)


class Read(NamedTuple):
    """A case, and why its file is none."""

    case: Case
    fault: ToolError | None = None


def read(path: str, is_alone: bool) -> Read:
    """The case in a file. Where it is none its outcome says so, and others are checked all the same; a file that is
    alone is refused."""
    try:
        return Read(expectations.read_case(path))
    except ToolError as fault:
        if is_alone:
            raise
        return Read(Case(path, os.path.dirname(path), None, None, None, []), fault)


def results_of(cases: list[Read], arguments: argparse.Namespace, avrora: str | None) -> Iterator[Checked]:
    """What came of the cases, in their order."""
    works = [functools.partial(checked, one, arguments, avrora) for one in cases]
    if arguments.jobs == 1 and not arguments.timeout:
        yield from (Checked(one.case, *work()) for one, work in zip(cases, works))
        return
    tasks = processes.in_order(works, arguments.jobs, arguments.timeout, expectations.RUNS.end_all)
    for (case, _), task in zip(cases, tasks):
        try:
            outcome, seconds = task.answer()
        except processes.Late:
            seconds = float(arguments.timeout)
            failure = f"{files.shown(case.path)}: it took more than {arguments.timeout} seconds"
            outcome = Outcome(failure, 0, len(case.statements), Status.CANNOT_WORK)
        yield Checked(case, outcome, seconds)


def checked(one: Read, arguments: argparse.Namespace, avrora: str | None) -> tuple[Outcome, float]:
    """What came of a case, and the seconds that it took."""
    start = time.monotonic()
    case = one.case
    try:
        if one.fault:
            raise one.fault
        if arguments.trace:
            name = files.shown(arguments.trace)
            blocks = traces.file_blocks(arguments.trace)
            outcome = expectations.check(case, blocks, arguments.save, name, lacking=Lacking())
        else:
            outcome = expectations.run_case(case, avrora or "", arguments.save)
    except ToolError as fault:
        outcome = Outcome(str(fault), 0, len(case.statements), fault.status)
    return outcome, time.monotonic() - start


def tap_name(name: str) -> str:
    """A name in a line of TAP, where a # begins a directive: one of TODO or SKIP would excuse a failure."""
    return name.replace("#", r"\x23")


def tell(number: int, result: Checked) -> None:
    name, outcome = tap_name(files.shown(result.case.path)), result.outcome
    if not outcome.failure:
        print(f"ok {number} - {name} # {outcome.rows} rows, {outcome.expectations} expectations", flush=True)
        return
    print(f"not ok {number} - {name}\n  ---\n  message: |")
    for line in showing.printable_lines(outcome.failure).split("\n"):
        print(f"    {line}")
    print("  ...", flush=True)


def page(results: Sequence[Checked], names: Sequence[str]) -> str:
    """The page of all cases."""
    command = shlex.join(["avrora-tools", "expect", *map(files.shown, names)])
    return case_sections.page(results, command, f"by avrora-tools {avrora_tools.__version__}")


def junit_module() -> Any:
    """The library that writes JUnit's XML. Raises CannotWork where it is missing."""
    try:
        import junit_xml
    except ImportError:
        raise terminal.missing("junit-xml", "python3-junit.xml") from None
    return junit_xml


def junit(results: Iterable[Checked], junit_xml: Any) -> str:
    """The report of all cases for a server of builds: what is not met is a failure, what could not be checked an
    error."""
    found = []
    for result in results:
        name, failure = files.shown(result.case.path), showing.printable_lines(result.outcome.failure or "")
        one = junit_xml.TestCase(name, classname="avrora", elapsed_sec=round(result.seconds, 3))
        if failure:
            add = one.add_failure_info if result.outcome.status == Status.NOT_MET else one.add_error_info
            add(message=failure.split("\n")[0], output=failure)
        found.append(one)
    text: str = junit_xml.to_xml_report_string([junit_xml.TestSuite("avrora", found)])
    return text
