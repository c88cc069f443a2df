"""A page of one run, for a colleague, a reviewer, a build server."""
import argparse
import os
import time

import avrora_tools
from avrora_tools import cli, expectations, files, programs, terminal
from avrora_tools.errors import BadWords, Status
from avrora_tools.exports import coverage
from avrora_tools.reporting import gathering, run_report
from avrora_tools.reporting import findings as finding_pages
from avrora_tools.reporting.case_sections import Checked
from avrora_tools.reporting.gathering import Gathered, Wishes
from avrora_tools.scenarios import Scenario
from avrora_tools.sweeping.simulation import Simulator

SUMMARY = "a page of one run that a person reads"

DESCRIPTION = """Runs a scenario, and writes a page of HTML about the run that needs no other file and no network: what
was run (images with their SHA-256, links as a map, input), what came (sends, clashes, stops, lines to USART0), a
timeline to zoom into, how well each link does, duty cycle and current of each node, the functions that took the cycles
with a flame graph, coverage, variables over time (--watch), cases of `expect`, findings of a sweep, statistics of a campaign. Each part names the
command that gives it.

Cycles by function and coverage are of the whole run, by `avrora monitor`; call stacks are those of a window in which
instructions are traced: --stacks, else the scenario's, else the one in which nodes send and write most. The page shows
sources that lie beside a program, or below the folder --sources. It has at most 5 MB, and tells what it leaves out.

Status 0: all is well; 1: a case is not met, or a sample is not what the sends give; 2: bad words, or a file is refused;
3: a run failed or took too long."""


def configure(parser: argparse.ArgumentParser) -> None:
    cli.describe(
        parser,
        DESCRIPTION,
        "report -e packet.elf --currents currents.toml --expect packet.expect -o run.html packet.toml",
    )
    parser.add_argument("-o", "--out", default="-", metavar="FILE", help="where to write; else the standard output")
    parser.add_argument(
        "-e", "--elf", action="append", default=[], metavar="[NODES=]ELF",
        help="the ELF file of NODES such as 0,2-4, or of the nodes whose image has its name",
    )  # fmt: skip
    parser.add_argument("--force", action="store_true", help="take an ELF file that is not that of the node's image")
    parser.add_argument(
        "--trace", metavar="TRACE", help="take the rows from this trace, which `avrora run` wrote of the scenario"
    )
    parser.add_argument("--currents", metavar="CURRENTS", help="a table of currents, as `energy` takes it")
    parser.add_argument(
        "--always-listening", action="store_true", help="take each radio for selected all the time, as in `energy`"
    )
    parser.add_argument("--expect", action="append", default=[], metavar="CASE", help="check this case too; any number")
    parser.add_argument(
        "--findings", action="append", default=[], metavar="FILE", help="show these findings, which `sweep --findings` wrote"
    )
    parser.add_argument("--campaign", metavar="FILE", help="show the statistics of the results of this campaign")
    parser.add_argument("--adopt", action="store_true", help="believe results that another user or machine wrote")
    parser.add_argument(
        "--stacks", type=cli.window, metavar="A..B", help="the cycles of the flame graph, at most 20,000"
    )
    cli.add_watch(parser)
    parser.add_argument("--sources", metavar="FOLDER", help="show sources that lie below this folder")
    parser.add_argument("--lcov", metavar="FILE", help="with -e: write which lines ran, as a tracefile of lcov")
    parser.add_argument(
        "--no-sleep", action="store_true", help="do not show when nodes sleep; the search takes many short runs"
    )
    parser.add_argument("--hz", type=cli.positive, default=cli.CLOCK, help="cycles a second of the clock (%(default)s)")
    parser.add_argument(
        "--timeout", type=cli.positive, default=600, metavar="S", help="seconds that a run may take (%(default)s)"
    )
    cli.add_simulator(parser)
    parser.add_argument("scenario", metavar="SCENARIO")


def run(arguments: argparse.Namespace) -> int:
    path = arguments.scenario
    if arguments.trace == files.STANDARD_STREAM:
        raise BadWords("--trace is read more than once, so it cannot be the standard input")
    if arguments.lcov and not arguments.elf:
        raise BadWords("--lcov needs the program (-e)")
    cases = [expectations.read_case(case) for case in arguments.expect]
    searches = [finding_pages.load(name) for name in arguments.findings]
    program = cli.simulator(arguments.avrora)
    simulator = Simulator(program, os.path.dirname(os.path.abspath(path)), arguments.timeout)
    scenario = Scenario.load(path)
    all_programs = programs.Programs(arguments.elf, scenario, arguments.force)
    wishes = Wishes(
        arguments.trace,
        arguments.currents,
        arguments.always_listening,
        arguments.stacks,
        not arguments.no_sleep,
        arguments.watch,
    )
    found = gathering.gathered(path, simulator, all_programs, wishes)
    for case in cases:
        begun = time.monotonic()
        outcome = gathering.checked(case, found, arguments.trace, program)
        found.cases.append(Checked(case, outcome, time.monotonic() - begun))
    statistics = run_report.campaign_of(arguments.campaign, arguments.adopt) if arguments.campaign else None
    options = run_report.Options(
        arguments.hz, arguments.currents, arguments.sources, f"by avrora-tools {avrora_tools.__version__}"
    )
    text = run_report.page(found, searches, statistics, options)
    files.write_whole(arguments.out, text)
    if arguments.lcov:
        files.write_whole(
            arguments.lcov, "".join(f"{line}\n" for line in coverage.written(gathering.covered_by(found)))
        )
    tell(found, arguments.out, len(text.encode("utf-8", "surrogateescape")))
    return gathering.status_of(found)


def tell(found: Gathered, out: str, size: int) -> None:
    for one in found.cases:
        if one.outcome.failure:
            terminal.say(one.outcome.failure)
    if found.reader.faults:
        terminal.warn(f"{found.reader.faults:,} samples or sends are not as they should be")
    if out != files.STANDARD_STREAM and gathering.status_of(found) == Status.GOOD:
        print(f"{files.shown(out)}: {size:,} bytes")
