"""Runs a list or a grid of scenarios on all processors of this machine, or on a cluster."""
import argparse
import contextlib
import os
import re
import shlex
import signal
import sys
from collections.abc import Callable, Iterator, Sequence
from types import FrameType

import avrora_tools
from avrora_tools import campaigns, cli, coverage, files, reports, results, runs, shipping, sittings, stored
from avrora_tools import terminal, watching
from avrora_tools.campaigns import Campaign, Shard
from avrora_tools.errors import BadInput, BadWords, Status
from avrora_tools.reporting import campaign_sections

SUMMARY = "many runs, and what came of them"

DESCRIPTION = """Runs all scenarios of a campaign, and checks their traces against cases of `expect`.
FILE is TOML (CAMPAIGNS.md has all of it):

  [[run]]
  scenario = "packet.toml"
  expect = "packet.expect"
  [run.vary]
  latency = [50, 100, 200, 400]
  "input.2.at" = { from = 2_000, to = 50_000, step = 2_000 }

The outcome of each run is a row of NAME.results/results.sqlite. If a campaign was interrupted, the same words go on
where it was. A run that came to no answer (its worker died, it took too long) is tried again, `attempts` times in all.
A run that does not pass is made again on another worker before it is reported.
Status 0: all runs passed; 1: one failed or was refused; 2: FILE is not a campaign; 3: none failed, but one came to no
answer, or the campaign cannot go on."""

def place_of(campaign: Campaign, shard: Shard, named: str | None) -> str | tuple[str, str]:
    """Where a campaign's results are: a folder that the user named, or one below the campaign's. A shard has its own in
    it."""
    part = "" if shard.count == 1 else f"shard-{shard.number}-of-{shard.count}"
    if named:
        return os.path.join(named, part) if part else named
    name = campaign.settings["results"] or f"{campaign.name}.results"
    return os.path.dirname(campaign.path), os.path.join(name, part) if part else name


def path_of(place: str | tuple[str, str]) -> str:
    return place if isinstance(place, str) else os.path.join(*place)


@contextlib.contextmanager
def opened_store(campaign: Campaign, arguments: argparse.Namespace) -> Iterator[results.Store]:
    """The results of a campaign, for it alone."""
    place = place_of(campaign, arguments.shard, arguments.results)
    with contextlib.ExitStack() as stack:
        folder = stack.enter_context(results.opened_folder(place, make=True))
        stack.enter_context(results.reported(folder.path_of(results.FILE)))
        stack.enter_context(results.locked(folder))
        yield stack.enter_context(contextlib.closing(results.Store(folder, arguments.anew, arguments.adopt)))


def run_all(campaign: Campaign, words: sittings.Words, arguments: argparse.Namespace) -> int:
    """Runs what has no result yet, and tells what came of all runs."""
    simulator = shipping.program(arguments.avrora)
    with opened_store(campaign, arguments) as store, watching.logging_to(store.folder.descriptor) as log:
        sitting = sittings.Sitting(campaign, words, simulator, store, log)
        sitting.progress.note(
            f"a sitting begins: {campaign.name}, {len(sitting.numbers)} runs, program {sitting.identity.program[:16]}, "
            f"checker {sitting.identity.checker[:16]}, {arguments.scheduler or 'this machine'}"
        )
        sittings.warn_of_results(sitting)
        sittings.run_wanted(sitting, simulator)
        for line in store.trust.told():
            sitting.progress.say(f"{line}; these runs were made again")
        store.drop_unbelieved()
        report = reports.Report([store.database])
        reports.write_summaries(report, store.folder)
        if arguments.html:
            write_page(report, arguments)
        report.print_table(sys.stdout, store.folder.path_of("summary.txt"))
        status = status_of(report)
        sitting.progress.note(f"the sitting ends with status {int(status)}: {report.closing_line()}")
    return status


def status_of(report: reports.Report) -> Status:
    """The status by what came of the runs: a check that is not met is told before a run that came to no answer, or has
    none yet, which says nothing of the firmware."""
    outcomes = report.outcomes()
    if outcomes[runs.FAILED] or outcomes[runs.REFUSED]:
        return Status.NOT_MET
    return Status.GOOD if outcomes[runs.PASSED] == report.total() else Status.CANNOT_WORK


def end_as_by_interrupt() -> None:
    """From here on SIGTERM ends this process as ^C does, behind all that it started."""

    def end(_number: int, _frame: FrameType | None) -> None:
        signal.signal(signal.SIGINT, signal.default_int_handler)  # which a shell's `&` has ignored
        os.kill(os.getpid(), signal.SIGINT)

    signal.signal(signal.SIGTERM, end)


def report_on(arguments: argparse.Namespace) -> int:
    """Tells what is there of campaigns, or of files of results, also while they run."""
    with contextlib.ExitStack() as stack:
        campaign, paths = files_of(arguments)
        readings = [stack.enter_context(results.reading(path, arguments.adopt, terminal.say)) for path in paths]
        covered = coverage.covered(readings, arguments.shard.count > 1)
        coverage.tell_versions(covered, readings, campaign, sittings.program_known(arguments.avrora))
        databases = [reading.database for reading in readings]
        report = reports.Report(databases, arguments.by, arguments.reverse, arguments.top)
        write_report(report, arguments)
        if arguments.html:
            write_page(report, arguments, covered.told)
        for line in covered.told:
            terminal.say(line)
        status = status_of(report)
        if status == Status.GOOD and not covered.is_whole:
            status = Status.CANNOT_WORK
    return status


def write_report(report: reports.Report, arguments: argparse.Namespace) -> None:
    written: list[tuple[str | None, Callable[..., None]]] = [
        (arguments.json, report.write_lines),
        (arguments.junit, report.write_junit),
    ]
    for path, write in written:
        if path == files.STANDARD_STREAM:
            write(sys.stdout)
        elif path:
            with files.whole_file(path) as file:
                write(file)
    if arguments.parquet:
        report.write_parquet(arguments.parquet)
    if not (arguments.json or arguments.junit or arguments.parquet):
        report.print_table(sys.stdout, None)


def write_page(report: reports.Report, arguments: argparse.Namespace, told: Sequence[str] = ()) -> None:
    """The page of all results."""
    command = shlex.join(["avrora-tools", "campaign", "--report", *map(files.shown, arguments.campaign)])
    found = campaign_sections.statistics(reports.Report(report.databases))
    text = campaign_sections.page(found, command, told, f"by avrora-tools {avrora_tools.__version__}")
    files.write_whole(arguments.html, text)


def files_of(arguments: argparse.Namespace) -> tuple[Campaign | None, list[str]]:
    """The campaign that the words name, if any, and the files of results that they mean."""
    campaign, paths = None, []
    for path in arguments.campaign:
        if is_results(path):
            paths.append(path)
        elif campaign is not None:
            raise BadWords("one campaign at a time; --report takes several files of results")
        else:
            campaign = campaigns.read(path)
            place = path_of(place_of(campaign, arguments.shard, arguments.results))
            whole = os.path.join(place, results.FILE)
            parts = [] if os.path.lexists(whole) or arguments.shard.count > 1 else coverage.shards_in(place)
            paths += parts or [whole]
    return campaign, paths


def is_results(path: str) -> bool:
    """Whether a file is one of results, and not a campaign."""
    with files.opened_named(path) as file, files.readable(path):
        return file.read(len(stored.SQLITE_MAGIC)) == stored.SQLITE_MAGIC


def merge(arguments: argparse.Namespace) -> int:
    """Takes the results of the campaign's parts over into its own, and tells what is there."""
    if is_results(arguments.campaign[0]):
        raise BadWords("--merge takes the campaign first, and then files of results that are elsewhere")
    campaign = campaigns.read(arguments.campaign[0])
    place = path_of(place_of(campaign, Shard(), arguments.results))
    paths = arguments.campaign[1:] or coverage.shards_in(place)
    if not paths:
        raise BadInput(f"{files.shown(place)}: there are no results of parts")
    with opened_store(campaign, arguments) as store:
        store.arrange(sittings.about_of(campaign, Shard())["signature"], campaign.runs())
        count, told = coverage.merge(campaign, store, paths, arguments.adopt, terminal.say)
        store.note(**coverage.about_whole(campaign, store, paths))
        report = reports.Report([store.database])
        reports.write_summaries(report, store.folder)
        terminal.say(f"{count:,} results of {len(paths):,} files are taken over")
        if sum(report.outcomes().values()) < campaign.count:
            for line in told:
                terminal.say(line)
        report.print_table(sys.stdout, store.folder.path_of("summary.txt"))
        return status_of(report)


def run(arguments: argparse.Namespace) -> int:
    check_words(arguments)
    if arguments.report:
        return report_on(arguments)
    if arguments.merge:
        return merge(arguments)
    if len(arguments.campaign) > 1:
        raise BadWords("one campaign at a time; --report and --merge take several files of results")
    campaign = campaigns.read(arguments.campaign[0])
    if arguments.list:
        for one in campaign.runs(arguments.shard):
            print(files.printable(one.name))
        return Status.GOOD
    campaign.demand_draws(arguments.run_code)
    if arguments.scenario:
        return write_one(campaign, arguments)
    campaign.demand_checks(arguments.run_code)
    campaign.demand_conditions()
    words = sittings.Words(
        arguments.shard,
        arguments.order,
        arguments.stop_after,
        arguments.scheduler,
        arguments.jobs,
        arguments.counts,
        arguments.drop,
    )
    end_as_by_interrupt()
    if arguments.dry_run:
        sittings.tell_cost(campaign, words, shipping.program(arguments.avrora))
        return Status.GOOD
    return run_all(campaign, words, arguments)


def check_words(arguments: argparse.Namespace) -> None:
    """Raises BadWords where words stand together that do not go together."""
    if arguments.images and not arguments.scenario:
        raise BadWords("--images goes with --scenario")
    for word in ("by", "top", "reverse", "json", "junit", "parquet"):
        if getattr(arguments, word) and not arguments.report:
            raise BadWords(f"--{word} goes with --report")
    for word in ("dry_run", "merge", "list", "scenario"):
        if getattr(arguments, word) and arguments.html:
            raise BadWords(f"--html shows results: it does not go with --{word.replace('_', '-')}")
    for word in ("dry_run", "report", "merge", "list", "scenario"):
        if getattr(arguments, word) and (arguments.stop_after or arguments.counts or arguments.drop or arguments.anew):
            word = word.replace("_", "-")
            raise BadWords(f"--{word} runs no campaign, so --anew, --drop, --stop-after and --counts do nothing")


def write_one(campaign: Campaign, arguments: argparse.Namespace) -> int:
    """Writes the scenario of one run, and its images."""
    one = campaign.called(arguments.scenario)
    if one is None:
        name = files.printable(arguments.scenario)
        path = files.printable(campaign.path)
        raise BadInput(f"{path}: no run is called {name}; --list tells all names")
    print(one.scenario(), end="")
    if arguments.images:
        results.write_images(arguments.images, one.images())
    elif one.images():
        terminal.warn("its images were drawn for it; --images FOLDER writes them")
    return Status.GOOD


def shard(text: str) -> Shard:
    """The part I of N, for argparse."""
    match = re.fullmatch("([1-9][0-9]{0,5})/([1-9][0-9]{0,5})", text)
    if not match or int(match[1]) > int(match[2]):
        raise argparse.ArgumentTypeError(f"{text} is not a part I/N, as 1/4 to 4/4 are")
    return Shard(int(match[1]), int(match[2]))


def configure(parser: argparse.ArgumentParser) -> None:
    cli.describe(parser, DESCRIPTION, "campaign --jobs 2 examples/packet.campaign")
    cli.add_simulator(parser)
    parser.add_argument(
        "--scheduler", metavar="ADDRESS", help="run on the workers of a scheduler of dask, as tcp://HOST:8786"
    )
    parser.add_argument(
        "--jobs", type=cli.positive, metavar="N", help="runs at a time on this machine; else one for each processor"
    )
    parser.add_argument(
        "--run-code", action="store_true", help="run the Python files that `draw` and `check` name in FILE"
    )
    parser.add_argument("--results", metavar="FOLDER", help="where results go, whatever FILE says")
    parser.add_argument("--anew", action="store_true", help="run all again, also those that have a result")
    parser.add_argument(
        "--shard", type=shard, default=Shard(), metavar="I/N",
        help="each Nth run from the Ith on, with results of its own",
    )
    parser.add_argument(
        "--order", choices=sittings.ORDERS, default="file",
        help="the order of runs: as in FILE, or drawn, so that each part is a sample of all",
    )
    parser.add_argument("--stop-after", type=cli.positive, metavar="N", help="end once N runs are failed or refused")
    parser.add_argument(
        "--dry-run", action="store_true", help="make 50 random runs, keep nothing, and tell what all runs will cost"
    )
    parser.add_argument("--drop", action="store_true", help="drop results of runs that are no longer in the campaign")
    parser.add_argument("--adopt", action="store_true", help="believe results that another user or machine wrote")
    parser.add_argument(
        "--counts", metavar="FILE", help="write the workers' counts to FILE too, for Prometheus' node exporter"
    )
    parser.add_argument(
        "--merge", action="store_true", help="add the results of parts (--shard) to those of FILE"
    )
    parser.add_argument("--list", action="store_true", help="write the names of all runs, and run none")
    parser.add_argument("--scenario", metavar="NAME", help="write the scenario of the run NAME, and run none")
    parser.add_argument("--images", metavar="FOLDER", help="with --scenario: write the images that only this run has")
    parser.add_argument(
        "--report", action="store_true", help="tell the results so far, also while the campaign is at work, and run none"
    )
    parser.add_argument(
        "--by", metavar="COLUMN", help="with --report: sort by a column or parameter, the highest first"
    )
    parser.add_argument("--reverse", action="store_true", help="with --by: the lowest first")
    parser.add_argument("--top", type=cli.positive, metavar="N", help="with --report: only the first N")
    for word, what in (("json", "lines of JSON"), ("junit", "a JUnit report"), ("parquet", "a table by pyarrow")):
        parser.add_argument(f"--{word}", metavar="FILE", help=f"with --report: {what} instead of the table")
    parser.add_argument("--html", metavar="FILE", help="write a page too: the outcomes of runs by each parameter")
    parser.add_argument("campaign", nargs="+", metavar="FILE", help="a campaign; with --report also files of results")
