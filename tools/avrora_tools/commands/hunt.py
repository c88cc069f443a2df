"""Looks for what never happens in the lab: varies a scenario in the ways in which the field does, for so many
minutes."""
import argparse
import os
from dataclasses import dataclass

from avrora_tools import cases, cli, files, programs, scenarios, shipping
from avrora_tools.commands.sweep import document_of, folder_of, processors
from avrora_tools.errors import BadInput, BadWords, Status
from avrora_tools.hunting import kinds, telling
from avrora_tools.hunting.causes import Finding, Lines
from avrora_tools.hunting.changes import Document
from avrora_tools.hunting.corpus import Corpus, Known, Progress
from avrora_tools.hunting.handing import Handing, Sharings
from avrora_tools.hunting.hunt import Hunt, Means
from avrora_tools.hunting.oracles import Oracle
from avrora_tools.hunting.races import NAME as ARRIVALS
from avrora_tools.hunting.races import Races
from avrora_tools.hunting.said import LOOKED_AT
from avrora_tools.hunting.smaller import OracleOf
from avrora_tools.hunting.trails import Trails
from avrora_tools.hunting.trials import Runner, Scenes, processor_seconds, scenes
from avrora_tools.hunting.watching import Conditions, WatchingTails
from avrora_tools.sweeping.cluster import ClusterTails
from avrora_tools.sweeping.journal import digest
from avrora_tools.sweeping.limits import Limit
from avrora_tools.sweeping.simulation import ProcessTails, Simulator
from avrora_tools.sweeping.verdicts import CaseCheck, Compare, PredicateCheck, nodes_of, predicate_of

SUMMARY = "varies a scenario in all ways for some minutes, and tells what breaks it"

NAMES = (*kinds.NAMES, ARRIVALS)

DESCRIPTION = """Varies a scenario for some minutes and tells what breaks it, by cause, each with the smallest scenario
that still fails. It takes these kinds in turns, and more of a kind that finds something:
  starts     when nodes start: at once, staggered, drawn
  cuts       each packet of each link lost; a part of it; its repetitions too; an exchange both ways; all links of a
             node for a while
  inputs     bytes that arrive earlier, later and nearer to each other; with a check of yours also twice or not at all
  latencies  of links
  losses     links lost for good or open late, nodes silent or deaf
  pairs      two of these
  arrivals   a byte that arrives in each cycle in which main uses what the handler of USART0 RX also uses (-e)
Without a check of yours each node must write to USART0, by the scenario's end, what it writes by --until in the
unvaried run: in any order of lines, and nothing twice. It must not stop, nor fall silent if it sends all the time.
--expect, --check and --always are those of `sweep`; `run.moved` is empty.

The same seed makes the same variants in the same order; the minutes decide how many of them. FOLDER (SCENARIO's name
with .hunt) keeps a scenario for each cause, and what failed; the next hunt tries that first. docs/HUNTING.md leads
through one.

Status 0: nothing fails; 1: something does; 2: the words or the files are bad, or the unvaried scenario fails."""

MINUTES = 10
SLACK = 8  # a run goes on by this share behind the deadline, where the scenario ends with it


def run(arguments: argparse.Namespace) -> int:
    cli.one_check(arguments)
    if arguments.processor_minutes and arguments.scheduler:
        raise BadWords("--processor-minutes counts this machine only: with --scheduler give --minutes N")
    document, until = prepared_document(arguments)
    scenario = scenarios.Scenario.load(arguments.scenario)
    known = programs.Programs(arguments.elf, scenario, arguments.force) if arguments.elf else None
    corpus = Corpus(arguments.corpus or os.path.splitext(arguments.scenario)[0] + ".hunt")
    simulator = Simulator(cli.simulator(arguments.avrora), folder_of(arguments.scenario), arguments.timeout)
    scenes_ = scenes(document)
    conditions = conditions_of(arguments, scenario, known)
    with limit_of(arguments).by_signals() as limit, tails_of(arguments, simulator, scenes_, conditions) as tails:
        tails.is_over = limit.is_over
        oracle_of = oracle_maker(arguments, len(scenario.images))
        lines = Lines(tails, known)
        lines.know(document)
        sharings = Sharings(simulator)
        handing = Handing(simulator, sharings, lines.by_image.get)
        chosen = chosen_of(arguments.only)
        races = None
        if chosen is None or ARRIVALS in chosen:
            races = Races(simulator, document, until, known, sharings, arguments.jobs, limit, corpus.race, conditions)
        has_check = bool(arguments.expect or arguments.check or arguments.always)
        runner = Runner(tails, scenes_, oracle_of(len(scenario.images)).rows)
        means = Means(runner, oracle_of, has_check, races, lines, handing, Trails(lines), limit)
        hunt = Hunt(means, document, until, arguments.seed, chosen)
        if hunt.unmoved_failure:
            raise BadInput(f"the scenario fails as it is, with nothing varied: {hunt.unmoved_failure.text}")
        print_plan(hunt, corpus)
        corpus.clear()
        keeper = Keeper(corpus, os.path.dirname(arguments.scenario))
        progress = corpus.begin(arguments.seed, whose(document, until, simulator.folder))
        hunt.run(progress, corpus.known, arguments.rounds, keeper)
        telling.print_hunt(hunt, corpus, arguments.scenario, check_words(arguments, hunt))
        corpus.write(lasting=True)
    return Status.NOT_MET if hunt.findings else limit.status(Status.GOOD)


@dataclass(frozen=True)
class Keeper:
    """Keeps what a hunt finds at once: one that is killed has lost nothing of it."""

    corpus: Corpus
    folder: str  # of the images

    def say(self, text: str) -> None:
        print(text, flush=True)

    def found(self, number: int, finding: Finding) -> None:
        telling.write_finding(self.corpus.found(number), finding, self.corpus.seed, self.folder)

    def failed(self, known: Known) -> None:
        self.corpus.take(known)
        self.corpus.write()

    def came(self, progress: Progress) -> None:
        self.corpus.progress = progress
        self.corpus.write()


def whose(document: Document, until: int, folder: str) -> str:
    """A hash of the scenario, its images and the deadline."""
    images = sorted({node["image"] for node in document["node"]})
    contents = {name: files.read_bytes(os.path.join(folder, name)) for name in images}
    return digest({"scenario": document, "until": until, "images": digest(contents)})


def check_words(arguments: argparse.Namespace, hunt: Hunt) -> list[str]:
    """The words by which `sweep` checks its runs as this hunt does."""
    if words := cli.check_words(arguments):
        return words
    has_lines = any(b"\n" in text for text in hunt.reference.texts.values())
    return ["--compare", (Compare.LINES if has_lines else Compare.ANY_ORDER).value]


def limit_of(arguments: argparse.Namespace) -> Limit:
    """How long a hunt takes: by the clock, or of processors, which does not count how busy the machine is else."""
    if arguments.processor_minutes:
        return Limit(60.0 * arguments.processor_minutes, processor_seconds)
    return Limit(60.0 * arguments.minutes)


def print_plan(hunt: Hunt, corpus: Corpus) -> None:
    said = len(hunt.facts.bursts)
    nodes, cycles = len(hunt.document["node"]), int(hunt.document["cycles"])
    print(f"{nodes} nodes, {said:,} packets said where nothing varies; deadline {hunt.until:,}, ", end="")
    print(f"runs end at {cycles:,}; {files.shown(corpus.folder)} has {len(corpus.known.trials):,} trials", flush=True)


def prepared_document(arguments: argparse.Namespace) -> tuple[Document, int]:
    """The scenario as a hunt runs it, and the deadline."""
    document = document_of(arguments.scenario)
    cycles = document["cycles"]
    assert isinstance(cycles, int)
    until = arguments.until or cycles - cycles // SLACK
    if until > cycles:
        raise BadInput(f"the scenario ends in cycle {cycles:,}, before {until:,}")
    if not document.get("link") and not document.get("input"):
        raise BadInput("the scenario has no link and no input: nothing can be varied")
    return {**document, "version": 3, "cycles": max(cycles, until + until // SLACK), "window": [0, 0]}, until


def conditions_of(
    arguments: argparse.Namespace, scenario: scenarios.Scenario, known: programs.Programs | None
) -> Conditions | None:
    """What --always says."""
    if not arguments.always:
        return None
    return Conditions.of_words(arguments.always, scenario, known or programs.Programs([], scenario, False))


def tails_of(
    arguments: argparse.Namespace, simulator: Simulator, scenes_: Scenes, conditions: Conditions | None
) -> ProcessTails:
    """What makes the runs: processes of this machine, or the workers of a scheduler."""
    if conditions:
        return WatchingTails(simulator, scenes_, arguments.jobs, conditions)
    if not arguments.scheduler:
        return ProcessTails(simulator, scenes_, arguments.jobs)
    tails = ClusterTails(simulator, scenes_)
    try:
        kinds = () if arguments.expect or arguments.check else LOOKED_AT
        tails.connect(arguments.scheduler, shipping.program(arguments.avrora), kinds)
    except BaseException as fault:
        tails.__exit__(type(fault), fault, None)
        raise
    return tails


def oracle_maker(arguments: argparse.Namespace, count: int) -> OracleOf:
    user: CaseCheck | PredicateCheck | None = None
    if arguments.check:
        user = PredicateCheck(b"", predicate_of(arguments.check), [])
    if arguments.expect:
        user = CaseCheck(b"", cases.read_case(arguments.expect))
    chosen = nodes_of(count, arguments.nodes)

    def oracle_of(nodes: int) -> Oracle:
        return Oracle(chosen if nodes == count else range(nodes), user, bool(arguments.always))

    return oracle_of


def chosen_of(text: str | None) -> set[str] | None:
    if text is None:
        return None
    chosen = set(text.split(","))
    if wrong := chosen - set(NAMES):
        raise BadWords(f"--only {files.printable(','.join(sorted(wrong)))}: kinds are {', '.join(NAMES)}")
    return chosen


def configure(parser: argparse.ArgumentParser) -> None:
    cli.describe(parser, DESCRIPTION, "hunt gather.toml -e gather.elf --until 2_200_000 --minutes 10")
    parser.add_argument(
        "-e", "--elf", action="append", default=[], metavar="ELF", help="an ELF file, as ELF or NODES=ELF; repeat it"
    )
    parser.add_argument("--force", action="store_true", help="take an ELF file that is not that of the node's image")
    parser.add_argument(
        "--until", type=cli.positive, metavar="CYCLE", help="judge runs by what the unvaried run writes before CYCLE; they go on to the scenario's end"
    )
    cli.add_checks(parser)
    cli.add_nodes(parser)
    parser.add_argument("--minutes", type=cli.positive, default=MINUTES, metavar="N", help="for how many minutes (%(default)s)")
    parser.add_argument(
        "--processor-minutes", type=cli.positive, metavar="N", help="instead, for how many minutes of all processors together"
    )
    parser.add_argument("--rounds", type=cli.positive, metavar="N", help="end after N rounds over all kinds")
    parser.add_argument("--seed", type=cli.natural, default=1, metavar="N", help="the seed of what is drawn (%(default)s)")
    parser.add_argument("--only", metavar="KINDS", help=f"only these kinds, of {','.join(NAMES)}")
    parser.add_argument("--corpus", metavar="FOLDER", help="where scenarios and what failed are kept")
    parser.add_argument(
        "--jobs", type=cli.positive, default=processors(), metavar="N", help="runs at a time (%(default)s)"
    )
    parser.add_argument(
        "--scheduler",
        metavar="ADDRESS",
        help="run on the workers of a scheduler of dask, as tcp://HOST:8786; arrivals are swept on this machine",
    )
    parser.add_argument(
        "--timeout", type=cli.positive, default=300, metavar="S", help="seconds that a run may take (%(default)s)"
    )
    cli.add_simulator(parser)
    parser.add_argument("scenario", metavar="SCENARIO")
