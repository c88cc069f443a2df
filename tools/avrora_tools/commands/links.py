"""Who heard whom: what became of each send on each link, and whether each sample is what the sends give."""
import argparse

from avrora_tools import cli, files, maps, scenarios, terminal, traces
from avrora_tools.errors import BadInput, Status
from avrora_tools.events import CLASH, NOTHING, ONE_BYTE
from avrora_tools.fates import FATES, Reader
from avrora_tools.scenarios import Scenario
from avrora_tools.states import EPOCH, State
from avrora_tools.wholeness import Lacking

SUMMARY = "who heard whom, who clashed with whom; checks each sample"

DESCRIPTION = """Tells what became of the bytes on each link of a scenario:
  sent     by the node where the link begins
  closed   sent while the link was not open
  clean    heard alone by at least one sample
  clashed  heard by samples, but never alone
  unheard  heard by no sample
It also tells what the samples of each node heard. It checks each sample against the sends of the trace, by the rules
of docs/AIR.md with the scenario's latencies and spans, and checks that each node sends a byte at a time. The trace
must be whole, with an end row of each node of the scenario. With --state it is what `avrora resume` wrote from that
state, which knows what was on the air. The tool notices rows that were cut away at the front only if the window or a
sample needs them.
Status 0: all samples are as they should be; 1: one is not; 2: no scenario, no whole trace of
it, or a trace without any sample to check."""


def print_links(reader: Reader, losses: bool) -> None:
    print(f"{'link':>8} " + " ".join(f"{fate:>8}" for fate in FATES) + "   clean of sent")
    counts = reader.fates.counts
    for ends in sorted((link.sender, link.hearer) for link in reader.scenario.links):
        sent, clean = counts[ends, "sent"], counts[ends, "clean"]
        if not sent or losses and sent == clean:
            continue
        numbers = " ".join(f"{counts[ends, fate]:>8,}" for fate in FATES)
        print(f"{ends[0]:>2} to {ends[1]:>2} {numbers}   {100 * clean / sent:12.1f}%")


def print_nodes(reader: Reader) -> None:
    print(f"\n{'node':>8} {'sent':>8} {'samples':>8} {'nothing':>8} {'a byte':>8} {'a clash':>8}")
    for node in range(len(reader.scenario.images)):
        heard = [reader.samples[node, status] for status in (NOTHING, ONE_BYTE, CLASH)]
        print(f"{node:>8} {reader.sends[node]:>8,} {sum(heard):>8,} " + " ".join(f"{number:>8,}" for number in heard))


def draw_map(arguments: argparse.Namespace, reader: Reader) -> None:
    """Draws the network, and tells what is odd about who hears whom."""
    links = reader.qualities()
    count = len(reader.scenario.images)
    if arguments.places:
        places = maps.places_of(files.read_text(arguments.places), files.shown(arguments.places), count)
    else:
        places = maps.placed(count, links)
    files.write_whole(arguments.map, maps.drawn(places, links))
    if odd := maps.oddities(count, list(links)):
        print("\n" + "\n".join(odd))


def configure(parser: argparse.ArgumentParser) -> None:
    cli.describe(parser, DESCRIPTION, "links --clashes flood.toml flood.trace")
    parser.add_argument("--clashes", action="store_true", help="tell each clash, with the sends that clashed")
    parser.add_argument("--losses", action="store_true", help="links alone that lost a byte")
    parser.add_argument("--map", metavar="FILE", help="draw the network, with the quality of each link, as SVG")
    parser.add_argument(
        "--places", metavar="FILE", help="where the map has the nodes: a TOML file of lines NODE = [x, y]"
    )
    parser.add_argument("--state", metavar="STATE", help="the state from which `avrora resume` wrote the trace")
    parser.add_argument("scenario", metavar="SCENARIO")
    cli.add_trace(parser)


def run(arguments: argparse.Namespace) -> int:
    scenario = Scenario.load(arguments.scenario)
    state = State.load(arguments.state) if arguments.state else None
    if state and len(state.nodes) != len(scenario.images):
        raise BadInput(
            f"{files.shown(arguments.state)}: {len(state.nodes)} nodes, but the scenario has {len(scenario.images)}"
        )
    form = traces.Form.ENDED if state else traces.Form.WHOLE
    # That a node sends too early is told here, and no reason to refuse the trace.
    lacking = None if state else Lacking(scenario.window, looks_at_samples=False)  # samples are looked at below
    trace = traces.read(
        arguments.trace, form, scenario=scenario, state=state, least_gap=scenarios.BYTE_TIME.start, lacking=lacking
    )
    reader = Reader(scenario, state, arguments.clashes)
    reader.read(trace)
    print_links(reader, arguments.losses)
    print_nodes(reader)
    if arguments.map:
        draw_map(arguments, reader)
    if not state and (trace.first_row or 0) >= EPOCH:
        terminal.warn(
            f"{trace.name}: its first row is of cycle {trace.first_row:,}: if `avrora resume` wrote it, name the state "
            "(--state), without which what was sent before is not known"
        )
    total, sends = sum(reader.samples.values()), sum(reader.sends.values())
    if not total and not reader.faults:
        raise BadInput(f"{trace.name}: no node samples the air, so nothing tells whether what they hear is right")
    if reader.faults:
        print(f"\n{reader.faults:,} of {total:,} samples and {sends:,} sends are not as they should be")
        return Status.NOT_MET
    print(f"\neach of {total:,} samples is what the sends give")
    return Status.GOOD
