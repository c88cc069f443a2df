"""Draws a trace: a page to zoom into, or a picture."""
import argparse
import os

from avrora_tools import cli, files, pictures, programs, traces
from avrora_tools.drawings import Drawing
from avrora_tools.errors import BadInput, BadWords
from avrora_tools.observing import tracks
from avrora_tools.observing.running import Network, Run
from avrora_tools.reporting import resting, timelines
from avrora_tools.scenarios import Scenario
from avrora_tools.sweeping.simulation import Simulator

SUMMARY = "a page to zoom into, or a picture"

DESCRIPTION = """Draws a trace: nodes from top to bottom, cycles from left to right. Writes a page of HTML that needs no
other file (zoom with the wheel, drag, click for more, go to a cycle, from clash to clash, measure between two
markers), or with --svg a picture for papers. With the scenario (-s) it knows how long a byte is on the air, and who
clashed with whom. Exactly when a node sleeps is known only in the window of the scenario, where instructions are
traced; with --sleep the simulator's `monitor` tells which part of each span of the run it slept. With programs (-e) a
chosen event tells its source line, in the window. A page above 5 MB leaves events out, and says so: it keeps one of
several that lie close together, first of samples, then of other events, last of clashes. --from, --to and --nodes draw
less, and all of it. It takes a trace with its end rows, also one of `avrora resume` and of the tool window, or with
--head the beginning of one.

With --watch, -s and -e, variables and registers have tracks of their own below their node, by their names. Enumerations
have the names of their values; a number is drawn as high as it is great. The simulator runs once more for them."""

def configure(parser: argparse.ArgumentParser) -> None:
    cli.describe(parser, DESCRIPTION, "timeline -s flood.toml -o flood.html flood.trace")
    programs.add_programs(parser)
    parser.add_argument("-o", "--out", default="-", metavar="FILE", help="where to write; else the standard output")
    parser.add_argument("--from", dest="first", type=cli.natural, default=0, metavar="CYCLE", help="from this cycle on")
    parser.add_argument("--to", dest="end", type=cli.positive, metavar="CYCLE", help="before this cycle")
    cli.add_nodes(parser)
    cli.add_watch(parser)
    parser.add_argument("--svg", action="store_true", help="write a picture instead of a page, as --out FILE.svg does")
    parser.add_argument(
        "--width", type=cli.positive, default=1200, help="the width of the picture, in pixels (%(default)s)"
    )
    parser.add_argument(
        "--quiet",
        action="store_true",
        help="show samples that heard nothing in the picture too (the page has a switch)",
    )
    parser.add_argument(
        "--sleep", action="store_true", help="run `avrora monitor`, and show sleep in the whole run (-s)"
    )
    cli.add_simulator(parser)
    parser.add_argument(
        "--timeout", type=cli.positive, default=600, metavar="S", help="seconds that a run may take (%(default)s)"
    )
    cli.add_clock(parser)
    cli.add_head(parser)
    cli.add_trace(parser)


def run(arguments: argparse.Namespace) -> int:
    if arguments.end is not None and arguments.end <= arguments.first:
        raise BadWords(f"--from {arguments.first} --to {arguments.end}: the end is not behind the beginning")
    name = arguments.out.lower()
    is_picture = arguments.svg or name.endswith(".svg")
    if is_picture and name.endswith((".html", ".htm")):
        raise BadWords(f"--svg writes a picture, and {files.shown(arguments.out)} is the name of a page")
    if arguments.sleep and not arguments.scenario:
        raise BadWords("--sleep needs the scenario (-s), which it runs")
    if arguments.watch and not arguments.scenario:
        raise BadWords("--watch runs the scenario once more: name it (-s)")
    scenario = Scenario.load(arguments.scenario) if arguments.scenario else None
    all_programs = programs.Programs(arguments.elf, scenario, arguments.force)
    trace = traces.read(arguments.trace, traces.form_of(arguments), scenario=scenario, epochs=arguments.head)
    drawing = Drawing.of(trace, arguments.first, arguments.end, arguments.nodes, all_programs)
    if not drawing.lanes:
        raise BadInput("the trace has no row of these nodes")
    if arguments.sleep and scenario:
        path = os.path.abspath(arguments.scenario)
        simulator = Simulator(cli.simulator(arguments.avrora), os.path.dirname(path), arguments.timeout)
        whole = resting.monitored(simulator, path, scenario, 0, scenario.cycles)
        resting.add_to(drawing, simulator, path, scenario, whole)
    if arguments.watch and scenario:
        run_again = Run.of(cli.simulator(arguments.avrora), arguments.scenario, scenario.cycles)
        tracks.add_to(drawing, run_again, Network(scenario, all_programs), arguments.watch)
    if is_picture:
        text = pictures.Picture(drawing, arguments.hz, arguments.width, arguments.quiet).text()
    else:
        names = timelines.Names(arguments.scenario, arguments.trace, arguments.elf)
        text = timelines.page(drawing, arguments.hz, os.path.basename(files.shown(arguments.trace)), names)
    files.write_whole(arguments.out, text)
    return 0
