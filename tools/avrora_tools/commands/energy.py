"""Charge and duty cycle of each node, by what `avrora monitor` wrote and a table of currents."""
import argparse
import os

from avrora_tools import cli, files, profiles, scenarios, toml, traces
from avrora_tools.budgets import (
    HOURS_A_DAY,
    Account,
    Table,
    account,
    always_selected,
    duty_cycle,
    listening_cycle,
    milliampere_hours,
    sent,
)
from avrora_tools.budgets import between, table_of, whole
from avrora_tools.errors import BadInput, Status
from avrora_tools.listening import Radio, watched_radios
from avrora_tools.profiles import Spent
from avrora_tools.reporting import bars
from avrora_tools.reporting.currents import currents_of
from avrora_tools.sweeping.simulation import Simulator
from avrora_tools.terminal import warn

SUMMARY = "charge and duty cycle of each node, by a table of currents"

DESCRIPTION = """Tells the charge that each node draws and its duty cycle, by what `avrora monitor` wrote of a scenario
and a TOML file of currents in mA:

  awake = 8.0        # of the processor
  asleep = 3.2
  sending = 12.0     # of the radio, while a byte is on the air
  listening = 7.0    # of the radio, all other time in which it is selected (PB0 an output, and low)
  off = 0.001        # of the radio, while it is not selected; without this line 0
  hz = 7_372_800     # cycles a second; without this line 7_372_800
  battery = 2_500    # mA h; with this line the tool tells how many days it lasts
  [node.'1-4']       # other currents of some nodes
  listening = 0.5

`avrora monitor FILE 0 END`, where END is the scenario's `cycles` in digits alone (no _), writes a report of the whole
run. If a report is neither of the whole run nor of the scenario's window, --window says of which cycles it is.
examples/currents.toml is a table to begin with. Cycles without an owner (`lead`: the window began within a sleep or an
instruction) may be awake or asleep, so the tool tells what depends on them as a span. No report tells when a radio was
selected, so it runs the scenario again and watches PB0. --always-listening takes each radio for selected. A byte that
is sent counts for a whole byte time. A stopped node draws nothing. Means and days are those of the window of the
report."""

def run(arguments: argparse.Namespace) -> int:
    table = table_of(files.read_text(arguments.currents), files.shown(arguments.currents))
    scenario = scenarios.Scenario.load(arguments.scenario)
    name = files.shown(arguments.report)
    lines = profiles.text_lines(traces.file_blocks(arguments.report), name)
    reader = profiles.MonitorReader(name, scenario, arguments.window)
    nodes = list(reader.read(lines).values())
    if unknown := sorted(set(table.by_node) - set(range(len(nodes)))):
        raise BadInput(f"{files.shown(arguments.currents)}: there is no node {unknown[0]}")
    radios = radios_of(arguments, scenario, reader.span(), nodes)
    accounts = [account(node, table.of(k), scenario.byte_time, table.hz, radios[k]) for k, node in enumerate(nodes)]
    print_table(nodes, accounts, radios, scenario.byte_time, table)
    if stopped := [k for k, node in enumerate(nodes) if node.stopped]:
        warn(f"node {stopped[0]} stopped, and draws nothing from then on")
    if arguments.svg:
        files.write_whole(arguments.svg, picture(accounts, nodes[0].total() / table.hz))
    return Status.GOOD


def radios_of(
    arguments: argparse.Namespace, scenario: scenarios.Scenario, span: tuple[int, int], nodes: list[Spent]
) -> list[Radio]:
    """For how long each radio was selected: by running the scenario again, or with --always-listening all the time."""
    if arguments.always_listening:
        return [always_selected(node, scenario.byte_time) for node in nodes]
    folder = os.path.dirname(os.path.abspath(arguments.scenario))
    simulator = Simulator(cli.simulator(arguments.avrora), folder, arguments.timeout)
    document = toml.loads(files.read_text(arguments.scenario))
    return watched_radios(simulator, scenario, document, span, nodes)


def mean(parts: list[tuple[float, float]]) -> tuple[float, float]:
    return sum(low for low, _ in parts) / len(parts), sum(high for _, high in parts) / len(parts)


def print_table(nodes: list[Spent], accounts: list[Account], radios: list[Radio], byte_time: int, table: Table) -> None:
    seconds = nodes[0].total() / table.hz
    print(f"{nodes[0].total():,} cycles, {seconds:.6g} s at {table.hz:,.0f} Hz")
    print(
        f"{'node':>7} {'awake':>15} {'listens':>15} {'sent':>7} {'mA':>15} {'mA h':>21} {'mA h a day':>15}"
        + " days" * bool(table.battery)
    )
    duties = [duty_cycle(node) for node in nodes]
    listens = [listening_cycle(node, byte_time, radio) for node, radio in zip(nodes, radios)]
    rows = [(str(k), duties[k], listens[k], sent(node), accounts[k]) for k, node in enumerate(nodes)]
    rows.append(("network", mean(duties), sum(listens) / len(listens), sum(map(sent, nodes)), whole(accounts)))
    for name, duty, listened, count, one in rows:
        least, most = one.least / seconds, one.most / seconds
        days = ""
        if table.battery and name != "network":
            days = (
                f" {between(table.battery / (most * HOURS_A_DAY), table.battery / (least * HOURS_A_DAY), '.0f')}"
                if least
                else " -"
            )
        listens_text = f"{100 * listened:.2f}%"
        print(
            f"{name:>7} {percent(duty):>15} {listens_text:>15} {count:>7,} {between(least, most, '.3f'):>15} "
            f"{between(milliampere_hours(one.least), milliampere_hours(one.most), '.4g'):>21} "
            f"{between(least * HOURS_A_DAY, most * HOURS_A_DAY, '.2f'):>15}{days}"
        )


def percent(part: tuple[float, float]) -> str:
    return between(100 * part[0], 100 * part[1], ".2f") + "%"


def picture(accounts: list[Account], seconds: float) -> str:
    """A bar for each node, of what its mean current is made of, as SVG."""
    return bars.drawn(currents_of(accounts, seconds), " mA", "mean current of each node")


def configure(parser: argparse.ArgumentParser) -> None:
    cli.describe(parser, DESCRIPTION, "energy currents.toml packet.toml packet.profile")
    cli.add_simulator(parser)
    parser.add_argument(
        "--always-listening", action="store_true", help="each radio is selected all the time: nothing is run"
    )
    parser.add_argument(
        "--timeout", type=cli.positive, default=600, metavar="S", help="seconds that a run may take (%(default)s)"
    )
    parser.add_argument("--svg", metavar="FILE", help="a picture too: a bar for each node")
    parser.add_argument(
        "--window",
        type=cli.window,
        metavar="A..B",
        help="the FROM and TO of the report, where it is neither of the whole run nor of the scenario's window; "
        "digits may be grouped by _",
    )
    parser.add_argument("currents", metavar="CURRENTS", help="the currents, a TOML file")
    parser.add_argument(
        "scenario", metavar="SCENARIO", help="whose report it is: its byte time says how long a byte is sent"
    )
    parser.add_argument(
        "report",
        nargs="?",
        default="-",
        metavar="REPORT",
        help="what `avrora monitor` wrote; - or none: the standard input",
    )
