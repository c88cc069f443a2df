"""Says where a scenario is at fault: cause, line, table and key."""
import argparse

from avrora_tools import cli, files, scenarios
from avrora_tools.errors import Status

SUMMARY = "where a scenario is at fault"

DESCRIPTION = """Says where a scenario is at fault: each fault with its line, its table and number (from 0 on) and its
key. The first is the cause that the simulator names. The tool does not read images.
Status 0: no fault; 1: faults; 2: the file cannot be read."""


def configure(parser: argparse.ArgumentParser) -> None:
    cli.describe(parser, DESCRIPTION, "why network.toml")
    parser.add_argument("scenario", metavar="SCENARIO")


def run(arguments: argparse.Namespace) -> int:
    found = scenarios.faults(files.read_text(arguments.scenario))
    for fault in found:
        print(scenarios.described(fault))
    if found:
        return Status.NOT_MET
    print("no fault in the scenario (its images are not read: `avrora check` reads them)")
    return Status.GOOD
