"""Runs a command again when files change, and shows what differs."""
import argparse
import os
import sys
import time

from avrora_tools import cli, files, terminal
from avrora_tools.errors import BadWords
from avrora_tools.rerunning import Rerun, changed, settled, stamps_of

SUMMARY = "runs a command again when files change, and shows what differs"

DESCRIPTION = """Runs COMMAND, and again each time one of the FILEs changes: an image, a scenario, a case, a source.
With a scenario it watches the images too, with a case the scenario and the golden rows. After the first run it shows
what differs from the run before: for a trace as `diff` does, for any other output line by line. What COMMAND writes to
the standard error passes through.

^C ends it. Status: with --runs that of the last run of COMMAND; else 0."""

TAKES_COMMAND = True


def configure(parser: argparse.ArgumentParser) -> None:
    cli.describe(parser, DESCRIPTION, "rerun relay.toml relay.hex -- avrora run relay.toml")
    parser.usage = "avrora-tools rerun [OPTIONS] FILE... -- COMMAND [WORD...]"
    parser.add_argument("--runs", type=cli.positive, metavar="N", help="end after the Nth run")
    parser.add_argument(
        "--every", type=cli.positive, default=300, metavar="MS", help="milliseconds between two looks (%(default)s)"
    )
    parser.add_argument(
        "--timeout", type=cli.positive, default=600, metavar="S", help="seconds that a run may take (%(default)s)"
    )
    parser.add_argument(
        "--quiet", action="store_true", help="show only differences, not what the first run writes"
    )
    parser.add_argument("file", nargs="+", metavar="FILE", help="a file that is watched")


def run(arguments: argparse.Namespace) -> int:
    if not arguments.command:
        raise BadWords("put a command behind --: rerun relay.toml -- avrora run relay.toml")
    for name in arguments.file:
        if not os.path.exists(name):
            raise BadWords(f"{files.shown(name)}: there is no such file")
    seconds = arguments.every / 1000
    with Rerun(arguments.command, arguments.timeout, arguments.quiet) as rerun:
        try:
            while True:
                before = stamps_of(arguments.file)
                status = rerun.run(sys.stdout)
                if rerun.count == arguments.runs:
                    return status
                terminal.say(f"{len(before)} files are watched; ^C ends this")
                while not (names := changed(before, stamps_of(arguments.file))):
                    time.sleep(seconds)
                settled(arguments.file, seconds)
                terminal.say(f"changed: {', '.join(map(files.shown, names))}")
        except KeyboardInterrupt:
            return 0
