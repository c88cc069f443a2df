"""The command line: parsers, and the arguments and values that several subcommands take."""
import argparse
import os
import re
from pathlib import Path
from typing import NoReturn

from avrora_tools.errors import BadWords, CannotWork

# The processor's clock that the guide for firmware counts with, in cycles a second.
CLOCK = 7_372_800

MAX_NODES = 64

# What names the simulator: the program that ./avrora proves and builds, or a program that takes the same words.
PROGRAM_VARIABLE, SIMULATOR_VARIABLE = "AVRORA_PROGRAM", "AVRORA"


class Parser(argparse.ArgumentParser):
    """A parser that raises BadWords, and shows its description and example as they are written."""

    def __init__(self, **options: object) -> None:
        super().__init__(formatter_class=argparse.RawDescriptionHelpFormatter, **options)  # type: ignore[arg-type]

    def error(self, message: str) -> NoReturn:
        raise BadWords(f"{message}; --help lists the words")


def describe(parser: argparse.ArgumentParser, description: str, example: str) -> None:
    """Gives a subcommand its description and an example, whose first word is the subcommand's name."""
    parser.description = description
    parser.epilog = f"example:\n  avrora-tools {example}"


def add_trace(parser: argparse.ArgumentParser) -> None:
    """The argument TRACE, which all tools that read one take last."""
    parser.add_argument(
        "trace", nargs="?", default="-", metavar="TRACE", help="a file, .gz too; - or none: the standard input"
    )


def add_head(parser: argparse.ArgumentParser) -> None:
    parser.add_argument(
        "--head", type=positive, metavar="N", help="the trace is what `avrora head FILE N` wrote, without end rows"
    )


def add_scenario(parser: argparse.ArgumentParser) -> None:
    parser.add_argument("-s", "--scenario", metavar="SCENARIO", help="the scenario that was run")


def add_nodes(parser: argparse.ArgumentParser) -> None:
    parser.add_argument("-n", "--nodes", type=node_set, metavar="NODES", help="only these nodes, such as 0,2-4")


def add_clock(parser: argparse.ArgumentParser) -> None:
    parser.add_argument("--hz", type=positive, help=f"tell seconds, by a clock of HZ cycles a second (such as {CLOCK})")


def add_simulator(parser: argparse.ArgumentParser) -> None:
    parser.add_argument(
        "--avrora",
        metavar="PROGRAM",
        help=f"the simulator; else ${PROGRAM_VARIABLE}, else ${SIMULATOR_VARIABLE}, else ./avrora of this repository",
    )


def add_watch(parser: argparse.ArgumentParser) -> None:
    parser.add_argument(
        "--watch", action="append", default=[], metavar="NAME",
        help="a variable or register, or a pattern of their names: 'queue*'",
    )  # fmt: skip


def add_checks(parser: argparse.ArgumentParser) -> None:
    """What a right run is, one of three: --expect, --check, --always."""
    parser.add_argument("--expect", metavar="CASE", help="check each run by this case of `expect`")
    parser.add_argument("--check", metavar="FILE", help="check each run by the function check(run) of this Python file")
    parser.add_argument(
        "--always",
        action="append",
        metavar="'NODE CONDITION'",
        help="check that this holds of a node's variables (-e) in every cycle of each run: '1 queued <= 3'",
    )


def one_check(arguments: argparse.Namespace) -> None:
    """Refuses two of the checks of `add_checks`, and --always on a cluster."""
    if len([it for it in (arguments.expect, arguments.check, arguments.always) if it]) > 1:
        raise BadWords("only one of --expect, --check and --always can be given")
    if arguments.always and arguments.scheduler:
        raise BadWords("--always works only with runs on this machine")


def check_words(arguments: argparse.Namespace) -> list[str]:
    """The check of `add_checks` as words again; none where there is none."""
    words = ["--expect", arguments.expect] if arguments.expect else []
    words += ["--check", arguments.check] if arguments.check else []
    return words + [word for condition in arguments.always or () for word in ("--always", condition)]


def simulator(path: str | None = None) -> str:
    """The program to run: `path`, else what the environment names, else `avrora` at the top of this repository."""
    named = path or os.environ.get(PROGRAM_VARIABLE) or os.environ.get(SIMULATOR_VARIABLE)
    if named:
        return os.path.abspath(named)
    beside = Path(__file__).resolve().parents[2] / "avrora"
    if not beside.exists():
        raise CannotWork(f"no simulator is named: --avrora PROGRAM, or {PROGRAM_VARIABLE} in the environment")
    return str(beside)


def positive(text: str) -> int:
    """A whole number of at least 1, for argparse."""
    return whole_number(text, 1)


def natural(text: str) -> int:
    """A whole number of at least 0, for argparse."""
    return whole_number(text, 0)


def whole_number(text: str, least: int) -> int:
    """A whole number of at least `least`, whose digits may be grouped by _."""
    if not re.fullmatch("[0-9]+(?:_[0-9]+)*", text) or len(text) > 30:
        raise argparse.ArgumentTypeError(f"{text} is not a whole number")
    value = int(text)
    if value < least:
        raise argparse.ArgumentTypeError(f"{text} is not at least {least}")
    return value


def node_set(text: str) -> set[int]:
    """The numbers of nodes that a text such as 0,2-4 lists."""
    nodes: set[int] = set()
    for part in text.split(","):
        match = re.fullmatch("([0-9]{1,9})(?:-([0-9]{1,9}))?", part)
        if not match:
            raise argparse.ArgumentTypeError(f"{text} is not a list of nodes such as 0,2-4")
        first, last = int(match[1]), int(match[2] or match[1])
        if not first <= last < MAX_NODES:
            raise argparse.ArgumentTypeError(f"{part}: nodes are 0 to {MAX_NODES - 1}, the lower first")
        nodes.update(range(first, last + 1))
    return nodes


def window(text: str) -> tuple[int, int]:
    match = re.fullmatch(r"([0-9][0-9_]*)\.\.([0-9][0-9_]*)", text)
    if not match or not match[1].rstrip("_") or int(match[1].replace("_", "")) >= int(match[2].replace("_", "")):
        raise argparse.ArgumentTypeError(f"{text} is not a window A..B")
    return int(match[1].replace("_", "")), int(match[2].replace("_", ""))


def shown_cycle(cycle: int, hz: int | None = None) -> str:
    """A cycle as a column of output: the number, or seconds where the clock is given."""
    return f"{cycle / hz:12.6f}s" if hz else f"{cycle:>12}"


def shown_byte(byte: int) -> str:
    """A byte as two digits, with its character where it has a visible one."""
    return f"{byte:02X} '{chr(byte)}'" if 0x21 <= byte <= 0x7E else f"{byte:02X}"
