"""Serves avr-gdb over a run, forwards and backwards."""
import argparse
import contextlib
import os
import shlex
import shutil
import signal
import socket
import sys
from collections.abc import Iterator
from pathlib import Path
from typing import NoReturn

from avrora_tools import cli, programs, terminal
from avrora_tools.debugging import history, inferiors, packets, session
from avrora_tools.errors import BadWords, CannotWork

SUMMARY = "debugs a run by avr-gdb, forwards and backwards"

DESCRIPTION = """Speaks gdb's remote protocol over the run of a scenario. Each node is a thread of gdb. Breakpoints, steps,
`finish`, `until`, call chains and variables are gdb's own; so are reverse-continue, reverse-step, reverse-next and
reverse-finish, since a run is the same each time. `monitor help` in gdb tells what a network adds. gdb cannot
write anything: the run is fixed. In a terminal the tool starts avr-gdb itself. To call it from gdb:
  (gdb) target remote | avrora-tools gdb -e packet.elf packet.toml
or with --port, in another terminal, `target remote :4242`. It listens on this machine alone. Nodes with different
images are inferiors of gdb, each with the symbols of its -e. docs/DEBUGGING.md leads through a hunt."""

LOOPBACK = "127.0.0.1"

# The words of a network as commands of gdb, where the tools stand in their repository.
WORDS_FILE = Path(__file__).resolve().parents[3] / "examples" / "avrora.gdb"


def configure(parser: argparse.ArgumentParser) -> None:
    cli.describe(parser, DESCRIPTION, "gdb --port 4242 --at 300_000 packet.toml")
    cli.add_simulator(parser)
    programs.add_elf(parser)
    parser.add_argument("--port", type=port, help="listen on this port, for one gdb after another; else the standard streams")
    parser.add_argument("--state", metavar="STATE", help="the state in which the run begins, as `sweep --out` writes one; else reset")
    parser.add_argument("--images", metavar="DIR", help="the folder of the images; else that of the scenario")
    parser.add_argument("--at", type=cli.natural, metavar="CYCLE", help="where gdb stands at first; else the beginning")
    parser.add_argument("--node", type=cli.natural, default=0, metavar="NODE", help="the node that gdb shows at first")
    parser.add_argument("scenario", metavar="SCENARIO")


def port(text: str) -> int:
    number = cli.whole_number(text, 0)
    if number > 65_535:
        raise argparse.ArgumentTypeError(f"{text} is not a port: 0 to 65535, where 0 takes a free one")
    return number


def run(arguments: argparse.Namespace) -> int:
    simulator = cli.simulator(arguments.avrora)
    if arguments.port is None and sys.stdin.isatty():
        start_gdb(arguments, simulator)
    with history.history(arguments.scenario, simulator, arguments.state, arguments.images) as past:
        cycle = past.first if arguments.at is None else arguments.at
        if not past.first <= cycle <= past.limit:
            raise BadWords(f"--at {cycle}: the run has the cycles {past.first:,} to {past.limit:,}")
        if arguments.node >= past.nodes:
            raise BadWords(f"--node {arguments.node}: the scenario has nodes 0 to {past.nodes - 1}")
        past.state(cycle)  # so that what is refused is told here
        if arguments.port is None:
            signal.signal(signal.SIGINT, signal.SIG_IGN)  # ^C in gdb comes as a packet, not as the terminal's signal
        for channel in channels(arguments.port):
            named = inferiors.Inferiors(past.scenario, arguments.elf, arguments.force)
            with contextlib.suppress(packets.Gone):
                session.Session(past, channel, cycle, arguments.node, named).serve()
    return 0


def start_gdb(arguments: argparse.Namespace, simulator: str) -> NoReturn:
    """Becomes avr-gdb, which starts this tool again, at the other end of a pipe."""
    # not that of the folder where one stands, which an empty part of PATH names
    folders = (folder for folder in os.environ.get("PATH", os.defpath).split(os.pathsep) if os.path.isabs(folder))
    gdb = shutil.which("avr-gdb", path=os.pathsep.join(folders))
    if gdb is None:
        raise CannotWork("avr-gdb is not installed (Debian's gdb-avr); with --port another gdb may connect")
    words = [*itself(), "gdb", "--avrora", simulator, "--node", str(arguments.node)]
    words += [word for elf in arguments.elf for word in ("-e", elf)] + ["--force"] * arguments.force
    for option in ("state", "images", "at"):
        if (value := getattr(arguments, option)) is not None:
            words += [f"--{option}", str(value)]
    begin = ["set sysroot /", "set schedule-multiple on", "set remotetimeout 60"]
    begin += [f"source {WORDS_FILE}"] if WORDS_FILE.exists() else []
    begin += [f"target remote | {shlex.join([*words, arguments.scenario])}"]
    sys.stdout.flush()
    os.execv(gdb, [gdb, "-q", *(word for command in begin for word in ("-ex", command))])


def itself() -> list[str]:
    """The words that start these tools as they were started."""
    return [sys.executable, *(["-B"] if sys.dont_write_bytecode else []), os.path.abspath(sys.argv[0])]


def channels(number: int | None) -> Iterator[packets.Channel]:
    """The gdbs that come, one after another."""
    if number is None:
        sys.stdout.flush()
        yield packets.Channel(0, 1)
        return
    try:
        server = socket.create_server((LOOPBACK, number))
    except OSError as fault:
        raise CannotWork(f"cannot listen on port {number}: {fault.strerror}") from None
    with server:
        terminal.say(f"listening: target remote :{server.getsockname()[1]}")
        while True:
            connection, _ = server.accept()
            with connection:
                connection.setsockopt(socket.IPPROTO_TCP, socket.TCP_NODELAY, 1)
                yield packets.Channel(connection.fileno(), connection.fileno())
