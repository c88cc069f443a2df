"""The command `avrora-tools`: finds its subcommands, runs one of them, and ends the process with its status."""
import argparse
import contextlib
import errno
import importlib
import io
import os
import pkgutil
import signal
import sys
import threading
import traceback
from collections.abc import Sequence
from types import ModuleType
from typing import NoReturn

import avrora_tools
from avrora_tools import commands
from avrora_tools.errors import BadWords, Status, ToolError
from avrora_tools.showing import printable
from avrora_tools.terminal import PACKAGE, Speaker, say
from avrora_tools.cli import Parser

# Asks for the traceback of what ends a tool, as --traceback before the subcommand does.
TRACEBACK_VARIABLE = "AVRORA_TOOLS_TRACEBACK"

INTERRUPTED = 128 + signal.SIGINT
SECONDS_TO_NEXT = 0.01  # after an interrupt that could not be raised


def names() -> list[str]:
    """The names of all subcommands."""
    return sorted(module.name for module in pkgutil.iter_modules(commands.__path__))


def command(name: str) -> ModuleType:
    return importlib.import_module(f"{commands.__name__}.{name}")


def usage() -> str:
    """The help of the whole command: a line for each subcommand."""
    lines = [f"  {name:<10} {command(name).SUMMARY}" for name in names()]
    return "\n".join(
        [
            "Usage: avrora-tools [--traceback] TOOL WORDS...",
            "       avrora-tools TOOL --help",
            "",
            *lines,
            "",
            "  --version    tells which version this is",
            f"  --traceback  tells where in the tool an error came up; as {TRACEBACK_VARIABLE}=1 does",
            "",
            "Exit status: 0 all is well, 1 a check is not met, 2 bad input or bad words, 3 the tool could not do its "
            "work.",
        ]
    )


def run(words: Sequence[str]) -> int:
    """Runs a subcommand on its words; returns its status, or raises what ended it."""
    Speaker.name = PACKAGE
    if not words:
        raise BadWords("no tool is named; --help lists them all")
    name, *rest = words
    if name in ("--help", "-h", "help"):
        print(usage())
        return Status.GOOD
    if name == "--version":
        print(f"avrora-tools {avrora_tools.__version__}")
        return Status.GOOD
    if name not in names():
        raise BadWords(f"no tool is called {printable(name)}; --help lists them all")
    Speaker.name = f"{PACKAGE} {name}"
    module = command(name)
    parser = Parser(prog=Speaker.name)
    module.configure(parser)
    command_words: list[str] = []
    if getattr(module, "TAKES_COMMAND", False) and "--" in rest:  # which argparse would take for words of its own
        place = rest.index("--")
        rest, command_words = rest[:place], rest[place + 1 :]
    arguments: argparse.Namespace = parser.parse_args(rest)
    arguments.command = command_words
    return int(module.run(arguments) or Status.GOOD)


def main(words: Sequence[str] | None = None) -> NoReturn:
    """Runs the subcommand that the words name (else those of the process), and ends the process."""
    words = list(sys.argv[1:] if words is None else words)
    tells_traceback = bool(os.environ.get(TRACEBACK_VARIABLE))
    while words[:1] == ["--traceback"]:
        words, tells_traceback = words[1:], True
    standard_streams()
    status = guarded(words, tells_traceback)
    with contextlib.suppress(OSError, ValueError):
        sys.stderr.flush()
    os._exit(status)  # without a second flush of an output that failed


def hear_interrupts() -> None:
    """From here on ^C raises KeyboardInterrupt, and so does one that came before: `entry` and ./avrora-tools keep it
    until now. One that comes where nothing can be raised, as in a callback, comes again a little later."""

    def again(unraisable: "sys.UnraisableHookArgs") -> None:
        if issubclass(unraisable.exc_type, KeyboardInterrupt):
            threading.Timer(SECONDS_TO_NEXT, os.kill, (os.getpid(), signal.SIGINT)).start()
        else:
            sys.__unraisablehook__(unraisable)

    sys.unraisablehook = again
    if signal.getsignal(signal.SIGINT) is signal.SIG_DFL:
        signal.signal(signal.SIGINT, signal.default_int_handler)
    signal.pthread_sigmask(signal.SIG_UNBLOCK, {signal.SIGINT})


def guarded(words: Sequence[str], tells_traceback: bool) -> int:
    """The status of a subcommand, however it ends: what it raises becomes a line on the standard error."""
    try:
        hear_interrupts()
        try:
            status = run(words)
        except SystemExit as exit_:  # of --help
            status = int(exit_.code or 0)
        sys.stdout.flush()
        return status
    except BaseException as fault:
        if tells_traceback:
            traceback.print_exc()
        if isinstance(fault, ToolError):
            with contextlib.suppress(OSError, ValueError):
                sys.stdout.flush()
        return ended_by(fault)


def ended_by(fault: BaseException) -> int:
    """Tells the user what ended a tool; the status."""
    if isinstance(fault, ToolError):
        say(str(fault))
        return fault.status
    if isinstance(fault, KeyboardInterrupt):
        return INTERRUPTED
    if isinstance(fault, BrokenPipeError):  # a closed pipe ends it quietly, as it ends any program
        signal.signal(signal.SIGPIPE, signal.SIG_DFL)
        os.kill(os.getpid(), signal.SIGPIPE)
    if isinstance(fault, OSError):
        name = printable(os.fsdecode(fault.filename)) if isinstance(fault.filename, (str, bytes)) else "write failed"
        say(f"{name}: {fault.strerror or fault}")
    elif isinstance(fault, MemoryError):
        say("out of memory")
    else:
        first = (str(fault).splitlines() or [""])[0]
        say(
            f"a fault of this tool: {type(fault).__name__}: {printable(first)}; --traceback before its name tells where"
        )
    return Status.CANNOT_WORK


def standard_streams() -> None:
    """Makes the standard streams take any text, and such that a closed one fails where it is used, and not before."""
    for number, mode in enumerate((os.O_WRONLY, os.O_RDONLY, os.O_WRONLY)):
        try:
            os.fstat(number)
        except OSError as fault:
            if fault.errno != errno.EBADF:
                raise
            # No file that is opened later takes its number. Reading from standard input, or writing to standard output,
            # fails as it does with a closed one; what is said to a closed standard error goes nowhere.
            os.open(os.devnull, mode)
    if sys.stdin is None:
        sys.stdin = io.TextIOWrapper(io.BufferedReader(io.FileIO(0, closefd=False)))
    if sys.stdout is None:
        sys.stdout = io.TextIOWrapper(io.BufferedWriter(io.FileIO(1, "w", closefd=False)))
    if sys.stderr is None:
        sys.stderr = io.TextIOWrapper(io.BufferedWriter(io.FileIO(2, "w", closefd=False)))
    if isinstance(sys.stdout, io.TextIOWrapper):
        sys.stdout.reconfigure(encoding="utf-8", errors="surrogateescape")
