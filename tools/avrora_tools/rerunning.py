"""Runs of one command, and what differs between two of them; and the files whose changes call for another."""
import contextlib
import difflib
import os
import subprocess
import tempfile
import time
from collections.abc import Iterator, Mapping, Sequence
from types import TracebackType
from typing import IO

from avrora_tools import cases, files, groups, terminal, traces
from avrora_tools.commands import diff
from avrora_tools.commands.annotate import Notes
from avrora_tools.differences import differences
from avrora_tools.errors import BadInput, CannotWork, ToolError
from avrora_tools.programs import Programs
from avrora_tools.scenarios import Scenario

MOST_LINES = 200  # of a difference that are shown
MOST_LOOKS = 50  # until files that change again and again are taken as they are
LARGEST_TEXT = 16 * 1024 * 1024  # bytes of an output that is compared line by line

# What is known of a file without reading it; None where there is none.
Stamp = tuple[int, int, int] | None


# ---- which files


def watched(names: Sequence[str]) -> list[str]:
    """The files, and those that scenarios and cases among them name."""
    found = dict.fromkeys(names)
    for name in names:
        with contextlib.suppress(ToolError, OSError):  # it is being written, or is none of these
            found |= dict.fromkeys(named_by(name))
    return list(found)


def named_by(name: str) -> Iterator[str]:
    if name.endswith(".toml"):
        scenario = Scenario.of_text(files.read_named_text(name), "")  # which a case may name
        yield from (os.path.join(os.path.dirname(name), image) for image in scenario.images)
    elif name.endswith(".expect"):
        case = cases.read_case(name)
        yield from (one.path for one in case.statements if isinstance(one, cases.Golden))
        if case.source:
            source = os.path.join(case.folder, case.source[1])
            yield source
            yield from named_by(source) if case.source[0] == "run" else ()


def stamps_of(names: Sequence[str]) -> dict[str, Stamp]:
    found: dict[str, Stamp] = {}
    for name in watched(names):
        found[name] = None
        with contextlib.suppress(OSError, ValueError):
            about = os.stat(name)
            found[name] = about.st_mtime_ns, about.st_size, about.st_ino
    return found


def changed(before: Mapping[str, Stamp], now: Mapping[str, Stamp]) -> list[str]:
    """The files that are not as they were, or are watched now alone."""
    return [name for name, stamp in now.items() if name not in before or before[name] != stamp]


def settled(names: Sequence[str], seconds: float) -> None:
    """Waits until the files no longer change, so that none is read while it is written."""
    before = stamps_of(names)
    for _ in range(MOST_LOOKS):
        time.sleep(seconds)
        now = stamps_of(names)
        if now == before:
            return
        before = now


# ---- runs


class Rerun:
    """A command that is run again and again."""

    def __init__(self, command: Sequence[str], timeout: float, is_quiet: bool = False) -> None:
        self.command, self.timeout, self.is_quiet = command, timeout, is_quiet
        self.folder = tempfile.TemporaryDirectory(prefix="avrora-rerun-")
        self.groups = groups.Groups()
        self.count = 0

    def __enter__(self) -> "Rerun":
        return self

    def __exit__(
        self, kind: type[BaseException] | None, fault: BaseException | None, trace: TracebackType | None
    ) -> None:
        self.folder.cleanup()

    def path(self, count: int) -> str:
        return os.path.join(self.folder.name, f"{count % 2}")

    def run(self, out: IO[str]) -> int:
        """Runs the command; shows what it writes the first time, and then what differs from the time before. Its
        status."""
        begun = time.monotonic()
        status = self.called()
        self.count += 1
        if self.count > 1:
            self.show_difference(out)
        elif not self.is_quiet:
            show(self.path(self.count), out)
        out.flush()
        terminal.say(f"run {self.count}: status {status}, {time.monotonic() - begun:.2f} s")
        return status

    def called(self) -> int:
        with open(self.path(self.count + 1), "wb") as output:
            with self.groups.started(self.command, stdin=subprocess.DEVNULL, stdout=output) as process:
                try:
                    return process.wait(self.timeout)
                except subprocess.TimeoutExpired:
                    raise CannotWork(f"a run took more than {self.timeout:g} seconds (--timeout)") from None

    def show_difference(self, out: IO[str]) -> None:
        before, now = self.path(self.count - 1), self.path(self.count)
        if same_bytes(before, now):
            out.write("the same output\n")
        elif is_trace(before) and is_trace(now):
            show_traces(before, now, out)
        else:
            show_lines(before, now, out)


def show(path: str, out: IO[str]) -> None:
    """What a command wrote, as it may be shown."""
    with open(path, encoding="utf-8", errors="surrogateescape") as file:
        for line in file:
            out.write(files.printable(line.rstrip("\n")) + "\n")


def same_bytes(one: str, other: str) -> bool:
    with open(one, "rb") as first, open(other, "rb") as second:
        while block := first.read(1 << 16):
            if second.read(1 << 16) != block:
                return False
        return not second.read(1)


def is_trace(path: str) -> bool:
    """Whether all of a file are rows of a trace."""
    try:
        for _ in traces.read(path, traces.Form.ROWS):
            pass
    except BadInput:
        return False
    return True


def show_traces(before: str, now: str, out: IO[str]) -> None:
    notes = Notes(Programs([]))
    with contextlib.redirect_stdout(out):
        for number, node in differences(traces.rows(before), traces.rows(now)).items():
            if node.has_parted:
                diff.print_node(number, node, notes)


def show_lines(before: str, now: str, out: IO[str]) -> None:
    one, two = text_of(before), text_of(now)
    shown = list(difflib.unified_diff(one, two, "the run before", "this run", lineterm="", n=2))
    for line in shown[:MOST_LINES]:
        out.write(files.printable(line) + "\n")
    if len(shown) > MOST_LINES:
        out.write(f".. and {len(shown) - MOST_LINES:,} more lines\n")


def text_of(path: str) -> list[str]:
    with open(path, "rb") as file:
        return file.read(LARGEST_TEXT).decode("utf-8", "surrogateescape").split("\n")
