#!/usr/bin/env python3
"""Computes the profile of a whole run slowly: from the rows of full traces, in pieces, which go on from states saved as it goes.

    bench/network/accounts.py PROGRAM FILE     compares `PROGRAM monitor FILE 0 CYCLES` with what the rows of all cycles come to
    bench/network/accounts.py network FOLDER   writes FOLDER/many.toml with its images: 64 nodes over 60,000,000 cycles, of which
                                               eight send packets and hear each other, and the others sleep and wake by a timer

The scenario's images lie beside it. Each cycle has one owner, the last row before it that is an instruction, an interrupt's entry or a
stop; in a sleep only the instruction's first cycle is its own. A trace has a window of 20,000 cycles at most, so an epoch is run once
for each of them. It tells how many rows it read; its exit status is 1 where a line differs.
"""
import re
import shutil
import subprocess
import sys
import tempfile
import tomllib
from collections import Counter
from collections.abc import Iterator
from pathlib import Path

from states import EPOCH

TOP = Path(__file__).resolve().parent.parent.parent
WINDOW = 20_000  # the most cycles that one trace has
MICROCHARGE = {"awake": 8, "asleep": 1, "sent": 512}  # what a cycle, or a byte, takes


class Account:
    """Whose the cycles of one node are."""

    def __init__(self) -> None:
        self.since = 0
        self.owner = ("lead", "")
        self.cycles: Counter[tuple[str, str]] = Counter()
        self.rows: Counter[tuple[str, str]] = Counter()

    def until(self, cycle: int) -> None:
        """The owner has the cycles up to this one."""
        kind, place = self.owner
        spent = cycle - self.since
        if kind == "sleep" and spent > 0:
            self.cycles["at", place] += 1
            self.cycles["asleep", ""] += spent - 1
        else:
            self.cycles["at" if kind == "sleep" else kind, place] += spent
        self.since = cycle

    def owned(self, cycle: int, kind: str, place: str) -> None:
        self.until(cycle)
        self.owner = (kind, place)

    def row(self, cycle: int, kind: str, rest: list[str]) -> None:
        if kind == "instr":
            self.rows["at", rest[0]] += 1
            self.owned(cycle, "sleep" if rest[1] == "sleep" else "at", rest[0])
        elif kind == "enter":
            self.rows["vector", rest[0]] += 1
            self.owned(cycle, "vector", rest[0])
        elif kind == "stop":
            self.owned(cycle, "stopped", "")
        elif kind == "sent":
            self.rows["sent", ""] += 1

    def lines(self, node: int) -> Iterator[str]:
        yield f"{node} lead {self.cycles['lead', '']}"
        awake = 0
        for kind in ("at", "vector"):
            for place in sorted(place for of, place in self.rows if of == kind):
                yield f"{node} {kind} {place} {self.rows[kind, place]} {self.cycles[kind, place]}"
                awake += self.cycles[kind, place]
        asleep = self.cycles["asleep", ""]
        yield f"{node} asleep {asleep}"
        yield f"{node} stopped {self.cycles['stopped', '']}"
        yield f"{node} charge {MICROCHARGE['awake'] * awake + MICROCHARGE['asleep'] * asleep + MICROCHARGE['sent'] * self.rows['sent', '']}"


class Pieces:
    """A run, an epoch at a time."""

    def __init__(self, program: str, path: Path, folder: Path) -> None:
        self.program, self.folder = program, folder
        for image in path.parent.glob("*.hex"):
            shutil.copy(image, folder)
        self.text = re.sub(r"(?m)^window\s*=.*$", "", path.read_text())
        self.scenario = tomllib.loads(self.text)
        self.limit: int = self.scenario["cycles"]
        self.accounts = [Account() for _ in self.scenario["node"]]
        self.read = 0

    def called(self, *words: str) -> bytes:
        return subprocess.run([self.program, *words], cwd=self.folder, capture_output=True, check=True).stdout

    def rows(self, first: int, end: int) -> Iterator[bytes]:
        """The rows of the epoch that begins with this cycle, traced in pieces; what no window chooses comes once, in order."""
        state = ["state"] if first else []
        for at in range(first, end, WINDOW):
            to = min(at + WINDOW, end)
            (self.folder / "piece.toml").write_text(f"window = [{at}, {to}]\n{self.text}")
            words = ["head", "piece.toml", "1", *state] if end < self.limit else (["resume", "piece.toml", *state] if state else ["run", "--plain", "piece.toml"])
            for line in self.called(*words).splitlines():
                if at <= int(line[: line.index(b" ")]) < to:
                    yield line

    def run(self) -> None:
        for first in range(0, self.limit, EPOCH):
            end = min(first + EPOCH, self.limit)
            for line in self.rows(first, end):
                cycle, node, kind, *rest = line.decode().split(" ")
                self.accounts[int(node)].row(int(cycle), kind, rest)
                self.read += 1
            if end < self.limit:
                (self.folder / "piece.toml").write_text(self.text)
                (self.folder / "next").write_bytes(self.called("save", "piece.toml", "1", *(["state"] if first else [])))
                (self.folder / "next").replace(self.folder / "state")
            if sys.stderr.isatty():
                print(f"\r{end:,} of {self.limit:,} cycles, {self.read:,} rows", end="", file=sys.stderr)
        for account in self.accounts:
            account.until(self.limit)


def compare(program: str, path: Path) -> bool:
    """Whether the program's account of the whole run is that of all rows."""
    with tempfile.TemporaryDirectory() as work:
        run = Pieces(program, path, Path(work))
        run.run()
        want = [line for node, account in enumerate(run.accounts) for line in account.lines(node)]
        (Path(work) / "whole.toml").write_text(run.text)
        got = run.called("monitor", "whole.toml", "0", str(run.limit)).decode().splitlines()
    print(f"{path.name}: {len(run.accounts)} nodes, {run.limit:,} cycles, {run.read:,} rows, {len(want)} lines")
    for one, other in zip(got, want, strict=False):
        if one != other:
            print(f"monitor says {one!r}, and its rows {other!r}")
            break
    return got == want


def network(folder: Path) -> None:
    """Eight nodes that send packets and hear both neighbours, and 56 that sleep."""
    folder.mkdir(parents=True, exist_ok=True)
    shutil.copy(TOP / "examples" / "packet.hex", folder)
    shutil.copy(TOP / "bench" / "sleep.hex", folder)
    lines = ["version = 3", "cycles = 60_000_000", "latency = 100", "byte_time = 3_072"]
    for node in range(64):
        lines += ["[[node]]", f'image = "{"packet" if node < 8 else "sleep"}.hex"']
    for node in range(8):
        for other in (node - 1, node + 1):
            lines += ["[[link]]", f"from = {node}", f"to = {other % 8}"]
        lines += ["[[input]]", f"node = {node}", f"at = {1_000 + 37_111 * node}", f'hex = "{node:02x}"']
    (folder / "many.toml").write_text("\n".join(lines) + "\n")


def main() -> None:
    words = sys.argv[1:]
    if len(words) != 2:
        sys.exit(__doc__)
    if words[0] == "network":
        network(Path(words[1]))
        return
    sys.exit(0 if compare(str(Path(words[0]).resolve()), Path(words[1]).resolve()) else 1)


if __name__ == "__main__":
    if sys.argv[1:2] in (["--help"], ["-h"]):
        sys.exit(print(__doc__))
    main()
