#!/usr/bin/env python3
"""Sweeps and hunts that are cut at drawn moments and go on: is anything lost that was run?

    AVRORA_PROGRAM=PROGRAM tools/tests/drawn_cuts.py [CUTS [SEED]]

Half of the cuts are of a sweep (`--resume`), half of a hunt, both of examples/races: by ^C, by SIGTERM and by SIGKILL,
at a drawn moment from the start of the tool on. Behind each cut the files must have all that they had before it, and
all that the tool told. At the end of a sweep, or of a hunt's round, they must have what one undisturbed sitting leaves,
and no run of the sweep was made twice. Status 1 where something was lost.
"""
import json
import os
import random
import re
import shutil
import signal
import subprocess
import sys
import tempfile
import time
from dataclasses import dataclass
from pathlib import Path

HERE = Path(__file__).resolve().parent
sys.path[:0] = [str(HERE), str(HERE.parent)]

from support import LONG, TOOL, TOP  # noqa: E402

RACES = Path(TOP) / "examples" / "races"
SIGNALS = (signal.SIGINT, signal.SIGTERM, signal.SIGKILL)

# Each run of the sweep is checked for a while, so that it can be cut among them.
CHECK = """import time

def check(run):
    time.sleep(0.02)
    return None if b'A' in run.text(0) else 'no A'
"""
SWEEP = "sweep wake.toml --start 0=514_150..514_230 --until 530_000 --jobs 2 --check check.py".split()
HUNT = "hunt alarm.toml --until 700_000 --jobs 2 --rounds 1 --only starts,cuts,inputs".split()

TOTALS = re.compile(r"^(\d+) of (\d+) classes fail; (\d+) runs in .*?(?: and (\d+) before)?$", re.M)
FOUND = re.compile(r"^found after ", re.M)
ALL = sys.maxsize  # cuts


class Lost(AssertionError):
    """Something that was run is not known any more."""


def require(holds, text):
    if not holds:
        raise Lost(text)


@dataclass(frozen=True)
class Sitting:
    """What a tool told in one sitting, and by which signal that was cut, if it was."""

    out: str
    number: int | None = None


def sitting(words, moment, number):
    """Runs a tool, to which a signal is sent that many seconds from its start on, if it still runs then; at its end
    where there is no such moment."""
    with subprocess.Popen([*TOOL, *words], stdout=subprocess.PIPE, stderr=subprocess.PIPE, text=True) as process:
        try:
            out, err = process.communicate(timeout=moment or LONG)
            require(process.returncode in (0, 1), f"status {process.returncode}: {err}")
            return Sitting(out)
        except subprocess.TimeoutExpired:
            process.send_signal(number)
            out, _ = process.communicate(timeout=LONG)
            return Sitting(out, number)


def sittings(words, drawn, seconds, cuts, numbers, look):
    """Sittings until one is not cut; of the first so many each may be, within that many seconds. `look` looks at what
    is there behind each, and says whether no other is wanted. The number of those that were cut, and the last one."""
    for count in range(ALL):
        moment = drawn.uniform(0.01, seconds) if count < cuts else None
        last = sitting(words, moment, drawn.choice(numbers))
        if look(last) or last.number is None:
            return count + (last.number is not None), last
    raise AssertionError("no sitting comes to its end")


def lines_of(path):
    """The whole lines of a file that may not be there, and may have been cut in one."""
    return path.read_bytes().splitlines(keepends=True)[: path.read_bytes().count(b"\n")] if path.exists() else []


def moves_of(lines):
    return [json.loads(line.rpartition(b" ")[0]) for line in lines[1:]]


def findings_of(path):
    return json.loads(path.read_text())["findings"]


class Swept:
    """A sweep as it is where nothing cuts it, and how it is cut."""

    def __init__(self):
        for name in ("wake.toml", "wake.hex"):
            shutil.copy(RACES / name, ".")
        Path("check.py").write_text(CHECK)
        begun = time.monotonic()
        sitting([*SWEEP, "--resume", "whole", "--findings", "whole.json"], None, None)
        self.seconds = time.monotonic() - begun
        self.moves = moves_of(lines_of(Path("whole")))
        self.findings = findings_of(Path("whole.json"))

    def cut(self, drawn, cuts, numbers=SIGNALS):
        """How many sittings were cut. Raises Lost."""
        kept, findings = Path("kept"), Path("kept.json")
        for path in (kept, findings):
            path.unlink(missing_ok=True)
        before = []

        def look(it):
            now = lines_of(kept)
            require(now[: len(before)] == before, "lines of the file are gone")
            if told := TOTALS.search(it.out):
                _, ran, runs, earlier = (int(number or 0) for number in told.groups())
                require(ran == runs + earlier == len(now) - 1, f"{len(now) - 1} runs are kept: {it.out}")
            before[:] = now

        words = [*SWEEP, "--resume", str(kept), "--findings", str(findings)]
        count, last = sittings(words, drawn, self.seconds, cuts, numbers, look)
        moves = moves_of(lines_of(kept))
        require(sorted(map(str, moves)) == sorted(map(str, self.moves)), "not the same runs, or one of them twice")
        require(findings_of(findings) == self.findings, f"other findings: {last.out}")
        return count


class Hunted:
    """And a hunt of one round."""

    def __init__(self):
        for name in ("alarm.toml", "alarm.hex"):
            shutil.copy(RACES / name, ".")
        begun = time.monotonic()
        sitting([*HUNT, "--corpus", "whole.hunt"], None, None)
        self.seconds = time.monotonic() - begun
        self.failed = failed_in(Path("whole.hunt"))
        require(self.failed, "nothing fails")

    def cut(self, drawn, cuts, numbers=SIGNALS):
        corpus = Path("kept.hunt")
        shutil.rmtree(corpus, ignore_errors=True)
        before = set()

        def look(it):
            now = failed_in(corpus)
            require(before <= now, "trials of the corpus are gone")
            for number in range(1, len(FOUND.findall(it.out)) + 1):
                for name in (f"found-{number}.toml", f"found-{number}-right.toml"):
                    require((corpus / name).exists(), f"{name} is not there: {it.out}")
            before.update(now)
            return record_in(corpus).get("rounds")

        words = [*HUNT, "--corpus", str(corpus)]
        count, _ = sittings(words, drawn, self.seconds, cuts, numbers, look)
        require(failed_in(corpus) == self.failed, "other trials fail than in one sitting")
        return count


def record_in(corpus):
    return json.loads((corpus / "hunt.json").read_text()) if (corpus / "hunt.json").exists() else {}


def failed_in(corpus):
    return {json.dumps(it) for it in record_in(corpus).get("failed", [])}


def main():
    cuts = int(sys.argv[1]) if len(sys.argv) > 1 else 200
    seed = int(sys.argv[2]) if len(sys.argv) > 2 else random.randrange(1 << 30)
    drawn = random.Random(seed)
    faults = 0
    with tempfile.TemporaryDirectory() as folder:
        os.chdir(folder)
        for whole in (Swept(), Hunted()):
            made = courses = 0
            while 2 * made < cuts:
                courses += 1
                try:
                    made += whole.cut(drawn, cuts // 2 - made)
                except Lost as fault:
                    faults += 1
                    print(f"{type(whole).__name__}, course {courses}: {fault}", flush=True)
                    made += 1
            print(f"{type(whole).__name__}: {made} cuts in {courses} courses", flush=True)
        os.chdir(HERE)
    print(f"seed {seed}: {faults} times something was lost")
    return int(faults > 0)


if __name__ == "__main__":
    if sys.argv[1:2] in (["--help"], ["-h"]):
        sys.exit(print(__doc__))
    sys.exit(main())
