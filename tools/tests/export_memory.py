#!/usr/bin/env python3
"""How much memory each format of `export` takes for a trace, and for one that is ten times as long.

    tools/tests/export_memory.py [CYCLES]     (else 100,000,000: 104,000 rows, and a million)

AVRORA_PROGRAM names the simulator. The trace is that of two sensors that send packets all the time, with 10,000 cycles
of
instructions; its program is compiled by avr-gcc. Told are the peaks of the processes, in MiB, and how many bytes
came."""
import os
import subprocess
import sys
import tempfile
from pathlib import Path

TOOLS = Path(__file__).resolve().parent.parent
EXAMPLES = TOOLS.parent / "examples"
WINDOW = "window = [100_000, 110_000]\n"
TIMES = 10

# Each format with its words.
FORMATS = {
    "pcapng": ["pcapng"],
    "pcapng --bytes": ["pcapng", "--bytes"],
    "callgrind": ["callgrind"],
    "folded": ["folded"],
    "speedscope": ["speedscope"],
    "lcov": ["lcov"],
    "perfetto": ["perfetto"],
    "csv": ["csv"],
}


def make(folder, cycles):
    """A scenario of so many cycles and its trace; how many rows that has."""
    lines = (EXAMPLES / "packet.toml").read_text().splitlines(keepends=True)
    kept = "".join(line for line in lines if not line.startswith(("cycles", "window")))
    scenario = Path(folder, "long.toml")
    scenario.write_text(f"cycles = {cycles}\n{WINDOW}{kept}")
    with open(f"{folder}/long.trace", "wb") as trace:
        subprocess.run(
            [os.environ["AVRORA_PROGRAM"], "run", "--plain", scenario.name], cwd=folder, stdout=trace, check=True
        )
    with open(f"{folder}/long.trace", "rb") as trace:
        return sum(1 for _ in trace)


def peak(folder, words):
    """The most memory that an export takes, in MiB, and how many bytes it writes."""
    programs = [] if words[0] in ("pcapng", "csv") else ["-e", "packet.elf"]
    every = [sys.executable, str(TOOLS), "export", *words, "-s", "long.toml", *programs, "-o", "out", "long.trace"]
    child = subprocess.Popen(every, cwd=folder)
    _, status, usage = os.wait4(child.pid, 0)
    if status:
        raise SystemExit(f"{' '.join(every)}: status {os.waitstatus_to_exitcode(status)}")
    return usage.ru_maxrss / 1024, os.path.getsize(f"{folder}/out")


def main(cycles):
    with tempfile.TemporaryDirectory(prefix="avrora-memory-") as folder:
        elf = f"{folder}/packet.elf"
        words = ["avr-gcc", "-mmcu=atmega128", "-Os", "-gdwarf-2", "-o", elf, str(EXAMPLES / "packet.c")]
        subprocess.run(words, check=True)
        subprocess.run(
            ["avr-objcopy", "-j", ".text", "-j", ".data", "-O", "ihex", elf, f"{folder}/packet.hex"], check=True
        )
        found = {}
        for length in (cycles, TIMES * cycles):
            print(f"{length:,} cycles: {make(folder, length):,} rows", flush=True)
            for name, form in FORMATS.items():
                found.setdefault(name, []).append(peak(folder, form))
        print(f"{'format':16}{'MiB':>8}{'MiB':>8}{'bytes':>14}{'bytes':>14}")
        for name, ((one, size), (other, larger)) in found.items():
            print(f"{name:16}{one:8.1f}{other:8.1f}{size:14,}{larger:14,}")


if __name__ == "__main__":
    if sys.argv[1:2] in (["--help"], ["-h"]):
        sys.exit(print(__doc__))
    main(int(sys.argv[1].replace("_", "")) if len(sys.argv) > 1 else 100_000_000)
