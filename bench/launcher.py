#!/usr/bin/env python3
"""What `./avrora` takes beside the program where nothing changed: bench/launcher.py [TURNS]

In each of the TURNS (40) it runs one cycle of one node twice: by `./avrora`, and by the program that `./avrora` built. A
line for each, and one for the difference, has milliseconds of a processor (in user mode and in the system) and by the
clock, both of the fastest run: what others do on the machine only adds to that. `./avrora` must have built its program, at
least three seconds ago. Exit status: 0 it is measured, 1 there is no such program, or one fails.
"""
import os
import resource
import subprocess
import sys
import time
from typing import NamedTuple

TOP = os.path.dirname(os.path.dirname(os.path.realpath(__file__)))
PROGRAM = f"{TOP}/crates/avrora_program/out/rlib/avrora_program"
WORDS = ["node", f"{TOP}/examples/hello.hex", "1"]
TURNS = 40


class Took(NamedTuple):
    """Seconds of a processor, and by the clock."""

    processor: float
    clock: float


def run(command: list[str]) -> Took:
    """What one run of a command takes. It must use no other program than the one that is measured beside it."""
    environment = {key: value for key, value in os.environ.items() if key != "AVRORA_PROGRAM"}
    before, began = resource.getrusage(resource.RUSAGE_CHILDREN), time.monotonic()
    subprocess.run(command, env=environment, stdin=subprocess.DEVNULL, stdout=subprocess.DEVNULL, check=True)
    clock, after = time.monotonic() - began, resource.getrusage(resource.RUSAGE_CHILDREN)
    return Took(after.ru_utime + after.ru_stime - before.ru_utime - before.ru_stime, clock)


def fastest(runs: list[Took]) -> Took:
    return Took(min(it.processor for it in runs), min(it.clock for it in runs))


def line(name: str, took: Took) -> str:
    return f"{name:<12} {1000 * took.processor:6.1f} ms of a processor, {1000 * took.clock:6.1f} ms by the clock"


def main(words: list[str]) -> int:
    turns = int(words[0]) if words else TURNS
    if not os.access(PROGRAM, os.X_OK):
        print(f"launcher: there is no program {PROGRAM}; ./avrora builds it", file=sys.stderr)
        return 1
    launched, alone = [], []
    for _ in range(turns):
        launched.append(run([f"{TOP}/avrora", *WORDS]))
        alone.append(run([PROGRAM, *WORDS]))
    both, one = fastest(launched), fastest(alone)
    print(line("./avrora", both))
    print(line("the program", one))
    print(line("beside it", Took(both.processor - one.processor, both.clock - one.clock)))
    return 0


if __name__ == "__main__":
    if sys.argv[1:2] in (["--help"], ["-h"]):
        sys.exit(print(__doc__))
    sys.exit(main(sys.argv[1:]))
