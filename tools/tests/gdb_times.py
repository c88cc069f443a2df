#!/usr/bin/env python3
"""How long the real avr-gdb waits for the tool.

    tools/tests/gdb_times.py [SEED]    it needs AVRORA_PROGRAM, gcc-avr and gdb-avr

Prints a line for each measure, in milliseconds: the median, the 95th percentile and the longest.

Two networks of eight nodes over two simulated seconds, from examples/packet.c: as it stands, where nodes mostly sleep,
and with a loop instead of sleep, where all eight execute all the time."""
import os
import pathlib
import random
import shutil
import statistics
import subprocess
import sys
import tempfile
import time

sys.path[:0] = [str(pathlib.Path(__file__).resolve().parents[n]) for n in (1, 0)]

from gdb_driver import Gdb  # noqa: E402
from support import TOP  # noqa: E402

SECOND = 7_372_800  # cycles
NODES = 8
STEPS = 80
PAUSE = 0.3  # seconds, in which a user reads what gdb shows


def network(image: str) -> str:
    """Sensors in a ring, all heard by node 0 too."""
    lines = [f"version = 3\ncycles = {2 * SECOND}\nlatency = 100\nbyte_time = 3_072"]
    lines += [f'[[node]]\nimage = "{image}"' for _ in range(NODES)]
    lines += [f"[[link]]\nfrom = {node}\nto = 0" for node in range(1, NODES)]
    lines += [f"[[link]]\nfrom = {node}\nto = {1 + node % (NODES - 1)}" for node in range(1, NODES)]
    lines += [f'[[input]]\nnode = {node}\nat = {1_000 + 7_000 * node}\nhex = "{node:02X}"' for node in range(NODES)]
    return "\n".join(lines) + "\n"


def build(folder: pathlib.Path, name: str, sleeps: bool) -> None:
    source = (pathlib.Path(TOP) / "examples" / "packet.c").read_text(encoding="utf-8")
    (folder / f"{name}.c").write_text(
        source if sleeps else source.replace("sleep_mode()", 'asm volatile("nop")'), encoding="utf-8"
    )
    shutil.copy(f"{TOP}/examples/radio.h", folder)
    words = ["avr-gcc", "-mmcu=atmega128", "-Os", "-gdwarf-2", f"{name}.c", "-o", f"{name}.elf"]
    subprocess.run(words, cwd=folder, check=True)
    words = ["avr-objcopy", "-j", ".text", "-j", ".data", "-O", "ihex", f"{name}.elf", f"{name}.hex"]
    subprocess.run(words, cwd=folder, check=True)
    (folder / f"{name}.toml").write_text(network(f"{name}.hex"), encoding="utf-8")


def say(name: str, what: str, seconds: list[float]) -> None:
    ordered = sorted(1_000 * one for one in seconds)
    late = ordered[min(len(ordered) - 1, 95 * len(ordered) // 100)]
    print(
        f"{name:7} {what:42} {statistics.median(ordered):8.1f} {late:8.1f} {ordered[-1]:8.1f}  of {len(ordered)}",
        flush=True,
    )


def stand(gdb: Gdb, cycle: int) -> float:
    """Goes to a cycle, as `goto` of examples/avrora.gdb does; how long that takes."""
    return gdb.type(f"monitor goto {cycle}").seconds + gdb.type("maintenance flush register-cache").seconds


def measure(folder: pathlib.Path, name: str, draw: random.Random) -> None:
    program = os.environ["AVRORA_PROGRAM"]
    with Gdb(folder, f"{name}.elf") as gdb:
        gdb.connect(f"{name}.toml", program)
        say(name, "first goto, to 1.9 s", [stand(gdb, 19 * SECOND // 10)])
        say(name, "goto drawn", [stand(gdb, draw.randrange(2 * SECOND)) for _ in range(20)])
        for command in ("stepi", "step", "reverse-stepi", "reverse-step"):
            at_once, paused, later = [], [], []
            for number in range(8):
                stand(gdb, draw.randrange(SECOND // 10, 2 * SECOND))
                gdb.type("tbreak hear")  # the sink does, twice a byte time
                gdb.type("continue")
                time.sleep(PAUSE * (number % 2))
                (paused if number % 2 else at_once).append(gdb.type(command).seconds)
                later += [gdb.type(command).seconds for _ in range(STEPS // 8)]
            say(name, f"{command}, at once behind a breakpoint", at_once)
            say(name, f"{command}, {PAUSE} s behind it", paused)
            say(name, f"{command}, the next ones", later)
    with Gdb(folder, f"{name}.elf") as gdb:
        gdb.connect(f"{name}.toml", program)
        stand(gdb, SECOND)
        gdb.type("break __bad_interrupt")
        say(name, "continue over a second, first", [gdb.type("continue").seconds])
        stand(gdb, SECOND)
        say(name, "continue over a second, again", [gdb.type("continue").seconds])
        stand(gdb, SECOND)
        say(name, "reverse-continue over a second, first", [gdb.type("reverse-continue").seconds])
        stand(gdb, SECOND)
        say(name, "reverse-continue over a second, again", [gdb.type("reverse-continue").seconds])
        stand(gdb, 2 * SECOND)
        say(name, "monitor console, at the end", [gdb.type("monitor console").seconds])
        gdb.type("delete")
        gdb.type("watch silent if silent == 77")  # no sink comes to that
        stand(gdb, 0)
        gdb.type("delete")
        gdb.type("watch number")
        say(name, "watch, over two seconds, first", [gdb.type("continue").seconds, gdb.type("continue").seconds])
        gdb.type("delete")
        stand(gdb, SECOND)
        count = 100
        gdb.type(f"break hear if $stops++ == {count}")
        gdb.type("set $stops = 0")
        said = gdb.type("continue")
        say(name, "a breakpoint whose condition does not hold", [said.seconds / count])


def main() -> None:
    draw = random.Random(int(sys.argv[1]) if len(sys.argv) > 1 else 1)
    print(f"{'':7} {'milliseconds':42} {'median':>8} {'95 %':>8} {'longest':>8}")
    with tempfile.TemporaryDirectory() as folder:
        for name, sleeps in (("asleep", True), ("awake", False)):
            build(pathlib.Path(folder), name, sleeps)
            measure(pathlib.Path(folder), name, draw)


if __name__ == "__main__":
    if sys.argv[1:2] in (["--help"], ["-h"]):
        sys.exit(print(__doc__))
    main()
