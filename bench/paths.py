#!/usr/bin/env python3
"""What a long path costs: bench/paths.py [PROGRAM] times loops of so many register instructions, all of one kind or drawn.

Each instruction is executed by a jump through a table, and the host's processor guesses where that goes from the
jumps before it. It guesses a loop of one kind however long it is. Of a drawn one it remembers so many jumps, and
beyond that most guesses are wrong: no count of instructions tells it. A line for each length has the nanoseconds of
an instruction, of the fastest of fifteen runs of 20,000,000 cycles. If a C compiler, Debian's libsimavr-dev and
avr-objcopy are installed, it also has those of the drawn loop on simavr, of the fastest of three runs. PROGRAM is one
that was built (without it, that of ./avrora). It takes a minute.
"""
import random
import shutil
import subprocess
import sys
import tempfile
from pathlib import Path

from turns import run

TOP = Path(__file__).resolve().parent.parent
CYCLES = 20_000_000
RUNS, PEER_RUNS = 15, 3
LENGTHS = (100, 1_000, 2_000, 8_000, 30_000)  # in instructions; the flash has 65,536 words
TWO = "add adc sub sbc and or eor mov cp cpc".split()
ONE = "inc dec com neg swap lsr ror asr".split()
CONSTANT = "subi sbci andi ori ldi cpi".split()


def drawn(draw):
    """An instruction of one cycle that reads and writes registers and flags alone."""
    kind = draw.choice(TWO + ONE + CONSTANT)
    if kind in TWO:
        return f"{kind} r{draw.randrange(16)}, r{draw.randrange(16)}"
    if kind in ONE:
        return f"{kind} r{draw.randrange(16)}"
    return f"{kind} r{draw.randrange(16, 32)}, {draw.randrange(256)}"


def peer_in(folder):
    """simavr's program, made in the folder, or None where something for it is missing."""
    peer = folder / "peer"
    if shutil.which("cc") and shutil.which("avr-objcopy"):
        made = subprocess.run(["cc", "-O2", "-w", "-o", peer, TOP / "bench/peer.c", "-lsimavr"], capture_output=True)
        return peer if made.returncode == 0 else None
    return None


def assemble(program, folder, body):
    """The image and the scenario of a loop over `body`."""
    source = folder / "path.s"
    source.write_text("again:\n" + "\n".join(body) + "\njmp again\n")
    image = subprocess.run([program, "asm", source], check=True, capture_output=True).stdout
    (folder / "path.hex").write_bytes(image)


def nanoseconds(command, runs):
    """Those of one cycle of the fastest run."""
    return min(run(command) for _ in range(runs)) / CYCLES * 1e9


def main(words):
    program = Path(words[0] if words else TOP / "crates/avrora_program/out/rlib/avrora_program").resolve()
    if not program.is_file():
        sys.exit(f"{program}: no program; ./avrora builds it")
    with tempfile.TemporaryDirectory() as name:
        folder = Path(name)
        peer = peer_in(folder)
        (folder / "path.toml").write_text(f'version = 3\ncycles = {CYCLES}\nnode = [{{ image = "{folder}/path.hex" }}]\n')
        ours = [program, "run", "--plain", folder / "path.toml"]
        for length in LENGTHS:
            draw = random.Random(length)
            assemble(program, folder, ["add r1, r2"] * length)
            one = nanoseconds(ours, RUNS)
            assemble(program, folder, [drawn(draw) for _ in range(length)])
            line = f"{length:,} instructions: of one kind {one:.2f} ns each, drawn {nanoseconds(ours, RUNS):.2f} ns"
            if peer:
                subprocess.run(["avr-objcopy", "-I", "ihex", "-O", "binary", folder / "path.hex", folder / "path.bin"], check=True)
                line += f", simavr {nanoseconds([peer, folder / 'path.bin', str(CYCLES)], PEER_RUNS):.2f} ns"
            print(line, flush=True)


if __name__ == "__main__":
    if sys.argv[1:2] in (["--help"], ["-h"]):
        sys.exit(print(__doc__))
    main(sys.argv[1:])
