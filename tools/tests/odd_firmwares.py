"""Firmware of rare forms (firmware/odd.c): naked handlers, tasks that take turns, jumps that compilers and people
write,
SREG kept in odd places. Of each a sweep's classes are compared with all moves, and what the tools tell of its rows with
the rows.

    odd_firmwares.py [SEED [NAMES]]    flags and spans drawn by a seed (1); PROGRAM in AVRORA_PROGRAM

Status: 1 where something is told otherwise."""
import os
import random
import re
import sys
import tempfile
from pathlib import Path

sys.path.insert(0, str(Path(__file__).resolve().parent.parent))

from drawn_moves import FLAGS, moved
from firmware import SOURCES, compiled
from recounted import told_otherwise

NAMES = re.findall(r"(?m)^#ifdef (\w+)$", (SOURCES / "odd.c").read_text(encoding="utf-8"))


def built(name: str, folder: Path, draw: random.Random) -> str:
    """Compiles a program to moved.elf and moved.hex in a folder; with which flags."""
    (folder / "moved.c").write_bytes((SOURCES / "odd.c").read_bytes())
    flags = draw.choice(FLAGS)
    compiled(folder / "moved.c", folder, f"-D{name}", *flags)
    return " ".join(flags)


def classes(name: str, seed: int, folder: Path) -> tuple[int, str]:
    """How many classes of a program have two traces or two verdicts, and what was compared."""
    draw = random.Random(f"{seed} {name}")
    flags = built(name, folder, draw)
    wrong, said = moved(folder, draw)
    return wrong, f"{name} {flags}: {said}"


def recounts(name: str, seed: int, folder: Path) -> list[str]:
    """What the tools tell of a program otherwise than its rows."""
    draw = random.Random(f"{seed} {name} rows")
    flags = built(name, folder, draw)
    return [f"{name} {flags}: {wrong}" for wrong in told_otherwise(folder, draw)]


def main() -> int:
    seed = int(sys.argv[1]) if len(sys.argv) > 1 else 1
    failing = 0
    for name in sys.argv[2:] or NAMES:
        with tempfile.TemporaryDirectory() as folder:
            wrong, said = classes(name, seed, Path(folder))
            found = recounts(name, seed, Path(folder))
        failing += wrong > 0 or bool(found)
        print("\n".join([said, *found]), flush=True)
    print(f"{len(sys.argv[2:] or NAMES)} programs, seed {seed}: {failing} are told otherwise")
    return 1 if failing else 0


if __name__ == "__main__":
    if sys.argv[1:2] in (["--help"], ["-h"]):
        sys.exit(print(__doc__))
    os.environ.setdefault("LC_ALL", "C")
    sys.exit(main())
