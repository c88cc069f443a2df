"""Makes each move of a sweep, and not one of each class, and compares whole traces: no class may have two.

    classes_against_moves.py WORDS    the words of `avrora-tools sweep`; PROGRAM in AVRORA_PROGRAM

Instructions are traced from the span on for 20,000 cycles; all other rows, and the count of instructions in the end
rows, are those of the whole run. Also told: how many traces there are in all (classes are split needlessly where there
are fewer), and that a class fails with all of its moves or with none. Status: 1 where a class has two traces or two
verdicts."""
import hashlib
import re
import sys
import time
from pathlib import Path

sys.path.insert(0, str(Path(__file__).resolve().parent.parent))

from avrora_tools.cli import Parser
from avrora_tools.commands import sweep as command
from avrora_tools.scenarios import MAX_WINDOW
from avrora_tools.sweeping.sweep import Sweep

TRACED = re.compile(rb"^\d+ \d+ (?:instr|enter) .*\n", re.MULTILINE)


def compare(sweep: Sweep) -> int:
    """How many classes have two traces, or two verdicts."""
    first = sweep.scenario.moved[-1].span.first
    window = (first, min(first + MAX_WINDOW, sweep.scenario.until))
    moves = [(cell, (*cell.before, x)) for cell in sweep.cells for x in cell.arrivals.moves]
    traces: dict[object, set[bytes]] = {}
    verdicts: dict[object, set[bool]] = {}
    failing = 0
    begun = time.monotonic()
    for (cell, move), output in zip(moves, sweep.tails.outputs((move, window) for _, move in moves)):
        traces.setdefault(cell, set()).add(hashlib.blake2b(output).digest())
        fails = sweep.check.failure(move, TRACED.sub(b"", output)) is not None
        verdicts.setdefault(cell, set()).add(fails)
        failing += fails
    mixed = sum(len(of_class) > 1 for of_class in traces.values())
    split = sum(len(of_class) > 1 for of_class in verdicts.values())
    different = len(set().union(*traces.values()))
    fail = sum(True in of_class for of_class in verdicts.values())
    print(
        f"{len(moves)} moves, {failing} fail; {len(traces)} classes, {fail} fail; {different} different traces; "
        f"{mixed} classes "
        f"with two traces, {split} with two verdicts; {time.monotonic() - begun:.0f} s",
        flush=True,
    )
    return mixed + split


def main() -> int:
    parser = Parser(prog="classes_against_moves.py")
    command.configure(parser)
    with command.prepared(parser.parse_args()) as sweep:
        return 1 if compare(sweep) else 0


if __name__ == "__main__":
    sys.exit(main())
