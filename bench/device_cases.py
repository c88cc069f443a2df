#!/usr/bin/env python3
"""Writes data/registers.txt, data/selects.txt and data/lagging.txt of crates/command_facts. They have what every I/O
register reads after a write, or why the write stops; when each timer has its events after each of its clock selects;
and accesses to the board as a node runs it, between stretches of cycles.

    python3 bench/device_cases.py crates/command_facts

The answers are those of bench/machine.py, which is docs/MACHINE.md once more. This script also looks for what the
machine stops for: to each register that some write stops, it writes each bit alone, and the largest byte that does
not stop.
"""
import random
import sys
from pathlib import Path

from machine import Board, Core, OTHERS, Stop, TIMER_0

REGISTERS = """\
# Every I/O register by its data address: what it reads after a write, or why the write stops.
#
# Source: the rules of docs/MACHINE.md, as bench/machine.py has them; bench/device_cases.py writes this file.
#
# board new: a core and a board after reset. board put ADDRESS BYTE, board get ADDRESS: a register written and read, in cycle 0;
# gives the byte, or the stop. A write that stops leaves the register as it was.
#
# 0xFF and 0x00 are written at each address from 0x20 on. Where 0xFF stops, so are each bit alone and the largest byte that
# does not stop.
"""

SELECTS = """\
# The first event of each timer behind each clock select, from cycle 0 and from cycle 1000 on; and on the board the first
# cycle behind which each timer's flag reads as set, by the addresses of its registers.
#
# Source: the table of clock selects of docs/MACHINE.md, as bench/machine.py has it; bench/device_cases.py writes this file.
#
# The lines are those of timer8.txt, timer16.txt and registers.txt; board tick FROM N: the N cycles of the board from a cycle on.
# Each timer returns to 0 at its compare value 2, so its third clock sets the flag. The compare values B and C are others.
"""

LAGGING = """\
# The board as a node runs it, whose timers do their cycles once somebody looks at them: accesses between stretches of cycles.
#
# Source: the rules of docs/MACHINE.md, as bench/machine.py has them, which does every cycle of every timer; bench/device_cases.py
# draws the accesses and writes this file.
#
# lagging new: at reset, in cycle 0. put ADDRESS BYTE, get ADDRESS: a register, in the cycle that was reached. to CYCLE: the
# cycles below that one, as a node passes them; no further than one in which USART0 sends a byte (gives the cycle and the byte),
# the radio sends one (`sends BYTE`) or samples the air (asks: it hears status 1, byte 42, age 3). lines: the interrupt lines,
# line n at bit n; enter WORD: the interrupt of that vector is served.
"""


def put(core, at, x):
    try:
        core.store(at, x)
    except Stop as stop:
        return stop.cause
    return None


def get(core, at):
    try:
        return f"{core.load(at):02X}"
    except Stop as stop:
        return stop.cause


def fresh():
    return Core(Board(512), bytearray(131072))


def written(at, x):
    core = fresh()
    cause = put(core, at, x)
    lines = ["board new", f"board put {at:02X} {x:02X}" + (f" gives {cause}" if cause else "")]
    return lines + [f"board get {at:02X} gives {get(core, at)}"]


def registers():
    lines = []
    for at in range(0x20, 0x100):
        values = [0xFF, 0x00]
        if put(fresh(), at, 0xFF) and put(fresh(), at, 0x00) is None:
            values += [1 << n for n in range(8)]
            values.append(max(x for x in range(256) if put(fresh(), at, x) is None))
        # SPE without MSTR, and WDE without WDCE
        values += {0x2D: [0x40, 0xEF], 0x41: [0x08, 0xEF]}.get(at, [])
        lines.append("")
        for x in dict.fromkeys(values):
            lines += written(at, x)
    return lines


def first_event(divider, start):
    """The cycle from `start` on that the third clock from there on ends."""
    clocks = [c for c in range(start, start + 4 * divider + 4) if (c + 1) % divider == 0]
    return clocks[2]


def selects():
    lines = []
    for number, dividers in ((0, TIMER_0), (2, OTHERS)):
        lines += ["", f"# timer {number}"]
        for select, divider in enumerate(dividers):
            lines += [f"timer8 new {number}", "timer8 put compare 02", f"timer8 put control {8 | select:02X}"]
            for start in (0, 1000):
                lines.append(f"timer8 next {start} gives {first_event(divider, start) if divider else 'none'}")
    lines += ["", "# timers 1 and 3"]
    for select, divider in enumerate(OTHERS):
        lines += ["timer16 new", "timer16 put a_l 02", "timer16 put b_l 04", "timer16 put c_l 05", f"timer16 put control_b {8 | select:02X}"]
        for start in (0, 1000):
            lines.append(f"timer16 next {start} gives {first_event(divider, start) if divider else 'none'}")
    # timer: control, compare A, other compare values, flag register, flag A
    board = {0: (0x53, 0x51, [], 0x56, 0x02), 1: (0x4E, 0x4A, [0x48, 0x78], 0x56, 0x10),
             2: (0x45, 0x43, [], 0x56, 0x80), 3: (0x8A, 0x86, [0x84, 0x82], 0x7C, 0x10)}
    for number, (control, compare, others, flags, a) in board.items():
        lines += ["", f"# timer {number} on the board"]
        for select, divider in enumerate(TIMER_0 if number == 0 else OTHERS):
            if not divider:
                continue
            core, text = fresh(), ["board new"]
            for at, x in [(compare, 2)] + [(o, 4 + n) for n, o in enumerate(others)] + [(control, 8 | select)]:
                core.store(at, x)
                text.append(f"board put {at:02X} {x:02X}")
            end = first_event(divider, 0)
            for cycle in range(end + 1):
                if cycle == end:
                    text += [f"board tick 0 {end}", f"board get {flags:02X} gives {core.load(flags):02X}"]
                for t in core.bus.t:
                    t.tick(cycle)
            text += [f"board tick {end} 1", f"board get {flags:02X} gives {core.load(flags):02X}"]
            assert core.load(flags) == a
            lines += text
    return lines


# Registers that are written, with the bytes that are drawn for them: timers of short rounds, short frames and transfers. Each is a
# list of accesses that are drawn together.
MASKS = {0x57: [0xDF, 0x9B, 0x45, 0], 0x7D: [0x1F, 0x1B, 0x15, 0], 0x56: [0xFF, 0x82, 0x10, 0x41], 0x7C: [0x3F, 0x12, 0x05]}
PARTS = [
    MASKS | {0x53: [1, 9, 2, 10, 3, 11, 15, 0], 0x51: range(40), 0x52: range(256)},
    MASKS | {0x45: [1, 9, 2, 10, 3, 11, 13, 0], 0x43: range(40), 0x44: range(256)},
    MASKS | {0x4E: [1, 9, 25, 2, 10, 26], 0x4A: range(60), 0x48: range(60), 0x78: range(60), 0x46: range(60)}
    | {0x4D: [0, 0xFF], 0x4C: range(256)},
    MASKS | {0x8A: [1, 9, 25, 2, 10, 26], 0x86: range(60), 0x84: range(60), 0x82: range(60), 0x80: range(60)}
    | {0x89: [0, 0xFF], 0x88: range(256)},
    {0x2A: [0x08, 0x28, 0x48, 0x68], 0x29: range(3), 0x2B: [0, 2, 0x40, 0x42], 0x95: [0, 2, 6, 8], 0x2C: range(256)},
    {0x2D: [0x50, 0xD0, 0xD0, 0xD1], 0x2E: [0, 1], 0x2F: [1, 2, 0x5A], 0x38: [0, 0, 0, 1]},
]
# What is written first: a timer runs, USART0 sends, the radio is selected.
FIRST = [
    [(0x57, 0xDF), (0x53, 9), (0x51, 30)], [(0x57, 0xDF), (0x45, 2)], [(0x57, 0xDF), (0x4E, 9), (0x4A, 50)],
    [(0x7D, 0x1F), (0x8A, 1), (0x89, 0xFF), (0x88, 0x80)], [(0x2A, 0x48), (0x2C, 0x7E)], [(0x2D, 0xD0), (0x37, 1), (0x2F, 1)],
]
# The registers whose byte is written most.
DATA = {4: 0x2C, 5: 0x2F}
READ = [0x52, 0x44, 0x4C, 0x4D, 0x88, 0x89, 0x56, 0x7C, 0x2B, 0x2E, 0x2F, 0x51, 0x4A, 0x46, 0x80]
STRETCHES = [1, 1, 2, 3, 5, 8, 13, 40, 100, 300, 1000, 1000]


def cycle_of(board):
    """One cycle of the devices, and what it gives where that ends the stretch."""
    at = board.cycle
    for timer in board.t:
        timer.tick(at)
    serial = board.tick_usart(at, None)
    sent, asks = board.end_transfer(at)
    board.cycle += 1
    if asks:
        board.answers = [1, 0x42, 3]
        return "asks"
    if serial is not None:
        return f"{at} {serial:02X}"
    return None if sent is None else f"sends {sent:02X}"


def stretch(board, to):
    while board.cycle < to:
        event = cycle_of(board)
        if event:
            return event
    return None


def drawn_access(rnd, core, parts):
    """One line, and what it does to the machine."""
    board, kind = core.bus, rnd.randrange(12)
    if kind < 4:
        part = rnd.choice(parts)
        at = DATA[part] if part in DATA and rnd.randrange(3) else rnd.choice(list(PARTS[part]))
        x = rnd.choice(list(PARTS[part][at]))
        cause = put(core, at, x)
        return f"put {at:02X} {x:02X}" + (f" gives {cause}" if cause else "")
    if kind < 8:
        to = board.cycle + rnd.choice(STRETCHES)
        event = stretch(board, to)
        return f"to {to}" + (f" gives {event}" if event else "")
    if kind < 9:
        at = rnd.choice(READ)
        return f"get {at:02X} gives {get(core, at)}"
    asking = board.asks()
    if kind == 10 and asking:
        vector = min(asking)
        board.entered(asking[vector])
        return f"enter {vector:04X}"
    return f"lines gives {sum(1 << vector // 2 for vector in asking):08X}"


def lagging():
    rnd, lines = random.Random(44), []
    for parts in [[0], [1], [2], [3], [4], [5], [5], [0, 5], [2, 4], [3, 5], [1, 4, 5], [0, 1, 2, 3]]:
        core = fresh()
        lines += ["", "lagging new"]
        for at, x in [first for part in parts for first in FIRST[part]]:
            assert put(core, at, x) is None
            lines.append(f"lagging put {at:02X} {x:02X}")
        lines += ["lagging " + drawn_access(rnd, core, parts) for _ in range(60)]
        lines += [f"lagging get {at:02X} gives {get(core, at)}" for at in READ]
    return lines


def main():
    folder = Path(sys.argv[1]) / "data"
    files = ("registers.txt", REGISTERS, registers()), ("selects.txt", SELECTS, selects()), ("lagging.txt", LAGGING, lagging())
    for name, head, lines in files:
        (folder / name).write_text(head + "\n".join(lines) + "\n")
        count = sum(1 for line in lines if line and not line.startswith("#"))
        print(f"{name}: {count} lines")


if __name__ == "__main__":
    if sys.argv[1:2] in (["--help"], ["-h"]):
        sys.exit(print(__doc__))
    main()
