#!/usr/bin/env python3
"""Compares a program with the slow simulator beside this file, over drawn images full of loops that wait, or nearly do.

    bench/network/loops.py PROGRAM [COUNT [FIRST]]

It draws COUNT networks of eight images (100), from number FIRST (0) on. They have polls, delays and their
look-alikes, by all sources of an interrupt, with the flag I on and off, also in handlers, where lines are up. No node
hears another. The slow simulator runs a network once, and tells each instruction. `PROGRAM run --plain FILE` must
write these rows. It must also write those of a window. Windows begin in each of sixteen cycles after a jump back, so
in each cycle of a round of each loop that a node is in; one is late. Without a window it must write those rows that
are written all the same. It ends with the counts of what was compared. If a trace differs, it tells the first line
that does, keeps the files, and its exit status is 1.
"""
import random
import shutil
import subprocess
import sys
import tempfile
from bisect import bisect_left
from collections import Counter
from collections.abc import Callable
from pathlib import Path
from typing import Any, NamedTuple

import draw
import network

NODES, STARTS = 8, 16
C, Z, N, V, S, H = range(6)
TCNT0, TCCR0, OCR0, TCCR2, OCR2, TIFR, TIMSK, SREG, MCUCR = 0x32, 0x33, 0x31, 0x25, 0x23, 0x36, 0x37, 0x3F, 0x35
OCR1AL, OCR1AH, TCCR1B = 0x2A, 0x2B, 0x2E
FLAG, COUNT = 0x100, 0x101  # bytes of the SRAM
RXC, TXC, UDRE, SPIF = 7, 6, 5, 7
# What handlers use beside the sums r2 and r3: r14 to r16 and r20. r1 is 0.
STATE, FIRST = 0x3C, 0x40  # words: a call that tells UDRE; the program
TIMER_VECTORS = {7: 0x12, 6: 0x14, 4: 0x18, 3: 0x1A, 2: 0x1C, 1: 0x1E, 0: 0x20}  # by the bit of TIMSK
SPI_VECTOR, RX_VECTOR, UDRE_VECTOR, TX_VECTOR = 0x22, 0x24, 0x26, 0x28

Words = list[int]
Rows = list[tuple[int, int, str]]
word: Callable[..., int] = draw.word
out: Callable[[int, int], int] = draw.out
ldi: Callable[[int, int], int] = draw.ldi
hex_text: Callable[[Words], str] = draw.hex_text
open_network: Callable[..., Any] = network.open_network
folder_at: Callable[[Path], Any] = network.Folder
NOP, SEI, CLI, RET, RETI = word("nop"), word("bset", s=7), word("bclr", s=7), word("ret"), word("reti")


def back(words: Words) -> Words:
    """These words, and RJMP to the first."""
    return [*words, word("rjmp", k=-1 - len(words))]


def back_where(words: Words, flag: int, on: bool) -> Words:
    """These words, and a branch to the first where a flag is so."""
    return [*words, word("brbs" if on else "brbc", s=flag, k=-1 - len(words))]


def nops(rng: random.Random, most: int) -> Words:
    return [NOP] * rng.choice((0, 0, 0, rng.randrange(most + 1)))


# ---- polls


def poll(rng: random.Random, address: int, bit: int, register: int) -> Words:
    """Waits for a bit of an I/O register to be set."""
    skip = word("sbrs", r=register, b=bit)
    fill = nops(rng, 9)
    match rng.randrange(9):
        case 0 | 1:
            return back([word("sbis", A=address, b=bit)])
        case 2:
            return back([word("in_", d=register, A=address), *fill, skip])
        case 3:
            return back([*fill, word("lds", d=register), address + 0x20, skip])
        case 4:
            return back_where([word("in_", d=register, A=address), word("andi", d=register - 16, K=1 << bit), *fill], Z, True)
        case 5:
            return [ldi(30, address + 0x20), ldi(31, 0), *back([word("ldd_z", d=register, q=0), skip])]
        case 6:
            return [word("sbic", A=address, b=bit), word("rjmp", k=1), word("rjmp", k=-3)]
        case 7:
            load = [word("in_", d=register, A=address), word("bst", d=register, b=bit)]
            return back_where([*load, *fill], 6, False)
        case _:
            copy = [word("in_", d=register, A=address), word("mov", d=register + 1, r=register)]
            return back([*copy, *fill, word("sbrs", r=register + 1, b=bit)])


def poll_port(rng: random.Random, at: int, register: int) -> Words:
    """Sends by USART0 or the SPI and waits."""
    match rng.randrange(6):
        case 0 | 1:
            return [out(draw.UDR, 2)] * rng.randrange(1, 3) + poll(rng, draw.UCSRA, UDRE, register)
        case 2:
            return [word("sbi", A=draw.UCSRA, b=TXC), out(draw.UDR, 3), *poll(rng, draw.UCSRA, TXC, register)]
        case 3:
            head = [out(draw.UDR, 2), out(draw.UDR, 3)]
            call = word("rcall", k=STATE - at - len(head) - 1)
            return head + back_where([call, word("and_", d=24, r=24)], Z, True)
        case _:
            read = [word("in_", d=register, A=draw.SPDR), word("eor", d=2, r=register)]
            return [out(draw.SPDR, 2), *poll(rng, draw.SPSR, SPIF, register), *read]


def poll_flag(rng: random.Random, register: int) -> Words:
    """Waits for a timer's flag, for its count, or for a byte that handlers set."""
    match rng.randrange(4):
        case 0:
            bit = rng.choice((0, 1, 7))
            return [ldi(register, 1 << bit), out(TIFR, register), *poll(rng, TIFR, bit, register)]
        case 1:
            count = [word("in_", d=register, A=TCNT0), word("cpi", d=register - 16, K=rng.randrange(1, 20))]
            return back_where(count, C, True)
        case 2:
            test = [word("lds", d=register), FLAG, word("and_", d=register, r=register)]
            return [word("sts", r=1), FLAG, *back_where(test + nops(rng, 5), Z, True)]
        case _:
            return back([word("lds", d=register), FLAG, word("sbrc", r=register, b=0), word("rjmp", k=1), word("cpse", d=register, r=register)])


# ---- delays


def by_byte(rng: random.Random, register: int) -> Words:
    start = [ldi(register, rng.choice((rng.randrange(1, 9), rng.randrange(256), rng.randrange(256))))]
    kind = rng.choice(("dec", "dec", "dec", "inc", "subi"))
    step = word("subi", d=register - 16, K=1) if kind == "subi" else word(kind, d=register)
    ends = rng.choice(((Z, False), (Z, False), (Z, False), (N, False), (V, False), (S, rng.random() < 0.5), (N, True), (H, False), (C, False)))
    fill = nops(rng, 8)
    if rng.random() < 0.2:
        return [*start, *back([step, *fill, word("brbs", s=Z, k=1)])]
    return [*start, *back_where([step, *fill], *ends)]


def by_pair(rng: random.Random, pair: int) -> Words:
    value = rng.choice((rng.randrange(1, 9), rng.randrange(600), 0x8000 + rng.randrange(-2, 300), 0x1000 + rng.randrange(-2, 300)))
    start = [ldi(pair, value % 256), ldi(pair + 1, value // 256)]
    d = pair - 24 >> 1
    ends = rng.choice(((Z, False), (Z, False), (N, False), (V, False), (C, False), (S, True), (H, False)))
    match rng.randrange(5):
        case 0 | 1:
            return start + back_where([word("sbiw", d=d, K=rng.choice((1, 1, 1, 2))), *nops(rng, 4)], *ends)
        case 2:
            return start + back_where([word("adiw", d=d, K=1), word("cpi", d=pair - 15, K=value // 256 + 1 & 0xFF)], Z, False)
        case 3:
            compare = [word("cp", d=pair, r=1), word("cpc", d=pair + 1, r=1)]
            return start + back_where([word("sbiw", d=d, K=1), *compare], Z, False)
        case _:
            more = [ldi(22, rng.choice((0, 0, 1))), ldi(23, 0)][: rng.randrange(3)]
            carries = [word("sbci", d=6 + place, K=0) for place in range(len(more))]
            step = [word("subi", d=pair - 16, K=1), word("sbci", d=pair - 15, K=0), *carries, *nops(rng, 4)]
            return start + more + back_where(step, *ends)


def by_memory(rng: random.Random, register: int) -> Words:
    """A counter in the SRAM; two loops, one in the other."""
    if rng.random() < 0.5:
        start = [ldi(register, rng.randrange(1, 30)), word("sts", r=register), COUNT]
        load = [word("lds", d=register), COUNT, word("dec", d=register), word("sts", r=register), COUNT]
        return start + back_where(load, Z, False)
    inner = [ldi(register + 1, rng.randrange(1, 9)), *back_where([word("dec", d=register + 1)], Z, False)]
    return [ldi(register, rng.randrange(1, 9)), *back_where([*inner, word("dec", d=register)], Z, False)]


# ---- images


def piece(rng: random.Random, at: int) -> Words:
    """A loop that begins at the word `at`, and what it left, added to r2 and r3."""
    register = rng.choice((17, 18))
    pair = rng.choice((24, 26, 28, 30))
    bare = rng.random() < 0.25  # with the flag I off
    head = [CLI] if bare else []
    match rng.randrange(8):
        case 0 | 1:
            body = poll_port(rng, at + len(head), register)
        case 2:
            body = poll_flag(rng, register)
        case 3 | 4:
            body = by_byte(rng, register)
        case 5 | 6:
            body = by_pair(rng, pair)
        case _:
            body = by_memory(rng, register)
    told = [word("in_", d=0, A=SREG), word("eor", d=2, r=0), word("add", d=2, r=register), word("adc", d=3, r=pair)]
    return head + body + ([SEI] if bare and rng.random() < 0.8 else []) + told


def handler(rng: random.Random, vector: int, at: int) -> Words:
    """What begins at the word `at` for an interrupt: it may wait, and let others in."""
    saves = rng.random() < 0.6
    words = [word("in_", d=15, A=SREG)] if saves else []
    if vector == RX_VECTOR:
        words += [word("in_", d=14, A=draw.UDR), word("eor", d=3, r=14)]
    if vector == UDRE_VECTOR:
        words += [out(draw.UDR, 2)] if rng.random() < 0.7 else [word("cbi", A=draw.UCSRB, b=UDRE)]
    if rng.random() < 0.5:
        words += [word("in_", d=14, A=rng.choice((SREG, TCNT0))), word("add", d=3, r=14)]
    if rng.random() < 0.5:
        words += [ldi(20, 1), word("sts", r=20), FLAG]
    if rng.random() < 0.12:
        words.append(SEI)
    match rng.randrange(6):
        case 0 | 1:
            words += by_byte(rng, 20)
        case 2:
            words += poll_port(rng, at + len(words), 20)
        case 3:
            words += poll(rng, draw.UCSRA, UDRE, 20)
    if rng.random() < 0.15:
        words.append(out(rng.choice((TIMSK, draw.UCSRB)), 1))
    return [*words, *([out(SREG, 15)] if saves else []), RETI if rng.random() < 0.95 else RET]


def set_to(address: int, byte: int) -> Words:
    return [ldi(16, byte), out(address, 16)]


def timers(rng: random.Random) -> tuple[Words, int]:
    """Starts timers 0 to 2, and TIMSK."""
    mode = rng.choice((0, 8, 8))
    values = (0, rng.randrange(1, 4), rng.randrange(4, 40), rng.randrange(40, 256))
    words = set_to(OCR0, rng.choice(values)) + set_to(TCCR0, mode | rng.choice((1, 1, 2)))
    if rng.random() < 0.4:
        words += set_to(OCR2, rng.choice(values[1:])) + set_to(TCCR2, rng.choice((8, 0)) | rng.choice((1, 2)))
    if rng.random() < 0.4:
        words += set_to(OCR1AH, rng.choice((0, 0, 1))) + set_to(OCR1AL, rng.randrange(256)) + set_to(TCCR1B, rng.choice((1, 2, 8, 9)))
    bits = rng.choice((0, 0x02, 0x02, 0x01, 0x03, 0x82, rng.randrange(256) & 0xDF))
    return words + set_to(TIMSK, bits), bits


def image(rng: random.Random) -> Words:
    """A program that waits, with its handlers."""
    words = [RETI] * STATE + [word("lds", d=24), draw.UCSRA + 0x20, word("andi", d=8, K=1 << UDRE), RET]
    started, bits = timers(rng) if rng.random() < 0.8 else ([], 0)
    enabled = 0x18 | rng.choice((0, 0, 0x80, 0x20, 0x40, 0xA0))
    transfers = 0x50 | rng.choice((0, 0, 1)) | rng.choice((0, 0, 0x80))
    words += set_to(draw.SPH, 0x10) + set_to(draw.SPL, 0xFF) + set_to(draw.SPCR, transfers) + set_to(draw.SPSR, rng.randrange(2))
    words += set_to(draw.UBRR, rng.choice((0, 0, rng.randrange(4)))) + set_to(draw.UCSRA, rng.choice((0, 2))) + set_to(draw.UCSRB, enabled)
    words += started + ([SEI] if rng.random() < 0.7 else [])
    top = len(words)
    for _ in range(rng.randrange(1, 7)):
        words += piece(rng, len(words))
    words += [out(draw.UDR, 2), out(draw.UDR, 3)] if rng.random() < 0.6 else []
    words.append(word("rjmp", k=top - len(words) - 1 if rng.random() < 0.85 else -1))
    vectors = [vector for bit, vector in TIMER_VECTORS.items() if bits >> bit & 1]
    ports = ((transfers, 7, SPI_VECTOR), (enabled, 7, RX_VECTOR), (enabled, 5, UDRE_VECTOR), (enabled, 6, TX_VECTOR))
    vectors += [vector for register, bit, vector in ports if register >> bit & 1]
    for vector in vectors:
        words[vector] = word("rjmp", k=len(words) - vector - 1)
        words += handler(rng, vector, len(words))
    words[0] = word("rjmp", k=FIRST - 1)
    return words


# ---- networks


class Drawn(NamedTuple):
    """A scenario without its window, its limit, and its images by their names."""

    text: str
    limit: int
    images: dict[str, str]


class Drawing(NamedTuple):
    """A kind of drawn images: its name, and what draws one."""

    name: str
    image: Callable[[random.Random], Words]


def drawn(drawing: Drawing, number: int) -> Drawn:
    """The drawn network with this number."""
    rng = random.Random(f"{drawing.name} {number}")
    limit = rng.randrange(400, 1_600)
    images = {f"{k}.hex": hex_text(drawing.image(rng)) for k in range(NODES)}
    latency = rng.choice((rng.randrange(1, 100), rng.randrange(1, 3_000), 65_535))
    lines = [f"cycles = {limit}", f"latency = {latency}"]
    lines += [f'[[node]]\nimage = "{name}"' for name in images]
    for k in range(NODES):
        data = rng.randbytes(rng.randrange(1, 9)).hex()
        lines += [f'[[input]]\nnode = {k}\nat = {rng.randrange(limit)}\nevery = {rng.choice((1, rng.randrange(1, 200)))}\nhex = "{data}"']
    return Drawn("\n".join(lines) + "\n", limit, images)


class Told:
    """The rows of a run in which each instruction is told, and those of them that a window leaves."""

    def __init__(self, rows: Rows):
        own = [place for place, (_, _, text) in enumerate(rows) if text.startswith(("instr", "enter"))]
        self.lines = [f"{cycle} {node} {text}\n" for cycle, node, text in rows]
        self.own, self.cycles = own, [rows[place][0] for place in own]
        within = set(own)
        self.others = [place for place in range(len(rows)) if place not in within]

    def trace(self, first: int, end: int) -> bytes:
        own = self.own[bisect_left(self.cycles, first) : bisect_left(self.cycles, end)]
        return "".join(self.lines[place] for place in sorted(own + self.others)).encode()


def windows(number: int, limit: int, rows: Rows) -> list[tuple[int, int]]:
    """The whole run, none of it, its last cycles, and windows from sixteen cycles on behind a jump back."""
    rng = random.Random(f"windows {number}")
    jumps = [cycle for cycle, _, text in rows if " .-" in text and cycle < limit - STARTS]
    first = rng.choice(jumps) if jumps else 0
    found = [(0, limit), (0, 0), (max(0, limit - 10), limit)]
    for start in range(first, first + STARTS):
        found.append((start, min(limit, start + rng.choice((0, 1, 2, 3, rng.randrange(4, 40))))))
    return found


def difference(folder: Path, program: str, expected: bytes) -> str | None:
    done = subprocess.run([program, "run", "--plain", "net.toml"], cwd=folder, capture_output=True, check=False)
    if (done.returncode, done.stdout, done.stderr) == (0, expected, b""):
        return None
    want, got = expected.splitlines(), done.stdout.splitlines()
    place = next((i for i, (a, b) in enumerate(zip(want, got)) if a != b), min(len(want), len(got)))
    return f"status {done.returncode}, {done.stderr!r}; line {place + 1}: expected {want[place:place + 1]}, got {got[place:place + 1]}"


def count_of(rows: Rows, counts: Counter[str]) -> None:
    """Counts rows, and entries that come one instruction behind RETI: their line was up before."""
    last: dict[int, list[str]] = {node: ["", ""] for node in range(NODES)}
    for _, node, text in rows:
        kind = text.split()[0]
        counts["rows: " + kind] += 1
        if kind == "enter":
            counts["entries of a line that was up in a handler"] += last[node][0].endswith(" reti")
        last[node] = [last[node][1], text]


def compared(drawing: Drawing, number: int, folder: Path, program: str, counts: Counter[str]) -> bool:
    """Whether all traces of the network with this number are as they are to be."""
    it = drawn(drawing, number)
    folder.mkdir()
    for name, text in it.images.items():
        (folder / name).write_text(text)
    scenario = folder / "net.toml"
    scenario.write_text(it.text)
    slow = open_network(folder_at(folder), "net.toml")
    for node in slow.nodes:
        node.window = (0, it.limit)
    slow.run()
    told = Told(slow.rows)
    counts["images"] += NODES
    counts["cycles of nodes"] += it.limit * NODES
    count_of(slow.rows, counts)
    for first, end in windows(number, it.limit, slow.rows):
        scenario.write_text(f"window = [{first}, {end}]\n{it.text}")
        counts["traces"] += 1
        found = difference(folder, program, told.trace(first, end))
        if found:
            print(f"{folder}: window {first} to {end}: {found}")
            return False
    return True


def main(words: str | None, drawing: Drawing) -> None:
    """Compares as the words say, over images of this kind."""
    if len(sys.argv) < 2:
        sys.exit(words)
    program = str(Path(sys.argv[1]).resolve())
    count, first = (int(given) for given in (sys.argv[2:] + ["100", "0"][len(sys.argv) - 2 :])[:2])
    top = Path(tempfile.mkdtemp(prefix=f"{drawing.name}."))
    counts: Counter[str] = Counter()
    different = 0
    for number in range(first, first + count):
        folder = top / f"{number}"
        if compared(drawing, number, folder, program, counts):
            shutil.rmtree(folder)
        else:
            different += 1
    for name, value in sorted(counts.items()):
        print(f"{name}: {value}")
    print(f"different: {different}" + (f" (files in {top})" if different else ""))
    if not different:
        shutil.rmtree(top)
    sys.exit(1 if different else 0)


if __name__ == "__main__":
    if sys.argv[1:2] in (["--help"], ["-h"]):
        sys.exit(print(__doc__))
    main(__doc__, Drawing("loops", image))
