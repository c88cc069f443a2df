#!/usr/bin/env python3
"""Reads and writes states as docs/FORMATS.md has them ("States"): what a text says, or the fault of its first faulty line; and the text of a state.

    bench/network/states.py check SCENARIO STATE     writes `ok`, or the fault as the program tells it

It is written from that document alone.
"""
import re
import sys
from pathlib import Path

EPOCH, MOST_STATE, END_MOST = 262_144, 4_194_304, 2**41
TITLE = "avrora state 1"
CORE, TIMERS, PORTS, IO_BYTES, SRAM_BYTES = 41, 38, 29, 224, 4_096
IO_FIRST = 0x20
NUMBER, TWO_DIGITS = re.compile(rb"0|[1-9][0-9]*"), re.compile(rb"[0-9A-F]{2}")

# Of the registers that keep a byte themselves, the bits that can be set.
ALL = """22 23 27 31 32 34 35 37 38 3A 3B 3D 3E 3F 42 5A 61 62 6A 6C 6D 6F 70 71 72 73 98 99 9B 9C 9D"""
IO_BITS = {int(at, 16): 0xFF for at in ALL.split()} | {0x26: 0x3F, 0x28: 0xC3, 0x40: 0x0C, 0x54: 0x81, 0x55: 0x7C, 0x57: 0xDF}
IO_BITS |= {0x5C: 0x7F, 0x64: 0x1F, 0x65: 0x1F, 0x74: 0xFB, 0x7D: 0x1F, 0x9A: 0xE7}


class Fault(Exception):
    """A text that is no state: the cause, and the line, 0 where none is told."""

    def __init__(self, cause, line=0):
        super().__init__(f"{cause}, line {line}" if line else cause)


class Rules:
    """What the bounds of a state take from its scenario."""

    def __init__(self, document):
        self.nodes, self.limit = len(document["node"]), document["cycles"]
        self.byte_time, latency = document.get("byte_time", 3072), document.get("latency", 3072)
        self.longest = max([latency] + [link.get("latency", latency) for link in document.get("link", [])])

    def can_be_heard(self, sent, cycle):
        return sent < cycle < sent + self.longest + self.byte_time


class Saved:
    """What a state says. `nodes` has for each node the numbers of its three lines, its bytes of I/O and its SRAM; `sends`
    has node, cycle and byte of each."""

    def __init__(self, cycle, nodes, sends):
        self.cycle, self.nodes, self.sends = cycle, nodes, sends


class SavedNode:
    def __init__(self, core, timers, ports, io, sram):
        self.core, self.timers, self.ports, self.io, self.sram = core, timers, ports, io, sram


# ---- the bounds: for each number of a line the greatest that it can be, or the values that it can have

BYTE, WORD, FLAG = 255, 65_535, 1


def core_bounds():
    return [BYTE] * 33 + [WORD, WORD, FLAG, 7, FLAG, FLAG, 26, 2**40]


def timers_bounds():
    small = [BYTE, BYTE, FLAG, FLAG, FLAG]
    control2 = [byte for byte in range(16) if byte % 8 <= 5]
    control16 = [byte for byte in range(256) if not byte & 0x20 and byte % 8 <= 5 and byte >> 3 & 3 != 2]
    large = [control16] + [WORD] * 5 + [BYTE] + [FLAG] * 6
    return [15] + small + [control2] + small + large + large


def ends(there, first):
    """What the end of a frame or transfer can be, with the first cycle that it can be."""
    return range(first, END_MOST + 1) if there else 0


def ports_bounds(n, first):
    received, framed, waits, spi, transfers, radio = n[6], n[9], n[12], n[14], n[17], n[24]
    usart = [FLAG, [byte for byte in range(256) if not byte & 6], 15, 4095, FLAG, FLAG, 2]
    usart += [BYTE if received >= 1 else 0, BYTE if received >= 2 else 0]
    usart += [FLAG, ends(framed, first), BYTE if framed else 0, FLAG if framed else 0, BYTE if waits else 0]
    control = [byte for byte in range(256) if not byte & 0x40 or byte & 0x10]
    out = [control, FLAG, BYTE, FLAG if spi & 0x40 else 0, ends(transfers, first), BYTE if transfers else 0] + [FLAG] * 4
    sample = [2, BYTE, BYTE] if radio >= 2 else [0, 0, 0]
    return usart + out + [4] + sample + [END_MOST]


def within(numbers, bounds):
    assert len(numbers) == len(bounds)
    return all(n in bound if not isinstance(bound, int) else n <= bound for n, bound in zip(numbers, bounds))


# ---- reading


class Lines:
    """The lines of a text, one after another. The last piece has no LF."""

    def __init__(self, text):
        *self.lines, self.rest = text.split(b"\n")
        self.number = 0

    def next(self):
        self.number += 1
        if self.number > len(self.lines):
            raise Fault("NotAState", self.number)
        return self.lines[self.number - 1]

    def has_form(self, holds):
        if not holds:
            raise Fault("NotAState", self.number)

    def has_bounds(self, holds):
        if not holds:
            raise Fault("OutOfBounds", self.number)

    def parts(self, *words):
        """The parts of the next line behind these words."""
        parts = self.next().split(b" ")
        self.has_form(parts[: len(words)] == [str(word).encode() for word in words])
        return parts[len(words) :]

    def numbers(self, word, node, count):
        parts = self.parts(word, node)
        self.has_form(len(parts) == count and all(NUMBER.fullmatch(part) for part in parts))
        return [decimal(part) for part in parts]

    def digits(self, word, node, count):
        parts = self.parts(word, node)
        self.has_form(len(parts) == 1 and re.fullmatch(rb"[0-9A-F]{%d}" % (2 * count), parts[0]))
        return bytes.fromhex(parts[0].decode())


def decimal(part):
    return int(part) if len(part) < 100 else 10**99


def node_of(lines, k, cycle):
    core = lines.numbers("core", k, CORE)
    lines.has_bounds(within(core, core_bounds()))
    timers = lines.numbers("timers", k, TIMERS)
    lines.has_bounds(within(timers, timers_bounds()))
    ports = lines.numbers("ports", k, PORTS)
    lines.has_bounds(within(ports, ports_bounds(ports, 0 if core[39] else cycle)))
    io = lines.digits("io", k, IO_BYTES)
    lines.has_bounds(all(byte & ~IO_BITS.get(at, 0) == 0 for at, byte in enumerate(io, IO_FIRST)))
    return SavedNode(core, timers, ports, io, lines.digits("sram", k, SRAM_BYTES))


def sends_of(lines, rules, cycle):
    sends = []
    while (line := lines.next()) != b"end":
        parts = line.split(b" ")
        lines.has_form(len(parts) == 4 and parts[0] == b"send" and all(NUMBER.fullmatch(part) for part in parts[1:3]))
        lines.has_form(TWO_DIGITS.fullmatch(parts[3]))
        node, sent = decimal(parts[1]), decimal(parts[2])
        lines.has_bounds(node < rules.nodes and rules.can_be_heard(sent, cycle))
        lines.has_bounds(not sends or (sends[-1][1], sends[-1][0]) < (sent, node))
        sends.append((node, sent, int(parts[3], 16)))
    return sends


def read_state(rules, text):
    """The state that a text says. Raises Fault."""
    if len(text) > MOST_STATE:
        raise Fault("TooLong")
    lines = Lines(text)
    lines.has_form(lines.next() == TITLE.encode())
    parts = lines.parts("cycle")
    lines.has_form(len(parts) == 1 and NUMBER.fullmatch(parts[0]))
    cycle = decimal(parts[0])
    if cycle % EPOCH or not EPOCH <= cycle < rules.limit:
        raise Fault("PastEnd")
    nodes = [node_of(lines, k, cycle) for k in range(rules.nodes)]
    sends = sends_of(lines, rules, cycle)
    if lines.number < len(lines.lines) or lines.rest:
        raise Fault("NotAState", lines.number + 1)
    return Saved(cycle, nodes, sends)


# ---- writing


def state_text(saved):
    lines = [TITLE, f"cycle {saved.cycle}"]
    for k, node in enumerate(saved.nodes):
        for word, numbers in (("core", node.core), ("timers", node.timers), ("ports", node.ports)):
            lines.append(" ".join([word, str(k), *map(str, numbers)]))
        lines += [f"io {k} {node.io.hex().upper()}", f"sram {k} {node.sram.hex().upper()}"]
    lines += [f"send {k} {cycle} {byte:02X}" for k, cycle, byte in saved.sends] + ["end"]
    return "".join(line + "\n" for line in lines).encode()


def main():
    from network import Folder, Refused, read_scenario

    if len(sys.argv) != 4 or sys.argv[1] != "check":
        sys.exit(__doc__)
    try:
        rules = Rules(read_scenario(Folder("."), sys.argv[2]))
        read_state(rules, Path(sys.argv[3]).read_bytes())
    except (Refused, Fault) as fault:
        print(fault)
        sys.exit(1)
    print("ok")


if __name__ == "__main__":
    if sys.argv[1:2] in (["--help"], ["-h"]):
        sys.exit(print(__doc__))
    main()
