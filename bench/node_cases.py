#!/usr/bin/env python3
"""Writes images of the traces of crates/command_facts (those of the timers' vectors, and corners), and what all its runs are to give.

    python3 bench/node_cases.py crates/command_facts      writes the images below, their lines in data/traces.txt, and what
                                                          these are to come to in stdout

The traces are those of bench/machine.py, which is docs/MACHINE.md once more; those of the other images, which another program
gave first, are the same. What a corner is to show was worked out by hand first, and stands at it as an assertion.
"""
import sys
from pathlib import Path

from stored_parts import put_part
from machine import Node, TABLE, flash_from, hex_of

END = ":00000001FF"
R16 = {"d": 16}


def op(text, **fields):
    """The word of an instruction of the table."""
    pattern = next(p for p, t, _, _ in TABLE if t == text)
    left = dict(fields)
    for letter in "dr":
        count = pattern.count(letter)
        if letter in left and count in (3, 4):
            left[letter] -= 16
    out = ""
    for one in reversed(pattern):
        if one in "01":
            out = one + out
        else:
            out, left[one] = str(left[one] & 1) + out, left[one] >> 1
    return int(out, 2)


def ldi(k, d=16):
    return [op("ldi rD, K", d=d, K=k)]


def put(at, x):
    """A byte into the register at a data address, by r16: two cycles with OUT, three with STS."""
    if at < 0x60:
        return ldi(x) + [op("out A, rR", A=at - 0x20, r=16)]
    return ldi(x) + [op("sts k, rR", r=16), at]


def put_word(high_at, value):
    return put(high_at, value // 256) + put(high_at - 1, value % 256)


SEI, RETI, SLEEP, NOP, HERE = op("bset s", s=7), op("reti"), op("sleep"), op("nop"), op("rjmp k", k=-1)
STACK = put(0x5E, 0x10)


def image(*parts):
    return "\n".join([line for at, words in parts for line in hex_of(words, at)] + [END]) + "\n"


# ---- the vectors of the timers: all four timers run, each flag is set in a cycle of its own, and one interrupt is enabled

def all_timers(timsk, etimsk, vector):
    words = STACK + put(0x57, timsk) + put(0x7D, etimsk)
    # counts that come to the compare values first and then to the maximum
    words += put(0x52, 0xC0) + put(0x51, 0xC6) + put(0x44, 0xB0) + put(0x43, 0xBC)
    words += put_word(0x4D, 0xFFA0) + put_word(0x4B, 0xFFB2) + put_word(0x49, 0xFFB8) + put_word(0x79, 0xFFBE)
    words += put_word(0x89, 0xFF90) + put_word(0x87, 0xFFB4) + put_word(0x85, 0xFFBA) + put_word(0x83, 0xFFC0)
    words += ldi(0x01) + [op("sts k, rR", r=16), 0x8A]
    words += [op("out A, rR", A=a - 0x20, r=16) for a in (0x53, 0x45, 0x4E)]
    return image((0, [op("jmp k", k=0x50), 0x50]), (vector, [RETI]), (0x50, words + [SEI, HERE]))


VECTORS = {
    "vector0012_timer_2_compare": (0x80, 0, 0x12), "vector0014_timer_2_overflow": (0x40, 0, 0x14),
    "vector0018_timer_1_compare_a": (0x10, 0, 0x18), "vector001a_timer_1_compare_b": (0x08, 0, 0x1A),
    "vector001c_timer_1_overflow": (0x04, 0, 0x1C), "vector001e_timer_0_compare": (0x02, 0, 0x1E),
    "vector0020_timer_0_overflow": (0x01, 0, 0x20), "vector0030_timer_1_compare_c": (0, 0x01, 0x30),
    "vector0034_timer_3_compare_a": (0, 0x10, 0x34), "vector0036_timer_3_compare_b": (0, 0x08, 0x36),
    "vector0038_timer_3_compare_c": (0, 0x02, 0x38), "vector003a_timer_3_overflow": (0, 0x04, 0x3A),
}
VECTOR_CYCLES = 200


# ---- corners: an image, how many cycles, and rows that its trace must have and may not have

def serial_before_sent():
    # A frame of 5 data bits, one stop bit, U2X and UBRR 0 lasts 7 x 8 = 56 cycles. A transfer with divider 4 lasts 32. SPDR is
    # written 0x01 in cycle s, so the radio waits for a byte from s + 32 on. UDR0 is written in s + 10, so the frame ends in s + 66.
    # SPDR is written 0x5A in s + 34, so that transfer ends in s + 66 too, selected, and the radio sends. The row of
    # the frame comes first. Seven registers are set before, UCSR0C in three cycles and each other in two, and two bytes are
    # loaded: s is 15, and both end in 81.
    words = put(0x37, 0x01) + put(0x2D, 0x50) + put(0x2B, 0x02) + put(0x2A, 0x08) + put(0x95, 0x00)
    words += put(0x5E, 0x10) + ldi(0x5A, 18) + ldi(0x01)
    begins = 2 + 2 + 2 + 2 + 3 + 2 + 1 + 1
    spdr, udr = 0x2F - 0x20, 0x2C - 0x20
    words += [op("out A, rR", A=spdr, r=16)] + [NOP] * 9 + [op("out A, rR", A=udr, r=18)] + [NOP] * 23
    words += [op("out A, rR", A=spdr, r=18), HERE]
    both = begins + 66
    return image((0, words)), both + 5, [f"{both} 0 serial 1A", f"{both} 0 sent 5A"], []


def entry_over_sreg():
    # The stack pointer is 0x005F, the address of SREG. Both compare interrupts of timers 2 and 0 wait. The entry to 0x0012 pushes
    # the low byte of its return address, 0x9A, into SREG, which turns I on; then the high byte into SPH; then I goes off. So the
    # interrupt of timer 0, which still waits, is never entered. Where I went off before the pushes, it would be at once.
    start = 0x80
    words = put(0x57, 0x82) + put(0x53, 0x01) + put(0x45, 0x01) + put(0x5D, 0x5F)
    words += [NOP] * (0x98 - start - len(words)) + [SEI, NOP]
    return (image((0, [op("jmp k", k=start), start]), (0x12, [NOP, NOP, HERE]), (start, words)), 60,
            ["27 0 instr 0098 bset 7", "28 0 instr 0099 nop", "29 0 enter 0012 009A", "33 0 instr 0012 nop", "34 0 instr 0013 nop"], ["enter 001E"])


def refused_sleep_is_the_owed_one():
    # The compare interrupt of timer 0 waits. SEI owes one instruction: the SLEEP behind it, which has no effect, since SE is 0. It
    # is an instruction like any other, so the entry comes next, with its four cycles.
    words = STACK + put(0x57, 0x02) + put(0x53, 0x01) + [SEI, SLEEP, NOP, HERE]
    return (image((0, words), (0x1E, [HERE])), 20,
            ["6 0 instr 0006 bset 7", "7 0 instr 0007 sleep", "8 0 enter 001E 0008", "12 0 instr 001E rjmp .-2"], ["instr 0008"])


def entry_from_sleep_stops():
    # The stack pointer is 0x1100, past the SRAM. The node sleeps from the cycle behind SLEEP on; OCF0 is set by the clock that finds
    # 8: TCCR0 is written in cycle 7, and its clocks are all cycles from 7 on, so in 15. The node wakes in 16, its first push stops,
    # and the Stop row bears the address to return to. A node that stopped is no longer asleep.
    words = put(0x5E, 0x11) + put(0x57, 0x02) + put(0x51, 0x08) + ldi(0x01) + [op("out A, rR", A=0x33, r=16)]
    words += put(0x55, 0x20) + [SEI, SLEEP, NOP, HERE]
    return image((0, words)), 40, ["11 0 instr 000B sleep", "16 0 stop 000C address past 0x10FF", "40 0 end 12 stopped"], ["enter", "asleep"]


def sleep_mode_no_sleep():
    # MCUCR with SE and a sleep mode other than idle: no instruction but SLEEP stops. RJMP to NOP and NOP take three cycles.
    return (image((0, put(0x55, 0x30) + [NOP, op("rjmp k", k=-2)])), 8,
            ["2 0 instr 0002 nop", "3 0 instr 0003 rjmp .-4", "5 0 instr 0002 nop", "6 0 instr 0003 rjmp .-4", "8 0 end 6 running"], ["stop"])


def rcall_at_reset():
    # The stack pointer is 0 at reset: the low byte of the return address is pushed into r0, and the next push stops past the SRAM.
    return image((0, [op("rcall k", k=0)])), 8, ["0 0 stop 0000 address past 0x10FF", "8 0 end 0 stopped"], ["instr"]


def two_due(start, first, second):
    # Nine words of `start`, one cycle each, lead to two flags that are set and enabled. r17 is counted down from 12 in cycles 9 to 44,
    # RCALL takes three, and RETI, which turns I on, begins in 48: NOP behind it, then the entry of the lower vector, whose RETI begins
    # in 57; RJMP behind that, and the other one. 9 + 1 + 24 + 2 + 1 + 1 + 1 + 1 + 5 instructions begin below 80.
    words = start + ldi(12, 17) + [op("dec rD", d=17), op("brbc s, k", s=1, k=-2), op("rcall k", k=2), NOP, HERE, RETI]
    wanted = ["48 0 instr 000F reti", "52 0 instr 000D nop", f"53 0 enter {first:04X} 000E", f"57 0 instr {first:04X} reti",
              "61 0 instr 000E rjmp .-2", f"63 0 enter {second:04X} 000E", f"67 0 instr {second:04X} reti", "71 0 instr 000E rjmp .-2", "80 0 end 45 running"]
    return image((0, words), (first, [RETI]), (second, [RETI])), 80, wanted, []


def due_timer_and_spi():
    # OCF0 is set by the clock of cycle 7, which finds 0; SPIF in cycle 8 + 32.
    spdr, tccr0 = op("out A, rR", A=0x2F - 0x20, r=16), op("out A, rR", A=0x33, r=16)
    return two_due(STACK + put(0x57, 0x02) + put(0x2D, 0xD0) + ldi(0x01) + [tccr0, spdr], 0x1E, 0x22)


def due_compare_and_overflow():
    # TCNT0 is 255: TOV0 is set by the clock of cycle 7, OCF0 by that of cycle 8, which finds 0.
    return two_due(STACK + put(0x57, 0x03) + put(0x52, 0xFF) + put(0x53, 0x01) + [NOP], 0x1E, 0x20)


CORNERS = {"serial_before_sent": serial_before_sent, "entry_over_sreg": entry_over_sreg,
           "refused_sleep_is_the_owed_one": refused_sleep_is_the_owed_one, "entry_from_sleep_stops": entry_from_sleep_stops,
           "sleep_mode_no_sleep": sleep_mode_no_sleep, "rcall_at_reset": rcall_at_reset, "due_timer_and_spi": due_timer_and_spi,
           "due_compare_and_overflow": due_compare_and_overflow}


def main():
    crate = Path(sys.argv[1])
    lines = (crate / "data" / "traces.txt").read_text().splitlines()
    head = [line for line in lines if line.startswith("#")]
    runs = dict(line.split() for line in lines if line and not line.startswith("#"))
    entries = {}
    for name, (timsk, etimsk, vector) in VECTORS.items():
        text = all_timers(timsk, etimsk, vector)
        (crate / "data" / f"{name}.hex").write_text(text)
        runs[f"{name}.hex"] = str(VECTOR_CYCLES)
        trace = Node(flash_from(text)).trace(VECTOR_CYCLES)
        entered = [row for row in trace if " enter " in row]
        assert len(entered) == 1 and f"enter {vector:04X}" in entered[0], (name, entered)
        entries[name] = int(entered[0].split()[0])
    assert len(set(entries.values())) == len(entries), entries
    for name, make in CORNERS.items():
        text, cycles, wanted, unwanted = make()
        (crate / "data" / f"{name}.hex").write_text(text)
        runs[f"{name}.hex"] = str(cycles)
        trace = Node(flash_from(text)).trace(cycles)
        places = [trace.index(row) if row in trace else None for row in wanted]
        assert None not in places and places == sorted(places), (name, trace, places)
        assert not any(part in row for part in unwanted for row in trace), (name, trace)
    out = []
    for file, cycles in runs.items():
        out += [f"== {file} {cycles}"] + Node(flash_from((crate / "data" / file).read_text())).trace(int(cycles))
    (crate / "data" / "traces.txt").write_text("".join(line + "\n" for line in head + [f"{file} {cycles}" for file, cycles in runs.items()]))
    put_part(crate, "traces=traces.txt", out)
    print(f"{len(runs)} runs; the timers' interrupts are entered in cycles {sorted(entries.values())}")


if __name__ == "__main__":
    if sys.argv[1:2] in (["--help"], ["-h"]):
        sys.exit(print(__doc__))
    main()
