#!/usr/bin/env python3
"""Compares a program with the slow simulator beside this file, over drawn images whose timers set flags every few cycles.

    bench/network/storms.py PROGRAM [COUNT [FIRST]]

It draws COUNT networks of eight images (100), from number FIRST (0) on, and compares them as loops.py does. They have
up to four timers with small tops, interrupts that come one after another, and TIFR and ETIFR cleared and counts read
in loops. Compare values are written while timers stand and run, sleeps are woken often, and flags are set in
instructions of two to four cycles.
"""
import random
import sys

import draw
import loops
from loops import CLI, FIRST, MCUCR, NOP, OCR0, OCR1AH, OCR1AL, OCR2, RETI, SEI, TCCR0, TCCR1B, TCCR2, TCNT0, TIFR, TIMSK, Words, out, word

# by data address, for LDS and STS
OCR3A, OCR3B, OCR3C, TCCR3B, TCNT3, ETIMSK, ETIFR, TCNT1, ICR1 = 0x86, 0x84, 0x82, 0x8A, 0x88, 0x7D, 0x7C, 0x4C, 0x46
ETIMSK_VECTORS = {0: 0x30, 4: 0x34, 3: 0x36, 1: 0x38, 2: 0x3A}  # by the bit of ETIMSK
SLEEP = word("sleep")


def store(rng: random.Random, address: int, byte: int) -> Words:
    """Sets a register by OUT, where it has an address for it, or by STS."""
    if address < 0x60 and rng.random() < 0.7:
        return [loops.ldi(16, byte), out(address - 0x20, 16)]
    return [loops.ldi(16, byte), word("sts", r=16), address]


def top(rng: random.Random) -> int:
    return rng.choice((rng.randrange(1, 6), rng.randrange(1, 13), rng.randrange(256)))


def control(rng: random.Random) -> int:
    return rng.choice((8, 8, 8, 0)) | rng.choice((1, 1, 1, 2, 0))


def timers(rng: random.Random) -> Words:
    """Starts some of the four timers."""
    words: Words = []
    for compare, select in ((OCR0, TCCR0), (OCR2, TCCR2)):
        if rng.random() < 0.75:
            words += loops.set_to(compare, top(rng)) + loops.set_to(select, control(rng))
    if rng.random() < 0.6:
        words += loops.set_to(OCR1AH, 0) + loops.set_to(OCR1AL, top(rng)) + loops.set_to(TCCR1B, control(rng))
    if rng.random() < 0.5:
        for address in (OCR3A, OCR3B, OCR3C):
            words += store(rng, address + 1, 0) + store(rng, address, top(rng))
        words += store(rng, TCCR3B, rng.choice((control(rng), 0x19)))
    return words


def step(rng: random.Random) -> Words:
    """Some instructions that look at the devices, or take time beside them."""
    register = rng.choice((17, 18, 19))
    byte = rng.choice((0, 255, rng.randrange(256)))
    match rng.randrange(16):
        case 0 | 1:
            return store(rng, TIFR + 0x20, byte)
        case 2:
            return store(rng, ETIFR, byte)
        case 3:
            return [word("in_", d=register, A=rng.choice((TCNT0, TIFR, 0x24)))]
        case 4:
            return [word("lds", d=register), rng.choice((TCNT1, TCNT1 + 1, TCNT3, TCNT3 + 1, ETIFR))]
        case 5:
            return store(rng, rng.choice((OCR0, OCR2, OCR1AL, TCNT0)) + 0x20, top(rng))
        case 6:
            return store(rng, rng.choice((TCCR0, TCCR2)) + 0x20, control(rng))
        case 7:
            return store(rng, rng.choice((OCR3A, OCR3B, TCNT3, ICR1, ICR1 + 1)), top(rng))
        case 8:
            return [SLEEP]
        case 9:
            return [rng.choice((CLI, SEI, SEI, SEI)), *[NOP] * rng.randrange(4)]
        case 10:
            return [word("push", r=register), word("pop", d=register), word("mul", d=register, r=2)]
        case 11:
            return [loops.ldi(register, rng.randrange(1, 40)), *loops.back_where([word("subi", d=register - 16, K=1)], loops.Z, False)]
        case 12:
            return [out(rng.choice((draw.UDR, draw.SPDR)), register)]
        case 13:
            return [word("rcall", k=0), word("pop", d=register), word("pop", d=register)]
        case 14:
            return store(rng, rng.choice((TIMSK + 0x20, ETIMSK)), rng.randrange(256) & rng.randrange(256) & 0xDF)
        case _:
            return [word("inc", d=register)] * rng.randrange(1, 12)


def told(register: int) -> Words:
    return [word("add", d=2, r=register), word("adc", d=3, r=2)]


def handler(rng: random.Random) -> Words:
    """What an interrupt does: little, so that the next may be waiting."""
    words: Words = [word("inc", d=4)] * rng.randrange(3)
    if rng.random() < 0.4:
        words += step(rng)
    return [*words, RETI if rng.random() < 0.97 else loops.RET]


def image(rng: random.Random) -> Words:
    """A program under a storm of flags, with its handlers."""
    bits = rng.choice((0, 0x02, 0x80, 0x10, 0x92, rng.randrange(256) & 0xDF, rng.randrange(256) & 0xDF))
    extended = rng.choice((0, 0, 0x10, 0x08, rng.randrange(32)))
    vectors = list(loops.TIMER_VECTORS.values()) + list(ETIMSK_VECTORS.values()) + [loops.SPI_VECTOR, loops.TX_VECTOR]
    words = [RETI] * FIRST
    words += loops.set_to(draw.SPH, 0x10) + loops.set_to(draw.SPL, 0xFF) + loops.set_to(MCUCR, rng.choice((0x20, 0x20, 0)))
    words += loops.set_to(draw.SPCR, 0x50) + loops.set_to(draw.UCSRB, 0x18) + timers(rng)
    words += loops.set_to(TIMSK, bits) + store(rng, ETIMSK, extended) + ([SEI] if rng.random() < 0.9 else [])
    again = len(words)
    for _ in range(rng.randrange(1, 9)):
        words += step(rng)
    words += told(rng.choice((17, 18, 19)))
    words.append(word("rjmp", k=again - len(words) - 1))
    for vector in vectors:
        if rng.random() < 0.8:
            words[vector] = word("rjmp", k=len(words) - vector - 1)
            words += handler(rng)
    words[0] = word("rjmp", k=FIRST - 1)
    return words


if __name__ == "__main__":
    if sys.argv[1:2] in (["--help"], ["-h"]):
        sys.exit(print(__doc__))
    loops.main(__doc__, loops.Drawing("storms", image))
