#!/usr/bin/env python3
"""Writes data/kindred.txt and data/causes.txt of crates/command_facts.

    python3 bench/instruction_cases.py crates/command_facts

kindred.txt has rows for each mnemonic that every kindred rule answers otherwise. A kindred rule is the same
instruction with or without the carry, with Z kept or not, signed or unsigned, with another pointer, another flag or
another flash address. Best is a row on which all of them fail; if there is none, two or three rows together do it.
The answers are those of bench/machine.py.
"""
import random
import sys
from pathlib import Path

import machine
from machine import C, CAUSES, Core, Stop, add, bit, com, dec, decoded, inc, logic, product, shift, signed, sub, text_of, with_flags, word

FLOW = ["cpse", "sbrc", "sbrs", "sbic", "sbis", "brbs", "brbc", "rjmp", "ijmp", "jmp", "rcall", "icall", "call", "ret", "reti"]
MEMORY = ["ld", "ldd", "lds", "st", "std", "sts", "lpm", "elpm", "push", "pop", "in", "out", "sbi", "cbi"]
FLASH = [(0, [0x940E, 0x960C, 0x9000, 0x9200, 0x940C, 0x0000, 0x6655]), (0x7FFF, [0xA1A0]), (0x8002, [0xB5B4, 0xB7B6]), (0xFFFF, [0xC1C0])]
EDGES = [0x00, 0x01, 0x0F, 0x10, 0x7F, 0x80, 0x81, 0xF0, 0xFE, 0xFF]

HEAD = """\
# Instructions beside their kindred: each mnemonic on operands on which every rule that is like its own answers otherwise (with or
# without the carry, Z kept or not, signed or unsigned, another pointer, another flag, RAMPZ used or not, ..), in as few rows as do it.
#
# Source: the table of instructions and the rules of flags of the AVR Instruction Set Manual, as bench/machine.py has them;
# bench/instruction_cases.py draws the operands and writes this file. The operands of the first section were chosen by hand.
#
# The forms are those of flow.txt; COUNT*WORD of a flash is a word so many times. The flash has bytes of its own around 0x00000,
# 0x0FFFF, 0x10004 and 0x1FFFF.
"""

CAUSE_HEAD = """\
# The causes of a stop: their numbers and their texts.
#
# Source: the table of stops of docs/MACHINE.md, written a second time in bench/machine.py.
#
# cause NUMBER gives TEXT: of the cause that stands in this place of the list of all.
"""


class Bytes:
    """The bytes at 0x0030 to 0x012F, each the low byte of its address; all else is past the memory."""

    def __init__(self):
        self.held = {at: at % 256 for at in range(0x30, 0x130)}

    def check(self, at):
        if at not in self.held:
            raise Stop("address past 0x10FF")

    def get(self, at):
        self.check(at)
        return self.held[at]

    def put(self, at, byte):
        self.check(at)
        self.held[at] = byte


def flash():
    out = bytearray(b"\xff" * 131072)
    for at, words in FLASH:
        for n, w in enumerate(words):
            out[2 * (at + n):2 * (at + n) + 2] = w.to_bytes(2, "little")
    return out


def flash_line():
    parts, at = [], 0
    for start, words in FLASH:
        if start > at:
            parts.append(f"{start - at:X}*FFFF")
        parts += [f"{w:04X}" for w in words]
        at = start + len(words)
    return "flash " + " ".join(parts)


IMAGE = flash()
START = {d: (0x10 + d if d < 26 else 0) for d in range(32)}


def core_of(state):
    c = Core(Bytes(), IMAGE)
    for at, x in {**START, **state}.items():
        if at == "pc":
            c.pc = x
        else:
            c.store(at, x)
    return c


def seen(c):
    out = dict(c.bus.held)
    out.update(enumerate(c.r))
    out.update({"pc": c.pc, 0x5B: c.rampz, 0x5D: c.sp % 256, 0x5E: c.sp // 256, 0x5F: c.sreg})
    return out


def outcome(state, first, second, instead=None):
    """What an instruction reports, and the machine before and after it; with another effect in place of its own."""
    c = core_of(state)
    before = seen(c)
    try:
        report = f"{c.execute(first, second, instead):X}"
    except Stop:
        report = "stop"
    return report, before, seen(c)


def name_of(at):
    return "pc" if at == "pc" else f"{at:02X}"


def value_of(at, x):
    return f"{x:04X}" if at == "pc" else f"{x:02X}"


def order(at):
    return -1 if at == "pc" else at


def line(kind, state, first, second):
    report, before, after = outcome(state, first, second)
    settings = " ".join(f"{name_of(a)}={value_of(a, x)}" for a, x in sorted(state.items(), key=lambda p: order(p[0])))
    changes = "".join(f" {name_of(a)}={value_of(a, after[a])}" for a in sorted(after, key=order) if after[a] != before[a])
    return f"{kind} {first:04X} {second:04X} on {settings} gives {report}{changes} ; {text_of(first, second)}"


# ---- kindred rules: each gives a result and SREG of two bytes and SREG

def of_two():
    carry = lambda s: bit(s, C)
    rules = {"add": lambda a, b, s: add(a, b, 0, s), "adc": lambda a, b, s: add(a, b, carry(s), s),
             "sub": lambda a, b, s: sub(a, b, 0, s), "sub kept": lambda a, b, s: sub(a, b, 0, s, True),
             "sbc": lambda a, b, s: sub(a, b, carry(s), s), "sbc kept": lambda a, b, s: sub(a, b, carry(s), s, True),
             "reversed": lambda a, b, s: sub(b, a, 0, s), "reversed with carry": lambda a, b, s: sub(b, a, carry(s), s, True),
             "and": lambda a, b, s: logic(a & b, s), "or": lambda a, b, s: logic(a | b, s), "eor": lambda a, b, s: logic(a ^ b, s),
             "mov": lambda a, b, s: (b, s), "none": lambda a, b, s: (a, s)}
    out = []
    for rule in rules.values():
        for stores in (True, False):
            out.append((rule, stores))
    return out


def two_kindred(second_of):
    def made(rule, stores):
        def effect(c, f):
            value, c.sreg = rule(c.r[f["d"]], second_of(c, f), c.sreg)
            if stores:
                c.r[f["d"]] = value
        return None, effect
    return [made(*one) for one in of_two()]


def one_kindred():
    def keep_c(rule):
        return lambda a, s: (rule(a, s)[0], with_flags(rule(a, s)[1], C=bit(s, C)))
    rules = [com, lambda a, s: sub(0, a, 0, s), lambda a, s: sub(0, a, bit(s, C), s, True), lambda a, s: (a % 16 * 16 + a // 16, s),
             inc, dec, lambda a, s: add(a, 1, 0, s), lambda a, s: sub(a, 1, 0, s), lambda a, s: shift(a, bit(a, 7), s),
             lambda a, s: shift(a, 0, s), lambda a, s: shift(a, bit(s, C), s), lambda a, s: shift(a, 1, s), lambda a, s: (a, s),
             lambda a, s: logic(255 - a, s), keep_c(com), lambda a, s: keep_c(lambda x, y: shift(x, 0, y))(a, s),
             lambda a, s: keep_c(lambda x, y: shift(x, bit(y, C), y))(a, s), lambda a, s: keep_c(lambda x, y: shift(x, bit(x, 7), y))(a, s),
             lambda a, s: keep_c(lambda x, y: sub(0, x, 0, y))(a, s), lambda a, s: (a * 2 % 256, s)]

    def made(rule):
        def effect(c, f):
            c.r[f["d"]], c.sreg = rule(c.r[f["d"]], c.sreg)
        return None, effect
    return [made(rule) for rule in rules]


def word_kindred():
    def made(rule):
        def effect(c, f):
            value, c.sreg = rule(c.pair(f["d"]), f["K"], c.sreg)
            c.set_pair(f["d"], value)
        return None, effect

    def low_alone(a, k, s, sign):
        low, t = (add if sign > 0 else sub)(a % 256, k, 0, s)
        return a // 256 * 256 + low, t
    return [made(lambda a, k, s: word(a, k, s, 1)), made(lambda a, k, s: word(a, k, s, -1)), made(lambda a, k, s: low_alone(a, k, s, 1)),
            made(lambda a, k, s: low_alone(a, k, s, -1)), made(lambda a, k, s: (word(a, k, s, 1)[0], s)), made(lambda a, k, s: (word(a, k, s, -1)[0], s)),
            made(lambda a, k, s: word(a, k + bit(s, C), s, 1)), made(lambda a, k, s: word(a, k + bit(s, C), s, -1))]


def product_kindred():
    plain = machine.plain

    def made(left, right, shifted, swapped=False):
        def effect(c, f):
            value, c.sreg = product(left(c.r[f["d"]]), right(c.r[f["r"]]), c.sreg, shifted)
            low, high = (1, 0) if swapped else (0, 1)
            c.r[low], c.r[high] = value % 256, value // 256
        return None, effect
    out = [made(left, right, shifted, swapped) for left in (plain, signed) for right in (plain, signed) for shifted in (False, True)
           for swapped in (False, True)]

    def carry_behind(left, right):
        # C as the top bit of what is shifted already
        def effect(c, f):
            value = left(c.r[f["d"]]) * right(c.r[f["r"]]) * 2 % 65536
            c.sreg = with_flags(c.sreg, C=bit(value, 15), Z=value == 0)
            c.r[0], c.r[1] = value % 256, value // 256
        return None, effect
    return out + [carry_behind(left, right) for left in (plain, signed) for right in (plain, signed)]


def bit_kindred():
    def made(change):
        return None, change

    def flag(on, move):
        def change(c, f):
            n = (f["s"] + move) % 8
            c.sreg = c.sreg | 1 << n if on else c.sreg & ~(1 << n)
        return change

    def store(move, turned):
        def change(c, f):
            n = (f["b"] + move) % 8
            on = bit(c.sreg, machine.T) ^ turned
            c.r[f["d"]] = c.r[f["d"]] & ~(1 << n) | on << n
        return change

    def take(move, turned):
        def change(c, f):
            c.sreg = with_flags(c.sreg, T=bit(c.r[f["d"]], (f["b"] + move) % 8) ^ turned)
        return change

    def nothing(c, f):
        pass
    flags = [made(flag(on, move)) for on in (0, 1) for move in (0, 1, 7)] + [made(nothing)]
    bits = [made(e(move, turned)) for e in (store, take) for move in (0, 1, 7) for turned in (0, 1)] + [made(nothing)]
    return flags, bits


def skip_kindred(*conditions):
    """The conditions, each also turned round, and with one word skipped always or two."""
    out = []
    for condition in conditions:
        for turned in (False, True):
            out.append(("skip", lambda c, f, k=condition, t=turned: bool(k(c, f)) != t))
            for words in (1, 2):
                def over(c, f, k=condition, t=turned, n=words):
                    if bool(k(c, f)) != t:
                        c.pc = (c.pc + n) % 65536
                out.append((3, over))
                out.append((2, over))
    return out


def effect_of(text):
    """The cycles and the effect of a row by its text."""
    for _, _, _, t, n, e in machine.ROWS:
        if t == text:
            return n, e
    raise KeyError(text)


def reg_bit(move):
    return lambda c, f: bit(c.r[f["r"]], (f["b"] + move) % 8)


def io_bit(move, base=0x20):
    return lambda c, f: bit(c.load(f["A"] + base), (f["b"] + move) % 8)


def jump_kindred():
    def go(target, cycles, pushes=None, sets_i=None):
        def effect(c, f):
            here = c.pc
            to = target(c, f)
            if pushes == "low first":
                c.push_word(here)
            elif pushes == "high first":
                c.push(here // 256)
                c.push(here % 256)
            elif pushes == "one less":
                c.push_word((here - 1) % 65536)
            c.pc = to % 65536
        return cycles, effect
    z = lambda c, f: c.pair(30)
    absolute = lambda c, f: f["k"]
    relative = lambda c, f: c.pc + f["k"]
    relative_to_itself = lambda c, f: c.pc - 1 + f["k"]
    unsigned = lambda c, f: c.pc + f["k"] % 4096
    bytes_off = lambda c, f: c.pc + f["k"] // 2
    out = {"z": [z, lambda c, f: c.pair(28), lambda c, f: c.pair(26), lambda c, f: c.pair(30) // 2, lambda c, f: c.pc],
           "k": [absolute, lambda c, f: c.pc + f["k"], lambda c, f: f["k"] // 2, lambda c, f: c.pc],
           "rel": [relative, relative_to_itself, unsigned, bytes_off, lambda c, f: f["k"] % 65536, lambda c, f: c.pc]}
    return {kind: [go(target, cycles, pushes) for target in targets for cycles in (2, 3, 4) for pushes in (None, "low first", "high first", "one less")]
            for kind, targets in out.items()}


def return_kindred():
    def go(high_first, sets, cycles):
        def effect(c, f):
            one = c.pop()
            two = c.pop()
            c.pc = one << 8 | two if high_first else two << 8 | one
            if sets is not None:
                c.sreg = c.sreg | 0x80 if sets else c.sreg & 0x7F
        return cycles, effect
    return [go(h, s, n) for h in (True, False) for s in (None, True, False) for n in (3, 4)]


def load_kindred(stores):
    """All other ways to load or store by a pointer."""
    def go(pointer, move, when, q):
        def effect(c, f):
            old = c.pair(pointer)
            new = (old + move) % 65536
            at = (new if when == "before" else old) + (f.get("q", 0) if q else 0)
            c.set_pair(pointer, new)
            if stores:
                c.store(at % 65536, c.r[f["r"]])
            else:
                c.r[f["d"]] = c.load(at % 65536)
        return None, effect
    return [go(pointer, move, when, q) for pointer in (26, 28, 30) for move in (-1, 0, 1) for when in ("before", "after") for q in (False, True)]


def program_kindred():
    def go(high, move, carry, to):
        def effect(c, f):
            at = (c.pair(30) + (c.rampz << 16 if high else 0))
            byte = c.flash[at]
            c.set_pair(30, (c.pair(30) + move) % 65536)
            if carry:
                c.rampz = (at + move) % 131072 >> 16
            c.r[f.get("d", 0) if to is None else to] = byte
        return None, effect
    return [go(high, move, carry, to) for high in (False, True) for move in (0, 1) for carry in (False, True) for to in (None, 0)]


def access_kindred():
    def at_place(base, stores, key):
        def effect(c, f):
            at = f[key] + base
            if stores:
                c.store(at, c.r[f.get("r", f.get("d"))])
            else:
                c.r[f.get("d", f.get("r"))] = c.load(at)
        return None, effect
    direct = [at_place(base, stores, "k") for base in (0, 1, 0x20) for stores in (False, True)]
    ports = [at_place(base, stores, "A") for base in (0, 0x1F, 0x20, 0x21) for stores in (False, True)]

    def set_bit(on, move, base):
        def effect(c, f):
            at, n = f["A"] + base, (f["b"] + move) % 8
            c.store(at, c.load(at) | 1 << n if on else c.load(at) & ~(1 << n))
        return None, effect
    bits = [set_bit(on, move, base) for on in (0, 1) for move in (0, 1, 7) for base in (0x1F, 0x20, 0x21)]

    def stack(push, before):
        def effect(c, f):
            letter = "r" if "r" in f else "d"
            if push:
                at = (c.sp - 1) % 65536 if before else c.sp
                c.store(at, c.r[f[letter]])
                c.sp = (c.sp - 1) % 65536
            else:
                at = (c.sp + 1) % 65536 if before else c.sp
                c.r[f[letter]] = c.load(at)
                c.sp = (c.sp + 1) % 65536
        return None, effect
    return direct, ports, bits, [stack(push, before) for push in (True, False) for before in (True, False)]


def all_kindred():
    """For each text of the table the rules that are like its own."""
    flags, bits = bit_kindred()
    jumps = jump_kindred()
    direct, ports, io_bits, stack = access_kindred()
    registers = two_kindred(lambda c, f: c.r[f["r"]])
    constants = two_kindred(lambda c, f: f["K"])
    out = {}
    for name in ("cpc", "sbc", "add", "cp", "sub", "adc", "and", "eor", "or", "mov"):
        out[f"{name} rD, rR"] = registers
    for name in ("cpi", "sbci", "subi", "ori", "andi", "ldi"):
        out[f"{name} rD, K"] = constants
    for name in ("com", "neg", "swap", "inc", "asr", "lsr", "ror", "dec"):
        out[f"{name} rD"] = one_kindred()
    for name in ("adiw", "sbiw"):
        out[f"{name} rD, K"] = word_kindred()
    for name in ("mul", "muls", "mulsu", "fmul", "fmuls", "fmulsu"):
        out[f"{name} rD, rR"] = product_kindred()
    out["bset s"] = out["bclr s"] = flags
    out["bld rD, b"] = out["bst rD, b"] = bits

    def pairs(high, low):
        def effect(c, f):
            c.r[f["d"]], c.r[f["d"] + 1] = c.r[(f["r"] + low) % 32], c.r[(f["r"] + high) % 32]
        return None, effect

    def low_alone(c, f):
        c.r[f["d"]] = c.r[f["r"]]

    def high_alone(c, f):
        c.r[f["d"] + 1] = c.r[f["r"] + 1]
    out["movw rD, rR"] = [pairs(1, 0), pairs(0, 1), pairs(0, 0), pairs(1, 1), pairs(2, 1), (None, low_alone), (None, high_alone)]
    equal = lambda c, f: c.r[f["d"]] == c.r[f["r"]]
    out["cpse rD, rR"] = skip_kindred(equal)
    out["sbrc rR, b"] = out["sbrs rR, b"] = skip_kindred(reg_bit(0), reg_bit(1), reg_bit(7))
    out["sbic A, b"] = out["sbis A, b"] = skip_kindred(io_bit(0), io_bit(1), io_bit(7), io_bit(0, 0x21), io_bit(0, 0x1F))

    def branch(flag, turned, off):
        def effect(c, f):
            if bool(bit(c.sreg, (f["s"] + flag) % 8)) != turned:
                c.pc = (c.pc + off(f)) % 65536
        return [(1, effect), (2, effect)]
    for name in ("brbs", "brbc"):
        out[f"{name} s, k"] = [one for flag in (0, 1, 7) for turned in (False, True)
                               for off in (lambda f: f["k"], lambda f: f["k"] % 128, lambda f: f["k"] // 2, lambda f: f["k"] - 1, lambda f: 0)
                               for one in branch(flag, turned, off)]
    out["jmp k"] = out["call k"] = jumps["k"]
    out["ijmp"] = out["icall"] = jumps["z"]
    out["rjmp k"] = out["rcall k"] = jumps["rel"]
    out["ret"] = out["reti"] = return_kindred()
    for _, _, _, text, _, _ in machine.ROWS:
        name = text.split()[0]
        if name in ("ld", "ldd", "st", "std"):
            out[text] = load_kindred(name.startswith("st"))
        elif name in ("lpm", "elpm"):
            out[text] = program_kindred()
    out["lds rD, k"] = out["sts k, rR"] = direct
    out["in rD, A"] = out["out A, rR"] = ports
    out["sbi A, b"] = out["cbi A, b"] = io_bits
    out["push rR"] = out["pop rD"] = stack
    return out


# ---- operands

def words_of(pattern, draw):
    """A word of a pattern with drawn letters."""
    return int("".join(one if one in "01" else str(draw.randrange(2)) for one in pattern), 2)


def drawn(pattern, text, draw):
    first = words_of(pattern, draw)
    name = text.split()[0]
    if name in ("in", "out", "sbi", "cbi", "sbic", "sbis"):
        # an address inside the memory: 0x10 or more, and not of the core
        while not 0x10 <= decoded(first, 0)[1]["A"] < 0x3B:
            first = words_of(pattern, draw)
    state = {"pc": draw.choice([0, 1, 2, 3, 4, 0xFFFF, 0x1234, 0x00FF]), 0x5F: draw.choice(EDGES + [draw.randrange(256) for _ in range(4)])}
    second = 0
    f = decoded(first, 0)[1]
    if name in ("lds", "sts"):
        second = draw.randrange(0x31, 0x12F)
    if name in ("jmp", "call"):
        second = draw.randrange(65536)
    for letter in "dr":
        if letter in f:
            for n in range(2 if name in ("movw", "adiw", "sbiw") else 1):
                state[(f[letter] + n) % 32] = draw.choice(EDGES + [draw.randrange(256) for _ in range(6)])
    if "d" in f and "r" in f and name not in ("movw",) and draw.randrange(4) == 0:
        state[f["r"]] = (state[f["d"]] + draw.choice([0, 255, 1])) % 256
    if "d" in f and "K" in f and name not in ("adiw", "sbiw") and draw.randrange(3) == 0:
        state[f["d"]] = (f["K"] + draw.choice([0, 255, 1])) % 256
    if name in ("mul", "muls", "mulsu", "fmul", "fmuls", "fmulsu"):
        state.setdefault(0, draw.randrange(256))
        state.setdefault(1, draw.randrange(256))
    if name in ("ld", "ldd", "st", "std", "ijmp", "icall"):
        for low in (26, 28, 30):
            at = draw.randrange(0x38, 0xE0) if name in ("ldd", "std") else draw.randrange(0x38, 0x128)
            if f.get("d", f.get("r", 0)) not in (low, low + 1):
                state[low], state[low + 1] = at % 256, at // 256
    if name in ("lpm", "elpm"):
        state[0x5B] = 1
        z = draw.choice([0xFFFF, 0x0004, 0x0005])
        if f.get("d", 0) not in (30, 31):
            state[30], state[31] = z % 256, z // 256
    if name in ("push", "pop", "ret", "reti", "rcall", "icall", "call"):
        sp = draw.choice([0x100, 0xFF, 0xFE, 0x123, 0x80])
        state[0x5D], state[0x5E] = sp % 256, sp // 256
    if name in ("cpse", "sbrc", "sbrs", "sbic", "sbis"):
        state["pc"] = draw.choice([0xFFFF, 0, 1, 2, 3, 4])
    return state, first, second


def told(state, first, second, rules):
    """Which of the kindred rules answer otherwise."""
    right = outcome(state, first, second)
    out = set()
    for n, rule in enumerate(rules):
        try:
            other = outcome(state, first, second, rule)
        except KeyError:
            other = None
        if other is None or (other[0], other[2]) != (right[0], right[2]):
            out.add(n)
    return out


def rows_of(pattern, text, rules, seed):
    """As few rows as tell all rules that can be told, and how many can not: those that are the instruction's own."""
    draw = random.Random(seed)
    tried = []
    for _ in range(120):
        try:
            one = drawn(pattern, text, draw)
            if outcome(*one)[0] == "stop":
                continue
        except (KeyError, ValueError):
            continue
        tried.append((told(*one, rules), one))
    can = set().union(*(t for t, _ in tried))
    left, rows = set(can), []
    while left:
        best = max(tried, key=lambda p: len(p[0] & left))
        rows.append(best[1])
        left -= best[0]
    return rows, len(rules) - len(can)


def kind_of(text):
    name = text.split()[0]
    return "flow" if name in FLOW else "memory" if name in MEMORY else "arith"


def z_at(at):
    return {30: at % 256, 31: at // 256}


# Chosen by hand: what a row shows, settings, words. SBCI and the like with Z clear and a carry; a product over its own operand;
# flash above 0xFFFF; displacements that wrap.
BY_HAND = [
    ("SBCI keeps a clear Z", {16: 0x05, 0x5F: 0x01}, 0x4004, 0),
    ("SUB sets Z anew", {16: 0x05, 18: 0x05, 0x5F: 0x00}, 0x1B02, 0),
    ("SUB has no borrow", {16: 0x05, 18: 0x05, 0x5F: 0x01}, 0x1B02, 0),
    ("SUBI has no borrow", {16: 0x05, 0x5F: 0x01}, 0x5005, 0),
    ("CPI has no borrow", {16: 0x05, 0x5F: 0x01}, 0x3005, 0),
    ("CPI sets a clear Z", {16: 0x05, 0x5F: 0x00}, 0x3005, 0),
    ("MULS of -1 and 1", {16: 0xFF, 18: 0x01, 0x5F: 0x00}, 0x0202, 0),
    ("FMULS of -1 and nearly 1", {16: 0x80, 18: 0x7F, 0x5F: 0x00}, 0x0382, 0),
    ("FMULS of -1 and -1: C is of the product", {16: 0x80, 18: 0x80, 0x5F: 0x01}, 0x0382, 0),
    ("MUL over its own operand", {0: 0x12, 1: 0x34, 0x5F: 0x00}, 0x9C01, 0),
    ("MUL of r1 and r0", {0: 0xFF, 1: 0xFE, 0x5F: 0x00}, 0x9C10, 0),
    ("LPM with RAMPZ 1", {**z_at(4), 0x5B: 1}, 0x95C8, 0),
    ("LPM Z+ with RAMPZ 1, at 0x0FFFF", {**z_at(0xFFFF), 0x5B: 1}, 0x9105, 0),
    ("ELPM at 0x10004", {**z_at(4), 0x5B: 1}, 0x95D8, 0),
    ("ELPM Z at 0x10005", {**z_at(5), 0x5B: 1}, 0x9106, 0),
    ("ELPM Z+ at 0x10004", {**z_at(4), 0x5B: 1}, 0x9107, 0),
    ("ELPM Z+ at 0x0FFFF", {**z_at(0xFFFF), 0x5B: 0}, 0x9107, 0),
    ("ELPM Z+ at 0x1FFFF", {**z_at(0xFFFF), 0x5B: 1}, 0x9107, 0),
    ("ELPM at 0x1FFFF", {**z_at(0xFFFF), 0x5B: 1}, 0x95D8, 0),
    ("ELPM Z at 0x1FFFF", {**z_at(0xFFFF), 0x5B: 1}, 0x9106, 0),
    ("STD Z+q that wraps", {30: 0xD0, 31: 0xFF, 16: 0x5A}, 0xAF07, 0),
    ("STD Y+q that wraps", {28: 0xD3, 29: 0xFF, 16: 0x5A}, 0xAF0F, 0),
    ("LDD Y+q that wraps", {28: 0xD2, 29: 0xFF, 16: 0x5A}, 0xAD0F, 0),
]


def main():
    folder = Path(sys.argv[1]) / "data"
    kindred = all_kindred()
    out = [HEAD.rstrip(), "", "memory 0030 012F", "start " + " ".join(f"{d:02X}={x:02X}" for d, x in START.items()), flash_line(), "",
           "# by hand"]
    for what, state, first, second in BY_HAND:
        text = decoded(first, second)[0]
        out += [f"# {what}", line(kind_of(text), state, first, second)]
    single, several, same = 0, [], {}
    out += ["", "# each mnemonic beside its kindred"]
    for _, _, pattern, text, _, _ in machine.ROWS:
        rules = kindred.get(text)
        if rules is None:
            continue
        rows, own = rows_of(pattern, text, rules, text)
        single += len(rows) == 1
        if len(rows) > 1:
            several.append(f"{text} ({len(rows)})")
        same[text] = own
        out += [line(kind_of(text), *one) for one in rows]
    (folder / "kindred.txt").write_text("\n".join(out) + "\n")
    causes = [CAUSE_HEAD.rstrip(), ""] + [f"cause {n} gives {text}" for n, text in enumerate(CAUSES, 1)]
    (folder / "causes.txt").write_text("\n".join(causes) + "\n")
    print(f"{len(same)} mnemonics, {single} by one row; by more: {', '.join(several)}")
    print("rules that no row tells (the own one, under other names):", {t: n for t, n in same.items() if n != 1})


if __name__ == "__main__":
    if sys.argv[1:2] in (["--help"], ["-h"]):
        sys.exit(print(__doc__))
    main()
