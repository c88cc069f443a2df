#!/usr/bin/env python3
"""Writes crates/command_facts/data/rows.txt, aliases.txt and targets.txt: sources in assembly, with the words that avr-as of
binutils gives for them. It needs avr-as and avr-objcopy (Debian: binutils-avr).

    bench/asm_cases.py
"""
import os, random, subprocess, sys, tempfile

AS = ["avr-as", "-mmcu=atmega128"]


def words(source):
    """The words that avr-as gives for a source in its own dialect."""
    with tempfile.TemporaryDirectory() as folder:
        text, made, raw = (os.path.join(folder, n) for n in ("a.s", "a.o", "a.bin"))
        with open(text, "w") as out:
            out.write(source + "\n")
        subprocess.run(AS + ["-mno-skip-bug", "-o", made, text], check=True)
        linked = os.path.join(folder, "a.elf")
        subprocess.run(["avr-ld", "-mavr51", "-Ttext=0", "-o", linked, made], check=True, stderr=subprocess.DEVNULL)
        subprocess.run(["avr-objcopy", "-O", "binary", "-j", ".text", linked, raw], check=True)
        data = open(raw, "rb").read()
    return [data[i] + 256 * data[i + 1] for i in range(0, len(data), 2)]


def case(name, lines, gas=None):
    """One case. A line `* N TEXT` stands for N lines. `gas` are the lines in avr-as' dialect, where they differ."""
    plain = [l for line in (gas or lines) for l in ([line.split(" ", 2)[2]] * int(line.split()[1]) if line.startswith("* ") else [line])]
    found = words("\n".join(plain))
    return f"== {name}\n" + "\n".join(lines) + "\n->" + "".join(f" {w:04X}" for w in found) + "\n"


rnd = random.Random(26)
ANY, UPPER, SHORT, EVEN, PAIR = list(range(32)), list(range(16, 32)), list(range(16, 24)), list(range(0, 32, 2)), [24, 26, 28, 30]


def some(values, n=4):
    values = list(values)
    picked = [values[0], values[-1]] + [rnd.choice(values) for _ in range(n)]
    return picked


def reg(values):
    return lambda: [f"r{v}" for v in some(values)]


def num(most):
    def make():
        out = []
        for v in some(range(most + 1)):
            out.append(rnd.choice([f"{v}", f"0x{v:02X}", f"0x{v:x}"]))
        return out
    return make


def texts(*all):
    return lambda: list(all)


def rows():
    out = []
    table = []
    for m in "cpc sbc add cpse cp sub adc and eor or mov mul".split():
        table.append((m, reg(ANY), reg(ANY)))
    table.append(("movw", reg(EVEN), reg(EVEN)))
    table.append(("muls", reg(UPPER), reg(UPPER)))
    for m in "mulsu fmul fmuls fmulsu".split():
        table.append((m, reg(SHORT), reg(SHORT)))
    for m in "cpi sbci subi ori andi ldi".split():
        table.append((m, reg(UPPER), num(255)))
    for m in "adiw sbiw".split():
        table.append((m, reg(PAIR), num(63)))
    table.append(("in", reg(ANY), num(63)))
    table.append(("out", num(63), reg(ANY)))
    for m in "cbi sbic sbi sbis".split():
        table.append((m, num(31), num(7)))
    for m in "bld bst sbrc sbrs".split():
        table.append((m, reg(ANY), num(7)))
    table.append(("ldd", reg(ANY), lambda: [f"{p}+{q}" for p in "YZ" for q in some(range(64))]))
    table.append(("std", lambda: [f"{p}+{q}" for p in "YZ" for q in some(range(64))], reg(ANY)))
    table.append(("ld", reg(range(26)), texts("X", "X+", "-X", "Y+", "-Y", "Z+", "-Z")))
    table.append(("st", texts("X", "X+", "-X", "Y+", "-Y", "Z+", "-Z"), reg(range(26))))
    table.append(("lpm", reg(range(30)), texts("Z", "Z+")))
    table.append(("elpm", reg(range(30)), texts("Z", "Z+")))
    table.append(("lds", reg(ANY), num(0xFFFF)))
    table.append(("sts", num(0xFFFF), reg(ANY)))
    for m, a, b in table:
        first, second = a(), b()
        lines = [f"{m} {first[i % len(first)]}, {second[(i + i // len(first)) % len(second)]}" for i in range(max(len(first), len(second)))]
        out.append(case(m, lines))
    for m in "com neg swap inc asr lsr ror dec pop push".split():
        out.append(case(m, [f"{m} {r}" for r in reg(ANY)()]))
    for m in "bset bclr".split():
        out.append(case(m, [f"{m} {n}" for n in range(8)]))
    for m in "nop ijmp icall ret reti sleep break wdr lpm elpm spm".split():
        out.append(case(m, [m]))
    for m in "jmp call".split():
        values = some(range(65536))
        out.append(case(m, [f"{m} 0x{v:04X}" for v in values] + [f"{m} {v}" for v in values],
                        [f"{m} {2 * v}" for v in values] * 2))
    for m in "rjmp rcall".split():
        out.append(case(m, [f"{m} .{k:+d}" for k in (0, -2, 2, 4094, -4096, 100, -100)]))
    for m in "brbs brbc".split():
        out.append(case(m, [f"{m} {s}, .{k:+d}" for s, k in zip(range(8), (0, -2, 2, 126, -128, 64, -64, 10))]))
    out.append(case(".word", [".word 0x1234", ".word 65535", ".word 0", ".word 0xab"]))
    return "".join(out)


def aliases():
    out = [case("sei and cli", ["sei", "cli"])]
    for m in "brcs brcc breq brne".split():
        out.append(case(m, [f"{m} .{k:+d}" for k in (0, 126, -128)]))
    for m in "clr tst lsl rol".split():
        out.append(case(m, [f"{m} {r}" for r in reg(ANY)()]))
    out.append(case("ld without a displacement", ["ld r0, Y", "ld r31, Z", "ld r17, Y", "ld r30, Z"]))
    out.append(case("st without a displacement", ["st Y, r0", "st Z, r31", "st Y, r17", "st Z, r30"]))
    return "".join(out)


def targets():
    """Labels forward and backward, up to the ends of their reach."""
    out = []
    nop = lambda n: [f"* {n} nop"]
    out.append(case("to itself", ["here:", "rjmp here"]))
    out.append(case("backward", ["loop:", "dec r16", "brne loop", "rjmp loop"]))
    out.append(case("forward", ["breq over", "ldi r16, 1", "over:", "ret"]))
    out.append(case("jmp and call", ["jmp far", "call near", "near:", "nop", "far:", "ret"]))
    out.append(case("over two-word instructions", ["rjmp over", "lds r1, 0x100", "sts 0x100, r1", "jmp 0", "over:", "rcall back", "back:"]))
    out.append(case("names of registers and mnemonics", ["r5:", "nop:", "rjmp r5", "rjmp nop"]))
    out.append(case("branch at the ends of its reach", ["low:"] + nop(63) + ["brne low", "breq high"] + nop(63) + ["high:", "nop"]))
    out.append(case("jump at the ends of its reach", ["low:"] + nop(2047) + ["rjmp low", "rjmp high"] + nop(2047) + ["high:", "nop"]))
    return "".join(out)


def head(text):
    return f"Written by bench/asm_cases.py: {text}. The words are those of avr-as.\n"


if __name__ == "__main__":
    if sys.argv[1:2] in (["--help"], ["-h"]):
        sys.exit(print(__doc__))
    folder = os.path.join(os.path.dirname(os.path.abspath(__file__)), "..", "crates", "command_facts", "data")
    for name, text, made in (("rows", "each row of the opcode table", rows), ("aliases", "each alias", aliases), ("targets", "labels", targets)):
        with open(os.path.join(folder, name + ".txt"), "w") as out:
            out.write(head(text) + made())
