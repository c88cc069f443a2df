#!/usr/bin/env python3
"""Compares how a program and the checker beside this file take states that somebody changed.

    bench/network/broken_states.py PROGRAM [--count COUNT] [--seed SEED]

It draws states and changes each in one way: a number at its bound or beyond, a line that is missing or stands twice,
another spelling, sends out of order, and so on. It gives the state to `PROGRAM resume FILE STATE`, and compares
status and line with what `states.py` says of it. Without COUNT it draws 2,000 changes. Also, each number of a state
takes the values at its bounds and beyond. It ends with counts. If an answer differs, it tells how and keeps the
files, and its exit status is 1.
"""
import argparse
import random
import shutil
import subprocess
import sys
import tempfile
from collections import Counter
from pathlib import Path

from draw import hex_text, ring
from drawn_states import drawn_state
from network import Folder, read_scenario
from states import EPOCH, MOST_STATE, Fault, Rules, core_bounds, ports_bounds, read_state, state_text, timers_bounds

# ---- scenarios, of which a state is taken shortly before they end

LINKS = '[[link]]\nfrom = 0\nto = 1\nlatency = 900\n[[link]]\nfrom = 1\nto = 0\n'
SCENARIOS = {
    "one": (1, f"cycles = {EPOCH + 90}\n"),
    "two": (2, f"version = 2\ncycles = {EPOCH + 70}\nlatency = 100\nbyte_time = 512\n" + LINKS),
    "three": (3, f"version = 3\ncycles = {3 * EPOCH}\nlatency = 1\nbyte_time = 256\n"),
    "twelve": (12, f"cycles = {2 * EPOCH + 1}\nlatency = 65_535\n"),
}


def write_scenarios(folder):
    """The scenarios' rules."""
    (folder / "ring.hex").write_text(hex_text(ring(0x11, 1)))
    rules = {}
    for name, (nodes, text) in SCENARIOS.items():
        head, _, links = text.partition("[[link]]")
        text = head + '[[node]]\nimage = "ring.hex"\n' * nodes + ("[[link]]" + links if links else "")
        (folder / f"{name}.toml").write_text(text)
        rules[name] = Rules(read_scenario(Folder(folder), f"{name}.toml"))
    return rules


# ---- changes: each takes the lines of a state, without their LF, and gives a text

NUMBERS = [0, 1, 2, 3, 4, 5, 7, 8, 15, 16, 26, 27, 255, 256, 4095, 4096, 65_535, 65_536, 2**40, 2**40 + 1, 2**41, 2**41 + 1]
NUMBERS += [2**63, 2**64 - 1, 2**64, 2**64 + 1, 2**64 + 5, 10**19, 10**20 - 1, 10**40]


def joined(lines):
    return b"".join(line + b"\n" for line in lines)


def with_line(lines, place, line):
    return joined(lines[:place] + [line] + lines[place + 1 :])


def a_line(rng, lines, *words):
    """The place of a line that begins with one of these words."""
    found = [place for place, line in enumerate(lines) if line.split(b" ")[0].decode() in words]
    return rng.choice(found) if found else None


def change_part(rng, lines, make, *words):
    """Another text in place of one of a line's parts."""
    place = a_line(rng, lines, *(words or ("core", "timers", "ports", "send", "cycle")))
    if place is None:
        return None
    parts = lines[place].split(b" ")
    at = rng.randrange(1, len(parts))
    parts[at] = make(parts[at])
    return with_line(lines, place, b" ".join(parts))


def number(rng, lines):
    near = lambda part: str(max(0, int(part) + rng.choice((-1, 1, 16)))).encode()
    make = near if rng.random() < 0.3 else lambda part: str(rng.choice(NUMBERS)).encode()
    return change_part(rng, lines, make, "core", "timers", "ports")


def cycle(rng, lines):
    now = int(lines[1].split(b" ")[1])
    value = rng.choice((0, 5, EPOCH - 1, now + EPOCH, now - EPOCH, now + 1, now + 2 * EPOCH, 2**40, 2**64 * EPOCH, 2**64))
    return with_line(lines, 1, b"cycle %d" % value if value >= 0 else b"cycle -%d" % -value)


def missing(rng, lines):
    place = rng.randrange(len(lines))
    return joined(lines[:place] + lines[place + 1 :])


def twice(rng, lines):
    place = rng.randrange(len(lines))
    return joined(lines[: place + 1] + lines[place:])


def exchanged(rng, lines):
    a, b = rng.sample(range(len(lines)), 2)
    lines = list(lines)
    lines[a], lines[b] = lines[b], lines[a]
    return joined(lines)


def cut(rng, lines):
    text = joined(lines)
    return text[: rng.choice((0, 1, len(text) - 1, rng.randrange(len(text)), rng.randrange(len(text))))]


def two_spaces(rng, lines):
    place = rng.randrange(len(lines))
    spaces = [at for at, byte in enumerate(lines[place]) if byte == 0x20] or [len(lines[place])]
    at = rng.choice(spaces)
    return with_line(lines, place, lines[place][:at] + b" " + lines[place][at:])


def space_at_an_end(rng, lines):
    place = rng.randrange(len(lines))
    return with_line(lines, place, rng.choice((b" " + lines[place], lines[place] + b" ")))


def tab(rng, lines):
    place = rng.randrange(len(lines))
    return with_line(lines, place, lines[place].replace(b" ", b"\t", 1))


def carriage_return(rng, lines):
    return joined(lines).replace(b"\n", b"\r\n") if rng.random() < 0.3 else with_line(lines, (place := rng.randrange(len(lines))), lines[place] + b"\r")


def leading_zero(rng, lines):
    return change_part(rng, lines, lambda part: b"0" + part)


def plus(rng, lines):
    return change_part(rng, lines, lambda part: rng.choice((b"+", b"-", b" ", b"0x", b"_")) + part)


def twenty_digits(rng, lines):
    return change_part(rng, lines, lambda part: rng.choice((b"1" * 20, b"18446744073709551616", b"9" * 20, b"0" * 20, b"1" * 3000)))


def empty_part(rng, lines):
    return change_part(rng, lines, lambda part: b"")


def one_more(rng, lines):
    place = rng.randrange(len(lines))
    parts = lines[place].split(b" ")
    return with_line(lines, place, b" ".join(rng.choice((parts[:-1], parts + parts[-1:], parts + [b"0"]))))


def digits(rng, lines):
    """Other digits of bytes: lower case, odd, too few, too many, none."""
    place = a_line(rng, lines, "io", "sram", "send")
    *parts, last = lines[place].split(b" ")
    at = rng.randrange(len(last))
    forms = (last.lower(), last[:-1], last[:-2], last + b"00", last + b"0", b"", last[:at] + b"G" + last[at + 1 :])
    forms += (last[:at] + b"a" + last[at + 1 :], last[:at] + b" " + last[at + 1 :], last[:at] + b"\xc3" + last[at + 1 :])
    return with_line(lines, place, b" ".join(parts + [rng.choice(forms)]))


def io_byte(rng, lines):
    place = a_line(rng, lines, "io")
    head, last = lines[place].rsplit(b" ", 1)
    at = rng.randrange(224)
    return with_line(lines, place, head + b" " + last[: 2 * at] + b"%02X" % (1 << rng.randrange(8)) + last[2 * at + 2 :])


def behind_end(rng, lines):
    rest = rng.choice((b"\n", b"x", b"end\n", b" ", b"send 0 1 00\n", b"\0", b"\r\n", b"end"))
    return joined(lines) + rest


def another_word(rng, lines):
    place = rng.randrange(len(lines))
    word, space, rest = lines[place].partition(b" ")
    return with_line(lines, place, rng.choice((word.upper(), word + b"s", b"", word[:-1], b"core", b"end", b"\xef\xbb\xbf" + word)) + space + rest)


def another_node(rng, lines):
    place = a_line(rng, lines, "core", "timers", "ports", "io", "sram")
    word, node, rest = lines[place].split(b" ", 2)
    return with_line(lines, place, b" ".join((word, b"%d" % (int(node) + rng.choice((-1, 1, 64, 256))), rest)))


def odd_byte(rng, lines):
    text = bytearray(joined(lines))
    text[rng.randrange(len(text))] = rng.randrange(256)
    return bytes(text)


def sends(rng, lines, rules):
    """Other sends: any order, nodes that are not there, cycles at the ends of what can be heard and beyond."""
    now = int(lines[1].split(b" ")[1])
    span = rules.longest + rules.byte_time
    listed = []
    for _ in range(rng.randrange(1, 5)):
        sent = now - rng.choice((1, 2, span - 1, rng.randrange(1, span)))
        node = rng.randrange(rules.nodes)
        if rng.random() < 0.1:
            sent = now - rng.choice((0, span, span + 1, -1, -EPOCH))
        if rng.random() < 0.1:
            node = rng.choice((rules.nodes, 64, 255, 256, 2**64))
        listed.append((sent, node))
    if rng.random() < 0.8:
        listed.sort()
    if rng.random() < 0.2:
        listed.append(listed[-1])
    body = [line for line in lines if not line.startswith(b"send ")][:-1]
    return joined(body + [b"send %d %d %02X" % (node, sent, rng.randrange(256)) for sent, node in listed] + [b"end"])


CHANGES = [number] * 5 + [cycle, missing, twice, exchanged, cut, two_spaces, space_at_an_end, tab, carriage_return, leading_zero, plus]
CHANGES += [twenty_digits, empty_part, one_more, digits, digits, io_byte, io_byte, behind_end, another_word, another_node, odd_byte]
CHANGES += [sends] * 4


def changed(rng, rules, states):
    """The kind of a change, a scenario's name, and a text."""
    name = rng.choice(list(rules))
    if rng.random() < 0.02:
        return "another scenario's state", name, states[rng.choice(list(rules))]
    change = rng.choice(CHANGES)
    lines = states[name].split(b"\n")[:-1]
    text = change(rng, lines, rules[name]) if change is sends else change(rng, lines)
    return change.__name__.replace("_", " "), name, text


# ---- each number at its bounds


def edges(bound):
    """The values at a bound and beyond."""
    if isinstance(bound, int):
        return {0, 1, bound, bound + 1}
    inside = [bound[0], bound[-1]] if isinstance(bound, range) else list(bound)
    return {max(0, value + more) for value in inside for more in (-1, 0, 1)}


def each_number(rules, texts):
    """Texts of each number of a state of one node at each value at its bounds."""
    for text in texts:
        saved = read_state(rules, text)
        (node,) = saved.nodes
        first = 0 if node.core[39] else saved.cycle
        for numbers, bounds in ((node.core, core_bounds()), (node.timers, timers_bounds()), (node.ports, ports_bounds(node.ports, first))):
            for place, bound in enumerate(bounds):
                before = numbers[place]
                for value in sorted(edges(bound) | {2**64, 2**64 + before}):
                    numbers[place] = value
                    yield state_text(saved)
                numbers[place] = before


def largest():
    """Texts of the greatest length and one byte more, and hostile ones."""
    yield b"\n" * MOST_STATE
    yield b"\n" * (MOST_STATE + 1)
    yield b"avrora state 1\ncycle " + b"1" * (MOST_STATE - 22) + b"\n"
    yield b"avrora state 1\ncycle %d\ncore 0 " % EPOCH + b"0 " * (MOST_STATE // 2 - 20)
    yield b"avrora state 1\ncycle %d\ncore 0 " % EPOCH + b"9" * (MOST_STATE - 40) + b"\n"


# ---- the comparison


def expected(rules, name, text):
    try:
        read_state(rules, text)
    except Fault as fault:
        return 8, f"avrora: {name}: state refused: {fault}\n".encode(), str(fault).split(",")[0]
    return 0, b"", "ok"


class Comparison:
    def __init__(self, program, folder, rules):
        self.program, self.folder, self.rules = program, folder, rules
        self.counts, self.different = Counter(), 0

    def compare(self, kind, name, text):
        status, line, verdict = expected(self.rules[name], "x.state", text)
        (self.folder / "x.state").write_bytes(text)
        done = subprocess.run([self.program, "resume", f"{name}.toml", "x.state"], cwd=self.folder, capture_output=True, check=False)
        self.counts[f"{kind}: {verdict}"] += 1
        if (done.returncode, done.stderr) == (status, line) and (status == 0) == bool(done.stdout):
            return
        self.different += 1
        kept = self.folder / f"different{self.different}.state"
        kept.write_bytes(text)
        print(f"{kept}: resume {name}.toml: {kind}: expected {status} {line!r}, got {done.returncode} {done.stderr!r}, {len(done.stdout)} bytes")


def main():
    parser = argparse.ArgumentParser(description=__doc__, formatter_class=argparse.RawDescriptionHelpFormatter)
    parser.add_argument("program", metavar="PROGRAM")
    parser.add_argument("--count", type=int, default=2_000)
    parser.add_argument("--seed", type=int, default=0)
    given = parser.parse_args()
    rng = random.Random(f"broken {given.seed}")
    folder = Path(tempfile.mkdtemp(prefix="states."))
    rules = write_scenarios(folder)
    it = Comparison(str(Path(given.program).resolve()), folder, rules)
    done = 0
    while done < given.count:
        states = {name: state_text(drawn_state(rng, of, (of.limit - 1) // EPOCH)) for name, of in rules.items()}
        for _ in range(min(50, given.count - done)):
            kind, name, text = changed(rng, rules, states)
            if text is not None:
                it.compare(kind, name, text)
                done += 1
    two = [state_text(drawn_state(rng, rules["one"])) for _ in range(2)]
    for text in each_number(rules["one"], two):
        it.compare("each number at its bounds", "one", text)
    for text in largest():
        it.compare("the largest", "one", text)
    for kind, count in sorted(it.counts.items()):
        print(f"{kind}: {count}")
    print(f"different: {it.different} of {it.counts.total()}" + (f" (files in {folder})" if it.different else ""))
    if not it.different:
        shutil.rmtree(folder)
    sys.exit(1 if it.different else 0)


if __name__ == "__main__":
    main()
