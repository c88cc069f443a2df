#!/usr/bin/env python3
"""Writes the calls of `watch` that the stored run of `command_facts` makes, and what they are to come to, by the slow simulator beside
this file.

    bench/network/watches.py FOLDER        FOLDER is crates/command_facts: writes the files of these calls in data/, and what they are
                                           to come to in stdout

Always the same bytes.
"""
import re
import sys

from case_lines import folder_of_words
from checkpoints import Cases as CutCases
from checkpoints import are_words as are_cut_words
from draw import MCUCR, SPH, SPL, TCCR0, TIMSK, Assembler, hex_text, ldi, out, word
from places import MOST_BYTES, MOST_LINES
from states import EPOCH

NAME = "watches.txt"
HEAD = """\
# Calls of `watch` over files and streams in memory; calls.txt says what the lines mean.
#
# Source: what is stored is what bench/network/network.py gives, by whole states in every cycle. What is seen of edges.toml was
# worked by hand too."""
LAST_CYCLE, SETUP, OVERFLOW, TCNT0 = 2**40, 0x40, 0x20, 0x32

# Node 0: a store and its pointer in one instruction, a push, a push over SP, and a stop; the cycle of each instruction behind it.
WRITES = [
    ldi(16, 0x10), out(SPH, 16), ldi(16, 0xFF), out(SPL, 16), ldi(26, 0x80), ldi(27, 0x01),  # 0 to 5
    word("st_x_inc", r=16), word("push", r=16),  # 6 and 7, 8 and 9
    ldi(16, 0x5D), out(SPL, 16), ldi(16, 0), out(SPH, 16), word("push", r=16), word("break_"),  # 10 to 13, 14 and 15, 16
]
# Node 1: timer 0 starts at 0xF0 in cycle 10, and is past its top behind 16 cycles; its interrupt ends the sleep in cycle 26.
ASLEEP = [
    ldi(16, 0x10), out(SPH, 16), ldi(16, 0xFF), out(SPL, 16), ldi(16, 1), out(TIMSK, 16),  # 2 to 7
    ldi(17, 0xF0), out(TCNT0, 17), out(TCCR0, 16), ldi(18, 0x20), out(MCUCR, 18),  # 8 to 12
    word("bset", s=7), word("sleep"), out(TCCR0, 19), word("rjmp", k=-1),  # 13, 14
]
PLACES = [
    *(f"0 byte {at}" for at in ("001A", "001B", "005D", "005E", "0180", "10FF")), "0 at 0007", "0 at 000D",
    *(f"1 byte {at}" for at in ("0055", "0057", "005D", "005E", "005F", "10FE", "10FF")), "1 at 0020", "1 at 004C", "1 at 004D",
]
BY_HAND = """\
1 0 byte 005E 10
3 0 byte 005D FF
3 1 byte 005E 10
4 0 byte 001A 80
5 0 byte 001B 01
5 1 byte 005D FF
6 0 byte 001A 81
6 0 byte 0180 FF
7 1 byte 0057 01
8 0 byte 005D FE
8 0 byte 10FF FF
8 0 at 0007
11 0 byte 005D 5D
12 1 byte 0055 20
13 0 byte 005E 00
13 1 byte 005F 80
14 0 byte 005D 5C
14 1 at 004C
16 0 at 000D
26 1 byte 005D FD
26 1 byte 005F 00
26 1 byte 10FF 4D
34 1 byte 005D FF
34 1 byte 005F 80
34 1 at 0020
38 1 at 004D
"""


def are_words(words):
    """Whether the program takes these words, of those that are called here."""
    if words[0] != "watch":
        return are_cut_words(words)
    if not 5 <= len(words) <= 7 or not all(word != "" and word[0] != "-" for word in words[1:]):
        return False
    span = words[2:4]
    return all(re.fullmatch("[0-9]{1,13}", word) for word in span) and int(span[0]) <= int(span[1]) <= LAST_CYCLE


class Cases(CutCases):
    takes = staticmethod(are_words)


def asleep():
    a = Assembler(SETUP)
    a.words[0], a.words[OVERFLOW] = word("rjmp", k=SETUP - 1), word("reti")
    a.add(*ASLEEP)
    return a.finish({})


def text_of(places):
    return "".join(f"{place}\n" for place in places)


def edges(it):
    it.about("Two writes in one instruction, a push, a push over SP, a stop; what an entry pushes, SREG by RETI, a timer of a node that sleeps.")
    it.file("edge_writes.hex", hex_text(WRITES))
    it.file("edge_asleep.hex", hex_text(asleep()))
    it.file("edges.toml", 'cycles = 200\nnode = [{image = "edge_writes.hex"}, {image = "edge_asleep.hex"}]\n')
    it.file("edges.places", text_of(PLACES))
    whole = it.call("watch edges.toml 0 200 edges.places").decode()
    assert whole == BY_HAND, whole
    it.about("In pieces; FROM within an instruction; a node that stopped; no cycle; places of one node; one place.")
    parts = [it.call(f"watch edges.toml {span} edges.places").decode() for span in ("0 9", "9 15", "15 28", "28 200")]
    assert "".join(parts) == whole
    for span in ("7 8", "9 10", "26 35", "17 26", "0 0", "200 200", "0000000000006 7"):
        it.call(f"watch edges.toml {span} edges.places")
    it.file("edge_0.places", text_of(PLACES[:8]))
    it.file("edge_1.places", text_of(PLACES[8:]))
    it.file("edge.places", "1 byte 10FF\n")
    for name in ("edge_0", "edge_1", "edge"):
        it.call(f"watch edges.toml 0 200 {name}.places")
    it.about("An output that takes so many bytes.")
    for room in (0, 1, 100, len(whole) - 1, len(whole)):
        it.call("watch edges.toml 0 200 edges.places", out=room)


def tails(it, data):
    it.about("From a state on, and over moves; the network is that of sweeps.txt.")
    for name in ("sweep_echo.hex", "sweep_ring.hex", "sweep.toml", "sweep.state", "same.moves", "later.moves", "three.moves"):
        it.file(name, (data / name).read_bytes())
    it.file("sweep.places", text_of([*(f"{node} byte {at}" for node in (0, 1) for at in ("0010", "0011", "0012", "005D", "005F", "10FF")), "2 byte 0011", "2 byte 005D"]))
    first, last = EPOCH + 1_000, EPOCH + 3_000
    whole = it.call(f"watch sweep.toml {first} {last} sweep.places sweep.state")
    assert whole == it.call(f"watch sweep.toml {first} {last} sweep.places")
    it.call(f"watch sweep.toml {EPOCH} {EPOCH + 20_000} sweep.places sweep.state")
    it.call(f"watch sweep.toml {EPOCH - 200} {EPOCH + 200} sweep.places")
    runs = [it.call(f"watch sweep.toml {first} {last} sweep.places sweep.state {name}.moves") for name in ("same", "later")]
    assert runs[0] == whole and runs[1] != whole
    three = it.call(f"watch sweep.toml {first} {last} sweep.places sweep.state three.moves")
    assert three.startswith(b"".join(runs))
    for room in (len(runs[0]), len(runs[0]) + 1):
        it.call(f"watch sweep.toml {first} {last} sweep.places sweep.state three.moves", out=room)


def refusals(it):
    it.about("Words.")
    for words in (
        "watch", "watch edges.toml", "watch edges.toml 0 200", "watch edges.toml 200 edges.places", "watch edges.toml 1 0 edges.places", "watch edges.toml -1 0 edges.places",
        "watch edges.toml x 200 edges.places", 'watch edges.toml "" 200 edges.places', "watch edges.toml 0 1_0 edges.places", "watch edges.toml 0 00000000000200 edges.places",
        "watch edges.toml 0 1099511627777 edges.places", "watch -x 0 200 edges.places", 'watch edges.toml 0 200 ""', "watch edges.toml 0 200 -x", "watch edges.toml 0 200 edges.places -x",
        "watch edges.toml 0 200 edges.places x.state -x", "watch edges.toml 0 200 edges.places x.state x.moves x", "Watch edges.toml 0 200 edges.places",
    ):
        it.call(words)
    it.about("Files that are not there, and refusals in the order of reading.")
    for words in (
        "watch missing.toml 0 200 missing.places", "watch edges.toml 0 201 missing.places", "watch edges.toml 0 1099511627776 edges.places", "watch edges.toml 0 200 missing.places",
        "watch edges.places 0 200 missing.places", "watch edges.toml 0 200 edges.places missing.state", f"watch sweep.toml {EPOCH} {EPOCH} edges.toml missing.state missing.moves",
        f"watch sweep.toml {EPOCH} {EPOCH} sweep.places edges.places missing.moves", f"watch sweep.toml {EPOCH - 1} {EPOCH} sweep.places sweep.state missing.moves",
        f"watch sweep.toml {EPOCH} {EPOCH} sweep.places sweep.state missing.moves", f"watch sweep.toml {EPOCH} {EPOCH} sweep.places sweep.state edges.places",
        f"watch sweep.toml {EPOCH} {EPOCH} sweep.places sweep.state three.moves",
    ):
        it.call(words)
    for read in range(4):
        it.call("watch edges.toml 0 200 edges.places", reads=read)
    for read in range(7):
        it.call(f"watch sweep.toml {EPOCH} {EPOCH} sweep.places sweep.state same.moves", reads=read)
    it.about("Texts that are no places.")
    bad = {
        "none": "", "blank": "\n", "unended": "0 byte 0000", "unended_second": "0 byte 0000\n0 byte 0001", "second_blank": "0 byte 0000\n\n", "one_word": "0\n", "two_words": "0 byte\n",
        "four_words": "0 byte 0000 0\n", "spaces": "0  byte 0000\n", "space_first": " 0 byte 0000\n", "space_last": "0 byte 0000 \n", "tab": "0\tbyte 0000\n", "return": "0 byte 0000\r\n",
        "node_2": "2 byte 0000\n", "node_00": "00 byte 0000\n", "node_sign": "+0 byte 0000\n", "node_wide": f"{10**30} byte 0000\n", "kind": "0 word 0000\n", "kind_case": "0 Byte 0000\n",
        "three_digits": "0 byte 000\n", "five_digits": "0 byte 00000\n", "lower_case": "0 byte 001a\n", "no_digit": "0 byte 001G\n", "prefix": "0 byte 0x1A\n",
        "no_byte": "0 byte 0020\n", "timer": "0 byte 0052\n", "rampz": "0 byte 005B\n", "above_io": "0 byte 00FF\n", "above_sram": "0 byte 1100\n", "far": "0 byte FFFF\n",
        "twice": "0 byte 0000\n0 byte 0000\n", "falls": "0 byte 0001\n0 byte 0000\n", "at_first": "0 at 0000\n0 byte 0000\n", "node_falls": "1 byte 0000\n0 byte 0001\n",
        "second_line": "0 byte 0000\n0 byte 0020\n", "first_fault": "0 byte 0020\nx\n", "node_before_form": "9 byte\n", "node_before_place": "9 byte 0020\n", "place_before_order": "0 byte 0100\n0 byte 0020\n",
    }
    for name, text in bad.items():
        it.file(f"{name}.places", text)
        it.call(f"watch edges.toml 0 200 {name}.places")
    it.about("Places at their ends, the most lines, one more, and too many bytes.")
    most = [f"{node} at {at:04X}" for node in (0, 1) for at in range(MOST_LINES // 2)]
    for name, text in (
        ("ends", text_of(["0 byte 0000", "0 byte 001F", "0 byte 005D", "0 byte 005F", "0 byte 0100", "0 byte 10FF", "0 at 0000", "0 at FFFF", "1 byte 0000", "1 at FFFF"])),
        ("most", text_of(most)), ("one_more", text_of([*most, "1 at FFFF"])), ("faulty_more", text_of([*most, "x"])),
    ):
        it.file(f"{name}.places", text)
        it.call(f"watch edges.toml 0 200 {name}.places")
    for name, length in (("blanks", MOST_BYTES), ("more_blanks", MOST_BYTES + 1)):
        it.blank(f"{name}.places", length)
        it.call(f"watch edges.toml 0 200 {name}.places")


def cases(folder):
    it = Cases(folder, HEAD)
    edges(it)
    tails(it, folder / "data")
    refusals(it)
    return it


if __name__ == "__main__":
    if sys.argv[1:2] in (["--help"], ["-h"]):
        sys.exit(print(__doc__))
    cases(folder_of_words(__doc__)).write("calls", NAME)
