#!/usr/bin/env python3
"""Writes the calls of `sweep` that the stored run of `command_facts` makes, and what they are to come to, by the slow simulator
beside this file.

    bench/network/sweeps.py FOLDER        FOLDER is crates/command_facts: writes the files of these calls in data/, and
                                          what they are to come to in stdout

Always the same bytes.
"""
import sys
from case_lines import Files, folder_of_words
from checkpoints import Cases
from draw import hex_text, ring
from moves import LAST, MOST_BYTES, MOST_MOVES
from network import outcome
from states import EPOCH

NAME = "sweeps.txt"
HEAD = """\
# Calls of `sweep` over files and streams in memory; calls.txt says what the lines mean.
#
# Source: what is stored is what bench/network/network.py gives, by the definitions of the network and of a text of moves."""
# Nodes 0 and 1 send back each byte that arrives; node 2 sends bytes that nobody hears.
SCENARIO = f"""\
cycles = {EPOCH + 20_000}
window = [{EPOCH + 900}, {EPOCH + 1_500}]
node = [{{image = "sweep_echo.hex"}}, {{image = "sweep_echo.hex"}}, {{image = "sweep_ring.hex"}}]
input = [{{node = 0, at = {EPOCH - 5_000}, every = 2_000, hex = "414243444546"}}]
"""


def stretch(at, every, digits):
    return f"{at} {every} {digits}"


def line(node, *stretches):
    return " ".join([str(node), *stretches]) + "\n"


def runs(it, echo):
    it.about("Three runs: the input as it is, its bytes behind the state a cycle later, and as it is with two of another node.")
    it.file("sweep_echo.hex", echo)
    it.file("sweep_ring.hex", hex_text(ring(0x11, 1)))
    it.file("sweep.toml", SCENARIO)
    it.file("sweep.state", outcome(Files(it.held), ["save", "sweep.toml", "1"]))
    before = stretch(EPOCH - 5_000, 2_000, "414243")
    same = line(0, stretch(EPOCH - 5_000, 2_000, "414243444546"))
    later = line(0, before, stretch(EPOCH + 1_001, 2_000, "444546"))
    other = line(1, stretch(EPOCH + 1_000, 1, "7f7F"))
    for name, moves in (("same", same), ("later", later), ("other", other), ("three", same + later + other), ("back", later + same)):
        it.file(f"{name}.moves", moves)
    whole = it.call("resume sweep.toml sweep.state")
    parts = [it.call(f"sweep sweep.toml sweep.state {name}.moves") for name in ("same", "later", "other")]
    assert parts[0] == whole and len(set(parts)) == 3
    assert it.call("sweep sweep.toml sweep.state three.moves") == b"".join(parts)
    assert it.call("sweep sweep.toml sweep.state back.moves") == parts[1] + parts[0]
    it.about("An output that takes so many bytes: within the first run, and behind it.")
    for room in (0, 100, len(parts[0]), len(parts[0]) + 1):
        it.call("sweep sweep.toml sweep.state three.moves", out=room)
    it.about("The last cycle, the greatest distance and the most bytes.")
    it.file("bounds.moves", line(0, stretch(0, 65_535, "00"), stretch(LAST, 65_535, "00" * (MOST_BYTES - 1))))
    it.call("sweep sweep.toml sweep.state bounds.moves")


def refusals(it):
    it.about("Words.")
    for words in (
        "sweep", "sweep sweep.toml", "sweep sweep.toml sweep.state", 'sweep sweep.toml sweep.state ""', "sweep sweep.toml sweep.state -x", "sweep sweep.toml -x same.moves",
        "sweep -x sweep.state same.moves", "sweep sweep.toml sweep.state same.moves 1", "Sweep sweep.toml sweep.state same.moves",
    ):
        it.call(words)
    it.about("Files that are not there or not to be read, and refusals in the order of reading.")
    for words in (
        "sweep missing.toml sweep.state same.moves", "sweep sweep.toml missing.state missing.moves", "sweep sweep.toml sweep.state missing.moves",
        "sweep sweep.toml same.moves empty.moves", "sweep same.moves missing.state missing.moves",
    ):
        it.call(words)
    for read in range(5):
        it.call("sweep sweep.toml sweep.state same.moves", reads=read)
    it.about("Texts that are no moves.")
    good = stretch(5, 7, "41")
    bad = {
        "empty": "", "blank": "\n", "no_newline": line(0, good).rstrip("\n"), "second_line": line(0, good) + "x\n", "blank_line": line(0, good) + "\n" + line(0, good),
        "no_stretch": "0\n", "two_words": "0 5 7\n", "five_words": "0 5 7 41 9\n", "no_digits": "0 5 7 \n", "two_spaces": "0  5 7 41\n", "tab": "0\t5 7 41\n",
        "end_space": "0 5 7 41 \n", "leading_zero": "0 05 7 41\n", "sign": "0 +5 7 41\n", "odd": "0 5 7 411\n", "no_hex": "0 5 7 4g\n", "return": "0 5 7 41\r\n",
        "node_3": line(3, good), "node_wide": line(10**30, good), "node_zero": "00 5 7 41\n",
        "at_wide": line(0, stretch(LAST + 1, 7, "41")), "every_0": line(0, stretch(5, 0, "41")), "every_wide": line(0, stretch(5, 65_536, "41")),
        "at_far": line(0, stretch(10**30, 7, "41")),
        "in_between": line(0, stretch(5, 7, "4142"), stretch(12, 7, "43")), "in_order": line(0, stretch(5, 7, "4142"), stretch(13, 7, "43")),
        "long_line": line(0, stretch(0, 1, "00" * MOST_BYTES), stretch(MOST_BYTES, 1, "00")),
        "first_fault": line(0, stretch(LAST + 1, 0, "zz")), "first_line": line(0, stretch(5, 0, "41")) + line(9, good),
    }
    for name, text in bad.items():
        it.file(f"{name}.moves", text)
        it.call(f"sweep sweep.toml sweep.state {name}.moves")
    it.blank("most.moves", MOST_MOVES)
    it.blank("more.moves", MOST_MOVES + 1)
    for name in ("most", "more"):
        it.call(f"sweep sweep.toml sweep.state {name}.moves")


def cases(folder):
    it = Cases(folder, HEAD)
    runs(it, (folder / "data" / "echo.hex").read_text())
    refusals(it)
    return it


if __name__ == "__main__":
    if sys.argv[1:2] in (["--help"], ["-h"]):
        sys.exit(print(__doc__))
    cases(folder_of_words(__doc__)).write("calls", NAME)
