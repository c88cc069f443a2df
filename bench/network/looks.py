#!/usr/bin/env python3
"""Writes the calls of `look`, and of `save` from states with many instructions, that the stored run of `command_facts` makes, and
what they are to come to, by the slow simulator beside this file.

    bench/network/looks.py FOLDER        FOLDER is crates/command_facts: writes the files of these calls in data/, and what they are
                                         to come to in stdout

Always the same bytes.
"""
import re

from case_lines import folder_of_words
from checkpoints import Cases as CutCases
from checkpoints import are_words as are_cut_words
from draw import hex_text, ring
from network import MOST_EXECUTED
from states import EPOCH

NAME = "looks.txt"
HEAD = """\
# Calls of `look`, and of `save` from states with many instructions, over files and streams in memory; calls.txt says what the
# lines mean.
#
# Source: what is stored is what bench/network/network.py gives, by the definitions of the network and of a state's text. The
# state of stopped.toml in cycle 3 was worked by hand too."""
# The node of stopped.toml: LDI in cycle 0, OUT to UCSR0B in cycle 1 (the transmitter on), OUT to UDR0 in cycle 2 (a frame of 160
# cycles begins), LDI in cycle 3.
THIRD_BY_HAND = {
    "core": "0 0 0 0 0 0 0 0 0 0 0 0 0 0 0 0 8 0 0 0 0 0 0 0 0 0 0 0 0 0 0 0 0 0 3 0 0 0 0 0 3",
    "ports": "0 8 6 0 0 0 0 0 0 1 162 8 0 0 0 0 0 0 0 0 0 0 0 0 0 0 0 0 0",
}
LAST_CYCLE = 1_099_511_627_776


def are_words(words):
    """Whether the program takes these words, of those that are called here."""
    if words[0] != "look":
        return are_cut_words(words)
    is_file = [word != "" and word[0] != "-" for word in words[1:]]
    if not 3 <= len(words) <= 4 or not is_file[0] or not is_file[-1] and len(words) == 4:
        return False
    return re.fullmatch("[0-9]{1,13}", words[2]) is not None and int(words[2]) <= LAST_CYCLE


class Cases(CutCases):
    takes = staticmethod(are_words)


def words_of_looks(it):
    it.about("Words.")
    for words in (
        "look", "look stopped.toml", "look stopped.toml -1", "look stopped.toml +1", "look stopped.toml 1_000", "look stopped.toml 1.", "look stopped.toml x",
        'look stopped.toml ""', "look stopped.toml 00000000000003", "look stopped.toml 1099511627777", "look -x 3", 'look "" 3', "look 3 stopped.toml x.state x",
        "look stopped.toml 3 -x", 'look stopped.toml 3 ""', "look stopped.toml stopped_1.state 3", "look --plain stopped.toml 3", "Look stopped.toml 3",
    ):
        it.call(words)
    it.about("Leading zeros; the greatest cycle that there is, which lies behind the run's end.")
    it.call("look stopped.toml 0000000000003")
    it.call("look stopped.toml 1099511627776")


def single(it):
    it.about("A node that stops in cycle 4: the state at each cycle around, where it is reset, where the run is over, and behind that.")
    it.file("pwm.hex", ":0A00000008E00AB90CB901E00FBDD9\n:00000001FF\n")
    it.file("stopped.toml", 'cycles = 300000\nnode = [{image = "pwm.hex"}]\n')
    for cycle in (0, 2, 3, 163, 300_000, 300_001):
        state = it.call(f"look stopped.toml {cycle}")
        if cycle == 3:
            lines = dict(line.split(" ", 1) for line in state.decode().splitlines()[:-1])
            assert all(lines[word] == f"0 {numbers}" for word, numbers in THIRD_BY_HAND.items()), lines["core"] + lines["ports"]
    it.about("At the end of an epoch it is what `save` writes.")
    saved = it.call("save stopped.toml 1")
    assert saved == it.call(f"look stopped.toml {EPOCH}")
    it.file("stopped_1.state", saved)
    it.about("From a state: at its own cycle, behind it, where the run is over, before it, and behind the run's end.")
    assert saved == it.call(f"look stopped.toml {EPOCH} stopped_1.state")
    for cycle in (300_000, EPOCH - 1, 0, 300_001):
        it.call(f"look stopped.toml {cycle} stopped_1.state")
    it.about("What is no state, or is of no epoch's end, is refused as `resume` does.")
    it.file("third.state", it.held_of("look stopped.toml 3"))
    for words in ("look stopped.toml 3 third.state", "save stopped.toml 1 third.state", "resume stopped.toml third.state", "look stopped.toml 300001 third.state", "look stopped.toml 0 pwm.hex"):
        it.call(words)
    it.about("An output that takes so many bytes, and reads that fail.")
    for room in (0, 15, 300):
        it.call("look stopped.toml 3", out=room)
    it.call(f"look stopped.toml {EPOCH + 7} stopped_1.state", out=70)
    for read in range(3):
        it.call(f"look stopped.toml {EPOCH + 7} stopped_1.state", reads=read)
    it.call("look stopped.toml 3", reads=1)
    for words in ("look missing.toml 3", "look stopped.toml 3 missing.state", "look missing.toml 3 missing.state", "look stopped.toml 300001 missing.state"):
        it.call(words)
    return saved


def four(it):
    it.about("Four nodes that send and sample in a ring: within an exchange, within instructions and transfers, where a sample is taken and answered.")
    it.file("ring_a.hex", hex_text(ring(0x11, 1)))
    it.file("ring_b.hex", hex_text(ring(0x22, 8)))
    nodes = "".join(f'[[node]]\nimage = "ring_{name}.hex"\n' for name in "abba")
    links = "".join(f"[[link]]\nfrom = {k}\nto = {(k + 1) % 4}\n" for k in range(4))
    it.file("four.toml", f"cycles = {2 * EPOCH + 1000}\nlatency = 100\nbyte_time = 512\n{nodes}{links}")
    for cycle in (0, 1, *range(2, 120, 7), *range(120, 700, 29)):
        it.call(f"look four.toml {cycle}")
    it.about("From a state with bytes on the air, up to the end of an epoch, which is what `save` writes, and beyond.")
    saved = it.call("save four.toml 1")
    assert b"\nsend " in saved and saved == it.call(f"look four.toml {EPOCH}")
    it.file("four_1.state", saved)
    for cycle in (EPOCH, EPOCH + 1, EPOCH + 40, EPOCH + 41, 2 * EPOCH - 1, 2 * EPOCH, 2 * EPOCH + 1, 2 * EPOCH + 999, 2 * EPOCH + 1000, 2 * EPOCH + 1001):
        there = it.call(f"look four.toml {cycle} four_1.state")
        if cycle == 2 * EPOCH:
            assert there == it.call("save four.toml 1 four_1.state") == it.call("save four.toml 2")
        if cycle in (EPOCH, EPOCH + 1, 2 * EPOCH + 1000):
            assert there == it.call(f"look four.toml {cycle}")


def counted(it, saved):
    it.about("A node that runs: states of it with as many instructions as a state can say, and with some fewer.")
    it.file("loop.hex", hex_text([0xCFFF]))
    it.file("loop.toml", f'cycles = {2 * EPOCH + 100}\nnode = [{{image = "loop.hex"}}]\n')
    lines = it.call("save loop.toml 1").decode().split("\n")
    numbers = lines[2].split(" ")
    executed = EPOCH // 2
    assert numbers[-1] == str(executed)
    for name, count in (("most", MOST_EXECUTED), ("fits", MOST_EXECUTED - executed), ("over", MOST_EXECUTED - executed + 1)):
        core = " ".join([*numbers[:-1], str(count)])
        it.file(f"{name}.state", "\n".join([*lines[:2], core, *lines[3:]]))
    for name in ("most", "fits", "over"):
        it.call(f"save loop.toml 1 {name}.state")
        it.call(f"head loop.toml 1 {name}.state")
        it.call(f"resume loop.toml {name}.state")
    for name, further in (("most", 0), ("most", 1), ("most", 2), ("fits", EPOCH), ("fits", EPOCH + 1), ("over", EPOCH - 2), ("over", EPOCH)):
        it.call(f"look loop.toml {EPOCH + further} {name}.state")
    it.file("fits_2.state", it.held_of("save loop.toml 1 fits.state"))
    it.call("resume loop.toml fits_2.state")
    it.about("A node that is stopped executes nothing more, so its count stays.")
    lines = saved.decode().split("\n")
    lines[2] = lines[2].rpartition(" ")[0] + f" {MOST_EXECUTED}"
    it.file("still.toml", f'cycles = {2 * EPOCH + 100}\nnode = [{{image = "pwm.hex"}}]\n')
    it.file("still.state", "\n".join(lines))
    for words in ("save still.toml 1 still.state", f"look still.toml {2 * EPOCH + 100} still.state", "resume still.toml still.state"):
        it.call(words)


def cases(folder):
    it = Cases(folder, HEAD)
    saved = single(it)
    words_of_looks(it)
    four(it)
    counted(it, saved)
    return it


if __name__ == "__main__":
    cases(folder_of_words(__doc__)).write("calls", NAME)
