#!/usr/bin/env python3
"""Writes the calls of `head`, `save` and `resume` that the stored run of `command_facts` makes, and what they are to come to, by the
slow simulator beside this file.

    bench/network/checkpoints.py FOLDER        FOLDER is crates/command_facts: writes the files of these calls in data/,
                                               and what they are to come to in stdout

Always the same bytes. The network of `make 0` takes some minutes.
"""
import re
import sys
from pathlib import Path

from case_lines import CaseFile, Files, folder_of_words
from draw import hex_text, late, ring
from facts import two
from network import Refused, outcome
from samples import image, words_of
from states import EPOCH, MOST_STATE

NAME = "checkpoints.txt"
HEAD = """\
# Calls of `head`, `save` and `resume` over files and streams in memory; calls.txt says what the lines mean.
#
# Source: what is stored is what bench/network/network.py gives, by the definitions of the network and of a state's text. The
# state of stopped.toml was worked by hand too."""
PWM = ":0A00000008E00AB90CB901E00FBDD9\n:00000001FF\n"
# A node that enables the transmitter, begins a frame of 160 cycles in cycle 2, and selects PWM in cycle 4.
STOPPED_BY_HAND = {
    "core": "0 0 0 0 0 0 0 0 0 0 0 0 0 0 0 0 1 0 0 0 0 0 0 0 0 0 0 0 0 0 0 0 0 0 4 0 0 0 0 6 4",
    "timers": " ".join(["0"] * 38),
    "ports": "0 8 6 0 0 0 0 0 0 1 162 8 0 0 0 0 0 0 0 0 0 0 0 0 0 0 0 0 0",
}


def state_by_hand():
    io = bytearray(224)
    for at, byte in ((0x54, 0x01), (0x71, 0xF8), (0x72, 0xFE), (0x73, 0xFF), (0x9B, 0x20), (0x9D, 0x06)):
        io[at - 0x20] = byte
    lines = ["avrora state 1", f"cycle {EPOCH}", *(f"{word} 0 {numbers}" for word, numbers in STOPPED_BY_HAND.items())]
    return "\n".join(lines + [f"io 0 {io.hex().upper()}", "sram 0 " + "00" * 4096, "end", ""]).encode()


def are_words(words):
    """Whether the program takes these words."""
    is_file = [word != "" and word[0] != "-" for word in words[1:]]
    if words[0] == "sweep":
        return len(words) == 4 and all(is_file)
    if words[0] in ("head", "save") and len(words) == 4 and is_file[2]:
        words = words[:3]
    if words[:2] == ["run", "--plain"]:
        return len(words) == 3 and is_file[1]
    if len(words) != 3 or words[0] not in ("head", "save", "resume") or not is_file[0]:
        return False
    if words[0] == "resume":
        return is_file[1]
    return re.fullmatch("[0-9]{1,7}", words[2]) is not None and int(words[2]) > 0


class Cases(CaseFile):
    takes = staticmethod(are_words)

    def __init__(self, folder, head=HEAD):
        super().__init__(folder, head.splitlines())
        self.known = {}

    def file(self, name, content):
        self.file_beside("file", name, content.encode() if isinstance(content, str) else content)

    def outcome(self, words, failing):
        if not self.takes(words):
            return 2, b"", "avrora: bad command line"
        try:
            return 0, outcome(Files(self.held, failing), words[2:] if words[0] == "run" else words), ""
        except Refused as refused:
            return refused.status, b"", refused.line

    def held_of(self, text):
        """What a call wrote that was made before."""
        status, written, _ = self.known[text, None]
        assert status == 0
        return written

    def call(self, text, reads=None, out=None):
        """A call, where the read or the write with this number fails. An output that fails takes 4,096 bytes at a call."""
        words = ["" if word == '""' else word for word in text.split()]
        key = (text, reads)
        if key not in self.known:
            self.known[key] = self.outcome(words, reads)
        status, written, error = self.known[key]
        faults = f" | reads {reads}" if reads is not None else ""
        if out is not None:
            faults = f" | out {out} {out}"
            if status == 0 and out < len(written):
                status, written, error = 1, written[:out], "avrora: write failed"
        self.line(f"call {text}{faults}")
        self.expected.append(f"status {status}")
        self.shown("out", written.decode())
        self.shown("err", error and error + "\n")
        return written

    def cut(self, scenario, epochs, keeps=True):
        """The run's part up to the epochs' end, the state there, and the rest from it."""
        head = self.call(f"head {scenario} {epochs}")
        state = self.call(f"save {scenario} {epochs}")
        if keeps:
            name = f"{scenario.partition('.')[0]}_{epochs}.state"
            self.file(name, state)
            rest = self.call(f"resume {scenario} {name}")
            assert head + rest == self.call(f"run --plain {scenario}")


def refusals(it):
    it.about("Words.")
    for words in (
        "head", "save", "resume", "head stopped.toml", "save stopped.toml", "resume stopped.toml", "head stopped.toml 0", "save stopped.toml 0000000",
        "head stopped.toml +1", "head stopped.toml 1.", "head stopped.toml 00000001", "save stopped.toml -1", "save stopped.toml x", 'save stopped.toml ""',
        "head -x 1", "save -x 1", "resume -x stopped_1.state", "resume stopped.toml -x", 'resume stopped.toml ""', "resume stopped.toml stopped_1.state 1",
        "head stopped.toml 1 1", "save --plain stopped.toml 1", "Head stopped.toml 1", "resume",
    ):
        it.call(words)
    it.call("head stopped.toml 0000001")
    for words in (
        "head stopped.toml stopped_1.state 1", "head stopped.toml 0 stopped_1.state", "save stopped.toml x stopped_1.state", "save stopped.toml 1 -x",
        'head stopped.toml 1 ""', "head -x 1 stopped_1.state", "save stopped.toml 1 stopped_1.state 1", "resume stopped.toml 1 stopped_1.state",
        "run stopped.toml 1 stopped_1.state", "save stopped.toml 00000001 stopped_1.state",
    ):
        it.call(words)
    it.about("An epoch past the run's end, which is told of the scenario; it is asked behind the images.")
    it.file("two_500.toml", two(images=("ring_a.hex", "ring_b.hex")))
    for words in ("save two_500.toml 1", "head two_500.toml 1", "head stopped.toml 2", "save stopped.toml 9999999", "head ends.toml 1", "save over.toml 1"):
        if words.endswith("ends.toml 1"):
            it.file("ends.toml", f'cycles = {EPOCH}\nnode = [{{image = "pwm.hex"}}]\n')
            it.file("over.toml", f'cycles = {EPOCH + 1}\nnode = [{{image = "pwm.hex"}}]\n')
        it.call(words)
    it.file("bad_sum.hex", ":0400000001E0FFCF4E\n:00000001FF\n")
    it.file("refused.toml", 'cycles = 500\nnode = [{image = "bad_sum.hex"}]\n')
    it.file("self_link.toml", 'cycles = 500\nnode = [{image = "pwm.hex"}]\nlink = [{from = 0, to = 0}]\n')
    for words in ("head refused.toml 1", "save self_link.toml 1", "resume refused.toml missing.state", "resume self_link.toml missing.state", "save missing.toml 1", "resume stopped.toml missing.state"):
        it.call(words)
    for read in range(4):
        it.call("resume stopped.toml stopped_1.state", reads=read)
    it.call("save stopped.toml 1", reads=1)


def broken(it, state):
    it.about("States that are none.")
    it.blank("empty.state", 0)
    it.blank("long.state", MOST_STATE)
    it.blank("longer.state", MOST_STATE + 1)
    for name in ("empty", "long", "longer"):
        it.call(f"resume stopped.toml {name}.state")
    lines = state.split(b"\n")
    changes = {
        "cycle_5": (1, b"cycle 5"),
        "cycle_0": (1, b"cycle 0"),
        "cycle_limit": (1, b"cycle %d" % (2 * EPOCH)),
        "cycle_wide": (1, b"cycle 4835703278458516698824704"),
        "cycle_form": (1, b"cycle 0%d" % EPOCH),
        "title": (0, b"avrora state 2"),
        "rampz": (2, lines[2].replace(b" 4 0 0 0 0 6 4", b" 4 2 0 0 0 6 4")),
        "cause": (2, lines[2].replace(b" 6 4", b" 27 4")),
        "other_node": (3, lines[3].replace(b"timers 0", b"timers 1")),
        "end_of_no_frame": (4, lines[4].replace(b" 1 162 8", b" 0 162 8")),
        "no_control": (4, lines[4].replace(b"ports 0 0 8", b"ports 0 0 12")),
        "awake": (2, lines[2].replace(b" 6 4", b" 0 4")),
        "cut_in_a_line": (2, lines[2][:30]),
        "io_bit": (5, lines[5][:5] + b"80" + lines[5][7:]),
        "lower_case": (6, lines[6][:7] + b"aA" + lines[6][9:]),
        "send_of_nobody": (7, b"send 1 %d 55\nend" % (EPOCH - 1)),
        "send_too_old": (7, b"send 0 %d 55\nend" % (EPOCH - 6_144)),
        "send_at_the_cycle": (7, b"send 0 %d 55\nend" % EPOCH),
        "send_twice": (7, b"send 0 %d 55\n" % (EPOCH - 1) * 2 + b"end"),
        "behind_end": (7, b"end\n"),
    }
    for name, (place, line) in changes.items():
        # of a text whose fault comes early the rest does not matter
        rest = lines[place + 1 :] if place > 4 or name == "awake" else []
        it.file(f"{name}.state", b"\n".join(lines[:place] + [line] + rest) + b"\n" * (not rest))
        it.call(f"resume stopped.toml {name}.state")
    it.about("Another state of that scenario: a byte on the air, which nobody hears.")
    it.file("on_the_air.state", b"\n".join(lines[:7] + [b"send 0 %d 55" % (EPOCH - 1), b"end", b""]))
    it.call("resume stopped.toml on_the_air.state")


def chain(it):
    it.about("States saved one behind another, with bytes on the air at each cut: they and the rows between them are those of the run.")
    it.file("chain.toml", two(images=("ring_a.hex", "ring_b.hex"), cycles=3 * EPOCH + 1000))
    rows, states = it.call("head chain.toml 1"), [it.call("save chain.toml 1")]
    it.file("chain_1.state", states[0])
    for k in (1, 2):
        rows += it.call(f"head chain.toml 1 chain_{k}.state")
        states.append(it.call(f"save chain.toml 1 chain_{k}.state"))
        it.file(f"chain_{k + 1}.state", states[-1])
    assert all(b"\nsend " in state for state in states)
    assert states[-1] == it.call("save chain.toml 3") == it.call("save chain.toml 0000002 chain_1.state")
    assert rows == it.call("head chain.toml 3")
    assert rows.endswith(it.call("head chain.toml 2 chain_1.state"))
    assert rows + it.call("resume chain.toml chain_3.state") == it.call("run --plain chain.toml")
    it.call("save chain.toml 1 chain_1.state", out=70)
    it.call("head chain.toml 1 chain_1.state", out=70)
    it.about("A state of that network that no run comes to: other bytes on the air, and one more.")
    lines = states[0].split(b"\n")
    first = next(place for place, line in enumerate(lines) if line.startswith(b"send "))
    sends = [line for line in lines if line.startswith(b"send ")]
    others = sorted((int(cycle), int(node), b"5A") for _, node, cycle, _ in (line.split(b" ") for line in sends))
    others.append((EPOCH - 1, 1 if others[-1] < (EPOCH - 1, 1) else 0, b"A5"))
    assert others == sorted(others)
    odd = lines[:first] + [b"send %d %d %s" % (node, cycle, byte) for cycle, node, byte in others] + [b"end", b""]
    it.file("odd_chain.state", b"\n".join(odd))
    rows = it.call("head chain.toml 1 odd_chain.state")
    it.file("odd_chain_2.state", it.call("save chain.toml 1 odd_chain.state"))
    assert it.held["odd_chain_2.state"] != states[1]
    assert rows + it.call("resume chain.toml odd_chain_2.state") == it.call("resume chain.toml odd_chain.state")
    it.about("An epoch past the run's end, which is told of the state: at the limit exactly, and a cycle below it.")
    it.call("head chain.toml 1 chain_3.state")
    it.call("save chain.toml 9999999 chain_1.state")
    for name, cycles in (("edge.toml", 2 * EPOCH), ("past_edge.toml", 2 * EPOCH + 1)):
        it.file(name, f'cycles = {cycles}\nnode = [{{image = "pwm.hex"}}]\n')
        it.call(f"head {name} 1 stopped_1.state")
        it.call(f"save {name} 1 stopped_1.state")
    it.call("save past_edge.toml 1 on_the_air.state")
    it.call("save past_edge.toml 1 longer.state")
    it.call("save past_edge.toml 1 missing.state")
    it.call("save missing.toml 1 missing.state")
    it.call("head refused.toml 1 missing.state")
    for read in range(4):
        it.call("save past_edge.toml 1 stopped_1.state", reads=read)


def cases(folder):
    it = Cases(folder)
    it.about("A node that stopped with a frame under way, whose end is behind the state's cycle.")
    it.file("pwm.hex", PWM)
    it.file("stopped.toml", 'cycles = 300000\nnode = [{image = "pwm.hex"}]\n')
    it.cut("stopped.toml", 1)
    state = it.held["stopped_1.state"]
    assert state == state_by_hand()
    it.about("An output that takes so many bytes.")
    for room in (0, 15, 300):
        it.call("save stopped.toml 1", out=room)
    it.call("head stopped.toml 1", out=5)
    it.call("resume stopped.toml stopped_1.state", out=5)
    it.file("ring_a.hex", hex_text(ring(0x11, 1)))
    it.file("ring_b.hex", hex_text(ring(0x22, 8)))
    refusals(it)
    broken(it, state)
    chain(it)
    it.about("Nodes that send and sample on both sides of the cut, and where their first epoch ends.")
    it.file("late_net.hex", (Path(__file__).resolve().parent / "net.hex").read_text())
    for number in (0, 1, 2, 3):
        text = late(number).text().replace('"net.hex"', '"late_net.hex"').replace("byte_time", f"window = [{EPOCH - 20}, {EPOCH + 20}]\nbyte_time", 1)
        it.file(f"late_{number}.toml", text)
        it.cut(f"late_{number}.toml", 1)
    it.about("The network of `make 0`, cut behind each of its epochs.")
    for k in range(8):
        it.file(f"make0_{k}.hex", image(words_of(0, k)))
    links = "".join(f"[[link]]\nfrom = {k}\nto = {(k + 1) % 8}\n" for k in range(8))
    it.file("make0.toml", "cycles = 1000000\nlatency = 1\nbyte_time = 512\n" + "".join(f'[[node]]\nimage = "make0_{k}.hex"\n' for k in range(8)) + links)
    for epochs in (1, 2, 3):
        it.cut("make0.toml", epochs)
    it.about("Four epochs are more than the network has cycles.")
    it.call("head make0.toml 4")
    it.call("save make0.toml 4")
    return it


if __name__ == "__main__":
    if sys.argv[1:2] in (["--help"], ["-h"]):
        sys.exit(print(__doc__))
    cases(folder_of_words(__doc__)).write("calls", NAME)
