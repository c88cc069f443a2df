#!/usr/bin/env python3
"""Writes the file of cases that fail (`call_facts`) and what the stored run of `command_facts` is to give of it, by the slow simulator beside this file.

    bench/network/faults.py FOLDER        FOLDER is crates/command_facts: writes its files of these cases in data/,
                                          and what they are to come to in stdout

Always the same bytes. A failing call's status and its line follow from docs/FORMATS.md. How many writes an output
takes follows from its length and the bytes that it takes at a call; the rows of an epoch are written before the next
epoch runs.
"""
import re
import sys
from pathlib import Path

from case_lines import CaseFile, Files, fnv, folder_of_words
from draw import foreign, hex_text, ring
from facts import two
from network import Refused, open_network, outcome as call_of
from states import EPOCH
from watch import frame_lines, profile_lines, read_window, sender

HERE = Path(__file__).resolve().parent
LOOP = "ldi r16, 1\nhere:\nrjmp here\n"

# The most bytes that a state gives an output at once.
PAGE = 16_384

HEAD = """\
# A case file of calls that fail at every place. file NAME: a file, whose lines follow behind bars. copy NAME: the file that
# lies beside this one. All other lines are series of calls with the words behind the colon:
# reads: each read fails in turn. out STEP NAME: each write to the output fails in turn, which takes STEP bytes at a call;
# NAME holds all that is due there. err STEP NAME: each write to the error stream, likewise. All three go on until a call does
# not fail. cuts NAME: the file NAME has its first 0, 1, 2, .. bytes alone, up to all. drawn N STEP: left.hex and right.hex are
# images I and N - 1 - I, for I from 0: 256 words, of which the first is I times STEP, and behind a word w stands 25173 w + 13849,
# all modulo 65,536.
# The stored run has below each series what its calls came to, in rows: from which call to which, the status, what the output
# took (its length and its FNV-1a hash of 64 bits, or how much of what is due), and the line on the error stream. Each
# `run FILE` is made as `run --plain FILE` too, and a row says so where that came to anything else.
"""


def shown(status, out, err):
    taken = f"{len(out)} bytes {fnv(out)}" if out else "nothing"
    return f"status {status}, out {taken}, err {err or 'nothing'}"


def outcome(held, name, failing=None):
    """Status, output and line of `run NAME`."""
    try:
        network = open_network(Files(held, failing), name)
    except Refused as refused:
        return refused.status, b"", refused.line
    network.run()
    assert network.check()
    causes = {text.split(" ", 2)[2] for _, _, text in network.rows if text.startswith("stop")}
    assert causes <= CAUSES, causes - CAUSES
    return 0, network.trace(), ""


def stop_causes():
    """The causes of a stop, as docs/MACHINE.md has them."""
    text = (HERE.parent.parent / "docs" / "MACHINE.md").read_text()
    found = {int(number): cause for number, cause in re.findall(r"\| (\d+) \| `([^`]+)`", text)}
    assert sorted(found) == list(range(1, 27)), sorted(found)
    return set(found.values())


CAUSES = stop_causes()


class Series(CaseFile):
    def __init__(self, folder, source):
        super().__init__(folder, HEAD.splitlines() + ["#", f"# Source: {source}"])

    def file(self, name, text):
        self.file_in_bars(name, text)

    def copy(self, name, content):
        self.file_beside("copy", name, content)

    def rows(self, texts):
        """The texts of the calls from number 0 on: equal ones behind one another are one row."""
        first = 0
        for number, text in enumerate(texts):
            if number + 1 == len(texts) or texts[number + 1] != text:
                self.expected.append(f"{first}: {text}" if first == number else f"{first} to {number}: {text}")
                first = number + 1

    def reads(self, words, names, last):
        self.line(f"reads: {words}")
        self.rows([shown(3, b"", f"avrora: cannot read {name}") for name in names] + [last])

    def out(self, words, step, due, pieces=None):
        """`pieces` are the lengths of what is written at once."""
        self.line(f"out {step} {due}: {words}")
        writes = sum(-(-length // step) for length in pieces or [len(self.held[due])])
        self.rows(["status 1, out a front, err avrora: write failed"] * writes + ["status 0, out all, err nothing"])

    def err(self, words, step, due, status, pieces):
        """`pieces` are the lengths of what is written at once."""
        self.line(f"err {step} {due}: {words}".rstrip())
        writes = sum(-(-length // step) for length in pieces)
        self.rows(["status 1, out nothing, err a front"] * writes + [f"status {status}, out nothing, err all"])

    def cuts(self, name, words, of):
        self.line(f"cuts {name}: {words}")
        whole = self.held[name]
        self.rows([shown(*of(self.held | {name: whole[:n]})) for n in range(len(whole) + 1)])


def watched(it, name, command):
    """What `monitor NAME` or `sniff NAME` writes."""
    network = open_network(Files(it.held, None), name)
    network.run()
    nodes = len(network.nodes)
    window = read_window(it.held[name].decode())
    lines = profile_lines(network.rows, nodes, window) if command == "monitor" else frame_lines(network.sends, nodes)
    return "".join(line + "\n" for line in lines)


def reads_in_turn(it):
    it.about("Each read fails in turn: the scenario, then the image of each node.")
    names = ["two.toml", "a.hex", "b.hex"]
    whole = shown(0, it.held["two.trace"], "")
    it.reads("run two.toml", names, whole)
    it.reads("run --plain two.toml", names, whole)
    for command in ("monitor", "sniff"):
        it.reads(f"{command} two.toml", names, shown(0, watched(it, "two.toml", command).encode(), ""))
    it.reads("check two.toml", names, shown(0, b"ok 2 nodes, 1 links, 500 cycles\n", ""))
    it.reads("node loop.hex 8", ["loop.hex"], shown(0, it.held["node.trace"], ""))
    it.reads("disasm loop.hex", ["loop.hex"], shown(0, it.held["loop.listing"], ""))
    it.reads("asm loop.s", ["loop.s"], shown(0, it.held["loop.hex"], ""))


def writes_in_turn(it, early):
    it.about("Each write to the output fails in turn, a byte at a call.")
    for words, due in (
        ("run two.toml", "two.trace"),
        ("run --plain two.toml", "two.trace"),
        ("node loop.hex 8", "node.trace"),
        ("monitor node.toml", "node.profile"),
        ("sniff frames.toml", "frames.lines"),
        ("check two.toml", "two.size"),
        ("disasm loop.hex", "loop.listing"),
        ("asm loop.s", "loop.hex"),
    ):
        it.out(words, 1, due)
    it.about("Seven bytes at a call.")
    it.out("run two.toml", 7, "two.trace")
    it.out("disasm loop.hex", 7, "loop.listing")
    it.about("All at a call: the rows of an epoch are written before the next epoch runs.")
    it.out("run epochs.toml", 1_000, "epochs.trace", early)
    it.out("run epochs.toml", 10, "epochs.trace", early)
    it.about("The sample network runs before its one line is written.")
    it.out("make 0", 40, "make.line")


def checkpoints_in_turn(it):
    it.about("States and moves. A state has less than a page, and goes out at once; what rows an epoch has, too.")
    it.file("longer.toml", f'cycles = {2 * EPOCH + 6}\nwindow = [{2 * EPOCH - 6}, {2 * EPOCH + 6}]\nnode = [{{image = "loop.hex"}}]\n')
    it.file("two.moves", "0 0 1 41\n0 0 1 42\n")

    def due(name, *words):
        content = call_of(Files(it.held), list(words))
        assert len(content) <= PAGE
        it.copy(name, content)
        return content

    due("one.state", "save", "epochs.toml", "1")
    due("other.state", "save", "longer.toml", "1", "one.state")
    due("one.head", "head", "epochs.toml", "1")
    due("other.head", "head", "longer.toml", "1", "one.state")
    rest = due("one.rest", "resume", "epochs.toml", "one.state")
    due("two.rest", "sweep", "epochs.toml", "one.state", "two.moves")
    calls = (
        ("save epochs.toml 1", "one.state", None),
        ("head epochs.toml 1", "one.head", None),
        ("resume epochs.toml one.state", "one.rest", None),
        ("save longer.toml 1 one.state", "other.state", None),
        ("head longer.toml 1 one.state", "other.head", None),
        ("sweep epochs.toml one.state two.moves", "two.rest", [len(rest), len(rest)]),
    )
    for words, name, _ in calls:
        it.reads(words, [words.split()[1], "loop.hex", *(it for it in words.split()[2:] if not it.isdigit())], shown(0, it.held[name], ""))
    for words, name, pieces in calls:
        it.out(words, 1_000, name, pieces)


def complaints_in_turn(it):
    it.about("Each write to the error stream fails in turn, a byte at a call. The line is what is due there, and the status 1.")
    for words, due, status in (
        ("run", "words.line", 2),
        ("", "words.line", 2),
        ("run none.toml", "none.line", 3),
        ("run --plain none.toml", "none.line", 3),
        ("check self.toml", "self.line", 4),
        ("monitor none.toml", "none.line", 3),
        ("sniff self.toml", "self.line", 4),
        ("run image.toml", "sum.line", 5),
        ("node sum.hex 8", "sum.line", 5),
        ("asm r3.s", "source.line", 7),
    ):
        length = len(it.held[due])
        it.err(words, 1, due, status, [length])


def assembled(held):
    """Status, output and line of `asm loop.s` where the source below ends behind one of its bytes, by hand."""
    text = held["loop.s"].decode()
    assert LOOP.startswith(text)

    def refused(cause, line):
        return 7, b"", f"avrora: loop.s: source refused: {cause}, line {line}"

    if not text:
        return 0, b":00000001FF\n", ""
    if text == "l":
        return refused("UnknownMnemonic", 1)
    lines = text.splitlines()
    if len(lines) == 1:
        # `ld` and `ldi` are mnemonics, and want two operands; `r1` is a register that LDI does not take
        return (0, b":0200000001E01D\n:00000001FF\n", "") if lines[0] == "ldi r16, 1" else refused("BadOperand", 1)
    if len(lines) == 2:
        return (0, b":0200000001E01D\n:00000001FF\n", "") if lines[1] == "here:" else refused("UnknownMnemonic", 2)
    word, _, target = lines[2].partition(" ")
    if word != "rjmp":
        return refused("UnknownMnemonic", 3)
    if not target:
        return refused("BadOperand", 3)
    return (0, held["loop.hex"], "") if target == "here" else refused("NoLabel", 3)


def cuts(it):
    it.about("An image that ends behind each of its bytes.")
    it.cuts("loop.hex", "node loop.hex 8", lambda held: outcome(held, "node.toml"))
    it.about("A source that ends behind each of its bytes.")
    it.cuts("loop.s", "asm loop.s", assembled)
    it.about("A scenario that ends behind each of its bytes.")
    for name in ("two.toml", "spans.toml"):
        it.cuts(name, f"run {name}", lambda held, name=name: outcome(held, name))


def drawn(it, count):
    it.about("Images that nobody wrote as a program: a node that stops is no fault.")
    it.file(
        "drawn.toml",
        "cycles = 2000\nlatency = 1\nbyte_time = 256\nwindow = [0, 2000]\n"
        'node = [{image = "left.hex"}, {image = "right.hex"}]\nlink = [{from = 0, to = 1}, {from = 1, to = 0}]\n',
    )
    for step in (1, 331):
        it.line(f"drawn {count} {step}: run drawn.toml")
        texts = []
        for number in range(count):
            pair = [hex_text(foreign(n * step % 65_536)).encode() for n in (number, count - 1 - number)]
            held = it.held | dict(zip(("left.hex", "right.hex"), pair))
            texts.append(shown(*outcome(held, "drawn.toml")))
        it.rows(texts)


def trace_of(it, name):
    status, out, _ = outcome(it.held, name)
    assert status == 0
    return out


def case_file(folder):
    it = Series(folder, "drawn up by hand from docs/FORMATS.md; outputs and refusals are those of bench/network/network.py.")
    it.line("")
    it.file("a.hex", hex_text(ring(0x11, 1)))
    it.file("b.hex", hex_text(ring(0x22, 8)))
    it.file("loop.hex", ":0400000001E0FFCF4D\n:00000001FF\n")
    it.file("sum.hex", ":0400000001E0FFCF4E\n:00000001FF\n")
    it.file("loop.s", LOOP)
    it.file("r3.s", "ldi r3, 1\n")
    it.file("two.toml", two())
    it.file("spans.toml", two("version = 3", "latency = 200\nopen = [[0, 93], [94, 400]]"))
    it.file("self.toml", two(links=False, rest="[[link]]\nfrom = 0\nto = 0"))
    it.file("image.toml", two(images=("a.hex", "sum.hex")))
    it.file("epochs.toml", f'cycles = {EPOCH + 6}\nwindow = [{EPOCH - 6}, {EPOCH + 6}]\nnode = [{{image = "loop.hex"}}]\n')
    it.file("node.toml", 'cycles = 8\nwindow = [0, 8]\nnode = [{image = "loop.hex"}]\n')
    it.file("frame.hex", hex_text(sender([0xAA, 0xAA, 0xAA, 0x7E, 2, 0x11, 0x22])))
    it.file("frames.toml", 'cycles = 9000\nbyte_time = 512\nnode = [{image = "frame.hex"}]\n')
    it.line("")
    it.line("# What is due where nothing fails: traces, and lines.")
    it.copy("two.trace", trace_of(it, "two.toml"))
    it.copy("node.trace", trace_of(it, "node.toml"))
    epochs = trace_of(it, "epochs.toml")
    it.copy("epochs.trace", epochs)
    it.file("loop.listing", "0000 ldi r16, 0x01\n0001 rjmp .-2\n")
    it.file("node.profile", watched(it, "node.toml", "monitor"))
    it.file("frames.lines", watched(it, "frames.toml", "sniff"))
    it.file("two.size", "ok 2 nodes, 1 links, 500 cycles\n")
    it.file("make.line", "make 0: 8 nodes, 1000000 cycles, 14706 sent, 1 quiet, 29407 heard, 0 clashes\n")
    it.file("words.line", "avrora: bad command line\n")
    it.file("none.line", "avrora: cannot read none.toml\n")
    it.file("self.line", "avrora: self.toml: scenario refused: SelfLink\n")
    it.file("sum.line", "avrora: sum.hex: image refused: BadSum, line 1\n")
    it.file("source.line", "avrora: r3.s: source refused: BadOperand, line 1\n")
    reads_in_turn(it)
    early = sum(len(row) for row in epochs.splitlines(keepends=True) if int(row.split()[0]) < EPOCH)
    writes_in_turn(it, [early, len(epochs) - early])
    checkpoints_in_turn(it)
    complaints_in_turn(it)
    cuts(it)
    drawn(it, 200)
    return it


if __name__ == "__main__":
    if sys.argv[1:2] in (["--help"], ["-h"]):
        sys.exit(print(__doc__))
    case_file(folder_of_words(__doc__)).write("faults", "faults.txt")
