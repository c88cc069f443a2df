#!/usr/bin/env python3
"""Computes profiles and frames slowly, from their definitions, of the rows and sends of the slow simulator beside this file.

    bench/network/watch.py cases FOLDER        FOLDER is crates/command_facts: writes the calls of `monitor` and `sniff` in data/,
                                               and what they are to come to in stdout
    bench/network/watch.py compare PROGRAM [COUNT [FIRST]]
                                               compares `PROGRAM monitor FILE` and `PROGRAM sniff FILE` over COUNT drawn networks
                                               (100), from number FIRST (0) on, and as many whose nodes send drawn bytes
    bench/network/watch.py image               writes an image that sends frames of four bytes without end
    bench/network/watch.py examples PROGRAM    compares `PROGRAM monitor FILE` of every example with what the rows of
                                               `PROGRAM run --plain FILE` come to
    bench/network/watch.py pieces PROGRAM FILE FROM TO
                                               compares `PROGRAM monitor FILE FROM TO` with what the rows of whole traces come to,
                                               one for each 20,000 cycles of the span

Where something differs it tells what, and its exit status is 1.
"""
import random
import re
import subprocess
import sys
import tempfile
import tomllib
from bisect import bisect_right
from collections import Counter
from pathlib import Path

from case_lines import CaseFile
from draw import DDRB, SPCR, SPDR, SPH, SPL, SPSR, drawn, hex_text, ldi, out, word
from network import Folder, open_network
from states import EPOCH

TOP = Path(__file__).resolve().parent.parent.parent
OWNS = ("instr", "enter", "stop")


# ---- the definitions


def profile_lines(rows, nodes, window):
    """The lines of each node, of rows (cycle, node, text): each cycle of the window is asked for its owner."""
    lines = []
    for node in range(nodes):
        own = [(cycle, text.split(" ")) for cycle, number, text in rows if number == node]
        owners = [row for row in own if row[1][0] in OWNS]
        starts = [cycle for cycle, _ in owners]
        spent, vectors, counts = Counter(), Counter(), Counter()
        lead = asleep = stopped = 0
        for cycle in range(*window):
            place = bisect_right(starts, cycle)
            if place == 0:
                lead += 1
                continue
            at, text = owners[place - 1]
            if text[0] == "stop":
                stopped += 1
            elif text[0] == "enter":
                vectors[text[1]] += 1
            elif text[2] == "sleep" and at != cycle:
                asleep += 1
            else:
                spent[text[1]] += 1
        sent = 0
        for cycle, text in own:
            if text[0] in ("instr", "enter"):
                counts[text[0], text[1]] += 1
            if text[0] == "sent" and window[0] <= cycle < window[1]:
                sent += 1
        lines.append(f"{node} lead {lead}")
        lines += [f"{node} at {p} {counts['instr', p]} {spent[p]}" for kind, p in sorted(counts) if kind == "instr"]
        lines += [f"{node} vector {v} {counts['enter', v]} {vectors[v]}" for kind, v in sorted(counts) if kind == "enter"]
        awake = sum(spent.values()) + sum(vectors.values())
        assert lead + asleep + stopped + awake == window[1] - window[0]
        lines += [f"{node} asleep {asleep}", f"{node} stopped {stopped}", f"{node} charge {8 * awake + asleep + 512 * sent}"]
    return lines


def frame_lines(sends, nodes):
    """The lines of each node, of sends (node, cycle, byte): a search from each place over the whole list."""
    lines = []
    for node in range(nodes):
        own = [(cycle, byte) for number, cycle, byte in sends if number == node]
        place = 0
        while place < len(own):
            head = [byte for _, byte in own[place : place + 4]]
            length = head[3] if len(head) == 4 else 0
            if head[:3] == [0xAA, 0xAA, 0x7E] and 1 <= length <= 32 and place + 4 + length <= len(own):
                payload = bytes(byte for _, byte in own[place + 4 : place + 4 + length])
                lines.append(f"{own[place][0]} {node} frame {length} {payload.hex().upper()}")
                place += 4 + length
            else:
                place += 1
    return lines


# ---- networks whose nodes send drawn bytes


# r17 to r19 are counted down to 0.
COUNTDOWN = [word("subi", d=1, K=1), word("sbci", d=2, K=0), word("sbci", d=3, K=0), word("brbc", s=1, k=-4)]


def sender(listed, forever=False, rounds=0):
    """An image that waits for so many rounds of five cycles, sends these bytes by the radio, some 1,100 cycles apart, and then stands
    still, or begins again."""
    words = [] if rounds == 0 else [ldi(17, rounds % 256), ldi(18, rounds // 256 % 256), ldi(19, rounds // 65_536), *COUNTDOWN]
    words += [ldi(16, 0x10), out(SPH, 16), ldi(16, 0xFF), out(SPL, 16), ldi(16, 1), out(DDRB, 16), ldi(16, 0x50), out(SPCR, 16)]
    calls = []
    for byte in listed:
        calls += [ldi(16, 1), "exchange", ldi(16, byte), "exchange", "wait"]
    first, end = len(words), len(words) + len(calls)
    exchange, wait = end + 1, end + 6
    for place, it in enumerate(calls):
        at = len(words)
        words.append(word("rcall", k=(exchange if it == "exchange" else wait) - at - 1) if isinstance(it, str) else it)
    words.append(word("rjmp", k=first - end - 1 if forever else -1))
    words += [out(SPDR, 16), word("sbis", A=SPSR, b=7), word("rjmp", k=-2), word("in_", d=16, A=SPDR), word("ret")]
    return words + [ldi(20, 250), word("nop"), word("dec", d=20), word("brbc", s=1, k=-3), word("ret")]


def drawn_bytes(rng, count):
    """Bytes that are full of beginnings of frames."""
    listed = []
    while len(listed) < count:
        listed += rng.choice(([0xAA], [0xAA, 0xAA, 0x7E, rng.randrange(4)], [0xAA, 0xAA, 0x7E, rng.randrange(1, 3)], [0x7E], [rng.randrange(256)], [0xAA, 0xAA, 0x7E]))
    return listed[:count]


def sending(number):
    """A scenario of two nodes that send drawn bytes, with its images."""
    rng = random.Random(f"sending {number}")
    images = {f"{n}.hex": hex_text(sender(drawn_bytes(rng, 24))) for n in "ab"}
    first = rng.randrange(30_000)
    text = f"cycles = 30000\nbyte_time = 512\nwindow = [{first}, {rng.randrange(first, min(first + 20_000, 30_000) + 1)}]\n"
    return text + 'node = [{image = "a.hex"}, {image = "b.hex"}]\n', images


# ---- comparisons


def differs(folder, program, command, expected, *more):
    done = subprocess.run([program, command, "net.toml", *map(str, more)], cwd=folder, capture_output=True, check=False)
    want = "".join(line + "\n" for line in expected).encode()
    if (done.returncode, done.stdout, done.stderr) == (0, want, b""):
        return False
    print(f"{folder}: {command} is status {done.returncode}, {done.stderr!r}\n{done.stdout.decode()[:500]}\nand not\n{want.decode()[:500]}")
    return True


def read_window(text):
    """The window of a scenario's text."""
    return tuple(tomllib.loads(text).get("window", (0, 0)))


def run_over(folder, name, span):
    """The slow simulator over a scenario, traced in these cycles in place of its window, however many they are."""
    network = open_network(folder, name)
    for node in network.nodes:
        node.window = span
    network.run()
    return network


def drawn_span(text):
    """Two cycles of a scenario's run, in order, as often as not the whole of it."""
    rng = random.Random(f"span {text}")
    limit = tomllib.loads(text)["cycles"]
    first = rng.randrange(limit + 1)
    return rng.choice(((0, limit), (first, rng.randrange(first, limit + 1))))


def compare_one(folder, program, text, images, counts):
    folder.mkdir(parents=True)
    for name, image in images.items():
        (folder / name).write_text(image)
    (folder / "net.toml").write_text(text)
    network = open_network(Folder(folder), "net.toml")
    network.run()
    window = read_window(text)
    profiles = profile_lines(network.rows, len(network.nodes), window)
    frames = frame_lines(network.sends, len(network.nodes))
    counts["networks"] += 1
    counts["lines of profiles"] += len(profiles)
    counts["frames"] += len(frames)
    counts["sends"] += len(network.sends)
    span = drawn_span(text)
    spent = profile_lines(run_over(Folder(folder), "net.toml", span).rows, len(network.nodes), span)
    counts["lines of profiles over spans"] += len(spent)
    return differs(folder, program, "monitor", profiles) or differs(folder, program, "sniff", frames) or differs(folder, program, "monitor", spent, *span)


def compare(program, count, first):
    counts, failed = Counter(), False
    with tempfile.TemporaryDirectory() as work:
        for number in range(first, first + count):
            it = drawn(number)
            failed |= compare_one(Path(work) / f"drawn{number}", program, it.text(), it.images, counts)
            text, images = sending(number)
            failed |= compare_one(Path(work) / f"sending{number}", program, text, images, counts)
    print(", ".join(f"{count} {name}" for name, count in counts.items()))
    return failed


def rows_of(trace):
    rows = [line.split(" ", 2) for line in trace.decode().splitlines()]
    return [(int(cycle), int(node), text) for cycle, node, text in rows]


def examples(program):
    failed = False
    folder = TOP / "examples"
    with tempfile.TemporaryDirectory() as work:
        for path in sorted(folder.glob("*.hex")):
            (Path(work) / path.name).write_bytes(path.read_bytes())
            text = f'cycles = {EPOCH + 40_000}\nwindow = [0, 20000]\nnode = [{{image = "{path.name}"}}]\n'
            (Path(work) / f"{path.stem}-alone.toml").write_text(text)
        for path in sorted(folder.glob("*.toml")):
            (Path(work) / path.name).write_bytes(path.read_bytes())
        for path in sorted(Path(work).glob("*.toml")):
            text = path.read_text()
            nodes = len(tomllib.loads(text)["node"])
            run = subprocess.run([program, "run", "--plain", path.name], cwd=work, capture_output=True, check=True)
            rows = rows_of(run.stdout)
            sends = [(node, cycle, int(text.split()[1], 16)) for cycle, node, text in rows if text.startswith("sent")]
            for command, want in (("monitor", profile_lines(rows, nodes, read_window(text))), ("sniff", frame_lines(sends, nodes))):
                got = subprocess.run([program, command, path.name], cwd=work, capture_output=True, check=False)
                same = (got.returncode, got.stdout.decode().splitlines()) == (0, want)
                print(f"{'ok' if same else 'DIFFERS'} {command} {path.name}: {len(want)} lines")
                failed |= not same
    return failed


WINDOW = 20_000  # the most cycles that one trace has


def pieces(program, path, span):
    """Compares a profile over a span with the rows of traces whose windows are the span."""
    text = re.sub(r"(?m)^window\s*=.*$", "", path.read_text())
    nodes = len(tomllib.loads(text)["node"])
    traced, others = [], []
    with tempfile.TemporaryDirectory() as work:
        for image in path.parent.glob("*.hex"):
            (Path(work) / image.name).write_bytes(image.read_bytes())
        (Path(work) / "net.toml").write_text(text)
        for first in range(span[0], span[1], WINDOW):
            (Path(work) / "piece.toml").write_text(f"window = [{first}, {min(first + WINDOW, span[1])}]\n{text}")
            run = subprocess.run([program, "run", "--plain", "piece.toml"], cwd=work, capture_output=True, check=True)
            rows = rows_of(run.stdout)
            traced += [row for row in rows if row[2].split(" ")[0] in ("instr", "enter")]
            others = [row for row in rows if row[2].split(" ")[0] in ("stop", "sent")]
        want = profile_lines(sorted(traced + others, key=lambda row: row[0]), nodes, span)
        print(f"{path.name}: {len(traced)} rows of instructions and entries, {len(others)} others, {len(want)} lines")
        return differs(work, program, "monitor", want, *span)


# ---- stored cases

HEAD = """\
# Calls of `monitor` and `sniff` over files and streams in memory; calls.txt says what the lines mean.
#
# Source: what is stored is what bench/network/watch.py gives of the rows and sends of bench/network/network.py, by the
# definitions of an owner and of a frame."""


class Cases(CaseFile):
    def __init__(self, folder):
        super().__init__(folder, HEAD.splitlines())

    def file(self, name, text):
        self.file_beside("file", name, text.encode())

    def call(self, words, status, lines, error="", faults=""):
        self.line(f"call {words}{faults}")
        self.expected.append(f"status {status}")
        self.shown("out", "".join(line + "\n" for line in lines))
        self.shown("err", error and error + "\n")

    def ran(self, command, name):
        network = open_network(Folder(self.data_folder), name)
        network.run()
        window = read_window(self.held[name].decode())
        nodes = len(network.nodes)
        self.call(f"{command} {name}", 0, profile_lines(network.rows, nodes, window) if command == "monitor" else frame_lines(network.sends, nodes))

    def ran_over(self, name, first, end):
        span = (int(first), int(end))
        network = run_over(Folder(self.data_folder), name, span)
        self.call(f"monitor {name} {first} {end}", 0, profile_lines(network.rows, len(network.nodes), span))


def lone(image, cycles, window):
    return f'cycles = {cycles}\nbyte_time = 512\nwindow = [{window[0]}, {window[1]}]\nnode = [{{image = "{image}"}}]\n'


def cases(folder):
    it = Cases(folder)
    it.line("")
    for name in ("sleeper.hex", "a.hex", "sum.hex"):
        it.line(f"file {name}")
    it.about("An interrupt ends a sleep, and its service goes to sleep again.")
    it.file("watch_sleeper.toml", lone("sleeper.hex", 130, (100, 130)))
    it.ran("monitor", "watch_sleeper.toml")
    it.about("A window that begins in the sleep, one within an instruction, one of no cycles, and the whole run.")
    for name, window in (("watch_asleep.toml", (110, 130)), ("watch_within.toml", (2, 9)), ("watch_none.toml", (50, 50)), ("watch_all.toml", (0, 130))):
        it.file(name, lone("sleeper.hex", 130, window))
        it.ran("monitor", name)
    it.about("A node that stops before the window, in it, and after it, beside one that goes on.")
    it.file("watch_stopper.hex", hex_text([ldi(16, 1)] * 20 + [word("break_")]))
    pair = 'node = [{image = "watch_stopper.hex"}, {image = "a.hex"}]\n'
    for name, window in (("watch_before.toml", (30, 40)), ("watch_inside.toml", (10, 30)), ("watch_after.toml", (0, 10))):
        it.file(name, f"cycles = 60\nwindow = [{window[0]}, {window[1]}]\n{pair}")
        it.ran("monitor", name)
    it.about("The window ends in the first of two epochs, and in the second.")
    for name, window in (("watch_first.toml", (100, 120)), ("watch_second.toml", (EPOCH - 4, EPOCH + 6))):
        it.file(name, lone("a.hex", EPOCH + 16, window))
        it.ran("monitor", name)
    it.about("Cycles in place of the window: the whole run, so that nothing is lead; from within a sleep; none, at the end too; and zeros before.")
    for first, end in (("0", "130"), ("105", "125"), ("50", "50"), ("130", "130"), ("0007", "0000000000090")):
        it.ran_over("watch_sleeper.toml", first, end)
    it.about("A node that stops before the cycles, in them, and after them.")
    for first, end in (("30", "60"), ("10", "30"), ("0", "12")):
        it.ran_over("watch_inside.toml", first, end)
    it.about("Some 60,000 cycles, in which bytes are sent; and two epochs.")
    it.file("watch_span.hex", hex_text(sender([0xAA, 0xAA, 0x7E, 2, 5, 6])))
    it.file("watch_span.toml", lone("watch_span.hex", 60_000, (100, 200)))
    it.ran_over("watch_span.toml", "0", "60000")
    it.ran_over("watch_span.toml", "16383", "32769")
    it.ran_over("watch_second.toml", "0", str(EPOCH + 16))
    it.about("Frames: one behind a byte of preamble too many, one of no bytes, one in another that breaks off, and one that breaks off at the end.")
    for name, listed in (
        ("watch_frame", "AA AA AA 7E 02 11 22"),
        ("watch_empty", "AA AA 7E 00"),
        ("watch_inner", "AA AA 7E 06 AA AA 7E 01 55"),
        ("watch_cut", "AA AA 7E 03 01 02"),
        ("watch_long", "AA AA 7E 21 AA AA 7E 20 " + " ".join(f"{n:02X}" for n in range(32))),
    ):
        it.file(f"{name}.hex", hex_text(sender(bytes.fromhex(listed))))
        it.file(f"{name}.toml", lone(f"{name}.hex", 60_000, (0, 0)))
        it.ran("sniff", f"{name}.toml")
    it.about("A frame whose bytes lie in two epochs, of two nodes the second.")
    rng = random.Random("epochs")
    late = sender([0xAA, 0xAA, 0xAA, 0x7E, 8] + [rng.randrange(256) for _ in range(8)], rounds=(EPOCH - 9_000) // 5)
    it.file("watch_late.hex", hex_text(late))
    it.file("watch_late.toml", f'cycles = {EPOCH + 30_000}\nbyte_time = 512\nnode = [{{image = "a.hex"}}, {{image = "watch_late.hex"}}]\n')
    it.ran("sniff", "watch_late.toml")
    it.about("What is refused: as for `run --plain`.")
    it.file("watch_badnode.toml", 'cycles = 500\nnode = [{image = "sum.hex"}]\n')
    it.file("watch_selflink.toml", 'cycles = 500\nnode = [{image = "a.hex"}]\nlink = [{from = 0, to = 0}]\n')
    it.file("watch_noimage.toml", 'cycles = 500\nnode = [{image = "missing.hex"}]\n')
    it.about("The words of two cycles; and an end behind the run, which is refused before an image is read.")
    for words in ("10", "130 129", "-1 5", "0 5 6", "0x1 5", "0 1099511627777", "0 00000000000005"):
        it.call(f"monitor watch_sleeper.toml {words}", 2, [], "avrora: bad command line")
    it.call("monitor watch_sleeper.toml 0 131", 4, [], "avrora: watch_sleeper.toml: scenario refused: OutOfRange")
    it.call("monitor watch_sleeper.toml 131 131", 4, [], "avrora: watch_sleeper.toml: scenario refused: OutOfRange")
    it.call("monitor watch_noimage.toml 0 501", 4, [], "avrora: watch_noimage.toml: scenario refused: OutOfRange")
    it.call("monitor watch_noimage.toml 0 500", 3, [], "avrora: cannot read missing.hex")
    it.call("monitor watch_selflink.toml 0 501", 4, [], "avrora: watch_selflink.toml: scenario refused: SelfLink")
    it.about("Both commands.")
    for command in ("monitor", "sniff"):
        it.call(command, 2, [], "avrora: bad command line")
        it.call(f"{command} -x", 2, [], "avrora: bad command line")
        it.call(f"{command} --plain watch_sleeper.toml", 2, [], "avrora: bad command line")
        it.call(f"{command} missing.toml", 3, [], "avrora: cannot read missing.toml")
        it.call(f"{command} watch_noimage.toml", 3, [], "avrora: cannot read missing.hex")
        it.call(f"{command} watch_selflink.toml", 4, [], "avrora: watch_selflink.toml: scenario refused: SelfLink")
        it.call(f"{command} watch_badnode.toml", 5, [], "avrora: sum.hex: image refused: BadSum, line 1")
    return it


def main():
    words = sys.argv[1:]
    if len(words) == 2 and words[0] == "cases":
        cases(Path(words[1])).write("calls", "watch.txt")
        sys.exit(0)
    if len(words) in (2, 3, 4) and words[0] == "compare":
        sys.exit(compare(str(Path(words[1]).resolve()), int((words[2:3] or [100])[0]), int((words[3:4] or [0])[0])))
    if words == ["image"]:
        sys.stdout.write(hex_text(sender([0xAA, 0xAA, 0x7E, 4, 1, 2, 3, 4], forever=True)))
        sys.exit(0)
    if len(words) == 2 and words[0] == "examples":
        sys.exit(examples(str(Path(words[1]).resolve())))
    if len(words) == 5 and words[0] == "pieces":
        sys.exit(pieces(str(Path(words[1]).resolve()), Path(words[2]), (int(words[3]), int(words[4]))))
    sys.exit(__doc__)


if __name__ == "__main__":
    if sys.argv[1:2] in (["--help"], ["-h"]):
        sys.exit(print(__doc__))
    main()
