#!/usr/bin/env python3
"""Compares what `watch` writes with the whole states of the slow simulator beside this file in every cycle.

    bench/network/watched.py PROGRAM [COUNT [FIRST [SPANS]]]

Of COUNT drawn networks (100), from number FIRST (0) on, of less than 400 cycles: `PROGRAM watch FILE FROM TO PLACES` over SPANS drawn
spans (20) of drawn places. Of as many networks that do something odd about the end of an epoch the same from a state there on, over
drawn moves, and over spans that begin before that end. Of each span two pieces joined are the whole; and what `PROGRAM look` writes
at FROM, with the changes put in, is what it writes at TO. It ends with counts; where something differs it tells the first line that
does, keeps the files, and its exit status is 1.
"""
import random
import shutil
import subprocess
import sys
import tempfile
from collections import Counter
from pathlib import Path

from changes import BEGUN, BYTES, Changes
from compare import written
from draw import drawn
from moves import read_moves
from network import Folder, open_network, runs_of
from odd_places import networks
from places import ADDRESSES, places_text
from states import EPOCH, state_text

MOST_CYCLES, MOST_PLACES, BEFORE, BEHIND = 400, 40, 300, 400
IO = slice(0x20, 0x100)
CORE = (0x5D, 0x5E, 0x5F)


class Difference(Exception):
    """What is not as it should be."""


class Recorded:
    """All that is seen of a run from a cycle on, and how each node stood as each of these cycles began."""

    def __init__(self, network, end):
        self.first, self.end, self.nodes = network.first, end, len(network.nodes)
        changes, self.stood = Changes(network), []
        for cycle in range(self.first, end):
            self.stood.append([how_stands(node) for node in network.nodes])
            changes.run_to(cycle + 1)
        self.text, self.seen = changes.text, changes.seen


def how_stands(node):
    if node.stopped:
        return "stopped"
    if node.asleep:
        return "asleep"
    return "within an instruction" if node.wait else "between instructions"


def drawn_places(rng, recorded):
    """Places of which most are some where something is seen."""
    known = sorted({it[1:4] for it in recorded.seen if it[2] == BEGUN or it[3] in ADDRESSES})
    own = [place for place in known if place[0] == rng.randrange(recorded.nodes)] if rng.random() < 0.3 else known
    chosen = set(rng.sample(own, min(len(own), rng.choice((0, 1, 3, rng.randrange(MOST_PLACES))))))
    while not chosen or rng.random() < 0.5:
        kind = rng.choice((BYTES, BYTES, BEGUN))
        address = rng.choice(ADDRESSES) if kind == BYTES else rng.choice((rng.randrange(0x60), rng.randrange(0x1_0000)))
        chosen.add((rng.randrange(recorded.nodes), kind, address))
    return sorted(chosen)


def drawn_span(rng, recorded):
    first = rng.choice((recorded.first, rng.randint(recorded.first, recorded.end), rng.randint(recorded.first, recorded.end)))
    end = rng.choice((recorded.end, rng.randint(first, recorded.end), min(recorded.end, first + rng.randrange(12))))
    return first, end


def drawn_moves(rng, nodes):
    lines = []
    for _ in range(rng.randint(1, 3)):
        at, every = EPOCH + rng.randrange(-20, BEHIND), rng.randint(1, 40)
        lines.append(f"{rng.randrange(nodes)} {at} {every} {rng.randbytes(rng.randint(1, 6)).hex()}\n")
    return "".join(lines)


def bytes_in(text):
    """The bytes of each node of a state's text, by data address."""
    nodes = []
    for words in (line.split(" ") for line in text.decode().splitlines()):
        if words[0] == "core":
            nodes.append(bytearray(0x1100))
            sreg, pointer = (int(word) for word in words[34:36])
            nodes[-1][:32] = bytes(int(word) for word in words[2:34])
            core = (pointer & 0xFF, pointer >> 8, sreg)
        elif words[0] == "io":
            nodes[-1][IO] = bytes.fromhex(words[2])
            for at, byte in zip(CORE, core):
                nodes[-1][at] = byte
        elif words[0] == "sram":
            nodes[-1][0x100:] = bytes.fromhex(words[2])
    return nodes


class Watcher:
    def __init__(self, program, top, spans):
        self.program, self.top, self.spans = program, top, spans
        self.counts, self.different = Counter(), 0

    def call(self, folder, *words):
        done = subprocess.run([self.program, *map(str, words)], cwd=folder, capture_output=True, check=False)
        self.counts["calls"] += 1
        if done.returncode != 0:
            raise Difference(f"{' '.join(map(str, words))}: status {done.returncode}, {done.stderr!r}")
        return done.stdout

    def is_written(self, folder, wanted, *words):
        got = self.call(folder, "watch", "net.toml", *words)
        if got != wanted:
            kept = folder / "places.kept"
            kept.write_bytes((folder / "places").read_bytes())
            pairs = list(zip(wanted.splitlines() + [b"(end)"], got.splitlines() + [b"(end)"]))
            place = next((i for i, (a, b) in enumerate(pairs) if a != b), len(pairs))
            raise Difference(f"watch {' '.join(map(str, words))} ({kept}): line {place + 1}: expected, got {pairs[place : place + 1]}")

    def counted(self, recorded, places, first, end, text):
        self.counts["spans"] += 1
        self.counts["places"] += len(places)
        for what in set(recorded.stood[first - recorded.first] if first < recorded.end else ()):
            self.counts["spans from which a node is " + what] += 1
        for words in map(bytes.split, text.splitlines()):
            at = int(words[3], 16)
            kind = "register" if at < 0x20 else "SP, SREG" if at in CORE else "I/O" if at < 0x100 else "SRAM"
            self.counts["changes: at" if words[2] == b"at" else "changes: " + kind] += 1
        self.counts["changes: none"] += not text

    def put_in(self, folder, places, first, end, text, state):
        """The look at FROM with the changes put in is the look at TO."""
        here, there = (bytes_in(self.call(folder, "look", "net.toml", cycle, *state)) for cycle in (first, end))
        for words in map(bytes.split, text.splitlines()):
            if words[2] == b"byte":
                here[int(words[1])][int(words[3], 16)] = int(words[4], 16)
        for node, kind, at in places:
            if kind == BYTES and here[node][at] != there[node][at]:
                raise Difference(f"look {first} with changes is not look {end}: {node} {at:04X}")

    def span(self, rng, folder, recorded, state=(), looks=False):
        places, (first, end) = drawn_places(rng, recorded), drawn_span(rng, recorded)
        (folder / "places").write_bytes(places_text(places))
        text = recorded.text(places, first, end)
        self.counted(recorded, places, first, end, text)
        self.is_written(folder, text, first, end, "places", *state)
        if looks:
            middle = rng.randint(first, end)
            parts = [self.call(folder, "watch", "net.toml", a, b, "places", *state) for a, b in ((first, middle), (middle, end))]
            if b"".join(parts) != text:
                raise Difference(f"watch {first} {middle}, {middle} {end}: the pieces are not the whole")
            self.put_in(folder, places, first, end, text, state)

    def drawn(self, number):
        folder = written(self.top / f"drawn.{number}", drawn(number, cycles_most=MOST_CYCLES))
        network = open_network(Folder(folder), "net.toml")
        recorded, rng = Recorded(network, network.limit), random.Random(f"watched {number}")
        for at in range(self.spans):
            self.span(rng, folder, recorded, looks=at % 5 == 0)
        return folder

    def odd(self, number, files):
        folder = self.top / f"odd.{number}"
        folder.mkdir()
        for name, content in files.items():
            (folder / name).write_bytes(content)
        rng = random.Random(f"odd {number}")
        network = open_network(Folder(folder), "net.toml")
        network.run_to(EPOCH - rng.randrange(BEFORE))
        recorded = Recorded(network, EPOCH + BEHIND)
        for at in range(self.spans // 4):
            self.span(rng, folder, recorded, looks=at == 0)
        network = open_network(Folder(folder), "net.toml")
        network.run_to(EPOCH)
        saved = network.saved()
        (folder / "cut.state").write_bytes(state_text(saved))
        recorded = Recorded(network, EPOCH + BEHIND)
        for at in range(self.spans // 2):
            self.span(rng, folder, recorded, state=["cut.state"], looks=at % 5 == 0)
        self.moved(rng, folder, saved)
        return folder

    def moved(self, rng, folder, saved):
        network = open_network(Folder(folder), "net.toml")
        (folder / "moves").write_text(drawn_moves(rng, len(network.nodes)))
        runs = [Recorded(one, EPOCH + BEHIND) for one in runs_of(network, saved, moves_in(folder, network))]
        for _ in range(self.spans // 4):
            places, (first, end) = drawn_places(rng, runs[0]), drawn_span(rng, runs[0])
            (folder / "places").write_bytes(places_text(places))
            text = b"".join(run.text(places, first, end) for run in runs)
            self.counted(runs[0], places, first, end, text)
            self.counts["spans over moves"] += 1
            self.is_written(folder, text, first, end, "places", "cut.state", "moves")

    def tried(self, kind, *of):
        self.counts[f"{kind.__name__} networks"] += 1
        try:
            shutil.rmtree(kind(*of))
        except Difference as difference:
            self.different += 1
            print(f"{kind.__name__} {of[0]}: {difference}", flush=True)


def moves_in(folder, network):
    return read_moves(len(network.nodes), (folder / "moves").read_bytes())


def main():
    if len(sys.argv) < 2:
        sys.exit(__doc__)
    program = str(Path(sys.argv[1]).resolve())
    count, first, spans = (int(w) for w in (sys.argv[2:] + ["100", "0", "20"][len(sys.argv) - 2 :])[:3])
    top = Path(tempfile.mkdtemp(prefix="watched."))
    it = Watcher(program, top, spans)
    for number in range(first, first + count):
        it.tried(it.drawn, number)
    odd = list(networks(7))
    for number in range(first, min(first + count, len(odd))):
        it.tried(it.odd, number, odd[number][1])
    for name, value in sorted(it.counts.items()):
        print(f"{name}: {value}")
    print(f"different: {it.different}" + (f" (files in {top})" if it.different else ""))
    if not it.different:
        shutil.rmtree(top)
    sys.exit(1 if it.different else 0)


if __name__ == "__main__":
    if sys.argv[1:2] in (["--help"], ["-h"]):
        sys.exit(print(__doc__))
    main()
