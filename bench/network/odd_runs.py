#!/usr/bin/env python3
"""Compares runs from drawn states, also such as no run comes to, with the slow simulator beside this file.

    bench/network/odd_runs.py PROGRAM [--count COUNT] [--first FIRST]

It draws COUNT networks (200), from number FIRST (0) on, that end some thousand cycles after the end of an epoch, and
a state of each. In these devices and processors are anywhere within their bounds, sends are closer than a byte time,
and a radio is busy for long. It compares what `PROGRAM resume FILE STATE` writes with what the definitions give, byte
for byte, and ends with counts of what was compared. If something differs, it tells the first line that does, keeps
the files, and its exit status is 1.
"""
import argparse
import random
import shutil
import sys
import tempfile
from collections import Counter
from pathlib import Path

from compare import count_of, first_difference, written
from draw import drawn
from drawn_states import drawn_state
from network import Folder, open_network
from states import EPOCH, Rules, state_text


def later(rng, it, epochs):
    """The drawn network, so many epochs later; its state is taken that much later too."""
    document = it.document
    cut = EPOCH * epochs
    document["cycles"] += cut
    document["version"] = 3 if document["cycles"] > 10_000_000 else document.get("version", 1)
    if "window" in document:
        document["window"] = [cycle + cut for cycle in document["window"]]
    elif rng.random() < 0.5:
        first = cut + rng.randrange(0, document["cycles"] - cut)
        document["window"] = [first, min(document["cycles"], first + rng.randrange(100))]
    for row in document["input"]:
        row["at"] += cut - rng.choice((0, 0, rng.randrange(200)))
    for link in document["link"]:
        if "open" in link:
            link["open"] = [[a + cut, b + cut] for a, b in link["open"]]
            if rng.random() < 0.3:
                link["open"] = [[max(0, cut - rng.randrange(3_000)), cut + 1 + rng.randrange(500)]]
    return it


def words_used(it):
    """How many words the longest image has."""
    return max(sum(len(line) - 11 for line in text.split() if line[7:9] == "00") // 4 for text in it.images.values())


def compared(number, folder, program, counts):
    rng = random.Random(f"odd {number}")
    epochs = rng.choice((1, 1, 2, 3, 100))
    it = later(rng, drawn(number, 6, rng.choice((400, 6_000))), epochs)
    written(folder, it)
    network = open_network(Folder(folder), "net.toml")
    saved = drawn_state(rng, Rules(it.document), 1, words_used(it))
    saved.cycle += EPOCH * (epochs - 1)
    shift(saved, EPOCH * (epochs - 1))
    (folder / "net.state").write_bytes(state_text(saved))
    network.restore(saved)
    before = len(saved.sends)
    network.run()
    count_of(network, counts)
    counts["cycles of nodes"] -= saved.cycle * len(network.nodes)
    counts["sends"] -= before
    counts["sends of the states"] += before
    difference = first_difference(folder, [program, "resume", "net.toml", "net.state"], network.trace())
    if difference:
        print(f"{folder}: {difference}")
    return difference is None


def shift(saved, more):
    """The ends, the radios and the sends of a state that comes so much later."""
    for node in saved.nodes:
        for runs, end in ((9, 10), (17, 18)):
            if node.ports[runs] and not node.core[39]:
                node.ports[end] = min(node.ports[end] + more, 2**41)
        node.ports[28] = min(node.ports[28] + more, 2**41)
    saved.sends = [(node, sent + more, byte) for node, sent, byte in saved.sends]


def main():
    parser = argparse.ArgumentParser(description=__doc__, formatter_class=argparse.RawDescriptionHelpFormatter)
    parser.add_argument("program", metavar="PROGRAM")
    parser.add_argument("--count", type=int, default=200)
    parser.add_argument("--first", type=int, default=0)
    given = parser.parse_args()
    top = Path(tempfile.mkdtemp(prefix="odd."))
    program = str(Path(given.program).resolve())
    counts, different = Counter(), 0
    for number in range(given.first, given.first + given.count):
        folder = top / f"{number}"
        if compared(number, folder, program, counts):
            shutil.rmtree(folder)
        else:
            different += 1
    for name, value in sorted(counts.items()):
        print(f"{name}: {value}")
    print(f"different: {different}" + (f" (files in {top})" if different else ""))
    if not different:
        shutil.rmtree(top)
    sys.exit(1 if different else 0)


if __name__ == "__main__":
    main()
