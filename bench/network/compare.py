#!/usr/bin/env python3
"""Compares a program with the slow simulator beside this file, over drawn networks: the whole traces, byte for byte.

    bench/network/compare.py PROGRAM [COUNT [FIRST]]

It runs `PROGRAM run FILE` and `PROGRAM run --plain FILE` on COUNT drawn networks (100), from number FIRST (0) on;
each tenth is a long one. It also runs a second version of each network, in which one byte is just heard, or just not.
It ends with the counts of what was compared. If a trace differs, it tells the first line that does, keeps the files,
and its exit status is 1.
"""
import shutil
import subprocess
import sys
import tempfile
from collections import Counter
from pathlib import Path

from draw import aimed, drawn, late
from network import Folder, open_network


def written(folder, it):
    folder.mkdir(parents=True)
    for name, text in it.images.items():
        (folder / name).write_text(text)
    (folder / "net.toml").write_text(it.text())
    return folder


def first_difference(folder, words, expected):
    done = subprocess.run(words, cwd=folder, capture_output=True, check=False)
    if (done.returncode, done.stdout, done.stderr) == (0, expected, b""):
        return None
    want, got = expected.splitlines(), done.stdout.splitlines()
    place = next((i for i, (a, b) in enumerate(zip(want, got)) if a != b), min(len(want), len(got)))
    return f"status {done.returncode}, {done.stderr!r}; line {place + 1}: expected {want[place:place + 1]}, got {got[place:place + 1]}"


def count_of(network, counts):
    counts["networks"] += 1
    counts["cycles of nodes"] += network.limit * len(network.nodes)
    counts["sends"] += len(network.sends)
    counts["samples"] += len(network.samples)
    for _, _, (status, _, _) in network.samples:
        counts[f"samples that heard {('nothing', 'a byte', 'a clash')[status]}"] += 1
    for _, _, text in network.rows:
        counts["rows: " + text.split()[0]] += 1


def compared(folder, it, program, counts):
    """The network as it ran here, or None where the program's differs."""
    written(folder, it)
    network = open_network(Folder(folder), "net.toml")
    network.run()
    if not network.check():
        print(f"{folder}: the simulator's samples are not what all its sends give")
        return None
    count_of(network, counts)
    for words in ([program, "run", "net.toml"], [program, "run", "--plain", "net.toml"]):
        difference = first_difference(folder, words, network.trace())
        if difference:
            print(f"{folder}: {' '.join(words[1:])}: {difference}")
            return None
    return network


def main():
    if len(sys.argv) < 2:
        sys.exit(__doc__)
    program = str(Path(sys.argv[1]).resolve())
    count, first = (int(w) for w in (sys.argv[2:] + ["100", "0"][len(sys.argv) - 2 :])[:2])
    top = Path(tempfile.mkdtemp(prefix="networks."))
    counts, different = Counter(), 0
    for number in range(first, first + count):
        base = late(number) if number % 10 == 9 else drawn(number)
        network = compared(top / f"{number}", base, program, counts)
        other = aimed(number, base, network) if network else None
        if network is None or (other and compared(top / f"{number}.aimed", other, program, counts) is None):
            different += 1
    for name, value in sorted(counts.items()):
        print(f"{name}: {value}")
    print(f"different: {different}" + (f" (files in {top})" if different else ""))
    if not different:
        shutil.rmtree(top)
    sys.exit(1 if different else 0)


if __name__ == "__main__":
    if sys.argv[1:2] in (["--help"], ["-h"]):
        sys.exit(print(__doc__))
    main()
