#!/usr/bin/env python3
"""Compares what `look` writes with the whole state of the slow simulator beside this file, cycle by cycle.

    bench/network/looked.py PROGRAM [COUNT [FIRST [STEP]]]

Of COUNT drawn networks (100), from number FIRST (0) on, of less than 400 cycles: `PROGRAM look FILE CYCLE` at each STEPth cycle (1),
and where the run is over. Of as many networks that do something odd about the end of an epoch: `PROGRAM save FILE 1`, which is `look`
at that cycle, and `PROGRAM look FILE CYCLE STATE` from there at 60 cycles. It ends with counts; where a state differs it tells the
first line that does, keeps the files, and its exit status is 1.
"""
import shutil
import subprocess
import sys
import tempfile
from collections import Counter
from pathlib import Path

from compare import written
from draw import drawn
from network import Folder, open_network
from odd_places import networks
from resumed import first_difference, found_in
from states import EPOCH, state_text

MOST_CYCLES, BEHIND = 400, 60


class Looker:
    def __init__(self, program, top):
        self.program, self.top = program, top
        self.counts, self.different = Counter(), 0

    def call(self, folder, *words):
        done = subprocess.run([self.program, *words], cwd=folder, capture_output=True, check=False)
        if done.returncode != 0:
            raise Difference(f"{' '.join(words)}: status {done.returncode}, {done.stderr!r}")
        return done.stdout

    def is_there(self, folder, network, *words):
        """The call writes the state in which the slow simulator is."""
        saved = network.saved()
        wanted, got = state_text(saved), self.call(folder, *words)
        if got != wanted:
            raise Difference(f"{' '.join(words)}: {first_difference(got, wanted)}")
        self.counts["states"] += 1
        self.counts["sends in states"] += len(saved.sends)
        for node in saved.nodes:
            self.counts["nodes in states"] += 1
            for what in found_in(saved.cycle, node):
                self.counts["nodes " + what] += 1

    def drawn(self, number, step):
        folder = written(self.top / f"drawn.{number}", drawn(number, cycles_most=MOST_CYCLES))
        network = open_network(Folder(folder), "net.toml")
        for cycle in [*range(0, network.limit, step), network.limit]:
            network.run_to(cycle)
            self.is_there(folder, network, "look", "net.toml", str(cycle))
        return folder

    def odd(self, number, files):
        folder = self.top / f"odd.{number}"
        folder.mkdir()
        for name, content in files.items():
            (folder / name).write_bytes(content)
        network = open_network(Folder(folder), "net.toml")
        network.run_to(EPOCH)
        self.is_there(folder, network, "save", "net.toml", "1")
        self.is_there(folder, network, "look", "net.toml", str(EPOCH))
        (folder / "cut.state").write_bytes(state_text(network.saved()))
        for cycle in range(EPOCH, min(EPOCH + BEHIND, network.limit + 1)):
            network.run_to(cycle)
            self.is_there(folder, network, "look", "net.toml", str(cycle), "cut.state")
        return folder

    def tried(self, kind, *of):
        self.counts[f"{kind.__name__} networks"] += 1
        try:
            shutil.rmtree(kind(*of))
        except Difference as difference:
            self.different += 1
            print(f"{kind.__name__} {of[0]}: {difference}")


class Difference(Exception):
    """What is not as it should be."""


def main():
    if len(sys.argv) < 2:
        sys.exit(__doc__)
    program = str(Path(sys.argv[1]).resolve())
    count, first, step = (int(w) for w in (sys.argv[2:] + ["100", "0", "1"][len(sys.argv) - 2 :])[:3])
    top = Path(tempfile.mkdtemp(prefix="looked."))
    it = Looker(program, top)
    for number in range(first, first + count):
        it.tried(it.drawn, number, step)
    odd = list(networks(7))
    for number in range(first, min(first + count, len(odd))):
        it.tried(it.odd, number, odd[number][1])
    for name, value in sorted(it.counts.items()):
        print(f"{name}: {value}")
    print(f"different: {it.different}" + (f" (files in {top})" if it.different else ""))
    if not it.different:
        shutil.rmtree(top)
    sys.exit(1 if it.different else 0)


if __name__ == "__main__":
    main()
