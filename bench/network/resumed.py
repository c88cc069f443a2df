#!/usr/bin/env python3
"""Cuts runs in two at the ends of epochs, and compares the halves with the whole, and states with the slow simulator's.

    bench/network/resumed.py PROGRAM [--step STEP] [--slow SLOW]

It takes each network of examples/, of bench/ and of the stored cases; those that end too early run for longer. It
also takes networks that do something odd about the end of an epoch, at each STEPth cycle of it (7). With N = 1, 2 and
the last that there is, `PROGRAM head FILE N` and then `PROGRAM resume` with what `PROGRAM save FILE N` wrote must
write what `PROGRAM run --plain FILE` writes. A save of the same network with another window and limit must be the
same state. For each SLOWth odd network (8) the state, and the rows from there on, must be those of the slow simulator
beside this file. It ends with counts, also of what was found in the states. If something differs, it tells what and
keeps the files, and its exit status is 1.
"""
import argparse
import re
import shutil
import subprocess
import sys
import tempfile
import tomllib
from collections import Counter
from pathlib import Path

from network import Folder, Refused, open_network
from odd_places import networks
from states import EPOCH, read_state, state_text

TOP = Path(__file__).resolve().parent.parent.parent
STORED = TOP / "crates" / "command_facts" / "data"
CYCLES, WINDOW = re.compile(rb"^cycles *= *([\d_]+)", re.M), re.compile(rb"^window *=.*$", re.M)


# ---- networks: a name, the files by their names, the scenario's name


def of_folder(folder):
    for path in sorted(folder.glob("*.toml")):
        images = {node["image"] for node in tomllib.loads(path.read_text())["node"]}
        yield f"{path.relative_to(TOP)}", {name: (folder / name).read_bytes() for name in images | {path.name}}, path.name


def of_bench():
    for name, nodes, cycles, links, rest in (
        ("ring", 8, 1_250_000, True, ""), ("ring", 64, 600_000, True, "latency = 1\nbyte_time = 256\n"), ("sleep", 64, 3_000_000, False, ""),
        ("mixed", 4, 900_000, False, f"window = [{2 * EPOCH}, {2 * EPOCH + 112}]\n"), ("uart", 2, 800_000, False, ""), ("kernel", 2, 800_000, False, ""),
        ("ticks", 2, 800_000, False, f"window = [{EPOCH - 44}, {EPOCH + 56}]\n"),
    ):
        text = f"cycles = {cycles}\n{rest}" + f'[[node]]\nimage = "{name}.hex"\n' * nodes
        if links:
            text += "".join(f"[[link]]\nfrom = {k}\nto = {(k + 1) % nodes}\n" for k in range(nodes))
        yield f"{nodes} nodes of bench/{name}.hex", {f"{name}.hex": (TOP / "bench" / f"{name}.hex").read_bytes(), "net.toml": text.encode()}, "net.toml"


def of_case_file(path):
    """The networks of a file of cases: `file NAME` with its lines behind bars, `copy NAME`, `run NAME`."""
    held, name = {}, None
    for line in path.read_text().splitlines():
        word, _, rest = line.partition(" ")
        if line.startswith("|"):
            held[name] += line[1:].encode() + b"\n"
        elif word == "file":
            name = rest
            held[name] = b""
        elif word == "copy":
            held[rest] = (STORED / rest).read_bytes()
    for name in sorted(name for name in held if name.endswith(".toml")):
        yield f"{path.name}: {name}", held, name


def all_networks():
    for folder in ("examples", "examples/arduino", "bench/make0"):
        yield from of_folder(TOP / folder)
    yield from of_bench()
    for name in ("examples", "worked", "drawn"):
        yield from of_case_file(STORED / f"{name}.txt")


def longer(text):
    """A scenario that has at least two epochs behind the first."""
    limit = int(CYCLES.search(text)[1])
    return text if limit > 2 * EPOCH else CYCLES.sub(b"cycles = %d" % (2 * EPOCH + limit % EPOCH + 1), text)


# ---- the comparison


class Cutter:
    def __init__(self, program, top):
        self.program, self.top = program, top
        self.counts, self.different = Counter(), 0

    def call(self, folder, *words):
        done = subprocess.run([self.program, *words], cwd=folder, capture_output=True, check=False)
        self.counts["calls"] += 1
        return (done.stdout, b"") if done.returncode == 0 else (b"", done.stderr or b"status %d" % done.returncode)

    def wrong(self, folder, name, what):
        self.different += 1
        print(f"{folder}: {name}: {what}")
        return False

    def written(self, files, name):
        folder = Path(tempfile.mkdtemp(dir=self.top))
        for file in [*(node["image"] for node in tomllib.loads(files[name].decode())["node"]), name]:
            (folder / file).write_bytes(files[file])
        return folder

    def cut(self, folder, name, file, whole, epochs):
        """Whether the run, cut behind so many epochs, is the whole one. Leaves the state in the folder."""
        head, why_head = self.call(folder, "head", file, str(epochs))
        saved, why_saved = self.call(folder, "save", file, str(epochs))
        (folder / "cut.state").write_bytes(saved)
        rest, why_rest = self.call(folder, "resume", file, "cut.state")
        if why_head or why_saved or why_rest:
            return self.wrong(folder, name, f"N = {epochs}: {why_head or why_saved or why_rest}")
        if head + rest != whole:
            return self.wrong(folder, name, f"N = {epochs}: {first_difference(head + rest, whole)}")
        text = (folder / file).read_bytes()
        other = CYCLES.sub(b"cycles = %d" % (epochs * EPOCH + 1), WINDOW.sub(b"", text)) if b"open" not in text else text
        (folder / "other.toml").write_bytes(other)
        if self.call(folder, "save", "other.toml", str(epochs)) != (saved, b""):
            return self.wrong(folder, name, f"N = {epochs}: another state with another window and limit")
        self.counts["cuts"] += 1
        self.count(folder, file, saved)
        return True

    def count(self, folder, file, text):
        try:
            saved = read_state(open_network(Folder(folder), file).rules, text)
        except Exception as fault:  # whatever a text that is no state leads to
            self.wrong(folder, file, f"save wrote no state: {fault}")
            return
        self.counts["sends in states"] += len(saved.sends)
        for node in saved.nodes:
            self.counts["nodes in states"] += 1
            for what in found_in(saved.cycle, node):
                self.counts["nodes " + what] += 1

    def network(self, name, files, file):
        files = files | {file: longer(files[file])}
        folder = self.written(files, file)
        whole, why = self.call(folder, "run", "--plain", file)
        if why:
            # a stored case of a scenario that is refused has no run to cut
            self.counts["refused"] += 1
        else:
            last = (tomllib.loads(files[file].decode())["cycles"] - 1) // EPOCH
            if not all([self.cut(folder, name, file, whole, epochs) for epochs in sorted({1, 2, last})]):
                return
        shutil.rmtree(folder)

    def odd(self, name, files, slowly):
        folder = self.written(files, "net.toml")
        whole, why = self.call(folder, "run", "--plain", "net.toml")
        if why or not self.cut(folder, name, "net.toml", whole, 1):
            return self.wrong(folder, name, why) if why else None
        if slowly:
            network = open_network(Folder(folder), "net.toml")
            network.run_to(EPOCH)
            state, network.rows[:] = state_text(network.saved()), []
            network.run()
            self.counts["compared with the slow simulator"] += 1
            saved = (folder / "cut.state").read_bytes()
            if state != saved:
                return self.wrong(folder, name, f"the state: {first_difference(saved, state)}")
            if not whole.endswith(network.trace()):
                return self.wrong(folder, name, "the rows behind the cut are not the slow simulator's")
        shutil.rmtree(folder)
        return True


def first_difference(got, wanted):
    got, wanted = got.split(b"\n"), wanted.split(b"\n")
    place = next((i for i, (a, b) in enumerate(zip(got, wanted)) if a != b), min(len(got), len(wanted)))
    return f"line {place + 1}: expected {wanted[place:place + 1]}, got {got[place:place + 1]}"


def found_in(cycle, node):
    """What is going on in a node."""
    core, timers, ports = node.core, node.timers, node.ports
    blocked = (timers[3], timers[9], timers[19], timers[32])
    flags = timers[4:6] + timers[10:12] + timers[20:25] + timers[33:38]
    for what, holds in (
        ("in an instruction or an entry", core[36]), ("owed an instruction", core[37]), ("asleep", core[38]), ("stopped", core[39]),
        ("with a timer that is blocked", any(blocked)), ("with a timer's flag", any(flags)), ("with TEMP", timers[18] or timers[31]),
        ("in a frame", ports[9]), ("in a frame with one buffered", ports[12]), ("in a frame that ends at once", ports[9] and ports[10] == cycle),
        ("with TXC", ports[4]), ("with DOR", ports[5]), ("with a byte received", ports[6] == 1), ("with two bytes received", ports[6] == 2),
        ("in a transfer", ports[17]), ("in a transfer of a sample", ports[17] and ports[19] == 2 and not ports[24]),
        ("in a transfer that ends at once", ports[17] and ports[18] == cycle), ("with SPIF", ports[20]), ("with WCOL", ports[21]),
        ("with a note of SPSR", ports[22] or ports[23]), ("with a radio that waits for its byte", ports[24] == 1),
        ("with answers left", ports[24] >= 2), ("with one answer left", ports[24] == 4), ("with a radio that is busy", ports[28] > cycle),
        ("stopped with a frame under way", core[39] and ports[9]), ("stopped with a frame that would be over", core[39] and ports[9] and ports[10] < cycle),
        ("stopped with a transfer under way", core[39] and ports[17]),
    ):
        if holds:
            yield what


def main():
    parser = argparse.ArgumentParser(description=__doc__, formatter_class=argparse.RawDescriptionHelpFormatter)
    parser.add_argument("program", metavar="PROGRAM")
    parser.add_argument("--step", type=int, default=7)
    parser.add_argument("--slow", type=int, default=8)
    given = parser.parse_args()
    top = Path(tempfile.mkdtemp(prefix="resumed."))
    it = Cutter(str(Path(given.program).resolve()), top)
    for name, files, file in all_networks():
        it.network(name, files, file)
        it.counts["networks"] += 1
    for number, (name, files) in enumerate(networks(given.step)):
        it.odd(name, files, number % given.slow == 0)
        it.counts["odd networks"] += 1
    for name, value in sorted(it.counts.items()):
        print(f"{name}: {value}")
    print(f"different: {it.different}" + (f" (files in {top})" if it.different else ""))
    if not it.different:
        shutil.rmtree(top)
    sys.exit(1 if it.different else 0)


if __name__ == "__main__":
    main()
