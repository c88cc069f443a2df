#!/usr/bin/env python3
"""Runs a scenario (docs/FORMATS.md) and writes the trace of the whole network, by the definitions. All nodes make one
cycle after the other in order of their numbers, and a sample hears what the list of all sends gives.

    bench/network/network.py FILE
    bench/network/network.py head FILE N          the rows of the first N epochs
    bench/network/network.py save FILE N          the state behind them
    bench/network/network.py resume FILE STATE    the rows from a state on
    bench/network/network.py head FILE N STATE    the rows of N epochs from a state on
    bench/network/network.py save FILE N STATE    the state behind them
    bench/network/network.py look FILE CYCLE [STATE]    the state as a cycle begins, from reset or from a state on
    bench/network/network.py sweep FILE STATE MOVES    the rows from a state on, once for each line of MOVES
    bench/network/network.py watch FILE FROM TO PLACES [STATE [MOVES]]    what is seen at places, from reset, from a state, or once
                                                  for each line of MOVES

It shares nothing with the crates: it is written from docs/ and the AVR Instruction Set Manual, and reads TOML by Python's
tomllib. It takes some microseconds for each cycle of a node, so it is for short runs. Exit status and error stream are
those of `avrora run FILE`, `avrora head FILE N` and so on.
"""
import sys
from bisect import bisect_left, bisect_right
from pathlib import Path

sys.path.insert(0, str(Path(__file__).resolve().parent.parent / "scenario"))

import cases as scenario_rules  # noqa: E402
from changes import Changes  # noqa: E402
from machine import Node  # noqa: E402
from moves import read_moves  # noqa: E402
from places import read_places  # noqa: E402
from states import EPOCH, Fault, Rules, Saved, read_state, state_text  # noqa: E402

MOST_SCENARIO, MOST_IMAGE, FLASH = 524_288, 1_048_576, 131_072
# The most instructions that a state can say of a node.
MOST_EXECUTED = 2**40


class Refused(Exception):
    """No run: the exit status, and the line for the error stream."""

    def __init__(self, status, line):
        super().__init__(line)
        self.status, self.line = status, line


# ---- Intel HEX


def pairs(line):
    """The bytes of a record, or None where the line is none."""
    digits = line[1:]
    if line[:1] != b":" or len(digits) % 2 or len(digits) < 10:
        return None
    if any(c not in b"0123456789abcdefABCDEF" for c in digits):
        return None
    return bytes.fromhex(digits.decode())


def line_fault(line, base, ended):
    if ended:
        return "AfterEnd"
    record = pairs(line)
    if record is None:
        return "NotARecord"
    if sum(record) % 256:
        return "BadSum"
    count, offset, kind, data = record[0], record[1] << 8 | record[2], record[3], record[4:-1]
    if kind > 5:
        return "BadType"
    if count != len(data) or kind in (1, 2, 3, 4, 5) and count != {1: 0, 2: 2, 3: 4, 4: 2, 5: 4}[kind]:
        return "BadLength"
    if kind == 0 and count and offset + count > 65_536:
        return "Crossing"
    if kind == 0 and count and base + offset + count > FLASH:
        return "PastFlash"
    return None


def load(text):
    """The flash of an image, or its first fault with its line (0 where the fault has none)."""
    flash, base, ended = bytearray(b"\xff" * FLASH), 0, False
    for number, line in enumerate(text.split(b"\n"), 1):
        line = line.removesuffix(b"\r")
        if not line.strip(b" \t"):
            continue
        fault = line_fault(line, base, ended)
        if fault:
            return None, fault, number
        record = pairs(line)
        at, kind, data = base + (record[1] << 8 | record[2]), record[3], record[4:-1]
        if kind == 0:
            flash[at : at + len(data)] = data
        elif kind == 1:
            ended = True
        elif kind in (2, 4):
            base = int.from_bytes(data, "big") << (4 if kind == 2 else 16)
    return (flash, None, 0) if ended else (None, "NoEnd", 0)


# ---- files


class Folder:
    """Files by their names. `reads` are the names in the order of reading."""

    def __init__(self, path):
        self.path, self.reads = path, []

    def read(self, name):
        self.reads.append(name)
        try:
            return Path(self.path, name).read_bytes()
        except OSError:
            raise Refused(3, f"avrora: cannot read {name}") from None


def read_image(files, name):
    text = files.read(name)
    if len(text) > MOST_IMAGE:
        raise Refused(5, f"avrora: {name}: image refused: TooLong")
    flash, fault, line = load(text)
    if fault:
        place = f", line {line}" if line else ""
        raise Refused(5, f"avrora: {name}: image refused: {fault}{place}")
    return flash


def read_scenario(files, name):
    text = files.read(name)
    fault = None
    if len(text) > MOST_SCENARIO:
        fault = "TooLong"
    else:
        document = scenario_rules.parse(text)
        fault = "NotToml" if document is None else scenario_rules.fault_of(document)
    if fault:
        raise Refused(4, f"avrora: {name}: scenario refused: {fault}")
    return document


# ---- the network


class Network:
    """A scenario's numbers, and its nodes at reset."""

    def __init__(self, document, flashes):
        self.limit, self.rules, self.first = document["cycles"], Rules(document), 0
        self.byte_time = document.get("byte_time", 3072)
        latency = document.get("latency", 3072)
        self.links = {
            (link["from"], link["to"]): (link.get("latency", latency), link.get("open"))
            for link in document.get("link", [])
        }
        scripts = [{} for _ in flashes]
        for it in document.get("input", []):
            for place, byte in enumerate(bytes.fromhex(it["hex"])):
                scripts[it["node"]][it["at"] + place * it.get("every", 7680)] = byte
        window = document.get("window", [0, 0])
        self.rows, self.sends, self.samples = [], [], []
        self.nodes = [
            Node(k, flash, scripts[k], window, self.byte_time, self.rows) for k, flash in enumerate(flashes)
        ]

    def audible(self, send, listener, cycle):
        """Since when the send is heard by a sample of this node in this cycle, or None."""
        node, sent, _ = send
        if (node, listener) not in self.links:
            return None
        latency, spans = self.links[node, listener]
        if spans is not None and not any(a <= sent < b for a, b in spans):
            return None
        return sent + latency if sent + latency <= cycle < sent + latency + self.byte_time else None

    def heard(self, listener, cycle):
        """What all sends so far give a sample: its status, byte and age. Sends stand in the order of their cycles."""
        early = bisect_right(self.sends, cycle - self.rules.longest - self.byte_time, key=cycle_of)
        late = bisect_left(self.sends, cycle, early, key=cycle_of)
        near = self.sends[early:late]
        found = [(send, since) for send in near if (since := self.audible(send, listener, cycle)) is not None]
        if not found:
            return (0, 0, 0)
        if len(found) == 1:
            (_, _, byte), since = found[0]
            return (1, byte, min(255, (cycle - since) // 16))
        both = 0
        for (_, _, byte), _ in found:
            both |= byte
        return (2, both, 0)

    def run(self):
        self.run_to(self.limit)
        for node in self.nodes:
            self.rows.append(node.last_row(self.limit))

    def run_to(self, end):
        for cycle in range(self.first, end):
            for node in self.nodes:
                if not node.stopped:
                    sent = node.tick(cycle, self.sample)
                    if sent is not None:
                        self.sends.append((node.number, cycle, sent))
        self.first = end

    def saved(self):
        """The state as the next cycle begins."""
        kept = [send for send in self.sends if self.rules.can_be_heard(send[1], self.first)]
        return Saved(self.first, [node.saved() for node in self.nodes], kept)

    def restore(self, saved):
        self.first, self.sends, self.samples = saved.cycle, list(saved.sends), []
        self.rows.clear()
        for node, of in zip(self.nodes, saved.nodes):
            node.restore(of)

    def sample(self, node, cycle):
        heard = self.heard(node, cycle)
        self.samples.append((node, cycle, heard))
        return heard

    def check(self):
        """Whether what each sample heard is what the sends of the whole run give it."""
        return all(self.heard(node, cycle) == heard for node, cycle, heard in self.samples)

    def trace(self):
        return "".join(f"{cycle} {node} {text}\n" for cycle, node, text in self.rows).encode()


def cycle_of(send):
    return send[1]


def network_of(files, document):
    flashes = [read_image(files, node["image"]) for node in document["node"]]
    return Network(document, flashes)


def open_network(files, name):
    return network_of(files, read_scenario(files, name))


def refused(name, what, fault):
    return Refused(8, f"avrora: {name}: {what} refused: {fault}")


def read_all(files, name, what, read):
    """What a text says of which `read` gives the meaning."""
    text = files.read(name)
    try:
        return read(text)
    except Fault as fault:
        raise refused(name, what, fault) from None


def runs_of(network, saved, runs):
    """The network in a state, once for each of these moves, with the input that it says."""
    own = [node.script for node in network.nodes]
    for moved, script in runs:
        for node in network.nodes:
            node.script = script if node.number == moved else own[node.number]
        network.restore(saved)
        yield network


def swept(files, name, state, moves):
    """The rows of each run of a sweep, one run behind another."""
    network = open_network(files, name)
    saved = read_all(files, state, "state", lambda text: read_state(network.rules, text))
    runs = read_all(files, moves, "moves", lambda text: read_moves(len(network.nodes), text))
    written = []
    for one in runs_of(network, saved, runs):
        one.run()
        written.append(one.trace())
    return b"".join(written)


def seen(network, places, first, end):
    """What is seen at these places, from the cycle on in which the network stands: below `first` nothing is told."""
    network.run_to(first)
    changes = Changes(network)
    changes.run_to(end)
    return changes.text(places, first, end)


def watched(files, name, first, end, places, state=None, moves=None):
    """What is seen at places of a run, or of each run of a sweep."""
    document = read_scenario(files, name)
    if end > document["cycles"]:
        raise Refused(4, f"avrora: {name}: scenario refused: OutOfRange")
    network = network_of(files, document)
    chosen = read_all(files, places, "places", lambda text: read_places(len(network.nodes), text))
    if state is None:
        return seen(network, chosen, first, end)
    saved = read_all(files, state, "state", lambda text: read_state(network.rules, text))
    if first < saved.cycle:
        raise refused(state, "state", "PastCycle")
    if moves is None:
        network.restore(saved)
        return seen(network, chosen, first, end)
    runs = read_all(files, moves, "moves", lambda text: read_moves(len(network.nodes), text))
    return b"".join(seen(one, chosen, first, end) for one in runs_of(network, saved, runs))


def end_of(network, kind, number):
    """The cycle up to which a call runs that has a number: so many epochs further, below the limit; or the cycle that `look` has."""
    if kind != "look":
        cycle = network.first + EPOCH * number
        if cycle >= network.limit:
            raise Fault("PastEnd")
        return cycle
    if number < network.first:
        raise Fault("PastCycle")
    if number > network.limit:
        raise Fault("PastEnd")
    return number


def outcome(files, words):
    """What a call with these words writes. Raises Refused."""
    if len(words) == 1:
        network = open_network(files, words[0])
        network.run()
        return network.trace()
    kind, name, *rest = words
    if kind == "sweep":
        return swept(files, name, *rest)
    if kind == "watch":
        return watched(files, name, int(rest[0]), int(rest[1]), *rest[2:])
    state = rest[-1] if kind == "resume" or len(rest) == 2 else None
    network = open_network(files, name)
    try:
        if state is not None:
            network.restore(read_state(network.rules, files.read(state)))
        if kind == "resume":
            network.run()
            return network.trace()
        network.run_to(end_of(network, kind, int(rest[0])))
        if kind != "head" and any(node.count > MOST_EXECUTED for node in network.nodes):
            raise Fault("TooMany")
    except Fault as fault:
        raise refused(name if state is None else state, "state", fault) from None
    return network.trace() if kind == "head" else state_text(network.saved())


def main():
    words = sys.argv[1:]
    counts = {"head": (3, 4), "save": (3, 4), "look": (3, 4), "resume": (3,), "sweep": (4,), "watch": (5, 6, 7)}
    if len(words) != 1 and (not words or len(words) not in counts.get(words[0], ())):
        sys.exit(__doc__)
    try:
        sys.stdout.buffer.write(outcome(Folder("."), words))
    except Refused as refused:
        print(refused.line, file=sys.stderr)
        sys.exit(refused.status)


if __name__ == "__main__":
    if sys.argv[1:2] in (["--help"], ["-h"]):
        sys.exit(print(__doc__))
    main()
