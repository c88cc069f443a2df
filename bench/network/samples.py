#!/usr/bin/env python3
"""The networks of `make` as files, run by the slow simulator beside this file: what data/samples.txt of crates/command_facts
is to come to.

    bench/network/samples.py NUMBER NODES     the counts, how long the trace is and its FNV-1a hash of 64 bits, and the first
                                              byte that each node sends, as a row of the trace
    bench/network/samples.py words NUMBER     the words of the program of its node 0, and the two behind them

docs/FORMATS.md says what the network of a number is. A million cycles of eight nodes take about a minute.
"""
import sys
import tempfile
from pathlib import Path

from case_lines import fnv
from network import Folder, Network, open_network

CYCLES, BYTE_TIME = 1_000_000, 512
# The program for the byte 0x40 and 1 round of waiting: the stack at 0x10FF, the radio selected, SPI as master with divider 4,
# the byte into r17, the rounds into r19, and the loop from word 0x0C on.
WORDS = """\
E100 BF0E EF0F BF0D E001 BB07 E500 B90D E410 E031 953A F7F1 E001 D00B 2F01 D009
E002 D007 D006 D005 2F20 D003 0F12 9513 CFF3 B90F 9B77 CFFE B10F 9508"""
LDI_R17, LDI_R19 = 0xE010, 0xE030


def constant(word, k):
    """The `ldi` of a register, with this constant."""
    return word + (k >> 4 << 8) + (k & 15)


def words_of(number, node):
    words = [int(word, 16) for word in WORDS.split()]
    words[8] = constant(LDI_R17, (number + 37 * node) % 256)
    words[9] = constant(LDI_R19, 1 + (number + 7 * node) % 64)
    return words


def record(at, data):
    body = bytes([len(data), at >> 8, at & 255, 0]) + data
    return ":" + (body + bytes([-sum(body) & 255])).hex().upper() + "\n"


def image(words):
    data = b"".join(word.to_bytes(2, "little") for word in words)
    return "".join(record(at, data[at : at + 16]) for at in range(0, len(data), 16)) + ":00000001FF\n"


def write_files(folder, number, nodes):
    text = f"cycles = {CYCLES}\nlatency = {1 + number % 4096}\nbyte_time = {BYTE_TIME}\n"
    for k in range(nodes):
        (folder / f"{k}.hex").write_text(image(words_of(number, k)))
        text += f'[[node]]\nimage = "{k}.hex"\n'
        if nodes > 1:
            text += f"[[link]]\nfrom = {k}\nto = {(k + 1) % nodes}\n"
    (folder / "sample.toml").write_text(text)


class LateSends:
    """The sends of a network that a sample in the newest cycle may still hear, and those of nodes that it hears alone."""

    def __init__(self, network):
        self.network, self.taken, self.of = network, 0, {k: [] for k in range(len(network.nodes))}

    def at(self, listener, cycle):
        sends = self.network.sends
        for send in sends[self.taken :]:
            self.of[send[0]].append(send)
        self.taken = len(sends)
        for node, to in self.network.links:
            if to == listener:
                latency, _ = self.network.links[node, to]
                for send in reversed(self.of[node]):
                    if send[1] + latency + self.network.byte_time <= cycle:
                        break
                    yield send


def run(number, nodes):
    with tempfile.TemporaryDirectory() as folder:
        write_files(Path(folder), number, nodes)
        network = open_network(Folder(folder), "sample.toml")
    hears = {listener: node for node, listener in network.links}
    late = LateSends(network)

    def heard(listener, cycle):
        # what `Network.heard` gives, over the few sends that it could find
        all_sends, network.sends = network.sends, list(late.at(listener, cycle)) if listener in hears else []
        answer = Network.heard(network, listener, cycle)
        network.sends = all_sends
        return answer

    network.heard = heard
    network.run()
    return network


def tell(number, nodes):
    network = run(number, nodes)
    counts = [sum(heard[0] == status for _, _, heard in network.samples) for status in range(3)]
    trace = network.trace()
    print(f"{len(network.sends)} sent, {counts[0]} quiet, {counts[1]} heard, {counts[2]} clashes")
    print(f"{len(trace)} bytes {fnv(trace)}")
    rows = trace.decode().splitlines()
    for k in range(nodes):
        print(next(row for row in rows if row.split(" ")[1:3] == [str(k), "sent"]))


def main():
    if sys.argv[1] == "words":
        words = words_of(int(sys.argv[2]), 0) + [0xFFFF, 0xFFFF]
        print(" ".join(f"{word:04X}" for word in words))
    else:
        tell(int(sys.argv[1]), int(sys.argv[2]))


if __name__ == "__main__":
    if sys.argv[1:2] in (["--help"], ["-h"]):
        sys.exit(print(__doc__))
    main()
