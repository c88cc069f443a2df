"""What nodes said in a run: bursts of bytes, one behind another; clashes; and who said nothing any more."""
import re
from collections import defaultdict
from dataclasses import dataclass

SENT = re.compile(rb"^(\d+) (\d+) sent ([0-9A-F]{2})$", re.MULTILINE)
NO_CLASH = re.compile(rb"^\d+ \d+ heard [01] [^\n]*\n", re.MULTILINE)
CLASH = re.compile(rb"^\d+ (\d+) heard 2 ", re.MULTILINE)

# The rows that are looked at where no check of the user reads others.
LOOKED_AT = (b" sent ", b" serial ", b" stop ", b" end ", b" heard 2 ")


@dataclass(frozen=True)
class Burst:
    """Bytes that a node sent one behind another: the cycles of the first and of the last."""

    node: int
    first: int
    last: int
    bytes_: bytes


def bursts_of(output: bytes, byte_time: int) -> list[Burst]:
    """All bursts of a run, in the order of their first bytes: between two of a node lies at least another byte's
    time."""
    sends: dict[int, list[tuple[int, int]]] = defaultdict(list)
    for cycle, node, digits in SENT.findall(output):
        sends[int(node)].append((int(cycle), int(digits, 16)))
    found: list[Burst] = []
    for node, sent in sends.items():
        begun = 0
        for place in range(1, len(sent) + 1):
            if place == len(sent) or sent[place][0] - sent[place - 1][0] > 2 * byte_time:
                part = sent[begun:place]
                found.append(Burst(node, part[0][0], part[-1][0], bytes(byte for _, byte in part)))
                begun = place
    return sorted(found, key=lambda burst: (burst.first, burst.node))


def without_samples(output: bytes) -> bytes:
    """The rows of a run but for samples of the air that met no clash, which are most of them."""
    return NO_CLASH.sub(b"", output)


def clashes_at(output: bytes, node: int) -> int:
    """How often a node heard several at once."""
    return sum(int(it) == node for it in CLASH.findall(output))


def last_sends(output: bytes) -> dict[int, int]:
    """Of each node that sent something the cycle of its last byte."""
    return {int(node): int(cycle) for cycle, node, _ in SENT.findall(output)}
