"""Watchpoints: where the bytes that gdb watches are written.

All nodes have the same addresses, so a watchpoint belongs to one node: the one that gdb showed when it was first set.
gdb takes its watchpoints out at each stop, and sets them again before it goes on; one that it does not set again was
deleted.
"""
from collections.abc import Collection, Iterable, Iterator, Sequence
from dataclasses import dataclass, field
from typing import NamedTuple

from avrora_tools.observing.places import Change, Kind, Place, is_seen
from avrora_tools.observing.settling import SETTLING

MOST_BYTES = 64  # that a watchpoint may have


class Range(NamedTuple):
    """The bytes that are watched: the data address of the first, and how many."""

    first: int
    length: int

    def has(self, address: int) -> bool:
        return self.first <= address < self.first + self.length


class Write(NamedTuple):
    """A value that is written: the cycles in which its first and its last byte change, the node, what is watched."""

    first: int
    last: int
    node: int
    watched: Range


@dataclass
class Watchpoints:
    """What gdb watches. The key is the number of the program whose variable it is, and its bytes."""

    programs: Sequence[int]  # the number of each node's program
    owners: dict[tuple[int, Range], int] = field(default_factory=dict)  # the nodes
    here: dict[tuple[int, Range], int] = field(default_factory=dict)  # how often each is set now

    def insert(self, watched: Range, node: int) -> bool:
        """Sets a watchpoint; whether each of its bytes can be watched."""
        addresses = range(watched.first, watched.first + watched.length)
        if not 0 < watched.length <= MOST_BYTES or not all(map(is_seen, addresses)):
            return False
        key = (self.programs[node], watched)
        self.owners.setdefault(key, node)
        self.here[key] = self.here.get(key, 0) + 1
        return True

    def remove(self, watched: Range, node: int) -> None:
        key = (self.programs[node], watched)
        left = self.here.pop(key, 0) - 1
        if left > 0:
            self.here[key] = left

    def go(self) -> None:
        """gdb goes on: those that it has not set again are gone."""
        self.owners = {key: node for key, node in self.owners.items() if key in self.here}

    def lines(self) -> list[str]:
        """Each in words."""
        return [
            f"{watched.length} bytes from {watched.first:04X} on, of node {node}"
            for (_, watched), node in sorted(self.owners.items())
        ]

    def places(self, nodes: Collection[int]) -> list[Place]:
        return [
            Place(self.owners[key], Kind.BYTE, address)
            for key in self.here
            for address in range(key[1].first, key[1].first + key[1].length)
            if self.owners[key] in nodes
        ]

    def writes(self, changes: Sequence[Change]) -> list[Write]:
        """Those that are among the changes of a piece of the run, in order of their last byte."""
        if not changes:
            return []
        found = [write for key in self.here for write in gathered(key[1], self.owners[key], changes)]
        return sorted(found, key=lambda write: (write.last, write.node))


def gathered(watched: Range, node: int, changes: Iterable[Change]) -> Iterator[Write]:
    """The bytes of one value together: those that change one behind another, each once."""
    begun: Write | None = None
    seen: set[int] = set()
    for change in changes:
        if change.place.node != node or not watched.has(change.place.address):
            continue
        if begun and (change.place.address in seen or change.cycle > begun.last + SETTLING):
            yield begun
            begun = None
        if begun is None:
            begun, seen = Write(change.cycle, change.cycle, node, watched), set()
        begun = begun._replace(last=change.cycle)
        seen.add(change.place.address)
    if begun:
        yield begun
