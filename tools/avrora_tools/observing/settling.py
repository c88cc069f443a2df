"""Values of quantities in time, from the bytes that change.

A value of several bytes is written byte by byte: between two of them it is neither the old nor the new one. So a new
value counts from its last byte on, once no other byte of it changes for SETTLING cycles; what stands half written for
longer than that, as where an interrupt comes between, is a value too. A byte that is written once more ends the value
before; not so of a bit-field, whose bytes are read, changed and stored part by part. With `torn` each byte counts at
once."""
import bisect
from collections.abc import Iterable, Iterator, Mapping, Sequence
from dataclasses import dataclass, field
from typing import NamedTuple

from avrora_tools.observing.places import Change, Kind, Place
from avrora_tools.observing.quantities import Quantity

SETTLING = 16  # cycles: four stores with what computes a byte between them


class Moment(NamedTuple):
    """A new value: the cycle in which its last byte changed, from the next one on the node has it; the node, the
    quantity, the bytes that it lies in, and those before."""

    cycle: int
    node: int
    quantity: Quantity
    held: bytes
    before: bytes


Key = tuple[int, int]  # a node, and the number of a quantity of it


class Byte(NamedTuple):
    """A byte of a quantity that changed: when, which, and its new value."""

    cycle: int
    offset: int
    value: int


@dataclass
class Settler:
    """Turns changes of bytes into new values, in order of cycle."""

    quantities: Mapping[int, Sequence[Quantity]]  # by node
    known: dict[Key, bytes]  # as the first cycle begins
    torn: bool = False
    waiting: dict[Key, list[Byte]] = field(init=False, default_factory=dict)  # of values that may be half written
    ready: list[tuple[int, int, Moment]] = field(init=False, default_factory=list)
    count: int = field(init=False, default=0)

    def __post_init__(self) -> None:
        self.users: dict[Place, list[tuple[Key, int]]] = {}
        for node, found in self.quantities.items():
            for number, one in enumerate(found):
                for offset, place in enumerate(one.places(node)):
                    self.users.setdefault(place, []).append(((node, number), offset))

    def moments(self, changes: Iterable[Change]) -> Iterator[Moment]:
        for change in changes:
            yield from self.due(change.cycle)
            if change.place.kind is Kind.BYTE and change.byte is not None:
                for key, offset in self.users.get(change.place, ()):
                    self.write(key, Byte(change.cycle, offset, change.byte))
        yield from self.due(None)

    def write(self, key: Key, byte: Byte) -> None:
        waiting = self.waiting.setdefault(key, [])
        waiting.append(byte)
        if self.torn or len(self.known[key]) == 1:
            self.settle(key, 1)
        elif not self.is_field(key) and any(one.offset == byte.offset for one in waiting[:-1]):
            self.settle(key, widest_gap(waiting))  # the same byte once more: what stood before was whole

    def is_field(self, key: Key) -> bool:
        """Whether a quantity is a bit-field: the compiler stores a byte of it once for each of its parts."""
        return self.quantities[key[0]][key[1]].bits is not None

    def settle(self, key: Key, count: int) -> None:
        """Makes the first bytes that wait, so many, a new value."""
        waiting = self.waiting[key]
        before, held = self.known[key], bytearray(self.known[key])
        for byte in waiting[:count]:
            held[byte.offset] = byte.value
        cycle = waiting[count - 1].cycle
        del waiting[:count]
        if not waiting:
            del self.waiting[key]
        quantity = self.quantities[key[0]][key[1]]
        self.known[key] = bytes(held)
        if quantity.data(bytes(held)) != quantity.data(before):
            bisect.insort(self.ready, (cycle, self.count, Moment(cycle, key[0], quantity, bytes(held), before)))
            self.count += 1

    def due(self, cycle: int | None) -> Iterator[Moment]:
        """What is known by a cycle; all where there is none any more."""
        for key, waiting in list(self.waiting.items()):
            if cycle is None or waiting[-1].cycle + SETTLING < cycle:
                self.settle(key, len(waiting))
        # nothing that waits can come before what is given out
        least = None if cycle is None else min([cycle, *(waiting[0].cycle for waiting in self.waiting.values())])
        while self.ready and (least is None or self.ready[0][0] < least):
            yield self.ready.pop(0)[2]


def widest_gap(bytes_: Sequence[Byte]) -> int:
    """Where one value ends and the next begins: before the widest gap, the last of several; how many bytes lie before
    it."""
    return max(range(1, len(bytes_)), key=lambda place: (bytes_[place].cycle - bytes_[place - 1].cycle, place))
