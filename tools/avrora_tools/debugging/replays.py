"""A node in each cycle of a short span: its state as the span begins, and each change of a byte since. So a step needs
no call of the simulator where one was made near it."""
import bisect
from collections.abc import Iterable
from dataclasses import InitVar, dataclass, field

from avrora_tools.observing.places import REGISTERS, SP_HIGH, SP_LOW, SREG, Change, Kind, Place
from avrora_tools.states import DATA_END, SRAM_FIRST, Node

# All that a replay tells: general registers, SP, SREG, the SRAM.
ALL_BYTES = [*range(REGISTERS), SP_LOW, SP_HIGH, SREG, *range(SRAM_FIRST, DATA_END)]


def all_places(node: int) -> list[Place]:
    return [Place(node, Kind.BYTE, address) for address in ALL_BYTES]


@dataclass
class Replay:
    """A node in a span of cycles."""

    begin: Node
    seen: InitVar[Iterable[Change]]
    changes: list[Change] = field(init=False)
    cycles: list[int] = field(init=False)
    data: bytearray = field(init=False)
    done: int = field(init=False, default=0)  # so many changes stand in `data`

    def __post_init__(self, seen: Iterable[Change]) -> None:
        self.changes = list(seen)
        self.cycles = [change.cycle for change in self.changes]
        self.restart()

    def restart(self) -> None:
        self.done = 0
        self.data = bytearray(self.begin.data)
        stack = self.begin["SP"]
        self.data[SP_LOW], self.data[SP_HIGH], self.data[SREG] = stack & 0xFF, stack >> 8, self.begin["SREG"]

    def at(self, cycle: int) -> bytearray:
        """The bytes as a cycle begins: general registers, SP, SREG and the SRAM. Those of devices are none of it."""
        wanted = bisect.bisect_left(self.cycles, cycle)
        if wanted < self.done:
            self.restart()
        for change in self.changes[self.done : wanted]:
            self.data[change.place.address] = change.byte or 0
        self.done = wanted
        return self.data


def is_replayed(address: int, length: int) -> bool:
    """Whether a replay tells all these bytes of the data space."""
    end = address + length
    return address >= SRAM_FIRST and end <= DATA_END or 0 <= address and end <= REGISTERS or SP_LOW <= address and end <= SREG + 1
