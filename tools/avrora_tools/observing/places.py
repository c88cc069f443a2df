"""Places that `avrora watch` looks at, and what it writes of them (docs/FORMATS.md)."""
import enum
import re
from collections.abc import Iterable
from typing import NamedTuple

from avrora_tools.errors import BadInput, CannotWork
from avrora_tools.states import DATA_END, IO_NAMES, SRAM_FIRST

REGISTERS = 32
SP_LOW, SP_HIGH, SREG = 0x5D, 0x5E, 0x5F
MOST_PLACES = 8_192


class Kind(enum.IntEnum):
    """What is looked at: in the order in which places of a node stand."""

    BYTE = 0
    AT = 1

    @property
    def word(self) -> str:
        return self.name.lower()


class Place(NamedTuple):
    """A byte of a node's data space, or an instruction of its program; the address is a data or a word address."""

    node: int
    kind: Kind
    address: int


class Change(NamedTuple):
    """What was seen: the byte that the place has as the next cycle begins, None where an instruction begins."""

    cycle: int
    place: Place
    byte: int | None


def is_seen(address: int) -> bool:
    """Whether a data address has a byte that can be watched: a register, SP, SREG, a byte that the board keeps, the
    SRAM."""
    return (
        0 <= address < REGISTERS
        or address in (SP_LOW, SP_HIGH, SREG)
        or address in IO_NAMES
        or SRAM_FIRST <= address < DATA_END
    )


def text_of(places: Iterable[Place]) -> str:
    """The text of places, in order and each once. Raises BadInput where there are none, or more than the simulator
    takes."""
    found = sorted(set(places))
    if not found:
        raise BadInput("there is nothing to watch")
    if len(found) > MOST_PLACES:
        raise BadInput(f"{len(found):,} bytes and instructions to watch are too many: {MOST_PLACES:,} are the most")
    return "".join(f"{one.node} {one.kind.word} {one.address:04X}\n" for one in found)


CHANGE = re.compile(r"(\d+) (\d+) (?:byte ([0-9A-F]{4}) ([0-9A-F]{2})|at ([0-9A-F]{4}))\n")


def change_of(line: str) -> Change:
    """A line of what `avrora watch` writes. Raises CannotWork where it is none."""
    match = CHANGE.fullmatch(line)
    if not match:
        raise CannotWork(f"what the simulator wrote is not a change: {line[:60]!r}")
    cycle, node = int(match[1]), int(match[2])
    if match[5]:
        return Change(cycle, Place(node, Kind.AT, int(match[5], 16)), None)
    return Change(cycle, Place(node, Kind.BYTE, int(match[3], 16)), int(match[4], 16))
