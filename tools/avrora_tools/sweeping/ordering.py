"""In which order a run uses what handlers and main share, enters handlers, and meets the clocks of timers.

Two runs in which this order is the same read the same values from memory. A timer's clock counts as a use of the
timer's registers: where it comes between two of them or not can be all the difference. """
from collections.abc import Iterable, Iterator, Sequence
from dataclasses import dataclass

from avrora_tools.states import Node
from avrora_tools.sweeping.sharing import Sharing
from avrora_tools.traces import Row

# By what a timer's clock select divides the processor's clock, from 1 on (0: the timer is halted).
DIVIDERS = {
    0: (1, 8, 32, 64, 128, 256, 1024),
    1: (1, 8, 64, 256, 1024),
    2: (1, 8, 64, 256, 1024),
    3: (1, 8, 64, 256, 1024),
}
CONTROL = {0: "TCCR", 1: "TCCRB", 2: "TCCR", 3: "TCCRB"}
CLOCK_SELECT = 7

SLOW = 64  # the divider of a clock that is slow enough for its clocks to be counted


@dataclass(frozen=True)
class Enter:
    """A handler is entered."""

    vector: int


@dataclass(frozen=True)
class Use:
    """An instruction uses what is watched."""

    address: int


@dataclass(frozen=True)
class Clock:
    """A timer's clock has come since the timer's registers were used last; where clocks are counted, how often so
    far."""

    timer: int
    count: int = 0


@dataclass(frozen=True)
class Step:
    """One of these, with the row's cycle, the address of its instruction or to return to, and how many handlers the
    node was in before it."""

    what: Enter | Use | Clock
    cycle: int
    address: int
    depth: int


def dividers(node: Node) -> dict[int, int]:
    """The timers that run, each with its divider, as a state tells; of those that count each cycle none is told."""
    found = {}
    for timer, control in CONTROL.items():
        select = node.timer(timer)[control] & CLOCK_SELECT
        if 2 <= select <= len(DIVIDERS[timer]):
            found[timer] = DIVIDERS[timer][select - 1]
    return found


def steps(
    rows: Iterable[Row], sharing: Sharing, clocks: dict[int, int], counted_from: int | None = None
) -> Iterator[Step]:
    """The steps of the order, of the rows of one node. With a cycle to count from the slow clocks are counted, so that
    two orders differ also where a clock has come before the first of two uses in the one, and behind the last in the
    other."""
    slow = {timer for timer, divider in clocks.items() if divider >= SLOW and counted_from is not None}
    last_use: dict[int, int] = {timer: counted_from or 0 for timer in slow}
    depth = 0
    for row in rows:
        if row.kind == "enter":
            yield Step(Enter(int(row.rest[:4], 16)), row.cycle, int(row.rest[5:], 16), depth)
            depth += 1
            continue
        address = int(row.rest[:4], 16)
        timers = sharing.timer_uses.get(address, set()) & clocks.keys()
        for timer in sorted(timers):
            divider = clocks[timer]
            # The clock comes at the end of each cycle whose next one is a multiple of the divider.
            if timer in last_use and row.cycle // divider > last_use[timer] // divider:
                count = (row.cycle - (counted_from or 0)) // divider if timer in slow else 0
                yield Step(Clock(timer, count), row.cycle, address, depth)
            last_use[timer] = row.cycle
        if timers or address in sharing.watched:
            yield Step(Use(address), row.cycle, address, depth)
        if row.rest[5:] == "reti":
            depth -= 1


def first_difference(one: Sequence[Step], two: Sequence[Step]) -> int | None:
    """Where two orders part: the place of the first step that is not the same, or None."""
    for place, (a, b) in enumerate(zip(one, two)):
        if a.what != b.what:
            return place
    return None if len(one) == len(two) else min(len(one), len(two))
