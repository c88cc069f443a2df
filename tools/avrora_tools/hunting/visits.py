"""Where a node is when a byte may come, and something shared is in use there."""
from collections.abc import Iterator, Mapping, Sequence
from dataclasses import dataclass
from typing import Any

from avrora_tools.sweeping.events import InputByte
from avrora_tools.sweeping.plans import spread

NEAR = 100  # cycles between two executions of one visit
LONGEST = 2_000  # cycles of a visit that are swept at once
BEFORE, BEHIND = 12, 12  # cycles that are swept about a visit


@dataclass(frozen=True)
class Visit:
    """A node is at code between two uses of something that its handler uses too: the byte that may come then, the span,
    the addresses."""

    event: InputByte
    first: int
    last: int
    addresses: frozenset[int]

    def record(self) -> dict[str, Any]:
        """As JSON has it."""
        place = {"node": self.event.node, "index": self.event.index}
        return {**place, "first": self.first, "last": self.last, "addresses": sorted(self.addresses)}

    @classmethod
    def of_record(cls, record: Mapping[str, Any]) -> "Visit":
        """Raises KeyError, TypeError or ValueError where it is none."""
        event = InputByte(int(record["node"]), int(record["index"]))
        return cls(event, int(record["first"]), int(record["last"]), frozenset(map(int, record["addresses"])))


def about(span: tuple[int, int]) -> tuple[int, int]:
    """A span with some cycles before and behind it."""
    return max(1, span[0] - BEFORE), span[1] + BEHIND


def in_rounds(visits: Sequence[Visit]) -> list[Visit]:
    """Visits in rounds of one of each code, rare code first; of those of one code such that lie far apart."""
    by_code: dict[frozenset[int], list[Visit]] = {}
    for visit in visits:
        by_code.setdefault(visit.addresses, []).append(visit)
    keyed = [
        (round_, len(group), visit.first, visit)
        for group in by_code.values()
        for round_, visit in enumerate(group[i] for i in spread(len(group)))
    ]
    return [visit for *_, visit in sorted(keyed, key=lambda it: it[:3])]


def stretches(event: InputByte, cycles: Sequence[tuple[int, int]]) -> Iterator[Visit]:
    """Executions that lie near to each other, as visits."""
    begun = 0
    for place in range(1, len(cycles) + 1):
        is_long = place < len(cycles) and cycles[place][0] - cycles[begun][0] > LONGEST
        if place == len(cycles) or is_long or cycles[place][0] - cycles[place - 1][0] > NEAR:
            part = cycles[begun:place]
            addresses = frozenset(address for _, address in part)
            yield Visit(event, *about((part[0][0], part[-1][0])), addresses)
            begun = place
