"""Tracks of a drawing: what a variable or a register of a node is over time, each new value as a text."""
import enum
import json
from array import array
from collections.abc import Iterator
from dataclasses import dataclass, field
from typing import Any

Number = int | float


class Look(enum.Enum):
    """How the values of a track are drawn."""

    FLAG = "flag"  # a line that is low or high
    NUMBER = "number"  # as high as the value is great
    NAME = "name"  # a box with a text, as of an enumeration


@dataclass
class Track:
    """The values of one quantity of a node, by the cycle from which on it has them; the first stands at the beginning
    of what is drawn. Each value is kept once: changes name it by its place."""

    name: str
    look: Look
    cycles: "array[int]" = field(default_factory=lambda: array("q"))
    values: "array[int]" = field(default_factory=lambda: array("q"))
    texts: list[str] = field(default_factory=list)
    numbers: list[Number] = field(default_factory=list)  # none of a track of names
    places: dict[str, int] = field(default_factory=dict, repr=False)

    def add(self, cycle: int, text: str, number: Number) -> None:
        place = self.places.get(text)
        if place is None:
            place = self.places[text] = len(self.texts)
            self.texts.append(text)
            if self.look is not Look.NAME:
                self.numbers.append(number)
        self.cycles.append(cycle)
        self.values.append(place)

    def __len__(self) -> int:
        return len(self.cycles)

    def changes(self) -> Iterator[tuple[int, int]]:
        """Each cycle, and the place of the value from it on."""
        return zip(self.cycles, self.values)

    def thinned(self, step: int) -> Iterator[tuple[int, int]]:
        """Of the changes within so many cycles the first and the last, and of numbers the least and the greatest: so a
        peak is seen, and what stands behind them is the value."""
        group: list[tuple[int, int]] = []
        for change in self.changes():
            if group and change[0] - group[0][0] >= step:
                yield from self.told(group)
                group = []
            group.append(change)
        yield from self.told(group)

    def told(self, group: list[tuple[int, int]]) -> Iterator[tuple[int, int]]:
        kept = {0, len(group) - 1}
        if self.numbers:
            order = sorted(range(len(group)), key=lambda at: self.numbers[group[at][1]])
            kept |= {order[0], order[-1]} if order else set()
        yield from (group[at] for at in sorted(kept) if 0 <= at < len(group))

    def content(self, step: int = 0) -> dict[str, Any]:
        """The track as data of a page: changes as distances and places of values; thinned where a step is named."""
        new: dict[int, int] = {}
        flat: list[int] = []
        last = 0
        for cycle, place in self.thinned(step) if step else self.changes():
            flat += [cycle - last, new.setdefault(place, len(new))]
            last = cycle
        found: dict[str, Any] = {"name": self.name, "look": self.look.value, "changes": flat}
        texts = [self.texts[place] for place in new]
        if self.numbers:
            found["numbers"] = [finite(self.numbers[place]) for place in new]
        if not self.numbers or texts != [str(self.numbers[place]) for place in new]:
            found["texts"] = texts
        return found

    def size(self, step: int) -> int:
        """How many bytes it takes as JSON."""
        return len(json.dumps(self.content(step), separators=(",", ":")))


def finite(number: Number) -> Number | None:
    """What JSON can have of a number: no infinity, and nothing that is not a number."""
    return number if abs(number) < float("inf") else None
