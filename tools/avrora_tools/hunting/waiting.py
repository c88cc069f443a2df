"""Failing trials that wait to be made small, and which of them is next: what looks alike may have several causes, so
those are first that differ most from what was made small."""
import re
from collections import Counter
from collections.abc import Iterator
from dataclasses import dataclass

from avrora_tools.hunting.causes import Look
from avrora_tools.hunting.changes import Trial
from avrora_tools.hunting.oracles import Failure

NUMBERS = re.compile(r"[0-9,]+")
MOST = 1_000  # that wait; what comes then is only counted


@dataclass(frozen=True)
class Failing:
    """A trial as it was drawn, what is wrong with it, and what can be seen of its cause."""

    trial: Trial
    failure: Failure
    look: Look


class Waiting:
    """Failing trials."""

    def __init__(self) -> None:
        self.of_look: dict[Look, list[Failing]] = {}
        self.small: Counter[object] = Counter()  # what was made small, by looks, what was varied, and what is wrong
        self.past: list[Failing] = []  # what there was no room for

    def put(self, failing: Failing) -> None:
        if self.count() < MOST:
            self.of_look.setdefault(failing.look, []).append(failing)
        else:
            self.past.append(failing)

    def knows(self, look: Look) -> bool:
        """Whether one of this look was made small."""
        return bool(self.small[look])

    def count(self) -> int:
        return sum(map(len, self.of_look.values()))

    def count_small(self, failing: Failing) -> None:
        """One is made small."""
        self.small.update((failing.look, *aspects(failing)))

    def next(self) -> Failing:
        """The next one to be made small: of the look of which fewest were; of these the one most of whose aspects are
        new, and then that of fewest changes."""
        looks = [look for look, them in self.of_look.items() if them]
        them = self.of_look[min(looks, key=lambda look: self.small[look])]
        them.sort(key=lambda it: (sum(self.small[aspect] for aspect in aspects(it)), len(it.trial.changes)))
        return them.pop(0)

    def rest(self) -> Iterator[Failing]:
        """All that was not made small; nothing waits any more."""
        yield from (failing for them in self.of_look.values() for failing in them)
        yield from self.past
        self.of_look, self.past = {}, []


def aspects(failing: Failing) -> tuple[object, object]:
    """What tells failing trials of one look from each other: in which way they were varied, and what is wrong."""
    way = NUMBERS.sub("", failing.trial.what)
    return (failing.look, way), (failing.look, failing.failure.text)
