"""Searches of a run for changes of quantities: all of a span, the last before a cycle, the first that breaks a
condition."""
import dataclasses
import itertools
from collections.abc import Iterable, Iterator, Mapping, Sequence
from dataclasses import dataclass

from avrora_tools.debugging.history import History
from avrora_tools.observing.conditions import Condition
from avrora_tools.observing.quantities import Quantity
from avrora_tools.observing.running import Observed, Run
from avrora_tools.observing.settling import Moment
from avrora_tools.states import EPOCH

STONES = 16  # states that are kept on the way to a cycle from which one looks back


@dataclass(frozen=True)
class Watched:
    """A condition of a node."""

    node: int
    condition: Condition


@dataclass(frozen=True)
class Broken:
    """From a cycle on a condition does not hold: what changed just before, or None where it never held since the span's
    first cycle; and the values of its quantities as text, by name."""

    cycle: int
    watched: Watched
    moment: Moment | None
    values: Mapping[str, bytes]


def quantities_of(conditions: Sequence[Watched]) -> dict[int, list[Quantity]]:
    found: dict[int, dict[str, Quantity]] = {}
    for one in conditions:
        found.setdefault(one.node, {}).update((it.name, it) for it in one.condition.quantities)
    return {node: list(by_name.values()) for node, by_name in found.items()}


class Judge:
    """Follows the values of quantities, and tells when a condition ceases to hold, or begins to."""

    def __init__(
        self,
        conditions: Sequence[Watched],
        quantities: Mapping[int, Sequence[Quantity]],
        values: Mapping[tuple[int, int], bytes],
    ) -> None:
        self.conditions = conditions
        self.held: dict[int, dict[str, bytes]] = {node: {} for node in quantities}
        self.numbers: dict[int, dict[str, int | float]] = {node: {} for node in quantities}
        for (node, number), held in values.items():
            self.put(node, quantities[node][number], held)
        self.holds = [self.judged(one) for one in conditions]
        self.using: dict[tuple[int, str], list[int]] = {}
        for number, one in enumerate(conditions):
            for it in one.condition.quantities:
                self.using.setdefault((one.node, it.name), []).append(number)
        self.last: dict[int, Moment] = {}  # the last change of what a condition looks at

    def put(self, node: int, quantity: Quantity, held: bytes) -> None:
        self.held[node][quantity.name] = held
        self.numbers[node][quantity.name] = quantity.number(held)

    def judged(self, one: Watched) -> bool:
        return one.condition.holds(self.numbers[one.node])

    def take(self, moments: Iterable[Moment]) -> Iterator[tuple[int, bool, Moment]]:
        """The numbers of the conditions that these new values, all of one cycle, turn; whether they hold then, and the
        value that they look at last."""
        users: dict[int, Moment] = {}
        for moment in moments:
            self.put(moment.node, moment.quantity, moment.held)
            users |= dict.fromkeys(self.using.get((moment.node, moment.quantity.name), ()), moment)
        self.last |= users
        for number, moment in sorted(users.items()):
            holds = self.judged(self.conditions[number])
            if holds != self.holds[number]:
                self.holds[number] = holds
                yield number, holds, moment

    def look(self, cycle: int, number: int) -> tuple[int, bool, Broken]:
        """What a condition is in a cycle up to which all values are taken."""
        return number, self.holds[number], self.broken(number, cycle, self.last.get(number))

    def broken(self, number: int, cycle: int, moment: Moment | None) -> Broken:
        one = self.conditions[number]
        values = {it.name: self.held[one.node][it.name] for it in one.condition.quantities}
        return Broken(cycle, one, moment, values)


def turns(
    run: Run, conditions: Sequence[Watched], first: int, end: int, torn: bool = False, looks: Sequence[int] = ()
) -> Iterator[tuple[int, bool, Broken]]:
    """Each time that a condition begins or ceases to hold: its number, whether it holds, and when; at the span's first
    cycle each once. `looks` has for each condition a cycle in which it is told once more."""
    quantities = quantities_of(conditions)
    values, moments = Observed(run, quantities, torn).followed(first, end)
    judge = Judge(conditions, quantities, values)
    for number, holds in enumerate(judge.holds):
        yield number, holds, judge.broken(number, first, None)
    waiting = sorted((cycle, number) for number, cycle in enumerate(looks) if first < cycle <= end)
    for cycle, of_cycle in itertools.groupby(moments, key=lambda moment: moment.cycle):
        while waiting and waiting[0][0] <= cycle:
            yield judge.look(*waiting.pop(0))
        for number, holds, moment in judge.take(of_cycle):
            yield number, holds, judge.broken(number, cycle + 1, moment)
    yield from (judge.look(*it) for it in waiting)


def breaks(run: Run, conditions: Sequence[Watched], first: int, end: int, torn: bool = False) -> Iterator[Broken]:
    """The first time in a span that each condition does not hold, in order of cycle."""
    told: set[int] = set()
    for number, holds, where in turns(run, conditions, first, end, torn):
        if not holds and number not in told:
            told.add(number)
            yield where
            if len(told) == len(conditions):
                return


def last_before(history: History, observed: Observed, cycle: int, first: int) -> list[Moment]:
    """The last change of each quantity before a cycle, not before `first`, in order; none of one that did not
    change."""
    found: dict[tuple[int, str], Moment] = {}
    wanted = sum(map(len, observed.quantities.values()))
    lowest = first // EPOCH
    last = max(cycle - 1, 0) // EPOCH
    for stone in range(lowest, last + 1, max((last - lowest) // STONES, 1)):
        history.checkpoint(stone)
    for epoch in range(last, lowest - 1, -1):
        begun = max(epoch * EPOCH, first)
        before = max(epoch - 1, lowest)  # a value may be half written as the epoch begins
        run = observed.run.from_state(history.checkpoint(before), max(before * EPOCH, history.first))
        for moment in dataclasses.replace(observed, run=run).moments(begun, min(cycle, (epoch + 1) * EPOCH)):
            key = (moment.node, moment.quantity.name)
            if key not in found or found[key].cycle >= begun:
                found[key] = moment
        if len(found) == wanted:
            break
    return sorted(found.values(), key=lambda moment: (moment.cycle, moment.node))
