"""What differs between two traces, node by node: the first row that is not the same, and of the rows behind it, kind by
kind, what is the same but at another time, what is gone and what is new.

Both traces are read once, side by side. What is kept of them is what one is ahead of the other.
"""
from collections import defaultdict, deque
from collections.abc import Iterable, Iterator
from dataclasses import dataclass, field

from avrora_tools.traces import Row

CONTEXT = 3  # rows before and behind the first difference
AHEAD = 64  # how many rows of a kind are looked through for the next one that both have
TOGETHER = 2  # how many in a row must then be the same
TOLD = 3  # rows that are gone, and rows that are new, that are told

FIRST, SECOND = 0, 1

Queues = tuple[deque[Row], deque[Row]]  # of the first trace, and of the second


def queues() -> Queues:
    return deque(), deque()


def lists() -> tuple[list[Row], list[Row]]:
    return [], []


def content(row: Row) -> str:
    """What a row says apart from its cycle: of a sample not the age either, which goes with the cycle."""
    return row.rest.rpartition(" ")[0] if row.kind == "heard" else row.rest


@dataclass
class Alignment:
    """Rows of one node and kind in two traces, in order, behind the first difference."""

    queues: Queues = field(default_factory=queues)
    unmoved: int = 0  # the same, in the same cycle
    shifts: list[int] = field(default_factory=list)  # the least and the greatest shift of those that moved
    moved: int = 0
    gone: list[Row] = field(default_factory=list)  # the first ones
    new: list[Row] = field(default_factory=list)
    gone_count: int = 0
    new_count: int = 0

    def feed(self, side: int, row: Row) -> None:
        self.queues[side].append(row)
        self.advance(AHEAD)

    def finish(self) -> None:
        self.advance(1)
        one, two = self.queues
        self.lose(len(one))
        self.gain(len(two))

    def advance(self, least: int) -> None:
        """Goes on while both sides have rows, and `least` of them where the next ones are not the same."""
        one, two = self.queues
        while one and two:
            if content(one[0]) == content(two[0]):
                self.match(one.popleft(), two.popleft())
            elif min(len(one), len(two)) < least:
                return
            else:
                gone, new = self.next_match()
                self.lose(gone)
                self.gain(new)

    def next_match(self) -> tuple[int, int]:
        """How many rows of each side go before the next ones that are the same; one of each where none are."""
        one = [content(row) for row in self.first_rows(FIRST)]
        two = [content(row) for row in self.first_rows(SECOND)]
        places: dict[str, list[int]] = {}
        for j, text in enumerate(two):
            places.setdefault(text, []).append(j)
        best = None
        for i, text in enumerate(one):
            for j in places.get(text, ()):
                if best is not None and i + j >= sum(best):
                    break
                if all(a == b for a, b in zip(one[i : i + TOGETHER], two[j : j + TOGETHER])):
                    best = i, j
                    break
        return best or (1, 1)

    def first_rows(self, side: int) -> Iterator[Row]:
        return (row for row, _ in zip(self.queues[side], range(AHEAD)))

    def match(self, one: Row, two: Row) -> None:
        shift = two.cycle - one.cycle
        if shift == 0:
            self.unmoved += 1
            return
        self.moved += 1
        self.shifts = [min([shift, *self.shifts]), max([shift, *self.shifts])]

    def lose(self, count: int) -> None:
        self.gone_count += count
        for _ in range(count):
            row = self.queues[FIRST].popleft()
            if len(self.gone) < TOLD:
                self.gone.append(row)

    def gain(self, count: int) -> None:
        self.new_count += count
        for _ in range(count):
            row = self.queues[SECOND].popleft()
            if len(self.new) < TOLD:
                self.new.append(row)


@dataclass
class NodeDifference:
    """A node in two traces."""

    same: int = 0  # rows before the first difference
    before: deque[Row] = field(default_factory=lambda: deque(maxlen=CONTEXT))
    behind: tuple[list[Row], list[Row]] = field(default_factory=lists)  # from the first difference on
    has_parted: bool = False
    waiting: Queues = field(default_factory=queues)
    rest: dict[str, Alignment] = field(default_factory=lambda: defaultdict(Alignment))  # by kind

    def feed(self, side: int, row: Row, with_cycles: bool) -> None:
        if self.has_parted:
            self.feed_rest(side, row)
            return
        self.waiting[side].append(row)
        one, two = self.waiting
        while one and two and not self.has_parted:
            if is_same(one[0], two[0], with_cycles):
                self.same += 1
                self.before.append(one.popleft())
                two.popleft()
            else:
                self.part()

    def part(self) -> None:
        """The next rows differ."""
        self.has_parted = True
        for side, rows in enumerate(self.waiting):
            for row in rows:
                self.feed_rest(side, row)
            rows.clear()

    def feed_rest(self, side: int, row: Row) -> None:
        if len(self.behind[side]) < CONTEXT:
            self.behind[side].append(row)
        self.rest[row.kind].feed(side, row)

    def finish(self) -> None:
        if any(self.waiting):  # one trace has rows of the node that the other has not
            self.part()
        for alignment in self.rest.values():
            alignment.finish()


def is_same(one: Row, two: Row, with_cycles: bool) -> bool:
    if with_cycles:
        return one == two
    return one.kind == two.kind and content(one) == content(two)


def differences(first: Iterable[Row], second: Iterable[Row], with_cycles: bool = True) -> dict[int, NodeDifference]:
    """What differs between two traces, by node; a node whose rows are the same is there too. Without cycles rows that
    only come in other cycles are the same, as long as their order within the node is."""
    nodes: dict[int, NodeDifference] = defaultdict(NodeDifference)
    for side, row in side_by_side(first, second):
        nodes[row.node].feed(side, row, with_cycles)
    for node in nodes.values():
        node.finish()
    return dict(sorted(nodes.items()))


def side_by_side(first: Iterable[Row], second: Iterable[Row]) -> Iterator[tuple[int, Row]]:
    """The rows of both, each time one of that which is behind in its cycles."""
    ones, twos = iter(first), iter(second)
    one, two = next(ones, None), next(twos, None)
    while one or two:
        if one and (two is None or one.cycle <= two.cycle):
            yield FIRST, one
            one = next(ones, None)
        elif two:
            yield SECOND, two
            two = next(twos, None)
