"""The cells of a sweep: the classes of the last event's values, for each value of the events before it."""
import itertools
from collections.abc import Callable, Iterator, Mapping

from avrora_tools.scenarios import MAX_WINDOW
from avrora_tools.states import State
from avrora_tools.sweeping.arrivals import ArrivalClass, Start, classes
from avrora_tools.sweeping.events import InputByte, Move, MovedScenario
from avrora_tools.sweeping.plans import Cell
from avrora_tools.sweeping.rows import processor_rows
from avrora_tools.sweeping.simulation import Tails
from avrora_tools.traces import Row

LEAD = 4_000  # cycles traced before the span, so that the flag I and the handlers are known as it begins
BEHIND = 200  # and behind it, so that it is seen where the last arrival is noticed

INTERRUPTS = 1 << 7  # the flag I in SREG


class CellMaker:
    """Makes the cells from traces of runs in which the byte that moves last never comes."""

    def __init__(
        self,
        tails: Tails,
        scenario: MovedScenario,
        state: State | None,
        doubt: str | None = None,
        written: Mapping[int, str] | None = None,
        goes_on: Callable[[int], bool] | None = None,
    ) -> None:
        """With a `doubt` of what traces tell, each arrival is a class. `written` has the instructions that write what
        handlers and main share. `goes_on` is told up to which cycle the span was traced, and says whether to go on."""
        self.tails, self.scenario, self.state, self.doubt = tails, scenario, state, doubt
        self.written, self.goes_on = written, goes_on or (lambda cycle: True)
        self.counted_to: int | None = None  # the first cycle of the span that was not traced, where that was cut
        self.doubts: dict[str, None] = {}  # why each arrival is a class, where it is
        self.stores: set[int] = set()  # through pointers, behind which the flag I counts as set
        *self.before, self.last = scenario.moved

    def cells(self) -> Iterator[Cell]:
        """All cells, in the order of moves."""
        for values in itertools.product(*(moved.span.values() for moved in self.before)):
            if self.counted_to is not None:
                return
            yield from (Cell(values, one) for one in self.classes(values))

    def classes(self, before: Move) -> list[ArrivalClass]:
        """The classes of the last event's values. A class that has none of the values that are asked for keeps its own:
        it is told as one that was not run."""
        span = self.last.span
        if not isinstance(self.last.event, InputByte):
            return [ArrivalClass(range(value, value + 1)) for value in span.values()]
        rows, start, end = self.rows(before, self.last.event.node)
        last = span.last if self.counted_to is None else self.counted_to - 1
        if last < span.first:
            return []
        result = classes(rows, start, span.first, last, end, self.doubt, self.written)
        found = result.classes
        self.stores |= result.stores
        if result.doubt:
            self.doubts[result.doubt] = None
        script = self.scenario.scripts[len(self.before)]
        if (
            script.index < len(script.bytes_) - 1 and not script.is_alone
        ):  # the bytes behind move too, and tell all moves apart
            found = [ArrivalClass(range(x, x + 1), one.point) for one in found for x in one.moves]
        return found

    def rows(self, before: Move, node: int) -> tuple[list[Row], Start, int]:
        """The rows of a node from before the span to behind it, what is known as they begin, and where they end."""
        span = self.last.span
        end = min(span.last + BEHIND, self.scenario.until)
        begin = max(self.scenario.begins, span.first - LEAD)
        rows: list[Row] = []
        for first in range(begin, end, MAX_WINDOW):
            if not self.goes_on(first):
                self.counted_to, end = max(span.first, first - BEHIND), first
                break
            rows += self.window(before, node, first, min(end, first + MAX_WINDOW))
        while begin > self.scenario.begins and (not rows or rows[0].cycle > span.first):
            first = max(self.scenario.begins, begin - MAX_WINDOW)  # asleep as the span begins: since when, and where
            rows = self.window(before, node, first, begin) + rows
            begin = first
        return rows, self.start(begin, node), end

    def window(self, before: Move, node: int, first: int, end: int) -> list[Row]:
        return processor_rows(self.tails.output((*before, None), (first, end)), node, (first, end))

    def start(self, begin: int, node: int) -> Start:
        """What is known of a node as its rows begin: at reset and in a state all is."""
        if begin == 0:
            return Start(0, True)
        if self.state is None or begin != self.state.cycle:
            return Start(begin)
        it = self.state.nodes[node]
        asleep_at = it["PC"] if it["asleep"] and not it.stop() else None
        return Start(begin, not it["SREG"] & INTERRUPTS, asleep_at)
