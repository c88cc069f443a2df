"""Classes of arrivals: the cycles in which a byte of USART0 can arrive and make one and the same execution.

Up to the byte's arrival each run is the run in which it never comes, so one trace of that run tells the past of all. In
it stand the points at which an arrival can be noticed: a boundary at which the interrupt USART0 RX could be entered,
each cycle of a sleep, and an instruction that reads or writes a register of the port. Bytes that arrive between the
same two points make one execution, cycle for cycle. Where it is not known whether a point is one it counts as one,
which makes more classes and never fewer. What the rows cannot tell (a stack over the registers) makes each cycle a
point, and is told. """
import re
from collections.abc import Iterable, Iterator, Mapping, Sequence
from dataclasses import dataclass, field

from avrora_tools.programs import vector_name
from avrora_tools.sweeping.interrupts import Contradiction, InterruptFlag
from avrora_tools.traces import Row

USART0_RX = 0x24

# An instruction that names UDR0, UCSR0B, UCSR0A (0x0A to 0x0C as I/O registers) or UCSR0C (which cuts what arrives),
# and one that may reach them through a pointer.
NAMES_PORT = re.compile(r"(?:in|out|sbi|cbi|sbis|sbic) .*\b0x0[ABC]\b|(?:lds|sts) .*\b0x(?:002[ABC]|0095)\b")
POINTER_ACCESS = re.compile(r"(?:ld|ldd|st|std) ")
POINTER_STORES = ("st ", "std ")


@dataclass(frozen=True)
class Place:
    """What a node is at when an arrival is noticed: the address to return to, the handlers it is in (by their vectors,
    the inner one last), whether it sleeps."""

    address: int
    handlers: tuple[int, ...] = ()
    asleep: bool = False


# What an arrival meets, by names: the flag I, the last write of the receiver's register, and of each thing that
# handlers and main share the last write.
Context = tuple[tuple[str, int], ...]

FLAG, RECEIVER = "I", "RXEN"

WRITES_RECEIVER = re.compile(r"(?:out|sbi|cbi) 0x0A\b|sts 0x002A\b")


@dataclass(frozen=True)
class Point:
    """A cycle at which an arrival can be noticed; what it meets there, and the instruction before, as far as they are
    known."""

    cycle: int
    place: Place
    context: Context = field(default=(), compare=False)
    behind: int | None = field(default=None, compare=False)


@dataclass(frozen=True)
class ArrivalClass:
    """Values of a moved event that make one execution. Without a point the event is never noticed, or, of an event that
    is not an arrival, it is not known where."""

    moves: range
    point: Point | None = None


@dataclass(frozen=True)
class Start:
    """What is known of a node as its rows begin: the cycle, whether the flag I is certainly clear, and where it sleeps,
    if it does."""

    cycle: int
    is_clear: bool = False
    asleep_at: int | None = None


class Watch:
    """Goes through the `instr`, `enter` and `stop` rows of a node."""

    def __init__(self, start: Start, written: Mapping[int, str] | None = None) -> None:
        """`written` has the instructions that write what handlers and main share."""
        self.flag = InterruptFlag(start.is_clear)
        self.written = written or {}
        self.writers: dict[str, int] = {}
        self.known: tuple[bool, Context] | None = None  # the context, and the flag that it tells
        self.behind: int | None = None
        self.handlers: list[int] = []
        self.asleep_at = start.asleep_at  # the address to return to from the sleep
        self.next = start.cycle + 1  # the first cycle of the sleep that is not a point yet
        self.stores: set[int] = set()  # the addresses of those through pointers with I clear

    def points(self, rows: Iterable[Row], end: int) -> Iterator[Point]:
        """The points below `end`."""
        for row in rows:
            yield from self.sleep_until(row.cycle)
            if row.kind == "enter":
                yield from self.enter(row)
            elif row.kind == "stop":
                yield self.point(row.cycle, self.place(int(row.rest[:4], 16)))
                return  # what arrives later is never noticed
            else:
                yield from self.execute(row)
        yield from self.sleep_until(end)

    def place(self, address: int) -> Place:
        return Place(address, tuple(self.handlers))

    def point(self, cycle: int, place: Place) -> Point:
        is_clear = self.flag.is_clear
        if self.known is None or self.known[0] != is_clear:
            self.known = (is_clear, ((FLAG, not is_clear), *sorted(self.writers.items())))
        return Point(cycle, place, self.known[1], self.behind)

    def note(self, address: int, text: str) -> None:
        """An instruction is executed: who wrote last."""
        self.behind = address
        thing = self.written.get(address) or (RECEIVER if WRITES_RECEIVER.match(text) else None)
        if thing and self.writers.get(thing) != address:
            self.writers[thing] = address
            self.known = None

    def sleep_until(self, cycle: int) -> Iterator[Point]:
        """Each cycle of a sleep that an interrupt could end."""
        if self.asleep_at is not None and not self.flag.is_clear:
            place = Place(self.asleep_at, tuple(self.handlers), True)
            yield from (self.point(c, place) for c in range(self.next, cycle))
            self.next = cycle

    def enter(self, row: Row) -> Iterator[Point]:
        vector, back = int(row.rest[:4], 16), int(row.rest[5:], 16)
        slept, self.asleep_at = self.asleep_at is not None, None
        if not self.flag.may_enter():
            raise Contradiction(row)
        if vector >= USART0_RX:  # one with a lower vector goes first, also where the byte has come
            yield self.point(row.cycle, Place(back, tuple(self.handlers), slept))
        self.flag.enter()
        self.handlers.append(vector)

    def execute(self, row: Row) -> Iterator[Point]:
        address, text = int(row.rest[:4], 16), row.rest[5:]
        self.asleep_at = None
        if self.flag.may_enter() or NAMES_PORT.match(text) or POINTER_ACCESS.match(text):
            yield self.point(row.cycle, self.place(address))
        self.note(address, text)
        if self.flag.is_clear and text.startswith(POINTER_STORES):
            self.stores.add(address)
        self.flag.execute(text)
        if text == "reti" and self.handlers:
            self.handlers.pop()
        elif text == "sleep":
            self.asleep_at, self.next = address + 1, row.cycle + 1


@dataclass(frozen=True)
class Classes:
    """The classes of the arrivals of a span, in their order; why each arrival is one, where the rows do not tell more;
    and the addresses of stores through pointers with I clear, behind which I counts as set."""

    classes: list[ArrivalClass]
    doubt: str | None = None
    stores: frozenset[int] = frozenset()


def classes(
    rows: Sequence[Row],
    start: Start,
    first: int,
    last: int,
    end: int,
    doubt: str | None = None,
    written: Mapping[int, str] | None = None,
) -> Classes:
    """The classes of the arrivals from `first` to `last`; `end` is the cycle behind the rows. An arrival in the cycle
    of a point is noticed at the next one, as the processor comes first in each cycle. A `doubt` of what the rows tell
    makes each arrival a class. `written` has the instructions that write what handlers and main share."""
    found: list[Point] = []
    watch = Watch(start, written)
    try:
        found = [] if doubt else list(watch.points(rows, end))
    except Contradiction as fault:
        row = fault.row
        doubt = (
            f"node {row.node} enters {vector_name(int(row.rest[:4], 16))} in cycle {row.cycle:,}, where its flag I is "
            "clear by all that the rows tell: SREG, or a copy of it, is written in a way that they do not show"
        )
    if doubt:
        found = list(all_points(rows, start, end))
    result, begun = [], first
    for point in found:
        until = min(point.cycle, last + 1)
        if until > begun:
            result.append(ArrivalClass(range(begun, until), point))
            begun = until
    if begun <= last:
        result.append(ArrivalClass(range(begun, last + 1)))
    return Classes(result, doubt, frozenset(watch.stores) if not doubt else frozenset())


def all_points(rows: Sequence[Row], start: Start, end: int) -> Iterator[Point]:
    """Each cycle: whatever the flag is, no point is missed."""
    cycle = start.cycle
    address = start.asleep_at or 0
    for row in rows:
        address = int(row.rest[5:9] if row.kind == "enter" else row.rest[:4], 16)
        yield from (Point(c, Place(address)) for c in range(cycle + 1, row.cycle + 1))
        cycle = row.cycle
    yield from (Point(c, Place(address)) for c in range(cycle + 1, end))
