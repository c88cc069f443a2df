"""What is seen at places of a run, bytes that change and instructions that begin, as `avrora watch` tells it: asked for
in pieces, some ahead of who looks at them, and kept for who looks again."""
import array
import bisect
import collections
import concurrent.futures
import re
import threading
from collections.abc import Callable, Iterable, Iterator
from typing import NamedTuple

from avrora_tools.errors import CannotWork
from avrora_tools.observing.places import MOST_PLACES, Change, Kind, Place
from avrora_tools.states import EPOCH

# What is kept is of spans of so many cycles; a search begins with one of them, since the next breakpoint is mostly
# near.
SPAN = EPOCH // 16

# What is kept at most: lists of a place and a span, and all that stands in them, eight bytes each.
KEPT_LISTS, KEPT_SIGHTINGS = 400_000, 8_000_000

# How often one looks whether the user waits no longer, in seconds.
PATIENCE = 0.05

NOTHING = array.array("Q")

SEEN = re.compile(rb"(\d+) (\d+) (?:byte ([0-9A-F]{4}) ([0-9A-F]{2})|at ([0-9A-F]{4}))\n")

# What `avrora watch` writes from a cycle on and before another about places.
Watch = Callable[[int, int, list[Place]], bytes]


class Piece(NamedTuple):
    """A part of a run that is looked at as a whole: within one epoch, from a cycle on and before another."""

    first: int
    end: int

    @property
    def spans(self) -> range:
        return range(self.first // SPAN, -(-self.end // SPAN))


class Interrupted(Exception):
    """The user waits no longer."""


class Sightings:
    """What is seen in a run from a cycle on and before another."""

    def __init__(self, first: int, limit: int, watch: Watch, pool: concurrent.futures.Executor, ahead: int) -> None:
        """`ahead`: so many pieces are asked for at once."""
        self.first, self.limit, self.watch, self.pool, self.ahead = first, limit, watch, pool, ahead
        self.kept: collections.OrderedDict[tuple[int, Place], array.array[int]] = collections.OrderedDict()
        self.count = 0  # of all that is kept
        self.lock = threading.Lock()
        self.under_way: dict[tuple[Piece, tuple[Place, ...]], concurrent.futures.Future[None]] = {}

    # ---- pieces

    def pieces_on(self, cycle: int, end: int, whole: bool = False) -> Iterator[Piece]:
        """From a cycle on: a span, the rest of its epoch, then epochs; or only epochs."""
        end = min(end, self.limit)
        if not whole and cycle < end:
            near = min((cycle // SPAN + 1) * SPAN, end)
            yield Piece(cycle, near)
            cycle = near
        while cycle < end:
            behind = min((cycle // EPOCH + 1) * EPOCH, end)
            yield Piece(cycle, behind)
            cycle = behind

    def pieces_back(self, cycle: int, lowest: int, whole: bool = False) -> Iterator[Piece]:
        """The same back from before a cycle."""
        lowest, cycle = max(lowest, self.first), min(cycle, self.limit)
        if not whole and cycle > lowest:
            near = max((cycle - 1) // SPAN * SPAN, lowest)
            yield Piece(near, cycle)
            cycle = near
        while cycle > lowest:
            before = max((cycle - 1) // EPOCH * EPOCH, lowest)
            yield Piece(before, cycle)
            cycle = before

    # ---- searches

    def searched(
        self, pieces: Iterable[Piece], places: Iterable[Place], stops_waiting: Callable[[], bool] | None = None
    ) -> Iterator[tuple[Piece, list[Change]]]:
        """Piece by piece what is seen at places, in order of cycle, node and place; the next pieces are asked for
        meanwhile. Raises Interrupted where one `stops_waiting`."""
        wanted = tuple(sorted(set(places)))
        left = iter(pieces)
        waiting: collections.deque[tuple[Piece, concurrent.futures.Future[None] | None]] = collections.deque()
        ahead = 1  # the first is mostly enough
        while True:
            while len(waiting) < ahead and (piece := next(left, None)) is not None:
                waiting.append((piece, self.asked(piece, wanted)))
            if not waiting:
                return
            piece, made = waiting.popleft()
            self.await_it(made, stops_waiting)
            yield piece, self.told(piece, wanted)
            ahead = self.ahead

    def await_it(
        self, made: concurrent.futures.Future[None] | None, stops_waiting: Callable[[], bool] | None
    ) -> None:
        while made is not None:
            if stops_waiting and stops_waiting():
                raise Interrupted
            try:
                return made.result(PATIENCE)
            except TimeoutError:
                if made.done():  # then it is what the call raised
                    raise
        if stops_waiting and stops_waiting():
            raise Interrupted

    def asked(self, piece: Piece, places: tuple[Place, ...]) -> concurrent.futures.Future[None] | None:
        """A call under way about those places of which something in the piece is not known; None where all is."""
        with self.lock:
            missing = tuple(one for one in places if any((span, one) not in self.kept for span in piece.spans))
            if not missing:
                return None
            whole = Piece(
                max(piece.first // SPAN * SPAN, self.first), min(-(-piece.end // SPAN) * SPAN, self.limit)
            )
            key = (whole, missing)
            if key not in self.under_way:
                self.under_way[key] = self.pool.submit(self.make, key)
            return self.under_way[key]

    def make(self, key: tuple[Piece, tuple[Place, ...]]) -> None:
        piece, places = key
        try:
            found: dict[tuple[int, Place], array.array[int]] = {}
            for begin in range(0, len(places), MOST_PLACES):
                text = self.watch(piece.first, piece.end, list(places[begin : begin + MOST_PLACES]))
                gather(changes_of(text), found)
            with self.lock:
                for span in piece.spans:
                    for place in places:
                        self.keep((span, place), found.get((span, place), NOTHING))
        finally:
            with self.lock:
                self.under_way.pop(key, None)

    def keep(self, key: tuple[int, Place], seen: "array.array[int]") -> None:
        self.count += len(seen) - len(self.kept.pop(key, NOTHING))
        self.kept[key] = seen
        while len(self.kept) > KEPT_LISTS or self.count > KEPT_SIGHTINGS and len(self.kept) > 1:
            self.count -= len(self.kept.popitem(last=False)[1])

    def told(self, piece: Piece, places: tuple[Place, ...]) -> list[Change]:
        """What is known of a piece that was asked for."""
        found: list[Change] = []
        for span in piece.spans:
            for place in places:
                seen = self.kept.get((span, place))
                if seen is None:  # forgotten since, where it is more than there is room for
                    self.make((Piece(max(span * SPAN, self.first), min((span + 1) * SPAN, self.limit)), (place,)))
                    seen = self.kept[span, place]
                begin, end = bisect.bisect_left(seen, piece.first << 8), bisect.bisect_left(seen, piece.end << 8)
                is_byte = place.kind is Kind.BYTE
                found += [Change(one >> 8, place, one & 0xFF if is_byte else None) for one in seen[begin:end]]
        found.sort(key=lambda change: (change.cycle, change.place))
        return found


def changes_of(text: bytes) -> Iterator[Change]:
    """What `avrora watch` wrote. Raises CannotWork where it wrote something else."""
    places: dict[tuple[bytes, ...], Place] = {}
    end = 0
    for match in SEEN.finditer(text):
        if match.start() != end:
            break
        end = match.end()
        cycle, node, data, byte, word = match.groups(b"")
        if (place := places.get((node, data, word))) is None:
            kind, address = (Kind.AT, word) if word else (Kind.BYTE, data)
            place = places[node, data, word] = Place(int(node), kind, int(address, 16))
        yield Change(int(cycle), place, int(byte, 16) if byte else None)
    if end != len(text):
        raise CannotWork(f"what the simulator wrote is not a change: {text[end : end + 60]!r}")


def gather(changes: Iterable[Change], found: "dict[tuple[int, Place], array.array[int]]") -> None:
    """Takes them up by span and place: the cycles, each with the byte in its lowest eight bits."""
    for cycle, place, byte in changes:
        key = (cycle // SPAN, place)
        if key not in found:
            found[key] = array.array("Q")
        found[key].append(cycle << 8 | (byte or 0))
