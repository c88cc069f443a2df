"""In which order the classes of a sweep are run."""
from collections import defaultdict
from collections.abc import Iterator, Mapping, Sequence
from dataclasses import dataclass, field

from avrora_tools.scenarios import MAX_WINDOW
from avrora_tools.sweeping.arrivals import ArrivalClass, Place
from avrora_tools.sweeping.events import Move
from avrora_tools.sweeping.simulation import Window

VISITS = 3  # of a place that is run first, by a first look


@dataclass(frozen=True)
class Cell:
    """A class of the last event's values, with the values of the events before it."""

    before: Move
    arrivals: ArrivalClass

    def move(self) -> Move:
        """The move that is run for the class."""
        return (*self.before, self.arrivals.moves[0])

    def place(self) -> Place | None:
        return self.arrivals.point.place if self.arrivals.point else None


def in_rounds(cells: Sequence[Cell], between: Mapping[int, str], per_place: int | None = None) -> list[Cell]:
    """All cells, in rounds of one of each place; in each round those go first in which a handler comes between two uses
    of what it shares with main. Of one place those are taken that lie far apart: the first, the last, the middle, and
    so on."""
    places: dict[Place | None, list[Cell]] = defaultdict(list)
    for cell in cells:
        places[cell.place()].append(cell)
    keyed: list[tuple[int, bool, int, Cell]] = []
    for place, group in places.items():
        is_urgent = place is not None and place.address in between and not place.asleep
        for round_, index in enumerate(spread(len(group))):
            if per_place is None or round_ < per_place:
                keyed.append((round_, not is_urgent, len(keyed), group[index]))
    return [cell for *_, cell in sorted(keyed, key=lambda it: it[:3])]


def spread(count: int) -> list[int]:
    """The numbers below `count`: the first and the last, and then each time the middle of what is left between."""
    return sorted(range(count), key=lambda i: (1, -(i & -i), i) if 0 < i < count - 1 else (0, 0, i))


@dataclass
class FirstLook:
    """Runs each --grid-th class, and the first visits of places between two uses of what is shared; then it halves
    between two neighbours, as long as the order of uses differs between them. It finds what changes that order and is
    seen from the points that it starts with, and no more: where the order goes there and back between two of them it
    sees nothing."""

    cells: Sequence[Cell]  # those of one value of the events before
    between: Mapping[int, str]
    grid: int
    until: int
    orders: dict[tuple[int, Window], int] = field(default_factory=dict)  # of a cell in a window: which order it has

    def rounds(self) -> Iterator[list[tuple[int, Window]]]:
        """The jobs of each round: the place of a cell, and the window in which its order is to be told to `orders`
        before the next round is asked for."""
        visits: dict[Place, int] = defaultdict(int)
        urgent = []
        for i, cell in enumerate(self.cells):
            place = cell.place()
            if place is not None and place.address in self.between and not place.asleep:
                visits[place] += 1
                if visits[place] <= VISITS:
                    urgent.append(i)
        last = len(self.cells) - 1
        known = sorted({*urgent, *range(0, last + 1, self.grid), last})
        gaps = [(low, high, self.window(low)) for low, high in zip(known, known[1:])]
        jobs = [(i, self.window(i)) for i in urgent] + [(i, window) for *ends, window in gaps for i in ends]
        if not gaps:
            jobs = [(i, self.window(i)) for i in known]
        while jobs := [job for job in dict.fromkeys(jobs) if job not in self.orders]:
            yield jobs
            gaps = [
                (low, high, window)
                for low, high, window in gaps
                if high - low > 1 and self.orders[low, window] != self.orders[high, window]
            ]
            middles = [((low + high) // 2, window) for low, high, window in gaps]
            gaps = [
                half
                for (low, high, window), (middle, _) in zip(gaps, middles)
                for half in ((low, middle, window), (middle, high, window))
            ]
            jobs = middles

    def window(self, i: int) -> Window:
        """The window in which a cell's order is compared with those of its neighbours."""
        half = MAX_WINDOW // 2
        begin = self.cells[i].arrivals.moves[0] // half * half
        return min(begin, self.until), min(begin + MAX_WINDOW, self.until)
