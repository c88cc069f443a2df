"""What failed, grouped by what the arrival interrupted: neighbours that fail, and visits of one place, are one
finding."""
from collections import Counter
from collections.abc import Mapping, Sequence
from dataclasses import dataclass

from avrora_tools.programs import Program, vector_name
from avrora_tools.sweeping.arrivals import FLAG, RECEIVER, Context, Place
from avrora_tools.sweeping.plans import Cell

NEVER = -1  # of what has not been written
OF_PROCESSOR = (FLAG, RECEIVER)


@dataclass(frozen=True)
class Spot:
    """A place in the source: the function and line, or the address where they are not known; the handlers it is in."""

    function: str
    line: str | None
    handlers: tuple[int, ...]
    asleep: bool

    def __str__(self) -> str:
        where = f"`{self.function}`" + (f" ({self.line})" if self.line else "")
        if self.handlers:
            where += f" in {' in '.join(f'`{vector_name(vector)}`' for vector in reversed(self.handlers))}"
        return f"asleep in {where}" if self.asleep else where


@dataclass
class Finding:
    """Cells that fail in one way, as far as can be told from where they are, and from what they meet there."""

    failing: list[Cell]
    spots: set[Spot | None]
    arrivals: int = 0  # of all cells that were run at these spots
    failing_arrivals: int = 0
    label: Context = ()  # what tells them from their failing neighbours, which meet something else

    def first(self) -> Cell:
        return self.failing[0]

    def ends(self) -> tuple[int | None, int | None]:
        """Of the first stretch: the instruction behind which the first arrival is noticed, and the one before which the
        last is."""
        first = last = self.failing[0]
        for cell in self.failing[1:]:
            if cell.before != last.before or cell.arrivals.moves[0] != last.arrivals.moves[-1] + 1:
                break
            last = cell
        point, place = first.arrivals.point, last.place()
        return point.behind if point else None, place.address if place else None


class Spots:
    """Names the places of one node."""

    def __init__(self, program: Program | None) -> None:
        self.program = program
        self.known: dict[Place, Spot] = {}

    def of(self, cell: Cell) -> Spot | None:
        place = cell.place()
        if place is None:
            return None
        if place not in self.known:
            self.known[place] = self.spot(place)
        return self.known[place]

    def spot(self, place: Place) -> Spot:
        # The address to return to from a sleep is behind it.
        address = place.address - place.asleep
        function = self.program.function_at(address) if self.program else None
        line = self.program.line_at(address) if self.program else None
        return Spot(function.name if function else f"{place.address:04X}", line, place.handlers, place.asleep)


def findings(
    cells: Sequence[Cell], failures: Mapping[Cell, str], spots: Spots, handed_over: Mapping[int, str] | None = None
) -> list[Finding]:
    """The findings of the cells that were run, in the order of their first moves. `cells` stand in the order of moves.
    `handed_over` has the instructions that use what handlers write and main uses, each with that thing."""
    found = [piece for stretch in stretches(cells, failures) for piece in pieces(stretch, spots, handed_over or {})]
    merged = merge(found)
    whose: dict[Spot | None, list[Finding]] = {}
    for finding in merged:
        for spot in finding.spots:
            whose.setdefault(spot, []).append(finding)
    owners = {cell: finding for finding in merged for cell in finding.failing}
    for cell in cells:
        count = len(cell.arrivals.moves)
        if cell in failures:
            owners[cell].failing_arrivals += count
            owners[cell].arrivals += count
        else:
            for finding in whose.get(spots.of(cell), []):
                finding.arrivals += count
    return merged


def stretches(cells: Sequence[Cell], failures: Mapping[Cell, str]) -> list[list[Cell]]:
    """The failing cells, neighbours together."""
    found: list[list[Cell]] = []
    is_open = False
    for cell in cells:
        if cell not in failures:
            is_open = False
        elif is_open and found[-1][-1].before == cell.before:
            found[-1].append(cell)
        else:
            found.append([cell])
            is_open = True
    return found


def pieces(stretch: Sequence[Cell], spots: Spots, handed_over: Mapping[int, str]) -> list[Finding]:
    """A stretch, cut where what an arrival meets becomes another: the receiver is enabled, interrupts go on or off, or
    something shared has another last writer. A stretch from one use of a thing to another of the same is one race,
    whatever main writes between them."""
    contexts = [dict(cell.arrivals.point.context if cell.arrivals.point else ()) for cell in stretch]
    things = {handed_over.get(address) for address in Finding(list(stretch), set()).ends() if address is not None}
    is_one_race = len(things) == 1 and None not in things
    names = sorted({name for context in contexts for name in context if name in OF_PROCESSOR or not is_one_race})
    changing = [name for name in names if len({context.get(name) for context in contexts}) > 1]
    found: list[Finding] = []
    for cell, context in zip(stretch, contexts):
        label = tuple((name, context.get(name, NEVER)) for name in changing)
        if not found or found[-1].label != label:
            found.append(Finding([], set(), label=label))
        found[-1].failing.append(cell)
        found[-1].spots.add(spots.of(cell))
    return found


def merge(pieces_: Sequence[Finding]) -> list[Finding]:
    """Pieces that have a spot in common are one finding, unless they are told from each other where they touch."""
    merged: list[Finding] = []
    for piece in pieces_:
        kin = [finding for finding in merged if finding.label == piece.label and finding.spots & piece.spots]
        for finding in kin:
            merged.remove(finding)
        cells = [cell for finding in kin for cell in finding.failing] + piece.failing
        merged.append(Finding(cells, piece.spots.union(*(finding.spots for finding in kin)), label=piece.label))
    return sorted(merged, key=lambda finding: finding.first().move())


def spans(cells: Sequence[Cell]) -> list[tuple[int, int]]:
    """The first and the last value of each stretch of the last event's values."""
    found: list[tuple[int, int]] = []
    for cell in cells:
        first, last = cell.arrivals.moves[0], cell.arrivals.moves[-1]
        if found and found[-1][1] + 1 == first:
            found[-1] = (found[-1][0], last)
        else:
            found.append((first, last))
    return found


def counted(texts: Sequence[str]) -> list[tuple[str, int]]:
    return Counter(texts).most_common()


def lines_of(spots: set[Spot | None]) -> list[str]:
    """The spots of a finding in words, lines of one function taken together."""
    lines: dict[tuple[str, tuple[int, ...], bool], list[str]] = {}
    for spot in sorted(
        (spot for spot in spots if spot), key=lambda it: (it.function, it.handlers, it.asleep, line_key(it.line))
    ):
        lines.setdefault((spot.function, spot.handlers, spot.asleep), []).append(spot.line or "")
    texts = [str(Spot(key[0], joined(group), key[1], key[2])) for key, group in lines.items()]
    return texts + ["nothing that a trace shows"] * (None in spots)


def line_key(line: str | None) -> tuple[str, int]:
    file, _, number = (line or "").rpartition(":")
    return file, int(number) if number.isdigit() else 0


def joined(lines: Sequence[str]) -> str | None:
    """Lines of source as FILE:LINE,LINE-LINE."""
    by_file: dict[str, list[int]] = {}
    for line in lines:
        file, number = line_key(line)
        if file:
            by_file.setdefault(file, []).append(number)
    return ", ".join(f"{file}:{ranges(numbers)}" for file, numbers in by_file.items()) or None


def ranges(numbers: Sequence[int]) -> str:
    found: list[list[int]] = []
    for number in sorted(set(numbers)):
        if found and found[-1][1] + 1 == number:
            found[-1][1] = number
        else:
            found.append([number, number])
    return ",".join(str(first) if first == last else f"{first}-{last}" for first, last in found)
