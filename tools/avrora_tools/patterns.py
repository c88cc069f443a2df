"""Patterns of rows, as cases of `expect` have them: a row with `*`, ranges, tolerances and sets as parts. A pattern is
a set of rows: what it says is judged by which rows are in it, and not by how it is spelled.

One that no row of a trace can match is refused when it is read.
"""
import re
from collections.abc import Sequence
from typing import NamedTuple

from avrora_tools.cli import MAX_NODES
from avrora_tools.events import KINDS, TRACED, End, Event
from avrora_tools.fields import ANY, EVERY, SHAPES, Field, Span, Taken, cover, members, span_of
from avrora_tools.scenarios import MAX_CYCLES


MOST_KNOWN = 50_000  # events whose match is kept
LAST_CYCLE = max(MAX_CYCLES.values())
LIMITS = Span(1, LAST_CYCLE)  # the cycles in which traces end


class Extent(NamedTuple):
    """Where a trace can have rows: its nodes, the cycle of its end rows, and the cycles in which instructions and
    entries are traced, None where they are in none."""

    nodes: int
    limit: int
    window: Span | None

    def of(self, kind: str) -> Span | None:
        """The cycles in which it can have rows of a kind."""
        if kind == End.kind:
            return Span(self.limit, self.limit)
        if kind in TRACED:
            return self.window
        return Span(0, self.limit - 1) if self.limit else None

    def allows(self, kind: str, span: Span, within: Span) -> bool:
        """Whether it can have a row of a kind in a cycle that is in both spans."""
        room, both = self.of(kind), span.both(within)
        return room is not None and both is not None and room.both(both) is not None

    def why_not(self, kind: str) -> str:
        """Why rows of a kind do not stand in some cycles."""
        if kind not in TRACED:
            return f"the trace ends in cycle {self.limit}"
        if self.window is None:
            return f"the trace has no window, and {kind} rows stand only in a window"
        return f"{kind} rows stand in the window alone, which the trace has in cycles {self.window}"


class Refused(ValueError):
    """Why no row of a shape matches a pattern, and at which of its parts behind the kind."""

    def __init__(self, why: str, place: int) -> None:
        super().__init__(why)
        self.place = place


class Shape(NamedTuple):
    """What a pattern takes of the rows of one shape: its number in SHAPES, and what it takes of each part."""

    number: int
    parts: list[Taken]


def taken_of(field: Field, words: list[str]) -> Taken:
    """What some words take of a part, of which the part can be one at least."""
    found: list[Taken] = []
    refusal = ValueError("a set of nothing")
    for word in words:
        try:
            found.append(field.taken(word))
        except ValueError as fault:
            refusal = fault
    if not found:
        raise refusal
    return found[0] if len(found) == 1 else field.union(found)


def parts_of(shape: list[Field], words: list[str], is_open: bool) -> list[Taken]:
    """What the words of a pattern take of the parts of a shape. Raises Refused where no row matches them."""
    found: list[Taken] = []
    for place, (field, word) in enumerate(zip(shape, words)):
        try:
            found.append(taken_of(field, members(word) or [word]))
        except ValueError as fault:
            raise Refused(str(fault), place) from None
    if len(words) > len(shape) or len(words) < len(shape) and not is_open:
        parts = f"{len(shape)} part{'s' * (len(shape) != 1)} stand{'s' * (len(shape) == 1)} behind the kind"
        raise Refused(f"{parts}, and not {len(words)}; a last * stands for any number of them", len(words))
    return found + [field.taken(ANY) for field in shape[len(words) :]]


class Place(NamedTuple):
    """Where a row stands: its cycle, its node, and its rank among the rows of a node's cycle. Places rise in a
    trace."""

    cycle: int
    node: int
    rank: int


class Pattern:
    """A pattern of rows."""

    def __init__(self, text: str) -> None:
        """Raises ValueError where no row of any trace matches it."""
        self.text = text
        words = text.split()
        self.is_open = words[-1:] == [ANY]
        if self.is_open:
            words = words[:-1]
        elif len(words) < 3:
            raise ValueError(
                f"`{text}` is not a row: a cycle, a node and a kind, or * instead of each; a last * is any rest"
            )
        cycle, node, kind, *rest = (words + [ANY] * 3)[:3] + words[3:]
        self.is_relative = cycle[0] == "+"
        self.cycles = self.read_cycles(cycle)
        self.nodes = self.read_nodes(node)
        # The nodes that it names one by one.
        self.named = self.nodes if re.fullmatch(r"[0-9]+|\{.*\}", node) else frozenset[int]()
        self.shapes = self.read_shapes(kind, rest)
        self.kinds = frozenset(self.shapes)
        self.named_kinds = self.kinds if kind != ANY else frozenset[str]()
        self.rest = [kind, *rest]
        self.known: dict[Event, bool] = {}

    def read_cycles(self, word: str) -> list[Span]:
        """The cycles that may be; of a relative one how many later than that of the row before."""
        if word == ANY:
            return [Span(0, None)]
        word = word[1:] if self.is_relative else word
        if not word:
            raise ValueError("a + stands before a number of cycles, such as +5 or +0..9")
        spans = [span_of(one) for one in members(word) or [word]]
        if any(span.first > LAST_CYCLE for span in spans):
            raise ValueError(f"{word}: no row has a cycle above {LAST_CYCLE:,}")
        return spans

    @staticmethod
    def read_nodes(word: str) -> frozenset[int]:
        everything = frozenset(range(MAX_NODES))
        if word == ANY:
            return everything
        spans = [span_of(one) for one in members(word) or [word]]
        if any(span.first >= MAX_NODES for span in spans):
            raise ValueError(f"{word}: nodes are 0 to {MAX_NODES - 1}")
        return frozenset(node for node in everything if any(span.has(node) for span in spans))

    def read_shapes(self, word: str, rest: list[str]) -> dict[str, list[Shape]]:
        """By kind what the parts behind it may be. Each word of a set must be one that some row has."""
        for place, part in enumerate(rest):
            for one in members(part) or []:
                self.shapes_of(word, [*rest[:place], one, *rest[place + 1 :]])
        return self.shapes_of(word, rest)

    def shapes_of(self, word: str, rest: list[str]) -> dict[str, list[Shape]]:
        kinds = list(KINDS) if word == ANY else list(dict.fromkeys(members(word) or [word]))
        found: dict[str, list[Shape]] = {}
        refusals: list[tuple[int, str]] = []
        for kind in kinds:
            if kind not in KINDS:
                raise ValueError(f"no row has the kind {kind}")
            for number, shape in enumerate(SHAPES[kind]):
                try:
                    parts = parts_of(shape, rest, self.is_open)
                    found.setdefault(kind, []).append(Shape(number, parts))
                except Refused as fault:
                    refusals.append((fault.place, f"{kind}: {fault}"))
            if kind not in found and word != ANY:
                break
        if not found or word != ANY and len(found) < len(kinds):
            # What went furthest tells most.
            raise ValueError(f"no row matches `{self.text}`: {max(refusals, key=lambda one: one[0])[1]}")
        return found

    def matches(self, cycle: int, node: int, event: Event, base: int) -> bool:
        """Whether a row matches; `base` is the cycle of the row that was found before."""
        said = self.known.get(event)
        if said is None:
            if len(self.known) > MOST_KNOWN:
                self.known.clear()
            said = self.known[event] = self.says(event)
        if not said or node not in self.nodes:
            return False
        since = cycle - base if self.is_relative else cycle
        return any(span.has(since) for span in self.cycles)

    def says(self, event: Event) -> bool:
        words = event.text.split()[1:]
        return any(
            len(shape.parts) == len(words) and all(part.has(word) for part, word in zip(shape.parts, words))
            for shape in self.shapes.get(event.kind, ())
        )

    def is_kin(self, node: int, event: Event) -> bool:
        """Whether a row has the node and the kind of this one, as far as the pattern names them."""
        return node in self.nodes and event.kind in self.kinds

    def covers(self, other: "Pattern") -> bool:
        """Whether each row that the other one matches is matched by this one, both with one row found before them."""
        if not self.nodes >= other.nodes or not self.covers_events(other):
            return False
        if self.is_relative == other.is_relative:
            return cover(self.cycles, other.cycles)
        return cover(self.cycles, [EVERY])

    def covers_events(self, other: "Pattern") -> bool:
        """Whether what rows of the other one say is what rows of this one may say."""
        return all(
            any(
                mine.number == shape.number
                and all(
                    field.covers(part, whole_part)
                    for field, part, whole_part in zip(SHAPES[kind][shape.number], mine.parts, shape.parts)
                )
                for mine in self.shapes.get(kind, ())
            )
            for kind, shapes in other.shapes.items()
            for shape in shapes
        )

    def certain_nodes(self) -> frozenset[int]:
        """The nodes whose end rows are matched by it in each trace, whatever they say."""
        is_certain = self.covers_events(ANY_END) and cover(self.cycles, [EVERY if self.is_relative else LIMITS])
        return self.nodes if is_certain else frozenset()

    def spans(self, base: int) -> list[Span]:
        """The cycles that may be, where a row of the cycle `base` was found before."""
        return [span.later(base) for span in self.cycles] if self.is_relative else self.cycles

    def has_room(
        self, extent: "Extent", after: Place | None, before: Place | None, base: int, kinds: Sequence[str]
    ) -> bool:
        """Whether a row of these kinds that it matches may stand behind a place and before another; None where these
        are the ends of the trace."""
        low, high = after or Place(0, -1, 0), before or Place(extent.limit, MAX_NODES, 0)
        nodes = [node for node in self.nodes if node < extent.nodes]
        for kind in self.kinds.intersection(kinds):
            room, rank = extent.of(kind), KINDS[kind].rank
            for span in self.spans(base):
                both = span.both(Span(low.cycle, high.cycle))
                both = both.both(room) if both and room else None
                if both is None or both.last is None:
                    continue
                if max(both.first, low.cycle + 1) <= min(both.last, high.cycle - 1):
                    return True
                places = [Place(cycle, node, rank) for cycle in {both.first, both.last} for node in nodes]
                if any(low < place < high for place in places):
                    return True
        return False

    def why_not(self, extent: Extent, within: Span = EVERY, base: int | None = None) -> str:
        """Why no row of a trace in the cycles `within` matches, or none of a node, a kind or a span of cycles that the
        pattern names; "" where they may. Relative cycles are counted from the cycle `base`, or are any where it is
        None."""
        strange = sorted(node for node in self.named if node >= extent.nodes)
        if strange or min(self.nodes) >= extent.nodes:
            node = strange[0] if strange else min(self.nodes)
            return f"the trace has no node {node}, but nodes 0 to {extent.nodes - 1}"
        spans = self.cycles
        if self.is_relative:
            spans = [EVERY] if base is None else self.spans(base)
        for span in spans:
            if not span.both(within):
                return f"cycles {span} are not within {within}"
        behind = "" if within == EVERY else f", and not within {within}"
        for kind in sorted(self.named_kinds):
            if not any(extent.allows(kind, span, within) for span in spans):
                return extent.why_not(kind) + behind
        for span in spans:
            if not any(extent.allows(kind, span, within) for kind in self.kinds):
                return extent.why_not(min(self.kinds, key=lambda kind: (kind in TRACED, kind))) + behind
        return ""


ANY_END, ANY_ROW = Pattern("* * end *"), Pattern("*")
