"""What a sweep moves, and the scenario of each move.

A move gives each event of the sweep a value: the cycle in which a byte arrives, or a link's latency.
"""
import re
from collections.abc import Callable, Mapping, Sequence
from dataclasses import dataclass, field
from typing import Any

from avrora_tools.errors import BadInput, BadWords
from avrora_tools.states import EPOCH

DEFAULT_LATENCY = 3_072
DEFAULT_EVERY = 7_680  # cycles from one byte of an input to the next
EVERY = range(1, 65_536)
LATENCY = range(1, 65_536)
LAST_CYCLE = 2**40

Document = Mapping[str, Any]  # of a scenario, as TOML has it
Move = tuple[int, ...]  # the values of the events, in their order


@dataclass(frozen=True)
class Span:
    """The values that an event takes."""

    first: int
    last: int
    step: int = 1

    def values(self) -> range:
        return range(self.first, self.last + 1, self.step)


@dataclass(frozen=True)
class InputByte:
    """A byte of a node's input. The bytes behind it move with it, unless it moves alone."""

    node: int
    index: int
    is_alone: bool = False

    def __str__(self) -> str:
        return f"byte {self.index} of node {self.node}'s input"


@dataclass(frozen=True)
class LinkLatency:
    """The latency of a link."""

    sender: int
    hearer: int

    def __str__(self) -> str:
        return f"the latency from node {self.sender} to node {self.hearer}"


Event = InputByte | LinkLatency


@dataclass(frozen=True)
class Moved:
    """An event and where it goes."""

    event: Event
    span: Span


@dataclass(frozen=True)
class Script:
    """The input of the byte's node, and the part of it that is still to come where runs begin."""

    node: int
    at: int
    every: int
    bytes_: bytes
    index: int  # of the byte that moves
    is_alone: bool = False  # the bytes behind it stay where they are

    def nominal(self, index: int) -> int:
        """When a byte arrives that does not move."""
        return self.at + index * self.every

    def before(self, cycle: int) -> int:
        """How many bytes come before a cycle, in the run in which the byte never comes."""
        return sum(self.nominal(i) < cycle for i in range(self.index))

    def arrivals(self, value: int | None) -> dict[int, int]:
        """The byte that arrives in each cycle, in the run in which this one does at `value`, or never."""
        count = len(self.bytes_)
        cycles = {i: self.nominal(i) for i in range(count) if i < self.index or self.is_alone and i > self.index}
        if value is not None:
            moving = range(self.index, self.index + 1 if self.is_alone else count)
            cycles |= {i: value + (i - self.index) * self.every for i in moving}
        return {cycle: self.bytes_[i] for i, cycle in sorted(cycles.items())}

    def line(self, begins: int, value: int | None) -> str:
        """What the simulator's `sweep` reads of that run, from a state of the cycle `begins` on."""
        coming = [(cycle, byte) for cycle, byte in sorted(self.arrivals(value).items()) if cycle >= begins]
        return " ".join([str(self.node), *stretches(coming or [(LAST_CYCLE, 0)])]) + "\n"

    def table(self, first: int, value: int | None) -> dict[str, Any]:
        """The input from byte `first` on, with the byte at `value`, or never. Raises BadInput where no input says
        that."""
        here = {"node": self.node, "every": self.every, "at": self.nominal(first)}
        if value is not None and self.is_alone and self.index < len(self.bytes_) - 1:
            raise BadInput(f"no input says that byte {self.index} of node {self.node} moves alone")
        if value is None:
            return here | {"hex": self.bytes_[first : self.index].hex()}
        if value == self.nominal(self.index):
            return here | {"hex": self.bytes_[first:].hex()}
        if first == self.index:
            return here | {"at": value, "hex": self.bytes_[first:].hex()}
        apart = value - self.nominal(first)
        if first == self.index - 1 and self.index == len(self.bytes_) - 1 and apart in EVERY:
            return here | {"every": apart, "hex": self.bytes_[first:].hex()}
        raise BadInput(
            f"byte {self.index} of node {self.node}'s input cannot come in cycle {value:,}: {self.hindrance(value)}"
        )

    def hindrance(self, value: int) -> str:
        """Why no input has the byte at `value` behind those that stay, and those behind it as far behind it as they
        are."""
        before, at = self.index - 1, self.nominal(self.index - 1)
        apart = value - at
        if apart < 1:
            return f"byte {before} stays in cycle {at:,}, and it does not pass that"
        way_out = (
            f"Move it alone (--alone, from cycle {EPOCH:,} on), or the first byte, or let the bytes before come in "
            "an epoch of "
            f"{EPOCH:,} cycles before the span's"
        )
        if apart not in EVERY:
            most = f"an input has at most {EVERY.stop - 1:,} cycles between two bytes"
            return f"byte {before} stays in cycle {at:,}, and {most}. {way_out}"
        one = "an input has one distance between all its bytes"
        if self.index < len(self.bytes_) - 1:
            behind = f"byte {self.index + 1} moves with it, {self.every:,} behind"
            return f"{behind}, and byte {before} stays, {apart:,} before: {one}. {way_out}"
        farther = f"byte {before - 1}, {self.every:,} before that"
        return f"byte {before} stays, {apart:,} before, and {farther}: {one}. {way_out}"


def stretches(coming: Sequence[tuple[int, int]]) -> list[str]:
    """Bytes in rising order of their cycles, as stretches of equal distances: the words of `sweep` for each."""
    found: list[str] = []
    place = 0
    while place < len(coming):
        at, end = coming[place][0], place + 1
        every = coming[end][0] - at if end < len(coming) else 1
        while every in EVERY and end < len(coming) and coming[end][0] == at + (end - place) * every:
            end += 1
        found.append(f"{at} {every if every in EVERY else 1} {bytes(byte for _, byte in coming[place:end]).hex()}")
        place = end
    return found


@dataclass(frozen=True)
class MovedScenario:
    """A scenario whose events move. Runs begin at `begins`, a multiple of an epoch; nothing that moves comes before."""

    document: Document
    moved: Sequence[Moved]
    until: int
    begins: int = 0
    scripts: Mapping[int, Script] = field(default_factory=dict)  # by the event's place

    def scenario(
        self, move: Sequence[int | None], window: tuple[int, int] = (0, 0), until: int | None = None
    ) -> Document:
        """The scenario of a move, for a run that begins at `begins`. A byte whose value is None never comes."""
        return self.changed(move, window, until or self.until, self.begins)

    def line(self, value: int | None) -> str:
        """What the simulator's `sweep` reads of the run in which the last event, a byte, is at `value`, or never."""
        return self.scripts[len(self.moved) - 1].line(self.begins, value)

    def whole_scenario(self, move: Move, window: tuple[int, int]) -> Document | None:
        """The scenario of a move for a run from reset, or None where no scenario says that."""
        try:
            return self.changed(move, window, self.until, 0)
        except BadInput:
            return None

    def before(self) -> Document:
        """The scenario without what moves, for a run up to `begins`."""
        inputs = [dict(table) for table in self.document.get("input", [])]
        for script in self.scripts.values():
            for table in inputs:
                if table["node"] == script.node:
                    table["hex"] = script.bytes_[: script.before(self.begins)].hex()
        return {**self.document, "input": inputs, "window": [0, 0]}

    def changed(self, move: Sequence[int | None], window: tuple[int, int], until: int, begins: int) -> Document:
        new: dict[str, Any] = {**self.document, "cycles": until, "window": list(window)}
        for place, (moved, value) in enumerate(zip(self.moved, move)):
            if isinstance(moved.event, InputByte):
                script = self.scripts[place]
                table = script.table(script.before(begins), value)
                new["input"] = [table if old["node"] == script.node else old for old in new["input"]]
            elif value is not None:
                new["version"] = max(2, new.get("version", 1))
                new["link"] = [
                    {**old, "latency": value} if (old["from"], old["to"]) == ends(moved.event) else old
                    for old in new["link"]
                ]
        return new

    def unmoved(self) -> Move:
        """The values that the events have in the scenario as it is written."""
        return tuple(
            self.scripts[place].nominal(moved.event.index)
            if isinstance(moved.event, InputByte)
            else latency_of(self.document, moved.event)
            for place, moved in enumerate(self.moved)
        )


def ends(event: LinkLatency) -> tuple[int, int]:
    return event.sender, event.hearer


def latency_of(document: Document, event: LinkLatency) -> int:
    for table in document.get("link", []):
        if (table["from"], table["to"]) == ends(event):
            return int(table.get("latency", document.get("latency", DEFAULT_LATENCY)))
    raise BadInput(f"the scenario has no link from node {event.sender} to node {event.hearer}")


def script_of(document: Document, event: InputByte) -> Script:
    for table in document.get("input", []):
        if table["node"] == event.node:
            bytes_ = bytes.fromhex(table["hex"])
            if event.index >= len(bytes_):
                raise BadInput(f"the input of node {event.node} has {len(bytes_)} bytes, and no byte {event.index}")
            return Script(
                event.node, table["at"], table.get("every", DEFAULT_EVERY), bytes_, event.index, event.is_alone
            )
    raise BadInput(f"the scenario has no input of node {event.node}")


def moved_scenario(
    document: Document, moved: Sequence[Moved], until: int | None, state_cycle: int | None = None
) -> MovedScenario:
    """The moves of a scenario whose runs end at `until`, and begin at the state of `state_cycle` where one is given.
    Raises BadInput where an event is not there, and where a move would be no scenario."""
    until = until or int(document["cycles"])
    if until > document["cycles"]:
        raise BadInput(f"the scenario ends in cycle {document['cycles']:,}, before {until:,}")
    scripts = {place: script_of(document, m.event) for place, m in enumerate(moved) if isinstance(m.event, InputByte)}
    nodes = [script.node for script in scripts.values()]
    if len(set(nodes)) < len(nodes):
        raise BadWords("two bytes of one node cannot both move: move one, with those behind it or alone")
    for m in moved:
        check_span(document, m, until)
    begins = state_cycle if state_cycle is not None else first_epoch(moved, scripts)
    result = MovedScenario(document, moved, until, begins, scripts)
    for place, m in enumerate(moved):
        if isinstance(m.event, InputByte) and m.span.first < begins:
            raise BadInput(f"the state is of cycle {begins:,}, and the span begins before, in {m.span.first:,}")
    for ends_of_spans in ([m.span.first for m in moved], [m.span.last for m in moved]):
        result.scenario([None if is_alone(m.event) else value for m, value in zip(moved, ends_of_spans)])
    if is_alone(moved[-1].event):
        check_alone(scripts[len(moved) - 1], moved[-1].span, begins)
    return result


def is_alone(event: Event) -> bool:
    return isinstance(event, InputByte) and event.is_alone


def check_alone(script: Script, span: Span, begins: int) -> None:
    """Raises BadInput where a byte that moves alone would not stay between its neighbours, or where no state comes
    before."""
    if not begins:
        raise BadInput(f"--alone needs a state before the byte, and there is none before cycle {EPOCH:,}")
    stays = None
    if script.index > 0 and script.nominal(script.index - 1) >= span.first:
        stays = script.index - 1
    if script.index + 1 < len(script.bytes_) and script.nominal(script.index + 1) <= span.last:
        stays = script.index + 1
    if stays is not None:
        raise BadInput(
            f"byte {stays} of node {script.node}'s input stays in cycle {script.nominal(stays):,}, and byte "
            f"{script.index} does "
            f"not pass it, but goes from {span.first:,} to {span.last:,}"
        )


def check_span(document: Document, moved: Moved, until: int) -> None:
    span = moved.span
    if isinstance(moved.event, LinkLatency):
        latency_of(document, moved.event)
        if span.first not in LATENCY or span.last not in LATENCY:
            raise BadInput(
                f"a latency is {LATENCY.start:,} to {LATENCY.stop - 1:,} cycles, not {span.first:,}..{span.last:,}"
            )
    elif span.last >= until:
        raise BadInput(f"the span reaches cycle {span.last:,}, and each run ends at {until:,}")


def first_epoch(moved: Sequence[Moved], scripts: Mapping[int, Script]) -> int:
    """The last end of an epoch before which nothing comes that moves, and at which an input can say what is still to
    come."""
    if any(isinstance(m.event, LinkLatency) for m in moved):
        return 0  # a latency counts from the first byte on
    begins = min(m.span.first for m in moved) // EPOCH * EPOCH
    while begins > 0 and not all(is_sayable(scripts[place], begins, m.span) for place, m in enumerate(moved)):
        begins -= EPOCH
    return begins


def is_sayable(script: Script, begins: int, span: Span) -> bool:
    if script.is_alone:  # by a line of moves
        return True
    try:
        script.table(script.before(begins), span.first)
        script.table(script.before(begins), span.last)
    except BadInput:
        return False
    return True


def parsed_event(kind: str, text: str) -> Moved:
    """An event and its span, of what stands behind --input (N:I=A..B), --start (N=A..B) or --latency (F-T=A..B)."""
    match = re.fullmatch(r"([^=]+)=([\d_]+)\.\.([\d_]+)(?:/([\d_]+))?", text)
    try:
        if not match:
            raise ValueError
        event: Event = PARSERS[kind](match[1])
        span = Span(int(match[2]), int(match[3]), int(match[4] or 1))
    except ValueError:
        forms = {"input": "N:I=A..B", "start": "N=A..B", "latency": "FROM-TO=A..B"}
        raise BadWords(f"--{kind} {text} is no {forms[kind]}, also with /STEP behind it") from None
    if not span.first <= span.last <= LAST_CYCLE or span.step < 1:
        raise BadWords(f"--{kind} {text}: a span rises, by steps of at least 1")
    return Moved(event, span)


def input_byte(text: str) -> InputByte:
    node, index = (int(part) for part in text.split(":"))
    return InputByte(node, index)


def start(text: str) -> InputByte:
    return InputByte(int(text), 0)


def link_latency(text: str) -> LinkLatency:
    sender, hearer = (int(part) for part in text.split("-"))
    return LinkLatency(sender, hearer)


PARSERS: dict[str, Callable[[str], Event]] = {"input": input_byte, "start": start, "latency": link_latency}
