"""Checks of a run: whether it is as it should be, and what is wrong where it is not."""
import importlib.util
import re
from collections import Counter
from collections.abc import Callable, Collection, Iterable, Mapping, Sequence
from dataclasses import dataclass, field
from enum import Enum
from typing import Protocol

from avrora_tools import cases, expectations, files
from avrora_tools.errors import BadInput
from avrora_tools.sweeping.events import Move
from avrora_tools.sweeping.rows import all_rows, stops, writes, written
from avrora_tools.traces import Row

SHOWN = 60  # bytes of a text in a report


class Check(Protocol):
    def failure(self, move: Move, output: bytes) -> str | None:
        """What is wrong with a run, or None. `output` has its rows from where the runs of the sweep begin on."""


class Compare(Enum):
    """How what a node writes to USART0 is compared with what it writes in the unmoved run."""

    BYTES = "bytes"
    ANY_ORDER = "any-order"
    LINES = "lines"


@dataclass(frozen=True)
class Late:
    """What a run lacks at its end and writes later: the node that writes the last of it, and in which cycle; and what
    is wrong beside the unmoved run where both go on to the scenario's end."""

    node: int
    cycle: int
    wrong_at_last: str | None


@dataclass(frozen=True)
class SerialCheck:
    """Each node writes to USART0 what it writes in the unmoved run, whenever that is, and stops nowhere where it does
    not stop there."""

    head: bytes  # the rows before the runs of the sweep begin
    good: dict[int, bytes]
    nodes: Collection[int]
    compare: Compare = Compare.BYTES
    drop: re.Pattern[bytes] | None = None  # what may differ
    good_at_last: Callable[
        [], Mapping[int, bytes]
    ] | None = None  # what the unmoved run writes up to the scenario's end
    good_stops: Mapping[int, str] = field(default_factory=dict)
    good_before: Mapping[int, bytes] = field(default_factory=dict)  # what it writes before the first move

    def failure(self, move: Move, output: bytes) -> str | None:
        stopped = stops((self.head, output))
        for node in self.nodes:
            if node in stopped and stopped[node] != self.good_stops.get(node):
                return f"node {node} stopped by {stopped[node]}, and not so in the unmoved run"
        return self.failure_beside(self.good, output)

    def failure_beside(self, good: Mapping[int, bytes], output: bytes) -> str | None:
        texts = written((self.head, output))
        for node in self.nodes:
            if wrong := self.difference(good.get(node, b""), texts.get(node, b"")):
                return f"node {node} {wrong}"
        return None

    def without_dropped(self, text: bytes) -> bytes:
        return self.drop.sub(b"", text) if self.drop else text

    def difference(self, good: bytes, got: bytes) -> str | None:
        good, got = map(self.without_dropped, (good, got))
        if self.compare is Compare.BYTES:
            return None if got == good else different_bytes(good, got)
        return different_parts(parts(self.compare, good), parts(self.compare, got))

    def compares_nothing(self) -> bool:
        """Whether the unmoved run writes nothing that a move could change, which is what comes from the first move
        on."""
        return all(
            self.without_dropped(self.good.get(node, b"")) == self.without_dropped(self.good_before.get(node, b""))
            for node in self.nodes
        )

    def late(self, output: bytes) -> Late | None:
        """Of a run that went on to the scenario's end: how what was missing came; None where something still is."""
        texts = {node: bytearray(text) for node, text in written((self.head,)).items()}
        waiting = {node for node in self.nodes if not self.has_all(node, bytes(texts.get(node, b"")))}
        for cycle, node, byte in writes(output):
            texts.setdefault(node, bytearray()).append(byte)
            if node in waiting and self.has_all(node, bytes(texts[node])):
                waiting.remove(node)
                if not waiting:
                    return Late(
                        node, cycle, self.failure_beside(self.good_at_last(), output) if self.good_at_last else None
                    )
        return None

    def has_all(self, node: int, got: bytes) -> bool:
        """Whether a node has written what it writes in the unmoved run, whatever else it wrote."""
        good = self.good.get(node, b"")
        if self.compare is Compare.BYTES:
            return got.startswith(good)
        return not parts(self.compare, good) - parts(self.compare, got)


def parts(compare: Compare, text: bytes) -> Counter[bytes]:
    if compare is Compare.LINES:
        return Counter(text.split(b"\n"))
    return Counter(bytes([byte]) for byte in text)


def different_bytes(good: bytes, got: bytes) -> str:
    if good.startswith(got):
        return f"did not write {shown(good[len(got) :])}"
    if got.startswith(good):
        return f"wrote {shown(got[len(good) :])} too much"
    same = next(i for i, (a, b) in enumerate(zip(good, got)) if a != b)
    return f"wrote {shown(got[same:])}, not {shown(good[same:])}"


def different_parts(good: Counter[bytes], got: Counter[bytes]) -> str | None:
    lost, more = list((good - got).elements()), list((got - good).elements())
    texts = [f"did not write {listed(lost)}"] * bool(lost) + [f"wrote {listed(more)} too much"] * bool(more)
    return ", and ".join(texts) or None


def listed(texts: Sequence[bytes]) -> str:
    return ", ".join(map(shown, texts[:3])) + (f" and {len(texts) - 3} more" if len(texts) > 3 else "")


def shown(text: bytes) -> str:
    """A text in quotes, the end of one that is long."""
    return ("..." if len(text) > SHOWN else "") + ascii(text[-SHOWN:])[1:]


@dataclass(frozen=True)
class CaseCheck:
    """A case of `expect`, over the whole trace."""

    head: bytes
    case: cases.Case

    def failure(self, move: Move, output: bytes) -> str | None:
        try:
            outcome = expectations.check(self.case, iter([self.head + output]), False, "the run")
        except expectations.NoRoom as fault:  # this run has it, and others have not
            return (
                f"{fault.place}: between the rows that were found about it there is no room for what is never to come"
            )
        return first_lines(outcome.failure) if outcome.failure else None


def first_lines(text: str) -> str:
    """A report on one line, as far as it names what was not met."""
    return " ".join(part.strip() for part in text.splitlines()[:2])


@dataclass(frozen=True)
class Run:
    """What a predicate is given."""

    moved: Move
    rows: list[Row]  # from where the runs of the sweep begin on; serial rows of all of the run
    texts: dict[int, bytes] = field(default_factory=dict)

    @property
    def at(self) -> int:
        """The value of the first event that moves."""
        return self.moved[0]

    def text(self, node: int) -> bytes:
        """All that a node wrote to USART0."""
        return self.texts.get(node, b"")


@dataclass(frozen=True)
class PredicateCheck:
    """A function `check` of a Python file: given a Run it returns None, or what is wrong."""

    head: bytes
    predicate: Callable[[Run], str | None]
    events: Sequence[int]  # the places of the events in a move, in the order of the command line

    def failure(self, move: Move, output: bytes) -> str | None:
        moved = tuple(move[place] for place in self.events)
        try:
            said = self.predicate(Run(moved, list(all_rows(output)), written((self.head, output))))
        except (Exception, SystemExit) as fault:  # whatever the user's function does
            raise BadInput(f"check() of the predicate: {type(fault).__name__}: {fault}") from fault
        if said is not None and not (isinstance(said, str) and said.strip()):
            raise BadInput(
                f"check() of the predicate returned {said!r}: it must be None, or a text that says what is wrong"
            )
        return said


def predicate_of(path: str) -> Callable[[Run], str | None]:
    """The function `check` of a Python file. Raises BadInput where there is none."""
    spec = importlib.util.spec_from_file_location("predicate", path)
    if spec is None or spec.loader is None:
        raise BadInput(f"{files.shown(path)}: no Python file")
    module = importlib.util.module_from_spec(spec)
    try:
        spec.loader.exec_module(module)
    except (Exception, SystemExit) as fault:  # whatever the user's file does
        raise BadInput(f"{files.shown(path)}: {type(fault).__name__}: {fault}") from None
    if not callable(getattr(module, "check", None)):
        raise BadInput(f"{files.shown(path)}: no function check(run)")
    predicate: Callable[[Run], str | None] = module.check
    return predicate


def nodes_of(count: int, chosen: Iterable[int] | None) -> list[int]:
    nodes = sorted(chosen) if chosen is not None else list(range(count))
    if nodes and nodes[-1] >= count:
        raise BadInput(f"there is no node {nodes[-1]}: the scenario has {count}")
    return nodes
