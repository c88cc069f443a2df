"""What failed, grouped by cause, as far as the runs tell: what had to be varied, what is wrong, and which lines run
that do not run where nothing varies."""
import dataclasses
import os
import re
from collections import Counter
from collections.abc import Iterator

from avrora_tools import terminal
from avrora_tools.errors import CannotWork
from avrora_tools.hunting.changes import Cut, Document, Input, Latency, Trial, inputs_of
from avrora_tools.hunting.handing import Overwritten
from avrora_tools.hunting.oracles import Failure
from avrora_tools.hunting.smaller import Scene
from avrora_tools.programs import Program, Programs
from avrora_tools.sweeping.simulation import ProcessTails

LIBRARY = "/usr/lib/"  # where Debian's avr-libc has its headers
MOST_UNEVEN = 3  # pairs of lines that are told

Look = tuple[str, ...]  # what can be seen of a cause before a trial is small
Counts = dict[str, dict[int, int]]  # by lines and nodes


@dataclasses.dataclass(frozen=True)
class Uneven:
    """Two lines that a node executes equally often where all is right, and not in the failing run."""

    node: int
    one: str
    times_one: int
    other: str
    times_other: int

    def __str__(self) -> str:
        return (
            f"node {self.node} runs {self.one} {self.times_one:,} times and {self.other} {self.times_other:,} times, "
            "equally often where nothing is varied"
        )


@dataclasses.dataclass(frozen=True)
class Trail:
    """Where something is, in words; the node at which it ends, the lines that run there then, and those that run in the
    right run alone."""

    way: str
    node: int
    lines: tuple[str, ...] = ()
    missing: tuple[str, ...] = ()


@dataclasses.dataclass
class Finding:
    """A cause: how often it was met and by which kinds of trials, the smallest scenario, and what is wrong there.

    `lines` are run in the failing run and not in the right one, as FILE:LINE of the nodes' programs, and of `uneven`
    lines one was run more often than the other there alone; `overwritten` was handed over twice there alone. Of a race
    `places` says where the arrival comes, `command` sweeps it, and `opened` runs it; of what is lost or doubled `trail` says where that ends."""

    look: Look
    failure: Failure
    scene: Scene | None = None
    first: Trial | None = None  # as it was drawn
    drawn_look: Look = ()  # and what could be seen of it then
    lines: tuple[str, ...] = ()
    uneven: tuple[Uneven, ...] = ()
    overwritten: tuple[Overwritten, ...] = ()
    trail: Trail | None = None
    kinds: Counter[str] = dataclasses.field(default_factory=Counter)
    texts: Counter[str] = dataclasses.field(default_factory=Counter)
    places: tuple[str, ...] = ()
    command: str = ""
    opened: str = ""  # a line of a shell that runs the earliest failing arrival
    path: str = ""  # of the scenario that was written

    def apart(self) -> tuple[object, ...]:
        """What tells causes of one look from each other."""
        return self.lines, tuple((it.one, it.other) for it in self.uneven[:1])

    def handed(self) -> frozenset[tuple[str, str]]:
        """What was handed over twice, and where."""
        return frozenset((it.name, it.line) for it in self.overwritten)

    def is_of(self, other: "Finding") -> bool:
        """Whether it has the cause of another."""
        if self.handed() or other.handed():
            return self.failure.class_ == other.failure.class_ and self.handed() == other.handed()
        return self.look == other.look and self.apart() == other.apart()

    def weight(self) -> tuple[int, ...]:
        """By which findings are told: an arrival names its line, so those are first; then the smallest scenarios."""
        return (0,) if self.places else (1, *self.scene.size()) if self.scene else (2,)

    @property
    def count(self) -> int:
        return sum(self.kinds.values())

    def note(self, kind: str, failure: Failure) -> None:
        self.kinds[kind] += 1
        self.texts[failure.text] += 1


def look_of(trial: Trial, document: Document, failure: Failure) -> Look:
    """What had to be varied and what is wrong: failing trials that differ in it have different causes, or may have."""
    return (*failure.cause(), *sorted(forms_of(trial, document)))


def forms_of(trial: Trial, document: Document) -> set[str]:
    before = {it.node: it for it in inputs_of(document)}
    forms = set()
    for change in trial.changes:
        if isinstance(change, Cut):
            forms.add("a link lost for good" if change.is_for_good() else "a cut")
        elif isinstance(change, Latency):
            forms.add("a latency")
        elif isinstance(change, Input):
            old = before.get(change.node)
            is_start = old is not None and (change.every, change.hex) == (old.every, old.hex)
            forms.add("a start" if is_start else "an input")
    return forms


class Lines:
    """Which source lines nodes execute, by `monitor`."""

    def __init__(self, tails: ProcessTails, programs: Programs | None) -> None:
        self.tails, self.programs = tails, programs
        self.by_image: dict[str, Program] = {}

    def know(self, document: Document) -> None:
        """Takes the programs of a scenario whose nodes have their numbers yet."""
        for number, node in enumerate(document["node"]):
            program = self.programs.of(number) if self.programs else None
            if program:
                self.by_image[node["image"]] = program

    def executed(self, document: Document, span: tuple[int, int] | None = None) -> Counts:
        """How often each node executes each line in a span, or in all of a run, as FILE:LINE: its first instruction of
        all that it executes."""
        if not self.by_image:
            return {}
        path = self.tails.written({**document, "window": [0, 0]})
        first, end = span or (0, document["cycles"])
        try:
            output = self.tails.simulator.call("monitor", path, str(first), str(end))
        except CannotWork as fault:  # a finding without lines is one all the same
            terminal.warn(f"which lines run is not known: {fault}")
            return {}
        found: Counts = {}
        for node, address, count in re.findall(rb"^(\d+) at ([0-9A-F]{4}) (\d+) ", output, re.MULTILINE):
            program = self.by_image.get(document["node"][int(node)]["image"])
            line = own_line(program, int(address, 16)) if program else None
            if line:
                found.setdefault(line, {}).setdefault(int(node), int(count))
        return found

    def otherwise(self, scene: Scene) -> tuple[tuple[str, ...], tuple[Uneven, ...]]:
        """The lines that are executed in the failing run alone; and pairs of lines that each node executes equally
        often in the right run, and one does not in the failing run."""
        failing, right = self.executed(scene.failing()), self.executed(scene.document)
        if not failing or not right:
            return (), ()
        alone = tuple(sorted(failing.keys() - right.keys(), key=line_key))
        return alone, tuple(uneven(failing, right))[:MOST_UNEVEN]


def uneven(failing: Counts, right: Counts) -> Iterator[Uneven]:
    """Lines that go together and come apart, those first that are executed seldom: a thing that is put and not
    taken."""
    together: dict[tuple[tuple[int, int], ...], list[str]] = {}
    for line, counts in right.items():
        together.setdefault(tuple(sorted(counts.items())), []).append(line)
    for by_node, lines in sorted(together.items(), key=lambda it: sum(count for _, count in it[0])):
        lines.sort(key=line_key)
        for node, _ in by_node:
            of_lines = {line: failing.get(line, {}).get(node, 0) for line in lines}
            other = next((line for line in lines if of_lines[line] != of_lines[lines[0]]), None)
            if other:
                yield Uneven(node, lines[0], of_lines[lines[0]], other, of_lines[other])
                break


def own_line(program: Program, address: int) -> str | None:
    """The source line of an instruction, as FILE:LINE; none where it is the C library's."""
    at = program.source_line_at(address)
    return None if at is None or at.path.startswith(LIBRARY) else program.line_at(address)


def line_key(line: str) -> tuple[str, int]:
    name, _, number = line.rpartition(":")
    return os.path.basename(name), int(number) if number.isdigit() else 0
