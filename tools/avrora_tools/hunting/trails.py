"""Follows what is lost or doubled through a network, and tells where it ends and which lines run there.

A line that a node writes comes of a byte of input. In a run in which that byte has another value, the bytes that differ
are those that carry it: who sends it, who hears it, who writes it. So no protocol need be known."""
import re
from collections.abc import Iterator, Mapping, Sequence
from dataclasses import dataclass

from avrora_tools import terminal
from avrora_tools.errors import CannotWork
from avrora_tools.hunting.causes import Lines, Trail, line_key
from avrora_tools.hunting.changes import Document, Input, inputs_of
from avrora_tools.hunting.oracles import DOUBLED, LOST, WRONG, Failure, parts_of
from avrora_tools.hunting.smaller import Scene
from avrora_tools.scenarios import DEFAULT_TIME
from avrora_tools.sweeping.rows import written

ROW = re.compile(rb"^(\d+) (\d+) (sent|heard 1|serial) ([0-9A-F]{2})", re.MULTILINE)
SENT, HEARD, WRITTEN = b"sent", b"heard 1", b"serial"
ACTS = (SENT, WRITTEN)

OTHER_VALUES = (0x04, 0x01, 0x02)  # bits that are turned round, so that a letter stays one, and a digit
MOST_BYTES = 24  # of input that are tried
ONE_STEP = 16  # byte times within which what differs at a node is of one packet
SHORTEST, LONGEST = 4, 200  # byte times for which one looks on where a trail ends
MOST_BLOCKS = 12  # of lines that are told: those that the node runs most seldom in all of the run
NEAR = 2  # from a line of a block to the next

Key = tuple[int, int, bytes]  # a row: the cycle, the node, what happens


@dataclass(frozen=True)
class Step:
    """A node sends, hears or writes what is followed: from the first to the last byte that differs."""

    what: bytes
    node: int
    first: int
    last: int


@dataclass(frozen=True)
class Span:
    """Cycles of one node."""

    node: int
    first: int
    end: int


def rows_of(output: bytes) -> dict[Key, bytes]:
    return {(int(cycle), int(node), what): byte for cycle, node, what, byte in ROW.findall(output)}


def steps_of(output: bytes, other: bytes, byte_time: int) -> list[Step] | None:
    """The steps of what differs between two runs, in order. None where they part: their nodes send in other cycles."""
    one, two = rows_of(output), rows_of(other)
    if any(key[2] == SENT for key in one.keys() ^ two.keys()):
        return None
    found: list[Step] = []
    last: dict[tuple[int, bytes], int] = {}  # by node and what happens: the place of its last step
    for cycle, node, what in sorted(key for key in one.keys() & two.keys() if one[key] != two[key]):
        place = last.get((node, what))
        if place is not None and cycle - found[place].last <= ONE_STEP * byte_time:
            found[place] = Step(what, node, found[place].first, cycle)
        else:
            last[node, what] = len(found)
            found.append(Step(what, node, cycle, cycle))
    return found


def with_other(document: Document, it: Input, index: int, bits: int) -> Document:
    """A scenario in which a byte of an input has another value."""
    bytes_ = bytearray.fromhex(it.hex)
    bytes_[index] ^= bits
    here = next(own for own in inputs_of(document) if own.node == it.node)
    return Input(here.node, here.at, here.every, bytes_.hex().upper()).applied(document)


class Trails:
    """Follows by runs of its own."""

    def __init__(self, lines: Lines) -> None:
        self.lines = lines
        self.simulator = lines.tails.simulator

    def output(self, document: Document) -> bytes:
        return self.simulator.call("run", "--plain", self.lines.tails.written({**document, "window": [0, 0]}))

    def of(self, scene: Scene, failure: Failure) -> Trail | None:
        """The trail of the first thing that is lost or doubled, as far as it comes of a byte of input."""
        if failure.class_ not in (LOST, DOUBLED, WRONG) or failure.node is None:
            return None
        try:
            return self.followed(scene, failure, failure.node)
        except CannotWork as fault:
            terminal.warn(f"where it is lost is not known: {fault}")
            return None

    def followed(self, scene: Scene, failure: Failure, writer: int) -> Trail | None:
        byte_time = int(scene.document.get("byte_time", DEFAULT_TIME))
        right, failing = self.output(scene.document), self.output(scene.failing())
        due = parts_of(written((right,)).get(writer, b""), False)
        for it, index, bits in self.candidates(scene, failure):
            other = self.output(with_other(scene.document, it, index, bits))
            gone = due - parts_of(written((other,)).get(writer, b""), False)
            if not failure.parts & gone.keys():
                continue
            before = steps_of(right, other, byte_time)
            now = steps_of(failing, self.output(with_other(scene.failing(), it, index, bits)), byte_time)
            if before is None or now is None:
                continue
            come = next(own for own in inputs_of(scene.failing()) if own.node == it.node)
            part = min(failure.parts & gone.keys()).decode("ascii", "backslashreplace")
            begin = f"'{part}' comes to node {it.node} in cycle {come.at + index * come.every:,}"
            at = (it.node, come.at + index * come.every)
            ending = Ending(self.lines, scene, byte_time, before, now, at)
            return ending.lost(begin) if failure.class_ == LOST else ending.again(begin, writer)
        return None

    def candidates(self, scene: Scene, failure: Failure) -> Iterator[tuple[Input, int, int]]:
        """Bytes of input behind each node's first, and the bits to turn: first those that stand in what is lost."""
        same = {(own.node, own.hex) for own in inputs_of(scene.failing())}
        inputs = [it for it in inputs_of(scene.document) if (it.node, it.hex) in same]
        found = [(it, index) for it in inputs for index in range(1, len(it.hex) // 2)]
        values = {byte for part in failure.parts for byte in part}
        found.sort(key=lambda it: bytes.fromhex(it[0].hex)[it[1]] not in values)
        for it, index in found[:MOST_BYTES]:
            for bits in OTHER_VALUES:
                yield it, index, bits


class Ending:
    """Where a trail ends in the failing run, beside that of the right one."""

    def __init__(
        self,
        lines: Lines,
        scene: Scene,
        byte_time: int,
        before: Sequence[Step],
        now: Sequence[Step],
        come: tuple[int, int],
    ) -> None:
        """`before` are the steps of the right run, `now` those of the failing one; it came to a node in a cycle."""
        self.lines, self.scene, self.byte_time = lines, scene, byte_time
        self.before, self.now, self.come = before, now, come

    def lost(self, begin: str) -> Trail:
        """The first node that does not act as it does where all is right, and what it runs behind that it heard it."""
        acting = list(dict.fromkeys(it.node for it in self.before if it.what in ACTS))
        acts = {it.node for it in self.now if it.what in ACTS}
        lacking = next((node for node in acting if node not in acts), None)
        sends = [it for it in self.now if it.what == SENT]
        way = "; ".join([begin, *(f"node {it.node} sends it in {it.first:,}" for it in sends[-3:])])
        if lacking is None:
            return Trail(f"{way}; all act as where all is right", self.come[0])
        heard = [it for it in self.now if it.what == HEARD and it.node == lacking]
        act = next(it.first for it in self.before if it.node == lacking and it.what in ACTS)
        if not heard:
            holder = sends[-1].node if sends else self.come[0]
            end = f"node {lacking} never hears it" if lacking != holder else f"node {holder} never sends it"
            return Trail(f"{way}; {end}", holder)
        way += f"; node {lacking} hears it in {heard[-1].first:,} and does not pass it on"
        earlier = [it.last for it in self.before if it.node == lacking and it.last < act]
        if not earlier:  # where all is right it acts without having heard it
            return Trail(way, lacking)
        first, usual, length = heard[-1].last, earlier[-1], self.clipped(act - earlier[-1])
        here = self.spanned(Span(lacking, first, first + length), self.scene.failing())
        there = self.spanned(Span(lacking, usual, usual + length), self.scene.document)
        return Trail(way, lacking, told(here), told({line: count for line, count in there.items() if line not in here}))

    def again(self, begin: str, writer: int) -> Trail:
        """What runs from where a writer hears it until it writes it for the last time."""
        writes = [it for it in self.now if it.what == WRITTEN and it.node == writer]
        sends = [it for it in self.now if it.what == SENT]
        way = "; ".join([begin, *(f"node {it.node} sends it in {it.first:,}" for it in sends[-4:])])
        way += "".join(f"; node {writer} writes it in {it.first:,}" for it in writes[-2:])
        if not writes:
            return Trail(way, writer)
        heard = [it.last for it in self.now if it.what == HEARD and it.node == writer and it.last <= writes[-1].first]
        first = max(heard[-1] if heard else 0, writes[-1].last - LONGEST * self.byte_time)
        return Trail(way, writer, told(self.spanned(Span(writer, first, writes[-1].last + 1), self.scene.failing())))

    def clipped(self, length: int) -> int:
        return min(max(length, SHORTEST * self.byte_time), LONGEST * self.byte_time)

    def spanned(self, span: Span, document: Document) -> dict[str, int]:
        """The lines that a node runs in a span, and how often in all of the run."""
        whole = self.lines.executed(document)
        part = self.lines.executed(document, (span.first, min(span.end, int(document["cycles"]))))
        return {it: whole[it][span.node] for it, counts in part.items() if span.node in counts}


def told(lines: Mapping[str, int]) -> tuple[str, ...]:
    """Those blocks of lines that run most seldom: what a node runs at each tick says nothing."""
    blocks: list[list[str]] = []
    for line in sorted(lines, key=line_key):
        last = blocks[-1][-1] if blocks else ""
        (name, number), (name_before, number_before) = line_key(line), line_key(last)
        is_near = name == name_before and number - number_before <= NEAR
        if last and is_near and lines[line] == lines[last]:
            blocks[-1].append(line)
        else:
            blocks.append([line])
    blocks.sort(key=lambda block: (lines[block[0]], line_key(block[0])))
    return tuple(sorted((line for block in blocks[:MOST_BLOCKS] for line in block), key=line_key))
