"""Frames, or bytes, that nodes sent and heard as packets in the format pcapng, for Wireshark.

An interface is a node. A packet's time is that of its last byte: the cycle in which it was sent, or of the sample that
heard it first. Where that byte was lost, it is the cycle of its send, or of the last sample that heard one of the
others
first, if that is later. So packets come in the order of time. The link type is USER0: the bytes from the frame's first
AA on.
"""
import collections
import heapq
import itertools
import struct
from collections.abc import Iterable, Iterator, Sequence
from fractions import Fraction

from avrora_tools.events import CLASH, Heard, Sent
from avrora_tools.exports.frames import Finder, Frame, SentByte
from avrora_tools.scenarios import Air, OnAir, Scenario, is_open
from avrora_tools.showing import printable
from avrora_tools.traces import TraceRow

# Types of blocks and options (IETF draft-ietf-opsawg-pcapng).
SECTION, INTERFACE, PACKET = 0x0A0D0D0A, 1, 6
BYTE_ORDER = 0x1A2B3C4D
END_OF_OPTIONS, COMMENT = 0, 1
SECTION_APPLICATION = 4
INTERFACE_NAME, INTERFACE_DESCRIPTION, INTERFACE_RESOLUTION = 2, 3, 9
PACKET_FLAGS = 2
INBOUND, OUTBOUND = 1, 2
USER0 = 147
NANOSECONDS = 9  # the resolution of times, as a power of ten
NANOSECONDS_A_SECOND = 1_000_000_000
LONGEST_PACKET = 256


def padded(data: bytes) -> bytes:
    return data + bytes(-len(data) % 4)


def option(code: int, data: bytes) -> bytes:
    return struct.pack("<HH", code, len(data)) + padded(data)


def block(kind: int, body: bytes) -> bytes:
    length = len(body) + 12
    return struct.pack("<II", kind, length) + body + struct.pack("<I", length)


def heads(scenario: Scenario, version: str) -> Iterator[bytes]:
    """The section, and an interface for each node."""
    options = option(SECTION_APPLICATION, f"avrora-tools {version}".encode()) + option(END_OF_OPTIONS, b"")
    yield block(SECTION, struct.pack("<IHHq", BYTE_ORDER, 1, 0, -1) + options)
    for node, image in enumerate(scenario.images):
        options = option(INTERFACE_NAME, f"node {node}".encode())
        options += option(INTERFACE_DESCRIPTION, printable(image).encode())
        options += option(INTERFACE_RESOLUTION, bytes([NANOSECONDS])) + option(END_OF_OPTIONS, b"")
        yield block(INTERFACE, struct.pack("<HHI", USER0, 0, LONGEST_PACKET) + options)


def has_times(cycles: int, hz: int) -> bool:
    """Whether each packet of so many cycles has a time of 64 bits."""
    return cycles * NANOSECONDS_A_SECOND // hz < 1 << 63


def packet(node: int, nanoseconds: int, data: bytes, direction: int, comment: str = "") -> bytes:
    options = option(COMMENT, comment.encode()) if comment else b""
    options += option(PACKET_FLAGS, struct.pack("<I", direction)) + option(END_OF_OPTIONS, b"")
    high, low = divmod(nanoseconds, 1 << 32)
    return block(PACKET, struct.pack("<IIIII", node, high, low, len(data), len(data)) + padded(data) + options)


# A byte that was sent: its sender, and the cycle.
Send = tuple[int, int]


class Ears:
    """What one node heard of the sends of others that are, or may become, parts of frames."""

    def __init__(self) -> None:
        self.alone: dict[Send, int] = {}  # the cycle of the first sample that heard it by itself
        self.clashed: set[Send] = set()

    def forget(self, send: Send) -> None:
        self.alone.pop(send, None)
        self.clashed.discard(send)


class Packets:
    """Turns the rows of a trace into packets, in the order of time. What it holds does not grow with the trace, except
    while a node has begun a frame with another one in its bytes: that other one is a packet if the longer never
    ends."""

    def __init__(self, scenario: Scenario, hz: int, wants_bytes: bool) -> None:
        self.air, self.hz, self.wants_bytes = Air(scenario), hz, wants_bytes
        # So long after a send it can still be heard.
        self.life = self.air.reach + self.air.byte_time
        self.finders = [Finder() for _ in scenario.images]
        self.inner_ends: dict[int, int] = {}  # of nodes: the cycle of a packet that may yet come to light
        self.ears = [Ears() for _ in scenario.images]
        self.wanted: set[Send] = set()  # that are, or may become, parts of frames
        self.whole: collections.deque[
            tuple[int, Frame]
        ] = collections.deque()  # frames that can still be heard, by sender
        self.waiting: list[tuple[int, int, bytes]] = []  # packets by cycle, until no earlier one can come
        self.numbers = itertools.count()

    def written(self, rows: Iterable[TraceRow]) -> Iterator[bytes]:
        """The blocks of the packets of these rows."""
        for cycle, node, event in rows:
            yield from self.settled(cycle)
            if isinstance(event, Sent):
                self.air.send(node, cycle, event.byte)
                self.send(node, SentByte(cycle, event.byte))
            elif isinstance(event, Heard) and event.status:
                self.hear(node, cycle, self.air.heard(node, cycle), event)
        for node, finder in enumerate(self.finders):
            self.whole.extend((node, frame) for frame in finder.end())
        self.inner_ends.clear()
        yield from self.settled(None)

    def put(self, node: int, cycle: int, data: bytes, direction: int, comment: str = "") -> None:
        content = packet(node, round(Fraction(cycle * NANOSECONDS_A_SECOND, self.hz)), data, direction, comment)
        heapq.heappush(self.waiting, (cycle, next(self.numbers), content))

    def send(self, node: int, one: SentByte) -> None:
        if self.wants_bytes:
            self.put(node, one.cycle, bytes([one.byte]), OUTBOUND)
            return
        self.wanted.add((node, one.cycle))
        finder = self.finders[node]
        self.whole.extend((node, frame) for frame in finder.send(one))
        for passed in finder.passed:
            self.forget((node, passed.cycle))
        finder.passed.clear()
        if (inner_end := finder.inner_end()) is None:
            self.inner_ends.pop(node, None)
        else:
            self.inner_ends[node] = inner_end

    def forget(self, send: Send) -> None:
        self.wanted.discard(send)
        for ears in self.ears:
            ears.forget(send)

    def hear(self, node: int, cycle: int, on_air: Sequence[OnAir], event: Heard) -> None:
        if self.wants_bytes:
            self.hear_byte(node, cycle, on_air, event)
            return
        for send in ((one.sender, one.cycle) for one in on_air):
            if send in self.wanted and event.status == CLASH:
                self.ears[node].clashed.add(send)
            elif send in self.wanted:
                self.ears[node].alone.setdefault(send, cycle)

    def hear_byte(self, node: int, cycle: int, on_air: Sequence[OnAir], event: Heard) -> None:
        """A byte is a packet where it is heard first, a clash each time."""
        if event.status == CLASH:
            senders = ", ".join(f"{one.byte:02X} of node {one.sender}" for one in on_air)
            self.put(node, cycle, bytes([event.byte]), INBOUND, f"clash: {senders}")
            return
        heard = self.ears[node].alone
        for send in ((one.sender, one.cycle) for one in on_air):
            if send not in heard:
                self.put(node, cycle, bytes([event.byte]), INBOUND)
                self.ears[node].alone = {one: at for one, at in heard.items() if one[1] > cycle - self.life} | {
                    send: cycle
                }

    def settled(self, cycle: int | None) -> Iterator[bytes]:
        """The packets that none can precede any more once all rows below `cycle` are read; all where it is None."""
        while self.whole and (cycle is None or self.whole[0][1][-1].cycle + self.life <= cycle):
            self.settle(*self.whole.popleft())
        bounds = [*self.inner_ends.values()] if cycle is None else [cycle - self.life, *self.inner_ends.values()]
        first_open = min(bounds, default=None)
        while self.waiting and (first_open is None or self.waiting[0][0] < first_open):
            yield heapq.heappop(self.waiting)[2]

    def settle(self, sender: int, frame: Frame) -> None:
        """Puts a frame of which nothing more can be heard: as it was sent, and as each of its hearers heard it."""
        lost, heard = [], []
        for link in self.air.out_of[sender]:
            due = [one for one in frame if is_open(link, one.cycle)]
            if due:
                words, parts = self.received(link.hearer, sender, frame, due)
                lost += [f"node {link.hearer}: {words}"] * bool(words)
                heard += [(link.hearer, words, parts)] * bool(parts)
        self.put(sender, frame[-1].cycle, bytes(one.byte for one in frame), OUTBOUND, "; ".join(lost))
        for hearer, words, parts in heard:
            last = max(frame[-1].cycle, *(self.ears[hearer].alone[sender, one.cycle] for one in parts))
            comment = f"of node {sender}: {words}" if words else ""
            self.put(hearer, last, bytes(one.byte for one in parts), INBOUND, comment)
        for one in frame:
            self.forget((sender, one.cycle))

    def received(self, hearer: int, sender: int, frame: Frame, due: Frame) -> tuple[str, Frame]:
        """What a node lost of a frame, in words or nothing, and what it heard."""
        ears = self.ears[hearer]
        heard = [one for one in frame if (sender, one.cycle) in ears.alone]
        missed = [one for one in due if (sender, one.cycle) not in ears.alone]
        clashes = sum(1 for one in missed if (sender, one.cycle) in ears.clashed)
        if not missed:
            return "", heard
        if not heard and not clashes:
            return "not heard", heard
        return f"{len(missed)} of {len(frame)} bytes lost" + (f", {clashes} in clashes" if clashes else ""), heard
