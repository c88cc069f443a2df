"""A trace as events of a timeline in the JSON of Chrome's trace events, for ui.perfetto.dev and chrome://tracing.

A node is a process; its threads are functions, interrupts, the processor (sleep, stop), the radio, and USART0.
"""
import enum
import json
from collections.abc import Iterable, Iterator, Mapping
from typing import Any

from avrora_tools import programs
from avrora_tools.events import CLASH, Enter, Event, Heard, Instr, Sent, Serial, Stop
from avrora_tools.exports.walking import RETURN_FROM_INTERRUPT, Functions, Stack, StackReader
from avrora_tools.instructions import SLEEP
from avrora_tools.scenarios import Air, Scenario
from avrora_tools.traces import TraceRow

MICROSECONDS = 1_000_000
LINE_ENDS = b"\r\n"
LONGEST_LINE = 80  # bytes of USART0 in one event
SILENCE = 100_000  # cycles without a byte that end a line of USART0


class Thread(enum.IntEnum):
    """The threads of a node, by their numbers."""

    FUNCTIONS = 1
    INTERRUPTS = 2
    PROCESSOR = 3
    RADIO = 4
    USART0 = 5


THREADS = {
    Thread.FUNCTIONS: "functions",
    Thread.INTERRUPTS: "interrupts",
    Thread.PROCESSOR: "sleep, stop",
    Thread.RADIO: "radio",
    Thread.USART0: "USART0",
}

Json = dict[str, Any]


class Timeline:
    """Turns rows into events. What it holds does not grow with the trace."""

    def __init__(self, scenario: Scenario, functions: Functions | None, hz: int) -> None:
        self.scenario, self.functions, self.hz = scenario, functions, hz
        self.air = Air(scenario)
        self.stacks = StackReader(scenario.window, None, functions) if functions else None
        self.depths: dict[int, list[str]] = {node: [] for node in range(len(scenario.images))}
        self.interrupts: dict[int, list[tuple[int, str]]] = {node: [] for node in range(len(scenario.images))}
        self.returning: set[int] = set()  # nodes whose last row is a RETI
        self.sleeping: dict[int, int] = {}  # by node since when
        self.lines: dict[
            int, tuple[int, int, bytearray]
        ] = {}  # by node a line of USART0: its first and last cycle, its bytes

    def events(self, rows: Iterable[TraceRow]) -> Iterator[Json]:
        yield from self.names()
        last = 0
        end = self.scenario.window[1]
        for cycle, node, event in rows:
            if cycle >= end and last < end and not isinstance(event, (Instr, Enter)):
                for one in self.depths:  # nothing of this is known behind the window
                    yield from self.left(end, one)
            last = cycle
            yield from self.read(cycle, node, event)
        for node in self.depths:
            yield from self.ended(last, node)

    def names(self) -> Iterator[Json]:
        for node, image in enumerate(self.scenario.images):
            yield {"ph": "M", "pid": node, "name": "process_name", "args": {"name": f"node {node} ({image})"}}
            yield {"ph": "M", "pid": node, "name": "process_sort_index", "args": {"sort_index": node}}
            for thread, name in THREADS.items():
                yield {"ph": "M", "pid": node, "tid": int(thread), "name": "thread_name", "args": {"name": name}}

    def at(self, cycle: int) -> float:
        return cycle * MICROSECONDS / self.hz

    def event(self, phase: str, cycle: int, node: int, thread: Thread, **more: Any) -> Json:
        return {"ph": phase, "ts": self.at(cycle), "pid": node, "tid": int(thread), **more}

    def span(self, first: int, end: int, node: int, thread: Thread, name: str, **arguments: Any) -> Json:
        return self.event(
            "X", first, node, thread, dur=self.at(end) - self.at(first), name=name, args={"cycle": first, **arguments}
        )

    def read(self, cycle: int, node: int, event: Event) -> Iterator[Json]:
        if isinstance(event, (Instr, Enter)):
            yield from self.traced(cycle, node, event)
        elif isinstance(event, Sent):
            self.air.send(node, cycle, event.byte)
            yield self.span(cycle, cycle + self.scenario.byte_time, node, Thread.RADIO, f"sent {event.byte:02X}")
            yield self.event("s", cycle, node, Thread.RADIO, name="air", cat="air", id=f"{node}-{cycle}")
        elif isinstance(event, Heard):
            yield from self.heard(cycle, node, event)
        elif isinstance(event, Serial):
            yield from self.serial(cycle, node, event.byte)
        elif isinstance(event, Stop):
            yield from self.ended(cycle, node)
            yield self.event(
                "i",
                cycle,
                node,
                Thread.PROCESSOR,
                s="p",
                name=f"stop: {event.cause}",
                args={"cycle": cycle, "address": f"{event.address:04X}"},
            )

    def heard(self, cycle: int, node: int, event: Heard) -> Iterator[Json]:
        if not event.status:
            return
        name = f"clash {event.byte:02X}" if event.status == CLASH else f"heard {event.byte:02X}"
        on_air = self.air.heard(node, cycle)
        senders = ", ".join(f"{one.byte:02X} of node {one.sender} sent in cycle {one.cycle}" for one in on_air)
        yield self.span(cycle, cycle + 1, node, Thread.RADIO, name, age=event.age, senders=senders)
        for one in on_air:
            flow = f"{one.sender}-{one.cycle}"
            yield self.event("f", cycle, node, Thread.RADIO, name="air", cat="air", id=flow, bp="e")

    def traced(self, cycle: int, node: int, event: Instr | Enter) -> Iterator[Json]:
        since = self.sleeping.pop(node, None)
        if since is not None:
            yield self.span(since, cycle, node, Thread.PROCESSOR, "asleep")
        if node in self.returning and self.interrupts[node]:
            first, name = self.interrupts[node].pop()
            yield self.span(first, cycle, node, Thread.INTERRUPTS, name)
        self.returning.discard(node)
        if isinstance(event, Enter):
            self.interrupts[node].append((cycle, programs.vector_name(event.vector)))
        elif event.instruction == SLEEP:
            self.sleeping[node] = cycle
        elif event.instruction == RETURN_FROM_INTERRUPT:
            self.returning.add(node)
        if self.stacks:
            self.stacks.read(cycle, node, event)
            yield from self.moved(cycle, node, self.names_of(node))

    def names_of(self, node: int) -> list[str]:
        """The functions that have not returned, also those that interrupts left."""
        assert self.stacks
        stacks: list[Stack] = [*self.stacks.left[node], self.stacks.stacks[node]]
        return [frame.name for stack in stacks for frame in stack.frames]

    def moved(self, cycle: int, node: int, now: list[str]) -> Iterator[Json]:
        """The ends and beginnings that lead from the functions before to those of now."""
        before = self.depths[node]
        same = 0
        while same < min(len(before), len(now)) and before[same] == now[same]:
            same += 1
        for _ in before[same:]:
            yield self.event("E", cycle, node, Thread.FUNCTIONS)
        for name in now[same:]:
            yield self.event("B", cycle, node, Thread.FUNCTIONS, name=name, args={"cycle": cycle})
        self.depths[node] = now

    def serial(self, cycle: int, node: int, byte: int) -> Iterator[Json]:
        line = self.lines.get(node)
        if line and (cycle - line[1] > SILENCE or len(line[2]) == LONGEST_LINE):
            yield from self.end_line(node)
            line = None
        if byte in LINE_ENDS:
            yield from self.end_line(node)
            return
        first, data = (line[0], line[2]) if line else (cycle, bytearray())
        data.append(byte)
        self.lines[node] = first, cycle, data

    def end_line(self, node: int) -> Iterator[Json]:
        line = self.lines.pop(node, None)
        if line:
            text = "".join(chr(byte) if 0x20 <= byte < 0x7F else f"\\x{byte:02X}" for byte in line[2])
            yield self.span(line[0], line[1] + 1, node, Thread.USART0, text, hex=line[2].hex(" ").upper())

    def ended(self, cycle: int, node: int) -> Iterator[Json]:
        """What is open at a node ends here: it stopped, or the trace is over."""
        yield from self.end_line(node)
        yield from self.left(cycle, node)

    def left(self, cycle: int, node: int) -> Iterator[Json]:
        """What instructions tell ends here."""
        yield from self.moved(cycle, node, [])
        since = self.sleeping.pop(node, None)
        if since is not None:
            yield self.span(since, cycle, node, Thread.PROCESSOR, "asleep")
        while self.interrupts[node]:
            first, name = self.interrupts[node].pop()
            yield self.span(first, cycle, node, Thread.INTERRUPTS, name)


def written(events: Iterable[Json], about: Mapping[str, str]) -> Iterator[str]:
    """The text of the file, piece by piece."""
    yield '{"displayTimeUnit": "ms", "otherData": ' + json.dumps(dict(about)) + ', "traceEvents": [\n'
    for number, event in enumerate(events):
        yield (",\n" if number else "") + json.dumps(event)
    yield "\n]}\n"
