"""For how long each node's radio listened, which no report tells: the scenario is run again, and both registers of the
pin that selects the radio are watched (docs/AIR.md: PB0 an output, and low). While a byte is on the air its radio does
not listen, selected or not."""
import os
import re
import tempfile
from collections.abc import Iterator, Mapping, Sequence
from dataclasses import dataclass, field
from typing import Any, NamedTuple

from avrora_tools.observing.places import Change, Kind, Place, change_of, text_of
from avrora_tools.profiles import Spent
from avrora_tools.scenarios import Scenario
from avrora_tools.states import EPOCH
from avrora_tools.sweeping.simulation import Simulator, scenario_text

PORTB, DDRB = 0x38, 0x37  # data addresses
PIN = 1
STRETCH = 64  # epochs that one call runs, so that what it writes is no more than memory has room for

SENT = re.compile(rb"^(\d+) (\d+) sent ", re.MULTILINE)


@dataclass(frozen=True)
class Radio:
    """In how many of the cycles of a span a node's radio listened."""

    listened: int


class Send(NamedTuple):
    cycle: int
    node: int


@dataclass
class Pin:
    """The pin of one node; cycles are counted from `first` on, and before `last`."""

    first: int
    last: int
    registers: dict[int, int] = field(default_factory=lambda: {PORTB: 0, DDRB: 0})  # as at reset
    since: int = 0  # up to here they are counted
    sends_until: int = 0
    listened: int = 0

    def is_selected(self) -> bool:
        return bool(self.registers[DDRB] & ~self.registers[PORTB] & PIN)

    def count_to(self, cycle: int) -> None:
        if self.is_selected():
            self.listened += max(0, min(cycle, self.last) - max(self.since, self.first, self.sends_until))
        self.since = cycle

    def send(self, cycle: int, byte_time: int) -> None:
        self.count_to(cycle)
        self.sends_until = cycle + byte_time

    def change(self, cycle: int, address: int, byte: int) -> None:
        """A register gets a byte in this cycle, in which the radio comes behind the processor."""
        self.count_to(cycle)
        self.registers[address] = byte


def watched_radios(
    simulator: Simulator, scenario: Scenario, document: Mapping[str, Any], span: tuple[int, int], nodes: Sequence[Spent]
) -> list[Radio]:
    """Of each node, whose report of a span is given."""
    first, end = span
    pins = [Pin(first, end - node.stopped) for node in nodes]
    for event in events(simulator, scenario, document, end):
        if isinstance(event, Send):
            pins[event.node].send(event.cycle, scenario.byte_time)
        elif event.byte is not None:
            pins[event.place.node].change(event.cycle, event.place.address, event.byte)
    for pin in pins:
        pin.count_to(end)
    return [Radio(pin.listened) for pin in pins]


def events(
    simulator: Simulator, scenario: Scenario, document: Mapping[str, Any], end: int
) -> Iterator[Change | Send]:
    """The changes of the pins' registers and the sends from reset on and before a cycle, in order of cycle."""
    with tempfile.TemporaryDirectory(prefix="avrora-energy-") as folder:
        path, places, state = (os.path.join(folder, name) for name in ("s.toml", "places", "state"))
        watched = [Place(node, Kind.BYTE, at) for node in range(len(scenario.images)) for at in (DDRB, PORTB)]
        scenario_up_to_end = scenario_text({**document, "cycles": end, "window": [0, 0]})
        for name, text in ((path, scenario_up_to_end), (places, text_of(watched))):
            with open(name, "w", encoding="utf-8") as file:
                file.write(text)
        begun: tuple[str, ...] = ()
        for begin in range(0, end, STRETCH * EPOCH):
            until = min(begin + STRETCH * EPOCH, end)
            output = simulator.call("watch", path, str(begin), str(until), places, *begun)
            lines = output.decode("ascii", "replace").splitlines(keepends=True)
            found: list[Change | Send] = [change_of(line) for line in lines]
            if until < end:
                rows = simulator.call("head", path, str(STRETCH), *begun)
            else:
                rows = simulator.call(*(("resume", path, *begun) if begun else ("run", "--plain", path)))
            found += [Send(int(cycle), int(node)) for cycle, node in SENT.findall(rows)]
            yield from sorted(found, key=lambda event: event.cycle)
            if until < end:
                saved = simulator.call("save", path, str(STRETCH), *begun)
                with open(state, "wb") as store:
                    store.write(saved)
                begun = (state,)
