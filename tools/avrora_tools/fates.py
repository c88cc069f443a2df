"""What became of the bytes that nodes sent, link by link."""
import collections
from collections.abc import Callable
from typing import NamedTuple

from avrora_tools import maps, scenarios, traces
from avrora_tools.events import CLASH, ONE_BYTE, Heard, Sent
from avrora_tools.hearing import Samples, shown
from avrora_tools.scenarios import OnAir, Scenario
from avrora_tools.states import State


class Flight(NamedTuple):
    """A byte on the air, and by whom it was heard: a dictionary from the hearer to ONE_BYTE or CLASH. A byte that was
    sent before the trace begins is not `counted`."""

    cycle: int
    heard: dict[int, int]
    counted: bool


class Fates:
    """What became of the sends: counts for each link, and the flights that may still be heard."""

    def __init__(self, scenario: Scenario) -> None:
        self.from_node: dict[int, list[scenarios.Link]] = collections.defaultdict(list)
        for link in scenario.links:
            self.from_node[link.sender].append(link)
        self.flights: dict[int, collections.deque[Flight]] = collections.defaultdict(collections.deque)
        self.counts: collections.Counter[tuple[tuple[int, int], str]] = collections.Counter()
        self.life = max([scenario.latency, *(link.latency for link in scenario.links)]) + scenario.byte_time

    def send(self, node: int, cycle: int, counted: bool = True) -> None:
        flights = self.flights[node]
        while flights and flights[0].cycle + self.life <= cycle:
            self.end(node, flights.popleft())
        flights.append(Flight(cycle, {}, counted))

    def hear(self, hearer: int, status: int, on_air: list[OnAir]) -> None:
        for one in on_air:
            flight = next(flight for flight in self.flights[one.sender] if flight.cycle == one.cycle)
            if flight.heard.get(hearer) != ONE_BYTE:
                flight.heard[hearer] = status

    def end(self, node: int, flight: Flight) -> None:
        """Nobody hears this byte any more."""
        if not flight.counted:
            return
        for link in self.from_node[node]:
            ends = link.sender, link.hearer
            fate = (
                "clean"
                if flight.heard.get(link.hearer) == ONE_BYTE
                else "clashed"
                if link.hearer in flight.heard
                else "unheard"
            )
            self.counts[ends, "sent"] += 1
            self.counts[ends, fate if scenarios.is_open(link, flight.cycle) else "closed"] += 1

    def end_all(self) -> None:
        for node, flights in self.flights.items():
            while flights:
                self.end(node, flights.popleft())


class Reader(Samples):
    """The same, and what became of the sends."""

    def __init__(
        self, scenario: Scenario, state: State | None, tells_clashes: bool, tell: Callable[[str], None] = print
    ) -> None:
        super().__init__(scenario, state, tell)
        self.tells_clashes = tells_clashes
        self.fates = Fates(scenario)
        for cycle, node, _ in state.sends if state else ():
            self.fates.send(node, cycle, counted=False)

    def read(self, trace: traces.Trace) -> None:
        super().read(trace)
        self.fates.end_all()

    def send(self, cycle: int, node: int, event: Sent) -> None:
        super().send(cycle, node, event)
        self.fates.send(node, cycle)

    def sample(self, trace: traces.Trace, cycle: int, node: int, event: Heard) -> list[OnAir]:
        on_air = super().sample(trace, cycle, node, event)
        status, _, _ = scenarios.answer(on_air, cycle)
        if status == event.status:
            self.fates.hear(node, status, on_air)
        if event.status == CLASH and self.tells_clashes:
            self.tell(f"{cycle} clash at node {node}: {', '.join(map(shown, on_air))}")
        return on_air

    def qualities(self) -> dict[maps.Ends, maps.Quality]:
        """How well each link does."""
        counts, fates = self.fates.counts, ("sent", "clean", "clashed", "unheard", "closed")
        ends = [(link.sender, link.hearer) for link in self.scenario.links]
        return {one: maps.Quality(*(counts[one, fate] for fate in fates)) for one in ends}


FATES = ("sent", "closed", "clean", "clashed", "unheard")
