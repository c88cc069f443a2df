"""Whether a trace is that of a scenario: what its samples of the air heard is what its sends give."""
import collections
from collections.abc import Callable, Sequence

from avrora_tools import states, traces
from avrora_tools.errors import BadInput
from avrora_tools.events import NOTHING, Event, Heard, Sent, Stop
from avrora_tools.scenarios import Air, OnAir, Scenario, answer
from avrora_tools.states import State

MAX_TOLD = 10  # samples at fault that are told, of any number

NOTHING_ON_AIR: tuple[OnAir, ...] = ()


class Hearing:
    """Goes along with the rows of a trace, and refuses the trace of another scenario."""

    def __init__(self, scenario: Scenario, name: str) -> None:
        self.air, self.name = Air(scenario), name
        # How long a byte can be heard after it was sent: in the first so many cycles of a trace that begins late
        # a sample may hear what was sent before.
        self.life = self.air.reach + self.air.byte_time
        self.known_from: int | None = None

    def row(self, cycle: int, node: int, event: Event) -> Sequence[OnAir]:
        """What is on the air at a sample; nothing for other rows. Raises BadInput where the sample is another one."""
        if self.known_from is None:
            self.known_from = cycle + self.life
        if not isinstance(event, Heard):
            if isinstance(event, Sent):
                self.air.send(node, cycle, event.byte)
            return NOTHING_ON_AIR
        if event.status == NOTHING and cycle >= self.air.silent_from[node]:
            return NOTHING_ON_AIR
        on_air = self.air.heard(node, cycle)
        if cycle >= self.known_from and answer(on_air, cycle) != (event.status, event.byte, event.age):
            status, byte, age = answer(on_air, cycle)
            raise BadInput(
                f"{self.name}: not the trace of this scenario: in cycle {cycle} node {node} heard {event.rest}, and "
                "its "
                f"sends give {status} {byte:02X} {age}"
            )
        return on_air


class Samples:
    """Goes through the rows of a trace, and checks its samples and sends."""

    def __init__(self, scenario: Scenario, state: State | None, tell: Callable[[str], None] = print) -> None:
        """What is not as it should be, and stops, are told as lines."""
        self.scenario, self.tell = scenario, tell
        self.air = Air(scenario)
        self.life = self.air.reach + scenario.byte_time  # how long a byte can be heard after it was sent
        self.free: collections.Counter[int] = collections.Counter()  # the cycle from which on a node may send
        self.samples: collections.Counter[tuple[int, int]] = collections.Counter()
        self.sends: collections.Counter[int] = collections.Counter()
        self.faults = 0
        self.has_state = state is not None
        for cycle, node, byte in state.sends if state else ():
            self.air.send(node, cycle, byte)
        for node, one in enumerate(state.nodes if state else ()):
            self.free[node] = one["radio free"]

    def read(self, trace: traces.Trace) -> None:
        quiet = [0] * len(self.scenario.images)  # samples that hear nothing while nothing can be heard
        silent_from = self.air.silent_from
        for cycle, node, event in trace:
            if isinstance(event, Heard):
                if event.status == NOTHING and cycle >= silent_from[node]:
                    quiet[node] += 1
                else:
                    self.sample(trace, cycle, node, event)
            elif isinstance(event, Sent):
                self.send(cycle, node, event)
            elif isinstance(event, Stop):
                self.tell(f"{cycle} node {node} stopped at {event.rest}")
        for node, count in enumerate(quiet):
            self.samples[node, NOTHING] += count

    def send(self, cycle: int, node: int, event: Sent) -> None:
        if cycle < self.free[node]:
            self.fault(cycle, node, event, f"its byte before is on the air until {self.free[node]}")
        self.free[node] = cycle + self.scenario.byte_time
        self.sends[node] += 1
        self.air.send(node, cycle, event.byte)

    def sample(self, trace: traces.Trace, cycle: int, node: int, event: Heard) -> list[OnAir]:
        """Checks a sample; the bytes that are on the air at it."""
        on_air = self.air.heard(node, cycle)
        status, byte, age = answer(on_air, cycle)
        self.samples[node, event.status] += 1
        if (status, byte, age) != (event.status, event.byte, event.age):
            self.refuse_rest(trace, cycle)
            senders = ", ".join(map(shown, on_air)) or "nothing"
            self.fault(cycle, node, event, f"on the air is {senders}, so {status} {byte:02X} {age} should be heard")
        return on_air

    def refuse_rest(self, trace: traces.Trace, cycle: int) -> None:
        """Raises BadInput where what a sample heard may have been sent before the trace begins: where it may be that of
        `resume`, from a state that is not named, of an epoch's end before its first row."""
        epoch = (trace.first_row or 0) // states.EPOCH * states.EPOCH
        if epoch and not self.has_state and epoch > cycle - self.life:
            raise BadInput(
                f"{trace.name}: in cycle {cycle} a sample hears what no row sent, and the first row is of cycle "
                f"{trace.first_row}: where it is the trace of `avrora resume`, name the state (--state)"
            )

    def fault(self, cycle: int, node: int, event: Event, text: str) -> None:
        self.faults += 1
        if self.faults <= MAX_TOLD:
            self.tell(f"{cycle} node {node} {event.text}: {text}")


def shown(one: OnAir) -> str:
    """A byte on the air in words."""
    return f"{one.byte:02X} of node {one.sender} sent at {one.cycle}"
