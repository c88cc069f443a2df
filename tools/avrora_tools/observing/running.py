"""What the simulator tells of quantities: their values as a cycle begins (`look`), and each new value after it
(`watch`)."""
import contextlib
import dataclasses
import itertools
import os
import subprocess
import tempfile
from collections.abc import Iterator, Mapping, Sequence
from dataclasses import dataclass
from typing import IO, cast

from avrora_tools import files
from avrora_tools.errors import BadInput, CannotWork
from avrora_tools.expectations import REFUSALS
from avrora_tools.groups import Groups
from avrora_tools.observing.places import Change, Place, change_of, text_of
from avrora_tools.observing.quantities import Names, Quantity
from avrora_tools.observing.settling import SETTLING, Moment, Settler
from avrora_tools.programs import Program, Programs
from avrora_tools.scenarios import Scenario
from avrora_tools.states import Node, State


@dataclass(frozen=True)
class Run:
    """A run of a scenario: the simulator, the folder of its images, its file, its limit, and the state in which it
    begins with its cycle, or None for reset."""

    simulator: str
    folder: str
    scenario: str
    limit: int
    state: str | None = None
    first: int = 0
    moves: str | None = None  # a file of one move, which the run from the state on makes

    @classmethod
    def of(cls, simulator: str, scenario: str, limit: int, state: str | None = None) -> "Run":
        """The run of the scenario in a file, which has so many cycles. Raises BadInput where the state is none."""
        path = os.path.abspath(scenario)
        first = State.load(state).cycle if state else 0
        return cls(simulator, os.path.dirname(path), path, limit, os.path.abspath(state) if state else None, first)

    def from_state(self, state: str | None, cycle: int) -> "Run":
        """The same from a state of it on, in the file `state`."""
        return dataclasses.replace(self, state=state, first=cycle) if state else self

    def words(self, *words: str, more: str | None = None) -> list[str]:
        """The words of a call; behind those that are given the state, and what stands behind it."""
        return [self.simulator, *words, *([self.state] if self.state else []), *([more] if more else [])]

    def looked(self, cycle: int) -> State:
        """The state as a cycle begins."""
        with self.called("look", self.scenario, str(cycle)) as output:
            text = output.read()
        return State.of_text(text.decode("ascii"), f"the state in cycle {cycle}")

    def changes(self, first: int, end: int, places: Sequence[Place]) -> Iterator[Change]:
        """What happens at places from a cycle on and before another."""
        with tempfile.NamedTemporaryFile("w", prefix="avrora-places-", encoding="ascii") as file:
            file.write(text_of(places))
            file.flush()
            with self.called("watch", self.scenario, str(first), str(end), file.name, more=self.moves) as output:
                for line in output:
                    yield change_of(line.decode("ascii"))

    @contextlib.contextmanager
    def called(self, *words: str, more: str | None = None) -> Iterator[IO[bytes]]:
        """What the simulator writes. Behind its end, raises BadInput where it refused something and CannotWork where it
        failed."""
        groups = Groups()
        with tempfile.TemporaryFile() as errors:
            streams = {"stdin": subprocess.DEVNULL, "stdout": subprocess.PIPE, "stderr": errors}
            with groups.started(self.words(*words, more=more), cwd=self.folder, **streams) as process:
                output = cast(IO[bytes], process.stdout)
                yield output
                output.close()
                status = process.wait()
            if status:
                errors.seek(0)
                said = files.printable(errors.read(4096).decode("utf-8", "replace").strip())
                fault = BadInput if status in REFUSALS else CannotWork
                raise fault(f"avrora {words[0]}: {ending(status, said)}")


def ending(status: int, said: str) -> str:
    how = f"killed by signal {-status}" if status < 0 else f"status {status}"
    return f"{how}: {said}" if said else how


Selected = Mapping[int, Sequence[Quantity]]

LEAD = 8 * SETTLING  # cycles about a span: longer than it takes to write a value of eight bytes


@dataclass(frozen=True)
class Observed:
    """Quantities of the nodes of a run, with their values from a cycle on. `torn`: each byte of a value counts at
    once."""

    run: Run
    quantities: Selected
    torn: bool = False

    def places(self) -> list[Place]:
        return [place for node, found in self.quantities.items() for one in found for place in one.places(node)]

    def held_in(self, state: State) -> dict[tuple[int, int], bytes]:
        """The bytes of each quantity in a state."""
        return {
            (node, number): read(state.nodes[node], one.address, one.size)
            for node, found in self.quantities.items()
            for number, one in enumerate(found)
        }

    def values(self, cycle: int) -> dict[tuple[int, int], bytes]:
        """The bytes as a cycle begins, half written or not."""
        return self.held_in(self.run.looked(cycle))

    def followed(self, first: int, end: int) -> tuple[dict[tuple[int, int], bytes], Iterator[Moment]]:
        """The values as a cycle begins, and each new one from it on and before another cycle. A value may be half
        written at either: so a few cycles more are looked at, and a value that becomes whole later is the old one."""
        begun, ended = max(first - LEAD, self.run.first), min(end + LEAD, self.run.limit)
        values = self.values(begun)
        if begun == ended:
            return values, iter(())
        settler = Settler(self.quantities, dict(values), self.torn)
        numbers = {(node, one.name): k for node, found in self.quantities.items() for k, one in enumerate(found)}
        coming = settler.moments(self.run.changes(begun, ended, self.places()))
        after: list[Moment] = []
        for moment in coming:
            if moment.cycle >= first:
                after.append(moment)
                break
            values[moment.node, numbers[moment.node, moment.quantity.name]] = moment.held
        return values, itertools.takewhile(lambda moment: moment.cycle < end, itertools.chain(after, coming))

    def moments(self, first: int, end: int) -> Iterator[Moment]:
        """Each new value from a cycle on and before another."""
        return self.followed(first, end)[1]


def read(node: Node, address: int, size: int) -> bytes:
    """Bytes of a node's data space, those of SP and SREG too, which a state has among its numbers."""
    special = {0x5D: node["SP"] & 0xFF, 0x5E: node["SP"] >> 8, 0x5F: node["SREG"]}
    return bytes(special.get(at, node.data[at] if at < len(node.data) else 0) for at in range(address, address + size))


class Network:
    """The names of all nodes of a scenario, by their programs. Messages say how the user names a program."""

    def __init__(self, scenario: Scenario, programs: Programs, named_by: str = "-e") -> None:
        self.scenario, self.programs, self.named_by = scenario, programs, named_by
        self.by_program: dict[Program | None, Names] = {}

    def names(self, node: int) -> Names:
        program = self.programs.of(node)
        if program not in self.by_program:
            self.by_program[program] = Names(program, self.named_by)
        return self.by_program[program]

    def selected(self, words: Sequence[str], nodes: Sequence[int]) -> dict[int, list[Quantity]]:
        """The quantities that names and patterns such as `queue*` stand for at each of these nodes. Raises BadInput
        where one stands for nothing at any of them."""
        found: dict[int, dict[str, Quantity]] = {node: {} for node in nodes}
        for word in words:
            faults: list[BadInput] = []
            for node in nodes:
                try:
                    found[node].update((one.name, one) for one in self.names(node).matching(word))
                except BadInput as fault:
                    faults.append(fault)
            if len(faults) == len(nodes):
                raise faults[0]
        return {node: list(by_name.values()) for node, by_name in found.items()}
