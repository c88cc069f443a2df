"""What a handler hands over to main and writes again before main had it: a place for one thing that gets a second.

The listing tells which instructions use a variable (`sharing`); the simulator's `watch` tells when they run, and which
bytes change."""
import re
import tempfile
from collections import defaultdict
from collections.abc import Callable, Mapping
from dataclasses import dataclass, field

from avrora_tools import terminal
from avrora_tools.errors import CannotWork
from avrora_tools.hunting.changes import Document
from avrora_tools.hunting.smaller import Scene
from avrora_tools.programs import HANDLERS, Program
from avrora_tools.sweeping.sharing import Sharing, objects_of
from avrora_tools.sweeping.simulation import Simulator, scenario_text

MOST_PLACES = 8_192  # of one `watch`
LARGEST = 64  # bytes of a variable
MOST_TOLD = 2

SEEN = re.compile(rb"^(\d+) (\d+) (at|byte) ([0-9A-F]{4})", re.MULTILINE)


class Sharings:
    """What handlers and main share, of each image."""

    def __init__(self, simulator: Simulator) -> None:
        self.simulator = simulator
        self.found: dict[str, Sharing] = {}

    def of(self, image: str, program: Program) -> Sharing:
        if image not in self.found:
            listing = self.simulator.call("disasm", image).decode().splitlines()
            self.found[image] = Sharing(program, listing, objects_of(program.path))
        return self.found[image]


@dataclass(frozen=True)
class Overwritten:
    """A variable that a handler wrote in two cycles, and main did not use between; the line that wrote it again."""

    node: int
    name: str
    line: str
    before: int
    cycle: int

    def __str__(self) -> str:
        return (
            f"node {self.node} writes `{self.name}` at {self.line} in cycle {self.cycle:,}, and main has not used what "
            f"came in cycle {self.before:,}; never so where nothing is varied"
        )


@dataclass
class Visit:
    """A run of a handler that writes a variable: its number, when and where it does first, the bytes that it
    changes."""

    number: int
    cycle: int
    address: int
    changed: set[int] = field(default_factory=set)


@dataclass(frozen=True)
class Uses:
    """The word addresses at which a program's handlers begin, at which they alone write a variable that main uses, and
    at which main alone uses such variables; and whose each of their bytes is."""

    entries: frozenset[int]
    writes: Mapping[int, str]
    taken: Mapping[int, frozenset[str]]
    owners: Mapping[int, str]

    @classmethod
    def of(cls, program: Program, sharing: Sharing) -> "Uses":
        objects = [it for it in sharing.objects if 0 < it.size <= LARGEST and it.name in sharing.handed_over]
        writes: dict[int, str] = {}
        taken: dict[int, set[str]] = defaultdict(set)
        for name in sorted({it.name for it in objects}):
            for use in sharing.uses[name]:
                is_main, is_handler = use.function in sharing.of_main, use.function in sharing.of_handlers
                if is_main and not is_handler:
                    taken[use.address].add(name)
                elif use.writes and is_handler and not is_main:
                    writes[use.address] = name
        return cls(
            frozenset(it.first for it in program.functions if it.name in HANDLERS),
            writes,
            {at: frozenset(names) for at, names in taken.items()},
            {it.first + i: it.name for it in objects for i in range(it.size)},
        )

    def places(self, node: int) -> list[str]:
        """What is watched at a node."""
        addresses = sorted({*self.entries, *self.writes, *self.taken})
        return [f"{node} byte {at:04X}\n" for at in sorted(self.owners)] + [f"{node} at {at:04X}\n" for at in addresses]


class Follower:
    """Follows one node through a run: which variables are written again, each as it is for the first time."""

    def __init__(self, uses: Uses) -> None:
        self.uses = uses
        self.visits = 0
        self.pending: dict[str, Visit] = {}  # by variable: what main has not used
        self.earlier: dict[str, Visit] = {}  # and what was pending as it was written again
        self.found: dict[str, tuple[Visit, Visit]] = {}

    def at(self, cycle: int, address: int) -> None:
        """An instruction begins."""
        self.visits += address in self.uses.entries
        for taken in self.uses.taken.get(address, ()):
            self.pending.pop(taken, None)
            self.earlier.pop(taken, None)
        name = self.uses.writes.get(address)
        if name is None:
            return
        last = self.pending.get(name)
        if last is None or last.number != self.visits:
            if last is not None:
                self.earlier[name] = last
            self.pending[name] = Visit(self.visits, cycle, address)

    def byte(self, address: int) -> None:
        """A byte changes. Other bytes of the variable than those of the visit before may be another place in a
        queue."""
        name = self.uses.owners[address]
        here, before = self.pending.get(name), self.earlier.get(name)
        if here is None or here.number != self.visits:
            return
        here.changed.add(address)
        if before is not None and address in before.changed:
            self.found.setdefault(name, (before, here))


class Handing:
    """Compares failing runs with right ones."""

    def __init__(self, simulator: Simulator, sharings: Sharings, program_of: Callable[[str], Program | None]) -> None:
        """`program_of` an image."""
        self.simulator, self.sharings, self.program_of = simulator, sharings, program_of
        self.known: dict[str, Uses] = {}

    def overwritten(self, scene: Scene) -> tuple[Overwritten, ...]:
        """What is written again in the failing run, and at no node in the right one; first what is so first. Nothing
        where the simulator cannot tell."""
        try:
            return self.compared(scene)
        except CannotWork as fault:
            terminal.warn(f"what handlers hand over is not known: {fault}")
            return ()

    def compared(self, scene: Scene) -> tuple[Overwritten, ...]:
        failing = self.followed(scene.failing())
        if not any(it.found for it in failing.values()):
            return ()
        usual = {name for it in self.followed(scene.document).values() for name in it.found}
        found = []
        for node, follower in failing.items():
            program = self.program_of(scene.document["node"][node]["image"])
            for name, (before, again) in follower.found.items():
                line = program.line_at(again.address) if program else None
                if name not in usual:
                    found.append(Overwritten(node, name, line or f"{again.address:04X}", before.cycle, again.cycle))
        return tuple(sorted(found, key=lambda it: it.cycle)[:MOST_TOLD])

    def uses(self, image: str) -> Uses | None:
        program = self.program_of(image)
        if program and image not in self.known:
            self.known[image] = Uses.of(program, self.sharings.of(image, program))
        return self.known.get(image)

    def followed(self, document: Document) -> dict[int, Follower]:
        """Each node whose program hands something over, at the end of a run."""
        followers: dict[int, Follower] = {}
        places: list[str] = []
        for node, table in enumerate(document["node"]):
            uses = self.uses(table["image"])
            if uses and uses.writes and len(places) + len(uses.places(node)) <= MOST_PLACES:
                followers[node] = Follower(uses)
                places += uses.places(node)
        if not places:
            return {}
        with tempfile.TemporaryDirectory(prefix="avrora-handing-") as folder:
            with open(f"{folder}/scenario.toml", "w", encoding="utf-8") as file:
                file.write(scenario_text({**document, "window": [0, 0]}))
            with open(f"{folder}/places", "w", encoding="ascii") as file:
                file.writelines(places)
            words = (f"{folder}/scenario.toml", "0", str(document["cycles"]), f"{folder}/places")
            output = self.simulator.call("watch", *words)
        seen = ((int(cycle), kind == b"byte", int(node), int(at, 16)) for cycle, node, kind, at in SEEN.findall(output))
        for cycle, is_byte, node, address in sorted(seen):  # what begins in a cycle before what changes in it
            if is_byte:
                followers[node].byte(address)
            else:
                followers[node].at(cycle, address)
        return followers
