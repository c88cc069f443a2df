"""A run as a whole, whatever cycle one asks for: states, traced rows, what is seen at places, and events. All of it is
asked of the simulator, which gives the same each time; what was asked for is kept for a while."""
import bisect
import collections
import concurrent.futures
import contextlib
import functools
import os
import re
import subprocess
import tempfile
from collections.abc import Callable, Iterable, Iterator
from dataclasses import dataclass
from typing import NamedTuple, TypeVar

from avrora_tools import files, images, toml
from avrora_tools.commands.window import windowed
from avrora_tools.debugging.checkpoints import Checkpoints
from avrora_tools.debugging.replays import Replay, all_places
from avrora_tools.debugging.sightings import Sightings, changes_of
from avrora_tools.errors import BadInput, CannotWork
from avrora_tools.observing.places import Kind, Place, text_of
from avrora_tools.scenarios import Scenario
from avrora_tools.states import CORE, EPOCH, State

# So many cycles are traced at once, instruction by instruction.
STEP_SPAN = 1_000

# What is kept: states in memory, windows for steps, replays, epochs' events.
KEPT_STATES, KEPT_WINDOWS, KEPT_REPLAYS, KEPT_EPOCHS = 32, 64, 64, 64

# Whoever steps over the end of a window goes on there: so many are asked for at once.
WINDOWS_AHEAD = 3

# The statuses by which the simulator refuses what it reads.
REFUSED = (2, 4, 5, 8)

# The words of the vectors, at which a node begins that wakes; the instruction that sends it to sleep; from sleep it
# takes so many cycles to the vector.
VECTORS = range(0x0002, 0x0046, 2)
SLEEP = b"\x88\x95"
WAKING = 8

# A node that is awake mostly has a row among the last so many bytes of a trace.
NEAR_BYTES = 16_384

# A step so near the end of a span asks for the next one too, in cycles.
NEAR = STEP_SPAN // 4

STOP_PLACE = CORE.index("stop") + 2  # among the words of a line `core` of a state


class Traced(NamedTuple):
    """A row of the processor: its cycle, whether an instruction begins, an interrupt is entered or the node stops, the
    word address of what begins, is left, or stops, and the rest of the row."""

    cycle: int
    kind: str  # instr, enter, stop
    address: int
    rest: str


class Doing(NamedTuple):
    """What a node does: the cause that stopped it for good, and whether it sleeps."""

    stop: str | None
    asleep: bool


class Happened(NamedTuple):
    """Any other row: its cycle, node, kind, and rest."""

    cycle: int
    node: int
    kind: str
    rest: str


OTHER = re.compile(rb"^(\d+) (\d+) (sent|heard|serial|stop) ([^\n]*)$", re.M)


class Window:
    """The processor's rows of all nodes in a span, in order. Those of a node are read when they are asked for."""

    def __init__(self, text: bytes, first: int, nodes: int) -> None:
        """`text` is a trace that has all rows from the cycle `first` on."""
        self.text = text[line_at(text, first) :]
        self.read: list[tuple[list[Traced], list[int]] | None] = [None] * nodes

    def of(self, node: int) -> tuple[list[Traced], list[int]]:
        """A node's rows, and their cycles."""
        found = self.read[node]
        if found is None:
            like = re.compile(rb"^\d+ %d (?:instr|enter|stop) [^\n]*" % node, re.M)
            rows = [traced_of(match[0].decode("ascii")) for match in like.finditer(self.text)]
            found = self.read[node] = rows, [row.cycle for row in rows]
        return found

    def last_between(self, node: int, first: int, cycle: int) -> Traced | None:
        """A node's last row from a cycle on and before another; no other row is read for it."""
        like = re.compile(rb"^\d+ %d (?:instr|enter|stop) [^\n]*" % node, re.M)
        lowest, end = line_at(self.text, first), line_at(self.text, cycle)
        for begin in (self.text.rfind(b"\n", lowest, max(end - NEAR_BYTES, lowest)) + 1, lowest):
            found = None
            for found in like.finditer(self.text, max(begin, lowest), end):
                pass
            if found:
                return traced_of(found[0].decode("ascii"))
        return None

    def begins_at(self, words: Iterable[int]) -> Iterator[tuple[int, int, int]]:
        """Each instruction that begins at one of these word addresses: its cycle, node and address."""
        places = b"|".join(b"%04X" % word for word in sorted(set(words)))
        for match in re.finditer(rb"^(\d+) (\d+) instr (%s) " % places, self.text, re.M):
            yield int(match[1]), int(match[2]), int(match[3], 16)


@dataclass
class Beginning:
    """A replay whose parts are on their way."""

    state: "concurrent.futures.Future[State]"
    text: "concurrent.futures.Future[bytes]"
    made: Replay | None = None

    def replay(self, node: int) -> Replay:
        if self.made is None:
            self.made = Replay(self.state.result().nodes[node], changes_of(self.text.result()))
        return self.made


class History:
    """The run of a scenario."""

    def __init__(
        self, scenario: str, simulator: str, folder: str, state: str | None = None, place: str | None = None
    ) -> None:
        """`folder` is one for files of its own, which whoever made it clears away; the run begins in the state of the
        file `state`, else at reset."""
        self.simulator, self.own = simulator, folder
        self.place = os.path.abspath(place or os.path.dirname(os.path.abspath(scenario)))
        self.path = os.path.abspath(scenario)
        marks = {self.path: mark_of(self.path)}
        self.text = files.read_text(scenario).removeprefix(toml.BYTE_ORDER_MARK)
        self.scenario = Scenario.of_text(self.text, files.shown(scenario), self.place)
        self.scenario.refuse_endless()
        self.limit, self.nodes = self.scenario.cycles, len(self.scenario.images)
        # Without the lines of its limit and window, which each window has of its own.
        self.rest = windowed(self.text, 0, 1).split("\n", 2)[2]
        self.state_file = os.path.abspath(state) if state else None
        named = [os.path.join(self.place, image) for image in self.scenario.images]
        # What the run is of: each file as it was at first.
        self.marks = marks | {path: mark_of(path) for path in [*named, *filter(None, [self.state_file])]}
        self.first = State.load(state).cycle if state else 0
        self.calls = 0
        cpus = os.cpu_count() or 1
        # What gdb waits for, and what is searched ahead: neither waits for the other.
        self.pool = concurrent.futures.ThreadPoolExecutor(cpus)
        self.searching = concurrent.futures.ThreadPoolExecutor(cpus)
        self.checkpoints = Checkpoints(
            folder, self.state_file, self.first // EPOCH, spans(self.limit, EPOCH), self.saved
        )
        self.sightings = Sightings(self.first, self.limit, self.watched, self.searching, cpus)
        self.windows: collections.OrderedDict[int, concurrent.futures.Future[Window]] = collections.OrderedDict()
        self.states: collections.OrderedDict[int, concurrent.futures.Future[State]] = collections.OrderedDict()
        self.replay_places = functools.lru_cache(None)(lambda node: text_of(all_places(node)))
        self.replays: collections.OrderedDict[tuple[int, int], Beginning] = collections.OrderedDict()
        self.events = functools.lru_cache(KEPT_EPOCHS)(self.read_events)
        self.stopped_at = functools.lru_cache(KEPT_EPOCHS)(self.read_stopped)
        self.sleeps = functools.lru_cache(None)(self.read_sleeps)
        self.flash_of = functools.lru_cache(None)(lambda image: images.load(os.path.join(self.place, image)))

    def close(self) -> None:
        """Waits for what is under way, since it has files in the folder."""
        for pool in (self.searching, self.pool):
            pool.shutdown(cancel_futures=True)

    # ---- the simulator

    def refuse_changes(self) -> None:
        """Raises BadInput where a file of the run is another one than at first: what was kept is of the run before."""
        for path, mark in self.marks.items():
            if mark_of(path) != mark:
                raise BadInput(f"{files.shown(path)} changed since this began: start `avrora-tools gdb` again")

    def run(self, *words: str) -> bytes:
        """What the simulator writes. Raises BadInput where it refuses something, CannotWork where it fails."""
        self.calls += 1
        try:
            done = subprocess.run(
                [self.simulator, *words], cwd=self.place, stdin=subprocess.DEVNULL, capture_output=True, check=False
            )
        except OSError as fault:
            raise CannotWork(f"cannot run {files.shown(self.simulator)}: {fault.strerror}") from None
        self.refuse_changes()
        if done.returncode:
            said = files.printable((done.stderr.decode("utf-8", "replace").strip().splitlines() or [""])[-1])
            raised = BadInput if done.returncode in REFUSED else CannotWork
            raise raised(f"the simulator ended with status {done.returncode}: {said}")
        return done.stdout

    def saved(self, epochs: int, state: str | None) -> bytes:
        return self.run("save", self.path, str(epochs), *([state] if state else []))

    def checkpoint(self, epoch: int) -> str | None:
        """The file of the state at the beginning of an epoch; None where that is reset."""
        return self.checkpoints.made(epoch)

    # ---- states

    def state(self, cycle: int) -> State:
        """The state as a cycle begins."""
        return self.state_soon(cycle).result()

    def state_soon(self, cycle: int) -> "concurrent.futures.Future[State]":
        """The same, asked for now."""
        return kept(self.states, cycle, KEPT_STATES, lambda: self.pool.submit(self.looked, cycle))

    def looked(self, cycle: int) -> State:
        with self.checkpoints.state(min(cycle, self.limit - 1) // EPOCH) as start:
            text = self.run("look", self.path, str(cycle), *([start] if start else []))
        return State.of_text(text.decode("ascii"), f"the state in cycle {cycle}")

    # ---- the processor's rows

    def traced_text(self, first: int, end: int) -> bytes:
        """The trace from the epoch on in which `first` lies, with all instructions from `first` on, up to `end`."""
        with (
            tempfile.NamedTemporaryFile("w", dir=self.own, suffix=".toml", encoding="utf-8", newline="") as file,
            self.checkpoints.state(first // EPOCH) as start,
        ):
            file.write(f"cycles = {end}\nwindow = [{first}, {end}]\n{self.rest}")
            file.flush()
            return self.run(*(["resume", file.name, start] if start else ["run", "--plain", file.name]))

    def window(self, number: int) -> Window:
        """The rows of the span with this number, each of STEP_SPAN cycles."""
        return self.window_soon(number).result()

    def window_soon(self, number: int) -> "concurrent.futures.Future[Window]":
        """The same, asked for now."""
        return kept(self.windows, number, KEPT_WINDOWS, lambda: self.pool.submit(self.read_window, number))

    def read_window(self, number: int) -> Window:
        first, end = max(number * STEP_SPAN, self.first), min((number + 1) * STEP_SPAN, self.limit)
        return Window(self.traced_text(first, end), first, self.nodes)

    def next_row(self, node: int, cycle: int) -> Traced | None:
        """The node's first row behind a cycle, or None."""
        number = cycle // STEP_SPAN
        while number < spans(self.limit, STEP_SPAN):
            rows, cycles = self.window(number).of(node)
            place = bisect.bisect_right(cycles, cycle)
            if place < len(rows):
                return rows[place]
            number += 1
            for ahead in range(number, min(number + WINDOWS_AHEAD, spans(self.limit, STEP_SPAN))) if rows else ():
                self.window_soon(ahead)
            if not rows and number < spans(self.limit, STEP_SPAN):
                waking = self.waking(node, number * STEP_SPAN)
                if waking is None:
                    return None
                number = max(number, (waking - WAKING) // STEP_SPAN)
        return None

    def last_row(self, node: int, cycle: int) -> Traced | None:
        """The node's last row before a cycle, or None."""
        number, lowest = min(cycle, self.limit - 1) // STEP_SPAN, self.first // STEP_SPAN
        while number >= lowest:
            rows, cycles = self.window(number).of(node)
            place = bisect.bisect_left(cycles, cycle)
            if place:
                return rows[place - 1]
            if not rows:
                quiet = self.quiet_since(node, number * STEP_SPAN)
                if quiet is None:
                    return None
                number = quiet // STEP_SPAN
            else:
                number -= 1
        return None

    def waking(self, node: int, cycle: int) -> int | None:
        """In which cycle from this one on a node that sleeps begins an interrupt; None where it never does."""
        places = [Place(node, Kind.AT, word) for word in VECTORS]
        for _, seen in self.sightings.searched(self.sightings.pieces_on(cycle, self.limit), places):
            if seen:
                return seen[0].cycle
        return None

    def quiet_since(self, node: int, cycle: int) -> int | None:
        """In which cycle before this one a node that is quiet stopped or fell asleep; None where it never did."""
        if (stop := self.stop_before(node, cycle)) is not None:
            return stop
        places = [Place(node, Kind.AT, word) for word in self.sleeps(self.scenario.images[node])]
        for _, seen in self.sightings.searched(self.sightings.pieces_back(cycle, self.first), places) if places else ():
            if seen:
                return seen[-1].cycle
        return None

    def flash(self, node: int) -> bytes:
        return self.flash_of(self.scenario.images[node])

    def read_sleeps(self, image: str) -> list[int]:
        """The word addresses of all that may be an instruction `sleep` in an image."""
        flash = self.flash_of(image)
        return [at // 2 for at in range(0, len(flash), 2) if flash[at : at + 2] == SLEEP]

    # ---- a node in short spans

    def foresee(self, node: int, cycle: int) -> None:
        """Asks for the node's replay and all rows about a cycle, and beside it where that is near."""
        number, place = divmod(cycle, STEP_SPAN)
        near = [number + 1] if place > STEP_SPAN - NEAR else [number - 1] if place < NEAR else []
        for beside in [number, *near]:
            if not self.first // STEP_SPAN <= beside < spans(self.limit, STEP_SPAN):
                continue
            self.window_soon(beside)
            kept(self.replays, (node, beside), KEPT_REPLAYS, lambda: self.begin_replay(node, beside))

    def begin_replay(self, node: int, number: int) -> Beginning:
        first, end = max(number * STEP_SPAN, self.first), min((number + 1) * STEP_SPAN, self.limit)
        text = self.pool.submit(self.watched_text, first, end, self.replay_places(node))
        return Beginning(self.state_soon(first), text)

    def replayed(self, node: int, cycle: int) -> bytearray | None:
        """The bytes of a node as a cycle begins, as `Replay.at` tells them; None where they were not asked for."""
        begun = self.replays.get((node, cycle // STEP_SPAN))
        return begun.replay(node).at(cycle) if begun else None

    def row_at(self, node: int, cycle: int) -> Traced | None:
        """The node's row in a cycle, where the rows about it are known and it has one."""
        return self.row_in(node, cycle) if (node, cycle // STEP_SPAN) in self.replays else None

    def row_in(self, node: int, cycle: int) -> Traced | None:
        """The node's row in a cycle; None where it has none, as behind the end of the run."""
        if cycle >= self.limit:
            return None
        rows, cycles = self.window(cycle // STEP_SPAN).of(node)
        place = bisect.bisect_left(cycles, cycle)
        return rows[place] if cycles[place : place + 1] == [cycle] else None

    def doing(self, node: int, cycle: int) -> Doing:
        """What a node does as a cycle begins: from a state and rows, where both are known about there."""
        number = cycle // STEP_SPAN
        made = [one for one, state in self.states.items() if state.done()]
        known = [one for one in made if one <= cycle and one // STEP_SPAN == number]
        if number not in self.windows or not known:
            known = [cycle]
        begin = max(known)
        one = self.state(begin).nodes[node]
        if begin == cycle or one.stop():
            return Doing(one.stop(), bool(one["asleep"]))
        last = self.window(number).last_between(node, begin, cycle)
        if last is None:
            return Doing(None, bool(one["asleep"]))
        return Doing(last.rest if last.kind == "stop" else None, last.rest == "sleep")

    # ---- places

    def watched(self, first: int, end: int, places: list[Place]) -> bytes:
        """What is seen at places from a cycle on and before another, which lie in one epoch."""
        return self.watched_text(first, end, text_of(places))

    def watched_text(self, first: int, end: int, places: str) -> bytes:
        with (
            tempfile.NamedTemporaryFile("w", dir=self.own, encoding="ascii") as file,
            self.checkpoints.state(first // EPOCH) as start,
        ):
            file.write(places)
            file.flush()
            return self.run("watch", self.path, str(first), str(end), file.name, *([start] if start else []))

    # ---- sends, samples, USART0, stops

    def read_events(self, epoch: int) -> list[Happened]:
        """The rows of an epoch that are not the processor's."""
        first, end = max(epoch * EPOCH, self.first), min((epoch + 1) * EPOCH, self.limit)
        text = self.traced_text(end - 1, end)
        rows = (Happened(int(it[1]), int(it[2]), it[3].decode(), it[4].decode()) for it in OTHER.finditer(text))
        return [row for row in rows if first <= row.cycle < end]

    def read_stopped(self, epoch: int) -> frozenset[int]:
        """The nodes that stand still as an epoch begins, for good."""
        with self.checkpoints.state(epoch) as path:
            lines = files.read_text(path).split("\n") if path else []
        found = [line.split(" ") for line in lines if line.startswith("core ")]
        return frozenset(int(words[1]) for words in found if words[STOP_PLACE] != "0")

    def stops(self, first: int, end: int) -> list[tuple[int, Traced]]:
        """The rows with which nodes stop in the epoch of a cycle, from that cycle on and before another."""
        epoch = first // EPOCH
        if (epoch + 1) * EPOCH < self.limit and self.stopped_at(epoch + 1) == self.stopped_at(epoch):
            return []
        return [
            (one.node, stop_of(one)) for one in self.events(epoch) if one.kind == "stop" and first <= one.cycle < end
        ]

    def stop_before(self, node: int, cycle: int) -> int | None:
        """In which cycle before this one the node stopped; None where it did not."""
        epoch = min(max(cycle - 1, 0), self.limit - 1) // EPOCH
        while epoch > self.first // EPOCH and node in self.stopped_at(epoch):
            epoch -= 1
        return next((row.cycle for whose, row in self.stops(epoch * EPOCH, cycle) if whose == node), None)

    def events_from(self, cycle: int) -> Iterator[Happened]:
        """The events behind a cycle, in order."""
        for epoch in range(cycle // EPOCH, spans(self.limit, EPOCH)):
            yield from (row for row in self.events(epoch) if row.cycle > cycle)

    def events_before(self, cycle: int) -> Iterator[Happened]:
        """The events before a cycle, the last first."""
        for epoch in range(min(cycle, self.limit - 1) // EPOCH, self.first // EPOCH - 1, -1):
            yield from (row for row in reversed(self.events(epoch)) if row.cycle < cycle)


# The place, size and times of a file; None where there is none.
Mark = tuple[int, int, int, int] | None


def mark_of(path: str) -> Mark:
    """What tells whether a file was changed or replaced."""
    try:
        found = os.stat(path)
    except (OSError, ValueError):  # ValueError: a name that no file has
        return None
    return found.st_ino, found.st_size, found.st_mtime_ns, found.st_ctime_ns


Key = TypeVar("Key")
Value = TypeVar("Value")


def kept(
    all_: "collections.OrderedDict[Key, Value]", key: Key, most: int, make: Callable[[], Value]
) -> Value:
    """A value by its key, made where it is not kept; the one used last behind the others."""
    if key not in all_:
        all_[key] = make()
    all_.move_to_end(key)
    while len(all_) > most:
        all_.popitem(last=False)
    return all_[key]


def spans(end: int, length: int) -> int:
    """How many spans of a length cover the cycles below `end`."""
    return (end + length - 1) // length


def traced_of(line: str) -> Traced:
    cycle, _, kind, address, *rest = line.split(" ", 4)
    if kind == "enter":
        return Traced(int(cycle), kind, int(rest[0], 16), address)
    return Traced(int(cycle), kind, int(address, 16), rest[0])


def stop_of(row: Happened) -> Traced:
    address, _, cause = row.rest.partition(" ")
    return Traced(row.cycle, row.kind, int(address, 16), cause)


def line_at(text: bytes, cycle: int) -> int:
    """Where in a trace the first line of a cycle or a later one begins."""
    low, high = 0, len(text)
    while low < high:
        begin = text.rfind(b"\n", 0, (low + high) // 2) + 1
        after = text.find(b"\n", begin) + 1 or len(text)
        if int(text[begin : text.index(b" ", begin)]) < cycle:
            low = after
        else:
            high = begin
    return low


@contextlib.contextmanager
def history(
    scenario: str, simulator: str, state: str | None = None, place: str | None = None
) -> Iterator[History]:
    """The run of a scenario, from a state on or from reset, with a folder of its own while it is used. Its images are
    in the folder `place`, else beside the scenario."""
    with tempfile.TemporaryDirectory(prefix="avrora-gdb-") as folder:
        found = History(scenario, simulator, folder, state, place)
        try:
            yield found
        finally:
            found.close()
