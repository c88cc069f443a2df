"""Runs the moves of a sweep. `Tails` is all that the rest of a sweep knows of it. Runs that go on from one state, and
in which bytes of one node arrive otherwise, are made by one process, some of them at a time."""
import itertools
import json
import os
import re
import subprocess
import tempfile
import threading
from collections import deque
from collections.abc import Callable, Iterable, Iterator, Sequence
from concurrent.futures import Future, ThreadPoolExecutor, wait
from types import TracebackType
from typing import Protocol

from avrora_tools.errors import BadInput, CannotWork
from avrora_tools.expectations import REFUSALS
from avrora_tools.files import printable
from avrora_tools.groups import Groups
from avrora_tools.states import EPOCH
from avrora_tools.sweeping.events import Document, InputByte, Move, MovedScenario

Window = tuple[int, int]
NO_WINDOW = (0, 0)

MOST_IN_BATCH = 64  # runs of one process
SECONDS_A_LOOK = 0.2  # at whether to go on, while a run takes long


class Tails(Protocol):
    """Runs that all begin in one state (or at reset), each with its events moved."""

    def outputs(self, jobs: Iterable[tuple[Move, Window]]) -> Iterator[bytes]:
        """The rows of each run, from where runs begin on, in the order of the jobs; jobs are taken as they are
        needed."""

    def output(self, move: Sequence[int | None], window: Window = NO_WINDOW, until: int | None = None) -> bytes:
        """The rows of one run; a byte whose value is None never comes."""


class Simulator:
    """The program, called in the folder of a scenario's images."""

    def __init__(self, program: str, folder: str, timeout: float) -> None:
        self.program, self.folder, self.timeout = program, folder, timeout
        self.groups = Groups()

    def call(self, *words: str, runs: int = 1) -> bytes:
        """What the program writes, which makes so many runs. Raises BadInput with what it says where it refuses its
        input, and CannotWork where it fails or is killed."""
        streams = {"stdin": subprocess.DEVNULL, "stdout": subprocess.PIPE, "stderr": subprocess.PIPE}
        try:
            with self.groups.started([self.program, *words], cwd=self.folder, **streams) as process:
                output, errors = process.communicate(timeout=self.timeout * runs)
        except subprocess.TimeoutExpired:
            raise CannotWork(f"a run took more than {self.timeout:g} seconds (--timeout)") from None
        if process.returncode:
            said = printable(errors.decode(errors="replace").strip())
            if process.returncode in REFUSALS:
                raise BadInput(f"{words[0]}: {said}")
            raise CannotWork(f"avrora {words[0]}: {ending(process.returncode)}{f': {said}' if said else ''}")
        return output


def ending(status: int) -> str:
    """How a call ended that did not end well."""
    return f"killed by signal {-status}" if status < 0 else f"status {status}"


class ProcessTails:
    """Runs are made by processes, some at a time, and never by more ahead than that of what is asked for: a run each,
    or some where they go on from a state and a byte moves."""

    def __init__(self, simulator: Simulator, scenario: MovedScenario, jobs: int, state: bytes | None = None) -> None:
        """`state` is that of the cycle in which the runs begin; without it the simulator makes it."""
        self.simulator, self.scenario, self.jobs = simulator, scenario, jobs
        self.folder = tempfile.TemporaryDirectory(prefix="avrora-sweep-")
        self.names = threading.local()
        self.state_path: str | None = None
        self.head = b""  # the rows before the state, where they are known
        self.begins_in_given_state = state is not None
        self.threads: ThreadPoolExecutor | None = None  # of the runs that are asked for, while there are any
        self.is_over: Callable[[], bool] = never  # whether no more runs are to be made, nor waited for
        if state is None and scenario.begins:
            try:
                state = self.saved()
            except BaseException:
                self.folder.cleanup()
                raise
        if state is not None:
            self.state_path = os.path.join(self.folder.name, "state")
            with open(self.state_path, "wb") as file:
                file.write(state)
        self.state = state

    def __enter__(self) -> "ProcessTails":
        return self

    def __exit__(
        self, kind: type[BaseException] | None, fault: BaseException | None, trace: TracebackType | None
    ) -> None:
        self.end_runs()  # also where something else went wrong, and nobody closes what runs are asked by
        self.folder.cleanup()

    def saved(self) -> bytes:
        epochs = str(self.scenario.begins // EPOCH)
        path = self.written(self.scenario.before())
        self.head = self.simulator.call("head", path, epochs)
        return self.simulator.call("save", path, epochs)

    def written(self, document: Document) -> str:
        """Writes a scenario to the file of this thread; its path."""
        path: str | None = getattr(self.names, "path", None)
        if path is None:
            path = self.names.path = os.path.join(self.folder.name, f"{threading.get_ident()}.toml")
        with open(path, "w", encoding="utf-8") as file:
            file.write(scenario_text(document))
        return path

    @property
    def sweeps(self) -> bool:
        """Whether one process can make many runs."""
        return self.state_path is not None and isinstance(self.scenario.moved[-1].event, InputByte)

    def swept(
        self, before: Sequence[int | None], values: Sequence[int | None], window: Window, until: int | None = None
    ) -> list[bytes]:
        """The rows of one run for each value of the last event, a byte."""
        path = self.written(self.scenario.scenario((*before, None), window, until))
        lines = [self.scenario.line(value) for value in values]
        with open(f"{path}.moves", "w", encoding="utf-8") as file:
            file.writelines(lines)
        assert self.state_path
        output = self.simulator.call("sweep", path, self.state_path, f"{path}.moves", runs=len(lines))
        return pieces(output, len(self.scenario.document["node"]), len(lines))

    def output(self, move: Sequence[int | None], window: Window = NO_WINDOW, until: int | None = None) -> bytes:
        if self.sweeps:
            return self.swept(move[:-1], move[-1:], window, until)[0]
        path = self.written(self.scenario.scenario(move, window, until))
        if self.state_path:
            return self.simulator.call("resume", path, self.state_path)
        return self.simulator.call("run", "--plain", path)

    def outputs(self, jobs: Iterable[tuple[Move, Window]]) -> Iterator[bytes]:
        waiting: deque[Future[list[bytes]]] = deque()
        threads = self.threads = ThreadPoolExecutor(self.jobs)
        try:
            for before, window, values in batches(jobs, MOST_IN_BATCH if self.sweeps else 1):
                waiting.append(threads.submit(self.batch, before, window, values))
                if len(waiting) > self.jobs and self.has_come(waiting[0]):
                    yield from waiting.popleft().result()
                if self.is_over():
                    break
            while waiting and self.has_come(waiting[0]):
                yield from waiting.popleft().result()
        finally:
            self.end_runs()

    def has_come(self, batch: Future[list[bytes]]) -> bool:
        """Waits for a batch. False where all is over before it has come."""
        while not wait([batch], SECONDS_A_LOOK).done:
            if self.is_over():
                return False
        return True

    def end_runs(self) -> None:
        """Ends all runs that nobody asks for any more, and waits for their threads."""
        if self.threads:
            with self.simulator.groups.ended():
                self.threads.shutdown(wait=True, cancel_futures=True)
            self.threads = None

    def made_here(self, place: int) -> bytes | None:
        """Of the runs that were asked for, the rows of that of this place as this machine makes them, where others made
        it."""
        return None

    def was_wrong(self, place: int) -> None:
        """What others said of a run is not so here."""

    def told_anew(self) -> Sequence[tuple[int, bytes]]:
        """Runs that came out otherwise once they were told, where others made them: their places, and their rows."""
        return ()

    def batch(self, before: Move, window: Window, values: list[int]) -> list[bytes]:
        if self.sweeps:
            return self.swept(before, values, window)
        return [self.output((*before, value), window) for value in values]


def never() -> bool:
    return False


def batches(jobs: Iterable[tuple[Move, Window]], most: int) -> Iterator[tuple[Move, Window, list[int]]]:
    """Jobs that stand one behind another and differ in the last event alone. The first ones are small, so that
    something is known early."""
    room = 1
    for (before, window), group in itertools.groupby(jobs, key=lambda job: (job[0][:-1], job[1])):
        while batch := [move[-1] for move, _ in itertools.islice(group, room)]:
            yield before, window, batch
            room = min(2 * room, most)


def pieces(output: bytes, nodes: int, runs: int) -> list[bytes]:
    """The rows of each run, of those of all: a run ends with the end row of its last node."""
    ends = [0, *(match.end() for match in re.finditer(rb"^\d+ %d end [^\n]*\n" % (nodes - 1), output, re.M))]
    if len(ends) != runs + 1 or ends[-1] != len(output):
        raise CannotWork(f"sweep: {len(ends) - 1} runs came of {runs}")
    return [output[first:end] for first, end in itertools.pairwise(ends)]


def scenario_text(document: Document) -> str:
    """The text of a scenario."""
    arrays = {key: value for key, value in document.items() if key in ("node", "link", "input")}
    lines = [f"{key} = {value_text(value)}" for key, value in document.items() if key not in arrays]
    for name, tables in arrays.items():
        for table in tables:
            lines += ["", f"[[{name}]]", *(f"{key} = {value_text(value)}" for key, value in table.items())]
    return "\n".join(lines) + "\n"


def value_text(value: object) -> str:
    """A value of a scenario as TOML: a text, a whole number, or a list of such."""
    if isinstance(value, str):  # what JSON escapes TOML does too; DEL it does not
        return json.dumps(value, ensure_ascii=False).replace("\x7f", "\\u007F")
    return str(value)
