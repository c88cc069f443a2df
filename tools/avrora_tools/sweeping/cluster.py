"""Runs the moves of a sweep on workers that are sent batches of them, as those of a campaign are: on a cluster of dask.

The same rules hold as there (`driving`): what is not well on a worker is made again on another one, one in a hundred
runs is made by two, and who differs is set aside. A worker hands back those rows alone that the check reads. Before a
failure is told the run is made here.
"""
import collections
import contextlib
import os
import zlib
from collections.abc import Iterable, Iterator, Sequence
from types import TracebackType
from typing import cast

from avrora_tools import driving, judging, pools, runs, sittings, watching
from avrora_tools.attempts import Attempt
from avrora_tools.errors import BadInput, CannotWork
from avrora_tools.files import printable
from avrora_tools.sweeping.events import Document, Move, MovedScenario
from avrora_tools.sweeping.simulation import ProcessTails, Simulator, Window, scenario_text
from avrora_tools.variants import Run

ATTEMPTS = 3  # of a run that comes to no answer
MOST_WAITING = 20_000  # outputs that have come and cannot be told yet

STATE = "state"  # its name in the shipment

GZIP = 16 + zlib.MAX_WBITS  # zlib's word for gzip's format

# The rows that a check of what is written reads.
WRITTEN = (b" serial ", b" stop ")


class Tail:
    """A run, as a campaign's driver knows one: its number, and what a worker is to do."""

    check = 0

    def __init__(self, tails: "ClusterTails", number: int, move: Move, window: Window) -> None:
        self.tails, self.number, self.move, self.window = tails, number, move, window
        self.group = self

    @property
    def name(self) -> str:
        return f"the run of {', '.join(f'{value:,}' for value in self.move)}"

    def job(self, is_alone: bool = False) -> runs.Job:
        tails, scenario = self.tails, self.tails.scenario
        if not tails.sweeps or is_alone:
            return runs.Job(tails.text(scenario.scenario(self.move, self.window)), 0, {}, None)
        text = tails.unmoved(self.move[:-1], self.window)
        return runs.Job(text, 0, {}, (0, scenario.line(self.move[-1])))


class ClusterTails(ProcessTails):
    """As ProcessTails, but what is asked for by `outputs` runs on the workers of a pool. The single runs by which a
    sweep finds its classes, and looks into a finding, take place here."""

    def __init__(self, simulator: Simulator, scenario: MovedScenario, state: bytes | None = None) -> None:
        super().__init__(simulator, scenario, 1, state)
        nodes: list[dict[str, str]] = scenario.document["node"]
        paths = dict.fromkeys(it["image"] for it in nodes)
        self.images = {path: f"image{number}.hex" for number, path in enumerate(paths)}
        self.stack = contextlib.ExitStack()
        self.last_unmoved: tuple[tuple[Move, Window] | None, str] = (None, "")
        self.driver: driving.Driver | None = None
        self.asked: list[tuple[Move, Window]] = []
        self.come: dict[int, bytes] = {}
        self.told = 0
        self.hosts: dict[int, str] = {}  # of runs that passed, by their numbers: who alone said so
        self.begin_again: dict[int, None] = {}
        self.other: list[tuple[int, bytes]] = []  # outputs that came out otherwise than they were told

    def shipment(self, program: bytes, kinds: Sequence[bytes] = ()) -> runs.Shipment:
        """What a worker gets once; `program` is the simulator as one file."""
        files = {runs.PROGRAM: program}
        for path, name in self.images.items():
            with open(os.path.join(self.simulator.folder, path), "rb") as file:
                files[name] = file.read()
        words: tuple[str, ...] = ("run", "--plain", runs.SCENARIO)
        if self.state is not None:
            files[STATE] = self.state
            words = ("resume", runs.SCENARIO, STATE)
        timeout = max(1, int(self.simulator.timeout))
        return runs.Shipment(files, [runs.Check(())], timeout, "all", words, tuple(kinds))

    def connect(self, address: str, program: bytes, kinds: Sequence[bytes] = ()) -> None:
        """Takes the workers of a scheduler of dask. They hand those rows back that have one of `kinds` in them, else
        all."""
        shipment = self.shipment(program, kinds)
        pool = pools.pool(address, None, shipment, 1, self.folder.name)
        self.drive_by(pool, sittings.Arbiter(shipment, self.stack))

    def drive_by(self, pool: pools.Pool, arbiter: judging.Arbiter | None = None) -> None:
        self.stack.callback(pool.close)
        progress = watching.Progress(0)
        progress.next = float("inf")  # the sweep tells how far it is
        longest = float(self.simulator.timeout)
        self.driver = driving.Driver(pool, ATTEMPTS, progress, self.keep, self.distrust, arbiter, longest)

    def __exit__(
        self, kind: type[BaseException] | None, fault: BaseException | None, trace: TracebackType | None
    ) -> None:
        try:
            self.stack.close()
        finally:
            super().__exit__(kind, fault, trace)

    def text(self, document: Document) -> str:
        """A scenario with its images as the shipment calls them."""
        nodes = [{**node, "image": self.images[node["image"]]} for node in document["node"]]
        return scenario_text({**document, "node": nodes})

    def unmoved(self, before: Move, window: Window) -> str:
        """The scenario of runs that one process makes, which differ in the last event alone: one text for all of them,
        so that it is made, and goes to a worker, once a batch."""
        if self.last_unmoved[0] != (before, window):
            text = self.text(self.scenario.scenario((*before, None), window))
            self.last_unmoved = (before, window), text
        return self.last_unmoved[1]

    def outputs(self, jobs: Iterable[tuple[Move, Window]]) -> Iterator[bytes]:
        driver = self.driver
        assert driver
        self.asked = list(jobs)
        self.come, self.told, self.hosts, self.begin_again, self.other = {}, 0, {}, {}, []
        driver.progress.total += len(self.asked)
        try:
            wanted = self.wanted(range(len(self.asked)))
            while True:
                for _ in driver.steps(wanted):
                    yield from self.told_in_order()
                yield from self.told_in_order()
                if not self.begin_again:
                    return
                again, self.begin_again = list(self.begin_again), {}
                wanted = self.wanted(again)
        finally:
            self.forget()

    def wanted(self, numbers: Iterable[int]) -> Iterator[Attempt | None]:
        for number in numbers:
            while len(self.come) > MOST_WAITING:
                yield None
            move, window = self.asked[number]
            yield Attempt(cast(Run, Tail(self, number, move, window)), "")  # a driver needs no more of it

    def told_in_order(self) -> Iterator[bytes]:
        while self.told in self.come:
            self.told += 1
            yield self.come.pop(self.told - 1)

    def forget(self) -> None:
        """What is left of runs that nobody asks for any more is of no use."""
        assert self.driver
        for batch in self.driver.under_way.values():
            for attempt in batch.attempts:
                attempt.is_settled = True
        self.driver.again.clear()
        self.driver.progress.total = self.driver.progress.done

    def keep(self, attempt: Attempt, answer: runs.Answer, host: str, second: str | None) -> None:
        """Takes what came of a run, on which host, and on which other one it came to the same."""
        if answer["outcome"] == runs.REFUSED:
            raise BadInput(answer["message"])
        if answer["outcome"] != runs.PASSED:
            raise CannotWork(f"a run came to no answer {attempt.number} times: {printable(answer['message'])}")
        number = attempt.run.number
        output = zlib.decompress(answer["trace"], GZIP)  # as gzip does it, in a third of the time
        if second is None:
            self.hosts[number] = host
        if number < self.told:
            self.other.append((number, output))
        else:
            self.come[number] = output

    def distrust(self, host: str) -> "collections.Counter[str]":
        """What a worker alone said of runs is begun again, also where it was told."""
        numbers = [number for number, it in self.hosts.items() if it == host]
        for number in numbers:
            del self.hosts[number]
            self.come.pop(number, None)
            self.begin_again[number] = None
        return collections.Counter({runs.PASSED: len(numbers)} if numbers else {})

    def told_anew(self) -> list[tuple[int, bytes]]:
        """The places among the jobs, and the outputs, of runs that were begun again after they had been told."""
        found, self.other = self.other, []
        return found

    def made_here(self, place: int) -> bytes | None:
        """The rows of a run as this machine makes them, before a failure of it is told."""
        return self.output(*self.asked[place])

    def was_wrong(self, place: int) -> None:
        """What a worker answered to a run was not so."""
        host = self.hosts.get(place)
        driver = self.driver
        worker = next((it for it in driver.crew.workers if it.name == host), None) if driver else None
        if driver and worker:
            driver.judge.doubt(worker, "what it said of a run is not so on this machine")
