"""Workers that are processes of this machine."""
import contextlib
import dataclasses
import multiprocessing
import multiprocessing.connection
import os
import shutil
import signal
import socket
import subprocess
import tempfile
import time
from collections.abc import Sequence
from multiprocessing.connection import Connection
from pathlib import Path
from typing import Any, cast

from avrora_tools import local_worker, pools, runs
from avrora_tools.pools import Done, Event, Lost, Proved, SetAside, Worker

STARTS = 3  # of a worker that ends before it has proved itself


@dataclasses.dataclass(eq=False)
class LocalWorker(Worker):
    process: "subprocess.Popen[bytes] | None" = None
    connection: Any = None
    starts: int = 1  # since it proved itself
    heard: float = 0.0  # when it last gave a sign


class LocalPool:
    """Processes of this machine. One that dies is started again."""

    def __init__(self, count: int, shipment: runs.Shipment, results: str) -> None:
        """`results` is the folder that the campaign alone works in."""
        self.shipment = shipment
        # What a campaign of these results left that was killed goes.
        prefix = pools.prefix_of(os.path.realpath(results))
        for left in Path(tempfile.gettempdir()).glob(f"{prefix}*"):
            shutil.rmtree(left, ignore_errors=True)
        self.folder = tempfile.mkdtemp(prefix=prefix)
        self.workers: dict[Any, LocalWorker] = {}
        self.waited = time.monotonic()  # the end of the last look at the workers
        try:
            started = [self.started(f"{socket.gethostname()} process {number}") for number in range(count)]
            for worker in started:  # once all are on their way, as each takes the shipment only when it has begun
                self.ship(worker)
        except BaseException:  # ^C too: nothing is left of what was begun
            self.close()
            raise

    def started(self, name: str, starts: int = 1) -> LocalWorker:
        """Starts a worker, which waits for its shipment."""
        ours, theirs = multiprocessing.Pipe()
        with theirs:
            process = subprocess.Popen(
                local_worker.words(theirs.fileno()),
                stdin=subprocess.DEVNULL,
                stdout=subprocess.DEVNULL,
                pass_fds=[theirs.fileno()],
                process_group=0,  # so that ^C does not end it, and it ends with the simulator that it runs
            )
        worker = LocalWorker(
            name,
            machine=socket.gethostname(),
            process=process,
            connection=ours,
            starts=starts,
            heard=time.monotonic() + runs.PROOF_SECONDS,
        )
        self.workers[ours] = worker
        return worker

    def ship(self, worker: LocalWorker) -> None:
        with contextlib.suppress(OSError):  # it is dead, which is seen when it is waited for
            worker.connection.send(self.shipment)
            worker.connection.send(self.folder)

    def send(self, worker: Worker, ticket: int, jobs: Sequence[runs.Job]) -> None:
        worker.tickets[ticket] = None
        with contextlib.suppress(OSError):
            cast(LocalWorker, worker).connection.send(jobs)

    def wait(self, seconds: float) -> list[Event]:
        events: list[Event] = []
        for connection in multiprocessing.connection.wait(list(self.workers), seconds):
            worker = self.workers[connection]
            try:
                events += self.received(worker, cast(Connection, connection).recv())
            except (EOFError, OSError):
                events += self.died(worker, None)
        return events + self.silent()

    def silent(self) -> list[Event]:
        """Ends those that gave no sign for long, while this process looked: where that stood still itself, they did
        not."""
        now = time.monotonic()
        stood_still = now - self.waited > local_worker.SECONDS_A_TICK
        self.waited = now
        events: list[Event] = []
        for worker in list(self.workers.values()):
            if stood_still:
                worker.heard = max(worker.heard, now)
            elif now - worker.heard > local_worker.SILENT_SECONDS:
                events += self.died(worker, f"the worker gave no sign for {local_worker.SILENT_SECONDS:.0f} s")
        return events

    def received(self, worker: LocalWorker, message: Any) -> list[Event]:
        worker.heard = max(worker.heard, time.monotonic())
        if message == local_worker.TICK:
            return []
        if not worker.is_proved:
            if message is None:
                worker.is_proved = True
                worker.starts = 0
                worker.heard = time.monotonic()
                return [Proved(worker)]
            self.set_aside(worker)
            return [SetAside(worker, message)]
        ticket, _ = worker.tickets.popitem(last=False)
        return [Done(worker, ticket, message["answers"], message["sick"])]

    def died(self, worker: LocalWorker, reason: str | None) -> list[Event]:
        """What follows from a worker that has gone: another one in its place."""
        status = self.end(worker)
        reason = reason or f"the worker ended with status {status}"
        if not worker.is_proved and worker.starts >= STARTS:
            return [SetAside(worker, f"{reason} before it had proved itself, {STARTS} times")]
        self.ship(self.started(worker.name, worker.starts + 1))
        return [Lost(worker, list(worker.tickets), reason)]

    def end(self, worker: LocalWorker) -> int:
        """Ends a worker and the simulator that it runs; its status."""
        del self.workers[worker.connection]
        worker.connection.close()
        assert worker.process
        with contextlib.suppress(ProcessLookupError):
            os.killpg(worker.process.pid, signal.SIGKILL)
        return worker.process.wait()

    def set_aside(self, worker: Worker) -> None:
        self.end(cast(LocalWorker, worker))

    def unproved(self) -> Sequence[str]:
        return [worker.name for worker in self.workers.values() if not worker.is_proved]

    def has_hope(self) -> bool:
        return bool(self.workers)

    def close(self) -> None:
        for worker in list(self.workers.values()):
            self.end(worker)
        shutil.rmtree(self.folder, ignore_errors=True)
