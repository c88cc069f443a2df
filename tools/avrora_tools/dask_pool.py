"""Workers of a scheduler of dask.distributed."""
import contextlib
import dataclasses
import logging
import os
import pickle
import queue
import socket
import time
import uuid
from collections.abc import Callable, Sequence
from typing import Any, TypeVar

from avrora_tools import carriers, pools, runs
from avrora_tools.errors import CannotWork
from avrora_tools.pools import Done, Event, Lost, Proved, SetAside, Worker

GONE = "the scheduler of dask is gone"

CONNECT_SECONDS = 60  # to a scheduler, which may be loaded
RECONNECT_SECONDS = 10  # to one that answered before
LOOK_SECONDS = 1.0  # between two looks at which workers the scheduler has
PROOF_SECONDS = 600  # that a worker may take to prove itself, the way there too
FETCH_SECONDS = 30  # that the answers of a batch may take from a worker

T = TypeVar("T")


@dataclasses.dataclass(eq=False)
class DaskWorker(Worker):
    address: str = ""
    is_aside: bool = False
    proof: Any = None  # the future of it
    deadline: float = 0.0


class DaskPool:
    """Each batch goes to a worker that the campaign chose, so it is known who has what, and who is not to have
    anything. What all workers get goes out by the scheduler, and none of them is waited for."""

    def __init__(self, address: str, shipment: runs.Shipment, results: str) -> None:
        """`results` is the folder that the campaign alone works in."""
        import distributed

        logging.disable(logging.CRITICAL)  # what dask says in sixty lines this says in one
        prefix = pools.prefix_of(f"{socket.gethostname()}:{os.path.realpath(results)}")
        self.name = f"{prefix}{uuid.uuid4()}"
        self.workers: dict[str, DaskWorker] = {}
        self.unproved_workers: dict[DaskWorker, None] = {}
        self.done: queue.SimpleQueue[tuple[DaskWorker, int | None, Any]] = queue.SimpleQueue()
        self.next_look = 0.0
        self.give, self.take_away = carriers.on_scheduler()
        try:
            self.client = distributed.Client(address, set_as_default=False, timeout=CONNECT_SECONDS)
        except (OSError, ValueError, TypeError) as fault:
            raise CannotWork(f"no scheduler of dask answers at {address}: {fault}") from None
        self.client._timeout = RECONNECT_SECONDS
        try:
            # What a campaign of these results left that was killed goes.
            self.asked(self.take_away, prefix)
            carrier, self.prove, self.run_batch = carriers.for_dask(self.name, shipment)
            self.asked(self.give, self.name, distributed.protocol.pickle.dumps(carrier))
        except BaseException:
            self.close()
            raise

    def asked(self, function: Callable[..., T], *words: Any) -> T:
        """What a function comes to on the scheduler. Raises CannotWork where it comes to nothing."""
        try:
            return self.client.run_on_scheduler(function, *words)  # type: ignore[no-any-return]
        except (OSError, ValueError, RuntimeError, pickle.PickleError) as fault:
            raise CannotWork(f"the scheduler of dask does not do what it is asked: {fault}") from None

    def submit(self, worker: DaskWorker, ticket: int | None, function: Any, *words: Any) -> Any:
        future = self.client.submit(
            function, *words, workers=[worker.address], allow_other_workers=False, pure=False, retries=0
        )
        future.add_done_callback(lambda done: self.done.put((worker, ticket, done)))
        return future

    def send(self, worker: Worker, ticket: int, jobs: Sequence[runs.Job]) -> None:
        assert isinstance(worker, DaskWorker)
        worker.tickets[ticket] = self.submit(worker, ticket, self.run_batch, pickle.dumps(jobs))

    def wait(self, seconds: float) -> list[Event]:
        events = self.look()
        with contextlib.suppress(queue.Empty):
            found = self.done.get(timeout=seconds) if seconds and not events else self.done.get_nowait()
            while True:
                events += self.received(*found)
                found = self.done.get_nowait()
        return events

    def look(self) -> list[Event]:
        """Sees which workers have come and gone."""
        if self.client.status != "running":
            raise CannotWork(GONE)
        now = time.monotonic()
        if now < self.next_look:
            return []
        self.next_look = now + LOOK_SECONDS
        try:
            there = self.client.scheduler_info()["workers"]
        except (OSError, ValueError):
            raise CannotWork(GONE) from None
        events: list[Event] = []
        for address in self.workers.keys() - there.keys():
            events += self.left(self.workers[address], "the worker is gone")
        for address in there.keys() - self.workers.keys():
            name = there[address].get("name", address)
            self.workers[address] = worker = DaskWorker(str(name), address=address, deadline=now + PROOF_SECONDS)
            self.unproved_workers[worker] = None
            worker.proof = self.submit(worker, None, self.prove)
        for worker in list(self.unproved_workers):
            if now > worker.deadline:
                self.set_aside(worker)
                events.append(SetAside(worker, f"no answer in {PROOF_SECONDS} s"))
        return events

    def left(self, worker: DaskWorker, reason: str) -> list[Event]:
        """What follows from a worker that is gone; it may come again, and then it proves itself again."""
        self.workers.pop(worker.address, None)
        self.unproved_workers.pop(worker, None)
        tickets = list(worker.tickets)
        self.forget(worker)
        return [Lost(worker, tickets, reason)] if not worker.is_aside else []

    def forget(self, worker: DaskWorker) -> None:
        """Has the scheduler drop all that the worker was given."""
        futures = [future for future in (worker.proof, *worker.tickets.values()) if future is not None]
        worker.proof = None
        worker.tickets.clear()
        with contextlib.suppress(Exception):  # all that is lost is courtesy
            self.client.cancel(futures, force=True)

    def received(self, worker: DaskWorker, ticket: int | None, future: Any) -> list[Event]:
        if worker.is_aside or worker.address not in self.workers or self.workers[worker.address] is not worker:
            return []
        if ticket is not None and ticket not in worker.tickets:
            return []
        if future.status != "finished":
            reason = f"{future.status}: {future.exception(timeout=FETCH_SECONDS)}" if future.status == "error" else GONE
            return self.failed(worker, ticket, reason)
        try:
            found = future.result(timeout=FETCH_SECONDS)
            if ticket is not None:
                found = pickle.loads(found)
        except Exception as fault:  # whatever took the worker between the end of a batch and its way here
            return self.failed(worker, ticket, f"{type(fault).__name__}: {fault}")
        if ticket is None:
            worker.proof = None
            worker.machine = str(found[0])
            worker.name = f"{found[0]} {worker.name}"
            if found[1]:
                self.set_aside(worker)
                return [SetAside(worker, str(found[1]))]
            worker.is_proved = True
            del self.unproved_workers[worker]
            return [Proved(worker)]
        del worker.tickets[ticket]
        return [Done(worker, ticket, found["answers"], found["sick"])]

    def failed(self, worker: DaskWorker, ticket: int | None, reason: str) -> list[Event]:
        if ticket is not None:
            return self.left(worker, reason)
        self.set_aside(worker)
        return [SetAside(worker, reason)]

    def set_aside(self, worker: Worker) -> None:
        assert isinstance(worker, DaskWorker)
        worker.is_aside = True
        self.unproved_workers.pop(worker, None)
        self.forget(worker)

    def unproved(self) -> Sequence[str]:
        return [worker.name for worker in self.unproved_workers]

    def has_hope(self) -> bool:
        return not self.workers or not all(worker.is_aside for worker in self.workers.values())

    def close(self) -> None:
        with contextlib.suppress(Exception):  # all that is lost is courtesy
            if self.client.status == "running":
                for worker in self.workers.values():
                    self.forget(worker)
                self.client.run_on_scheduler(self.take_away, self.name)
        with contextlib.suppress(Exception):
            self.client.close(timeout=2)
