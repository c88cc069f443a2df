"""The workers of one sitting of a campaign: who has proved himself, how many batches each has, on which machine it is,
and what it did."""
import collections
from collections.abc import Callable

from avrora_tools.pools import Worker
from avrora_tools.watching import Tally

BATCHES_A_WORKER = 2  # one under way, one that waits for it


class Crew:
    """What it takes to add a worker, or to find one with room, does not depend on how many there are."""

    def __init__(self, clock: Callable[[], float]) -> None:
        self.clock = clock
        self.workers: dict[Worker, None] = {}  # all that proved themselves
        # Of these, by how many batches they have.
        self.rooms: list[dict[Worker, None]] = [{} for _ in range(BATCHES_A_WORKER)]
        self.machines: collections.Counter[str] = collections.Counter()
        self.tallies: dict[str, Tally] = {}

    def __contains__(self, worker: Worker) -> bool:
        return worker in self.workers

    def __len__(self) -> int:
        return len(self.workers)

    def tally(self, worker: Worker) -> Tally:
        if worker.name not in self.tallies:
            self.tallies[worker.name] = Tally(self.clock())
        return self.tallies[worker.name]

    def add(self, worker: Worker) -> None:
        self.workers[worker] = None
        self.machines[worker.machine] += 1
        self.place(worker)
        self.tally(worker)

    def drop(self, worker: Worker) -> None:
        if worker in self.workers:
            del self.workers[worker]
            self.machines[worker.machine] -= 1
            if not self.machines[worker.machine]:
                del self.machines[worker.machine]
        for room in self.rooms:
            room.pop(worker, None)

    def place(self, worker: Worker) -> None:
        """Notes how many batches a worker has."""
        for room in self.rooms:
            room.pop(worker, None)
        if worker in self.workers and len(worker.tickets) < BATCHES_A_WORKER:
            self.rooms[len(worker.tickets)][worker] = None

    def of_machine(self, machine: str) -> list[Worker]:
        return [worker for worker in self.workers if worker.machine == machine]
