"""Where the batches of a campaign go: to workers of dask, or to processes of this machine.

A pool tells by events which workers have proved themselves, which it set aside and why, what came of a batch, and which
worker is gone with the batches that it had. A worker gets batches only once it has proved itself.
"""
import collections
import dataclasses
import hashlib
import os
from collections.abc import Sequence
from typing import Any, Protocol

from avrora_tools import runs, terminal


@dataclasses.dataclass(eq=False)
class Worker:
    """A worker: its name tells a person where it is. `tickets` are those of the batches that it has, the oldest
    first."""

    name: str
    is_proved: bool = False
    tickets: "collections.OrderedDict[int, Any]" = dataclasses.field(default_factory=collections.OrderedDict)
    machine: str = ""


@dataclasses.dataclass(frozen=True)
class Proved:
    worker: Worker


@dataclasses.dataclass(frozen=True)
class SetAside:
    worker: Worker
    reason: str


@dataclasses.dataclass(frozen=True)
class Done:
    """A batch came to answers, as `benches.Bench.run_batch` gives them."""

    worker: Worker
    ticket: int
    answers: Sequence[runs.Answer]
    sick: str | None


@dataclasses.dataclass(frozen=True)
class Lost:
    """A worker is gone, or did not bring its answers."""

    worker: Worker
    tickets: Sequence[int]
    reason: str


Event = Proved | SetAside | Done | Lost


class Pool(Protocol):
    """What a campaign wants of a pool."""

    def send(self, worker: Worker, ticket: int, jobs: Sequence[runs.Job]) -> None:
        """Gives a worker a batch."""

    def wait(self, seconds: float) -> list[Event]:
        """What happened, at the latest after so many seconds. Raises CannotWork where nothing can happen any more."""

    def set_aside(self, worker: Worker) -> None:
        """Gives a worker nothing any more; what it has comes to nothing."""

    def unproved(self) -> Sequence[str]:
        """The names of workers that have not proved themselves yet."""

    def has_hope(self) -> bool:
        """Whether a worker may yet come to prove itself, or has."""

    def close(self) -> None:
        """Ends all that the pool started."""


def prefix_of(place: str) -> str:
    """How the names begin of what the campaign of some results leaves elsewhere."""
    return f"campaign-{hashlib.sha256(os.fsencode(place)).hexdigest()[:16]}-"


def pool(address: str | None, processes: int | None, shipment: runs.Shipment, count: int, results: str) -> Pool:
    """The pool for a campaign of `count` runs; `address` is that of a scheduler, or None for this machine. `results` is
    the folder that the campaign alone works in."""
    from avrora_tools import dask_pool, local_pool

    if not address:
        return local_pool.LocalPool(min(processes or len(os.sched_getaffinity(0)), count), shipment, results)
    try:
        import distributed  # noqa: F401
    except ImportError:
        raise terminal.missing("dask.distributed", "python3-distributed") from None
    return dask_pool.DaskPool(address, shipment, results)
