"""Runs on their way to a result: which workers had them, and what these said of them."""
import dataclasses
from typing import Any

from avrora_tools import runs
from avrora_tools.pools import Worker
from avrora_tools.variants import Run


@dataclasses.dataclass(eq=False, slots=True)
class Attempt:
    """A run that is to have a result: for which time it is begun, where not to, and whether it is to be alone in its
    batch. Some batches can have it at once: `copies` are under way, and the first answer settles it. `opinions` has the
    answers that are compared, and `tried` on which worker it came to what before."""

    run: Run
    digest: str
    number: int = 1
    avoid: tuple[Worker, ...] = ()
    is_alone: bool = False
    copies: int = 0
    is_settled: bool = False
    since: float = 0.0  # that it waits to be begun again
    opinions: list[tuple[Worker, runs.Answer]] | None = None
    tried: list[tuple[str, str]] | None = None
    failed_on: tuple[Worker, ...] = ()


@dataclasses.dataclass(eq=False, slots=True)
class Batch:
    worker: Worker
    attempts: list[Attempt]
    sent: float
    is_elsewhere: bool = False  # was begun on another worker as well


def verdict(answer: runs.Answer) -> tuple[Any, ...]:
    """What two answers to one run have in common where both are right."""
    outcome = answer["outcome"]
    if answer["hash"] is None:
        return outcome, answer["message"] if outcome == runs.REFUSED else None
    return outcome, answer["hash"], tuple(answer["counts"] or ()), tuple(sorted((answer["compared"] or {}).items()))


@dataclasses.dataclass(frozen=True)
class Own:
    """This process as one that was asked."""

    name: str


OWN = Own("this process")


def first_line(text: str) -> str:
    return text.partition("\n")[0]


def described(answer: runs.Answer) -> str:
    """An answer in a few words."""
    if answer["hash"]:
        return f"{answer['outcome']}, trace {answer['hash'][:16]}"
    return f"{answer['outcome']}, {first_line(answer['message'])}".rstrip(", ")
