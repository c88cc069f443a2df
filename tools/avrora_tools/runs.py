"""What a worker of a campaign gets, and what it answers.

A worker gets the simulator, the images and the cases once, as a shipment, and then batches of jobs. A job is the text
of a scenario, whose images are names of files of the shipment, the index of the check by which it is judged, images of
its own by their names, which are all that it has where there are any, and moves, or None: what arrives at a node in
place of the scenario's input, and from the end of which epoch on. Jobs that differ in their moves alone are made by one
process. Its values are those of the keys that vary, for a function that checks it.

An answer is a dictionary: `outcome` is one of the words below, `message` says why, `counts` has how many rows of each
kind the trace has, `hash` is that of the trace, both None where there is no whole trace; `compared` has how much of it
was compared in each way; `seconds` is the time of the run and its checks, `processor` what the simulator took of
processors in it, in seconds, `trace` the trace in gzip's format or None, `again` whether another attempt can come to
something else, `trouble` whether it was the worker that failed, and `late` whether the run took more time than it may.
All of it is of Python's own kinds, so a client reads it whatever the worker has.
"""
import dataclasses
from collections.abc import Sequence
from typing import Any, NamedTuple

PROGRAM = "avrora"  # the simulator's name in a shipment

SCENARIO = "scenario.toml"  # its name where it is run

# All expectations are met; one is not; the scenario or an image is refused; the run came to no answer.
PASSED, FAILED, REFUSED, BROKEN = "passed", "failed", "refused", "broken"
OUTCOMES = (PASSED, FAILED, REFUSED, BROKEN)

# Answers of the simulator, which is deterministic: to run again would give the same.
FINAL = (PASSED, FAILED, REFUSED)

COUNTS = ("sent", "heard", "clashes", "serial", "stops")

Moves = tuple[int, str]  # epochs before the first byte, and a line of what `avrora sweep` reads

Answer = dict[str, Any]

# What a worker runs before it gets a job. By the manual LDI takes one cycle and RJMP, here to itself, two: LDI in cycle
# 0, RJMP in each odd one, 20 of them before cycle 40, and the window shows those before cycle 12.
PROOF_IMAGE = ":0400000001E0FFCF4D\n:00000001FF\n"
PROOF_NAME = "proof.hex"
PROOF_SCENARIO = f"""version = 3
cycles = 40
latency = 100
window = [0, 12]
[[node]]
image = "{PROOF_NAME}"
"""
PROOF_TRACE = (
    "0 0 instr 0000 ldi r16, 0x01\n"
    + "".join(f"{cycle} 0 instr 0001 rjmp .-2\n" for cycle in range(1, 12, 2))
    + "40 0 end 21 running\n"
)
PROOF_SECONDS = 300  # a busy machine is not a sick one

# A worker gives back what it has not begun of a batch that took so long: others may have nothing to do.
SECONDS_A_BATCH = 10.0


@dataclasses.dataclass(frozen=True)
class ShippedFile:
    """A file by its name in the shipment, and by the one that messages tell."""

    file: str
    path: str


@dataclasses.dataclass(frozen=True)
class ShippedProgram(ShippedFile):
    """The ELF file of a program, and the nodes that run it such as 0,2-4; "" for those whose image has its memory."""

    nodes: str


@dataclasses.dataclass(frozen=True)
class ShippedCase:
    """A case of `expect`, its golden traces in their order, and the programs of which its conditions name
    variables."""

    file: str
    path: str
    goldens: tuple[ShippedFile, ...]
    programs: tuple[ShippedProgram, ...] = ()
    has_conditions: bool = False


class Job(NamedTuple):
    """A run for a worker."""

    scenario: str
    check: int
    images: dict[str, bytes]
    moves: Moves | None
    values: tuple[Any, ...] = ()


@dataclasses.dataclass(frozen=True)
class Check:
    """What a run is judged by: cases for its trace, ways in which it is compared (`comparisons.WAYS`), and a Python
    file with a function `check`."""

    cases: tuple[ShippedCase, ...]
    ways: tuple[str, ...] = ()
    code: ShippedFile | None = None


@dataclasses.dataclass(frozen=True)
class Shipment:
    """All that a worker needs for a campaign: `traces` says of which runs the trace is handed back, and `words` how the
    simulator is called."""

    files: dict[str, bytes]
    checks: Sequence[Check]
    timeout: int
    traces: str
    words: tuple[str, ...] = ("run", SCENARIO)
    kinds: tuple[bytes, ...] = ()  # of the rows of a trace those are handed back that have one of these in them


class Sick(Exception):
    """A worker that cannot work; the text says why."""


def answer(outcome: str, message: str = "", again: bool = False, trouble: bool = False) -> Answer:
    return {
        "outcome": outcome,
        "message": message,
        "counts": None,
        "hash": None,
        "compared": None,
        "seconds": 0.0,
        "processor": 0.0,
        "trace": None,
        "again": again,
        "trouble": trouble,
        "late": False,
    }
