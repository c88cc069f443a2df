"""What a campaign compares a run with beside its cases: what the same scenario comes to in another way.

Each way says what differs, or None, and how much it compared: rows of the trace, or samples. It raises ToolError where
the tools refuse what the simulator took, or wrote. """
import contextlib
import dataclasses
import functools
import hashlib
import io
import itertools
from collections.abc import Callable, Iterator, Mapping, Sequence
from typing import NamedTuple

from avrora_tools import hearing, scenarios, states, traces

BLOCK = 1 << 16  # bytes

STATE = "compared.state"  # between the two halves of a run

MOST_SAID = 4_000  # characters of what `links` finds


@dataclasses.dataclass
class Place:
    """A folder with a scenario in a file, which has this `text`, and the trace of its run. `call` runs the simulator
    there with these words, its output goes to a file; None where it ended with status 0, else what to tell of its end.
    The file `output` is for the output of such calls. Both files are read without buffers, so that what another process
    writes to them is seen. """

    folder: str
    scenario: str
    text: str
    trace: io.FileIO
    output: io.FileIO
    call: Callable[[Sequence[str], io.FileIO], str | None]
    known: scenarios.Scenario | None = None

    @functools.cached_property
    def read(self) -> scenarios.Scenario:
        """The scenario as the tools read it, once for all ways."""
        return self.known or scenarios.Scenario.of_text(self.text, "the scenario")


class Found(NamedTuple):
    """What differs, as a text, or None; and how much was compared."""

    difference: str | None
    compared: int


def plain(place: Place) -> Found:
    """One thread with no epochs looked ahead: `run --plain`."""
    return with_calls(place, "run --plain", [["run", "--plain", place.scenario]])


def resumed(place: Place) -> Found:
    """Cut at the end of an epoch that the scenario's text decides: `head`, and then `resume` from what `save` wrote. A
    run that ends within its first epoch has nothing to compare."""
    ends = (place.read.cycles - 1) // states.EPOCH
    if ends < 1:
        return Found(None, 0)
    epoch = str(1 + int.from_bytes(hashlib.sha256(place.text.encode()).digest()[:8], "big") % ends)
    with open(f"{place.folder}/{STATE}", "wb", buffering=0) as state:
        said = place.call(["save", place.scenario, epoch], state)
    if said:
        return Found(f"save {epoch}: {said}", 0)
    return with_calls(
        place, f"head {epoch} and then resume", [["head", place.scenario, epoch], ["resume", place.scenario, STATE]]
    )


def by_links(place: Place) -> Found:
    """Each sample is what the sends of the trace give, by the rules of docs/AIR.md: what `links` checks."""
    said = io.StringIO()
    place.trace.seek(0)
    with contextlib.redirect_stdout(said):
        trace = traces.Trace(
            traces.blocks_of(place.trace),
            "the trace",
            traces.Form.WHOLE,
            scenario=place.read,
            least_gap=scenarios.BYTE_TIME.start,
        )
        reader = hearing.Samples(place.read, None)
        reader.read(trace)
    samples = sum(reader.samples.values())
    return Found(f"links: {said.getvalue()[:MOST_SAID]}" if reader.faults else None, samples)


# By the words of a campaign's file, in the order in which they are compared.
WAYS: Mapping[str, Callable[[Place], Found]] = {"plain": plain, "resumed": resumed, "links": by_links}

# What reports call what was compared.
TITLES = {
    "plain": "rows equal to those of run --plain",
    "resumed": "rows equal to those of head joined to resume",
    "links": "samples checked by links",
}


def with_calls(place: Place, name: str, calls: Sequence[Sequence[str]]) -> Found:
    """Compares the trace with what calls write one behind the other."""
    empty(place.output)
    for words in calls:
        said = place.call(words, place.output)
        if said:
            return Found(f"{name}: {said}", 0)
    return compared(name, place.trace, place.output)


def compared(name: str, trace: io.FileIO, other: io.FileIO) -> Found:
    """The first row in which two traces differ, and how many rows are equal before it, or in all."""
    rows = 0
    for ours, theirs in zip(blocks(trace), blocks(other)):
        if ours != theirs:
            break
        if not ours:
            return Found(None, rows)
        rows += ours.count(b"\n")
    pairs = itertools.zip_longest(lines(trace), lines(other), fillvalue=b"no row\n")
    row, (ours, theirs) = next((row, pair) for row, pair in enumerate(pairs, 1) if pair[0] != pair[1])
    texts = (line.decode(errors="backslashreplace").rstrip("\n") for line in (ours, theirs))
    return Found(f"{name} differs in row {row:,}:\n- {next(texts)}\n+ {next(texts)}", row - 1)


def blocks(file: io.FileIO) -> Iterator[bytes]:
    """A file in blocks; at its end empty ones."""
    file.seek(0)
    while True:
        yield file.read(BLOCK)


def lines(file: io.FileIO) -> Iterator[bytes]:
    file.seek(0)
    with open(file.fileno(), "rb", closefd=False) as buffered:
        yield from buffered


def empty(file: io.FileIO) -> None:
    """Leaves nothing in a file, to be written anew."""
    file.seek(0)
    file.truncate()
