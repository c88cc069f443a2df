"""What the simulator wrote in a run of a campaign: whether it is whole, its hash and counts, and what is handed back of
it."""
import gzip
import hashlib
import io
import os
import re
import shutil
from collections.abc import Sequence
from typing import NamedTuple

from avrora_tools import cli
from avrora_tools.events import CLASH, ONE_BYTE

# What a row of each kind has in it, in the order of `runs.COUNTS`.
TELLING = (b" sent ", b" heard %d " % ONE_BYTE, b" heard %d " % CLASH, b" serial ", b" stop ")

BLOCK = 1 << 16  # bytes that are looked at together

# As many bytes as the end rows of all nodes have.
TAIL = 8_192
END_ROW = re.compile(rb"([0-9]+) ([0-9]+) end [0-9]+ (?:running|asleep|stopped)")


class Ends(NamedTuple):
    """The end rows of a trace: in which cycle they stand, and of how many nodes."""

    cycle: int
    nodes: int


def is_whole(trace: io.FileIO, ends: Ends | None) -> bool:
    """Whether a trace ends with a row for the end of each node, in order; where these are not known, of all up to
    one."""
    size = os.fstat(trace.fileno()).st_size
    start = max(0, size - TAIL)
    *rows, rest = os.pread(trace.fileno(), size - start, start).split(b"\n")
    found = [END_ROW.fullmatch(row) for row in rows[-cli.MAX_NODES :]]
    numbers = [(int(match[1]), int(match[2])) for match in found if match]
    if rest or not found or not found[-1]:
        return False
    cycle, last = ends and (ends.cycle, ends.nodes - 1) or numbers[-1]
    return numbers[-last - 1 :] == [(cycle, node) for node in range(last + 1)] and all(found[-last - 1 :])


def packed(trace: io.FileIO, kinds: Sequence[bytes] = ()) -> bytes:
    """A file in gzip's format, without a time in it; of its rows those with one of these in them."""
    trace.seek(0)
    if kinds:
        rows = trace.readall().splitlines(keepends=True)
        kept = b"".join(row for row in rows if any(kind in row for kind in kinds))
        return gzip.compress(kept, compresslevel=1, mtime=0)
    out = io.BytesIO()
    with gzip.GzipFile(fileobj=out, mode="wb", mtime=0, compresslevel=6) as file:
        shutil.copyfileobj(trace, file)
    return out.getvalue()


def swept_pieces(output: bytes) -> list[bytes]:
    """The rows of each run, of those of some: a run ends with its end rows, which are behind all others."""
    ends = [match.end() for match in re.finditer(rb"^\d+ \d+ end [^\n]*\n(?!\d+ [1-9]\d* end )", output, re.MULTILINE)]
    return [output[first:end] for first, end in zip([0, *ends], ends)] if ends and ends[-1] == len(output) else []


def looked_through(trace: io.FileIO) -> tuple[str, list[int]]:
    """The hash of a trace, and how many rows of each kind it has, in the order of `runs.COUNTS`; of those that heard,
    how many heard one byte, and how many a clash."""
    trace.seek(0)
    found, counts = hashlib.sha256(), [0] * len(TELLING)
    # Whole rows: in them each of these texts stands for a kind alone, as the text of an instruction has none of them.
    while block := trace.read(BLOCK) + trace.readline():
        found.update(block)
        counts = [count + block.count(text) for count, text in zip(counts, TELLING)]
    return found.hexdigest(), counts
