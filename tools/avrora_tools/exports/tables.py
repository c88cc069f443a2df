"""The rows of a trace as a table, for pandas, R and spreadsheets: comma-separated values (RFC 4180), or Parquet by
pyarrow."""
import csv
import io
import itertools
import tempfile
from collections.abc import Iterable, Iterator
from typing import Any

from avrora_tools import terminal

from avrora_tools.events import End, Enter, Event, Heard, Instr, Sent, Serial, Stop
from avrora_tools.traces import TraceRow

# Numbers are decimal; what a row of its kind does not say is empty.
COLUMNS = "cycle node kind address instruction vector byte status age cause instructions state".split()


def cells(event: Event) -> dict[str, object]:
    """What a row says behind its kind, by column."""
    if isinstance(event, Instr):
        return {"address": event.address, "instruction": event.instruction}
    if isinstance(event, Enter):
        return {"address": event.back, "vector": event.vector}
    if isinstance(event, (Serial, Sent)):
        return {"byte": event.byte}
    if isinstance(event, Heard):
        return {"status": event.status, "byte": event.byte, "age": event.age}
    if isinstance(event, Stop):
        return {"address": event.address, "cause": event.cause}
    if isinstance(event, End):
        return {"instructions": event.instructions, "state": event.state}
    raise AssertionError(event.kind)


def written(rows: Iterable[TraceRow]) -> Iterator[str]:
    """The lines of the table, the names of its columns first."""
    line = io.StringIO()
    writer = csv.DictWriter(line, COLUMNS, restval="", lineterminator="\n")
    writer.writeheader()
    yield line.getvalue()
    for cycle, node, event in rows:
        line.seek(0)
        line.truncate()
        writer.writerow({"cycle": cycle, "node": node, "kind": event.kind, **cells(event)})
        yield line.getvalue()


TEXTS = frozenset(("kind", "instruction", "cause", "state"))  # columns that are not numbers
ROWS_A_GROUP = 65_536
BLOCK = 1 << 16


def parquet_library() -> Any:
    """The library that writes Parquet, which Debian does not have. Raises CannotWork where it is missing."""
    try:
        import pyarrow
        import pyarrow.parquet
    except ImportError:
        raise terminal.missing("pyarrow", None) from None
    return pyarrow


def parquet(rows: Iterable[TraceRow], pyarrow: Any) -> Iterator[bytes]:
    """A table of Parquet, written group by group; what a row does not say is null."""
    schema = pyarrow.schema([(name, pyarrow.string() if name in TEXTS else pyarrow.int64()) for name in COLUMNS])
    rest = iter(rows)
    with tempfile.TemporaryFile() as file:
        with pyarrow.parquet.ParquetWriter(file, schema) as writer:
            while group := list(itertools.islice(rest, ROWS_A_GROUP)):
                table = [
                    {"cycle": cycle, "node": node, "kind": event.kind, **cells(event)} for cycle, node, event in group
                ]
                writer.write_table(pyarrow.Table.from_pylist(table, schema=schema))
        file.seek(0)
        while block := file.read(BLOCK):
            yield block
