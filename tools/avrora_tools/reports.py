"""What is told of a campaign's results: the table, lines of JSON, JUnit, Parquet; each written row by row."""
import collections
import contextlib
import itertools
import json
import operator
import sqlite3
from collections.abc import Callable, Iterable, Iterator, Sequence
from typing import IO, Any

from avrora_tools import comparisons, files, results, runs, terminal
from avrora_tools.errors import BadWords
from avrora_tools.showing import printable, printable_lines
from avrora_tools.writing import Folder

HEAD = ("name", "outcome", *runs.COUNTS, "seconds", "attempts", "host")
LEFT = ("name", "outcome", "host")  # the columns whose text begins at the left

MESSAGE_LINES = 12  # of a failure, in the table

# A table of more runs is not written to the standard output.
MOST_PRINTED = 200

# Of more runs the files beside the results have those alone that are not passed.
MOST_IN_SUMMARIES = 100_000

ROWS_A_GROUP = 50_000  # of Parquet


class Report:
    """The results of one file, or of several shards of a campaign, in some order."""

    def __init__(
        self,
        databases: Sequence[sqlite3.Connection],
        by: str | None = None,
        reverse: bool = False,
        top: int | None = None,
    ) -> None:
        self.databases, self.top, self.reverse = databases, top, reverse
        self.by = by
        if by is not None and by not in results.COLUMNS and not any(map(self.has_parameter, databases)):
            raise BadWords(f"no column and no parameter is called {printable(by)}")

    def has_parameter(self, database: sqlite3.Connection) -> bool:
        row = database.execute("SELECT 1 FROM run WHERE json_type(parameters, ?) IS NOT NULL LIMIT 1", (self.path(),))
        return row.fetchone() is not None

    def path(self) -> str:
        """The parameter by which runs are ranked, as SQLite's functions for JSON name it."""
        return f'$."{self.by}"'

    @property
    def name(self) -> str:
        return printable(self.about("name") or "campaign")

    def about(self, key: str) -> str | None:
        found = self.databases[0].execute("SELECT value FROM about WHERE key = ?", (key,)).fetchone()
        return found and str(found[0])

    def total(self) -> int:
        """How many runs the files are to have."""
        query = "SELECT coalesce(sum(CAST(value AS INTEGER)), 0) FROM about WHERE key = 'total'"
        return sum(database.execute(query).fetchone()[0] for database in self.databases)

    def outcomes(self) -> "collections.Counter[str]":
        found: collections.Counter[str] = collections.Counter()
        for database in self.databases:
            found.update(dict(database.execute("SELECT outcome, count(*) FROM run GROUP BY outcome")))
        return found

    def rows(self, where: Sequence[str] = runs.OUTCOMES) -> Iterator[dict[str, Any]]:
        """The results of these outcomes: as they stand in the campaign, or the highest first by a column."""
        found = self.ranked() if self.by is not None else itertools.chain(*map(results.rows, self.databases))
        return itertools.islice((row for row in found if row["outcome"] in where), self.top)

    def ranked(self) -> Iterator[dict[str, Any]]:
        direction = "ASC" if self.reverse else "DESC"
        is_column = self.by in results.COLUMNS
        order = f'"{self.by}"' if is_column else "json_extract(parameters, ?)"
        order += f" {direction} NULLS LAST, number"
        words = () if is_column else (self.path(),)
        parts = [results.rows(database, order, words) for database in self.databases]
        if len(parts) == 1:
            return parts[0]
        # Of several files each is in order; what has no value comes last in each of them.
        everything = sorted(itertools.chain(*parts), key=operator.itemgetter("number"))
        valued = [row for row in everything if self.value(row) is not None]

        def rank(row: dict[str, Any]) -> tuple[bool, Any]:
            return isinstance(self.value(row), str), self.value(row)

        valued.sort(key=rank, reverse=not self.reverse)
        return itertools.chain(valued, (row for row in everything if self.value(row) is None))

    def value(self, row: dict[str, Any]) -> Any:
        value = row[self.by] if self.by in results.COLUMNS else row["parameters"].get(self.by)
        return json.dumps(value) if isinstance(value, (list, dict)) else value

    def closing_line(self) -> str:
        found = self.outcomes()
        counts = ", ".join(f"{found[word]:,} {word}" for word in runs.OUTCOMES if found[word])
        missing = self.total() - found.total()
        parts = [f"{self.name}: {self.total():,} runs", *([counts] if counts else [])]
        return ", ".join([*parts, *([f"{missing:,} without a result yet"] if missing > 0 else [])])

    def compared(self) -> list[str]:
        """A line for each way in which runs were compared: how much of how many."""
        runs_of: collections.Counter[str] = collections.Counter()
        amounts: collections.Counter[str] = collections.Counter()
        query = "SELECT key, count(*), sum(value) FROM run, json_each(run.compared) WHERE value > 0 GROUP BY key"
        for database in self.databases:
            for way, count, amount in database.execute(query):
                runs_of[way] += count
                amounts[way] += amount
        return [
            f"{amounts[way]:,} {comparisons.TITLES[way]}, in {runs_of[way]:,} runs"
            for way in comparisons.TITLES
            if runs_of[way]
        ]

    def widths(self) -> dict[str, int]:
        """The widths of the table's columns."""
        shown = {"seconds": "printf('%.2f', seconds)"}
        parts = ", ".join(f"max(length({shown.get(column, column)}))" for column in HEAD)
        found = {column: len(column) for column in HEAD}
        for database in self.databases:
            for column, width in zip(HEAD, database.execute(f"SELECT {parts} FROM result").fetchone()):
                found[column] = max(found[column], width or 0)
        return found

    def write_table(self, out: IO[str], where: Sequence[str] = runs.OUTCOMES) -> None:
        """A line a run, below it why it is not passed, and what came of all in the last line."""
        widths = self.widths()
        out.write(line_of(dict(zip(HEAD, ("run", *HEAD[1:]))), widths))
        for row in self.rows(where):
            out.write(line_of(row, widths))
            for part in printable_lines(row["message"]).split("\n")[:MESSAGE_LINES] if row["message"] else ():
                out.write(f"    {part}\n")
        out.write("\n" + "".join(f"{line}\n" for line in (self.closing_line(), *self.compared())))

    def print_table(self, out: IO[str], where_all_is: str | None) -> None:
        """The table where it is short, or was asked for in an order; else what is not passed, as much as is short."""
        if self.by is not None or self.top is not None or self.outcomes().total() <= MOST_PRINTED:
            self.write_table(out)
            return
        short = Report(self.databases, top=MOST_PRINTED)
        short.write_table(out, runs.OUTCOMES[1:])
        if where_all_is:
            out.write(f"Of all runs: {where_all_is}\n")

    def write_lines(self, out: IO[str], where: Sequence[str] = runs.OUTCOMES) -> None:
        """A line of JSON a run."""
        for row in self.rows(where):
            counts = {key: row.pop(key) for key in runs.COUNTS}
            row["counts"] = {} if counts["sent"] is None else counts
            out.write(json.dumps(row, default=str) + "\n")

    def write_junit(self, out: IO[str], where: Sequence[str] = runs.OUTCOMES) -> None:
        """A report for a server of builds."""
        from xml.sax.saxutils import XMLGenerator  # here, as it loads much that no run needs

        found = self.outcomes()
        failures = found[runs.FAILED] + found[runs.REFUSED]
        writer: Any = XMLGenerator(out, "utf-8", short_empty_elements=True)  # it has no types
        writer.startDocument()
        suite = {"name": self.name, "tests": str(found.total()), "failures": str(failures)}
        suite["errors"] = str(found[runs.BROKEN])
        with element(writer, "testsuites", {}), element(writer, "testsuite", suite):
            for row in self.rows(where):
                words = {"name": row["name"], "classname": self.name, "time": f"{row['seconds']:.4f}"}
                with element(writer, "testcase", {key: printable(value) for key, value in words.items()}):
                    if row["outcome"] != runs.PASSED:
                        kind = "error" if row["outcome"] == runs.BROKEN else "failure"
                        text = printable_lines(row["message"])
                        with element(writer, kind, {"type": row["outcome"], "message": text.partition("\n")[0]}):
                            writer.characters(f"{text}\non {printable(row['host'])}")
                writer.ignorableWhitespace("\n")
        writer.endDocument()

    def write_parquet(self, path: str) -> None:
        """A table for pyarrow and what reads its files: the parameters and what was compared are columns of text in
        JSON."""
        try:
            import pyarrow
            import pyarrow.parquet
        except ImportError:
            raise terminal.missing("pyarrow", None) from None
        numbers = dict.fromkeys((*runs.COUNTS, "attempts", "number"), pyarrow.int64())
        numbers |= dict.fromkeys(("seconds", "processor"), pyarrow.float64())
        fields = [(column, numbers.get(column, pyarrow.string())) for column in results.COLUMNS]
        schema = pyarrow.schema(fields)
        with files.whole_file(path, binary=True) as file, pyarrow.parquet.ParquetWriter(file, schema) as writer:
            for group in grouped(self.rows(), ROWS_A_GROUP):
                for row in group:
                    for column in ("parameters", "compared", "tried"):
                        row[column] = json.dumps(row[column])
                writer.write_table(pyarrow.Table.from_pylist(group, schema=schema))


def grouped(rows: Iterable[dict[str, Any]], size: int) -> Iterator[list[dict[str, Any]]]:
    rest = iter(rows)
    while group := list(itertools.islice(rest, size)):
        yield group


def line_of(row: dict[str, Any], widths: dict[str, int]) -> str:
    cells = []
    for column in HEAD:
        value = row[column]
        text = "-" if value is None else f"{value:.2f}" if isinstance(value, float) else printable(str(value))
        cells.append(text.ljust(widths[column]) if column in LEFT else text.rjust(widths[column]))
    return "  ".join(cells).rstrip() + "\n"


@contextlib.contextmanager
def element(writer: Any, name: str, attributes: dict[str, str]) -> Iterator[None]:
    writer.startElement(name, attributes)
    yield
    writer.endElement(name)


def write_summaries(report: Report, folder: str | Folder) -> None:
    """The table, the lines of JSON and the JUnit report in the folder of results."""
    if isinstance(folder, str):
        with Folder.named(folder) as opened:
            write_summaries(report, opened)
        return
    where = runs.OUTCOMES if report.outcomes().total() <= MOST_IN_SUMMARIES else runs.OUTCOMES[1:]
    written: dict[str, Callable[[IO[str], Sequence[str]], None]] = {
        "summary.txt": report.write_table,
        "summary.jsonl": report.write_lines,
        "junit.xml": report.write_junit,
    }
    for name, write in written.items():
        with folder.file(name, lasting=False) as file:
            write(file, where)
