"""The results of a campaign: one SQLite file with a row for each run, and beside it the scenarios of runs that are not
passed, and the traces that are kept."""
import collections
import contextlib
import errno
import fcntl
import json
import os
import socket
import sqlite3
import time
from collections.abc import Callable, Iterable, Iterator, Mapping, Sequence
from typing import Any, NamedTuple, TypeVar

from avrora_tools import files, runs, stored, terminal, writing
from avrora_tools.campaigns import file_name
from avrora_tools.errors import BadInput, CannotWork
from avrora_tools.stored import COLUMNS, FILE, NAMES, OF_RECORD, RECORDS, Trust, reading, reported, rows
from avrora_tools.variants import Run
from avrora_tools.writing import Folder

__all__ = [
    "COLUMNS", "FILE", "Store", "Trust", "locked", "opened_folder", "reading", "reported", "rows", "write_images"
]  # fmt: skip

COMMIT_SECONDS = 1.0  # between two transactions
MOST_WAITING = 20_000  # results that wait for a file that another program has
ROWS_A_TRANSACTION = 5_000

# For which outcomes a trace is kept, by the setting `traces`.
TRACED = {"none": (), "failed": (runs.FAILED, runs.BROKEN), "all": runs.OUTCOMES}

INSERT = f"INSERT OR REPLACE INTO {{table}} VALUES ({', '.join('?' * (len(NAMES) + 2))})"
OUTCOME, TRACE, DIGEST = NAMES.index("outcome"), NAMES.index("trace"), NAMES.index("digest")

T = TypeVar("T")

compact = json.JSONEncoder(default=str, separators=(",", ":")).encode


class Names(NamedTuple):
    """Of a row: its hosts, and what its sitting went by."""

    host: str
    second: str | None
    identity: str
    program: str
    checker: str


class Moved(NamedTuple):
    """What a changed campaign means to the results that are there."""

    aside: int  # of runs that are no more in it
    back: int  # that were aside and are in it again


@contextlib.contextmanager
def locked(folder: Folder) -> Iterator[None]:
    """One campaign at a time works in a folder."""
    lock = folder.lock_file(".lock")
    try:
        try:
            # A lock of this process alone: no child has it, so it ends with this process, however that ends.
            fcntl.lockf(lock, fcntl.LOCK_EX | fcntl.LOCK_NB)
        except OSError as fault:
            if fault.errno not in (errno.EACCES, errno.EAGAIN):
                raise
            raise CannotWork(f"another campaign is at work in {files.shown(folder.path)}") from None
        yield
    finally:
        os.close(lock)


def opened_folder(place: "str | tuple[str, str]", make: bool = False) -> Folder:
    """The folder of results: one that the user named; or of a campaign, by its folder and a name from its file, which
    leads nowhere else."""
    if isinstance(place, str):
        return Folder.named(place, make)
    top, name = place
    with Folder(os.open(top or ".", writing.ENTERED), top) as above:
        return above.below(name, make)


class Store:
    """The folder of results, for the campaign that works in it. Results are kept back, and written in transactions, so
    that a program which has the file for itself holds nothing up."""

    def __init__(
        self, folder: Folder, anew: bool = False, adopts: bool = False, say: Callable[[str], None] = terminal.say
    ) -> None:
        self.folder, self.path, self.say = folder, folder.path_of(FILE), say
        self.trust = Trust(adopts)
        self.waiting: dict[int, tuple[Any, ...]] = {}  # rows by their numbers, with their sums
        self.next_commit = 0.0
        self.locked_since: float | None = None
        self.sitting = 0
        self.went_by = ("", "", "")
        self.sittings: dict[tuple[str, str, str], int] = {}  # that were taken over from other files
        self.hosts: dict[str, int] = {}  # the keys of their names
        self.new_hosts: dict[str, int] = {}
        self.runs = folder.entered("runs", make=True)
        try:
            with reported(self.path):
                self.open(anew)
        except BaseException:
            self.runs.close()
            raise
        self.files = set(self.runs.names())

    def open(self, anew: bool) -> None:
        if anew:
            for ending in ("", "-journal", "-wal", "-shm"):
                self.folder.remove(FILE + ending)
        is_there = stored.vet(self.folder, FILE)
        uri = self.folder.path_within(FILE)
        self.database = sqlite3.connect(uri, timeout=stored.DEAF_SECONDS, isolation_level=None)
        try:
            stored.settings(self.database)
            if not is_there or not self.patiently(lambda: stored.objects(self.database)):
                self.patiently(lambda: self.database.executescript(f"BEGIN IMMEDIATE; {stored.SCHEMA} COMMIT;"))
            if not self.patiently(lambda: stored.is_of_campaign(self.database)):
                raise BadInput(
                    f"{files.shown(self.path)}: no results of a campaign, or of another version; --anew replaces them"
                )
            self.is_empty = self.database.execute("SELECT 1 FROM run LIMIT 1").fetchone() is None
            self.said = stored.about_of(self.database, Trust(self.trust.adopts)) if not self.is_empty else {}
        except BaseException:
            self.database.close()
            raise

    # ---- the file

    def patiently(self, work: Callable[[], T]) -> T:
        return stored.patiently(work, self.path, self.say)

    def transaction(self, work: Callable[[], T]) -> T:
        """Does all of some work, or raises and does nothing."""
        self.database.execute("BEGIN IMMEDIATE")
        try:
            found = work()
            self.database.execute("COMMIT")
            return found
        finally:
            if self.database.in_transaction:
                self.database.execute("ROLLBACK")

    def about(self, key: str) -> str | None:
        return self.said.get(key)

    def note(self, **about: str) -> None:
        """Has the file say something of itself."""
        self.said.update(about)
        said = stored.sealed_about(self.said)

        def write() -> None:
            self.database.execute("DELETE FROM about")
            self.database.executemany("INSERT INTO about VALUES (?, ?)", said.items())

        self.patiently(lambda: self.transaction(write))

    def begin(self, about: Mapping[str, str], identity: str, program: str, checker: str) -> None:
        """Notes what is run from now on, and by what."""
        self.went_by = (identity, program, checker)
        self.sitting = self.patiently(
            lambda: self.transaction(lambda: self.begun(self.went_by, socket.gethostname()))
        )
        self.note(**about)

    def host(self, name: str) -> int:
        """The key of a host. One that is new is written with the results that wait."""
        key = self.hosts.get(name)
        if key is None:
            if not self.hosts:
                self.hosts = {str(known): int(id_) for known, id_ in self.database.execute("SELECT name, id FROM host")}
            key = self.hosts.setdefault(name, max(self.hosts.values(), default=0) + 1)
            self.new_hosts[name] = key
        return key

    def commit(self, if_due: bool = False) -> None:
        """Writes what waits. Where that is only due it may wait on, for a file that another program has."""
        now = time.monotonic()
        if not self.waiting or if_due and now < self.next_commit and len(self.waiting) < ROWS_A_TRANSACTION:
            return
        try:
            if if_due and len(self.waiting) < MOST_WAITING:
                self.transaction(self.write_waiting)
            else:
                self.patiently(lambda: self.transaction(self.write_waiting))
        except sqlite3.OperationalError as fault:
            if not if_due or not stored.is_busy(fault):
                raise
            if self.locked_since is None:
                self.locked_since = now
                self.say(f"{files.shown(self.path)}: another program has it; results wait")
            self.next_commit = now + COMMIT_SECONDS
            return
        self.waiting.clear()
        self.new_hosts.clear()
        self.locked_since = None
        self.next_commit = time.monotonic() + COMMIT_SECONDS

    def write_waiting(self) -> None:
        self.database.executemany("INSERT OR IGNORE INTO host (name, id) VALUES (?, ?)", self.new_hosts.items())
        self.database.executemany(INSERT.format(table="run"), self.waiting.values())

    def close(self) -> None:
        """Keeps what came last, too."""
        try:
            with reported(self.path):
                self.commit()
        finally:
            self.database.close()
            self.runs.close()

    # ---- results of before

    def believed(self, table: str, more: str = "", words: Sequence[Any] = ()) -> Iterator[tuple[list[Any], Names]]:
        """The rows that are believed, each with the names of its hosts and sitting."""
        for row in self.database.execute(f"{RECORDS.format(table=table)} {more}", words):
            if self.trust.believes(row):
                yield list(row[: len(NAMES)]), Names(*row[len(NAMES) : -2])

    def arrange(self, signature: str, wanted: Iterable[Run]) -> Moved:
        """Puts the results of runs aside that are no longer in the campaign, takes those back that are in it again, and
        numbers all as they stand there now. The signature is that of the runs: where it is that of before all stand as
        they stood."""
        if self.is_empty or self.about("signature") == signature:
            return Moved(0, 0)
        names = {str(name) for (name,) in self.database.execute("SELECT name FROM run UNION SELECT name FROM aside")}
        numbers = {run.name: run.number for run in wanted if run.name in names}

        def move() -> Moved:
            self.database.execute("CREATE TEMP TABLE moved AS SELECT * FROM run WHERE 0")
            self.database.execute("CREATE TEMP TABLE gone AS SELECT * FROM run WHERE 0")
            aside = back = 0
            for table in ("aside", "run"):  # what stands in both is taken from the second
                for row, of in self.believed(table):
                    is_wanted = row[1] in numbers
                    back += is_wanted and table == "aside"
                    aside += not is_wanted and table == "run"
                    row[0] = numbers.get(row[1], row[0])
                    put = INSERT.format(table="moved" if is_wanted else "gone")
                    self.database.execute(put, self.with_sums(row, of))
            self.database.execute("DELETE FROM run")
            self.database.execute("DELETE FROM aside")
            self.database.execute("INSERT OR REPLACE INTO run SELECT * FROM moved")
            self.database.execute("INSERT INTO aside SELECT * FROM gone")
            self.database.execute("DROP TABLE moved")
            self.database.execute("DROP TABLE gone")
            return Moved(aside, back)

        return self.patiently(lambda: self.transaction(move))

    def count_aside(self) -> int:
        return int(self.database.execute("SELECT count(*) FROM aside").fetchone()[0])

    def drop_aside(self) -> int:
        """Drops the results of runs that are no longer in the campaign; how many."""
        names = [str(name) for (name,) in self.database.execute("SELECT name FROM aside")]
        for name in names:
            self.remove_files(name)
        self.patiently(lambda: self.transaction(lambda: self.database.execute("DELETE FROM aside")))
        return len(names)

    def known(self, numbers: Sequence[int]) -> dict[int, tuple[list[Any], Names]]:
        """The results of these runs that are believed, by their numbers."""
        if self.is_empty:
            return {}
        found = self.believed("run", "WHERE r.number IN (SELECT value FROM json_each(?))", (compact(list(numbers)),))
        return {row[0]: (row, of) for row, of in found}

    def count_final(self, identity: str) -> int:
        """How many results are final that a sitting which went by the same has come to."""
        query = """SELECT count(*) FROM run JOIN sitting ON sitting.id = run.sitting
            WHERE identity = ? AND outcome IN (SELECT value FROM json_each(?))"""
        return int(self.database.execute(query, (identity, compact(runs.FINAL))).fetchone()[0])

    def without_result(self, numbers: Sequence[int]) -> list[int]:
        """Which of these runs have no row."""
        query = "SELECT number FROM run WHERE number IN (SELECT value FROM json_each(?))"
        there = {number for (number,) in self.database.execute(query, (compact(list(numbers)),))}
        return [number for number in numbers if number not in there and number not in self.waiting]

    def is_final(self, row: Sequence[Any], traces: str) -> bool:
        """Whether a result is one that another attempt would come to as well, with a trace where one is to be kept."""
        return row[OUTCOME] in runs.FINAL and (row[TRACE] is not None or row[OUTCOME] not in TRACED[traces])

    def take_over(self, row: list[Any], of: Names) -> None:
        """A result of before belongs to this sitting."""
        of = Names(of.host, of.second, *self.went_by)
        self.waiting[row[0]] = self.with_sums([*row[:-1], self.sitting], of)

    def adopt(self, row: Sequence[Any], of: Names) -> None:
        """Takes the result of another file over, with the sitting that it is of."""
        words = (of.identity, of.program, of.checker)
        if words not in self.sittings:
            self.sittings[words] = self.patiently(lambda: self.transaction(lambda: self.begun(words, "merged")))
        second = None if of.second is None else self.host(of.second)
        taken = (*row[:-3], self.host(of.host), second, self.sittings[words])
        self.waiting[row[0]] = self.with_sums(taken, of)

    def begun(self, words: tuple[str, str, str], host: str) -> int:
        """Notes a sitting: its key."""
        began = time.strftime("%Y-%m-%dT%H:%M:%SZ", time.gmtime())
        cursor = self.database.execute(
            "INSERT INTO sitting (identity, program, checker, host, began) VALUES (?, ?, ?, ?, ?)",
            (*words, host, began),
        )
        return cursor.lastrowid or 0

    def forget(self, host: str) -> "collections.Counter[str]":
        """Drops the results that a host came to by itself: how many of each outcome in this sitting."""
        self.commit()
        key = self.host(host)
        query = "SELECT outcome, count(*) FROM run WHERE host = ? AND second IS NULL AND sitting = ? GROUP BY outcome"
        found = collections.Counter(dict(self.database.execute(query, (key, self.sitting))))
        self.patiently(
            lambda: self.transaction(
                lambda: self.database.execute("DELETE FROM run WHERE host = ? AND second IS NULL", (key,))
            )
        )
        return found

    def drop_unbelieved(self) -> None:
        """What is not believed leaves the file, so that no report tells it."""
        self.patiently(
            lambda: self.transaction(lambda: stored.keep_believed(self.database, Trust(self.trust.adopts)))
        )

    # ---- new results

    def save(
        self,
        run: Run,
        digest: str,
        answer: runs.Answer,
        host: str,
        attempts: int,
        second: str | None = None,
        tried: Sequence[tuple[str, str]] | None = None,
    ) -> None:
        """Keeps what came of a run instead of what came of it before."""
        name = run.name
        if self.files:
            self.remove_files(name)
        trace = None
        if answer["trace"]:
            trace = f"runs/{self.write_file(f'{file_name(name)}.trace.gz', answer['trace'])}"
        if answer["outcome"] != runs.PASSED:
            with contextlib.suppress(BadInput):  # what is not a scenario
                self.write_file(f"{file_name(name)}.toml", run.scenario())
                if images := run.images():
                    self.write_images(f"{file_name(name)}.images", images)
        hashed = bytes.fromhex(answer["hash"]) if answer["hash"] else None
        row = (
            run.number,
            name,
            compact(run.parameters),
            bytes.fromhex(digest),
            answer["outcome"],
            answer["message"],
            *(answer["counts"] or [None] * len(runs.COUNTS)),
            hashed,
            compact(answer["compared"]) if answer["compared"] else None,
            trace,
            float(answer["seconds"]),
            float(answer["processor"]),
            attempts,
            compact(tried) if tried else None,
            self.host(host),
            None if second is None else self.host(second),
            self.sitting,
        )
        self.waiting[run.number] = self.with_sums(row, Names(host, second, *self.went_by))

    @staticmethod
    def with_sums(row: Sequence[Any], of: Names) -> tuple[Any, ...]:
        """A row with its two sums, over all that it means."""
        return (*row, *stored.sums((*row[:OF_RECORD], *of)))

    # ---- the files of runs

    def write_file(self, name: str, content: str | bytes) -> str:
        self.runs.write(name, content, lasting=False)
        self.files.add(name)
        return name

    def write_images(self, name: str, images: Mapping[str, bytes]) -> None:
        self.files.add(name)
        with self.runs.entered(name, make=True) as folder:
            for image, content in images.items():
                folder.write(image, content, lasting=False)

    def remove_files(self, name: str) -> None:
        stem = file_name(name)
        for path in (f"{stem}.toml", f"{stem}.trace.gz"):
            if path in self.files:
                self.runs.remove(path)
                self.files.discard(path)
        if f"{stem}.images" in self.files:
            self.runs.remove_folder(f"{stem}.images")
            self.files.discard(f"{stem}.images")


def write_images(path: str, images: Mapping[str, bytes]) -> None:
    """Writes images to a folder that the user named."""
    with Folder.named(path, make=True) as folder:
        for name, content in images.items():
            folder.write(name, content, lasting=False)
