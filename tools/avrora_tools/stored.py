"""The file of a campaign's results: its form, how it is opened, and which of its rows are believed.

It is data that may be anybody's. Before SQLite gets it, what stands beside it is looked at: a journal that names
another journal, by which SQLite removes files, and a link are refused. Its tables, views and triggers must be those
that this tool makes, to the letter. Of its rows those are believed that this user's tool has written, and that are as
it wrote them.
"""
import contextlib
import dataclasses
import functools
import json
import os
import shutil
import sqlite3
import tempfile
import time
import urllib.parse
from collections.abc import Callable, Iterator
from typing import Any, TypeVar

from avrora_tools import files, runs, seals
from avrora_tools.errors import BadInput, CannotWork
from avrora_tools.writing import Folder

FILE = "results.sqlite"

# The form of the file: SQLite's application_id says whose it is, its user_version which form.
APPLICATION, FORM = 0x41565243, 3

# All that is said of a run, in the order in which its sums have it. Digests and hashes are 32 bytes each, and text in
# the view.
FIELDS = {
    "number": "INTEGER PRIMARY KEY",
    "name": "TEXT NOT NULL",
    "parameters": "TEXT NOT NULL",
    "digest": "BLOB NOT NULL",
    "outcome": "TEXT NOT NULL",
    "message": "TEXT NOT NULL",
    **dict.fromkeys(runs.COUNTS, "INTEGER"),
    "hash": "BLOB",
    "compared": "TEXT",
    "trace": "TEXT",
    "seconds": "REAL NOT NULL",
    "processor": "REAL NOT NULL",
    "attempts": "INTEGER NOT NULL",
    "tried": "TEXT",
    "host": "INTEGER NOT NULL REFERENCES host",
    "second": "INTEGER REFERENCES host",
    "sitting": "INTEGER NOT NULL REFERENCES sitting",
}
NAMES = tuple(FIELDS)
SUMS = "sum BLOB NOT NULL, seal BLOB NOT NULL"

# A sitting is one call of the campaign: `identity` is a hash of all that decides the outcomes of all runs, `program`
# and `checker` are those of the simulator and of the code that checks. A run belongs to the sitting by which it has its
# result, or in which that was found to be the same. `second` is the host that came to the same, `tried` has those that
# came to something else or to nothing, and to what. In `aside` are results of runs that are no longer in the campaign.
SCHEMA = f"""
CREATE TABLE about (key TEXT PRIMARY KEY, value TEXT NOT NULL) WITHOUT ROWID;
CREATE TABLE sitting (
    id INTEGER PRIMARY KEY, identity TEXT NOT NULL, program TEXT NOT NULL, checker TEXT NOT NULL, host TEXT NOT NULL,
    began TEXT NOT NULL
);
CREATE TABLE host (id INTEGER PRIMARY KEY, name TEXT NOT NULL UNIQUE);
CREATE TABLE run ({', '.join(f'{name} {kind}' for name, kind in FIELDS.items())}, {SUMS});
CREATE TABLE aside ({', '.join(f'{name} {kind}' for name, kind in {**FIELDS, 'number': 'INTEGER NOT NULL'}.items())}, {SUMS});
CREATE VIEW result AS
    SELECT number, run.name AS name, parameters, outcome, message, {', '.join(runs.COUNTS)},
        CASE WHEN hash IS NOT NULL THEN lower(hex(hash)) END AS hash, compared, trace, seconds, processor, host.name AS host,
        second.name AS second, attempts, tried, lower(hex(digest)) AS digest, program, checker
    FROM run JOIN sitting ON sitting.id = run.sitting JOIN host ON host.id = run.host
        LEFT JOIN host AS second ON second.id = run.second;
PRAGMA application_id = {APPLICATION};
PRAGMA user_version = {FORM};
"""

# What is said of a run with the names of its hosts and what its sitting went by in place of their keys, and its two
# sums.
RECORD = ", ".join(["known.name", "second.name", "identity", "program", "checker"])
RECORDS = f"""SELECT {', '.join(f'r.{name}' for name in NAMES)}, {RECORD}, r.sum, r.seal FROM {{table}} AS r
    LEFT JOIN sitting ON sitting.id = r.sitting LEFT JOIN host AS known ON known.id = r.host
    LEFT JOIN host AS second ON second.id = r.second"""
OF_RECORD = len(NAMES) - 3  # of a row of RECORDS: what stands before the keys of host, second and sitting

# How long another program may have the file for itself, in seconds; and for how long SQLite itself waits, which hears
# nothing.
PATIENCE, DEAF_SECONDS = 600.0, 0.1
TELL_SECONDS = 1.0  # until it is told that another program has it

LONGEST_VALUE = 64 * 1024 * 1024  # bytes of a text in the file

JOURNAL_MAGIC = bytes.fromhex("d9d505f920a163d7")  # as the last bytes of a journal that names another one
SQLITE_MAGIC = b"SQLite format 3\0"

T = TypeVar("T")


@contextlib.contextmanager
def reported(path: str) -> Iterator[None]:
    """What SQLite raises in the block becomes a line for the user."""
    try:
        yield
    except sqlite3.OperationalError as fault:
        raise CannotWork(f"{files.shown(path)}: {fault}") from None
    except (sqlite3.DatabaseError, UnicodeDecodeError) as fault:
        raise BadInput(f"{files.shown(path)}: no results of a campaign, or damaged ({fault})") from None


def is_busy(fault: sqlite3.OperationalError) -> bool:
    code = getattr(fault, "sqlite_errorcode", 0) & 0xFF
    return code in (sqlite3.SQLITE_BUSY, sqlite3.SQLITE_LOCKED)


def patiently(work: Callable[[], T], path: str, say: Callable[[str], None]) -> T:
    """Does some work in a file that another program may have for itself: waits for that, and hears ^C meanwhile."""
    begun = time.monotonic()
    is_told = False
    while True:
        try:
            return work()
        except sqlite3.OperationalError as fault:
            waited = time.monotonic() - begun
            if not is_busy(fault):
                raise
            if waited > PATIENCE:
                raise CannotWork(f"{files.shown(path)}: another program has had it for {PATIENCE:.0f} s") from None
            if not is_told and waited > TELL_SECONDS:
                is_told = True
                say(f"{files.shown(path)}: another program has it; waiting")


def vet(folder: Folder, name: str) -> bool:
    """Whether a file of this name is there. Raises BadInput where SQLite would follow what lies beside it elsewhere."""
    is_there = folder.is_file(name)
    for ending in ("-wal", "-shm"):
        if folder.is_file(name + ending):
            raise BadInput(f"{files.shown(folder.path_of(name + ending))}: no campaign has such a file; remove it")
    if folder.is_file(f"{name}-journal"):
        if ends_of(folder, f"{name}-journal")[1][-len(JOURNAL_MAGIC) :] == JOURNAL_MAGIC:
            path = files.shown(folder.path_of(f"{name}-journal"))
            raise BadInput(f"{path}: it names another journal, as no campaign's does; remove it")
    if is_there:
        head, _ = ends_of(folder, name)
        if head[: len(SQLITE_MAGIC)] == SQLITE_MAGIC and head[18:20] != b"\1\1":
            raise BadInput(f"{files.shown(folder.path_of(name))}: no results of a campaign")
    return is_there


def ends_of(folder: Folder, name: str) -> tuple[bytes, bytes]:
    """The first bytes of a file, and the last."""
    with open(os.open(name, os.O_RDONLY | os.O_NOFOLLOW | os.O_CLOEXEC, dir_fd=folder.descriptor), "rb") as file:
        head = file.read(100)
        file.seek(max(0, file.seek(0, os.SEEK_END) - 100))
        return head, file.read()


def settings(database: sqlite3.Connection) -> sqlite3.Connection:
    """A connection that believes nothing of what is in a file."""
    database.setlimit(sqlite3.SQLITE_LIMIT_LENGTH, LONGEST_VALUE)
    for pragma in ("trusted_schema = OFF", "cell_size_check = ON", "temp_store = FILE"):
        database.execute(f"PRAGMA {pragma}")
    return database


@functools.cache
def schema() -> list[tuple[Any, ...]]:
    """What a file of results has besides its rows."""
    with contextlib.closing(sqlite3.connect(":memory:")) as database:
        database.executescript(SCHEMA)
        return objects(database)


def objects(database: sqlite3.Connection) -> list[tuple[Any, ...]]:
    found = database.execute("SELECT type, name, tbl_name, sql FROM sqlite_master").fetchmany(1_000)
    return sorted(found, key=repr)


def is_of_campaign(database: sqlite3.Connection) -> bool:
    """Whether a file is one of this form, with nothing in it that this tool does not put there."""
    (application,) = database.execute("PRAGMA application_id").fetchone()
    (form,) = database.execute("PRAGMA user_version").fetchone()
    return (application, form) == (APPLICATION, FORM) and objects(database) == schema()


# ---- which rows are believed


def sums(record: tuple[Any, ...]) -> tuple[bytes, bytes]:
    text = seals.text_of(record)
    return seals.plain_sum(text), seals.seal(text)


@dataclasses.dataclass
class Trust:
    """Which rows are believed, and how many are not. Those of others are where they are asked for (`adopts`)."""

    adopts: bool = False
    damaged: int = 0
    foreign: int = 0

    def believes(self, row: tuple[Any, ...]) -> bool:
        """Of a row of RECORDS."""
        return self.holds((*row[:OF_RECORD], *row[len(NAMES) : -2]), *row[-2:])

    def holds(self, record: tuple[Any, ...], plain: Any, seal: Any) -> bool:
        good, own = sums(record)
        if plain != good:
            self.damaged += 1
        elif seal != own and not self.adopts:
            self.foreign += 1
        else:
            return True
        return False

    def told(self) -> list[str]:
        """In words for the user."""
        parts = []
        if self.damaged:
            parts.append(f"{self.damaged:,} results are not as they were written: the file is damaged, or was changed")
        if self.foreign:
            parts.append(
                f"{self.foreign:,} results were written by another user or on another machine, and are not believed; "
                "--adopt takes them"
            )
        return parts


ABOUT_SEAL = "seal"


def about_of(database: sqlite3.Connection, trust: Trust) -> dict[str, str]:
    """What the file says of itself; nothing where that is not believed."""
    found = {str(key): value for key, value in database.execute("SELECT key, value FROM about")}
    given = str(found.pop(ABOUT_SEAL, "")).partition(" ")
    plain, own = (sum_.hex() for sum_ in sums(tuple(sorted(found.items()))))
    if given[0] != plain:
        trust.damaged += 1
    elif given[2] != own and not trust.adopts:
        trust.foreign += 1
    else:
        return found
    return {}


def sealed_about(about: dict[str, str]) -> dict[str, str]:
    plain, own = (sum_.hex() for sum_ in sums(tuple(sorted(about.items()))))
    return {**about, ABOUT_SEAL: f"{plain} {own}"}


# ---- reading


@dataclasses.dataclass
class Reading:
    """A file of results as it was when it was read: a copy, in which the rows are that are believed."""

    path: str
    database: sqlite3.Connection
    about: dict[str, str]
    trust: Trust


@contextlib.contextmanager
def reading(path: str, adopts: bool = False, say: Callable[[str], None] = lambda text: None) -> Iterator[Reading]:
    """A file of results for reports that may take long: a copy of it, so that a campaign that is at work waits no
    longer than for copying."""
    with contextlib.ExitStack() as stack:
        try:
            folder = stack.enter_context(Folder.above(path))
        except FileNotFoundError:
            raise BadInput(f"{files.shown(path)}: there are no results") from None
        stack.enter_context(reported(path))
        name = os.path.basename(path)
        if not vet(folder, name):
            raise BadInput(f"{files.shown(path)}: there are no results")
        private = stack.enter_context(tempfile.TemporaryDirectory(prefix="avrora-report-"))
        copied = f"{private}/{FILE}"
        patiently(lambda: copy(folder, name, copied), path, say)
        database = settings(stack.enter_context(contextlib.closing(sqlite3.connect(copied))))
        if not is_of_campaign(database):
            raise BadInput(f"{files.shown(path)}: no results of a campaign, or of another version")
        trust = Trust(adopts)
        about = about_of(database, trust)
        keep_believed(database, trust)
        database.commit()
        yield Reading(path, database, about, trust)


def keep_believed(database: sqlite3.Connection, trust: Trust) -> None:
    """Leaves the results alone that are believed. One whose number is damaged stands where no search by it leads, so
    where one is bad, or they are out of order, the table is made anew."""
    is_good, last = True, -1
    for row in database.execute(RECORDS.format(table="run")):
        is_good = trust.believes(row) and row[0] > last and is_good
        last = row[0]
    if is_good:
        return
    believes = Trust(trust.adopts).believes
    database.execute("CREATE TEMP TABLE good AS SELECT * FROM run WHERE 0")
    put = f"INSERT INTO good VALUES ({', '.join('?' * (len(NAMES) + 2))})"
    for row in database.execute(RECORDS.format(table="run")):
        if believes(row):
            database.execute(put, (*row[: len(NAMES)], *row[-2:]))
    database.execute("DELETE FROM run")
    database.execute("INSERT OR REPLACE INTO run SELECT * FROM good")
    database.execute("DROP TABLE good")


def copy(folder: Folder, name: str, to: str) -> None:
    """A copy of a file of results. One that was left within a transaction has a journal, by which the copy is
    mended."""
    uri = f"file:{urllib.parse.quote(folder.path_within(name))}?mode=ro"
    with contextlib.closing(sqlite3.connect(to)) as copied:
        try:
            with contextlib.closing(sqlite3.connect(uri, uri=True, timeout=DEAF_SECONDS)) as source:
                source.backup(copied)
            return
        except sqlite3.OperationalError as fault:
            if is_busy(fault) or not folder.is_file(f"{name}-journal"):
                raise
    for ending in ("", "-journal"):
        source_file = os.open(name + ending, os.O_RDONLY | os.O_NOFOLLOW | os.O_CLOEXEC, dir_fd=folder.descriptor)
        with open(source_file, "rb") as source_of, open(to + ending, "wb") as target:
            shutil.copyfileobj(source_of, target)


COLUMNS = (
    "name", "outcome", *runs.COUNTS, "seconds", "processor", "attempts", "host", "second", "parameters", "message", "hash",
    "compared", "trace", "tried", "digest", "program", "checker", "number",
)  # fmt: skip


def rows(database: sqlite3.Connection, order: str = "number", words: tuple[Any, ...] = ()) -> Iterator[dict[str, Any]]:
    """The results, one a run, with the parameters as a table."""
    for row in database.execute(f"SELECT {', '.join(COLUMNS)} FROM result ORDER BY {order}", words):
        found = dict(zip(COLUMNS, row))
        found["parameters"] = json.loads(found["parameters"])
        found["compared"] = json.loads(found["compared"]) if found["compared"] else {}
        found["tried"] = json.loads(found["tried"]) if found["tried"] else []
        yield found
