"""The folder that keeps what is proved: each crate's library, or the program, and of what it was made.

A crate is kept while its sources, the kit, and the libraries below it are those that it was made from. What counts of a
crate below is its library: where a change to it (a comment, a proof) leaves the library as it was, the crates above
stay kept.
"""
import contextlib
import hashlib
import os
import re
import shutil
from typing import NamedTuple

from .crates import names_below
from .seen import Seen, mark_of

# Changes where the words change by which a crate is checked.
FORM = "2"


class Record(NamedTuple):
    """Of what a library or a program was made, and what it is."""

    kit: str
    key: str
    made: str

    def text(self):
        return f"kit: {self.kit}\nkey: {self.key}\nmade: {self.made}\n"


def read_record(path):
    """What a record says; none where there is none, or not a whole one."""
    try:
        with open(path, encoding="utf-8", errors="replace") as it:
            found = re.fullmatch(r"kit: (.*)\nkey: ([0-9a-f]{64})\nmade: ([0-9a-f]{64})\n", it.read())
    except OSError:
        return None
    return Record(*found.groups()) if found else None


def files_of(path):
    """The files of a library, which may be a folder, in order."""
    if not os.path.isdir(path):
        return [path]
    return sorted(f"{at}/{name}" for at, _, names in os.walk(path) for name in names)


def sync(path):
    """Has a file or a folder written to the disk."""
    number = os.open(path, os.O_RDONLY)
    try:
        os.fsync(number)
    finally:
        os.close(number)


def adopted_mark(folder, program):
    """Where the PROVED of a program lies that was not proved here, but adopted."""
    return f"{folder}/{program}.adopted"


class Room:
    """A folder that keeps what is proved of these crates, with this kit."""

    def __init__(self, folder, kit, crates, program=None):
        self.folder, self.kit, self.crates, self.program = folder, kit, crates, program
        self.seen = Seen(f"{folder}/{program}.seen" if program else None)
        self.own = {name: self.own_sum(crate) for name, crate in crates.items()}
        # the records of crates that were made from what stands here, as far as they were asked for
        self.records = {}

    def own_sum(self, crate, anew=False):
        """The sum of what stands in its own sources."""
        made = hashlib.sha256(repr((FORM, self.kit.identity, crate.name, crate.is_program, crate.uses)).encode())
        for at, names in crate.folders():
            self.seen.note(at)
            for name in names:
                path = f"{at}/{name}"
                made.update(repr((os.path.relpath(path, crate.folder), self.seen.sum_of(path, anew))).encode())
        return made.hexdigest()

    def look_again(self, crate):
        """Reads the sources of a crate as they stand now."""
        self.own[crate.name] = self.own_sum(crate, anew=True)
        self.records.clear()

    def marks(self, crate):
        """What tells whether a source of a crate was changed, came or went."""
        return [
            mark_of(it)
            for at, names in crate.folders()
            for it in (at, *(f"{at}/{name}" for name in names))
            if it != crate.folder
        ]

    def record(self, crate):
        return read_record(f"{self.folder}/{crate.name}.sum")

    def key(self, crate):
        """The sum of all that a crate is made from; none where a library below it is not made."""
        below = []
        # by name: the order of the crates depends on the program that is asked for
        for name in sorted(names_below(crate, self.crates)):
            record = self.record_of_these(self.crates[name])
            if record is None:
                return None
            below.append((name, record.made))
        return hashlib.sha256(repr((self.own[crate.name], below)).encode()).hexdigest()

    def record_of_these(self, crate):
        """Its record, where it was made from what stands here."""
        if crate.name not in self.records:
            record = self.record(crate)
            self.records[crate.name] = record if record and record.key == self.key(crate) else None
        return self.records[crate.name]

    def made(self, crate):
        return f"{self.folder}/{crate.name}" + ("" if crate.is_program else ".rlib")

    def made_sum(self, crate, anew=False):
        """The sum of its library or program as it is now, or none."""
        path = self.made(crate)
        if crate.is_program:
            return self.seen.sum_of(path, anew) if os.path.isfile(path) and os.access(path, os.X_OK) else None
        if not os.path.exists(path):
            return None
        sums = [(os.path.relpath(it, path), self.seen.sum_of(it, anew)) for it in files_of(path)]
        return hashlib.sha256(repr(sums).encode()).hexdigest()

    def is_kept(self, crate):
        """Whether what was made from what stands here lies there, as it was made."""
        record = self.record_of_these(crate)
        return record is not None and self.made_sum(crate) == record.made

    def is_spoilt(self, crate):
        """Whether something else lies there than what was made."""
        record = self.record_of_these(crate)
        return record is not None and os.path.lexists(self.made(crate)) and self.made_sum(crate) != record.made

    def log(self, crate):
        return f"{self.folder}/{crate.name}.log"

    def clear(self, crate):
        self.records.clear()
        for path in (f"{self.folder}/{crate.name}.sum", adopted_mark(self.folder, crate.name), self.made(crate)):
            if os.path.isdir(path) and not os.path.islink(path):
                shutil.rmtree(path)
            elif os.path.lexists(path):
                os.remove(path)

    def keep(self, crate, seconds):
        with open(f"{self.folder}/{crate.name}.seconds", "w", encoding="utf-8") as it:
            it.write(f"{seconds:.0f}")
        self.mark(crate)
        os.remove(self.log(crate))

    def mark(self, crate):
        """Notes of what its library or program is made. All of that is on the disk before it is noted."""
        made = self.made(crate)
        for path in files_of(made):
            sync(path)
        for at, _, _ in os.walk(made):
            sync(at)
        record = f"{self.folder}/{crate.name}.sum"
        with open(f"{record}.new", "w", encoding="utf-8") as it:
            it.write(Record(self.kit.identity, self.key(crate), self.made_sum(crate, anew=True)).text())
            it.flush()
            os.fsync(it.fileno())
        sync(self.folder)
        os.replace(f"{record}.new", record)
        sync(self.folder)
        self.records.clear()

    def note_seen(self, others):
        """Notes how all looks that the program stands on, and these files, so that the next call need not read them."""
        for path in others:
            self.seen.sum_of(path)
        with contextlib.suppress(OSError):  # where nobody may write each call reads them
            self.seen.write()
