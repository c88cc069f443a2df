"""What came of the runs of a sweep, kept in a file, so that one that was cut goes on where it was.

The first line says of which sweep it is, by a hash of all that decides a run; each other line is a move and what is
wrong with its run. A line has a seal of this user: a file that came from elsewhere decides nothing.
"""
import hashlib
import json
import os
from collections.abc import Iterator, Mapping, Sequence
from typing import IO, Any

from avrora_tools import seals
from avrora_tools.errors import BadInput, CannotWork
from avrora_tools.files import shown
from avrora_tools.sweeping.events import Move
from avrora_tools.writing import NO_LINK, Folder

Verdict = str | None

SEAL_DIGITS = 2 * seals.SEAL_BYTES


def digest(parts: Mapping[str, object]) -> str:
    """The hash of what decides a sweep, by names; bytes are taken by their own hash."""
    told = {name: hashlib.sha256(it).hexdigest() if isinstance(it, bytes) else repr(it) for name, it in parts.items()}
    return hashlib.sha256(json.dumps(told, sort_keys=True).encode()).hexdigest()


class Journal:
    """The file of one sweep, open for what is still to come."""

    def __init__(self, path: str, whose: str) -> None:
        """Raises BadInput where the file is that of another sweep."""
        self.path, self.whose = path, whose
        self.known: dict[Move, Verdict] = {}
        try:
            self.file: IO[bytes] = os.fdopen(opened(path), "r+b")
            try:
                self.begin()
            except BaseException:
                self.file.close()
                raise
        except OSError as fault:
            raise CannotWork(f"{shown(path)}: {fault.strerror}") from None

    def begin(self) -> None:
        """Takes what is there, without a line that was cut; an empty file gets its first line. A file without a whole
        line may be anybody's, unless it is the first part of that line."""
        found = self.file.read()
        kept = self.read(found.split(b"\n"))
        if not kept and not self.line({"sweep": self.whose}).startswith(found):
            raise BadInput(f"{shown(self.path)}: it is not a file of `sweep --resume`")
        self.file.truncate(kept)
        if not kept:
            self.write({"sweep": self.whose})

    def read(self, lines: Sequence[bytes]) -> int:
        """Takes what stands in the file; how many of its bytes are whole lines."""
        kept = 0
        for number, line in enumerate(lines[:-1]):
            record = self.record(line)
            if number == 0 and (record or {}).get("sweep") != self.whose:
                raise BadInput(
                    f"{shown(self.path)}: it is not of this sweep and this user: scenario, images, moves, check and "
                    "simulator must be those with which it was begun"
                )
            if record is None:
                raise BadInput(f"{shown(self.path)}, line {number + 1}: it is damaged, or not of this user")
            if "move" in record:
                self.known[tuple(record["move"])] = record["wrong"]
            kept += len(line) + 1
        return kept

    def record(self, line: bytes) -> dict[str, Any] | None:
        text, seal = line[:-SEAL_DIGITS], line[-SEAL_DIGITS:]
        if seals.seal(self.whose.encode() + text).hex().encode() != seal:
            return None
        found: dict[str, Any] = json.loads(text)
        return found

    def line(self, record: Mapping[str, object]) -> bytes:
        text = json.dumps(record).encode() + b" "
        return text + seals.seal(self.whose.encode() + text).hex().encode() + b"\n"

    def write(self, record: Mapping[str, object]) -> None:
        self.file.write(self.line(record))
        self.file.flush()

    def keep(self, move: Move, wrong: Verdict) -> None:
        self.known[move] = wrong
        self.write({"move": list(move), "wrong": wrong})

    def close(self) -> None:
        self.file.close()

    def __iter__(self) -> Iterator[Move]:
        return iter(self.known)


def opened(path: str) -> int:
    """The descriptor of a file that the user names, along no link; it is made where there is none. Raises BadInput
    where something else is there, or a file with another name besides, which would get the lines too."""
    with Folder.above(path) as folder:
        name = os.path.basename(path)
        folder.is_file(name)
        flags = os.O_RDWR | os.O_CREAT | os.O_APPEND | os.O_NONBLOCK | NO_LINK
        return os.open(name, flags, 0o666, dir_fd=folder.descriptor)
