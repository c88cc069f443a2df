"""Files: how messages call them (`showing`), reading them, and writing them (`writing`)."""
import contextlib
import errno
import gzip
import os
import re
import stat
import sys
import zlib
from collections.abc import Iterator
from typing import BinaryIO, cast

from avrora_tools.errors import BadInput, CannotWork
from avrora_tools.showing import STANDARD_STREAM, printable, shown
from avrora_tools.writing import whole_file, write_whole

__all__ = [
    "LARGEST_TEXT", "STANDARD_STREAM", "is_below", "opened", "opened_named", "printable", "read_bytes", "read_named",
    "read_named_text", "read_text", "readable", "refuse_endless", "shown", "untold", "whole_file", "write_whole",
]  # fmt: skip

# More bytes than a small file has: a scenario, a case, a campaign.
LARGEST_TEXT = 16 * 1024 * 1024

ENDLESS = "a device or a pipe, and no file"
OF_THE_SYSTEM = "the system makes what is read there, and it is no file"

# Where files are by their kind that the system makes as they are read: without an end, with secrets, or after a wait.
FOLDERS_OF_THE_SYSTEM = ("/proc/", "/sys/")

# What keeps a tool from a file that may be as good as any.
NOT_OF_THE_FILE = (errno.EACCES, errno.EPERM, errno.EIO, errno.ENOMEM, errno.EMFILE, errno.ENFILE, errno.ESTALE)


@contextlib.contextmanager
def readable(name: str) -> Iterator[None]:
    """What opening or reading the file `name` raises in the block becomes BadInput, or CannotWork where it does not
    tell of the file."""
    try:
        yield
    except (OSError, EOFError, zlib.error, ValueError) as fault:  # ValueError: a name with NUL, or one that is not a text
        raised = CannotWork if getattr(fault, "errno", None) in NOT_OF_THE_FILE else BadInput
        raise raised(f"cannot read {shown(name)}: {getattr(fault, 'strerror', None) or fault}") from None


@contextlib.contextmanager
def opened(name: str) -> Iterator[BinaryIO]:
    """The file `name`, unpacked where it ends in .gz, or the standard input, for reading bytes. Raises BadInput where
    it cannot be opened; the block sees to what reading raises (`readable`)."""
    if name == STANDARD_STREAM:
        yield sys.stdin.buffer
        return
    with readable(name):
        file = cast(BinaryIO, gzip.open(name)) if name.endswith(".gz") else open(name, "rb")
    with file:
        yield file


@contextlib.contextmanager
def opened_named(name: str) -> Iterator[BinaryIO]:
    """A file that another file names, and not the user, as `opened` has it. Raises BadInput also where it is a device
    or a pipe, or one that the system makes, which may have no end; it is not waited for."""
    with readable(name):
        file: BinaryIO = open(name, "rb", opener=without_waiting)
    with file:
        refuse_made(name, f"/proc/self/fd/{file.fileno()}")
        if not stat.S_ISREG(os.fstat(file.fileno()).st_mode):
            raise BadInput(f"cannot read {shown(name)}: {ENDLESS}")
        if not name.endswith(".gz"):
            yield file
            return
        with gzip.GzipFile(fileobj=file) as unpacked:
            yield cast(BinaryIO, unpacked)


def is_below(path: str, folder: str) -> bool:
    """Whether a file lies in a folder, wherever links lead, and has no other name, by which it may lie elsewhere. What
    is hidden there, such as .git/config and .env, is the user's, and of no repository."""
    with contextlib.suppress(OSError, ValueError):
        is_alone = os.stat(path).st_nlink == 1
        top, place = os.path.join(os.path.realpath(folder), ""), os.path.realpath(path)
        return is_alone and place.startswith(top) and "/." not in f"/{place.removeprefix(top)}"
    return False


@contextlib.contextmanager
def untold(path: str, folder: str) -> Iterator[None]:
    """What is said of a file that lies outside of a folder has no text of the file: the file that names it may be a
    stranger's, who reads the log."""
    try:
        yield
    except BadInput as fault:
        place = re.match(re.escape(shown(path)) + r"(?:, line \d+)?", str(fault))
        if not place or is_below(path, folder):
            raise
        where = f"it lies outside of {shown(folder)}, is hidden, or has another name, so none of its text is told"
        raise BadInput(f"{place[0]}: not what it should be; {where}") from None


def refuse_made(name: str, path: str) -> None:
    """Raises BadInput where the system makes what is read from the file `name`, which is at `path`."""
    if os.path.realpath(path).startswith(FOLDERS_OF_THE_SYSTEM):
        raise BadInput(f"cannot read {shown(name)}: {OF_THE_SYSTEM}")


def refuse_endless(name: str) -> None:
    """Raises BadInput where a file that another file names is a device or a pipe, or one that the system makes."""
    if os.path.isfile(name):
        refuse_made(name, name)
    if os.path.exists(name) and not os.path.isfile(name) and not os.path.isdir(name):
        raise BadInput(f"cannot read {shown(name)}: {ENDLESS}")


def without_waiting(name: str, flags: int) -> int:
    return os.open(name, flags | os.O_NONBLOCK | os.O_NOCTTY)


def read_bytes(name: str, most: int = LARGEST_TEXT) -> bytes:
    """The content of the file `name`. Raises BadInput where it cannot be read or has more than `most` bytes."""
    with opened(name) as file:
        return at_most(file, name, most)


def read_named(name: str, most: int = LARGEST_TEXT) -> bytes:
    """The content of a file that another file names. Raises BadInput also where it is a device or a pipe."""
    with opened_named(name) as file:
        return at_most(file, name, most)


def at_most(file: BinaryIO, name: str, most: int) -> bytes:
    with readable(name):
        content = file.read(most + 1)
    if len(content) > most:
        raise BadInput(f"{shown(name)}: more than {most:,} bytes")
    return content


def read_text(name: str) -> str:
    """The text of the small file `name` in UTF-8. Raises BadInput where it cannot be read or is not text."""
    return in_utf8(read_bytes(name), name)


def read_named_text(name: str) -> str:
    """The text of a small file that another file names, as `read_text` has it."""
    return in_utf8(read_named(name), name)


def in_utf8(content: bytes, name: str) -> str:
    try:
        return content.decode()
    except UnicodeDecodeError:
        raise BadInput(f"{shown(name)}: no text in UTF-8") from None
