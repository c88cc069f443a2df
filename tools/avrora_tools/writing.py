"""Writing files: whole or not at all, in folders that are held open, and along no link.

A repository of a stranger may have a link where a tool writes. A file is written beside, and renamed once all of it is
written. A link in its place is refused, and so is one on the way there. Those alone are followed that lie in a folder
of the system, where no repository lies.
"""
import contextlib
import errno
import os
import re
import secrets
import shutil
import stat
import sys
import time
from collections.abc import Iterator
from types import TracebackType
from typing import IO, Any, cast

from avrora_tools.errors import BadInput
from avrora_tools.showing import STANDARD_STREAM, printable, shown

ENTERED = os.O_PATH | os.O_DIRECTORY | os.O_CLOEXEC
NO_LINK = os.O_NOFOLLOW | os.O_CLOEXEC

# Folders in which links are followed, as /var/run is: root alone makes them there.
OF_THE_SYSTEM = ("/", "/home", "/mnt", "/opt", "/run", "/srv", "/usr", "/var")

READER_SECONDS = 10  # that a pipe may be without one, when it is written to

# Names of the process's own files, which are links wherever they lead.
STREAMS = {"/dev/stdin": 0, "/dev/stdout": 1, "/dev/stderr": 2}
NUMBERED = re.compile("/(?:dev|proc/self)/fd/([0-9]{1,7})")


class Folder:
    """A folder that is held open: what is written in it is written there, whatever its name comes to mean."""

    def __init__(self, descriptor: int, path: str) -> None:
        """`path` is what messages call it."""
        self.descriptor, self.path = descriptor, path

    @classmethod
    def named(cls, path: str, make: bool = False) -> "Folder":
        """A folder that the user named. With `make` it is made where it is not there, and so are those above it. Raises
        BadInput where a link is on the way."""
        with renamed(path):
            within = below_here(path)
            if within is not None:
                return cls(os.open(".", ENTERED), "").walked(within.split("/"), make)
            return cls(os.open("/", ENTERED), "/").walked(path.split("/"), make)

    @classmethod
    def above(cls, path: str) -> "Folder":
        """The folder of a file that the user named, as `named` has it."""
        within = path if (found := below_here(path)) is None else found
        return cls.named(os.path.dirname(within) or ".")

    def below(self, path: str, make: bool = False) -> "Folder":
        """The folder of this relative name in this one, which stays open. Raises BadInput where the name leads out of
        it, by `..`, by `/` or by a link."""
        parts = path.split("/")
        if path.startswith("/") or ".." in parts or "\0" in path:
            raise BadInput(f"{shown(path)}: it leads out of {shown(self.path or '.')}")
        return Folder(os.dup(self.descriptor), self.path).walked(parts, make)

    def walked(self, parts: list[str], make: bool) -> "Folder":
        """The folder that the parts of a name lead to from this one, which is closed."""
        folder = self
        for part in parts:
            if part in ("", "."):
                continue
            with folder:
                folder = folder.entered(part, make)
        return folder

    def entered(self, name: str, make: bool) -> "Folder":
        path = self.path_of(name)
        with renamed(path):
            if make:
                with contextlib.suppress(FileExistsError):
                    os.mkdir(name, dir_fd=self.descriptor)
            try:
                follows = 0 if self.path in OF_THE_SYSTEM else NO_LINK
                return Folder(os.open(name, ENTERED | follows, dir_fd=self.descriptor), path)
            except OSError:
                self.refuse_link(name)
                raise

    def path_of(self, name: str) -> str:
        """What messages call a file of this folder."""
        return os.path.join(self.path, name)

    def path_within(self, name: str) -> str:
        """The path of a file for what takes no descriptor of a folder, such as SQLite. It is good in this process,
        while the folder is open; `is_file` says before whether there is a link."""
        return f"/proc/self/fd/{self.descriptor}/{plain(name)}"

    def __enter__(self) -> "Folder":
        return self

    def __exit__(
        self, kind: type[BaseException] | None, fault: BaseException | None, trace: TracebackType | None
    ) -> None:
        self.close()

    def close(self) -> None:
        if self.descriptor >= 0:
            os.close(self.descriptor)
            self.descriptor = -1

    def status(self, name: str) -> os.stat_result | None:
        """What is called `name` here, a link as itself; None where nothing is."""
        with renamed(self.path_of(name)), contextlib.suppress(FileNotFoundError):
            return os.stat(plain(name), dir_fd=self.descriptor, follow_symlinks=False)
        return None

    def refuse_link(self, name: str) -> None:
        found = self.status(name)
        if found and stat.S_ISLNK(found.st_mode):
            raise BadInput(f"{shown(self.path_of(name))}: it is a link, and the tool writes through none")

    def is_file(self, name: str) -> bool:
        """Whether a file is there that has this name alone. Raises BadInput where something else is there."""
        found = self.status(name)
        self.refuse_link(name)
        if found and not stat.S_ISREG(found.st_mode):
            raise BadInput(f"{shown(self.path_of(name))}: no file")
        if found and found.st_nlink > 1:
            raise BadInput(f"{shown(self.path_of(name))}: the file has a second name, which may be anybody's")
        return found is not None

    def names(self) -> list[str]:
        """The names of all that is in this folder."""
        listed = os.open(".", os.O_RDONLY | os.O_DIRECTORY | os.O_CLOEXEC, dir_fd=self.descriptor)
        try:
            return sorted(os.listdir(listed))
        finally:
            os.close(listed)

    @contextlib.contextmanager
    def file(self, name: str, binary: bool = False, lasting: bool = True) -> Iterator[IO[Any]]:
        """A file to write to, which becomes `name` only once all is written. A `lasting` one is on the disk then, so
        that the name has all its content also where the machine loses its power. Raises BadInput where a link is there,
        or what is not a file."""
        path = self.path_of(plain(name))
        found = self.status(name)
        self.refuse_link(name)
        if found and stat.S_ISDIR(found.st_mode):
            raise IsADirectoryError(errno.EISDIR, os.strerror(errno.EISDIR), path)
        if found and not stat.S_ISREG(found.st_mode):
            raise BadInput(f"{shown(path)}: no file")
        # of at most 255 bytes, whatever the characters
        beside = f".{name[:55]}.{secrets.token_hex(8)}"
        with renamed(path):
            written = os.open(beside, os.O_RDWR | os.O_CREAT | os.O_EXCL | NO_LINK, 0o666, dir_fd=self.descriptor)
        try:
            with stream(written, binary) as file:
                yield file
                file.flush()
                if lasting:
                    os.fsync(file.fileno())
            with renamed(path):
                os.replace(beside, name, src_dir_fd=self.descriptor, dst_dir_fd=self.descriptor)
        except BaseException:
            with contextlib.suppress(OSError):
                os.unlink(beside, dir_fd=self.descriptor)
            raise
        if lasting:
            self.sync()

    def write(self, name: str, content: str | bytes, lasting: bool = True) -> None:
        """Writes a text, or bytes, to a file here, whole or not at all."""
        with self.file(name, isinstance(content, bytes), lasting) as file:
            file.write(content)

    def lock_file(self, name: str) -> int:
        """The descriptor of a file to lock, which is made where it is not there, and never cut. Raises BadInput where a
        link is there, or what is not a file."""
        with renamed(self.path_of(name)):
            try:
                flags = os.O_RDWR | os.O_CREAT | os.O_NONBLOCK | NO_LINK
                locked = os.open(plain(name), flags, 0o666, dir_fd=self.descriptor)
            except OSError:
                self.is_file(name)
                raise
        if not stat.S_ISREG(os.fstat(locked).st_mode):
            os.close(locked)
            raise BadInput(f"{shown(self.path_of(name))}: no file")
        return locked

    def remove(self, name: str) -> None:
        """Removes a file, or a link itself, where one is there."""
        with renamed(self.path_of(name)), contextlib.suppress(FileNotFoundError):
            os.unlink(plain(name), dir_fd=self.descriptor)

    def remove_folder(self, name: str) -> None:
        """Removes a folder with all that is in it, where one is there; of a link, or a file, that alone."""
        found = self.status(name)
        if found and not stat.S_ISDIR(found.st_mode):
            self.remove(name)
        elif found:
            shutil.rmtree(name, ignore_errors=True, dir_fd=self.descriptor)

    def sync(self) -> None:
        """What was renamed or removed here is so on the disk; where the folder's system has no such thing, nothing."""
        with contextlib.suppress(OSError):
            listed = os.open(".", os.O_RDONLY | os.O_DIRECTORY | os.O_CLOEXEC, dir_fd=self.descriptor)
            try:
                os.fsync(listed)
            finally:
                os.close(listed)


def below_here(path: str) -> str | None:
    """A name of a file by the working folder, which it begins with where it begins with `/`; None where it does not."""
    if not path.startswith("/"):
        return path
    here = os.path.join(os.getcwd(), "")
    if here == "/":
        return None
    return path.removeprefix(here) if path.startswith(here) else None


def plain(name: str) -> str:
    """A name of one part. Raises BadInput where it leads to another folder, or to none."""
    if name in ("", ".", "..") or "/" in name or "\0" in name:
        raise BadInput(f"{printable(name)!r} is not a name of a file")
    return name


@contextlib.contextmanager
def renamed(path: str) -> Iterator[None]:
    """An OSError in the block names this path, and neither a part of it nor what was to become it."""
    try:
        yield
    except OSError as fault:
        raise OSError(fault.errno, fault.strerror, path) from None


def stream(file: int | str, binary: bool) -> IO[Any]:
    """An open file to write bytes to, or text."""
    return cast(
        IO[Any], open(file, "wb") if binary else open(file, "w", encoding="utf-8", errors="surrogateescape")
    )


def own_stream(path: str) -> int | None:
    """The number of the open file of this process that a path such as /dev/stdout names."""
    match = NUMBERED.fullmatch(path)
    return int(match[1]) if match else STREAMS.get(path)


@contextlib.contextmanager
def whole_file(path: str, binary: bool = False, lasting: bool = True) -> Iterator[IO[Any]]:
    """A file that the user named, to write to, which becomes `path` only once all is written (`Folder.file`). A device
    or a pipe is written to as it comes, and stays what it is; so is an open file of this process, by names such as
    /dev/stdout."""
    number = own_stream(path)
    if number is not None:
        with renamed(path):
            number = os.dup(number)
        with stream(number, binary) as file:
            yield file
        return
    name = os.path.basename(path)
    if not name:
        raise IsADirectoryError(errno.EISDIR, os.strerror(errno.EISDIR), path)
    with renamed(path):
        folder = Folder.above(path)
    with folder:
        found = folder.status(name)
        if found and (stat.S_ISFIFO(found.st_mode) or stat.S_ISCHR(found.st_mode) or stat.S_ISBLK(found.st_mode)):
            with stream(opened_as_it_is(folder, name, path), binary) as file:
                yield file
            return
        with folder.file(name, binary, lasting) as file:
            yield file


def opened_as_it_is(folder: Folder, name: str, path: str) -> int:
    """The descriptor of a device or a pipe, to write to. A pipe that nobody begins to read is waited for a while."""
    end = time.monotonic() + READER_SECONDS
    while True:
        try:
            number = os.open(name, os.O_WRONLY | os.O_NONBLOCK | NO_LINK, dir_fd=folder.descriptor)
            os.set_blocking(number, True)
            return number
        except OSError as fault:
            if fault.errno != errno.ENXIO or time.monotonic() > end:
                raise OSError(fault.errno, fault.strerror, path) from None
        time.sleep(0.05)


def write_whole(path: str, content: str | bytes, lasting: bool = True) -> None:
    """Writes a text, or bytes, to the file `path` that the user named, whole or not at all; to the standard output
    where that is `-`."""
    if path == STANDARD_STREAM:
        if isinstance(content, bytes):
            sys.stdout.flush()
            sys.stdout.buffer.write(content)
        else:
            sys.stdout.write(content)
        return
    with whole_file(path, isinstance(content, bytes), lasting) as file:
        file.write(content)
