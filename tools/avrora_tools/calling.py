"""Calls of the simulator, as cheap as a call of another program can be: a campaign makes millions of them."""
import os
import select
import signal
from collections.abc import Sequence
from typing import IO, NamedTuple


# How the C library of the program gets its memory, where the user does not say: in one piece that grows by a mebibyte
# and stays. A short run takes a tenth less than with pieces of their own for larger objects and for threads, a long one
# as much.
MEMORY = ":".join(
    f"glibc.malloc.{name}={value}"
    for name, value in {
        "mmap_threshold": 1 << 25,
        "trim_threshold": 1 << 25,
        "top_pad": 1 << 20,
        "arena_max": 1,
    }.items()
)


class Ended(NamedTuple):
    """How a call ended: its status, that of a signal negative, and what it said on the standard error."""

    status: int
    said: str


class Child(NamedTuple):
    """A child that ended: its status, the seconds of processors that it took, and whether it took too long and was
    killed."""

    status: int
    processor: float
    is_late: bool


class TooLong(Exception):
    """A call that took longer than it may; it is killed."""


class Caller:
    """Calls one program. The working folder of the process is changed for each call, so it is one thread's affair."""

    def __init__(self) -> None:
        # Of the call that is under way. In memory: what went wrong is told even where the disk is full.
        self.errors = os.memfd_create("errors")
        # As bytes, so that nothing is encoded at each call.
        self.environment = {b"GLIBC_TUNABLES": MEMORY.encode(), **os.environb}
        self.processor = 0.0  # seconds of processors that all calls took

    def close(self) -> None:
        os.close(self.errors)

    def call(self, program: str, words: Sequence[str], place: str, output: IO[bytes], seconds: float) -> Ended:
        """Runs the program in the folder `place`, with its output to a file. Raises TooLong, and OSError where it
        cannot be started."""
        before = os.open(".", os.O_PATH | os.O_DIRECTORY)
        try:
            os.chdir(place)
            process = os.posix_spawn(
                program,
                [program, *words],
                self.environment,
                file_actions=[
                    (os.POSIX_SPAWN_OPEN, 0, os.devnull, os.O_RDONLY, 0),
                    (os.POSIX_SPAWN_DUP2, output.fileno(), 1),
                    (os.POSIX_SPAWN_DUP2, self.errors, 2),
                ],
                setsigdef=[signal.SIGPIPE, signal.SIGXFSZ],  # which Python ignores
            )
        finally:
            os.fchdir(before)
            os.close(before)
        child = ended(process, seconds)
        said = self.said()
        self.processor += child.processor
        if child.is_late:
            raise TooLong
        return Ended(child.status, said)

    def said(self) -> str:
        """What a call that ended said, which is nothing for most; the file is empty then."""
        size = os.fstat(self.errors).st_size
        if not size:
            return ""
        said = os.pread(self.errors, size, 0)
        os.ftruncate(self.errors, 0)
        os.lseek(self.errors, 0, os.SEEK_SET)
        return said.decode(errors="replace").strip()


def ended(process: int, seconds: float) -> Child:
    """Waits for the end of a child; it is killed where that takes longer than it may, and where this is interrupted."""
    is_late = True
    try:
        handle = os.pidfd_open(process)
        try:
            ends = select.poll()
            ends.register(handle, select.POLLIN)
            is_late = not ends.poll(1_000 * seconds)
        finally:
            os.close(handle)
    finally:
        if is_late:
            os.kill(process, signal.SIGKILL)
        _, status, used = os.wait4(process, 0)
    return Child(os.waitstatus_to_exitcode(status), used.ru_utime + used.ru_stime, is_late)
