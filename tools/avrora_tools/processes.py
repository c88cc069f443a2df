"""Works done in processes of this program's own, some at a time: one that takes too long is ended, with all that it
started."""
import contextlib
import os
import pickle
import selectors
import signal
import sys
import time
from collections.abc import Callable, Iterator, Sequence
from types import FrameType
from typing import Any, Generic, NoReturn, TypeVar

from avrora_tools.errors import CannotWork

Answer = TypeVar("Answer")

GRACE = 5.0  # seconds that a process has to end what it started

BLOCK = 1 << 16


class Late(Exception):
    """A work that took longer than it may."""


class Task(Generic[Answer]):
    """A work that is under way."""

    def __init__(self, work: Callable[[], Answer], seconds: float | None, at_end: Callable[[], None]) -> None:
        sys.stdout.flush()
        sys.stderr.flush()
        self.source, target = os.pipe()
        self.process = os.fork()
        if self.process == 0:
            be_task(work, target, at_end)
        os.close(target)
        with contextlib.suppress(OSError):  # the process does it too, and one of them is the first
            os.setpgid(self.process, self.process)
        self.deadline = None if seconds is None else time.monotonic() + seconds
        self.said = b""
        self.is_ended = self.is_late = False

    def fileno(self) -> int:
        return self.source

    def read(self) -> None:
        """Takes a part of the answer, which has come; behind the last one the process is gone."""
        part = os.read(self.source, BLOCK)
        self.said += part
        if not part:
            self.end()

    def end_if_late(self) -> None:
        if self.deadline is not None and time.monotonic() >= self.deadline and not self.is_ended:
            self.is_late = True
            self.end()

    def end(self) -> None:
        """Ends the process, with all that it started."""
        if self.is_ended:
            return
        self.is_ended = True
        os.close(self.source)
        os.kill(self.process, signal.SIGTERM)
        handle = os.pidfd_open(self.process)
        try:
            with selectors.DefaultSelector() as ends:
                ends.register(handle, selectors.EVENT_READ)
                ends.select(GRACE)
        finally:
            os.close(handle)
            with contextlib.suppress(OSError):
                os.killpg(self.process, signal.SIGKILL)
            os.waitpid(self.process, 0)

    def answer(self) -> Answer:
        """What came of it. Raises what the work raised, and Late."""
        if self.is_late:
            raise Late
        if not self.said:
            raise CannotWork("a process of this tool was ended by something else")
        found, fault = pickle.loads(self.said)
        if fault is not None:
            raise fault
        answer: Answer = found
        return answer


def be_task(work: Callable[[], Any], target: int, at_end: Callable[[], None]) -> NoReturn:
    """Ends this process as one that does the work, and writes what came of it."""

    def end(_number: int, _frame: FrameType | None) -> None:
        at_end()
        raise SystemExit  # so that nothing is left that was half done

    try:
        os.setpgid(0, 0)
        signal.signal(signal.SIGTERM, end)
        signal.signal(signal.SIGINT, end)
        try:
            said = pickle.dumps((work(), None))
        except Exception as fault:
            said = pickle.dumps((None, fault))
        with open(target, "wb") as file:
            file.write(said)
    finally:
        os._exit(0)


def in_order(
    works: Sequence[Callable[[], Answer]], jobs: int, seconds: float | None, at_end: Callable[[], None]
) -> Iterator[Task[Answer]]:
    """The tasks that did the works, in their order, each when it is over. So many run at a time, and each may take so
    many seconds. One that is ended before calls `at_end`, in its process."""
    tasks: list[Task[Answer]] = []
    try:
        for number in range(len(works)):
            while len(tasks) <= number or not tasks[number].is_ended:
                running = [task for task in tasks if not task.is_ended]
                while len(running) < jobs and len(tasks) < len(works):
                    tasks.append(Task(works[len(tasks)], seconds, at_end))
                    running.append(tasks[-1])
                look(running)
            yield tasks[number]
    finally:
        for task in tasks:
            task.end()


def look(running: Sequence[Task[Any]]) -> None:
    """Waits until one of the tasks says something, or is late."""
    deadlines = [task.deadline for task in running if task.deadline is not None]
    wait = max(0.0, min(deadlines) - time.monotonic()) if deadlines else None
    with selectors.DefaultSelector() as sources:
        for task in running:
            sources.register(task, selectors.EVENT_READ)
        found = [key.fileobj for key, _ in sources.select(wait)]
    for task in running:
        if task in found:
            task.read()
        task.end_if_late()
