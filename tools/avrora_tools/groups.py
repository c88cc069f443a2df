"""Processes with all that they start: a script such as ./avrora starts the program, and ends where the program does not."""
import contextlib
import os
import signal
import subprocess
from collections.abc import Iterator, Sequence
from typing import Any

from avrora_tools import files
from avrora_tools.errors import CannotWork


class Groups:
    """Processes that each lead a group of their own."""

    def __init__(self) -> None:
        self.running: set[subprocess.Popen[bytes]] = set()
        self.takes_no_more = False  # what is started is ended at once

    @contextlib.contextmanager
    def started(self, words: Sequence[str], **options: Any) -> Iterator[subprocess.Popen[bytes]]:
        """A process, with the options of Popen. What is left of its group behind the block is ended, unless it is known to
        have ended itself. Raises CannotWork where it cannot be started."""
        try:
            process = subprocess.Popen(words, process_group=0, **options)
        except OSError as fault:
            raise CannotWork(f"cannot run {files.shown(words[0])}: {fault.strerror}") from None
        with process:
            self.running.add(process)
            try:
                if self.takes_no_more:
                    end(process)
                yield process
            finally:
                end(process)
                self.running.discard(process)

    @contextlib.contextmanager
    def ended(self) -> Iterator[None]:
        """Ends all groups, and each that another thread starts within the block, which waits for these threads."""
        self.takes_no_more = True
        self.end_all()
        try:
            yield
        finally:
            self.takes_no_more = False

    def end_all(self) -> None:
        """Ends all groups, also those of other threads, which the terminal's signals do not reach."""
        for process in list(self.running):
            end(process)


def end(process: subprocess.Popen[bytes]) -> None:
    """Ends the group of a process, unless the process was waited for."""
    if process.returncode is None:
        with contextlib.suppress(ProcessLookupError):
            os.killpg(process.pid, signal.SIGKILL)
