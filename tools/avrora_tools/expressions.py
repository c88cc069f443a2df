"""Searches by regular expressions of files. One may take for ever, and nothing within a process can end it: each is
made in a process of its own, which is ended when it takes too long or too much memory."""
import os
import re
import resource
import signal
import time
from collections.abc import Iterable

from avrora_tools import calling

SECONDS = 60  # that a search may take, unless its caller says otherwise
MEMORY = 1 << 30  # bytes that it may take besides the text

TOO_LONG = (
    f"the search for the expression takes more than {SECONDS} seconds, with those before it, or {MEMORY >> 30} GiB"
)

FOUND, MISSING, FAILED = range(3)  # statuses of the process


class TooLong(Exception):
    """A search that took longer, or more memory, than it may."""


def has(expression: bytes, text: bytes | bytearray, seconds: float = SECONDS) -> bool:
    """Whether a regular expression as Python has them, in which ^ and $ are the ends of lines, matches in a text.
    Raises TooLong where that is not known in time. The expression is known to be one."""
    return has_each(expression, (text,), seconds)


def has_each(expression: bytes, texts: Iterable[bytes | bytearray], seconds: float = SECONDS) -> bool:
    """Whether it matches in each of some texts, as `has` tells it of one."""
    process = os.fork()
    if process == 0:
        os._exit(searched(expression, texts, seconds))
    child = calling.ended(process, seconds)
    if child.is_late or child.status not in (FOUND, MISSING):
        raise TooLong
    return child.status == FOUND


class Searches:
    """The searches of a case, of which there may be thousands: none begins once they took SECONDS together."""

    def __init__(self) -> None:
        self.spent = 0.0

    def has(self, expression: bytes, text: bytes | bytearray) -> bool:
        """What `has` tells. Raises TooLong where the searches before took all the time."""
        if self.spent >= SECONDS:
            raise TooLong
        began = time.monotonic()
        try:
            return has(expression, text)
        finally:
            self.spent += time.monotonic() - began


def searched(expression: bytes, texts: Iterable[bytes | bytearray], seconds: float) -> int:
    """The status of the process that searches. It ends by itself too, should its parent be killed."""
    try:
        signal.signal(signal.SIGTERM, signal.SIG_DFL)
        processor = int(seconds) + 2
        resource.setrlimit(resource.RLIMIT_CPU, (processor, processor))
        with open("/proc/self/statm", encoding="ascii") as file:
            memory = int(file.read().split()[0]) * resource.getpagesize() + MEMORY
        resource.setrlimit(resource.RLIMIT_AS, (memory, resource.RLIM_INFINITY))
        resource.setrlimit(resource.RLIMIT_CORE, (0, resource.RLIM_INFINITY))
        pattern = re.compile(expression, re.MULTILINE)
        return FOUND if all(map(pattern.search, texts)) else MISSING
    except BaseException:  # whatever it was, its parent has no answer
        return FAILED
