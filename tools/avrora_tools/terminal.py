"""What goes to the standard error: warnings, progress, and what to say of a missing package."""
import os
import sys
import time
from typing import ClassVar

from avrora_tools.errors import CannotWork
from avrora_tools.showing import printable, printable_lines


PACKAGE = "avrora-tools"


class Speaker:
    """Under which name the lines of the standard error stand."""

    name: ClassVar[str] = PACKAGE


def say(text: str) -> None:
    """Writes a line to the standard error; where that is closed nobody hears it."""
    try:
        sys.stderr.write(f"{Speaker.name}: {printable_lines(text)}\n")
        sys.stderr.flush()
    except (OSError, ValueError, AttributeError):
        pass


warn = say


def missing(module: str, package: str | None) -> CannotWork:
    """What to raise where Python's `module` is missing, which Debian has in `package`, or has not."""
    remedy = f"Debian: apt-get install {package}" if package else f"In a virtual environment: pip install {module}"
    return CannotWork(f"{sys.executable} has no {module}. {remedy}")


class Progress:
    """A line on the terminal that is written anew from time to time, and gone at the end."""

    SECONDS_A_LINE = 0.5

    def __init__(self, prints: bool = False) -> None:
        """`prints` is for tools that print as they read: they show progress only where their output is not a
        terminal."""
        self.shows = os.isatty(2) and not (prints and os.isatty(1))
        self.shown_one = False
        self.next = time.monotonic() + self.SECONDS_A_LINE

    def due(self) -> bool:
        """Whether it is time for another line."""
        return self.shows and time.monotonic() > self.next

    def tell(self, text: str) -> None:
        sys.stderr.write(f"\r{printable(text)}\x1b[K")
        sys.stderr.flush()
        self.next = time.monotonic() + self.SECONDS_A_LINE
        self.shown_one = True

    def end(self) -> None:
        if self.shown_one:
            sys.stderr.write("\r\x1b[K")
            self.shown_one = False
