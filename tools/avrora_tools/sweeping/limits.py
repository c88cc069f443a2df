"""What ends a long piece of work before it is through: its time, ^C, SIGTERM. And how far it is, told from time to
time."""
import contextlib
import os
import signal
import threading
import time
from collections.abc import Callable, Iterator
from types import FrameType

from avrora_tools.terminal import say

TAKEN = (signal.SIGINT, signal.SIGTERM)

SECONDS_ON_TERMINAL, SECONDS_ELSEWHERE = 10.0, 60.0  # from one line of progress to the next

SIGNALLED = 128  # and the signal: the status of what a signal ended


class Limit:
    """Whether to go on."""

    def __init__(self, seconds: float | None = None, clock: Callable[[], float] = time.monotonic) -> None:
        """`clock` tells the seconds of which there are so many: those of a clock on the wall, or of processors."""
        self.clock = clock
        self.begun = clock()
        self.seconds = seconds
        self.signal: int | None = None

    def spent(self) -> float:
        return self.clock() - self.begun

    def is_over(self, share: float = 1.0) -> bool:
        """Whether it is to end, or so much of its time is over."""
        return self.signal is not None or self.seconds is not None and self.spent() >= share * self.seconds

    def part(self, share: float) -> "Limit":
        """The limit of a piece of this work, which may take such a share of its time."""
        return Part(self, None if self.seconds is None else share * self.seconds)

    def reason(self) -> str:
        """What ended it, in words."""
        if self.signal is not None:
            return "^C" if self.signal == signal.SIGINT else signal.Signals(self.signal).name
        return f"its {self.seconds:,.0f} seconds are over"

    def status(self, otherwise: int) -> int:
        """The status of a process that this ended, where what it found says none."""
        return SIGNALLED + self.signal if self.signal is not None and not otherwise else otherwise

    @contextlib.contextmanager
    def by_signals(self) -> Iterator["Limit"]:
        """Within the block the first signal says that it is to end; the second one ends it as any other process."""
        if threading.current_thread() is not threading.main_thread():
            yield self
            return
        before = {number: signal.signal(number, self.take) for number in TAKEN}
        try:
            yield self
        finally:
            for number, handler in before.items():
                signal.signal(number, handler)

    def take(self, number: int, frame: FrameType | None) -> None:
        for taken in TAKEN:
            signal.signal(taken, signal.default_int_handler if taken == signal.SIGINT else signal.SIG_DFL)
        self.signal = number


class Part(Limit):
    """The limit of a piece of work: over where its own time is, or that of the whole."""

    def __init__(self, whole: Limit, seconds: float | None) -> None:
        super().__init__(seconds, whole.clock)
        self.whole = whole

    def is_over(self, share: float = 1.0) -> bool:
        return self.whole.is_over() or super().is_over(share)


class Teller:
    """Tells how far something is: each ten seconds on a terminal, each minute elsewhere."""

    def __init__(self) -> None:
        self.apart = SECONDS_ON_TERMINAL if os.isatty(2) else SECONDS_ELSEWHERE
        self.next = time.monotonic() + self.apart

    def is_due(self) -> bool:
        return time.monotonic() >= self.next

    def tell(self, text: str) -> None:
        say(text)
        self.next = time.monotonic() + self.apart


def shown_time(seconds: float) -> str:
    """A time as one says it."""
    for size, name in ((86_400, "days"), (3_600, "hours"), (60, "minutes")):
        if seconds >= 2 * size:
            return f"{seconds / size:,.0f} {name}"
    return f"{seconds:.0f} seconds" if seconds >= 2 else f"{seconds:.1f} seconds"
