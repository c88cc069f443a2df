"""States at ends of epochs, in files: some all along the run, and those about where one looked last."""
import collections
import contextlib
import os
import threading
from collections.abc import Callable, Iterator

from avrora_tools import files

# So many files lie evenly along the run; so many others are kept, those that were used last.
EVEN, RECENT = 64, 64

# A state far from all others is made with those of so many epochs before it: whoever goes there goes back next.
BEFORE = 8

# Writes the state so many epochs behind that of a file, or behind the run's beginning.
Save = Callable[[int, str | None], bytes]


class Checkpoints:
    """The states of a run. Several threads may ask; one at a time makes a state."""

    def __init__(self, folder: str, start: str | None, begun: int, epochs: int, save: Save) -> None:
        """The run begins in the epoch `begun`, in the state of the file `start` or at reset, and has so many epochs."""
        self.folder, self.start, self.begun, self.save = folder, start, begun, save
        self.stride = max(1, -(-epochs // EVEN))
        self.saved: collections.OrderedDict[int, str] = collections.OrderedDict()  # the one used last behind the others
        self.used: collections.Counter[int] = collections.Counter()
        self.lock = threading.RLock()

    @contextlib.contextmanager
    def state(self, epoch: int) -> Iterator[str | None]:
        """The file of the state in which an epoch begins, which stays while it is used; None where that is reset."""
        with self.lock:
            path = self.made(epoch)
            self.used[epoch] += 1
        try:
            yield path
        finally:
            with self.lock:
                self.used[epoch] -= 1

    def made(self, epoch: int) -> str | None:
        """The same file, which stays until others are made."""
        if epoch <= self.begun:
            return self.start
        with self.lock:
            before = max((one for one in self.saved if one <= epoch), default=self.begun)
            while before < epoch:
                after = self.next_after(before, epoch)
                path = f"{self.folder}/{after}.state"
                files.write_whole(path, self.save(after - before, self.saved.get(before, self.start)), lasting=False)
                self.saved[after] = path
                before = after
            self.saved.move_to_end(epoch)
            self.thin(epoch)
            return self.saved[epoch]

    def next_after(self, before: int, epoch: int) -> int:
        """The epoch whose state is made next on the way from one to another."""
        if epoch - before <= BEFORE:
            return before + 1
        return min(before + self.stride - before % self.stride, epoch - BEFORE)

    def thin(self, newest: int) -> None:
        others = [epoch for epoch in self.saved if epoch % self.stride or self.stride == 1]
        room = EVEN + RECENT if self.stride == 1 else RECENT
        for epoch in others[: max(len(others) - room, 0)]:
            if epoch != newest and not self.used[epoch]:
                os.unlink(self.saved.pop(epoch))
