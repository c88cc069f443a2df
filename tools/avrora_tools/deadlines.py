"""Work of this process that must end in time and memory."""
import contextlib
import resource
import signal
import threading
from collections.abc import Iterator
from types import FrameType

from avrora_tools.errors import ToolError


class Late(BaseException):
    """A block took longer than it may. It is no Exception, as what is called in the block may catch these."""


@contextlib.contextmanager
def in_time(seconds: float, late: ToolError) -> Iterator[None]:
    """Raises `late` in the block, which is of the main thread, once it takes longer."""
    with timed(signal.ITIMER_REAL, signal.SIGALRM, seconds, late):
        yield


@contextlib.contextmanager
def in_bounds(seconds: float, memory: int) -> Iterator[None]:
    """Raises Late in the block once it takes more seconds of a processor, and MemoryError once the process has so many
    bytes more than before. A block within such a block has the bounds of that one; one of another thread has none, as
    signals and limits are not a thread's."""
    is_timed = signal.getitimer(signal.ITIMER_PROF) != (0.0, 0.0)
    if is_timed or threading.current_thread() is not threading.main_thread():
        yield
        return
    with timed(signal.ITIMER_PROF, signal.SIGPROF, seconds, Late()), in_memory(memory):
        yield


@contextlib.contextmanager
def timed(timer: int, number: signal.Signals, seconds: float, late: BaseException) -> Iterator[None]:
    def end(_number: int, _frame: FrameType | None) -> None:
        raise late

    before = signal.signal(number, end)
    signal.setitimer(timer, seconds)
    try:
        yield
    finally:
        signal.setitimer(timer, 0)
        signal.signal(number, before)


@contextlib.contextmanager
def in_memory(more: int) -> Iterator[None]:
    soft, hard = resource.getrlimit(resource.RLIMIT_AS)
    with open("/proc/self/statm", encoding="ascii") as file:
        most = int(file.read().split()[0]) * resource.getpagesize() + more
    resource.setrlimit(resource.RLIMIT_AS, (most if soft == resource.RLIM_INFINITY else min(soft, most), hard))
    try:
        yield
    finally:
        resource.setrlimit(resource.RLIMIT_AS, (soft, hard))
