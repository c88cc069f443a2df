"""What code of the user opens while it runs in this process: files, listings of folders, other processes."""
import contextlib
import importlib.util
import os
import sys
import sysconfig
from collections.abc import Iterator
from typing import Any, ClassVar

# What leaves this process, or comes from elsewhere: no record of files says what that gives.
OPEN_ENDED = (
    "subprocess.Popen", "os.system", "os.exec", "os.posix_spawn", "os.fork", "socket.connect", "urllib.Request"
)  # fmt: skip
LISTINGS = ("os.listdir", "os.scandir")

# Python's own modules, which its version stands for.
OWN_FOLDERS = tuple(f"{sysconfig.get_path(name)}/" for name in ("stdlib", "platstdlib"))


class Recorder:
    """What this process opens while it is asked to record. Python has no way to take such a hook back."""

    is_there: ClassVar[bool] = False
    current: ClassVar["Recorder | None"] = None

    def __init__(self) -> None:
        self.opened: dict[str, None] = {}
        self.listed: dict[str, None] = {}
        self.is_open_ended = False

    @contextlib.contextmanager
    def recording(self) -> Iterator[None]:
        if not Recorder.is_there:
            Recorder.is_there = True
            sys.addaudithook(hook)
        Recorder.current = self
        try:
            yield
        finally:
            Recorder.current = None


def hook(event: str, words: tuple[Any, ...]) -> None:
    recorder = Recorder.current
    if recorder is None:
        return
    if event == "open":
        path = words[0]
        flags = words[2] if len(words) > 2 and isinstance(words[2], int) else 0
        if isinstance(path, (str, bytes, os.PathLike)) and flags & os.O_ACCMODE != os.O_WRONLY:
            recorder.opened[os.path.abspath(os.fsdecode(path))] = None
    elif event in LISTINGS:
        if not sys._getframe(1).f_code.co_filename.startswith("<frozen importlib"):
            path = words[0] if words and words[0] is not None else "."
            if isinstance(path, (str, bytes)):
                recorder.listed[os.path.abspath(os.fsdecode(path))] = None
    elif event in OPEN_ENDED:
        recorder.is_open_ended = True


def source_of(path: str) -> str:
    """The source of a module that was compiled before."""
    if path.endswith(".pyc"):
        with contextlib.suppress(NotImplementedError, ValueError):
            return importlib.util.source_from_cache(path)
    return path


def is_own(path: str) -> bool:
    """Whether a path is that of a module of Python's own, or of a device."""
    return path.startswith((*OWN_FOLDERS, "/proc/", "/dev/"))
