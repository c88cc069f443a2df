"""Networks that a function of the user draws, each by its number, with images of their own.

The function is code, so it is loaded only where the command line allows it. What it reads decides what it draws: all
files and listings of folders that Python opens in it are recorded with their content, so that a result is kept only
while they are as they were.
"""
import functools
import hashlib
import importlib.util
import json
import os
import re
import sys
from collections.abc import Callable, Mapping, Sequence
from typing import Any

from avrora_tools import files
from avrora_tools.errors import BadInput
from avrora_tools.files import printable
from avrora_tools.recording import Recorder, is_own, source_of
from avrora_tools.variants import Axis, Group

NUMBER = "number"

# Networks that were drawn last, at least as many as are under way from their digest to a worker.
DRAWN_KEPT = 4_096

MOST_INPUTS = 10_000  # files that are recorded; what reads more is drawn anew
LARGEST_INPUT = 64 * 1024 * 1024  # bytes

GONE = "not there"
ANEW = "drawn anew"  # in place of a record


def content_of(path: str) -> str:
    """What is at a path now: the hash of a file, or of the names in a folder."""
    try:
        if os.path.isdir(path):
            names = sorted(name for name in os.listdir(path) if name != "__pycache__" and not name.endswith(".results"))
            return "names " + hashlib.sha256("\0".join(names).encode("utf-8", "surrogateescape")).hexdigest()
        return hashlib.sha256(files.read_named(path, LARGEST_INPUT)).hexdigest()
    except (OSError, BadInput):
        return GONE


class Code:
    """A Python file with a function `draw`, and what it has read so far, by its name from a folder."""

    def __init__(self, place: str, path: str, folder: str) -> None:
        self.place, self.path, self.folder = place, path, folder
        self.recorder = Recorder()
        self.inputs: dict[str, str] = {}
        self.is_open_ended = False

    @functools.cached_property
    def function(self) -> Callable[[Any], Any]:
        """It finds the modules of its folder."""
        spec = importlib.util.spec_from_file_location("campaign_draw", self.path)
        try:
            if not spec or not spec.loader:
                raise ImportError("no name of a Python file")
            module = importlib.util.module_from_spec(spec)
            sys.path.insert(0, os.path.dirname(os.path.abspath(self.path)))
            try:
                with self.recorder.recording():
                    spec.loader.exec_module(module)
            finally:
                del sys.path[0]
        except (Exception, SystemExit) as fault:  # of a file of the user
            fault_text = f"{type(fault).__name__}: {fault}"
            raise BadInput(f"{self.place}: {printable(self.path)} cannot be loaded: {printable(fault_text)}") from None
        draw = getattr(module, "draw", None)
        if not callable(draw):
            raise BadInput(f"{self.place}: {printable(self.path)} has no function draw")
        self.note()
        return draw  # type: ignore[no-any-return]

    def draw(self, number: Any) -> Any:
        function = self.function
        try:
            with self.recorder.recording():
                return function(number)
        finally:
            self.note()

    def note(self) -> None:
        """Records the content of what was opened since."""
        recorder = self.recorder
        if not (recorder.opened or recorder.listed or recorder.is_open_ended):
            return
        self.is_open_ended = self.is_open_ended or recorder.is_open_ended
        for path in {**recorder.opened, **recorder.listed}:
            source = source_of(path)
            name = os.path.relpath(source, self.folder)
            if not is_own(source) and name not in self.inputs:
                if len(self.inputs) == MOST_INPUTS:
                    self.is_open_ended = True
                    break
                self.inputs[name] = content_of(source)
        recorder.opened.clear()
        recorder.listed.clear()


def record(codes: Sequence[Code]) -> str:
    """What all of them have read, as a text."""
    if any(code.is_open_ended for code in codes):
        return ANEW
    inputs = {name: content for code in codes for name, content in code.inputs.items()}
    return json.dumps(inputs, sort_keys=True)


def is_as_recorded(text: str, folder: str) -> bool:
    """Whether all that a record names is as it was."""
    if text == ANEW:
        return False
    found: Mapping[str, str] = json.loads(text)
    return all(content_of(os.path.join(folder, name)) == content for name, content in found.items())


class DrawnGroup(Group):
    """Networks with images of their own, which a function of the user draws, each by its number."""

    def __init__(self, place: str, name: str, axes: Sequence[Axis], check: int, code: Code) -> None:
        super().__init__(place, name, axes, check)
        if [axis.key for axis in axes] != [NUMBER]:
            raise BadInput(f"{place}: a drawn run can vary only {NUMBER}")
        self.code = code
        self.made = functools.lru_cache(DRAWN_KEPT)(self.make)

    def prepare(self) -> None:
        """Raises BadInput where the function cannot be loaded, or draws nothing."""
        self.made(self.axes[0].values[0])

    def make(self, number: Any) -> tuple[str, dict[str, bytes]]:
        try:
            text, images = self.code.draw(number)
            found = str(text), {str(name): bytes(content) for name, content in images.items()}
        except BadInput:
            raise
        except Exception as fault:  # of a function of the user
            said = printable(f"{type(fault).__name__}: {fault}")
            raise BadInput(f"{self.place}: draw({number}) ended with {said}") from None
        for name in found[1]:
            if not re.fullmatch(r"[A-Za-z0-9_-][A-Za-z0-9_.-]{0,99}", name):
                raise BadInput(
                    f"{self.place}: draw({number}) has an image {printable(name)}, which is not a plain name"
                )
        return found

    def scenario(self, values: Sequence[Any]) -> str:
        return self.made(values[0])[0]

    shipped = scenario

    def own_images(self, values: Sequence[Any]) -> dict[str, bytes]:
        return self.made(values[0])[1]

    def recipe(self, values: Sequence[Any]) -> str:
        try:
            text, images = self.made(values[0])
        except BadInput as fault:
            return json.dumps(str(fault))
        contents = [[name, hashlib.sha256(content).hexdigest()] for name, content in sorted(images.items())]
        return json.dumps([text, contents])

    def base(self) -> Any:
        """What decides what the function draws, as far as that is known before it is loaded: Python, and the modules
        and images of its folder."""
        folder = os.path.dirname(os.path.abspath(self.code.path))
        names = sorted(name for name in os.listdir(folder) if name.endswith((".py", ".hex")))
        return [sys.version, [[name, content_of(os.path.join(folder, name))] for name in names]]
