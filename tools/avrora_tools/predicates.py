"""A function `check` of a Python file of the user, as `sweep --check` has it, over the whole trace of a run of a
campaign.

It is code, so it is loaded only where the command line allows it. A worker gets the file and nothing beside it, so what
decides a result must stand in it: one that reads other files is refused.
"""
import contextlib
import os
from collections.abc import Sequence
from typing import Any

from avrora_tools import deadlines
from avrora_tools.errors import BadInput
from avrora_tools.files import printable, shown
from avrora_tools.recording import Recorder, is_own, source_of
from avrora_tools.sweeping.verdicts import PredicateCheck, predicate_of


def in_time(seconds: float) -> contextlib.AbstractContextManager[None]:
    return deadlines.in_time(seconds, BadInput(f"check() took more than {seconds:g} s"))


class Predicate:
    """The function of a file. Raises BadInput where there is none."""

    def __init__(self, file: str, seconds: float) -> None:
        self.file, self.seconds = os.path.abspath(file), seconds
        self.recorder = Recorder()
        with self.recorder.recording(), in_time(seconds):
            function = predicate_of(file)
        self.check = PredicateCheck(b"", function, ())
        self.demand_alone()

    def failure(self, values: Sequence[Any], trace: bytes) -> str | None:
        """What is wrong with a run of these values, or None. Raises BadInput where the function cannot say."""
        check = PredicateCheck(b"", self.check.predicate, range(len(values)))
        with self.recorder.recording(), in_time(self.seconds):
            said = check.failure(tuple(values), trace)
        self.demand_alone()
        return said

    def demand_alone(self) -> None:
        """Raises BadInput where the function has read what no worker was sent."""
        recorder = self.recorder
        found = [source_of(path) for path in {**recorder.opened, **recorder.listed}]
        others = [path for path in found if path != self.file and not is_own(path)]
        recorder.opened.clear()
        recorder.listed.clear()
        if others:
            other = printable(others[0])
            raise BadInput(f"{shown(self.file)}: it reads {other}, which no worker was sent: put it into this file")
        if recorder.is_open_ended:
            path = shown(self.file)
            raise BadInput(f"{path}: it starts a program or uses the network, and must come to the same each time")
