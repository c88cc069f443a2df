"""Conditions on variables (`--always`) that a hunt checks in every cycle of each of its runs. What a run breaks first
stands in a row behind those of the simulator."""
import json
import re
from collections.abc import Sequence
from dataclasses import dataclass

from avrora_tools.hunting.trials import Scenes
from avrora_tools.observing.running import Network
from avrora_tools.observing.searching import Watched
from avrora_tools.programs import Programs
from avrora_tools.scenarios import Scenario
from avrora_tools.sweeping.always import AlwaysCheck, Breach, watched
from avrora_tools.sweeping.events import Move
from avrora_tools.sweeping.simulation import NO_WINDOW, ProcessTails, Simulator, Window

BROKEN = re.compile(rb"^broken (.*)$", re.MULTILINE)


@dataclass(frozen=True)
class Conditions:
    """What is to hold in every cycle of each run."""

    network: Network
    watched: Sequence[Watched]

    @classmethod
    def of_words(cls, words: Sequence[str], scenario: Scenario, programs: Programs) -> "Conditions":
        """Of words such as `1 queued <= 3`. Raises BadWords and BadInput as `watched` does."""
        network = Network(scenario, programs)
        return cls(network, [watched(word, network, len(scenario.images)) for word in words])

    def row(self, tails: ProcessTails, move: Move) -> bytes:
        """The row of what a run of these tails breaks; none where all holds."""
        found = AlwaysCheck(tails, self.network, self.watched).breach(move)
        return row_of(found) if found else b""


def row_of(breach: Breach) -> bytes:
    fields = [breach.node, breach.condition, breach.values, breach.writer]
    return f"broken {json.dumps(fields)}\n".encode("ascii")


def breach_in(output: bytes) -> Breach | None:
    """What the rows of a run say that it broke."""
    found = BROKEN.search(output)
    return Breach(*json.loads(found[1])) if found else None


class WatchingTails(ProcessTails):
    """As ProcessTails, and behind the rows of each run there is that of what it breaks."""

    def __init__(self, simulator: Simulator, scenario: Scenes, jobs: int, conditions: Conditions) -> None:
        super().__init__(simulator, scenario, jobs)
        self.conditions = conditions

    def output(self, move: Sequence[int | None], window: Window = NO_WINDOW, until: int | None = None) -> bytes:
        rows = super().output(move, window, until)
        whole = tuple(value for value in move if value is not None)
        return rows + self.conditions.row(self, whole)
