"""Conditions on variables that a sweep checks in every cycle of each of its runs."""
import re
from collections.abc import Sequence
from dataclasses import dataclass

from avrora_tools import files
from avrora_tools.debugging.history import history
from avrora_tools.errors import BadInput, BadWords
from avrora_tools.observing.conditions import Reader
from avrora_tools.observing.running import Network, Run
from avrora_tools.observing.searching import Broken, Watched, breaks
from avrora_tools.observing.writers import Writers
from avrora_tools.programs import Programs
from avrora_tools.scenarios import Scenario
from avrora_tools.sweeping.events import Move
from avrora_tools.sweeping.simulation import ProcessTails


@dataclass(frozen=True)
class Breach:
    """A condition that does not hold: of which node, its words, the values of what it names, and who wrote the last of
    them, as text; no one where it never held."""

    node: int
    condition: str
    values: str
    writer: str | None

    def __str__(self) -> str:
        """What is wrong, alike where the same instruction broke it: so no cycle is told."""
        text = f"node {self.node}: `{files.printable(self.condition)}` does not hold: {self.values}"
        return text + (", as the runs begin" if self.writer is None else f", by {self.writer}" if self.writer else "")


@dataclass(frozen=True)
class AlwaysCheck:
    """Each condition holds in every cycle of a run, from where the runs of the sweep begin on."""

    tails: ProcessTails
    network: Network
    conditions: Sequence[Watched]

    def failure(self, move: Move, output: bytes) -> str | None:
        found = self.breach(move)
        return str(found) if found else None

    def breach(self, move: Move) -> Breach | None:
        """The first condition that a run breaks."""
        run = self.run_of(move)
        found = next(breaks(run, self.conditions, run.first, run.limit), None)
        return self.told(move, found) if found else None

    def run_of(self, move: Move) -> Run:
        """The run of a move, by the files of this thread. Where a byte moves it comes by a file of moves, as in the run
        that the sweep makes."""
        tails, scenario = self.tails, self.tails.scenario
        simulator, moves = tails.simulator, None
        document = scenario.scenario((*move[:-1], None) if tails.sweeps else move)
        path = tails.written(document)
        if tails.sweeps:
            moves = f"{path}.moves"
            files.write_whole(moves, scenario.line(move[-1]), lasting=False)
        limit = int(document["cycles"])
        return Run(simulator.program, simulator.folder, path, limit, tails.state_path, scenario.begins, moves)

    def told(self, move: Move, found: Broken) -> Breach:
        node, condition = found.watched.node, found.watched.condition
        targets = self.network.names(node).targets
        values = ", ".join(f"{one.name} is {one.shown(found.values[one.name], targets)}" for one in condition.named)
        writer = None if found.moment is None else self.writer(move, node, found.moment.cycle)
        return Breach(node, condition.text, values, writer)

    def writer(self, move: Move, node: int, cycle: int) -> str:
        """Who wrote in a cycle of a run; nothing where no scenario says that run."""
        tails = self.tails
        try:
            path = tails.written(tails.scenario.scenario(move))
        except BadInput:
            return ""
        with history(path, tails.simulator.program, tails.state_path, tails.simulator.folder) as past:
            return Writers(past).writer(node, cycle, self.network.programs.of(node)).text


def always_check(
    words: Sequence[str], tails: ProcessTails, scenario: str, elfs: Sequence[str], force: bool
) -> AlwaysCheck:
    """The check that words such as `1 queued <= 3` say: a node and a condition each. Raises BadWords where one does not
    say that, BadInput where no such variable is there."""
    read = Scenario.load(scenario)
    network = Network(read, Programs(elfs, read, force))
    return AlwaysCheck(tails, network, [watched(word, network, len(read.images)) for word in words])


def watched(word: str, network: Network, nodes: int) -> Watched:
    match = re.fullmatch(r"\s*([0-9]{1,2})\s+(.+)", word)
    if not match:
        raise BadWords(f"--always {files.printable(word)}: this must be NODE CONDITION, such as '1 queued <= 3'")
    node = int(match[1])
    if node >= nodes:
        raise BadInput(f"--always: there is no node {node}: the scenario has {nodes}")
    return Watched(node, Reader(network.names(node)).read(match[2]))
