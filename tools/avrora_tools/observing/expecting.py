"""Conditions on variables that a case of `expect` states: whether a run meets them."""
import math
import os
from collections.abc import Iterator, Sequence
from dataclasses import dataclass, field

from avrora_tools import files, showing
from avrora_tools.cases import Case, Condition as Stated
from avrora_tools.debugging.history import history
from avrora_tools.errors import BadInput
from avrora_tools.expectations import opened
from avrora_tools.fields import EVERY, Span
from avrora_tools.observing.conditions import Condition, Reader
from avrora_tools.observing.places import REGISTERS, SP_LOW, SREG
from avrora_tools.observing.running import Network, Run
from avrora_tools.observing.searching import Broken, Watched, turns
from avrora_tools.observing.writers import Writers
from avrora_tools.opening import Where
from avrora_tools.programs import Programs
from avrora_tools.scenarios import Scenario
from avrora_tools.states import SRAM_FIRST

NAMED_BY = "`elf FILE`"  # how a case names a program
STARTING = 1_000  # cycles from reset in which the code before `main` may still write initial values


def parts_of(word: str) -> tuple[str, str]:
    """What an `elf` of a case says: NODES, or nothing, and FILE."""
    nodes, _, path = word.rpartition("=")
    return nodes, path


def beside(case: Case, word: str) -> str:
    """A word for a program, which is sought from the folder of its case."""
    nodes, path = parts_of(word)
    path = os.path.join(case.folder, path)
    files.refuse_endless(path)
    return f"{nodes}={path}" if nodes else path


def holds_at_reset(condition: Condition) -> bool:
    """Whether a condition certainly holds as cycle 0 begins: general registers, SP, SREG and the SRAM are 0 then."""
    places = [place.address for one in condition.quantities for place in one.places(0)]
    if any(REGISTERS <= at < SRAM_FIRST and at not in (SP_LOW, SP_LOW + 1, SREG) for at in places):
        return False
    return condition.holds({one.name: one.number(bytes(one.size)) for one in condition.quantities})


@dataclass
class Follower:
    """Follows whether a condition holds, and notes where what is stated of it is decided."""

    stated: Stated
    holds: bool = False
    since: Broken | None = None
    decided: tuple[int, Broken] | None = field(default=None)  # the cycle, and what stood there

    @property
    def span(self) -> Span:
        return self.stated.span or EVERY

    @property
    def deciding(self) -> bool:
        """What the condition is where the statement is decided: met by `reaches`, broken for the others."""
        return self.stated.word != "always"

    def turn(self, holds: bool, where: Broken) -> None:
        self.end(where.cycle - 1)
        self.holds, self.since = holds, where

    def end(self, last: int) -> None:
        """What holds since its last turn ends with this cycle."""
        if self.decided or self.since is None or self.holds != self.deciding:
            return
        both = self.span.both(Span(self.since.cycle, last)) if self.since.cycle <= last else None
        if both:
            self.decided = (both.first, self.since)

    @property
    def is_met(self) -> bool:
        return (self.decided is not None) == (self.stated.word == "reaches")


def hint(it: Follower) -> Iterator[str]:
    """What may be meant instead, where what decided may come before initial values are there."""
    if it.decided and it.decided[0] < STARTING and it.stated.word != "reaches":
        stated = f"{it.stated.word} {it.stated.node} {it.stated.text}"
        yield f"initial values come some hundred cycles after reset; `within {STARTING:_}..: {stated}` looks from then on"


class Observer:
    """Judges the conditions of a case over a run."""

    def __init__(self, case: Case, simulator: str, path: str, scenario: Scenario, network: Network) -> None:
        """The run is that of the scenario in the file `path`. Raises BadInput, with the line, where a condition is none
        of the nodes' programs."""
        self.case, self.simulator, self.path = case, simulator, path
        self.scenario, self.network = scenario, network
        self.name = files.shown(case.path)
        self.conditions = [self.read(one) for one in case.conditions]

    @classmethod
    def of_case(cls, case: Case, simulator: str) -> "Observer":
        """Over the run that the case names."""
        path = os.path.join(case.folder, (case.source or ("", ""))[1])
        scenario = Scenario.load(path)
        words = [beside(case, word) for word in case.elfs]
        return cls(case, simulator, path, scenario, Network(scenario, Programs(words, scenario), NAMED_BY))

    def read(self, one: Stated) -> Watched:
        count = len(self.scenario.images)
        if one.node >= count:
            why = f"the scenario has nodes 0 to {count - 1}, and no node {one.node}"
            raise BadInput(f"{self.name}, line {one.line}: {why}")
        if one.span and one.span.first > self.scenario.cycles:
            why = f"the run ends in cycle {self.scenario.cycles}, and not within {one.span}"
            raise BadInput(f"{self.name}, line {one.line}: {why}")
        try:
            found = Reader(self.network.names(one.node)).read(one.text)
        except BadInput as fault:
            raise BadInput(f"{self.name}, line {one.line}: {fault}") from None
        if one.word == "reaches" and (one.span or EVERY).first == 0 and holds_at_reset(found):
            why = f"it holds at reset, where all memory is 0, so it cannot fail; `within {STARTING:_}..: reaches` looks"
            raise BadInput(f"{self.name}, line {one.line}: `{files.printable(one.text)}`: {why} from then on")
        return Watched(one.node, found)

    def failures(self) -> Iterator[str]:
        """What is not met, a text each."""
        followers = [Follower(one) for one in self.case.conditions]
        firsts = [it.span.first for it in followers]
        first = min(firsts)
        end = min(max(math.inf if it.span.last is None else it.span.last for it in followers), self.scenario.cycles)
        run = Run.of(self.simulator, self.path, self.scenario.cycles)
        for number, holds, where in turns(run, self.conditions, first, int(end), looks=firsts):
            followers[number].turn(holds, where)
            if all(it.decided for it in followers):
                break
        for it in followers:
            it.end(int(end))
        yield from self.told([it for it in followers if not it.is_met])

    def told(self, unmet: Sequence[Follower]) -> Iterator[str]:
        if not unmet:
            return
        with history(self.path, self.simulator) as past:
            writers = Writers(past)
            for it in unmet:
                lines = [f"{self.name}, line {it.stated.line}: {self.why(it)}", *self.writer(it, writers), *hint(it)]
                if it.decided:
                    moment = it.decided[1].moment
                    where = Where(moment.cycle, moment.node) if moment else Where(it.decided[0], it.stated.node)
                    lines += opened(self.case, where)
                yield showing.printable_lines("\n".join(lines))

    def why(self, it: Follower) -> str:
        text, node = f"`{it.stated.text}`", it.stated.node
        if it.decided is None:
            return f"{text} was to hold once at node {node} within {it.span}, and never did"
        cycle, where = it.decided
        targets = self.network.names(node).targets
        values = [
            f"{one.name} is {one.shown(where.values[one.name], targets)}" for one in where.watched.condition.named
        ]
        what = "does not hold" if it.stated.word == "always" else "holds"
        return f"{text} {what} at node {node} in cycle {cycle}: {', '.join(values)}"

    def writer(self, it: Follower, writers: Writers) -> Iterator[str]:
        """Who wrote the value that decided."""
        if it.decided is None or (moment := it.decided[1].moment) is None:
            return
        targets = self.network.names(moment.node).targets
        old, new = (moment.quantity.shown(held, targets) for held in (moment.before, moment.held))
        who = writers.writer(moment.node, moment.cycle, self.network.programs.of(moment.node)).text
        yield f"> {moment.cycle} {moment.node} {moment.quantity.name}: {old} -> {new} by {who}"
