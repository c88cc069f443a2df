"""Sweeps arrivals of bytes where main and the handler of USART0 RX use the same things: where and when a node is there
the simulator tells. Behind these places it sweeps drawn spans."""
import dataclasses
import random
import shlex
from collections.abc import Callable, Iterator, Mapping

from avrora_tools.errors import BadInput, BadWords
from avrora_tools.hunting.causes import Finding
from avrora_tools.hunting.changes import Document, Trial, inputs_of
from avrora_tools.hunting.handing import Sharings
from avrora_tools.hunting.oracles import Failure, Oracle, Reference
from avrora_tools.hunting.smaller import Scene
from avrora_tools.hunting.visits import Visit, about, in_rounds, stretches
from avrora_tools.hunting.watching import Conditions
from avrora_tools.occurrences import Executions
from avrora_tools.programs import Program, Programs
from avrora_tools.sweeping import findings as grouping
from avrora_tools.sweeping.events import EVERY, InputByte, Move, Moved, MovedScenario, Script, Span, moved_scenario, script_of
from avrora_tools.sweeping.limits import Limit
from avrora_tools.sweeping.sharing import Sharing
from avrora_tools.sweeping.simulation import ProcessTails, Simulator
from avrora_tools.sweeping.sweep import Options, Sweep
from avrora_tools.sweeping.telling import shown_command, write_earliest

NAME = "arrivals"
RACE = "a race"
HANDLER = "USART0_RX_vect"

WIDE = 3_000  # of a drawn span
PER_PLACE = 3  # classes of each interrupted instruction that are run of a drawn span
MOST_VISITS = 40  # of one byte
VISIT_SHARE = 0.1  # of the time of a hunt that one visit may take


@dataclasses.dataclass(frozen=True)
class OracleCheck:
    """An oracle as a sweep's check."""

    oracle: Oracle
    reference: Reference
    tails: ProcessTails
    conditions: Conditions | None

    def judged(self, move: Move, output: bytes) -> Failure | None:
        row = self.conditions.row(self.tails, move) if self.conditions else b""
        return self.oracle.failure(self.reference, None, self.oracle.rows(self.tails.head + output) + row)

    def failure(self, move: Move, output: bytes) -> str | None:
        found = self.judged(move, output)
        return found.text if found else None


class Races:
    """The kind of a hunt that sweeps. A turn is one visit, or one drawn span."""

    covers = "bytes that arrive cycle by cycle where handlers and main share something, and in drawn spans"

    def __init__(
        self,
        simulator: Simulator,
        document: Document,
        until: int,
        programs: Programs | None,
        sharings: Sharings,
        jobs: int,
        limit: Limit,
        place_of: Callable[[int], str],
        conditions: Conditions | None = None,
    ) -> None:
        """`place_of` names the file of a race, by its number."""
        self.conditions = conditions
        self.place_of = place_of
        self.written = 0
        self.simulator, self.document, self.until, self.jobs, self.limit = simulator, document, until, jobs, limit
        self.programs = programs
        self.executions = Executions(simulator, dict(document))
        self.sharings = sharings
        self.events = list(self.bytes_that_move())
        self.waiting = self.visits()
        self.ready: list[Visit] = []
        self.failing: list[Visit] = []  # spans about what was found
        self.seen: set[tuple[str, frozenset[int]]] = set()
        self.unsayable = 0
        self.runs = 0
        self.turns = 0
        self.is_wide = False

    def bytes_that_move(self) -> Iterator[InputByte]:
        """Bytes of each node whose program is known; those of different images in turns. The last byte of a node comes
        first: no other behind it hides what it does. Its first one, which may start its program, is the last."""
        by_image: dict[str, list[InputByte]] = {}
        for it in inputs_of(self.document):
            if self.programs and self.programs.of(it.node):
                image = self.document["node"][it.node]["image"]
                by_image.setdefault(image, []).extend(InputByte(it.node, i) for i in range(len(it.hex) // 2))
        counts = {it.node: len(it.hex) // 2 for it in inputs_of(self.document)}
        for events in by_image.values():
            events.sort(key=lambda event: event.index - counts[event.node])
        while any(by_image.values()):
            for events in by_image.values():
                if events:
                    yield events.pop()

    def sharing(self, node: int, program: Program) -> Sharing:
        return self.sharings.of(self.document["node"][node]["image"], program)

    def program(self, node: int) -> Program:
        program = self.programs.of(node) if self.programs else None
        assert program
        return program

    def visits(self) -> Iterator[list[Visit]]:
        """Of each byte the visits of shared code, in the run in which it never comes."""
        for event in self.events:
            sharing = self.sharing(event.node, self.program(event.node))
            shared = {at for at, thing in sharing.between.items() if HANDLER in sharing.users(thing)}
            script = script_of(self.document, event)
            first, last = self.room(script)
            if not shared or last <= first:
                continue
            executions = Executions(self.simulator, dict(without_byte(self.document, script)))
            executions.has_watch = self.executions.has_watch
            cycles = list(executions.cycles(event.node, sorted(shared), first, last))
            self.executions.has_watch = executions.has_watch
            yield in_rounds(list(stretches(event, cycles)))[:MOST_VISITS]

    def room(self, script: Script) -> tuple[int, int]:
        """Between which cycles a byte can come: behind the one before it, and before the next; the last one as long
        before the deadline as runs go on behind it, so that its answer has that room twice."""
        is_last = script.index + 1 == len(script.bytes_)
        early = self.until - (int(self.document["cycles"]) - self.until)
        behind = max(early, script.nominal(script.index) + 1) if is_last else script.nominal(script.index + 1)
        return script.nominal(script.index - 1) + 1 if script.index else 1, min(behind, self.until) - 1

    def next_visit(self) -> Visit | None:
        """The visit to be swept next: first those of code that was not swept yet."""
        for visits in self.waiting:
            self.ready += visits
            break
        self.ready.sort(key=self.is_known)
        return self.ready.pop(0) if self.ready else None

    def is_known(self, visit: Visit) -> bool:
        return (self.document["node"][visit.event.node]["image"], visit.addresses) in self.seen

    def turn(self, random_: random.Random, oracle: Oracle, reference: Reference) -> list[Finding]:
        """Sweeps one visit, or a drawn span."""
        if chosen := self.chosen():
            return self.swept(*chosen, Options(), oracle, reference)
        visit = self.drawn(random_)
        scenario = self.moved(visit) if visit else None
        if visit is None or scenario is None:
            return []
        return self.swept(visit, scenario, Options(per_place=PER_PLACE), oracle, reference)

    def chosen(self) -> tuple[Visit, MovedScenario] | None:
        """The visit of the next turn and its moves. None where that is a drawn span's: where no visit is left, and each
        second turn once all code was swept."""
        self.turns += 1
        while visit := self.next_visit():
            if self.is_known(visit) and self.turns % 2:
                self.ready.insert(0, visit)
                break
            if scenario := self.moved(visit):
                self.seen.add((self.document["node"][visit.event.node]["image"], visit.addresses))
                return visit, scenario
            self.unsayable += 1
        self.is_wide = True
        return None

    def skip(self, turns: int) -> None:
        """Goes on behind the turns of an earlier hunt."""
        for _ in range(turns):
            self.chosen()

    def again(self, visit: Visit, oracle: Oracle, reference: Reference) -> list[Finding]:
        """Sweeps a visit of an earlier hunt, as far as this scenario has it."""
        if visit.event not in self.events:
            return []
        first, last = self.room(script_of(self.document, visit.event))
        visit = dataclasses.replace(visit, first=max(first, visit.first), last=min(last, visit.last))
        scenario = self.moved(visit) if visit.first < visit.last else None
        return self.swept(visit, scenario, Options(), oracle, reference) if scenario else []

    def drawn(self, random_: random.Random) -> Visit | None:
        if not self.events:
            return None
        event = random_.choice(self.events)
        first, last = self.room(script_of(self.document, event))
        if last - first < WIDE:
            return Visit(event, first, last, frozenset()) if last > first else None
        begin = random_.randrange(first, last - WIDE)
        return Visit(event, begin, begin + WIDE, frozenset())

    def moved(self, visit: Visit) -> MovedScenario | None:
        """The moves of a visit: of the byte with those behind it, or alone, as a scenario or a state can say them."""
        for is_alone in (False, True):
            event = dataclasses.replace(visit.event, is_alone=is_alone)
            try:
                return moved_scenario(self.document, [Moved(event, Span(visit.first, visit.last))], None)
            except (BadInput, BadWords):
                continue
        return None

    def swept(
        self, visit: Visit, scenario: MovedScenario, options: Options, oracle: Oracle, reference: Reference
    ) -> list[Finding]:
        program = self.program(visit.event.node)
        sharing = self.sharing(visit.event.node, program)
        with ProcessTails(self.simulator, scenario, self.jobs) as tails:
            check = OracleCheck(oracle, reference, tails, self.conditions)
            sweep = Sweep(tails, scenario, check, program, sharing, self.limit.part(VISIT_SHARE))
            for _ in sweep.run(options):
                pass
            self.runs += sweep.results.runs
            return [self.finding(sweep, one, check) for one in sweep.findings()]

    def finding(self, sweep: Sweep, one: grouping.Finding, check: OracleCheck) -> Finding:
        places = grouping.lines_of(one.spots)
        used = sweep.thing_in_use(one)
        ends, parting = sweep.ends(one), sweep.parting(one)
        earliest = one.first().move()
        failure = check.judged(earliest, sweep.tails.output(earliest)) or Failure("lost", None, "")
        told = [f"{' and '.join(places)}" + (f"; {used}" if used else ""), *filter(None, (ends, parting))]
        event = sweep.scenario.moved[-1].event
        assert isinstance(event, InputByte)
        span = about(grouping.spans(one.failing)[0])
        command = sweep_command(event, span, self.program(event.node).path)
        self.failing.append(Visit(dataclasses.replace(event, is_alone=False), *span, frozenset()))
        result = Finding((RACE, failure.class_, *places), failure, places=tuple(told), command=command)
        for cell in one.failing:
            result.note(NAME, Failure(failure.class_, failure.node, sweep.results.failures[cell]))
        result.scene = self.scene(event, one.first().move()[-1])
        self.written += 1
        words = write_earliest(self.place_of(self.written), sweep, one.first())
        result.opened = shown_command(self.simulator, words)
        return result

    def scene(self, event: InputByte, value: int) -> Scene | None:
        """A scenario that says the arrival, where one can: that of a node's first byte, or its second, with none
        behind."""
        it = next(it for it in inputs_of(self.document) if it.node == event.node)
        apart = value - it.at
        if event.index > 1 or event.index == 1 and apart not in EVERY:
            return None
        kept = dataclasses.replace(it, hex=it.hex[: 2 * event.index + 2])
        moved = dataclasses.replace(kept, every=apart) if event.index else dataclasses.replace(kept, at=value)
        trial = Trial(NAME, f"byte {event.index} of node {it.node} arrives at {value:,}", (moved,))
        return Scene(kept.applied(self.document), self.until, trial)


def sweep_command(event: InputByte, span: tuple[int, int], elf: str) -> str:
    """The words of a sweep of a span."""
    words = ["--input", f"{event.node}:{event.index}={span[0]}..{span[1]}"]
    return shlex.join([*words, *["--alone"] * event.is_alone, "-e", elf])


def without_byte(document: Document, script: Script) -> Mapping[str, object]:
    """The scenario in which a byte, and those behind it, never come."""
    kept = script.bytes_[: script.index].hex()
    inputs = [{**old, "hex": kept} if old["node"] == script.node else old for old in document["input"]]
    return {**document, "input": inputs}
