"""A sweep from its scenario to its findings."""
import time
from collections.abc import Iterator, Mapping, Sequence
from dataclasses import dataclass, field

from avrora_tools.programs import Program
from avrora_tools.states import EPOCH, State
from avrora_tools.sweeping import evidence
from avrora_tools.sweeping.arrivals import RECEIVER
from avrora_tools.sweeping.cells import CellMaker
from avrora_tools.sweeping.doubts import stack_doubt
from avrora_tools.sweeping.events import InputByte, Move, MovedScenario
from avrora_tools.sweeping.findings import NEVER, Finding, Spots, findings
from avrora_tools.sweeping.journal import Journal
from avrora_tools.sweeping.limits import Limit, Teller
from avrora_tools.sweeping.ordering import Clock, Enter, dividers, steps
from avrora_tools.sweeping.plans import Cell, FirstLook, in_rounds, spread
from avrora_tools.sweeping.rows import processor_rows
from avrora_tools.sweeping.sharing import SLEEP, Sharing
from avrora_tools.sweeping.simulation import NO_WINDOW, ProcessTails, Window
from avrora_tools.sweeping.verdicts import Check, Late, SerialCheck


ALL_FAIL = 50  # so many runs that all fail, and those that are run to see whether any does not
OTHERS = 8

COUNTING = 0.5  # the share of a sweep's time that counting classes may take


@dataclass(frozen=True)
class Options:
    """What the user chose."""

    quick: bool = False
    grid: int = 64
    each_move: bool = False
    per_place: int | None = None
    stop: bool = False
    runs: int | None = None


@dataclass
class Results:
    """What came of the runs so far."""

    failures: dict[Cell, str] = field(default_factory=dict)
    ran: dict[Cell, None] = field(default_factory=dict)
    runs: int = 0
    seconds: float = 0.0
    first_failure: tuple[Move, str, int, float] | None = None  # the move, what is wrong, after so many runs and seconds
    before: int = 0  # runs of an earlier sitting
    all_fail: bool = False  # so many that the rest is not run

    def take(self, cell: Cell, move: Move, wrong: str | None) -> None:
        self.ran[cell] = None
        if wrong:
            self.failures.setdefault(cell, wrong)


class Sweep:
    """One sweep."""

    def __init__(
        self,
        tails: ProcessTails,
        scenario: MovedScenario,
        check: Check,
        program: Program | None,
        sharing: Sharing | None,
        limit: Limit | None = None,
        journal: Journal | None = None,
    ) -> None:
        """Counts the classes, as long as the limit lets it."""
        self.tails, self.scenario, self.check = tails, scenario, check
        self.program, self.sharing = program, sharing
        self.limit, self.journal = limit or Limit(), journal
        self.teller = Teller()
        last = scenario.moved[-1].event
        self.node = last.node if isinstance(last, InputByte) else last.hearer
        state = State.of_text(tails.state.decode(), "the state") if tails.state else None
        self.state = state
        doubt = self.doubt() if isinstance(last, InputByte) else None
        maker = CellMaker(tails, scenario, state, doubt, sharing.written if sharing else None, self.goes_on_counting)
        self.cells = list(maker.cells())
        self.counted_to = maker.counted_to  # the first cycle of the span without classes, where counting was cut
        self.doubts = list(maker.doubts)  # why each move is a class, where traces tell too little
        self.stores = sorted(maker.stores)
        self.between: Mapping[int, str] = sharing.between if sharing else {}
        self.results = Results()

    def goes_on_counting(self, cycle: int) -> bool:
        span = self.scenario.moved[-1].span
        if self.teller.is_due():
            self.teller.tell(f"counting classes: at cycle {cycle:,} of {span.first:,} to {span.last:,}")
        return not self.limit.is_over(COUNTING)

    def doubt(self) -> str | None:
        """Why traces of the node may not tell which arrivals make one execution."""
        listing = self.tails.simulator.call("disasm", self.scenario.document["node"][self.node]["image"])
        return stack_doubt(self.state.nodes[self.node] if self.state else None, listing.decode().splitlines())

    def shown_address(self, address: int) -> str:
        return self.program.place(address) if self.program else f"{address:04X}"

    def run(self, options: Options) -> Iterator[Results]:
        """Makes the runs, and tells after each what has come of them."""
        begun = time.monotonic()
        results = self.results
        self.tails.is_over = self.limit.is_over
        outputs = self.first_look(options) if options.quick else self.all_outputs(options)
        for cell, move, place, output in outputs:
            results.runs += 1
            results.seconds = time.monotonic() - begun
            wrong = self.failure(move, place, output)
            results.take(cell, move, wrong)
            if self.journal:
                self.journal.keep(move, wrong)
            if wrong:
                results.first_failure = results.first_failure or (move, wrong, results.runs, results.seconds)
            yield results
            results.all_fail = results.runs == len(results.failures) == ALL_FAIL and self.others_fail(options)
            if results.failures and options.stop or results.runs == options.runs or results.all_fail:
                return

    def others_fail(self, options: Options) -> bool:
        """Whether classes that lie far apart fail too, where all that were run do."""
        others = [cell for cell in self.cells if cell not in self.results.ran and self.chosen(cell, options)]
        for cell in [others[i] for i in spread(len(others))[:OTHERS]]:
            move = cell.move()
            if self.check.failure(move, self.tails.output(move)) is None:
                return False
        return bool(others)

    def failure(self, move: Move, place: int, output: bytes) -> str | None:
        """What is wrong with a run, which is the one of this place among those that were asked for. Where others made
        it, it is made here before it is told."""
        wrong = self.check.failure(move, output)
        own = self.tails.made_here(place) if wrong else None
        if own is None:
            return wrong
        right = self.check.failure(move, own)
        if right != wrong:
            self.tails.was_wrong(place)
        return right

    def chosen(self, cell: Cell, options: Options) -> list[Move]:
        """The moves of a class that are run: one of those that are asked for, or all of them."""
        span = self.scenario.moved[-1].span
        moves = [(*cell.before, x) for x in cell.arrivals.moves if (x - span.first) % span.step == 0]
        return moves if options.each_move else moves[:1]

    def all_outputs(self, options: Options) -> Iterator[tuple[Cell, Move, int, bytes]]:
        cells = in_rounds(self.cells, self.between, options.per_place)
        known = self.journal.known if self.journal else {}
        every = [(cell, move) for cell in cells for move in self.chosen(cell, options)]
        for cell, move in every:
            if move in known:
                self.results.before += 1
                self.results.take(cell, move, known[move])
        jobs = [(cell, move) for cell, move in every if move not in known]
        outputs = self.tails.outputs((move, NO_WINDOW) for _, move in jobs)
        for place, ((cell, move), output) in enumerate(zip(jobs, outputs)):
            yield cell, move, place, output
        for place, output in self.tails.told_anew():
            yield *jobs[place], place, output

    def first_look(self, options: Options) -> Iterator[tuple[Cell, Move, int, bytes]]:
        by_values: dict[Move, list[Cell]] = {}
        for cell in self.cells:
            if self.chosen(cell, options):
                by_values.setdefault(cell.before, []).append(cell)
        clocks = self.clocks()
        for cells in by_values.values():
            look = FirstLook(cells, self.between, options.grid, self.scenario.until)
            for jobs in look.rounds():
                moves = [(self.chosen(cells[i], options)[0], window) for i, window in jobs]
                outputs = self.tails.outputs(moves)
                for place, ((i, window), (move, _), output) in enumerate(zip(jobs, moves, outputs)):
                    look.orders[i, window] = self.order_of(output, window, clocks)
                    yield cells[i], move, place, output

    def order_of(self, output: bytes, window: Window, clocks: dict[int, int]) -> int:
        """A number that tells orders of uses apart."""
        assert self.sharing is not None
        rows = processor_rows(output, self.node, window)
        heard = [line.split(b" ", 4)[1:4] for line in output.splitlines() if b" heard 1" in line or b" heard 2" in line]
        order = [step.what for step in steps(rows, self.sharing, clocks, window[0])]
        return hash((tuple(order), tuple(tuple(part) for part in heard)))

    def clocks(self) -> dict[int, int]:
        """The dividers of the node's timers: those of the state, or of the end of the first epoch."""
        state = self.state
        if state is None and self.scenario.document["cycles"] > EPOCH:
            unmoved = self.tails.written({**self.scenario.document, "window": [0, 0]})
            state = State.of_text(self.tails.simulator.call("save", unmoved, "1").decode(), "the state")
        return dividers(state.nodes[self.node]) if state else {}

    def findings(self) -> list[Finding]:
        ran = [cell for cell in self.cells if cell in self.results.ran]
        sharing = self.sharing
        used = {at: it for at, it in sharing.watched.items() if it in sharing.handed_over} if sharing else {}
        return findings(ran, self.results.failures, Spots(self.program), used)

    def classes_not_run(self) -> int:
        return len(self.cells) - len(self.results.ran)

    def late(self, finding: Finding) -> Late | None:
        """Where what the earliest run lacks does come, behind the end of the runs."""
        cycles = self.scenario.document["cycles"]
        if not isinstance(self.check, SerialCheck) or self.scenario.until >= cycles:
            return None
        return self.check.late(self.tails.output(finding.first().move(), until=cycles))

    def parting(self, finding: Finding) -> str | None:
        """Where the earliest failing run parts from a near one that passes: a handler or a clock that comes between two
        uses where the other side is tried first."""
        if self.sharing is None:
            return None
        ran = [cell for cell in self.cells if cell in self.results.ran]
        clocks = self.clocks()
        found = None
        for passing in evidence.neighbours(ran, self.results.failures, finding.first()):
            window = evidence.window_about((finding.first(), passing), self.scenario.begins, self.scenario.until)
            one = evidence.parting(self.tails, self.sharing, clocks, self.node, finding.first(), passing, window)
            if one and one.failing and isinstance(one.failing.what, (Enter, Clock)) and one.behind and one.ahead:
                return evidence.described(one, self.sharing)
            found = found or one
        return evidence.described(found, self.sharing) if found else None

    def things_in_use(self, finding: Finding) -> list[str]:
        """What handlers write and main uses at the ends of the failing stretch; where that is nothing, what is shared
        and used about its places."""
        assert self.sharing is not None
        at_ends = [self.sharing.watched.get(address) for address in finding.ends() if address is not None]
        found = dict.fromkeys(thing for thing in at_ends if thing in self.sharing.handed_over)
        if found:
            return [thing for thing in found if thing]
        places: Sequence[int] = [
            place.address for cell in finding.failing if (place := cell.place()) and not place.asleep
        ]
        return list(dict.fromkeys(self.between[address] for address in places if address in self.between))

    def thing_in_use(self, finding: Finding) -> str | None:
        """What is used by the code that the arrivals of a finding interrupt, and by handlers too."""
        things = self.things_in_use(finding) if self.sharing else []
        if not things or self.sharing is None:
            return None
        users = dict.fromkeys(user for thing in things for user in self.sharing.users(thing))
        names = " and ".join("the sleep" if thing == SLEEP else f"`{thing}`" for thing in things)
        are = "are" if len(things) > 1 else "is"
        return f"{names} {are} used here and in {' and '.join(f'`{user}`' for user in users)}"

    def ends(self, finding: Finding) -> str | None:
        """Both ends of the first stretch in words, and what tells it from its failing neighbours."""
        if self.program is None or finding.ends()[1] is None:
            return None
        behind, before = (self.end_text(address) for address in finding.ends())
        told = f"behind {behind} and before {before}" if behind else f"before {before}"
        told = f"at {before}" if behind == before else told
        for name, address in finding.label:
            if name == RECEIVER and address == NEVER:
                told += "; the receiver is not enabled yet, and a byte is lost"
        return told

    def end_text(self, address: int | None) -> str | None:
        """An instruction with the line of its source and what it uses."""
        if address is None or self.program is None:
            return None
        line = self.program.line_at(address)
        thing = self.sharing.watched.get(address) if self.sharing else None
        name = "" if not thing else "the sleep at " if thing == SLEEP else f"`{thing}` at "
        return f"{name}{line or self.program.place(address)} ({address:04X})"
