"""What a sweep found, in words: for the terminal, and for a page."""
from collections.abc import Sequence
from typing import NamedTuple

from avrora_tools.reporting.findings import Finding as PageFinding
from avrora_tools.reporting.findings import Search
from avrora_tools.sweeping import findings as grouping
from avrora_tools.sweeping.events import Move
from avrora_tools.sweeping.findings import Finding
from avrora_tools.sweeping.sweep import Options, Sweep

MOST_SPANS = 4  # stretches of a finding that are told
MOST_TEXTS = 3  # and kinds of failure


class Told(NamedTuple):
    """A finding in words."""

    finding: Finding
    spots: str  # what the arrivals interrupt
    used: str | None  # what handlers use too
    texts: Sequence[tuple[str, int]]  # what is wrong, and in how many classes
    stretches: str  # the moves
    ends: str | None  # between which instructions the arrivals fail
    late: Sequence[str]
    parting: str | None

    @property
    def move(self) -> Move:
        return self.finding.first().move()


def told(sweep: Sweep, finding: Finding) -> Told:
    return Told(
        finding,
        " and ".join(grouping.lines_of(finding.spots)),
        sweep.thing_in_use(finding),
        grouping.counted([sweep.results.failures[cell] for cell in finding.failing]),
        shown_stretches(finding),
        sweep.ends(finding),
        late_of(sweep, finding),
        sweep.parting(finding),
    )


def shown_move(move: Move) -> str:
    return ", ".join(f"{value:,}" for value in move)


def shown_stretches(finding: Finding) -> str:
    stretches = grouping.spans(finding.failing)
    words = ", ".join(
        f"{first:,}" if first == last else f"{first:,} to {last:,}" for first, last in stretches[:MOST_SPANS]
    )
    more = len(stretches) - MOST_SPANS
    return words + (f" and {more:,} more stretches" if more > 0 else "")


def late_of(sweep: Sweep, finding: Finding) -> list[str]:
    late = sweep.late(finding)
    if late is None or late.cycle < sweep.scenario.until:  # what came in time is not what the run lacks
        return []
    behind = late.cycle - sweep.scenario.until
    found = [f"node {late.node} writes it in cycle {late.cycle:,} ({behind:,} behind the deadline)"]
    if late.wrong_at_last:
        found.append(f"a longer --until is no help: at {sweep.scenario.document['cycles']:,} {late.wrong_at_last}")
    return found


# ---- for the terminal


def lines_of(number: int, one: Told) -> list[str]:
    finding = one.finding
    head = f"{number}. {finding.failing_arrivals:,} of {finding.arrivals:,} arrivals while {one.spots}"
    found = [head + (f"; {one.used}" if one.used else "") + f": {one.texts[0][0]}"]
    found += [f"   also ({count:,} classes): {text}" for text, count in one.texts[1:MOST_TEXTS]]
    if len(one.texts) > MOST_TEXTS:
        found.append(f"   and {len(one.texts) - MOST_TEXTS:,} other failures")
    found.append(f"   moves: {one.stretches}")
    if one.ends:
        found.append(f"   {one.ends}")
    found += [f"   {'late: ' * (not place)}{line}" for place, line in enumerate(one.late)]
    if one.parting:
        found.append(f"   in run {shown_move(one.move)} {one.parting}")
    return found


# ---- for a page


def search_of(
    sweep: Sweep, options: Options, every: Sequence[Told], commands: Sequence[str], earliest: str | None
) -> Search:
    """The sweep and its findings as data."""
    results, moved = sweep.results, sweep.scenario.moved
    moves = sum(len(cell.arrivals.moves) for cell in sweep.cells)
    facts = [
        ("moved", " and ".join(f"{one.event} from {one.span.first:,} to {one.span.last:,}" for one in moved)),
        ("moves", f"{moves:,} in {len(sweep.cells):,} classes"),
        ("each run ends at", f"{sweep.scenario.until:,}"),
        ("runs", f"{results.runs:,} in {results.seconds:.1f} s"),
        ("classes that fail", f"{len(results.failures):,} of {len(results.ran):,}"),
    ]
    if sweep.sharing and sweep.sharing.things:
        facts.append(("used by handlers and by main", ", ".join(sweep.sharing.things)))
    notes = [f"{doubt}: each move is a class" for doubt in sweep.doubts]
    if missed := sweep.classes_not_run():
        notes.append(f"{missed:,} of {len(sweep.cells):,} classes were not run")
    if options.quick and not results.failures:
        notes.append("this was a first look, which proves nothing: without --quick all classes are run")
    found = [as_data(one, earliest if number == 0 else None) for number, one in enumerate(every)]
    return Search("Findings of a sweep", facts, notes, found, commands)


def as_data(one: Told, command: str | None) -> PageFinding:
    details = [("used here", one.used)] if one.used else []
    details += [("also", f"{text} ({count:,} classes)") for text, count in one.texts[1:]]
    details += [("moves", one.stretches), *([("between", one.ends)] if one.ends else [])]
    details += [*(("late", line) for line in one.late)]
    if one.parting:
        details.append((f"in run {shown_move(one.move)}", one.parting))
    finding = one.finding
    return PageFinding(
        one.texts[0][0],
        f"while {one.spots}",
        details,
        [command] if command else [],
        count=finding.failing_arrivals,
        of=finding.arrivals,
    )
