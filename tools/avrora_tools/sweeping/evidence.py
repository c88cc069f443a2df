"""Where a failing run parts from the nearest run that passes: which use of what, in which line, came in another
order."""
from collections.abc import Mapping, Sequence
from dataclasses import dataclass

from avrora_tools.programs import vector_name
from avrora_tools.scenarios import MAX_WINDOW
from avrora_tools.sweeping.ordering import Clock, Enter, Step, Use, first_difference, steps
from avrora_tools.sweeping.plans import Cell
from avrora_tools.sweeping.rows import processor_rows
from avrora_tools.sweeping.sharing import SLEEP, Sharing
from avrora_tools.sweeping.simulation import Tails, Window


@dataclass(frozen=True)
class Parting:
    """What came first in the failing run where the passing one has something else, and between which uses."""

    failing: Step | None
    passing: Step | None
    behind: Step | None  # the last use that both have, by the code that is interrupted
    ahead: Step | None  # the next use by that code in the failing run

    def is_use_before_handler(self) -> bool:
        """Whether the failing run has a use where the passing one has a handler or a clock: it stands between no
        uses."""
        one, two = self.failing, self.passing
        return one is not None and two is not None and isinstance(one.what, Use) and not isinstance(two.what, Use)


def neighbours(cells: Sequence[Cell], failures: Mapping[Cell, str], failing: Cell) -> list[Cell]:
    """The nearest cells on both sides, of the same values before, that were run and pass; the nearer one first."""
    at = failing.arrivals.moves[0]
    same = [cell for cell in cells if cell.before == failing.before and cell not in failures]
    below = [cell for cell in same if cell.arrivals.moves[0] < at][-1:]
    above = [cell for cell in same if cell.arrivals.moves[0] > at][:1]
    return sorted(below + above, key=lambda cell: abs(cell.arrivals.moves[0] - at))


def window_about(cells: Sequence[Cell], begins: int, until: int) -> Window:
    """A window that begins shortly before the first of these moves."""
    first = max(begins, min(cell.arrivals.moves[0] for cell in cells) - 500)
    return first, min(until, first + MAX_WINDOW)


def parting(
    tails: Tails, sharing: Sharing, clocks: dict[int, int], node: int, failing: Cell, passing: Cell, window: Window
) -> Parting | None:
    """Where the orders of two runs part, or None where they do not within the window."""
    one, two = (
        list(steps(processor_rows(tails.output(cell.move(), window), node, window), sharing, clocks))
        for cell in (failing, passing)
    )
    place = first_difference(one, two)
    if place is None:
        return None
    # The step that one of the two lacks stands between two uses by the code that it interrupts, or that it is a part
    # of.
    depth = one[place].depth if place < len(one) else 0
    uses = [(i, step) for i, step in enumerate(one) if isinstance(step.what, Use) and step.depth == depth]
    behind = next((step for i, step in reversed(uses) if i < place), None)
    ahead = next((step for i, step in uses if i >= place), None)
    return Parting(one[place] if place < len(one) else None, two[place] if place < len(two) else None, behind, ahead)


def described(found: Parting, sharing: Sharing) -> str:
    """One line on where two runs part."""
    what = f"{step_text(found.failing, sharing)} comes"
    if found.is_use_before_handler() or found.behind is None or found.ahead is None:
        return f"{what} where the run that passes has {step_text(found.passing, sharing)}"
    timer = found.failing.what.timer if found.failing and isinstance(found.failing.what, Clock) else None
    one, two = (thing_text(step.address, sharing, timer) for step in (found.behind, found.ahead))
    first, second = (line_text(step.address, sharing) for step in (found.behind, found.ahead))
    if one == two:
        return f"{what} between two uses of {one}, at {first} and {second}"
    return f"{what} between {one} at {first} and {two} at {second}"


def thing_text(address: int, sharing: Sharing, timer: int | None) -> str:
    """What an instruction uses: the timer whose clock races with it, or what handlers and main share."""
    if timer is not None and timer in sharing.timer_uses.get(address, set()):
        return f"timer {timer}"
    thing = sharing.watched.get(address)
    if thing is None:
        return "timer " + " and ".join(map(str, sorted(sharing.timer_uses.get(address, set()))))
    return "the sleep" if thing == SLEEP else f"`{thing}`"


def step_text(step: Step | None, sharing: Sharing) -> str:
    if step is None:
        return "nothing more"
    if isinstance(step.what, Enter):
        return f"`{vector_name(step.what.vector)}`"
    if isinstance(step.what, Clock):
        return f"the clock of timer {step.what.timer}"
    return f"{thing_text(step.address, sharing, None)} at {line_text(step.address, sharing)}"


def line_text(address: int, sharing: Sharing) -> str:
    """The source line of an instruction, or its function and address."""
    line = sharing.program.line_at(address)
    return f"{line} ({address:04X})" if line else f"{sharing.name_at(address)} ({address:04X})"
