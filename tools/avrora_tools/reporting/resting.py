"""How long each node slept in each part of a run, by `avrora monitor`."""
import itertools
from collections.abc import Sequence
from concurrent.futures import ThreadPoolExecutor

from avrora_tools import profiles
from avrora_tools.drawings import Drawing
from avrora_tools.profiles import Spent
from avrora_tools.scenarios import Scenario
from avrora_tools.sweeping.simulation import Simulator

MOST_SPANS = 120
LEAST_SPAN = 256  # cycles
MOST_WORK = 15_000_000_000  # cycles awake that are simulated for it, some seconds of one processor
JOBS = 4


def monitored(simulator: Simulator, path: str, scenario: Scenario, first: int, end: int) -> list[Spent]:
    """What each node spent from the cycle `first` on and before `end`."""
    output = simulator.call("monitor", path, str(first), str(end)).decode("ascii", "replace")
    return list(profiles.MonitorReader("what monitor wrote", scenario, (first, end)).read(output.splitlines()).values())


def ends_of(first: int, end: int, awake: int) -> list[int]:
    """Cycles that divide those from `first` to `end` into spans: so many that what is simulated for them, of nodes that
    are `awake` for so many cycles of a run, does not take long."""
    affordable = 2 * MOST_WORK // max(1, awake)
    count = max(1, min(MOST_SPANS, affordable, (end - first) // LEAST_SPAN))
    return [first + (end - first) * number // count for number in range(count + 1)]


def rests(simulator: Simulator, path: str, scenario: Scenario, ends: Sequence[int]) -> list[list[int]]:
    """Of each node, how long it slept in each span. What is told from reset on tells each cycle's owner."""
    count = len(scenario.images)

    def asleep_before(end: int) -> list[int]:
        return [node.asleep for node in monitored(simulator, path, scenario, 0, end)] if end else [0] * count

    with ThreadPoolExecutor(JOBS) as threads:
        sums = list(threads.map(asleep_before, ends))
    return [[after[node] - before[node] for before, after in itertools.pairwise(sums)] for node in range(count)]


def add_to(drawing: Drawing, simulator: Simulator, path: str, scenario: Scenario, whole: Sequence[Spent]) -> None:
    """Adds to a drawing for how long its nodes sleep; `whole` has what they spent of the run."""
    awake = sum(node.busy() for node in whole)
    end = min(drawing.last_cycle, scenario.cycles)
    if end <= drawing.first or not any(node.asleep for node in whole):
        return
    drawing.spans = ends_of(drawing.first, end, awake)
    for node, rest in enumerate(rests(simulator, path, scenario, drawing.spans)):
        if node in drawing.lanes:
            drawing.lanes[node].rest = rest
