"""Makes the runs of trials: on processes of this machine, or on the workers of a cluster, as a sweep does."""
import dataclasses
import resource
from collections.abc import Callable, Iterator, Sequence

from avrora_tools.hunting.changes import Document, Trial
from avrora_tools.sweeping.cluster import ClusterTails
from avrora_tools.sweeping.events import LinkLatency, Move, Moved, MovedScenario, Span
from avrora_tools.sweeping.simulation import NO_WINDOW, ProcessTails


@dataclasses.dataclass(frozen=True)
class Scenes(MovedScenario):
    """Scenarios as a sweep's runs have them: a move is the number of one."""

    documents: list[Document] = dataclasses.field(default_factory=list)

    def scenario(
        self, move: Sequence[int | None], window: tuple[int, int] = NO_WINDOW, until: int | None = None
    ) -> Document:
        assert move[0] is not None
        return {**self.documents[move[0]], "window": list(window)}


def scenes(document: Document) -> Scenes:
    nothing = Moved(LinkLatency(0, 0), Span(0, 0))
    return Scenes(document, [nothing], int(document["cycles"]))


class Runner:
    """Runs scenarios, some at a time; counts them."""

    def __init__(self, tails: ProcessTails, known: Scenes, rows: Callable[[bytes], bytes]) -> None:
        """`rows` chooses those of a run that are looked at."""
        self.tails, self.scenes, self.rows = tails, known, rows
        self.runs = 0

    def outputs(self, documents: Sequence[Document]) -> Iterator[bytes]:
        """The rows of each run, in order; fewer where all is over before."""
        self.scenes.documents[:] = documents
        jobs: list[tuple[Move, tuple[int, int]]] = [((number,), NO_WINDOW) for number in range(len(documents))]
        for output in self.tails.outputs(jobs):
            self.runs += 1
            yield self.rows(output)

    def output(self, document: Document) -> bytes:
        self.runs += 1
        self.scenes.documents[:] = [document]
        return self.rows(self.tails.output((0,)))

    @property
    def is_elsewhere(self) -> bool:
        """Whether others make the runs."""
        return isinstance(self.tails, ClusterTails)

    def tried(self, document: Document, trials: Sequence[Trial]) -> Iterator[tuple[Trial, bytes]]:
        """The rows of each trial."""
        yield from zip(trials, self.outputs([trial.applied(document) for trial in trials]))


def processor_seconds() -> float:
    """The seconds of processors that this process and all that it waited for took."""
    used = [resource.getrusage(whose) for whose in (resource.RUSAGE_SELF, resource.RUSAGE_CHILDREN)]
    return sum(it.ru_utime + it.ru_stime for it in used)
