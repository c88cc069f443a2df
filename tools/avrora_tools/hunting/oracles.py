"""Whether a run of a hunt is as it should be.

Without a check of the user each node must write what it writes in the run that is not varied, in any order, sooner or
later: what is due by `until` must have come by the scenario's end, and nothing may come by `until` that is not due by
then. It must not stop, and where it sent to the end it must not fall silent."""
import functools
import re
from collections import Counter
from collections.abc import Collection
from dataclasses import dataclass

from avrora_tools.hunting.changes import Trial
from avrora_tools.hunting.said import SENT, clashes_at, last_sends, without_samples
from avrora_tools.hunting.watching import breach_in
from avrora_tools.sweeping.always import Breach
from avrora_tools.sweeping.rows import stops, written, written_before
from avrora_tools.sweeping.verdicts import CaseCheck, PredicateCheck, listed

LOST, DOUBLED, WRONG, STOPPED, SILENT, UNMET = "lost", "doubled", "wrong", "stopped", "silent", "not met"

QUIET_SHARE = 3  # a node is silent that sends nothing in the last third, where it did


@dataclass(frozen=True)
class Failure:
    """What is wrong with a run: of which class, at which node if one is known, in words; whether that node heard
    clashes that it does not hear in the run that is not varied."""

    class_: str
    node: int | None
    text: str
    has_clash: bool = False
    condition: str = ""  # of a condition that does not hold: its words, and who broke it
    parts: frozenset[bytes] = frozenset()  # the lines, or bytes, that are missing or too much

    def cause(self) -> tuple[str, str]:
        """What failures of one cause have in common, as far as it can be seen."""
        return self.class_, self.condition or ("with a clash there" if self.has_clash else "")

    def is_alike(self, other: "Failure") -> bool:
        """Whether it may be another's, in a scenario that is a part of the other's: of the same class, and of something
        that was missing or too much there too. Else a scenario that becomes small would end with another cause."""
        return self.cause() == other.cause() and (not other.parts or bool(self.parts & other.parts))


@dataclass(frozen=True)
class Reference:
    """The run that is not varied, up to the deadline and up to the end."""

    output: bytes
    until: int
    cycles: int

    @functools.cached_property
    def texts(self) -> dict[int, bytes]:
        """What each node writes in all of the run."""
        return written((self.output,))

    @functools.cached_property
    def texts_due(self) -> dict[int, bytes]:
        """And by the deadline."""
        return written_before((self.output,), self.until)

    @functools.cached_property
    def lines_due(self) -> dict[int, Counter[bytes]]:
        """Its lines, or bytes."""
        return {node: parts_of(text, True) for node, text in self.texts_due.items()}

    @functools.cached_property
    def sent(self) -> Counter[int]:
        """How many bytes each node sends in all of the run."""
        return Counter(int(node) for _, node, _ in SENT.findall(self.output))

    @functools.cached_property
    def stops(self) -> dict[int, str]:
        return stops((self.output,))

    @functools.cached_property
    def last_sends(self) -> dict[int, int]:
        return last_sends(self.output)


def parts_of(text: bytes, is_cut: bool) -> Counter[bytes]:
    """The lines of a text, or its bytes where it has no lines; the last line may be cut."""
    if b"\n" not in text:
        return Counter(bytes([byte]) for byte in text)
    lines = text.split(b"\n")
    return Counter(lines[:-1] if is_cut else [line for line in lines if line])


class Oracle:
    """Judges runs beside the one that is not varied, or by what the user says: a check, or conditions."""

    def __init__(
        self, nodes: Collection[int], user: CaseCheck | PredicateCheck | None = None, has_conditions: bool = False
    ) -> None:
        self.nodes, self.user, self.has_conditions = nodes, user, has_conditions

    def rows(self, output: bytes) -> bytes:
        """The rows of a run that this looks at; a check of the user may look at all."""
        return output if self.user else without_samples(output)

    def failure(self, reference: Reference, trial: Trial | None, output: bytes) -> Failure | None:
        """What is wrong with a run; of what is not varied there is no trial."""
        stopped = stops((output,))
        for node in sorted(stopped):
            if stopped[node] != reference.stops.get(node):
                text = f"node {node} stopped by {stopped[node]}, and not so where nothing varies"
                return Failure(STOPPED, node, text)
        if self.has_conditions:
            breach = breach_in(output)
            return failure_of(breach) if breach else None
        if self.user:
            wrong = self.user.failure((), output)
            return Failure(UNMET, None, wrong) if wrong else None
        return self.written_otherwise(reference, trial, output) or self.fell_silent(reference, trial, output)

    def written_otherwise(self, reference: Reference, trial: Trial | None, output: bytes) -> Failure | None:
        got, got_in_time = written((output,)), written_before((output,), reference.until)
        due, good = reference.texts_due, reference.texts
        for node in sorted(set(self.nodes) & {*got, *good}):
            more = parts_of(got_in_time.get(node, b""), True) - parts_of(good.get(node, b""), False)
            if more:
                class_ = DOUBLED if all(part in parts_of(good.get(node, b""), False) for part in more) else WRONG
                text = f"node {node} wrote {listed(sorted(more.elements()))} too much"
                return Failure(class_, node, text, has_new_clash(reference, output, node), parts=frozenset(more))
            lost = parts_of(due.get(node, b""), True) - parts_of(got.get(node, b""), False)
            if lost and not (trial and trial.lasts()):
                text = f"node {node} did not write {listed(sorted(lost.elements()))}"
                return Failure(LOST, node, text, has_new_clash(reference, output, node), parts=frozenset(lost))
        return None

    def fell_silent(self, reference: Reference, trial: Trial | None, output: bytes) -> Failure | None:
        """A node that sends to the end where nothing varies, and not in this run. A link that is lost for good may
        silence whom it joins."""
        concerned = {node for cut in (trial.cuts() if trial else []) for node in (cut.sender, cut.hearer)}
        begin = reference.cycles - reference.cycles // QUIET_SHARE
        before, now = reference.last_sends, last_sends(output)
        for node in sorted(set(self.nodes) & before.keys()):
            is_excused = trial is not None and trial.lasts() and node in concerned
            if before[node] >= begin > now.get(node, 0) and not is_excused and is_steady(reference, node):
                when = f"in cycle {now[node]:,}" if node in now else "never"
                return Failure(SILENT, node, f"node {node} sends to the end where nothing varies, and here last {when}")
        return None


def failure_of(breach: Breach) -> Failure:
    who = f" by {breach.writer}" if breach.writer else ""
    return Failure(UNMET, breach.node, str(breach), condition=f"`{breach.condition}` broken{who}")


def is_steady(reference: Reference, node: int) -> bool:
    """Whether a node sends in each tenth of the run, from its first byte on: one that answers events may have none."""
    pattern = re.compile(rb"^(\d+) %d sent " % node, re.MULTILINE)
    cycles = [int(cycle) for cycle in pattern.findall(reference.output)]
    if not cycles:
        return False
    tenth = max(1, (reference.cycles - cycles[0]) // 10)
    return len({(cycle - cycles[0]) // tenth for cycle in cycles} & set(range(10))) == 10


def has_new_clash(reference: Reference, output: bytes, node: int) -> bool:
    return clashes_at(output, node) > clashes_at(reference.output, node)

