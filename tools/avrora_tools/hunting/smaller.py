"""Makes a failing scenario as small as it still fails in the same way: fewer changes, shorter cuts, fewer nodes, links
and inputs, a shorter run. The scenario without the changes must be right each time, which shows that the rest works: no
node sends much more there than before, as one does that nobody answers any more, and without a link nothing is lost.
What that run does not show stays as it is: nodes that send in the failing run alone, and the time of the changes."""
import dataclasses
import itertools
from collections.abc import Callable, Collection, Container, Iterator, Sequence
from typing import TypeVar

from avrora_tools.hunting.changes import (
    Change,
    Cut,
    Document,
    Input,
    Trial,
    alone_node,
    change_without_node,
    ends_of,
    inputs_of,
    nodes_of,
    without_links,
    without_node,
)
from avrora_tools.hunting.oracles import Failure, Oracle, Reference
from avrora_tools.hunting.said import last_sends
from avrora_tools.hunting.trials import Runner
from avrora_tools.scenarios import DEFAULT_TIME

Thing = TypeVar("Thing")

MOST_RUNS = 160  # for one scenario
AT_A_TIME = 2  # scenes that are tried at a time, of one run or two each
HALVINGS = 4  # of a cut, and of the run's length
LEAST_CYCLES = 20_000
PARTS = ("node", "input")  # of a scenario, beside its links
MORE_SENT, PACKET = 1.5, 32  # a node of a smaller scenario sends at most so much more, and a packet


@dataclasses.dataclass(frozen=True)
class Scene:
    """A scenario, the deadline in it, and a trial that breaks it."""

    document: Document
    until: int
    trial: Trial
    numbers: tuple[int, ...] = ()  # of its nodes in the whole scenario, where some are gone
    whole_cycles: int = 0  # of the whole scenario, where this run is shorter

    def failing(self) -> Document:
        return self.trial.applied(self.document)

    def size(self) -> tuple[int, int, int, int]:
        """Nodes that have a link or an input, links, changes, cycles."""
        links = self.document.get("link", [])
        nodes = {end for link in links for end in ends_of(link)} | {it.node for it in inputs_of(self.document)}
        return len(nodes), len(links), len(self.trial.changes), int(self.document["cycles"])

    def in_full(self) -> "Scene":
        """This, with a run that goes on for as long as the whole scenario's."""
        return dataclasses.replace(self, document={**self.document, "cycles": self.whole_cycles}, whole_cycles=0)

    def number(self, node: int) -> int:
        """That of a node in the whole scenario."""
        return self.numbers[node] if self.numbers else node

    def without(self, gone: Collection[int]) -> tuple[int, ...]:
        """The numbers of the nodes that are left without some."""
        return tuple(self.number(node) for node in range(len(self.document["node"])) if node not in gone)


OracleOf = Callable[[int], Oracle]  # for a number of nodes


class Smaller:
    """Makes one scene smaller, by runs."""

    def __init__(self, runner: Runner, oracle_of: OracleOf, may_renumber: bool, is_over: Callable[[], bool]) -> None:
        """`may_renumber`: whether nodes may go; a check of the user knows nodes by their numbers."""
        self.runner, self.oracle_of, self.may_renumber, self.is_over = runner, oracle_of, may_renumber, is_over
        self.left = MOST_RUNS
        self.right: dict[str, Reference | None] = {}  # by scenario; none where it is wrong without any change
        self.fresh_senders: dict[int, frozenset[int]] = {}  # nodes that send in the failing run alone, by scenes

    def failure(self, scene: Scene) -> Failure | None:
        return self.failures([scene])[0]

    def failures(self, scenes: Sequence[Scene]) -> list[Failure | None]:
        """How scenes fail, where they are right without their changes."""
        unknown = {key(it): it for it in scenes if key(it) not in self.right}
        documents = [it.document for it in unknown.values()] + [it.failing() for it in scenes]
        self.left -= len(documents)
        outputs = list(self.runner.outputs(documents))
        outputs += [b""] * (len(documents) - len(outputs))
        for (name, scene), output in zip(unknown.items(), outputs):
            self.right[name] = self.reference(scene, output)
        failing = outputs[len(unknown) :]
        for scene, output in zip(scenes, failing):
            right = self.right[key(scene)]
            senders = frozenset(last_sends(output))
            self.fresh_senders[identity(scene)] = senders.difference(right.last_sends if right else ())
        return [self.judged(scene, self.right[key(scene)], output) for scene, output in zip(scenes, failing)]

    def made_here(self, scene: Scene) -> Failure | None:
        """How a scene fails by runs of this machine, whoever made those before."""
        reference = self.reference(scene, self.runner.output(scene.document))
        return self.judged(scene, reference, self.runner.output(scene.failing()))

    def reference(self, scene: Scene, right: bytes) -> Reference | None:
        """The run without the changes, where it is right."""
        reference = Reference(right, scene.until, int(scene.document["cycles"]))
        oracle = self.oracle_of(len(scene.document["node"]))
        return None if not right or oracle.failure(reference, None, right) else reference

    def judged(self, scene: Scene, reference: Reference | None, failing: bytes) -> Failure | None:
        if reference is None or not failing:
            return None
        return self.oracle_of(len(scene.document["node"])).failure(reference, scene.trial, failing)

    def smaller(self, scene: Scene, failure: Failure) -> tuple[Scene, Failure]:
        """The smallest that was found, and how it fails."""
        whole = failure
        if key(scene) not in self.right:
            self.failures([scene])
        answer_time = max(0, scene.until - last_arrival(scene.document))

        def shorter(scene: Scene) -> Iterator[Scene]:
            return earlier_ends(scene, answer_time)

        steps = (fewer_changes, shorter_cuts, shorter, self.fewer_nodes, self.fewer_links, fewer_bytes, shorter)
        for step in (*steps, fewer_changes):
            scene, failure = self.stepped(scene, failure, whole, step)
        return scene, failure

    def only_failing(self, scene: Scene) -> frozenset[int]:
        """The nodes that send in the failing run alone."""
        if identity(scene) not in self.fresh_senders:
            self.failures([scene])
        return self.fresh_senders[identity(scene)]

    def stepped(
        self, scene: Scene, failure: Failure, whole: Failure, step: Callable[[Scene], Iterator[Scene]]
    ) -> tuple[Scene, Failure]:
        """Takes the first smaller scene that fails as the whole one did, as long as there is one."""
        tried: set[int] = set()
        goes_on = True
        while goes_on:
            goes_on = False
            waiting = iter([it for it in step(scene) if identity(it) not in tried])
            while others := list(itertools.islice(waiting, AT_A_TIME)):
                if self.left <= 0 or self.is_over():
                    return scene, failure
                tried.update(map(identity, others))
                failures = zip(others, self.failures(others))
                alike = [(it, found) for it, found in failures if found and found.is_alike(whole)]
                alike = [(it, found) for it, found in alike if self.works(it, scene)]
                lasting = next((it for it in alike if self.goes_on(it[0], whole)), None)
                if lasting:
                    (scene, failure), goes_on = lasting, True
                    break
        return scene, failure

    def goes_on(self, scene: Scene, whole: Failure) -> bool:
        """Whether a scene still fails as the whole one did when its run goes on to the whole scenario's end. Else a step
        after that which shortened the run made late what was lost."""
        if not scene.whole_cycles:
            return True
        failure = self.failure(scene.in_full())
        return failure is not None and failure.is_alike(whole)

    def works(self, scene: Scene, larger: Scene) -> bool:
        """Whether a scene without its changes works as a larger one does: one that lacks what the protocol needs fails
        for that, and not for what was found."""
        now, before = self.right[key(scene)], self.right[key(larger)]
        if now is None or before is None:
            return False
        sent = {larger.number(node): count for node, count in before.sent.items()}
        if any(count > MORE_SENT * sent.get(scene.number(node), 0) + PACKET for node, count in now.sent.items()):
            return False
        is_less = len(scene.document.get("link", [])) < len(larger.document.get("link", []))
        has_all = [scene.document[part] for part in PARTS] == [larger.document[part] for part in PARTS]
        return not (is_less and has_all) or now.lines_due == before.lines_due

    def fewer_nodes(self, scene: Scene) -> Iterator[Scene]:
        needed = self.only_failing(scene)
        if not self.may_renumber:
            yield from fewer_with_part(scene, needed)
            return
        for gone in chunks([node for node in range(len(scene.document["node"])) if node not in needed]):
            document, changes = scene.document, scene.trial.changes
            for node in sorted(gone, reverse=True):
                document = without_node(document, node)
                changes = tuple(it for it in (change_without_node(it, node) for it in changes) if it is not None)
            if changes:
                trial, numbers = scene.trial.with_changes(changes), scene.without(gone)
                yield dataclasses.replace(scene, document=document, trial=trial, numbers=numbers)

    def fewer_links(self, scene: Scene) -> Iterator[Scene]:
        senders = self.only_failing(scene)
        changed = {(it.sender, it.hearer) for it in scene.trial.changes if not isinstance(it, Input)}
        links = [ends_of(link) for link in scene.document.get("link", [])]
        spare = [link for link in links if link not in changed and link[0] not in senders]
        if len(spare) == 1:
            yield dataclasses.replace(scene, document=without_links(scene.document, spare))
        for gone in chunks(spare):
            yield dataclasses.replace(scene, document=without_links(scene.document, gone))


def identity(scene: Scene) -> int:
    return hash(repr((scene.document, scene.until, scene.trial.changes)))


def key(scene: Scene) -> str:
    """What the run without changes depends on."""
    return repr((scene.document, scene.until))


def chunks(things: Sequence[Thing]) -> Iterator[Sequence[Thing]]:
    """Parts that may go together: halves first, from the last things on, then ever smaller ones."""
    size = len(things) // 2
    while size >= 1:
        for end in range(len(things), 0, -size):
            yield things[max(0, end - size) : end]
        size //= 2


def fewer_with_part(scene: Scene, needed: Container[int]) -> Iterator[Scene]:
    """Without the links and the input of a node that is not needed, which stays and has its number."""
    busy = {it.node for it in inputs_of(scene.document)}
    for link in scene.document.get("link", []):
        busy.update(ends_of(link))
    for node in sorted((it for it in busy if it not in needed), reverse=True):
        kept = [it for it in scene.trial.changes if node not in nodes_of(it)]
        if kept:
            document = alone_node(scene.document, node)
            yield dataclasses.replace(scene, document=document, trial=scene.trial.with_changes(kept))


def pieces(things: Sequence[Change]) -> Iterator[list[Change]]:
    """What is left without a half, and without one."""
    half = len(things) // 2
    if half > 1:
        yield from (list(things[:half]), list(things[half:]))
    if len(things) > 1:
        for place in range(len(things)):
            yield [*things[:place], *things[place + 1 :]]


def fewer_changes(scene: Scene) -> Iterator[Scene]:
    for changes in pieces(scene.trial.changes):
        yield dataclasses.replace(scene, trial=scene.trial.with_changes(changes))


def shorter_cuts(scene: Scene) -> Iterator[Scene]:
    """A cut that is cut in half, as long as it has more than some bytes."""
    byte_time = int(scene.document.get("byte_time", DEFAULT_TIME))
    for place, change in enumerate(scene.trial.changes):
        if not isinstance(change, Cut) or change.is_for_good() or change.end - change.first <= 4 * byte_time:
            continue
        middle = (change.first + change.end) // 2
        for first, end in ((change.first, middle), (middle, change.end)):
            changes = list(scene.trial.changes)
            changes[place] = dataclasses.replace(change, first=first, end=end)
            yield dataclasses.replace(scene, trial=scene.trial.with_changes(changes))


def fewer_bytes(scene: Scene) -> Iterator[Scene]:
    """Without the last byte that arrives at a node."""
    changed = {change.node for change in scene.trial.changes if isinstance(change, Input)}
    for it in inputs_of(scene.document):
        if len(it.hex) > 2 and it.node not in changed:
            document = dataclasses.replace(it, hex=it.hex[:-2]).applied(scene.document)
            yield dataclasses.replace(scene, document=document)


def earlier_ends(scene: Scene, answer_time: int) -> Iterator[Scene]:
    """Runs that end earlier, with their deadline as far before their end. By the deadline all changes are over; and what
    they change has come, and been answered, in the right run."""
    changed = [it for it in scene.trial.changes if isinstance(it, Input)]
    over = [last_byte(it) for it in changed] + [it.end for it in scene.trial.cuts() if not it.is_for_good()]
    unmoved = [it for it in inputs_of(scene.document) if it.node in {change.node for change in changed}]
    least = max([LEAST_CYCLES, *over, *(last_byte(it) + answer_time for it in unmoved)])
    cycles = int(scene.document["cycles"])
    whole, behind = scene.whole_cycles or cycles, cycles - scene.until
    for share in itertools.islice((0.4, 0.6, 0.8, 0.9), HALVINGS):
        until = int(scene.until * share)
        if until > least:
            document = {**scene.document, "cycles": until + behind}
            yield dataclasses.replace(scene, document=document, until=until, whole_cycles=whole)


def last_byte(it: Input) -> int:
    """The cycle of an input's last byte."""
    return it.at + it.every * (len(it.hex) // 2 - 1)


def last_arrival(document: Document) -> int:
    """The cycle of the last byte that arrives at a node."""
    return max(map(last_byte, inputs_of(document)), default=0)
