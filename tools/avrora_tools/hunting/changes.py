"""What a trial changes in a scenario: when a node learns what, which links are cut when, how long a byte takes."""
import dataclasses
import re
from collections.abc import Iterable, Mapping, Sequence
from typing import Any

from avrora_tools.errors import BadInput
from avrora_tools.showing import printable
from avrora_tools.sweeping.events import DEFAULT_EVERY

Document = Mapping[str, Any]

FOR_GOOD = 2**40  # where a cut ends that does not

MOST_WAITING = 10_000  # trials that follow from others, and are not tried yet
MOST_CHANGES = 512  # of a trial in a file; a hunt makes at most two for each link of a node

# What a trial may say of itself in a file, which may be a stranger's.
KIND, HEX = re.compile("[a-z]{1,20}"), re.compile("(?:[0-9A-Fa-f]{2})*")


@dataclasses.dataclass(frozen=True)
class Input:
    """A node's input: the cycle of its first byte, the cycles from one byte to the next, the bytes."""

    node: int
    at: int
    every: int
    hex: str

    def applied(self, document: Document) -> Document:
        table = {"node": self.node, "at": self.at, "every": self.every, "hex": self.hex}
        inputs = [dict(table) if old["node"] == self.node else old for old in document.get("input", [])]
        return {**document, "input": inputs}

    def __str__(self) -> str:
        return f"node {self.node} has {self.hex} from {self.at:,} on, each {self.every:,}"


@dataclasses.dataclass(frozen=True)
class Cut:
    """A link that does not carry what is sent from the cycle `first` to before `end`."""

    sender: int
    hearer: int
    first: int
    end: int

    def applied(self, document: Document) -> Document:
        ends = (self.sender, self.hearer)
        links = [cut_link(old, self) if ends_of(old) == ends else old for old in document.get("link", [])]
        return {**document, "version": 3, "link": links} if links else document

    def is_for_good(self) -> bool:
        return self.end >= FOR_GOOD

    def __str__(self) -> str:
        when = f"from {self.first:,} on" if self.is_for_good() else f"from {self.first:,} to {self.end:,}"
        return f"the link {self.sender} to {self.hearer} is cut {when}"


@dataclasses.dataclass(frozen=True)
class Latency:
    """A link of another latency."""

    sender: int
    hearer: int
    cycles: int

    def applied(self, document: Document) -> Document:
        ends = (self.sender, self.hearer)
        links = [{**old, "latency": self.cycles} if ends_of(old) == ends else old for old in document.get("link", [])]
        return {**document, "version": max(2, document.get("version", 1)), "link": links} if links else document

    def __str__(self) -> str:
        return f"the latency {self.sender} to {self.hearer} is {self.cycles:,}"


Change = Input | Cut | Latency

FORMS: Mapping[str, type[Input] | type[Cut] | type[Latency]] = {"input": Input, "cut": Cut, "latency": Latency}


def ends_of(link: Mapping[str, Any]) -> tuple[int, int]:
    return link["from"], link["to"]


def cut_link(link: Mapping[str, Any], cut: Cut) -> dict[str, Any]:
    """A link without the cycles of a cut; one that is never open any more is open in the last cycle of all alone."""
    spans = []
    for first, end in link.get("open", [[0, FOR_GOOD]]):
        spans += [pair for pair in ([first, min(end, cut.first)], [max(first, cut.end), end]) if pair[0] < pair[1]]
    return {**link, "open": spans or [[FOR_GOOD - 1, FOR_GOOD]]}


@dataclasses.dataclass(frozen=True)
class Trial:
    """A variation of a scenario: of which kind, what it is in words, its changes."""

    kind: str
    what: str
    changes: tuple[Change, ...]

    def applied(self, document: Document) -> Document:
        for change in self.changes:
            document = change.applied(document)
        return document

    def cuts(self) -> list[Cut]:
        return [change for change in self.changes if isinstance(change, Cut)]

    def lasts(self) -> bool:
        """Whether a link is lost for good, so that something must be lost."""
        return any(cut.is_for_good() for cut in self.cuts())

    def with_changes(self, changes: Iterable[Change]) -> "Trial":
        return dataclasses.replace(self, changes=tuple(changes))


@dataclasses.dataclass(frozen=True)
class Left:
    """What a kind has still to draw that goes through a list: so many of the list, and what followed from others, by
    whether those changed anything."""

    count: int = 0
    following: tuple[Trial, ...] = ()
    idle: tuple[Trial, ...] = ()


def record_of(trial: Trial) -> dict[str, Any]:
    """A trial as JSON has it."""
    names = {form: name for name, form in FORMS.items()}
    changes = [{"form": names[type(change)], **dataclasses.asdict(change)} for change in trial.changes]
    return {"kind": trial.kind, "what": trial.what, "changes": changes}


def trial_of(record: Any) -> Trial:
    """A trial out of JSON. Raises BadInput where it is none."""
    try:
        if len(record["changes"]) > MOST_CHANGES:
            raise ValueError(f"more than {MOST_CHANGES} changes")
        changes = [change_of(dict(change)) for change in record["changes"]]
        kind, what = str(record["kind"]), str(record["what"])
        if not KIND.fullmatch(kind):
            raise ValueError("no kind")
        return Trial(kind, printable(what), tuple(changes))
    except (KeyError, TypeError, ValueError) as fault:
        raise BadInput(f"no trial of a hunt: {type(fault).__name__}: {fault}") from None


def change_of(record: dict[str, Any]) -> Change:
    form = FORMS[record.pop("form")]
    wanted = {field.name: field.type for field in dataclasses.fields(form)}
    if set(record) != set(wanted):
        raise ValueError(f"not the fields of {form.__name__}")
    for name, value in record.items():
        if type(value) is not (str if name == "hex" else int):
            raise ValueError(f"{name} is {value!r}")
        if name == "hex" and not HEX.fullmatch(str(value)):
            raise ValueError("hex is not a bytes")
    return form(**record)


def inputs_of(document: Document) -> list[Input]:
    return [
        Input(table["node"], table["at"], table.get("every", DEFAULT_EVERY), table["hex"])
        for table in document.get("input", [])
    ]


def without_node(document: Document, node: int) -> Document:
    """A scenario without a node; those behind it move up."""
    nodes = [table for number, table in enumerate(document["node"]) if number != node]
    links = [
        {**link, "from": moved_up(link["from"], node), "to": moved_up(link["to"], node)}
        for link in document.get("link", [])
        if node not in ends_of(link)
    ]
    inputs = [
        {**table, "node": moved_up(table["node"], node)} for table in document.get("input", []) if table["node"] != node
    ]
    return {**document, "node": nodes, "link": links, "input": inputs}


def moved_up(number: int, gone: int) -> int:
    return number - (number > gone)


def change_without_node(change: Change, node: int) -> Change | None:
    """A change in a scenario without a node; None where it was of that node."""
    if isinstance(change, Input):
        return None if change.node == node else dataclasses.replace(change, node=moved_up(change.node, node))
    if node in (change.sender, change.hearer):
        return None
    ends = {"sender": moved_up(change.sender, node), "hearer": moved_up(change.hearer, node)}
    return dataclasses.replace(change, **ends)


def nodes_of(change: Change) -> tuple[int, ...]:
    """The nodes that a change is of."""
    return (change.node,) if isinstance(change, Input) else (change.sender, change.hearer)


def alone_node(document: Document, node: int) -> Document:
    """A scenario in which a node neither has an input nor hears anybody, and nobody hears it."""
    links = [link for link in document.get("link", []) if node not in ends_of(link)]
    return {**document, "link": links, "input": [it for it in document.get("input", []) if it["node"] != node]}


def without_links(document: Document, gone: Sequence[tuple[int, int]]) -> Document:
    return {**document, "link": [link for link in document.get("link", []) if ends_of(link) not in gone]}
