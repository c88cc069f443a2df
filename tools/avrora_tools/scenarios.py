"""Scenarios: what one says, where it is at fault (docs/FORMATS.md, "Scenarios"), and what is on the air
(docs/AIR.md)."""
import collections
import os
import re
from typing import Any, NamedTuple

from avrora_tools import toml
from avrora_tools.cli import MAX_NODES
from avrora_tools.errors import BadInput
from avrora_tools.files import printable, read_text, refuse_endless, shown
from avrora_tools.toml import bare, statements

# The causes of a refused scenario; of several that apply the simulator tells the first of this list.
CAUSES = """NotToml UnknownKey Missing WrongKind OutOfRange NoNodes TooManyNodes SelfLink TwiceLinked TwiceScripted
TooLong""".split()

MAX_BYTES = 524_288
MAX_CYCLES = {1: 10_000_000, 2: 10_000_000, 3: 2**40}
MAX_WINDOW = 20_000
MAX_SPANS = 4_096
MAX_SCRIPT_BYTES = 65_536
LATENCY = range(1, 65_535 + 1)
BYTE_TIME = range(256, 4_096 + 1)
DEFAULT_TIME = 3_072  # of the latency and of the byte time, in cycles

# The keys of each table, with the version from on which a key has a meaning; and those that must be there.
TOP_KEYS = {key: 1 for key in "version cycles latency byte_time window node link input".split()}
TABLE_KEYS = {
    "node": {"image": 1},
    "link": {"from": 1, "to": 1, "latency": 2, "open": 3},
    "input": {"node": 1, "at": 1, "hex": 1, "every": 1},
}
NEEDED = {"node": ["image"], "link": ["from", "to"], "input": ["node", "at", "hex"]}


class Fault(NamedTuple):
    """A fault of a scenario: its cause, its place in words, the line it stands in (0 where none does), what is
    wrong."""

    cause: str
    place: str
    line: int
    text: str


# Spans of cycles: the first of each, and the one behind its last.
Spans = list[list[int]]


class Link(NamedTuple):
    """Who hears whom: the cycles from a send to where it is heard first, and the spans in which it is open, or None."""

    sender: int
    hearer: int
    latency: int
    spans: Spans | None


class Scenario:
    """A scenario that the simulator accepts, its images aside."""

    def __init__(self, document: dict[str, Any], folder: str = "") -> None:
        """`document` is the TOML document of a text without faults; its images are sought in the `folder`."""
        self.folder = folder
        self.cycles: int = document["cycles"]
        self.latency: int = document.get("latency", DEFAULT_TIME)
        self.byte_time: int = document.get("byte_time", DEFAULT_TIME)
        first, end = document.get("window", (0, 0))
        self.window: tuple[int, int] = (first, end)
        self.images: list[str] = [table["image"] for table in document["node"]]
        self.links = [
            Link(table["from"], table["to"], table.get("latency", self.latency), table.get("open"))
            for table in document.get("link", [])
        ]

    def window_of(self, traced: tuple[int, int] | None, ended: int | None) -> tuple[int, int]:
        """The window of a trace: `traced` has the cycles of its first and its last instruction or entry row, and
        `ended` is the cycle of its end rows; each is None where there is no such row.

        A trace of another run of the scenario, as tools/window makes one, does not end at the scenario's limit, or has
        such rows outside of the scenario's window. Its window goes from the first of them to its end.
        """
        first, end = self.window
        if ended in (None, self.cycles) and (not traced or first <= traced[0] and traced[1] < end):
            return self.window
        return (traced[0], ended or self.cycles) if traced else (0, 0)

    @classmethod
    def load(cls, name: str) -> "Scenario":
        """The scenario in the file `name`. Raises BadInput with the simulator's cause and the place of the fault, and
        where an image may have no end."""
        found = cls.of_text(read_text(name), shown(name), os.path.dirname(name))
        found.refuse_endless()
        return found

    def refuse_endless(self) -> None:
        """Raises BadInput where an image is a device or a pipe, for which the simulator would wait."""
        for image in dict.fromkeys(self.images):
            refuse_endless(os.path.join(self.folder, image))

    @classmethod
    def of_text(cls, text: str, name: str, folder: str = "") -> "Scenario":
        document, found = looked_through(text)
        if found:
            raise BadInput(f"{name}: scenario refused: {described(found[0])}")
        return cls(document, folder)


def described(fault: Fault) -> str:
    """One line on a fault: its cause, its line and place, what is wrong."""
    where = [f"line {fault.line}"] * bool(fault.line) + [fault.place] * bool(fault.place)
    return printable(f"{fault.cause}, {', '.join(where)}: {fault.text}" if where else f"{fault.cause}: {fault.text}")


def faults(text: str) -> list[Fault]:
    """All faults of a scenario's text, those of the cause that the simulator tells first."""
    return looked_through(text)[1]


def looked_through(text: str) -> tuple[dict[str, Any], list[Fault]]:
    """The document of a scenario's text, as far as it is one, and its faults as `faults` gives them."""
    if len(text.encode()) > MAX_BYTES:
        return {}, [Fault("TooLong", "", 0, f"more than {MAX_BYTES:,} bytes")]
    try:
        document = toml.loads(text)
    except toml.NotToml as fault:
        return {}, [
            Fault("NotToml", f"column {fault.column}" if fault.column else "", fault.line, printable(fault.why))
        ]
    check = Check(document, {})
    check.all()
    if check.found:  # the lines are sought where one is told
        check = Check(document, places(text.removeprefix(toml.BYTE_ORDER_MARK)))
        check.all()
    return document, sorted(check.found, key=lambda fault: (CAUSES.index(fault.cause), fault.line))


# A place in a scenario: a table's name ("" is the top), its number, a key ("" is the table itself).
Where = tuple[str, int, str]


class Check:
    """One look through a document for all its faults."""

    def __init__(self, document: dict[str, Any], lines: dict[Where, int]) -> None:
        self.document = document
        self.lines = lines
        self.found: list[Fault] = []
        self.count = 0  # of nodes
        version = document.get("version")
        self.version = version if type(version) is int and version in (2, 3) else 1

    def tell(self, cause: str, text: str, table: str = "", number: int = 0, key: str = "") -> None:
        place = f"[[{table}]] {number}, {key}" if table and key else f"[[{table}]] {number}" if table else key
        line = self.lines.get((table, number, key)) or self.lines.get((table, number, "")) or 0
        self.found.append(Fault(cause, place, line, text))

    def tables(self, name: str) -> list[tuple[int, dict[str, Any]]]:
        """The tables of an array, each with its number; none where it is not an array of tables."""
        value = self.document.get(name)
        return [(i, t) for i, t in enumerate(value) if isinstance(t, dict)] if isinstance(value, list) else []

    def all(self) -> None:
        self.keys()
        self.top()
        self.count = len(self.document["node"]) if isinstance(self.document.get("node"), list) else 0
        for number, table in self.tables("node"):
            self.image(number, table)
        for number, table in self.tables("link"):
            self.link(number, table)
        for number, table in self.tables("input"):
            self.script(number, table)
        self.sums()
        self.whole_network()

    def keys(self) -> None:
        for key in self.document:
            if key not in TOP_KEYS:
                self.tell("UnknownKey", "no key of a scenario", key=key)
        if "cycles" not in self.document:
            self.tell("Missing", "it must be there", key="cycles")
        for name, known in TABLE_KEYS.items():
            for number, table in self.tables(name):
                for key in table:
                    if key not in known:
                        self.tell("UnknownKey", f"no key of [[{name}]]", name, number, key)
                    elif known[key] > self.version:
                        self.tell(
                            "UnknownKey",
                            f"a key from version {known[key]} on, and this text has version " f"{self.version}",
                            name,
                            number,
                            key,
                        )
                for key in NEEDED[name]:
                    if key not in table:
                        self.tell("Missing", "it must be there", name, number, key)

    def top(self) -> None:
        self.number(self.document, "version", range(1, 4))
        self.number(self.document, "cycles", range(1, MAX_CYCLES[self.version] + 1))
        self.number(self.document, "latency", LATENCY)
        self.number(self.document, "byte_time", BYTE_TIME)
        self.window()
        for name in TABLE_KEYS:
            value = self.document.get(name, [])
            if not isinstance(value, list) or not all(isinstance(table, dict) for table in value):
                self.tell("WrongKind", "no array of tables", key=name)

    def number(self, table: dict[str, Any], key: str, allowed: range, name: str = "", number: int = 0) -> None:
        """Tells a value that is not a whole number, or none of those `allowed`."""
        value = table.get(key, allowed.start)
        if type(value) is not int:
            self.tell("WrongKind", f"{value!r} is not a whole number", name, number, key)
        elif value not in allowed:
            self.tell("OutOfRange", f"{value:,} is not {allowed.start:,} to {allowed.stop - 1:,}", name, number, key)

    def window(self) -> None:
        value = self.document.get("window", [0, 0])
        if not is_pair(value):
            self.tell("WrongKind", f"{value!r} is not an array of two whole numbers", key="window")
            return
        cycles = self.document.get("cycles")
        if not 0 <= value[0] <= value[1]:
            self.tell("OutOfRange", f"{value} does not rise from 0 on", key="window")
        elif value[1] - value[0] > MAX_WINDOW:
            self.tell("OutOfRange", f"{value} has more than {MAX_WINDOW:,} cycles", key="window")
        elif type(cycles) is int and value[1] > cycles:
            self.tell("OutOfRange", f"{value} ends past the limit of {cycles:,} cycles", key="window")

    def image(self, number: int, table: dict[str, Any]) -> None:
        value = table.get("image", "x")
        if not isinstance(value, str):
            self.tell("WrongKind", f"{value!r} is not text", "node", number, "image")
        elif not 1 <= len(value.encode()) <= 255:
            self.tell("OutOfRange", f"a name of {len(value.encode())} bytes is not 1 to 255", "node", number, "image")

    def node_number(self, table: dict[str, Any], key: str, name: str, number: int) -> None:
        value = table.get(key)
        if type(value) is int and value not in range(self.count):
            self.tell("OutOfRange", f"there is no node {value}: the scenario has {self.count}", name, number, key)
        elif key in table and type(value) is not int:
            self.tell("WrongKind", f"{value!r} is not a whole number", name, number, key)

    def link(self, number: int, table: dict[str, Any]) -> None:
        self.node_number(table, "from", "link", number)
        self.node_number(table, "to", "link", number)
        self.number(table, "latency", LATENCY, "link", number)
        if "open" not in table:
            return
        spans = table["open"]
        if not isinstance(spans, list) or not all(is_pair(pair) for pair in spans):
            self.tell("WrongKind", "no array of pairs of whole numbers", "link", number, "open")
        elif not spans:
            self.tell("OutOfRange", "no pair", "link", number, "open")
        else:
            self.spans(number, spans)

    def spans(self, number: int, spans: Spans) -> None:
        last = 0
        for first, end in spans:
            if not last <= first < end <= 2**40:
                why = f"[{first}, {end}] does not rise from {last} on, or passes 2^40"
                self.tell("OutOfRange", why, "link", number, "open")
                return
            last = end

    def script(self, number: int, table: dict[str, Any]) -> None:
        self.node_number(table, "node", "input", number)
        self.number(table, "at", range(2**40 + 1), "input", number)
        self.number(table, "every", range(1, 65_536), "input", number)
        value = table.get("hex", "")
        if not isinstance(value, str):
            self.tell("WrongKind", f"{value!r} is not text", "input", number, "hex")
        elif not re.fullmatch("([0-9A-Fa-f]{2})*", value):
            self.tell("OutOfRange", "no even number of hexadecimal digits", "input", number, "hex")

    def sums(self) -> None:
        spans = sum(len(t["open"]) for _, t in self.tables("link") if isinstance(t.get("open"), list))
        if spans > MAX_SPANS:
            self.tell("OutOfRange", f"{spans:,} pairs in all links; {MAX_SPANS:,} may be", key="open")
        digits = sum(len(t["hex"].encode()) // 2 for _, t in self.tables("input") if isinstance(t.get("hex"), str))
        if digits > MAX_SCRIPT_BYTES:
            self.tell("OutOfRange", f"{digits:,} bytes in all inputs; {MAX_SCRIPT_BYTES:,} may be", key="hex")

    def whole_network(self) -> None:
        if self.count == 0:
            self.tell("NoNodes", "no table [[node]]")
        if self.count > MAX_NODES:
            self.tell("TooManyNodes", f"{self.count} nodes; {MAX_NODES} may be", "node", MAX_NODES)
        first: dict[Any, int] = {}
        for number, table in self.tables("link"):
            ends = table.get("from"), table.get("to")
            if ends[0] == ends[1] and ends[0] is not None:
                self.tell("SelfLink", f"from node {ends[0]} to itself", "link", number, "to")
            self.once(first, ends, number, "TwiceLinked", "link", f"from node {ends[0]} to node {ends[1]}")
        first = {}
        for number, table in self.tables("input"):
            self.once(first, (table.get("node"),), number, "TwiceScripted", "input", f"of node {table.get('node')}")

    def once(
        self, first: dict[Any, int], what: tuple[Any, ...], number: int, cause: str, name: str, words: str
    ) -> None:
        if not all(type(node) is int for node in what):
            return
        if what in first:
            line = self.lines.get((name, first[what], ""))
            self.tell(cause, f"one {words} stands already{f' in line {line}' if line else ''}", name, number)
        first.setdefault(what, number)


def is_pair(value: object) -> bool:
    return isinstance(value, list) and len(value) == 2 and all(type(part) is int for part in value)


def places(text: str) -> dict[Where, int]:
    """The lines of a scenario's text: of each table (name, number, "") and of each key (name, number, key); the name of
    the top is "". A table is also a key of the top, in the first of its lines. What TOML allows and nobody writes
    (dotted keys, tables in several pieces) may be left out."""
    lines: dict[Where, int] = {}
    name, number = "", 0
    count: collections.Counter[str] = collections.Counter()
    for tokens in statements(text):
        words = [word for word, _ in tokens]
        line = tokens[0][1]
        if words[:2] == ["[", "["]:
            name = bare("".join(words[2 : words.index("]")]))
            number = count[name]
            count[name] += 1
            lines[name, number, ""] = line
            lines.setdefault(("", 0, name), line)
        elif words[0] == "[":
            name, number = bare("".join(words[1 : words.index("]")])), 0
            lines["", 0, name] = line
        elif "=" in words:
            key = bare("".join(words[: words.index("=")]))
            lines.setdefault((name, number, key), line)
            if not name and words[words.index("=") + 1 :][:1] == ["["]:
                inline_tables(key, tokens[words.index("=") + 1 :], lines)
    return lines


def inline_tables(name: str, tokens: list[toml.Token], lines: dict[Where, int]) -> None:
    """The places in an array of inline tables."""
    depth, number = 0, -1
    for (token, line), (after, _) in zip(tokens, tokens[1:]):
        if token == "{" and depth == 1:
            number += 1
            lines[name, number, ""] = line
        elif after == "=" and depth == 2:
            lines[name, number, bare(token)] = line
        depth += (token in "[{") - (token in "]}")


def is_open(link: Link, cycle: int) -> bool:
    """Whether what is sent in `cycle` passes the link."""
    return link.spans is None or any(first <= cycle < end for first, end in link.spans)


class OnAir(NamedTuple):
    """A byte on the air at a hearer: the sender, the cycle in which it was sent, the byte, and the link's latency."""

    sender: int
    cycle: int
    byte: int
    latency: int


class Air:
    """The sends of a trace, as far back as they can be heard, and what a sample hears of them (docs/AIR.md)."""

    def __init__(self, scenario: Scenario) -> None:
        self.byte_time = scenario.byte_time
        self.into: dict[int, list[Link]] = collections.defaultdict(list)
        self.out_of: dict[int, list[Link]] = collections.defaultdict(list)
        for link in scenario.links:
            self.into[link.hearer].append(link)
            self.out_of[link.sender].append(link)
        self.reach = max([scenario.latency, *(link.latency for link in scenario.links)])
        self.sends: dict[int, collections.deque[tuple[int, int]]] = collections.defaultdict(collections.deque)
        self.silent_from = [0] * len(scenario.images)  # by node: from this cycle on it hears none of them

    def send(self, node: int, cycle: int, byte: int) -> None:
        """Records a send, and forgets those of the node that nobody hears any more."""
        for link in self.out_of[node]:
            self.silent_from[link.hearer] = max(self.silent_from[link.hearer], cycle + link.latency + self.byte_time)
        sends = self.sends[node]
        while sends and sends[0][0] + self.reach + self.byte_time <= cycle:
            sends.popleft()
        sends.append((cycle, byte))

    def heard(self, hearer: int, cycle: int) -> list[OnAir]:
        """The bytes that a sample of the node `hearer` in `cycle` hears, by sender. Sends of its cycle and of later
        ones change nothing, so they may be recorded or not."""
        if cycle >= self.silent_from[hearer]:
            return []
        found = []
        for link in self.into[hearer]:
            for sent, byte in reversed(self.sends[link.sender]):
                since = cycle - sent - link.latency
                if since >= self.byte_time:
                    break
                if since >= 0 and is_open(link, sent):
                    found.append(OnAir(link.sender, sent, byte, link.latency))
        return sorted(found)


def answer(on_air: list[OnAir], cycle: int) -> tuple[int, int, int]:
    """Status, byte and age that a sample in `cycle` has of the bytes `on_air`."""
    if not on_air:
        return 0, 0, 0
    if len(on_air) == 1:
        return 1, on_air[0].byte, min(255, (cycle - on_air[0].cycle - on_air[0].latency) // 16)
    byte = 0
    for one in on_air:
        byte |= one.byte
    return 2, byte, 0
