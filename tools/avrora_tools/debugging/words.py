"""The words behind `monitor`: to a cycle, to what happens on the air, and who was heard."""
import re
from collections.abc import Callable, Iterator
from typing import TYPE_CHECKING

from avrora_tools import programs
from avrora_tools.debugging.history import VECTORS, WAKING, Happened
from avrora_tools.debugging.motion import Place
from avrora_tools.events import event_of
from avrora_tools.events import Heard as HeardEvent
from avrora_tools.errors import ToolError
from avrora_tools.files import printable
from avrora_tools.observing.places import Kind
from avrora_tools.observing.places import Place as Seen
from avrora_tools.scenarios import Air, OnAir

if TYPE_CHECKING:
    from avrora_tools.debugging.session import Session

HELP = """goto CYCLE            stand in a cycle, before what happens in it
cycle                 the cycle, and what each node does
next EVENT [of NODE]  to the next: sent, heard, clash, serial, stop, interrupt [VECTOR or its name]
last EVENT [of NODE]  to the last before
who                   whose byte the node's last sample heard, and when it was sent
air                   what is on the air now, and from when until when each node hears it
console [NODE]        what a node has written to USART0 up to now
bookmark NAME         call this place so; goto NAME comes back
interrupts show|skip  steps go into interrupts, or over them (at first)
watches               the bytes that are watched, and of which node each: that which gdb showed when it was set
Behind goto, next and last gdb still shows the registers of before until `maintenance flush register-cache`;
examples/avrora.gdb has these words as commands of gdb that see to it."""

EVENTS = ("sent", "heard", "clash", "serial", "stop", "interrupt")

# A cycle, whose digits may be grouped, and a node, as they are typed.
CYCLE, NODE = "[0-9][0-9_,]{0,29}", "[0-9]{1,2}"

# So much of a console is shown.
SHOWN_BYTES = 2_000


class Refused(Exception):
    """A word that cannot be followed, and why."""


class Words:
    """Answers what is typed behind `monitor`."""

    def __init__(self, session: "Session") -> None:
        self.session, self.motion = session, session.motion
        self.bookmarks: dict[str, int] = {}
        self.all: dict[str, Callable[[list[str]], str]] = {
            "help": lambda _: HELP,
            "goto": self.goto,
            "cycle": self.cycle,
            "next": lambda words: self.move(words, forward=True),
            "last": lambda words: self.move(words, forward=False),
            "who": self.who,
            "air": self.air,
            "console": self.console,
            "bookmark": self.bookmark,
            "interrupts": self.interrupts,
            "watches": lambda _: "\n".join(self.motion.watches.lines()) or "nothing is watched",
        }

    def answer(self, text: str) -> str:
        name, *words = text.split() or ["help"]
        if name not in self.all:
            return f"no word is called {printable(name)}; `monitor help` tells all of them"
        try:
            return self.all[name](words)
        except (Refused, ToolError) as fault:
            return str(fault)

    # ---- places

    def goto(self, words: list[str]) -> str:
        if len(words) != 1:
            raise Refused("goto CYCLE, or goto NAME of a bookmark")
        cycle = self.bookmarks.get(words[0])
        if cycle is None:
            if not re.fullmatch(CYCLE, words[0]):
                raise Refused(f"{printable(words[0])} is neither a cycle nor a bookmark")
            cycle = int(re.sub("[_,]", "", words[0]))
        if cycle > self.session.history.limit:
            raise Refused(f"the run has {self.session.history.limit:,} cycles")
        if cycle < self.session.history.first:
            raise Refused(f"the run begins in cycle {self.session.history.first:,}")
        self.motion.jump(Place(cycle, self.session.shown))
        return self.here()

    def here(self) -> str:
        return f"cycle {self.motion.at.cycle:,}, node {self.session.shown}"

    def cycle(self, words: list[str]) -> str:
        nodes = [f"node {node}: {self.session.about(node).partition(', ')[2]}" for node in self.session.nodes()]
        return "\n".join([self.here(), *nodes])

    def bookmark(self, words: list[str]) -> str:
        if len(words) != 1:
            lines = [f"{printable(name)}: cycle {cycle:,}" for name, cycle in self.bookmarks.items()]
            return "\n".join(lines) or "no bookmark"
        self.bookmarks[words[0]] = self.motion.at.cycle
        return f"{printable(words[0])}: {self.here()}"

    def interrupts(self, words: list[str]) -> str:
        if words not in (["show"], ["skip"]):
            raise Refused("interrupts show, or interrupts skip")
        self.motion.shows_interrupts = words == ["show"]
        return "steps go into interrupts" if self.motion.shows_interrupts else "steps go over interrupts"

    # ---- events

    def move(self, words: list[str], forward: bool) -> str:
        words, node = self.of_node(words)
        if not words or words[0] not in EVENTS:
            raise Refused(f"one of {', '.join(EVENTS)}")
        found = (
            self.interrupt(words[1:], node, forward) if words[0] == "interrupt" else self.event(words[0], node, forward)
        )
        if found is None:
            raise Refused(f"no {words[0]} {'behind' if forward else 'before'} cycle {self.motion.at.cycle:,}")
        cycle, whose, text = found
        self.motion.jump(Place(cycle, whose))
        self.session.shown = whose
        return f"{self.here()}: {text}"

    def of_node(self, words: list[str]) -> tuple[list[str], int | None]:
        if len(words) < 2 or words[-2] != "of":
            return words, None
        if not re.fullmatch(NODE, words[-1]) or int(words[-1]) not in self.session.nodes():
            raise Refused(f"{printable(words[-1])} is not a node: they are 0 to {self.session.history.nodes - 1}")
        return words[:-2], int(words[-1])

    def event(self, kind: str, node: int | None, forward: bool) -> tuple[int, int, str] | None:
        history, cycle = self.session.history, self.motion.at.cycle
        rows = history.events_from(cycle) if forward else history.events_before(cycle)
        for row in rows:
            if (node is None or row.node == node) and is_kind(row, kind):
                return row.cycle, row.node, f"{row.kind} {row.rest}"
        return None

    def interrupt(self, names: list[str], node: int | None, forward: bool) -> tuple[int, int, str] | None:
        history, cycle = self.session.history, self.motion.at.cycle
        words = [vector_of(names[0])] if names else VECTORS
        nodes = self.session.nodes() if node is None else [node]
        places = [Seen(one, Kind.AT, word) for one in nodes for word in words]
        sightings = history.sightings
        # An instruction at a vector begins a few cycles behind its interrupt's row.
        pieces = (
            sightings.pieces_on(cycle + 1, history.limit)
            if forward
            else sightings.pieces_back(cycle + WAKING + 1, history.first)
        )
        best: tuple[int, int, str] | None = None
        for _, seen in sightings.searched(pieces, places):
            for one in seen if forward else reversed(seen):
                if best and abs(one.cycle - best[0]) > 2 * WAKING:
                    return best
                row = history.last_row(one.place.node, one.cycle)
                if row and row.kind == "enter" and (row.cycle > cycle if forward else row.cycle < cycle):
                    name = programs.vector_name(int(row.rest, 16))
                    found = row.cycle, one.place.node, f"{name} interrupts {row.address:04X}"
                    # One that wakes its node takes longer to its vector than another one.
                    best = found if best is None else min(best, found) if forward else max(best, found)
        return best

    # ---- the air

    def heard_before(self, node: int) -> Happened:
        """The node's last sample up to now that heard something."""
        for row in self.session.history.events_before(self.motion.at.cycle + 1):
            if row.node == node and row.kind == "heard" and not row.rest.startswith("0"):
                return row
        raise Refused(f"node {node} has heard nothing yet")

    def sends_at(self, cycle: int) -> Air:
        """The air with all sends that can be heard in a cycle."""
        history = self.session.history
        air = Air(history.scenario)
        life = air.reach + air.byte_time
        sends = []
        for row in history.events_before(cycle):
            if row.cycle + life <= cycle:
                break
            if row.kind == "sent":
                sends.append(row)
        for row in reversed(sends):
            air.send(row.node, row.cycle, int(row.rest, 16))
        return air

    def who(self, words: list[str]) -> str:
        node = self.session.shown
        row = self.heard_before(node)
        on_air = self.sends_at(row.cycle).heard(node, row.cycle)
        lines = [f"in cycle {row.cycle:,} node {node} heard {row.rest}"]
        return "\n".join(lines + [f"  {sent_by(one)}: goto {one.cycle}" for one in on_air])

    def air(self, words: list[str]) -> str:
        return "\n".join(self.on_the_air()) or "nothing is on the air"

    def on_the_air(self) -> Iterator[str]:
        cycle = self.motion.at.cycle
        air = self.sends_at(cycle)
        for node in self.session.nodes():
            for one in air.heard(node, cycle):
                until = one.cycle + one.latency + air.byte_time
                yield f"node {node} can hear {sent_by(one)}, until cycle {until:,}"

    # ---- USART0

    def console(self, words: list[str]) -> str:
        node = self.session.shown
        if words:
            _, chosen = self.of_node(["of", *words])
            node = node if chosen is None else chosen
        data = bytearray()
        for row in self.session.history.events_before(self.motion.at.cycle):
            if row.node == node and row.kind == "serial":
                data.append(int(row.rest, 16))
                if len(data) == SHOWN_BYTES:
                    break
        data.reverse()
        text = data.decode("latin-1").replace("\r\n", "\n")
        return (
            "\n".join(printable(line) for line in text.split("\n")) if data else f"node {node} has written nothing yet"
        )


def is_kind(row: Happened, kind: str) -> bool:
    if kind == "clash":
        event = event_of(f"{row.kind} {row.rest}")
        return isinstance(event, HeardEvent) and event.status == 2
    return row.kind == kind and not (kind == "heard" and row.rest.startswith("0"))


def vector_of(name: str) -> int:
    """The word of a vector by its name, such as TIMER1_COMPA, or by its digits."""
    for word, own in programs.VECTORS.items():
        if name.removesuffix("_vect") == own or name == f"{word:04X}":
            return word
    raise Refused(f"{printable(name)} is not an interrupt, such as USART0_RX")


def sent_by(one: OnAir) -> str:
    return f"{one.byte:02X} that node {one.sender} sent in cycle {one.cycle:,}"
