"""What rows of a trace say (docs/FORMATS.md, "The trace"): an event is a row without its cycle and its node.

Rows that say the same share one event, so what it costs to read one counts once.
"""
import enum
import re
from typing import ClassVar

from avrora_tools.instructions import is_instruction
from avrora_tools.states import STOPS

# What a sample of the air heard: the status of a `heard` row.
NOTHING, ONE_BYTE, CLASH = 0, 1, 2

MAX_AGE = 255
MAX_INSTRUCTIONS = 2**40

# What a node does at the end of a run.
FINAL_STATES = ("stopped", "asleep", "running")
STOPPED = "stopped"


class Care(enum.IntEnum):
    """What the reader of a trace looks at beside the order of the rows."""

    NONE = 0
    TRACED = 1  # it is a row of the processor, of the window alone
    MORE = 2  # what the node may do afterwards depends on it


class Event:
    """What a row says. `text` is the row's, from its kind on, and `rest` what stands behind the kind."""

    __slots__ = ("text", "rest")

    kind: ClassVar[str]
    # Where it stands among the events of a node's cycle, which are of one processor, USART0, and the radio.
    rank: ClassVar[int]
    # What the reader of a trace has to look at beside the order of the rows.
    care: ClassVar[Care] = Care.NONE
    # How a row of the kind is written from its kind on.
    FORM: ClassVar[re.Pattern[str]]

    def __init__(self, text: str, match: re.Match[str]) -> None:
        """`match` is that of `FORM`. Raises ValueError where the row says what no row says."""
        self.text, self.rest = text, text.partition(" ")[2]

    def __repr__(self) -> str:
        return f"<{self.text}>"


class Instr(Event):
    __slots__ = ("address", "instruction")
    kind, rank, care = "instr", 0, Care.TRACED
    FORM = re.compile("instr ([0-9A-F]{4}) (.+)")

    def __init__(self, text: str, match: re.Match[str]) -> None:
        super().__init__(text, match)
        self.address, self.instruction = int(match[1], 16), match[2]
        if not is_instruction(self.instruction):
            raise ValueError


class Enter(Event):
    __slots__ = ("vector", "back")
    kind, rank, care = "enter", 0, Care.TRACED
    FORM = re.compile("enter ([0-9A-F]{4}) ([0-9A-F]{4})")

    def __init__(self, text: str, match: re.Match[str]) -> None:
        super().__init__(text, match)
        self.vector, self.back = int(match[1], 16), int(match[2], 16)
        if not is_vector(self.vector):
            raise ValueError


class Stop(Event):
    __slots__ = ("address", "cause")
    kind, rank, care = "stop", 0, Care.MORE
    FORM = re.compile("stop ([0-9A-F]{4}) (.+)")

    def __init__(self, text: str, match: re.Match[str]) -> None:
        super().__init__(text, match)
        self.address, self.cause = int(match[1], 16), match[2]
        if self.cause not in STOPS:
            raise ValueError


class Serial(Event):
    __slots__ = ("byte",)
    kind, rank = "serial", 1
    FORM = re.compile("serial ([0-9A-F]{2})")

    def __init__(self, text: str, match: re.Match[str]) -> None:
        super().__init__(text, match)
        self.byte = int(match[1], 16)


class Sent(Event):
    __slots__ = ("byte",)
    kind, rank, care = "sent", 2, Care.MORE
    FORM = re.compile("sent ([0-9A-F]{2})")

    def __init__(self, text: str, match: re.Match[str]) -> None:
        super().__init__(text, match)
        self.byte = int(match[1], 16)


class Heard(Event):
    __slots__ = ("status", "byte", "age")
    kind, rank = "heard", 3
    FORM = re.compile("heard (?:(0) (00) (0)|(1) ([0-9A-F]{2}) (0|[1-9][0-9]{0,2})|(2) ([0-9A-F]{2}) (0))")

    def __init__(self, text: str, match: re.Match[str]) -> None:
        super().__init__(text, match)
        status, byte, age = (part for part in match.groups() if part is not None)
        self.status, self.byte, self.age = int(status), int(byte, 16), int(age)
        if self.age > MAX_AGE:
            raise ValueError


class End(Event):
    __slots__ = ("instructions", "state")
    kind, rank, care = "end", 0, Care.MORE
    FORM = re.compile("end (0|[1-9][0-9]{0,12}) (stopped|asleep|running)")

    def __init__(self, text: str, match: re.Match[str]) -> None:
        super().__init__(text, match)
        self.instructions, self.state = int(match[1]), match[2]
        if self.instructions > MAX_INSTRUCTIONS:
            raise ValueError


EVENTS: tuple[type[Event], ...] = (Instr, Enter, Serial, Sent, Heard, Stop, End)
KINDS = {event.kind: event for event in EVENTS}

# The kinds of rows that a trace has in its window alone.
TRACED = frozenset(kind for kind, event in KINDS.items() if event.care is Care.TRACED)

# The vectors of the interrupts, two words each behind that of the reset.
FIRST_VECTOR, LAST_VECTOR = 0x02, 0x44


def is_vector(word: int) -> bool:
    return FIRST_VECTOR <= word <= LAST_VECTOR and word % 2 == 0


def event_of(text: str) -> Event | None:
    """The event that a row says from its kind on; None where it says none."""
    event = KINDS.get(text.partition(" ")[0])
    match = event.FORM.fullmatch(text) if event else None
    if event is None or match is None:
        return None
    try:
        return event(text, match)
    except ValueError:
        return None


class Events(dict[str, Event]):
    """The events by their texts, as far as they came; a text that says none raises KeyError."""

    MOST = 50_000  # beyond which all are forgotten, so that memory does not grow with a trace

    def __missing__(self, text: str) -> Event:
        event = event_of(text)
        if event is None:
            raise KeyError(text)
        if len(self) >= self.MOST:
            self.clear()
        self[text] = event
        return event
