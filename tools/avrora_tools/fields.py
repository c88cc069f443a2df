"""The parts of rows, as patterns of `expect` have them: which texts a part may be at all, and which of them a pattern
takes."""
import re
from collections.abc import Sequence
from typing import NamedTuple

from avrora_tools.events import FINAL_STATES, MAX_AGE, MAX_INSTRUCTIONS
from avrora_tools.instructions import TABLE, Encoding, is_instruction
from avrora_tools.states import STOPS

ANY = "*"
NUMBER = "[0-9]+(?:_[0-9]+)*"


class Span(NamedTuple):
    """Whole numbers from the first to the last; without a last one they do not end."""

    first: int
    last: int | None

    def has(self, number: int) -> bool:
        return self.first <= number and (self.last is None or number <= self.last)

    def meets(self, first: int, last: int) -> bool:
        return self.first <= last and (self.last is None or self.last >= first)

    def both(self, other: "Span") -> "Span | None":
        """The numbers that are in both; None where none is."""
        lasts = [span.last for span in (self, other) if span.last is not None]
        common = Span(max(self.first, other.first), min(lasts, default=None))
        return None if common.last is not None and common.last < common.first else common

    def later(self, by: int) -> "Span":
        return Span(self.first + by, None if self.last is None else self.last + by)

    def __str__(self) -> str:
        return f"{self.first}..{'' if self.last is None else self.last}"


EVERY = Span(0, None)


def joined(spans: Sequence[Span]) -> list[Span]:
    """The same numbers in spans that rise and do not touch."""
    found: list[Span] = []
    for span in sorted(spans):
        last = found[-1] if found else None
        if last is None or last.last is not None and span.first > last.last + 1:
            found.append(span)
        elif last.last is not None and (span.last is None or span.last > last.last):
            found[-1] = Span(last.first, span.last)
    return found


def cover(spans: Sequence[Span], others: Sequence[Span]) -> bool:
    """Whether each number of the others is in one of these spans."""
    whole_spans = joined(spans)
    return all(
        any(
            one.first <= other.first and (one.last is None or other.last is not None and other.last <= one.last)
            for one in whole_spans
        )
        for other in joined(others)
    )


def whole(text: str, base: int = 10) -> int:
    """A number as it stands in a pattern: decimal digits may be grouped by _."""
    if base == 10 and len(text) > 1 and text[0] == "0":
        raise ValueError(f"{text} has leading zeros, and no number of a row has them")
    return int(text.replace("_", "") if base == 10 else text, base)


def span_of(word: str) -> Span:
    """The numbers that A..B, ..B, A.., C+-D or C stand for."""
    match = re.fullmatch(f"({NUMBER})?\\.\\.({NUMBER})?", word)
    if match and word != "..":
        span = Span(whole(match[1] or "0"), whole(match[2]) if match[2] else None)
    else:
        match = re.fullmatch(rf"({NUMBER})(?:\+-({NUMBER}))?", word)
        if not match:
            raise ValueError(f"{word} is no A..B, ..B, A.., C+-D")
        middle, off = whole(match[1]), whole(match[2] or "0")
        span = Span(max(0, middle - off), middle + off)
    if span.last is not None and span.last < span.first:
        raise ValueError(f"{word} has no number in it: the lower one comes first")
    return span


def members(word: str) -> list[str] | None:
    """The words of a set {X,Y}; None where the word is none."""
    if not (word[0] == "{" and word[-1] == "}"):
        return None
    found = word[1:-1].split(",")
    if not all(found):
        raise ValueError(f"{word} is not a set such as {{X,Y}}")
    return found


class Taken(NamedTuple):
    """What a pattern takes of the texts that a part may be: those of some numbers, some words, or all of them."""

    spans: tuple[Span, ...] | None = None
    words: frozenset[str] | None = None
    base: int = 10

    def has(self, text: str) -> bool:
        if self.words is not None:
            return text in self.words
        return self.spans is None or any(span.has(int(text, self.base)) for span in self.spans)


ALL = Taken()


class Numbers(NamedTuple):
    """A part of a row that is a number: decimal, or of so many hexadecimal digits; one of `members` alone, if there are
    any."""

    first: int
    last: int
    digits: int = 0
    members: tuple[int, ...] = ()

    def read(self, text: str) -> int:
        """A number in a pattern, spelled as a row has it."""
        if self.digits:
            if not re.fullmatch(f"[0-9A-F]{{{self.digits}}}", text):
                raise ValueError(f"{text} is not {self.digits} upper-case hexadecimal digits")
            return int(text, 16)
        if not re.fullmatch(NUMBER, text):
            raise ValueError(f"{text} is not a number")
        return whole(text)

    def span(self, word: str) -> Span:
        if not self.digits:
            return span_of(word)
        first, dots, last = word.partition("..")
        if not dots:
            return Span(self.read(word), self.read(word))
        if word == "..":
            raise ValueError(f"{word} is no A..B, ..B, A..")
        span = Span(self.read(first) if first else 0, self.read(last) if last else None)
        if span.last is not None and span.last < span.first:
            raise ValueError(f"{word} has no number in it: the lower one comes first")
        return span

    def domain(self) -> tuple[Span, ...]:
        return tuple(Span(n, n) for n in self.members) or (Span(self.first, self.last),)

    def taken(self, word: str) -> Taken:
        """What a word of a pattern takes. Raises ValueError where that is nothing."""
        if word == ANY:
            return ALL if self.first < self.last else Taken(self.domain(), base=16 if self.digits else 10)
        span = self.span(word)
        found = tuple(both for one in self.domain() if (both := one.both(span)))
        if not found:
            low, high = (f"{n:0{self.digits}X}" if self.digits else f"{n:,}" for n in (self.first, self.last))
            raise ValueError(
                f"{word} is none of {len(self.members)} from {low} to {high}"
                if self.members and span.meets(self.first, self.last)
                else f"{word} is not {low} to {high}"
                if low != high
                else f"{word} is not {low}"
            )
        return Taken(found, base=16 if self.digits else 10)

    def union(self, taken: Sequence[Taken]) -> Taken:
        spans = tuple(span for one in taken for span in one.spans or self.domain())
        return Taken(spans, base=16 if self.digits else 10)

    def covers(self, taken: Taken, other: Taken) -> bool:
        """Whether a text that the other takes is one that the first takes."""
        return taken.spans is None or cover(taken.spans, other.spans or self.domain())


class Words(NamedTuple):
    """A part of a row that is one of some words: all of them, or where they are too many a regular expression."""

    all: frozenset[str] | None
    form: str = ""

    def taken(self, word: str) -> Taken:
        if word == ANY:
            return Taken(words=self.all) if self.all is not None and len(self.all) == 1 else ALL
        if word not in self.all if self.all is not None else not re.fullmatch(self.form, word):
            raise ValueError(f"{word} cannot stand there")
        return Taken(words=frozenset((word,)))

    def union(self, taken: Sequence[Taken]) -> Taken:
        return Taken(words=frozenset(word for one in taken for word in one.words or ()))

    def covers(self, taken: Taken, other: Taken) -> bool:
        everything = other.words if other.words is not None else self.all
        return taken.words is None or everything is not None and everything <= taken.words


Field = Numbers | Words


def word_of(text: str) -> Words:
    return Words(frozenset((text,)))


# Vectors whose interrupts there are (docs/MACHINE.md, "Interrupts").
ENTERED = (0x12, 0x14, 0x18, 0x1A, 0x1C, 0x1E, 0x20, 0x22, 0x24, 0x26, 0x28, 0x30, 0x34, 0x36, 0x38, 0x3A)

# Instructions that stop a node and so have no row.
NEVER_EXECUTED = frozenset(("spm", "break"))

# Loads and stores that may change their pointer: a register and the pointer are all their operands.
CHANGE_POINTERS = frozenset(("ld", "st", "lpm", "elpm"))

# The second word of these is a data address, of which there are so many.
DATA_ACCESSES = frozenset(("lds", "sts"))
DATA_ADDRESS = "0x(?:0[0-9A-F]{3}|10[0-9A-F]{2})"


def operand_words(encoding: Encoding) -> list[Words]:
    """The operands of an instruction that is executed."""
    found = []
    for part in encoding.operands.split():
        if "@" in part:
            form = DATA_ADDRESS if encoding.mnemonic in DATA_ACCESSES else "0x[0-9A-F]{4}"
            found.append(Words(None, part.replace("@", form)))
            continue
        texts = encoding.texts_of(part)
        if (
            encoding.mnemonic in CHANGE_POINTERS and len(texts) > 1
        ):  # what they do with registers of a pointer that they change is undefined
            texts = [text for text in texts if is_instruction(encoding.template.replace(part, text, 1))]
        found.append(Words(frozenset(texts)))
    return found


BYTE, ADDRESS = Numbers(0, 0xFF, 2), Numbers(0, 0xFFFF, 4)
ZERO, ONE, TWO = (Numbers(n, n) for n in range(3))

# The parts that stand behind the kind of a row, in each way that they may. No row is of two of them.
SHAPES: dict[str, list[list[Field]]] = {
    "instr": [
        [ADDRESS, word_of(encoding.mnemonic), *operand_words(encoding)]
        for encoding in TABLE
        if encoding.mnemonic not in NEVER_EXECUTED
    ],
    "enter": [[Numbers(ENTERED[0], ENTERED[-1], 4, ENTERED), ADDRESS]],
    "serial": [[BYTE]],
    "sent": [[BYTE]],
    "heard": [[ZERO, Numbers(0, 0, 2), ZERO], [ONE, BYTE, Numbers(0, MAX_AGE)], [TWO, BYTE, ZERO]],
    "stop": [[ADDRESS, *map(word_of, cause.split())] for cause in STOPS],
    "end": [[Numbers(0, MAX_INSTRUCTIONS), Words(frozenset(FINAL_STATES))]],
}
