"""TOML as the simulator reads it, which is version 1.1, by Python's reader of version 1.0.

What version 1.1 has more is written as version 1.0 has it before it is read: line ends, comments and a last comma in
inline tables, `\\e` and `\\xHH` in texts, times without seconds. """
import bisect
import contextlib
import enum
import json
import re
import tomllib
from collections.abc import Iterator
from typing import Any, NamedTuple

MAX_DEPTH = 80  # of arrays and tables in one another
MAX_KEYS = 80  # parts of a key
TOO_DEEP = f"more than {MAX_DEPTH} arrays and tables in one another"

BYTE_ORDER_MARK = "\ufeff"

# A text that nothing ends goes on to where it would: else each mark in it would be sought an end of again.
TOKEN = re.compile(
    r'"""(?:\\.|[^\\]|\\\Z)*?(?:"{3,5}|\Z)|\'\'\'.*?(?:\'{3,5}|\Z)|'  # texts of several lines
    r'"(?:\\.|[^"\\\n])*"?|\'[^\'\n]*\'?|#[^\n]*|[ \t\r]+|[\[\]{},=.\n]|[^\s#"\'\[\]{},=.]+|.',
    re.DOTALL,
)
ESCAPE = re.compile(r"\\(?:x([0-9A-Fa-f]{2})|(e)|.)", re.DOTALL)
SHORT_TIME = re.compile(r"((?:\d{4}-\d\d-\d\d[Tt])?\d\d:\d\d)([Zz]|[+-]\d\d:\d\d)?")
LEAP_SECOND = re.compile(r"(\d\d:\d\d:)60(?!\d)")
PLACE = re.compile(r"(.*) \(at line (\d+), column (\d+)\)", re.DOTALL)
CONTROL = re.compile(r"[\x00-\x08\x0a-\x1f\x7f]")

# What `plain` reads of a line: the name of an array of tables, a text, an array of whole numbers or of arrays of them.
# So many digits fit in 64 bits.
MOST_DIGITS = 18
HEAD = re.compile(r"\[\[([A-Za-z_]+)\]\]")
PLAIN_TEXT = re.compile(r'"([ !#-\[\]-~]*)"')
NUMBERS = rf"\[[0-9]{{1,{MOST_DIGITS}}}(?:, [0-9]{{1,{MOST_DIGITS}}})*\]"
PLAIN_ARRAY = re.compile(rf"{NUMBERS}|\[{NUMBERS}(?:, {NUMBERS})*\]")


class NotToml(Exception):
    """A text that is no TOML: why, and the line and the column (0 where none is known)."""

    def __init__(self, why: str, line: int = 0, column: int = 0) -> None:
        super().__init__(f"line {line}, column {column}: {why}" if line else why)
        self.why, self.line, self.column = why, line, column


class Older(NamedTuple):
    """A text of version 1.0, and where each piece of it stands in the text of version 1.1."""

    text: str
    places: list[int]  # where the pieces begin, rising
    origins: list[int]  # where they come from


def loads(text: str) -> dict[str, Any]:
    """The document of a text. Raises NotToml."""
    text = text.removeprefix(BYTE_ORDER_MARK).replace("\r\n", "\n")
    found = plain(text)
    if found is not None:
        return found
    # What version 1.0 takes says the same in 1.1, and nearly all texts are of it. A key of too many parts has as many
    # dots.
    if text.count(".") < MAX_KEYS:
        with contextlib.suppress(ValueError, OverflowError, RecursionError):
            document = tomllib.loads(text, parse_float=float_of)
            fits(document)
            return document
    older = as_version_1_0(text)
    try:
        document = tomllib.loads(older.text, parse_float=float_of)
        fits(document)
    except tomllib.TOMLDecodeError as fault:
        raise placed(str(fault), text, older) from None
    except OverflowError as fault:
        raise NotToml(str(fault)) from None
    except RecursionError:
        raise NotToml(TOO_DEEP) from None
    except ValueError as fault:  # a date that is none, a number of too many digits
        raise NotToml(str(fault)) from None
    return document


def plain(text: str) -> dict[str, Any] | None:
    """The document of a text as programs write scenarios: a key and its value a line, at the top and in arrays of
    tables. None of any other text, which may be TOML or not. It takes a fifth of the time that a reader of all TOML
    takes."""
    document: dict[str, Any] = {}
    table = document
    arrays: dict[str, list[dict[str, Any]]] = {}
    for line in text.split("\n"):
        key, equals, value = line.partition(" = ")
        if not equals:
            if not line:
                continue
            head = HEAD.fullmatch(line)
            if head is None or head[1] in document and head[1] not in arrays:
                return None
            table = {}
            document[head[1]] = arrays.setdefault(head[1], [])
            arrays[head[1]].append(table)
            continue
        found = plain_value(value)
        if found is None or key in table or not (key.isidentifier() and key.isascii()):
            return None
        table[key] = found
    return document


def plain_value(text: str) -> Any:
    """A value of `plain`, or None."""
    if text.isdecimal():
        has_form = text.isascii() and len(text) <= MOST_DIGITS and (text[0] != "0" or text == "0")
        return int(text) if has_form else None
    if match := PLAIN_TEXT.fullmatch(text):
        return match[1]
    if PLAIN_ARRAY.fullmatch(text):
        with contextlib.suppress(ValueError):  # a number that begins with 0
            return json.loads(text)
    return None


def placed(said: str, text: str, older: Older) -> NotToml:
    """What tomllib said of the older text, with the place in the text itself."""
    match = PLACE.fullmatch(said)
    if not match:
        return NotToml(said)
    lines = older.text.split("\n")
    place = sum(len(line) + 1 for line in lines[: int(match[2]) - 1]) + int(match[3]) - 1
    piece = max(0, bisect.bisect_right(older.places, place) - 1)
    origin = older.origins[piece] + place - older.places[piece] if older.places else 0
    before = text[: min(origin, len(text))]
    return NotToml(match[1], before.count("\n") + 1, len(before) - before.rfind("\n"))


def as_version_1_0(text: str) -> Older:
    pieces: list[str] = []
    places: list[int] = []
    origins: list[int] = []
    length = 0
    for origin, piece in OlderPieces(text):
        places.append(length)
        origins.append(origin)
        pieces.append(piece)
        length += len(piece)
    return Older("".join(pieces), places, origins)


class Place(enum.Enum):
    """Where in an inline table a token stands: a line may end but within a key and its value."""

    OUTSIDE = enum.auto()  # of inline tables
    START = enum.auto()  # a key may follow
    KEY = enum.auto()
    VALUE = enum.auto()  # a value is due
    BEHIND = enum.auto()  # a value


class OlderPieces:
    """The tokens of a text as version 1.0 has them, each with its place in the text."""

    def __init__(self, text: str) -> None:
        self.text = text
        self.open: list[str] = []  # brackets
        self.places: list[Place] = []  # in the inline tables that are open
        self.dots = 0  # of a key

    def __iter__(self) -> Iterator[tuple[int, str]]:
        comma: tuple[int, str] | None = None  # of an inline table, which may be its last
        for match in TOKEN.finditer(self.text):
            token, place = match[0], match.start()
            if self.is_dropped(token):
                yield place, " "
                continue
            if comma and token != "}":
                yield comma
            comma = None
            if token == "," and self.place() is Place.BEHIND:
                comma = place, token
            else:
                yield place, older_token(token, has_fraction=self.text[match.end() : match.end() + 1] == ".")
            self.step(token)
        if comma:
            yield comma

    def place(self) -> Place:
        return self.places[-1] if self.open[-1:] == ["{"] else Place.OUTSIDE

    def is_dropped(self, token: str) -> bool:
        """Whether an inline table of version 1.0 has no such token: a line's end, a comment."""
        if self.place() in (Place.START, Place.BEHIND):
            return not token.strip(" \t\n") or token[0] == "#" and not CONTROL.search(token)
        return False

    def step(self, token: str) -> None:
        """Goes on behind a token."""
        self.count_dots(token)
        if not token.strip() or token[0] == "#":
            return
        if token in "]}" and self.open:
            if self.open.pop() == "{":
                self.places.pop()
            token = "value"
        place = self.place()
        if place is Place.START:
            self.places[-1] = Place.BEHIND if token == "," else Place.KEY  # {,} stays at fault
        elif place is Place.KEY and token == "=":
            self.places[-1] = Place.VALUE
        elif place is Place.VALUE and token not in "[{":
            self.places[-1] = Place.BEHIND
        elif place is Place.BEHIND and token == ",":
            self.places[-1] = Place.START
        if token in "[{":
            self.open.append(token)
            if token == "{":
                self.places.append(Place.START)

    def count_dots(self, token: str) -> None:
        if token in "=,\n[]{}":
            self.dots = 0
        self.dots += token == "."
        if self.dots >= MAX_KEYS:
            raise NotToml(f"a key of more than {MAX_KEYS} parts")


def older_token(token: str, has_fraction: bool) -> str:
    if token[0] == '"':
        return ESCAPE.sub(older_escape, token)
    if ":" not in token or token[0] == "'":
        return token
    short = None if has_fraction else SHORT_TIME.fullmatch(token)
    return f"{short[1]}:00{short[2] or ''}" if short else LEAP_SECOND.sub(r"\g<1>59", token)


def older_escape(match: re.Match[str]) -> str:
    return f"\\u00{match[1]}" if match[1] else "\\u001B" if match[2] else match[0]


def float_of(text: str) -> float:
    value = float(text)
    if value in (float("inf"), -float("inf")) and "inf" not in text:
        raise OverflowError(f"{text} is too large for a float of 64 bits")
    return value


def fits(value: object, depth: int = 0) -> None:
    """Raises OverflowError at a whole number outside 64 bits, and below too many arrays and tables."""
    if type(value) is int and not -(2**63) <= value < 2**63:
        raise OverflowError("a whole number of more than 64 bits")
    if isinstance(value, (dict, list)):
        if depth > MAX_DEPTH:
            raise OverflowError(TOO_DEEP)
        for part in value.values() if isinstance(value, dict) else value:
            fits(part, depth + 1)


# A token with the number of its line.
Token = tuple[str, int]


def statements(text: str) -> Iterator[list[Token]]:
    """The statements of a text, without blanks and comments."""
    line, depth = 1, 0
    tokens: list[Token] = []
    for token in TOKEN.findall(text):
        if token in "[{":
            depth += 1
        elif token in "]}":
            depth -= 1
        if token == "\n" and depth == 0 and tokens:
            yield tokens
            tokens = []
        elif token.strip() and token[0] != "#":
            tokens.append((token, line))
        line += token.count("\n")
    if tokens:
        yield tokens


def bare(key: str) -> str:
    """A key without quotes."""
    if key[:1] == '"' and "\\" in key:
        return str(loads(f"key = {key}")["key"])
    return key[1:-1] if key[:1] in ('"', "'") and key[-1:] == key[:1] else key
