"""Cases of `expect`: what the statements of a case's text say (tools/README.md has the form). A statement that no trace
can meet, or that each trace meets, is refused when it is read."""
import argparse
import ast
import bisect
import operator
import os
import re
from collections.abc import Callable, Iterator, Sequence
from typing import NamedTuple

from avrora_tools import cli, expressions, files
from avrora_tools.errors import BadInput
from avrora_tools.events import KINDS, End, Sent, Stop
from avrora_tools.fields import EVERY, NUMBER, Span, cover, joined, span_of, whole
from avrora_tools.patterns import ANY_ROW, LIMITS, Extent, Pattern
from avrora_tools.scenarios import BYTE_TIME

COMPARISONS: dict[str, Callable[[int, int], bool]] = {
    "==": operator.eq,
    "!=": operator.ne,
    "<=": operator.le,
    ">=": operator.ge,
    "<": operator.lt,
    ">": operator.gt,
}
COMPARISON = f"(==|!=|<=|>=|<|>) ({NUMBER})"

SOURCES = {"run": 1, "node": 2, "trace": 1}  # how many words follow each

QUOTED = r"""("(?:\\.|[^"\\])+"|'(?:\\.|[^'\\])+')"""

# What a row may begin with: a statement that begins otherwise is none.
BEGINS_A_ROW = re.compile(r"[0-9*+{.]")


class Expected(NamedTuple):
    """A row that comes behind the one expected before; at most `most` others come between, any number where it is
    None."""

    line: int
    pattern: Pattern
    most: int | None


class Never(NamedTuple):
    """A row that does not come: between two expected ones, or in a span of cycles."""

    line: int
    pattern: Pattern
    span: Span | None


class Count(NamedTuple):
    """How many rows there are, in all or in a span of cycles."""

    line: int
    pattern: Pattern
    span: Span | None
    comparison: str
    wanted: int


class Text(NamedTuple):
    """What a node writes to USART0 has these bytes in it, or what matches a regular expression."""

    line: int
    node: int
    text: bytes
    span: Span | None
    expression: bytes | None = None


class Lines(NamedTuple):
    """How many lines a node writes to USART0: how often it writes LF."""

    line: int
    node: int
    span: Span | None
    comparison: str
    wanted: int


class Golden(NamedTuple):
    """The rows that are looked at are those of a file."""

    line: int
    path: str
    with_cycles: bool


class Condition(NamedTuple):
    """What is to hold of a node's variables: in each cycle of a span (`always`), in none (`never`), in one
    (`reaches`)."""

    line: int
    word: str
    node: int
    text: str
    span: Span | None


Statement = Expected | Never | Count | Text | Lines | Golden | Condition


class Case(NamedTuple):
    """A case: where its rows come from, which of them are looked at (None: all), and what is expected of them."""

    path: str
    folder: str
    source: tuple[str, ...] | None
    nodes: frozenset[int] | None
    kinds: frozenset[str] | None
    statements: list[Statement]
    elfs: tuple[str, ...] = ()  # FILE, or NODES=FILE: the programs of which conditions name variables

    @property
    def conditions(self) -> list[Condition]:
        return [one for one in self.statements if isinstance(one, Condition)]


class Only(NamedTuple):
    """The nodes and the kinds of rows that are looked at; None for all."""

    nodes: frozenset[int] | None = None
    kinds: frozenset[str] | None = None


def read_case(path: str) -> Case:
    """The case in the file `path`. Raises BadInput that names the line at fault."""
    folder = os.path.dirname(os.path.abspath(path))
    name = files.shown(path)
    source: tuple[str, ...] | None = None
    only: Only | None = None
    elfs: list[str] = []
    statements: list[Statement] = []
    text = files.read_text(path)
    if "\0" in text:
        raise BadInput(f"{name}: no text")
    for number, line in enumerate(text.split("\n"), 1):  # no other mark ends a comment
        line = without_comment(line).strip()
        words = line.split()
        try:
            if not words:
                continue
            if words[0] in SOURCES:
                source = read_source(words, source)
            elif words[0] == "only":
                only = read_only(words[1:], only)
            elif words[0] == "elf":
                elfs += read_elfs(words[1:])
            else:
                statements.append(read_statement(line, number, folder))
        except (ValueError, SyntaxError, argparse.ArgumentTypeError, RecursionError, MemoryError) as fault:
            raise BadInput(f"{name}, line {number}: {files.printable(str(fault))}") from None
    if not statements:
        raise BadInput(f"{name}: the case has no expectation")
    for statement in statements:
        refuse_unseen(name, statement, only or Only())
    refuse_between(name, statements)
    refuse_certain(name, statements, only or Only())
    refuse_unwatched(name, statements, source, elfs)
    return Case(path, folder, source, (only or Only()).nodes, (only or Only()).kinds, statements, tuple(elfs))


def refuse_unseen(name: str, statement: Statement, only: Only) -> None:
    """Raises BadInput where a row is expected that is not looked at."""
    if not isinstance(statement, (Expected, Never, Count)):
        return
    pattern = statement.pattern
    if only.nodes is not None and (pattern.named - only.nodes or not pattern.nodes & only.nodes):
        node = min(pattern.named - only.nodes or pattern.nodes)
        raise BadInput(f"{name}, line {statement.line}: node {node} is not among those of `only`")
    if only.kinds is not None and (pattern.named_kinds - only.kinds or not pattern.kinds & only.kinds):
        kinds = sorted(pattern.named_kinds - only.kinds or pattern.kinds)
        raise BadInput(f"{name}, line {statement.line}: rows {', '.join(kinds)} are not among those of `only`")


def refuse_unwatched(name: str, statements: list[Statement], source: tuple[str, ...] | None, elfs: list[str]) -> None:
    """Raises BadInput where a condition is stated of what is not run here, and where a program is named for none."""
    stated = [statement for statement in statements if isinstance(statement, Condition)]
    if stated and (source is None or source[0] != "run"):
        raise BadInput(
            f"{name}, line {stated[0].line}: a condition is judged over a run: write `run SCENARIO` above it"
        )
    if elfs and not stated:
        raise BadInput(f"{name}: `elf` names a program, but no condition uses its variables")


def refuse_between(name: str, statements: list[Statement]) -> None:
    """Raises BadInput where a row is never to come between two expected ones, and none can come there without another
    expectation being at fault."""
    nevers: list[Never] = []
    for statement in statements:
        if isinstance(statement, Never) and statement.span is None:
            nevers.append(statement)
        if isinstance(statement, Expected):
            for never in nevers:
                if statement.most == 0:
                    why = f"line {statement.line} expects the next row, so that none can come between"
                elif statement.pattern.covers(never.pattern):
                    why = f"such a row is the one that line {statement.line} expects"
                else:
                    continue
                raise BadInput(f"{name}, line {never.line}: {why}")
            nevers = []


def refuse_certain(name: str, statements: list[Statement], only: Only) -> None:
    """Raises BadInput where an expectation is met by each trace, or by none: each has an end row of each of its nodes,
    in their order, and nothing behind them."""
    above: list[Expected] = []
    order = Above()
    last_expected = max((it.line for it in statements if isinstance(it, Expected)), default=0)
    for statement in statements:
        why = None
        if isinstance(statement, Expected):
            why = order.why_none_behind(statement)
            if not why and (statement.most is None or statement.pattern.covers(ANY_ROW)):
                why = why_certain(statement.pattern, above, only)
            above.append(statement)
            order.add(statement)
        elif isinstance(statement, Never):
            is_last = statement.span is None and statement.line > last_expected
            if is_last or statement.span and cover([statement.span], [LIMITS]):
                why = why_certain(statement.pattern, above if is_last else [], only)
        elif isinstance(statement, Count):
            why = why_count_is_certain(statement, only, None)
        if why:
            raise BadInput(f"{name}, line {statement.line}: {why}")


def why_certain(pattern: Pattern, above: list[Expected], only: Only) -> str | None:
    """Why each trace has a row behind those that are expected above."""
    if only.kinds is not None and End.kind not in only.kinds:
        return None
    nodes = pattern.certain_nodes() & (only.nodes or pattern.nodes)
    for node in {*(nodes & pattern.named), *sorted(nodes)[:1]}:  # those that a trace has, unless it is refused
        if not any(End.kind in it.pattern.kinds and max(it.pattern.nodes) >= node for it in above):
            return "each trace has such a row" + " behind those above" * bool(above)
    return None


class Above:
    """The rows that are expected so far, as far as they tell that no row can come behind them."""

    def __init__(self) -> None:
        self.ends: dict[int, Expected] = {}  # those that are end rows alone, by the least node of each: the first
        self.firsts: list[int] = []  # the least cycles of rows, where one is greater than all before
        self.latest: list[Expected] = []  # and the rows

    def add(self, row: Expected) -> None:
        if row.pattern.kinds == {End.kind}:
            self.ends.setdefault(min(row.pattern.nodes), row)
        if not row.pattern.is_relative:
            first = min(span.first for span in row.pattern.cycles)
            if not self.firsts or first > self.firsts[-1]:
                self.firsts.append(first)
                self.latest.append(row)

    def why_none_behind(self, row: Expected) -> str | None:
        """Why no such row can come behind those."""
        found = [*self.behind_ends(row), *self.behind_cycles(row)]
        return min(found, key=lambda one: one[0].line)[1] if found else None

    def behind_ends(self, row: Expected) -> Iterator[tuple[Expected, str]]:
        if End.kind not in row.pattern.kinds:
            for other in self.ends.values():
                yield other, f"no such row comes behind an end row, which line {other.line} expects"
        elif row.pattern.kinds == {End.kind}:
            for node, other in self.ends.items():
                if max(row.pattern.nodes) <= node:
                    why = f"no such row comes behind that of line {other.line}, as end rows come in the order of nodes"
                    yield other, why

    def behind_cycles(self, row: Expected) -> Iterator[tuple[Expected, str]]:
        lasts = [] if row.pattern.is_relative else [span.last for span in row.pattern.cycles]
        if lasts and None not in lasts:
            place = bisect.bisect_right(self.firsts, max(last for last in lasts if last is not None))
            for other, first in zip(self.latest[place : place + 1], self.firsts[place:]):
                why = f"no such row comes behind that of line {other.line}, whose cycle is {first} at least"
                yield other, why


def why_count_is_certain(count: Count, only: Only, extent: Extent | None) -> str | None:
    """Why a comparison holds of the rows of each trace, or of none; of those of an extent where it is known."""
    nodes = extent.nodes if extent else None
    looked_at = (only.nodes or frozenset(range(cli.MAX_NODES))) & frozenset(range(nodes or cli.MAX_NODES))
    seen_kinds = count.pattern.kinds & (only.kinds or count.pattern.kinds)
    least = 0
    if End.kind in seen_kinds and (not count.span or cover([count.span], [LIMITS])):
        least = len(count.pattern.certain_nodes() & looked_at & frozenset(range(nodes or 1)))
    nodes_seen = len(count.pattern.nodes & looked_at)
    most = most_rows(count, seen_kinds, nodes_seen, None)
    outcomes = outcomes_of(count, least, most)
    if len(outcomes) == 2 and extent:  # a run that is too short to meet it does not meet it
        here = most_rows(count, seen_kinds, nodes_seen, extent)
        if outcomes_of(count, least, here) == {True}:
            most, outcomes = here, {True}
    if len(outcomes) == 2:
        return None
    what = f"at least {least}" if most is None else f"{least}" if least == most else f"{least} to {most}"
    return f"each trace has {what} such rows, so it {'cannot fail' if True in outcomes else 'cannot be met'}"


def outcomes_of(count: Count | Lines, least: int, most: int | None) -> set[bool]:
    """What a comparison may come to, of at least and at most so many."""
    numbers = {least, count.wanted - 1, count.wanted, count.wanted + 1, most or 0}
    return {
        COMPARISONS[count.comparison](number, count.wanted)
        for number in numbers
        if max(least, number) == number and (most is None or number <= most)
    }


def most_rows(count: Count, kinds: frozenset[str], nodes: int, extent: Extent | None) -> int | None:
    """How many rows of some kinds a count can have at most, in a trace of an extent where it is known; None where there
    is no end of them. A node stops and ends once, and has one row of a rank in a cycle."""
    spans = joined([both for one in count.pattern.cycles if (both := one.both(count.span or EVERY))])
    ranks: dict[str, int] = {}
    for kind in kinds:
        most = 1 if kind in (End.kind, Stop.kind) else cycles_of(kind, spans, extent)
        if most is None:
            return None
        most = -(-most // BYTE_TIME.start) if kind == Sent.kind else most
        rank = kind if kind in (End.kind, Stop.kind) else str(KINDS[kind].rank)
        ranks[rank] = max(most, ranks.get(rank, 0))
    return nodes * sum(ranks.values())


def cycles_of(kind: str, spans: Sequence[Span], extent: Extent | None) -> int | None:
    """In how many cycles of some spans a row of a kind may stand; None where they do not end."""
    room = extent.of(kind) if extent else EVERY
    found = 0
    for span in spans:
        both = span.both(room) if room else None
        if both and both.last is None:
            return None
        found += both.last - both.first + 1 if both and both.last is not None else 0
    return found


def without_comment(line: str) -> str:
    """A line up to its comment. A quote that nothing ends is a sign like others, and so is all behind it."""
    match = re.match(r"""((?:"(?:\\.|[^"\\])*"|'(?:\\.|[^'\\])*'|[^#"'])*)([^#]*)""", line)
    return match[0] if match else ""


def read_source(words: list[str], source: tuple[str, ...] | None) -> tuple[str, ...]:
    if source:
        raise ValueError("a second source of the trace")
    if len(words) - 1 != SOURCES[words[0]]:
        raise ValueError(f"after {words[0]} stand {SOURCES[words[0]]} words")
    return tuple(words)


def read_elfs(words: list[str]) -> list[str]:
    if not words:
        raise ValueError("after elf stand files of programs: FILE, or NODES=FILE")
    return words


def read_only(words: list[str], before: Only | None) -> Only:
    nodes: set[int] = set()
    kinds: set[str] = set()
    if before:
        raise ValueError("a second `only`")
    if not words:
        raise ValueError("only what?")
    for word in words:
        if word[0].isdigit():
            nodes |= cli.node_set(word)
        elif word in KINDS:
            kinds.add(word)
        else:
            raise ValueError(f"{word} is neither a kind of row nor a list of nodes")
    return Only(frozenset(nodes) or None, frozenset(kinds) or None)


def read_statement(line: str, number: int, folder: str) -> Statement:
    span: Span | None = None
    if match := re.fullmatch(r"within\s+(\S+):\s+(.*)", line):
        span, line = span_of(match[1]), match[2]
    elif match := re.fullmatch(rf"before\s+({NUMBER}):\s+(.*)", line):
        span, line = before(match[1]), match[2]
    word, _, rest = line.partition(" ")
    rest = " ".join(rest.split())
    if word in ("always", "reaches") or word == "never" and is_condition(rest):
        return read_condition(word, rest, number, span)
    if word == "never":
        return Never(number, Pattern(rest) if not span else absolute(rest, span), span)
    if word == "count":
        return read_count(rest, number, span)
    if word == "text":
        return read_text(line, number, span)
    if span:
        raise ValueError("`within A..B:` stands before never, count, text, always and reaches alone")
    if word == "golden":
        match = re.fullmatch(r"(\S+)( without cycles)?", rest)
        if not match:
            raise ValueError("golden is `golden FILE` or `golden FILE without cycles`")
        return Golden(number, os.path.join(folder, match[1]), not match[2])
    if word == "next":
        match = re.fullmatch(f"(?:({NUMBER}): )?(.*)", rest)
        return Expected(number, Pattern(match[2] if match else rest), whole(match[1] or "0") if match else 0)
    if not BEGINS_A_ROW.match(word):
        raise ValueError(f"no statement is called {word}")
    return Expected(number, Pattern(line), None)


def before(digits: str) -> Span:
    """The cycles before one."""
    if whole(digits) == 0:
        raise ValueError("no cycle comes before 0")
    return Span(0, whole(digits) - 1)


def is_condition(rest: str) -> bool:
    """Whether what stands behind `never` is a node and a condition, and no row: there the second word is a node and the
    third a kind, and none is an operator."""
    words = rest.split(" ", 3)
    is_row = (
        len(words) >= 3
        and (words[2] in KINDS or words[2][0] in "*{")
        and words[1][0] in "*{.0123456789"
        and not re.search("[<>=!&|^%/~]", rest)
    )
    return bool(re.fullmatch("[0-9]+", words[0])) and not is_row


def read_condition(word: str, rest: str, number: int, span: Span | None) -> Condition:
    match = re.fullmatch(r"([0-9]+) (.+)", rest)
    if not match:
        raise ValueError(f"`{word} NODE CONDITION`, such as `{word} 1 queued <= 3`")
    return Condition(number, word, node_of(match[1]), match[2], span)


def absolute(text: str, span: Span | None = None) -> Pattern:
    """A row that no expected row goes before, in a span of cycles."""
    pattern = Pattern(text)
    if pattern.is_relative:
        raise ValueError("cycles are counted from the row before only in rows that are expected in order")
    for cycles in pattern.cycles:
        if span and not cycles.both(span):
            raise ValueError(f"cycles {cycles} are not within {span}")
    return pattern


def comparison(sign: str, number: str) -> tuple[str, int]:
    """A comparison of a count. Raises ValueError where it holds of no count, or of each."""
    wanted = whole(number)
    if (sign, wanted) in ((">=", 0), ("<", 0)):
        raise ValueError(f"{sign} 0 holds of {'each' if sign == '>=' else 'no'} count")
    return sign, wanted


def read_count(rest: str, number: int, span: Span | None) -> Count:
    match = re.fullmatch(f"{COMPARISON}: (.*)", rest)
    if not match:
        raise ValueError("a count is `count == N: ROW`, also with != <= >= < >")
    return Count(number, absolute(match[3], span), span, *comparison(match[1], match[2]))


def read_text(line: str, number: int, span: Span | None) -> Text | Lines:
    if match := re.fullmatch(rf"text\s+([0-9]+)\s+lines\s+{COMPARISON}", line):
        return Lines(number, node_of(match[1]), span, *comparison(match[2], match[3]))
    match = re.fullmatch(rf"text\s+([0-9]+)\s+(matches\s+)?{QUOTED}", line)
    if not match:
        raise ValueError(
            'text is `text NODE "TEXT"`, with escapes as in Python, `text NODE matches "EXPRESSION"` or '
            "`text NODE lines == N`"
        )
    if match[2]:
        return Text(number, node_of(match[1]), b"", span, expression_of(match[3][1:-1]))
    value: str = ast.literal_eval(match[3])
    if max(value) > "\xff":
        raise ValueError(f"{max(value)} is not a byte; write its bytes as \\x and two digits")
    return Text(number, node_of(match[1]), value.encode("latin-1"), span)


def expression_of(text: str) -> bytes:
    """A regular expression as Python has them; ^ and $ are the ends of lines."""
    try:
        found = text.encode("latin-1")
        re.compile(found, re.MULTILINE)
    except (re.error, UnicodeEncodeError, OverflowError) as fault:
        raise ValueError(f"no regular expression: {fault}") from None
    try:
        if expressions.has(found, b"") and expressions.has_each(found, probes(found)):
            raise ValueError("the expression matches nothing at all, so that each text has it")
    except expressions.TooLong:
        raise ValueError(expressions.TOO_LONG) from None
    return found


def probes(expression: bytes) -> Iterator[bytes]:
    """Texts of which an expression that can fail most likely does not match one: single bytes, and what stands in
    it."""
    yield from (bytes([byte]) for byte in range(256))
    parts = re.findall(rb"[A-Za-z0-9 _:=,;<>-]+", expression)
    for part in [*parts, b"".join(parts), b" ".join(parts)]:
        yield from (part, b"a" + part, part + b"\n", b"a" + part + b"\n")


def node_of(digits: str) -> int:
    if len(digits) > 2 or whole(digits) >= cli.MAX_NODES:
        raise ValueError(f"{digits}: nodes are 0 to {cli.MAX_NODES - 1}")
    return whole(digits)
