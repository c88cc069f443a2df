"""The names that a text in antt uses: the words of a definition, less those that it binds itself."""
import re
from typing import Callable, Container, Iterator, NamedTuple

# Quoted text, a comment, a mark, or a name: what stands between spaces and marks.
WORD = re.compile(r'"(?:\\.|[^"\\\n])*"|--[^\n]*|[(){};,.@«»]|[^\s(){};,.@"«»]+')
OPENS, CLOSES = frozenset("({["), frozenset(")}]")
MARKS = frozenset("(){};,.@«»[]:=→←↦|λ×")

# Words of the language itself, and what is built in.
RESERVED = frozenset(
    "data record deriving module where use mod pub package open as unfoldable abbrev axiom unfold unfolding ruleset "
    "mutual infix infixl infixr elim let in do λ ∀ Type 𝕀 𝔽 coe fcoe tcoe hcom com ∨ ∧ pattern _ "
    "Unit tt ⊥ ¬ absurd refl yes no".split()
)
# The point before a field.
FIELD = ".field"

# What joins the lines of a `do`.
BIND = "◌>>=◌"

NUMBER = re.compile(r"\d[\d_]*|0[xob][\da-fA-F_]+")


class Word(NamedTuple):
    """A word: how many brackets are open there, whether it is a field of what stands before it, or first in its line."""

    text: str
    depth: int
    is_field: bool
    is_first: bool


class Use(NamedTuple):
    """A name that is used, behind the name of a module or alone."""

    module: str
    name: str


def words(text: str) -> list[Word]:
    """The words of a text, without comments and quoted text."""
    found: list[Word] = []
    depth = ends = 0
    for it in WORD.finditer(text):
        word, at = it[0], it.start()
        is_adjacent, ends = ends == at, it.end()
        if word.startswith(("--", '"')):
            continue
        is_dot = word == "." and is_adjacent and ends < len(text) and not text[ends].isspace()
        depth -= word in CLOSES
        is_field = is_adjacent and bool(found) and found[-1].text == FIELD
        is_first = not text[text.rfind("\n", 0, at) + 1 : at].strip()
        found.append(Word(FIELD if is_dot else word, depth, is_field, is_first))
        depth += word in OPENS
    return found


def is_name(word: Word) -> bool:
    return not (word.text in MARKS or word.text in RESERVED or word.text == FIELD or NUMBER.fullmatch(word.text))


def end_of_group(of: list[Word], at: int, depth: int) -> int:
    """Where the brackets close that are open at a place in this depth: the place of the word that closes them."""
    return next((it for it in range(at, len(of)) if of[it].depth < depth), len(of))


class Bound(NamedTuple):
    """A variable, and from where to where it is bound."""

    name: str
    begins: int
    ends: int


# Whether a name in a pattern is a constructor; else it is a variable.
Fixed = Callable[[str], bool]


def variables(of: list[Word], begins: int, ends: int, is_fixed: Fixed) -> list[str]:
    """The variables of a pattern."""
    return [it.text for it in of[begins:ends] if is_name(it) and not it.is_field and not is_fixed(it.text)]


def telescope(of: list[Word], at: int) -> Iterator[Bound]:
    """The variables of a group `(x y : A)` or `{x y : A}` that opens here."""
    inner, names = at + 1, []
    while inner < len(of) and is_name(of[inner]) and not of[inner].is_field:
        names.append(of[inner].text)
        inner += 1
    if names and inner < len(of) and of[inner].text == ":":
        for name in names:
            yield Bound(name, at, end_of_group(of, at + 1, of[at].depth))


def lambdas(of: list[Word], at: int) -> Iterator[Bound]:
    """The variables of a `λ x (y, z). e` that begins here."""
    dot = next((it for it in range(at, len(of)) if of[it].text == "."), len(of))
    place = at + 1
    while place < dot:
        # of a group with a type its telescope tells
        if any(telescope(of, place)) and of[place].text in OPENS:
            place = end_of_group(of, place + 1, of[place].depth + 1)
        for name in variables(of, place, place + 1, lambda _: False):
            yield Bound(name, at, end_of_group(of, at, of[at].depth))
        place += 1


def lets(of: list[Word], at: int) -> Iterator[Bound]:
    """The variables of a `let x = a in e` that begins here; they are bound behind its `in`."""

    def place(texts: tuple[str, ...], begins: int) -> int:
        found = (it for it in range(begins, len(of)) if of[it].text in texts and of[it].depth == of[at].depth)
        return next(found, len(of))

    equals = place(("=", ":"), at)
    for name in variables(of, at + 1, equals, lambda _: False):
        yield Bound(name, at, equals)
        yield Bound(name, place(("in",), equals), end_of_group(of, at, of[at].depth))


def cases(of: list[Word], at: int, is_fixed: Fixed) -> Iterator[Bound]:
    """The variables of a case `p ↦ e` of an `elim`, whose arrow stands here."""
    depth = of[at].depth
    begins = next((it for it in range(at, -1, -1) if of[it].depth <= depth and of[it].text in ("[", "|")), 0)
    closes = end_of_group(of, at, depth)
    ends = next((it for it in range(at, closes) if (of[it].text, of[it].depth) == ("|", depth)), closes)
    for name in variables(of, begins + 1, at, is_fixed):
        yield Bound(name, begins, ends)


def steps(of: list[Word], at: int, is_fixed: Fixed) -> Iterator[Bound]:
    """The variables of a line `p ← e` of a `do`, whose arrow stands here; they are bound in the lines behind it."""
    begins = next((it for it in range(at, -1, -1) if of[it].is_first), 0)
    behind = next((it for it in range(at + 1, len(of)) if of[it].is_first), len(of))
    for name in variables(of, begins, at, is_fixed):
        yield Bound(name, begins, at)
        yield Bound(name, behind, end_of_group(of, at, of[at].depth))


def head(of: list[Word], is_fixed: Fixed) -> Iterator[Bound]:
    """The variables of a clause `f p q = e`: those of what stands before its first `=`. What it defines is none."""
    equals = next((it for it, word in enumerate(of) if word.text == "=" and word.depth == 0), 0)
    for name in variables(of, 0, equals, is_fixed):
        yield Bound(name, 0, len(of))


def bounds(of: list[Word], is_fixed: Fixed) -> Iterator[Bound]:
    """The variables that a clause's head, groups, λ, `let` and cases bind."""
    yield from head(of, is_fixed)
    for at, word in enumerate(of):
        if word.text in ("(", "{"):
            yield from telescope(of, at)
        elif word.text == "λ":
            yield from lambdas(of, at)
        elif word.text == "let":
            yield from lets(of, at)
        elif word.text == "↦":
            yield from cases(of, at, is_fixed)
        elif word.text == "←":
            yield from steps(of, at, is_fixed)


def is_label(of: list[Word], at: int) -> bool:
    """Whether a field's name stands here before what it is given, `{ f = a; g = b }`, or an argument's, `{x = a}`."""
    return of[at].depth > 0 and of[at - 1].text in ("{", ";") and at + 1 < len(of) and of[at + 1].text == "="


def uses(of: list[Word], modules: Container[str], is_fixed: Fixed, hidden: Container[str] = ()) -> Iterator[Use]:
    """The names that words use. `modules` are names of modules, `hidden` fields that stand in scope."""
    bound = list(bounds(of, is_fixed))
    for at, word in enumerate(of):
        is_module = word.text in modules and at + 1 < len(of) and of[at + 1].text == FIELD
        if word.text == "do":
            yield Use("", BIND)
        if not is_name(word) or is_module or is_label(of, at):
            continue
        if word.is_field:
            if of[at - 2].text in modules and not of[at - 2].is_field:
                yield Use(of[at - 2].text, word.text)
        elif word.text not in hidden and not any(it.name == word.text and it.begins <= at < it.ends for it in bound):
            yield Use("", word.text)
