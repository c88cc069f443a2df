"""The definitions of a repository by file: what `crates/*/specs` define, with the lines and the words of each."""
import functools
import re
from dataclasses import dataclass, field
from typing import Iterator, NamedTuple

from believing import antt


class Import(NamedTuple):
    """What a file imports: a name, and the module or, of Rust, the crate that it comes from."""

    module: str
    name: str


@dataclass(frozen=True)
class Part:
    """A signature, a clause, a field or a constructor: its lines that are code, and its text."""

    lines: tuple[int, ...]
    text: str
    # of a field or a constructor, how many words in front name it
    labels: int = 0

    @functools.cached_property
    def words(self) -> list[antt.Word]:
        return antt.words(self.text)


@dataclass(eq=False)
class Definition:
    """Something that has to be believed where a clause rests on it."""

    path: str
    line: int
    name: str
    parts: list[Part]
    # the names of its constructors, by which it is used too
    constructors: frozenset[str] = frozenset()
    # the parameters of a record or a type, which are variables in all of its parts
    parameters: frozenset[str] = frozenset()
    is_record: bool = False
    # of Rust: the types and constants that it names
    rust: frozenset[str] = frozenset()

    @property
    def lines(self) -> frozenset[int]:
        return frozenset(number for part in self.parts for number in part.lines)

    def offers(self, name: str) -> bool:
        return name == self.name or name in self.constructors


@dataclass(eq=False)
class File:
    """A file: what it imports by local name, its modules by local name, and what it defines."""

    path: str
    imports: dict[str, list[Import]] = field(default_factory=dict)
    modules: dict[str, str] = field(default_factory=dict)
    definitions: list[Definition] = field(default_factory=list)
    # of Rust: the crate of each name that it brings in, and those that others can have from it
    rust: dict[str, list[Import]] = field(default_factory=dict)
    passed_on: dict[str, list[Import]] = field(default_factory=dict)

    @functools.cached_property
    def operators(self) -> dict[str, list[str]]:
        """The names with places for arguments that are in scope, by each piece: `+` of `◌+◌`."""
        found: dict[str, list[str]] = {}
        for name in {*self.imports, *(it.name for it in self.definitions)}:
            for piece in filter(None, name.split("◌") if "◌" in name else ()):
                found.setdefault(piece, []).append(name)
        return found


USE = re.compile(r"^[ \t]*(?:pub )?(?:ghost )?use ([\w.]+?)(?:\.\{([^}]*)\}|(?: as ([^\s;]+))?)[ \t]*;?[ \t]*$", re.M)


def read_imports(text: str, into: File) -> None:
    """Adds what the `use` lines of antt bring, in a file of antt or of Rust."""
    for it in USE.finditer(text):
        module, names, alias = it.groups()
        if names is None:
            into.modules[alias or module.rpartition(".")[2]] = module
        for name in filter(None, (one.strip() for one in (names or "").split(","))):
            given, _, local = (one.strip() for one in name.partition(" as "))
            into.imports.setdefault(local or given, []).append(Import(module, given))


DECLARED = re.compile(r"(?:(?:pattern|unfoldable|abbrev|pub|axiom) )*(?:(record|data) )?(?:pub )?([^\s({:]+)")
MARKED = ("pattern ", "unfoldable ", "abbrev ", "pub ", "axiom ", "record ", "data ", "infix")
SIGNATURE = re.compile(r"[^\s(){}.;,@]+(?: \{[^}]*\})? :(?: |$)")
FIXITY = re.compile(r"infix[lr]? \d+ (\S+)")
NO_DEFINITION = ("use ", "pub use ", "mod ", "pub mod ")

# Lines with their numbers.
Lines = list[tuple[int, str]]


def indent(line: str) -> int:
    return len(line) - len(line.lstrip())


def blocks(text: str) -> Iterator[Lines]:
    """The definitions of a file of antt: of each the lines that are neither empty nor comments."""
    block: Lines = []
    for number, line in enumerate(text.splitlines(), 1):
        if not line.strip() or line.lstrip().startswith("--") or line.startswith(NO_DEFINITION):
            continue
        begins = line.startswith(MARKED) or SIGNATURE.match(line)
        if begins and block and not FIXITY.match(block[-1][1]):
            yield block
            block = []
        block.append((number, line))
    if block:
        yield block


def pieces(lines: Lines, most: int) -> Iterator[Lines]:
    """The lines, cut before each that is indented at most so far and does not begin with a bracket that closes."""
    piece: Lines = []
    for number, line in lines:
        if piece and indent(line) <= most and line.strip()[0] not in ")}]":
            yield piece
            piece = []
        piece.append((number, line))
    if piece:
        yield piece


def part_of(lines: Lines, is_member: bool) -> Part:
    text = "\n".join(line for _, line in lines)
    names = text.split(":")[0].split() if is_member else []
    return Part(tuple(number for number, _ in lines), text, len(names))


def members(part: Part) -> list[str]:
    """The names of fields or constructors that a part declares."""
    return [it.text for it in part.words[: part.labels] if it.text != "pub"]


def definition_of(path: str, block: Lines) -> Definition:
    """A definition of a file of antt, with the line of its operator's fixity."""
    at = 1 if FIXITY.match(block[0][1]) else 0
    found = DECLARED.match(block[at][1])
    assert found, f"{path}:{block[at][0]}: no definition begins here"
    kind, name = found.groups()
    most = min((indent(line) for _, line in block[at + 1 :]), default=0) if kind else 0
    parts = [part_of(it, kind is not None and place > 0) for place, it in enumerate(pieces(block[at:], most))]
    inner = frozenset(it for part in parts[1:] for it in members(part)) if kind == "data" else frozenset()
    bound = frozenset(it.name for it in antt.bounds(parts[0].words, lambda _: True)) if kind else frozenset()
    if at:
        parts[0] = Part((block[0][0], *parts[0].lines), parts[0].text)
    return Definition(path, block[at][0], name, parts, inner, bound, kind == "record")


def read_antt(path: str, text: str) -> File:
    """A file of antt."""
    read = File(path)
    read_imports(text, read)
    read.definitions = [definition_of(path, it) for it in blocks(text)]
    return read
