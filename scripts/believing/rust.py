"""What a file of Rust defines that clauses speak of: types, constants, models, the ghosts of traits, and contracts."""
import re
from typing import Iterator

from believing.sources import Definition, File, Import, Part, read_imports

# Comments, quoted text and characters, which hold no code; lines stay.
NO_CODE = re.compile(r"//[^\n]*|\"(?:\\.|[^\"\\])*\"|b?'(?:\\.|[^'\\\n])'", re.S)
NAME = re.compile(r"\b[A-Z]\w*\b")
ATTRIBUTE = re.compile(r"\s*#!?\[")

ITEM = re.compile(r"^[ \t]*(?:pub(?:\(\w+\))? )?(struct|enum|trait|const|static|type) (?:mut )?([A-Z]\w*)", re.M)
IMPL = re.compile(r"^impl\b([^{;]*?)\bfor ([^{;]*?)\{", re.M)
GHOST = re.compile(r"^[ \t]*ghost (?!use\b)\w+\s*[:=]", re.M)
FUNCTION = re.compile(r"^[ \t]*(?:pub(?:\(\w+\))? )?fn (\w+)", re.M)
CLAUSE = re.compile(r"\s*(?:requires|ensures)\*?(?: \w+)? ?(?=\{)")
IMPORTED = re.compile(r"^[ \t]*(pub(?:\(\w+\))? )?use ([^;]+);", re.M)

# The trait of models, what a clause sees of a type that has one, and how that is named here.
MODEL = "Model"
VALUE = re.compile(r"\s*ghost Value\b")
VALUE_OF = "Value of "


def without_comments(text: str) -> str:
    """The text with what is not code blanked out, as long and in as many lines."""
    return NO_CODE.sub(lambda it: re.sub(r"[^\n]", " ", it[0]), text)


def closing(code: str, at: int) -> int:
    """The place behind the bracket that closes the one which opens here."""
    depth = 0
    for place in range(at, len(code)):
        depth += (code[place] in "([{") - (code[place] in ")]}")
        if depth == 0:
            return place + 1
    return len(code)


def end_of_item(code: str, at: int, ends: str) -> int:
    """The place behind an item: behind the first of these marks outside brackets, a bracket's being what it closes."""
    place = at
    while place < len(code):
        if code[place] in "([{":
            behind = closing(code, place)
            if code[place] in ends:
                return behind
            place = behind
        elif code[place] in ends:
            return place + 1
        else:
            place += 1
    return len(code)


def numbers(code: str, begins: int, ends: int) -> tuple[int, ...]:
    """The lines from one place to another that hold code, without attributes."""
    first = code.count("\n", 0, begins) + 1
    rows = enumerate(code[begins:ends].split("\n"), first)
    return tuple(number for number, row in rows if row.strip() and not ATTRIBUTE.match(row))


def part(code: str, begins: int, ends: int, is_antt: bool) -> Part:
    return Part(numbers(code, begins, ends), code[begins:ends] if is_antt else "")


def ghosts(code: str, begins: int, ends: int) -> list[Part]:
    """The ghosts that stand in a trait or an impl, in a struct too."""
    found = []
    for it in GHOST.finditer(code, begins, ends):
        found.append(part(code, it.start(), end_of_item(code, it.end(), ";,"), True))
    return found


def names(code: str, begins: int, ends: int) -> frozenset[str]:
    return frozenset(NAME.findall(code[begins:ends]))


def line_of(code: str, at: int) -> int:
    return code.count("\n", 0, at) + 1


def item(path: str, code: str, it: re.Match[str]) -> Definition:
    """A struct, an enum, a constant, or a trait, of which the ghosts alone matter."""
    kind, name = it.groups()
    begins = it.start() + len(it[0]) - len(it[0].lstrip())
    if kind == "trait":
        ends = end_of_item(code, it.end(), "{")
        found = ghosts(code, it.end(), ends)
        used = frozenset().union(*(NAME.findall(one.text) for one in found))
        return Definition(path, line_of(code, begins), name, found, rust=used)
    ends = end_of_item(code, it.end(), ";" if kind in ("const", "static", "type") else "{;")
    parts = [part(code, begins, ends, False), *ghosts(code, it.end(), ends)]
    return Definition(path, line_of(code, begins), name, parts, rust=names(code, it.end(), ends))


def impl(path: str, code: str, name: str, of: str, found: list[Part]) -> Definition:
    used = frozenset({of}).union(*(NAME.findall(one.text) for one in found))
    return Definition(path, found[0].lines[0], name, found, rust=used)


def impls(path: str, code: str) -> Iterator[Definition]:
    """The ghosts of each `impl TRAIT for TYPE`, under these names; of a model also its value alone."""
    for it in IMPL.finditer(code):
        given = re.sub(r"<.*>", "", it[1], flags=re.S).split("::")[-1].strip()
        of = NAME.search(it[2])
        found = ghosts(code, it.end(), closing(code, it.end() - 1))
        if of and found:
            yield impl(path, code, f"{given} for {of[0]}", of[0], found)
            if given == MODEL:
                value = [one for one in found if VALUE.match(one.text)]
                yield impl(path, code, f"{VALUE_OF}{of[0]}", "", value)


def contract(path: str, code: str, name: str) -> Definition | None:
    """The `requires` and `ensures` of a function of a file."""
    it = next((one for one in FUNCTION.finditer(code) if one[1] == name), None)
    if it is None:
        return None
    clauses = re.compile(r"^\s*(?:requires|ensures)\b|\{", re.M).search(code, end_of_item(code, it.end(), "("))
    at = clauses.start() if clauses else len(code)
    found = []
    while clause := CLAUSE.match(code, at):
        at = closing(code, clause.end())
        found.append(part(code, clause.start() + len(clause[0]) - len(clause[0].lstrip()), at, True))
    return Definition(path, line_of(code, it.start()), f"contract of {name}", found, rust=names(code, it.end(), at))


def imported(path: list[str], tree: str) -> Iterator[tuple[list[str], str]]:
    """The paths that a tree of `use` names, `a::{b, c::d as e}`, each with its local name."""
    front, opens, inner = tree.strip().partition("{")
    steps = [*path, *(it.strip() for it in front.split("::") if it.strip())]
    if not opens:
        last, _, local = steps[-1].partition(" as ")
        yield [*steps[:-1], last], local or last
        return
    depth, begins = 0, 0
    body = inner[: inner.rindex("}")] + ","
    for at, mark in enumerate(body):
        depth += (mark == "{") - (mark == "}")
        if mark == "," and depth == 0:
            if body[begins:at].strip():
                yield from imported(steps, body[begins:at])
            begins = at + 1


def read_rust(path: str, text: str) -> File:
    """A file of Rust, of the crate in whose folder it stands."""
    read, code, crate = File(path), without_comments(text), path.split("/")[1]
    read_imports(text, read)
    read.definitions = [item(path, code, it) for it in ITEM.finditer(code)]
    read.definitions += impls(path, code)
    for it in IMPORTED.finditer(code):
        for steps, local in imported([], it[2]):
            found = Import(crate if steps[0] in ("crate", "self", "super") else steps[0], steps[-1])
            read.rust.setdefault(local, []).append(found)
            if it[1]:
                read.passed_on.setdefault(local, []).append(found)
    return read
