"""What a clause rests on: the definitions that it uses, and those that these use, down to those of the kit."""
import functools
import re
from dataclasses import dataclass, field
from pathlib import Path
from typing import Iterable, Mapping

from believing import antt, rust
from believing.sources import Definition, File, Import, Part, members, read_antt

MODULE = re.compile(r"Rattle\.(\w+)\.(specs|proofs)\.(.+)")
# What Rattle declares beside a type: its variants, its fields, and the constants of a module.
BESIDE = re.compile(r"The[A-Z]\w*")

# A trait before the type that it is for.
FOR = re.compile(r"^impl\b[^\n]*?\b(\w+)(?:<[^\n]*>)? for \b", re.M)
# The crates that run stored cases, and what they share.
STORED = re.compile(r"\w+_(facts|cases)")

# For a crate and a name, what a part of its definition holds: but for it and the signature all are left out.
Narrowed = Mapping[tuple[str, str], str]


@dataclass
class Closure:
    """Definitions, the parts of each that count, and what could not be told."""

    parts: dict[Definition, list[Part]] = field(default_factory=dict)
    kit: dict[str, set[str]] = field(default_factory=dict)
    unclear: list[str] = field(default_factory=list)

    def lines(self) -> set[tuple[str, int]]:
        """The lines that count, each once."""
        return {(it.path, line) for it, parts in self.parts.items() for part in parts for line in part.lines}


def crate_of(it: Definition | File) -> str:
    return it.path.split("/")[1]


class Repository:
    """The sources of the crates of a folder."""

    def __init__(self, top: Path) -> None:
        self.top = top
        self.crates = frozenset(it.parent.name for it in top.glob("crates/*/src"))

    @functools.cached_property
    def specs(self) -> list[str]:
        """The paths of all files of specs/."""
        return sorted(str(it.relative_to(self.top)) for it in self.top.glob("crates/*/specs/**/*.antt"))

    def definitions(self) -> list[Definition]:
        """All definitions of specs/."""
        return [it for file in filter(None, map(self.file, self.specs)) for it in file.definitions]

    @functools.cache
    def text(self, path: str) -> str:
        return (self.top / path).read_text(encoding="utf-8")

    @functools.cache
    def file(self, path: str) -> File | None:
        """A file of antt or of Rust, if it is there."""
        if not (self.top / path).is_file():
            return None
        return read_antt(path, self.text(path)) if path.endswith(".antt") else rust.read_rust(path, self.text(path))

    @functools.cache
    def rust_files(self, crate: str) -> list[str]:
        return sorted(str(it.relative_to(self.top)) for it in self.top.glob(f"crates/{crate}/src/**/*.rt"))

    def contract(self, path: str, name: str) -> Definition:
        """The contract of a function of Rust."""
        found = rust.contract(path, rust.without_comments(self.text(path)), name)
        if found is None:
            raise ValueError(f"{path}: there is no function {name}")
        return found

    @functools.cache
    def items(self, crate: str, name: str) -> list[Definition]:
        """The types, traits and constants of this name in a crate, or which it has from another crate."""
        files = [it for it in self.rust_files(crate) if re.search(rf"\b{name}\b", self.text(it))]
        read = [it for it in map(self.file, files) if it]
        own = [it for one in read for it in one.definitions if it.name == name]
        others = {it for one in read for it in one.passed_on.get(name, ()) if it.module in self.crates - {crate}}
        return own or [it for one in sorted(others) for it in self.items(one.module, one.name)]

    @functools.cached_property
    def impls(self) -> dict[str, list[str]]:
        """The files in which a trait stands before a `for`, by the trait, except those of crates of stored cases."""
        found: dict[str, list[str]] = {}
        for crate in sorted(it for it in self.crates if not STORED.fullmatch(it)):
            for path in self.rust_files(crate):
                for name in {it[1] for it in FOR.finditer(self.text(path))}:
                    found.setdefault(name, []).append(path)
        return found

    @functools.cache
    def ghosts_for(self, name: str) -> list[Definition]:
        """The impls of a trait, with its ghosts."""
        read = [it for it in map(self.file, self.impls.get(name, ())) if it]
        return [it for one in read for it in one.definitions if it.name.startswith(f"{name} for ")]

    def module_of(self, module: str) -> tuple[str, list[str]] | None:
        """The crate of a module of antt and its path there, if it is none of the kit."""
        found = MODULE.fullmatch(module)
        return (found[1], found[3].split(".")) if found and found[1] in self.crates else None

    def seen(self, crate: str, name: str) -> list[Definition]:
        """What a clause sees under a name of Rust: the value of a type that has a model, or else the item itself."""
        return [one for it in self.items(crate, name) for one in self.values(it) or [it]]

    def values(self, it: Definition) -> list[Definition]:
        """The value of a type that has a model."""
        file = self.file(it.path)
        return [one for one in file.definitions if one.name == rust.VALUE_OF + it.name] if file else []

    def declared(self, crate: str, steps: list[str], name: str) -> list[Definition]:
        """What Rattle declares of a file of Rust: a type, what stands beside it, or constants of a module."""
        beside = steps.pop() if steps and BESIDE.fullmatch(steps[-1]) else ""
        if beside != "TheConstants":
            name = steps.pop()
        found = self.items(crate, name) if beside == "TheInside" else self.seen(crate, name)
        place = f"crates/{crate}/src/{'/'.join(steps) or 'lib'}.rt"
        return [it for it in found if it.path == place] or found

    @functools.cache
    def defined(self, it: Import) -> list[Definition] | None:
        """What a module of antt has under a name; none where the module is the kit's."""
        where = self.module_of(it.module)
        if where is None:
            return None
        crate, steps = where
        if steps[0] == "declared":
            return self.declared(crate, list(steps[1:]), it.name)
        file = self.file(f"crates/{crate}/specs/{'/'.join(steps)}.antt")
        return [one for one in file.definitions if one.offers(it.name)] if file else []

    def is_constructor(self, file: File, name: str) -> bool:
        """Whether a name in a pattern of a file is not a variable: a constructor, or a name of the kit."""
        if name in file.operators or any(name in it.constructors for it in file.definitions):
            return True
        for it in file.imports.get(name, ()):
            found = self.defined(it)
            if found is None or it.module.endswith(".TheVariants") or any(it.name in one.constructors for one in found):
                return True
        return False

    @functools.cache
    def uses(self, file: File, part: Part, hidden: frozenset[str]) -> frozenset[antt.Use]:
        """The names of antt that a part uses, where some are hidden."""
        is_fixed = functools.partial(self.is_constructor, file)
        return frozenset(antt.uses(part.words[part.labels :], file.modules, is_fixed, hidden))


class Search:
    """Follows names from definitions to definitions."""

    def __init__(self, repository: Repository, narrowed: Narrowed) -> None:
        self.repository = repository
        self.narrowed = dict(narrowed)
        self.found = Closure()
        self.left: list[Definition] = []

    def add(self, it: Definition) -> None:
        """Adds a definition, whose names are still to be followed."""
        if it not in self.found.parts:
            self.found.parts[it] = self.parts_of(it)
            self.left.append(it)

    def parts_of(self, it: Definition) -> list[Part]:
        """The parts that count."""
        wanted = self.narrowed.get((crate_of(it), it.name))
        if wanted is None:
            return it.parts
        kept = [part for part in it.parts[1:] if wanted in part.text]
        if len(kept) != 1:
            raise ValueError(f"{it.path}:{it.line}: {len(kept)} parts of {it.name} hold {wanted!r}, one was wanted")
        return [it.parts[0], *kept]

    def follow(self) -> Closure:
        while self.left:
            it = self.left.pop()
            file = self.repository.file(it.path)
            assert file
            for use in self.uses(file, it):
                self.follow_use(file, it, use)
            self.follow_rust(file, it)
        return self.found

    def uses(self, file: File, it: Definition) -> list[antt.Use]:
        """The names of antt that a definition uses."""
        found: set[antt.Use] = set()
        hidden = set(it.parameters)
        for part in self.found.parts[it]:
            found |= self.repository.uses(file, part, frozenset(hidden))
            if it.is_record:
                hidden.update(members(part))
        return sorted(found)

    def follow_use(self, file: File, it: Definition, use: antt.Use) -> None:
        if use.module:
            self.follow_imports(it, use.name, [Import(file.modules[use.module], use.name)], [])
            return
        operators = file.operators.get(use.name, [])
        for name in operators + [use.name]:
            own = [one for one in file.definitions if one.offers(name)] if file.path.endswith(".antt") else []
            imports = file.imports.get(name, [])
            if own or imports or not operators:
                self.follow_imports(it, name, imports, own)

    def follow_imports(self, it: Definition, name: str, imports: list[Import], own: list[Definition]) -> None:
        """Adds all that a name can stand for, and tells where that is not one thing."""
        found, kit = set(own), set()
        for imported in imports:
            there = self.repository.defined(imported)
            if there is None:
                self.found.kit.setdefault(imported.module, set()).add(imported.name)
                kit.add(imported)
            else:
                found.update(there)
        # in a file of Rust a name that is not imported is a parameter's
        if len(found) + len(kit) != 1 and (it.path.endswith(".antt") or imports):
            self.tell(it, name, len(found) + len(kit))
        for one in found:
            self.add(one)

    def tell(self, it: Definition, name: str, count: int) -> None:
        """Notes that a name is unclear."""
        self.found.unclear.append(f"{it.path}:{it.line}: {it.name}: {name} stands for {count} things")

    def follow_rust(self, file: File, it: Definition) -> None:
        """Adds the types and constants that a definition of Rust names, and the ghosts that stand for a trait's."""
        if file.path.endswith(".antt"):
            return
        crate = crate_of(file)
        for name in sorted(it.rust):
            found = self.named(file, crate, name)
            if len(found) > 1:
                self.tell(it, name, len(found))
            for one in found:
                self.add(one)
        if it.name.endswith(tuple(f" for {one}" for one in it.rust)):
            self.add_whole(crate, it.name.rpartition(" ")[2])
        for one in self.repository.ghosts_for(it.name) if it.parts else ():
            self.add(one)

    def named(self, file: File, crate: str, name: str) -> list[Definition]:
        """What a name stands for in a file of Rust, as clauses see it."""
        if any(it.name == name for it in file.definitions):
            return [it for it in self.repository.seen(crate, name) if it.path == file.path]
        imports = [it for it in file.rust.get(name, ()) if it.module in self.repository.crates]
        return [one for it in sorted(set(imports)) for one in self.repository.seen(it.module, it.name)]

    def add_whole(self, crate: str, name: str) -> None:
        """Adds a type that stands for a trait's `Self`, with its fields and the whole of its model."""
        for it in self.repository.items(crate, name):
            self.add(it)
        for it in self.repository.ghosts_for(rust.MODEL):
            if it.name == f"{rust.MODEL} for {name}" and crate_of(it) == crate:
                self.add(it)


def closure(repository: Repository, roots: Iterable[Definition], narrowed: Narrowed | None = None) -> Closure:
    """What these definitions rest on, and they themselves."""
    search = Search(repository, narrowed or {})
    for it in roots:
        search.add(it)
    return search.follow()
