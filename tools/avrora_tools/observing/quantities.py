"""Quantities: what of a node has one value at a time, by its name: a variable of its program, a member or an element of
one, a register."""
import dataclasses
import difflib
import fnmatch
import functools
import itertools
import re
from collections.abc import Iterator, Mapping
from dataclasses import dataclass, field
from typing import Any

from avrora_tools import elf_files, files
from avrora_tools.errors import BadInput
from avrora_tools.inspection import Targets, View
from avrora_tools.observing.places import REGISTERS, SP_LOW, SREG, Kind, Place
from avrora_tools.programs import Program
from avrora_tools.states import IO_NAMES
from avrora_tools.variables import (
    ENCODINGS,
    NAMELESS,
    OP_ADDR,
    UNSIGNED,
    UNSIGNED_CHAR,
    Array,
    Base,
    Enumeration,
    Member,
    Memory,
    Opaque,
    Pointer,
    Renamed,
    Structure,
    Type,
    Variable,
    member_bytes,
    number_of,
    text_in,
)

MOST_OF_A_PATTERN = 512  # quantities that a pattern may stand for

BYTE, WORD = Base("register", 1, UNSIGNED_CHAR), Base("register", 2, UNSIGNED)

FLAGS = "CZNVSHTI"  # of SREG, the lowest first

# The names of registers, with their data addresses and types; also of the halves of the stack pointer.
REGISTER_NAMES: dict[str, tuple[int, Type]] = {f"r{number}": (number, BYTE) for number in range(REGISTERS)}
REGISTER_NAMES |= {name: (at, BYTE) for at, name in IO_NAMES.items()}
REGISTER_NAMES |= {"SP": (SP_LOW, WORD), "SREG": (SREG, BYTE)}

STEP = re.compile(r"\.([A-Za-z_]\w*)|\[(\d{1,5})\]|\.(\d)")


@dataclass(frozen=True)
class Quantity:
    """A scalar in the data space: its name, its address in bytes, its type, and of a field of some bits how many and
    how far they lie from the lowest bit of its first byte."""

    name: str
    address: int
    type: Type
    bits: int | None = None
    low_bit: int = 0

    @property
    def size(self) -> int:
        """How many bytes it lies in."""
        return self.type.size if self.bits is None else (self.low_bit + self.bits + 7) // 8

    def places(self, node: int) -> list[Place]:
        return [Place(node, Kind.BYTE, self.address + k) for k in range(self.size)]

    def data(self, held: bytes) -> bytes:
        """The bytes of its value, given those that it lies in."""
        if self.bits is None:
            return held
        return member_bytes(Member(self.name, 0, self.type, self.bits, self.low_bit), held)

    def number(self, held: bytes) -> int | float:
        return number_of(self.type, self.data(held))

    def shown(self, held: bytes, memory: Memory) -> str:
        return self.type.shown(self.data(held), memory)


def bare(type_: Type) -> Type:
    """A type behind its other names."""
    while isinstance(type_, Renamed):
        type_ = type_.type
    return type_


def is_scalar(type_: Type) -> bool:
    """Whether it is one number; a complex one is not."""
    plain = bare(type_)
    if isinstance(plain, Base) and plain.encoding not in ENCODINGS:
        return False
    return not isinstance(plain, (Array, Structure, Opaque)) and type_.size > 0


@dataclass
class Names:
    """The names that a node's program gives to quantities; registers alone where no program is known."""

    program: Program | None
    named_by: str = "-e"  # how the user names a program
    view: View | None = field(init=False, default=None)
    targets: Targets = field(init=False)

    def __post_init__(self) -> None:
        self.view = View(self.program) if self.program else None
        self.targets = Targets(self.view)

    @functools.cached_property
    def variables(self) -> Mapping[str, list[Variable]]:
        """By name; several that are static in different files, or functions of one name, may have one."""
        found: dict[str, list[Variable]] = {}
        for one in self.view.variables() if self.view else ():
            found.setdefault(one.name, []).append(one)
        return found

    @property
    def whose(self) -> str:
        return self.program.name if self.program else f"no program ({self.named_by})"

    # ---- one by its name

    def quantity(self, name: str) -> Quantity:
        """The scalar of this name, such as `queue.items[3].length`. Raises BadInput that says why there is none."""
        found = self.part(name)
        if not is_scalar(found.type):
            parts = list(self.leaves(found))
            such = f", such as `{parts[0].name}`" if parts else ""
            raise BadInput(
                f"`{files.printable(name)}` is {kind_of(found.type)}: name a part of it that has one value{such}"
            )
        return found

    def part(self, name: str) -> Quantity:
        """What has this name, of whatever type."""
        head, place = self.head_of(name)
        while place < len(name):
            match = STEP.match(name, place)
            if not match:
                raise BadInput(
                    f"`{files.printable(name)}`: write a .member or an [element] behind "
                    f"`{files.printable(name[:place])}`"
                )
            head = self.stepped(head, match)
            place = match.end()
        return head

    def head_of(self, name: str) -> tuple[Quantity, int]:
        """The variable or register with which a name begins, the longest, and where the rest begins."""
        ends = [match.start() for match in re.finditer(r"[.\[]", name)] + [len(name)]
        for end in reversed(ends):
            if candidates := self.variables.get(name[:end]):
                if len(candidates) > 1:
                    places = ", ".join(f"{one.address:04X}" for one in candidates)
                    raise BadInput(
                        f"{self.whose}: {len(candidates)} variables are called `{files.printable(name[:end])}`, "
                        f"at {places}"
                    )
                return Quantity(candidates[0].name, candidates[0].address, candidates[0].type), end
        first = name[: ends[0]]
        if first in REGISTER_NAMES:
            address, type_ = REGISTER_NAMES[first]
            return Quantity(first, address, type_), ends[0]
        raise BadInput(self.why_none(name))

    def stepped(self, whole: Quantity, match: re.Match[str]) -> Quantity:
        type_ = bare(whole.type)
        name = whole.name + match[0]
        if isinstance(type_, Pointer):
            raise BadInput(f"`{whole.name}` is a pointer, and pointers are not followed: name what it points to")
        if match[2] is not None and isinstance(type_, Array):
            if (number := int(match[2])) >= type_.count:
                raise BadInput(f"`{whole.name}` has {type_.count} elements, from [0] on, and no [{number}]")
            return Quantity(name, whole.address + number * type_.element.size, type_.element)
        if match[1] is not None and isinstance(type_, Structure):
            members = list(members_of(whole, type_))
            for one in members:
                if one.name == name:
                    return one
            known = ", ".join(f"`{one.name.rpartition('.')[2]}`" for one in members[:8])
            raise BadInput(f"`{whole.name}` has no member `{match[1]}`, but {known}")
        flag = FLAGS.find(match[1] or match[3] or "?")
        if whole.address == SREG and match[1] and len(match[1]) == 1 and flag >= 0:
            return Quantity(name, SREG, BYTE, 1, flag)
        bit = match[3] or (match[1] or "").removeprefix("bit")
        if type_ is BYTE and re.fullmatch("[0-7]", bit):
            return Quantity(f"{whole.name}.{bit}", whole.address, BYTE, 1, int(bit))
        raise BadInput(f"`{whole.name}` is {kind_of(type_)}, and has no part `{match[0]}`")

    def why_none(self, name: str) -> str:
        """Why there is no variable of a name."""
        first = re.split(r"[.\[]", name, maxsplit=1)[0]
        shown = files.printable(name)
        if self.program is None:
            return f"`{shown}` is not a register, and no program is known: {self.named_by} names its ELF file"
        if why := why_without_place(self.program.path, name, first):
            return f"{self.whose}: `{shown}` {why}"
        enumerators = enumerators_of(self)
        if name in enumerators:
            return f"{self.whose}: `{shown}` is an enumerator, and no variable"
        near = difflib.get_close_matches(name, [*self.variables, *REGISTER_NAMES, *enumerators], 1)
        return f"{self.whose}: it has no variable `{shown}`" + (f"; is it `{near[0]}`?" if near else "")

    # ---- many by a pattern

    def matching(self, pattern: str) -> list[Quantity]:
        """The scalars that a name or a pattern such as `queue*` stands for: of an array or a structure all that it has
        in it. Raises BadInput where there is none, or too many."""
        is_pattern = any(letter in pattern for letter in "*?")
        every = self.globbed(pattern) if is_pattern else self.leaves(self.part(pattern))
        found = list(itertools.islice(every, MOST_OF_A_PATTERN + 1))
        if is_pattern and not found:
            raise BadInput(self.why_none_matches(pattern))
        if len(found) > MOST_OF_A_PATTERN:
            raise BadInput(
                f"`{files.printable(pattern)}` stands for more than {MOST_OF_A_PATTERN} values: name some of them"
            )
        return found

    def why_none_matches(self, pattern: str) -> str:
        """Why a pattern stands for nothing."""
        why = f"{self.whose}: no variable or register is called `{files.printable(pattern)}`"
        head = re.split(r"[.\[*?]", pattern, maxsplit=1)[0]
        if head not in self.variables:
            return why
        return f"{why}; a pattern stands for names of variables, and not of their parts: `{head}` has all of them"

    def globbed(self, pattern: str) -> Iterator[Quantity]:
        for name, found in self.variables.items():
            for one in found:
                if fnmatch.fnmatchcase(name, pattern):
                    shown = name if len(found) == 1 else f"{name}@{one.address:04X}"
                    yield from self.leaves(Quantity(shown, one.address, one.type))
        for name, (address, type_) in REGISTER_NAMES.items():
            if pattern != "*" and fnmatch.fnmatchcase(name, pattern):
                yield Quantity(name, address, type_)

    def leaves(self, whole: Quantity) -> Iterator[Quantity]:
        """The scalars in a quantity, in the order of their addresses."""
        type_ = bare(whole.type)
        if isinstance(type_, Structure):
            for one in members_of(whole, type_):
                yield from self.leaves(one)
        elif isinstance(type_, Array):
            size = type_.element.size
            for number in range(type_.count):
                yield from self.leaves(
                    Quantity(f"{whole.name}[{number}]", whole.address + number * size, type_.element)
                )
        elif is_scalar(type_):
            yield whole


def members_of(whole: Quantity, type_: Structure) -> Iterator[Quantity]:
    """The members of a quantity that is a structure; instead of a structure in it that has no name its members, as C
    names them."""
    for one in type_.members:
        found = member_of(whole, one)
        inner = bare(one.type)
        if one.name == NAMELESS and isinstance(inner, Structure):
            yield from members_of(dataclasses.replace(found, name=whole.name), inner)
        else:
            yield found


def member_of(whole: Quantity, one: Member) -> Quantity:
    at = whole.address + one.at
    if one.bits is None:
        return Quantity(f"{whole.name}.{one.name}", at, one.type)
    return Quantity(f"{whole.name}.{one.name}", at + one.low_bit // 8, one.type, one.bits, one.low_bit % 8)


def kind_of(type_: Type) -> str:
    type_ = bare(type_)
    if isinstance(type_, Array):
        return f"an array of {type_.count}"
    if isinstance(type_, Structure):
        return f"a structure ({type_.name})"
    if isinstance(type_, Enumeration):
        return f"an enumeration ({type_.name})"
    return f"a value ({type_.name})" if is_scalar(type_) else f"of the type {type_.name}, of which nothing is known"


def enumerators_of(names: Names) -> dict[str, int]:
    """The names of enumerations of variables of a program, with their numbers. One that has two numbers is left out."""
    found: dict[str, int | None] = {}
    seen: set[int] = set()

    def visit(type_: Type) -> None:
        type_ = bare(type_)
        if id(type_) in seen:
            return
        seen.add(id(type_))
        if isinstance(type_, Array):
            visit(type_.element)
        elif isinstance(type_, Structure):
            for one in type_.members:
                visit(one.type)
        elif isinstance(type_, Enumeration):
            for number, name in type_.values:
                found[name] = number if found.get(name, number) == number else None

    for variables in names.variables.values():
        for one in variables:
            visit(one.type)
    return {name: number for name, number in found.items() if number is not None}


# ---- what DWARF says of a variable without a place


def why_without_place(path: str, name: str, first: str) -> str | None:
    """What a program says of a variable that has no place of its own in the data space; None where it says nothing of
    it."""
    with elf_files.opened(path) as elf:
        if not elf.has_dwarf_info():
            return "cannot be found, as the file says nothing of variables; compile with -gdwarf-2"
        dwarf = elf.get_dwarf_info()
        elf_files.entry_places(dwarf)
        for unit in dwarf.iter_CUs():
            for entry in unit.iter_DIEs():
                if why := why_of(entry, name, first):
                    return why
    return None


def why_of(entry: Any, name: str, first: str) -> str | None:
    attribute = entry.attributes.get("DW_AT_name")
    if attribute is None or text_in(attribute.value) not in (first, name.rpartition(".")[2]):
        return None
    if entry.tag == "DW_TAG_subprogram" and text_in(attribute.value) == name:
        return "is a function, and no variable"
    if entry.tag not in ("DW_TAG_variable", "DW_TAG_formal_parameter") or "DW_AT_declaration" in entry.attributes:
        return None
    location = entry.attributes.get("DW_AT_location")
    if location is None:
        return "was optimised away: it has no place in memory"
    if isinstance(location.value, list) and location.value[:1] == [OP_ADDR]:
        return "is a register whose value a device makes up, and no byte that is kept: `inspect --at` shows it"
    what = "parameter" if entry.tag == "DW_TAG_formal_parameter" else "local variable"
    return f"is a {what} that lies in registers or on the stack: declare it `static` to watch it"
