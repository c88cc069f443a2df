"""The variables of a program by their names, types and values, from the DWARF of its ELF file and a node's memory."""
import math
import struct
from collections.abc import Callable, Iterator, Sequence
from dataclasses import dataclass
from typing import Any, Protocol

from avrora_tools import elf_files, files
from avrora_tools.errors import BadInput
from avrora_tools.states import DATA_END, SRAM_FIRST

DATA_SPACE = 0x800000  # where avr-gcc's ELF files put the data space

# DWARF: the operation that gives an address, and how a base type is encoded.
OP_ADDR = 0x03
BOOLEAN, FLOAT, SIGNED, SIGNED_CHAR, UNSIGNED, UNSIGNED_CHAR = 0x02, 0x04, 0x05, 0x06, 0x07, 0x08
SIGNED_FIXED, UNSIGNED_FIXED = 0x0D, 0x0E
ENCODINGS = (
    BOOLEAN, FLOAT, SIGNED, SIGNED_CHAR, UNSIGNED, UNSIGNED_CHAR, SIGNED_FIXED, UNSIGNED_FIXED
)  # of one number

# Of floating-point numbers by their bytes: how `struct` reads them, how many digits tell one from the next, and how
# many bits the fraction has.
FLOATS = {4: ("<f", 9, 23), 8: ("<d", 17, 52)}

QUALIFIERS = ("DW_TAG_const_type", "DW_TAG_volatile_type", "DW_TAG_restrict_type", "DW_TAG_atomic_type")

# Address spaces of avr-gcc, by DW_AT_address_class: the data space, segments of 64 KiB of the flash (`__flash` is the
# first), and both (`__memx`), where the highest bit tells the data space.
DATA, FIRST_SEGMENT, BOTH = 0, 1, 7

NAMELESS = "(unnamed)"  # a member that C gives no name

MOST_ELEMENTS = 24  # of an array that are shown, runs of one value taken together
MOST_DEPTH = 8

# More values than a variable of the data space has, in unions too; of a type that has more, the bytes are shown.
MOST_VALUES, MOST_DIMENSIONS = 65_536, 32

# More bytes than a variable of the data space has, and more than a number of avr-gcc has.
LARGEST, LARGEST_NUMBER = 65_536, 16


class Memory(Protocol):
    """A data space, and what stands where."""

    def read(self, address: int, size: int) -> bytes:
        ...

    def object_at(self, address: int) -> str | None:
        """The variable, and the place in it, that an address lies in."""

    def function_at(self, word: int) -> str | None:
        """The function that begins at a word address."""


class Type(Protocol):
    """A type of C."""

    @property
    def name(self) -> str:
        ...

    @property
    def size(self) -> int:
        ...

    def shown(self, data: bytes, memory: Memory, depth: int = 0) -> str:
        """A value, given its bytes."""


@dataclass(frozen=True)
class Base:
    """A number, a character, a truth value."""

    name: str
    size: int
    encoding: int
    is_text: bool = False  # plain `char`, and not a number of eight bits

    @property
    def is_signed(self) -> bool:
        return self.encoding in (SIGNED, SIGNED_CHAR, SIGNED_FIXED)

    def shown(self, data: bytes, memory: Memory, depth: int = 0) -> str:
        if self.encoding == FLOAT and self.size in FLOATS:
            return float_text(data)
        value = int.from_bytes(data, "little", signed=self.is_signed)
        if self.encoding in (SIGNED_FIXED, UNSIGNED_FIXED):
            return f"{value / (1 << self.fraction_bits()):.10g} (raw {value})"
        if self.encoding == BOOLEAN:
            return {0: "false", 1: "true"}.get(value, str(value))
        if self.encoding not in (SIGNED, SIGNED_CHAR, UNSIGNED, UNSIGNED_CHAR):
            return data.hex(" ").upper()
        if self.is_text and 0x20 <= value <= 0x7E:
            return f"{value} {chr(value)!r}"
        return str(value)

    def fraction_bits(self) -> int:
        """How many bits of a fixed-point number are its fraction, as avr-gcc has them."""
        bits = 8 * self.size - self.is_signed
        if "_Accum" not in self.name:
            return bits
        whole = 16 if "long long" in self.name else bits // 2 if not self.is_signed else (bits + 1) // 2
        return bits - whole


def float_text(data: bytes) -> str:
    """A floating-point number, with as many digits as tell it from others; of no number its bits."""
    form, digits, bits = FLOATS[len(data)]
    value: float = struct.unpack(form, data)[0]
    if math.isnan(value):
        number = int.from_bytes(data, "little")
        return f"{'-' * (number >> 8 * len(data) - 1)}nan(0x{number & (1 << bits) - 1:x})"
    return f"{value:.{digits}g}"


@dataclass(frozen=True)
class Enumeration:
    name: str
    size: int
    values: tuple[tuple[int, str], ...]

    @property
    def is_signed(self) -> bool:
        return any(value < 0 for value, _ in self.values)

    def is_of_flags(self) -> bool:
        """Whether each value is a single bit, or 0."""
        return all(value >= 0 and value & value - 1 == 0 for value, _ in self.values)

    def shown(self, data: bytes, memory: Memory, depth: int = 0) -> str:
        value = int.from_bytes(data, "little", signed=self.is_signed)
        names = {number: name for number, name in reversed(self.values)}
        if value in names or not self.is_of_flags():
            return names.get(value, str(value))
        parts = [name for number, name in names.items() if value & number][::-1]
        if rest := value & ~sum(names):
            parts.append(f"unknown: 0x{rest:x}")
        return f"({' | '.join(parts)})" if parts else "0"


@dataclass(frozen=True)
class Pointer:
    """A pointer to data, or to a function; `space` is the address space of what it points to."""

    name: str
    is_code: bool
    size: int = 2
    space: int = DATA

    def shown(self, data: bytes, memory: Memory, depth: int = 0) -> str:
        value = int.from_bytes(data, "little")
        if value == 0:
            return "0"
        is_in_data = value >> 8 * self.size - 1 if self.space == BOTH else self.space == DATA
        if not is_in_data:
            segment = 0 if self.space == BOTH else self.space - FIRST_SEGMENT
            return f"0x{(segment << 16) + value:04X} of the flash"
        value &= 0xFFFF
        target = memory.function_at(value) if self.is_code else memory.object_at(value)
        return f"0x{value:04X}" + (f" {'' if self.is_code else '&'}{target}" if target else "")


@dataclass(frozen=True)
class Array:
    element: Type
    count: int
    values: int = 1  # that are neither arrays nor structures

    @property
    def name(self) -> str:
        """The type of the innermost elements, and the counts as C has them, the outermost first."""
        counts, element = [self.count], self.element
        while isinstance(element, Array):
            counts.append(element.count)
            element = element.element
        return element.name + "".join(f"[{count}]" for count in counts)

    @property
    def size(self) -> int:
        return self.element.size * self.count

    def shown(self, data: bytes, memory: Memory, depth: int = 0) -> str:
        if isinstance(self.element, Base) and self.element.is_text and (text := text_of(data)):
            return text
        if depth >= MOST_DEPTH:
            return "{..}"
        long = self.element.size
        if not long:
            return f"{{{self.element.shown(b'', memory, depth + 1)} x {self.count}}}" if self.count else "{}"
        parts = [self.element.shown(data[i : i + long], memory, depth + 1) for i in range(0, len(data), long)]
        return "{" + ", ".join(taken_together(parts)) + "}"


def text_of(data: bytes) -> str | None:
    """An array of characters that has nothing but a text and zeros behind it."""
    text = data.rstrip(b"\0")
    if text and all(0x20 <= byte <= 0x7E or byte in b"\n\r\t" for byte in text):
        return '"' + ascii(text)[2:-1].replace('"', '\\"') + '"'
    return None


def taken_together(parts: Sequence[str]) -> list[str]:
    """Values of an array with runs of one as `0 x 14`, and no more than so many."""
    found: list[tuple[str, int]] = []
    for part in parts:
        if found and found[-1][0] == part:
            found[-1] = (part, found[-1][1] + 1)
        else:
            found.append((part, 1))
    texts = [part if times == 1 else f"{part} x {times}" for part, times in found[:MOST_ELEMENTS]]
    return texts + [f".. {len(found) - MOST_ELEMENTS} more"] * (len(found) > MOST_ELEMENTS)


@dataclass(frozen=True)
class Member:
    """A member of a structure; of one of some bits their number, and how far they lie from the lowest bit of its first
    byte."""

    name: str
    at: int
    type: Type
    bits: int | None = None
    low_bit: int = 0


@dataclass(frozen=True)
class Structure:
    """A structure, or a union."""

    name: str
    size: int
    members: tuple[Member, ...]
    values: int = 1  # that are neither arrays nor structures

    def shown(self, data: bytes, memory: Memory, depth: int = 0) -> str:
        if depth >= MOST_DEPTH:
            return "{..}"
        return "{" + ", ".join(f"{one.name} {self.member(one, data, memory, depth)}" for one in self.members) + "}"

    def member(self, one: Member, data: bytes, memory: Memory, depth: int) -> str:
        return one.type.shown(member_bytes(one, data[one.at :]), memory, depth + 1)


def member_bytes(one: Member, data: bytes) -> bytes:
    """The bytes of a member's value, as its type has them, given those from its first one on."""
    size = one.type.size
    if one.bits is None:
        return data[:size]
    value = int.from_bytes(data, "little") >> one.low_bit & (1 << one.bits) - 1
    if is_signed(one.type) and value >> one.bits - 1:
        value |= -1 << one.bits
    return (value & (1 << 8 * size) - 1).to_bytes(size, "little")


@dataclass(frozen=True)
class Renamed:
    """A type by another name, or with a qualifier."""

    name: str
    type: Type

    @property
    def size(self) -> int:
        return self.type.size

    def shown(self, data: bytes, memory: Memory, depth: int = 0) -> str:
        return self.type.shown(data, memory, depth)


def is_signed(type_: Type) -> bool:
    """Whether the highest bit of a number is its sign."""
    while isinstance(type_, Renamed):
        type_ = type_.type
    return isinstance(type_, (Base, Enumeration)) and type_.is_signed


def number_of(type_: Type, data: bytes) -> int | float:
    """The value of a scalar, given its bytes: a number, that of an enumerator, an address, 0 or 1 of a truth value."""
    while isinstance(type_, Renamed):
        type_ = type_.type
    if isinstance(type_, Base) and type_.encoding == FLOAT and type_.size in FLOATS:
        value: float = struct.unpack(FLOATS[type_.size][0], data)[0]
        return value
    number = int.from_bytes(data, "little", signed=is_signed(type_))
    if isinstance(type_, Base) and type_.encoding in (SIGNED_FIXED, UNSIGNED_FIXED):
        return number / (1 << type_.fraction_bits())
    return number


def values_in(type_: Type) -> int:
    """How many numbers, pointers and the like a value of a type shows. One of no part counts too: it takes a time."""
    while isinstance(type_, Renamed):
        type_ = type_.type
    return max(1, type_.values) if isinstance(type_, (Array, Structure)) else 1


def is_possible(type_: Type) -> bool:
    """Whether a value of a type may lie in the data space; debugging information may say anything. The types of parts
    were looked at before."""
    if isinstance(type_, (Base, Enumeration, Pointer)):
        return 0 <= type_.size <= LARGEST_NUMBER
    while isinstance(type_, Array):
        if type_.count < 0 or not 0 <= type_.size <= LARGEST or type_.values > MOST_VALUES:
            return False
        type_ = type_.element
    if isinstance(type_, Structure):
        fits = 0 <= type_.size <= LARGEST and type_.values <= MOST_VALUES
        return fits and all(map(is_possible_member, type_.members))
    return True


def is_possible_member(one: Member) -> bool:
    if not 0 <= one.at <= LARGEST:
        return False
    return one.bits is None or 0 < one.bits <= 8 * LARGEST_NUMBER and 0 <= one.low_bit <= 8 * LARGEST


def dimensions(type_: Type) -> int:
    """How many arrays are in one another."""
    count = 0
    while isinstance(type_, (Array, Renamed)):
        count, type_ = count + isinstance(type_, Array), type_.element if isinstance(type_, Array) else type_.type
    return count


@dataclass(frozen=True)
class Opaque:
    """A type of which nothing is known but its size: its bytes."""

    name: str
    size: int

    def shown(self, data: bytes, memory: Memory, depth: int = 0) -> str:
        return data.hex(" ").upper() or "nothing"


@dataclass(frozen=True)
class Variable:
    """A variable in the SRAM. One that is static within a function has the function's name before its own."""

    name: str
    address: int
    type: Type

    @property
    def end(self) -> int:
        return self.address + max(self.type.size, 1)


def place_in(type_: Type, offset: int) -> str:
    """The place in a variable that lies so many bytes behind its begin, as C names it."""
    while isinstance(type_, Renamed):
        type_ = type_.type
    if isinstance(type_, Array) and type_.element.size:
        return f"[{offset // type_.element.size}]{place_in(type_.element, offset % type_.element.size)}"
    if isinstance(type_, Structure):
        for member in type_.members:
            if member.at <= offset < member.at + member.type.size:
                name = "" if member.name == NAMELESS else f".{member.name}"
                return f"{name}{place_in(member.type, offset - member.at)}"
    return f"+{offset}" if offset else ""


# ---- from DWARF


def variables_of(path: str) -> list[Variable]:
    """The variables of the ELF file `path`, by their addresses. Raises BadInput where it has no DWARF."""
    with elf_files.opened(path) as elf:
        if not elf.has_dwarf_info():
            raise BadInput(f"{files.shown(path)}: it says nothing of variables; compile with -gdwarf-2")
        dwarf = elf.get_dwarf_info()
        places = elf_files.entry_places(dwarf)
        found = {
            (one.address, one.name): one for unit in dwarf.iter_CUs() for one in Unit(unit, places).variables()
        }
    return [one for _, one in sorted(found.items(), key=lambda item: item[0])]


class Unit:
    """The variables and types of a compilation unit."""

    def __init__(self, unit: Any, places: frozenset[int]) -> None:
        """`places` are where the file's entries begin."""
        self.unit, self.places = unit, places
        self.types: dict[int, Type] = {}

    def variables(self) -> Iterator[Variable]:
        yield from self.within(self.unit.get_top_DIE(), "")

    def within(self, entry: Any, prefix: str) -> Iterator[Variable]:
        for child in entry.iter_children():
            if child.tag == "DW_TAG_variable":
                if (address := address_of(child)) is not None and (name := self.attribute(child, "DW_AT_name")):
                    yield Variable(prefix + text_in(name), address, self.type_at(address, child))
            elif child.tag in ("DW_TAG_subprogram", "DW_TAG_inlined_subroutine", "DW_TAG_lexical_block"):
                name = self.attribute(child, "DW_AT_name") if child.tag != "DW_TAG_lexical_block" else None
                yield from self.within(child, f"{text_in(name)}." if name else prefix)

    def type_at(self, address: int, entry: Any) -> Type:
        """The type of a variable at an address; of one that ends behind the data space the bytes that are there."""
        found, room = self.type_of(entry), DATA_END - address
        return found if found.size <= room else Opaque(found.name, room)

    def attribute(self, entry: Any, name: str) -> Any:
        """An attribute of an entry, or of the one that it stands for."""
        found = self.holder(entry, name)
        return None if found is None else found.attributes[name].value

    def holder(self, entry: Any, name: str) -> Any:
        """The entry that has an attribute: this one, or one that it stands for; None where none has it."""
        seen: set[int] = set()
        while entry is not None and name not in entry.attributes:
            if entry.offset in seen:
                return None
            seen.add(entry.offset)
            entry = self.origin(entry)
        return entry

    def origin(self, entry: Any) -> Any:
        for name in ("DW_AT_abstract_origin", "DW_AT_specification"):
            if name in entry.attributes:
                return self.referred(entry, name)
        return None

    def referred(self, entry: Any, name: str = "DW_AT_type") -> Any:
        """The entry that an attribute refers to. Raises ValueError where none begins there."""
        found = entry.get_DIE_from_attribute(name)
        if found.offset not in self.places:
            raise ValueError("debugging information refers to what is not an entry")
        return found

    def type_of(self, entry: Any) -> Type:
        """The type that an entry has."""
        entry = self.holder(entry, "DW_AT_type")
        if entry is None:
            return Opaque("void", 0)
        return self.type(self.referred(entry))

    def type(self, entry: Any) -> Type:
        known = self.types.get(entry.offset)
        if known is None:
            self.types[entry.offset] = Opaque("..", 0)  # of one that has itself as a part, which C forbids
            made = self.made(entry)
            if dimensions(made) > MOST_DIMENSIONS or not is_possible(made):
                made = Opaque(text_in(self.attribute(entry, "DW_AT_name") or b"?"), made.size)
            if isinstance(made, Opaque):
                made = Opaque(made.name, min(max(made.size, 0), LARGEST))
            known = self.types[entry.offset] = made
        return known

    def made(self, entry: Any) -> Type:
        name = text_in(self.attribute(entry, "DW_AT_name") or b"")
        size = int(self.attribute(entry, "DW_AT_byte_size") or 0)
        makers: dict[str, Callable[[], Type]] = {
            "DW_TAG_base_type": lambda: Base(name, size, int(self.attribute(entry, "DW_AT_encoding")), name == "char"),
            "DW_TAG_enumeration_type": lambda: Enumeration(name or "enum", size, tuple(enumerators(entry))),
            "DW_TAG_pointer_type": lambda: self.pointer(entry),
            "DW_TAG_array_type": lambda: self.array(entry),
            "DW_TAG_structure_type": lambda: self.structure(entry, name or "struct", size),
            "DW_TAG_class_type": lambda: self.structure(entry, name or "class", size),
            "DW_TAG_union_type": lambda: self.structure(entry, name or "union", size),
            "DW_TAG_typedef": lambda: self.renamed(entry, name),
            **dict.fromkeys(QUALIFIERS, lambda: self.type_of(entry)),
            "DW_TAG_subroutine_type": lambda: Opaque("function", 0),
        }
        return makers.get(entry.tag, lambda: Opaque(name or "?", size))()

    def renamed(self, entry: Any, name: str) -> Type:
        type_ = self.type_of(entry)
        if isinstance(type_, Base) and type_.is_text:
            return Renamed(name, Base(type_.name, type_.size, type_.encoding))
        return Renamed(name, type_)

    def pointer(self, entry: Any) -> Pointer:
        size = int(self.attribute(entry, "DW_AT_byte_size") or 2)
        space = int(self.attribute(entry, "DW_AT_address_class") or DATA)
        if "DW_AT_type" not in entry.attributes:
            return Pointer("void *", False, size, space)
        target = self.referred(entry)
        is_code = self.behind(target, (*QUALIFIERS, "DW_TAG_typedef")).tag == "DW_TAG_subroutine_type"
        # A structure may have a pointer to itself, so only the name of the target is looked at.
        aim = self.behind(target, QUALIFIERS)
        no_name = b"function" if is_code else b"void" if aim.tag in QUALIFIERS else b".."
        name = text_in(self.attribute(aim, "DW_AT_name") or no_name)
        return Pointer(f"{name} *", is_code, size, space)

    def behind(self, entry: Any, tags: Sequence[str]) -> Any:
        """The entry behind those of some tags, or one of them where they go round."""
        seen: set[int] = set()
        while entry.tag in tags and "DW_AT_type" in entry.attributes and entry.offset not in seen:
            seen.add(entry.offset)
            entry = self.referred(entry)
        return entry

    def array(self, entry: Any) -> Type:
        counts = [self.count(child) for child in entry.iter_children() if child.tag == "DW_TAG_subrange_type"]
        found = self.type_of(entry)
        if len(counts) > MOST_DIMENSIONS:
            return Opaque("?", found.size * math.prod(counts))
        for count in reversed(counts):
            found = Array(found, count, max(1, count) * values_in(found))
        return found

    def count(self, entry: Any) -> int:
        if (count := self.attribute(entry, "DW_AT_count")) is not None:
            return int(count)
        bound = self.attribute(entry, "DW_AT_upper_bound")
        return int(bound) + 1 if isinstance(bound, int) else 0

    def structure(self, entry: Any, name: str, size: int) -> Structure:
        members = tuple(self.member(one) for one in entry.iter_children() if is_part(one))
        return Structure(name, size, members, sum(values_in(one.type) for one in members))

    def member(self, entry: Any) -> Member:
        type_ = self.type_of(entry)
        is_base = entry.tag == "DW_TAG_inheritance"
        name = type_.name if is_base else text_in(self.attribute(entry, "DW_AT_name") or NAMELESS.encode())
        bits = self.attribute(entry, "DW_AT_bit_size")
        if bits is None:
            return Member(name, elf_files.member_offset(entry), type_)
        at = elf_files.member_offset(entry)
        if (from_lowest := self.attribute(entry, "DW_AT_data_bit_offset")) is not None:
            return Member(name, at, type_, int(bits), int(from_lowest) - 8 * at)
        # DWARF 2 counts bits from the highest of the storage unit; below 0 where they go on behind it.
        size = int(self.attribute(entry, "DW_AT_byte_size") or type_.size)
        from_highest = elf_files.signed_value(entry.attributes["DW_AT_bit_offset"])
        return Member(name, at, type_, int(bits), 8 * size - from_highest - int(bits))


def is_part(entry: Any) -> bool:
    """Whether an entry within that of a structure is a part of each value: a member that is not static, a base."""
    is_static = "DW_AT_declaration" in entry.attributes or "DW_AT_external" in entry.attributes
    return entry.tag in ("DW_TAG_member", "DW_TAG_inheritance") and not is_static


def text_in(name: bytes) -> str:
    """A name of the file."""
    return files.printable(name.decode("utf-8", "replace"))


def address_of(entry: Any) -> int | None:
    """The SRAM address at which a variable stands always, or None."""
    location = entry.attributes.get("DW_AT_location")
    block = location.value if location else None
    if not isinstance(block, list) or len(block) != 5 or block[0] != OP_ADDR:
        return None
    address = int.from_bytes(bytes(block[1:]), "little") - DATA_SPACE
    return address if SRAM_FIRST <= address < DATA_END else None


def enumerators(entry: Any) -> Iterator[tuple[int, str]]:
    for child in entry.iter_children():
        if child.tag == "DW_TAG_enumerator":
            yield int(child.attributes["DW_AT_const_value"].value), text_in(child.attributes["DW_AT_name"].value)
