"""ELF files by pyelftools, read to an end whatever stands in them."""
import contextlib
import io
from collections.abc import Iterator
from typing import Any

from avrora_tools import deadlines, files
from avrora_tools.errors import BadInput, ToolError
from avrora_tools.terminal import missing

# More bytes than the debugging sections of a program have, once they are unpacked; and how many times as many as it has
# a section may unpack to, where its head does not say.
LARGEST_DEBUG = 4 * files.LARGEST_TEXT
MOST_UNPACKED = 1_032

# What no program takes to be read: seconds of a processor, and bytes of memory. A few bytes may say that a table has no
# end, that a number has a million digits, or that each of a million entries has a name of a million characters.
SECONDS, MEMORY = 60, 2 << 30

# Entries of DWARF that an entry refers to; pyelftools follows these anywhere, also round and round.
SIBLING = "DW_AT_sibling"


@contextlib.contextmanager
def opened(path: str) -> Iterator[Any]:
    """The ELF file `path`. Raises BadInput where it is none, also where that shows while the block reads it."""
    try:
        from elftools.elf.elffile import ELFFile
    except ImportError:
        raise missing("pyelftools", "python3-pyelftools") from None
    content = files.read_bytes(path)
    try:
        with deadlines.in_bounds(SECONDS, MEMORY):
            elf = ELFFile(io.BytesIO(content))
            refuse_endless(elf)
            yield elf
    except ToolError:
        raise
    except deadlines.Late:
        raise BadInput(f"{files.shown(path)}: no ELF file: reading it takes more than {SECONDS} seconds") from None
    except MemoryError:
        raise BadInput(f"{files.shown(path)}: no ELF file: reading it takes more than {MEMORY:,} bytes") from None
    except Exception as fault:  # whatever a broken file leads the library to
        why = files.printable(str(fault)) or type(fault).__name__
        raise BadInput(f"{files.shown(path)}: no ELF file: {why}") from None


def refuse_endless(elf: Any) -> None:
    """Raises ValueError where debugging sections are larger than any program's, as some kilobytes may say."""
    sizes = [
        section.data_size * (MOST_UNPACKED if section.name.startswith(".zdebug") else 1)
        for section in elf.iter_sections()
        if section.name.startswith((".debug", ".zdebug"))
    ]
    if sum(sizes) > LARGEST_DEBUG:
        raise ValueError(f"its debugging sections have more than {LARGEST_DEBUG:,} bytes")


def entry_places(dwarf: Any) -> frozenset[int]:
    """Where the entries of DWARF begin. Raises ValueError where the next entry beside one is said to lie before it, or
    where none begins."""
    places: set[int] = set()
    siblings: set[int] = set()
    for unit in dwarf.iter_CUs():
        place, end = unit.cu_die_offset, unit.cu_offset + unit.size
        while place < end:
            entry = unit.get_DIE_from_refaddr(place)
            places.add(place)
            if SIBLING in entry.attributes:
                sibling = entry.get_DIE_from_attribute(SIBLING).offset
                if sibling <= place:
                    raise ValueError("an entry of its debugging information lies behind itself")
                siblings.add(sibling)
            place += entry.size
    if not siblings <= places:
        raise ValueError("debugging information refers to what is not an entry")
    return frozenset(places)


def signed_value(attribute: Any) -> int:
    """A number of DWARF that may be below 0, also in a form of so many bytes."""
    bits = {"DW_FORM_data1": 8, "DW_FORM_data2": 16, "DW_FORM_data4": 32, "DW_FORM_data8": 64}.get(attribute.form)
    value = int(attribute.value)
    return value - (1 << bits) if bits and value >> bits - 1 else value


def member_offset(entry: Any) -> int:
    """How far a member lies behind the begin of its structure: a number, or DWARF 2's operation that adds one."""
    location = entry.attributes.get("DW_AT_data_member_location")
    if location is None:
        return 0
    if isinstance(location.value, int):
        return location.value
    value = shift = 0
    for byte in location.value[1:]:  # behind DW_OP_plus_uconst stands a number in LEB128
        value |= (byte & 0x7F) << shift
        shift += 7
    return value
