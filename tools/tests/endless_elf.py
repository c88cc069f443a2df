"""ELF files that a reader takes hours or gigabytes for: tables without an end, numbers of a million digits, a million
entries of nothing, names of a megabyte."""
import struct
import zlib

MEGABYTE = 1 << 20

SECTION, PROGRAM_BITS, SYMBOLS, STRINGS, COMPRESSED, CODE = 40, 1, 2, 3, 0x800, 6
AVR, EXECUTABLE_FILE = 83, 2

# Of DWARF: tags, attributes, forms.
UNIT, VARIABLE, BLOCK_OF_CODE = 0x11, 0x34, 0x0B
NAME, LINES = 0x03, 0x10
DATA4, TEXT, NUMBER, TEXT_ELSEWHERE, FLAG_OF_NO_BYTES = 0x06, 0x08, 0x0F, 0x0E, 0x19

UNIT_KIND = (UNIT, True, [(NAME, TEXT), (LINES, DATA4)])
UNIT_ENTRY = b"\1a.c\0" + struct.pack("<I", 0)

HIGH = b"\xff"  # a digit of LEB128 behind which others stand


def unsigned(number):
    """A number in LEB128."""
    out = bytearray()
    while number > 0x7F:
        out.append(number & 0x7F | 0x80)
        number >>= 7
    return bytes([*out, number])


def elf(sections, head_bytes=SECTION, count=None, said_sections=0, segments=0):
    """A file of these sections: name, kind, flags, content, the section it is linked with, and the bytes of an
    entry."""
    names = b"\0"
    body, heads = bytearray(52), bytearray(struct.pack("<10I", 0, 0, 0, 0, 0, said_sections, 0, said_sections, 1, 0))
    for name, kind, flags, content, link, entry in [*sections, (".shstrtab", STRINGS, 0, None, 0, 0)]:
        place = len(names)
        names += name.encode() + b"\0"
        content = names if content is None else content
        heads += struct.pack("<10I", place, kind, flags, 0, len(body), len(content), link, 0, 1, entry)
        body += content
    count = len(sections) + 2 if count is None else count
    head = (b"\x7fELF\1\1\1", EXECUTABLE_FILE, AVR, 1, 0, 0, len(body), 0, 52, 0, segments, head_bytes, count)
    body[:52] = struct.pack("<16sHHIIIIIHHHHHH", *head, len(sections) + 1)
    return bytes(body + heads)


def kinds_of_entries(*kinds):
    out = b""
    for number, (tag, has_parts, attributes) in enumerate(kinds, 1):
        pairs = b"".join(unsigned(name) + unsigned(form) for name, form in attributes)
        out += unsigned(number) + unsigned(tag) + bytes([has_parts]) + pairs + b"\0\0"
    return out + b"\0"


def dwarf(entries=b"\0", kinds=None, lines=None, texts=b"\0", packs=False, frames=None):
    """A file with this debugging information."""
    unit = struct.pack("<HIB", 2, 0, 4) + UNIT_ENTRY + entries
    contents = {
        ".debug_info": struct.pack("<I", len(unit)) + unit,
        ".debug_abbrev": kinds or kinds_of_entries(UNIT_KIND),
        ".debug_line": line_program(b"") if lines is None else lines,
        ".debug_str": texts,
        **({".debug_frame": frames} if frames else {}),
    }
    return elf([section(name, content, packs) for name, content in contents.items()])


def section(name, content, packs):
    if not packs or len(content) < MEGABYTE:
        return name, PROGRAM_BITS, 0, content, 0, 0
    packed = struct.pack("<III", 1, len(content), 1) + zlib.compress(content, 9)
    return name, PROGRAM_BITS, COMPRESSED, packed, 0, 0


OPCODES = bytes([0, 1, 1, 1, 1, 0, 0, 0, 1, 0, 0, 1])  # how many words each has


def line_program(program):
    head = struct.pack("<BBbBB", 1, 1, -5, 14, 13) + OPCODES + b"\0a.c\0\0\0\0\0"
    body = struct.pack("<HI", 2, len(head)) + head + program
    return struct.pack("<I", len(body)) + body


def line_program_of_nothing():
    """Of version 5: it has 2 ** 40 folders, each of no bytes."""
    head = struct.pack("<BBBbBB", 1, 1, 1, -5, 14, 13) + OPCODES + b"\0" + unsigned(2**40) + b"\0\0"
    body = struct.pack("<HBBI", 5, 4, 0, len(head)) + head
    return struct.pack("<I", len(body)) + body


def frames_of_rows(count):
    head = struct.pack("<IB", 0xFFFFFFFF, 1) + b"\0\1\x7f\x24"
    rows = struct.pack("<III", 0, 0, 100) + b"\x41" * count
    return struct.pack("<I", len(head)) + head + struct.pack("<I", len(rows)) + rows


def symbols(count, entry, texts):
    each = b"".join(struct.pack("<IIIBBH", 0, number, 0, 0x12, 0, 1) for number in range(count))
    return elf(
        [
            (".text", PROGRAM_BITS, CODE, b"\0" * 16, 0, 0),
            (".symtab", SYMBOLS, 0, each, 3, entry),
            (".strtab", STRINGS, 0, texts, 0, 0),
        ]
    )


VARIABLES = kinds_of_entries(UNIT_KIND, (VARIABLE, False, []))
NUMBERED = kinds_of_entries(UNIT_KIND, (VARIABLE, False, [(NAME, NUMBER)]))
NAMED = kinds_of_entries(UNIT_KIND, (VARIABLE, False, [(NAME, TEXT_ELSEWHERE)]))
FLAGGED = kinds_of_entries(UNIT_KIND, (VARIABLE, False, [(0x3F, FLAG_OF_NO_BYTES), (0x40, FLAG_OF_NO_BYTES)] * 20_000))
NESTED = kinds_of_entries(UNIT_KIND, (BLOCK_OF_CODE, True, []))
LONG_TEXT = b"x" * (8 * MEGABYTE) + b"\0"

MAKERS = {
    "sections of no bytes": lambda: elf([], head_bytes=0, count=0, said_sections=0xFFFF_FFFF),
    "segments of no bytes": lambda: elf([], said_sections=0xFFFF_FFFF, segments=0xFFFF),
    "symbols that lie in one another": lambda: symbols(900_000, 1, b"\0"),
    "symbols of long names": lambda: symbols(100_000, 16, LONG_TEXT),
    "rows of lines": lambda: dwarf(lines=line_program(b"\x14" * (15 * MEGABYTE))),
    "rows of lines, packed": lambda: dwarf(lines=line_program(b"\x14" * (60 * MEGABYTE)), packs=True),
    "a long step of lines": lambda: dwarf(lines=line_program(b"\2" + HIGH * (4 * MEGABYTE) + b"\1")),
    "folders of no bytes": lambda: dwarf(lines=line_program_of_nothing()),
    "a long number": lambda: dwarf(b"\2" + HIGH * (4 * MEGABYTE) + b"\1\0", NUMBERED),
    "a long number of a kind": lambda: dwarf(b"\0", HIGH * (4 * MEGABYTE) + b"\1" + VARIABLES),
    "long names": lambda: dwarf(b"\2\0\0\0\0" * 200_000 + b"\0", NAMED, texts=LONG_TEXT),
    "attributes of no bytes": lambda: dwarf(b"\2" * MEGABYTE + b"\0", FLAGGED),
    "many entries": lambda: dwarf(b"\2" * (15 * MEGABYTE) + b"\0", VARIABLES),
    "many entries, packed": lambda: dwarf(b"\2" * (60 * MEGABYTE) + b"\0", VARIABLES, packs=True),
    "entries in one another": lambda: dwarf(b"\2" * (4 * MEGABYTE) + b"\0" * (4 * MEGABYTE), NESTED),
    "rows of frames": lambda: dwarf(frames=frames_of_rows(8 * MEGABYTE)),
}
