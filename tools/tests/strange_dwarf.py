"""Programs whose debugging information says what no compiler writes: sizes, counts, places and bits of any number."""
import os
import shutil
import struct
import subprocess
import tempfile
from dataclasses import dataclass, field

from support import DATA

DATA_SPACE = 0x800000

TAGS = {
    "array": 0x01, "enumeration": 0x04, "member": 0x0D, "pointer": 0x0F, "unit": 0x11, "structure": 0x13, "range": 0x21,
    "base": 0x24, "variable": 0x34,
}  # fmt: skip

TEXT, BLOCK, REFERENCE, BYTE, SIGNED = 0x08, 0x0A, 0x13, 0x0B, 0x0D

# By its name here the number of an attribute, and the form in which it is written.
ATTRIBUTES = {
    "name": (0x03, TEXT), "size": (0x0B, SIGNED), "encoding": (0x3E, BYTE), "location": (0x02, BLOCK),
    "type": (0x49, REFERENCE), "count": (0x37, SIGNED), "at": (0x38, SIGNED), "bits": (0x0D, SIGNED),
    "low_bit": (0x6B, SIGNED),
}  # fmt: skip

HEAD = 11  # bytes of a unit before its first entry, in DWARF 2


def unsigned(number):
    """A number in LEB128."""
    out = bytearray()
    while number > 0x7F:
        out.append(number & 0x7F | 0x80)
        number >>= 7
    return bytes([*out, number])


def signed(number):
    out = bytearray()
    while not -0x40 <= number < 0x40:
        out.append(number & 0x7F | 0x80)
        number >>= 7
    return bytes([*out, number & 0x7F])


@dataclass(eq=False)
class Entry:
    """An entry: its tag, its attributes, those within it; and where it stands, once it was written."""

    tag: str
    attributes: dict
    parts: list = field(default_factory=list)
    place: int = 0

    def form(self):
        return self.tag, tuple(self.attributes), bool(self.parts)

    def written(self, place, forms):
        self.place = place
        out = unsigned(forms.setdefault(self.form(), len(forms) + 1))
        out += b"".join(content(name, value) for name, value in self.attributes.items())
        for part in self.parts:
            out += part.written(place + len(out), forms)
        return out + b"\0" * bool(self.parts)


def content(name, value):
    form = ATTRIBUTES[name][1]
    if form == TEXT:
        return value.encode() + b"\0"
    if form == BLOCK:
        return b"\5\3" + struct.pack("<I", DATA_SPACE + value)
    if form == REFERENCE:
        return struct.pack("<I", value.place)
    return bytes([value]) if form == BYTE else signed(value)


def base(size, encoding=0x05, name="int"):
    return Entry("base", {"name": name, "size": size, "encoding": encoding})


def array(element, *counts):
    return Entry("array", {"type": element}, [Entry("range", {"count": count}) for count in counts])


def structure(size, *members):
    """Each member is its type, where it lies, and more attributes."""
    parts = [
        Entry("member", {"name": f"m{number}", "type": type_, "at": at, **more})
        for number, (type_, at, more) in enumerate(members)
    ]
    return Entry("structure", {"name": "s", "size": size}, parts)


def program(path, *types, address=0x100):
    """Writes the program of the relay with one variable, `v`, of the last of these types."""
    variable = Entry("variable", {"name": "v", "location": address, "type": types[-1]})
    unit = Entry("unit", {"name": "a.c"}, [*types, variable])
    forms = {}
    for _ in range(2):  # what refers to what stands behind it is right the second time
        body = unit.written(HEAD, forms)
    info = struct.pack("<IHIB", len(body) + HEAD - 4, 2, 0, 4) + body
    kinds = b""
    for (tag, names, has_parts), number in forms.items():
        kinds += unsigned(number) + unsigned(TAGS[tag]) + bytes([has_parts])
        kinds += b"".join(unsigned(number) for name in names for number in ATTRIBUTES[name]) + b"\0\0"
    with tempfile.TemporaryDirectory() as folder:
        for name, section in (("info", info), ("abbrev", kinds + b"\0")):
            with open(f"{folder}/{name}", "wb") as file:
                file.write(section)
        shutil.copy(f"{DATA}/relay.elf", path)
        for words in (
            ["--remove-section=.debug*"],
            [f"--add-section=.debug_{name}={folder}/{name}" for name in sorted(os.listdir(folder))],
        ):
            subprocess.run(["avr-objcopy", *words, path], check=True)
    return path
