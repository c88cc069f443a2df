"""Images: program memory from Intel HEX (docs/FORMATS.md, "Images")."""
import re

from avrora_tools import files
from avrora_tools.errors import BadInput

FLASH_BYTES = 0x20000
ERASED = 0xFF
MAX_BYTES = 1_048_576

RECORD = re.compile(rb":((?:[0-9A-Fa-f]{2}){5,})")
DATA, END, SEGMENT, START_SEGMENT, LINEAR, START_LINEAR = range(6)
# How many data bytes a record of a type has; those of DATA are any number.
LENGTHS = {END: 0, SEGMENT: 2, LINEAR: 2, START_SEGMENT: 4, START_LINEAR: 4}


def load(name: str) -> bytes:
    """The program memory that the image in the file `name` gives. Raises BadInput with the simulator's cause."""
    return flash_of(files.read_named(name, MAX_BYTES), files.shown(name))


def flash_of(content: bytes, name: str) -> bytes:
    flash = bytearray([ERASED]) * FLASH_BYTES
    base, has_ended = 0, False
    for number, line in enumerate(content.split(b"\n"), 1):
        line = line.removesuffix(b"\r")
        if not line.strip(b" \t"):
            continue
        cause, record = ("AfterEnd", b"") if has_ended else parsed(line)
        if not cause:
            cause = out_of_flash(record, base)
        if cause:
            raise BadInput(f"{name}: image refused: {cause}, line {number}")
        kind, data = record[3], record[4:-1]
        if kind == DATA:
            first = base + int.from_bytes(record[1:3], "big")
            flash[first : first + len(data)] = data
        elif kind in (SEGMENT, LINEAR):
            base = int.from_bytes(data, "big") * (16 if kind == SEGMENT else 0x10000)
        has_ended = kind == END
    if not has_ended:
        raise BadInput(f"{name}: image refused: NoEnd")
    return bytes(flash)


def parsed(line: bytes) -> tuple[str, bytes]:
    """The cause for which a record is refused, else "", and its bytes."""
    match = RECORD.fullmatch(line)
    if not match:
        return "NotARecord", b""
    record = bytes.fromhex(match[1].decode())
    if sum(record) % 256:
        return "BadSum", record
    if record[3] > START_LINEAR:
        return "BadType", record
    if record[0] != len(record) - 5 or record[0] != LENGTHS.get(record[3], record[0]):
        return "BadLength", record
    return "", record


def out_of_flash(record: bytes, base: int) -> str:
    """The cause for which the place of a record's data is refused, else ""."""
    count, offset = record[0], int.from_bytes(record[1:3], "big")
    if record[3] != DATA or not count:
        return ""
    return "Crossing" if offset + count > 0x10000 else "PastFlash" if base + offset + count > FLASH_BYTES else ""
