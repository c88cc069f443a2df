"""Places that are watched, as docs/FORMATS.md has them ("Places"): what a text says, or its first fault. It is written from that
document alone."""
import re

from states import IO_BITS, Fault

MOST_LINES, MOST_BYTES = 8_192, 131_072
NUMBER, ADDRESS = re.compile(rb"0|[1-9][0-9]*"), re.compile(rb"[0-9A-F]{4}")
BYTE, AT = "byte", "at"
CORE = (0x5D, 0x5E, 0x5F)
# In the order in which places stand.
KINDS = (BYTE, AT)
ADDRESSES = sorted([*range(0x20), *CORE, *IO_BITS, *range(0x100, 0x1100)])


def place_of(nodes, line, text):
    words = text.split(b" ")
    if len(words) != 3 or not NUMBER.fullmatch(words[0]):
        raise Fault("BadLine", line)
    if len(words[0]) > 9 or int(words[0]) >= nodes:
        raise Fault("NoNode", line)
    kind = words[1].decode("latin-1")
    if kind not in KINDS or not ADDRESS.fullmatch(words[2]):
        raise Fault("BadLine", line)
    address = int(words[2], 16)
    if kind == BYTE and address not in ADDRESSES:
        raise Fault("NoPlace", line)
    return int(words[0]), KINDS.index(kind), address


def read_places(nodes, text):
    """The places that a text says, each a node, a place in KINDS and an address. Raises Fault."""
    if len(text) > MOST_BYTES:
        raise Fault("TooLong")
    if not text:
        raise Fault("Empty")
    *lines, rest = text.split(b"\n")
    places = []
    for line, one in enumerate([*lines, rest] if rest else lines, 1):
        if line > len(lines):
            raise Fault("BadLine", line)
        if line > MOST_LINES:
            raise Fault("TooMany", line)
        place = place_of(nodes, line, one)
        if places and place <= places[-1]:
            raise Fault("Unordered", line)
        places.append(place)
    return places


def places_text(places):
    return "".join(f"{node} {KINDS[kind]} {address:04X}\n" for node, kind, address in places).encode()
