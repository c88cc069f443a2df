"""Whether a program's stack may lie over the registers, where pushes change what the rows of a trace do not show."""
import re
from collections.abc import Iterable

from avrora_tools.states import SRAM_FIRST, Node

# The two bytes of the stack pointer, as OUT and STS name them.
LOW, HIGH = {"0x3D", "0x005D"}, {"0x3E", "0x005E"}

WRITE = re.compile(r"(?:out|sts) (0x[0-9A-F]+), (r\d+)")
CONSTANT = re.compile(r"ldi (r\d+), 0x([0-9A-F]{2})")
CLEARED = re.compile(r"(?:eor|sub) (r\d+), \1")
NAMES_FIRST = re.compile(r"\S+ (r\d+)")


def stack_doubt(node: Node | None, listing: Iterable[str]) -> str | None:
    """What tells that the stack may lie over the registers: the state from which a node goes on, or the constants that its
    program writes to the stack pointer. None where nothing does."""
    if node is not None and 0 < node["SP"] < SRAM_FIRST:
        return f"the stack pointer is {node['SP']:04X}, so the stack lies over registers"
    constants: dict[str, int] = {}  # of registers, as the code above in the listing leaves them
    first_low: str | None = None
    has_high = False
    for line in listing:
        address, text = line[:4], line[5:].strip()
        if match := CONSTANT.fullmatch(text):
            constants[match[1]] = int(match[2], 16)
        elif match := CLEARED.fullmatch(text):
            constants[match[1]] = 0
        elif match := WRITE.fullmatch(text):
            value = constants.get(match[2])
            if match[1] in HIGH and value == 0:
                return f"the stack pointer's high byte becomes 0 at {address}, so the stack may lie over registers"
            has_high = has_high or match[1] in HIGH
            first_low = first_low or (address if match[1] in LOW else None)
        elif match := NAMES_FIRST.match(text):
            constants.pop(match[1], None)
    if first_low and not has_high:
        return f"the stack pointer's low byte alone is written, at {first_low}, so the stack may lie over registers"
    return None
