"""How a program leaves a range of its instructions, as those of a source line: so a step over a line that waits long
looks where it is left, and not at each instruction."""
import re

from avrora_tools.instructions import is_long, text_of

RELATIVE = re.compile(r"(?:.*, )?\.([+-]\d+)")
ABSOLUTE = re.compile(r"(?:jmp|call) 0x([0-9A-F]+)")
SKIPS = ("cpse", "sbrc", "sbrs", "sbic", "sbis")
JUMPS = ("rjmp", "jmp")
# Where these go stands in registers or on the stack.
ANYWHERE = ("ret", "reti", "ijmp", "icall", "eijmp", "eicall")


def ways_out(flash: bytes, first: int, end: int) -> set[int] | None:
    """The word addresses outside of a range of byte addresses to which an instruction in it can lead; None where that
    is not known before it is executed."""
    found: set[int] = set()
    at = first
    while at < end:
        word = word_at(flash, at)
        text = text_of(word, word_at(flash, at + 2))
        behind = at + (4 if is_long(word) else 2)
        mnemonic, _, operands = text.partition(" ")
        if mnemonic in ANYWHERE:
            return None
        if relative := RELATIVE.fullmatch(operands):
            found.add(at + 2 + int(relative[1]))
        elif absolute := ABSOLUTE.fullmatch(text):
            found.add(2 * int(absolute[1], 16))
        if mnemonic in SKIPS:
            found.add(behind + (4 if is_long(word_at(flash, behind)) else 2))
        if mnemonic not in JUMPS:
            found.add(behind)
        at = behind
    return {place // 2 for place in found if not first <= place < end}


def word_at(flash: bytes, at: int) -> int:
    return int.from_bytes(flash[at : at + 2], "little")
