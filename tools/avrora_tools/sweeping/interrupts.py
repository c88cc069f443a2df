"""What the rows of one node tell of its interrupt flag I: whether it is certainly clear.

A trace shows no registers. That I is clear follows from CLI and entries, and from copies of SREG that a program keeps
in a register or on the stack and writes back. A store through a pointer may write SREG, a register or what lies on the
stack, so behind it nothing of these is certain; a store to an address of the SRAM may be one to the stack. Whatever is
not certain counts as set. """
import re

from avrora_tools.traces import Row

SREG_IO, SREG_DATA = "0x3F", "0x005F"
STACK_POINTER = {"0x3D", "0x3E", "0x005D", "0x005E"}

PAIRS = {"X": ("r26", "r27"), "Y": ("r28", "r29"), "Z": ("r30", "r31")}

# Instructions that change no general register (except a pointer that is counted up or down).
KEEPS_REGISTERS = frozenset(
    """st std sts out sbi cbi cp cpi cpc cpse sbrs sbrc sbis sbic brbs brbc rjmp jmp ijmp nop sleep wdr bset bclr bst
    push call rcall icall ret reti""".split()
)
TO_R0_R1 = frozenset("mul muls mulsu fmul fmuls fmulsu".split())
TO_PAIR = frozenset("movw adiw sbiw".split())
CALLS = frozenset("call rcall icall".split())
STORES = frozenset(("st", "std"))

REGISTERS_END = 0x20  # data addresses below are the general registers
SRAM_BEGINS = 0x100  # and wherever from here on the stack may lie, as where tasks have stacks of their own

COUNTED_POINTER = re.compile(r"(?:-([XYZ])|([XYZ])\+)(?:$|,)")


class Contradiction(Exception):
    """A row shows an interrupt where none could be entered: what was concluded of the flag is wrong."""

    def __init__(self, row: Row) -> None:
        super().__init__()
        self.row = row


class InterruptFlag:
    """The flag I of a node, row by row."""

    def __init__(self, is_clear: bool) -> None:
        self.is_clear = is_clear  # certainly
        self.owed = False  # an instruction comes before the next entry, if I is set at all
        self.copies: set[str] = set()  # general registers that certainly hold SREG with I clear
        self.stack: list[bool] = []  # of the bytes pushed last: whether each certainly is such a copy

    def may_enter(self) -> bool:
        """Whether an interrupt that is due may be entered as the next row begins."""
        return not self.is_clear and not self.owed

    def enter(self) -> None:
        """An interrupt is entered."""
        self.stack += [False, False]
        self.is_clear, self.owed = True, False

    def execute(self, text: str) -> None:
        """An instruction is executed. One that turns I on owes another, and so do SEI and RETI."""
        name, _, rest = text.partition(" ")
        operands = rest.split(", ") if rest else []
        before, self.owed = self.is_clear, False
        if text == "bset 7" or name == "reti":
            self.is_clear, self.owed = False, True
        elif text == "bclr 7":
            self.is_clear = True
        elif name in ("out", "sts") and operands[0] in (SREG_IO, SREG_DATA):
            self.is_clear, self.owed = operands[1] in self.copies, before
        elif name in STORES:
            self.is_clear, self.owed = False, before
            self.copies.clear()
            self.forget_stack()
        elif name == "sts" and int(operands[0], 16) >= SRAM_BEGINS:
            self.forget_stack()
        self.move_stack(name, operands)
        self.change_registers(name, operands, before)

    def forget_stack(self) -> None:
        """No byte that was pushed is certain to be what it was."""
        self.stack = [False] * len(self.stack)

    def move_stack(self, name: str, operands: list[str]) -> None:
        if name == "push":
            self.stack.append(operands[0] in self.copies)
        elif name in CALLS:
            self.stack += [False, False]
        elif name in ("ret", "reti"):
            del self.stack[-2:]
        elif name in ("out", "sts") and operands[0] in STACK_POINTER:
            self.stack.clear()

    def change_registers(self, name: str, operands: list[str], is_clear: bool) -> None:
        is_copy = False
        if name == "in" and operands[1] == SREG_IO or name == "lds" and operands[1] == SREG_DATA:
            is_copy = is_clear
        elif name == "pop":
            is_copy = self.stack.pop() if self.stack else False
        elif name == "mov":
            is_copy = operands[1] in self.copies
        self.copies -= changed_registers(name, operands)
        if is_copy:
            self.copies.add(operands[0])


def changed_registers(name: str, operands: list[str]) -> set[str]:
    """The general registers that an instruction may change."""
    found: set[str] = set()
    for operand in operands:
        if match := COUNTED_POINTER.match(operand):
            found.update(PAIRS[match[1] or match[2]])
    if name in TO_R0_R1:
        found.update(("r0", "r1"))
    elif name in TO_PAIR:
        found.update((operands[0], f"r{int(operands[0][1:]) + 1}"))
    elif name in ("lpm", "elpm") and not operands:
        found.add("r0")
    elif name == "sts" and int(operands[0], 16) < REGISTERS_END:
        found.add(f"r{int(operands[0], 16)}")
    elif name not in KEEPS_REGISTERS:
        found.update(operands[:1])
    return found
