"""The stack of a node: who called whom, as far as it can be told, and how low the stack ever reached."""
from collections.abc import Iterator, Sequence
from dataclasses import dataclass
from typing import Any

from avrora_tools import elf_files
from avrora_tools.programs import HANDLERS, Program
from avrora_tools.states import DATA_END, SRAM_FIRST, Node
from avrora_tools.variables import DATA_SPACE

MOST_FRAMES = (DATA_END - SRAM_FIRST) // 2  # more there is no room for

# DWARF's numbers of registers on the AVR: r28 of the frame pointer Y, the stack pointer, the return address.
Y_LOW, Y_HIGH, STACK_POINTER, RETURN_ADDRESS = 28, 29, 32, 36

# Opcodes, with the mask of their fixed bits.
CALL, CALL_MASK = 0x940E, 0xFE0E
RCALL, RCALL_MASK = 0xD000, 0xF000
ICALL = 0x9509
RET, RETI = 0x9508, 0x9518
POP, POP_MASK = 0x900F, 0xFE0F
OUT_SREG, OUT_RAMPZ, OUT_MASK = 0xBE0F, 0xBE0B, 0xFE0F
IN_R0_SREG, IN_R0_RAMPZ, LDS_R0, STS_R0, PUSH_R0 = 0xB60F, 0xB60B, 0x9000, 0x9200, 0x920F
SREG_AND_RAMPZ = (0x5F, 0x5B)  # their data addresses


@dataclass(frozen=True)
class FrameRule:
    """Of the code from a word on: where the frame of its function lies, and where in it what was saved."""

    first: int  # the word
    register: int  # from which the frame is counted: SP or Y
    offset: int
    saved: dict[int, int]  # by register: how far from the frame


@dataclass(frozen=True)
class Frame:
    """A function that has not returned yet: where it is, and whether an interrupt left it there."""

    word: int
    interrupted: bool


@dataclass(frozen=True)
class Chain:
    """The functions that have not returned, the inner one first, and why there are no more."""

    frames: list[Frame]
    end: str


class Unwinder:
    """Follows the stack by the frame rules of a program's DWARF."""

    def __init__(self, program: Program, path: str) -> None:
        self.program = program
        self.rules = frame_rules(path)

    def chain(self, node: Node) -> Chain:
        """The call chain of a node, from its program counter and stack pointer."""
        frames = [Frame(node["PC"], False)]
        stack, y = node["SP"], node["r28"] | node["r29"] << 8
        while len(frames) < MOST_FRAMES:
            at = frames[-1]
            # What called is looked up by its call, as the next word may be that of another function, where the call
            # does not return; what was interrupted, and the first one, by the next instruction.
            is_caller = not at.interrupted and len(frames) > 1
            word = at.word - 1 if is_caller else at.word
            function = self.program.function_at(word)
            if function is None:
                return Chain(frames, "no function is there")
            if function.name == "main":
                return Chain(frames, "")
            found = self.frame(word, stack, y, is_caller)
            if found is None:
                return Chain(frames, "nothing says how its frame is laid out")
            frame, saved = found
            if not SRAM_FIRST <= frame < DATA_END or frame <= stack:
                return Chain(frames, f"its frame would end at {frame & 0xFFFF:04X}, where no stack is")
            back = node.data[frame - 1] << 8 | node.data[frame]
            is_handler = function.name in HANDLERS
            if not is_handler and not self.returns_to(back, function.first):
                return Chain(frames, f"{back:04X}, where it should return to, stands behind no call of it")
            y = byte_at(node, saved.get(Y_LOW), y & 0xFF) | byte_at(node, saved.get(Y_HIGH), y >> 8) << 8
            stack = frame
            frames.append(Frame(back, is_handler))
        return Chain(frames, "more functions than are followed")

    def frame(self, word: int, stack: int, y: int, is_call: bool) -> tuple[int, dict[int, int]] | None:
        """The address of the low byte of a frame's return address, and by register where it was saved. In front of a
        return the frame is told by the pops that are left, else by the rules."""
        pops = None if is_call else self.pops_before_return(word)
        if pops is not None:
            return stack + pops + 2, {}
        rule = self.rule_at(word)
        if rule is None or rule.register not in (STACK_POINTER, Y_LOW):
            return None
        told = (stack if rule.register == STACK_POINTER else y) + rule.offset
        # The rules do not count what a handler pushes first of SREG and RAMPZ: all that they tell lies so much lower.
        return told + self.pushes_not_told(word), {register: told + at for register, at in rule.saved.items()}

    def pushes_not_told(self, word: int) -> int:
        """How many bytes of SREG and RAMPZ a handler has pushed before a word."""
        function = self.program.function_at(word)
        if function is None:
            return 0
        codes = [self.opcode(at) for at in range(function.first, word)]
        by_in = sum(a in (IN_R0_SREG, IN_R0_RAMPZ) and b == PUSH_R0 for a, b in zip(codes, codes[1:]))
        by_lds = sum(
            a == LDS_R0 and at in SREG_AND_RAMPZ and b == PUSH_R0 for a, at, b in zip(codes, codes[1:], codes[2:])
        )
        return by_in + by_lds

    def rule_at(self, word: int) -> FrameRule | None:
        function = self.program.function_at(word)
        rules = [rule for rule in self.rules if function and function.first <= rule.first <= word]
        return rules[-1] if rules else None

    def pops_before_return(self, word: int) -> int | None:
        """How many pops stand between a word and the return, where nothing else does."""
        count = 0
        while True:
            opcode = self.opcode(word)
            if opcode in (RET, RETI):
                return count
            if opcode & POP_MASK == POP:
                count += 1
            elif opcode == STS_R0 and self.opcode(word + 1) in SREG_AND_RAMPZ:
                word += 1
            elif opcode & OUT_MASK not in (OUT_SREG, OUT_RAMPZ):
                return None
            word += 1

    def returns_to(self, back: int, function: int) -> bool:
        """Whether a call of the function, or one through a pointer, stands before a word."""
        near, far = self.opcode(back - 1), self.opcode(back - 2)
        if near == ICALL:
            return True
        if near & RCALL_MASK == RCALL:
            offset = near & 0xFFF
            return (back + offset - (0x1000 if offset >= 0x800 else 0)) & 0xFFFF == function
        return far & CALL_MASK == CALL and near == function

    def opcode(self, word: int) -> int:
        return self.program.word_at(word & 0xFFFF)


def byte_at(node: Node, address: int | None, else_: int) -> int:
    """A byte that was saved at an address, or what it is still where it was not."""
    if address is None or not 0 <= address < DATA_END:
        return else_
    return int(node.data[address])


def frame_rules(path: str) -> list[FrameRule]:
    """The frame rules of an ELF file, by their words; none where it has none."""
    with elf_files.opened(path) as elf:
        dwarf = elf.get_dwarf_info() if elf.has_dwarf_info() else None
        entries = dwarf.CFI_entries() if dwarf and dwarf.has_CFI() else []
        found = [rule for entry in entries if hasattr(entry, "cie") for rule in rules_of(entry)]
    return sorted(found, key=lambda rule: rule.first)


def rules_of(entry: Any) -> Iterator[FrameRule]:
    for row in entry.get_decoded().table:
        cfa = row["cfa"]
        if cfa.reg is None:
            continue
        saved = {
            register: row[register].arg
            for register in (Y_LOW, Y_HIGH)
            if register in row and row[register].type == "OFFSET"
        }
        yield FrameRule(row["pc"] // 2, cfa.reg, cfa.offset, saved)


def data_end(path: str) -> int | None:
    """The address behind the variables of a program, where its stack must not reach."""
    with elf_files.opened(path) as elf:
        table = elf.get_section_by_name(".symtab")
        ends = [symbol["st_value"] for symbol in (table.iter_symbols() if table else ()) if symbol.name == "_end"]
    return ends[0] - DATA_SPACE if ends and SRAM_FIRST <= ends[0] - DATA_SPACE <= DATA_END else None


def lowest_used(data: Sequence[int], end_of_variables: int) -> int | None:
    """The lowest address above the variables whose byte is not 0. All memory is 0 at reset, so the stack, or a heap,
    has reached it; zeros that were pushed below it do not show."""
    return next((at for at in range(end_of_variables, DATA_END) if data[at]), None)
