"""What handlers and main-level code both use, by the listing of the image and the symbols of the ELF file.

Seen are LDS, STS, IN, OUT, SBI and CBI, and LD, ST through a pointer whose constants stand before it in the same
function. Pointers that are passed on and calls through pointers are not seen. So this orders runs and names things in
reports; which runs there are does not depend on it. """
import re
from collections import defaultdict
from collections.abc import Iterable, Sequence
from dataclasses import dataclass

from avrora_tools import elf_files
from avrora_tools.programs import HANDLERS, Program
from avrora_tools.showing import printable

SLEEP = "sleep"

FIRST_SRAM = 0x100
IO_TO_DATA = 0x20  # what IN and OUT call A is the data address A + 0x20

# Registers that all code uses: UDR0 has its own rules, SP and SREG are saved and restored.
IGNORED = {0x2C, 0x5D, 0x5E, 0x5F}

# The registers of the timers that their clocks change or look at, by data address: counters, compare and control
# registers, and the flags in TIFR and ETIFR.
TIMER_REGISTERS = {
    0: {0x51, 0x52, 0x53, 0x56},
    1: {*range(0x46, 0x50), 0x56, 0x78, 0x79, 0x7A, 0x7C},
    2: {0x43, 0x44, 0x45, 0x56},
    3: {0x7C, *range(0x80, 0x8D)},
}
# Registers of a 16-bit timer whose two bytes go through its one byte TEMP.
SIXTEEN_BITS = {1: {*range(0x46, 0x4E), 0x78, 0x79}, 3: {*range(0x80, 0x8A)}}

READS = frozenset("lds in ld ldd sbi cbi sbis sbic".split())
BOTH_WAYS = frozenset("sbi cbi sbis sbic".split())

# How far apart two uses by one function may be for what lies between them to be run first, in words: behind a read, and
# behind a write.
NEAR_READ, NEAR_WRITE = 48, 4


@dataclass(frozen=True, order=True)
class Use:
    """An instruction that uses a thing: its word address, the function, whether it reads, whether it writes."""

    address: int
    function: str
    reads: bool
    writes: bool = False


@dataclass(frozen=True)
class DataObject:
    """A variable of the program, by its symbol."""

    first: int
    size: int
    name: str


class Sharing:
    """The things that handlers and main both use, and where."""

    def __init__(self, program: Program, listing: Iterable[str], objects: Sequence[DataObject]) -> None:
        self.program, self.objects = program, objects
        self.uses: dict[str, list[Use]] = defaultdict(list)
        self.timer_uses: dict[int, set[int]] = defaultdict(set)  # by an instruction's address: whose registers it uses
        self.calls: dict[str, set[str]] = defaultdict(set)
        self.read_listing(listing)
        handlers = {f.name for f in program.functions if f.name in HANDLERS}
        self.of_handlers, self.of_main = self.reached(handlers), self.reached({"main"})
        self.things = [thing for thing, uses in self.uses.items() if thing != SLEEP and self.is_shared(uses)]
        self.between = self.addresses_between()
        self.watched = {use.address: thing for thing in [*self.things, SLEEP] for use in self.uses[thing]}
        self.written = {use.address: thing for thing in self.things for use in self.uses[thing] if use.writes}
        self.handed_over = {  # what handlers write, and main uses
            thing for thing in self.things if any(u.writes and u.function in self.of_handlers for u in self.uses[thing])
        }

    def name_at(self, address: int) -> str:
        function = self.program.function_at(address)
        return function.name if function else "?"

    def read_listing(self, listing: Iterable[str]) -> None:
        constants: dict[str, tuple[str, int, str]] = {}  # of a register: the instruction, its constant, the function
        for line in listing:
            address, name, *operands = int(line[:4], 16), *re.split("[ ,]+", line[5:].strip())
            function = self.name_at(address)
            if name in ("call", "rcall", "jmp", "rjmp"):
                self.calls[function].add(self.name_at(target(address, operands[0])))
            if name in ("ldi", "subi", "sbci"):
                constants[operands[0]] = (name, int(operands[1], 16), function)
            at = data_address(name, operands, constants, function)
            if at is not None:
                self.use(address, at, function, name)
            elif name == SLEEP:
                self.uses[SLEEP].append(Use(address, function, False))

    def use(self, address: int, at: int, function: str, name: str) -> None:
        for timer, registers in TIMER_REGISTERS.items():
            if at in registers:
                self.timer_uses[address].add(timer)
        if thing := self.thing(at):
            self.uses[thing].append(Use(address, function, name in READS, name not in READS or name in BOTH_WAYS))

    def thing(self, at: int) -> str | None:
        """What a data address belongs to."""
        if at >= FIRST_SRAM:
            return next((it.name for it in self.objects if it.first <= at < it.first + max(it.size, 1)), None)
        for timer, registers in SIXTEEN_BITS.items():
            if at in registers:
                return f"TEMP of timer {timer}"
        return None if at in IGNORED else register_name(at)

    def reached(self, names: set[str]) -> set[str]:
        """These functions and all that they call."""
        found = set(names)
        while more := {called for name in found for called in self.calls[name]} - found:
            found |= more
        return found

    def is_shared(self, uses: Sequence[Use]) -> bool:
        return any(u.function in self.of_handlers for u in uses) and any(u.function in self.of_main for u in uses)

    def addresses_between(self) -> dict[int, str]:
        """Return addresses between two near uses of a thing by one function of main, each with the thing."""
        found: dict[int, str] = {}
        for thing in self.things:
            uses = sorted(u for u in self.uses[thing] + self.uses[SLEEP] if u.function in self.of_main)
            for one, two in zip(uses, uses[1:]):
                near = NEAR_READ if one.reads else NEAR_WRITE
                if one.function == two.function and two.address - one.address <= near and one not in self.uses[SLEEP]:
                    for address in range(one.address + 1, two.address + 1):
                        found.setdefault(address, thing)
        return found

    def users(self, thing: str) -> list[str]:
        """The handlers that use a thing, or call what does, by the names of their interrupts."""
        handlers = sorted({f.name for f in self.program.functions if f.name in HANDLERS})
        using = {use.function for use in self.uses[thing]}
        return [name for name in handlers if self.reached({name}) & using]


def target(address: int, text: str) -> int:
    """The word address that a jump or call leads to."""
    return int(text, 16) if text.startswith("0x") else address + 1 + int(text[1:]) // 2


def data_address(
    name: str, operands: list[str], constants: dict[str, tuple[str, int, str]], function: str
) -> int | None:
    """The data address that an instruction uses, as far as its text and the constants before it tell."""
    if name in ("lds", "in"):
        return int(operands[1], 16) + (IO_TO_DATA if name == "in" else 0)
    if name in ("sts", "out") or name in BOTH_WAYS:
        return int(operands[0], 16) + (0 if name == "sts" else IO_TO_DATA)
    if name not in ("ld", "ldd", "st", "std"):
        return None
    pointer = re.fullmatch(r"-?([XYZ])(?:\+(\d*))?", operands[1 if name in ("ld", "ldd") else 0])
    if not pointer:
        return None
    low = {"X": 26, "Y": 28, "Z": 30}[pointer[1]]
    one, two = constants.get(f"r{low}"), constants.get(f"r{low + 1}")
    if not one or not two or one[2] != function or two[2] != function:
        return None
    value = two[1] << 8 | one[1]
    base = value if two[0] == "ldi" else -value & 0xFFFF
    return base + int(pointer[2] or 0)


REGISTER_NAMES = """20 PINF 21 PINE 29 UBRR0L 2A UCSR0B 2B UCSR0A 2D SPCR 2E SPSR 2F SPDR 30 PIND 33 PINC 36 PINB 39
PINA 43 OCR2 44 TCNT2 45 TCCR2 4E TCCR1B 4F TCCR1A 51 OCR0 52 TCNT0 53 TCCR0 56 TIFR 57 TIMSK 5B RAMPZ 7A TCCR1C 7C
ETIFR 7D ETIMSK 8A TCCR3B 8B TCCR3A 8C TCCR3C 90 UBRR0H 95 UCSR0C 22 DDRE 23 PORTE 31 DDRD 32 PORTD 34 DDRC 35 PORTC 37
DDRB 38 PORTB 3A DDRA 3B PORTA 55 MCUCR 61 DDRF 62 PORTF 64 DDRG 65 PORTG""".split()
REGISTERS = {int(at, 16): name for at, name in zip(REGISTER_NAMES[::2], REGISTER_NAMES[1::2])}


def register_name(at: int) -> str:
    return REGISTERS.get(at, f"register 0x{at:02X}")


def objects_of(path: str) -> list[DataObject]:
    """The variables in the symbols of an ELF file, by their data addresses."""
    with elf_files.opened(path) as elf:
        table = elf.get_section_by_name(".symtab")
        return [
            DataObject(symbol["st_value"] - DATA_SPACE, symbol["st_size"], printable(symbol.name))
            for symbol in (table.iter_symbols() if table else ())
            if symbol["st_info"]["type"] == "STT_OBJECT" and symbol["st_value"] > DATA_SPACE
        ]


DATA_SPACE = 0x800000  # where avr-gcc's ELF files put the data space
