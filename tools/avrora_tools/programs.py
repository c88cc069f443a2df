"""Programs as ELF files: the functions and source lines of addresses, by pyelftools. Addresses are word addresses, as
in a trace."""
import argparse
import bisect
import functools
import os
import re
from collections.abc import Iterator, Mapping, Sequence
from typing import Any, NamedTuple

from avrora_tools import cli, elf_files, files, images, instructions, terminal
from avrora_tools.errors import BadInput
from avrora_tools.events import Event, Instr
from avrora_tools.scenarios import Scenario

# The interrupts of the ATmega128 in the order of their vectors, two words each from word 2 on (its manual,
# "Interrupts").
INTERRUPTS = """INT0 INT1 INT2 INT3 INT4 INT5 INT6 INT7 TIMER2_COMP TIMER2_OVF TIMER1_CAPT TIMER1_COMPA TIMER1_COMPB
TIMER1_OVF TIMER0_COMP TIMER0_OVF SPI_STC USART0_RX USART0_UDRE USART0_TX ADC EE_READY ANALOG_COMP TIMER1_COMPC
TIMER3_CAPT TIMER3_COMPA TIMER3_COMPB TIMER3_COMPC TIMER3_OVF USART1_RX USART1_UDRE USART1_TX TWI SPM_READY""".split()
VECTORS = {2 * number: name for number, name in enumerate(INTERRUPTS, 1)}

# Labels that the linker and the C library set at the ends of things, which are not functions.
NO_FUNCTION = re.compile(r"\..*|L0\x01.*|_etext|.*_(?:start|end)")

EXECUTABLE = 4  # the flag of a section with code


class Function(NamedTuple):
    """A function: its first word, the word behind it, its name."""

    first: int
    end: int
    name: str


class SourceLine(NamedTuple):
    """A line of a source file, by the path that the compiler wrote."""

    path: str
    line: int


def vector_name(word: int) -> str:
    """The interrupt whose vector is at `word`, as the C library names its handler."""
    return f"{VECTORS[word]}_vect" if word in VECTORS else f"vector {word:04X}"


HANDLER = re.compile(r"__vector_([0-9]+)")
HANDLERS = frozenset(f"{name}_vect" for name in INTERRUPTS)


def source_name(symbol: str) -> str:
    """The name of a function as its source has it: TIMER1_COMPA_vect for __vector_12."""
    match = HANDLER.fullmatch(symbol)
    return vector_name(2 * int(match[1])) if match and 2 * int(match[1]) in VECTORS else symbol


class Program:
    """A linked program for the AVR."""

    def __init__(self, path: str) -> None:
        """Reads the ELF file `path`. Raises BadInput where it is none, or none for the AVR."""
        self.path = path
        self.name = files.shown(path)
        with elf_files.opened(path) as elf:
            if elf["e_machine"] != "EM_AVR":
                raise BadInput(f"{self.name}: an ELF file for {elf['e_machine']}, and not for the AVR")
            self.flash = flash_of(elf)
            self.functions = functions_of(elf, code_end_of(elf) // 2)
            self.places = line_places(elf)
            self.lines = [(word, f"{os.path.basename(at.path)}:{at.line}" if at else None) for word, at in self.places]
            has_stabs = elf.get_section_by_name(".stab") is not None
        if has_stabs and not self.lines:
            terminal.warn(f"{self.name}: its source lines are in the form STABS; compile with -gdwarf-2 to see them")
        self.firsts = [function.first for function in self.functions]
        self.line_words = [word for word, _ in self.lines]

    def word_at(self, address: int) -> int:
        """A word of program memory."""
        return int.from_bytes(self.flash[2 * address : 2 * address + 2], "little")

    def instruction_at(self, address: int) -> str:
        """The text of the instruction at a word address."""
        return instructions.text_of(self.word_at(address), self.word_at((address + 1) % instructions.WORDS))

    def function_at(self, word: int) -> Function | None:
        """The function that `word` lies in, or None."""
        place = bisect.bisect_right(self.firsts, word) - 1
        return self.functions[place] if place >= 0 and word < self.functions[place].end else None

    def line_at(self, word: int) -> str | None:
        """The source line of `word`, as FILE:LINE, or None."""
        place = bisect.bisect_right(self.line_words, word) - 1
        return self.lines[place][1] if place >= 0 else None

    def source_line_at(self, word: int) -> SourceLine | None:
        """The source line of `word` with its path, or None."""
        place = bisect.bisect_right(self.line_words, word) - 1
        return self.places[place][1] if place >= 0 else None

    @functools.cached_property
    def declared(self) -> Mapping[int, SourceLine]:
        """Where functions stand in their sources, by their first words. Their first line of code may be another file's,
        as where an inlined function comes first."""
        with elf_files.opened(self.path) as elf:
            return declared_places(elf)

    def place(self, word: int) -> str:
        """The function, offset in bytes, and source line of `word`, as text."""
        function = self.function_at(word)
        offset = 2 * (word - function.first) if function else 0
        name = "?" if not function else f"{function.name}+0x{offset:X}" if offset else function.name
        line = self.line_at(word)
        return f"{name} {line}" if line else name

    def has_instruction(self, word: int) -> bool:
        """Whether an instruction of a function begins at a word."""
        function = self.function_at(word)
        return function is not None and word in self.instructions(function)

    def instructions(self, function: Function) -> Iterator[int]:
        """The word addresses of a function's instructions."""
        word = function.first
        while word < function.end:
            yield word
            word += 2 if instructions.is_long(self.word_at(word)) else 1


def flash_of(elf: Any) -> bytes:
    """Program memory as the file's segments fill it, the first values of variables too."""
    flash = bytearray([images.ERASED]) * images.FLASH_BYTES
    for segment in elf.iter_segments():
        first, content = segment["p_paddr"], segment.data() if segment["p_type"] == "PT_LOAD" else b""
        if first + len(content) <= images.FLASH_BYTES:
            flash[first : first + len(content)] = content
    return bytes(flash)


def code_end_of(elf: Any) -> int:
    """The byte behind the last section with code."""
    ends = [
        section["sh_addr"] + section["sh_size"]
        for section in elf.iter_sections()
        if section["sh_type"] == "SHT_PROGBITS" and section["sh_flags"] & EXECUTABLE
    ]
    return max((end for end in ends if end <= images.FLASH_BYTES), default=0)


def functions_of(elf: Any, end: int) -> list[Function]:
    """The functions in order; each ends where the next begins, the last one at `end`."""
    best: dict[int, tuple[bool, bool, bool, str]] = {}
    table = elf.get_section_by_name(".symtab")
    symbols = list(table.iter_symbols()) if table else []
    labels = labels_within(symbols)
    for number, symbol in enumerate(symbols):
        kind, section = symbol["st_info"]["type"], symbol["st_shndx"]
        if number in labels:
            continue
        if not isinstance(section, int) or kind not in ("STT_FUNC", "STT_NOTYPE") or NO_FUNCTION.fullmatch(symbol.name):
            continue
        if not elf.get_section(section)["sh_flags"] & EXECUTABLE:
            continue  # data
        rank = (
            kind == "STT_FUNC",
            symbol["st_info"]["bind"] == "STB_GLOBAL",
            not symbol.name.startswith("__"),
            symbol.name,
        )
        word = symbol["st_value"] // 2
        best[word] = max(best.get(word, rank), rank)
    words = sorted(word for word in best if word < end)
    return [
        Function(word, after, source_name(files.printable(best[word][-1])))
        for word, after in zip(words, words[1:] + [end])
    ]


def labels_within(symbols: Sequence[Any]) -> set[int]:
    """The numbers of symbols that only label code within a function, whose symbol tells its size: local ones that tell
    neither a kind nor a size. Assembly in C has such, and functions of the C library."""
    order = sorted(range(len(symbols)), key=lambda number: int(symbols[number]["st_value"]))
    found: set[int] = set()
    begun, reached, waiting = -1, 0, 0  # `reached`: how far functions reach that begin before `begun`
    for number in order:
        at, size, info = int(symbols[number]["st_value"]), int(symbols[number]["st_size"]), symbols[number]["st_info"]
        if at > begun:
            begun, reached = at, max(reached, waiting)
        if size and info["type"] in ("STT_FUNC", "STT_NOTYPE"):
            waiting = max(waiting, at + size)
        elif at < reached and info["type"] == "STT_NOTYPE" and info["bind"] == "STB_LOCAL":
            found.add(number)
    return found


def line_places(elf: Any) -> list[tuple[int, SourceLine | None]]:
    """The words at which a source line's code begins, in order, each with the line; None where no line's code is."""
    if not elf.has_dwarf_info():
        return []
    found: dict[int, SourceLine | None] = {}
    for _, program, paths, base in line_programs(elf.get_dwarf_info()):
        for entry in program.get_entries():
            state = entry.state
            if state is None:
                continue
            if not state.end_sequence:
                found[state.address // 2] = SourceLine(paths[state.file - base], state.line)
            else:
                found.setdefault(state.address // 2, None)
    return sorted(found.items())


def declared_places(elf: Any) -> dict[int, SourceLine]:
    """The first words of functions, each with the line that declares it."""
    found: dict[int, SourceLine] = {}
    if not elf.has_dwarf_info():
        return found
    dwarf = elf.get_dwarf_info()
    elf_files.entry_places(dwarf)
    for unit, _, paths, base in line_programs(dwarf):
        for entry in unit.iter_DIEs():
            first = entry.attributes.get("DW_AT_low_pc")
            if entry.tag != "DW_TAG_subprogram" or first is None:
                continue
            origin = entry.attributes.get("DW_AT_abstract_origin") or entry.attributes.get("DW_AT_specification")
            said = entry.get_DIE_from_attribute(origin.name).attributes if origin else entry.attributes
            if "DW_AT_decl_file" in said and "DW_AT_decl_line" in said:
                number = said["DW_AT_decl_file"].value - base
                if 0 <= number < len(paths):  # DWARF 2 to 4 have 0 for no file
                    found[first.value // 2] = SourceLine(paths[number], said["DW_AT_decl_line"].value)
    return found


def line_programs(dwarf: Any) -> Iterator[tuple[Any, Any, list[str], int]]:
    """Each compilation unit that has lines, with its line program, the paths of its files, and the number of the
    first."""
    for unit in dwarf.iter_CUs():
        program = dwarf.line_program_for_CU(unit)
        if program is not None:
            yield unit, program, source_paths(unit, program), 0 if program["version"] >= 5 else 1


def source_paths(unit: Any, program: Any) -> list[str]:
    """The paths of a compilation unit's source files, in the order of its line program."""
    attribute = unit.get_top_DIE().attributes.get("DW_AT_comp_dir")
    folder = attribute.value.decode("utf-8", "replace") if attribute else ""
    folders = [folder, *(part.decode("utf-8", "replace") for part in program["include_directory"])]
    if program["version"] >= 5:
        folders = folders[1:]  # whose first entry is the folder of the compilation
    paths = (
        os.path.normpath(os.path.join(folder, folders[one.dir_index], one.name.decode("utf-8", "replace")))
        for one in program["file_entry"]
    )
    return list(map(files.printable, paths))


class Programs:
    """The programs of a network's nodes."""

    def __init__(self, words: Sequence[str], scenario: Scenario | None = None, force: bool = False) -> None:
        """`words` are ELF or NODES=ELF. With a scenario an ELF without nodes is that of the nodes whose image has its
        name; else it is that of all nodes that no other word names. Raises BadInput where a program is another one than
        a node's image, unless they are taken by `force`."""
        self.by_node: dict[int, Program] = {}
        self.others: Program | None = None
        self.all: list[Program] = []
        self.force = force
        self.compared: set[tuple[int, Event]] = set()
        for word in words:
            self.add(word, scenario)
        if scenario and not force:
            self.compare_images(scenario)

    def add(self, word: str, scenario: Scenario | None) -> None:
        match = re.fullmatch(r"([\d,-]+)=(.+)", word)
        try:
            nodes = cli.node_set(match[1]) if match else None
        except argparse.ArgumentTypeError as fault:
            raise BadInput(str(fault)) from None
        program = Program(match[2] if match else word)
        self.all.append(program)
        if nodes is None and scenario:
            nodes = {node for node, image in enumerate(scenario.images) if stem(image) == stem(program.path)}
            if not nodes:
                raise BadInput(
                    f"{program.name}: no node has the image {stem(program.name)}.hex; say which: -e "
                    f"NODES={program.name}"
                )
        if nodes is None:
            self.others = program
        else:
            self.by_node.update(dict.fromkeys(nodes, program))

    def add_by_content(self, path: str, scenario: Scenario, name: str) -> None:
        """Adds the program in the file `path`, which messages call `name`, as that of the nodes whose image has its
        memory, whatever the image is called. Raises BadInput where there is none."""
        program = Program(path)
        flashes = {image: images.load(os.path.join(scenario.folder, image)) for image in dict.fromkeys(scenario.images)}
        nodes = [node for node, image in enumerate(scenario.images) if flashes[image] == program.flash]
        if not nodes:
            raise BadInput(f"{files.shown(name)}: no node has an image of this program")
        self.all.append(program)
        self.by_node.update(dict.fromkeys(nodes, program))

    def of(self, node: int) -> Program | None:
        """The program of a node, or None."""
        return self.by_node.get(node, self.others)

    def compare_images(self, scenario: Scenario) -> None:
        """Raises BadInput where a program's memory is another one than that of the image of its node."""
        flashes: dict[str, bytes] = {}
        for node, image in enumerate(scenario.images):
            program = self.of(node)
            if program is None:
                continue
            if image not in flashes:
                flashes[image] = images.load(os.path.join(scenario.folder, image))
            if program.flash != flashes[image]:
                word = first_difference(program.flash, flashes[image]) // 2
                raise BadInput(
                    f"{program.name}: not the program of the image {files.shown(image)} of node {node}: they differ "
                    f"from word {word:04X} on (--force takes it all the same)"
                )

    def compare(self, node: int, event: Event) -> None:
        """Raises BadInput where a node executed what its program does not have."""
        if not isinstance(event, Instr) or self.force or (node, event) in self.compared:
            return
        program = self.of(node)
        if program is None:
            return
        if len(self.compared) > MOST_COMPARED:
            self.compared.clear()
        self.compared.add((node, event))
        text = program.instruction_at(event.address)
        if text != event.instruction:
            raise BadInput(
                f"{program.name}: not the program of the trace: node {node} executed `{event.instruction}` at "
                f"{event.address:04X}, where the program has `{text}` (--force takes it all the same)"
            )


MOST_COMPARED = 65_536  # instructions that are known to be the program's


def first_difference(one: bytes, other: bytes) -> int:
    return next((at for at, (a, b) in enumerate(zip(one, other)) if a != b), min(len(one), len(other)))


def stem(path: str) -> str:
    return os.path.splitext(os.path.basename(path))[0]


def add_programs(parser: argparse.ArgumentParser) -> None:
    add_elf(parser)
    cli.add_scenario(parser)


def add_elf(parser: argparse.ArgumentParser) -> None:
    parser.add_argument(
        "-e",
        "--elf",
        action="append",
        default=[],
        metavar="[NODES=]ELF",
        help="the ELF file of all nodes, or of NODES such as 0,2-4; with -s, of the nodes whose image has its name",
    )
    parser.add_argument(
        "--force", action="store_true", help="take an ELF file that does not fit the image or the trace"
    )
