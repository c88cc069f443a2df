"""What a program's ELF file tells of a node's memory: its variables, its call chain, and the room that its stack has
left."""
import fnmatch
import itertools
from collections.abc import Iterable, Iterator, Sequence

from avrora_tools.programs import Program
from avrora_tools.stacks import Frame, Unwinder, data_end, lowest_used
from avrora_tools.states import DATA_END, SRAM_FIRST, Node
from avrora_tools.variables import Variable, place_in, variables_of


MOST_CALLERS, LAST_CALLERS = 40, 10  # lines of callers that are shown: the inner ones, and the outer ones


def folded(lines: Iterable[tuple[str, str]]) -> Iterator[tuple[str, str]]:
    """Equal lines one behind another as one."""
    for (name, text), group in itertools.groupby(lines):
        count = sum(1 for _ in group)
        yield name, f"{text}, {count:,} times" if count > 1 else text


class View:
    """One program, and what is read of it once for all nodes that have it."""

    def __init__(self, program: Program) -> None:
        self.program, self.path = program, program.path
        self.unwinder = Unwinder(program, self.path)
        self.end_of_variables = data_end(self.path)
        self.known: list[Variable] | None = None

    def variables(self) -> list[Variable]:
        if self.known is None:
            self.known = variables_of(self.path)
        return self.known

    def rows(self, node: Node) -> Iterator[tuple[str, str]]:
        """The call chain and the room of the stack, as a name and a text each."""
        chain = self.unwinder.chain(node)
        lines = list(folded(self.caller(frame) for frame in chain.frames[1:]))
        yield from lines[:MOST_CALLERS]
        if len(lines) > MOST_CALLERS + LAST_CALLERS:
            yield "", f"and {len(lines) - MOST_CALLERS - LAST_CALLERS:,} more lines"
        yield from lines[max(MOST_CALLERS, len(lines) - LAST_CALLERS) :]
        if chain.end:
            yield "", f"and no further: {chain.end}"
        if self.end_of_variables is not None:
            if overflow := self.overflow(node["SP"], self.end_of_variables):
                yield "stack", overflow
            yield "stack low", self.lowest(node, self.end_of_variables)

    def caller(self, frame: Frame) -> tuple[str, str]:
        """A function that has not returned; what called is shown where it calls."""
        at = frame.word if frame.interrupted else frame.word - 1
        return "interrupts" if frame.interrupted else "called by", f"{frame.word:04X} {self.program.place(at)}"

    def overflow(self, stack: int, end: int) -> str | None:
        """What a stack lies in that has grown into the variables, or below them. At reset it is nowhere yet."""
        if stack == 0 or stack + 1 >= end:
            return None
        if stack < SRAM_FIRST:
            below = f"{end - stack - 1:,} bytes below the end of the variables"
            return f"OVERFLOW: SP {stack:04X} lies in the registers, {below}"
        name = next((one.name for one in self.variables() if one.address <= stack + 1 < one.end), None)
        where = f"`{name}`" if name else "the variables"
        return f"OVERFLOW: SP lies in {where}, {end - stack - 1:,} bytes below the end of the variables, {end:04X}"

    def lowest(self, node: Node, end: int) -> str:
        low = lowest_used(node.data, end)
        if low is None:
            room = f"{DATA_END - end:,} bytes left"
            return f"nothing above the variables, which end at {end:04X}, was ever written but 0: {room}"
        if low == end:
            return f"reached {low:04X}, where the variables end: nothing is left above them"
        return f"reached {low:04X} at least; {low - end:,} bytes left above the variables, which end at {end:04X}"

    def has(self, pattern: str) -> bool:
        """Whether a variable has such a name."""
        return any(fnmatch.fnmatchcase(one.name, pattern) for one in self.variables())

    def global_lines(self, node: Node, patterns: Sequence[str]) -> Iterator[str]:
        """The variables whose names match, a line each."""
        memory = NodeMemory(self, node)
        for one in self.variables() if patterns else ():
            if any(fnmatch.fnmatchcase(one.name, pattern) for pattern in patterns):
                value = one.type.shown(memory.read(one.address, one.type.size), memory)
                yield f"  {one.address:04X} {one.type.name} {one.name} = {value}"


class Targets:
    """What stands where, by the names of a program, or of none: what a pointer points to."""

    def __init__(self, view: View | None) -> None:
        self.view = view

    def read(self, address: int, size: int) -> bytes:
        """Nothing is known of the bytes."""
        return bytes(size)

    def object_at(self, address: int) -> str | None:
        for one in self.view.variables() if self.view else ():
            if one.address <= address < one.end:
                return one.name + place_in(one.type, address - one.address)
        return None

    def function_at(self, word: int) -> str | None:
        function = self.view.program.function_at(word) if self.view else None
        if function is None or function.first != word:
            return None
        return function.name


class NodeMemory(Targets):
    """The data space of a node, with the names of its program."""

    def __init__(self, view: View, node: Node) -> None:
        super().__init__(view)
        self.node = node

    def read(self, address: int, size: int) -> bytes:
        return bytes(self.node.data[address : address + size])
