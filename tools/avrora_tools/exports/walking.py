"""The call stack of each node, followed along the rows of a window."""
import collections
from dataclasses import dataclass, field

from avrora_tools import programs
from avrora_tools.events import Enter, Event, Instr
from avrora_tools.instructions import CALLS, SLEEP
from avrora_tools.profiles import Owner, TraceReader
from avrora_tools.scenarios import Scenario

RETURN, RETURN_FROM_INTERRUPT = "ret", "reti"

# What the sleep of a node is called among the functions.
ASLEEP = "(asleep)"

# The functions that have not returned, the outermost first.
Path = tuple[str, ...]


class Functions:
    """The functions of the nodes' programs by their names; a handler of an interrupt has that of its vector."""

    def __init__(self, all_programs: programs.Programs) -> None:
        self.programs = all_programs

    def name(self, node: int, word: int) -> str:
        """The function that a word of a node's program lies in; its digits where there is none."""
        program = self.programs.of(node)
        function = program.function_at(word) if program else None
        return str(function.name) if function else f"{word:04X}"

    def begins(self, node: int, word: int) -> bool:
        """Whether a function begins there. Compilers also call the next word, to make room on the stack."""
        program = self.programs.of(node)
        function = program.function_at(word) if program else None
        return function is None or function.first == word


@dataclass
class Cost:
    """What something took: how often it came, and cycles."""

    count: int = 0
    cycles: int = 0


@dataclass
class Calls:
    """The calls of a function at one place: how many, and what the function took with all that it called."""

    count: int = 0
    cycles: int = 0
    instructions: int = 0


@dataclass
class Active:
    """A function that has not returned."""

    path: Path
    site: int | None  # the word that called it; None of a root
    cycles: int = 0  # its own and those of what it called
    instructions: int = 0  # likewise

    @property
    def name(self) -> str:
        return self.path[-1]


@dataclass
class Stack:
    """The functions of a node that have not returned, and what the next row does to them."""

    frames: list[Active] = field(default_factory=list)
    call: int | None = None  # the word of a call whose callee has no row yet
    ended: str = ""  # the instruction that ends the innermost function, whose next row is the caller's
    entering: bool = False  # an interrupt was entered, and its handler has no row yet


# A call: the caller, the word that calls, the callee.
CallSite = tuple[str, int, str]


@dataclass
class NodeCosts:
    """What the functions of a node took."""

    words: dict[tuple[str, int], Cost] = field(default_factory=lambda: collections.defaultdict(Cost))  # function, word
    calls: dict[CallSite, Calls] = field(default_factory=lambda: collections.defaultdict(Calls))
    paths: collections.Counter[Path] = field(default_factory=collections.Counter)  # cycles by call stack
    asleep: int = 0


class StackReader(TraceReader):
    """Adds up the rows of a trace by call stack. An interrupt begins a stack of its own; what it interrupted is not
    charged for it. The stack in which the window begins is not known: it begins with the function that is executed
    then."""

    def __init__(self, window: tuple[int, int] | None, scenario: Scenario | None, functions: Functions) -> None:
        super().__init__(window, scenario)
        self.functions = functions
        self.costs: dict[int, NodeCosts] = collections.defaultdict(NodeCosts)
        self.stacks: dict[int, Stack] = collections.defaultdict(Stack)
        self.left: dict[int, list[Stack]] = collections.defaultdict(list)
        self.at: dict[
            int, tuple[Active, int]
        ] = {}  # by node the innermost function at its last row, and the row's word

    def read(self, cycle: int, node: int, event: Event) -> None:
        super().read(cycle, node, event)
        if isinstance(event, Instr):
            frame = self.step(node, event.address)
            self.at[node] = frame, event.address
            self.costs[node].words[frame.name, event.address].count += 1
            frame.instructions += 1
            stack, mnemonic = self.stacks[node], event.instruction.partition(" ")[0]
            if mnemonic in CALLS:
                stack.call = event.address
            elif mnemonic in (RETURN, RETURN_FROM_INTERRUPT):
                stack.ended = mnemonic
        elif isinstance(event, Enter):
            self.left[node].append(self.stacks[node])
            root = Active((programs.vector_name(event.vector),), None)
            self.stacks[node] = Stack([root], entering=True)
            self.at[node] = root, event.vector

    def step(self, node: int, word: int) -> Active:
        """The innermost function at the row of an instruction, which follows the node's last row."""
        stack, name = self.stacks[node], self.functions.name(node, word)
        if stack.ended:
            stack = self.behind_return(node, stack)
        call, stack.call = stack.call, None
        if stack.entering:
            stack.entering = word in programs.VECTORS  # the jump that stands at the vector
            if not stack.entering and name != stack.frames[-1].name:
                self.push(stack, name, self.at[node][1])
        elif call is not None and self.functions.begins(node, word):
            self.push(stack, name, call)
        elif not stack.frames:
            stack.frames.append(Active((name,), None))
        elif stack.frames[-1].name != name:
            self.go_over(node, stack, name)
        return stack.frames[-1]

    def behind_return(self, node: int, stack: Stack) -> Stack:
        """The stack behind a RET or RETI."""
        ended, stack.ended = stack.ended, ""
        if ended == RETURN_FROM_INTERRUPT and self.left[node]:
            while stack.frames:
                self.pop(node, stack)
            self.stacks[node] = self.left[node].pop()
            return self.stacks[node]
        if stack.frames:
            self.pop(node, stack)
        return stack

    def go_over(self, node: int, stack: Stack, name: str) -> None:
        """Another function without a call: back to one that has not returned (as longjmp goes), or a jump to it."""
        if any(frame.name == name for frame in stack.frames):
            while stack.frames[-1].name != name:
                self.pop(node, stack)
            return
        site = stack.frames[-1].site
        self.pop(node, stack)
        self.push(stack, name, site)

    def push(self, stack: Stack, name: str, site: int | None) -> None:
        above = stack.frames[-1].path if stack.frames else ()
        stack.frames.append(Active((*above, name), site if above else None))

    def pop(self, node: int, stack: Stack) -> None:
        frame = stack.frames.pop()
        if not stack.frames or frame.site is None:
            return
        caller = stack.frames[-1]
        caller.cycles += frame.cycles
        caller.instructions += frame.instructions
        calls = self.costs[node].calls[caller.name, frame.site, frame.name]
        calls.count += 1
        calls.cycles += frame.cycles
        calls.instructions += frame.instructions

    def charged(self, node: int, owner: Owner | None, cycles: int) -> None:
        if owner is None or owner.event is None or node not in self.at:
            return
        frame, word = self.at[node]
        costs = self.costs[node]
        own = cycles
        if isinstance(owner.event, Instr) and owner.event.instruction == SLEEP:
            own = 1
            costs.asleep += cycles - 1
        costs.words[frame.name, word].cycles += own
        costs.paths[frame.path] += own
        frame.cycles += own

    def finish(self, limit: int | None) -> None:
        """Also lets all functions return that did not, so that what they took is their callers' too."""
        super().finish(limit)
        for node, stack in self.stacks.items():
            for one in (stack, *self.left[node]):
                while one.frames:
                    self.pop(node, one)
