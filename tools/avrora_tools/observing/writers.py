"""Who wrote: the instruction that changed a byte in a cycle, its source line, and who called it."""
from dataclasses import dataclass

from avrora_tools.debugging.history import History, Traced
from avrora_tools.inspection import View
from avrora_tools.programs import HANDLERS, Program, vector_name
from avrora_tools.states import Node


@dataclass(frozen=True)
class Writer:
    """What changed a value: the word address, or that an interrupt's entry or the hardware did it; and the place as
    text."""

    cycle: int
    word: int | None
    place: str
    handler: str | None  # the handler that it ran in, where it ran in one
    instruction: str = ""

    @property
    def text(self) -> str:
        inside = f" in {self.handler}" if self.handler and not self.place.startswith(self.handler) else ""
        return f"{self.place}{inside}"


class Writers:
    """Finds who wrote, of nodes whose programs are known or not."""

    def __init__(self, history: History) -> None:
        self.history = history
        self.views: dict[Program, View] = {}

    def writer(self, node: int, cycle: int, program: Program | None) -> Writer:
        """Who changed a byte of the node in this cycle."""
        row = self.row(node, cycle)
        if row is None:
            return Writer(cycle, None, "the hardware", None)
        handler = self.handler(node, cycle, program) if program else None
        if row.kind == "enter":
            return Writer(cycle, None, f"the entry of {vector_name(int(row.rest, 16))}", handler)
        place = program.place(row.address) if program else f"{row.address:04X}"
        return Writer(cycle, row.address, place, handler, row.rest)

    def row(self, node: int, cycle: int) -> Traced | None:
        """The row of the processor in a cycle."""
        found = self.history.last_row(node, cycle + 1)
        return found if found and found.cycle == cycle else None

    def handler(self, node: int, cycle: int, program: Program) -> str | None:
        """The handler of an interrupt that runs in a cycle: the innermost in the chain of calls."""
        state = self.history.state(cycle)
        return self.handler_in(state.nodes[node], program)

    def handler_in(self, node: Node, program: Program) -> str | None:
        view = self.views.get(program)
        if view is None:
            view = self.views[program] = View(program)
        for frame in view.unwinder.chain(node).frames:
            function = program.function_at(frame.word if frame.interrupted else max(frame.word - 1, 0))
            if function and function.name in HANDLERS:
                return function.name
        return None
