"""When a node executes an instruction: the cycles in which it begins.

The program's `watch` tells them in one run. A program without it is asked by `monitor` whether and how often, in halves
of the span, and then for the rows of the windows in which it does."""
import os
import re
import tempfile
from collections.abc import Iterator, Sequence
from typing import Any

from avrora_tools import scenarios
from avrora_tools.errors import BadInput, CannotWork
from avrora_tools.programs import Program
from avrora_tools.scenarios import MAX_WINDOW
from avrora_tools.sweeping.simulation import Simulator, scenario_text

ADDRESS = re.compile(r"(?:0x)?([0-9A-Fa-f]{4})")
LINE = re.compile(r"(.+):([0-9]+)")

MOST_PLACES = 8_192  # of one watch
UNKNOWN = "bad command line"  # what a program says to a command that it has not

Execution = tuple[int, int]  # the cycle, and the word address of the instruction


def addresses_of(place: str, program: Program | None) -> list[int]:
    """The word addresses at which a place begins: of a function its first instruction, of FILE:LINE the first of each
    piece of code of that line, or an address as four digits. Raises BadInput where there is none."""
    if program is not None:
        if found := [function.first for function in program.functions if function.name == place]:
            return found
        if match := LINE.fullmatch(place):
            return addresses_of_line(match[1], int(match[2]), program)
    if match := ADDRESS.fullmatch(place):
        return [int(match[1], 16)]
    if program is None:
        raise BadInput(f"{place}: without an ELF file (-e) a place is a word address of four digits, such as 00BC")
    raise BadInput(
        f"{place}: {program.name} has no function of this name; a place is a function, FILE:LINE or a word address. "
        "A function that the compiler put into others has no name there: take FILE:LINE"
    )


def addresses_of_line(name: str, line: int, program: Program) -> list[int]:
    found, before = [], False
    lines: set[int] = set()
    for word, at in program.places:
        of_file = at is not None and (at.path == name or os.path.basename(at.path) == os.path.basename(name))
        here = of_file and at is not None and at.line == line
        if of_file and at is not None:
            lines.add(at.line)
        if here and not before:
            found.append(word)
        before = here
    if found:
        return found
    if not lines:
        raise BadInput(f"{name}:{line}: {program.name} has no code of a file {name}")
    near = sorted(lines, key=lambda other: (abs(other - line), other))[:3]
    raise BadInput(f"{name}:{line}: no instruction is of this line; there are of {', '.join(map(str, sorted(near)))}")


class Executions:
    """Asks the simulator about one scenario."""

    def __init__(self, simulator: Simulator, document: dict[str, Any]) -> None:
        self.simulator, self.document = simulator, document
        self.has_watch: bool | None = None

    def cycles(self, node: int, addresses: Sequence[int], first: int, end: int) -> Iterator[Execution]:
        """Each execution at one of these addresses, from the cycle `first` to before `end`, in order."""
        with tempfile.TemporaryDirectory(prefix="avrora-when-") as folder:
            if self.has_watch is not False:
                rows = self.watched(folder, node, addresses, first, end)
                self.has_watch = rows is not None
                if rows is not None:
                    yield from rows
                    return
            yield from self.by_windows(folder, node, set(addresses), first, end)

    def watched(
        self, folder: str, node: int, addresses: Sequence[int], first: int, end: int
    ) -> list[Execution] | None:
        """By `watch`; None where the program has none."""
        path, places = f"{folder}/scenario.toml", f"{folder}/places"
        self.write(path, (0, 0))
        with open(places, "w", encoding="ascii") as file:
            file.writelines(f"{node} at {address:04X}\n" for address in sorted(set(addresses))[:MOST_PLACES])
        try:
            output = self.simulator.call("watch", path, str(first), str(end), places)
        except (BadInput, CannotWork) as fault:
            if UNKNOWN in str(fault):
                return None
            raise
        found = re.findall(rb"^(\d+) %d at ([0-9A-F]{4})$" % node, output, re.MULTILINE)
        return [(int(cycle), int(address, 16)) for cycle, address in found if int(cycle) < end]

    def by_windows(self, folder: str, node: int, addresses: set[int], first: int, end: int) -> Iterator[Execution]:
        """By `monitor`, and the rows of windows."""
        path = f"{folder}/scenario.toml"
        self.write(path, (0, 0))
        if not self.count(path, node, addresses, first, end):
            return
        if end - first > MAX_WINDOW:
            middle = (first + end) // 2
            yield from self.by_windows(folder, node, addresses, first, middle)
            yield from self.by_windows(folder, node, addresses, middle, end)
            return
        self.write(path, (first, end))
        output = self.simulator.call("run", "--plain", path)
        for cycle, address in re.findall(rb"^(\d+) %d instr ([0-9A-F]{4}) " % node, output, re.MULTILINE):
            if int(address, 16) in addresses and first <= int(cycle) < end:
                yield int(cycle), int(address, 16)

    def count(self, path: str, node: int, addresses: set[int], first: int, end: int) -> int:
        """How often they are executed, by `monitor`."""
        output = self.simulator.call("monitor", path, str(first), str(end))
        found = re.findall(rb"^%d at ([0-9A-F]{4}) (\d+) " % node, output, re.MULTILINE)
        return sum(int(count) for address, count in found if int(address, 16) in addresses)

    def write(self, path: str, window: tuple[int, int]) -> None:
        document: dict[str, Any] = {**self.document, "window": list(window)}
        if window != (0, 0):
            document["cycles"] = window[1]
        text = scenario_text(document)
        scenarios.Scenario.of_text(text, "the scenario")
        with open(path, "w", encoding="utf-8") as file:
            file.write(text)
