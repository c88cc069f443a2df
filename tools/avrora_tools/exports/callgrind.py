"""Costs by function, line, instruction and caller in callgrind's format, for KCachegrind and callgrind_annotate."""
import collections
import re
from collections.abc import Iterator, Mapping

from avrora_tools import programs
from avrora_tools.exports.walking import Calls, CallSite, Cost, NodeCosts

# What stands for a file that is not known, and its line.
NO_FILE, NO_LINE = "???", 0


def plain(name: str) -> str:
    """A name as it is meant: one that begins with a number in brackets would stand for another name."""
    return re.sub(r"^\((?=[0-9]+\))", r"\\x28", name)


class Place:
    """Where a word of a node's program stands in the sources."""

    def __init__(self, program: programs.Program | None) -> None:
        self.program = program

    def file(self, word: int) -> str:
        found = self.program.source_line_at(word) if self.program else None
        return plain(found.path) if found else NO_FILE

    def line(self, word: int) -> int:
        found = self.program.source_line_at(word) if self.program else None
        return found.line if found else NO_LINE

    def object(self, node: int) -> str:
        return f"node {node}: {self.program.name if self.program else NO_FILE}"


def written(costs: Mapping[int, NodeCosts], all_programs: programs.Programs, title: str, version: str) -> Iterator[str]:
    """The lines of a profile, whose costs are busy cycles and instructions. A node is an object (`ob`), so that the
    functions of one stand together and those of two apart. Addresses are byte addresses, as in `avr-objdump`."""
    words = [cost for one in costs.values() for cost in one.words.values()]
    total = f"{sum(cost.cycles for cost in words)} {sum(cost.count for cost in words)}"
    yield "# callgrind format"
    yield "version: 1"
    yield f"creator: avrora-tools {version}"
    yield f"cmd: {title}"
    yield "part: 1"
    yield "positions: instr line"
    yield "events: Cycles Instructions"
    yield f"summary: {total}"
    for node, one in sorted(costs.items()):
        place = Place(all_programs.of(node))
        yield ""
        yield f"ob={place.object(node)}"
        yield from functions(node, one, place)
    yield ""
    yield f"totals: {total}"


def functions(node: int, costs: NodeCosts, place: Place) -> Iterator[str]:
    """The lines of all functions of a node."""
    words: dict[str, dict[int, Cost]] = collections.defaultdict(dict)
    for (name, word), cost in costs.words.items():
        words[name][word] = cost
    sites: dict[str, dict[CallSite, Calls]] = collections.defaultdict(dict)
    for call, calls in costs.calls.items():
        sites[call[0]][call] = calls
    entries = {name: min(own) for name, own in words.items()}
    for name in sorted(words):
        yield ""
        file = place.file(entries[name])
        yield f"fl={file}"
        yield f"fn={plain(name)}"
        for word, cost in sorted(words[name].items()):
            yield from at_file(file, place.file(word), f"0x{2 * word:x} {place.line(word)} {cost.cycles} {cost.count}")
        for (_, site, callee), calls in sorted(sites[name].items(), key=lambda item: item[0][1:]):
            entry = entries[callee]
            if place.file(site) != file:
                yield f"fi={place.file(site)}"
            yield f"cob={place.object(node)}"
            yield f"cfi={place.file(entry)}"
            yield f"cfn={plain(callee)}"
            yield f"calls={calls.count} 0x{2 * entry:x} {place.line(entry)}"
            yield f"0x{2 * site:x} {place.line(site)} {calls.cycles} {calls.instructions}"
            if place.file(site) != file:
                yield f"fe={file}"


def at_file(file: str, other: str, line: str) -> Iterator[str]:
    """A line of costs, and around it the file that it is of where that is another one than the function's."""
    if other == file:
        yield line
        return
    yield f"fi={other}"
    yield line
    yield f"fe={file}"
