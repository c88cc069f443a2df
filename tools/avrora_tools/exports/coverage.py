"""Which lines and functions ran, as a tracefile of lcov, for genhtml and the coverage pages of CI services."""
import collections
import os
from collections.abc import Iterator, Mapping

from avrora_tools import programs


class Covered:
    """How often the instructions of programs were executed, over any number of runs."""

    def __init__(self) -> None:
        self.counts: dict[programs.Program, collections.Counter[int]] = {}

    def add(self, program: programs.Program, counts: Mapping[int, int]) -> None:
        """Adds what one node executed: counts by word address."""
        self.counts.setdefault(program, collections.Counter()).update(counts)


class Source:
    """What ran of a source file: how often each line did, and of each function its line and how often it was begun."""

    def __init__(self) -> None:
        self.lines: collections.Counter[int] = collections.Counter()
        self.functions: dict[str, tuple[int, int]] = {}


def sources(covered: Covered) -> dict[str, Source]:
    """What ran by the paths of source files. A line counts as its instruction that ran most."""
    found: dict[str, Source] = collections.defaultdict(Source)
    for program, counts in covered.counts.items():
        own: dict[str, collections.Counter[int]] = collections.defaultdict(collections.Counter)
        for function in program.functions:
            for word in program.instructions(function):
                at = program.source_line_at(word)
                if at is not None and at.line:
                    own[at.path][at.line] = max(own[at.path][at.line], counts[word])
            stands = program.declared.get(function.first) or program.source_line_at(function.first)
            if stands is not None and stands.line:
                name = str(function.name)
                before = found[stands.path].functions.get(name, (stands.line, 0))
                found[stands.path].functions[name] = before[0], before[1] + counts[function.first]
        for path, its_lines in own.items():
            for line, count in its_lines.items():
                found[path].lines[line] += count
    return dict(sorted(found.items()))


def written(covered: Covered) -> Iterator[str]:
    """The lines of a tracefile, a record for each source file."""
    yield "TN:"
    for path, source in sources(covered).items():
        yield f"SF:{found(path, covered)}"
        yield from record(source.functions, source.lines)


def record(functions: Mapping[str, tuple[int, int]], lines: Mapping[int, int]) -> Iterator[str]:
    """The lines of a source file's record, behind its name."""
    for name, (line, _) in sorted(functions.items(), key=lambda item: (item[1][0], item[0])):
        yield f"FN:{line},{name}"
    for name, (_, count) in sorted(functions.items(), key=lambda item: (item[1][0], item[0])):
        yield f"FNDA:{count},{name}"
    yield f"FNF:{len(functions)}"
    yield f"FNH:{sum(1 for _, count in functions.values() if count)}"
    for line, count in sorted(lines.items()):
        yield f"DA:{line},{count}"
    yield f"LF:{len(lines)}"
    yield f"LH:{sum(1 for count in lines.values() if count)}"
    yield "end_of_record"


def found(path: str, covered: Covered) -> str:
    """Where a source file lies: as the compiler wrote it, else beside a program that was made of it."""
    if os.path.exists(path):
        return path
    for program in covered.counts:
        beside = os.path.join(os.path.dirname(os.path.abspath(program.path)), os.path.basename(path))
        if os.path.exists(beside):
            return beside
    return path
