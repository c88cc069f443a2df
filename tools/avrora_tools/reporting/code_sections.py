"""The parts of a report that tell which code took the cycles, and which ran at all."""
import os
from collections.abc import Iterator, Mapping

from avrora_tools import files, maps, profiles, programs
from avrora_tools.errors import ToolError
from avrora_tools.exports import coverage, flames
from avrora_tools.exports.walking import NodeCosts
from avrora_tools.profiles import Taken
from avrora_tools.reporting import pages, tables, timelines
from avrora_tools.reporting.gathering import Gathered, covered_by
from avrora_tools.reporting.markup import Content, Html, html, joined, tag
from avrora_tools.reporting.pages import Section
from avrora_tools.reporting.run_sections import command
from avrora_tools.reporting.tables import Column, Row, numbers

MOST_FUNCTIONS, MOST_SOURCE_LINES = 60, 40  # that are told
MOST_SOURCE = 700_000  # characters of all sources that are shown
LARGEST_SOURCE = 200_000  # of one file
MOST_GRAPHS = 16  # nodes with a flame graph each
MOST_STACKS = 3_000  # of a flame graph; of more
LEAST_SHARE = 5_000  # a call stack with less than one in so many cycles is told with its caller's


def names_of(run: Gathered) -> timelines.Names:
    words = [program.path for program in run.programs.all]
    return timelines.Names(run.path, None, words)


def elf_words(run: Gathered) -> list[str]:
    return [word for program in run.programs.all for word in ("-e", program.path)]


# ---- functions


def functions(run: Gathered) -> Section:
    names = profiles.Names(run.programs)
    taken = profiles.by_name(run.spent, names.function)
    total = sum(one.total() for one in run.spent.values())
    commands = [command("profile", "-s", run.path, *elf_words(run), "REPORT")]
    parts = [taken_table("functions", "function", taken, total, MOST_FUNCTIONS)]
    if not run.programs.all:
        parts.insert(0, pages.note("With -e PROGRAM.elf functions, lines and call stacks have their names."))
        return Section("functions", "Where the cycles went", commands, joined(parts))
    lines = [
        one for one in profiles.by_name(run.spent, names.line) if "(no line)" not in one.name and one.rows is not None
    ]
    if lines:
        shown = taken_table("lines", "source line", lines, total, MOST_SOURCE_LINES)
        parts.append(tag("details", tag("summary", "by source line"), shown))
    if run.costs and run.stacks:
        first, end = run.stacks
        commands.append(command("export", "folded", "-s", run.path, *elf_words(run), "TRACE"))
        parts += [
            tag("h3", "Call stacks"),
            pages.note(
                f"Of the cycles {first:,} to {end:,}, in which instructions are traced (--stacks FROM..TO names "
                "others). A function "
                "lies below the one that called it; its width is its cycles, with all that it called. Interrupts "
                "have stacks of their own."
            ),
            flame_place(),
        ]
    return Section("functions", "Where the cycles went", commands, joined(parts))


def taken_table(name: str, what: str, taken: list[Taken], total: int, most: int) -> Html:
    greatest = max((one.cycles for one in taken if one.rows is not None), default=1)
    rows: list[Row] = [
        [
            one.name, one.cycles, tables.Cell(f"{100 * one.cycles / max(1, total):.2f}%", one.cycles),
            "" if one.rows is None else one.rows, bar_of(one.cycles, greatest) if one.cycles <= greatest else "",
        ]
        for one in taken[:most]
    ]  # fmt: skip
    more = pages.note(f"and {len(taken) - most:,} more") if len(taken) > most else Html("")
    columns = [Column(what, "long"), *numbers("cycles", "of all", "instructions"), Column("", "meter")]
    return Html(tables.drawn(name, columns, rows, filter_words=f"show each {what} with") + more)


def bar_of(part: int, greatest: int) -> Html:
    width = 220
    return Html(
        f'<svg width="{width}" height="11" viewBox="0 0 {width} 11" aria-hidden="true">'
        f'<rect class="fill-sent" width="{width * part / max(1, greatest):.1f}" height="11"/></svg>'
    )


# ---- the flame graph


def flame_place() -> Html:
    chosen = tag("label", "node ", tag("select", "", id="flame-node"))
    found = tag("label", "find ", tag("input", type="search", id="flame-find"))
    reset = tag("button", "all", type="button", id="flame-all")
    box = tag("div", "", id="flames", class_="flame-box")
    return joined(
        [tag("p", chosen, found, reset, class_="filters"), box, tag("p", "", id="flame-status", class_="flame-status")]
    )


# A call stack: the place of its name, its own cycles, what it called.
Node = list[object]


def flame_data(costs: Mapping[int, NodeCosts]) -> dict[str, object]:
    """Call stacks as trees: of all nodes together, and of each where these are not too many."""
    names: dict[str, int] = {}
    graphs: list[dict[str, object]] = []
    groups: list[tuple[str, list[int]]] = [("all nodes", sorted(costs))]
    if 1 < len(costs) <= MOST_GRAPHS:
        groups += [(f"node {node}", [node]) for node in sorted(costs)]
    for label, nodes in groups:
        paths: dict[tuple[str, ...], int] = {}
        for node in nodes:
            for path, cycles in flames.paths_of(costs[node], with_sleep=False):
                paths[path] = paths.get(path, 0) + cycles
        graphs.append({"label": label, "roots": tree_of(paths, names)})
    return {"names": list(names), "graphs": graphs}


def tree_of(paths: Mapping[tuple[str, ...], int], names: dict[str, int]) -> list[Node]:
    least = sum(paths.values()) / LEAST_SHARE if len(paths) > MOST_STACKS else 0
    roots: dict[str, list[object]] = {}
    for path, cycles in sorted(paths.items(), key=lambda item: (-item[1], item[0])):
        level, entry = roots, None
        for name in path:
            if entry is not None and cycles < least and name not in level:
                break
            entry = level.setdefault(name, [names.setdefault(name, len(names)), 0, {}])
            level = entry[2]  # type: ignore[assignment]
        if entry is not None:
            entry[1] += cycles  # type: ignore[operator]
    return [as_list(entry) for entry in roots.values()]


def as_list(entry: list[object]) -> Node:
    children: dict[str, list[object]] = entry[2]  # type: ignore[assignment]
    return [entry[0], entry[1], [as_list(child) for child in children.values()]]


# ---- coverage


def covered(run: Gathered, source_folder: str | None) -> Section:
    commands = [
        command("profile", "--coverage", "-s", run.path, *elf_words(run), "REPORT"),
        command("export", "lcov", "-s", run.path, *elf_words(run), "-o", "run.info", "REPORT"),
        "genhtml -o coverage run.info",
    ]
    parts: list[Html] = []
    for program in run.programs.all:
        parts += [tag("h3", f"Instructions of {program.name} that ran"), program_table(run, program)]
    parts += list(source_parts(covered_by(run), source_folder))
    return Section("coverage", "Coverage", commands, joined(parts))


def program_table(run: Gathered, program: programs.Program) -> Html:
    ran = profiles.covered(run.spent, run.programs, program)
    rows: list[Row] = [[one.function.name, one.ran, one.of, tables.meter(one.ran, one.of, "good")] for one in ran]
    hit, every = sum(one.ran for one in ran), sum(one.of for one in ran)
    columns = [Column("function", "long"), *numbers("ran", "of"), Column("", "meter")]
    foot: list[Content] = ["all", hit, every, tables.meter(hit, every, "good").content]
    name = f"covered-{run.programs.all.index(program)}"
    return tables.drawn(name, columns, rows, foot, filter_words="show functions with")


def source_parts(counts: coverage.Covered, source_folder: str | None) -> Iterator[Html]:
    """Each source file with how often its lines ran: its text where it lies below the folder of sources, or beside a
    program. A program may name any file of this machine as its source, and no page is to show that."""
    found = coverage.sources(counts)
    if not found:
        yield pages.note("The programs name no source lines: compile with -gdwarf-2 to see them.")
        return
    yield tag("h3", "Lines that ran")
    room = MOST_SOURCE
    folders = (
        [source_folder]
        if source_folder
        else sorted({os.path.dirname(program.path) or "." for program in counts.counts})
    )
    for path, source in found.items():
        ran, of = sum(1 for count in source.lines.values() if count), len(source.lines)
        words = f"{os.path.basename(path)}: {ran} of {of} lines ran ({100 * ran / max(1, of):.0f}%)"
        text = text_of(coverage.found(path, counts), folders)
        if text is None or len(text) > room:
            idle = sorted(line for line, count in source.lines.items() if not count)
            told = f"did not run: lines {maps.numbers(idle)}" if idle else "all lines ran"
            yield tag("details", tag("summary", words), pages.note(told))
            continue
        room -= len(text)
        rows = [source_row(number, line, source.lines) for number, line in enumerate(text.split("\n"), 1)]
        yield tag(
            "details",
            tag("summary", words),
            tag("div", tag("table", tag("tbody", *rows), class_="source"), class_="wide"),
        )


def source_row(number: int, line: str, counts: Mapping[int, int]) -> Html:
    count = counts.get(number)
    kind = None if count is None else "ran" if count else "idle"
    shown = html(line.replace("\t", " " * 8))
    return tag(
        "tr",
        tag("td", str(number), class_="n"),
        tag("td", "" if count is None else f"{count:,}", class_="n hits"),
        tag("td", shown),
        class_=kind,
    )


def text_of(path: str, folders: list[str]) -> str | None:
    """The text of a source file that lies below one of the folders."""
    if not any(files.is_below(path, folder) for folder in folders):
        return None
    try:
        text = files.read_named(path, LARGEST_SOURCE).decode("utf-8", "surrogateescape")
    except ToolError:
        return None
    return text.rstrip("\n")
