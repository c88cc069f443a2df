#!/usr/bin/env python3
"""Counts the lines of definitions that have to be believed: of the contract of the program, and of the headline alone.

    scripts/believed.py            counts by crate
    scripts/believed.py --list     each definition that has to be believed, by file and line, and the names of the kit
    scripts/believed.py --rest     each definition of crates/*/specs that neither of the two rests on
    scripts/believed.py --unclear  names that stand for more than one thing, or for none that was found

The *whole call* is what the contracts of `avrora` and `run_program` rest on (`TopClause`, `ProgramClause`). The
*headline* is what `order_law`, `running_law`, `order_gives_each_running_sample` and, for `run FILE`, `done` of
`TopClause` rest on. A definition rests on each that it names, and on what those rest on, down to the kit's.

A line counts if it holds more than a comment and is no `use` or `mod`. A definition counts whole. Only of `TopClause`,
`Ends` and `plan_of` the headline has no more than what says how `run FILE` ends with 0. Of a type of Rust its fields or
variants count; of one with a model the value that a clause sees; of a trait its ghosts, and the types that stand for it
outside the stored cases, with fields, model and ghosts. All that an unclear name can stand for counts.

Exit status: 0 all is clear, 1 something is unclear, 2 bad words.
"""
import argparse
import functools
import re
import sys
from collections import Counter
from pathlib import Path
from typing import Iterable, Iterator, NamedTuple

from believing.closure import Closure, Repository, closure

TOP = Path(__file__).resolve().parent.parent

# Where the contracts stand.
AVRORA = ("crates/commands/src/top.rt", "avrora")
RUN_PROGRAM = ("crates/commands/src/program.rt", "run_program")
LAWS = (
    ("crates/node_runner/src/law.rt", "order_law"),
    ("crates/headline_law/src/lib.rt", "running_law"),
    ("crates/headline_law/src/lib.rt", "order_gives_each_running_sample"),
)

# What the headline has of definitions that say more: where `run FILE` ends with 0.
OF_RUN = {
    ("commands", "TopClause"): "pub done ",
    ("commands", "plan_of"): "plan_of (Run file) ",
    ("command_plans", "Ends"): " Done = ",
}

DOCUMENT = "docs/PROOFS.md"
SAID = re.compile(r"([\d,]+) lines for the whole call and ([\d,]+) for the headline")

Place = tuple[str, int]


class Believed(NamedTuple):
    """What has to be believed, and all lines of specs/."""

    call: Closure
    headline: Closure
    specs: set[Place]

    def rest(self) -> set[Place]:
        """The lines of specs/ on which neither rests."""
        return self.specs - self.call.lines() - self.headline.lines()

    def unclear(self) -> list[str]:
        return sorted({*self.call.unclear, *self.headline.unclear})


def believed(repository: Repository) -> Believed:
    call = closure(repository, [repository.contract(*it) for it in (AVRORA, RUN_PROGRAM)])
    headline = closure(repository, [repository.contract(*it) for it in (AVRORA, *LAWS)], OF_RUN)
    specs = {(it.path, line) for it in repository.definitions() for line in it.lines}
    return Believed(call, headline, specs)


def by_crate(places: Iterable[Place]) -> Counter[str]:
    return Counter(path.split("/")[1] for path, _ in places)


def table(found: Believed) -> Iterator[str]:
    """The counts by crate."""
    columns = [found.specs, found.call.lines(), found.headline.lines(), found.rest()]
    counts = [by_crate(it) for it in columns]

    def row(name: str, cells: Iterable[object]) -> str:
        return f"{name:20}" + "".join(f"{it:>12}" for it in cells)

    yield row("lines", ("specs/", "whole call", "headline", "neither"))
    for crate in sorted(set().union(*counts)):
        yield row(crate, (f"{it[crate]:,}" for it in counts))
    yield row("all", (f"{len(it):,}" for it in columns))
    yield row("of these in specs/", (f"{sum('/specs/' in path for path, _ in it):,}" for it in columns))
    yield f"{len(found.unclear())} names are unclear"


def listed(found: Believed) -> Iterator[str]:
    """Each definition that has to be believed, with how many lines of it count for which; and the kit's names."""
    both = (found.call, found.headline)
    lines: dict[tuple[str, int, str], list[int]] = {}
    for at, one in enumerate(both):
        for it, parts in one.parts.items():
            lines.setdefault((it.path, it.line, it.name), [0, 0])[at] = sum(len(part.lines) for part in parts)
    for (path, line, name), (call, headline) in sorted(it for it in lines.items() if any(it[1])):
        yield f"{path}:{line}: {name}: {call} of the whole call, {headline} of the headline"
    kit: dict[str, set[str]] = {}
    for module, names in (it for one in both for it in one.kit.items()):
        kit.setdefault(module, set()).update(names)
    for module, names in sorted(kit.items()):
        yield f"the kit, {module}: {' '.join(sorted(names))}"


def rest(repository: Repository, found: Believed) -> Iterator[str]:
    """Each definition of specs/ of which neither has a line."""
    left = found.rest()
    for it in repository.definitions():
        count = sum((it.path, line) in left for line in it.lines)
        if count == len(it.lines):
            yield f"{it.path}:{it.line}: {it.name}: {count} lines"


def said(found: Believed) -> str:
    """What the document is to say."""
    return f"{len(found.call.lines()):,} lines for the whole call and {len(found.headline.lines()):,} for the headline"


@functools.cache
def right_for(top: Path) -> str:
    return said(believed(Repository(top)))


def wrong(top: Path, path: str, text: str) -> Iterator[str]:
    """What a document says of these counts that is not so."""
    if path != DOCUMENT:
        return
    found, right = SAID.search(text), right_for(top)
    if found is None:
        yield f"{path}: it does not say that there are {right}"
    elif found[0] != right:
        line = text.count("\n", 0, found.start()) + 1
        yield f"{path}:{line}: it says {found[0]}, scripts/believed.py counts {right}"


def arguments() -> argparse.ArgumentParser:
    parser = argparse.ArgumentParser(description=__doc__, formatter_class=argparse.RawDescriptionHelpFormatter)
    chosen = parser.add_mutually_exclusive_group()
    chosen.add_argument("--list", action="store_true", help="each definition that has to be believed")
    chosen.add_argument("--rest", action="store_true", help="each definition of specs/ that neither rests on")
    chosen.add_argument("--unclear", action="store_true", help="names that are unclear")
    return parser


def main(words: list[str]) -> int:
    given = arguments().parse_args(words)
    repository = Repository(TOP)
    found = believed(repository)
    if given.list:
        rows = listed(found)
    elif given.rest:
        rows = rest(repository, found)
    else:
        rows = iter(found.unclear()) if given.unclear else table(found)
    for row in rows:
        print(row)
    return int(bool(found.unclear()))


if __name__ == "__main__":
    sys.exit(main(sys.argv[1:]))
