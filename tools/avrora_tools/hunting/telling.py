"""What a hunt tells, and the scenarios that it writes."""
import os
import time
from collections.abc import Iterable, Iterator, Sequence

from avrora_tools import files
from avrora_tools.hunting.causes import Finding, Trail
from avrora_tools.hunting.changes import Cut, Document, Input
from avrora_tools.hunting.corpus import Corpus
from avrora_tools.hunting.hunt import Hunt
from avrora_tools.hunting.kinds import MOST_CUTS
from avrora_tools.hunting.races import HANDLER, Races
from avrora_tools.hunting.races import NAME as ARRIVALS
from avrora_tools.hunting.smaller import Scene
from avrora_tools.hunting.trials import processor_seconds
from avrora_tools.showing import shell_folder, shell_line, shell_word
from avrora_tools.sweeping.limits import shown_time
from avrora_tools.sweeping.simulation import scenario_text

MOST_TEXTS, MOST_LINES, MOST_CHANGES = 3, 8, 6


def print_hunt(hunt: Hunt, corpus: Corpus, scenario: str, check: Sequence[str]) -> None:
    """All that a hunt tells at its end, what is easiest to understand first; the scenarios of its findings are written
    by the numbers that it tells. `check` are the words by which a sweep checks as the hunt does."""
    print_tried(hunt)
    findings = sorted(hunt.findings, key=Finding.weight)
    for behind in (len(findings), 0):  # each is always there by one number, also if this is killed
        for number, finding in enumerate(findings, 1 + behind):
            write_finding(corpus.found(number), finding, hunt.seed, os.path.dirname(scenario))
    corpus.keep_found([corpus.found(number) for number, finding in enumerate(findings, 1) if finding.scene])
    for number, finding in enumerate(findings, 1):
        print_finding(hunt, number, finding, scenario, check)
    print(f"not covered: {'; '.join(not_covered(hunt))}", flush=True)


def print_tried(hunt: Hunt) -> None:
    races = hunt.races.runs if hunt.races else 0
    print(
        f"{hunt.runner.runs + races:,} runs in {shown_time(time.monotonic() - hunt.begun)} "
        f"({processor_seconds():,.0f} processor seconds), "
        f"{hunt.rounds} rounds of seed {hunt.seed}"
    )
    if hunt.limit.signal is not None:
        print(f"cut: {hunt.limit.reason()}")
    for name, covers in {**{kind.name: kind.covers for kind in hunt.kinds}, ARRIVALS: Races.covers}.items():
        if hunt.tried[name] or hunt.failed[name]:
            print(f"  {name:<10} {hunt.tried[name]:>7,} tried {hunt.failed[name]:>6,} failed  {covers}")


def print_finding(hunt: Hunt, number: int, finding: Finding, scenario: str, check: Sequence[str]) -> None:
    kinds = ", ".join(f"{name} {count:,}" for name, count in finding.kinds.most_common())
    print(f"{number}. {finding.failure.class_}: {finding.failure.text}")
    needs = f"; {', '.join(filter(None, finding.look[1:]))}" if not finding.places else ""
    print(f"   met {finding.count:,} times ({kinds}){needs}")
    for text, _ in finding.texts.most_common(MOST_TEXTS):
        if text != finding.failure.text:
            print(f"   also: {text}")
    for place in finding.places:
        print(f"   {place}")
    if finding.scene:
        print_scene(hunt, finding.scene)
    if finding.lines:
        more = len(finding.lines) - MOST_LINES
        others = f" and {more} lines more" if more > 0 else ""
        print(f"   runs here alone: {joined(finding.lines[:MOST_LINES])}{others}")
    if finding.trail:
        print_trail(finding.trail)
    for it in finding.overwritten:
        print(f"   {it}")
    for pair in finding.uneven:
        print(f"   {pair}")
    for command in commands(finding, scenario, check):
        print(f"   {command}")


def print_trail(trail: Trail) -> None:
    print(f"   {trail.way}")
    if trail.lines:
        missing = f"; where all is right also {joined(trail.missing)}" if trail.missing else ""
        print(f"   there node {trail.node} runs {joined(trail.lines)}{missing}")


def joined(lines: Iterable[str]) -> str:
    by_file: dict[str, list[str]] = {}
    for line in lines:
        name, _, number = line.rpartition(":")
        by_file.setdefault(name, []).append(number)
    return ", ".join(f"{name}:{','.join(ranges(numbers))}" for name, numbers in by_file.items())


def ranges(numbers: Sequence[str]) -> Iterator[str]:
    """Numbers in order, those that follow one another as one: `3-5`."""
    begin = 0
    for place in range(1, len(numbers) + 1):
        if place == len(numbers) or int(numbers[place]) != int(numbers[place - 1]) + 1:
            yield numbers[begin] if place - begin == 1 else f"{numbers[begin]}-{numbers[place - 1]}"
            begin = place


def print_scene(hunt: Hunt, scene: Scene) -> None:
    nodes, links, changes, cycles = scene.size()
    all_nodes, all_links = len(hunt.document["node"]), len(hunt.document.get("link", []))
    of_all = f"{nodes} nodes of {all_nodes}, {links} links of {all_links}"
    print(f"   smallest: {of_all}, {cycles:,} cycles, deadline {scene.until:,}")
    for change in scene.trial.changes[:MOST_CHANGES]:
        print(f"     {change}")
    if changes > MOST_CHANGES:
        print(f"     and {changes - MOST_CHANGES} changes more")


def commands(finding: Finding, scenario: str, check: Sequence[str]) -> list[str]:
    """The lines of a shell that open a finding."""
    if finding.command:
        swept = f"avrora-tools sweep {shell_word(scenario)} {finding.command} {shell_line(check)}"
        found = [swept.rstrip(), finding.opened]
        if not finding.scene:
            return found
    else:
        found = []
    if not finding.scene or not finding.path:
        return found
    folder, name = os.path.split(finding.path)
    at = first_cycle(finding.scene)
    go = f"cd {shell_folder(folder)} && "
    right = right_name(name)
    found.append(f"({go}avrora run {name} >{name}.trace && avrora run {right} >{right}.trace)")
    found.append(f"({go}avrora-tools timeline -s {name} -o {name}.html {name}.trace)")
    found.append(f"({go}avrora-tools diff {right}.trace {name}.trace)")
    found.append(f"({go}avrora-tools gdb --port 4242 --at {at} {name})")
    start = next((it for it in finding.scene.trial.changes if isinstance(it, Input)), None)
    if start and not finding.command:
        span = f"{max(1, start.at - 500)}..{start.at + 500}"
        found.append(f"({go}avrora-tools sweep {name} --start {start.node}={span} --until {finding.scene.until})")
    return found


def first_cycle(scene: Scene) -> int:
    """Where something is otherwise for the first time."""
    cycles = [it.first if isinstance(it, Cut) else it.at if isinstance(it, Input) else 0 for it in scene.trial.changes]
    return min(cycles, default=0)


def right_name(name: str) -> str:
    stem, ending = os.path.splitext(name)
    return f"{stem}-right{ending}"


def write_finding(path: str, finding: Finding, seed: int, folder: str) -> None:
    """Writes the scenario of a finding, where one can say it; `folder` has the images."""
    if finding.scene:
        finding.path = path
        write_scene(path, finding.scene, finding, seed, folder)


def write_scene(path: str, scene: Scene, finding: Finding, seed: int, folder: str) -> None:
    """Writes the failing scenario, and the right one beside it; images are named from where they are."""
    changes = "".join(f"# - {change}\n" for change in scene.trial.changes)
    right_one = os.path.basename(right_name(path))
    drawn = finding.first or scene.trial
    found = f"# Drawn by seed {seed} of `hunt`, {drawn.kind}: {drawn.what}.\n"
    due = f"# Judged by what {right_one} writes before cycle {scene.until}. What is otherwise than there:\n"
    note = f"# {files.printable(finding.failure.text)}.\n{found}{due}{changes}"
    place = os.path.dirname(path)
    files.write_whole(path, note + scenario_text(with_images(scene.failing(), folder, place)))
    right = "# The scenario beside it, in which nothing is varied and all is right.\n"
    files.write_whole(right_name(path), right + scenario_text(with_images(scene.document, folder, place)))


def with_images(document: Document, folder: str, place: str) -> Document:
    """A scenario whose images are named from another folder."""
    paths = [os.path.relpath(os.path.join(folder, node["image"]), place) for node in document["node"]]
    return {**document, "node": [{**node, "image": path} for node, path in zip(document["node"], paths)]}


def not_covered(hunt: Hunt) -> list[str]:
    """What this hunt did not look at."""
    missing = [f"more than {MOST_CUTS} packets in a row", "a node that is reset", "noise within a byte"]
    if not hunt.has_check:
        missing.append("inputs lost or doubled (no check says what is right then)")
        missing.append("what comes late and is there at the end")
    if hunt.races is None or not hunt.races.events:
        missing.append("arrivals cycle by cycle (no -e, or no byte behind a node's first)")
    else:
        if hunt.races.unsayable:
            missing.append(f"{hunt.races.unsayable} visits that no scenario and no state can say")
        if hunt.races.ready:
            missing.append(f"{len(hunt.races.ready)} visits of what is shared, and those of bytes behind")
        if not hunt.races.is_wide:
            missing.append("arrivals elsewhere than between uses of what is shared")
        missing.append(f"interrupts other than {HANDLER}")
    cuts = next((kind for kind in hunt.kinds if kind.name == "cuts"), None)
    left = len(getattr(cuts, "single", ()))
    if left:
        missing.append(f"{left:,} packets of {getattr(cuts, 'singles', 0):,}, each lost once")
    if hunt.chosen is not None:
        missing.append(f"all kinds but {', '.join(sorted(hunt.chosen))}")
    return missing
