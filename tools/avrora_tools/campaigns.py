"""The file of a campaign: which scenarios are run, with which values varied, and what their traces must meet.

The format stands in CAMPAIGNS.md.
"""
import bisect
import dataclasses
import functools
import hashlib
import itertools
import math
import os
import re
from collections.abc import Iterator, Sequence

from avrora_tools import campaign_keys, cases, observed_runs, predicates, runs
from avrora_tools.campaign_keys import Table
from avrora_tools.cases import Case
from avrora_tools.draws import Code, DrawnGroup
from avrora_tools.errors import BadInput
from avrora_tools.files import printable, read_named, read_named_text, read_text
from avrora_tools.observing import expecting
from avrora_tools.spreads import MAX_RUNS, axis_of, flat
from avrora_tools.variants import Axis, Group, NetworkGroup, Run, ScenarioGroup, content_name, parsed, shown

MOST_COMPARED = 100_000  # names of runs that are compared one by one
NODE_WINDOW = 20_000  # cycles, of `avrora node`
LONGEST_NAME = 120  # bytes of the name of a run in the names of files

# Bytes of a file that workers get: of images, and of golden traces.
LARGEST_IMAGE, LARGEST_GOLDEN = 16 * 1024 * 1024, 256 * 1024 * 1024


@dataclasses.dataclass(frozen=True)
class Shard:
    """The part of a campaign that is run: each run whose number leaves this rest by the count."""

    number: int = 1
    count: int = 1

    def __str__(self) -> str:
        return f"{self.number}/{self.count}"

    def numbers(self, total: int) -> range:
        return range(self.number - 1, total, self.count)


@dataclasses.dataclass(frozen=True)
class Campaign:
    """The whole file. `checks` are those by which runs are checked, `files` the content of each file of the
    shipment."""

    path: str
    name: str
    folder: str
    settings: Table
    groups: Sequence[Group]
    checks: Sequence[runs.Check]
    files: dict[str, bytes]
    ends: Sequence[int]  # the number behind the last run of each group
    shipped_from: dict[str, str]  # of each file of the shipment the name that the user gave it

    @property
    def count(self) -> int:
        return self.ends[-1] if self.ends else 0

    def run(self, number: int) -> Run:
        """The run of this number, from 0."""
        place = bisect.bisect_right(self.ends, number)
        group = self.groups[place]
        return group.run(number - (self.ends[place] - group.count), number)

    def runs(self, shard: Shard = Shard()) -> Iterator[Run]:
        """All runs of a part of the campaign, each made as it comes."""
        return map(self.run, shard.numbers(self.count))

    def called(self, name: str) -> Run | None:
        """The run of this name."""
        first = 0
        for group in self.groups:
            index = group.index_of(name)
            if index is not None:
                return group.run(index, first + index)
            first += group.count
        return None

    @functools.cached_property
    def signature(self) -> str:
        """What tells the runs of this campaign, and what they are checked by, from others."""
        parts = [f"{group.signature()}\n{self.checks[group.check]}" for group in self.groups]
        return hashlib.sha256("\0".join(parts).encode("utf-8", "surrogateescape")).hexdigest()

    @property
    def drawn(self) -> list[DrawnGroup]:
        """The groups that code of the user draws."""
        return [group for group in self.groups if isinstance(group, DrawnGroup)]

    def demand_draws(self, allowed: bool) -> None:
        """Loads the code by which runs are drawn, where the user allows it. Raises BadInput where not."""
        for group in self.drawn:
            demand(allowed, group.place, "draw", group.code.path)
            group.prepare()

    def demand_checks(self, allowed: bool) -> None:
        """Loads the code by which runs are checked, where the user allows it, so that what is wrong with it is told at
        once."""
        for code in dict.fromkeys(check.code for check in self.checks if check.code):
            path = os.path.join(self.folder, code.path)
            demand(allowed, self.path, "check", path)
            predicates.Predicate(path, self.settings["timeout"])


    def demand_conditions(self) -> None:
        """Raises BadInput where a condition of a case is none of the programs of the runs that it is of: each statement
        that could not fail is told before the first run. Of each group its first run and its last are looked at."""
        for group in self.groups:
            shipped = [case for case in self.checks[group.check].cases if case.has_conditions]
            for index in sorted({0, group.count - 1}) if shipped else ():
                run = group.run(index, index)
                observed_runs.demand(run.shipped(), {**self.files, **run.images()}, shipped, run.name)


def demand(allowed: bool, place: str, key: str, path: str) -> None:
    """Raises BadInput where code is not to run."""
    if not allowed:
        raise BadInput(f"{printable(place)}: `{key}` names code, {printable(path)}, which runs only with --run-code")


class Digests:
    """What tells two runs apart: the simulator, what checks the trace, the scenario with the content of its images, and
    the content of each case and golden trace in its role, in order."""

    def __init__(self, campaign: Campaign, simulator: str, checker: str) -> None:
        self.begun = []
        for check in campaign.checks:
            parts = ["simulator", simulator, "checker", checker, "compare", *check.ways]
            for case in check.cases:
                parts += ["case", case.path, case.file]
                parts += itertools.chain(*(("golden", golden.path, golden.file) for golden in case.goldens))
                parts += itertools.chain(*(("elf", program.nodes, program.file) for program in case.programs))
            if check.code:
                parts += ["check", check.code.path, check.code.file]
            text = "\0".join([*parts, "scenario", ""])
            self.begun.append(hashlib.sha256(text.encode("utf-8", "surrogateescape")))

    def of(self, run: Run) -> str:
        found = self.begun[run.group.check].copy()
        found.update(run.recipe().encode("utf-8", "surrogateescape"))
        return found.hexdigest()


def read(path: str) -> Campaign:
    """The campaign in the file `path`. Raises BadInput with what is wrong, and where."""
    table = parsed(read_text(path), path)
    folder = os.path.dirname(os.path.abspath(path))
    campaign_keys.check(path, table, campaign_keys.TOP)
    settings = {key: table.get(key, campaign_keys.TOP[key].default) for key in campaign_keys.TOP}
    if "run" not in table:
        raise BadInput(f"{printable(path)}: no [[run]]")
    files = Files()
    checks: list[runs.Check] = []
    groups: list[Group] = []
    for number, run in enumerate(table["run"], 1):
        groups += groups_of(f"{printable(path)}, run {number}", run, folder, files, checks)
    ends = list(itertools.accumulate(group.count for group in groups))
    if ends and ends[-1] > MAX_RUNS:
        raise BadInput(f"{printable(path)}: more than {MAX_RUNS:,} runs")
    no_name_twice(path, groups)
    name = settings["name"] or stem(path)
    shipped_from = {name: os.path.relpath(path, folder) for path, name in files.names.items()}
    return Campaign(path, name, folder, settings, groups, checks, files.contents, ends, shipped_from)


def no_name_twice(path: str, groups: Sequence[Group]) -> None:
    """Raises BadInput where two runs have the same name. Those of groups whose names differ differ anyhow, unless one
    name goes on where the other one ends."""
    for one, other in itertools.combinations(groups, 2):
        names = f"{one.name} ", f"{other.name} "
        if names[0].startswith(names[1]) or names[1].startswith(names[0]):
            name = common_name(one, other)
            if name is not None:
                raise BadInput(f"{printable(path)}: two runs have the name {printable(name)}")


def common_name(one: Group, other: Group) -> str | None:
    """A name that a run of each of two groups has. Where they have the same keys these decide, and not the runs."""
    if one.name == other.name and [axis.key for axis in one.axes] == [axis.key for axis in other.axes]:
        parts = [one.name]
        for mine, theirs in zip(one.axes, other.axes):
            value = common_value(mine, theirs)
            if value is None:
                return None
            parts.append(f"{mine.key}={value}")
        return " ".join(parts)
    few, many = sorted((one, other), key=lambda group: group.count)
    if few.count > MOST_COMPARED:
        raise BadInput(f"{other.place}: its runs may have the names of others: give each [[run]] a name of its own")
    names = (few.run(index, index).name for index in range(few.count))
    return next((name for name in names if many.index_of(name) is not None), None)


def common_value(one: Axis, other: Axis) -> str | None:
    """A value of both, as the names of runs have it."""
    few, many = sorted((one.values, other.values), key=len)
    if isinstance(few, range) and isinstance(many, range):
        number = common_number(few, many)
        return None if number is None else str(number)
    if isinstance(many, range):
        return next((shown(value) for value in few if type(value) is int and value in many), None)
    texts = {shown(value) for value in many}
    return next((text for text in map(shown, few) if text in texts), None)


def common_number(one: range, other: range) -> int | None:
    """The least number of two ranges that rise."""
    divisor = math.gcd(one.step, other.step)
    apart = other[0] - one[0]
    if apart % divisor:
        return None
    rest = other.step // divisor
    steps = apart // divisor * pow(one.step // divisor, -1, rest) % rest
    found, period = one[0] + one.step * steps, one.step * rest
    low = max(one[0], other[0])
    found += -(-(low - found) // period) * period
    return found if found <= min(one[-1], other[-1]) else None


class Files:
    """The shipment: the content of each file once, under a name that its content tells."""

    def __init__(self) -> None:
        self.contents: dict[str, bytes] = {}
        self.names: dict[str, str] = {}

    def add(self, place: str, path: str, most: int = LARGEST_IMAGE) -> str:
        """The name in the shipment of the file `path`."""
        if path not in self.names:
            try:
                content = read_named(path, most)
            except BadInput as fault:
                raise BadInput(f"{place}: {fault}") from None
            name = content_name(content, path)
            self.contents[name] = content
            self.names[path] = name
        return self.names[path]


# What a [[run]] has its scenarios from, one of them; without one its cases have their own.
SOURCES = ("scenario", "network", "draw")


def groups_of(place: str, table: Table, folder: str, files: Files, checks: list[runs.Check]) -> Iterator[Group]:
    """What a [[run]] says is to be run: a scenario, a network, what is drawn, or what each of its cases has as its
    source."""
    campaign_keys.check(place, table, campaign_keys.RUN)
    found = [source for source in SOURCES if source in table]
    if len(found) > 1:
        raise BadInput(f"{place}: a run has a {found[0]} or a {found[1]}, not both")
    name = table.get("name", "")
    read = [case_of(place, path, folder, files) for path in texts(table.get("expect", ()))]
    axes = [axis_of(place, key, values) for key, values in flat(table.get("vary", {})).items()]
    ways = tuple(table.get("compare", ()))
    code = None
    if "check" in table:
        code = runs.ShippedFile(files.add(place, os.path.join(folder, table["check"])), table["check"])

    def ship(path: str) -> str:
        return files.add(place, path)

    def check(shipped: Sequence[runs.ShippedCase]) -> int:
        checks.append(runs.Check(tuple(shipped), ways, code))
        return len(checks) - 1

    shipped = [case.shipped for case in read]
    if "network" in table:
        yield NetworkGroup(place, name or "network", axes, check(shipped), table["network"], folder, ship)
    elif "draw" in table:
        path = os.path.join(folder, table["draw"])
        yield DrawnGroup(place, name or stem(path), axes, check(shipped), Code(place, path, folder))
    elif "scenario" in table:
        path = os.path.join(folder, table["scenario"])
        scenario = parsed(read_named_text(path), path)
        group = ScenarioGroup(place, name or stem(path), axes, check(shipped), scenario, os.path.dirname(path), ship)
        if ways or any(case.shipped.has_conditions for case in read):  # each is made and looked at by itself
            group.moved = None
        yield group
    elif not read:
        raise BadInput(f"{place}: a run needs a scenario, a network, draw, or cases whose sources are run")
    else:
        for case in read:
            case_name = f"{name} {stem(case.read.path)}".strip()
            scenario = source_of(place, case.read)
            group = ScenarioGroup(place, case_name, axes, check([case.shipped]), scenario, case.read.folder, ship)
            if case.shipped.has_conditions:
                group.moved = None
            yield group


def texts(value: str | Sequence[str]) -> Sequence[str]:
    return [value] if isinstance(value, str) else value


def stem(path: str) -> str:
    return os.path.splitext(os.path.basename(path))[0]


def source_of(place: str, case: Case) -> Table:
    """The scenario that a case has as its source; `node IMAGE CYCLES` is a network of one node."""
    if case.source and case.source[0] == "run":
        path = os.path.join(case.folder, case.source[1])
        return parsed(read_named_text(path), path)
    if case.source and case.source[0] == "node" and case.source[2].isdigit():
        cycles = int(case.source[2])
        window = [0, min(cycles, NODE_WINDOW)]
        return {"cycles": cycles, "window": window, "node": [{"image": case.source[1]}]}
    raise BadInput(f"{place}: {printable(case.path)} has no `run FILE` and no `node FILE CYCLES`")


@dataclasses.dataclass(frozen=True)
class CampaignCase:
    """A case as its reader has it, and as the shipment has it."""

    read: Case
    shipped: runs.ShippedCase


def case_of(place: str, path: str, folder: str, files: Files) -> CampaignCase:
    """A case of `expect` for the shipment; its golden traces and its programs go with it."""
    full = os.path.join(folder, path)
    case = cases.read_case(full)
    goldens = [
        runs.ShippedFile(files.add(place, statement.path, LARGEST_GOLDEN), os.path.relpath(statement.path, folder))
        for statement in case.statements
        if isinstance(statement, cases.Golden)
    ]
    programs = []
    for nodes, name in map(expecting.parts_of, case.elfs):
        shipped = files.add(place, os.path.join(case.folder, name))
        programs.append(runs.ShippedProgram(shipped, name, nodes))
    file = files.add(place, full)
    return CampaignCase(
        case, runs.ShippedCase(file, path, tuple(goldens), tuple(programs), bool(case.conditions))
    )


def file_name(name: str) -> str:
    """The name of a run in the names of files: another one for each run."""
    text = re.sub(r"[^A-Za-z0-9_.=+-]", "_", name.replace(" ", ","))
    plain = name.replace(" ", ",")
    if "," not in name and len(plain) <= LONGEST_NAME and re.fullmatch(r"[A-Za-z0-9_.=,+-]+", plain) and name[0] != ".":
        return plain
    digest = hashlib.sha256(name.encode("utf-8", "surrogateescape")).hexdigest()[:16]
    return f"{text[:LONGEST_NAME]}-{digest}"
