"""What runs before the gate, part by part, and what each part says that it ran and skipped."""
import collections
import os
import re
import subprocess
import xml.etree.ElementTree
from typing import Iterable, Iterator, NamedTuple

# How a part counts on its last line: what it ran, what of that was not as it is to be, and what it skipped.
COUNTS = re.compile(
    r"^\w+: (?P<ran>\d+) (?P<what>\w+), (?P<wrong>\d+) (?:wrong|not met)(?:, (?P<skipped>\d+) skipped)?$"
)

# How a part tells what it skipped, and why.
SKIPPED = re.compile(r"^\S+: skipped,? (?:(?P<test>\S+): )?(?P<cause>.+)$")

# How a cause names the packages that are missing.
LACKS = re.compile(r"\(Debian's (?P<names>[^)]+)\)|Debian: apt-get install (?P<name>[a-z0-9][a-z0-9.+-]*)")
NOT_INSTALLED = re.compile(r"not installed|is missing")


class Skip(NamedTuple):
    """A test that did not run."""

    test: str
    cause: str

    def packages(self) -> list[str]:
        """The packages for want of which it did not."""
        found = LACKS.search(self.cause)
        return (found["names"] or found["name"]).split(", ") if found else []

    def is_lacking(self) -> bool:
        return bool(self.packages() or NOT_INSTALLED.search(self.cause))


class Told(NamedTuple):
    """What came of a part."""

    name: str
    ran: int
    what: str
    wrong: int
    skips: list[Skip]

    def line(self) -> str:
        """Its line among the last ones."""
        said = f"{self.name}: {self.ran} {self.what}, {self.wrong} wrong"
        causes = collections.Counter(it.cause for it in self.skips)
        return said + "".join(f"; {count} skipped: {cause}" for cause, count in causes.most_common())


class Failed(Exception):
    """Why a part counts for nothing."""


class Part(NamedTuple):
    """A part: its name, and the commands that it consists of. What the last of its lines has to say is COUNTS, but
    where it writes `report`, an XML of JUnit."""

    name: str
    commands: list[list[str]]
    report: str | None = None

    def run(self, environment: dict[str, str]) -> Told:
        """Runs it, with what it says going to the standard output."""
        found = [self.run_one(it, environment) for it in self.commands]
        return Told(
            self.name,
            sum(it.ran for it in found),
            found[0].what,
            sum(it.wrong for it in found),
            [skip for it in found for skip in it.skips],
        )

    def run_one(self, words: list[str], environment: dict[str, str]) -> Told:
        lines = []
        with subprocess.Popen(
            words,
            env=environment,
            stdin=subprocess.DEVNULL,
            stdout=subprocess.PIPE,
            stderr=subprocess.STDOUT,
            text=True,
            errors="replace",
        ) as run:
            assert run.stdout is not None
            for line in run.stdout:
                print(line, end="", flush=True)
                lines.append(line.rstrip("\n"))
        told = of_report(self.name, self.report) if self.report else of_lines(self.name, lines)
        if run.returncode and not told.wrong:
            raise Failed(f"{self.name}: {words[0]} ended with status {run.returncode}")
        if not told.ran:
            raise Failed(f"{self.name}: nothing of it ran")
        return told


def of_lines(name: str, lines: list[str]) -> Told:
    """What the lines of a part say."""
    counts = COUNTS.match(lines[-1]) if lines else None
    if not counts:
        raise Failed(f"{name}: its last line tells no count: {lines[-1] if lines else 'it has none'}")
    skips = [Skip(it["test"] or "", it["cause"]) for it in map(SKIPPED.match, lines) if it]
    return Told(name, int(counts["ran"]) - int(counts["skipped"] or 0), counts["what"], int(counts["wrong"]), skips)


def of_report(name: str, path: str) -> Told:
    """What a report of JUnit says."""
    try:
        cases = list(xml.etree.ElementTree.parse(path).iter("testcase"))
    except (OSError, xml.etree.ElementTree.ParseError) as fault:
        raise Failed(f"{name}: its report cannot be read: {fault}") from fault
    skips = [Skip(it.get("name", ""), skipped.get("message", "")) for it in cases for skipped in it.iter("skipped")]
    wrong = sum(it.find("failure") is not None or it.find("error") is not None for it in cases)
    return Told(name, len(cases) - len(skips), "tests", wrong, skips)


def lacking(told: Iterable[Told], without: Iterable[str]) -> Iterator[str]:
    """Which tests did not run for want of a package that somebody did not do without, a line each."""
    left_out = set(without)
    for part in told:
        for skip in filter(Skip.is_lacking, part.skips):
            if not left_out.intersection(skip.packages()):
                yield f"{part.name}: {skip.test or 'a test'} did not run: {skip.cause}"


def all_parts(top: str, python: str, folder: str, side_by_side: bool) -> list[Part]:
    """The parts that come before the gate; they may write into the folder."""

    def script(name: str) -> list[str]:
        return [python, "-B", f"{top}/scripts/{name}"]

    report = f"{folder}/tools.xml"
    spread = ["-n", str(len(os.sched_getaffinity(0)))] if side_by_side else []
    return [
        Part("documents", [script("check_docs.py")]),
        Part("maps", [script("test_doc_maps.py")]),
        Part("checks", [script("test_documents.py")]),
        Part("what is believed", [script("test_believed.py")]),
        Part("set-up", [script("test_gating.py")]),
        Part("wrong bodies", [script("test_wrong_bodies.py")]),
        Part("first run", [script("test_first_run.py")]),
        Part("release", [script("test_release.py")]),
        Part("tools", [[f"{top}/tools/test", *spread, f"--junitxml={report}"]], report),
    ]
