#!/usr/bin/env python3
"""What a hunt finds in examples/hunt, and after how many seconds of processors

    bench/hunts.py PROGRAM [--seeds 1-5] [--processor-minutes 40] [--jobs 4] [--fixed]

For each seed it hunts in gather.toml with no span given, and prints which of the five faults each finding has, and when
it was found. A scenario that still fails where all other faults are mended has that fault; an arrival has the one whose
line it names. A hunt ends once all five are found (--whole: at the end of its time). --fixed hunts in the firmware
without faults instead, where there is nothing to find. It needs avr-gcc (Debian: gcc-avr, avr-libc) and
python3-pyelftools. Exit status: 0 all is as it should be, 1 a fault was not found, or something in the fixed firmware.
"""
import argparse
import contextlib
import itertools
import re
import shutil
import subprocess
import sys
import tempfile
import tomllib
from collections.abc import Iterable, Iterator
from dataclasses import dataclass
from pathlib import Path

TOP = Path(__file__).resolve().parent.parent
sys.path.insert(0, str(TOP / "tools"))
from avrora_tools.hunting.oracles import Oracle, Reference  # noqa: E402

EXAMPLE = TOP / "examples" / "hunt"
FAULTS = {"GROWS": 1, "OTHER_WAY": 2, "ANSWERS": 4, "ONE_PLACE": 8, "WAKE": 16}
ALL = 0x1F
UNTIL = 2_700_000
NEAR = 3  # lines between a place that is told and the fault's
FAR = 12  # lines from where a fault is mended to the comment that tells of it

FOUND = re.compile(r"^found after ([\d,]+) runs \(([\d,]+) s of processors\), by (\w+): (.*)$", re.M)
NUMBERED = re.compile(r"^\d+\. \w", re.M)
DEADLINE = re.compile(r" before cycle (\d+)\.")
ENDED = re.compile(r"^([\d,]+) runs in .* \(([\d,]+) processor seconds\)", re.M)


@dataclass(frozen=True)
class Told:
    """A finding: the seconds of processors after which it was told, what it says, and which faults it has."""

    seconds: int
    text: str
    faults: frozenset[str]

    def __str__(self) -> str:
        return f"{'+'.join(sorted(self.faults)) or '?'} ({self.seconds:,} s): {self.text}"


class Firmware:
    """The builds of gather.c: with all faults, with each alone, with none."""

    def __init__(self, program: str, folder: Path) -> None:
        self.program, self.folder = program, folder
        for name in ("gather.c", "gather.toml", "gather-fixed.toml"):
            shutil.copy2(EXAMPLE / name, folder)
        self.build("gather", 0)
        self.build("gather-fixed", ALL)
        for name, bit in FAULTS.items():
            self.build(name, ALL & ~bit)
        source = (folder / "gather.c").read_text(encoding="utf-8").splitlines()
        self.lines = {name: list(lines_of(source, name)) for name in FAULTS}

    def build(self, name: str, fixed: int) -> None:
        elf, image = self.folder / f"{name}.elf", self.folder / f"{name}.hex"
        flags = ["-mmcu=atmega128", "-Os", "-gdwarf-2", f"-I{TOP / 'examples'}", f"-DFIXED={fixed}"]
        subprocess.run(["avr-gcc", *flags, "-o", elf, self.folder / "gather.c"], check=True)
        subprocess.run(["avr-objcopy", "-j", ".text", "-j", ".data", "-O", "ihex", elf, image], check=True)

    def fails(self, scenario: Path, until: int, image: str) -> bool:
        """Whether a finding's scenario fails where all nodes have this image, and the right one beside it does not."""
        beside = scenario.with_name(f"{scenario.stem}-right.toml")
        right, failing = (self.output(it, image) for it in (beside, scenario))
        document = tomllib.loads(scenario.read_text(encoding="utf-8"))
        reference, oracle = Reference(right, until, document["cycles"]), Oracle(range(len(document["node"])))
        return not oracle.failure(reference, None, right) and bool(oracle.failure(reference, None, failing))

    def output(self, scenario: Path, image: str) -> bytes:
        text = re.sub(r'image = "[^"]*"', f'image = "{self.folder / image}.hex"', scenario.read_text(encoding="utf-8"))
        copy = self.folder / "tried.toml"
        copy.write_text(text, encoding="utf-8")
        return subprocess.run([self.program, "run", "--plain", copy], stdout=subprocess.PIPE, check=True).stdout

    def faults_of(self, scenario: Path, told: str) -> frozenset[str]:
        """Which faults a finding has: alone they make its scenario fail, or, where no scenario says it, it names their
        lines."""
        if scenario.exists():
            until = int(DEADLINE.search(scenario.read_text(encoding="utf-8"))[1])
            found = frozenset(name for name in FAULTS if self.fails(scenario, until, name))
            if found:
                return found
        places = [line for line in told.splitlines() if line.lstrip().startswith("`")]
        groups = (group for line in places for group in re.findall(r"gather\.c:([\d,-]+)", line))
        named = {int(number) for group in groups for number in re.findall(r"\d+", group)}
        return frozenset(name for name, lines in self.lines.items() if are_near(lines, named))

    def hunt(self, name: str, seed: int, minutes: int, jobs: int, is_whole: bool) -> tuple[list[Told], str]:
        """What a hunt tells, and the line that says what it took. It ends early where it found all faults, unless all
        of it is wanted."""
        corpus = self.folder / f"{name}-{seed}.hunt"
        words = [TOP / "avrora-tools", "hunt", "--avrora", self.program, "-e", f"{name}.elf", "--until", str(UNTIL)]
        words += ["--processor-minutes", str(minutes), "--jobs", str(jobs), "--seed", str(seed), "--corpus", corpus]
        found: list[Told] = []
        output, has_all = "", False
        with (
            open(self.folder / f"{name}-{seed}.txt", "w", encoding="utf-8") as log,
            subprocess.Popen([*words, f"{name}.toml"], cwd=self.folder, stdout=subprocess.PIPE, text=True) as hunting,
        ):
            assert hunting.stdout
            for line in hunting.stdout:
                log.write(line)
                log.flush()
                output += line
                if it := FOUND.match(line):
                    faults = self.faults_of(corpus / f"found-{len(found) + 1}.toml", it[4])
                    found.append(Told(int(it[2].replace(",", "")), it[4], faults))
                    print(f"    {len(found)}. {found[-1]}", flush=True)
                    if not is_whole and not has_all and (has_all := len(row_of(found)) == len(FAULTS)):
                        hunting.terminate()
        if hunting.returncode not in (0, 1):
            sys.exit(f"hunts.py: the hunt of seed {seed} ended with status {hunting.returncode}")
        told = len(NUMBERED.findall(output))  # where the time was over, some only at the end
        return found, f"{told} findings; {ENDED.search(output)[0]}"


def are_near(lines: Iterable[int], named: Iterable[int]) -> bool:
    return any(abs(one - two) <= NEAR for one, two in itertools.product(lines, named))


def lines_of(source: list[str], name: str) -> Iterator[int]:
    """The lines of a fault: where it is mended, and where a comment behind that says that it is."""
    for number, line in enumerate(source, 1):
        if re.search(rf"FIXED & {name}\b", line):
            yield number
            behind = source[number - 1 : number + FAR]
            yield from [it for it, text in enumerate(behind, number) if "/* fault" in text][:1]


def row_of(found: list[Told]) -> dict[str, int]:
    """After how many seconds each fault was told for the first time; a finding of two counts for neither."""
    row: dict[str, int] = {}
    for it in found:
        if len(it.faults) == 1:
            row.setdefault(*it.faults, it.seconds)
    return row


def seeds_of(text: str) -> list[int]:
    first, _, last = text.partition("-")
    return list(range(int(first), int(last or first) + 1))


def main() -> int:
    parser = argparse.ArgumentParser(description=__doc__, formatter_class=argparse.RawDescriptionHelpFormatter)
    parser.add_argument("program")
    parser.add_argument("--seeds", type=seeds_of, default=[1, 2, 3, 4, 5])
    parser.add_argument("--processor-minutes", type=int, default=40)
    parser.add_argument("--jobs", type=int, default=4)
    parser.add_argument("--fixed", action="store_true")
    parser.add_argument("--whole", action="store_true")
    parser.add_argument("--folder", type=Path, help="where all is kept; else it is removed")
    arguments = parser.parse_args()
    is_good = True
    with contextlib.ExitStack() as stack:
        folder = arguments.folder or Path(stack.enter_context(tempfile.TemporaryDirectory()))
        folder.mkdir(exist_ok=True)
        firmware = Firmware(str(Path(arguments.program).resolve()), folder.resolve())
        name = "gather-fixed" if arguments.fixed else "gather"
        for seed in arguments.seeds:
            found, ended = firmware.hunt(name, seed, arguments.processor_minutes, arguments.jobs, arguments.whole)
            row = row_of(found)
            told = ", ".join(f"{fault} {row[fault]:,} s" if fault in row else f"no {fault}" for fault in FAULTS)
            print(f"seed {seed}: {ended}" if arguments.fixed else f"seed {seed}: {told}; {ended}", flush=True)
            is_good = is_good and (ended.startswith("0 ") if arguments.fixed else len(row) == len(FAULTS))
    return not is_good


if __name__ == "__main__":
    sys.exit(main())
