"""What the tools tell of a program's run, counted once more from its rows, from what `watch` and `look` write, and from
what `avr-nm` and `avr-addr2line` say of the program; nothing here is read by the package."""
import collections
import random
import re
import subprocess
from pathlib import Path

from firmware import PROGRAM, scenario
from support import run_tool

LENGTH = 6_000  # cycles of the window
LIMIT = 300_000
CALLS = {"call", "rcall", "icall"}
WATCHED = ("k", "got", "n")  # of one byte each

Row = tuple[int, str, int, str]  # cycle, kind, address (of an entry the vector), the rest


class Facts:
    """A run of moved.hex in a folder, and what its rows say."""

    def __init__(self, folder: Path, draw: random.Random) -> None:
        self.folder, self.elf = folder, f"{folder}/moved.elf"
        self.toml, self.trace = f"{folder}/rows.toml", f"{folder}/rows.trace"
        self.run_from(draw.choice([0, draw.randint(1_000, 100_000), draw.randint(270_000, 285_000)]), draw)
        if not self.traced:  # it stopped before that window
            self.run_from(0, draw)
        self.functions = self.sized()

    def run_from(self, first: int, draw: random.Random) -> None:
        """Its run with a window from a cycle on, and a byte that arrives there."""
        self.first, self.end = first, first + LENGTH
        more = f"window = [{self.first}, {self.end}]"
        at = max(self.first, 4_000) + draw.randint(0, LENGTH // 2)
        scenario("moved.hex", Path(self.toml), at=at, cycles=LIMIT, hex_="414243", more=more)
        self.text = self.called("run", "--plain", "rows.toml")
        Path(self.trace).write_text(self.text, encoding="ascii")
        found = re.findall(r"(?m)^(\d+) 0 (instr|enter|stop) ([0-9A-F]{4}) (.*)$", self.text)
        self.rows: list[Row] = [(int(c), kind, int(word, 16), rest) for c, kind, word, rest in found]
        self.traced = [row for row in self.rows if row[1] != "stop"]

    def called(self, *words: str) -> str:
        done = subprocess.run([str(PROGRAM), *words], cwd=self.folder, capture_output=True, check=True)
        return done.stdout.decode("ascii")

    def told(self, *words: str) -> str:
        status, out, err = run_tool(*words)
        assert status == 0, f"{' '.join(words)}: status {status}: {err}"
        return out

    def sized(self) -> list[tuple[int, int, str]]:
        """The functions whose size the symbols tell: their first word, the one behind the last, their names. Not those
        in which another one begins, nor those behind which none does."""
        done = subprocess.run(["avr-nm", "-S", self.elf], capture_output=True, text=True, check=True)
        spans = re.findall(r"(?m)^([0-9a-f]{8}) ([0-9a-f]{8}) [tTwW] (\S+)$", done.stdout)
        begins = collections.Counter(int(at, 16) // 2 for at, _, _ in spans)
        begins.update(int(at, 16) // 2 for at in re.findall(r"(?m)^([0-9a-f]{8}) [TW] \S+$", done.stdout))
        found = [(int(at, 16) // 2, (int(at, 16) + int(size, 16)) // 2, name) for at, size, name in spans]
        return [
            (first, end, name)
            for first, end, name in found
            if sum(begins[word] for word in range(first, end)) == 1 and begins[end] and not name.startswith("__do_")
        ]

    def name(self, word: int) -> str | None:
        return next((name for first, end, name in self.functions if first <= word < end), None)

    def shown(self, word: int) -> str | None:
        """The name of a function as the tools tell it: that of a handler is its vector's."""
        name = self.name(word)
        return VECTORS.get(name, name) if name else None

    def costs(self) -> tuple[collections.Counter[str], collections.Counter[str]]:
        """Cycles and rows by function, and of sleeps and entries; those of other code as one."""
        cycles: collections.Counter[str] = collections.Counter()
        counts: collections.Counter[str] = collections.Counter()
        stop = next((row[0] for row in self.rows if row[1] == "stop"), self.end)
        ends = [row[0] for row in self.traced[1:]] + [max(min(self.end, stop), self.traced[-1][0])]
        for (cycle, kind, word, rest), end in zip(self.traced, ends):
            name = "(entering interrupts)" if kind == "enter" else self.shown(word) or "others"
            counts[name] += 1
            own = 1 if rest == "sleep" and kind == "instr" else end - cycle
            cycles[name] += own
            cycles["(asleep)"] += end - cycle - own
        cycles["(stopped)"] += max(0, self.end - stop)
        cycles["(before the first row)"] += self.traced[0][0] - self.first
        return +cycles, +counts

    def calls(self) -> collections.Counter[tuple[str | None, str | None]]:
        """How often a function calls another, by their names: by the row behind a call, or where an interrupt came
        first, by where that returns to. A call of the next word makes room on the stack."""
        found: collections.Counter[tuple[str | None, str | None]] = collections.Counter()
        for (_, kind, word, rest), (_, next_kind, at, next_rest) in zip(self.traced, self.traced[1:]):
            if kind == "enter":
                continue
            callee = int(next_rest, 16) if next_kind == "enter" else at
            is_room = callee == word + 1 and not any(first == callee for first, _, _ in self.functions)
            if rest.split()[0] in CALLS and not is_room:
                found[self.shown(word), self.shown(callee)] += 1
        return found


VECTORS = {
    "__vector_9": "TIMER2_COMP_vect",
    "__vector_12": "TIMER1_COMPA_vect",
    "__vector_15": "TIMER0_COMP_vect",
    "__vector_16": "TIMER0_OVF_vect",
    "__vector_17": "SPI_STC_vect",
    "__vector_18": "USART0_RX_vect",
    "__vector_19": "USART0_UDRE_vect",
    "__vector_20": "USART0_TX_vect",
    "__vector_26": "TIMER3_COMPA_vect",
}


def told_otherwise(folder: Path, draw: random.Random) -> list[str]:
    """What is told otherwise of moved.elf in a folder, whose image is moved.hex."""
    facts = Facts(folder, draw)
    found: list[str] = []
    for check in (profile, callers, coverage, callgrind, csv, annotate, changes, waves, inspected, text):
        found += [f"{check.__name__}: {wrong}" for wrong in check(facts, draw)]
    return [f"window from {facts.first}: {wrong}" for wrong in found]


def number(text: str) -> int:
    return int(text.replace(",", ""))


def profile(facts: Facts, draw: random.Random) -> list[str]:
    out = facts.told("profile", "-s", facts.toml, "-e", facts.elf, facts.trace)
    table = re.findall(r"(?m)^ *([\d,]+) +[\d.]+ +(\d*)  (.+)$", out[out.index("all nodes") :])
    names = {facts.shown(first) for first, _, _ in facts.functions} | {
        "(entering interrupts)", "(asleep)", "(stopped)", "(before the first row)"
    }  # fmt: skip
    cycles: collections.Counter[str] = collections.Counter()
    counts: collections.Counter[str] = collections.Counter()
    for taken, rows, name in table:
        cycles[name if name in names else "others"] += number(taken)
        counts[name if name in names else "others"] += int(rows or 0)
    wanted = facts.costs()
    return [f"{cycles} {counts}, not {wanted}"] * ((+cycles, +counts) != wanted)


def callers(facts: Facts, draw: random.Random) -> list[str]:
    out = facts.told("profile", "--callers", "-s", facts.toml, "-e", facts.elf, facts.trace)
    pairs = re.findall(r"(?m)^ *([\d,]+)  (.+) > (.+)$", out)
    names = {facts.shown(first) for first, _, _ in facts.functions}
    names -= set(VECTORS.values())  # a handler may be interrupted between its entry and its first row
    told = collections.Counter({(by, to): number(count) for count, by, to in pairs if {by, to} <= names})
    wanted = collections.Counter({pair: count for pair, count in facts.calls().items() if set(pair) <= names})
    return [f"{told - wanted} too much, {wanted - told} lacking"] * (told != wanted)


def coverage(facts: Facts, draw: random.Random) -> list[str]:
    out = facts.told("profile", "--coverage", "-s", facts.toml, "-e", facts.elf, facts.trace)
    told = {name: (int(ran), int(of)) for ran, of, name in re.findall(r"(?m)^ *(\d+) +(\d+) +\d+  (\S+)$", out)}
    ran = {word for _, kind, word, _ in facts.rows if kind == "instr"}
    listed = subprocess.run(["avr-objdump", "-dz", facts.elf], capture_output=True, text=True, check=True).stdout
    words = {int(at, 16) // 2 for at in re.findall(r"(?m)^ *([0-9a-f]+):\t", listed)}
    found = []
    for first, end, name in facts.functions:
        span = set(range(first, end)) & words
        wanted = (len(span & ran), len(span))
        shown = VECTORS.get(name, name)
        if shown in told and told[shown] != wanted:
            found.append(f"{shown} {told[shown]}, not {wanted}")
    return found


def callgrind(facts: Facts, draw: random.Random) -> list[str]:
    path = f"{facts.folder}/rows.callgrind"
    facts.told("export", "callgrind", "-s", facts.toml, "-e", facts.elf, "-o", path, facts.trace)
    own: collections.Counter[tuple[str, int]] = collections.Counter()
    name, is_call = "", False
    for line in Path(path).read_text(encoding="utf-8").splitlines():
        if line.startswith("fn="):
            name = line[3:]
        elif line.startswith("calls="):
            is_call = True
        elif line.startswith("0x"):
            if not is_call:
                at, _, cycles, _ = line.split()
                own[name, int(at, 16) // 2] += int(cycles)
            is_call = False
    by_word: collections.Counter[int] = collections.Counter()
    for (_, word), cycles in own.items():
        by_word[word] += cycles
    wanted: collections.Counter[int] = collections.Counter()
    stop = next((row[0] for row in facts.rows if row[1] == "stop"), facts.end)
    ends = [row[0] for row in facts.traced[1:]] + [max(min(facts.end, stop), facts.traced[-1][0])]
    for (cycle, _, word, rest), end in zip(facts.traced, ends):
        wanted[word] += 1 if rest == "sleep" else end - cycle
    return [f"{+by_word - wanted}, not {+wanted - by_word}"] * (+by_word != +wanted)


def csv(facts: Facts, draw: random.Random) -> list[str]:
    path = f"{facts.folder}/rows.csv"
    facts.told("export", "csv", "-s", facts.toml, "-o", path, facts.trace)
    told = [line.split(",")[:3] for line in Path(path).read_text(encoding="utf-8").splitlines()[1:]]
    wanted = [line.split(" ")[:3] for line in facts.text.splitlines()]
    return [f"{len(told)} rows, not {len(wanted)}"] * (told != wanted)


def annotate(facts: Facts, draw: random.Random) -> list[str]:
    """The source line of each instruction, beside avr-addr2line."""
    out = facts.told("annotate", "-s", facts.toml, "-e", facts.elf, facts.trace)
    told = {int(word, 16): note for word, note in re.findall(r"(?m)^\d+ 0 instr ([0-9A-F]{4}) .*? ; (.*)$", out)}
    words = sorted(told)
    asked = ["avr-addr2line", "-s", "-e", facts.elf, *(f"{2 * word:#x}" for word in words)]
    lines = subprocess.run(asked, capture_output=True, text=True, check=True).stdout.splitlines()
    found = []
    for word, line in zip(words, lines):
        line = line.split(" ")[0]
        name, shown = facts.shown(word), told[word]
        if name and shown.split("+")[0].split(" ")[0] != name:
            found.append(f"{word:04X} is {shown}, and in {name}")
        if re.search(r":\d+$", line) and not shown.endswith(f" {line}"):
            found.append(f"{word:04X} is {shown}, and of {line}")
    return found[:5]


def watched(facts: Facts, address: int, first: int, end: int) -> list[tuple[int, int]]:
    """Each change of a byte, by `watch`: the cycle and the new value."""
    (facts.folder / "places").write_text(f"0 byte {address:04X}\n", encoding="ascii")
    out = facts.called("watch", "rows.toml", str(first), str(end), "places")
    return [(int(line.split()[0]), int(line.split()[4], 16)) for line in out.splitlines()]


def addresses(facts: Facts) -> dict[str, int]:
    done = subprocess.run(["avr-nm", facts.elf], capture_output=True, text=True, check=True)
    found = re.findall(r"(?m)^([0-9a-f]{8}) [bBdD] (\w+)$", done.stdout)
    return {name: int(at, 16) - 0x800000 for at, name in found if name in WATCHED}


def changes(facts: Facts, draw: random.Random) -> list[str]:
    found = []
    first, end = facts.first, facts.first + 3_000
    for name, address in addresses(facts).items():
        words = ["-e", facts.elf, "-n", "0", "-w", name, "--from", str(first), "--until", str(end), "--no-writers"]
        status, out, err = run_tool("changes", *words, facts.toml)
        if status:
            found.append(f"{name}: status {status}: {err}")
        told = [(number(at), int(value)) for at, value in re.findall(rf"(?m)^ *([\d,]+) +0  {name}: \d+ -> (\d+)", out)]
        wanted = watched(facts, address, first, end)
        if told != wanted:
            found.append(f"{name}: {len(told)} changes, not {len(wanted)}: {sorted(set(told) ^ set(wanted))[:4]}")
    return found


def waves(facts: Facts, draw: random.Random) -> list[str]:
    places = addresses(facts)
    words = [word for name in places for word in ("--watch", name)]
    out = facts.told("vcd", "-s", facts.toml, "-e", facts.elf, *words, facts.trace)
    codes = {name: code for code, name in re.findall(r"\$var \w+ \d+ (\S+) (\w+)(?: \[[^]]*\])? \$end", out)}
    found = []
    body = out[out.index("$enddefinitions") :]
    for name, address in places.items():
        cycle, told = 0, []
        for line in body.splitlines():
            if line.startswith("#"):
                cycle = int(line[1:])
            elif line.startswith("b") and line.split(" ")[1:] == [codes[name]] and "x" not in line:
                told.append((cycle, int(line[1:].split()[0], 2)))
        begun = [(0, 0)] if not facts.first else told[:1]
        wanted = [(at + 1, value) for at, value in watched(facts, address, 0, LIMIT)]
        told = [one for one in told if one[0] > (begun[0][0] if begun else 0)]
        wanted = [one for one in wanted if not begun or one[0] > begun[0][0]]
        if told != wanted:
            found.append(f"{name}: {len(told)} changes, not {len(wanted)}: {sorted(set(told) ^ set(wanted))[:4]}")
    return found


def inspected(facts: Facts, draw: random.Random) -> list[str]:
    cycle = draw.randint(facts.first, facts.end)
    words = [word for name in addresses(facts) for word in ("-g", name)]
    out = facts.told("inspect", "--at", str(cycle), "-e", facts.elf, *words, facts.toml)
    sram = re.search(r"(?m)^sram 0 (\w+)$", facts.called("look", "rows.toml", str(cycle)))
    assert sram
    found = []
    for name, address in addresses(facts).items():
        wanted = int(sram[1][2 * (address - 0x100) :][:2], 16)
        if not re.search(rf"(?m)^  {address:04X} uint8_t {name} = {wanted}$", out):
            found.append(f"{name} is {wanted} in cycle {cycle}: {out[-300:]}")
    return found


def text(facts: Facts, draw: random.Random) -> list[str]:
    """How often a case counts rows, and that one more or less fails."""
    written = facts.text.count(" 0 serial ")
    entries = facts.text.count(" 0 enter ")
    case = facts.folder / "rows.expect"
    found = []
    for more in (0, 1):
        lines = [f"run {Path(facts.toml).name}", f"count == {written + more}: * 0 serial *"]
        lines += [f"count == {entries + more}: * 0 enter *"] * bool(facts.first == 0)
        case.write_text("\n".join(lines) + "\n", encoding="ascii")
        status, out, err = run_tool("expect", str(case))
        if status != (1 if more else 0):
            found.append(f"{lines}: status {status}: {out}{err}")
    return found
