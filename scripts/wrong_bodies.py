#!/usr/bin/env python3
"""Makes wrong bodies of a crate's functions, and asks the checker which of them the contracts let through.

    scripts/wrong_bodies.py CRATE [--only WORD] [--kinds PATTERN] [--list] [--room FOLDER] [--minutes N]

It takes the body of each function (except `drop`, and those that are made for a test) and changes one thing. The body
then returns at once, gives the other of two answers, has another number or constant, leaves a call out, has an empty
arm, turns a test, or names the other variant of an enum of the crate. Functions none of which calls another are
changed in one copy of the crate, and checked by `--only` in one run. A number that is changed is changed in the
answers of its function too, in a second try, and answers that do not fit any more (of a loop or a branch that is gone,
say) are left out in the next, so that a refusal is one of the contract.
`Err(NoMemory)` is not tried: every contract that has it lets it through.

A line for each body that is proved: FILE:LINE FUNCTION: what was changed. The last line counts those that were
proved, refused, and not read by the compiler. docs/CASES.md ("Bodies that no clause refuses") says which stored case
tells of a body that is proved, or why none can; what stands there is marked `known`. --list prints the bodies and
checks nothing. --room keeps the libraries below the crate, as prove.py does, and makes those that are missing
(scripts/from_gate.py ROOM takes them from the gate). --minutes ends it early, and it says how many were left. It
proves, so it takes a processor for minutes. Exit status: 0 each body that is proved is known, 1 one is not, 2 bad
words, 3 the crate itself is not proved.
"""
import argparse
import re
import shutil
import subprocess
import sys
import tempfile
import time
from dataclasses import dataclass, field
from pathlib import Path

sys.dont_write_bytecode = True
TOP = Path(__file__).resolve().parent.parent
sys.path.insert(0, str(TOP))
import prove  # noqa: E402 (it lies above this folder)

FN = re.compile(r"^(\s*)(?:pub(?:\([^)]*\))? )?(?:const )?fn (\w+)")
IMPL = re.compile(r"^impl(?:<.*?>)? (?:(\w+)(?:<.*?>)? for )?(\w+)(?:<.*?>)? \{$")
TRAIT = re.compile(r"^(?:pub(?:\([^)]*\))? )?trait (\w+)\b.*\{$")
CONST = re.compile(r"^(\s*)(?:pub(?:\([^)]*\))? )?const (\w+): (\w+) = ([\d_]+|u\d+::MAX);$")
TYPE = re.compile(r"^(?:pub(?:\([^)]*\))? )?(?:struct|enum) (\w+)\b")
ENUM = re.compile(r"^(?:pub(?:\([^)]*\))? )?enum (\w+)\b.*\{$")
VARIANT = re.compile(r"^    (\w+),$")
NUMBER = re.compile(r"(?<![\w.'\"])(\d[\d_]*)(?![\w'\"])")
CALL = re.compile(r"^(\s*)(?:let _ = )?[\w.:]+(?:::<[^;]*>)?\(.*\)\??;$")
STORE = re.compile(r"^\s*(?!let\b)[\w.]+(?:\[[^\]]*\])?(?:\.\w+)* [-+|&]?= .*;$")
ARM = re.compile(r"^(\s*[^/]*=> )(?!\{)(.*\(.*\)),$")
SAID = re.compile(r"^fn (?:\w+::)?(\S+): (.*)$")
FRONT = re.compile(r"^(?:\S*/)?src/([\w/]+\.rt):(\d+):\d+: error")
UNFIT = re.compile(r"^(?:\./)?(proofs/([\w/]+)/\w+\.antt):(\d+):\d+: error", re.M)
# How often answers are left out: where some are gone, others may fit no more.
MOST_TRIES = 3


@dataclass
class Function:
    """A function of the crate: where its body is, and what it calls."""

    path: Path
    name: str
    first: int
    last: int
    result: str
    body: list = field(default_factory=list)

    def title(self):
        return self.name.rsplit("::", 1)[-1]

    def calls(self, names):
        text = "\n".join(self.body)
        return {it for it in names if it != self.title() and re.search(rf"\b{it}(?:::<[^(]*>)?\(", text)}


@dataclass
class Wrong:
    """One change: these lines of a file in place of those."""

    function: Function
    first: int
    last: int
    lines: list
    what: str
    literal: tuple = ()

    def where(self, crate):
        return f"{self.function.path.relative_to(crate)}:{self.first + 1} {self.function.name}: {self.what}"


# ---- what a crate has


def result_of(lines):
    """The type that a signature of these lines gives, or nothing."""
    text = " ".join(it.strip() for it in lines)
    text = re.split(r" (?:requires|ensures)\b", text)[0]
    found = re.search(r"\) -> (.*?)(?: \{| where .*)?$", text)
    return found[1].strip() if found else ""


def homes_of(source):
    """The module of each type of the crate: the checker names a function of a type by it, wherever its `impl` stands."""
    return {
        it[1]: module_of(path, source)
        for path in sorted(source.rglob("*.rt"))
        for line in path.read_text(encoding="utf-8").split("\n")
        if (it := TYPE.match(line))
    }


def functions_of(path, module, homes):
    """The functions of a file that is laid out as `rt fmt` does it: a body ends where a brace stands as far in as its head."""
    lines, owner, found = path.read_text(encoding="utf-8").split("\n"), "", []
    home = module
    for at, line in enumerate(lines):
        if it := IMPL.match(line):
            owner, home = it[2] + (it[1] or ""), homes.get(it[2], module)
        elif it := TRAIT.match(line):
            owner, home = it[1], module
        elif line == "}":
            owner, home = "", module
        if not (it := FN.match(line)) or lines[max(at - 1, 0)].strip() == "#[test]":
            continue
        indent, name = it[1], it[2]
        last = next((k for k in range(at, len(lines)) if lines[k] == f"{indent}}}"), None)
        if last is None or name == "drop":
            continue
        opens = next((k for k in range(at, last) if lines[k].endswith("{") and (lines[k] == f"{indent}{{" or k == at)), None)
        if opens is None:
            opens = next((k for k in range(at, last) if lines[k].startswith(f"{indent})") and lines[k].endswith("{")), None)
        if opens is None:
            continue
        parts = [it for it in (home if indent else module, owner if indent else "", name) if it]
        found.append(Function(path, "::".join(parts), opens + 1, last, result_of(lines[at : opens + 1]), lines[opens + 1 : last]))
    return found


def module_of(path, source):
    parts = list(path.relative_to(source).with_suffix("").parts)
    return "::".join(it for it in parts if it not in ("lib", "main"))


def variants_of(source):
    """Each name `ENUM::VARIANT` without a payload, with the others of its enum."""
    other = {}
    for path in sorted(source.rglob("*.rt")):
        name, found = None, []
        for line in path.read_text(encoding="utf-8").split("\n"):
            if it := ENUM.match(line):
                name, found = it[1], []
            elif name and (it := VARIANT.match(line)):
                found.append(f"{name}::{it[1]}")
            elif name and line == "}":
                other.update({it: next(o for o in found if o != it) for it in found if len(found) > 1})
                name = None
    return other


# ---- wrong bodies


def at_once(function):
    """Bodies that do nothing, by what the function gives."""
    indent = re.match(r"\s*", next((it for it in function.body if it.strip()), ""))[0]
    answers = {"": [None], "bool": ["true", "false"]}.get(function.result)
    if answers is None:
        kind = function.result
        answers = ["0"] if re.fullmatch(r"[ui](?:8|16|32|64|size)", kind) else ["None"] if kind.startswith("Option<") else ["Ok(())"] if kind.startswith("Result<()") else []
    for answer in answers:
        what = "returns at once" if answer is None else f"gives {answer} at once"
        yield Wrong(function, function.first, function.last, [] if answer is None else [indent + answer], what)


def numbers_in(line):
    """The line with one of its numbers changed, which it was, and which it is."""
    code = line.split("//")[0]
    for it in NUMBER.finditer(code):
        if re.search(r"\b(?:tuple\.|\.)$", code[: it.start()]):
            continue
        old = int(it[1].replace("_", ""))
        for new in {old + 1, 1 if old > 2 else 0} - {old}:
            yield line[: it.start()] + str(new) + line[it.end() :], old, new


SWAPS = (
    (r"\bif (?!let\b)(.+) \{$", r"if !(\1) {", "the test is turned"),
    (r"(?<![-=<]) < ", " <= ", "< is <="),
    (r" <= ", " < ", "<= is <"),
    (r"(?<![-=]) > ", " >= ", "> is >="),
    (r" >= ", " > ", ">= is >"),
    (r" == ", " != ", "== is !="),
    (r" && ", " || ", "&& is ||"),
    (r" \|\| ", " && ", "|| is &&"),
    (r"\.min\(", ".max(", "min is max"),
    (r"\.max\(", ".min(", "max is min"),
    (r"\btrue\b", "false", "true is false"),
    (r"\bfalse\b", "true", "false is true"),
    (r"\.saturating_sub\(", ".saturating_add(", "a difference is a sum"),
    (r"\.saturating_add\(", ".saturating_sub(", "a sum is a difference"),
)


def in_line(function, at, line, other):
    """The changes of one line."""

    def changed(text, what, literal=()):
        return Wrong(function, at, at + 1, [text], what, literal)

    if line.strip().startswith("//"):
        return
    for pattern, by, what in SWAPS:
        text = re.sub(pattern, by, line, count=1)
        if text != line:
            words = tuple(what.split(" is ")) if what.startswith(("true", "false")) else ()
            yield changed(text, what, words)
    for text, old, new in numbers_in(line):
        yield changed(text, f"{old} is {new}", (str(old), str(new)))
    if CALL.match(line):
        yield Wrong(function, at, at + 1, [], "a call is left out")
    if STORE.match(line):
        yield Wrong(function, at, at + 1, [], "an assignment is left out")
    if it := ARM.match(line):
        yield changed(f"{it[1]}{{}}" + ",", "an arm is empty")
    for name, by in other.items():
        if re.search(rf"\b{name}\b", line) and "=>" not in line.split(name)[1]:
            yield changed(re.sub(rf"\b{name}\b", by, line, count=1), f"{name} is {by}")


def long_calls(function):
    """Calls of several lines that are left out."""
    at = 0
    while at < len(function.body):
        line = function.body[at]
        indent = re.match(r"\s*", line)[0]
        if re.fullmatch(r"\s*(?:self|[a-z_]+(?:\.[a-z_]+)*)(?:\.\w+)*\(?", line) and not line.strip().startswith(("let", "return", "match", "loop", "else")):
            for end in range(at + 1, len(function.body)):
                if not function.body[end].startswith(indent):
                    break
                if function.body[end].endswith(";"):
                    yield Wrong(function, function.first + at, function.first + end + 1, [], "a call is left out")
                    at = end
                    break
        at += 1


def wrong_bodies(functions, other):
    for function in functions:
        yield from at_once(function)
        for at, line in enumerate(function.body, function.first):
            yield from in_line(function, at, line, other)
        yield from long_calls(function)


def wrong_constants(path, functions):
    """Constants of a file with another value: it is asked of each function that names one."""
    for at, line in enumerate(path.read_text(encoding="utf-8").split("\n")):
        if not (it := CONST.match(line)):
            continue
        users = [f for f in functions if re.search(rf"\b{it[2]}\b", "\n".join(f.body))]
        old = it[4].replace("_", "")
        values = ["0"] if not old.isdigit() else [str(n) for n in sorted({1, int(old) + 1, 1000 * int(old)} - {int(old)})]
        for user in users[:1]:
            for new in values:
                text = line.replace(f"= {it[4]};", f"= {new};")
                wrong = Wrong(user, at, at + 1, [text], f"{it[2]} is {new}", (old, new) if old.isdigit() else ())
                wrong.function = Function(path, user.name, user.first, user.last, user.result, user.body)
                wrong.users = [f.name for f in users]
                yield wrong


# ---- the checker


class Checker:
    """Checks copies of the crate over the libraries below it."""

    def __init__(self, name, folder):
        crates = prove.crates_below("command_facts" if name not in prove.crates_below(prove.RELEASED) else prove.RELEASED)
        self.room = prove.Room(str(folder.resolve()), prove.Kit(), crates)
        self.crate = crates[name]
        folder.mkdir(parents=True, exist_ok=True)
        below, todo = [], list(self.crate.uses)
        while todo:
            it = todo.pop()
            if it in crates and it not in below:
                below.append(it)
                todo += crates[it].uses
        prove.prove(self.room, below)  # those that are there stay as they are
        self.kept = folder / f"{name}.bodies"
        self.kept.mkdir(exist_ok=True)

    def names(self):
        """All functions of the crate as it stands, which are to be proved."""
        said, _, text = self.say(self.crate.folder, [])
        if not re.search(r"^logic=proved ", text, re.M):
            raise prove.NotProved(f"{self.crate.name} is not proved as it stands", text)
        return set(said)

    def say(self, tree, only):
        """What the checker says of these functions of a copy, or of all: by their names, and the lines of the front end."""
        kit = self.room.kit.folder
        words = [f"{kit}/bin/rattle", "check", *prove.given(self.room, self.crate, 1), "--incremental", str(self.kept)]
        for name in only:
            words += ["--only", name]
        ran = subprocess.run(words, cwd=tree, stdin=subprocess.DEVNULL, capture_output=True, text=True, errors="replace", check=False)
        text = ran.stdout + ran.stderr
        said = {it[1]: it[2] for line in text.split("\n") if (it := SAID.match(line))}
        front = [(it[1], int(it[2])) for line in text.split("\n") if (it := FRONT.match(line))]
        return said, front, text


def put(tree, crate, wrongs, follow):
    """Writes the changes into a copy: those of a file from its end on, so that lines keep their numbers."""
    for wrong in sorted(wrongs, key=lambda it: -it.first):
        path = tree / wrong.function.path.relative_to(crate)
        lines = path.read_text(encoding="utf-8").split("\n")
        lines[wrong.first : wrong.last] = wrong.lines
        path.write_text("\n".join(lines), encoding="utf-8")
        if follow and wrong.literal:
            for name in getattr(wrong, "users", [wrong.function.name]):
                answers = tree / "proofs" / Path(*name.split("::"))
                for file in answers.glob("*.antt"):
                    text = file.read_text(encoding="utf-8")
                    file.write_text(re.sub(rf"(?<![\w.]){wrong.literal[0]}(?![\w.])", wrong.literal[1], text), encoding="utf-8")


def leave_out(tree, text, only):
    """Takes those answers out of a copy that do not fit, by what the checker says; the functions among these whose they were."""
    unfit = {}
    for it in UNFIT.finditer(text):
        if (name := it[2].replace("/", "::")) in only:
            unfit.setdefault((it[1], name), set()).add(int(it[3]))
    for (file, _), lines in unfit.items():
        path, kept, at = tree / file, [], 1
        for block in path.read_text(encoding="utf-8").split("\n\n"):
            behind = at + block.count("\n") + 2
            if not lines.intersection(range(at, behind)):
                kept.append(block)
            at = behind
        path.write_text("\n\n".join(kept), encoding="utf-8")
    return sorted({name for _, name in unfit})


class Trial:
    """Bodies that wait to be tried, and what came of the others."""

    def __init__(self, checker, crate, functions, minutes):
        self.checker, self.crate, self.functions = checker, crate, functions
        self.ends = time.monotonic() + 60 * minutes if minutes else None
        self.proved, self.refused, self.unread, self.left = [], 0, 0, 0
        titles = {it.title() for it in functions}
        self.calls = {it.name: it.calls(titles) for it in functions}

    def meets(self, one, other):
        """Whether the check of one function may hide that of the other: by a chain of calls, or since both are one function."""
        return one.name == other.name or other.title() in self.reach(one) or one.title() in self.reach(other)

    def reach(self, function):
        found, todo = set(), {function.title()}
        while todo:
            name = todo.pop()
            new = set().union(*(calls for full, calls in self.calls.items() if full.rsplit("::", 1)[-1] == name)) - found
            found |= new
            todo |= new
        return found

    def batch(self, wrongs):
        """As many of these as can be tried together, and the rest."""
        taken, rest = [], []
        for it in wrongs:
            apart = all(not self.meets(it.function, one.function) and (it.function.path != one.function.path or it.last <= one.first or it.first >= one.last) for one in taken)
            (taken if apart and not (taken and hasattr(it, "users")) and not any(hasattr(o, "users") for o in taken) else rest).append(it)
        return taken, rest

    def checked(self, wrongs, follow):
        """Those of these that are proved; those that the compiler does not read are left out, and the rest is tried again."""
        while wrongs:
            with tempfile.TemporaryDirectory(prefix="wrong-") as folder:
                tree = Path(folder) / self.crate.name
                shutil.copytree(self.crate, tree, ignore=shutil.ignore_patterns("out", "out.log", "must-fail", "data"))
                put(tree, self.crate, wrongs, follow)
                only = sorted({name for it in wrongs for name in getattr(it, "users", [it.function.name])})
                said, front, text = self.checker.say(tree, only)
                for _ in range(MOST_TRIES):
                    if front or not (names := leave_out(tree, text, only)):
                        break
                    again, _, text = self.checker.say(tree, names)
                    said.update({name: again.get(name, "") for name in names})
            if not front and said:
                return [it for it in wrongs if all(said.get(n, "").startswith("proved") for n in getattr(it, "users", [it.function.name]))]
            files = {file for file, _ in front}
            bad = [it for it in wrongs if str(it.function.path.relative_to(self.crate / "src")) in files and any(
                file == str(it.function.path.relative_to(self.crate / "src")) and self.shifted(it, wrongs) - 1 <= line <= self.shifted(it, wrongs) + max(len(it.lines), 1) + 1 for file, line in front)]
            if not bad:
                bad = wrongs if len(wrongs) == 1 else []
            if not bad:
                # the lines tell no single body: each by itself
                return [found for it in wrongs for found in self.checked([it], follow)]
            self.unread += len(bad)
            wrongs = [it for it in wrongs if it not in bad]
        return []

    @staticmethod
    def shifted(wrong, wrongs):
        """The line of a body in the changed file."""
        above = [it for it in wrongs if it.function.path == wrong.function.path and it.first < wrong.first]
        return wrong.first + 1 + sum(len(it.lines) - (it.last - it.first) for it in above)

    def run(self, wrongs):
        while wrongs:
            if self.ends and time.monotonic() > self.ends:
                self.left = len(wrongs)
                return
            taken, wrongs = self.batch(wrongs)
            unread = self.unread
            proved = self.checked(taken, False)
            again = [it for it in taken if it.literal and it not in proved]
            if again and self.unread == unread:
                proved += self.checked(again, True)
            self.refused += len(taken) - len(proved) - (self.unread - unread)
            self.proved += proved
            for it in proved:
                print(it.where(self.crate) + (" (known)" if is_known(self.crate.name, it) else ""), flush=True)


def known():
    """The bodies that docs/CASES.md names, as CRATE FUNCTION: WHAT."""
    text = (TOP / "docs" / "CASES.md").read_text(encoding="utf-8")
    return re.findall(r"^\| `(\w+)` \| ([^|]*) \| ([^|]*) \|", text.partition("## Bodies that no clause refuses")[2], re.M)


def is_known(crate, wrong):
    """Whether a row of the document is of this crate and names this function, with what was changed or without."""
    names = {it for row in known() if row[0] == crate for it in re.findall(r"`([^`]*)`", row[1])}
    return wrong.function.title() in names or wrong.what.split(" ")[0] in names


def main():
    words = argparse.ArgumentParser(description=__doc__, formatter_class=argparse.RawDescriptionHelpFormatter)
    words.add_argument("crate")
    words.add_argument("--only", default="", help="functions whose name has this word")
    words.add_argument("--kinds", default="", help="bodies whose change fits this pattern, as 'at once|left out'")
    words.add_argument("--list", action="store_true", help="print the bodies, and check nothing")
    words.add_argument("--room", type=Path, default=Path(tempfile.gettempdir()) / "avrora-bodies")
    words.add_argument("--minutes", type=float, default=0)
    given = words.parse_args()
    crate = TOP / "crates" / given.crate
    if not (crate / "src").is_dir():
        words.error(f"{given.crate} is not a crate")
    source = crate / "src"
    files = sorted(source.rglob("*.rt"))
    homes = homes_of(source)
    functions = [it for path in files for it in functions_of(path, module_of(path, source), homes)]
    asked = [it for it in functions if given.only in it.name]
    wrongs = list(wrong_bodies(asked, variants_of(source)))
    wrongs += [it for path in files for it in wrong_constants(path, asked) if given.only in it.function.name]
    wrongs = [it for it in wrongs if re.search(given.kinds, it.what)]
    if given.list:
        for it in wrongs:
            print(it.where(crate))
        print(f"{given.crate}: {len(wrongs)} wrong bodies of {len(asked)} functions")
        return 0
    try:
        checker = Checker(given.crate, given.room)
        names = checker.names()
    except prove.NotProved as fault:
        print(f"wrong_bodies: {fault}", file=sys.stderr)
        return 3
    trial = Trial(checker, crate, functions, given.minutes)
    unnamed = {it.function.name for it in wrongs} - names
    if unnamed:
        print(f"wrong_bodies: the checker has no {', '.join(sorted(unnamed))}", file=sys.stderr)
    wrongs = [it for it in wrongs if it.function.name in names]
    trial.run(wrongs)
    unknown = [it for it in trial.proved if not is_known(given.crate, it)]
    print(f"{given.crate}: {len(wrongs)} wrong bodies, {len(trial.proved)} proved ({len(unknown)} not known), {trial.refused} refused, {trial.unread} not read, {trial.left} left")
    return 1 if unknown else 0


if __name__ == "__main__":
    sys.exit(main())
