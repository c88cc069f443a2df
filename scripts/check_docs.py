#!/usr/bin/env python3
"""Checks what can rot in the documents: sizes, lengths of sentences, links, names in backquotes, maps of the code and of the stored
cases, the count of lines that have to be believed, and command lines with what they print.

    scripts/check_docs.py                  all but the commands; it needs nothing but the repository
    scripts/check_docs.py --run [PROGRAM]  also runs the commands, with PROGRAM or the one that `./avrora` built
    scripts/check_docs.py --counts         first puts the counts of stored cases right
    scripts/check_docs.py --index          first writes the indexes: of lemmas, proofs/Lib.antt of each crate, and of scripts, docs/SCRIPTS.md

A command is a line `$ COMMAND` of a block that begins with ```console. It runs in a copy of the repository, in its
top folder or where the last `$ cd DIR` of the document led. The lines below it must be the first that it prints; a
line `...` stands for any lines, at the end for the rest. With no line below, it must end with status 0. A command
whose program or package is not installed is skipped by name. A count of cases is written `N cases [WORD]`, where WORD
is that of the stored run. Exit status: 0 all is right, 1 something is wrong, 2 bad words.
"""
import argparse
import contextlib
import fnmatch
import functools
import os
import re
import shutil
import subprocess
import sys
import tempfile
from pathlib import Path

import believed
import helps
import lemmas
import sentences
import trials
from doc_maps import Repository, wrong_maps
from gating import packages

TOP = Path(__file__).resolve().parent.parent

# How many bytes the reader of a document has time for.
MOST_BYTES = {
    "README.md": 9000,
    "SECURITY.md": 6500,
    "docs/PROOFS.md": 17000,
    "docs/SPEED.md": 7000,
    "docs/RELEASE.md": 5000,
    "docs/PROVING.md": 27000,
    "docs/DECISIONS.md": 22000,
    "docs/ARCHITECTURE.md": 13600,
    "docs/CASES.md": 11000,
}

# The documents whose commands are run.
WITH_COMMANDS = ("README.md", "docs/FIRMWARE.md", "docs/FORMATS.md", "docs/FAULTS.md", "tools/README.md")

# What would have the commands use another program.
LENT = ("AVRORA", "AVRORA_PROGRAM")

# Where the names are that documents may use, and what no document is checked against.
SOURCES = ("avrora", "prove.py", "crates.txt", "crates/", "bench/", "scripts/", "tools/", "examples/", ".ci/")
NO_SOURCES = ("crates/command_facts/stdout",)

# Names of other programs and of the kit that documents use and no source does, with whose they are.
OTHERS = {
    "shell and system": "bash cmp cut echo false grep head less make printf sed sort tail tr true ulimit valgrind callgrind perf taskset timeout",
    "gdb": "quit",
    "compilers": "avr avr-gcc avr-as avr-nm avr-objcopy avr-objdump avr-addr2line binutils simavr clang nm",
    "TOML": "inf nan",
    "avr-libc": "wdt_enable wdt_disable",
    "Arduino": "arduino-core-avr analogRead analogWrite attachInterrupt delay digitalWrite init millis tone",
    "Debian": "python3-pyelftools python3-junit xml python3-distributed gcc-avr avr-libc dpkg lintian mmdebstrap",
    "the kit": "START-HERE KIT rt rattle antt omega grind refl cc rw simp subst elim ap absurd using search std core",
}

CODE = re.compile(r"^(```|~~~).*?^\1\s*$|^(?: {4}|\t)\S[^\n]*$", re.M | re.S)
SPAN = re.compile(r"(?<!`)`([^`\n]+)`(?!`)")
LINK = re.compile(r"!?\[[^\]\n]*\]\(([^)\s]+)\)")
NAME = re.compile(r"[A-Za-z_][A-Za-z0-9_]*(?:(?:::|\.|-)[A-Za-z_][A-Za-z0-9_]*)*")
WORD = re.compile(r"[A-Za-z_][A-Za-z0-9_]*(?:-[A-Za-z0-9_]+)*")
CONSOLE = re.compile(r"^```console\n(.*?)^```", re.M | re.S)
COUNT = re.compile(r"([\d,]+) cases \[`(\w+=?)`\]")

# How tools and scripts say that a package is not installed, and the statuses by which they end then.
LACKING = re.compile(r"Debian: (?:apt-get install )?([a-z0-9][a-z0-9.+-]*)")
LACKS = (2, 3)

PATH_END = re.compile(r"\.(py|sh|rt|antt|md|toml|hex|c|h|s|S|txt|edit|cases|svg|html)$")


@functools.lru_cache(maxsize=None)
def tracked():
    """The paths of all files of the repository, those that are not committed yet too."""
    said = subprocess.run(["git", "ls-files", "-co", "--exclude-standard"], cwd=TOP, stdin=subprocess.DEVNULL, capture_output=True, text=True, check=True).stdout
    return [it for it in said.split("\n") if it and (TOP / it).is_file()]


@functools.lru_cache(maxsize=None)
def sources():
    """The texts of the sources."""
    paths = [it for it in tracked() if it.startswith(SOURCES) and it not in NO_SOURCES]
    return [(TOP / it).read_text(encoding="utf-8", errors="ignore") for it in paths]


@functools.lru_cache(maxsize=None)
def words():
    """All words of the sources, and the names of their files and folders."""
    found = set(" ".join(OTHERS.values()).split())
    for path in filter(lambda it: it.startswith(SOURCES), tracked()):
        found.update(part for piece in path.split("/") for part in (piece, piece.split(".")[0]))
    for text in sources():
        for word in WORD.findall(text):
            found.add(word)
            found.update(word.split("-"))
    return found


def documents():
    """The documents by path, each with its text."""
    paths = [it for it in tracked() if it in ("README.md", "SECURITY.md", "CHANGELOG.md") or re.fullmatch(r"(docs|tools)/[^/]*\.md", it)]
    return {path: (TOP / path).read_text(encoding="utf-8") for path in paths}


def prose(text):
    """A text with its code blocks blanked out, line by line."""
    return CODE.sub(lambda it: "\n" * it[0].count("\n"), text)


def line_of(text, place):
    return text.count("\n", 0, place) + 1


def sizes(path, text):
    most, bytes_ = MOST_BYTES.get(path), len(text.encode())
    if most and bytes_ > most:
        yield f"{path}: {bytes_} bytes; its reader has time for {most}"


def slug(heading):
    """The anchor of a heading, as the usual renderers make it."""
    kept = re.sub(r"[^\w\- ]", "", re.sub(r"\[([^\]]*)\]\([^)]*\)", r"\1", heading).lower())
    return kept.strip().replace(" ", "-")


def anchors(path):
    return {slug(it) for it in re.findall(r"^#+ (.*)$", prose((TOP / path).read_text(encoding="utf-8")), re.M)}


def links(path, text):
    for it in LINK.finditer(prose(text)):
        target, _, anchor = it[1].partition("#")
        if re.match(r"[a-z]+:", it[1]):
            continue
        leads = os.path.normpath(os.path.join(os.path.dirname(path), target)) if target else path
        if not (TOP / leads).exists():
            yield f"{path}:{line_of(text, it.start())}: the link to {it[1]} leads nowhere"
        elif anchor and leads.endswith(".md") and anchor not in anchors(leads):
            yield f"{path}:{line_of(text, it.start())}: {leads} has no heading #{anchor}"


def is_path(span):
    return ("/" in span or PATH_END.search(span)) and not re.search(r"\s|^/|^-|=|<|\bout/|[A-Z]{3,}(?!\.)\b", span)


def leads_to_file(span):
    """Whether a path, with or without its end and the folders above it, is one of the repository, or a file that it writes."""
    wanted = span.removeprefix("./").removeprefix("../").rstrip("/")
    # what a script writes: its name, or a text of the script's that begins with its path
    if any((span if "/" not in span else f'"{wanted}') in text for text in sources()):
        return True
    for path in tracked():
        for it in (path, path.rpartition(".")[0]):
            if it == wanted or it.endswith("/" + wanted) or fnmatch.fnmatch(it, wanted) or fnmatch.fnmatch(it, "*/" + wanted):
                return True
        if f"/{wanted}/" in f"/{path}" or fnmatch.fnmatch(path, wanted + "/*"):
            return True
    return False


def names(path, text):
    # what the reader's own commands make, by any of its ends
    own = {part for block in CODE.finditer(text) for word in re.findall(r"[\w./-]+", block[0]) for part in (word, word.split(".")[0])}
    for it in SPAN.finditer(prose(text)):
        span, where = it[1].strip(), f"{path}:{line_of(text, it.start())}"
        first = span.split()[0] if span.split() else ""
        if is_path(first):
            if not leads_to_file(first) and not own & {first, first.split(".")[0]}:
                yield f"{where}: there is no file `{first}`"
        elif NAME.fullmatch(span) and re.search(r"[a-z]", span):
            gone = [part for part in re.split(r"::|\.", span) if part not in words() | own]
            if gone:
                yield f"{where}: nothing in the sources is called `{gone[0]}`"


def crates(texts):
    """Each crate stands in a document."""
    named = set(WORD.findall("\n".join(texts.values())))
    for line in (TOP / "crates.txt").read_text(encoding="utf-8").splitlines():
        name = line.partition("#")[0].partition(":")[0].strip()
        if name and name not in named:
            yield f"crates.txt: no document names {name}"


@functools.lru_cache(maxsize=None)
def stored_cases():
    """How many cases the stored run tells of each word, its files taken together."""
    found, word = {}, None
    for line in (TOP / "crates/command_facts/stdout").read_text(encoding="utf-8", errors="ignore").splitlines():
        if it := re.fullmatch(r"=== (\w+=?).*", line):
            word = it[1]
        elif it := re.match(r"[\w. ]+: (\d+) cases\b", line):
            found[word] = found.get(word, 0) + int(it[1])
    return found


def right_count(it):
    return f"{stored_cases().get(it[2], 0):,} cases [`{it[2]}`]"


def counts(path, text):
    for it in COUNT.finditer(text):
        if it[0] != right_count(it):
            yield f"{path}:{line_of(text, it.start())}: it says {it[0]}, the stored run {right_count(it)} (--counts puts it right)"


def commands(text):
    """Each command of a document with the lines that it is to print, and the line where it stands."""
    for block in CONSOLE.finditer(text):
        found = None
        for number, line in enumerate(block[1].splitlines(), line_of(text, block.start(1))):
            if line.startswith("$ "):
                if found:
                    yield found
                found = (line[2:], [], number)
            elif found:
                found[1].append(line)
        if found:
            yield found


class Here:
    """Where commands run: in copies of what they use, on this machine, in which `./avrora` finds a program and proves nothing."""

    def __init__(self, program):
        self.program = program

    @contextlib.contextmanager
    def place(self):
        """A copy, which goes again."""
        with tempfile.TemporaryDirectory() as top:
            copy_for(self.program, Path(top))
            yield top

    def run(self, command, place):
        """Runs a command line in a folder; what it wrote comes together."""
        environment = {key: value for key, value in os.environ.items() if key not in LENT}
        return subprocess.run(["bash", "-c", command], cwd=place, env=environment, stdin=subprocess.DEVNULL, stdout=subprocess.PIPE, stderr=subprocess.STDOUT, timeout=600, check=False)


def missing(command, shell):
    """The first program of a command line that is not installed."""
    for piece in re.split(r"\|\|?|&&|;|\(|\$\(", re.sub(r"'[^']*'|\"[^\"]*\"", "x", command)):
        parts = [it for it in piece.split() if not re.fullmatch(r"\w+=\S*", it)]
        if not parts or "/" in parts[0] or not re.fullmatch(r"[\w.+-]+", parts[0]):
            continue
        if shell.run(f"type {parts[0]}", "/").returncode != 0:
            return parts[0]
    return None


def package_of(program):
    """The Debian package of a program, as far as the list of the tests' packages tells."""
    return next((it.name for it in packages.listed() if it.kind == "program" and it.shown_by == program), program)


def agrees(lines, wanted):
    """Whether the lines begin as wanted; `...` stands for any lines."""
    if not wanted:
        return True
    if wanted[0] == "...":
        return any(agrees(lines[skip:], wanted[1:]) for skip in range(len(lines) + 1))
    return bool(lines) and lines[0].rstrip() == wanted[0].rstrip() and agrees(lines[1:], wanted[1:])


def copy_for(program, folder):
    """A copy of what commands use, in which `./avrora` finds this program and proves nothing."""
    for path in tracked():
        if path.startswith(("avrora", "docs/", "examples/", "scripts/", "tools/", "bench/", "README.md")):
            (folder / path).parent.mkdir(parents=True, exist_ok=True)
            shutil.copy2(TOP / path, folder / path)
    (folder / "prove.py").write_text("# The program is there.\n", encoding="utf-8")
    room = folder / "crates" / "avrora_program" / "out" / "rlib"
    room.mkdir(parents=True)
    (room / "avrora_program").symlink_to(program)


def run_commands(path, text, shell, skip=print):
    """What a document's commands print that does not stand there; `skip` is told which are skipped."""
    with shell.place() as top:
        place = top
        for command, wanted, number in commands(text):
            where = f"{path}:{number}"
            if it := re.fullmatch(r"cd (\S+)", command):
                place = os.path.join(place, it[1])
                continue
            if lacks := missing(command, shell):
                skip(f"{where}: skipped, {command} needs {lacks} (Debian's {package_of(lacks)})")
                continue
            ran = shell.run(command, place)
            lines = ran.stdout.decode(errors="replace").splitlines()
            lacks = LACKING.search("\n".join(lines))
            if lacks and ran.returncode in LACKS:
                skip(f"{where}: skipped, {command} needs a package (Debian's {lacks[1]})")
            elif not agrees(lines, wanted) or (not wanted and ran.returncode):
                yield "\n".join([f"{where}: {command}", "  is to print first", *(f"    {it}" for it in wanted), f"  and printed, with status {ran.returncode}", *(f"    {it}" for it in lines[: len(wanted) + 2])])


def why_no_files():
    """Why git does not tell which files the repository has, if it does not."""
    try:
        asked = subprocess.run(["git", "ls-files", "README.md"], cwd=TOP, stdin=subprocess.DEVNULL, capture_output=True, text=True, check=False)
    except OSError:
        return "git is not installed"
    return f"git does not tell the files: {asked.stderr.strip()}" if asked.returncode else None


def main():
    parser = argparse.ArgumentParser(description=__doc__, formatter_class=argparse.RawDescriptionHelpFormatter)
    parser.add_argument("--run", nargs="?", const=str(TOP / "crates/avrora_program/out/rlib/avrora_program"), metavar="PROGRAM", help="run the commands too")
    parser.add_argument("--counts", action="store_true", help="put the counts of stored cases right")
    parser.add_argument("--index", action="store_true", help="write the indexes of lemmas and of scripts")
    given = parser.parse_args()
    program = given.run
    if program and not os.access(program, os.X_OK):
        parser.error(f"there is no program {program}; ./avrora builds it")
    if cause := why_no_files():
        print(f"check_docs: nothing can be checked: {cause}", file=sys.stderr)
        return 3
    if given.counts:
        for path, text in documents().items():
            (TOP / path).write_text(COUNT.sub(right_count, text), encoding="utf-8")
    if given.index:
        lemmas.write(Repository(TOP, tracked()))
        helps.write(TOP)
    texts = documents()
    wrong = [it for path, text in texts.items() for check in (sizes, sentences.wrong, links, names, counts) for it in check(path, text)]
    wrong += [it for path, text in texts.items() for it in trials.wrong(TOP, path, text)]
    wrong += [it for path, text in texts.items() for it in believed.wrong(TOP, path, text)]
    wrong += crates(texts)
    wrong += wrong_maps(TOP, tracked())
    wrong += helps.wrong(TOP)
    if program:
        shell = Here(os.path.abspath(program))
        wrong += [it for path in WITH_COMMANDS if path in texts for it in run_commands(path, texts[path], shell)]
    for it in wrong:
        print(it)
    print(f"check_docs: {len(texts)} documents, {len(wrong)} wrong")
    return 1 if wrong else 0


if __name__ == "__main__":
    sys.exit(main())
