#!/usr/bin/env python3
"""PROVED, the file of a release that says which commit its program is of, with which kit it was proved, how the gate ended, and
which bytes the program has. Here it is written and read, and a program is compared with it and with a checkout.

    scripts/proved.py check PROGRAM   whether PROGRAM is that of a release of the commit of this checkout; else a line why not
    scripts/proved.py about PROGRAM   the kit that PROGRAM was proved with, and by which release

PROVED is taken at its word: whoever hands out a release answers for it. Exit status: 0 it is, 1 it is not, 2 bad
words.
"""
import hashlib
import os
import re
import subprocess
import sys
from typing import NamedTuple

TOP = os.path.dirname(os.path.dirname(os.path.realpath(__file__)))

# What the program is made from.
SOURCES = ("crates", "crates.txt")

# Where PROVED lies, seen from the folder of the program: beside it, at the top of an unpacked archive, where the package puts it.
PLACES = ("PROVED", "../../PROVED", "../../share/avrora/PROVED")

TEXT = """\
The program of this release is proved. This says of which sources, with what, and how to prove the same again.

release: {release}
commit: {commit}
kit: {kit}
logic sum: {logic_sum}
gate: {gate}
program: {program}

`gate` is the last line of the gate, `.ci/run`, on that commit with that kit: so many crates proved and wrong edits refused.
`program` is the SHA-256 of libexec/avrora/avrora_program. Again, in a checkout, with that kit's `rt` on the PATH:

    git checkout {commit}
    .ci/run >gate.log && tail -n 1 gate.log
    ./avrora check examples/relay.toml
    sha256sum crates/avrora_program/out/rlib/avrora_program
    scripts/release --gate-log gate.log ../made && sha256sum ../made/*

The second command is the gate, the third proves and builds the program, and the last makes this release again, byte for byte.
In a checkout of that commit `./avrora --adopt PROGRAM` takes the program of this release without proving it.
"""

FORMS = {
    "release": r"[0-9]+(?:\.[0-9]+)+",
    "commit": r"[0-9a-f]{40}",
    "kit": r"\S+",
    "logic sum": r"[0-9a-f]+",
    "gate": r"[1-9][0-9]* passed, 0 failed",
    "program": r"[0-9a-f]{64}",
}


# What to do about a program of no release.
REMEDY = "Name libexec/avrora/avrora_program of an unpacked release of this commit, or none (`unset AVRORA_PROGRAM`), and it is proved here"


class NotFit(Exception):
    """Why a program cannot stand in for one that is proved here."""


class Proved(NamedTuple):
    """What PROVED says."""

    release: str
    commit: str
    kit: str
    logic_sum: str
    gate: str
    program: str

    def text(self) -> str:
        return TEXT.format(**self._asdict())

    def kit_line(self) -> str:
        """The kit as `rt version` tells it."""
        return f"{self.kit} logic {self.logic_sum}"


def read(path: str) -> Proved:
    """What the PROVED at `path` says."""
    try:
        with open(path, encoding="utf-8", errors="replace") as it:
            text = it.read()
    except OSError as fault:
        raise NotFit(f"cannot read {path}: {fault.strerror}") from fault
    said = []
    for key, form in FORMS.items():
        found = re.findall(rf"^{key}: ({form})$", text, re.M)
        if len(found) != 1:
            raise NotFit(f"{path} is no PROVED of a release: it has {len(found)} lines `{key}: ..` of the right form")
        said += found
    return Proved(*said)


def sum_of(path: str) -> str:
    """The SHA-256 of a file."""
    with open(path, "rb") as it:
        return hashlib.file_digest(it, "sha256").hexdigest() if hasattr(hashlib, "file_digest") else hashlib.sha256(it.read()).hexdigest()


def with_program(program: str) -> str:
    """The path of the PROVED that goes with a program."""
    folder = os.path.dirname(os.path.realpath(program))
    for place in (f"{os.path.basename(program)}.adopted", *PLACES):
        path = os.path.normpath(os.path.join(folder, place))
        if os.path.isfile(path):
            return path
    raise NotFit(f"{program} is of no release that is proved: no PROVED lies beside it, nor at the top of its release. {REMEDY}")


def git(top: str, *words: str) -> str:
    """What git says of a checkout, whatever repository a hook has in the environment."""
    environment = {name: value for name, value in os.environ.items() if not name.startswith("GIT_")}
    command = ["git", "-c", "core.fsmonitor=false", "-C", top, *words]
    try:
        ran = subprocess.run(command, env=environment, stdin=subprocess.DEVNULL, capture_output=True, text=True, check=False)
    except OSError as fault:
        raise NotFit(f"the commit of this checkout is not known: git cannot be run ({fault.strerror})") from fault
    if ran.returncode:
        raise NotFit(f"the commit of this checkout is not known: {ran.stderr.strip()}")
    return ran.stdout.rstrip("\n")


def commit_of(top: str) -> str:
    """The commit of the checkout whose top is `top`."""
    if git(top, "rev-parse", "--show-prefix"):
        raise NotFit(f"the commit of this checkout is not known: {top} lies within another one")
    return git(top, "rev-parse", "--verify", "HEAD")


def checked(program: str, top: str = TOP) -> Proved:
    """What is said of a program, if it is that of a release of this commit, and no source of it was changed."""
    try:
        made = sum_of(program)
    except OSError as fault:
        raise NotFit(f"cannot read {program}: {fault.strerror}") from fault
    path = with_program(program)
    said = read(path)
    if made != said.program:
        raise NotFit(f"{program} is not the program of {path}, which names {said.program}; it has {made}")
    commit = commit_of(top)
    if commit != said.commit:
        raise NotFit(f"{program} is proved of commit {said.commit}, and this is commit {commit}")
    if changed := git(top, "status", "--porcelain", "--untracked-files=all", "--", *SOURCES):
        raise NotFit(f"{program} is proved of commit {commit}, from which this differs: {changed.splitlines()[0][3:].strip()}")
    if not os.access(program, os.X_OK):
        raise NotFit(f"cannot run {program}: it is not marked as executable")
    return said


def main(words: list[str]) -> int:
    if len(words) != 2 or words[0] not in ("check", "about"):
        print("usage: scripts/proved.py check|about PROGRAM", file=sys.stderr)
        return 2
    try:
        said = checked(words[1])
    except NotFit as why:
        print(f"avrora: {why}", file=sys.stderr)
        return 1
    if words[0] == "about":
        print(f"{said.kit_line()}, proved elsewhere of this commit: the program of release {said.release}")
    return 0


if __name__ == "__main__":
    if sys.argv[1:2] in (["--help"], ["-h"]):
        sys.exit(print(__doc__))
    sys.exit(main(sys.argv[1:]))
