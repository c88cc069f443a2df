"""What the log of a gate shows of a commit."""
import glob
import os
import re
from typing import NamedTuple

# The line by which `.ci/run` begins.
BEGINS = re.compile(r"^gate: commit (?P<commit>\S+), (?P<changed>changed, )?(?P<kit>.*)$", re.M)

# The line by which the gate ends where all is well. One of a few crates alone says more behind it.
ENDS = re.compile(r"(?P<passed>[1-9][0-9]*) passed, 0 failed")

# What it says of edits that it could not try, which it does not count.
BAD_EDITS = re.compile(r"note: bad must-fail edits, as told above: (\d+)\.")


class NotGated(Exception):
    """Why a log is not that of the gate of this commit."""


class Wanted(NamedTuple):
    """Of what a log is to be."""

    commit: str
    kit: str
    crates: int
    edits: int


def wanted(top: str, commit: str, kit: str) -> Wanted:
    """What the gate of a checkout is to count."""
    with open(f"{top}/crates.txt", encoding="utf-8") as it:
        crates = [line for line in it if line.partition("#")[0].strip()]
    return Wanted(commit, kit, len(crates), len(glob.glob(f"{top}/crates/*/must-fail/*.edit")))


def last_line(log: str, want: Wanted) -> str:
    """The last line of the gate in a log, if that is the log of a whole gate of this commit that passed.

    Shown by the log: the commit and the kit by its first line, that nothing was changed, that it came to its end, and that
    it passed as many crates and edits as this commit has. That nobody wrote the log by hand is not to be seen in it.
    """
    begins = list(BEGINS.finditer(log))
    if len(begins) != 1:
        raise NotGated(f"it has {len(begins)} lines `gate: commit ..`, by which .ci/run begins")
    begin = begins[0]
    if begin["commit"] != want.commit:
        raise NotGated(f"it is of commit {begin['commit']}, and this is commit {want.commit}")
    if begin["changed"]:
        raise NotGated("files were changed when it began")
    if begin["kit"] != want.kit:
        raise NotGated(f"it is by {begin['kit']}, and the kit here is {want.kit}")
    line = (log.rstrip("\n").splitlines() or [""])[-1]
    end = ENDS.fullmatch(line)
    if not end:
        raise NotGated(f"its last line is no `N passed, 0 failed`: {line[:100]}")
    bad = sum(map(int, BAD_EDITS.findall(log)))
    due = want.crates + want.edits - bad
    if int(end["passed"]) != due:
        raise NotGated(f"it passed {end['passed']}; this commit has {want.crates} crates and {want.edits} edits{f', {bad} of them bad' if bad else ''}")
    return line


def read(path: str) -> str:
    try:
        with open(path, encoding="utf-8", errors="replace") as it:
            return it.read()
    except OSError as fault:
        raise NotGated(os.strerror(fault.errno or 0)) from fault
