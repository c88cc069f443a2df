#!/usr/bin/env python3
"""Runs the gate from nothing and prints, as a table, the processor seconds of each crate. Its columns are the proof,
the proof and the runs of its tests, its must-fail edits, and the build and the runs of its program.

    scripts/gate.py            runs `rt ci` at the top of the repository, which begins from nothing with the kit of today
    scripts/gate.py WORD ..    runs `rt ci WORD ..`, for a kit whose gate takes words (with some, --anew begins from nothing)

It looks at the processes below rt twice a second. What a process and its ended children used is the kernel's count.
The last half second of each is lost to its crate, and counted with what rt itself used.
"""
import os
import re
import subprocess
import sys
import time

TICK = os.sysconf("SC_CLK_TCK")
KINDS = ("proof", "tests", "edits", "program", "other")


def stat_of(pid):
    """The parent of a process and the seconds that it and its ended children used."""
    with open(f"/proc/{pid}/stat", encoding="utf-8", errors="replace") as it:
        rest = it.read().rpartition(")")[2].split()
    return int(rest[1]), sum(map(int, rest[11:15])) / TICK


def words_of(pid):
    with open(f"/proc/{pid}/cmdline", "rb") as it:
        return it.read().decode(errors="replace").split("\0")


def processes():
    """Each process: its parent and its seconds."""
    found = {}
    for name in filter(str.isdigit, os.listdir("/proc")):
        try:
            found[int(name)] = stat_of(name)
        except (OSError, IndexError, ValueError):
            pass
    return found


def children_of(found):
    children = {}
    for pid, (parent, _) in found.items():
        children.setdefault(parent, []).append(pid)
    return children


def below(children, top):
    """The processes below one, by their parents."""
    left, all_below = [top], []
    while left:
        for pid in children.get(left.pop(), []):
            all_below.append(pid)
            left.append(pid)
    return all_below


def purpose_of(pid):
    """The crate and the kind of work of a process that rt started for a crate, or None."""
    try:
        words, place = words_of(pid), os.readlink(f"/proc/{pid}/cwd")
    except OSError:
        return None
    named = re.search(r"--crate-name\s+(\w+)", " ".join(words))
    crate = named[1] if named else (re.search(r"/crates/(\w+)", place) or [None, None])[1]
    if "rt-edit" in place and crate:
        return crate, "edits"
    if named:
        kind = "tests" if "--test" in words else "proof"
        # what is built after the check of a program, which is its root file
        if kind == "proof" and words[1:2] not in (["check"], ["build"]):
            kind = "program"
        return crate, kind
    return None


def uppermost(children, top):
    """The highest processes below one that have a purpose, each with it: what they start works for them."""
    left = [top]
    while left:
        for pid in children.get(left.pop(), []):
            purpose = purpose_of(pid)
            if purpose:
                yield pid, purpose
            else:
                left.append(pid)


def watch(run):
    """The seconds by crate and kind until the run ends."""
    counted = {}
    while run.poll() is None:
        found = processes()
        children = children_of(found)
        for pid, purpose in uppermost(children, run.pid):
            seconds = sum(found[it][1] for it in [pid, *below(children, pid)])
            counted[pid, purpose] = max(counted.get((pid, purpose), 0), seconds)
        time.sleep(0.5)
    totals = {}
    for (_, purpose), seconds in counted.items():
        totals[purpose] = totals.get(purpose, 0) + seconds
    return totals


def table(totals, all_seconds, clock):
    crates = sorted({crate for crate, _ in totals}, key=lambda it: -sum(s for (c, _), s in totals.items() if c == it))
    rows = [[crate, *(totals.get((crate, kind), 0) for kind in KINDS[:4])] for crate in crates]
    rest = all_seconds - sum(totals.values())
    sums = [sum(row[i] for row in rows) for i in range(1, 5)]
    print("| Crate | Proof | Tests | Edits | Program | All |\n|---|---|---|---|---|---|")
    for name, *seconds in [*rows, ["all", *sums]]:
        print(f"| `{name}` | " + " | ".join(f"{it:.0f}" for it in [*seconds, sum(seconds)]) + " |")
    print(f"\nbeside these, rt itself and the runs: {rest:.0f} s; in all {all_seconds / 60:.0f} processor minutes in {clock / 60:.0f} minutes of clock")


def main():
    top = subprocess.run(["git", "rev-parse", "--show-toplevel"], capture_output=True, text=True, check=True).stdout.strip()
    commit = subprocess.run(["git", "log", "-1", "--format=%h of %cs"], capture_output=True, text=True, check=True).stdout.strip()
    load = os.getloadavg()[0]
    began = time.time()
    run = subprocess.Popen(["rt", "ci", *sys.argv[1:]], cwd=top)
    totals = watch(run)
    used = os.times()
    print(f"\nCommit {commit}, {os.cpu_count()} processors, load {load:.1f} at the start and {os.getloadavg()[0]:.1f} at the end; seconds of processor time:\n")
    table(totals, used.children_user + used.children_system, time.time() - began)
    return run.returncode


if __name__ == "__main__":
    if sys.argv[1:2] in (["--help"], ["-h"]):
        sys.exit(print(__doc__))
    sys.exit(main())
