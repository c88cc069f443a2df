#!/usr/bin/env python3
"""Checks a crate from nothing and prints where its seconds go: the stages of the check, and its dearest modules.

    scripts/modules.py CRATE [ROOM]    ROOM keeps the libraries below it, as prove.py does; it is made where it is not there

The check writes each module that it has checked to a folder; what lies between two such files is the time of the
second. For a function `f`, `f.Lts` and `f.Tie` are made from its code (its paths, and what lives on each of them),
and `f.Proof` is the search for its proof. `proofs.FILE` is a file of lemmas. Seconds are of the clock: run it while
little else is at work.
"""
import os
import subprocess
import sys
import tempfile
import time

sys.dont_write_bytecode = True
sys.path.insert(0, os.path.dirname(os.path.dirname(os.path.realpath(__file__))))
import prove  # noqa: E402 (it lies above this folder)

# How many modules are printed.
SHOWN = 40


def artifacts(folder):
    """The checked modules below a folder, by when they were written."""
    for at, folders, names in os.walk(folder):
        # the records beside the modules are parts of them
        folders[:] = [it for it in folders if it != "records"]
        for name in names:
            if name.endswith(".oantt"):
                yield os.stat(f"{at}/{name}").st_mtime, name.removesuffix(".oantt")


def main(words):
    if len(words) not in (1, 2):
        print(__doc__, file=sys.stderr)
        return 2
    name = words[0]
    folder = words[1] if len(words) == 2 else f"{tempfile.gettempdir()}/avrora-modules"
    os.makedirs(folder, exist_ok=True)
    room = prove.Room(os.path.realpath(folder), prove.Kit(), prove.crates_below(name))
    crate = room.crates[name]
    prove.prove(room, [it for it in room.crates if it != name])
    with tempfile.TemporaryDirectory() as kept:
        words = [f"{room.kit.folder}/bin/rattle", "check", *prove.given(room, crate, 1)]
        words += ["--incremental", kept, "--stage-times", f"{kept}/stages"]
        began, used = time.time(), os.times()
        ran = subprocess.run(words, cwd=crate.folder, stdin=subprocess.DEVNULL, capture_output=True, text=True, errors="replace", check=False)
        ended = os.times()
        with open(f"{kept}/stages", encoding="utf-8") as it:
            print(it.read(), end="")
        spans, last = [], began
        for at, module in sorted(artifacts(kept)):
            spans.append((at - last, module))
            last = at
    for seconds, module in sorted(spans, reverse=True)[:SHOWN]:
        print(f"{seconds:8.2f}  {module}")
    seconds = ended.children_user + ended.children_system - used.children_user - used.children_system
    print(f"{seconds:.0f} processor seconds; {ran.stdout.rstrip().splitlines()[-1] if ran.stdout else ran.stderr}")
    return ran.returncode


if __name__ == "__main__":
    if sys.argv[1:2] in (["--help"], ["-h"]):
        sys.exit(print(__doc__))
    sys.exit(main(sys.argv[1:]))
