#!/usr/bin/env python3
"""Gives prove.py the libraries that the gate proved on this machine, so that `./avrora` and a release need not prove them again.

    scripts/from_gate.py [ROOM]    ROOM is the folder that prove.py keeps things in; without it, that of this checkout's `./avrora`

The gate, `rt ci`, keeps what passed beside the kit. Each library has a sum of all that it was made from: the kit, the
sources of the crate, its line of crates.txt, and the libraries below it. This script copies what the gate kept of the
sources that stand here to ROOM; prove.py proves the rest. It does not take the program itself: prove.py proves and
builds that over these libraries, which are the files that its own checks write, byte for byte.

It uses the kit's own module `rt`, so it may need a change for another kit; then it takes nothing, and says so.
Exit status: 0 it is told how many libraries lie ready, 2 bad words.
"""
import fcntl
import os
import shutil
import sys
import tempfile

import seed

TOP = os.path.dirname(os.path.dirname(os.path.realpath(__file__)))

sys.dont_write_bytecode = True


def take(prove, room):
    """The names of the libraries that the gate kept of these crates and that the room has now, lowest first."""
    rt = seed.module_at(f"{room.kit.folder}/bin/rt", "rt")
    taken, was = [], os.getcwd()
    with tempfile.TemporaryDirectory() as folder:
        # a copy of the sources alone: the gate's module writes beside them
        copy = f"{folder}/copy"
        rt.copy_crates(prove.TOP, copy)
        os.chdir(copy)
        try:
            rt.Crate.cuts_libraries = True
            rt.Crate.allowed = rt.handles_of(copy)
            crates = rt.crates_of(copy)
            kept = rt.Kept(crates)
            for crate in crates:
                ours = room.crates.get(crate.name)
                if ours is None or ours.is_program or any(it.name not in kept.rlibs for it in crate.below()):
                    continue
                if kept.give(crate, False, kept.key(crate)):
                    kept.is_built(crate)
                    if not room.is_kept(ours):
                        put(room, ours, f"{crate.folder}/out/rlib/{crate.name}.rlib")
                    taken.append(crate.name)
        finally:
            os.chdir(was)
    return taken


def put(room, crate, library):
    """Puts a library where prove.py would, as one that is proved."""
    room.clear(crate)
    shutil.copytree(library, room.made(crate))
    room.mark(crate)


def taken_by(prove, folder):
    """How many libraries lie ready in the folder, in words."""
    room = prove.Room(folder, prove.Kit(), prove.crates_below(prove.RELEASED))
    os.makedirs(folder, exist_ok=True)
    with open(f"{folder}/lock", "w", encoding="utf-8") as lock:
        # prove.py waits for it too
        fcntl.flock(lock, fcntl.LOCK_EX)
        try:
            return f"libraries that the gate proved, and that lie ready: {len(take(prove, room))}"
        except (Exception, SystemExit) as fault:  # pylint: disable=broad-exception-caught
            # the module of another kit may have none of these names
            return f"no library of the gate is taken: {type(fault).__name__}: {fault}"


def main(words):
    if words[:1] in (["--help"], ["-h"]):
        print(__doc__)
        return 0
    if len(words) > 1 or words[:1] and words[0].startswith("-"):
        print(__doc__, file=sys.stderr)
        return 2
    prove = seed.module_at(f"{TOP}/prove.py", "prove")
    print(taken_by(prove, os.path.realpath(words[0] if words else f"{TOP}/crates/{prove.RELEASED}/out/rlib")))
    return 0


if __name__ == "__main__":
    sys.exit(main(sys.argv[1:]))
