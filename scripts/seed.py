#!/usr/bin/env python3
"""Gives `rt check`, `rt tidy` and `rt must-fail` the libraries that prove.py keeps, so that they prove none of them again.

    scripts/seed.py TREE [ROOM]    of the checkout TREE, each crate whose sources are those that ROOM's library was made from;
                                 without ROOM, that of this checkout's `./avrora`

It writes TREE/crates/*/out/rlib, with the stamp by which the kit's own module `rtlib` tells whether a library is up to date.
So it may need a change for another kit; where it fails, `rt check` proves what is below by itself. No verdict rests on it:
the gate takes nothing that was kept.
"""
import importlib.machinery
import importlib.util
import os
import shutil
import sys

sys.dont_write_bytecode = True
TOP = os.path.dirname(os.path.dirname(os.path.realpath(__file__)))


def module_at(path, name):
    loader = importlib.machinery.SourceFileLoader(name, path)
    made = importlib.util.module_from_spec(importlib.util.spec_from_loader(name, loader))
    sys.modules[name] = made
    loader.exec_module(made)
    return made


def main(words):
    if len(words) not in (1, 2):
        print(__doc__, file=sys.stderr)
        return 2
    tree = os.path.realpath(words[0])
    folder = os.path.realpath(words[1] if len(words) == 2 else f"{TOP}/crates/avrora_program/out/rlib")
    prove = module_at(f"{TOP}/prove.py", "prove")
    prove.TOP = tree
    kit = prove.Kit()
    rtlib = module_at(f"{kit.folder}/bin/rtlib.py", "rtlib")
    os.chdir(tree)
    seeded = 0
    for crate in rtlib.crates_below(tree):
        room = prove.Room(folder, kit, prove.crates_below(crate.name))
        ours = room.crates[crate.name]
        if ours.is_program or not room.is_kept(ours):
            continue
        to = f"{crate.folder}/out/rlib"
        shutil.rmtree(to, ignore_errors=True)
        shutil.copytree(room.made(ours), f"{to}/{crate.name}.rlib")
        with open(f"{to}/stamp", "w", encoding="utf-8") as it:
            it.write(crate.stamp())
        seeded += 1
    print(f"{seeded} libraries lie ready")
    return 0


if __name__ == "__main__":
    if sys.argv[1:2] in (["--help"], ["-h"]):
        sys.exit(print(__doc__))
    sys.exit(main(sys.argv[1:]))
