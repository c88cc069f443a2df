#!/usr/bin/env python3
"""Writes bench/seconds.txt, by which prove.py knows what to prove first: how many processor seconds the check of each crate
took in the room of `./avrora`, or in the one that is given.

    scripts/seconds.py [ROOM]    do it after a first run from nothing, with nothing else at work
"""
import os
import sys

sys.dont_write_bytecode = True
TOP = os.path.dirname(os.path.dirname(os.path.realpath(__file__)))
sys.path.insert(0, TOP)
import prove  # noqa: E402 (it lies above this folder)


def main(words):
    if len(words) > 1:
        print(__doc__, file=sys.stderr)
        return 2
    room = words[0] if words else f"{TOP}/crates/avrora_program/out/rlib"
    rows = []
    for name in prove.crates_below("avrora_program"):
        with open(f"{room}/{name}.seconds", encoding="utf-8") as it:
            rows.append((int(it.read()), name))
    with open(prove.SECONDS, "w", encoding="utf-8") as it:
        it.writelines(f"{name} {seconds}\n" for seconds, name in sorted(rows, reverse=True))
    print(f"{sum(seconds for seconds, _ in rows)} processor seconds for {len(rows)} crates")
    return 0


if __name__ == "__main__":
    if sys.argv[1:2] in (["--help"], ["-h"]):
        sys.exit(print(__doc__))
    sys.exit(main(sys.argv[1:]))
