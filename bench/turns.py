#!/usr/bin/env python3
"""Processor time of commands that take turns, so that each meets the machine in the same states.

    bench/turns.py TURNS RUNS COMMAND.. [-- RUNS COMMAND..]..

In each of the TURNS each COMMAND is run RUNS times, with nothing shown of what it writes. A line for each command says how
many seconds its fastest run took, in user mode and in the system: what others do on the machine only adds to that.
"""
import resource
import subprocess
import sys


def used():
    """The processor time of all runs until now."""
    usage = resource.getrusage(resource.RUSAGE_CHILDREN)
    return usage.ru_utime + usage.ru_stime


def run(command):
    """The seconds of one run."""
    before = used()
    subprocess.run(command, stdout=subprocess.DEVNULL, stderr=subprocess.DEVNULL, check=True)
    return used() - before


def rows_of(words):
    """Each command with how many times it is run in a turn, from words with `--` between them."""
    rows = [[]]
    for word in words:
        if word == "--":
            rows.append([])
        else:
            rows[-1].append(word)
    return [(int(runs), command) for runs, *command in rows]


def main(words):
    if len(words) < 3:
        sys.exit(__doc__)
    rows = rows_of(words[1:])
    turns = [[min(run(command) for _ in range(runs)) for runs, command in rows] for _ in range(int(words[0]))]
    for seconds in zip(*turns):
        print(f"{min(seconds):.6f}")


if __name__ == "__main__":
    if sys.argv[1:2] in (["--help"], ["-h"]):
        sys.exit(print(__doc__))
    main(sys.argv[1:])
