#!/usr/bin/env python3
"""Does what `.ci/run` does before the gate: looks at the machine, has the tests' packages installed, and runs the
documents', the scripts' and the tools' tests. It is called by `.ci/run`, which goes on with the gate.

    scripts/before_gate.py [--without PACKAGE].. COUNTS    writes what ran to the file COUNTS, a line for each part

Exit status: 0 all is well, 1 something is wrong, 2 bad words, 3 a test cannot run here, and a line says what to type.
"""
import argparse
import os
import signal
import subprocess
import sys
import tempfile

TOP = os.path.dirname(os.path.dirname(os.path.realpath(__file__)))
sys.path[:0] = [TOP]
sys.dont_write_bytecode = True

import prove  # noqa: E402  pylint: disable=wrong-import-position
from gating import machine, packages, parts  # noqa: E402  pylint: disable=wrong-import-position

WRONG, CANNOT = 1, 3


def environment_of(python: str, program: str | None) -> dict[str, str]:
    """The environment of tests that this interpreter runs, with the program that they may use."""
    found = {**os.environ, "PYTHON": python}
    folder = os.path.dirname(os.path.dirname(python))
    if os.path.exists(f"{folder}/pyvenv.cfg"):
        found |= {"VIRTUAL_ENV": folder, "PATH": f"{folder}/bin:{os.environ.get('PATH', os.defpath)}"}
    if program:
        found["AVRORA_PROGRAM"] = program
    return found


def program_here() -> str | None:
    """The program that the tests use: the one that AVRORA_PROGRAM names, else what `./avrora` proved of these
    sources."""
    if lent := os.environ.get("AVRORA_PROGRAM"):
        return os.path.abspath(lent)
    room = f"{TOP}/crates/{prove.RELEASED}/out/rlib"
    return f"{room}/{prove.RELEASED}" if prove.is_proved_here(room) else None


def count_instructions(program: str | None, without: list[str]) -> int:
    """Whether the program takes no more host instructions than bench/probes.sh allows, as far as there is one."""
    if not program or "valgrind" in without:
        print(
            f"bench/probes.sh: skipped, {'valgrind is left out' if program else 'no program is built here'}", flush=True
        )
        return 0
    return subprocess.run([f"{TOP}/bench/probes.sh", program], stdin=subprocess.DEVNULL, check=False).returncode


def run_parts(python: str, without: list[str]) -> tuple[list[parts.Told], list[str]]:
    """What came of each part, and what is wrong."""
    program = program_here()
    environment = environment_of(python, program)
    told, wrong = [], []
    with tempfile.TemporaryDirectory() as folder:
        for part in parts.all_parts(TOP, python, folder, "python3-pytest-xdist" not in without):
            try:
                told.append(part.run(environment))
            except parts.Failed as why:
                wrong.append(str(why))
    if count_instructions(program, without):
        wrong.append("bench/probes.sh: the program takes more host instructions than it may")
    if program and subprocess.run([f"{TOP}/bench/out_of_memory.sh", program], stdin=subprocess.DEVNULL, check=False).returncode:
        wrong.append("bench/out_of_memory.sh: a run by threads did not end as it is to, out of memory")
    return told, wrong + [it.line() for it in told if it.wrong]


def heed_interrupts() -> None:
    """Has the tests be interrupted where they ask for it: a script that runs in the background is born to ignore that."""
    signal.signal(signal.SIGINT, signal.default_int_handler)


def main(words: list[str]) -> int:
    heed_interrupts()
    parser = argparse.ArgumentParser(
        prog=".ci/run", description=__doc__, formatter_class=argparse.RawDescriptionHelpFormatter
    )
    listed = packages.listed()
    names = [it.name for it in listed]
    parser.add_argument(
        "--without",
        action="append",
        default=[],
        choices=names,
        metavar="PACKAGE",
        help=f"leave out the tests that need it: {', '.join(names)}",
    )
    parser.add_argument("counts", metavar="COUNTS")
    given = parser.parse_args(words)
    if cannot := machine.faults(TOP):
        for it in cannot:
            packages.tell(it)
        return CANNOT
    try:
        python = packages.set_up(
            [it for it in listed if it.name not in given.without], sys.executable, os.geteuid() == 0
        )
    except packages.CannotHave as why:
        packages.tell(str(why))
        return CANNOT
    told, wrong = run_parts(python, given.without)
    with open(given.counts, "w", encoding="utf-8") as counts:
        counts.writelines(f"{part.line()}\n" for part in told)
    lacking = list(parts.lacking(told, given.without))
    for line in [*(part.line() for part in told), *wrong, *lacking]:
        packages.tell(line)
    if wrong:
        return WRONG
    if lacking:
        packages.tell(
            f"{len(lacking)} tests did not run for want of a package: install it, or leave it out by --without PACKAGE"
        )
        return CANNOT
    return 0


if __name__ == "__main__":
    sys.exit(main(sys.argv[1:]))
