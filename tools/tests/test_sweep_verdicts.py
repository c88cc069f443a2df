"""Sweeps of firmware that called clean what is not, by the program that AVRORA_PROGRAM names; and how sweeps end."""
import re
import subprocess
import sys
from pathlib import Path

import pytest

from firmware import PROGRAM, SOURCES, compiled, needs_compiler, needs_program, scenario
from support import TESTS, run_tool

pytestmark = [needs_program, needs_compiler]

BANNER = """#include "serial.h"
ISR(USART0_RX_vect) { (void)UDR0; }
int main(void) { uart(1); put(65); sei(); for (;;); }
"""

SPAN = ("--start", "0=280_000..280_299", "--until", "330_000", "--jobs", "2")


@pytest.fixture(scope="module")
def folder(tmp_path_factory):
    """A folder with the scenario of each firmware."""
    found = tmp_path_factory.mktemp("sweeps")
    (found / "banner.c").write_text(BANNER)
    guarded = (SOURCES / "torn_guard.c").read_text()
    (found / "error.c").write_text(guarded.replace("put('k');", ""))
    for name in ("torn_guard", "sreg_copy", "silent", "stops", found / "banner", found / "error"):
        compiled(f"{name}.c", found, "-O0")
        name = Path(name).name
        scenario(f"{name}.hex", found / f"{name}.toml")
    return found


def sweep(folder, name, *words, env=None):
    return run_tool("sweep", str(folder / f"{name}.toml"), *SPAN, *words, env=env)


def test_a_guard_that_writes_back_sreg_by_a_pointer_hides_no_torn_read(folder):
    status, out, err = sweep(folder, "torn_guard")
    assert (status, err) == (1, "")
    assert re.search(r"^1\. 8 of 8 arrivals while .*: node 0 wrote '!k', not 'k'$", out, re.M)
    assert re.search(
        r"^interrupts are off at the store through a pointer at [0-9A-F]{4}, which may write SREG", out, re.M
    )


@pytest.mark.parametrize("name", ["torn_guard", "sreg_copy"])
def test_each_move_of_a_class_makes_one_execution(folder, name):
    words = [sys.executable, f"{TESTS}/classes_against_moves.py", str(folder / f"{name}.toml"), *SPAN]
    done = subprocess.run(words, capture_output=True, text=True, check=False)
    assert (done.returncode, done.stderr) == (0, "")
    assert "; 0 classes with two traces, 0 with two verdicts" in done.stdout


@pytest.mark.parametrize(
    "name, words, why",
    [
        ("silent", (), "from cycle 280,000 on; --expect"),
        ("silent", ("--nodes", "0", "--stop"), "from cycle 280,000 on; --expect"),
        ("torn_guard", ("--drop", ".*"), "except what --drop leaves out"),
        ("torn_guard", ("--compare", "lines", "--drop", "[k!]"), "except what --drop leaves out"),
        ("banner", (), "from cycle 280,000 on"),
    ],
)
def test_a_sweep_that_compares_nothing_is_refused(folder, name, words, why):
    """Also where all is written before the span."""
    status, out, err = sweep(folder, name, *words)
    assert status == 2 and "\nthe run that is not moved writes nothing from there on:" in out
    assert err.startswith("avrora-tools sweep: nothing was compared: ") and why in err


def test_what_is_written_where_nothing_is_due_fails(folder):
    status, out, err = sweep(folder, "error")
    assert (status, err) == (1, "") and "node 0 wrote '!' too much" in out


def test_a_stop_that_the_unmoved_run_has_not_is_a_failure(folder):
    status, out, _ = sweep(folder, "stops")
    assert status == 1
    assert re.search(r": node 0 stopped by break at [0-9A-F]{4}, and not so in the unmoved run$", out, re.M)
    # the loop takes 16 cycles, of which the read of the low half takes two: 18 visits in 300 cycles
    assert re.search(r"^1\. 36 of 36 arrivals", out, re.M)


def test_a_drop_is_a_pattern_of_bytes(folder):
    status, out, err = sweep(folder, "torn_guard", "--drop", "\\u0041")
    assert (status, out) == (2, "") and err.startswith("avrora-tools sweep: --drop: bad escape")
    assert sweep(folder, "torn_guard", "--drop", "\\x21")[0] == 0


@pytest.mark.parametrize(
    "text, why",
    [
        ("import sys\nsys.exit(0)", "check.py: SystemExit: 0"),
        ("import sys\ndef check(run):\n    sys.exit(0)", "check() of the predicate: SystemExit: 0"),
        ("def check(run):\n    return ''", "returned ''"),
        ("def check(run):\n    return ' '", "returned ' '"),
        ("def check(run):\n    return 0", "returned 0"),
    ],
)
def test_a_check_that_ends_the_tool_or_says_nothing_is_refused(folder, text, why):
    (folder / "check.py").write_text(text)
    status, _, err = sweep(folder, "torn_guard", "--check", str(folder / "check.py"))
    assert status == 2 and why in err


def test_what_a_node_wrote_is_bytes_to_a_check(folder):
    (folder / "bytes.py").write_text("def check(run):\n    return None if run.text(0) == b'k' else f'{run.text(0)}'")
    status, out, _ = sweep(folder, "torn_guard", "--check", str(folder / "bytes.py"))
    assert status == 1 and "b'!k'" in out


def test_a_never_without_room_is_the_verdict_of_its_run(folder):
    """The answer comes before cycle 280,400 in some runs, and in these alone the `never` above it has no room."""
    (folder / "gap.expect").write_text("never * * serial 21\nnever 280_400..290_000 * stop *\n* 0 serial 6B\n")
    status, out, err = sweep(folder, "torn_guard", "--expect", str(folder / "gap.expect"))
    assert (status, err) == (1, "")
    failing = int(re.search(r"^(\d+) of \d+ classes fail", out, re.M)[1])
    assert 4 < failing < 126
    assert (
        "line 1: this row was never to come" in out
        and "gap.expect, line 2: between the rows that were found about it" in out
    )


def of_its_own(place):
    """An environment whose folder for temporary files is nobody else's; a tool sees it as a process of its own."""
    place.mkdir()
    return {"TMPDIR": str(place), "PYTHONPATH": ""}


@pytest.mark.parametrize(
    "line, status, why",
    [
        ("kill -9 $$", 3, "avrora sweep: killed by signal 9"),
        ("echo no memory >&2; exit 6", 3, "avrora sweep: status 6: no memory"),
        ("echo bad moves >&2; exit 5", 2, "sweep: bad moves"),
    ],
)
def test_a_simulator_that_fails_is_told_and_leaves_no_folder(folder, tmp_path, line, status, why):
    script = tmp_path / "avrora"
    script.write_text(f'#!/bin/sh\nif [ "$1" = sweep ]; then {line}; fi\nexec {PROGRAM} "$@"\n')
    script.chmod(0o755)
    env = {"AVRORA_PROGRAM": str(script), **of_its_own(tmp_path / "own")}
    done = sweep(folder, "torn_guard", env=env)
    assert done[0] == status and done[2] == f"avrora-tools sweep: {why}\n"
    assert not list((tmp_path / "own").iterdir())


def test_what_ends_a_sweep_is_told_and_leaves_no_folder(folder, tmp_path):
    (folder / "late.py").write_text("def check(run):\n    return 1 / 0 if run.at > 280_100 else None")
    env = of_its_own(tmp_path / "own")
    for _ in range(5):
        status, _, err = sweep(folder, "torn_guard", "--check", str(folder / "late.py"), env=env)
        assert (status, err) == (
            2,
            "avrora-tools sweep: check() of the predicate: ZeroDivisionError: division by zero\n",
        )
    assert not list((tmp_path / "own").iterdir())
