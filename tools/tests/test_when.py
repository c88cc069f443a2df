"""In which cycles a place is executed: by the program that AVRORA_PROGRAM names, beside the rows of a window."""
import os
import re
from pathlib import Path

import pytest

from avrora_tools.errors import BadInput
from avrora_tools.occurrences import Executions, addresses_of
from avrora_tools.programs import Function, SourceLine
from avrora_tools.sweeping.simulation import Simulator
from avrora_tools.toml import loads
from support import TOP, run_tool

RACES = Path(TOP) / "examples" / "races"
PROGRAM = os.environ.get("AVRORA_PROGRAM")

needs_program = pytest.mark.skipif(not PROGRAM, reason="AVRORA_PROGRAM names no program")


class Program:
    name = "a.elf"
    functions = [Function(0x50, 0x60, "main"), Function(0x60, 0x70, "f")]
    places = [
        (0x50, SourceLine("/src/a.c", 10)),
        (0x52, SourceLine("/src/a.c", 11)),
        (0x54, SourceLine("/src/a.c", 11)),
        (0x56, SourceLine("/src/b.h", 11)),
        (0x58, SourceLine("/src/a.c", 11)),
        (0x60, None),
    ]


def test_places():
    assert addresses_of("f", Program()) == [0x60]
    assert addresses_of("a.c:11", Program()) == [0x52, 0x58]
    assert addresses_of("b.h:11", Program()) == [0x56]
    assert addresses_of("00bc", Program()) == addresses_of("0x00BC", None) == [0xBC]
    for place, program, why in (
        ("g", Program(), "no function of this name"),
        ("a.c:12", Program(), "there are of 10, 11"),
        ("c.c:1", Program(), "no code of a file c.c"),
        ("main", None, "without an ELF file"),
    ):
        with pytest.raises(BadInput, match=why):
            addresses_of(place, program)


@needs_program
def test_the_cycles_are_those_of_the_rows():
    scenario = str(RACES / "alarm.toml")
    rows = run_tool("window", scenario, "443_300", "443_420")[1]
    expected = [int(cycle) for cycle in re.findall(r"^(\d+) 2 instr 0086 ", rows, re.M)]
    assert expected == [443_350]
    status, out, err = run_tool("when", scenario, "2", "0086", "--from", "443_300", "--to", "443_420")
    assert (status, err) == (0, "") and out.splitlines() == [
        "node 2, 0086: once, from cycle 443,350 to 443,350", "      443350"
    ]


@needs_program
def test_windows_and_monitor_agree_over_a_whole_run(tmp_path):
    """The count is that of `monitor` over the run, and each span's executions are those of the whole in it."""
    document = loads((RACES / "alarm.toml").read_text())
    executions = Executions(Simulator(PROGRAM, str(RACES), 600), document)
    executions.has_watch = False
    found = list(executions.cycles(2, [0x82, 0x86], 0, 900_000))
    path = str(tmp_path / "scenario.toml")
    executions.write(path, (0, 0))
    assert len(found) == executions.count(path, 2, {0x82, 0x86}, 0, 900_000) > 5
    assert found == sorted(found)
    part = list(executions.cycles(2, [0x86], 200_000, 443_351))
    assert part == [it for it in found if it[1] == 0x86 and 200_000 <= it[0] < 443_351] and part[-1][0] == 443_350


@needs_program
@pytest.mark.parametrize(
    "words, status", [
        (["9", "0086"], 2), (["2", "main"], 2), (["2", "0086", "--from", "9", "--to", "9"], 2), (["2", "7000"], 1)
    ]
)
def test_ends(words, status):
    assert run_tool("when", str(RACES / "alarm.toml"), *words)[0] == status
