"""The commands of examples/avrora.gdb, each by the real avr-gdb, against the rows of the run."""
import re

import pytest

from support import TOP
from test_gdb import PROGRAM, folder, gdb, needs_all, stands  # noqa: F401
from avrora_tools.debugging import history
from avrora_tools.scenarios import MAX_WINDOW

SCRIPT = f"source {TOP}/examples/avrora.gdb"
BEGIN, REACH = 300_000, 140_000  # cycles

# What is typed, with the kind of row to which it goes, of which node, and whether behind or before.
MOVES = [
    ("upto sent", r"sent", None, True),
    ("upto heard of 0", r"heard [12]", 0, True),
    ("upto serial", r"serial", None, True),
    ("upto sent of 2", r"sent", 2, True),
    ("upto interrupt", r"enter", None, True),
    ("upto interrupt TIMER1_COMPA of 2", r"enter 0018", 2, True),
    ("upto interrupt TIMER1_COMPA", r"enter 0018", None, True),
    ("backto sent", r"sent", None, False),
    ("backto serial", r"serial", None, False),
    ("backto heard of 0", r"heard [12]", 0, False),
    ("backto interrupt TIMER1_COMPA of 1", r"enter 0018", 1, False),
]


@pytest.fixture(scope="module")
def rows(folder):  # noqa: F811
    """The trace about BEGIN: (cycle, node, the rest of the row)."""
    found = set()
    with history.history(f"{folder}/packet.toml", PROGRAM) as past:
        for first in range(BEGIN - REACH, BEGIN + REACH, MAX_WINDOW):
            end = min(first + MAX_WINDOW, BEGIN + REACH)
            lines = re.findall(r"^(\d+) (\d+) (.*)$", past.traced_text(first, end).decode(), re.M)
            found |= {(int(at), int(node), rest) for at, node, rest in lines if first <= int(at) < end}
    return sorted(found)


@needs_all
@pytest.mark.parametrize("command, kind, node, forward", MOVES)
def test_to_the_next_and_the_last_event(folder, rows, command, kind, node, forward):  # noqa: F811
    found = [
        (cycle, of)
        for cycle, of, rest in rows
        if re.match(kind, rest) and node in (None, of) and (cycle > BEGIN if forward else cycle < BEGIN)
    ]
    said = gdb(folder, SCRIPT, command, "monitor cycle", at=BEGIN)
    wanted = found[0][0] if forward else found[-1][0]
    (where,) = stands(said)
    assert where in found and where[0] == wanted, said
    assert f"cycle {wanted:,}, node {where[1]}: " in said  # what the word itself says
    assert re.search(r"^#0 .* in \w+ \(|^#0  \w+ \(", said, re.M), said  # where one stands then


@needs_all
def test_a_wrong_event_moves_nothing(folder):  # noqa: F811
    said = gdb(folder, SCRIPT, "upto rain", "upto", "backto sent of 7", "monitor cycle", at=BEGIN)
    assert "one of sent, heard" in said and "upto EVENT" in said and "7 is not a node" in said
    assert stands(said)[-1] == (BEGIN, 0)


@needs_all
def test_the_node_that_is_named_is_the_one_that_gdb_shows(folder):  # noqa: F811
    """Whatever gdb asked of other nodes before."""
    said = gdb(
        folder,
        SCRIPT,
        *("thread 3", "stepi", "thread 1", "goto 310000"),
        *("thread 2", "info threads", "monitor cycle", "goto 320000"),
        *("thread apply 1 3 print $pc", "cycle", "goto 330000"),
        *("thread 1", "info threads", "monitor bookmark here", "monitor goto 340000"),
        at=BEGIN,
    )
    places = re.findall(r"^(?:here: )?cycle ([\d,]+), node (\d)$", said, re.M)
    wanted = ["310 0", "310 1", "320 1", "320 1", "330 1", "330 0", "340 0"]
    assert [f"{cycle[:3]} {node}" for cycle, node in places] == wanted, said
