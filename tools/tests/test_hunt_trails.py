"""Where what is lost or doubled ends: by hand, and in examples/hunt by the program that AVRORA_PROGRAM names."""
import os
import re
import shutil
import subprocess
import tomllib
from pathlib import Path

import pytest

from avrora_tools.hunting.causes import Lines
from avrora_tools.hunting.changes import Input, Trial
from avrora_tools.hunting.oracles import DOUBLED, LOST, SILENT, Failure, Oracle, Reference
from avrora_tools.hunting.smaller import Scene
from avrora_tools.hunting.trails import HEARD, MOST_BLOCKS, SENT, WRITTEN, Ending, Step, Trails, steps_of, told
from avrora_tools.hunting.trials import scenes
from avrora_tools.programs import Programs
from avrora_tools.scenarios import Scenario
from avrora_tools.sweeping.simulation import ProcessTails, Simulator
from support import TOP

PROGRAM = os.environ.get("AVRORA_PROGRAM")
HUNT = Path(TOP) / "examples" / "hunt"

DOCUMENT = {
    "cycles": 500_000,
    "byte_time": 1_000,
    "node": [{"image": "a.hex"}] * 3,
    "input": [{"node": 2, "at": 100, "every": 400, "hex": "0241"}],
}
SCENE = Scene(DOCUMENT, 400_000, Trial("starts", "", (Input(2, 300, 400, "0241"),)))


def rows(*texts):
    return "".join(f"{text}\n" for text in texts).encode()


SENDS = rows("1000 2 sent 41", "2000 2 sent 42", "3000 1 heard 1 41 3", "9000 1 sent 41", "50000 1 sent 41")


def test_what_differs_is_what_carries_the_byte():
    other = SENDS.replace(b"sent 41", b"sent 45").replace(b"1 41 3", b"1 45 3")
    assert steps_of(SENDS, SENDS, 1_000) == []
    assert steps_of(SENDS, other, 1_000) == [
        Step(SENT, 2, 1_000, 1_000), Step(HEARD, 1, 3_000, 3_000), Step(SENT, 1, 9_000, 9_000), Step(SENT, 1, 50_000, 50_000),
    ]  # fmt: skip
    assert steps_of(SENDS, other.replace(b"9000 1", b"9001 1"), 1_000) is None
    assert len(steps_of(SENDS, other, 4_000)) == 3
    late = rows("7 0 serial 0A")
    assert steps_of(SENDS + late, other, 1_000) == steps_of(SENDS, other, 1_000)


class FakeLines:
    """Runs `often` always, `here` about cycle 20,000 of the failing run, `there` about cycle 3,000 of the right one."""

    def executed(self, document, span=None):
        is_right = document["input"][0]["at"] == 100
        first, end = span or (0, 500_000)
        lines = {"a.c:1": {0: 900, 1: 900, 2: 900}}
        if is_right and first <= 3_000 < end:
            lines["a.c:5"] = {1: 2}
        if not is_right and first <= 20_000 < end:
            lines["a.c:3"] = {0: 1, 1: 2, 2: 3}
        return lines


BEFORE = [
    Step(SENT, 2, 1_000, 1_500), Step(HEARD, 1, 1_010, 1_600), Step(SENT, 1, 9_000, 9_000), Step(WRITTEN, 0, 9_900, 9_900),
]  # fmt: skip
SENDS_IT = "node 2 sends it in 18,000"
HEARD_ALONE = [Step(SENT, 2, 18_000, 18_500), Step(HEARD, 1, 18_010, 18_600)]


@pytest.mark.parametrize(
    "now, way, node, missing",
    [
        (HEARD_ALONE, f"{SENDS_IT}; node 1 hears it in 18,010 and does not pass it on", 1, ("a.c:5",)),
        (HEARD_ALONE[:1], f"{SENDS_IT}; node 1 never hears it", 2, None),
        ([], "node 2 never sends it", 2, None),
        ([*HEARD_ALONE, *BEFORE[2:]], f"{SENDS_IT}; node 1 sends it in 9,000; all act as where all is right", 2, None),
    ],
)
def test_a_trail_ends_at_the_first_node_that_does_not_act(now, way, node, missing):
    trail = Ending(FakeLines(), SCENE, 1_000, BEFORE, now, (2, 17_000)).lost("it comes")
    assert (trail.way, trail.node) == (f"it comes; {way}", node)
    lines = () if missing is None else ("a.c:1", "a.c:3")
    assert (trail.lines, trail.missing) == (lines, missing or ())


def test_what_is_doubled_is_followed_to_where_it_is_written_again():
    now = [*BEFORE, Step(SENT, 1, 19_000, 19_200), Step(HEARD, 0, 19_010, 19_500), Step(WRITTEN, 0, 20_500, 20_500)]
    trail = Ending(FakeLines(), SCENE, 1_000, BEFORE, now, (2, 500)).again("it comes", 0)
    sends = "node 2 sends it in 1,000; node 1 sends it in 9,000; node 1 sends it in 19,000"
    assert trail.way == f"it comes; {sends}; node 0 writes it in 9,900; node 0 writes it in 20,500"
    assert (trail.node, trail.lines, trail.missing) == (0, ("a.c:1", "a.c:3"), ())


def test_seldom_blocks_of_lines_are_told():
    """Lines that stand together and run equally often are one."""
    lines = {f"a.c:{line}": 5 for line in range(10, 100, 3)}
    assert told(lines) == tuple(f"a.c:{line}" for line in range(10, 10 + 3 * MOST_BLOCKS, 3))
    block = [f"a.c:{line}" for line in (200, 201, 203)]
    seldom = {**lines, **dict.fromkeys(block, 4), "b.c:204": 5, "a.c:9": 900}
    assert told(seldom) == (*(f"a.c:{line}" for line in range(10, 10 + 3 * (MOST_BLOCKS - 1), 3)), *block)


class FakeTails:
    """Node 0 writes the byte of node 2; in the failing run node 2 sends it and nobody hears it."""

    simulator = None

    def written(self, document):
        return document


class FakeTrails(Trails):
    def __init__(self):
        self.lines = FakeLines()

    def output(self, document):
        it = document["input"][0]
        byte = it["hex"][2:4]
        sends = rows(f"{it['at'] + 900} 2 sent {byte}")
        return sends + (rows(f"9000 0 serial {byte}", "9010 0 serial 0A") if it["at"] == 100 else b"")


@pytest.mark.parametrize(
    "failure, begin",
    [
        (
            Failure(LOST, 0, "", parts=frozenset([b"A"])),
            "'A' comes to node 2 in cycle 700; node 2 sends it in 1,200; node 0 never hears it",
        ),
        (Failure(LOST, 0, "", parts=frozenset([b"B"])), None),
        (Failure(SILENT, 0, ""), None),
        (Failure(DOUBLED, None, "", parts=frozenset([b"A"])), None),
    ],
)
def test_what_comes_of_a_byte_of_input_is_followed(failure, begin):
    trail = FakeTrails().of(SCENE, failure)
    assert (trail and trail.way) == begin


@pytest.mark.skipif(not (PROGRAM and shutil.which("avr-gcc")), reason="needs AVRORA_PROGRAM and Debian's gcc-avr")
def test_the_trail_of_an_event_ends_where_its_leaf_takes_the_answer_to_another(tmp_path):
    """Fault ANSWERS of gather.c: node 4 sends an event once, and takes another's answer for its own."""
    shutil.copytree(HUNT, tmp_path / "hunt")
    shutil.copy2(HUNT.parent / "radio.h", tmp_path)
    subprocess.run([tmp_path / "hunt" / "build"], check=True, capture_output=True)
    folder = str(tmp_path / "hunt")
    document = {**tomllib.loads((tmp_path / "hunt/gather.toml").read_text(encoding="utf-8")), "window": [0, 0]}
    scene = Scene(document, 2_700_000, Trial("inputs", "", (Input(4, 560_000, 33_873, "046364"),)))
    known = Programs([f"{folder}/gather.elf"], Scenario.load(f"{folder}/gather.toml"), False)
    with ProcessTails(Simulator(PROGRAM, folder, 60), scenes(document), 1) as tails:
        lines = Lines(tails, known)
        lines.know(document)
        trails = Trails(lines)
        reference = Reference(trails.output(document), scene.until, document["cycles"])
        failure = Oracle(range(9)).failure(reference, scene.trial, trails.output(scene.failing()))
        trail = trails.of(scene, failure)
        headers = [line for line in lines.executed(document) if not re.match(r"gather\.c:|radio\.h:", line)]
    assert failure.parts == {b"4c"}
    assert re.fullmatch(
        r"'4c' comes to node 4 in cycle 593,873; node 4 sends it in [\d,]+; node 1 never hears it", trail.way
    )
    assert (trail.node, trail.lines) == (4, ())
    assert headers == []
