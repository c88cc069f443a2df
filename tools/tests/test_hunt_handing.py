"""What handlers hand over and write again before main has it: by hand, and in a network of examples/hunt."""
import os
import shutil
import subprocess
import tomllib
from pathlib import Path
from types import SimpleNamespace

import pytest

from avrora_tools.errors import CannotWork
from avrora_tools.hunting.changes import Cut, Input, Trial
from avrora_tools.hunting.handing import Follower, Handing, Overwritten, Sharings, Uses
from avrora_tools.hunting.smaller import Scene
from avrora_tools.programs import Program
from avrora_tools.scenarios import Scenario
from avrora_tools.sweeping.sharing import DataObject, Use
from avrora_tools.sweeping.simulation import Simulator
from support import TOP

PROGRAM = os.environ.get("AVRORA_PROGRAM")

# When the nine nodes of examples/hunt start, so that a third leaf's packet comes to a relay that has one.
NEAR = 124_848, 10_913, 50_357, 70_605, 50_350, 96_394, 74_024, 113_468, 43_569

ENTRY, WRITE, TAKE = 0x100, 0x110, 0x200
PLACE = {0x150: "place", 0x151: "place"}
USES = Uses(frozenset([ENTRY]), {WRITE: "place"}, {TAKE: frozenset(["place"])}, PLACE)


def followed(*events):
    """A follower after events: a letter each, or the address of a byte that changes."""
    follower = Follower(USES)
    addresses = {"e": ENTRY, "w": WRITE, "t": TAKE}
    for cycle, event in enumerate(events):
        if isinstance(event, int):
            follower.byte(event)
        else:
            follower.at(cycle, addresses[event])
    return follower


@pytest.mark.parametrize(
    "events, cycles",
    [
        (["e", "w", 0x150, "t", "e", "w", 0x150], None),  # main has it between
        (["e", "w", 0x150, "w", 0x150], None),  # in one visit
        (["e", "w", 0x150, "e", "w", 0x151], None),  # another place of a queue
        (["e", "w", 0x150, "e", "w"], None),  # the same value again
        (["e", "w", 0x150, "e", "w", 0x150], (1, 4)),
        (["e", "w", 0x151, "e", "t", "e", "w", 0x151, "e", "e", "w", 0x150, 0x151], (6, 10)),
    ],
)
def test_a_place_that_is_written_again(events, cycles):
    found = followed(*events).found.get("place")
    assert (found and (found[0].cycle, found[1].cycle)) == cycles


def test_uses_are_of_handlers_or_of_main():
    function = SimpleNamespace(name="USART0_RX_vect", first=ENTRY)
    program = SimpleNamespace(functions=[function, SimpleNamespace(name="main", first=0x80)])
    uses = [
        Use(WRITE, "USART0_RX_vect", False, True),
        Use(WRITE + 1, "USART0_RX_vect", True),
        Use(WRITE + 2, "both", False, True),
        Use(TAKE, "main", True),
    ]
    sharing = SimpleNamespace(
        objects=[DataObject(0x150, 2, "place"), DataObject(0x160, 1, "other"), DataObject(0x200, 500, "large")],
        uses={"place": uses, "large": uses},
        handed_over={"place", "large"},
        of_main={"main", "both"},
        of_handlers={"USART0_RX_vect", "both"},
    )
    assert Uses.of(program, sharing) == USES
    assert USES.places(3) == [
        "3 byte 0150\n", "3 byte 0151\n", "3 at 0100\n", "3 at 0110\n", "3 at 0200\n",
    ]  # fmt: skip


SCENE = Scene(
    {"version": 3, "cycles": 900, "node": [{"image": "a.hex"}] * 2, "link": [{"from": 0, "to": 1}], "input": []},
    800,
    Trial("cuts", "", (Cut(0, 1, 5, 9),)),
)
AGAIN = "10 1 at 0100\n12 1 byte 0150 07\n12 1 at 0110\n30 1 at 0100\n33 1 at 0110\n34 1 byte 0150 08\n"
FOUND = Overwritten(1, "place", "a.c:7", 12, 33)


class Watched:
    """Two runs, and what `watch` says of them."""

    def __init__(self, right, failing):
        self.texts = {False: right, True: failing}

    def call(self, *words):
        assert words[0] == "watch" and words[2:4] == ("0", "900")
        text = Path(words[1]).read_text(encoding="utf-8")
        Scenario.of_text(text, "the scenario")
        found = self.texts["open" in text]
        if isinstance(found, Exception):
            raise found
        return found.encode()


@pytest.mark.parametrize(
    "right, failing, found",
    [("", AGAIN, (FOUND,)), (AGAIN, AGAIN, ()), (AGAIN.replace(" 1 ", " 0 "), AGAIN, ()), ("", "", ())],
)
def test_only_what_the_right_run_does_not_do_is_told(right, failing, found):
    handing = Handing(Watched(right, failing), None, lambda image: SimpleNamespace(line_at=lambda word: "a.c:7"))
    handing.known["a.hex"] = USES
    assert handing.overwritten(SCENE) == found


def test_a_simulator_that_cannot_tell(capsys):
    handing = Handing(Watched("", CannotWork("killed")), None, lambda image: SimpleNamespace())
    handing.known["a.hex"] = USES
    assert handing.overwritten(
        SCENE
    ) == () and "what handlers hand over is not known: killed" in capsys.readouterr().err
    assert Handing(Watched("", ""), None, lambda image: None).overwritten(SCENE) == ()


@pytest.mark.skipif(not PROGRAM, reason="AVRORA_PROGRAM names no program")
@pytest.mark.skipif(not shutil.which("avr-gcc"), reason="needs avr-gcc (Debian's gcc-avr)")
@pytest.mark.parametrize("fixed, lines", [(0x17, ["inbox = coming"]), (0x1F, [])])
def test_the_place_of_a_relay(tmp_path, fixed, lines):
    """Leaves of examples/hunt that start near to each other, with the fault of the one place left, and with none."""
    examples = Path(TOP) / "examples"
    elf = tmp_path / "gather.elf"
    flags = ["-mmcu=atmega128", "-Os", "-gdwarf-2", f"-I{examples}", f"-DFIXED={fixed}"]
    subprocess.run(["avr-gcc", *flags, "-o", elf, examples / "hunt/gather.c"], check=True)
    subprocess.run(
        ["avr-objcopy", "-j", ".text", "-j", ".data", "-O", "ihex", elf, tmp_path / "gather.hex"], check=True
    )
    document = tomllib.loads((examples / "hunt/gather.toml").read_text(encoding="utf-8"))
    inputs = {it["node"]: it for it in document["input"]}
    starts = [Input(node, at, inputs[node].get("every", 7_680), inputs[node]["hex"]) for node, at in enumerate(NEAR)]
    simulator, program = Simulator(PROGRAM, str(tmp_path), 300), Program(str(elf))
    handing = Handing(simulator, Sharings(simulator), lambda image: program)
    found = handing.overwritten(Scene(document, 2_700_000, Trial("starts", "", tuple(starts))))
    source = (examples / "hunt/gather.c").read_text(encoding="utf-8").split("\n")
    assert [source[int(it.line.split(":")[1]) - 1].split(";")[0].strip() for it in found] == lines
