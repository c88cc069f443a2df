"""What docs/FAULTS.md and docs/FORMATS.md say of the program: how much stack it needs, and which fault of several it
tells."""
import itertools
import os
import resource
import shutil
import subprocess

import pytest

from support import LONG, TOP

PROGRAM = os.environ.get("AVRORA_PROGRAM", "")

pytestmark = pytest.mark.skipif(not os.access(PROGRAM, os.X_OK), reason="AVRORA_PROGRAM names no program")


@pytest.fixture(scope="module")
def place(tmp_path_factory):
    path = tmp_path_factory.mktemp("place")
    for name in ("packet.toml", "packet.hex", "hello.hex", "digits.s"):
        shutil.copy(f"{TOP}/examples/{name}", path)
    text = (path / "packet.toml").read_text()
    texts = {
        "refused.toml": text.replace("latency = 100", "latency = 0"),
        "missing.toml": text.replace("packet.hex", "none.hex"),
        "no-image.toml": text.replace("packet.hex", "no-image"),
        "no-image": "no image\n",
        "no-state": "no state\n",
        "moves": "0 300000 100 41\n",
        "places": "0 byte 005F\n0 at 0000\n",
    }
    for name, content in texts.items():
        (path / name).write_text(content)
    (path / "state").write_bytes(called(path, "save", "packet.toml", "1").stdout)
    return path


def called(place, *words, stack=None):
    def limit():
        if stack:
            resource.setrlimit(resource.RLIMIT_STACK, (stack * 1024, stack * 1024))

    return subprocess.run(
        [PROGRAM, *words], cwd=place, capture_output=True, check=False, timeout=LONG, preexec_fn=limit
    )


def said(place, *words):
    done = called(place, *words)
    return done.returncode, done.stderr.decode().splitlines()[0].removeprefix("avrora: ")


@pytest.mark.parametrize(
    "words",
    [
        "run packet.toml",
        "run --plain packet.toml",
        "check packet.toml",
        "monitor packet.toml 0 1000",
        "sniff packet.toml",
        "head packet.toml 1",
        "save packet.toml 1",
        "resume packet.toml state",
        "head packet.toml 1 state",
        "save packet.toml 1 state",
        "sweep packet.toml state moves",
        "look packet.toml 1000",
        "look packet.toml 300000 state",
        "watch packet.toml 0 5000 places",
        "watch packet.toml 262144 270000 places state",
        "watch packet.toml 262144 270000 places state moves",
        "node hello.hex 1000",
        "disasm hello.hex",
        "asm digits.s",
        "make 3",
    ],
)
def test_the_stack(words, place):
    done = called(place, *words.split(), stack=1024)
    assert done.returncode == 0 and done.stdout


FILES = {  # in the order in which they are told, with what is told
    "none.toml": (3, "cannot read none.toml"),
    "refused.toml": (4, "refused.toml: scenario refused: OutOfRange"),
    "missing.toml": (3, "cannot read none.hex"),
    "no-image.toml": (5, "no-image: image refused: NotARecord, line 1"),
    "packet.toml": None,
}
STATES = {
    "none": (3, "cannot read none"),
    "no-state": (8, "no-state: state refused: NotAState, line 1"),
    "state": None,
}


@pytest.mark.parametrize("command", ["head", "save", "resume", "sweep"])
def test_scenario_then_images_then_the_state(command, place):
    for (name, fault), (state, other) in itertools.product(FILES.items(), STATES.items()):
        words = {"resume": [name, state], "sweep": [name, state, "none"]}.get(command, [name, "9999999", state])
        last = {"sweep": (3, "cannot read none")}.get(command, (8, "state: state refused: PastEnd"))
        if command != "resume" or fault or other:
            assert said(place, command, *words) == (fault or other or last), words


def test_the_end_of_a_monitor(place):
    """Behind the scenario, before the images; `why` finds no fault of the file."""
    for name, fault in FILES.items():
        is_told = fault and name in ("none.toml", "refused.toml")
        wanted = fault if is_told else (4, f"{name}: scenario refused: OutOfRange")
        assert said(place, "monitor", name, "0", "9999999999") == wanted


MOVES = {  # each with what it says of its only line
    "9 300000 100 41": "BadLine",  # no LF
    "9 x 100 41\n": "NoNode",
    "9\n": "NoNode",
    "x\n": "BadLine",
    "0 9999999999999 100\n": "BadLine",  # a stretch without its words
    "0 9999999999999 0 4\n": "OutOfRange",  # AT, EVERY, HEX
    "0 300000 0 zz\n": "OutOfRange",
    "0 300000 100 4142 300000 100 zz\n": "BadLine",  # before where it begins
    "0 300000 100 4142 300000 100 41\n": "Unordered",
    "0 300000 0 41 5\n": "OutOfRange",  # the first stretch
    f"0 300000 100 4142 300000 100 {'41' * 70_000}\n": "Unordered",
    f"0 300000 100 4142 400000 100 {'41' * 70_000}\n": "TooLong",
}


@pytest.mark.parametrize("line", MOVES, ids=range(len(MOVES)))
def test_the_order_within_moves(line, place):
    (place / "drawn").write_text(line)
    assert said(place, "sweep", "packet.toml", "state", "drawn") == (8, f"drawn: moves refused: {MOVES[line]}, line 1")
