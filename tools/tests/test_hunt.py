"""Hunts by the program that AVRORA_PROGRAM names: of the network of examples/races, and of examples/hunt."""
import json
import os
import re
import shlex
import shutil
import signal
import subprocess
import sys
from pathlib import Path

import pytest

from support import TOOL, TOP, run_tool

EXAMPLES = Path(TOP) / "examples"
PROGRAM = os.environ.get("AVRORA_PROGRAM")

pytestmark = pytest.mark.skipif(not PROGRAM, reason="AVRORA_PROGRAM names no program")
needs_compiler = pytest.mark.skipif(not shutil.which("avr-gcc"), reason="needs avr-gcc (Debian's gcc-avr)")

# All that the sink writes once nothing is varied.
EVENTS = "3a 3b 4c 4d 5e 5f 6g 6h 7i 7j 8k 8l".split()


@pytest.fixture(scope="module")
def folder(tmp_path_factory):
    """A copy of both examples, with ELF files where the compiler is there."""
    found = tmp_path_factory.mktemp("examples")
    for name in ("races", "hunt"):
        shutil.copytree(EXAMPLES / name, found / name)
    shutil.copy2(EXAMPLES / "radio.h", found)
    if shutil.which("avr-gcc"):
        images = {path: path.read_bytes() for path in found.glob("hunt/*.hex")}
        for words in (["races/build", "alarm"], ["hunt/build"]):
            subprocess.run([found / words[0], *words[1:]], check=True, capture_output=True)
        for path, content in images.items():
            if path.read_bytes() != content:
                pytest.fail(f"{path.name} is not what its source makes: run examples/hunt/build")
    return found


@pytest.fixture
def at(folder, tmp_path, monkeypatch):
    """Goes into one of the examples; a corpus of its own."""

    def into(name):
        monkeypatch.chdir(folder / name)
        return ["--corpus", str(tmp_path / "corpus"), "--jobs", "2"]

    return into


def lines_of_sink(folder, scenario):
    trace = subprocess.run(
        [PROGRAM, "run", "--plain", scenario], cwd=folder, capture_output=True, text=True, check=True
    )
    written = re.findall(r"^\d+ 0 serial ([0-9A-F]{2})$", trace.stdout, re.M)
    return bytes.fromhex("".join(written)).decode().split("\n")[:-1]


@pytest.mark.parametrize("name", ["gather", "gather-fixed"])
def test_nothing_fails_in_the_lab(folder, name):
    assert sorted(lines_of_sink(folder / "hunt", f"{name}.toml")) == EVENTS


def test_the_same_seed_varies_the_same_and_what_is_found_fails(at, tmp_path):
    words = ["hunt", "alarm.toml", *at("races"), "--until", "700_000", "--rounds", "1", "--only", "starts,cuts"]
    status, out, err = run_tool(*words)
    assert (status, err) == (1, "") and re.search(r"^  starts +12 tried", out, re.M)
    found = sorted((tmp_path / "corpus").glob("found-*.toml"))
    assert found and len(found) % 2 == 0
    for path in found:
        if "-right" not in path.name:
            right = path.with_name(path.name.replace(".toml", "-right.toml"))
            assert re.search(
                r"^# Drawn by seed 1 of `hunt`, (starts|cuts): .+\.$", path.read_text(encoding="utf-8"), re.M
            )
            one, two = (lines_of_sink(path.parent, it.name) for it in (path, right))
            assert one != two
    shutil.rmtree(tmp_path / "corpus")
    again = run_tool(*words)[1]
    assert [without_times(text) for text in (out, again)] == [without_times(out)] * 2


def without_times(text):
    return re.sub(r"^[\d,]+ runs in .*| \([\d,]+ s of processors\)", "", text, flags=re.M)


def test_a_corpus_goes_on(at, tmp_path):
    """The next hunt tries what failed, and draws no packet that was drawn before; of another deadline all packets."""
    words = ["hunt", "alarm.toml", *at("races"), "--rounds", "1", "--only", "cuts"]

    def hunt(until):
        out = run_tool(*words, "--until", until)[1]
        record = json.loads((tmp_path / "corpus" / "hunt.json").read_text())
        left, singles = re.search(r"(\d+) packets of (\d+), each", out).groups()
        known = re.search(r"has (\d+) trials", out)[1]
        return int(known), len(record["failed"]), record["rounds"], int(left), int(singles)

    first, second, other = hunt("700_000"), hunt("700_000"), hunt("690_000")
    assert first[0] == 0 and second[0] == first[1] and other[0] == second[1]
    assert (first[2], second[2], other[2]) == (1, 2, 3)
    assert first[4] > first[3] > second[3] and second[3] < other[3] < other[4]


def test_a_scenario_that_fails_unvaried_is_refused(at, tmp_path):
    words = at("races")
    case = tmp_path / "never.expect"
    case.write_text('text 0 "never"\n')
    status, _, err = run_tool("hunt", "alarm.toml", *words, "--expect", str(case))
    assert status == 2 and "fails as it is, with nothing varied" in err


@pytest.mark.parametrize(
    "words",
    [
        ["--until", "900_001"],
        ["--only", "starts,nothing"],
        ["--expect", "a", "--check", "b"],
        ["--check", "a", "--always", "1 SP > 0x200"],
        ["--always", "SP > 0x200"],
        ["--always", "4 SP > 0x200"],
        ["--always", "1 nothing <= 1"],
        ["--always", "1 SP > 0x200", "--scheduler", "tcp://127.0.0.1:1"],
        ["--processor-minutes", "1", "--scheduler", "tcp://127.0.0.1:1"],
        ["--nodes", "7"],
    ],
)
def test_bad_words_have_status_two(at, words):
    status, _, err = run_tool("hunt", "alarm.toml", *at("races"), *words)
    assert status == 2 and err.count("\n") == 1


@needs_compiler
def test_arrivals_are_swept_where_handler_and_main_share_something(at):
    words = [
        "hunt", "alarm.toml", "-e", "alarm.elf", *at("races"), "--until", "700_000", "--rounds", "4", "--only",
        "arrivals",
    ]
    status, out, err = run_tool(*words)
    assert (status, err) == (1, "")
    assert re.search(r"`enqueue` \(alarm\.c:2\d.*`queued`.* used here and in `USART0_RX_vect`", out)
    command = re.search(r"^   (\S.* .*race-1\.toml.*)$", out, re.M)
    assert command and subprocess.run(command[0].strip(), shell=True, capture_output=True, check=False).returncode == 0



@needs_compiler
def test_a_condition_holds_in_every_cycle_of_each_run(at, tmp_path):
    words = ["hunt", "alarm.toml", "-e", "alarm.elf", *at("races"), "--until", "700_000", "--only", "arrivals"]
    status, out, err = run_tool(*words, "--rounds", "3", "--always", "2 queued <= 1")
    assert (status, err) == (1, "") and re.search(
        r"^1\. not met: node 2: `queued <= 1` does not hold: queued is 2, by enqueue", out, re.M
    )
    command = re.search(r"^   avrora-tools (sweep alarm\.toml --input 2:1=.* --always '2 queued <= 1')$", out, re.M)
    status, swept, _ = run_tool(*shlex.split(command[1]))
    assert status == 1 and "`queued <= 1` does not hold" in swept
    status, _, err = run_tool(*words, "--rounds", "1", "--always", "2 queued <= 0")
    assert status == 2 and "fails as it is, with nothing varied: node 2: `queued <= 0` does not hold" in err


def test_the_commands_of_a_finding_open_it(at, tmp_path, monkeypatch):
    words = ["hunt", "alarm.toml", *at("races"), "--until", "700_000", "--rounds", "1", "--only", "starts"]
    status, out, _ = run_tool(*words)
    assert status == 1
    programs = tmp_path / "programs"
    programs.mkdir()
    (programs / "avrora").symlink_to(PROGRAM)
    (programs / "avrora-tools").symlink_to(Path(TOP) / "avrora-tools")
    monkeypatch.setenv("PATH", f"{programs}:{os.environ['PATH']}")
    monkeypatch.setenv("PYTHON", sys.executable)
    commands = re.findall(r"^   (\(.*\))$", out, re.M)
    assert len(commands) >= 4
    for command in commands:
        if " gdb " in command:  # it waits for a debugger
            continue
        ran = subprocess.run(command, shell=True, capture_output=True, text=True, check=False)
        assert ran.returncode in ((0, 1) if re.search(" (diff|sweep) ", command) else (0,)), (command, ran.stderr)
    assert list((tmp_path / "corpus").glob("found-1.toml.html"))
    missing = re.findall(r"^not covered: (.*)$", out, re.M)
    assert len(missing) == 1 and "arrivals cycle by cycle (no -e" in missing[0] and "all kinds but starts" in missing[0]


@pytest.mark.parametrize("number", [signal.SIGINT, signal.SIGTERM])
def test_a_hunt_that_is_cut_tells_what_it_found(at, tmp_path, number):
    words = ["hunt", "alarm.toml", *at("races"), "--until", "700_000", "--only", "starts,cuts"]
    with subprocess.Popen([*TOOL, *words], stdout=subprocess.PIPE, text=True) as process:
        next(line for line in process.stdout if line.startswith("found after"))
        process.send_signal(number)
        rest = process.stdout.read()
    told = {signal.SIGINT: "^C", signal.SIGTERM: "SIGTERM"}[number]
    assert process.returncode == 1 and f"\ncut: {told}\n" in rest
    assert re.search(r"^1\. lost: node 0 did not write", rest, re.M) and "not covered: " in rest
    assert json.loads((tmp_path / "corpus/hunt.json").read_text())["failed"]
    assert (tmp_path / "corpus/found-1.toml").exists()
