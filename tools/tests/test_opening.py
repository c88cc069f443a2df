"""From a finding to its cause: what finds something names the command that opens gdb there, and that command does."""
import os
import pty
import re
import shlex
import shutil
import subprocess

import pytest

from avrora_tools.opening import Where, debug_command
from firmware import compiled
from gdb_driver import Gdb
from support import LONG, TOOL, TOP
from test_gdb import PROGRAM, needs_all, stands

CLOSED_DOOR = """run packet.toml
* 0 serial *
never 300_000..400_000 0 heard 1 AA *
"""


@pytest.fixture(scope="module")
def folder(tmp_path_factory):
    place = tmp_path_factory.mktemp("opening")
    for name in ("packet.toml", "packet.c", "radio.h"):
        shutil.copy(f"{TOP}/examples/{name}", place)
    compiled(place / "packet.c", place, "-Os")
    for name in ("alarm.c", "alarm.toml"):
        shutil.copy(f"{TOP}/examples/races/{name}", place)
    text = (place / "alarm.c").read_text(encoding="utf-8").replace("../radio.h", "radio.h")
    (place / "alarm.c").write_text(text, encoding="utf-8")
    compiled(place / "alarm.c", place, "-Os")
    return place


def opened(said, folder):
    """Where gdb stands behind the command that something said: what it stopped at, and (cycle, node)."""
    line = re.search(r"\bdebug: (.*)|; (avrora-tools gdb .*)", said)
    words = shlex.split(line[1] or line[2])
    assert words[:2] == ["avrora-tools", "gdb"], said
    with Gdb(folder) as one:
        one.type("set remotetimeout 60")
        one.type(f"target remote | {shlex.join([*TOOL, 'gdb', '--avrora', PROGRAM, *words[2:]])}")
        return stands(one.type("monitor cycle").text)[0], words


def test_the_words_of_the_command(tmp_path):
    scenario = str(tmp_path / "a b.toml")
    said = debug_command(scenario, Where(443_346, 2), ["1=x y.elf"], "s.state", str(tmp_path))
    assert said == f"avrora-tools gdb --at 443_346 --node 2 -e '1=x y.elf' --state s.state '{scenario}'"
    assert " --images /elsewhere " in debug_command(scenario, Where(0, 0), images="/elsewhere")


@needs_all
def test_an_unmet_case_names_it(folder):
    (folder / "door.expect").write_text(CLOSED_DOOR, encoding="utf-8")
    done = subprocess.run(
        [*TOOL, "expect", "--avrora", PROGRAM, "door.expect"], cwd=folder, capture_output=True, text=True, check=False
    )
    assert done.returncode == 1, done.stderr
    row = re.search(r"> (\d+) (\d+) heard", done.stdout)
    assert opened(done.stdout, folder)[0] == (int(row[1]), int(row[2]))


@needs_all
def test_an_unmet_condition_names_it(folder):
    text = "run packet.toml\nelf packet.elf\nalways 0 ticks < 100\n"
    (folder / "ticks.expect").write_text(text, encoding="utf-8")
    words = [*TOOL, "expect", "--avrora", PROGRAM, "ticks.expect"]
    done = subprocess.run(words, cwd=folder, capture_output=True, text=True, check=False)
    assert done.returncode == 1, done.stdout + done.stderr
    row = re.search(r"> (\d+) (\d+) ticks: 99 -> 100", done.stdout)
    place, words = opened(done.stdout, folder)
    assert place == (int(row[1]), int(row[2])) and any(word.endswith("packet.elf") for word in words)


@needs_all
def test_a_difference_and_a_stop_name_it(folder):
    made = subprocess.run(
        [PROGRAM, "run", "packet.toml"], cwd=folder, capture_output=True, text=True, check=True
    ).stdout
    lines = made.splitlines(keepends=True)
    number = next(number for number, line in enumerate(lines) if number > 100 and " heard 1 " in line)
    cycle, node = map(int, lines[number].split()[:2])
    (folder / "one.trace").write_text(made, encoding="utf-8")
    (folder / "other.trace").write_text("".join(lines[:number] + lines[number + 1 :]), encoding="utf-8")
    words = [*TOOL, "diff", "-s", "packet.toml", "-e", "packet.elf", "one.trace", "other.trace"]
    done = subprocess.run(words, cwd=folder, capture_output=True, text=True, check=False)
    assert done.returncode == 1, done.stderr
    assert opened(done.stdout, folder)[0] == (cycle, node)
    stop = f"{cycle} {node} stop 0073 break\n"
    words = [*TOOL, "annotate", "-s", "packet.toml", "-"]
    done = subprocess.run(words, cwd=folder, input=stop, capture_output=True, text=True, check=False)
    assert opened(done.stdout, folder)[0] == (cycle, node), done.stdout + done.stderr


@needs_all
@pytest.mark.parametrize("out", ["found.toml", "elsewhere/found.toml"])
def test_a_sweep_names_it(folder, out):
    (folder / "elsewhere").mkdir(exist_ok=True)
    moves = ["--input", "2:1=443_340..443_350", "--until", "660_000", "--compare", "lines", "-e", "alarm.elf"]
    words = [*TOOL, "sweep", "--avrora", PROGRAM, "alarm.toml", *moves, "--out", out]
    done = subprocess.run(words, cwd=folder, stdin=subprocess.DEVNULL, capture_output=True, text=True, check=False)
    assert done.returncode == 1, done.stderr
    (cycle, node), words = opened(done.stdout, folder)
    assert node == 2 and 443_000 <= cycle <= 444_000 and words[-1] == out
    assert ("--images" in words) == ("/" in out)


@needs_all
def test_a_page_shows_it_for_what_is_clicked():
    with open(f"{TOP}/tools/avrora_tools/reporting/timeline.js", encoding="utf-8") as file:
        assert "avrora-tools gdb --at ${cycle} --node ${node.node}" in file.read()


@needs_all
def test_in_a_terminal_gdb_is_started(folder, tmp_path):
    """What a finding names is typed in a terminal: the tool becomes avr-gdb, which starts it again behind a pipe."""
    (tmp_path / "avr-gdb").write_text("#!/bin/sh\nprintf '%s\\n' \"$@\"\n", encoding="utf-8")
    (tmp_path / "avr-gdb").chmod(0o755)
    own, other = pty.openpty()
    words = [*TOOL, "gdb", "--avrora", PROGRAM, "--at", "300_000", "-e", "packet.elf", "packet.toml"]
    path = f"{tmp_path}:{os.environ['PATH']}"
    done = subprocess.run(
        words, cwd=folder, stdin=other, capture_output=True, text=True, env={**os.environ, "PATH": path}, timeout=LONG
    )
    os.close(own)
    os.close(other)
    assert done.returncode == 0, done.stderr
    remote = done.stdout.splitlines()[-1]
    assert remote.startswith("target remote | ") and done.stdout.startswith("-q\n-ex\n")
    with Gdb(folder) as one:
        one.type("set remotetimeout 60")
        one.type(remote)
        assert stands(one.type("monitor cycle").text) == [(300_000, 0)]
        assert "packet.elf" in one.type("info inferiors").text


def test_without_avr_gdb_the_terminal_says_what_is_missing(tmp_path):
    own, other = pty.openpty()
    env = {**os.environ, "PATH": str(tmp_path), "AVRORA_PROGRAM": "/bin/true"}
    words = [*TOOL, "gdb", "packet.toml"]
    done = subprocess.run(words, cwd=tmp_path, stdin=other, capture_output=True, text=True, env=env, timeout=LONG)
    os.close(own)
    os.close(other)
    assert done.returncode == 3 and "avr-gdb is not installed" in done.stderr
