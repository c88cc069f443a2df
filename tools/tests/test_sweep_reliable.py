"""Sweeps that one can rely on: a check that is wrong is told before anything runs, one that is cut tells what it ran
and goes on where it was, and where all fails it is not called a race. By the program that AVRORA_PROGRAM names."""
import json
import os
import random
import re
import shutil
import signal
import subprocess
import time
from pathlib import Path

import pytest

from avrora_tools.errors import BadInput
from avrora_tools.sweeping.journal import Journal, digest
from avrora_tools.sweeping.limits import Limit, shown_time
from support import LONG, SEED, TOOL, TOP, run_tool

RACES = Path(TOP) / "examples" / "races"
PROGRAM = os.environ.get("AVRORA_PROGRAM")

needs_program = pytest.mark.skipif(not PROGRAM, reason="AVRORA_PROGRAM names no program")

SPAN = ["wake.toml", "--start", "0=514_150..514_230", "--until", "530_000", "--jobs", "2"]
TOTALS = re.compile(r"^(\d+) of (\d+) classes fail; (\d+) runs", re.M)
FINDING = re.compile(r"^1\. .*\n   moves: .*", re.M)


@pytest.fixture
def folder(tmp_path, monkeypatch):
    for name in ("wake.toml", "wake.hex"):
        shutil.copy(RACES / name, tmp_path)
    monkeypatch.chdir(tmp_path)
    return tmp_path


def sweep(*words):
    return run_tool("sweep", *SPAN, *words)


@needs_program
def test_a_check_that_fails_where_nothing_moves_is_told_before_a_class_is_counted(folder):
    (folder / "check.py").write_text("def check(run):\n    return 'never right'\n")
    status, out, err = sweep("--check", "check.py")
    assert (status, out) == (2, "") and err.count("\n") == 1
    assert "the run that is not moved fails too: never right" in err and "--until" in err


@needs_program
def test_a_check_that_cannot_work_is_told_before_a_class_is_counted(folder):
    (folder / "check.py").write_text("def check(run):\n    return None if 'A' in run.text(0) else 'no A'\n")
    status, out, err = sweep("--check", "check.py")
    assert (status, out) == (2, "") and "TypeError" in err


@needs_program
def test_where_all_fails_it_is_the_deadline_or_the_check(folder):
    (folder / "check.py").write_text("def check(run):\n    return None if run.at == 520_000 else 'moved'\n")
    status, out, _ = sweep("--check", "check.py", "--start=0=514_000..514_400")
    assert status == 2  # two events that are one
    words = ["wake.toml", "--start", "0=514_000..514_400", "--until", "530_000", "--check", "check.py", "--jobs", "2"]
    status, out, _ = run_tool("sweep", *words)
    assert status == 1 and TOTALS.search(out)[3] == "50"
    assert "the first 50 runs all fail, and others far from them: the deadline (--until) or the check, no race" in out


@needs_program
def test_a_race_of_many_classes_is_run_to_its_end(folder):
    """More than fifty classes fail, and others do not."""
    (folder / "check.py").write_text(
        "def check(run):\n    return 'wrong' if 514_000 <= run.at < 514_150 else None\n"
    )
    words = ["wake.toml", "--start", "0=514_000..514_300", "--until", "530_000", "--check", "check.py", "--jobs", "2"]
    status, out, _ = run_tool("sweep", *words)
    failing, classes, runs = map(int, TOTALS.search(out).groups())
    assert status == 1 and 50 < failing < classes == runs and "no race" not in out


@needs_program
def test_the_cost_is_told_before_the_runs(folder):
    out = sweep()[1]
    assert out.index("all classes take about") < out.index("first failure") < out.index("classes fail;")


@needs_program
def test_a_sweep_goes_on_where_it_was(folder):
    whole = sweep()[1]
    failing, classes, _ = TOTALS.search(whole).groups()
    first = sweep("--resume", "kept", "--runs", "7")[1]
    assert TOTALS.search(first).groups()[1:] == ("7", "7")
    status, second, _ = sweep("--resume", "kept")
    assert TOTALS.search(second).groups() == (failing, classes, str(int(classes) - 7))
    assert status == 1 and " and 7 before" in second and FINDING.search(second)[0] == FINDING.search(whole)[0]
    third = sweep("--resume", "kept")[1]
    assert TOTALS.search(third).groups() == (failing, classes, "0")


@needs_program
def test_a_line_that_was_cut_is_run_again_and_another_sweep_is_refused(folder):
    sweep("--resume", "kept", "--runs", "5")
    kept = Path("kept").read_bytes()
    Path("kept").write_bytes(kept[:-9])
    out = sweep("--resume", "kept")[1]
    assert " and 4 before" in out
    status, out, err = sweep("--resume", "kept", "--compare", "lines")
    assert (status, out) == (2, "") and "it is not of this sweep and this user" in err
    lines = kept.splitlines(keepends=True)
    Path("kept").write_bytes(lines[0] + lines[1].replace(b'"wrong": null', b'"wrong": "no"', 1) + b"".join(lines[2:]))
    status, out, err = sweep("--resume", "kept")
    assert (status, out) == (2, "") and "line 2: it is damaged" in err


@needs_program
def test_a_cut_sweep_has_lost_nothing_that_was_run(folder):
    """^C at a drawn moment: all that was kept is told, and the rest is run later, to the same end."""
    (folder / "check.py").write_text(
        "import time\n\ndef check(run):\n    time.sleep(0.01)\n    return None if b'A' in run.text(0) else 'no A'\n"
    )
    whole = FINDING.search(sweep("--check", "check.py")[1])[0]
    pause = random.Random(SEED).uniform(0, 0.6)
    words = [*TOOL, "sweep", *SPAN, "--check", "check.py", "--resume", "kept", "--out", "earliest.toml"]
    with subprocess.Popen(words, stdout=subprocess.PIPE, stderr=subprocess.PIPE, text=True) as process:
        end = time.monotonic() + LONG
        while time.monotonic() < end and not (Path("kept").exists() and Path("kept").read_bytes().count(b"\n") > 1):
            time.sleep(0.01)
        time.sleep(pause)
        process.send_signal(signal.SIGINT)
        out, err = process.communicate(timeout=LONG)
    kept = [json.loads(line.rpartition(b" ")[0]) for line in Path("kept").read_bytes().splitlines()[1:]]
    failing, ran, runs = map(int, TOTALS.search(out).groups())
    assert ran == runs == len(kept) and failing == sum(it["wrong"] is not None for it in kept), f"seed {SEED}"
    assert err == "" and (process.returncode == (1 if failing else 130) or "cut: ^C" not in out)
    assert Path("earliest.toml").exists() == bool(failing)
    assert FINDING.search(sweep("--check", "check.py", "--resume", "kept")[1])[0] == whole


@needs_program
def test_a_sweep_ends_in_its_time(folder):
    (folder / "check.py").write_text("import time\n\ndef check(run):\n    time.sleep(0.5)\n    return None\n")
    status, out, _ = sweep("--check", "check.py", "--seconds", "3")
    assert status == 0 and "cut: its 3 seconds are over" in out and "classes were not run" in out


def test_a_journal_is_of_its_user(tmp_path, monkeypatch):
    monkeypatch.setenv("XDG_STATE_HOME", str(tmp_path / "state"))
    path = str(tmp_path / "kept")
    whose = digest({"scenario": {"cycles": 1}, "image": b"1"})
    assert whose != digest({"scenario": {"cycles": 1}, "image": b"2"})
    journal = Journal(path, whose)
    journal.keep((5, 7), None)
    journal.keep((6, 7), "lost")
    journal.close()
    again = Journal(path, whose)
    assert again.known == {(5, 7): None, (6, 7): "lost"}
    again.close()
    with pytest.raises(BadInput, match="not of this sweep"):
        Journal(path, digest({}))
    os.symlink(path, tmp_path / "link")
    with pytest.raises(BadInput, match="link"):
        Journal(str(tmp_path / "link"), whose)


def test_a_journal_takes_no_other_file(tmp_path, monkeypatch):
    """What --resume names may lie in a repository of a stranger's, or be named by mistake."""
    monkeypatch.setenv("XDG_STATE_HOME", str(tmp_path / "state"))
    whose = digest({})
    notes = tmp_path / "notes"
    notes.write_bytes(b"a line that does not end")
    with pytest.raises(BadInput, match="not a file of `sweep --resume`"):
        Journal(str(notes), whose)
    assert notes.read_bytes() == b"a line that does not end"
    os.link(notes, tmp_path / "other")
    notes.write_bytes(b"")
    with pytest.raises(BadInput, match="second name"):
        Journal(str(notes), whose)
    os.mkfifo(tmp_path / "pipe")
    with pytest.raises(BadInput, match="no file"):
        Journal(str(tmp_path / "pipe"), whose)
    kept = tmp_path / "kept"
    Journal(str(kept), whose).close()
    first = kept.read_bytes()
    kept.write_bytes(first[:20])  # cut while it was begun
    Journal(str(kept), whose).close()
    assert kept.read_bytes() == first


def test_limits():
    limit = Limit(None)
    assert not limit.is_over()
    limit.take(signal.SIGTERM, None)
    signal.signal(signal.SIGINT, signal.default_int_handler)
    assert limit.is_over() and limit.reason() == "SIGTERM" and limit.status(0) == 143 and limit.status(1) == 1
    over = Limit(0.0)
    assert over.is_over() and over.status(0) == 0
    assert [shown_time(it) for it in (0.5, 90, 300, 7_200, 500_000)] == [
        "0.5 seconds", "90 seconds", "5 minutes", "2 hours", "6 days",
    ]  # fmt: skip
