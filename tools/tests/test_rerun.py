"""`rerun`: a command that is run again when a file changes, or one that a scenario or a case names, and what
differs."""
import os
import shutil
import signal
import subprocess
import threading
import time

import pytest

from avrora_tools import rerunning
from support import DATA, LONG, TOOL, run_tool, wait_for


def rerun(place, *words, changes=(), env=None):
    """Runs the tool in a folder, and makes each change once the files are watched again; its status, output and
    errors."""
    process = subprocess.Popen(
        [*TOOL, "rerun", "--every", "20", *words], cwd=place, stdout=subprocess.PIPE, stderr=subprocess.PIPE, text=True,
        env={**os.environ, **(env or {})},
    )  # fmt: skip
    out, err = [], []
    readers = [threading.Thread(target=read, args=pair) for pair in ((process.stdout, out), (process.stderr, err))]
    for reader in readers:
        reader.start()
    for number, change in enumerate(changes, 1):
        wait_for(lambda: sum("are watched" in line for line in err) >= number or process.poll() is not None)
        time.sleep(0.05)
        change()
    status = process.wait(LONG)
    for reader in readers:
        reader.join()
    return status, "".join(out), "".join(err)


def read(stream, into):
    with stream:
        for line in stream:
            into.append(line)


def test_lines_that_differ_are_shown(tmp_path):
    (tmp_path / "a.txt").write_text("one\ntwo\nthree\n")
    change = lambda: (tmp_path / "a.txt").write_text("one\n2\nthree\n")  # noqa: E731
    status, out, err = rerun(tmp_path, "--runs", "2", "a.txt", "--", "cat", "a.txt", changes=[change])
    assert (status, out) == (
        0,
        "one\ntwo\nthree\n--- the run before\n+++ this run\n@@ -1,4 +1,4 @@\n one\n-two\n+2\n three\n \n",
    )
    assert "run 1: status 0" in err and "changed: a.txt" in err and "run 2: status 0" in err


def test_rows_that_differ_are_told_as_diff_tells_them(tmp_path):
    shutil.copy(f"{DATA}/relay.trace", tmp_path / "a.trace")
    before = (tmp_path / "a.trace").read_text()
    after = before.replace("6542 0 sent 72", "6543 0 sent 72", 1)
    assert after != before
    status, out, _ = rerun(
        tmp_path,
        "--runs",
        "2",
        "--quiet",
        "a.trace",
        "--",
        "cat",
        "a.trace",
        changes=[lambda: (tmp_path / "a.trace").write_text(after)],
    )
    (tmp_path / "b.trace").write_text(before)
    told = run_tool("diff", str(tmp_path / "b.trace"), str(tmp_path / "a.trace"))[1]
    assert status == 0 and out == told.partition("the same: ")[0] and "- 6542 0 sent 72" in out


def test_the_same_output_is_told_so(tmp_path):
    (tmp_path / "a.txt").write_text("one\n")
    touch = lambda: os.utime(tmp_path / "a.txt", ns=(1, 1))  # noqa: E731
    status, out, _ = rerun(tmp_path, "--runs", "2", "--quiet", "a.txt", "--", "cat", "a.txt", changes=[touch])
    assert (status, out) == (0, "the same output\n")


def test_a_pipe_that_a_case_names_is_not_waited_for(tmp_path):
    os.mkfifo(tmp_path / "pipe.toml")
    (tmp_path / "a.expect").write_text("run pipe.toml\n* 0 sent *\n")
    assert rerunning.watched([f"{tmp_path}/a.expect"]) == [f"{tmp_path}/a.expect"]


def test_images_of_a_scenario_and_files_of_a_case_are_watched(tmp_path):
    for name in ("relay.toml", "relay.hex", "relay.trace"):
        shutil.copy(f"{DATA}/{name}", tmp_path)
    (tmp_path / "a.expect").write_text("run relay.toml\n* 0 sent 72\ngolden gold.rows\n")
    found = rerunning.watched([f"{tmp_path}/a.expect"])
    assert {os.path.basename(name) for name in found} == {"a.expect", "relay.toml", "relay.hex", "gold.rows"}
    before = rerunning.stamps_of([f"{tmp_path}/a.expect"])
    os.utime(tmp_path / "relay.hex", ns=(1, 1))
    (tmp_path / "gold.rows").write_text("6542 0 sent 72\n")
    names = rerunning.changed(before, rerunning.stamps_of([f"{tmp_path}/a.expect"]))
    assert {os.path.basename(name) for name in names} == {"relay.hex", "gold.rows"}
    (tmp_path / "relay.toml").write_text("cycles = ")  # as where it is being written
    assert rerunning.watched([f"{tmp_path}/relay.toml"]) == [f"{tmp_path}/relay.toml"]


def test_the_status_is_that_of_the_last_run_and_words_behind_the_dashes_are_the_commands(tmp_path):
    (tmp_path / "a.txt").write_text("")
    status, out, err = rerun(
        tmp_path, "--runs", "1", "a.txt", "--", "sh", "-c", 'echo --runs; echo "$0"; exit 7', "--help"
    )
    assert (status, out) == (7, "--runs\n--help\n") and "run 1: status 7" in err


def test_what_a_command_writes_moves_no_cursor(tmp_path):
    (tmp_path / "a.txt").write_bytes(b"\x1b[2Jone\n\xff\n")
    change = lambda: (tmp_path / "a.txt").write_bytes(b"\x1b[2Jtwo\n\xff\n")  # noqa: E731
    _, out, _ = rerun(tmp_path, "--runs", "2", "a.txt", "--", "cat", "a.txt", changes=[change])
    assert "\x1b" not in out and "-\\x1B[2Jone\n+\\x1B[2Jtwo\n" in out and "\\xff" in out


@pytest.mark.parametrize(
    "words, why",
    [
        (["a.txt"], "put a command behind --"),
        (["a.txt", "--"], "put a command behind --"),
        (["none.txt", "--", "true"], "none.txt: there is no such file"),
        (["--", "true"], "the following arguments are required: FILE"),
    ],
)
def test_bad_words(tmp_path, monkeypatch, words, why):
    monkeypatch.chdir(tmp_path)
    (tmp_path / "a.txt").write_text("")
    status, out, err = run_tool("rerun", *words)
    assert (status, out) == (2, "") and why in err


def test_a_command_that_is_not_there_and_one_that_takes_too_long(tmp_path, monkeypatch):
    monkeypatch.chdir(tmp_path)
    (tmp_path / "a.txt").write_text("")
    status, _, err = run_tool("rerun", "a.txt", "--", "./none")
    assert status == 3 and "cannot run ./none" in err
    status, _, err = run_tool("rerun", "--timeout", "1", "a.txt", "--", "sleep", "600")
    assert status == 3 and "took more than 1 seconds" in err


def test_an_interrupt_ends_it_well(tmp_path):
    (tmp_path / "a.txt").write_text("")
    process = subprocess.Popen([*TOOL, "rerun", "a.txt", "--", "true"], cwd=tmp_path, stderr=subprocess.PIPE, text=True)
    with process.stderr:
        while "are watched" not in process.stderr.readline():
            pass
        process.send_signal(signal.SIGINT)
        assert process.wait(LONG) == 0
