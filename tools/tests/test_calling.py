"""Calls of the simulator by a campaign's worker: how they end, and what they leave."""
import os
import signal
import tempfile

import pytest

from avrora_tools import calling

LONG = 600


@pytest.fixture
def shell():
    """Calls the shell with a script; how it ended and what it wrote."""
    caller = calling.Caller()

    def call(script, place="/", seconds=LONG):
        with tempfile.TemporaryFile() as output:
            ended = caller.call("/bin/sh", ["-c", script], place, output, seconds)
            output.seek(0)
            return ended, output.read().decode()

    yield call
    caller.close()


def test_where_it_works_and_what_it_says(shell, tmp_path):
    here = os.getcwd()
    assert shell("pwd; echo told >&2", str(tmp_path)) == ((0, "told"), f"{tmp_path}\n")
    assert os.getcwd() == here
    assert shell("exit 7") == ((7, ""), "")  # and nothing of the call before


def test_a_signal(shell):
    assert shell("kill -9 $$")[0].status == -signal.SIGKILL


def test_there_is_nothing_to_read(shell):
    assert shell("cat") == ((0, ""), "")


def test_no_signal_is_ignored_that_python_ignores(shell):
    _, ignored = shell("grep SigIgn /proc/self/status")[1].split()
    assert not int(ignored, 16) & (1 << signal.SIGPIPE - 1 | 1 << signal.SIGXFSZ - 1)


def test_no_file_of_this_process_is_open_there(shell, tmp_path):
    with open(tmp_path / "a file of this process", "wb"):
        assert "a file of this process" not in shell("ls -l /proc/self/fd")[1]


@pytest.fixture
def started(monkeypatch):
    """The numbers of the processes that are started."""
    found, spawn = [], os.posix_spawn

    def noted(*words, **more):
        found.append(spawn(*words, **more))
        return found[-1]

    monkeypatch.setattr(os, "posix_spawn", noted)
    return found


def assert_ended(processes):
    (process,) = processes
    with pytest.raises(ProcessLookupError):
        os.kill(process, 0)


def test_one_that_takes_too_long_is_killed(shell, started):
    with pytest.raises(calling.TooLong):
        shell("sleep 1000", seconds=0.1)
    assert_ended(started)


def test_one_that_is_interrupted_is_killed(shell, started, monkeypatch):
    def interrupt(process):
        raise KeyboardInterrupt

    monkeypatch.setattr(os, "pidfd_open", interrupt)
    with pytest.raises(KeyboardInterrupt):
        shell("sleep 1000")
    assert_ended(started)


def test_what_cannot_be_started(tmp_path):
    here = os.getcwd()
    program = tmp_path / "program"
    program.write_text("no program")
    caller = calling.Caller()
    with tempfile.TemporaryFile() as output:
        with pytest.raises(PermissionError):
            caller.call(str(program), [], "/", output, LONG)
        program.chmod(0o755)
        with pytest.raises(OSError, match="Exec format error"):
            caller.call(str(program), [], "/", output, LONG)
        with pytest.raises(FileNotFoundError):
            caller.call("/bin/true", [], str(tmp_path / "nowhere"), output, LONG)
    caller.close()
    assert os.getcwd() == here
