"""Works and searches in processes of their own: what they answer, and how they are ended."""
import functools
import os
import subprocess
import time

import pytest

from avrora_tools import expressions, groups, processes
from avrora_tools.errors import BadInput, CannotWork
from support import LONG, run_tool, scratch, wait_for

# Expressions that search for longer than anybody waits, with the text that they are shown.
ENDLESS = [(b"(.*.*)*..#", b"a" * 1000), (b"(a+)+$", b"a" * 1000 + b"b"), (b"(|)" * 40 + b"(?=c)", b"")]


def is_gone(process):
    """Whether a process ended, also one that nobody waited for."""
    try:
        with open(f"/proc/{process}/stat", encoding="ascii") as file:
            return file.read().rpartition(")")[2].split()[0] == "Z"
    except FileNotFoundError:
        return True


def children():
    with open(f"/proc/{os.getpid()}/task/{os.getpid()}/children", encoding="ascii") as file:
        return file.read().split()


class TestExpressions:
    @pytest.mark.parametrize(
        "expression, text, wanted",
        [(b"^b$", b"a\nb\nc", True), (b"^b$", b"abc", False), (b"\xff", bytearray(b"\xfe\xff"), True)],
    )
    def test_answers(self, expression, text, wanted):
        assert expressions.has(expression, text) == wanted

    def test_many_texts(self):
        assert expressions.has_each(b"a", (b"ba", b"a")) and not expressions.has_each(b"a", iter([b"ba", b"b"]))

    @pytest.mark.parametrize("expression, text", ENDLESS)
    def test_one_that_does_not_end(self, expression, text):
        start = time.monotonic()
        with pytest.raises(expressions.TooLong):
            expressions.has(expression, text, 0.2)
        assert time.monotonic() - start < 60 and not children()

    def test_memory(self, monkeypatch):
        monkeypatch.setattr(expressions, "MEMORY", 1 << 20)
        with pytest.raises(expressions.TooLong):
            expressions.has(rb"(a?)*b", b"a" * 10_000_000, LONG)

    def test_a_process_that_is_killed_is_no_answer(self, monkeypatch):
        monkeypatch.setattr(expressions, "searched", lambda *_: os.kill(os.getpid(), 9))
        with pytest.raises(expressions.TooLong):
            expressions.has(b"a", b"a")


class TestCases:
    """Of `expect`: row by row read, and then searched."""

    def test_a_check_under_its_timeout(self):
        with scratch("a.expect", "text 4 matches '(.*.*)*..#'\n") as bad, scratch(
            "b.expect", "text 4 'relay'\n"
        ) as good:
            for jobs in ("1", "3"):
                status, out, _ = run_tool(
                    "expect", "--timeout", "5", "--jobs", jobs, "--trace", trace_of_serial(bad), bad, good
                )
                assert status == 3 and "a.expect: it took more than 5 seconds" in out

    def test_a_check_without_one(self, monkeypatch):
        monkeypatch.setattr(expressions.has, "__defaults__", (5,))  # which reading the case takes on no machine
        with scratch("a.expect", "text 4 matches '(.*.*)*..#'\n") as case:
            status, out, _ = run_tool("expect", "--trace", trace_of_serial(case), case)
        assert status == 3 and "a.expect, line 1: the search for the expression takes more than" in out

    def test_many_searches_that_each_end_in_time(self, monkeypatch):
        """Together they may take no longer than one may."""
        monkeypatch.setattr(expressions, "has", lambda *_: time.sleep(0.1))
        monkeypatch.setattr(expressions, "SECONDS", 0.25)
        with scratch("a.expect", "".join(f"text 4 matches 'a*{number}'\n" for number in range(50))) as case:
            status, out, _ = run_tool("expect", "--jobs", "1", "--trace", trace_of_serial(case), case)
        assert status == 3 and "a.expect, line 4: the search" in out, out

    def test_a_case_that_cannot_be_read_in_time(self, monkeypatch):
        monkeypatch.setattr(expressions.has, "__defaults__", (0.2,))
        with scratch("a.expect", f"text 4 matches '{'(|)' * 40}(?=c)'\n") as case:
            status, _, err = run_tool("expect", "--trace", "-", case)
        assert status == 2 and "a.expect, line 1: the search" in err

    def test_nothing_is_left_of_a_golden_trace_that_was_cut(self):
        endless = "#!/bin/sh\necho '0 0 serial 41'\nsleep 1000\n"
        with scratch("avrora", endless) as avrora, scratch("a.expect", "run net\ngolden a.rows\n") as case:
            os.chmod(avrora, 0o755)
            status, out, _ = run_tool("expect", "--save", "--timeout", "1", "--avrora", avrora, case)
            assert status == 3 and os.listdir(os.path.dirname(case)) == ["a.expect"], out


def trace_of_serial(case):
    """A trace beside the case in which node 4 writes a long line."""
    path = f"{os.path.dirname(case)}/long.trace"
    with open(path, "w", encoding="ascii") as file:
        for cycle in range(0, 60_000, 100):
            file.write(f"{cycle} 4 serial 61\n")
        file.write("".join(f"90000 {node} end 1 running\n" for node in range(5)))
    return path


class TestTasks:
    def test_they_come_in_order(self):
        def work(number):
            time.sleep((3 - number) / 20)
            return number

        tasks = processes.in_order([functools.partial(work, number) for number in range(4)], 2, None, lambda: None)
        assert [task.answer() for task in tasks] == [0, 1, 2, 3] and not children()

    def test_long_answers_and_what_they_raise(self):
        def fail():
            raise BadInput("why")

        long, failed = processes.in_order([lambda: b"x" * 10_000_000, fail], 2, LONG, lambda: None)
        assert len(long.answer()) == 10_000_000
        with pytest.raises(BadInput, match="why"):
            failed.answer()

    def test_a_process_that_is_killed(self):
        (task,) = processes.in_order([lambda: os.kill(os.getpid(), 9)], 1, None, lambda: None)
        with pytest.raises(CannotWork):
            task.answer()

    def test_what_it_started_ends_with_it(self, tmp_path):
        runs = groups.Groups()

        def work():
            with runs.started(["sleep", "1000"]) as own, subprocess.Popen(["sleep", "1000"]) as other:
                (tmp_path / "new").write_text(f"{own.pid} {other.pid}")
                os.rename(tmp_path / "new", tmp_path / "numbers")
                own.wait()

        (task,) = processes.in_order([work], 1, 1, runs.end_all)
        with pytest.raises(processes.Late):
            task.answer()
        for process in (tmp_path / "numbers").read_text().split():
            wait_for(lambda: is_gone(int(process)))

    def test_what_is_not_awaited_is_ended(self):
        tasks = processes.in_order([lambda: 1, lambda: time.sleep(1000)], 2, None, lambda: None)
        next(tasks)
        tasks.close()
        assert not children()
