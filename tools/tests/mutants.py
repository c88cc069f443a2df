#!/usr/bin/env python3
"""Makes the readers of traces wrong in one way after the other, and runs their tests: each of these mutants must be
told.

    tools/tests/mutants.py [COUNT] [SEED]     COUNT of them, as the SEED draws them; all where no COUNT is named

Exit status: 0 all are told, 1 one survives, or changes a text that is not there once.
"""
import contextlib
import os
import random
import shutil
import sys
import tempfile
from typing import NamedTuple

TESTS = os.path.dirname(os.path.realpath(__file__))
TOOLS = os.path.dirname(TESTS)

# The tests of the readers, in the order in which they run.
READERS = ("test_traces.py", "test_links.py", "test_scenarios.py")


class Mutant(NamedTuple):
    """What is wrong, in words; the module; the text that is right, which stands there once; and what it becomes."""

    name: str
    module: str
    right: str
    wrong: str


MUTANTS = [
    # the form of rows
    Mutant("ages end at 254", "events", "MAX_AGE = 255", "MAX_AGE = 254"),
    Mutant("ages end at 999", "events", "MAX_AGE = 255", "MAX_AGE = 999"),
    Mutant("ages have leading zeros", "events", "(0|[1-9][0-9]{0,2})", "([0-9]{1,3})"),
    Mutant("a clash has an age", "events", "(2) ([0-9A-F]{2}) (0))", "(2) ([0-9A-F]{2}) ([0-9]))"),
    Mutant("nothing has a byte", "events", "(0) (00) (0)", "(0) ([0-9A-F]{2}) (0)"),
    Mutant(
        "bytes have small letters", "events", 're.compile("sent ([0-9A-F]{2})")', 're.compile("sent ([0-9A-Fa-f]{2})")'
    ),
    Mutant("each text is an instruction", "events", "not is_instruction(self.instruction)", "False"),
    Mutant("each text is a cause of a stop", "events", "self.cause not in STOPS", "False"),
    Mutant("the last vector is none", "events", "<= LAST_VECTOR and", "< LAST_VECTOR and"),
    Mutant("the reset is a vector", "events", "FIRST_VECTOR <= word", "FIRST_VECTOR - 2 <= word"),
    Mutant("odd vectors", "events", "word % 2 == 0", "word % 2 < 2"),
    Mutant("one instruction less than may be", "events", "MAX_INSTRUCTIONS = 2**40", "MAX_INSTRUCTIONS = 2**40 - 1"),
    Mutant("one instruction more than may be", "events", "MAX_INSTRUCTIONS = 2**40", "MAX_INSTRUCTIONS = 2**40 + 1"),
    Mutant("cycles have leading zeros", "traces", "if str(cycle) != text:", "if False:"),
    Mutant("cycles of other lengths are not looked at", "traces", " or len(text) != length:", ":"),
    Mutant("nodes have leading zeros", "traces", "str(int(digits[:9])) != digits", "False"),
    Mutant("there is a node 64", "traces", "int(digits) >= MAX_NODES", "int(digits) > MAX_NODES"),
    # the order of rows
    Mutant("two rows of one rank", "traces", "elif place <= before:", "elif place < before:"),
    Mutant("rows of a cycle in any order", "traces", "elif place <= before:", "elif False:"),
    Mutant("cycles in any order", "traces", "if now <= cycle or ", "if "),
    Mutant(
        "the nodes of a cycle fall", "traces", "node << RANK_BITS | event.rank", "63 - node << RANK_BITS | event.rank"
    ),
    Mutant("the nodes of a cycle in any order", "traces", "node << RANK_BITS | event.rank", "event.rank"),
    Mutant("serial and sent have one rank", "events", 'kind, rank = "serial", 1', 'kind, rank = "serial", 2'),
    Mutant("heard stands before sent", "events", 'kind, rank = "heard", 3', 'kind, rank = "heard", 1'),
    Mutant("a send too early by a cycle", "traces", "-NEVER) < self.least_gap", "-NEVER) < self.least_gap - 1"),
    Mutant("a send late enough is too early", "traces", "-NEVER) < self.least_gap", "-NEVER) <= self.least_gap"),
    Mutant(
        "each node's sends are those of all",
        "traces",
        "self.last_sent[node] = cycle",
        "self.last_sent = dict.fromkeys(range(64), cycle)",
    ),
    Mutant("a node goes on behind its stop", "traces", "del self.nodes[str(node)]", "pass"),
    Mutant(
        "a node does again behind its stop what it did",
        "traces",
        "        self.texts.clear()\n        self.stopped",
        "        self.stopped",
    ),
    # bounds
    Mutant(
        "a row in the limit's cycle", "traces", "self.first <= cycle < self.bound", "self.first <= cycle <= self.bound"
    ),
    Mutant("a row in the limit's cycle behind another", "traces", "now >= bound", "now > bound"),
    Mutant(
        "no row in the last cycle", "traces", "self.first <= cycle < self.bound", "self.first <= cycle < self.bound - 1"
    ),
    Mutant(
        "a row before the state", "traces", "self.first <= cycle < self.bound", "self.first - 1 <= cycle < self.bound"
    ),
    Mutant(
        "no row in the state's cycle", "traces", "self.first <= cycle < self.bound", "self.first < cycle < self.bound"
    ),
    Mutant("no end row at the bound", "traces", "cycle > self.bound or", "cycle >= self.bound or"),
    Mutant("a head has an epoch more", "traces", "epochs * EPOCH if", "epochs * EPOCH + 1 if"),
    Mutant("no row in the last cycle of all", "traces", "0 <= cycle <= LAST_LIMIT", "0 <= cycle < LAST_LIMIT"),
    Mutant(
        "a text of 5,000 digits",
        "traces",
        "except ValueError:\n                        now",
        "except KeyError:\n                        now",
    ),
    Mutant("a window of a cycle more", "traces", "return cycle + MAX_WINDOW", "return cycle + MAX_WINDOW + 1"),
    Mutant("a window of a cycle less", "traces", "return cycle + MAX_WINDOW", "return cycle + MAX_WINDOW - 1"),
    Mutant("the window's end is in it", "traces", "if not first <= cycle < end:", "if not first <= cycle <= end:"),
    Mutant(
        "the window's first cycle is not in it", "traces", "if not first <= cycle < end:", "if not first < cycle < end:"
    ),
    Mutant("rows of the window behind its end", "traces", "if cycle < window_end", "if cycle <= window_end"),
    Mutant(
        "the trace of a scenario has a node more",
        "traces",
        "self.most_nodes = len(scenario.images)",
        "self.most_nodes = 1 + len(scenario.images)",
    ),
    # the end
    Mutant("a missing end row", "traces", "if len(self.ended) < wanted", "if not self.ended"),
    Mutant("no end row at all", "traces", "if self.form in (Form.WHOLE, Form.ENDED):", "if self.ended:"),
    Mutant("two end rows", "traces", "if node in self.ended:", "if False:"),
    Mutant("end rows with a gap", "traces", "node != len(self.ended)", "node < len(self.ended)"),
    Mutant("end rows of several cycles", "traces", "if cycle != self.limit:", "if cycle < self.limit:"),
    Mutant("rows behind an end row", "traces", "self.nodes.clear()", "pass"),
    Mutant(
        "rows behind an end row that came before",
        "traces",
        "self.nodes.clear()\n        self.texts.clear()",
        "self.nodes.clear()",
    ),
    Mutant("a node that stopped runs", "traces", "goes_on = has_stopped and event.state != STOPPED", "goes_on = False"),
    Mutant("a node that runs stopped", "traces", "and not has_stopped and event.state == STOPPED", "and False"),
    Mutant(
        "as many instructions as cycles are too many",
        "traces",
        "event.instructions > cycle",
        "event.instructions >= cycle",
    ),
    Mutant("more instructions than cycles", "traces", "event.instructions > cycle", "event.instructions > cycle + 1"),
    Mutant("an end row of a head", "traces", "if self.form is Form.HEAD:", "if False:"),
    Mutant(
        "a last line that is cut off", "traces", "        if rest:\n", "        if rest and self.form is Form.WHOLE:\n"
    ),
    Mutant("an empty trace", "traces", "if self.count == 0:", "if False:"),
    Mutant("a node without an end row", "traces", "        if silent:\n", "        if False:\n"),
    Mutant("another limit than the scenario's", "traces", "self.limit != self.scenario.cycles:", "False:"),
    Mutant("what stopped before the state", "traces", "if one.stop():", "if False:"),
    # the air
    Mutant("a byte is heard a cycle too long", "scenarios", "since >= self.byte_time", "since > self.byte_time"),
    Mutant("a byte is heard a cycle too short", "scenarios", "since >= self.byte_time", "since >= self.byte_time - 1"),
    Mutant("a byte is heard a cycle too late", "scenarios", "if since >= 0 and", "if since > 0 and"),
    Mutant("a link is open a cycle too long", "scenarios", "first <= cycle < end for", "first <= cycle <= end for"),
    Mutant("a link is open a cycle too late", "scenarios", "first <= cycle < end for", "first < cycle < end for"),
    Mutant("a sample's age ends at 254", "scenarios", "min(255, (cycle", "min(254, (cycle"),
    Mutant("an age is not that of the link", "scenarios", "- on_air[0].latency) // 16", ") // 16"),
    Mutant("a clash has the byte of one", "scenarios", "byte |= one.byte", "byte = one.byte"),
    Mutant(
        "a send is forgotten too early",
        "scenarios",
        "+ self.reach + self.byte_time <= cycle",
        "+ self.byte_time <= cycle",
    ),
    Mutant(
        "the air is silent too early", "scenarios", "cycle + link.latency + self.byte_time)", "cycle + self.byte_time)"
    ),
    Mutant("a node sends while it sends", "hearing", "if cycle < self.free[node]:", "if cycle < self.free[node] - 1:"),
    Mutant(
        "a node may not send behind its byte", "hearing", "if cycle < self.free[node]:", "if cycle <= self.free[node]:"
    ),
]


def is_told(mutant: Mutant, folder: str) -> bool:
    """Whether a test fails in a copy of the package that is wrong; a test that hangs is told by hand."""
    path = f"{folder}/tools/avrora_tools/{mutant.module}.py"
    with open(path, encoding="utf-8") as file:
        right = file.read()
    if right.count(mutant.right) != 1:
        raise SystemExit(
            f"{mutant.name}: {mutant.module}.py has {right.count(mutant.right)} times {mutant.right!r}, and not once"
        )
    with open(path, "w", encoding="utf-8") as file:
        file.write(right.replace(mutant.right, mutant.wrong))
    try:
        return tests_fail(folder)
    finally:
        with open(path, "w", encoding="utf-8") as file:
            file.write(right)


def tests_fail(folder: str) -> bool:
    """Whether a test of the readers fails; in a process of its own, which has pytest already."""
    import pytest

    child = os.fork()
    if child == 0:
        with open(os.devnull, "w") as nowhere, contextlib.redirect_stdout(nowhere), contextlib.redirect_stderr(nowhere):
            sys.dont_write_bytecode = True
            os.chdir(f"{folder}/tools")
            status = pytest.main(
                ["-x", "-q", "-p", "no:cacheprovider", "-k", "not stored_texts", *(f"tests/{name}" for name in READERS)]
            )
        os._exit(int(status))
    return os.waitstatus_to_exitcode(os.waitpid(child, 0)[1]) == pytest.ExitCode.TESTS_FAILED


def main(count: int, seed: int) -> int:
    mutants = MUTANTS[:]
    random.Random(seed).shuffle(mutants)
    mutants = mutants[:count]
    survivors = []
    with tempfile.TemporaryDirectory() as folder:
        shutil.copytree(TOOLS, f"{folder}/tools", ignore=shutil.ignore_patterns("__pycache__", ".*"))
        os.symlink(f"{os.path.dirname(TOOLS)}/bench", f"{folder}/bench")
        os.symlink(f"{os.path.dirname(TOOLS)}/examples", f"{folder}/examples")
        if tests_fail(folder):
            print("the tests of the readers fail without a mutant")
            return 1
        for mutant in mutants:
            told = is_told(mutant, folder)
            print(f"{'told' if told else 'SURVIVES'}: {mutant.name}", flush=True)
            survivors += [] if told else [mutant.name]
    print(f"{len(mutants) - len(survivors)} of {len(mutants)} mutants are told")
    return int(bool(survivors))


if __name__ == "__main__":
    if sys.argv[1:2] in (["--help"], ["-h"]):
        sys.exit(print(__doc__))
    numbers = [int(word) for word in sys.argv[1:]]
    sys.exit(main(*(numbers + [len(MUTANTS), 1][len(numbers) :])))
