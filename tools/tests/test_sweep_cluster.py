"""sweep on workers that are sent batches: the order of what they answer, workers that go or are sick, and a real
cluster."""
import gzip
import os
import re
import shutil
import subprocess
import tomllib
import unittest
from pathlib import Path

import pytest

import test_cluster
from avrora_tools import pools, runs
from avrora_tools.errors import BadInput, CannotWork
from avrora_tools.sweeping.cluster import ClusterTails
from avrora_tools.sweeping.events import LinkLatency, Moved, Span, moved_scenario
from avrora_tools.sweeping.simulation import NO_WINDOW, Simulator
from support import LONG, TOOL, TOP, needs_loopback, needs_module

DOCUMENT = tomllib.loads(
    """
version = 2
cycles = 1_000
node = [{ image = "folder/a.hex" }, { image = "b.hex" }, { image = "folder/a.hex" }]
link = [{ from = 0, to = 1 }]
"""
)
RUNS = 40


class Pool:
    """Workers that answer a run by its latency; the last batch that was sent is answered first. `faults` has, by a
    worker's name, what it does with its first batch: nothing but go, be sick behind one answer, or answer as it is
    told."""

    def __init__(self, names, faults=None):
        self.there = [pools.Worker(name) for name in names]
        self.faults = faults or {}
        self.events = [pools.Proved(worker) for worker in self.there]
        self.sent = []
        self.sizes = []
        self.closed = False

    def send(self, worker, ticket, jobs):
        assert worker in self.there
        worker.tickets[ticket] = None
        self.sent.append((worker, ticket, jobs))
        self.sizes.append(len(jobs))

    def wait(self, seconds):
        events, self.events = self.events, []
        if events:
            return events
        worker, ticket, jobs = self.sent.pop()
        fault = self.faults.pop(worker.name, None)
        if fault == "go":
            self.there.remove(worker)
            tickets = list(worker.tickets)
            self.sent = [it for it in self.sent if it[0] is not worker]
            return [pools.Lost(worker, tickets, "the worker is gone")]
        answers = [self.answer(text, fault) for text, *_ in jobs]
        del worker.tickets[ticket]
        if fault == "sick":
            return [pools.Done(worker, ticket, answers[:1], "no space left")]
        return [pools.Done(worker, ticket, answers, None)]

    @staticmethod
    def answer(text, fault):
        if isinstance(fault, dict):
            return fault
        document = tomllib.loads(text)
        assert [node["image"] for node in document["node"]] == ["image0.hex", "image1.hex", "image0.hex"]
        return {
            **runs.answer(runs.PASSED),
            "trace": gzip.compress(b"%d" % document["link"][0]["latency"]),
            "seconds": 0.1,
        }

    def unproved(self):
        return []

    def set_aside(self, worker):
        self.there.remove(worker)
        self.sent = [it for it in self.sent if it[0] is not worker]

    def has_hope(self):
        return bool(self.there)

    def close(self):
        self.closed = True


def outputs(pool, count=RUNS):
    scenario = moved_scenario(DOCUMENT, [Moved(LinkLatency(0, 1), Span(1, RUNS))], None)
    with ClusterTails(Simulator("avrora", ".", LONG), scenario) as tails:
        tails.drive_by(pool)
        found = tails.outputs(((latency,), NO_WINDOW) for latency in range(1, RUNS + 1))
        return [int(next(found)) for _ in range(count)] if count < RUNS else [int(it) for it in found]


ALL = list(range(1, RUNS + 1))


def test_outputs_come_in_the_order_of_the_jobs():
    pool = Pool(["a", "b", "c"])
    assert outputs(pool) == ALL
    assert pool.closed
    assert sum(pool.sizes) in range(RUNS, RUNS + 5)  # each once, but for second opinions


def test_who_asks_for_some_gets_some():
    assert outputs(Pool(["a", "b"]), 3) == [1, 2, 3]


@pytest.mark.parametrize("fault", ["go", "sick", {**runs.answer(runs.BROKEN, "took more than 60 s", again=True)}])
def test_what_one_worker_does_not_answer_another_one_does(fault):
    assert outputs(Pool(["a", "b"], {"a": fault})) == ALL


def test_nobody_is_left(capsys):
    with pytest.raises(CannotWork, match="all workers are set aside: b: no space left"):
        outputs(Pool(["a", "b"], {"a": "go", "b": "sick"}))
    assert "the worker a: the worker is gone" in capsys.readouterr().err


def test_a_run_that_never_comes_to_an_answer():
    class Broken(Pool):
        def answer(self, text, fault):
            return {**runs.answer(runs.BROKEN, "took more than 60 s", again=True)}

    with pytest.raises(CannotWork, match="a run came to no answer 3 times: took more than 60 s"):
        outputs(Broken(["a"]))


class Refusing(Pool):
    """Worker `a` refuses all, or each of them does."""

    def __init__(self, names, refusing):
        super().__init__(names)
        self.refusing = refusing

    def send(self, worker, ticket, jobs):
        super().send(worker, ticket, [(text, worker.name) for text, *_ in jobs])

    def wait(self, seconds):
        events = self.events or [self.answered(*self.sent.pop())]
        self.events = []
        return events

    def answered(self, worker, ticket, jobs):
        del worker.tickets[ticket]
        refused = runs.answer(runs.REFUSED, "scenario refused: SelfLink")
        answers = [refused if name in self.refusing else self.answer(text, None) for text, name in jobs]
        return pools.Done(worker, ticket, [dict(answer) for answer in answers], None)


def test_a_scenario_that_is_refused():
    """By two workers; one that refuses alone is set aside."""
    with pytest.raises(BadInput, match="SelfLink"):
        outputs(Refusing(["a", "b"], ["a", "b"]))


def test_one_that_refuses_alone(capsys):
    pool = Refusing(["a", "b", "c"], ["a"])
    assert outputs(pool) == ALL
    assert [worker.name for worker in pool.there] == ["b", "c"]
    assert "the worker a is set aside: it came to refused" in capsys.readouterr().err


@unittest.skipUnless(os.environ.get("AVRORA_PROGRAM"), "AVRORA_PROGRAM names no program")
@needs_module("distributed", "python3-distributed")
@needs_loopback
class OnDask(test_cluster.Cluster):
    """The race of `wake` on two workers that know nothing of this repository."""

    WORKERS = 2

    def swept(self, *words):
        """What a sweep says, without how long it took and will take."""
        shutil.copytree(Path(TOP) / "examples/races", f"{self.path}/races", dirs_exist_ok=True)
        words = [
            *TOOL,
            "sweep",
            *words,
            f"{self.path}/races/wake.toml",
            "--start",
            "0=514_180..514_239",
            "--until",
            "530_000",
        ]
        ran = subprocess.run(words, capture_output=True, text=True, timeout=LONG, check=False)
        errors = [line for line in ran.stderr.splitlines() if not re.search("classes run, |: counting classes: ", line)]
        self.assertEqual((ran.returncode, errors), (1, []))
        told = re.sub(r"(?m)^(all classes take about|shorter:) .*\n", "", ran.stdout)
        return re.sub(r"[\d.]+ s\b|\(\d+ a second\)", "", told)

    def test_the_same_is_told(self):
        self.wait_for_workers(2)
        told = self.swept("--scheduler", self.address)
        self.assertIn("moves: 514,208 to 514,211", told)
        self.assertEqual(told, self.swept())

    def hunted(self, *words):
        """What a hunt says, without how long it took."""
        shutil.copytree(Path(TOP) / "examples/races", f"{self.path}/races", dirs_exist_ok=True)
        hunt = ["hunt", f"{self.path}/races/alarm.toml", "--until", "700_000", "--rounds", "1", "--only", "starts,cuts"]
        ran = subprocess.run([*TOOL, *hunt, *words], capture_output=True, text=True, timeout=LONG, check=False)
        self.assertEqual((ran.returncode, ran.stderr), (1, ""))
        shutil.rmtree(f"{self.path}/races/alarm.hunt")
        return re.sub(r"(?m)^[\d,]+ runs in .*|^found after .*", "", ran.stdout)

    def test_a_hunt_finds_the_same(self):
        self.wait_for_workers(2)
        told = self.hunted("--scheduler", self.address)
        self.assertIn("node 0 did not write", told)
        self.assertEqual(told, self.hunted())
