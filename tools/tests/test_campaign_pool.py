"""campaign: workers that stand still, or die before they have proved themselves; and that the client's work for a run
does not grow with their count."""
import importlib.util
import os
import signal
import sys
import time

import pytest

from campaign_runs import folder
from support import LONG, TOP
from test_campaign_large import FakePool, Run
from avrora_tools import attempts, campaigns, driving, files, local_pool, local_worker, pools, sittings, watching


@pytest.fixture
def pool():
    """One process of this machine, by the simulator of campaign_runs."""
    with folder() as path:
        shipment = sittings.shipment_of(campaigns.read(f"{path}/c.toml"), files.read_named(f"{path}/avrora", 1 << 20))
        found = local_pool.LocalPool(1, shipment, path)
        yield found
        found.close()


def the_worker(pool):
    (worker,) = pool.workers.values()
    return worker


def next_events(pool):
    end = time.monotonic() + LONG
    while not (events := pool.wait(0.2)):
        assert time.monotonic() < end
    return events


def test_killed_before_its_proof(pool):
    """It is begun again, and proves itself."""
    os.kill(the_worker(pool).process.pid, signal.SIGKILL)
    (lost,) = next_events(pool)
    assert isinstance(lost, pools.Lost) and lost.reason == "the worker ended with status -9"
    (proved,) = next_events(pool)
    assert isinstance(proved, pools.Proved) and proved.worker is the_worker(pool)


def test_killed_before_its_proof_each_time(pool):
    for _ in range(local_pool.STARTS):
        os.kill(the_worker(pool).process.pid, signal.SIGKILL)
        (event,) = next_events(pool)
    assert isinstance(event, pools.SetAside) and "before it had proved itself, 3 times" in event.reason
    assert not pool.has_hope()


def test_it_gives_no_sign(pool):
    """As long as that may take it is left alone; then it is ended by name, what it had is lost, and another one
    comes."""
    (proved,) = next_events(pool)
    worker = proved.worker
    os.kill(worker.process.pid, signal.SIGSTOP)
    pool.send(worker, 7, [])
    worker.heard -= local_worker.SILENT_SECONDS / 2
    pool.waited = time.monotonic()
    assert pool.silent() == []
    worker.heard -= local_worker.SILENT_SECONDS
    pool.waited = time.monotonic()
    (lost,) = pool.silent()
    assert isinstance(lost, pools.Lost) and (lost.worker, list(lost.tickets)) == (worker, [7])
    assert lost.reason == "the worker gave no sign for 60 s" and worker.process.returncode == -signal.SIGKILL
    (proved,) = next_events(pool)
    assert isinstance(proved, pools.Proved) and proved.worker is not worker


def test_this_process_stood_still(pool):
    """No worker is blamed for it."""
    (proved,) = next_events(pool)
    proved.worker.heard -= 10 * local_worker.SILENT_SECONDS
    pool.waited -= 10 * local_worker.SILENT_SECONDS
    assert pool.silent() == [] and time.monotonic() - proved.worker.heard < local_worker.SILENT_SECONDS


class Silent(FakePool):
    """The worker `b` proves itself and never answers. Where nobody else has work time goes by."""

    def wait(self, seconds):
        events, self.events = self.events, []
        self.waits += 1
        assert self.waits < 10_000
        for worker in [worker for worker in self.workers if worker.tickets and worker.name != "b" and not events]:
            ticket, jobs = worker.tickets.popitem(last=False)
            self.now += len(jobs) * self.seconds[worker.name]
            answers = [{**runs_answer(), "seconds": self.seconds[worker.name]} for _ in jobs]
            events.append(pools.Done(worker, ticket, answers, None))
        if not events:
            self.now += 1
        return events


def runs_answer():
    return {**driving.runs.answer(driving.runs.PASSED), "hash": "00"}


@pytest.mark.parametrize("workers", ["ab", "b"])
def test_no_answer_to_a_batch(workers):
    """What it had is begun elsewhere, where somebody is; else it is set aside by name once the answer is overdue."""
    pool = Silent(dict.fromkeys(workers, 0.1))
    saved, said = {}, []

    def save(attempt, answer, host, second):
        assert attempt.run.number not in saved
        saved[attempt.run.number] = host

    progress = watching.Progress(200)
    progress.say = said.append
    driver = driving.Driver(pool, 3, progress, save, sample=0, clock=pool.clock, longest=20)
    iterators = [attempts.Attempt(Run(number), "") for number in range(200)]
    drive = [iter(iterators)]
    if workers == "b":
        with pytest.raises(
            driving.CannotWork, match="all workers are set aside: b: no answer to a batch of 1 runs in 39[01] s"
        ):
            driver.drive(lambda: drive.pop() if drive else None, lambda: None)
        return
    driver.drive(lambda: drive.pop() if drive else None, lambda: None)
    assert set(saved.values()) == {"a"} and len(saved) == 200
    assert any(text.startswith("the worker b has had 1 runs for ") for text in said), said


def test_the_client_and_its_workers():
    """What the client does for a run with 1,600 workers is what it does with four."""
    spec = importlib.util.spec_from_file_location("client", f"{TOP}/bench/client.py")
    client = importlib.util.module_from_spec(spec)
    before = sys.path.copy()
    spec.loader.exec_module(client)
    sys.path[:] = before
    few, many = client.cost(20_000, 4), client.cost(20_000, 1_600)
    assert many < 2 * few, (few, many)
    assert 1_000 * many / 20_000 < 0.3, "milliseconds a run"
