"""What a worker of dask has of a campaign: a process, which it starts anew where it proves itself."""
import contextlib
import os
import pickle
import signal
import types

import pytest

from avrora_tools import carriers, local_worker, runs
from campaign_runs import SIMULATOR

pytest.importorskip("distributed", reason="needs dask.distributed (Debian's python3-distributed)")

JOB = runs.Job(
    'version = 3\ncycles = 5_000\nlatency = 20\n[[node]]\nimage = "a.hex"\n[[node]]\nimage = "a.hex"\n', 0, {}, None
)


@contextlib.contextmanager
def carrier_in(tmp_path, monkeypatch):
    """One of a worker that has its files in the folder `worker`."""
    monkeypatch.setenv("CAMPAIGN_LOG", str(tmp_path / "log"))
    (tmp_path / "worker").mkdir()
    files = {runs.PROGRAM: SIMULATOR.encode(), "a.hex": b":00000001FF\n"}
    found, _, _ = carriers.for_dask("campaign", runs.Shipment(files, [runs.Check(())], 60, "none"))
    found.setup(types.SimpleNamespace(local_directory=str(tmp_path / "worker")))
    yield found
    found.teardown(None)
    assert not os.listdir(tmp_path / "worker")


@pytest.fixture
def carrier(tmp_path, monkeypatch):
    with carrier_in(tmp_path, monkeypatch) as found:
        yield found


def reason(carrier):
    """Why it does not prove itself, or None."""
    return carrier.prove()[1]


def answers(carrier, *jobs):
    """What comes of a batch, which goes through dask as it is pickled."""
    return pickle.loads(carrier.run_batch(pickle.dumps(jobs)))


def outcomes(carrier, *jobs):
    return [answer["outcome"] for answer in answers(carrier, *jobs)["answers"]]


def test_its_process_is_killed(carrier):
    """Which is told; it proves itself by another one, and goes on."""
    assert reason(carrier) is None
    assert outcomes(carrier, JOB, JOB) == ["passed", "passed"]
    first = carrier.process.pid
    os.kill(first, signal.SIGKILL)
    with pytest.raises(RuntimeError, match="its process ended with status -9"):
        answers(carrier, JOB)
    assert reason(carrier) is None
    assert carrier.process.pid != first
    assert answers(carrier, JOB)["sick"] is None


def test_signs_of_life_are_no_answers(tmp_path, monkeypatch):
    """Its process gives one each few milliseconds, while runs take longer."""
    often = "avrora_tools.local_worker.SECONDS_A_TICK = 0.002; main()"
    start = local_worker.START.replace("main()", f"import avrora_tools.local_worker; {often}")
    monkeypatch.setattr(local_worker, "START", start)
    with carrier_in(tmp_path, monkeypatch) as carrier:
        assert reason(carrier) is None
        for _ in range(5):
            assert outcomes(carrier, JOB, JOB) == ["passed", "passed"]


def test_it_goes(carrier, tmp_path):
    """And takes its process with it, and its files."""
    assert reason(carrier) is None
    process = carrier.process.pid
    carrier.teardown(None)
    with pytest.raises(ProcessLookupError):
        os.kill(process, 0)
    assert not os.listdir(tmp_path / "worker")


def test_a_folder_that_is_gone(carrier, tmp_path):
    carrier.place = str(tmp_path / "nowhere")
    assert "No such file or directory" in reason(carrier)
