"""campaign: what an operator of many machines has: --stop-after, --order drawn, --dry-run, --counts, --merge, the log,
and when it ends."""
import os
import re
import socket

import pytest

from campaign_runs import CAMPAIGN, folder, run_campaign, starts
from avrora_tools import runs, sittings, watching

FAILING = "{ from = 20, to = 29 }"  # by the case of campaign_runs
PASSING = "{ from = 30, to = 49 }"


def campaign(values, more=""):
    return more + CAMPAIGN.replace("[1, 3, 4, 20, 30]", values)


def test_stop_after():
    """It ends with what was under way, and says so; without the word the same command goes on."""
    with folder(campaign(FAILING)) as path:
        status, out, errors, rows = run_campaign(path, "--jobs", "1", "--stop-after", "2")
        assert status == 1, errors
        assert 2 <= len(rows) < 10 and {row["outcome"] for row in rows.values()} == {"failed"}
        assert f"ended, as {len(rows)} runs are failed or refused; {10 - len(rows)} have no result yet" in errors
        assert f"{10 - len(rows)} without a result yet" in out
        before = len(rows)
        status, _, errors, rows = run_campaign(path, "--jobs", "1")
        assert status == 1 and len(rows) == 10
        assert f"{before} of 10 results are there already" in errors and "ended, as" not in errors


def test_stop_after_counts_what_is_not_passed_alone():
    with folder(campaign(PASSING)) as path:
        status, _, errors, rows = run_campaign(path, "--jobs", "1", "--stop-after", "1")
        assert status == 0 and len(rows) == 20 and "ended, as" not in errors


@pytest.mark.parametrize("count", [1, 2, 3, 10, 97, 1_000, 4_096, 99_991, 10**9])
def test_drawn_order_is_a_sample(count):
    """Each number once, and of the first hundred some in each tenth of all."""
    numbers = sittings.Numbers(range(count), "drawn", "a name")
    if count <= 5_000:
        assert sorted(numbers[place] for place in range(count)) == list(range(count))
    first = [numbers[place] for place in range(min(100, count))]
    assert len(set(first)) == len(first)
    if count >= 1_000:
        tenths = [10 * number // count for number in first]
        assert all(5 <= tenths.count(tenth) <= 15 for tenth in range(10)), tenths


def test_drawn_order():
    """Each run once, not as they stand; cut and begun again, it goes on."""
    with folder(campaign(PASSING)) as path:
        status, _, errors, rows = run_campaign(path, "--jobs", "1", "--order", "drawn")
        assert status == 0, errors
        made = [int(latency) for latency in starts(path)]
        assert sorted(set(made)) == list(range(30, 50)) and made[:20] != sorted(made[:20])
        assert abs(made[0] - made[1]) > 3 < abs(made[1] - made[2]), made
        assert [row["parameters"]["latency"] for row in rows.values()] == list(range(30, 50))
        status, _, errors, _ = run_campaign(path, "--jobs", "1")
        assert status == 0 and "20 of 20 results are there already" in errors


def test_dry_run():
    """It keeps nothing, and tells what came of the drawn runs and what all will cost."""
    with folder(campaign("{ from = 30, to = 1_029 }")) as path:
        status, out, errors, _ = run_campaign(path, "--jobs", "2", "--dry-run")
        assert status == 0, errors
        assert not os.path.exists(f"{path}/c.results")
        lines = out.splitlines()
        assert lines[0].startswith("50 drawn runs: 50 passed; ") and " ms each, the slowest " in lines[0]
        assert re.fullmatch("1,000 runs: about .* with [12] workers", lines[1])  # the second one may come too late
        assert lines[2].startswith("the simulator takes ") and lines[2].endswith(", and results 300 kB")
        made = {int(latency) for latency in starts(path)}
        assert len(made) == 50 and max(made) - min(made) > 900


def test_dry_run_without_an_answer():
    with folder(campaign("[4]")) as path:
        status, out, errors, _ = run_campaign(path, "--jobs", "1", "--dry-run")
        assert (status, out) == (3, ""), errors
        assert "none of 1 drawn runs came to an answer: status 6" in errors


def series(text):
    """The values of a file in Prometheus' text format by their names with labels; each name is told of once."""
    lines = text.splitlines()
    kinds = [line.split()[2] for line in lines if line.startswith("# TYPE")]
    assert len(set(kinds)) == len(kinds) and all(
        line.startswith("# HELP") or line[0] != "#" or "TYPE" in line for line in lines
    )
    found = [line.rsplit(" ", 1) for line in lines if not line.startswith("#")]
    assert {name.partition("{")[0] for name, _ in found} == set(kinds)
    assert len(dict(found)) == len(found)
    return {name: float(value) for name, value in found}


def test_counts():
    """A file that another user may read; at the end it says that the campaign runs no more."""
    with folder(campaign("[20, 30, 31, 4]")) as path:
        status, _, errors, _ = run_campaign(path, "--jobs", "2", "--counts", f"{path}/mine.prom")
        assert status == 1, errors
        with open(f"{path}/mine.prom", encoding="utf-8") as mine, open(
            f"{path}/c.results/campaign.prom", encoding="utf-8"
        ) as own:
            text = mine.read()
            assert text == own.read()
        assert os.stat(f"{path}/mine.prom").st_mode & 0o444 == 0o444 & ~os.umask(os.umask(0o022))
        found = series(text)
        assert found['avrora_campaign_running{campaign="c"}'] == 0
        assert found['avrora_campaign_wanted{campaign="c"}'] == 4
        outcomes = {outcome: found[f'avrora_campaign_results{{campaign="c",outcome="{outcome}"}}'] for outcome in ("passed", "failed")}
        assert outcomes == {"passed": 2, "failed": 1}
        assert sum(
            value for name, value in found.items() if name.startswith("avrora_campaign_worker_runs_total")
        ) == len(starts(path))


def test_counts_of_a_strange_name():
    """Of a worker whose name has quotes, a backslash and a line end the file has one line a number."""
    tallies = {'a "b"\\\n': watching.Tally(0.0)}
    found = series(watching.metrics("c", watching.Progress(1), tallies, 1.0, True))
    assert found['avrora_campaign_worker_set_aside{campaign="c",worker="a \\"b\\"//x0A"}'] == 0
    assert found['avrora_campaign_running{campaign="c"}'] == 1


def test_merge_of_some_parts():
    """It tells which lack; the whole campaign makes these alone."""
    with folder(campaign("[30, 31, 32, 33]")) as path:
        for part in ("1/4", "3/4"):
            assert run_campaign(path, "--jobs", "1", "--shard", part)[0] == 0
        status, out, errors, _ = run_campaign(path, "--merge")
        assert status == 3, errors
        assert "2 results of 2 files are taken over" in errors
        assert "not here are the parts 2/4, 4/4: 2 of 4 runs of the campaign" in errors
        assert "2 passed, 2 without a result yet" in out
        os.unlink(f"{path}/log")
        status, _, errors, _ = run_campaign(path, "--jobs", "1")
        assert status == 0 and "2 of 4 results are there already" in errors
        assert set(starts(path)) == {"31", "33"}
        status, _, errors, _ = run_campaign(path, "--merge")
        assert status == 0 and "not here" not in errors, errors


def test_the_log():
    """Each line has its time, in UTC; of what came of runs and of workers it has the hosts."""
    with folder(campaign("[3, 20, 30]")) as path:
        status, _, errors, _ = run_campaign(path, "--jobs", "2")
        assert status == 1, errors
        with open(f"{path}/c.results/campaign.log", encoding="utf-8") as file:
            lines = file.read().splitlines()
    times, texts = zip(*(line.split(" ", 1) for line in lines))
    assert all(
        re.fullmatch(r"20\d\d-\d\d-\d\dT\d\d:\d\d:\d\dZ", time) for time in times
    ) and list(times) == sorted(times)
    worker = f"{re.escape(socket.gethostname())} process [01]"
    for expected in (
        f"the worker {worker} proved itself",
        f"begun again: net latency=3: on {worker}: status 6: ",
        f"failed: net latency=20 \\(on {worker}\\): .*",
        f"the worker {worker}: [0-9]+ runs.*",
    ):
        assert any(re.fullmatch(expected, text) for text in texts), (expected, texts)


def test_when_it_ends(monkeypatch):
    """By the rate of the last minute, and not by that of before."""
    now = 1_000.0
    monkeypatch.setattr(watching.time, "monotonic", lambda: now)
    monkeypatch.setattr(watching.time, "time", lambda: 0.0)
    monkeypatch.setattr(watching.time, "localtime", lambda seconds: watching.time.gmtime(seconds))
    progress = watching.Progress(1_000)
    assert "to go" not in progress.text(3, 2)
    now += 60
    progress.count(runs.PASSED, 100)
    assert progress.text(3, 2).endswith("3 under way with 2 workers, 60 s, 540 s to go, until about 00:09")
    now += 60
    progress.count(runs.PASSED, 300)
    progress.text(3, 2)
    now += 1
    assert progress.text(3, 2).endswith("121 s, 122 s to go, until about 00:02")
    progress.count(runs.PASSED, -200)  # a worker is believed no more
    assert "to go" not in progress.text(3, 1)
    now += 10
    progress.count(runs.PASSED, 20)
    assert progress.text(3, 1).endswith("131 s, 390 s to go, until about 00:06")
    progress.count(runs.PASSED, 780)
    assert "to go" not in progress.text(0, 2)
