"""campaign: one bit of the results flips, names that would steer a terminal, and a file that must not be written."""
import os
import random
import shutil

import pytest

from campaign_runs import CAMPAIGN, folder, run_campaign
from support import SEED, run_tool
from avrora_tools import attempts, campaigns, results, runs, sittings
from avrora_tools.errors import ToolError

FLIPS = 150
COUNT = 300
TEXT = f"""[[run]]
scenario = "net.toml"
[run.vary]
latency = {{ from = 1, to = {COUNT} }}
"""


def filled(path):
    """Results of all runs of a campaign, as a sitting saves them."""
    campaign = campaigns.read(f"{path}/c.toml")
    with results.opened_folder(f"{path}/r", make=True) as place:
        store = results.Store(place)
        sitting = sittings.Sitting(campaign, sittings.Words(), b"simulator", store)
        for run in campaign.runs():
            sitting.save(attempts.Attempt(run, sitting.digests.of(run)), answer_to(run), "a host", None)
        store.close()


def answer_to(run):
    return {**runs.answer(runs.PASSED), "hash": f"{run.number:064x}", "counts": [run.number] * 5, "seconds": 0.5}


def rows_of(path):
    with results.reading(path) as reading:
        return {row["number"]: row for row in results.rows(reading.database)}, reading.about


def test_one_bit_flips():
    """Each result that is believed is one that was written. What is not there is made again, or the file is refused."""
    drawn = random.Random(SEED)
    with folder(TEXT) as path:
        filled(path)
        written, about = rows_of(f"{path}/r/{results.FILE}")
        assert len(written) == COUNT
        with open(f"{path}/r/{results.FILE}", "rb") as file:
            content = file.read()
        refused = lost = 0
        os.mkdir(f"{path}/flipped")
        for _ in range(FLIPS):
            place = drawn.randrange(8 * len(content))
            changed = bytearray(content)
            changed[place // 8] ^= 1 << place % 8
            with open(f"{path}/flipped/{results.FILE}", "wb") as file:
                file.write(changed)
            try:
                found, says = rows_of(f"{path}/flipped/{results.FILE}")
            except ToolError:
                refused += 1
                continue
            told = f"seed {SEED}: bit {place}"
            assert all(written[number] == row for number, row in found.items()), told
            assert says in (about, {}), told
            lost += len(found) < COUNT
        assert lost > 0 < refused, (lost, refused)


def test_the_number_of_a_row():
    """One bit of the key by which it is sought: it is told by no report, and a sitting makes the run again, which mends
    the file."""
    with folder(TEXT) as path:
        filled(path)
        written, _ = rows_of(f"{path}/r/{results.FILE}")
        with open(f"{path}/r/{results.FILE}", "r+b") as file:
            content = file.read()
            name = content.rindex(b"net latency=287")
            place = content.rindex(b"\x82\x1e", name - 100, name)  # 286 as SQLite writes it
            file.seek(place)
            file.write(b"\x92")  # 2,334
        found, _ = rows_of(f"{path}/r/{results.FILE}")
        assert found == {number: row for number, row in written.items() if number != 286}
        campaign = campaigns.read(f"{path}/c.toml")
        with results.opened_folder(f"{path}/r") as place:
            store = results.Store(place)
            sitting = sittings.Sitting(campaign, sittings.Words(), b"simulator", store)
            wanted = [attempt for attempt in sitting.wanted() if attempt]
            assert 286 in [attempt.run.number for attempt in wanted]  # and others that no search finds for it
            for attempt in wanted:
                sitting.save(attempt, answer_to(attempt.run), "a host", None)
            store.commit()
            store.drop_unbelieved()
            assert store.database.execute("PRAGMA integrity_check").fetchone() == ("ok",)
            store.close()
        found, _ = rows_of(f"{path}/r/{results.FILE}")
        assert {number: row["hash"] for number, row in found.items()} == {
            number: row["hash"] for number, row in written.items()
        }


@pytest.mark.parametrize("name", ["a\\u001b[31mred\\u0007", "a\\u202Eb"])
def test_names_that_steer_a_terminal(name):
    """In the table, in the summary, in what is told, and in the log."""
    text = CAMPAIGN.replace("[1, 3, 4, 20, 30]", "[20]").replace("[[run]]", f'[[run]]\nname = "{name}"')
    with folder(text) as path:
        status, out, errors, _ = run_campaign(path, "--jobs", "1")
        assert status == 1, errors
        texts = [out, errors]
        for file_name in ("summary.txt", "campaign.log", "junit.xml", "campaign.prom"):
            with open(f"{path}/c.results/{file_name}", encoding="utf-8") as file:
                texts.append(file.read())
        for text in texts:
            assert not {"\x1b", "\x07", "\u202e"} & set(text)
        assert "failed: a\\" in errors and "latency=20" in out


@pytest.mark.skipif(os.getuid() != 0, reason="only root can be another user")
def test_results_that_are_not_to_be_written():
    """By whom, and which file: in words of the system and not of SQLite alone."""
    with folder(CAMPAIGN.replace("[1, 3, 4, 20, 30]", "[30]")) as path:
        assert run_campaign(path, "--jobs", "1")[0] == 0
        os.chmod(path, 0o755)
        shutil.copytree(f"{path}/c.results", f"{path}/other")
        env = {"AVRORA_PROGRAM": f"{path}/avrora", "CAMPAIGN_LOG": f"{path}/log"}
        status, _, errors = run_tool(
            "campaign", f"{path}/c.toml", "--results", f"{path}/other", env=env, by_nobody=True
        )
        assert status == 3, errors
        assert f"{path}/other/" in errors and "Permission denied" in errors and "readonly database" not in errors
