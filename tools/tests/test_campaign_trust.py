"""campaign: a file of results that is damaged or of somebody else decides nothing; parts of a campaign; results of
another version."""
import contextlib
import os
import shutil
import signal
import sqlite3
import subprocess
import time

import pytest

from campaign_runs import CAMPAIGN, folder, hear_interrupts, run_campaign, starts
from support import DATA, LONG, TOOL, run_tool, scratch, wait_for
from avrora_tools import budgets, campaigns, seals, stored, variants
from avrora_tools.errors import BadInput

GOOD = CAMPAIGN.replace("[1, 3, 4, 20, 30]", "[30, 31, 32]")
RESULTS = "c.results/results.sqlite"


def report(path, *words):
    env = {"AVRORA": f"{path}/avrora", "AVRORA_PROGRAM": f"{path}/avrora"}
    return run_tool("campaign", "--report", *(words or [f"{path}/c.toml"]), env=env)


def changed(path, *statements):
    with contextlib.closing(sqlite3.connect(f"{path}/{RESULTS}")) as database, database:
        for statement in statements:
            database.execute(statement)


@pytest.fixture
def ran():
    """A campaign of three runs that passed."""
    with folder(GOOD, "* 0 sent AA\n") as path:
        assert run_campaign(path, "--jobs", "1", without_dask=False)[0] == 0
        os.unlink(f"{path}/log")
        yield path


def test_a_row_that_was_changed(ran):
    """By one bit, or by who wants it to say something else: it is not a result, and is made again."""
    changed(ran, "UPDATE run SET seconds = seconds + 1 WHERE name = 'net latency=30'")
    status, out, errors = report(ran)
    assert status == 3 and "3 runs, 2 passed, 1 without a result" in out, errors
    assert "1 results are not as they were written" in errors
    status, _, errors, _ = run_campaign(ran, without_dask=False)
    assert status == 0 and set(starts(ran)) == {"30"}, errors
    assert report(ran)[0] == 0


def test_results_of_another_user(ran, tmp_path):
    """They are sealed by another key: without --adopt they are made again, and a report of them has no status 0."""
    other = {"XDG_STATE_HOME": str(tmp_path)}
    status, _, errors = run_tool("campaign", "--report", f"{ran}/{RESULTS}", env={**other, "PYTHONPATH": ""})
    assert status == 3 and "were written by another user or on another machine" in errors, errors
    assert run_tool("campaign", "--report", "--adopt", f"{ran}/{RESULTS}", env={**other, "PYTHONPATH": ""})[0] == 0
    status, _, errors, _ = run_campaign(ran, **other)
    assert status == 0 and set(starts(ran)) == {"30", "31", "32"}, errors


@pytest.mark.parametrize(
    "statement",
    [
        "CREATE TRIGGER t AFTER INSERT ON run BEGIN UPDATE run SET outcome = 'passed'; END",
        "CREATE VIEW v AS WITH RECURSIVE r(x) AS (SELECT 1 UNION ALL SELECT x FROM r) SELECT * FROM r",
        "CREATE TABLE more (x)",
    ],
)
def test_another_schema(ran, statement):
    changed(ran, statement)
    for status, _, errors in (report(ran), run_campaign(ran, without_dask=False)[:3]):
        assert status == 2 and "no results of a campaign" in errors, errors


def test_a_journal_that_names_another_one(ran):
    victim = f"{ran}/victim"
    with open(victim, "w", encoding="utf-8") as file:
        file.write("mine")
    with open(f"{ran}/{RESULTS}-journal", "wb") as file:
        file.write(bytes(512) + victim.encode() + bytes(8) + stored.JOURNAL_MAGIC)
    for status, _, errors in (report(ran), run_campaign(ran, without_dask=False)[:3]):
        assert status == 2 and "it names another journal" in errors, errors
    assert os.path.exists(victim)


@pytest.mark.parametrize(
    "name", ["results.sqlite", "results.sqlite-wal", "runs", ".lock", "campaign.log", "summary.txt"]
)
def test_a_link_in_the_results(ran, name):
    with open(f"{ran}/victim", "w", encoding="utf-8") as file:
        file.write("mine")
    path = f"{ran}/c.results/{name}"
    shutil.rmtree(path) if os.path.isdir(path) else os.path.lexists(path) and os.unlink(path)
    os.symlink(f"{ran}/victim", path)
    assert run_campaign(ran, without_dask=False)[0] in (2, 3)
    with open(f"{ran}/victim", encoding="utf-8") as file:
        assert file.read() == "mine"


@pytest.mark.parametrize("name", ["/tmp/elsewhere", "../elsewhere", "link/below"])
def test_results_lead_nowhere_else(name):
    with folder(f'results = "{name}"\n{GOOD}', "* 0 sent AA\n") as path:
        os.symlink("/tmp", f"{path}/link")
        status, _, errors, _ = run_campaign(path, without_dask=False)
        assert status == 2, errors
        assert not os.path.exists("/tmp/below") and not os.path.exists("/tmp/elsewhere")


def test_code_runs_only_where_it_is_allowed():
    text = '[[run]]\ndraw = "draw.py"\nvary.number = [1]\n'
    with folder(text) as path:
        with open(f"{path}/draw.py", "w", encoding="utf-8") as file:
            file.write(f"open({path + '/ran'!r}, 'w')\ndef draw(number): return '', {{}}\n")
        for words in ([], ["--scenario", "draw number=1"], ["--list"], ["--report"]):
            status, _, errors, _ = run_campaign(path, *words, without_dask=False)
            assert status == (0 if words == ["--list"] else 2), errors
            assert words[:1] in (["--list"], ["--report"]) or "--run-code" in errors
            assert not os.path.exists(f"{path}/ran")


def test_what_draw_reads():
    """A file that it opens in a folder of its own, of any kind, is what its results are of."""
    text = '[[run]]\ndraw = "draw.py"\nvary.number = [1]\n'
    scenario = 'version = 3\\ncycles = 5_000\\nlatency = 3%d\\n' + '[[node]]\\nimage = "q.hex"\\n' * 2
    with folder(text) as path:
        os.mkdir(f"{path}/lib")
        with open(f"{path}/draw.py", "w", encoding="utf-8") as file:
            file.write(
                "import json, os\ndef draw(number):\n"
                "    data = json.load(open(os.path.dirname(__file__) + '/lib/data.json'))\n"
                f"    return '{scenario}' % data, {{'q.hex': b':00000001FF'}}\n"
            )
        for data in (1, 2):
            with open(f"{path}/lib/data.json", "w", encoding="utf-8") as file:
                file.write(str(data))
            for _ in range(2):
                status, _, errors, _ = run_campaign(path, "--run-code", "--jobs", "1", without_dask=False)
                assert status == 0, errors
        assert set(starts(path)) == {"31", "32"}
        assert "1 of 1 results are there already" in errors


def test_parts():
    """One alone lacks the others; one twice, and one of another campaign, are refused; all together are whole, and
    merged."""
    with folder(GOOD, "* 0 sent AA\n") as path:
        for part in ("1/3", "2/3", "3/3"):
            assert run_campaign(path, "--shard", part, without_dask=False)[0] == 0
        files = [f"{path}/c.results/shard-{number}-of-3/results.sqlite" for number in (1, 2, 3)]
        status, _, errors = report(path, files[1])
        assert status == 3 and "not here are the parts 1/3, 3/3: 2 of 3 runs of the campaign" in errors, errors
        status, _, errors = report(path, files[1], files[1])
        assert status == 2 and "the part 2/3 is in" in errors, errors
        status, _, errors = report(path, *files[1:])
        assert status == 3 and "not here are the parts 1/3: 1 of 3 runs" in errors, errors
        assert report(path, *files)[0] == 0
        os.unlink(f"{path}/log")
        status, out, errors, _ = run_campaign(path, "--merge", without_dask=False)
        assert status == 0 and "c: 3 runs, 3 passed" in out, errors
        assert run_campaign(path, without_dask=False)[0] == 0
        assert not os.path.exists(f"{path}/log"), "what was merged was made again"
        with folder(GOOD, "* 1 heard *\n") as other:
            run_campaign(other, "--shard", "1/3", without_dask=False)
            status, _, errors = report(path, files[1], f"{other}/c.results/shard-1-of-3/results.sqlite")
            assert status == 2 and "is of another campaign" in errors, errors


def test_a_report_after_the_case_changed(ran):
    with open(f"{ran}/net.expect", "w", encoding="utf-8") as file:
        file.write("* 1 heard *\n")
    status, _, errors = report(ran)
    assert status == 3 and "3 results are of another version than the campaign's files" in errors, errors


def test_results_that_another_program_has():
    """^C is heard, and it is told."""
    with folder(GOOD, "* 0 sent AA\n") as path:
        assert run_campaign(path, without_dask=False)[0] == 0
        with contextlib.closing(sqlite3.connect(f"{path}/{RESULTS}", isolation_level=None)) as database:
            database.execute("BEGIN EXCLUSIVE")
            words = [*TOOL, "campaign", "--avrora", f"{path}/avrora", f"{path}/c.toml"]
            with open(f"{path}/said", "w+", encoding="utf-8") as said:
                process = subprocess.Popen(words, stderr=said, stdout=said, preexec_fn=hear_interrupts)
                wait_for(lambda: "another program has it" in open(f"{path}/said", encoding="utf-8").read())
                begun = time.monotonic()
                process.send_signal(signal.SIGINT)
                assert process.wait(LONG) == 130
        assert time.monotonic() - begun < 60  # of a busy machine


def test_two_large_groups_of_one_name():
    """They are told from each other by their values, and not run by run."""
    text = '[[run]]\nscenario = "net.toml"\nvary."input.1.at" = {{ from = {}, to = {}, step = 2 }}\n'
    with folder(text.format(0, 10**7) + text.format(1, 10**7)) as path:
        status, out, errors, _ = run_campaign(path, "--scenario", "net input.1.at=77", without_dask=False)
        assert status == 0 and "at = 77" in out, errors
    with folder(text.format(0, 10**7) + text.format(10**7, 10**7 + 9)) as path:
        status, _, errors, _ = run_campaign(path, "--list", without_dask=False)
        assert status == 2 and "two runs have the name net input.1.at=10000000" in errors


def test_an_image_that_never_ends():
    with folder(GOOD, "* 0 sent AA\n") as path:
        os.unlink(f"{path}/a.hex")
        os.symlink("/dev/zero", f"{path}/a.hex")
        assert run_campaign(path, without_dask=False)[0] == 2


def test_names_that_may_be_read_in_many_ways():
    """Values with keys in them: which run a name is of is found without going each way."""
    count = 26
    links = [f"link.{number}-{number + 1}.latency" for number in range(count)]
    heads = [f" {key}=" for key in links]
    axes = [variants.Axis(key, ["", "".join(heads[k + 1 :] + heads[: k + 1])]) for k, key in enumerate(links)]
    group = variants.Group("here", "x", axes, 0)
    name = f"x{''.join(heads) * count}"
    assert group.index_of(f"{name}!") is None and group.index_of("x" + "".join(heads)) == 0


def test_names_of_files_and_keys_begin_no_line():
    """In a pipeline's log a line that begins with :: is a command."""
    run = '[[run]]\nscenario = "net.toml"\n'
    bad = "\\n::error::x"
    for text in (
        "attempts = 1\n",
        "x = ",
        f'{run}vary = {{ "latency{bad}" = 1 }}\n',
        f'{run}vary = {{ "latency{bad}" = {{ from = 0, to = 9_000_000_000 }} }}\n',
        f'{run}vary = {{ "link.1{bad}.outage" = [5] }}\n',
        f'{run}vary = {{ "latency{bad}" = [1, 1] }}\n',
    ):
        with scratch("a\n::error::y.campaign", text) as path:
            shutil.copy(f"{DATA}/relay.toml", os.path.join(os.path.dirname(path), "net.toml"))
            with pytest.raises(BadInput) as refused:
                campaigns.read(path)
            assert "\n" not in str(refused.value) and "error" in str(refused.value)
    table = "awake = 1.0\nasleep = 1.0\nsending = 1.0\nlistening = 1.0\n"
    for more in (f'"{bad}" = 1\n', f'[node.0]\n"{bad}" = 1\n'):
        with pytest.raises(BadInput) as refused:
            budgets.table_of(table + more, "currents")
        assert "\n" not in str(refused.value)


def test_a_key_that_a_stranger_made(tmp_path, monkeypatch):
    """A folder of state by a name from where one stands is not the user's: a repository may have one."""
    key = b"k" * seals.KEY_BYTES
    for folder in ("state", ".local/state"):
        (tmp_path / folder / "avrora-tools").mkdir(parents=True)
        (tmp_path / folder / "avrora-tools" / seals.KEY_FILE).write_bytes(key)
    (tmp_path / "home").mkdir()
    monkeypatch.chdir(tmp_path)
    for state, home in (("state", f"{tmp_path}/home"), ("", "."), (".local/state", ".")):
        monkeypatch.setenv("XDG_STATE_HOME", state)
        monkeypatch.setenv("HOME", home)
        seals.key.cache_clear()
        assert seals.key() != key
    seals.key.cache_clear()
