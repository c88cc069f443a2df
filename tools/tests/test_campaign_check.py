"""campaign: runs that a function of the user checks, links and nodes that are gone for a while, and values that are
drawn."""
import tomllib

import pytest

from campaign_runs import SCENARIO, folder, run_campaign, starts
from avrora_tools import campaigns, spreads
from avrora_tools.errors import BadInput

CHECKED = """attempts = 2
[[run]]
scenario = "net.toml"
check = "own.py"
[run.vary]
latency = [30, 31]
byte_time = [300]
"""

CODE = """def check(run):
    rows = [(row.cycle, row.node, row.kind, row.rest) for row in run.rows]
    if (run.at, run.moved) != (rows[0][0], (rows[0][0], 300)) or run.text(0) != b"":
        return "other values"
    if rows[1] != (rows[0][0] + 9, 1, "heard", "1 AA 0") or len(rows) != 4:
        return f"rows {rows}"
    return "31 is not wanted" if run.at == 31 else None
"""


def written(path, name, text):
    with open(f"{path}/{name}", "w", encoding="utf-8") as file:
        file.write(text)


def test_check():
    """It is given the values and all rows; what it says is what failed. It decides the results: another file makes them
    again."""
    with folder(CHECKED) as path:
        written(path, "own.py", CODE)
        status, _, errors, rows = run_campaign(path, "--run-code", "--jobs", "2")
        found = {row["parameters"]["latency"]: (row["outcome"], row["message"]) for row in rows.values()}
        assert (status, found) == (1, {30: ("passed", ""), 31: ("failed", "own.py: 31 is not wanted")}), errors
        status, _, errors, _ = run_campaign(path, "--run-code", "--jobs", "1")
        assert "2 of 2 results are there already" in errors
        before = len(starts(path))
        written(path, "own.py", CODE.replace("== 31", "== 7"))
        status, _, errors, _ = run_campaign(path, "--run-code", "--jobs", "1")
        assert status == 0 and len(starts(path)) >= before + 2, errors


def test_check_is_code():
    """It runs only where the user allows it, and what is wrong with it is told before the first run."""
    with folder(CHECKED) as path:
        written(path, "own.py", CODE)
        status, _, errors, _ = run_campaign(path)
        assert status == 2 and "`check` names code" in errors and "only with --run-code" in errors
        assert run_campaign(path, "--list")[0] == 0
        assert run_campaign(path, "--scenario", "net latency=30 byte_time=300")[0] == 0
        for text, sentence in (
            ("def", "SyntaxError"),
            ("import sys; sys.exit(0)", "SystemExit"),
            ("checks = 1", "no function check(run)"),
            ("import os\nos.listdir('/')\ndef check(run): pass", "it reads /, which no worker was sent"),
            ("def check(run): pass\nwhile True: pass", "took more than 1 s"),
        ):
            written(path, "c.toml", "timeout = 1\n" + CHECKED)
            written(path, "own.py", text)
            status, _, errors, _ = run_campaign(path, "--run-code")
            assert status == 2 and sentence in errors, errors
        assert not starts_there(path)


def starts_there(path):
    try:
        return starts(path)
    except FileNotFoundError:
        return []


@pytest.mark.parametrize(
    "body, sentence",
    [
        ("return 7", "returned 7"),
        ("return ''", "returned ''"),
        ("return run.nothing", "AttributeError"),
        ("return open('/etc/hostname').read()", "it reads /etc/hostname, which no worker was sent"),
        ("while True: pass", "took more than 2 s"),
    ],
)
def test_check_that_cannot_say(body, sentence):
    """It is not a verdict, and no worker is set aside for it."""
    with folder("timeout = 2\n" + CHECKED.replace("[30, 31]", "[30]")) as path:
        written(path, "own.py", f"def check(run):\n    {body}\n")
        status, _, errors, rows = run_campaign(path, "--run-code", "--jobs", "1")
        (row,) = rows.values()
        assert (status, row["outcome"]) == (3, "broken"), errors
        assert sentence in row["message"] and "set aside" not in errors


# ---- outages

THREE = SCENARIO.replace(
    "[[input]]", '[[node]]\nimage = "a.hex"\n[[link]]\nfrom = 1\nto = 2\nopen = [[100, 900]]\n[[input]]'
)
LAST = 2**40


def links_of(vary, place=0, scenario=THREE):
    """When the links 0-1 and 1-2 are open in a run."""
    with folder(f'[[run]]\nscenario = "net.toml"\n[run.vary]\n{vary}\n', scenario=scenario) as path:
        campaign = campaigns.read(f"{path}/c.toml")
        links = tomllib.loads(campaign.run(place).scenario())["link"]
        assert [(link["from"], link["to"]) for link in links] == [(0, 1), (1, 2)]
        return campaign, [link.get("open") for link in links]


@pytest.mark.parametrize(
    "vary, place, links",
    [
        ('"link.0-1.outage" = [[100, 200]]', 0, [[[0, 100], [200, LAST]], [[100, 900]]]),
        ('"link.1-2.outage" = [[[0, 150], [200, 300], [800, 2000]]]', 0, [None, [[150, 200], [300, 800]]]),
        ('"link.1-2.outage" = [[0, 5_000]]', 0, [None, [[LAST - 1, LAST]]]),
        ('"link.0-1.outage" = { from = 0, to = 90, step = 10, length = 5 }', 0, [[[5, LAST]], [[100, 900]]]),
        ('"link.0-1.outage" = { from = 0, to = 90, step = 10, length = 5 }', 9, [[[0, 90], [95, LAST]], [[100, 900]]]),
        ('"link.*.outage" = [[500, 600]]', 0, [[[0, 500], [600, LAST]], [[100, 500], [600, 900]]]),
        ('"node.1.outage" = [[500, 600]]', 0, [[[0, 500], [600, LAST]], [[100, 500], [600, 900]]]),
        ('"node.1.silent" = [[500, 600]]', 0, [None, [[100, 500], [600, 900]]]),
        (
            '"node.0.outage" = [[500, 600]]\n"link.0-1.outage" = [[550, 700]]', 0,
            [[[0, 500], [700, LAST]], [[100, 900]]],
        ),
    ],
)
def test_outages(vary, place, links):
    assert links_of(vary, place)[1] == links


def test_the_name_of_an_outage():
    campaign, _ = links_of('"link.0-1.outage" = { from = 0, to = 90, step = 10, length = 5 }')
    assert campaign.run(3).name == "net link.0-1.outage=30"
    other, _ = links_of('"link.0-1.outage" = { from = 0, to = 90, step = 10, length = 6 }')
    assert campaign.signature != other.signature
    assert campaign.run(3).recipe() != other.run(3).recipe()


@pytest.mark.parametrize(
    "vary, sentence",
    [
        ('"link.0-1.outage" = [7]', "is not a span such as"),
        ('"link.0-1.outage" = [[7, 7]]', "is not a span such as"),
        ('"link.0-1.outage" = [[200, 100]]', "is not a span such as"),
        ('"link.0-1.outage" = { from = 0, to = 9 }', "has no length of 1 and more"),
        ('"link.0-1.outage" = { from = 0, to = 9, length = 0 }', "has no length of 1 and more"),
        (
            '"link.0-1.outage" = { from = 0, to = 2_000_000_000_000, step = 2_000_000_000_000, length = 1 }',
            "is not a span such as",
        ),
        ('latency = { from = 1, to = 9, length = 5 }', "latency has no list of values"),
        ('"link.2-1.outage" = [[1, 2]]', "is of no link of the scenario"),
        ('"node.2.silent" = [[1, 2]]', "is of no link of the scenario"),
        ('"link.0-1.outage" = [[1, 2]]\n"link.0-1.open" = [[[0, 5]]]', "has an outage and varies in open"),
        ('"node.2.reset" = [1]', "the key reset is unknown"),
    ],
)
def test_outages_that_are_refused(vary, sentence):
    with pytest.raises(BadInput, match=f"run 1: .*{sentence}"):
        links_of(vary)


# ---- drawn values


def drawn(**words):
    values = {"from": words.pop("first", 0), "to": words.pop("last", 999_999), **words}
    return spreads.axis_of("here", words.pop("key", "latency"), values).values


def test_drawn_values():
    """So many different ones of the range, the same ones each time; another seed draws others."""
    found = drawn(drawn=1_000)
    assert len(set(found)) == 1_000 and list(found) == sorted(found) and found == drawn(drawn=1_000)
    assert found[0] >= 0 and found[-1] <= 999_999
    tenths = [value // 100_000 for value in found]
    assert all(60 <= tenths.count(tenth) <= 140 for tenth in range(10))
    assert found != drawn(drawn=1_000, seed=1)
    assert all(value % 5 == 3 for value in drawn(drawn=100, first=3, step=5))


def test_drawn_values_of_all_numbers():
    """More than a list may have."""
    found = drawn(drawn=100, first=-(2**63), last=2**63 - 1)
    assert len(set(found)) == 100 and found == sorted(found) and found[0] < 0 < found[-1]
    assert found[0] >= -(2**63) and found[-1] < 2**63


@pytest.mark.parametrize("count", [1, 4, 5, 6, 9, 10, 11, 1_000])
def test_drawn_values_of_a_few(count):
    found = drawn(drawn=count, first=20, last=29)
    assert len(set(found)) == min(count, 10) and set(found) <= set(range(20, 30)) and list(found) == sorted(found)


def test_drawn_values_of_very_many():
    """Of a range of more than any campaign may have."""
    found = drawn(drawn=3, last=2**40)
    assert len(set(found)) == 3 and max(found) > 2**30


@pytest.mark.parametrize(
    "words", [{"drawn": 0}, {"drawn": -1}, {"drawn": 2_000_000, "last": 10**8}, {"drawn": 5, "first": 9, "last": 8}]
)
def test_drawn_values_that_are_refused(words):
    with pytest.raises(BadInput, match="here: latency has "):
        drawn(**words)


def test_a_campaign_of_drawn_values():
    text = '[[run]]\nscenario = "net.toml"\n[run.vary]\nlatency = { from = 30, to = 60_000, drawn = 5 }\n"input.1.at" = [1, 2]\n'
    with folder(text) as path:
        campaign = campaigns.read(f"{path}/c.toml")
        assert campaign.count == 10
        for run in campaign.runs():
            assert campaign.called(run.name).number == run.number
