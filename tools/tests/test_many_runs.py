"""Pages of many runs: of cases, of a campaign, of a sweep; and findings as data."""
import collections
import re
import shlex
import shutil

import pytest

from avrora_tools import cli
from avrora_tools.commands import sweep as sweep_command
from avrora_tools.errors import BadInput
from avrora_tools.reporting import campaign_sections, case_sections, findings
from avrora_tools.reporting.campaign_sections import Histogram, Values
from avrora_tools.reporting.findings import Finding, Search
from firmware import compiled, needs_compiler, needs_program
from pages_read import Page, check_policy
from support import DATA, TOP, needs_module, run_tool

# ---- cases


def test_cases_that_are_not_met_come_first_with_what_was_not(tmp_path):
    shutil.copy(f"{DATA}/relay.trace", tmp_path)
    (tmp_path / "good.expect").write_text("trace relay.trace\ntext 4 'relay'\n")
    (tmp_path / "bad<b>.expect").write_text("trace relay.trace\ntext 4 '<script>'\n")
    (tmp_path / "none.expect").write_text("trace none.trace\ntext 4 'relay'\n")
    names = [str(tmp_path / f"{name}.expect") for name in ("good", "bad<b>", "none")]
    status, out, _ = run_tool("expect", "--html", str(tmp_path / "out.html"), *names)
    assert status == 2 and out.startswith("TAP version 13")
    page = Page((tmp_path / "out.html").read_text())
    check_policy(page)
    head, *rows = page.tables["table-cases"]
    assert [row[0] for row in rows] == ["not met", "refused", "met"] and head[1] == "case"
    assert page.text.count("&lt;script&gt;") and "bad&lt;b&gt;" in page.text and page.tags.count("script") == 1


# ---- findings


SEARCH = Search(
    "Races",
    [("runs", "12")],
    ["3 classes were not run"],
    [
        Finding(
            "node 0 did not write 'A'",
            "`main` (wake.c:55)",
            [("moves", "5 to 9")],
            ["avrora run x.toml"],
            514_208,
            0,
            4,
            10,
        )
    ],
    ["avrora-tools hunt x.toml"],
)


def test_findings_are_written_and_read(tmp_path):
    path = tmp_path / "f.json"
    path.write_text(findings.written(SEARCH))
    assert findings.load(str(path)) == SEARCH
    part = findings.section(SEARCH, has_timeline=True)
    assert "4 of 10" in part.content and 'href="#514208@0"' in part.content and "avrora run x.toml" in part.content
    assert "nothing found" in findings.section(Search("Races")).content
    assert 'href="#514208' not in findings.section(SEARCH).content


@pytest.mark.parametrize(
    ("line", "place"),
    [
        ("> 114076 2 queued: 0 -> 1 by enqueue+0x28 alarm.c:27 in USART0_RX_vect", "#114076@2"),
        ("+ 9367 1 heard 1 72 114", "#9367@1"),
        ("c.expect, line 3: `queued == 0` does not hold at node 2 in cycle 114077: queued is 1", None),
        ("> 114076 2 <b>queued</b>: 0 -> 1", "#114076@2"),
    ],
)
def test_rows_and_values_of_a_case_lead_to_the_timeline(line, place):
    shown = case_sections.line_of(line, True)
    assert (f'href="{place}"' in shown) == (place is not None) and ("<a " in shown) == (place is not None)
    assert "<b>" not in shown and "<a " not in case_sections.line_of(line, False)


@pytest.mark.parametrize(
    "text",
    [
        "", "[]", "{}", '{"form": "avrora findings 2", "title": "x"}', '{"form": "avrora findings 1"}', "[" * 100_000,
        '{"form": "avrora findings 1", "title": 5}', '{"form": "avrora findings 1", "title": "x", "more": 1}',
        '{"form": "avrora findings 1", "title": "x", "facts": [["a"]]}', '{"form": "avrora findings 1", "title": '
        '"x", "notes": "ab"}',
        '{"form": "avrora findings 1", "title": "x", "findings": [{"title": "y", "cycle": true}]}',
        '{"form": "avrora findings 1", "title": "x", "findings": [{"title": "y", "cycle": "5"}]}',
        '{"form": "avrora findings 1", "title": "x", "findings": [{"title": "y", "of": 1, "why": 2}]}',
        '{"form": "avrora findings 1", "title": "x", "findings": ["y"]}', '{"form": "avrora findings 1", "title": '
        '"x", "findings": {}}',
    ],
)  # fmt: skip
def test_what_says_no_findings_is_refused(tmp_path, text):
    path = tmp_path / "f.json"
    path.write_text(text)
    with pytest.raises(BadInput):
        findings.load(str(path))


# ---- campaigns


def row(outcome="passed", sent=1, **parameters):
    counts = dict.fromkeys(("heard", "clashes", "serial", "stops"), 0)
    return {"outcome": outcome, "sent": sent, "seconds": 0.5, "attempts": 1, "parameters": parameters, **counts}


def histogram(rows, name):
    values = Values()
    for one in rows:
        values.add(one["parameters"][name])
    found = Histogram(values)
    for one in rows:
        found.add(one["parameters"][name], one)
    return found


def test_few_values_have_a_bin_each():
    rows = [row("failed" if latency == 50 else "passed", latency, latency=latency) for latency in (50, 100, 50, 400)]
    bins = histogram(rows, "latency").bins
    assert [(one.label, dict(one.outcomes)) for one in bins] == [
        ("50", {"failed": 2}),
        ("100", {"passed": 1}),
        ("400", {"passed": 1}),
    ]
    assert [one.measures["sent"] for one in bins] == [[50, 50, 100, 2], [100, 100, 100, 1], [400, 400, 400, 1]]


@pytest.mark.parametrize("step, first", [(1, 0), (977, 2_000), (0.01, -3.0), (1e9, 1)])
def test_many_numbers_are_put_into_spans_that_hold_them(step, first):
    values = [first + step * number for number in range(1_000)]
    found = histogram([row(sent=value, at=value) for value in values], "at")
    assert 5 <= len(found.bins) <= campaign_sections.MOST_BINS + 1
    assert sum(sum(one.outcomes.values()) for one in found.bins) == len(values)
    for one, (low, high) in zip(found.bins, zip(found.spans, found.spans[1:])):
        if one.measures:
            least, greatest, _, _ = one.measures["sent"]
            assert low - 1e-6 * abs(low) <= least and greatest <= high + 1e-6 * abs(high)


def test_many_texts_have_others():
    rows = [row(image=f"a{number:03}.hex") for number in range(40)] + [row("broken", image=["x"])]
    found = histogram(rows, "image")
    assert len(found.bins) == campaign_sections.MOST_BINS + 1 and found.bins[-1].label == "others"
    assert sum((one.outcomes for one in found.bins), collections.Counter()) == {"passed": 40, "broken": 1}


@needs_program
def test_the_page_of_a_campaign(tmp_path):
    for name in ("packet.toml", "packet.hex", "arrives.expect", "packet.campaign"):
        shutil.copy(f"{TOP}/examples/{name}", tmp_path)
    out = str(tmp_path / "out.html")
    status, said, err = run_tool("campaign", "--html", out, str(tmp_path / "packet.campaign"))
    assert status == 1, err
    page = Page((tmp_path / "out.html").read_text())
    check_policy(page)
    assert collections.Counter(page.tables["table-runs"][row_][1] for row_ in range(1, 101)) == {
        "failed": 4,
        "passed": 96,
    }
    parameters = {one["name"]: one["bins"] for one in page.data["histogram-data"]["parameters"]}
    assert [(one["label"], one["outcomes"]) for one in parameters["latency"]] == [
        (str(latency), {"failed": 1, "passed": 24}) for latency in (50, 100, 200, 400)
    ]
    (bad,) = [one for one in parameters["input.2.at"] if "failed" in one["outcomes"]]
    assert bad["outcomes"] == {"failed": 4} or bad["outcomes"]["failed"] == 4
    first = page.text
    status, _, _ = run_tool("campaign", "--report", "--html", out, str(tmp_path / "packet.campaign"))
    again = Page((tmp_path / "out.html").read_text())
    assert status == 1 and again.data == page.data and len(again.text) == len(first)
    results = str(tmp_path / "packet.results" / "results.sqlite")
    status, said, err = run_tool(
        "report", "--campaign", results, "--no-sleep", "-o", out, str(tmp_path / "packet.toml")
    )
    assert status == 0, err
    whole = Page((tmp_path / "out.html").read_text())
    check_policy(whole)
    assert whole.data["histogram-data"] == page.data["histogram-data"]


def test_html_is_of_results_alone(tmp_path):
    (tmp_path / "a.campaign").write_text("[[run]]\nscenario = 'a.toml'\n")
    status, _, err = run_tool("campaign", "--list", "--html", "x.html", str(tmp_path / "a.campaign"))
    assert status == 2 and "--html shows results" in err


# ---- sweeps


@needs_program
@needs_compiler
@needs_module("elftools", "python3-pyelftools")
def test_the_page_of_a_sweep_says_what_the_terminal_says(tmp_path):
    for name in ("wake.toml", "wake.c", "wake.hex"):
        shutil.copy(f"{TOP}/examples/races/{name}", tmp_path)
    shutil.copy(f"{TOP}/examples/radio.h", tmp_path)
    elf = compiled(tmp_path / "wake.c", tmp_path, "-Os")
    words = [
        "--start",
        "0=514_000..514_399",
        "--until",
        "530_000",
        "-e",
        str(elf),
        "--force",
        str(tmp_path / "wake.toml"),
    ]
    out, found = str(tmp_path / "out.html"), str(tmp_path / "found.json")
    status, said, err = run_tool("sweep", *words, "--html", out, "--findings", found)
    assert status == 1, err
    page = Page((tmp_path / "out.html").read_text())
    check_policy(page)
    search = findings.load(found)
    for number, one in enumerate(search.findings, 1):
        head = re.search(rf"(?m)^{number}\. ([\d,]+) of ([\d,]+) arrivals (while .*)$", said)
        assert (one.count, one.of) == tuple(int(head[place].replace(",", "")) for place in (1, 2))
        assert head[3].startswith(one.where) and head[3].endswith(one.title)
        assert f"{one.count:,} of {one.of:,}" in page.text
    moves = [text for what, text in search.findings[0].details if what == "moves"]
    assert f"   moves: {moves[0]}\n" in said and "400 in" in dict(search.facts)["moves"]
    assert page.text.count(" fails</title>") >= 1 and " passes</title>" in page.text
    spelled = {"-e": "--elf", "530_000": "530000"}
    assert sorted(shlex.split(search.commands[0])[2:]) == sorted(spelled.get(it, it) for it in words)


def test_the_command_of_a_page_says_all_that_decides_a_sweep():
    parser = cli.Parser()
    sweep_command.configure(parser)
    said = "--input 0:0=10..20 --start 1=5..6 --alone --until 30 --state s --check c.py --compare lines --drop x --nodes 0,2-4"
    said += " --base 7 --base 8 --elf p.elf --force --all --quick --grid 8 --per-place 3 --stop --runs 9"
    not_said = "--html h --findings f --out o --seconds 4 --resume r --jobs 2"
    arguments = parser.parse_args(f"{said} {not_said} net.toml".split())
    command = sweep_command.own_command(arguments).split()
    assert command[:2] == ["avrora-tools", "sweep"] and sorted(command[2:]) == sorted(f"{said} net.toml".split())
    again = parser.parse_args(command[2:])
    assert {**vars(again), **dict.fromkeys(("html", "findings", "out", "seconds", "resume", "jobs"))} == {
        **vars(arguments), **dict.fromkeys(("html", "findings", "out", "seconds", "resume", "jobs"))
    }  # fmt: skip
