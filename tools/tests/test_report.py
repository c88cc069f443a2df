"""The page of a run: its numbers are those of the other tools to the cycle, it fetches nothing, it shows no text of a
stranger as it stands, and no file that lies elsewhere."""
import json
import os
import re
import shutil
import subprocess
import sys

import pytest

from avrora_tools.reporting import code_sections, pages, resting
from firmware import PROGRAM, compiled, needs_compiler, needs_program
from pages_read import Page, check_policy, number
from support import LONG, TOP, run_tool

pytest.importorskip("elftools", reason="needs elftools (Debian's python3-pyelftools)")
pytestmark = [needs_program, needs_compiler]

EXAMPLES = ("blink", "echo", "flood", "hello", "packet", "relay")
RACES = ("alarm", "data", "ring", "torn", "wake")


def place_of(tmp_path, *names):
    for name in names:
        for ending in ("toml", "c", "hex"):
            for folder in (f"{TOP}/examples", f"{TOP}/examples/races"):
                if os.path.exists(f"{folder}/{name}.{ending}"):
                    shutil.copy(f"{folder}/{name}.{ending}", tmp_path)
    for folder in (tmp_path, tmp_path.parent):  # a race includes it from the folder above
        shutil.copy(f"{TOP}/examples/radio.h", folder)
    return tmp_path


def built(place, name, cycles=400_000):
    """An image and a program of the source, and where there is no scenario of it one of a node."""
    elf = compiled(place / f"{name}.c", place, "-Os")
    if not (place / f"{name}.toml").exists():
        (place / f"{name}.toml").write_text(f'version = 3\ncycles = {cycles}\nnode = [{{ image = "{name}.hex" }}]\n')
    return elf


def simulated(place, path, *words):
    """Writes what the program writes to a file."""
    with open(path, "wb") as file:
        subprocess.run([PROGRAM, *words], cwd=place, stdout=file, check=True, timeout=LONG)


def report(place, name, *words):
    out = place / "out.html"
    status, said, err = run_tool("report", *map(str, words), "-o", str(out), str(place / f"{name}.toml"))
    assert status in (0, 1), err
    page = Page(out.read_text())
    check_policy(page)
    return status, page, said + err


@pytest.mark.parametrize("name", EXAMPLES + RACES)
def test_numbers_are_those_of_the_other_tools(name, tmp_path):
    """Of compiled programs: cycles by function are those of `profile`, links those of `links`, currents those of
    `energy`."""
    place = place_of(tmp_path, name)
    elf = built(place, name)
    scenario, trace, profile = (str(place / f"{name}.{ending}") for ending in ("toml", "trace", "profile"))
    words = ["-e", elf, "--currents", f"{TOP}/examples/currents.toml", "--no-sleep", "--stacks", "2_000..3_000"]
    radio = [] if name == "echo" else ["--always-listening"]  # of one program radios are followed
    _, page, _ = report(place, name, *words, *radio)
    check_against_tools(page, place, scenario, trace, profile, elf, radio)


def check_against_tools(page, place, scenario, trace, profile, elf, radio):
    cycles = re.search(r"(?m)^cycles = ([\d_]+)", open(scenario).read())[1].replace("_", "")
    name = os.path.basename(scenario)
    simulated(place, trace, "run", "--plain", name)
    simulated(place, profile, "monitor", name, "0", cycles)
    out = run_tool("profile", "-s", scenario, "-e", str(elf), "--coverage", profile)[1]
    flat = out.partition("all nodes\n")[2].partition("\n\n")[0].splitlines()[1:]
    told = [(line.split()[0], line.split("  ")[-1].strip()) for line in flat]
    most = code_sections.MOST_FUNCTIONS
    assert list(zip(page.column("functions", "cycles"), page.column("functions", "function"))) == told[:most]
    covered = re.findall(r"(?m)^ +(\d+) +(\d+) +\d+  (\S+)$", out.partition("instructions of")[2])
    own = [page.column("covered-0", title)[:-1] for title in ("ran", "of", "function")]
    assert [tuple(row) for row in zip(*own)] == [
        (f"{int(ran):,}", f"{int(of):,}", function) for ran, of, function in covered
    ]
    status, out, _ = run_tool("links", scenario, trace)
    rows = re.findall(r"(?m)^ *(\d+) to +(\d+) +([\d,]+) +([\d,]+) +([\d,]+) +([\d,]+) +([\d,]+) ", out)
    if rows:
        titles = ("from", "to", "sent", "closed", "clean", "clashed", "unheard")
        every = list(zip(*(page.column("quality", title) for title in titles)))
        assert sorted(row for row in every if row[2] != "0") == sorted(rows)
    if status == 0:  # else no node samples
        nodes = re.findall(r"(?m)^ +(\d+) +([\d,]+) +([\d,]+) +([\d,]+) +([\d,]+) +([\d,]+)$", out)
        for node, sent, samples, *heard in nodes:
            row = [
                page.column("nodes", title)[int(node)]
                for title in ("sent", "heard nothing", "heard a byte", "heard a clash")
            ]
            assert row == [sent, *heard] and number(samples) == sum(map(number, row[1:]))
    out = run_tool("energy", *radio, f"{TOP}/examples/currents.toml", scenario, profile)[1]
    energies = [line.split()[:7] for line in out.splitlines() if re.match(r" +\d+ ", line)]
    titles = ("node", "awake", "listens", "sent", "mA", "mA h", "mA h a day")
    assert [list(row) for row in zip(*(page.column("charge", title) for title in titles))] == energies


def test_a_network_of_64(tmp_path):
    """In a grid; the timeline has each send and each sample that heard something."""
    place = place_of(tmp_path, "flood")
    elf = built(place, "flood")
    status, out, err = run_tool("mknet", "--cycles", "200_000", "--input", "0=0102", "grid:8", "flood.hex*64")
    assert status == 0, err
    (place / "net.toml").write_text(out)
    scenario, trace, profile = (str(place / f"net.{ending}") for ending in ("toml", "trace", "profile"))
    words = [
        "-e",
        f"0-63={elf}",
        "--currents",
        f"{TOP}/examples/currents.toml",
        "--always-listening",
        "--no-sleep",
        "--stacks",
        "10_000..12_000",
    ]
    _, page, _ = report(place, "net", *words)
    assert len(page.text) < pages.LARGEST_PAGE
    name = os.path.basename(scenario)
    simulated(place, trace, "run", "--plain", name)
    simulated(place, profile, "monitor", name, "0", "200000")
    rows = [line.split() for line in open(trace)]
    nodes = page.data["timeline-data"]["nodes"]
    assert len(nodes) == 64
    for node in nodes:
        own = [row for row in rows if int(row[1]) == node["node"]]
        assert len(node["sent"]) == 2 * sum(row[2] == "sent" for row in own)
        assert len(node["heard"]) == 4 * sum(row[2:4] == ["heard", "1"] for row in own)
        assert len(node["clash"]) == 3 * sum(row[2:4] == ["heard", "2"] for row in own)
    out = run_tool("links", scenario, trace)[1]
    links = re.findall(r"(?m)^ *(\d+) to +(\d+) +([\d,]+) +[\d,]+ +([\d,]+) ", out)
    every = zip(*(page.column("quality", title) for title in ("from", "to", "sent", "clean")))
    assert sorted(row for row in every if row[2] != "0") == sorted(links) and len(links) > 100
    out = run_tool("profile", "-s", scenario, "-e", f"0-63={elf}", profile)[1]
    busy = re.findall(r"(?m)^ +(\d+) +([\d,]+) +([\d,]+) +([\d,]+) +[\d,]+ +([\d,]+)$", out)
    own = list(
        zip(*(page.column("spent", title)[:-1] for title in ("node", "cycles awake", "asleep", "stopped", "charge")))
    )
    assert own == busy and len(own) == 64


def test_call_stacks_are_those_of_export(tmp_path):
    place = place_of(tmp_path, "packet")
    elf = built(place, "packet")
    _, page, _ = report(place, "packet", "-e", elf, "--stacks", "160_000..175_000", "--no-sleep")
    data = page.data["flame-data"]
    assert [graph["label"] for graph in data["graphs"]] == ["all nodes", "node 0", "node 1", "node 2"]
    found = {}

    def walk(label, above, entries):
        for name, own, below in entries:
            path = (*above, data["names"][name])
            if own:
                found[(label, *path)] = own
            walk(label, path, below)

    for graph in data["graphs"][1:]:
        walk(graph["label"], (), graph["roots"])
    windowed = (
        (place / "packet.toml").read_text().replace("cycles = 737_280", "cycles = 175_000\nwindow = [160_000, 175_000]")
    )
    (place / "window.toml").write_text(windowed)
    simulated(place, str(place / "window.trace"), "run", "--plain", "window.toml")
    out = run_tool(
        "export", "folded", "-s", str(place / "window.toml"), "-e", f"0-2={elf}", str(place / "window.trace")
    )[1]
    stacks = {tuple(line.rpartition(" ")[0].split(";")): int(line.rpartition(" ")[2]) for line in out.splitlines()}
    assert found == stacks and len(found) > 5
    total = sum(count for path, count in stacks.items())
    assert total == sum(own for _, own, _ in data["graphs"][0]["roots"]) + sum(
        tree_sum(below) for _, _, below in data["graphs"][0]["roots"]
    )


def tree_sum(entries):
    return sum(own + tree_sum(below) for _, own, below in entries)


def test_coverage_is_that_of_export(tmp_path):
    place = place_of(tmp_path, "packet")
    elf = built(place, "packet")
    _, page, _ = report(place, "packet", "-e", elf, "--no-sleep", "--lcov", place / "own.info")
    simulated(place, str(place / "profile"), "monitor", "packet.toml", "0", "737280")
    words = ["-s", str(place / "packet.toml"), "-e", f"0-2={elf}", str(place / "profile")]
    status, out, err = run_tool("export", "lcov", *words)
    assert status == 0 and (place / "own.info").read_text() == out, err
    ran = re.findall(r"(?m)^LF:(\d+)\nLH:(\d+)$", out)
    assert all(f"{hit} of {of} lines ran" in page.text for of, hit in ran) and len(ran) > 1
    counts = dict(re.findall(r"(?m)^DA:(\d+),(\d+)$", out.partition("/packet.c\n")[2].partition("end_of_record")[0]))
    (source,) = [table for table in page.tables.values() if any("int main" in row[2] for row in table if len(row) == 3)]
    assert {row[0]: row[1].replace(",", "") for row in source if row[1]} == counts


def test_sleep_is_that_of_monitor(tmp_path):
    """The spans of a node add up to what `monitor` says of the whole run."""
    place = place_of(tmp_path, "packet")
    elf = built(place, "packet")
    _, page, _ = report(place, "packet", "-e", elf)
    data = page.data["timeline-data"]
    assert data["buckets"][0] == 0 and data["buckets"][-1] == 737_280 and len(data["buckets"]) == resting.MOST_SPANS + 1
    asleep = [number(text) for text in page.column("spent", "asleep")[:-1]]
    assert [sum(node["rest"]) for node in data["nodes"]] == asleep and min(asleep) > 0
    for node in data["nodes"]:
        for slept, first, end in zip(node["rest"], data["buckets"], data["buckets"][1:]):
            assert 0 <= slept <= end - first
    assert len({tuple(node["rest"]) for node in data["nodes"]}) == 3


def test_cases_are_told_with_what_was_not_met_and_where(tmp_path):
    place = place_of(tmp_path, "packet")
    elf = built(place, "packet")
    (place / "good.expect").write_text("run packet.toml\ncount == 8: * 0 serial 66\n")
    (place / "bad.expect").write_text("run packet.toml\ncount == 7: * 0 serial 66\n")
    words = ["-e", elf, "--expect", place / "good.expect", "--expect", place / "bad.expect", "--no-sleep"]
    status, page, said = report(place, "packet", *words)
    assert status == 1 and "== 7 rows wanted, 8 came" in said and "== 7 rows wanted, 8 came" in page.text
    assert [row[:2] for row in page.tables["table-cases"][1:]] == [
        ["not met", str(place / "bad.expect")],
        ["met", str(place / "good.expect")],
    ]
    cycles = re.findall(r"(\d+) 0 serial 66", page.text)
    assert cycles and all(f"#{cycle}@0" in page.links for cycle in cycles)


SECRET = "a secret of this machine"


def test_a_source_that_lies_elsewhere_is_not_shown(tmp_path):
    """A program may name any file as its source, by #line; a page shows those beside it, and below --sources, alone."""
    place = tmp_path / "mine"
    place.mkdir()
    (tmp_path / "secret").write_text(f"{SECRET}\n" * 9)
    (place / "link.c").symlink_to(tmp_path / "secret")
    named = f'\n#line 1 "{tmp_path}/secret"\n volatile int i = 1; i++;\n#line 2 "link.c"\n i++;\n return i; '
    source = f"int main(void) {{{named}}}\n"
    (place / "a.c").write_text(source)
    elf = built(place, "a", 10_000)
    _, page, _ = report(place, "a", "-e", elf, "--no-sleep")
    assert SECRET not in page.text and "secret: " in page.text  # its lines are counted
    _, page, _ = report(place, "a", "-e", elf, "--no-sleep", "--sources", tmp_path)
    assert SECRET in page.text
    shutil.copy(place / "a.c", tmp_path / "own.c")


@pytest.mark.parametrize("name", [".env", ".git/config"])
def test_what_is_hidden_beside_a_program_is_not_shown(tmp_path, name):
    """A clone has the user's own words in .git/config, such as a token of the pipeline."""
    path = tmp_path / name
    path.parent.mkdir(exist_ok=True)
    path.write_text(f"{SECRET}\n" * 9)
    named = f'\n#line 1 "{name}"\n volatile int i = 1; i++;\n return i; '
    (tmp_path / "a.c").write_text(f"int main(void) {{{named}}}\n")
    elf = built(tmp_path, "a", 10_000)
    for words in ([], ["--sources", tmp_path]):
        _, page, _ = report(tmp_path, "a", "-e", elf, "--no-sleep", *words)
        assert SECRET not in page.text and f"{path.name}: " in page.text


HOSTILE = "</script><!--<script>alert(1)</script>&\"'\u202e\x1b[31m"


def test_text_of_a_stranger_is_shown_and_does_nothing(tmp_path):
    """In the names of files, in what firmware writes, in cases, in findings, in input."""
    written = "".join(f"\\x{byte:02x}" for byte in HOSTILE.replace("'", "").encode())
    place = tmp_path / "a<b>&"
    place.mkdir()
    body = "UCSR0B = 8; for (const char *p = text; *p; p++) { while (!(UCSR0A & 32)); UDR0 = *p; } for (;;);"
    (place / "a.c").write_text(
        f'#include <avr/io.h>\nconst char text[] = "{written}\\n";\nint main(void) {{ {body} }}\n'
    )
    elf = built(place, "a", 300_000)
    image = "x<script>&\u202e.hex"
    shutil.copy(place / "a.hex", place / image)
    (place / "net.toml").write_text(
        f"cycles = 300_000\nnode = [{{ image = {json.dumps(image, ensure_ascii=False)} }}]\n"
    )
    (place / "c<script>.expect").write_text('run net.toml\ntext 0 "<script>alert(2)</script>"\n')
    (place / "found.json").write_text(
        json.dumps({"form": "avrora findings 1", "title": HOSTILE, "notes": [HOSTILE], "findings": [{"title": HOSTILE,
                    "where": HOSTILE, "details": [[HOSTILE, f"{HOSTILE}\n{HOSTILE}"]], "commands": [HOSTILE], "cycle":
    5, "node": 0}]}) )  # fmt: skip
    words = ["-e", f"0={elf}", "--expect", place / "c<script>.expect", "--findings", place / "found.json", "--no-sleep"]
    status, page, _ = report(place, "net", *words)
    assert (
        status == 1 and page.tags.count("script") == 3 and "alert" not in page.script
    )  # data of timeline and flames, the script
    assert "\u202e" not in page.text and "\x1b" not in page.text
    assert "\\u202E" in page.text and "\\x1B[31m" in page.text
    lines = page.data["timeline-data"]["nodes"][0]["lines"]
    assert any("</script><!--<script>alert(1)</script>" in str(part) for part in lines)


def test_what_does_not_fit_is_thinned(tmp_path, monkeypatch):
    place = place_of(tmp_path, "packet")
    elf = built(place, "packet")
    monkeypatch.setattr(pages, "LARGEST_PAGE", 100_000)
    _, page, said = report(place, "packet", "-e", elf, "--no-sleep")
    assert "thinned to one in" in said and page.data["timeline-data"]["thinned"]


MINUTE = 442_368_000  # cycles

# A simulator whose nodes sleep: of `monitor` a report.
SLEEPER = f"""#!{sys.executable} -IS
for node in range(64):
    for line in ("lead 0", "at 0000 1 1", "asleep {MINUTE - 1}", "stopped 0", "charge {MINUTE + 7}"):
        print(node, line)
"""


def test_a_minute_of_64_nodes_fits(tmp_path):
    """A line of nodes that pass on what they hear 1,500 times, and write 500 lines each, as a trace."""
    links = "".join(f"[[link]]\nfrom = {node}\nto = {node + 1}\n" for node in range(63))
    nodes = '[[node]]\nimage = "a.hex"\n' * 64
    top = f"version = 3\ncycles = {MINUTE}\nlatency = 100\nbyte_time = 512\n"
    (tmp_path / "net.toml").write_text(top + nodes + links)
    (tmp_path / "a.hex").write_text(":00000001FF\n")
    (tmp_path / "avrora").write_text(SLEEPER)
    (tmp_path / "avrora").chmod(0o755)
    rows = []
    for turn in range(1_500):
        begin = turn * 290_000
        rows += [(begin + 4_000 * node, node, 2, f"sent {turn % 256:02X}") for node in range(64)]
        rows += [(begin + 4_000 * node + 132, node + 1, 3, f"heard 1 {turn % 256:02X} 2") for node in range(63)]
        if turn % 3 == 0:
            text = f"turn {turn} of 1500, all is well\n".encode()
            rows += [
                (begin + 2_000 + 1_000 * place, node, 1, f"serial {byte:02X}")
                for node in range(64) for place, byte in enumerate(text)
            ]  # fmt: skip
    rows = [f"{cycle} {node} {what}\n" for cycle, node, _, what in sorted(rows)]
    rows += [f"{MINUTE} {node} end 1 asleep\n" for node in range(64)]
    assert len(rows) > 1_000_000
    (tmp_path / "net.trace").write_text("".join(rows))
    words = ["--avrora", tmp_path / "avrora", "--trace", tmp_path / "net.trace", "--no-sleep"]
    status, page, said = report(tmp_path, "net", *words)
    assert status == 0 and len(page.text) < 5_000_000 and "thinned to one in" in said
    assert page.column("quality", "clean") == ["1,500"] * 63 and page.column("nodes", "sent")[:-1] == ["1,500"] * 64
    assert "31,000 more lines" in page.text and "64 nodes: 32,000 lines" in page.text
    thinned = page.data["timeline-data"]["nodes"]
    assert min(len(node["sent"]) for node in thinned) > 2 * 500  # what a pixel can show is there


def test_bad_words_and_files(tmp_path):
    place = place_of(tmp_path, "packet")
    for words, why in (
        (["--trace", "-"], "read more than once"),
        (["--lcov", "x.info"], "--lcov needs the program"),
        (["--stacks", "900_000..910_000"], "the run ends in cycle 737,280"),
        (["--stacks", "0..30_000"], "a window has at most 20,000 cycles"),
        (["--findings", str(place / "packet.toml")], "no JSON"),
        (["--expect", str(place / "packet.c")], "line 1"),
        (["--currents", str(place / "packet.c")], "no TOML"),
        (["--campaign", str(place / "packet.c")], "no results of a campaign"),
    ):
        elf = ["-e", str(built(place, "packet"))] if "--stacks" in words else []
        status, out, err = run_tool("report", *elf, *words, "-o", str(place / "x.html"), str(place / "packet.toml"))
        assert (status, out) == (2, "") and why in err, (words, err)
    assert not (place / "x.html").exists()
