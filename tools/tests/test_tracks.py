"""Variables as tracks of a timeline. firmware/watched.c says what is written; when is compared with what `changes`
tells."""
import json
import os
import random
import re
import subprocess
import tempfile
import xml.etree.ElementTree as tree

import pytest

from avrora_tools.drawings import Drawing, Lane, Thinning, least_thinning, size_of
from avrora_tools.reporting import pages, wave_pictures
from avrora_tools.tracks import Look, Track
from firmware import PROGRAM, compiled, needs_compiler, needs_program as needs_simulator
from support import SEED, needs_program, run_tool

SCENARIO = """version = 3
cycles = 3_000
window = [0, 3_000]
node = [{ image = "watched.hex" }, { image = "watched.hex" }]
"""
SVG = "{http://www.w3.org/2000/svg}"
BROWSER = 240  # seconds for chromium, which does not end on each machine


@pytest.fixture(scope="module")
def folder(tmp_path_factory):
    pytest.importorskip("elftools", reason="needs pyelftools (Debian's python3-pyelftools)")
    if not PROGRAM:
        pytest.skip("AVRORA_PROGRAM names no program")
    place = tmp_path_factory.mktemp("tracks")
    compiled("watched.c", place, "-Os")
    (place / "watched.toml").write_text(SCENARIO)
    (place / "watched.trace").write_text(run_tool("window", f"{place}/watched.toml", "0", "3000")[1])
    return place


def timeline(folder, *words, status=0):
    base = ["timeline", "-s", f"{folder}/watched.toml", "-e", f"{folder}/watched.elf"]
    code, out, err = run_tool(*base, *words, f"{folder}/watched.trace")
    assert code == status, err
    return out if status == 0 else err


def data_of(page):
    return json.loads(re.search(r'(?m)^<script type="application/json" id="timeline-data">(.*)</script>$', page)[1])


def values_of(track):
    """The changes of a track of a page's data: cycle and text."""
    texts = track.get("texts") or [str(number) for number in track["numbers"]]
    found, cycle = [], 0
    for distance, place in zip(track["changes"][::2], track["changes"][1::2]):
        cycle += distance
        found.append((cycle, texts[place]))
    return found


def told_by_changes(folder, node, name):
    """What the tool `changes` tells: the first cycle with the value, and the value."""
    words = ["changes", "-e", f"{folder}/watched.elf", "-n", str(node), "-w", name, f"{folder}/watched.toml"]
    rows = re.findall(r"(?m)^ *(\d+)  \d+  \S+: .+? -> (.+?)(?:   by .+)?$", run_tool(*words)[1])
    return [(int(cycle) + 1, text) for cycle, text in rows]


# ---- on the page


@needs_simulator
@needs_compiler
def test_tracks_have_the_values_of_the_source(folder):
    words = [
        word for name in ("box.s*", "wide", "done", "ratio", "where", "PORTB", "ticks") for word in ("--watch", name)
    ]
    drawn = data_of(timeline(folder, "--watch", "box.state", *words[2:]))
    for node, lane in enumerate(drawn["nodes"]):
        tracks = {track["name"]: track for track in lane["tracks"]}
        assert list(tracks) == ["box.state", "wide", "done", "ratio", "where", "PORTB", "ticks"]
        assert [text for _, text in values_of(tracks["box.state"])] == ["IDLE", "BUSY"]
        assert [text for _, text in values_of(tracks["done"])] == ["false", "true"]
        assert [text for _, text in values_of(tracks["ratio"])] == ["0", "0.5"]
        assert tracks["wide"]["numbers"] == [0, 255, 256] and tracks["ticks"]["numbers"] == [0, 1, 2, 3]
        assert tracks["PORTB"]["numbers"] == [0, 0x21]
        assert re.fullmatch(r"0x\w+ &box\.row\[1\]\[2\]", values_of(tracks["where"])[1][1])
        looks = {name: track["look"] for name, track in tracks.items()}
        assert looks == {
            "box.state": "name", "wide": "number", "done": "flag", "ratio": "number", "where": "name", "PORTB": "number",
            "ticks": "number",
        }  # fmt: skip
        for name, track in tracks.items():
            first, *behind = values_of(track)
            assert first[0] == 0 and behind == told_by_changes(folder, node, name), name


@needs_simulator
@needs_compiler
def test_a_part_begins_with_the_value_that_holds_there(folder):
    (_, _), (cycle, _), *_ = values_of(data_of(timeline(folder, "--watch", "ticks"))["nodes"][0]["tracks"][0])
    part = data_of(timeline(folder, "--watch", "ticks", "--from", str(cycle), "--to", str(cycle + 1), "-n", "1"))
    (lane,) = part["nodes"]
    assert (lane["node"], values_of(lane["tracks"][0])) == (1, [(cycle, "1")])
    before = data_of(timeline(folder, "--watch", "ticks", "--from", str(cycle - 1), "--to", str(cycle + 1)))
    assert values_of(before["nodes"][0]["tracks"][0]) == [(cycle - 1, "0"), (cycle, "1")]


@needs_simulator
@needs_compiler
@pytest.mark.parametrize(
    ("words", "why"),
    [
        (["--watch", "nothing"], "it has no variable `nothing`"),
        (["--watch", "q*"], "no variable or register is called `q*`"),
        (["--watch", "box.row[2]"], "no [2]"),
        (["--watch", "main"], "is a function, and no variable"),
    ],
)
def test_what_cannot_be_watched_is_refused(folder, words, why):
    assert why in timeline(folder, *words, status=2)


@needs_simulator
@needs_compiler
def test_too_many_tracks_are_refused(folder):
    scenario = SCENARIO.replace("node = [", "node = [" + '{ image = "watched.hex" }, ' * 62)
    (folder / "many.toml").write_text(scenario)
    trace = run_tool("window", f"{folder}/many.toml", "0", "3000")[1]
    base = ["timeline", "-s", f"{folder}/many.toml", "-e", f"{folder}/watched.elf", "--watch", "box"]
    status, out, err = run_tool(*base, stdin=trace)
    assert (status, out) == (2, "") and re.search(r"stands for 704 values of all nodes, and 512 are the most", err), err
    status, out, _ = run_tool(*base, "-n", "0-45", stdin=trace)
    assert status == 0 and sum(len(node["tracks"]) for node in data_of(out)["nodes"]) == 46 * 11


def test_a_scenario_is_wanted(folder):
    status, _, err = run_tool("timeline", "--watch", "ticks", f"{folder}/watched.trace")
    assert (status, "name it (-s)" in err) == (2, True)


@needs_simulator
@needs_compiler
def test_a_report_has_them(folder):
    words = ["report", "--no-sleep", "-e", f"{folder}/watched.elf", "--watch", "ticks", "--watch", "box.state"]
    status, out, err = run_tool(*words, f"{folder}/watched.toml")
    assert status == 0, err
    tracks = data_of(out)["nodes"][1]["tracks"]
    assert [track["name"] for track in tracks] == ["ticks", "box.state"]
    assert [text for _, text in values_of(tracks[1])] == ["IDLE", "BUSY"]
    assert "--watch ticks --watch box.state -e " in out
    plain = run_tool(*words[:4], f"{folder}/watched.toml")[1]
    assert "--watch" not in plain and '"tracks"' not in plain


# ---- what is left out where a page is full


def drawn_track(draw, count):
    track = Track("x", Look.NUMBER)
    cycle = 0
    for _ in range(count):
        track.add(cycle, str(number := draw.randrange(50)), number)
        cycle += draw.randrange(1, 40)
    return track


@pytest.mark.parametrize("step", [1, 10, 300, 5_000])
def test_thinned_tracks_keep_peaks_and_what_stands_behind_them(step):
    draw = random.Random(SEED)
    track = drawn_track(draw, 500)
    every = [(cycle, track.numbers[place]) for cycle, place in track.changes()]
    kept = [(cycle, track.numbers[place]) for cycle, place in track.thinned(step)]
    assert set(kept) <= set(every) and kept == sorted(kept) and kept[0] == every[0] and kept[-1] == every[-1], SEED
    if step == 1:
        assert kept == every
    assert max(number for _, number in kept) == max(number for _, number in every), SEED
    assert min(number for _, number in kept) == min(number for _, number in every), SEED
    at = 0
    while at < len(every):  # by the rule, a group after another
        group = [one for one in every[at:] if one[0] < every[at][0] + step]
        mine = [one for one in kept if group[0][0] <= one[0] <= group[-1][0]]
        assert mine[0] == group[0] and mine[-1] == group[-1] and len(mine) <= 4, SEED
        assert {max(n for _, n in group), min(n for _, n in group)} <= {n for _, n in mine}, SEED
        at += len(group)


def test_a_track_says_how_large_it_is_and_a_page_is_thinned_by_it():
    draw = random.Random(SEED)
    lane = Lane()
    lane.tracks = [drawn_track(draw, 2_000), drawn_track(draw, 3_000)]
    for thinning in (Thinning(), Thinning(("track",), 700)):
        told = json.dumps(thinning.of_tracks(lane), separators=(",", ":"))
        assert size_of("track", thinning, lane) == len(told) - len("[]") + 1
    drawing = Drawing(None, "x")
    drawing.lanes, drawing.last_cycle = {0: lane}, 100_000
    assert least_thinning(drawing, 100_000).step == 0
    less = least_thinning(drawing, 20_000)
    assert less.step and "variables" in str(less)
    assert sum(size_of(kind, less, lane) for kind in ("track", "sent")) <= 20_000
    lane.tracks = []
    assert "variables" not in str(least_thinning(drawing, -1))


def test_numbers_that_json_does_not_have():
    track = Track("x", Look.NUMBER)
    for cycle, (text, number) in enumerate([("1", 1.0), ("inf", float("inf")), ("nan", float("nan"))]):
        track.add(cycle, text, number)
    assert track.content() == {
        "name": "x", "look": "number", "changes": [0, 0, 1, 1, 1, 2], "numbers": [1.0, None, None],
        "texts": ["1", "inf", "nan"],
    }  # fmt: skip


# ---- the picture


@needs_simulator
@needs_compiler
def test_the_picture_has_them_with_their_texts(folder):
    root = tree.fromstring(timeline(folder, "--svg", "--watch", "box.state", "--watch", "ticks"))
    waves = [shape.find(f"{SVG}title").text for shape in root.iter(f"{SVG}rect") if shape.get("class") == "wave" and len(shape)]
    for node in (0, 1):
        found = [title for title in waves if title.startswith(f"node {node}: ")]
        assert found[:2] == [f"node {node}: box.state = IDLE", f"node {node}: box.state = BUSY"]
        assert found[2:] == [f"node {node}: ticks = {count}" for count in range(4)]
    names = [text.text for text in root.iter(f"{SVG}text") if text.get("class") == "named"]
    assert names == ["box.state", "ticks"] * 2
    bottoms = [float(text.get("y")) for text in root.iter(f"{SVG}text")]
    assert max(bottoms) < float(root.get("height"))


def test_values_closer_than_pixels_are_one_bar():
    track = Track("x", Look.NUMBER)
    for cycle, number in [(0, 0), (100, 9), (101, 3), (102, 5), (500, 0)]:
        track.add(cycle, str(number), number)
    found = list(wave_pictures.grouped(list(track.changes()), lambda cycle: cycle / 10, 1_000))
    assert [(begin, end, [track.numbers[place] for place in places]) for begin, end, places in found] == [
        (0, 10, [0]), (10, 50, [9, 3, 5]), (50, 100, [0]),
    ]  # fmt: skip


def test_no_line_goes_through_the_text_of_a_number():
    """A line before it reads as a minus sign."""
    track = Track("x", Look.NUMBER)
    for cycle in range(0, 2_000, 100):
        track.add(cycle, str(number := cycle // 100 % 9), number)
    found = [tree.fromstring(shape) for shape in wave_pictures.shapes(track, 0, 100, lambda cycle: cycle / 2, 2_000)]
    texts = [(float(one.get("x")), float(one.get("y")), one.text) for one in found if one.tag == "text"]
    assert [text for *_, text in texts] == [str(at % 9) for at in range(20)]
    (path,) = (one.get("d") for one in found if one.tag == "path")
    lines, at = [], (0.0, 0.0)
    for letter, x, y in re.findall(r"([MLHV])([\d.]+)(?: ([\d.]+))?", path):
        before, at = at, {"H": (float(x), at[1]), "V": (at[0], float(x))}.get(letter) or (float(x), float(y))
        lines += [(before[0], at[0], at[1])] if letter == "H" else []
    assert len(lines) == 20 and all(behind > begin for begin, behind, _ in lines)
    for x, y, text in texts:
        high = wave_pictures.SIZE * 0.8
        crossed = [line for line in lines if x - 3 < line[1] and line[0] < x + 7 and y - high < line[2] < y]
        assert all(line[1] <= x - 3 for line in crossed), (text, crossed)


# ---- in a browser

# What is chosen by keys, told of a variable, and painted; another order of rows where they are switched off.
PROBE = """
timeline.paint();
const press = key => document.body.dispatchEvent(new KeyboardEvent("keydown", { key, bubbles: true }));
const detail = () => document.getElementById("detail").textContent;
const said = [];
press("ArrowDown"); press("ArrowDown"); said.push(detail());
press("."); said.push(detail());
press(","); press(","); press(","); said.push(detail());
// Numbers through whose text, or right before it, a line is painted, which would read as a minus sign.
const lines = [], texts = [], pens = CanvasRenderingContext2D.prototype, { fillRect, fillText } = pens;
pens.fillRect = function (x, y, wide, high) { if (high === 1.2 && wide > 1.2) lines.push([x, x + wide, y]); fillRect.apply(this, arguments); };
pens.fillText = function (text, x, y) { if (/^[0-3]$/.test(text) && /mono/.test(this.font)) texts.push([x, y]); fillText.apply(this, arguments); };
timeline.paint();
const crossed = texts.filter(([x, y]) => lines.some(([begin, end, at]) => begin < x + 6 && end > x - 2 && at > y - 8 && at < y - 0.5));
said.push(texts.length, crossed.length);
const before = document.getElementById("sky").style.height;
const box = document.querySelector("input[data-kind=track]"); box.checked = false; box.dispatchEvent(new Event("change"));
said.push(parseInt(before) > 0, timeline.data.nodes[0].tracks.length, document.getElementById("track-key").hidden);
document.body.innerHTML = `<pre>${said.join("|")}|</pre>`;
"""


@needs_program("chromium", "chromium")
@needs_simulator
@needs_compiler
def test_in_a_browser(folder):
    page = timeline(folder, "--watch", "box.state", "--watch", "ticks")
    probed = page.replace("script-src ", f"script-src {pages.source_of(PROBE)} ", 1) + f"<script>{PROBE}</script>"
    (folder / "page.html").write_text(probed)
    with tempfile.TemporaryDirectory() as profile:
        words = [
            "chromium", "--headless=new", "--no-sandbox", "--disable-gpu", "--disable-dev-shm-usage",
            f"--user-data-dir={profile}", "--window-size=1300,800", "--dump-dom", f"file://{folder}/page.html",
        ]  # fmt: skip
        try:
            done = subprocess.run(
                words, env={**os.environ, "HOME": profile}, capture_output=True, text=True, check=True, timeout=BROWSER
            )
        except subprocess.SubprocessError as fault:
            pytest.skip(f"chromium: {fault}")
    assert "<pre>" in done.stdout, done.stdout[-2000:]
    first, after, last, texts, crossed, *rest, _ = done.stdout[done.stdout.index("<pre>") + 5 :].split("|")
    cycle = told_by_changes(folder, 0, "box.state")[0][0]
    assert first.startswith("node 0 watched: box.state = ") and "-n 0 -w 'box.state' --last-before" in first
    assert f"box.state = BUSY, before IDLE in cycle {cycle:,}" in first + after
    assert last.startswith("node 0 watched: box.state = IDLE in cycle 0")
    assert (texts, crossed) == ("8", "0")
    assert rest == ["true", "2", "false"]
