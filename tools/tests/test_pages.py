"""What pages and pictures share: escaped elements, a policy, colours that all can tell apart, bars with scales."""
import itertools
import random
import re
import xml.etree.ElementTree

import pytest

from avrora_tools.reporting import bars, code_sections, markup, pages, palette, timelines
from avrora_tools.reporting.bars import Bar, Part
from pages_read import Page, check_policy
from support import DATA, SEED, run_tool

# ---- elements


def test_no_text_ends_an_element_or_an_attribute():
    draw = random.Random(SEED)
    alphabet = "<>&\"'/!-= \n\x00\x1b\u202e\ud800\udcff" + "".join(chr(draw.randrange(0xD800)) for _ in range(40))
    for _ in range(300):
        text = "".join(draw.choices(alphabet, k=draw.randrange(1, 30)))
        made = markup.tag("p", text, title=text, data_value=text)
        root = xml.etree.ElementTree.fromstring(made)
        assert (
            root.tag == "p" and not list(root) and set(root.attrib) == {"title", "data-value"}
        ), f"seed {SEED}: {text!r}"
        assert root.text == root.get("title") and root.text.isprintable(), f"seed {SEED}: {text!r}"


def test_attributes():
    assert (
        markup.tag("input", type="checkbox", checked=True, disabled=False, title=None, class_="a")
        == '<input type="checkbox" checked class="a">'
    )
    assert markup.tag("td", 1_234_567, markup.tag("b", "x<y")) == "<td>1,234,567<b>x&lt;y</b></td>"
    assert markup.lines("a<\nb\x07") == "a&lt;\nb\\x07"


def test_a_page_has_a_policy_and_its_data():
    part = pages.Section("one", "One <1>", ["avrora run 'a b'"], markup.tag("p", "</script>"))
    body = markup.Html(pages.header("t<", "k", [("bad!", "3"), ("good", "4")], "by") + pages.sections([part]))
    text = pages.page(
        "t<", body, styles=["page.css"], scripts=["page.js"], data={"x": {"a": "</script><!--"}}, name="report"
    )
    page = Page(text)
    check_policy(page)
    assert page.data == {"x": {"a": "</script><!--"}} and page.links == ["#one", "#one"]
    assert text.count('class="card warns"') == 1 and "bad!" not in text


def test_the_timeline_has_a_policy_too():
    status, out, _ = run_tool("timeline", "-s", f"{DATA}/relay.toml", f"{DATA}/relay.trace")
    page = Page(out)
    check_policy(page)
    assert status == 0 and page.data["timeline-data"]["files"]["scenario"].endswith("relay.toml")
    assert "trace" not in timelines.Names("a.toml", "-").words()
    assert timelines.Names("a b.toml", "x'y", ["0=$(z).elf"]).words() == {
        "scenario": "'a b.toml'", "trace": "'x'\"'\"'y'", "programs": "-e '0=$(z).elf'",
    }  # fmt: skip


def test_each_colour_and_element_that_a_script_or_a_style_names_is_there():
    names = "page.css timeline.css events.js lanes.js timeline.js page.js flames.js histograms.js".split()
    every = {name: pages.asset(name) for name in names}
    variables = set(palette.COLOURS) | {"flame-ink"}
    for name, text in every.items():
        assert set(re.findall(r"var\(--([\w-]+)\)", text)) <= variables, name
        assert (
            "</script" not in text
            and "<!--" not in text
            and "http" not in text.replace("http://www.w3.org/2000/svg", "")
        )
        assert not re.search(
            r"\b(innerHTML|outerHTML|insertAdjacentHTML|eval|Function|fetch|XMLHttpRequest|import)\b *[(=]", text
        ), name
    drawn = re.search(r"const PAINTS = \[(.*?)\]", every["lanes.js"], re.S)[1]
    painted = set(re.findall(r"colours\.(\w+)", every["lanes.js"]))
    assert painted | {"sent", "heard", "clash"} <= set(re.findall(r'"(\w+)"', drawn)) <= set(palette.COLOURS)
    used = set(re.findall(r'(?:element|getElementById)\("(\w+)"\)', every["timeline.js"] + every["lanes.js"]))
    ids = set(re.findall(r'id="(\w+)"', timelines.element()))
    assert used <= ids and len(used) > 8
    deeds = set(re.findall(r'data-do="(\w+)"', timelines.element()))
    assert deeds and all(re.search(rf"\b{deed}: \(\) =>", every["timeline.js"]) for deed in deeds)


# ---- colours

TEXTS = ("ink", "faint", "link", "serial", "sent", "heard", "clash", "enter", "good", "bad", "broken")


def channels(colour):
    return [int(colour[place : place + 2], 16) / 255 for place in (1, 3, 5)]


def linear(colour):
    return [part / 12.92 if part <= 0.04045 else ((part + 0.055) / 1.055) ** 2.4 for part in channels(colour)]


def contrast(one, other):
    """As WCAG has it."""
    low, high = sorted(
        sum(weight * part for weight, part in zip((0.2126, 0.7152, 0.0722), linear(colour))) for colour in (one, other)
    )
    return (high + 0.05) / (low + 0.05)


@pytest.mark.parametrize("theme", ["light", "dark"])
def test_what_is_read_stands_out(theme):
    paper, panel = (getattr(palette.COLOURS[name], theme) for name in ("paper", "panel"))
    for name in TEXTS:
        colour = getattr(palette.COLOURS[name], theme)
        assert contrast(colour, paper) >= 4.5 and contrast(colour, panel) >= 4, name
    for name in ("link0", "link1", "link2", "link3", "link4", "window", "stop", "awake", "sending"):
        assert contrast(getattr(palette.COLOURS[name], theme), paper) >= 2.1, name


# How colours look to who sees no green, no red, or no blue (Machado, Oliveira and Fernandes, 2009), in linear light.
BLIND = {
    "nothing": ((1, 0, 0), (0, 1, 0), (0, 0, 1)),
    "green": ((0.367322, 0.860646, -0.227968), (0.280085, 0.672501, 0.047413), (-0.01182, 0.04294, 0.968881)),
    "red": ((0.152286, 1.052583, -0.204868), (0.114503, 0.786281, 0.099216), (-0.003882, -0.048116, 1.051998)),
    "blue": ((1.255528, -0.076749, -0.178779), (-0.078411, 0.930809, 0.147602), (0.004733, 0.691367, 0.3039)),
}
TOGETHER = [
    ("sent", "heard", "clash", "serial"), ("awake", "resting", "sending", "listening"), ("good", "bad"),
    ("link0", "link2", "link4"), ("link1", "link3"),
]  # fmt: skip


def lab(colour, matrix):
    red, green, blue = (min(1, max(0, sum(a * b for a, b in zip(row, linear(colour))))) for row in matrix)
    xyz = (
        (0.4124 * red + 0.3576 * green + 0.1805 * blue) / 0.9505,
        0.2126 * red + 0.7152 * green + 0.0722 * blue,
        (0.0193 * red + 0.1192 * green + 0.9505 * blue) / 1.089,
    )
    x, y, z = (part ** (1 / 3) if part > 0.008856 else 7.787 * part + 16 / 116 for part in xyz)
    return 116 * y - 16, 500 * (x - y), 200 * (y - z)


@pytest.mark.parametrize("theme", ["light", "dark"])
@pytest.mark.parametrize("unseen", BLIND)
def test_colours_that_stand_together_are_told_apart(theme, unseen):
    for group in TOGETHER:
        for one, other in itertools.combinations(group, 2):
            places = [lab(getattr(palette.COLOURS[name], theme), BLIND[unseen]) for name in (one, other)]
            distance = sum((a - b) ** 2 for a, b in zip(*places)) ** 0.5
            assert distance > 10, (one, other, round(distance, 1))


# ---- bars


@pytest.mark.parametrize("greatest", [1e-4, 0.07, 1, 9.99, 23.4, 100, 737_280])
def test_a_scale_begins_at_nothing_and_has_round_steps(greatest):
    ticks, digits = bars.scale_of(greatest)
    assert ticks[0] == 0 and ticks[-1] <= greatest * (1 + 1e-9) and 4 <= len(ticks) <= bars.TICKS + 1
    step = ticks[1]
    assert greatest - ticks[-1] < step * 1.001 and f"{step:.1e}"[0] in "125"
    assert len({f"{tick:.{digits}f}" for tick in ticks}) == len(ticks)


def test_bars_are_as_long_as_what_they_are_of():
    rows = [
        Bar("node 0", [Part("awake", "awake", 3), Part("asleep", "resting", 1)], "4 mA"),
        Bar("n<1>", [Part("awake", "awake", 8)], "8 mA"),
    ]
    root = xml.etree.ElementTree.fromstring(bars.drawn(rows, " mA", "x"))
    svg = "{http://www.w3.org/2000/svg}"
    shapes = [shape for shape in root.iter(f"{svg}rect") if shape.get("height") == str(bars.BAR)]
    first, second, third = (float(shape.get("width")) for shape in shapes)
    assert first / third == pytest.approx(3 / 8, abs=0.01) and second / third == pytest.approx(1 / 8, abs=0.01)
    assert float(shapes[1].get("x")) == pytest.approx(float(shapes[0].get("x")) + first, abs=0.2)
    titles = [shape.find(f"{svg}title").text for shape in shapes]
    assert titles == ["node 0, awake: 3 mA", "node 0, asleep: 1 mA", "n<1>, awake: 8 mA"]
    grid = [float(line.get("x1")) for line in root.iter(f"{svg}line")]
    labels = [text.text for text in root.iter(f"{svg}text") if text.get("text-anchor") == "middle"]
    assert labels == ["0", "1", "2", "3", "4", "5", "6", "7", "8 mA"] and len(grid) == 9
    assert grid[-1] - grid[0] == pytest.approx(third, abs=0.2)
    assert "<style>" in bars.drawn(rows, "", "x") and "<style>" not in bars.drawn(rows, "", "x", is_part_of_page=True)


# ---- call stacks


def flattened(trees, names, above=()):
    for name, own, below in trees:
        path = (*above, names[name])
        if own:
            yield path, own
        yield from flattened(below, names, path)


def test_call_stacks_become_trees_that_have_each_cycle(monkeypatch):
    draw = random.Random(SEED)
    paths = {}
    for _ in range(400):
        paths[tuple(draw.choices("abcdef", k=draw.randrange(1, 6)))] = draw.choice([1, 1, 7, 90, 5_000])
    names = {}
    trees = code_sections.tree_of(paths, names)
    assert dict(flattened(trees, list(names))) == paths, f"seed {SEED}"
    monkeypatch.setattr(code_sections, "MOST_STACKS", 10)
    monkeypatch.setattr(code_sections, "LEAST_SHARE", 1_000)
    names = {}
    fewer = dict(flattened(code_sections.tree_of(paths, names), list(names)))
    assert sum(fewer.values()) == sum(paths.values()) and len(fewer) < len(paths), f"seed {SEED}"
