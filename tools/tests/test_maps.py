"""Maps of networks, and what is odd about who hears whom; by hand."""
import math
import re
import xml.etree.ElementTree

import pytest

from avrora_tools.errors import BadInput
from avrora_tools.networks import pairs_of
from avrora_tools.maps import (
    Quality,
    deaf_leaves,
    drawn,
    fitted,
    grade,
    laid_out,
    one_way,
    oddities,
    parts,
    placed,
    places_of,
    places_text,
    shape_places,
    unreached,
    upright,
)
from support import run_tool

BOTH = [(0, 1), (1, 0), (1, 2), (2, 1)]


def test_odd_networks():
    assert oddities(3, BOTH) == [
        "nodes 0, 2 do not hear each other, and clash at node 1 unless they send at times that lie apart"
    ]
    assert oddities(2, [(0, 1), (1, 0)]) == []
    assert oddities(3, [*BOTH, (0, 2), (2, 0)]) == []
    assert oddities(4, [(0, 1), (1, 0), (1, 2)]) == [
        "nothing reaches node 3",
        "links of one direction: 1 to 2",
        "2 parts that no link joins: 0-2; 3",
    ]


def test_what_is_unreached_or_of_one_direction():
    assert unreached(3, [(0, 1), (1, 2)]) == [0]
    assert unreached(2, []) == [0, 1]
    assert one_way([(0, 1), (1, 0), (2, 1)]) == [(2, 1)]
    assert parts(5, [(0, 3), (4, 1)]) == [[0, 3], [1, 4], [2]]


def test_a_star():
    star = [(0, 1), (1, 0), (0, 2), (2, 0), (3, 0)]
    assert deaf_leaves(4, star) == (0, [1, 2, 3])
    assert deaf_leaves(4, [*star, (1, 2)]) is None
    assert deaf_leaves(3, [(0, 1), (0, 2)]) is None  # the leaves only hear
    assert deaf_leaves(2, [(0, 1), (1, 0)]) is None


@pytest.mark.parametrize("shape, count", [("line", 4), ("ring", 6), ("grid:3", 9), ("full", 5), ("star", 5)])
def test_a_layout_keeps_nodes_apart_and_linked_ones_near(shape, count):
    pairs = pairs_of(shape, count)
    places = laid_out(count, pairs)
    assert places == laid_out(count, pairs)
    apart = {(a, b): math.dist(places[a], places[b]) for b in range(count) for a in range(b)}
    assert min(apart.values()) > 0.2
    linked = [apart[pair] for pair in pairs]
    others = [distance for pair, distance in apart.items() if pair not in pairs]
    assert not others or sum(linked) / len(linked) < sum(others) / len(others)


def test_one_node_and_none_that_is_linked():
    assert len(laid_out(1, [])) == 1
    assert len(set(laid_out(3, []))) == 3


def test_places_fit_into_the_picture():
    assert fitted([(0, 0), (10, 5)]) == [(60, 210), (660, 510)]
    assert fitted([(7, 7)]) == [(360, 360)]


def test_places_of_shapes():
    assert shape_places("grid:2", 4, 0) == [(0, 0), (1, 0), (0, 1), (1, 1)]
    assert shape_places("star", 3, 0)[0] == (0, 0)
    assert shape_places("star", 3, 0)[1] == (1, 0)
    text = places_text(shape_places("geo:0.5", 5, 7))
    assert places_of(text, "p", 5) == [pytest.approx(place, abs=1e-4) for place in shape_places("geo:0.5", 5, 7)]


@pytest.mark.parametrize(
    "text",
    [
        "0 = [1, 2]",
        "0 = [1, 2]\n1 = [1]",
        "0 = [1, 2]\n1 = [1, true]",
        "0 = [1, 2]\n1 = [1, nan]",
        "0 = [0, 0]\n1 = [1, 1]\n2 = [2, 2]",
        "0 =",
    ],
)
def test_what_says_no_places_is_refused(text):
    with pytest.raises(BadInput):
        places_of(text, "p", 2)


def test_grades_go_from_nothing_to_all():
    shares = (0.0, 1e-6, 0.4999, 0.5, 0.8999, 0.9, 0.9999, 1.0, None)
    assert [grade(share) for share in shares] == "link0 link1 link1 link2 link2 link3 link3 link4 unused".split()


@pytest.mark.parametrize(
    "shape, count", [("grid:4", 16), ("grid:3", 8), ("torus:3", 9), ("line", 5), ("ring", 7), ("star", 6)]
)
def test_a_shape_of_mknet_lies_as_it_is_called(shape, count):
    pairs = pairs_of(shape, count)
    assert placed(count, pairs) == placed(count, [pair[::-1] for pair in pairs]) == shape_places(shape, count, 0)


def test_another_network_is_turned_upright():
    pairs = [pair for pair in pairs_of("grid:4", 16) if pair != (5, 6)]

    def off(places):
        """How far links are turned away from level and upright, in the mean."""
        angles = [math.atan2(places[b][1] - places[a][1], places[b][0] - places[a][0]) for a, b in pairs]
        return sum(abs(math.remainder(angle, math.pi / 2)) for angle in angles) / len(pairs)

    assert off(placed(16, pairs)) < min(0.16, off(laid_out(16, pairs)) / 2)
    tilted = [(x * math.cos(0.4) - y * math.sin(0.4), x * math.sin(0.4) + y * math.cos(0.4)) for x, y in shape_places("grid:3", 9, 0)]
    for a, b in pairs_of("grid:3", 9):
        (x, y), (end_x, end_y) = (upright(tilted, pairs_of("grid:3", 9))[node] for node in (a, b))
        assert min(abs(end_x - x), abs(end_y - y)) < 1e-9


def test_the_picture():
    text = drawn(
        [(0, 0), (1, 0), (1, 1)],
        {(0, 1): Quality(10, 5, 3, 2), (1, 0): Quality(0, 0, 0, 0), (1, 2): Quality(4, 4, 0, 0)},
    )
    root = xml.etree.ElementTree.fromstring(text)
    titles = {title.text for title in root.iter("{http://www.w3.org/2000/svg}title")}
    assert "0 to 1: 50.0% of 10 bytes clean, 3 clashed, 2 unheard" in titles
    assert "1 to 0: nothing sent" in titles
    assert "1 to 2: 100.0% of 4 bytes clean, 0 clashed, 0 unheard, one direction" in titles
    assert {"node 0", "node 1", "node 2"} <= titles
    assert text.count(' lone"') == 1  # is dashed
    numbers = [shape.text for shape in root.iter("{http://www.w3.org/2000/svg}text") if shape.get("class") == "number"]
    assert numbers == ["50", "100"]
    classes = [shape.get("class") for shape in root.iter("{http://www.w3.org/2000/svg}path") if shape.get("marker-end")]
    assert classes == ["link2", "unused", "link4 lone"]
    said = {shape.text for shape in root.iter("{http://www.w3.org/2000/svg}text")}
    assert {"100%", "90% or more", "50% or more", "less", "nothing", "none sent"} <= said
    assert "node 1: nothing reaches it" in drawn([(0, 0), (1, 1)], {(1, 0): Quality(0, 0, 0, 0)})


SCENARIO = """
cycles = 5_000
latency = 100
byte_time = 512
node = [{ image = "a.hex" }, { image = "a.hex" }]
link = [{ from = 0, to = 1 }]
"""
TRACE = "1000 0 sent AA\n1200 1 heard 1 AA 6\n2000 0 sent BB\n5000 0 end 9 asleep\n5000 1 end 9 asleep\n"


def test_links_draws_the_map(tmp_path):
    (tmp_path / "s.toml").write_text(SCENARIO)
    (tmp_path / "places.toml").write_text("0 = [0, 0]\n1 = [1, 0]\n")
    words = [str(tmp_path / "s.toml"), "--map", str(tmp_path / "map.svg"), "--places", str(tmp_path / "places.toml")]
    status, out, err = run_tool("links", *words, stdin=TRACE)
    assert (status, err) == (0, "")
    assert "\nnothing reaches node 0\nlinks of one direction: 0 to 1\n" in out
    text = (tmp_path / "map.svg").read_text()
    assert "0 to 1: 50.0% of 2 bytes clean, 0 clashed, 1 unheard, one direction" in text
    assert re.search(r'<circle cx="60.0" cy="360.0"', text) and re.search(r'<circle cx="660.0" cy="360.0"', text)


def test_mknet_warns_and_writes_places(tmp_path):
    places = tmp_path / "places.toml"
    status, out, err = run_tool("mknet", "--places", str(places), "star", "a.hex*4")
    assert status == 0 and "nodes 1-3 do not hear each other, and clash at node 0" in err
    assert places_of(places.read_text(), "p", 4)[0] == (0, 0)
    assert "nothing reaches" in run_tool("mknet", "geo:0.01", "a.hex*5")[2]
    assert run_tool("mknet", "ring", "a.hex*5")[2] == ""


def test_what_was_sent_while_a_link_was_closed_did_not_come_through():
    half = Quality(10, 5, 0, 0, 5)
    assert half.share == 0.5
    assert "0 to 1: 50.0% of 10 bytes clean, 0 clashed, 0 unheard, 5 while it was closed" in drawn(
        [(0, 0), (1, 1)], {(0, 1): half}
    )
