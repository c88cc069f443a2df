"""What moves, and the scenario of a move; expected scenarios are written by hand."""
import tomllib

import pytest

from avrora_tools.errors import BadInput, BadWords
from avrora_tools.states import EPOCH
from avrora_tools.sweeping.events import InputByte, LinkLatency, Moved, Span, moved_scenario, parsed_event, stretches
from avrora_tools.sweeping.simulation import scenario_text

DOCUMENT = tomllib.loads(
    """
version = 1
cycles = 2_000_000
node = [{ image = "a.hex" }, { image = "b.hex" }]
link = [{ from = 0, to = 1 }, { from = 1, to = 0, latency = 50 }]
input = [{ node = 0, at = 1_000, hex = "00" }, { node = 1, at = 600_000, every = 10_000, hex = "010203" }]
"""
)


def byte(node, index, first, last, step=1):
    return Moved(InputByte(node, index), Span(first, last, step))


def script(scenario, move, node=1, **options):
    return next(table for table in scenario.scenario(move, **options)["input"] if table["node"] == node)


def test_a_first_byte_moves_with_those_behind_it():
    scenario = moved_scenario(DOCUMENT, [byte(1, 0, 700_000, 700_100)], 900_000)
    assert scenario.begins == 2 * EPOCH
    assert script(scenario, (700_050,)) == {"node": 1, "at": 700_050, "every": 10_000, "hex": "010203"}
    assert script(scenario, (None,))["hex"] == ""
    document = scenario.scenario((700_050,), (5, 9))
    assert (document["cycles"], document["window"], document["version"]) == (900_000, [5, 9], 1)
    assert scenario.unmoved() == (600_000,)


def test_a_byte_behind_the_state_leaves_the_bytes_before_it():
    scenario = moved_scenario(DOCUMENT, [byte(1, 2, 800_000, 800_100)], None)
    assert scenario.begins == 3 * EPOCH  # 786,432: bytes 0 and 1 came before
    assert script(scenario, (800_007,)) == {"node": 1, "at": 800_007, "every": 10_000, "hex": "03"}
    assert next(t["hex"] for t in scenario.before()["input"] if t["node"] == 1) == "0102"


def test_the_last_byte_moves_alone_where_one_goes_before_it():
    document = DOCUMENT | {"input": [{"node": 1, "at": 600_000, "hex": "0141"}]}
    scenario = moved_scenario(document, [byte(1, 1, 620_000, 665_535)], None)
    assert scenario.begins == 2 * EPOCH
    assert script(scenario, (620_001,)) == {"node": 1, "at": 600_000, "every": 20_001, "hex": "0141"}
    assert script(scenario, (None,))["hex"] == "01"
    assert scenario.whole_scenario((620_001,), (0, 0))["input"] == scenario.scenario((620_001,))["input"]


@pytest.mark.parametrize(
    "moved",
    [
        byte(1, 2, 615_000, 618_000),  # bytes 0 and 1 are still to come, in another distance
        byte(1, 1, 605_000, 606_000),  # byte 2 would not stay
        byte(1, 3, 700_000, 700_001),  # no such byte
        byte(0, 0, 900_000, 2_000_000),  # the run ends before
        Moved(LinkLatency(1, 1), Span(1, 2)),  # no such link
        Moved(LinkLatency(0, 1), Span(1, 65_536)),  # no such latency
    ],
)
def test_moves_that_no_scenario_says_are_refused(moved):
    with pytest.raises(BadInput):
        moved_scenario(DOCUMENT, [moved], None)


def input_of(every, hex_):
    return DOCUMENT | {"input": [{"node": 1, "at": 600_000, "every": every, "hex": hex_}]}


@pytest.mark.parametrize(
    "document, moved, said",
    [
        (
            DOCUMENT,
            byte(1, 1, 605_000, 606_000),
            r"byte 2 moves with it, 10,000 behind, and byte 0 stays, 5,000 before: an input has one",
        ),
        (
            DOCUMENT,
            byte(1, 2, 615_000, 618_000),
            r"byte 1 stays, 5,000 before, and byte 0, 10,000 before that: an input has one",
        ),
        (
            input_of(65_535, "0102"),
            byte(1, 1, 665_536, 665_540),
            r"byte 0 stays in cycle 600,000, and an input has at most 65,535 cycles",
        ),
    ],
)
def test_a_refusal_names_the_byte_that_hinders_and_the_ways_out(document, moved, said):
    with pytest.raises(
        BadInput, match=f"{said}.* Move it alone \\(--alone, from cycle 262,144 on\\), or the first byte, or"
    ):
        moved_scenario(document, [moved], None)
    alone_ = Moved(InputByte(moved.event.node, moved.event.index, True), moved.span)
    assert moved_scenario(document, [alone_], None).begins == 2 * EPOCH


def test_a_byte_does_not_pass_the_one_before_it():
    with pytest.raises(BadInput, match="byte 0 stays in cycle 600,000, and it does not pass that$"):
        moved_scenario(input_of(65_535, "0102"), [byte(1, 1, 600_000, 600_010)], None)


def test_a_byte_where_it_is_stays_there():
    assert script(moved_scenario(DOCUMENT, [byte(1, 1, 610_000, 610_000)], None), (610_000,)) == DOCUMENT["input"][1]


def test_a_byte_alone_beside_one_that_is_not():
    """What the other one cannot is told before any run, and in words of its own."""
    document = DOCUMENT | {
        "input": [{"node": 0, "at": 600_000, "every": 10_000, "hex": "010203"}, DOCUMENT["input"][1]]
    }
    with pytest.raises(BadInput, match="^byte 1 of node 0's input .* byte 2 moves with it"):
        moved_scenario(document, [byte(0, 1, 605_000, 606_000), alone(1, 1, 605_000, 606_000)], None)
    early = DOCUMENT | {"input": [{"node": 0, "at": 500_000, "every": 30_000, "hex": "0102"}, DOCUMENT["input"][1]]}
    scenario = moved_scenario(early, [byte(0, 1, 560_000, 560_009), alone(1, 1, 605_000, 606_000)], None)
    assert scenario.begins == 2 * EPOCH
    assert script(scenario, (560_001, None), node=0) == {"node": 0, "at": 560_001, "every": 30_000, "hex": "02"}
    with pytest.raises(
        BadWords, match="^two bytes of one node cannot both move: move one, with those behind it or alone$"
    ):
        moved_scenario(DOCUMENT, [byte(1, 0, 600_000, 600_009), alone(1, 1, 610_000, 610_009)], None)


def test_a_byte_that_would_come_too_far_behind_the_one_before_is_refused():
    document = DOCUMENT | {"input": [{"node": 1, "at": 600_000, "hex": "0141"}]}
    moved_scenario(document, [byte(1, 1, 620_000, 665_535)], None)
    with pytest.raises(BadInput, match="at most 65,535"):
        moved_scenario(document, [byte(1, 1, 620_000, 665_536)], None)


def test_a_latency_moves_from_reset_and_needs_version_two():
    scenario = moved_scenario(DOCUMENT, [Moved(LinkLatency(1, 0), Span(40, 60))], None)
    assert scenario.begins == 0 and scenario.unmoved() == (50,)
    new = scenario.scenario((44,))
    assert new["version"] == 2 and new["link"] == [{"from": 0, "to": 1}, {"from": 1, "to": 0, "latency": 44}]
    assert moved_scenario(DOCUMENT, [Moved(LinkLatency(0, 1), Span(1, 9))], None).unmoved() == (3_072,)


def test_two_events_make_a_grid_and_two_bytes_of_a_node_do_not():
    scenario = moved_scenario(DOCUMENT, [byte(0, 0, 700_000, 700_009), byte(1, 0, 800_000, 800_009)], None)
    assert scenario.begins == 2 * EPOCH
    new = scenario.scenario((700_001, 800_002))
    assert [table["at"] for table in new["input"]] == [700_001, 800_002]
    with pytest.raises(BadWords):
        moved_scenario(DOCUMENT, [byte(1, 0, 700_000, 700_009), byte(1, 1, 800_000, 800_009)], None)


def test_a_state_of_the_user_is_where_runs_begin():
    assert moved_scenario(DOCUMENT, [byte(1, 0, 700_000, 700_100)], None, EPOCH).begins == EPOCH
    with pytest.raises(BadInput, match="begins before"):
        moved_scenario(DOCUMENT, [byte(1, 0, 700_000, 700_100)], None, 3 * EPOCH)


@pytest.mark.parametrize(
    "kind, text, event, span",
    [
        ("input", "3:1=1_000..2_000", InputByte(3, 1), Span(1_000, 2_000)),
        ("start", "3=5..9/2", InputByte(3, 0), Span(5, 9, 2)),
        ("latency", "0-2=1..65_535", LinkLatency(0, 2), Span(1, 65_535)),
    ],
)
def test_words(kind, text, event, span):
    assert parsed_event(kind, text) == Moved(event, span)


@pytest.mark.parametrize(
    "kind, text",
    [
        ("input", "3=1..2"),
        ("start", "3:1=1..2"),
        ("latency", "0=1..2"),
        ("input", "0:0=9..1"),
        ("input", "0:0=1"),
        ("start", "x=1..2"),
        ("start", "0=1..5/0"),
    ],
)
def test_bad_words(kind, text):
    with pytest.raises(BadWords):
        parsed_event(kind, text)


def test_a_document_is_written_as_toml():
    document = {**DOCUMENT, "window": [0, 5]} | {"node": [{"image": 'a "b" \\ \x7f.hex'}]}
    assert tomllib.loads(scenario_text(document)) == document


def alone(node, index, first, last):
    return Moved(InputByte(node, index, True), Span(first, last))


def test_a_byte_moves_alone_between_its_neighbours():
    scenario = moved_scenario(DOCUMENT, [alone(1, 1, 600_001, 619_999)], None)
    assert scenario.begins == 2 * EPOCH
    assert scenario.line(600_001) == "1 600000 1 0102 620000 1 03\n"
    assert scenario.line(610_000) == "1 600000 10000 010203\n"
    assert scenario.line(619_998) == "1 600000 19998 0102 620000 1 03\n"
    assert scenario.line(None) == "1 600000 20000 0103\n"
    assert scenario.whole_scenario((610_000,), (0, 0)) is None
    assert scenario.scenario((None,))["input"][1]["hex"] == "01"


def test_a_byte_moves_alone_behind_a_state_that_has_those_before():
    scenario = moved_scenario(DOCUMENT, [alone(1, 2, 800_000, 800_100)], None)
    assert scenario.begins == 3 * EPOCH
    assert scenario.line(800_007) == "1 800007 1 03\n"
    assert scenario.line(None) == "1 1099511627776 1 00\n"


def test_the_line_of_a_byte_with_those_behind_it():
    scenario = moved_scenario(DOCUMENT, [byte(1, 0, 700_000, 700_100)], 900_000)
    assert scenario.line(700_050) == "1 700050 10000 010203\n"


def test_bytes_that_are_far_apart_are_stretches_of_their_own():
    assert stretches([(5, 1), (65_540, 2), (131_075, 3), (196_611, 4)]) == ["5 65535 010203", "196611 1 04"]
    assert stretches([(5, 1), (65_541, 2), (65_542, 3)]) == ["5 1 01", "65541 1 0203"]


@pytest.mark.parametrize(
    "moved, wrong",
    [
        (alone(1, 1, 600_000, 610_000), "byte 0 of node 1's input stays in cycle 600,000"),
        (alone(1, 1, 610_000, 620_000), "byte 2 of node 1's input stays in cycle 620,000"),
        (alone(0, 0, 2_000, 3_000), "there is none before cycle 262,144"),
    ],
)
def test_a_byte_that_moves_alone_passes_no_other(moved, wrong):
    with pytest.raises(BadInput, match=wrong):
        moved_scenario(DOCUMENT, [moved], None)
