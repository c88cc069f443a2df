"""Differences of traces, by rows that were written by hand."""
import random

import pytest
from hypothesis import given, settings, strategies

from avrora_tools.differences import AHEAD, differences
from avrora_tools.traces import Row
from support import run_tool, scratch


def rows(text):
    return [
        Row(int(c), int(n), kind, rest)
        for c, n, kind, rest in (line.split(" ", 3) for line in text.strip().splitlines())
    ]


BEFORE = """
100 0 serial 41
150 1 sent AA
200 0 serial 42
300 0 serial 43
400 0 serial 44
500 0 end 90 running
500 1 end 80 asleep
"""


def compared(after, **options):
    return differences(rows(BEFORE), rows(after), **options)


def test_equal_traces_have_no_difference():
    nodes = compared(BEFORE)
    assert list(nodes) == [0, 1]
    assert not any(node.has_parted for node in nodes.values())
    assert [node.same for node in nodes.values()] == [5, 2]


def test_a_row_is_gone_and_the_rest_is_later():
    nodes = compared(BEFORE.replace("200 0 serial 42\n", "").replace("300", "310").replace("400", "425"))
    node = nodes[0]
    assert node.same == 1 and node.before[0].cycle == 100
    assert [row.cycle for row in node.behind[0]] == [200, 300, 400]
    assert [row.cycle for row in node.behind[1]] == [310, 425, 500]
    serial = node.rest["serial"]
    assert (serial.gone_count, serial.new_count) == (1, 0)
    assert serial.gone == [Row(200, 0, "serial", "42")]
    assert (serial.moved, serial.shifts, serial.unmoved) == (2, [10, 25], 0)
    assert node.rest["end"].unmoved == 1
    assert not nodes[1].has_parted


def test_a_row_is_new():
    node = compared(BEFORE.replace("300 0", "250 0 serial 99\n300 0"))[0]
    serial = node.rest["serial"]
    assert (serial.gone_count, serial.new_count, serial.new[0].cycle) == (0, 1, 250)
    assert (serial.unmoved, serial.moved) == (2, 0)


def test_a_row_that_says_something_else_is_gone_and_new():
    serial = compared(BEFORE.replace("serial 43", "serial 53"))[0].rest["serial"]
    assert [row.rest for row in serial.gone] == ["43"]
    assert [row.rest for row in serial.new] == ["53"]
    assert serial.unmoved == 1


def test_rows_that_only_one_trace_has_at_its_end():
    node = compared(BEFORE.replace("500 1 end 80 asleep\n", ""))[1]
    assert node.has_parted and node.behind == ([Row(500, 1, "end", "80 asleep")], [])
    assert compared(BEFORE.replace("150 1 sent AA\n", "").replace("500 1 end 80 asleep\n", ""))[1].has_parted


def test_without_cycles_only_order_and_content_count():
    later = BEFORE.replace("200 0", "210 0").replace("400 0", "401 0")
    assert not any(node.has_parted for node in compared(later, with_cycles=False).values())
    assert compared(later)[0].has_parted
    assert compared(later.replace("serial 44", "serial 45"), with_cycles=False)[0].has_parted


def test_the_age_of_a_sample_goes_with_its_cycle():
    one, two = rows("100 0 heard 1 AA 12\n200 0 heard 1 AA 18"), rows("100 0 heard 1 AA 11\n200 0 heard 1 AB 18")
    node = differences(one, two)[0]
    assert node.has_parted and node.same == 0
    assert (node.rest["heard"].unmoved, node.rest["heard"].gone_count) == (1, 1)
    assert differences(one, two, with_cycles=False)[0].same == 1


def test_more_rows_gone_than_are_looked_through_are_all_told():
    many = "".join(f"{300 + i} 0 sent {i:02X}\n" for i in range(AHEAD + 10))
    node = differences(rows(f"100 0 serial 41\n{many}900 0 serial 42"), rows("100 0 serial 41\n900 0 serial 42"))[0]
    assert node.rest["sent"].gone_count == AHEAD + 10
    assert node.rest["serial"].unmoved == 1


@settings(deadline=None)  # a busy machine is not a failure
@given(strategies.lists(strategies.sampled_from("ABC"), max_size=30), strategies.randoms(use_true_random=False))
def test_each_row_is_told_once(letters, draw: random.Random):
    """Of each side: the rows that are the same, and those that are gone or new, are all of its rows."""
    one = [Row(10 * i, 0, "sent", letter) for i, letter in enumerate(letters)]
    two = [Row(row.cycle + draw.randrange(3), 0, "sent", row.rest) for row in one if draw.random() < 0.8]
    nodes = differences(one, two)
    if not one:
        assert nodes == {}
        return
    node = nodes[0]
    rest = node.rest.get("sent")
    both = node.same + (rest.unmoved + rest.moved if rest else 0)
    assert both + (rest.gone_count if rest else 0) == len(one)
    assert both + (rest.new_count if rest else 0) == len(two)
    assert node.has_parted == (one != two)


def traces_of(*texts):
    return [text.lstrip() for text in texts]


def test_the_tool_shows_both_contexts_and_its_status_is_one():
    one, two = traces_of(BEFORE, BEFORE.replace("serial 43", "serial 53"))
    with scratch("one.trace", one) as first, scratch("two.trace", two) as second:
        status, out, err = run_tool("diff", first, second)
        assert (status, err) == (1, "")
        assert out == (
            "node 0: 2 rows are the same, and then\n"
            "    100 0 serial 41\n"
            "    200 0 serial 42\n"
            "  - 300 0 serial 43\n"
            "  - 400 0 serial 44\n"
            "  - 500 0 end 90 running\n"
            "  + 300 0 serial 53\n"
            "  + 400 0 serial 44\n"
            "  + 500 0 end 90 running\n"
            "  serial: 1 the same, 1 gone (43 in 300), 1 new (53 in 300)\n"
            "  end: 1 the same\n"
            "the same: node 1\n"
        )
        assert run_tool("diff", first, first)[:2] == (0, "the same: nodes 0, 1\n")
        assert run_tool("diff", "-n", "1", first, second)[0] == 0
        assert run_tool("diff", "-k", "sent", first, second)[0] == 0


@pytest.mark.parametrize(
    "words, why",
    [
        (["-n", "1,2"], "neither trace has a row of node 2"),
        (["-k", "instr"], "neither trace has a window, and instr rows stand only in a window"),
        (["-k", "enter,instr"], "neither trace has a window, and enter and instr rows stand only in a window"),
    ],
)
def test_what_neither_trace_can_have_is_refused(words, why):
    with scratch("one.trace", BEFORE.lstrip()) as path:
        assert run_tool("diff", *words, path, path) == (2, "", f"avrora-tools diff: {why}\n")
        assert run_tool("diff", "-k", "stop", path, path) == (0, "the same: neither trace has such a row\n", "")


@pytest.mark.parametrize("words", [["-", "-"], ["-k", "sorted", "A", "B"], ["A"], ["/nowhere/a", "/nowhere/b"]])
def test_bad_words_and_files_have_status_two(words):
    status, out, err = run_tool("diff", *words)
    assert (status, out) == (2, "") and err.count("\n") == 1
