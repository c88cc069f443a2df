"""Traces whose front, or a part of whose window, is missing; by hand, and over all fronts of real ones."""
import unittest

import pytest

from avrora_tools import expectations, traces
from avrora_tools.errors import BadInput
from avrora_tools.wholeness import Lacking
from support import DATA, data, run_tool, scratch

END = "9000 0 end 9 running\n9000 1 end 9 running\n"


def read(text, window=None):
    """Reads a trace that may be a part of one; what is said of it, or None."""
    blocks = [text.encode()]
    try:
        for _ in traces.Trace(blocks, "t", traces.Form.WHOLE, least_gap=256, lacking=Lacking(window)):
            pass
    except BadInput as fault:
        return str(fault)
    return None


def rows(*texts):
    return "".join(f"{text}\n" for text in texts) + END


@pytest.mark.parametrize(
    "texts, window, why",
    [
        # an instruction takes at most four cycles, an entry eight, a sleep any
        (("10 0 instr 0000 ret", "14 0 instr 0001 nop"), None, None),
        (
            ("10 0 instr 0000 ret", "15 0 instr 0001 nop"),
            None,
            "line 2: rows are missing: node 0 executed something between",
        ),
        (("10 0 enter 001E 0001", "18 0 instr 001E nop"), None, None),
        (("10 0 enter 001E 0001", "19 0 instr 001E nop"), None, "line 2: rows are missing: node 0"),
        (("10 0 instr 0000 sleep", "900 0 enter 001E 0001"), None, None),
        # the first row of a node that does not sleep comes at once
        (("10 0 instr 0000 nop", "11 0 instr 0001 sleep", "17 1 instr 0000 sleep"), None, None),
        (
            ("10 0 instr 0000 nop", "11 0 instr 0001 sleep", "18 1 instr 0000 sleep"),
            None,
            "line 3: rows are missing: node 1",
        ),
        (("10 0 instr 0000 nop", "11 0 instr 0001 sleep", "18 1 enter 001E 0001"), None, None),
        (
            ("10 0 instr 0000 sleep",),
            (2, 20),
            "line 1: rows are missing: node 0 executed something between cycle 2 and this",
        ),
        (("10 0 instr 0000 sleep",), (3, 20), None),
        # a window goes on to its end, and a stop ends it for a node
        (("10 0 instr 0000 nop",), (5, 14), None),
        (
            ("10 0 instr 0000 nop",),
            (5, 15),
            "t: rows are missing: the window goes on to cycle 15, and the rows of node 0 end",
        ),
        (("10 0 instr 0000 nop", "11 0 stop 0001 break"), (5, 90), None),
        (("90 0 stop 0001 break",), (5, 20), None),
        # at reset each node executes something
        (("0 0 instr 0000 sleep", "0 1 instr 0000 sleep"), (0, 5), None),
        (("0 0 instr 0000 sleep",), (0, 5), "t: rows are missing: node 1 has no row of its first instruction"),
        # a byte that is heard was sent by another node, 16 cycles an age before and at least one more
        (("100 0 sent 72", "101 1 heard 1 72 0"), None, None),
        (("100 0 heard 1 72 0",), None, "line 1: rows are missing: it hears 72, and no other node sent that before"),
        (("100 1 sent 72", "300 1 heard 1 72 0"), None, "it hears 72, and no other node"),
        (("100 0 sent 73", "300 1 heard 1 72 0"), None, "it hears 72, and no other node"),
        (("100 0 sent 72", "292 1 heard 1 72 12"), None, "it hears 72, and no other node"),
        (("100 0 sent 72", "293 1 heard 1 72 12"), None, None),
        (("100 0 sent 72", "8000 0 sent 11", "8293 1 heard 1 72 12"), None, None),
        (("100 0 heard 0 00 0",), None, None),
        (("100 0 sent 72", "300 1 heard 2 73 0"), None, "it hears more than one byte, and no two other nodes"),
    ],
)
def test_what_is_missing(texts, window, why):
    text = rows(*texts).replace(
        "90 0 stop 0001 break\n9000 0 end 9 running", "90 0 stop 0001 break\n9000 0 end 9 stopped"
    )
    text = text.replace("11 0 stop 0001 break\n9000 0 end 9 running", "11 0 stop 0001 break\n9000 0 end 9 stopped")
    said = read(text, window)
    assert said is None if why is None else why in (said or "")


def test_a_clash_of_two_others():
    text = "100 0 sent 72\n100 1 sent 01\n300 2 heard 2 73 0\n" + END + "9000 2 end 9 running\n"
    assert read(text) is None


@pytest.mark.parametrize("name", ["flood", "relay", "packet"])
def test_whole_traces_lack_nothing(name):
    with scratch("one.expect", "count >= 1: * * heard *\n") as case:
        assert run_tool("expect", "--trace", f"{DATA}/{name}.trace", case)[0] == 0
    status, _, err = run_tool("links", f"{DATA}/{name}.toml", f"{DATA}/{name}.trace")
    assert (status, err) == (0, "")


def tail(name, count):
    return "".join(data(f"{name}.trace").splitlines(keepends=True)[-count:])


@pytest.mark.parametrize("name, count", [("flood", 80), ("flood", 456), ("packet", 66), ("relay", 115)])
def test_a_trace_without_its_front_is_no_whole_one(name, count):
    with scratch("one.expect", "count >= 1: * * heard *\n") as case, scratch("t.trace", tail(name, count)) as trace:
        status, out, _ = run_tool("expect", "--trace", trace, case)
        assert status == 2 and "rows are missing: " in out
        assert run_tool("links", f"{DATA}/{name}.toml", trace)[0] in (1, 2)


def test_links_tells_where_no_row_shows_that_the_front_is_missing():
    """These last rows are those of a run whose nodes slept through the window, too."""
    with scratch("t.trace", tail("relay", 59)) as trace:
        status, _, err = run_tool("links", f"{DATA}/relay.toml", trace)
    assert (
        status == 0
        and "no row of the window [3130, 3165] and none before it: all nodes sleep through it, or the trace " in err
    )


def test_links_tells_that_a_trace_may_be_that_of_resume():
    lines = data("packet.trace").splitlines(keepends=True)
    first = next(i for i, line in enumerate(lines) if int(line.split()[0]) >= 262_144)
    quiet = [line for line in lines[first:] if line.split()[2] in ("serial", "end") or " heard 0 " in line]
    with scratch("t.trace", "".join(quiet)) as trace:
        _, _, err = run_tool("links", f"{DATA}/packet.toml", trace)
    assert "if `avrora resume` wrote it, name the state (--state)" in err


class Stored(unittest.TestCase):
    def test_a_case_that_names_a_trace_looks_for_its_front(self):
        with scratch("c.expect", "trace t.trace\ncount >= 1: * * heard *\n") as case:
            with open(case.replace("c.expect", "t.trace"), "w", encoding="ascii") as file:
                file.write(tail("flood", 80))
            with self.assertRaisesRegex(BadInput, "rows are missing"):
                expectations.run_case(expectations.read_case(case), "")
