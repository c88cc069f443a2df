"""The reader of traces: which rows are those of a trace, of each form; what a trace is refused for; mutants of the
reader."""
import gzip
import unittest

from support import DATA, data, run_tool, scratch
from avrora_tools import traces
from avrora_tools.errors import BadInput
from avrora_tools.events import Enter, Heard, Instr
from avrora_tools.scenarios import Scenario
from avrora_tools.states import State
from avrora_tools.traces import Form, Trace

# Each kind of row once.
ALL_KINDS = """\
1 0 instr 006E sbis 0x0B, 5
7 0 enter 001E 0081
7 0 serial 68
7 1 sent 7F
8 2 heard 1 FF 255
9 0 stop 0102 reserved opcode
100 0 end 42 stopped
100 1 end 42 running
100 2 end 42 asleep
"""


def trace_of(text, form=Form.WHOLE, **options):
    content = text if isinstance(text, bytes) else text.encode("latin-1")
    return Trace([content], "t", form, **options)


def lines(text, form=Form.WHOLE, **options):
    """The rows of a trace as lines."""
    return [f"{cycle} {node} {event.text}" for cycle, node, event in trace_of(text, form, **options)]


def scenario_of(nodes=2, **keys):
    keys = {"version": 3, "cycles": 100, "byte_time": 256} | keys
    text = "".join(f"{key} = {value}\n" for key, value in keys.items())
    return Scenario.of_text(text + '[[node]]\nimage = "a.hex"\n' * nodes, "net.toml")


class Refusals(unittest.TestCase):
    def refused(self, text, why, form=Form.WHOLE, **options):
        with self.assertRaisesRegex(BadInput, why):
            lines(text, form, **options)


class Rows(Refusals):
    def test_each_kind(self):
        self.assertEqual(lines(ALL_KINDS), ALL_KINDS.splitlines())

    def test_what_events_tell(self):
        events = [event for _, _, event in trace_of(ALL_KINDS)]
        instr, enter, serial, sent, heard, stop, end, *_ = events
        self.assertIsInstance(instr, Instr)
        self.assertEqual((instr.address, instr.instruction), (0x6E, "sbis 0x0B, 5"))
        self.assertIsInstance(enter, Enter)
        self.assertEqual((enter.vector, enter.back), (0x1E, 0x81))
        self.assertEqual((serial.byte, sent.byte), (0x68, 0x7F))
        self.assertIsInstance(heard, Heard)
        self.assertEqual((heard.status, heard.byte, heard.age), (1, 0xFF, 255))
        self.assertEqual((stop.address, stop.cause), (0x102, "reserved opcode"))
        self.assertEqual((end.instructions, end.state), (42, "stopped"))

    def test_what_is_no_row(self):
        for line in (
            "",
            " ",
            "2 0",
            "2 0 sent",
            "2 0 sent 7",
            "2 0 sent 7f",
            "2 0 sent 7F ",
            "2  0 sent 7F",
            " 2 0 sent 7F",
            "2 0 sent 7F\r",
            "x 0 sent 7F",
            "-2 0 sent 7F",
            "+2 0 sent 7F",
            "2_0 0 sent 7F",
            "02 0 sent 7F",
            "2 00 sent 7F",
            "2 64 sent 7F",
            "2 0 heard 3 00 0",
            "2 0 heard 1 00",
            "2 0 heard 1 00 00",
            "2 0 heard 1 00 256",
            "2 0 heard 1 00 999",
            "2 0 heard 0 00 1",
            "2 0 heard 0 41 0",
            "2 0 heard 2 41 1",
            "2 0 end 5 dead",
            "2 0 instr 6E nop",
            "2 0 instr 006E nopp",
            "2 0 instr 006E ldi r15, 0x00",
            "2 0 instr 006E .word 0xFFFF",
            "2 0 enter 001E",
            "2 0 enter 001F 0081",
            "2 0 enter 0000 0081",
            "2 0 enter 0046 0081",
            "2 0 enter 001E 008a",
            "2 0 serial 7f",
            "2 0 heard 1 7f 0",
            "2 0 heard 2 7f 0",
            "2 0 instr 006e nop",
            "2 0 stop 010a break",
            f"2 0 end {2**40 + 1} running",
            "2 0 end 01 running",
            f"{'9' * 5000} 0 sent 7F",
            f"2 {'9' * 5000} sent 7F",
            "2 0 stop 0102 .word 0xFFFF",
            "2 0 sent \xe9\xe9",
            "2 0 sent 7F\v3 0 sent 7F",
            f"{2**40 + 1} 0 sent 7F",
            "ok 5 nodes, 4 links, 90000 cycles",
        ):
            with self.subTest(line):
                self.refused(f"1 0 serial 7F\n{line}\n", "^t, line 2: no row of a trace: ", Form.ROWS)

    def test_a_first_line_without_a_cycle(self):
        self.refused(" 0 sent 7F\n", "^t, line 1: no row of a trace: ", Form.ROWS)

    def test_a_later_kind_is_named(self):
        self.refused("1 0 slept 7F\n", "^t, line 1: no row has the kind slept: ")

    def test_greatest_values(self):
        """The bounds themselves are rows: each is a mutant of the reader that allows one less."""
        text = f"0 63 heard 1 FF 255\n5 0 enter 0002 FFFF\n5 1 enter 0044 FFFF\n{2**40 - 1} 63 sent FF\n"
        self.assertEqual(lines(text, Form.ROWS), text.splitlines())
        text = "".join(f"{2**40} {node} end {2**40} running\n" for node in range(64))
        self.assertEqual(lines(text), text.splitlines())

    def test_a_line_without_end(self):
        for name in ("console", "profile"):
            status, out, err = run_tool(name, "/dev/zero")
            self.assertEqual((status, out), (2, ""))
            self.assertIn("line 1: no row of a trace: ", err)

    def test_blocks(self):
        """Rows are the same wherever blocks end."""
        content = ALL_KINDS.encode()
        for size in (1, 2, 7, 64):
            blocks = [content[at : at + size] for at in range(0, len(content), size)]
            rows = [f"{cycle} {node} {event.text}" for cycle, node, event in Trace(blocks, "t", Form.WHOLE)]
            self.assertEqual(rows, ALL_KINDS.splitlines())


class Order(Refusals):
    def test_cycles_that_fall(self):
        self.refused("5 0 sent 7F\n4 1 sent 7F\n", "t, line 2: cycle 4 stands behind cycle 5")

    def test_nodes_of_a_cycle(self):
        self.refused("5 1 sent 7F\n5 0 sent 7F\n", "t, line 2: node 0 stands behind node 1 in cycle 5")

    def test_rows_of_a_node_and_a_cycle(self):
        good = "5 0 instr 0000 nop\n5 0 serial 41\n5 0 sent 7F\n5 0 heard 0 00 0\n"
        self.assertEqual(lines(good, Form.ROWS), good.splitlines())
        rows = good.splitlines(keepends=True)
        for first in range(4):
            for second in range(first + 1):
                self.refused(
                    rows[first] + rows[second], "t, line 2: a node's rows of cycle 5 are out of order", Form.ROWS
                )
        self.refused("5 0 instr 0000 nop\n5 0 enter 001E 0001\n", "out of order", Form.ROWS)
        self.refused("5 0 instr 0000 nop\n5 0 stop 0000 break\n", "out of order", Form.ROWS)

    def test_a_window(self):
        text = "0 0 instr 0000 nop\n{} 0 instr 0001 nop\n"
        self.assertEqual(len(lines(text.format(19_999), Form.ROWS)), 2)
        self.refused(text.format(20_000), "t, line 2: more than 20,000 cycles from the first to the last", Form.ROWS)

    def test_sends(self):
        text = "1000 0 sent 41\n{} 0 sent 42\n"
        self.assertEqual(len(lines(text.format(1256), Form.ROWS)), 2)
        self.refused(text.format(1255), "t, line 2: node 0 sent less than 256 cycles before", Form.ROWS)
        scenario = scenario_of(cycles=9000, byte_time=3072)
        self.assertEqual(len(lines(text.format(4072), Form.ROWS, scenario=scenario)), 2)
        self.refused(text.format(4071), "less than 3072 cycles", Form.ROWS, scenario=scenario)

    def test_behind_a_stop(self):
        self.refused("5 0 stop 0000 break\n5 0 serial 41\n", "t, line 2: node 0 stopped before", Form.ROWS)
        self.refused("5 0 stop 0000 break\n6 0 stop 0000 break\n", "t, line 2: node 0 stopped before", Form.ROWS)
        self.refused(
            "4 0 serial 41\n5 0 stop 0000 break\n6 0 serial 41\n", "t, line 3: node 0 stopped before", Form.ROWS
        )
        self.assertEqual(len(lines("5 0 stop 0000 break\n6 1 sent 41\n", Form.ROWS)), 2)


class Ends(Refusals):
    def test_empty(self):
        for form in Form:
            self.refused("", "t: an empty trace", form)

    def test_cut_off(self):
        for form in Form:
            self.refused("5 0 sent 7F\n6 0 sent 7", "t, line 2: the trace is cut off in this line", form)

    def test_rows_of_a_cut_trace_are_told_before(self):
        with scratch("cut.trace", "5 0 serial 41\n6 0 serial 4") as path:
            status, out, err = run_tool("console", path)
        self.assertEqual((status, out), (2, "           5  0 | A\n"))
        self.assertEqual(err, f"avrora-tools console: {path}, line 2: the trace is cut off in this line\n")

    def test_each_node_has_one(self):
        self.refused("5 0 sent 7F\n", "t: no end row of node 0: the trace is cut off")
        self.refused("5 1 sent 7F\n9 0 end 1 running\n", "t: no end row of node 1, which has other rows")
        self.refused("5 0 sent 7F\n9 1 end 1 running\n", "t, line 2: no end row of node 0 stands before")
        self.refused("9 0 end 1 running\n9 2 end 1 running\n", "t, line 2: no end row of node 1 stands before")
        self.refused("9 0 end 1 running\n9 0 end 1 running\n", "t, line 2: the end row of node 0 stands before")

    def test_nothing_stands_behind(self):
        self.refused("9 0 end 1 running\n9 1 sent 41\n", "t, line 2: a row behind an end row")
        self.refused("8 1 sent 41\n9 0 end 1 running\n9 1 sent 41\n", "t, line 3: a row behind an end row")
        self.refused("9 0 end 1 running\n10 1 end 1 running\n", "t, line 2: an end row of another cycle than 9")
        self.refused("9 0 end 1 running\n10 0 sent 41\n", "t, line 2: the end row of node 0 stands before")
        self.refused("9 0 sent 41\n9 0 end 1 running\n", "out of order")

    def test_states(self):
        self.refused("5 0 stop 0000 break\n9 0 end 1 running\n", "t, line 2: node 0 stopped before")
        self.refused("9 0 end 1 stopped\n", "t, line 1: node 0 did not stop before")
        self.assertEqual(len(lines("9 0 end 1 stopped\n", Form.ENDED)), 1)  # it stopped before the state
        self.refused("9 0 end 10 running\n", "more instructions than cycles")
        self.assertEqual(len(lines("9 0 end 9 running\n")), 1)

    def test_forms(self):
        rows = "5 0 sent 7F\n"
        self.assertEqual(lines(rows, Form.ROWS), ["5 0 sent 7F"])
        self.assertEqual(lines(rows, Form.HEAD, epochs=1), ["5 0 sent 7F"])
        self.refused(rows, "no end row", Form.ENDED)
        self.refused(f"{rows}9 0 end 1 running\n", "an end row, which what `head` writes does not have", Form.HEAD)
        self.assertEqual(len(lines("262143 0 sent 41\n", Form.HEAD, epochs=1)), 1)
        self.refused("262144 0 sent 41\n", "t, line 1: a row behind the limit of 262,144 cycles", Form.HEAD, epochs=1)


class AgainstAScenario(Refusals):
    END = "100 0 end 1 running\n100 1 end 1 running\n"

    def test_its_trace(self):
        self.assertEqual(len(lines(f"99 1 sent 41\n{self.END}", scenario=scenario_of())), 3)

    def test_nodes(self):
        self.refused(
            f"5 2 sent 41\n{self.END}",
            "line 1: the scenario has 2 nodes, so it is not its trace",
            scenario=scenario_of(),
        )
        self.refused(self.END, "no end row of node 2", scenario=scenario_of(3))
        self.refused(f"{self.END}100 2 end 1 running\n", "the scenario has 2 nodes", scenario=scenario_of())

    def test_the_limit(self):
        scenario = scenario_of(cycles=90_000)
        self.refused(self.END, "it ends in cycle 100, and the scenario in cycle 90,000", scenario=scenario)
        far = "30000 0 end 1 running\n30000 1 end 1 running\n"
        self.refused(f"5 0 sent 41\n{far}", "it ends in cycle 30,000", Form.ENDED, scenario=scenario)
        self.assertEqual(len(lines(self.END, Form.ENDED, scenario=scenario)), 2)  # as of a window
        self.refused("100 0 sent 41\n", "a row behind the limit of 100 cycles", Form.ROWS, scenario=scenario_of())
        rows = "499 0 serial 41\n500 0 serial 42\n"  # both cycles have as many digits
        self.refused(rows, "line 2: a row behind the limit of 500 cycles", Form.ROWS, scenario=scenario_of(cycles=500))

    def test_the_window(self):
        scenario = scenario_of(cycles=90_000, window=[10, 20])
        end = "90000 0 end 1 running\n90000 1 end 1 running\n"
        for form in (Form.WHOLE, Form.ENDED):
            self.assertEqual(len(lines(f"10 0 instr 0000 nop\n19 0 instr 0000 nop\n{end}", form, scenario=scenario)), 4)
            self.refused(f"9 0 instr 0000 nop\n{end}", "window", form, scenario=scenario)
            self.refused(f"20 0 instr 0000 nop\n{end}", "window", form, scenario=scenario)


def state_of(*nodes, cycle=262_144, sends=()):
    """A state whose nodes did nothing but, where it is true, stop."""
    texts = [f"avrora state 1\ncycle {cycle}"]
    for number, stopped in enumerate(nodes):
        core = ["0"] * 41
        core[39] = "4" if stopped else "0"
        texts += [f"core {number} {' '.join(core)}", f"timers {number} {' '.join('0' * 38)}"]
        texts += [f"ports {number} {' '.join('0' * 29)}", f"io {number} {'0' * 448}", f"sram {number} {'0' * 8192}"]
    return State.of_text("\n".join([*texts, *sends, "end", ""]), "s")


class AgainstAState(Refusals):
    END = "300000 0 end 1 running\n300000 1 end 1 {}\n"

    def test_rows_from_its_cycle_on(self):
        state = state_of(False, False)
        end = self.END.format("running")
        self.assertEqual(len(lines(f"262144 0 sent 41\n{end}", Form.ENDED, state=state)), 3)
        self.refused(
            f"262143 0 sent 41\n{end}",
            "line 1: a row before cycle 262,144, of which the state is",
            Form.ENDED,
            state=state,
        )
        self.refused(f"262144 2 sent 41\n{end}", "the state has 2 nodes", Form.ENDED, state=state)
        self.refused(end, "no end row of node 2", Form.ENDED, state=state_of(False, False, False))

    def test_what_stopped_before(self):
        state = state_of(False, True)
        self.assertEqual(len(lines(self.END.format("stopped"), Form.ENDED, state=state)), 2)
        self.refused(self.END.format("running"), "node 1 stopped before", Form.ENDED, state=state)
        self.refused(
            f"262145 1 sent 41\n{self.END.format('stopped')}", "node 1 stopped before", Form.ENDED, state=state
        )
        self.refused(self.END.format("stopped"), "node 1 did not stop before", Form.ENDED, state=state_of(False, False))


class Files(unittest.TestCase):
    def test_stored_traces(self):
        self.assertEqual(len(lines(data("relay.trace"))), 260)
        self.assertEqual(len(lines(data("flood.trace"))), 644)

    def test_packed(self):
        with scratch("relay.trace.gz", gzip.compress(data("relay.trace").encode())) as path:
            rows = [f"{cycle} {node} {event.text}" for cycle, node, event in traces.read(path, Form.WHOLE)]
        self.assertEqual(rows, data("relay.trace").splitlines())

    def test_packed_and_broken(self):
        """Whatever byte is changed: what is unpacked is the whole trace, or the file is refused."""
        whole = gzip.compress(data("relay.trace").encode(), mtime=0)
        rows = data("relay.trace").splitlines()
        changed = [whole[:at] + bytes([whole[at] ^ 0x55]) + whole[at + 1 :] for at in range(len(whole))]
        with scratch("relay.trace.gz") as path:
            for content in [*changed, whole[:-20], b"\x1f\x8b no gzip", whole + b"x"]:
                with open(path, "wb") as file:
                    file.write(content)
                try:
                    came = [f"{cycle} {node} {event.text}" for cycle, node, event in traces.read(path, Form.WHOLE)]
                except BadInput:
                    continue
                self.assertEqual(came, rows)

    def test_a_broken_one_ends_a_tool(self):
        with scratch("relay.trace.gz", gzip.compress(data("relay.trace").encode())[:-20]) as path:
            status, _, err = run_tool("console", path)
        self.assertEqual(status, 2)
        self.assertIn("avrora-tools console: cannot read", err)
        self.assertEqual(err.count("\n"), 1)

    def test_rows_as_words(self):
        row = next(traces.rows(f"{DATA}/relay.trace"))
        self.assertEqual(row, (3136, 0, "enter", "001E 0104"))
