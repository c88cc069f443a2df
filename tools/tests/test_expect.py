"""Expectations of a trace, met and not met, each by hand."""
import os
import re
import signal
import subprocess
import sys
import unittest

from support import DATA, LONG, TOOL, TOP, data, needs_module, run_tool, scratch, wait_for
from avrora_tools import expectations
from avrora_tools.errors import BadInput

TRACE = """\
10 0 sent 72
20 0 heard 0 00 0
30 1 heard 1 72 12
40 1 serial 72
50 1 sent 65
60 1 heard 1 65 12
70 1 serial 65
80 1 stop 0102 reserved opcode
99 0 end 12 running
99 1 end 7 stopped
"""


def content(path):
    with open(path, encoding="utf-8") as file:
        return file.read().strip()


def is_gone(process):
    """Whether a process ended, also where nobody waits for it."""
    try:
        return ") Z " in content(f"/proc/{process}/stat")
    except FileNotFoundError:
        return True


def outcome(text, trace=TRACE, save=False):
    with scratch("case.expect", text) as path:
        case = expectations.read_case(path)
        return expectations.check(case, trace.encode().splitlines(keepends=True), save)


class Met(unittest.TestCase):
    def met(self, *lines, trace=TRACE):
        self.assertIsNone(outcome("\n".join(lines), trace).failure)

    def unmet(self, *lines, says, trace=TRACE):
        failure = outcome("\n".join(lines), trace).failure
        self.assertIsNotNone(failure)
        self.assertEqual(failure.split(": ", 1)[1] if "\n" not in says else failure.split("case.expect, ", 1)[1], says)

    def fails(self, *lines):
        self.assertIsNotNone(outcome("\n".join(lines)).failure)

    def refused(self, *lines, says, trace=TRACE):
        with self.assertRaises(BadInput) as refusal:
            outcome("\n".join(lines), trace)
        self.assertIn(says, str(refusal.exception))

    def test_rows_in_order(self):
        self.met("10 0 sent 72", "40 1 serial 72", "70 1 serial 65")
        self.fails("70 1 serial 65", "* 0 sent 72")
        self.fails("10 0 sent 72", "10 0 sent 72")  # a row is found once

    def test_parts(self):
        self.met("* 0 sent *", "30 1 heard 1 72 *", "..90 1 *", "80 1 stop 0102 reserved opcode")
        self.met("5..15 * sent {71,72}", "..30 1 heard 1 72 11+-1", "40.. 1 heard *")
        self.met("10..1_0 0 sent 72")
        self.fails("11.. 0 sent 72")
        self.fails("* 0 sent {71,73}")
        self.fails("30 1 heard 1 72 10+-1")
        self.met("* 1 stop 0102 {reserved,undefined} *", "* * end * stopped")
        self.fails("* 0 sent 73..7F")
        self.met("{10,20} 0 *", "20.. 0 *")
        self.met("only stop", "*", "count == 1: *", "count > 0: *")
        self.fails("only sent", "* * *", "*", "*", "*")

    def test_a_comment_ends_at_a_line_feed_alone(self):
        """What an editor shows as a comment is one, whatever other ends of lines Python knows."""
        no_row = "line 3: this row did not come:\n- * 0 serial 73\nand none of its node and kind"
        for mark in "\u2028\u2029\x85\x0b\x0c\x1c\r":
            self.met("10 0 sent 72", f"# a remark{mark}never * 0 sent *", "70 1 serial 65")
            self.unmet("# a", f"# b{mark}", "* 0 serial 73", says=no_row)

    def test_cycles_since_the_row_before(self):
        self.met("10 0 sent 72", "+20 1 heard *", "+0..10 1 serial 72", "+10+-0 1 sent *")
        self.fails("10 0 sent 72", "+0..19 1 heard *")

    def test_missing_row(self):
        self.unmet(
            "10 0 sent 72",
            "* 1 serial 73",
            says="line 2: this row did not come:\n- * 1 serial 73\nafter this one:\n"
            "  10 0 sent 72\nbut of its node and kind:\n+ 40 1 serial 72\n+ 70 1 serial 65",
        )
        self.unmet(
            "* 0 serial 73", says="line 1: this row did not come:\n- * 0 serial 73\nand none of its node and kind"
        )

    def test_next(self):
        self.met("10 0 sent 72", "next 20 0 heard *", "next 2: 50 1 sent 65")
        self.unmet(
            "10 0 sent 72",
            "next 30 1 heard *",
            says="line 2: this row was to come next, and came not:\n"
            "- 30 1 heard *\nafter this one:\n  10 0 sent 72\nbut these:\n+ 20 0 heard 0 00 0",
        )
        self.fails("10 0 sent 72", "next 2: 50 1 sent 65")

    def test_never(self):
        self.met("never * * stop *", "10 0 sent 72", "never * * stop *", "70 1 serial 65")
        self.unmet(
            "10 0 sent 72",
            "never * 1 stop *",
            "99 0 end *",
            says="line 2: this row was never to come:\n- * 1 stop *\n"
            "but it did:\n  50 1 sent 65\n  60 1 heard 1 65 12\n  70 1 serial 65\n> 80 1 stop 0102 reserved opcode\n"
            "  99 0 end 12 running\n  99 1 end 7 stopped",
        )
        self.fails("50 1 sent 65", "never * * stop *")  # to the end
        self.met("* 1 stop *", "never * * stop *")  # a row that is found is none that came between

    def test_within(self):
        self.met("within 0..79: never * * stop *", 'within 0..40: text 1 "r"', "within 41..: count == 1: * 1 serial *")
        self.fails("within 0..80: never * * stop *")
        self.fails('within 0..69: text 1 "re"')
        self.fails("within ..40: count == 2: * 1 serial *")

    def test_count(self):
        for sign, number in (("==", 2), ("!=", 3), ("<=", 2), (">=", 2), ("<", 3), (">", 1)):
            self.met(f"count {sign} {number}: * 1 serial *")
        self.unmet(
            "count == 3: * 1 serial *",
            says="line 1: == 3 rows wanted, 2 came:\n- * 1 serial *\n+ 40 1 serial 72\n+ 70 1 serial 65",
        )

    def test_text(self):
        self.met(r'text 1 "\x72e"', "text 1 're' # a comment, and 'quotes'")
        self.unmet('text 1 "er"', says="line 1: node 1 did not write:\n- 'er'\nwhat it wrote ends with:\n+ 're'")
        self.met('text 0 "#"', trace="1 0 serial 23\n2 0 end 1 running\n")

    def test_text_by_expression_and_lines(self):
        self.met(
            "text 1 matches 're?'", "text 1 matches '^re$'", "within 0..69: text 1 matches '^r$'", "text 1 lines == 0"
        )
        self.unmet(
            "text 1 matches 'r[^e]'",
            says="line 1: node 1 did not write what matches:\n- 'r[^e]'\nwhat it wrote ends with:\n+ 're'",
        )
        lines = "1 0 serial 41\n2 0 serial 0A\n3 0 serial 42\n4 0 serial 0A\n9 0 end 1 running\n"
        self.met("text 0 lines == 2", "within 0..3: text 0 lines == 1", "text 0 matches '^B$'", trace=lines)
        self.unmet("text 0 lines > 2", says="> 2 lines of node 0 wanted, 2 came", trace=lines)

    def test_all_that_is_not_met_is_told(self):
        failure = outcome(
            "10 0 sent 71\n20 0 heard *\nnever * 1 serial *\ncount == 1: * 1 serial *\ntext 1 'x'\nnext 5: * 1 sent *\n"
        ).failure
        told = [line.split(": ")[0].split(", ")[1] for line in failure.splitlines() if "case.expect" in line]
        self.assertEqual(told, ["line 1", "line 4", "line 5"])
        self.assertIn("so 2 more, expected behind it, were not looked for", failure)
        failure = outcome("10 0 sent 72\nnever * 1 serial *\nnever * * heard *\nnext 1: 50 1 sent *\n").failure
        told = [line.split(": ")[0].split(", ")[1] for line in failure.splitlines() if "case.expect" in line]
        self.assertEqual(told, ["line 3", "line 4"])  # it is missed before the row of line 2 comes

    def test_only(self):
        self.met(
            "only 1 heard serial",
            "30 1 heard *",
            "next 40 1 serial *",
            "next 60 1 heard *",
            "count == 0: * 1 heard 2 *",
        )
        self.met("only 1 heard", 'text 1 "re"')  # text looks at all that a node writes


class Golden(unittest.TestCase):
    ROWS = "10 0 sent 72\n40 1 serial 72\n50 1 sent 65\n70 1 serial 65\n"

    def case(self, folder, text):
        path = f"{folder}/golden.expect"
        with open(path, "w", encoding="utf-8") as file:
            file.write(text)
        return expectations.read_case(path)

    def check(self, case, trace=TRACE, save=False):
        return expectations.check(case, trace.encode().splitlines(keepends=True), save).failure

    def test_saved_and_compared(self):
        with scratch("x") as place:
            folder = os.path.dirname(place)
            for text, rows in (
                ("golden a.rows", self.ROWS),
                ("golden a.rows without cycles", "0 sent 72\n1 serial 72\n1 sent 65\n1 serial 65\n"),
            ):
                case = self.case(folder, f"only sent serial\n{text}\n")
                self.assertIsNone(self.check(case, save=True))
                with open(f"{folder}/a.rows", encoding="utf-8") as file:
                    self.assertEqual(file.read(), rows)
                self.assertIsNone(self.check(case))
            self.assertIsNone(self.check(case, TRACE.replace("50 1 sent", "51 1 sent")))
            self.assertIn("row 3 differs", self.check(case, TRACE.replace("50 1 sent 65", "50 1 sent 66")))

    def test_difference_in_context(self):
        with scratch("a.rows", self.ROWS) as path:
            case = self.case(os.path.dirname(path), "only sent serial\ngolden a.rows\n")
            said = self.check(case, TRACE.replace("50 1 sent 65", "55 1 sent 65")).splitlines()
            self.assertEqual(
                said[1:],
                [
                    "--- expected",
                    "+++ came",
                    " 10 0 sent 72",
                    " 40 1 serial 72",
                    "-50 1 sent 65",
                    "+55 1 sent 65",
                    " 70 1 serial 65",
                ],
            )
            said = self.check(case, TRACE.replace("70 1 serial 65\n", "")).splitlines()
            self.assertEqual(said[-2:], [" 50 1 sent 65", "-70 1 serial 65"])
            said = self.check(
                case, TRACE.replace("80 1 stop 0102 reserved opcode", "80 1 serial 41").replace("7 stopped", "7 asleep")
            ).splitlines()
            self.assertEqual(said[-2:], [" 70 1 serial 65", "+80 1 serial 41"])

    def test_every_row_counts(self):
        """Blank lines, and rows behind them, are no end of the file."""
        good = "10 0 sent 72\n50 1 sent 65\n"
        with scratch("a.rows") as path:
            case = self.case(os.path.dirname(path), "only sent\ngolden a.rows\n")
            for text, why in (
                ("10 0 sent 72\n\n50 1 sent 65\n", "a.rows, line 2: no row: "),
                (f"{good}\n", "a.rows, line 3: no row: "),
                (f"{good}hello\n", "a.rows, line 3: no row: hello"),
                (good[:-1], "a.rows, line 2: no row: 50 1 sent 65"),
                (f"{good}60 1 sent 65 \n", "line 3: no row"),
            ):
                with open(path, "w", encoding="utf-8") as file:
                    file.write(text)
                with self.subTest(text), self.assertRaises(BadInput) as refusal:
                    self.check(case)
                self.assertIn(why, str(refusal.exception))
            for text in (f"{good}9000 1 sent 65\n", "10 0 sent 72\n"):
                with open(path, "w", encoding="utf-8") as file:
                    file.write(text)
                self.assertIn("differs from", self.check(case))

    def test_saved_into_no_folder(self):
        with scratch("case.expect", "golden none/a.rows\n") as case:
            status, out, _ = run_tool("expect", "--save", "--trace", f"{DATA}/relay.trace", case)
        self.assertEqual(status, 3)
        self.assertRegex(out, "cannot write .*/none/a.rows: No such file or directory")
        self.assertNotIn("relay.trace", out)

    def test_no_file(self):
        with scratch("x") as place:
            case = self.case(os.path.dirname(place), "golden none.rows\n")
            with self.assertRaisesRegex(BadInput, "cannot read .*none.rows: .*(--save writes it)"):
                self.check(case)

    def test_not_saved_where_another_fails(self):
        with scratch("a.rows", self.ROWS) as path:
            case = self.case(os.path.dirname(path), "golden a.rows\ncount == 7: * * sent *\n")
            self.assertIn("== 7 rows wanted", self.check(case, save=True))
            with open(path, encoding="utf-8") as file:
                self.assertEqual(file.read(), self.ROWS)


class Refused(unittest.TestCase):
    def test_lines(self):
        for line, why in (
            ("10 0", "is not a row"),
            ("* * talked *", "no row has the kind talked"),
            ("1.. 0 sent x..", "x is not 2 upper-case"),
            ("count 5: * * sent *", "a count is"),
            ("text 1 two", "text is"),
            ("text 1 5", "text is"),
            ("text 1 '\u20ac'", "is not a byte"),
            ("text one 'a'", "text is"),
            ("within 1: * * sent *", "within"),
            ("golden", "golden is"),
            ("run", "after run stand 1"),
            ("node a.hex", "after node stand 2"),
            ("only talked", "talked is neither a kind"),
            ("only 64 sent", "nodes are 0 to 63"),
            ("within 0..9: golden x", "within"),
            ("count == 1: +5 0 sent *", "cycles are counted"),
            ("next", "is not a row"),
            ("run a\nrun b", "a second source"),
        ):
            with self.subTest(line), scratch("case.expect", f"{line}\n* * sent *\n") as path:
                with self.assertRaisesRegex(BadInput, f"case.expect, line [12]: .*({why})"):
                    expectations.read_case(path)

    def test_what_no_trace_can_meet(self):
        for line, why in (
            ("never * * stop", "stop: 3 parts stand behind the kind, and not 0"),
            ("count == 0: * * stop", "stop: 3 parts stand behind the kind"),
            ("never * 0 sent", "sent: 1 part stands behind the kind"),
            ("never * 0 sent aa", "sent: aa is not 2 upper-case hexadecimal digits"),
            ("never * 0 sent 0xAA", "sent: 0xAA is not 2 upper-case hexadecimal digits"),
            ("never * 0 sent 41 42", "sent: 1 part stands behind the kind, and not 2"),
            ("never * 0 sent 5A..41", "5A..41 has no number in it"),
            ("never 5..1 * sent *", "5..1 has no number in it"),
            ("never * 5..1 sent *", "5..1 has no number in it"),
            ("never * 64 sent *", "nodes are 0 to 63"),
            ("never 05 * sent *", "05 has leading zeros"),
            ("never {} * sent *", "{} is not a set"),
            ("never * * heard 0 41 *", "heard: 41 is not 00"),
            ("never * * heard 2 41 5", "heard: 5 is not 0"),
            ("never * * heard 1 41 256", "heard: 256 is not 0 to 255"),
            ("never * * heard 3 *", "heard: 3 is not 0"),
            ("never * 0 sent {41,aa}", "sent: aa is not 2 upper-case"),
            ("never * * stop * {reserved,nothing} *", "stop: nothing cannot stand there"),
            ("never * * enter 0046 *", "enter: 0046 is not 0012 to 003A"),
            ("never * * instr 006E sbis 0x0b, *", "instr: 0x0b, cannot stand there"),
            ("never * * instr 006E sbis", "instr: 4 parts stand behind the kind, and not 2"),
            ("never * * instr 006e *", "instr: 006e is not 4 upper-case"),
            ("never * * stop * reserved", "stop: 3 parts"),
            ("never * * stop 0102 .word 0xFFFF", "stop: .word cannot stand there"),
            ("never * * end * dead", "end: dead cannot stand there"),
            ("never * * {sent,heard} 41", "heard"),
            ("nevr * * stop *", "no statement is called nevr"),
            ("never * * {sent,sent} 4Z", "4Z is not 2 upper-case"),
            ("count >= 0: * * sent *", ">= 0 holds of each count"),
            ("count < 0: * * sent *", "< 0 holds of no count"),
            ("text 1 lines >= 0", ">= 0 holds of each count"),
            ("text 64 'a'", "nodes are 0 to 63"),
            ("text 1 matches 'a*'", "matches nothing at all"),
            ("text 1 matches '('", "no regular expression"),
            ("within 5..1: never * * sent *", "5..1 has no number in it"),
            ("only 0\ncount == 1: * 1 sent *", "node 1 is not among those of `only`"),
            ("only sent\nnever * * stop *", "rows stop are not among those of `only`"),
            ("only 0\nonly 1", "a second `only`"),
            ("+ 0 sent *", "a + stands before a number of cycles"),
            ("10 0 sent *\nnever + 0 sent *", "a + stands before a number of cycles"),
            ("*", "line 1: each trace has such a row"),
            ("text 0 'a'\n0.. 0..63 *", "line 2: each trace has such a row"),
            ("count > 0: *", "each trace has at least 1 such rows, so it cannot fail"),
            ("count != 0: * * *", "so it cannot fail"),
            ("only sent\nnever * * {sent,stop} *", "rows stop are not among those of `only`"),
            ("within 0..50: never 60.. * sent *", "cycles 60.. are not within 0..50"),
            ("within 0..50: count == 0: {10,60} * sent *", "cycles 60..60 are not within 0..50"),
            (
                "10 0 sent *\nnever * * stop *\nnext 20 0 heard *",
                "line 2: line 3 expects the next row, so that none can come between",
            ),
            (
                "never * 1 serial *\nnever * * stop *\nnext 2: * * serial *",
                "line 1: such a row is the one that line 3 expects",
            ),
            ("never 5.. 1 sent 41\n* {0,1} *", "line 1: such a row is the one that line 2 expects"),
            # what is the same in another spelling
            ("never * 1 serial 72\n* * serial {72,73}", "line 1: such a row is the one that line 2 expects"),
            ("never * 1 serial 72\n* * serial 60..7F", "line 1: such a row is the one that line 2 expects"),
            ("never * 1 serial 72\n+0.. * serial *", "line 1: such a row is the one that line 2 expects"),
            (
                "never * 1 serial {60..70,72}\n0.. 0..1 {serial,sent} {5F..71,72}",
                "line 1: such a row is the one that line 2",
            ),
            (
                "10 0 sent *\nnever +5..9 1 serial 72\n+..40 * serial 72",
                "line 2: such a row is the one that line 3 expects",
            ),
            (
                "never * * end 5 stopped\n* * end * {stopped,asleep}",
                "line 1: such a row is the one that line 2 expects",
            ),
            (
                "never * * instr 0000 ld r24, X+\n* * instr * {ld,st} *",
                "line 1: such a row is the one that line 2 expects",
            ),
            (
                "never * * instr * inc r1\n* * instr * inc {r0,r1,r2}",
                "line 1: such a row is the one that line 2 expects",
            ),
            # what no row has
            ("never * * enter 002A *", "enter: 002A is none of 16 from 0012 to 003A"),
            ("never * * enter 0013 *", "enter: 0013 is none of 16 from 0012 to 003A"),
            ("never * * enter {0012,0017} *", "enter: 0017 is none of 16"),
            ("never * * instr * spm", "instr: spm cannot stand there"),
            ("never * * instr * break", "instr: break cannot stand there"),
            ("never * * instr * ld r26, X+", "instr: "),
            ("never * * instr * st -Z, r31", "instr: "),
            ("never * * instr * lds r24, 0x1100", "instr: 0x1100 cannot stand there"),
            ("never * * instr * rjmp .+4096", "instr: .+4096 cannot stand there"),
            ("never * * instr * {nop,spm} *", "instr: spm cannot stand there"),
            ("never * {0,70} sent *", "nodes are 0 to 63"),
            ("never * 64..70 sent *", "nodes are 0 to 63"),
            # what each trace has, and what none has
            ("* * end *", "line 1: each trace has such a row"),
            ("* 0 * *", "line 1: each trace has such a row"),
            ("..9_999_999_999_999 {0,1} {end,sent} *", "line 1: each trace has such a row"),
            ("* 0 end * {stopped,asleep,running}", "line 1: each trace has such a row"),
            ("* 0 end 0.. {stopped,asleep,running}", "line 1: each trace has such a row"),
            ("10 0 sent *\n+0.. * end *", "line 2: each trace has such a row behind those above"),
            ("only end\n* * *", "line 2: each trace has such a row"),
            ("10 0 sent *\nnever * * end *", "line 2: each trace has such a row behind those above"),
            ("within 0..: never * 0 end *", "each trace has such a row"),
            ("99 0 end *\n* * sent *", "line 2: no such row comes behind an end row, which line 1 expects"),
            (
                "99 1 end *\n99 0 end *",
                "line 2: no such row comes behind that of line 1, as end rows come in the order of nodes",
            ),
            (
                "70 * sent *\n..69 * sent *",
                "line 2: no such row comes behind that of line 1, whose cycle is 70 at least",
            ),
            ("count >= 1: * 0 * *", "each trace has at least 1 such rows, so it cannot fail"),
            ("count == 0: * * {end,sent} *", "each trace has at least 1 such rows, so it cannot be met"),
            ("count <= 64: * * stop *", "each trace has 0 to 64 such rows, so it cannot fail"),
            ("count > 128: * * {stop,end} *", "each trace has 1 to 128 such rows, so it cannot be met"),
            ("count == 1: * 0 end *", "each trace has 1 such rows, so it cannot fail"),
            ("next *", "line 1: each trace has such a row"),
            (
                "10 0 sent *\nnext 3: 0.. * {sent,serial,heard,stop,end,instr,enter} *",
                "line 2: each trace has such a row",
            ),
            ("count <= 1: 10 0 sent *", "each trace has 0 to 1 such rows, so it cannot fail"),
            ("within 10..265: count > 1: * 0 sent *", "each trace has 0 to 1 such rows, so it cannot be met"),
            ("count < 9: 10..11 0..1 {serial,sent} *", "each trace has 0 to 6 such rows, so it cannot fail"),
            ("text 1 matches '(?=a*)'", "matches nothing at all"),
            ("text 1 matches '$'", "matches nothing at all"),
            ("text 1 matches '(?!x)'", "matches nothing at all"),
        ):
            with self.subTest(line), scratch("case.expect", f"{line}\n") as path:
                with self.assertRaises(BadInput) as refusal:
                    expectations.read_case(path)
                self.assertIn(why, str(refusal.exception))

    def test_what_this_trace_cannot_meet(self):
        for line, why in (
            ("never * 2 sent *", "line 1: the trace has no node 2, but nodes 0 to 1"),
            ("never * {0,2} sent *", "the trace has no node 2"),
            ("only 0-2\ncount == 1: * 0 sent *", "`only` names node 2, but the trace has 2 nodes"),
            ("text 2 'a'", "the trace has no node 2"),
            ("never 99.. * sent *", "the trace ends in cycle 99"),
            ("never 100 * end *", "the trace ends in cycle 99"),
            ("never 98 * end *", "the trace ends in cycle 99"),
            ("never {10,99} * sent *", "the trace ends in cycle 99"),
            ("within 99..200: never * * sent *", "the trace ends in cycle 99, and not within 99..200"),
            ("within 99..: text 0 'a'", "the trace ends in cycle 99, and not within 99.."),
            ("within 0..98: count == 0: * * end *", "the trace ends in cycle 99, and not within 0..98"),
            ("within 0..98: never * * {end,stop} *", "the trace ends in cycle 99, and not within 0..98"),
            ("never * * instr *", "line 1: the trace has no window, and instr rows stand only in a window"),
            ("never * * enter *", "the trace has no window, and enter rows"),
            ("count == 0: * * enter *", "the trace has no window"),
            ("count <= 5: * * {sent,instr} *", "the trace has no window, and instr rows"),
            ("within 0..50: never * 1 instr 006E *", "the trace has no window"),
            ("10 0 sent *\nnever +1.. * enter *", "the trace has no window"),
            ("* * instr *", "the trace has no window"),
            ("only instr sent\nnever * * sent 41", "`only` names instr: the trace has no window"),
            ("only instr\ncount == 0: * *", "`only` names instr: the trace has no window"),
            ("count == 2: * * end *", "line 1: each trace has 2 such rows, so it cannot fail"),
            ("count > 1: * * *", "line 1: each trace has at least 2 such rows, so it cannot fail"),
            ("count <= 2: * * stop *", "line 1: each trace has 0 to 2 such rows, so it cannot fail"),
            ("count < 1000: * 0 serial *", "line 1: each trace has 0 to 99 such rows, so it cannot fail"),
            ("within 90..200: count <= 18: * * serial *", "each trace has 0 to 18 such rows, so it cannot fail"),
            ("count != 3: * * sent *", "each trace has 0 to 2 such rows, so it cannot fail"),
            ("text 0 lines <= 99", "at most 99 lines can be written, so it cannot fail"),
            ("within 95..: text 0 lines != 5", "at most 4 lines can be written, so it cannot fail"),
        ):
            with self.subTest(line), self.assertRaises(BadInput) as refusal:
                outcome(line)
            self.assertIn(why, str(refusal.exception))
        for line in (
            "never 98 * sent *",
            "never * 0..9 sent 41",
            "within 99..: count == 2: * * end *",
            "99 1 end *",
            "never 81.. * *",
            "count == 2: 99 * *",
        ):
            self.assertEqual((outcome(line).failure is None), line != "never 81.. * *")

    def test_what_the_rows_about_it_leave_no_room_for(self):
        """A row that is never to come between two others is looked for in the cycles between them alone."""
        for lines, why in (
            ("10 0 sent *\nnever 51.. * stop *\n50 1 sent *", "line 2: cycles 51.. are not within 10..50"),
            ("10 0 sent *\nnever ..9 * stop *", "line 2: cycles 0..9 are not within 10..99"),
            (
                "10 0 sent *\nnever +41.. * stop *\n50 1 sent *",
                "cycles 51.. are not within 10..50, where the rows about it were found",
            ),
            ("10 0 sent *\nnever +89.. * stop *", "line 2: the trace ends in cycle 99, and not within 10..99"),
            ("never +11.. * stop *\n10 0 sent *", "line 1: cycles 11.. are not within 0..10"),
            ("never * * end *\n50 1 sent *", "line 1: the trace ends in cycle 99, and not within 0..50"),
            ("99 1 end *\nnever * * stop *", "line 2: the trace ends in cycle 99, and not within 99..99"),
            ("99 1 end *\nnever * * end *", "line 2: no such row can stand between two others"),
            ("99 1 end 7 *\nnever * 0 end 5 *", "line 2: no such row can stand between two others"),
            ("40 1 serial *\nnever 40 0 sent *", "line 2: no such row can stand between two others"),
            ("40 1 serial *\nnever 40 1 instr *", "line 2: the trace has no window"),
            (
                "10 0 sent *\nnever 10..30 0 {sent,heard} *\n30.. 1 *\nnever +5..9 1 sent 41\n+..30 1 {sent,heard} *",
                "line 4: such a row",
            ),
            (
                "10 0 sent *\nnever 20..30 1 heard 1 72 *\n+1..50 1 heard * {72,73} *",
                "line 2: such a row is the one that line 3",
            ),
        ):
            with self.subTest(lines), self.assertRaises(BadInput) as refusal:
                outcome(lines)
            self.assertIn(why, str(refusal.exception))
        for lines in (
            "10 0 sent *\nnever 50.. * stop *\n50 1 sent *",
            "10 0 sent *\nnever ..10 * stop *",
            "10 0 sent *\nnever +0..40 * stop *\n50 1 sent *",
            "never * * end 5 *\n99 1 end *",
        ):
            self.assertIsNone(outcome(lines).failure)
        # What is not met is told first: it may be why the rows stand elsewhere.
        self.assertIn(
            "== 1 rows", outcome("10 0 sent *\nnever 51.. * stop *\n50 1 sent *\ncount == 1: * * serial *").failure
        )
        self.assertIn("did not come", outcome("10 0 sent 71\nnever 5 * stop *\n50 1 sent *").failure)

    def test_what_can_fail_is_taken(self):
        """Although it looks like what cannot."""
        for lines in (
            "* * end * {stopped,asleep}",
            "* 1 end 7 *",
            "99 0 end *\n99 1 end *",
            "only 1\ncount == 5: * 1 *",
            "count == 1: * * end * stopped",
            "count == 1: * * stop *",
            "10 0 sent *\nnext 9: * * end *",
            "next * 0 *",
            "within 10..266: count <= 1: * 0 sent *",
            "count <= 1: 10 0 {sent,serial} *",
            "count == 0: * 0 stop *",
            "only sent\n* * *",
            "never * 1 serial 72..73\n* 1 serial 72",
            "never +5.. 1 serial 65\n+..49 1 serial 65",
            "never * 1 serial 65\n..40 1 serial *",
            "never * * instr * inc r1\n* * instr * inc r2",
            "text 1 matches '\\A(?!.*ERROR)'",
            "text 1 matches '\\A\\Z'",
            "text 1 matches '^(?=re)'",
        ):
            with self.subTest(lines), scratch("case.expect", lines) as path:
                expectations.read_case(path)
        for lines, is_met in (("\\A(?!.*ERROR)", True), ("\\A(?!.*re)", False), ("\\A\\Z", False)):
            self.assertEqual(outcome(f"text 1 matches '{lines}'").failure is None, is_met)

    WINDOW = "30 0 enter 001E 0081\n39 0 instr 001E nop\n40 1 sent 41\n99 0 end 12 running\n99 1 end 7 running\n"

    def test_the_window_that_rows_show(self):
        for line in (
            "never * 1 instr *",
            "count == 1: * * instr *",
            "within 39..50: never * * enter *",
            "never 30 1 enter *",
            "only instr\ncount == 1: * * *",
        ):
            self.assertIsNone(outcome(line, self.WINDOW).failure)
        for line in (
            "never 40.. * instr *",
            "within 0..29: never * * {instr,sent} *",
            "40 1 sent *\nnever * * instr *",
        ):
            with self.subTest(line), self.assertRaises(BadInput) as refusal:
                outcome(line, self.WINDOW)
            self.assertIn(
                "instr rows stand in the window alone, which the trace has in cycles 30..39", str(refusal.exception)
            )

    def test_nothing_expected(self):
        with scratch("case.expect", "run a.toml\n# only this\n") as path, self.assertRaisesRegex(
            BadInput, "the case has no expectation"
        ):
            expectations.read_case(path)


# A stand-in for the simulator: it writes the file that it is asked to run, and ends with status 4 where there is none.
SIMULATOR = f"""#!{sys.executable}
import sys
try:
    sys.stdout.write(open(sys.argv[2]).read())
except OSError:
    sys.stderr.write("avrora: no.toml: scenario refused: NoNodes\\n")
    sys.exit(4)
"""


class Command(unittest.TestCase):
    def test_trace_of_a_case(self):
        with scratch("a.expect", f"trace {DATA}/relay.trace\ntext 4 'relay'\ncount == 24: * * sent *\n") as path:
            status, out, err = run_tool("expect", path)
        self.assertEqual((status, out, err), (1, out, ""))  # 25 are sent: five bytes by five nodes
        self.assertIn("== 24 rows wanted, 25 came:", out)

    def test_a_file_that_is_no_case_does_not_stop_the_others(self):
        for jobs in ("1", "2"):
            with scratch("good.expect", "text 4 'relay'\n") as good, scratch("bad.expect", "tekst 4 'yes'\n") as bad, scratch(
                "no.expect", "only 3\n"
            ) as none:
                words = ["expect", "--jobs", jobs, "--trace", f"{DATA}/relay.trace", bad, good, none]
                status, out, err = run_tool(*words)
            self.assertEqual((status, err), (2, ""))
            self.assertRegex(
                out, rf"(?m)^not ok 1 - {re.escape(bad)}\n  ---\n  message: \|\n    {re.escape(bad)}, line 1: "
            )
            self.assertIn(f"\nok 2 - {good} # 260 rows, 1 expectations\n", out)
            self.assertIn(f"\nnot ok 3 - {none}\n  ---\n  message: |\n    {none}: the case has no expectation\n", out)

    def test_tap(self):
        with scratch("a.expect", "text 4 'relay'\ncount == 25: * * sent *\n") as good, scratch(
            "b.expect", "text 4 'yes'\n"
        ) as bad:
            status, out, _ = run_tool("expect", "--trace", "-", good, stdin=data("relay.trace"))
            self.assertEqual((status, out), (0, f"TAP version 13\n1..1\nok 1 - {good} # 260 rows, 2 expectations\n"))
            status, out, _ = run_tool("expect", "--trace", f"{DATA}/relay.trace", good, bad)
        self.assertEqual(status, 1)
        self.assertEqual(
            out,
            f"TAP version 13\n1..2\nok 1 - {good} # 260 rows, 2 expectations\nnot ok 2 - {bad}\n  ---\n  message: |\n"
            f"    {bad}, line 1: node 4 did not write:\n    - 'yes'\n    what it wrote ends with:\n    + 'relay'\n  "
            "...\n",
        )

    def test_run(self):
        with scratch("avrora", SIMULATOR) as avrora, scratch("a.expect", "run net\ntext 4 'relay'\n") as case:
            os.chmod(avrora, 0o755)
            with open(f"{os.path.dirname(case)}/net", "w", encoding="utf-8") as file:
                file.write(data("relay.trace"))
            self.assertEqual(run_tool("expect", case, env={"AVRORA": avrora, "AVRORA_PROGRAM": avrora})[0], 0)
            os.unlink(f"{os.path.dirname(case)}/net")
            status, out, _ = run_tool("expect", "--avrora", avrora, case)
        self.assertEqual(status, 2)
        self.assertIn("avrora run net: status 4: avrora: no.toml: scenario refused: NoNodes", out)

    def test_the_window_of_a_run(self):
        """A scenario tells its window, also where no instruction was executed in it; `node` has the first 20,000
        cycles."""
        trace = "5 0 sent 41\n30000 0 end 12 asleep\n"
        scenario = 'cycles = 30_000\n{}[[node]]\nimage = "a.hex"\n'
        simulator = f"#!{sys.executable}\nprint({trace!r}, end='')\n"
        refusal = "the trace has no window, and instr rows stand only in a window"
        for text, case, status, says in (
            ("", "run net.toml\nnever * * instr *", 2, f"line 2: {refusal}"),
            ("window = [7, 7]\n", "run net.toml\nnever * * instr *", 2, refusal),
            ("window = [10, 20]\n", "run net.toml\nnever * * instr *", 0, "ok 1"),
            ("window = [10, 20]\n", "run net.toml\nonly instr\nwithin 15..: count == 0: * * *", 0, "ok 1"),
            (
                "window = [10, 20]\n",
                "run net.toml\nwithin 20..: never * * instr *",
                2,
                "in cycles 10..19, and not within 20..",
            ),
            ("", "node a.hex 30000\nnever 19999 * instr *", 0, "ok 1"),
            ("", "node a.hex 30000\nnever 20000.. * instr *", 2, "in cycles 0..19999"),
            ("no scenario", "run net.toml\nnever * * instr *", 2, refusal),  # what it runs, the simulator says
        ):
            with self.subTest(case), scratch("avrora", simulator) as avrora, scratch("a.expect", case) as path:
                os.chmod(avrora, 0o755)
                with open(f"{os.path.dirname(path)}/net.toml", "w", encoding="utf-8") as file:
                    file.write(text if text == "no scenario" else scenario.format(text))
                ended, out, _ = run_tool("expect", "--avrora", avrora, path)
                self.assertEqual(ended, status, out)
                self.assertIn(says, out)

    def test_a_run_that_fails_late(self):
        """A golden trace is not renewed by it, and its status goes before rows that did not come."""
        late = f"#!/bin/sh\nhead -n 100 {DATA}/relay.trace\necho 'avrora: out of memory' >&2\nexit 6\n"
        for case_text in ("golden a.rows\n", "text 4 'relay'\n"):
            with scratch("avrora", late) as avrora, scratch("a.expect", f"run net\n{case_text}") as case:
                os.chmod(avrora, 0o755)
                status, out, _ = run_tool("expect", "--save", "--avrora", avrora, case)
                self.assertEqual(status, 3)
                self.assertIn("avrora run net: status 6: avrora: out of memory", out)
                self.assertEqual(os.listdir(os.path.dirname(case)), ["a.expect"])

    def test_a_run_that_goes_on(self):
        """It is ended where it takes too long, which is not an answer of the check."""
        for goes_on in ("exec sleep 1000", "sleep 1000", "sleep 1000 & wait"):  # itself, or what it starts
            endless = f"#!/bin/sh\nhead -n 100 {DATA}/relay.trace\n{goes_on}\n"
            with scratch("avrora", endless) as avrora, scratch("a.expect", "run net\nnever * * enter *\n") as case:
                os.chmod(avrora, 0o755)
                for jobs in ("1", "2"):
                    status, out, _ = run_tool("expect", "--timeout", "1", "--jobs", jobs, "--avrora", avrora, case)
                    self.assertEqual(status, 3)
                    self.assertIn("a.expect: it took more than 1 seconds", out)

    def test_an_interrupt_ends_what_runs(self):
        """SIGINT to the tool alone, once it reads: the run, which tells its number then, is not of the terminal's
        group."""
        rows = "seq 20000 | sed 's/$/ 0 serial 41/'"  # more than a pipe holds
        with scratch("pid") as number, scratch("a.expect", "run net\nnever * * enter *\n") as case:
            with scratch("avrora", f"#!/bin/sh\n{rows}\nsleep 1000 &\necho $! >{number}\nwait\n") as avrora:
                os.chmod(avrora, 0o755)
                for jobs in ("1", "2"):
                    open(number, "w").close()
                    tool = subprocess.Popen(
                        [*TOOL, "expect", "--jobs", jobs, "--avrora", avrora, case], stdout=subprocess.DEVNULL
                    )
                    run = int(wait_for(lambda: content(number)))
                    tool.send_signal(signal.SIGINT)
                    self.assertEqual(tool.wait(LONG), 128 + signal.SIGINT)
                    wait_for(lambda: is_gone(run))

    def test_what_is_no_trace(self):
        with scratch("a.expect", "text 4 'relay'\n") as case:
            whole = data("relay.trace")
            cut = whole[: whole.index("90000 0 end")]
            for trace, why in (
                ("", "an empty trace"),
                ("hello\n", "no row"),
                (whole[:-5], "cut off"),
                (cut, "no end row"),
            ):
                status, out, _ = run_tool("expect", "--trace", "-", case, stdin=trace)
                self.assertEqual(status, 2)
                self.assertIn("not ok 1", out)
                self.assertIn(why, out)
            status, _, err = run_tool("expect", "--trace", "-", case, case)
            self.assertEqual((status, err), (2, "avrora-tools expect: --trace - is read once, so it serves one case\n"))
            status, out, _ = run_tool("expect", case)
            self.assertEqual(status, 2)
            self.assertIn("no run, node or trace", out)

    def test_no_simulator(self):
        with scratch("a.expect", "run a.toml\n* * sent *\n") as case:
            status, out, _ = run_tool("expect", "--avrora", "/nowhere/avrora", case)
        self.assertEqual(status, 3)
        self.assertIn("cannot run /nowhere/avrora: No such file or directory", out)

    def test_cases_of_the_examples(self):
        for name in ("relay", "flood"):
            status, out, _ = run_tool("expect", "--trace", f"{DATA}/{name}.trace", f"{TOP}/examples/{name}.expect")
            self.assertEqual((status, out.splitlines()[2][:4]), (0, "ok 1"))

    def test_a_name_that_would_excuse_a_failure(self):
        """`not ok 1 - a # TODO` is not a failure to who reads TAP."""
        for name in ("a # TODO.expect", "a #skip.expect", "a \\# TODO.expect"):
            with scratch(name, "text 4 'yes'\n") as case:
                status, out, _ = run_tool("expect", "--trace", f"{DATA}/relay.trace", case)
            self.assertEqual(status, 1)
            self.assertTrue(out.splitlines()[2].endswith(name.replace("#", r"\x23")), out)
            self.assertNotIn("#", out.splitlines()[2])

    def test_jobs(self):
        """The reports come in the order of the cases."""
        with scratch("a.expect", "text 4 'relay'\n") as good, scratch("b.expect", "text 4 'yes'\n") as bad:
            status, out, _ = run_tool("expect", "--jobs", "4", "--trace", f"{DATA}/relay.trace", *[bad, good] * 4)
        self.assertEqual(status, 1)
        told = [line.split(" - ")[0] for line in out.splitlines() if "ok " in line]
        self.assertEqual(told, [f"{'not ok' if number % 2 else 'ok'} {number}" for number in range(1, 9)])

    @needs_module("junit_xml", "python3-junit.xml")
    def test_junit(self):
        import xml.etree.ElementTree as tree

        with scratch("a.expect", "text 4 'relay'\n") as good, scratch("b.expect", "text 4 '<&>'\n") as bad, scratch(
            "out.xml"
        ) as report:
            odd = f"{os.path.dirname(bad)}/odd.expect"
            with open(odd, "w", encoding="utf-8") as file:
                file.write("text 9 'a'\n")
            status, _, _ = run_tool("expect", "--trace", f"{DATA}/relay.trace", "--junit", report, good, bad, odd)
            self.assertEqual(status, 2)
            suite = tree.parse(report).getroot().find("testsuite")
            self.assertEqual((suite.get("tests"), suite.get("failures"), suite.get("errors")), ("3", "1", "1"))
            (error,) = suite.iter("error")
            self.assertIn("the trace has no node 9", error.get("message"))
            (failed,) = suite.iter("failure")
            self.assertIn("did not write", failed.get("message"))
            self.assertIn("- '<&>'", failed.text)
