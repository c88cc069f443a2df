"""What nodes write to USART0."""
import unittest

from support import DATA, run_tool

TRACE = """\
100 0 serial 48
200 1 serial 58
300 0 serial 69
400 0 serial 0D
500 0 serial 0A
600 0 serial 07
700 1 stop 0102 reserved opcode
900 0 end 1 running
"""


class Console(unittest.TestCase):
    def console(self, *words, trace=TRACE):
        status, out, err = run_tool("console", *words, stdin=trace)
        self.assertEqual((status, err), (0, ""))
        return out

    def test_lines(self):
        self.assertEqual(
            self.console(),
            "         100  0 | Hi\n         200  1 | X\n         700  1 ! stop 0102 reserved opcode\n"
            "         600  0 | \\x07\n",
        )

    def typed(self, text, *words, step=10):
        """What is shown of bytes that node 0 writes."""
        trace = "".join(f"{step * (i + 1)} 0 serial {byte:02X}\n" for i, byte in enumerate(text))
        return [line[18:] for line in self.console(*words, trace=trace).splitlines()]

    def test_empty_lines_are_shown(self):
        self.assertEqual(self.typed(b"a\n\nb\n"), ["a", "", "b"])
        self.assertEqual(self.typed(b"\r\na\r\n\r\nb"), ["", "a", "", "b"])
        self.assertEqual(self.typed(b"a\r\rb\n\rc"), ["a", "", "b", "", "c"])
        self.assertEqual(self.console(trace="7 0 serial 0A\n"), "           7  0 |\n")
        # what ends a line that silence has ended is not an empty line
        self.assertEqual(
            self.console("--idle", "5", trace="1 0 serial 41\n90 1 serial 42\n99 0 serial 0A\n").count("\n"), 2
        )

    def test_what_is_escaped_is_told_from_what_was_written(self):
        self.assertEqual(self.typed(b"\\x41 \xC3\n"), ["\\\\x41 \\xC3"])
        self.assertEqual(self.typed(b"\xC3\n"), ["\\xC3"])

    def test_spaces_at_the_end_stay(self):
        self.assertEqual(self.typed(b"a  \n"), ["a  "])

    def test_nodes(self):
        self.assertEqual(self.console("-n", "1"), "         200  1 | X\n         700  1 ! stop 0102 reserved opcode\n")

    def test_hex(self):
        self.assertEqual(self.console("--hex", "-n", "0"), "         100  0 | 48 69 0D 0A 07\n")
        long = "".join(f"{cycle} 0 serial {cycle:02X}\n" for cycle in range(18))
        self.assertEqual(
            self.console("--hex", trace=long),
            "           0  0 | 00 01 02 03 04 05 06 07 08 09 0A 0B 0C 0D 0E 0F\n" "          16  0 | 10 11\n",
        )

    def test_raw(self):
        self.assertEqual(self.console("--raw", "-n", "0"), "Hi\r\n\x07")

    def test_idle(self):
        self.assertEqual(
            self.console("--idle", "150", trace="1 0 serial 41\n151 0 serial 42\n302 1 serial 43\n303 0 serial 44\n"),
            "           1  0 | AB\n         302  1 | C\n         303  0 | D\n",
        )

    def test_seconds(self):
        self.assertEqual(self.console("--hz", "1000", "-n", "1").splitlines()[0], "    0.200000s  1 | X")

    def test_relay(self):
        out = run_tool("console", f"{DATA}/relay.trace")[1]
        self.assertEqual(
            out, "       17224  1 | relay\n       20296  2 | relay\n       23368  3 | relay\n       26440  4 | relay\n"
        )

    def test_packet(self):
        # Each sensor's readings begin at 20 and its number, and rise with each second packet.
        out = run_tool("console", f"{DATA}/packet.trace")[1]
        texts = [line.split(" | ")[1] for line in out.splitlines()]
        readings = [(21, 22), (22, 23), (22, 23), (23, 24)]
        self.assertEqual(
            texts,
            [
                f"from {sensor} packet {number}: {pair[sensor - 1]}"
                for number, pair in enumerate(readings)
                for sensor in (1, 2)
            ],
        )

    def test_no_such_node(self):
        status, out, err = run_tool("console", "-n", "9", stdin=TRACE)
        self.assertEqual((status, out, err), (2, "", "avrora-tools console: the trace has no row of these nodes\n"))

    def test_nothing_written(self):
        self.assertEqual(self.console(trace="5 0 sent 41\n"), "")
