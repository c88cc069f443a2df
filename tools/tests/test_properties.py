"""Properties over drawn traces, patterns and texts of TOML: what is written is read back, what is changed is refused or
read."""
import tomllib
import unittest

from support import needs_module
from avrora_tools import toml, traces
from avrora_tools.errors import BadInput
from avrora_tools.instructions import is_instruction, text_of
from avrora_tools.patterns import Pattern, span_of

try:
    from hypothesis import HealthCheck, given, settings
    from hypothesis import strategies as draws
except ImportError:
    given = None

NODES, LIMIT = 3, 100_000


if given:
    SETTINGS = settings(
        deadline=None, derandomize=True, database=None, max_examples=60, suppress_health_check=list(HealthCheck)
    )

    BYTES = draws.integers(0, 255).map("{:02X}".format)
    HEARD = draws.one_of(
        draws.just("0 00 0"),
        draws.tuples(BYTES, draws.integers(0, 255)).map(lambda it: f"1 {it[0]} {it[1]}"),
        BYTES.map(lambda byte: f"2 {byte} 0"),
    )
    EVENTS = draws.one_of(
        BYTES.map("serial {}".format),
        HEARD.map("heard {}".format),
        draws.integers(0x0000, 0x8FFF).map(lambda word: f"instr 0010 {text_of(word, 0x1234)}"),
    ).filter(lambda text: ".word" not in text)

    @draws.composite
    def drawn_traces(draw):
        """Lines of a whole trace: at most one row a node and a cycle, and an end row of each node."""
        places = draw(draws.sets(draws.tuples(draws.integers(0, 19_999), draws.integers(0, NODES - 1)), max_size=30))
        rows = [f"{cycle} {node} {draw(EVENTS)}" for cycle, node in sorted(places)]
        return rows + [f"{LIMIT} {node} end {draw(draws.integers(0, LIMIT))} running" for node in range(NODES)]

    def read(content):
        trace = traces.Trace([content], "t", traces.Form.WHOLE)
        return [f"{cycle} {node} {event.text}" for cycle, node, event in trace]

    class Traces(unittest.TestCase):
        @SETTINGS
        @given(drawn_traces())
        def test_read_as_written(self, rows):
            self.assertEqual(read("".join(f"{row}\n" for row in rows).encode()), rows)

        @SETTINGS
        @given(drawn_traces(), draws.data())
        def test_a_row_less(self, rows, data):
            """Without an end row it is refused; without another it is a trace."""
            at = data.draw(draws.integers(0, len(rows) - 1))
            content = "".join(f"{row}\n" for row in rows[:at] + rows[at + 1 :]).encode()
            if at >= len(rows) - NODES + 1 or " end " in rows[at]:
                if at == len(rows) - 1:  # of the last node, which has no other row perhaps
                    return
                self.assertRaises(BadInput, read, content)
            else:
                self.assertEqual(read(content), rows[:at] + rows[at + 1 :])

        @SETTINGS
        @given(drawn_traces(), draws.data())
        def test_cut_off(self, rows, data):
            """Wherever it is cut, it is refused."""
            content = "".join(f"{row}\n" for row in rows).encode()
            last = content.rindex(b"\n", 0, len(content) - 1) + 1  # of the row of the last node
            at = data.draw(draws.integers(0, last - 1))
            cut = content[:at]
            if (
                rows
                and cut.endswith(b"\n")
                and b" end " in cut
                and not any(f" {NODES - 1} " in row for row in rows[:-NODES])
            ):
                return  # as good as a trace of fewer nodes
            self.assertRaises(BadInput, read, cut)

        @SETTINGS
        @given(drawn_traces(), draws.data())
        def test_a_byte_changed(self, rows, data):
            """What is read is what stands there, or it is refused by name."""
            content = bytearray("".join(f"{row}\n" for row in rows).encode())
            content[data.draw(draws.integers(0, len(content) - 1))] = data.draw(draws.integers(0, 255))
            try:
                found = read(bytes(content))
            except BadInput as fault:
                self.assertTrue(str(fault).startswith("t"))
            else:
                self.assertEqual("".join(f"{row}\n" for row in found).encode(), bytes(content))

    class Patterns(unittest.TestCase):
        @SETTINGS
        @given(drawn_traces())
        def test_a_row_matches_itself(self, rows):
            for row, (cycle, node, event) in zip(
                rows, traces.Trace(["".join(f"{it}\n" for it in rows).encode()], "t", traces.Form.WHOLE)
            ):
                self.assertTrue(Pattern(row).matches(cycle, node, event, 0))
                for kind in ("serial", "heard", "instr", "end"):
                    self.assertEqual(Pattern(f"* * {kind} *").matches(cycle, node, event, 0), event.kind == kind)

        @SETTINGS
        @given(draws.text(alphabet="*0123456789.{},+-_ sentheardAF", max_size=24))
        def test_any_text_is_a_pattern_or_refused(self, text):
            try:
                Pattern(text)
            except ValueError as fault:
                self.assertTrue(str(fault))
            except IndexError:
                self.fail(text)

        @SETTINGS
        @given(draws.integers(0, 10**6), draws.integers(0, 10**6), draws.integers(0, 10**6))
        def test_spans(self, low, high, number):
            if low <= high:
                self.assertEqual(span_of(f"{low}..{high}").has(number), low <= number <= high)
            else:
                self.assertRaises(ValueError, span_of, f"{low}..{high}")

    class Words(unittest.TestCase):
        @SETTINGS
        @given(draws.integers(0, 0xFFFF), draws.integers(0, 0xFFFF))
        def test_instructions(self, word, second):
            text = text_of(word, second)
            self.assertEqual(is_instruction(text), not text.startswith(".word"))

    class Toml(unittest.TestCase):
        VALUES = draws.recursive(
            draws.one_of(
                draws.integers(-(2**63), 2**63 - 1),
                draws.booleans(),
                draws.text(draws.characters(blacklist_categories=["Cs", "Cc"])),
                draws.times().map(lambda it: it.replace(fold=0)),
            ),
            lambda values: draws.one_of(
                draws.lists(values, max_size=3),
                draws.dictionaries(draws.from_regex("[a-z]{1,3}", fullmatch=True), values, max_size=3),
            ),
            max_leaves=8,
        )

        @needs_module("tomlkit", "python3-tomlkit")
        @SETTINGS
        @given(draws.dictionaries(draws.from_regex("[a-z]{1,3}", fullmatch=True), VALUES, max_size=4))
        def test_version_1_0_is_read_as_ever(self, document):
            import tomlkit

            text = tomlkit.dumps(document)
            self.assertEqual(toml.loads(text), tomllib.loads(text))

        @SETTINGS
        @given(draws.text(max_size=40))
        def test_any_text(self, text):
            try:
                found = toml.loads(text)
            except toml.NotToml:
                return
            self.assertIsInstance(found, dict)

        # Lines as programs write them, and others that are nearly so.
        PARTS = draws.sampled_from(
            'a b_2 é 3 [[ ]] [[a]] [[b_2]] [ ] = " \\ # , 0 01 7 -1 1_0 ٣ 999999999999999999 1234567890123456789 true \n \t'.split(
                " "
            )
            + [" ", " = ", '"x y"', "[1, 2]", "[[1, 2], [3, 4]]", "[01]", "[1, ]", "a = 1\n", "[[b_2]]\n", 'c = "d"\n']
        )

        @settings(SETTINGS, max_examples=600)
        @given(draws.lists(PARTS, max_size=12).map("".join))
        def test_what_programs_write_is_read_as_all_is(self, text):
            found = toml.plain(text)
            if found is not None:
                self.assertEqual(repr(found), repr(tomllib.loads(text)))

        def test_what_programs_write(self):
            text = 'version = 3\nopen = [[0, 5], [7, 9]]\nwindow = [1, 2]\n\n[[node]]\nimage = "a b.hex"\n[[node]]\n'
            document = {"version": 3, "open": [[0, 5], [7, 9]], "window": [1, 2], "node": [{"image": "a b.hex"}, {}]}
            self.assertEqual(toml.plain(text), document)

else:

    class Properties(unittest.TestCase):
        @needs_module("hypothesis", "python3-hypothesis")
        def test_nothing(self):
            pass
