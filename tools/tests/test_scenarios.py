"""Scenarios: causes, lines and places of faults; what is on the air."""
import sys
import unittest

from support import TOP, run_tool, scratch
from avrora_tools import scenarios
from avrora_tools.errors import BadInput

sys.path.append(f"{TOP}/bench/scenario")
import cases
from avrora_tools.scenarios import Air, Link, Scenario, answer


class Causes(unittest.TestCase):
    """The cause is that of bench/scenario/cases.py, which reads the rules a second time."""

    def test_stored_texts(self):
        known = cases.Cases()
        for group in (
            cases.alone,
            cases.strangers,
            cases.pairs,
            cases.kinds,
            cases.bounds,
            cases.prefixes,
            cases.forms,
        ):
            group(known)
        self.assertGreater(len(known.cases), 2000)
        for name, data, lines in known.cases:
            with self.subTest(name):
                try:
                    text = data.decode()
                except UnicodeDecodeError:
                    continue  # refused as a file already
                found = scenarios.faults(text)
                cause = found[0].cause if found else "ok"
                if cause == "NotToml" and lines[0] != cause:
                    self.assertIn("TOML 1.0", found[0].text)  # what only TOML 1.1 has
                else:
                    self.assertEqual(cause, lines[0])


TEXT = """version = 2
cycles = 5
window = [1,
  9]  # ends late
link = [{from = 0, to = 1, latency = 3}, {from = 0, to = 0},
        ]
[[node]]
image = ""
[[ "node" ]]
[[input]]
node = 2
at = 1
hex = '''0'''
[[input]]
node = 1
at = 1
hex = "" # ]
[[input]]
node = 1
hex = ""
"at" = 1
"""


class Places(unittest.TestCase):
    def test_every_fault_has_its_line(self):
        told = [(fault.cause, fault.line, fault.place) for fault in scenarios.faults(TEXT)]
        self.assertEqual(
            told,
            [
                ("Missing", 9, "[[node]] 1, image"),
                ("OutOfRange", 3, "window"),
                ("OutOfRange", 8, "[[node]] 0, image"),
                ("OutOfRange", 11, "[[input]] 0, node"),
                ("OutOfRange", 13, "[[input]] 0, hex"),
                ("SelfLink", 5, "[[link]] 1, to"),
                ("TwiceScripted", 18, "[[input]] 2"),
            ],
        )

    def test_broken_text(self):
        (fault,) = scenarios.faults("cycles = 5\nnode = = 1\n")
        self.assertEqual((fault.cause, fault.line), ("NotToml", 2))

    def test_too_long(self):
        self.assertEqual(scenarios.faults("#" * 524_289)[0].cause, "TooLong")


GOOD = "no fault in the scenario (its images are not read: `avrora check` reads them)"


class Why(unittest.TestCase):
    def test_good(self):
        self.assertEqual(run_tool("why", f"{TOP}/examples/flood.toml"), (0, f"{GOOD}\n", ""))

    def test_faults(self):
        with scratch("bad.toml", "cycles = 0\n[[node]]\nimage = 'a'\nspeed = 1\n") as path:
            status, out, _ = run_tool("why", path)
        self.assertEqual(status, 1)
        self.assertEqual(
            out,
            "UnknownKey, line 4, [[node]] 0, speed: no key of [[node]]\n"
            "OutOfRange, line 1, cycles: 0 is not 1 to 10,000,000\n",
        )

    def test_an_unknown_table_has_its_line(self):
        """The first of its lines, however the table is written."""
        good = "cycles = 9\n[[node]]\nimage = 'a'\n"
        for more in ("[[lonk]]\nfrom = 0\n[[lonk]]\n", "[lonk]\n", "[ 'lonk' ]\n"):
            with scratch("bad.toml", good + more) as path:
                self.assertEqual(
                    run_tool("why", path)[:2], (1, "UnknownKey, line 4, lonk: no key of a scenario\n"), more
                )
        with scratch("bad.toml", f"lonk = [{{ a = 1 }}]\n{good}") as path:
            self.assertEqual(run_tool("why", path)[:2], (1, "UnknownKey, line 1, lonk: no key of a scenario\n"))

    def test_no_file(self):
        status, _, err = run_tool("why", "/nowhere.toml")
        self.assertEqual((status, err), (2, "avrora-tools why: cannot read /nowhere.toml: No such file or directory\n"))

    def test_no_text(self):
        with scratch("bad.toml", b"\xff\xfe") as path:
            status, _, err = run_tool("why", path)
        self.assertEqual((status, err), (2, f"avrora-tools why: {path}: no text in UTF-8\n"))


def network(links, **keys):
    document = dict(cycles=100_000, latency=100, byte_time=1_000, node=[{"image": "x"}] * 4, link=links, **keys)
    return Scenario(document)


class OnTheAir(unittest.TestCase):
    """By the rules of docs/AIR.md, each by hand."""

    def setUp(self):
        self.air = Air(
            network(
                [
                    {"from": 0, "to": 3},
                    {"from": 1, "to": 3, "latency": 600},
                    {"from": 2, "to": 3, "open": [[0, 50], [60, 70]]},
                ]
            )
        )

    def heard(self, cycle):
        return answer(self.air.heard(3, cycle), cycle)

    def test_edges_of_a_byte(self):
        self.air.send(0, 40, 0x72)
        self.assertEqual(self.heard(139), (0, 0, 0))
        self.assertEqual(self.heard(140), (1, 0x72, 0))
        self.assertEqual(self.heard(140 + 999), (1, 0x72, 62))
        self.assertEqual(self.heard(140 + 1000), (0, 0, 0))

    def test_age_ends_at_255(self):
        slow = Air(network([{"from": 0, "to": 3}]))
        slow.byte_time = 4_096
        slow.send(0, 0, 1)
        self.assertEqual(answer(slow.heard(3, 100 + 255 * 16 + 15), 100 + 255 * 16 + 15), (1, 1, 255))

    def test_clash_is_the_or_of_all(self):
        self.air.send(0, 1000, 0x12)
        self.air.send(1, 1000, 0x41)
        self.assertEqual(self.heard(1599), (1, 0x12, 31))
        self.assertEqual(self.heard(1600), (2, 0x53, 0))
        self.assertEqual([one.sender for one in self.air.heard(3, 1600)], [0, 1])
        self.assertEqual(self.heard(2100), (1, 0x41, 31))

    def test_spans_count_the_cycle_of_the_send(self):
        for cycle, status in ((49, 1), (50, 0), (59, 0), (60, 1), (69, 1), (70, 0)):
            air = Air(network([{"from": 2, "to": 3, "open": [[0, 50], [60, 70]]}]))
            air.send(2, cycle, 7)
            self.assertEqual(answer(air.heard(3, 200), 200)[0], status, cycle)

    def test_two_sends_of_one_node(self):
        self.air.send(0, 0, 1)
        self.air.send(0, 1000, 2)
        self.assertEqual(self.heard(1099), (1, 1, 62))
        self.assertEqual(self.heard(1100), (1, 2, 0))

    def test_memory_is_bounded(self):
        for number in range(10_000):
            self.air.send(0, number * 1000, 1)
        self.assertLess(len(self.air.sends[0]), 5)


class Loading(unittest.TestCase):
    def test_flood(self):
        flood = Scenario.load(f"{TOP}/examples/flood.toml")
        self.assertEqual(
            (flood.cycles, flood.latency, flood.byte_time, flood.window), (35_000, 300, 1_024, (11_950, 11_990))
        )
        self.assertEqual(len(flood.images), 16)
        self.assertEqual(len(flood.links), 48)  # two each of 2 * 4 * 3 neighbours
        self.assertEqual(flood.links[1], Link(0, 4, 300, None))

    def test_refused(self):
        with self.assertRaisesRegex(BadInput, r"x: scenario refused: NoNodes: no table \[\[node\]\]"):
            Scenario.of_text("cycles = 1", "x")
