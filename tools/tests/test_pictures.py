"""Timelines and waves."""
import contextlib
import itertools
import json
import os
import random
import re
import subprocess
import tempfile
import unittest
import unittest.mock
import xml.etree.ElementTree as tree

from avrora_tools import pictures
from avrora_tools.reporting import pages
from support import DATA, LONG, data, needs_program, run_tool, scratch

BROWSER = 240  # seconds for chromium, which does not end on each machine

SVG = "{http://www.w3.org/2000/svg}"


def page_of(name, *words):
    status, out, err = run_tool("timeline", *words, "-s", f"{DATA}/{name}.toml", f"{DATA}/{name}.trace")
    assert (status, err) == (0, ""), err
    return out


def data_of(page):
    return json.loads(re.search(r'(?m)^<script type="application/json" id="timeline-data">(.*)</script>$', page)[1])


def cycles(flat, fields):
    """The cycles of a list of a page's data, whose cycles are distances."""
    found = []
    for distance in flat[::fields]:
        found.append((found[-1] if found else 0) + distance)
    return found


class Page(unittest.TestCase):
    def test_relay(self):
        drawn = data_of(page_of("relay"))
        self.assertEqual(
            (drawn["first"], drawn["end"], drawn["byteTime"], drawn["window"]), (0, 90_000, 3_072, [3_130, 3_165])
        )
        self.assertEqual([node["name"] for node in drawn["nodes"]], [f"{node} relay" for node in range(5)])
        node = drawn["nodes"][1]
        self.assertEqual(node["sent"], [9640, 0x72, 9216, 0x65, 6144, 0x6C, 9216, 0x61, 6144, 0x79])
        self.assertEqual(
            node["heard"],
            [9367, 0x72, 114, 0, 9216, 0x65, 114, 0, 6144, 0x6C, 114, 0, 9216, 0x61, 114, 0, 6144, 0x79, 114, 0],
        )
        self.assertEqual(cycles(node["serial"], 2), [17224, 26440, 34120, 41800, 49480])
        self.assertEqual(
            (sum(node["quiet"][1::2]), node["clash"], node["enter"], node["state"]), (24, [], [3136, 0x1E], "asleep")
        )

    def test_clashes_of_flood(self):
        node = data_of(page_of("flood"))["nodes"][6]
        self.assertEqual(node["clash"], [15506, 1, [2, 5], 9216, 2, [2, 5]])

    def test_packet(self):
        # AA AA 7E, the length, and as payload the sensor's number, the packet's, and a reading
        sent = data_of(page_of("packet"))["nodes"][2]["sent"][1::2]
        self.assertEqual(
            bytes(sent).hex(" "), "aa aa 7e 03 02 00 16 aa aa 7e 03 02 01 17 aa aa 7e 03 02 02 17 aa aa 7e 03 02 03 18"
        )

    def test_part(self):
        drawn = data_of(page_of("flood", "--from", "15_000", "--to", "16_000", "-n", "1-2"))
        self.assertEqual(
            [(node["node"], cycles(node["sent"], 2), cycles(node["clash"], 3)) for node in drawn["nodes"]],
            [(1, [], [15506]), (2, [15051], [])],
        )

    def test_nothing_to_draw(self):
        for words, why in (
            (["--from", "900", "--to", "100"], "the end is not behind the beginning"),
            (["--from", "90000"], "the trace ends in cycle 89999, before --from 90000"),
        ):
            status, out, err = run_tool("timeline", *words, f"{DATA}/relay.trace")
            self.assertEqual((status, out), (2, ""))
            self.assertIn(why, err)

    def test_window_of_a_part(self):
        """A trace that ends before the scenario's limit of 90,000 has a window of its own."""
        trace = "3140 0 instr 0010 sleep\n" + "".join(f"3150 {node} end 10 asleep\n" for node in range(5))
        page = run_tool("timeline", "-s", f"{DATA}/relay.toml", stdin=trace)[1]
        drawn = data_of(page)
        self.assertEqual((drawn["window"], drawn["nodes"][0]["asleep"]), ([3_140, 3_150], [3_141, 9]))

    def test_sleep_and_stop(self):
        trace = (
            "10 0 instr 0010 sleep\n30 0 enter 001E 0011\n38 0 instr 001E nop\n39 0 instr 001F sleep\n"
            "60 0 sent 41\n70 1 stop 0098 reserved opcode\n90 0 end 3 asleep\n90 1 end 0 stopped\n"
        )
        status, out, _ = run_tool("timeline", stdin=trace)
        node, other = data_of(out)["nodes"]
        self.assertEqual((status, node["asleep"], other["stop"]), (0, [11, 19], [70, "0098 reserved opcode"]))

    def test_no_row_tells_that_a_node_sleeps_from_the_window_on_to_its_stop(self):
        """Relay's window ends in cycle 3,165. A stop within it ends a sleep, where an interrupt's entry is what
        stops."""
        for stop, asleep in ((50_000, [3_161, 4]), (3_163, [3_161, 2])):
            trace = f"3160 0 instr 0010 sleep\n{stop} 0 stop 0011 reserved address\n90000 0 end 3 stopped\n"
            trace += "".join(f"90000 {node} end 10 running\n" for node in range(1, 5))
            status, page, err = run_tool("timeline", "-s", f"{DATA}/relay.toml", stdin=trace)
            self.assertEqual((status, err), (0, ""))
            self.assertEqual(data_of(page)["nodes"][0]["asleep"], asleep)

    def test_names_do_not_end_the_script(self):
        with scratch("net.toml", 'cycles = 9\n[[node]]\nimage = "</script>.hex"\n') as scenario:
            page = run_tool("timeline", "-s", scenario, stdin="5 0 sent 41\n9 0 end 1 running\n")[1]
        self.assertEqual(page.count("</script>"), 2)  # that of the data, and that of the script

    def test_large(self):
        """64 nodes and 100,000 events make less than 3 MB."""
        rows = []
        for cycle in range(0, 1_600_000, 1024):
            rows += [
                f"{cycle} {node} {'sent 41' if (cycle // 1024 + node) % 8 == 0 else 'heard 1 41 11'}\n"
                for node in range(64)
            ]
        self.assertEqual(len(rows) // 1000, 100)
        rows += [f"1600000 {node} end 1 running\n" for node in range(64)]
        status, out, err = run_tool("timeline", stdin="".join(rows))
        self.assertEqual((status, err), (0, ""))
        self.assertLess(len(out), 3_000_000)

    def test_thinned(self):
        """What is too much for a page is thinned, and the page says so; clashes and stops are not."""
        draw = random.Random(1)
        cycles_ = sorted(draw.sample(range(1_000_000), 300_000))
        said = draw.choices(["0 00 0", "1 41 11", "2 41 0"], [45, 45, 10], k=len(cycles_))
        rows = [f"{cycle} 0 heard {what}\n" for cycle, what in zip(cycles_, said)]
        trace = "".join(rows) + "1000000 0 end 1 running\n"
        with unittest.mock.patch.object(pages, "LARGEST_PAGE", 1_500_000):
            status, out, err = run_tool("timeline", stdin=trace)
        self.assertEqual(status, 0)
        self.assertLess(len(out), 1_500_000)
        drawn = data_of(out)
        self.assertRegex(
            drawn["thinned"], "^thinned to one in [0-9,]+ cycles: samples of nothing, interrupts, sleep, heard"
        )
        self.assertEqual(
            err, f"avrora-tools timeline: {drawn['thinned']}; --from, --to and --nodes draw less, and all of it\n"
        )
        clashes = [int(row.split()[0]) for row in rows if " heard 2 " in row]
        self.assertEqual(cycles(drawn["nodes"][0]["clash"], 3), clashes)
        self.assertGreater(len(drawn["nodes"][0]["heard"]), 4 * 500)  # what a pixel can show is there
        status, out, err = run_tool("timeline", "--from", "0", "--to", "10000", stdin=trace)
        self.assertEqual((status, err, data_of(out)["thinned"]), (0, "", ""))

    def test_clashes_are_thinned_last(self):
        """Where they alone are more than a page may have; what a pixel can show is there, and stops are."""
        rows = [f"{cycle} {node} heard 2 FF 0\n" for cycle in range(0, 4_000_000, 100) for node in range(2)]
        trace = "".join(rows) + "3999999 0 stop 0000 break\n4000000 0 end 1 stopped\n4000000 1 end 1 running\n"
        most = len(run_tool("timeline", stdin="5 0 sent 41\n9 0 end 1 running\n")[1]) + 84_000
        with unittest.mock.patch.object(pages, "LARGEST_PAGE", most):
            status, out, err = run_tool("timeline", stdin=trace)
        self.assertEqual(status, 0)
        self.assertLess(len(out), most)
        drawn = data_of(out)
        self.assertRegex(drawn["thinned"], r"^thinned to one in 1,953 cycles: .*, clashes$")
        self.assertIn(drawn["thinned"], err)
        for node in drawn["nodes"]:
            self.assertEqual(cycles(node["clash"], 3), list(range(0, 4_000_000, 2_000)))
        self.assertEqual(drawn["nodes"][0]["stop"], [3_999_999, "0000 break"])

    def test_another_scenario(self):
        """What was heard is not what the sends give by it."""
        with scratch("net.toml", data("flood.toml").replace("from = 1\n", "from = 15\n", 1)) as scenario:
            for name in ("timeline", "vcd"):
                status, out, err = run_tool(name, "-s", scenario, f"{DATA}/flood.trace")
                self.assertEqual((status, "not the trace of this scenario: in cycle" in err), (2, True), err)
        for name in ("timeline", "vcd"):
            status, _, err = run_tool(name, "-s", f"{DATA}/relay.toml", f"{DATA}/flood.trace")
            self.assertEqual((status, "not its trace" in err), (2, True), err)

    def test_a_head(self):
        rows = "5 0 sent 41\n500 1 serial 41\n"
        self.assertEqual(run_tool("timeline", stdin=rows)[0], 2)
        status, out, err = run_tool("timeline", "--head", "2", stdin=rows)
        self.assertEqual((status, err, data_of(out)["end"]), (0, "", 524_288))

    def test_no_rows_of_the_nodes(self):
        status, _, err = run_tool("timeline", "-n", "9", f"{DATA}/relay.trace")
        self.assertEqual((status, err), (2, "avrora-tools timeline: the trace has no row of these nodes\n"))

    # Behind the page, with a name in its policy: what is chosen, with keys, with markers; and what is painted.
    PROBE = """
timeline.paint();
const said = document.getElementById("detail").textContent, ways = timeline.ways.length, began = Math.round(timeline.from);
const { data: points } = document.getElementById("sky").getContext("2d").getImageData(0, 0, 1200, 500);
const ink = points.filter((value, i) => i % 4 === 0 && value < 128).length > 1000;
const press = key => document.body.dispatchEvent(new KeyboardEvent("keydown", { key, bubbles: true }));
for (const key of ["a", "n", "b"]) press(key);
timeline.paint();
const marks = document.getElementById("marks").textContent, next = document.getElementById("detail").textContent;
timeline.data.nodes[2].sent = [[10, 1]];  // as where the send that clashed is thinned
timeline.choose(6, 15506);
document.body.innerHTML = `<pre>${[said, ways, began, ink, marks, next, document.getElementById("detail").textContent].join("|")}|</pre>`;
"""

    @needs_program("chromium", "chromium")
    def test_in_a_browser(self):
        page = page_of("flood")
        own = pages.source_of(self.PROBE)
        probed = page.replace("script-src ", f"script-src {own} ", 1)
        with scratch(
            "page.html", f"{probed}<script>{self.PROBE}</script>"
        ) as path, tempfile.TemporaryDirectory() as profile:
            words = [
                "chromium",
                "--headless=new",
                "--no-sandbox",
                "--disable-gpu",
                "--disable-dev-shm-usage",
                f"--user-data-dir={profile}",
                "--window-size=1300,800",
                "--dump-dom",
                f"file://{path}#15506@6",
            ]
            status, dump = self.ended(words, {**os.environ, "HOME": profile})
        if status:
            said = f"ended with status {status}" if status > 0 else f"did not end in {BROWSER} s"
            self.skipTest(f"chromium {said}")
        said, ways, began, ink, marks, after, lost, _ = dump[dump.index("<pre>") + 5 :].split("|")
        self.assertIn(
            "node 6 flood: CLASH of node 2's 01 of 15,051, node 5's 01 of 15,046 in cycle 15,506 = 2.1031 ms", said
        )
        self.assertIn("avrora-tools window", said)
        self.assertEqual((ways, began, ink), ("2", "5266", "true"))
        self.assertIn("node 9 flood: CLASH of node 10's 01 of 17,099, node 13's 01 of 17,094", after)
        self.assertIn("A 15,506 = 2.1031 ms; B 17,554 = 2.3809 ms; B \u2212 A: 2,048 = 277.778 \u00b5s", marks)
        self.assertIn("CLASH of node 2, node 5's 01 of 15,046", lost)

    def ended(self, words, env):
        """The status and the output of a command; below 0 where it did not end in time."""
        with tempfile.TemporaryFile() as said:
            browser = subprocess.Popen(words, env=env, stdin=subprocess.DEVNULL, stdout=said, stderr=subprocess.DEVNULL)
            with contextlib.suppress(subprocess.TimeoutExpired):
                browser.wait(BROWSER)
            browser.kill()
            browser.wait()
            said.seek(0)
            return browser.returncode, said.read().decode()


class Picture(unittest.TestCase):
    def shapes(self, name, *words):
        root = tree.fromstring(page_of(name, "--svg", *words))
        found = {}
        for shape in root.iter():
            found.setdefault(shape.get("class"), []).append(shape)
        return found

    def test_counts(self):
        # One shape each, and one of each kind in the legend.
        for name, sent, heard, clash, serial in (("relay", 25, 20, 0, 20), ("flood", 32, 80, 8, 32)):
            found = self.shapes(name)
            self.assertEqual(
                [len(found[kind]) - 1 for kind in ("sent", "heard", "clash", "serial")], [sent, heard, clash, serial]
            )
            self.assertEqual((len(found.get("hop", [])), len(found.get("way", []))), (heard, 2 * clash))

    def test_samples_of_nothing(self):
        self.assertEqual(len(self.shapes("flood", "--quiet")["quiet"]), 544 - 80 - 8)

    def test_place(self):
        # 1,200 pixels, of which 92 stand before the cycles and 12 behind: cycle 45,000 of 90,000 is 640
        bar = self.shapes("relay")["sent"][0]
        self.assertEqual(
            (bar.get("x"), bar.get("width")),
            (f"{92 + round(6542 * 1096 / 90_000, 2):.2f}", f"{3072 * 1096 / 90_000 - .4:.2f}"),
        )
        self.assertEqual(bar.find(f"{SVG}title").text, "6,542: node 0 sent 72 'r'")

    def test_many_events(self):
        rows = "".join(f"{cycle} {cycle % 3} sent 41\n" for cycle in range(0, 3_000_000, 100))
        rows += "".join(f"3000000 {node} end 1 running\n" for node in range(3))
        status, out, _ = run_tool("timeline", "--svg", stdin=rows)
        self.assertEqual(status, 0)
        self.assertLess(len(out), 200_000)
        self.assertEqual(len(tree.fromstring(out).findall(f"{SVG}path")), 3 + 1)


class Axis(unittest.TestCase):
    def test_with_a_clock_ticks_stand_at_round_times(self):
        found = pictures.ticks(405_000, 411_000, 7_372_800, 1_000)
        self.assertEqual(
            [label for _, label in found],
            ["55.0 ms", "55.1 ms", "55.2 ms", "55.3 ms", "55.4 ms", "55.5 ms", "55.6 ms", "55.7 ms"],
        )
        self.assertEqual(found[0][0], 55.0 * 7_372.8)
        self.assertEqual(
            [label for _, label in pictures.ticks(0, 40, 1_000_000, 1_000)][:3], ["0.000 ms", "0.005 ms", "0.010 ms"]
        )
        self.assertEqual([label for _, label in pictures.ticks(0, 40, 1_000, 1_000)][:3], ["0 ms", "5 ms", "10 ms"])

    def test_without_one_at_round_cycles(self):
        self.assertEqual([cycle for cycle, _ in pictures.ticks(12, 100, None, 1_000)], [20, 30, 40, 50, 60, 70, 80, 90])

    def test_no_label_stands_over_another(self):
        for hz in (None, 1, 32_768, 7_372_800):
            for first, end in ((0, 1), (0, 35_000), (999_999_999_000, 999_999_999_990), (0, 2**40), (5, 7)):
                for width in (60, 300, 1_096, 4_000):
                    found = pictures.ticks(first, end, hz, width)
                    places = [(cycle - first) * width / (end - first) for cycle, _ in found]
                    for (one, label), (other, after) in itertools.pairwise(zip(places, (label for _, label in found))):
                        self.assertLess(
                            one + pictures.LETTER * len(label) / 2, other - pictures.LETTER * len(after) / 2
                        )

    def test_the_legend_has_room(self):
        for width in (300, 700, 1_200):
            root = tree.fromstring(page_of("flood", "--svg", "--width", str(width)))
            height = float(root.get("height"))
            rows = {}
            for text in root.iter(f"{SVG}text"):
                y, x, size = float(text.get("y")), float(text.get("x")), pictures.LETTER * len(text.text)
                self.assertLess(y, height)
                if text.get("text-anchor") != "middle":
                    rows.setdefault(y, []).append((x - size, x) if text.get("text-anchor") == "end" else (x, x + size))
            for spans in rows.values():
                for (_, end), (begin, _) in itertools.pairwise(sorted(spans)):
                    self.assertLess(end, begin + 1)

    def test_a_long_name_is_shortened(self):
        self.assertEqual(pictures.shortened("0 sensor", 6), "0 sen\u2026")


CLOSED = """version = 3
cycles = 9_000
byte_time = 512
latency = 10
node = [{ image = "a.hex" }, { image = "b.hex" }]
link = [{ from = 0, to = 1, open = [[2_000, 4_000], [5_000, 6_000]] }, { from = 1, to = 0 }]
"""


class Closed(unittest.TestCase):
    """Spans in which a link is not open, and an --out whose name says what it is to be."""

    def setUp(self):
        folder = tempfile.TemporaryDirectory()
        self.addCleanup(folder.cleanup)
        self.scenario, self.trace, self.out = (f"{folder.name}/{name}" for name in ("s.toml", "s.trace", "out.svg"))
        for path, text in (
            (self.scenario, CLOSED),
            (self.trace, "100 0 sent 41\n9000 0 end 1 running\n9000 1 end 1 running\n"),
        ):
            with open(path, "w", encoding="utf-8") as file:
                file.write(text)

    def test_in_the_page(self):
        drawn = data_of(run_tool("timeline", "-s", self.scenario, self.trace)[1])
        self.assertEqual(
            [node["closed"] for node in drawn["nodes"]], [[], [[0, 2_000, 0], [4_000, 5_000, 0], [6_000, 9_000, 0]]]
        )
        part = data_of(run_tool("timeline", "-s", self.scenario, "--from", "4_500", "--to", "7_000", self.trace)[1])
        self.assertEqual(
            part["nodes"][1]["closed"] if len(part["nodes"]) > 1 else [[4_500, 5_000, 0], [6_000, 7_000, 0]],
            [[4_500, 5_000, 0], [6_000, 7_000, 0]],
        )

    def test_in_the_picture(self):
        root = tree.fromstring(run_tool("timeline", "--svg", "-s", self.scenario, self.trace)[1])
        titles = [
            shape.find(f"{SVG}title").text
            for shape in root.iter(f"{SVG}rect")
            if shape.get("class") == "closed" and len(shape)
        ]
        self.assertEqual(titles[1], "the link from node 0 to node 1 is closed from 4,000 to 5,000")
        self.assertEqual(len(titles), 3)

    def test_the_name_of_the_file_says_what_is_written(self):
        self.assertEqual(run_tool("timeline", "-s", self.scenario, "-o", self.out, self.trace), (0, "", ""))
        self.assertEqual(tree.parse(self.out).getroot().tag, f"{SVG}svg")
        status, out, err = run_tool("timeline", "--svg", "-o", self.out.replace(".svg", ".html"), self.trace)
        self.assertEqual((status, out), (2, ""))
        self.assertIn("--svg writes a picture, and ", err)


def changes(dump):
    """The changes of a dump: (time, name of the node and variable, value)."""
    names, scope, now, found = {}, [], 0, []
    for line in dump.splitlines():
        words = line.split()
        if words[:1] == ["$scope"]:
            scope.append(words[2])
        elif words[:1] == ["$upscope"]:
            scope.pop()
        elif words[:1] == ["$var"]:
            names[words[3]] = f"{scope[-1]}.{words[4]}"
        elif line[:1] == "#":
            now = int(line[1:])
        elif line[:1] in ("b", "s"):
            found.append((now, names[words[1]], words[0][1:]))
        elif line[:1] in ("0", "1", "x"):
            found.append((now, names[line[1:]], line[0]))
    return found


class Waves(unittest.TestCase):
    TRACE = (
        "10 0 instr 0010 sleep\n30 0 enter 001E 0011\n38 0 instr 001E nop\n40 0 sent 41\n45 1 heard 2 0F 0\n"
        "50 1 serial 61\n60 1 heard 1 41 3\n70 1 stop 0098 reserved opcode\n90 0 end 3 running\n90 1 end 0 stopped\n"
    )

    # By hand, with a byte time of 25.
    CHANGES = [
        (10, "node0.pc", "10000"),
        (10, "node0.instr", "sleep"),
        (10, "node0.asleep", "0"),
        (11, "node0.asleep", "1"),
        (30, "node0.asleep", "0"),
        (30, "node0.vector", "TIMER0_COMP_vect"),
        (38, "node0.pc", "11110"),
        (38, "node0.instr", "nop"),
        (40, "node0.sent_byte", "1000001"),
        (40, "node0.sent", "1"),
        (45, "node1.heard_status", "10"),
        (45, "node1.heard_byte", "1111"),
        (45, "node1.heard_age", "0"),
        (45, "node1.clash", "1"),
        (45, "node1.sample", "1"),
        (50, "node1.serial_byte", "1100001"),
        (50, "node1.serial", "1"),
        (60, "node1.heard_status", "1"),
        (60, "node1.heard_byte", "1000001"),
        (60, "node1.heard_age", "11"),
        (60, "node1.clash", "0"),
        (60, "node1.sample", "1"),
        (65, "node0.sent", "0"),
        (70, "node1.instr", "stop_reserved_opcode"),
        (70, "node1.stopped", "1"),
    ]

    def test_changes(self):
        status, out, err = run_tool("vcd", "-n", "0,1", "--byte-time", "25", stdin=self.TRACE)
        self.assertEqual((status, err), (0, ""))
        self.assertEqual(sorted(change for change in changes(out) if change[0]), sorted(self.CHANGES))
        times = [int(time) for time in re.findall(r"(?m)^#(\d+)$", out)]
        self.assertEqual(times, sorted(set(times)))

    def test_time_in_picoseconds(self):
        out = run_tool("vcd", "-n", "0,1", "--hz", "1000000", stdin=self.TRACE)[1]
        self.assertIn("$timescale 1 ps $end", out)
        self.assertIn((40_000_000, "node0.sent", "1"), changes(out))

    def test_picoseconds_are_exact_late_in_a_run(self):
        """2^40 - 1 cycles of 7,372,800 Hz are 149,130,808,350,287,543.4 ps: more digits than a float has."""
        last = (1 << 40) - 1
        trace = f"{last} 0 serial 41\n{last + 1} 0 end 3 running\n"
        out = run_tool("vcd", "-n", "0", "--hz", "7372800", stdin=trace)[1]
        self.assertIn(f"#{(last * 10**12 + 3_686_400) // 7_372_800}\n", out)

    def test_a_stop_wakes_a_node_that_an_interrupt_woke(self):
        trace = "10 0 instr 0010 sleep\n30 0 stop 0011 reserved address\n90 0 end 3 stopped\n"
        told = changes(run_tool("vcd", "-n", "0", stdin=trace)[1])
        asleep = [(time, value) for time, name, value in told if time and name == "node0.asleep"]
        self.assertEqual(asleep, [(10, "0"), (11, "1"), (30, "0")])

    def test_behind_the_window(self):
        out = run_tool("vcd", "-s", f"{DATA}/relay.toml", f"{DATA}/relay.trace")[1]
        self.assertIn((3165, "node4_relay.pc", "x"), changes(out))
        self.assertEqual(sum(name.endswith(".sent") and value == "1" for _, name, value in changes(out)), 25)

    def test_nodes_of_a_file(self):
        with scratch("t.trace", self.TRACE) as path:
            self.assertEqual(set(re.findall("module (node.*) ", run_tool("vcd", path)[1])), {"node0", "node1"})

    def test_a_stream_wants_its_nodes(self):
        status, out, err = run_tool("vcd", stdin=self.TRACE)
        self.assertEqual((status, out), (2, ""))
        self.assertIn("name them (-n)", err)

    @needs_program("vcd2fst", "gtkwave")
    @needs_program("fst2vcd", "gtkwave")
    def test_read_by_another_program(self):
        """GTKWave's own converter reads the dump, and writes the same changes back."""
        dump = run_tool("vcd", "-s", f"{DATA}/flood.toml", stdin=data("flood.trace"))[1]
        with scratch("flood.vcd", dump) as path:
            limits = {"check": True, "capture_output": True, "timeout": LONG}
            subprocess.run(["vcd2fst", path, f"{path}.fst"], **limits)
            back = subprocess.run(["fst2vcd", "-f", f"{path}.fst"], **limits).stdout.decode()
        self.assertEqual(self.settled(back), self.settled(dump))

    def settled(self, dump):
        """The changes behind the start, events aside, in order; leading zeros and the width of what is unknown are
        forms."""
        return sorted(
            (time, name, "x" if value.strip("x") == "" else value.lstrip("0") or "0")
            for time, name, value in changes(dump)
            if time and not name.endswith((".sample", ".serial"))
        )
