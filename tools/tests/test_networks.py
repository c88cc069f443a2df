"""Networks of each shape; a window of a scenario."""
import contextlib
import os
import sys
import tomllib
import unittest

from support import DATA, data, run_tool, scratch
from avrora_tools import networks, scenarios
from avrora_tools.commands import window
from avrora_tools.errors import BadInput


class Shapes(unittest.TestCase):
    def test_pairs(self):
        for shape, count, pairs in (
            ("line", 4, [(0, 1), (1, 2), (2, 3)]),
            ("ring", 4, [(0, 1), (0, 3), (1, 2), (2, 3)]),
            ("ring", 2, [(0, 1)]),
            ("line", 1, []),
            ("star", 4, [(0, 1), (0, 2), (0, 3)]),
            ("full", 3, [(0, 1), (0, 2), (1, 2)]),
            ("grid:2", 5, [(0, 1), (0, 2), (1, 3), (2, 3), (2, 4)]),
            ("grid:9", 3, [(0, 1), (1, 2)]),
            ("torus:3", 6, [(0, 1), (0, 2), (0, 3), (1, 2), (1, 4), (2, 5), (3, 4), (3, 5), (4, 5)]),
            ("geo:2", 3, [(0, 1), (0, 2), (1, 2)]),
        ):
            with self.subTest(shape):
                self.assertEqual(networks.pairs_of(shape, count), pairs)

    def test_drawn(self):
        near, far = (set(networks.pairs_of(f"geo:{reach}", 64, seed=7)) for reach in (0.1, 0.3))
        self.assertLess(near, far)
        self.assertEqual(far, set(networks.pairs_of("geo:0.3", 64, seed=7)))
        self.assertNotEqual(far, set(networks.pairs_of("geo:0.3", 64, seed=8)))

    def test_no_shape(self):
        for shape in ("cube", "line:3", "grid", "grid:0", "grid:x", "geo", "geo:-1", "geo:inf", "torus:4"):
            with self.subTest(shape), self.assertRaisesRegex(BadInput, shape.split(":")[0]):
                networks.pairs_of(shape, 6)


class Texts(unittest.TestCase):
    def test_all_keys(self):
        text = networks.scenario(
            "line",
            ["a.hex", 'b".hex'],
            cycles=50_000,
            latency=77,
            byte_time=512,
            window=(10, 20),
            at=100,
            stagger=7,
            link_latency=(5, 6),
            spans={(1, 0): [(0, 9), (20, 30)]},
            inputs={1: "FF"},
            every=999,
        )
        document = tomllib.loads(text)
        for link in document["link"]:
            self.assertIn(link.pop("latency"), (5, 6))
        self.assertEqual(
            document,
            {
                "version": 3,
                "cycles": 50_000,
                "latency": 77,
                "byte_time": 512,
                "window": [10, 20],
                "node": [{"image": "a.hex"}, {"image": 'b".hex'}],
                "link": [{"from": 0, "to": 1}, {"from": 1, "to": 0, "open": [[0, 9], [20, 30]]}],
                "input": [{"node": 0, "at": 100, "hex": "00"}, {"node": 1, "at": 107, "hex": "01FF", "every": 999}],
            },
        )

    def test_what_is_not_said(self):
        """Nodes learn their numbers behind the start-up code and one by one; a byte is as long as in a scenario."""
        document = tomllib.loads(networks.scenario("star", ["packet.hex"] * 3))
        self.assertEqual([script["at"] for script in document["input"]], [2_000, 2_977, 3_954])
        self.assertEqual(document["byte_time"], 3_072)
        self.assertEqual(run_tool("mknet", "star", "packet.hex*3")[1], networks.scenario("star", ["packet.hex"] * 3))

    def test_counted_images(self):
        self.assertEqual(networks.counted(["a*2", "b", "c*d.hex"]), ["a", "a", "b", "c*d.hex"])
        for word in ("*3", "*", "a*0", ""):
            with self.subTest(word), self.assertRaisesRegex(BadInput, "is no IMAGE"):
                networks.counted(["a", word])

    def test_refused(self):
        for change, why in (
            (dict(cycles=0), "OutOfRange.*cycles"),
            (dict(images=["x"] * 65), "TooManyNodes"),
            (dict(latency=65_536), "OutOfRange.*latency"),
            (dict(window=(0, 20_001)), "OutOfRange.*window"),
            (dict(spans={(0, 2): [(0, 1)]}), "no link from 0 to 2"),
            (dict(inputs={3: "00"}), "there is no node 3"),
        ):
            with self.subTest(why), self.assertRaisesRegex(BadInput, why):
                networks.scenario(**{"shape": "line", "images": ["x"] * 3, **change})

    def test_command(self):
        words = [
            "--cycles",
            "9999",
            "--open",
            "0-1=0..5,7..9",
            "--stagger",
            "10",
            "--seed",
            "4",
            "--link-latency",
            "100..200",
            "ring",
            "a.hex*3",
            "b.hex",
        ]
        status, out, err = run_tool("mknet", *words)
        self.assertEqual((status, err), (0, ""))
        self.assertEqual(run_tool("mknet", *words)[1], out)
        network = scenarios.Scenario.of_text(out, "out")
        self.assertEqual((network.cycles, network.images, len(network.links)), (9999, ["a.hex"] * 3 + ["b.hex"], 8))
        self.assertEqual(network.links[0].spans, [[0, 5], [7, 9]])
        self.assertTrue(all(100 <= link.latency <= 200 for link in network.links))

    def test_command_refused(self):
        for words, why in (
            (["cube", "a"], "cube is not a shape"),
            (["line", "a", "--open", "0-1"], "no FROM-TO"),
            (["line", "a*70"], "more than 64 nodes"),
            (["line", "*3"], "*3 is no IMAGE"),
            (["line", "a", "--link-latency", "9..3"], "the lower one comes first"),
        ):
            status, out, err = run_tool("mknet", *words)
            self.assertEqual((status, out), (2, ""))
            self.assertIn(why, err)


# A stand-in for the simulator: it writes the scenario that it reads to its errors, and the stored trace of relay.
SIMULATOR = f"""#!{sys.executable}
import os, sys
sys.stderr.write(os.getcwd() + "\\n" + " ".join(sys.argv[1:-1]) + "\\n" + open(sys.argv[-1]).read())
sys.stdout.write(open("{DATA}/relay.trace").read())
sys.exit(6)
"""

# Another one, of which only `resume FILE STATE` is called.
RESUMER = f"""#!{sys.executable}
import sys
sys.stderr.write(sys.argv[1] + " " + sys.argv[3] + "\\n" + open(sys.argv[2]).read())
sys.stdout.write("1048577 0 sent 41\\n1048582 0 end 1 running\\n")
"""


class Window(unittest.TestCase):
    def test_rows_and_scenario(self):
        with scratch("avrora", SIMULATOR) as avrora:
            os.chmod(avrora, 0o755)
            status, out, err = run_tool("window", "--avrora", avrora, "--plain", f"{DATA}/relay.toml", "9_000", "9_500")
        self.assertEqual(status, 3)
        err, _, last = err.rstrip("\n").rpartition("\n")
        self.assertEqual(last, "avrora-tools window: the simulator ended with status 6")
        self.assertEqual(out, data("relay.trace")[data("relay.trace").index("9367 0 heard") :])
        folder, words, text = err.split("\n", 2)
        self.assertEqual((folder, words), (DATA, "run --plain"))
        whole = tomllib.loads(data("relay.toml"))
        self.assertEqual(tomllib.loads(text), whole | {"cycles": 9_500, "window": [9_000, 9_500]})

    def test_keys_over_lines(self):
        text = 'window = [1,\n 2,\n]\nnode = [{image = "x"}]\n"cycles" = 100 # cycles = 5\n[[link]]\nfrom = 0\n'
        self.assertEqual(
            tomllib.loads(window.windowed(text, 3, 4)),
            {"cycles": 4, "window": [3, 4], "node": [{"image": "x"}], "link": [{"from": 0}]},
        )

    def test_keys_with_escapes(self):
        text = 'version = 3\n"cycl\\u0065s" = 100\n"\\x77indow" = [1, 2]\n'
        self.assertEqual(
            tomllib.loads(window.windowed(text, 3, 4)), {"version": 3, "cycles": 4, "window": [3, 4]}
        )

    def test_a_comment_ends_at_a_line_feed_alone(self):
        """Python has more line ends than TOML: what stands behind one of them in a comment is not a statement."""
        for mark in "\u2028\u2029\x85":
            text = f"cycles = 100\n# {mark}latency = 5\nlatency = 7 # {mark}[[link]]\n"
            self.assertEqual(
                tomllib.loads(window.windowed(text, 3, 4)), {"cycles": 4, "window": [3, 4], "latency": 7}, ascii(mark)
            )

    def test_no_window(self):
        for first, end in (("5", "5"), ("0", "20001"), ("0", "90001"), ("89000", "90001"), ("7", "6")):
            status, out, err = run_tool("window", "--avrora", "/nowhere", f"{DATA}/relay.toml", first, end)
            self.assertEqual((status, out), (2, ""))
            self.assertIn("is not a window", err)

    def test_from_a_state(self):
        state = f"avrora state 1\ncycle {1_048_576}\nend\n"
        scenario = 'cycles = 1_300_000\nnode = [{image = "x"}]\n'
        with contextlib.ExitStack() as files:
            net = files.enter_context(scratch("net.toml", scenario))
            saved = files.enter_context(scratch("net.state", state))
            avrora = files.enter_context(scratch("avrora", RESUMER))
            os.chmod(avrora, 0o755)
            words = ["window", "--avrora", avrora, "--state", saved, net]
            status, out, err = run_tool(*words, "1_048_576", "1_048_582")
            self.assertEqual((status, out), (0, "1048577 0 sent 41\n1048582 0 end 1 running\n"))
            said, text = err.split("\n", 1)
            self.assertEqual(said, f"resume {saved}")
            whole = tomllib.loads(scenario)
            self.assertEqual(tomllib.loads(text), whole | {"cycles": 1_048_582, "window": [1_048_576, 1_048_582]})
            status, out, err = run_tool(*words, "1_048_575", "1_048_582")
            why = f"{saved}: it is of cycle 1,048,576, and the window begins before that"
            self.assertEqual((status, out, err), (2, "", f"avrora-tools window: {why}\n"))

    def test_no_trace(self):
        with scratch("avrora", "#!/bin/sh\necho hello\n") as avrora:
            os.chmod(avrora, 0o755)
            status, out, err = run_tool("window", "--avrora", avrora, f"{DATA}/relay.toml", "5", "6")
        self.assertEqual(
            (status, out, err),
            (3, "", "avrora-tools window: what the simulator wrote, line 1: no row of a trace: hello\n"),
        )

    def test_no_simulator(self):
        status, _, err = run_tool("window", "--avrora", "/nowhere", f"{DATA}/relay.toml", "5", "6")
        self.assertEqual((status, err), (3, "avrora-tools window: cannot run /nowhere: No such file or directory\n"))
