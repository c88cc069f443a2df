"""campaign: the file, runs by processes of this machine, campaigns that are cut."""
import contextlib
import gzip
import itertools
import os
import re
import signal
import sqlite3
import subprocess
import tomllib
import unittest
import xml.etree.ElementTree

from campaign_runs import CAMPAIGN, CASE, SCENARIO, Outcomes, folder, hear_interrupts, hidden_dask, let_go, run_campaign, starts
from support import LONG, TOOL, TOOLS, run_tool, wait_for
from avrora_tools import campaign_keys, campaigns, networks, variants
from avrora_tools.errors import BadInput


class TheFile(unittest.TestCase):
    def read(self, campaign, **texts):
        with folder(campaign, **texts) as path:
            return campaigns.read(f"{path}/c.toml")

    def assert_refused(self, campaign, sentence, **texts):
        with self.assertRaises(BadInput) as refusal:
            self.read(campaign, **texts)
        self.assertIn(sentence, str(refusal.exception))

    def test_a_grid_has_each_combination_once(self):
        vary = 'latency = [7, 8]\nwindow = [[0, 9]]\n"input.1.at" = { from = 10, to = 20, step = 5 }\n'
        campaign = self.read('[[run]]\nscenario = "net.toml"\n[run.vary]\n' + vary)
        names = [run.name for run in campaign.runs()]
        self.assertEqual(
            names[:2], ["net latency=7 window=[0,9] input.1.at=10", "net latency=7 window=[0,9] input.1.at=15"]
        )
        self.assertEqual(len(set(names)), 6)
        last = tomllib.loads(campaign.run(campaign.count - 1).scenario())
        self.assertEqual((last["latency"], last["window"], last["input"][0]["at"]), (8, [0, 9], 20))
        self.assertEqual([node["image"] for node in last["node"]], ["a.hex", "a.hex"])

    def test_keys_of_links_and_of_all_nodes(self):
        vary = 'vary = { "link.0-1.open" = [[[0, 5], [6, 9]]], node."*".image = ["net.expect"] }\n'
        (run,) = self.read(f'[[run]]\nscenario = "net.toml"\n{vary}').runs()
        scenario = tomllib.loads(run.scenario())
        self.assertEqual(scenario["link"], [{"from": 0, "to": 1, "open": [[0, 5], [6, 9]]}])
        self.assertEqual([node["image"] for node in scenario["node"]], ["net.expect"] * 2)

    def test_a_network_by_seeds(self):
        text = """[[run]]
name = "ring"
[run.network]
shape = "ring"
images = ["a.hex*2", "net.expect"]
cycles = 7_000
link_latency = [10, 900]
inputs = { 2 = "FF" }
spans = { "0-1" = [[5, 9]] }
[run.vary]
seed = { from = 1, to = 2 }
stagger = [0, 30]
"""
        runs = list(self.read(text).runs())
        self.assertEqual(
            [run.name for run in runs],
            [
                "ring seed=1 stagger=0",
                "ring seed=1 stagger=30",
                "ring seed=2 stagger=0",
                "ring seed=2 stagger=30",
            ],
        )
        first, second, third, _ = [tomllib.loads(run.scenario()) for run in runs]
        self.assertEqual([node["image"] for node in first["node"]], ["a.hex", "a.hex", "net.expect"])
        self.assertEqual(
            [(link["from"], link["to"]) for link in first["link"]], [(0, 1), (1, 0), (0, 2), (2, 0), (1, 2), (2, 1)]
        )
        self.assertEqual([link.get("open") for link in first["link"]], [[[5, 9]]] + [None] * 5)
        self.assertEqual(
            [(it["at"], it["hex"]) for it in second["input"]], [(2_000, "00"), (2_030, "01"), (2_060, "02FF")]
        )
        self.assertEqual(first["link"], second["link"])
        self.assertNotEqual(first["link"], third["link"])

    def test_cases_with_their_own_sources(self):
        with folder('[[run]]\nexpect = ["net.expect", "sub/one.expect"]\n', case=f"run net.toml\n{CASE}") as path:
            os.mkdir(f"{path}/sub")
            with open(f"{path}/sub/one.expect", "w", encoding="utf-8") as file:
                file.write("node b.hex 30000\n* 0 sent *\n")
            with open(f"{path}/sub/b.hex", "wb") as file:
                file.write(b"b")
            campaign = campaigns.read(f"{path}/c.toml")
            net, one = campaign.runs()
            self.assertEqual((net.name, one.name), ("net", "one"))
            self.assertEqual([case.path for case in campaign.checks[one.group.check].cases], ["sub/one.expect"])
            self.assertEqual(tomllib.loads(net.scenario()), tomllib.loads(SCENARIO))
            node = {"cycles": 30_000, "window": [0, 20_000], "node": [{"image": "b.hex"}]}
            self.assertEqual(tomllib.loads(one.scenario()), node)
            self.assertEqual(campaign.files[tomllib.loads(one.shipped())["node"][0]["image"]], b"b")

    def test_images_are_sought_beside_the_scenario(self):
        with folder('[[run]]\nscenario = "sub/net.toml"\n') as path:
            os.mkdir(f"{path}/sub")
            os.rename(f"{path}/net.toml", f"{path}/sub/net.toml")
            with open(f"{path}/sub/a.hex", "wb") as file:
                file.write(b"sub")
            campaign = campaigns.read(f"{path}/c.toml")
            self.assertEqual(list(campaign.files.values()), [b"sub"])

    def test_what_is_shipped_has_each_content_once(self):
        campaign = self.read('[[run]]\nscenario = "net.toml"\nexpect = ["net.expect", "net.expect"]\n')
        (run,) = campaign.runs()
        self.assertEqual(len(campaign.files), 2)
        for node in tomllib.loads(run.shipped())["node"]:
            self.assertEqual(campaign.files[node["image"]], b":00000001FF\n")

    def test_a_scenario_is_written_as_it_was_read(self):
        odd = '"odd key" = [1.5, true, "q\\"\\\\\\n\\u00e9\\u007f", {a = 1}]\nday = 1979-05-27\n'
        text = f'cycles = 5\n{odd}[[node]]\nimage = "a.hex"\n'
        self.assertEqual(tomllib.loads(variants.scenario_text(tomllib.loads(text))), tomllib.loads(text))

    def test_names_of_files(self):
        self.assertEqual(campaigns.file_name("net latency=7"), "net,latency=7")
        odd, other = campaigns.file_name("../net"), campaigns.file_name(".._net")
        self.assertNotIn("/", odd)
        self.assertNotEqual(odd, other)
        self.assertLess(len(campaigns.file_name("n" * 5000)), 255)

    def test_refusals(self):
        run = '[[run]]\nscenario = "net.toml"\n'
        self.assert_refused("x = ", "no TOML")
        self.assert_refused("attempts = 2\n", "no [[run]]")
        self.assert_refused(f"retries = 2\n{run}", "the key retries is unknown")
        self.assert_refused(f"attempts = 0\n{run}", "attempts is not 1 to 100")
        self.assert_refused(f"timeout = true\n{run}", "timeout is not 1 to 1,000,000 seconds")
        self.assert_refused('[[run]]\nname = "n"\n', "a run needs a scenario, a network, draw, or cases")
        self.assert_refused(f"{run}[run.network]\n", "a scenario or a network, not both")
        self.assert_refused("[[run]]\nscenario = 7\n", "scenario is not the name of a file")
        self.assert_refused('[[run]]\nexpect = "net.expect"\n', "net.expect has no `run FILE`")
        self.assert_refused(f"{run}wary = 1\n", "the key wary is unknown")
        self.assert_refused(f"{run}expect = 1\n", "expect is not a name or a list of names")
        self.assert_refused(f"{run}vary = {{ latency = 3 }}\n", "latency has no list of values")
        self.assert_refused(f"{run}vary = {{ latency = {{ from = 3, to = 2 }} }}\n", "latency has no list of values")
        self.assert_refused(
            f"{run}vary = {{ latency = {{ from = 0, to = 9_000_000_000 }} }}\n", "more than 1,000,000,000 values"
        )
        self.assert_refused(f'{run}vary = {{ "link.1-0.latency" = [3] }}\n', "the scenario has no link 1-0")
        self.assert_refused(f'{run}vary = {{ "nodes.1.image" = [3] }}\n', "is no KEY, node.K.KEY")
        self.assert_refused(f"{run}{run}", "two runs have the name net")
        network = '[[run]]\n[run.network]\nshape = "ring"\n'
        self.assert_refused(network, "a network has shape and images")
        self.assert_refused(f'{network}images = "a.hex"\ncycle = 5\n', "the key cycle is unknown; there are at, ")
        self.assert_refused(f"{run}vary = {{ latncy = [3] }}\n", "the key latncy is unknown; there are byte_time, ")
        self.assert_refused(f'{run}vary = {{ "link.0-1.at" = [3] }}\n', "the key at is unknown; there are from, ")
        self.assert_refused(f'{network}images = "a.hex*3"\nspans = {{ "0:1" = 5 }}\n', "spans is not a table such as")
        self.assert_refused(network.replace("ring", "wheel") + 'images = "a.hex"\n', "wheel is not a shape")
        self.assert_refused('[[run]]\nscenario = "gone.toml"\n', "cannot read")
        self.assert_refused(run, "a.hax: No such file", scenario=SCENARIO.replace("a.hex", "a.hax"))
        self.assert_refused(f'{run}expect = "net.expect"\n', "net.expect, line 1", case="1 0 nonsense *\n")


class Keys(unittest.TestCase):
    """What the file may say: told by name where it is wrong, and in the words of CAMPAIGNS.md."""

    NETWORK = {"shape": "ring", "images": ["a.hex*3"]}
    WRONG = {
        "shape": ["", 7, [], "a\nb"],
        "images": ["", [], [7], {}, ["a.hex", ""]],
        "cycles": [0, -1, 2**40 + 1, "9", 1.5, True],
        "latency": [0, 65_536, [1], "1"],
        "byte_time": [255, 4_097, True],
        "window": [[], [1], [5, 4], [0, 2**41], [0, "9"], 7, [[0, 9]]],
        "seed": [1.5, "1", True, 2**63, []],
        "link_latency": [[0, 5], [9, 5], [1, 65_536], 7, [1, 2, 3], ["1", 2]],
        "at": [-1, 2**40 + 1, 0.5],
        "stagger": [-1, "977", {}],
        "numbers": [0, 1, "true"],
        "inputs": [{"x": "00"}, {"2": 7}, {"2": "0"}, {"2": "0G"}, {"2": ""}, [], "00"],
        "every": [0, 65_536, None],
        "spans": [{"0:1": [[0, 5]]}, {"0-1": 5}, {"0-1": [[5, 4]]}, {"0-1": [5]}, {"0-1": [["a", "b"]]}, []],
    }

    def test_of_a_network(self):
        """Each wrong value is refused by its key, in the table and as one of those that vary."""
        self.assertEqual(self.WRONG.keys(), campaign_keys.NETWORK.keys())
        for key, values in self.WRONG.items():
            for value in values:
                sentence = f"^the file: {key} is not {re.escape(campaign_keys.NETWORK[key].form)}$"
                for table, axes in ({**self.NETWORK, key: value}, []), (self.NETWORK, [variants.Axis(key, [value])]):
                    with self.subTest(key=key, value=value), self.assertRaisesRegex(BadInput, sentence):
                        variants.NetworkGroup("the file", "n", axes, 0, table, "", lambda path: path)

    def test_what_makes_no_network(self):
        """Values that are right one by one, and together make none, are refused in words too."""
        for more, sentence in (
            ({"shape": "wheel"}, "wheel is not a shape"),
            ({"shape": "grid:0"}, "grid:0: 0 is not a whole number"),
            ({"shape": "geo:x"}, "geo:x: x is not a distance"),
            ({"shape": "torus:2"}, "3 nodes are not whole rows"),
            ({"images": ["a.hex*65"]}, "more than 64 nodes"),
            ({"images": ["a.hex*0"]}, "no IMAGE"),
            ({"spans": {"0-9": [[0, 5]]}}, "ring has no link from 0 to 9"),
            ({"spans": {"0-1": []}}, "OutOfRange"),
            ({"inputs": {"9": "00"}}, "there is no node 9"),
            ({"window": [0, 20_001]}, "more than 20,000 cycles"),
            ({"at": 2**40, "stagger": 2**40}, "OutOfRange"),
        ):
            with self.subTest(more), self.assertRaises(BadInput) as refusal:
                variants.NetworkGroup("the file", "n", [], 0, {**self.NETWORK, **more}, "", lambda path: path)
            self.assertRegex(str(refusal.exception), f"^the file: .*{re.escape(sentence)}")
            self.assertNotRegex(str(refusal.exception), "Error|argument|object|NoneType")

    def test_the_document(self):
        """Its tables have these keys and no others, with the ranges and with what holds where a key is absent."""
        with open(f"{TOOLS}/CAMPAIGNS.md", encoding="utf-8") as file:
            rows = [[cell.strip() for cell in line.strip("|\n ").split("|")] for line in file if line.startswith("|")]
        absent = {key: it.default for key, it in campaign_keys.TOP.items()} | networks.scenario.__kwdefaults__
        for title, keys in (
            ("At the top", campaign_keys.TOP.keys() - {"run"}),
            ("In a `[[run]]`", campaign_keys.RUN.keys()),
            ("In a `network`", campaign_keys.NETWORK.keys()),
        ):
            first = next(index for index, row in enumerate(rows) if row[0] == title)
            table = {row[0].strip("`"): row[1:] for row in itertools.takewhile(lambda row: row[0][0] == "`", rows[first + 2 :])}
            self.assertEqual(table.keys(), keys)
            for key, cells in table.items():
                known = {**campaign_keys.TOP, **campaign_keys.RUN, **campaign_keys.NETWORK}[key]
                if known.form[0].isdigit():
                    self.assertIn(known.form.removesuffix(" seconds"), cells[0], key)
                if type(absent.get(key)) is int and title != "In a `[[run]]`":
                    self.assertEqual(cells[1], f"{absent[key]:,}", key)


class Drawn(unittest.TestCase):
    """Networks that a function draws, with images of their own."""

    CAMPAIGN = '[[run]]\ndraw = "drawing.py"\nexpect = "net.expect"\nvary.number = { from = 20, to = 23 }\n'
    DRAWING = """import beside
def draw(number):
    if number == 23:
        raise ValueError("no such number")
    name = f"{beside.LETTER}.hex"
    text = f'version = 3\\ncycles = 5_000\\nlatency = {number * 3 // 2}\\n' + f'[[node]]\\nimage = "{name}"\\n' * 2
    return text, {name: b":00000001FF\\n" + bytes([number])}
"""

    @contextlib.contextmanager
    def place(self):
        with folder(self.CAMPAIGN, case="* 0 sent AA\nwithin 30..30: never * 0 sent *\n") as path:
            for name, text in ("drawing.py", self.DRAWING), ("beside.py", 'LETTER = "q"\n'):
                with open(f"{path}/{name}", "w", encoding="utf-8") as file:
                    file.write(text)
            yield path

    def test_each_has_its_own(self):
        with self.place() as path:
            status, _, errors, rows = run_campaign(path, "--run-code", "--jobs", "1")
            self.assertEqual(status, 1, errors)
            found = {row["parameters"]["number"]: row["outcome"] for row in rows.values()}
            self.assertEqual(found, {20: "failed", 21: "passed", 22: "passed", 23: "refused"})
            self.assertIn("draw(23) ended with ValueError: no such number", rows["drawing number=23"]["message"])
            with open(f"{path}/c.results/runs/drawing,number=20.images/q.hex", "rb") as file:
                self.assertEqual(file.read(), b":00000001FF\n\x14")
            self.assertEqual(set(starts(path)), {"30", "31", "33"})
            _, _, errors, _ = run_campaign(path, "--run-code", "--jobs", "1")
            self.assertIn("4 of 4 results are there already", errors)
            # What it reads from beside it changed, so each is drawn again; the one image has another name.
            with open(f"{path}/beside.py", "w", encoding="utf-8") as file:
                file.write('LETTER = "r"\n')
            _, _, errors, _ = run_campaign(path, "--run-code", "--jobs", "1")
            self.assertNotIn("already", errors)

    def test_one_of_them(self):
        with self.place() as path:
            words = ("--run-code", "--scenario", "drawing number=21", "--images", f"{path}/out")
            status, out, errors, _ = run_campaign(path, *words)
            self.assertEqual((status, tomllib.loads(out)["latency"]), (0, 31), errors)
            with open(f"{path}/out/q.hex", "rb") as file:
                self.assertEqual(file.read(), b":00000001FF\n\x15")

    def test_refusals(self):
        for text, sentence in (
            (None, "cannot be loaded: FileNotFoundError"),
            ("def", "cannot be loaded: SyntaxError"),
            ("import sys; sys.exit(0)", "cannot be loaded: SystemExit"),
            ("drawn = 1", "has no function draw"),
            ("def draw(number): return 7", r"draw\(20\) ended with TypeError"),
            ('def draw(number): return "", {"../a.hex": b""}', "which is not a plain name"),
        ):
            with self.subTest(text), folder(self.CAMPAIGN) as path:
                if text:
                    with open(f"{path}/drawing.py", "w", encoding="utf-8") as file:
                        file.write(text)
                with self.assertRaisesRegex(BadInput, f"run 1: .*{sentence}"):
                    campaigns.read(f"{path}/c.toml").demand_draws(True)
        with folder(self.CAMPAIGN.replace("vary.number", "vary.seed")) as path:
            with self.assertRaisesRegex(BadInput, "a drawn run can vary only number"):
                campaigns.read(f"{path}/c.toml")


class WithoutDask(Outcomes, unittest.TestCase):
    """By processes of this machine."""

    def test_it_goes_on_where_it_was(self):
        with folder() as path:
            run_campaign(path)
            with contextlib.closing(sqlite3.connect(f"{path}/c.results/results.sqlite")) as database, database:
                database.execute("DELETE FROM run WHERE name = 'net latency=20'")
                database.execute("UPDATE run SET digest = 'other', sitting = 0 WHERE name = 'net latency=30'")
            os.unlink(f"{path}/log")
            status, _, errors, rows = run_campaign(path)
            self.assertEqual((status, len(rows)), (1, 5), errors)
            self.assertEqual(set(starts(path)), {"4", "20", "30"})
            self.assertIn("2 of 5 results are there already", errors)

    def test_it_says_what_is_missing(self):
        with folder() as path:
            status, _, errors, _ = run_campaign(path, "--scheduler", "tcp://127.0.0.1:9")
            self.assertEqual(status, 3)
            self.assertIn("python3-distributed", errors)

    def test_changed_content_is_run_again(self):
        with folder() as path:
            run_campaign(path)
            with open(f"{path}/net.expect", "w", encoding="utf-8") as file:
                file.write("* 1 heard *\n")
            status, _, errors, rows = run_campaign(path)
            self.assertEqual((status, rows["net latency=20"]["outcome"]), (1, "passed"), errors)
            self.assertNotIn("already", errors)

    def test_time(self):
        """What the trace had come to is kept."""
        settings = 'attempts = 1\ntimeout = 1\ntraces = "failed"'
        campaign = CAMPAIGN.replace("[1, 3, 4, 20, 30]", "[2]").replace("attempts = 2", settings)
        with folder(campaign) as path:
            status, _, errors, rows = run_campaign(path)
            self.assertEqual(status, 3, errors)
            self.assertEqual(rows["net latency=2"]["message"], "took more than 1 s")
            with gzip.open(f"{path}/c.results/{rows['net latency=2']['trace']}", "rt", encoding="utf-8") as file:
                self.assertEqual(file.read(), "7 0 sent AA\n")

    def test_traces(self):
        campaign = CAMPAIGN.replace("[1, 3, 4, 20, 30]", "[20, 30]").replace("attempts = 2", 'traces = "failed"')
        with folder(campaign) as path:
            status, _, errors, _ = run_campaign(path)
            self.assertEqual(status, 1, errors)
            names = os.listdir(f"{path}/c.results/runs")
            self.assertEqual([name for name in names if name.endswith(".gz")], ["net,latency=20.trace.gz"])
            status, out, errors = run_tool(
                "expect", "--trace", f"{path}/c.results/runs/net,latency=20.trace.gz", f"{path}/net.expect"
            )
            self.assertEqual(status, 1, errors)
            self.assertIn("20 0 sent AA", out)

    def test_golden_traces(self):
        case = "only sent\ngolden one.rows\ngolden two.rows without cycles\n"
        with folder(CAMPAIGN.replace("[1, 3, 4, 20, 30]", "[30, 31]"), case) as path:
            for name, text in ("one.rows", "30 0 sent AA\n"), ("two.rows", "0 sent AA\n"):
                with open(f"{path}/{name}", "w", encoding="utf-8") as file:
                    file.write(text)
            _, _, errors, rows = run_campaign(path)
            self.assertEqual(rows["net latency=30"]["outcome"], "passed", errors)
            message = rows["net latency=31"]["message"]
            self.assertEqual(message.splitlines()[0], "net.expect, line 2: row 1 differs from one.rows:")
            self.assertIn("\n-30 0 sent AA\n+31 0 sent AA", message)
            with open(f"{path}/two.rows", "w", encoding="utf-8") as file:
                file.write("0 sent AB\n")
            _, _, errors, rows = run_campaign(path)
            self.assertIn("differs from two.rows", rows["net latency=30"]["message"], errors)

    def test_the_window_of_the_scenario(self):
        """A case may say that instructions do not come in the scenario's window, and nothing of them outside of it."""
        scenario = SCENARIO.replace("latency", "window = [0, 100]\nlatency")
        campaign = CAMPAIGN.replace("[1, 3, 4, 20, 30]", "[30]")
        for span, outcome in (("0..99", "passed"), ("200..300", "broken")):
            with self.subTest(span), folder(campaign, f"within {span}: never * 0 instr *\n", scenario) as path:
                _, _, errors, rows = run_campaign(path)
                self.assertEqual(rows["net latency=30"]["outcome"], outcome, errors)

    def test_two_at_once(self):
        with folder() as path:
            env = {**os.environ, "CAMPAIGN_LOG": f"{path}/log", "CAMPAIGN_HELD": "0", **hidden_dask(path)}
            words = [*TOOL, "campaign", "--avrora", f"{path}/avrora", f"{path}/c.toml"]
            streams = {"stdout": subprocess.DEVNULL, "stderr": subprocess.DEVNULL}
            first = subprocess.Popen(words, env=env, preexec_fn=hear_interrupts, **streams)
            wait_for(lambda: os.path.exists(f"{path}/log"))
            status, _, errors, _ = run_campaign(path)
            first.send_signal(signal.SIGINT)
            let_go(path)
            self.assertEqual(first.wait(LONG), 130)
            self.assertEqual(status, 3)
            self.assertIn("another campaign is at work", errors)

    def test_list_and_one_scenario(self):
        with folder() as path:
            status, out, _, _ = run_campaign(path, "--list")
            self.assertEqual((status, out.splitlines()[-1]), (0, "net latency=30"))
            status, out, _, _ = run_campaign(path, "--scenario", "net latency=30")
            self.assertEqual((status, tomllib.loads(out)["latency"]), (0, 30))
            status, _, errors, _ = run_campaign(path, "--scenario", "net")
            self.assertEqual((status, "no run is called net" in errors), (2, True))

    def test_junit(self):
        with folder() as path:
            run_campaign(path)
            suite = xml.etree.ElementTree.parse(f"{path}/c.results/junit.xml").getroot().find("testsuite")
            self.assertEqual((suite.get("tests"), suite.get("failures"), suite.get("errors")), ("5", "2", "1"))
