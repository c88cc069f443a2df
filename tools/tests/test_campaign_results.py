"""campaign: the file of results and what is told of it, also while it is written to; shards."""
import contextlib
import json
import os
import sqlite3
import subprocess
import unittest
import xml.etree.ElementTree

from campaign_runs import CAMPAIGN, folder, let_go, run_campaign, starts, stored
from support import LONG, TOOL, run_tool, wait_for
from avrora_tools import campaigns, reports, results, runs, sittings

TWO = CAMPAIGN.replace("[1, 3, 4, 20, 30]", "[20, 30]")


def answer(outcome, message="", seconds=1.0, sent=0):
    return {**runs.answer(outcome, message), "counts": [sent, 0, 0, 0, 0], "seconds": seconds, "hash": "00"}


@contextlib.contextmanager
def store_of(path, campaign=TWO):
    """A file of results of the runs 20 and 30, not run but written."""
    with results.opened_folder(
        f"{path}/results", make=True
    ) as place, contextlib.closing(results.Store(place)) as store:
        read = campaigns.read(f"{path}/c.toml")
        about = sittings.about_of(read, campaigns.Shard())
        store.arrange(about["signature"], read.runs())
        store.begin(about, "identity", "the program", "the checker")
        yield read, store


class TheRows(unittest.TestCase):
    def test_a_row_has_all_of_a_run(self):
        """What the fake simulator writes is known, so is the hash of its trace (by sha256sum)."""
        with folder(TWO.replace("[20, 30]", "[30]")) as path:
            run_campaign(path)
            with contextlib.closing(sqlite3.connect(f"{path}/c.results/results.sqlite")) as database:
                database.row_factory = sqlite3.Row
                (row,) = database.execute("SELECT * FROM result")
            trace = b"30 0 sent AA\n39 1 heard 1 AA 0\n5000 0 end 10 running\n5000 1 end 10 running\n"
            summed = subprocess.run(["sha256sum"], input=trace, capture_output=True, check=True).stdout.split()[0]
            program = subprocess.run(["sha256sum", f"{path}/avrora"], capture_output=True, check=True).stdout.split()[0]
            self.assertEqual(row["hash"], summed.decode())
            self.assertEqual(row["program"], program.decode())
            self.assertEqual(
                (row["name"], row["outcome"], row["sent"], row["heard"]), ("net latency=30", "passed", 1, 1)
            )
            self.assertEqual((json.loads(row["parameters"]), row["attempts"]), ({"latency": 30}, 1))
            self.assertRegex(row["host"], "process 0$")
            self.assertRegex(row["digest"] + row["checker"], "^[0-9a-f]{128}$")

    def test_what_left_the_campaign_is_put_aside(self):
        """It is told, comes back where the runs do, and is dropped where that is asked for."""
        with folder() as path:
            run_campaign(path)
            with open(f"{path}/c.toml", "w", encoding="utf-8") as file:
                file.write(CAMPAIGN.replace("[1, 3, 4, 20, 30]", "[30, 3]"))
            os.unlink(f"{path}/log")
            status, out, errors, rows = run_campaign(path)
            self.assertEqual((status, list(rows)), (0, ["net latency=30", "net latency=3"]), errors)
            self.assertIn("c: 2 runs, 2 passed\n", out)
            self.assertIn("3 results are of runs that are no longer in the campaign: they are put aside", errors)
            self.assertFalse(os.path.exists(f"{path}/log"), "a result that is there was run again")
            self.assertEqual(len(os.listdir(f"{path}/c.results/runs")), 3)
            with open(f"{path}/c.toml", "w", encoding="utf-8") as file:
                file.write(CAMPAIGN.replace("[1, 3, 4, 20, 30]", "[1, 20, 30, 3]"))
            status, _, errors, rows = run_campaign(path)
            self.assertEqual((status, len(rows)), (1, 4), errors)
            self.assertIn("2 results that were aside are back", errors)
            self.assertFalse(os.path.exists(f"{path}/log"), "a result that is there was run again")
            _, _, errors, _ = run_campaign(path, "--drop")
            self.assertIn("1 results of runs that are no longer in the campaign are dropped", errors)
            self.assertEqual(
                sorted(os.listdir(f"{path}/c.results/runs")), ["net,latency=1.toml", "net,latency=20.toml"]
            )

    def test_a_trace_that_is_wanted_now(self):
        with folder(TWO) as path:
            run_campaign(path)
            with open(f"{path}/c.toml", "w", encoding="utf-8") as file:
                file.write(TWO.replace("attempts = 2", 'attempts = 2\ntraces = "failed"'))
            _, _, errors, rows = run_campaign(path)
            self.assertEqual(sorted(starts(path)), ["20"] * 4 + ["30"], errors)
            self.assertIsNone(rows["net latency=30"]["trace"])
            self.assertTrue(os.path.exists(f"{path}/c.results/{rows['net latency=20']['trace']}"))

    def test_begun_again_where_that_can_help(self):
        """Statuses 6 (memory) and 1 (the worker's disk) may come to something else, 7 may not."""
        with folder(CAMPAIGN.replace("[1, 3, 4, 20, 30]", "[4, 5, 6]")) as path:
            status, _, errors, rows = run_campaign(path, "--jobs", "1")
            self.assertEqual(status, 3, errors)
            found = {row["parameters"]["latency"]: (row["outcome"], row["attempts"]) for row in rows.values()}
            self.assertEqual(found, {4: ("broken", 2), 5: ("broken", 1), 6: ("broken", 2)})

    def test_no_results(self):
        with folder(TWO) as path:
            os.mkdir(f"{path}/c.results")
            with open(f"{path}/c.results/results.sqlite", "wb") as file:
                file.write(b"nonsense" * 1000)
            status, _, errors, _ = run_campaign(path)
            self.assertEqual((status, "no results of a campaign" in errors), (2, True), errors)
            status, _, errors, _ = run_campaign(path, "--anew")
            self.assertEqual(status, 1, errors)


class TheReport(unittest.TestCase):
    def report(self, path, *words):
        return run_tool("campaign", "--report", *words, f"{path}/c.toml")

    def test_while_it_runs(self):
        """The two runs that are held have no result yet; that of the first, which is a batch by itself, stands in the
        report."""
        campaign = CAMPAIGN.replace("[1, 3, 4, 20, 30]", "[30, 40, 50]")
        with folder(campaign) as path:
            env = {**os.environ, "CAMPAIGN_LOG": f"{path}/log", "CAMPAIGN_HELD": "40"}
            words = [*TOOL, "campaign", "--jobs", "2", "--avrora", f"{path}/avrora", f"{path}/c.toml"]
            with subprocess.Popen(words, env=env, stdout=subprocess.DEVNULL, stderr=subprocess.DEVNULL) as process:
                wait_for(lambda: stored(path) == 1)
                status, out, errors = self.report(path)
                self.assertEqual(status, 3, errors)
                self.assertIn("\nc: 3 runs, 1 passed, 2 without a result yet\n", out)
                self.assertIsNone(process.poll())
                let_go(path)
                self.assertEqual(process.wait(LONG), 0)
            self.assertIn("\nc: 3 runs, 3 passed\n", self.report(path)[1])

    def test_order(self):
        campaign = TWO.replace("[20, 30]", "[20, 30, 100]")
        with folder(campaign) as path, store_of(path) as (read, store):
            for number, (seconds, sent) in enumerate(((2.0, 7), (9.0, 5), (3.0, 6))):
                store.save(read.run(number), "d1" * 32, answer("passed", "", seconds, sent), "host", 1)
            store.commit()
            names = "net latency=20", "net latency=30", "net latency=100"
            for by, reverse, expected in (
                (None, False, (0, 1, 2)),
                ("seconds", False, (1, 2, 0)),
                ("sent", True, (1, 2, 0)),
                ("latency", False, (2, 1, 0)),
                ("name", True, (2, 0, 1)),
            ):
                found = [row["name"] for row in reports.Report([store.database], by, reverse).rows()]
                self.assertEqual(found, [names[index] for index in expected], by)
            self.assertEqual(len(list(reports.Report([store.database], "sent", top=2).rows())), 2)
            with self.assertRaisesRegex(Exception, "no column and no parameter is called speed"):
                reports.Report([store.database], "speed")

    def test_junit(self):
        """With characters that XML cannot have."""
        with folder(TWO.replace("[20, 30]", "[20, 30, 40]")) as path, store_of(path) as (read, store):
            for number, outcome in enumerate(("failed", "broken", "passed")):
                store.save(read.run(number), "d1" * 32, answer(outcome, "first <&\x01\nsecond"), "host", 1)
            store.commit()
            with open(f"{path}/junit.xml", "w", encoding="utf-8") as file:
                reports.Report([store.database]).write_junit(file)
            suite = xml.etree.ElementTree.parse(f"{path}/junit.xml").getroot().find("testsuite")
            self.assertEqual((suite.get("tests"), suite.get("failures"), suite.get("errors")), ("3", "1", "1"))
            failed, broken, passed = suite.findall("testcase")
            self.assertEqual(failed.find("failure").get("message"), "first <&\\x01")
            self.assertIn("second\non host", broken.find("error").text)
            self.assertEqual((passed.get("name"), len(passed)), ("net latency=40", 0))

    def test_shards(self):
        """Two parts of a campaign have each run once, and are told as one."""
        with folder(CAMPAIGN.replace("[1, 3, 4, 20, 30]", "[20, 30, 40, 50, 60]")) as path:
            for shard in ("1/2", "2/2"):
                status, _, errors, _ = run_campaign(path, "--shard", shard)
                self.assertEqual(status, 1 if shard == "1/2" else 0, errors)
            self.assertEqual(set(starts(path)), {"20", "30", "40", "50", "60"})
            files = [f"{path}/c.results/shard-{number}-of-2/results.sqlite" for number in (1, 2)]
            status, out, errors = run_tool("campaign", "--report", *files, "--by", "latency")
            self.assertEqual(status, 1, errors)
            self.assertEqual([line.split()[1] for line in out.splitlines() if line.startswith("net")],
                             [f"latency={latency}" for latency in (60, 50, 40, 30, 20)])  # fmt: skip
            self.assertIn("\nc: 5 runs, 4 passed, 1 failed\n", out)
            status, _, errors, _ = run_campaign(path, "--shard", "3/2")
            self.assertEqual((status, "is not a part I/N" in errors), (2, True))


if __name__ == "__main__":
    unittest.main()
