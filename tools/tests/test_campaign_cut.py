"""campaign: ended in each way, and what keeps a result of before."""
import contextlib
import os
import shutil
import signal
import sqlite3
import subprocess
import sys
import tempfile
import unittest
from pathlib import Path

from campaign_runs import CAMPAIGN, folder, hear_interrupts, hidden_dask, let_go, run_campaign, starts, stored
from support import LONG, TOOL, TOOLS, needs_mounts, wait_for, with_disk
from avrora_tools import campaigns, checkers, results
from avrora_tools.errors import CannotWork

HELD = CAMPAIGN.replace("[1, 3, 4, 20, 30]", "[31, 30, 40, 50]")


# A campaign that holds its lock and has a child, whose number it writes.
HOLDER = """import os, sys, time
from avrora_tools import results
with results.opened_folder(sys.argv[1]) as folder, results.locked(folder):
    child = os.fork()
    if child:
        os.write(1, f"{child}\\n".encode())
    os.close(1)
    time.sleep(3600)
"""


def is_there(process: int) -> bool:
    """Whether a process is there and no zombie."""
    try:
        return Path(f"/proc/{process}/stat").read_text(encoding="utf-8").rpartition(")")[2].split()[0] != "Z"
    except FileNotFoundError:
        return False


class Ended(unittest.TestCase):
    """A campaign with a run of latency 40 and one of 50 under way is ended; the same command goes on at once."""

    def ended_by(self, number: int) -> int:
        with folder(HELD) as path:
            env = {**os.environ, "CAMPAIGN_LOG": f"{path}/log", "CAMPAIGN_HELD": "40", **hidden_dask(path)}
            words = [*TOOL, "campaign", "--jobs", "2", "--avrora", f"{path}/avrora", f"{path}/c.toml"]
            streams = {"stdout": subprocess.DEVNULL, "stderr": subprocess.DEVNULL}
            with subprocess.Popen(words, env=env, preexec_fn=hear_interrupts, **streams) as process:
                wait_for(lambda: len(list(Path(path).glob("held-*"))) == 2)
                workers = [int(name.name.split("-")[1]) for name in Path(path).glob("held-*")]
                # The answers of a batch come together, so 30 may be with a run that waits.
                wait_for(lambda: stored(path) >= 1)
                process.send_signal(number)
                if number != signal.SIGKILL:
                    let_go(path)  # what is under way is ended with it
                status = process.wait(LONG)
            wait_for(lambda: not any(map(is_there, workers)))
            let_go(path)
            os.unlink(f"{path}/log")
            again, _, errors, rows = run_campaign(path, "--jobs", "2")
            self.assertEqual(again, 0, errors)
            self.assertEqual(
                {row["parameters"]["latency"]: row["outcome"] for row in rows.values()},
                dict.fromkeys((31, 30, 40, 50), "passed"),
            )
            self.assertLessEqual(set(starts(path)), {"31", "30", "40", "50"})
            self.assertIn("are there already", errors)
            self.assertFalse({"30", "31"} <= set(starts(path)))
            return status

    def test_killed(self):
        self.assertEqual(self.ended_by(signal.SIGKILL), -signal.SIGKILL)

    def test_terminated(self):
        self.assertEqual(self.ended_by(signal.SIGTERM), 130)

    def test_interrupted(self):
        self.assertEqual(self.ended_by(signal.SIGINT), 130)

    def test_a_worker_is_killed(self):
        """It is said, a new one comes, and each run has its result."""
        with folder(HELD) as path:
            env = {**os.environ, "CAMPAIGN_LOG": f"{path}/log", "CAMPAIGN_HELD": "40"}
            words = [*TOOL, "campaign", "--jobs", "2", "--avrora", f"{path}/avrora", f"{path}/c.toml"]
            streams = {"stdout": subprocess.DEVNULL, "stderr": subprocess.PIPE, "text": True}
            with subprocess.Popen(words, env=env, **streams) as process:
                held = wait_for(lambda: list(Path(path).glob("held-*")))
                os.kill(int(held[0].name.split("-")[1]), signal.SIGKILL)
                let_go(path)
                errors = process.communicate(timeout=LONG)[1]
            self.assertEqual(process.returncode, 0, errors)
            self.assertIn("the worker ended with status -9", errors)
            with contextlib.closing(sqlite3.connect(f"{path}/c.results/{results.FILE}")) as database:
                found = dict(database.execute("SELECT name, outcome FROM run"))
            self.assertEqual(found, {f"net latency={latency}": "passed" for latency in (30, 31, 40, 50)})

    def test_the_lock_is_of_the_client_alone(self):
        """Killed while a child of it goes on: the next one is let in."""
        with tempfile.TemporaryDirectory() as path:
            holder = [sys.executable, "-B", "-c", HOLDER, path]
            with subprocess.Popen(holder, stdout=subprocess.PIPE, text=True, env={"PYTHONPATH": TOOLS}) as process:
                child = int(process.stdout.readline())
                self.addCleanup(os.kill, child, signal.SIGKILL)
                folder = self.enterContext(results.opened_folder(path))
                with self.assertRaisesRegex(CannotWork, "another campaign is at work"), results.locked(folder):
                    pass
                process.kill()
            self.assertTrue(is_there(child))
            with results.locked(folder):
                pass


@needs_mounts
class Disks(unittest.TestCase):
    """A campaign of this machine on a disk of its own that cannot be used; elsewhere the same command goes on."""

    def status_and_errors(self, path, disk, options, **env):
        os.makedirs(disk, exist_ok=True)
        words = with_disk(disk, options, [*TOOL, "campaign", "--avrora", f"{path}/avrora", f"{path}/c.toml"])
        env = {**os.environ, "CAMPAIGN_LOG": f"{path}/log", **env}
        done = subprocess.run(words, env=env, capture_output=True, text=True, timeout=LONG, check=False)
        return done.returncode, done.stderr

    def test_without_exec(self):
        """All workers are sick, which is not an answer to any run."""
        with folder(HELD) as path:
            status, errors = self.status_and_errors(path, f"{path}/disk", "noexec", TMPDIR=f"{path}/disk")
            self.assertEqual(status, 3, errors)
            self.assertIn("all workers are set aside: ", errors)
            self.assertIn("/avrora: Permission denied", errors)
            self.assertEqual(stored(path), 0)
            self.assertEqual(run_campaign(path)[0], 0)

    def test_full_for_workers(self):
        with folder(HELD) as path:
            status, errors = self.status_and_errors(path, f"{path}/disk", "size=8k", TMPDIR=f"{path}/disk")
            self.assertEqual(status, 3, errors)
            self.assertIn("No space left on device", errors)
            self.assertEqual(stored(path), 0)

    def test_full_for_results(self):
        with folder(HELD) as path:
            status, errors = self.status_and_errors(path, f"{path}/c.results", "size=16k")
            self.assertEqual(status, 3, errors)
            self.assertIn("results.sqlite: ", errors)
            self.assertIn("full", errors)


class Kept(unittest.TestCase):
    """A result is kept where all that decides it is the same."""

    GOLDEN = CAMPAIGN.replace("[1, 3, 4, 20, 30]", "[30]")
    CASE = "only sent\ngolden one.rows\ngolden two.rows without cycles\n"

    def test_golden_traces_that_change_places(self):
        with folder(self.GOLDEN, self.CASE) as path:
            Path(f"{path}/one.rows").write_text("30 0 sent AA\n", encoding="utf-8")
            Path(f"{path}/two.rows").write_text("0 sent AA\n", encoding="utf-8")
            status, _, errors, _ = run_campaign(path)
            self.assertEqual(status, 0, errors)
            os.rename(f"{path}/one.rows", f"{path}/spare")
            os.rename(f"{path}/two.rows", f"{path}/one.rows")
            os.rename(f"{path}/spare", f"{path}/two.rows")
            status, _, errors, rows = run_campaign(path)
            # a row without its cycle is not a row of a golden trace
            self.assertEqual((status, rows["net latency=30"]["outcome"]), (3, "broken"), errors)

    def test_cases_that_change_places(self):
        """Each is in a role of its own, so it is run again though the files are the same."""
        two = self.GOLDEN.replace('"net.expect"', '["net.expect", "other.expect"]')
        with folder(two, "* 0 sent AA\n") as path:
            Path(f"{path}/other.expect").write_text("* 1 heard *\n", encoding="utf-8")
            run_campaign(path)
            Path(f"{path}/c.toml").write_text(
                two.replace('"net.expect", "other.expect"', '"other.expect", "net.expect"'), encoding="utf-8"
            )
            _, _, errors, _ = run_campaign(path)
            self.assertNotIn("already", errors)
            self.assertEqual(starts(path), ["30", "30"])

    def test_another_place(self):
        """A folder that is moved, with all that is run and the results, keeps these."""
        with folder(self.GOLDEN.replace('"net.expect"', '["net.expect", "other.expect"]'), "* 0 sent AA\n") as path:
            Path(f"{path}/one.rows").write_text("30 0 sent AA\n", encoding="utf-8")
            Path(f"{path}/other.expect").write_text("only sent\ngolden one.rows\n", encoding="utf-8")
            self.assertEqual(run_campaign(path)[0], 0)
            with tempfile.TemporaryDirectory() as other:
                shutil.move(path, f"{other}/moved")
                _, _, errors, rows = run_campaign(f"{other}/moved")
                self.assertIn("1 of 1 results are there already", errors)
                self.assertEqual(rows["net latency=30"]["outcome"], "passed")
                shutil.move(f"{other}/moved", path)

    def test_another_checker(self):
        """A package whose checker differs runs all again; one whose words differ does not."""
        with folder(self.GOLDEN, "* 0 sent AA\n") as path:
            campaign = campaigns.read(f"{path}/c.toml")
            one, other = (campaigns.Digests(campaign, "simulator", checker) for checker in ("one", "other"))
            self.assertNotEqual(one.of(campaign.run(0)), other.of(campaign.run(0)))
        sources = checkers.sources()
        self.assertLessEqual(
            {"avrora_tools.benches", "avrora_tools.runs", "avrora_tools.expectations", "avrora_tools.traces"},
            set(sources),
        )
        self.assertNotIn("avrora_tools.commands.campaign", sources)
        self.assertNotIn("avrora_tools.campaigns", sources)


class Status(unittest.TestCase):
    def status_of(self, latencies: str) -> int:
        with folder(CAMPAIGN.replace("[1, 3, 4, 20, 30]", latencies).replace("= 2", "= 1", 1)) as path:
            return run_campaign(path)[0]

    def test_by_outcomes(self):
        self.assertEqual(self.status_of("[30, 31]"), 0)
        self.assertEqual(self.status_of("[20, 30]"), 1)
        self.assertEqual(self.status_of("[1, 30]"), 1)
        self.assertEqual(self.status_of("[4, 30]"), 3)
        self.assertEqual(self.status_of("[4, 20, 30]"), 1)
