"""What the tests of campaign share: a simulator that does as it is told, a campaign of it, and what comes of five runs,
whoever runs them."""
import atexit
import contextlib
import glob
import json
import os
import shutil
import signal
import sqlite3
import sys
import tempfile

from support import run_tool
from avrora_tools import results, runs

# The key by which results are sealed is that of these tests alone.
STATE_HOME = tempfile.mkdtemp(prefix="avrora-state-")
os.environ["XDG_STATE_HOME"] = STATE_HOME
atexit.register(shutil.rmtree, STATE_HOME, ignore_errors=True)

# Stands for the simulator. What it does is told by the latency of the scenario, so that a campaign can vary it: 1 the
# scenario is refused, 2 it hangs, 3 it fails the first time, 4 it always fails, 5 with a status that another attempt
# does not change, 6 with that of a full disk, else node 0 sends a byte. It notes each start. The scenario by which a
# worker proves itself comes out as it should, unless CAMPAIGN_SICK is set. From the latency CAMPAIGN_HELD on it says in
# a file that the process which started it has a run under way, and waits for the file `go` beside the log. From the
# latency CAMPAIGN_FULL on it fills the disk that it works on, and ends as one that cannot write.
SIMULATOR = f"""#!{sys.executable} -IS
import os, sys, time
text = open(sys.argv[2]).read()
if "{runs.PROOF_NAME}" in text:
    sys.exit(print({runs.PROOF_TRACE!r}, end="") if "CAMPAIGN_SICK" not in os.environ else 7)
latency = int(text.split("latency = ")[1].split()[0])
log = os.environ["CAMPAIGN_LOG"]
before = open(log).read().split() if os.path.exists(log) else []
with open(log, "a") as file:
    file.write(f"{{latency}}\\n")
place = os.path.dirname(log)
if latency >= int(os.environ.get("CAMPAIGN_HELD", 1_000_000)):
    open(f"{{place}}/held-{{os.getppid()}}", "w").close()
    while os.path.exists(log) and not os.path.exists(f"{{place}}/go"):
        time.sleep(0.02)
if latency >= int(os.environ.get("CAMPAIGN_FULL", 1_000_000)):
    try:
        with open("filler", "wb") as file:
            while True:
                file.write(bytes(1000))
                file.flush()
    except OSError:
        sys.exit(1)
if latency == 1:
    sys.exit(sys.stderr.write(f"avrora: {{sys.argv[2]}}: scenario refused: OutOfRange\\n") and 4)
if latency == 2:
    print("7 0 sent AA", flush=True)
    time.sleep(3600)
if latency == 5:
    sys.exit(7)
if latency == 6:
    sys.exit(1)
if latency == 4 or latency == 3 and "3" not in before:
    sys.exit(6)
print(f"{{latency}} 0 sent AA\\n{{latency + 9}} 1 heard 1 AA 0\\n5000 0 end 10 running\\n5000 1 end 10 running")
"""

SCENARIO = """version = 3
cycles = 5_000
latency = 100
[[node]]
image = "a.hex"
[[node]]
image = "a.hex"
[[link]]
from = 0
to = 1
[[input]]
node = 1
at = 500
hex = "01"
"""

CASE = "* 0 sent AA\nwithin 20..29: never * 0 sent *\n"

CAMPAIGN = """attempts = 2
[[run]]
scenario = "net.toml"
expect = "net.expect"
[run.vary]
latency = [1, 3, 4, 20, 30]
"""


@contextlib.contextmanager
def folder(campaign=CAMPAIGN, case=CASE, scenario=SCENARIO):
    """A folder with a campaign, its scenario, case and image, and a simulator."""
    with tempfile.TemporaryDirectory() as path:
        texts = {
            "c.toml": campaign,
            "net.toml": scenario,
            "net.expect": case,
            "a.hex": ":00000001FF\n",
            "avrora": SIMULATOR,
        }
        for name, text in texts.items():
            with open(f"{path}/{name}", "w", encoding="utf-8") as file:
                file.write(text)
        os.chmod(f"{path}/avrora", 0o755)
        yield path


def run_campaign(path, *words, without_dask=True, **env):
    """Runs the campaign c.toml; its status, output and errors, and the rows of the summary by name."""
    env = {"CAMPAIGN_LOG": f"{path}/log", "AVRORA": f"{path}/avrora", "AVRORA_PROGRAM": f"{path}/avrora", **env}
    if without_dask:
        env |= hidden_dask(path)
    status, out, errors = run_tool("campaign", *words, f"{path}/c.toml", env=env)
    rows = {}
    if os.path.exists(f"{path}/c.results/summary.jsonl"):
        with open(f"{path}/c.results/summary.jsonl", encoding="utf-8") as file:
            lines = [json.loads(line) for line in file]
        rows = {row["name"]: row for row in lines}
        assert len(rows) == len(lines), "a run stands twice in the summary"
    return status, out, errors, rows


def hidden_dask(path):
    """The environment of a Python that has no dask."""
    os.makedirs(f"{path}/hidden", exist_ok=True)
    with open(f"{path}/hidden/distributed.py", "w", encoding="utf-8") as file:
        file.write("raise ImportError\n")
    return {"PYTHONPATH": f"{path}/hidden"}


def hear_interrupts():
    """In a process that is about to start: ^C ends it, also where that is ignored here, as behind a shell's `&`."""
    signal.signal(signal.SIGINT, signal.SIG_DFL)


def let_go(path):
    """Lets the runs go on that are held."""
    with open(f"{path}/go", "w", encoding="utf-8"):
        pass


def stored(path):
    """How many results the file of results has."""
    try:
        with contextlib.closing(sqlite3.connect(f"{path}/c.results/{results.FILE}", timeout=60)) as database:
            return database.execute("SELECT count(*) FROM run").fetchone()[0]
    except sqlite3.OperationalError:  # it is not there yet, or has no tables
        return 0


def starts(path):
    with open(f"{path}/log", encoding="utf-8") as file:
        return file.read().split()


class Outcomes:
    """What comes of five runs, whoever runs them."""

    @contextlib.contextmanager
    def place(self):
        """The folder of the campaign, and the words that say who runs it."""
        with folder() as path:
            yield path, ["--jobs", "2"]

    def test_outcomes_and_attempts(self):
        with self.place() as (path, words):
            status, out, errors, rows = run_campaign(path, *words, without_dask=words[0] == "--jobs")
            self.assertEqual(status, 1, errors)
            found = {name: (row["outcome"], row["attempts"]) for name, row in rows.items()}
            self.assertEqual(
                found,
                {
                    "net latency=1": ("refused", 1),
                    "net latency=3": ("passed", 2),
                    "net latency=4": ("broken", 2),
                    "net latency=20": ("failed", 1),
                    "net latency=30": ("passed", 1),
                },
            )
            # What is not passed is made again, on the other worker.
            self.assertEqual(sorted(starts(path)), sorted("1 1 3 3 4 4 20 20 30".split()))
            self.assertEqual(rows["net latency=1"]["message"], "avrora: scenario.toml: scenario refused: OutOfRange")
            self.assertEqual(rows["net latency=4"]["message"], "status 6: ")
            self.assertIn("net.expect, line 2", rows["net latency=20"]["message"])
            self.assertEqual(
                rows["net latency=30"]["counts"], {"sent": 1, "heard": 1, "clashes": 0, "serial": 0, "stops": 0}
            )
            self.assertEqual(rows["net latency=30"]["parameters"], {"latency": 30})
            self.assertIn("c: 5 runs, 2 passed, 1 failed, 1 refused, 1 broken", out)
            names = [os.path.basename(name) for name in glob.glob(f"{path}/c.results/runs/*.toml")]
            self.assertEqual(sorted(names), [f"net,latency={latency}.toml" for latency in (1, 20, 4)])
