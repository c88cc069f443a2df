#!/usr/bin/env python3
"""Campaigns with a drawn worker that has a drawn sickness, for some time: is any verdict wrong, and who is told?

    tools/tests/drawn_sickness.py [SECONDS [SEED]]

Each round is a campaign of two hundred runs on three or four processes of this machine, with a second opinion on each
second run that passed. One of them gets sick behind a drawn count of runs, in each of a drawn number of them. Now and
then the client is killed in between, and the same command goes on. What comes of each run is compared with what is
known of it by hand. Status 1 where an outcome or a hash is wrong, a failure is told that is none, the sick worker is
not named, or a well one is set aside.
"""
import collections
import os
import random
import re
import signal
import subprocess
import sys
import time
from pathlib import Path

HERE = Path(__file__).resolve().parent
sys.path[:0] = [str(HERE), str(HERE.parent)]

import sick  # noqa: E402
from campaign_runs import folder  # noqa: E402
from avrora_tools import results  # noqa: E402

COUNT = 200

# Workers that are set aside, and those that are only told to be slow.
ASIDE = re.compile("the worker (.+? process [0-9]+) is set aside: ")
NAMED = re.compile("the worker (.+? process [0-9]+)(?: is set aside: | has had |: the worker gave no sign)")

# The tool, with second opinions of each second run that passed: a round is short.
TOOL = """import sys; sys.path.insert(0, sys.argv.pop(1))
from avrora_tools import driving, main
driving.SAMPLE = 2
main.main(sys.argv[1:])
"""


def round_of(drawn, path, sickness):
    """Runs a campaign to its end; its status, what it said, and in how many sittings."""
    env = {**os.environ, "CAMPAIGN_PLACE": path, "CAMPAIGN_ONE": "1", "CAMPAIGN_SICKNESS": sickness}
    env |= {"CAMPAIGN_EVERY": str(drawn.randint(1, 4)), "CAMPAIGN_AFTER": str(drawn.randint(0, 4))}
    words = [sys.executable, "-B", "-c", TOOL, str(HERE.parent), "campaign", "--jobs", str(drawn.randint(3, 4))]
    words += ["--avrora", f"{path}/avrora", f"{path}/c.toml"]
    said, sittings = "", 1
    kills = drawn.random() < 0.3
    while True:
        with subprocess.Popen(words, env=env, stdout=subprocess.DEVNULL, stderr=subprocess.PIPE, text=True) as process:
            try:
                said += process.communicate(timeout=drawn.uniform(1, 20) if kills else None)[1]
                return process.returncode, said, sittings
            except subprocess.TimeoutExpired:
                process.send_signal(signal.SIGKILL)
                said += process.communicate()[1]
                kills = False
                sittings += 1
                Path(path, "sick").unlink(missing_ok=True)


def main():
    seconds = float(sys.argv[1]) if len(sys.argv) > 1 else 600
    seed = int(sys.argv[2]) if len(sys.argv) > 2 else random.randrange(1 << 30)
    drawn = random.Random(seed)
    end = time.monotonic() + seconds
    rounds = faults = 0
    told: collections.Counter[str] = collections.Counter()
    while time.monotonic() < end:
        sickness = drawn.choice([*sick.SICKNESSES])
        with folder(sick.campaign(sickness, COUNT), sick.CASE) as path, sick.place_of(path):
            status, said, sittings = round_of(drawn, path, sickness)
            with results.reading(f"{path}/c.results/results.sqlite") as reading:
                found = sick.verdicts(results.rows(reading.database))
        rounds += 1
        told[sickness] += 1
        wrong = [name for name, it in sick.expected(COUNT).items() if found.get(name) != it]
        is_told = NAMED.search(said) and len(set(ASIDE.findall(said))) <= sittings
        if wrong or status or "failed: net" in said or "refused: net" in said or not is_told:
            faults += 1
            print(f"round {rounds}, {sickness}: status {status}, wrong: {wrong}\n{said}", flush=True)
    print(f"seed {seed}: {rounds} rounds, {faults} not as they should be; {dict(told)}")
    return int(faults > 0)


if __name__ == "__main__":
    if sys.argv[1:2] in (["--help"], ["-h"]):
        sys.exit(print(__doc__))
    sys.exit(main())
