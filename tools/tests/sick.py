"""Simulators that are sick by plan, for campaigns whose other workers are well, and what comes of such a campaign."""
import contextlib
import hashlib
import os
import re
import sys

from avrora_tools import runs

# Stands for the simulator, as that of campaign_runs does, and is sick as CAMPAIGN_SICKNESS says. With CAMPAIGN_ONE it
# is so only where it is called by the process that called it first in this campaign, so that one of several workers is
# sick.
SIMULATOR = f"""#!{sys.executable} -IS
import os, signal, sys, time
text = open(sys.argv[2]).read()
if "{runs.PROOF_NAME}" in text:
    sys.exit(print({runs.PROOF_TRACE!r}, end=""))
latency = int(text.split("latency = ")[1].split()[0])
place = os.environ["CAMPAIGN_PLACE"]
sickness = os.environ.get("CAMPAIGN_SICKNESS", "")
if os.environ.get("CAMPAIGN_ONE"):
    try:
        with open(f"{{place}}/sick", "x") as file:
            file.write(str(os.getppid()))
    except FileExistsError:
        pass
    if open(f"{{place}}/sick").read() != str(os.getppid()):
        sickness = ""
if sickness:
    count = len(os.listdir(f"{{place}}/counts"))
    open(f"{{place}}/counts/{{os.getpid()}}", "w").close()
    if count < int(os.environ.get("CAMPAIGN_AFTER", 0)):
        sickness = ""
every = int(os.environ.get("CAMPAIGN_EVERY", 3))
time.sleep(0.02)
sent, instructions = "AA", 10
if sickness == "lie" and count % every == 0:
    sent = "AB"
if sickness == "quiet lie" and count % every == 0:
    instructions = 11
if sickness == "hang" and count % every == 0:
    time.sleep(3600)
if sickness == "memory":
    sys.exit(6)
if sickness == "refuse" and count % every == 0:
    sys.exit(sys.stderr.write("avrora: scenario.toml: scenario refused: OutOfRange\\n") and 4)
if sickness == "image":
    for name in os.listdir("."):
        if name.endswith(".hex") and name != "{runs.PROOF_NAME}":
            os.truncate(name, 5)
            sys.exit(sys.stderr.write("avrora: " + name + ": image refused: NoEnd\\n") and 5)
if sickness == "freeze":
    os.kill(os.getppid(), signal.SIGSTOP)
rows = [f"{{latency}} 0 sent {{sent}}", f"{{latency + 9}} 1 heard 1 {{sent}} 0", f"5000 0 end {{instructions}} running",
        "5000 1 end 10 running", ""]
out = "\\n".join(rows)
if sickness == "empty":
    out = ""
if sickness == "half":
    out = out[:len(out) // 2]
if sickness == "no ends":
    out = "\\n".join(rows[:2] + [""])
sys.stdout.write(out)
"""

# What each sickness has told of the worker that has it.
SICKNESSES = {
    "empty": "is set aside: 3 runs failed on it one after another by no fault of theirs",
    "half": "is set aside: 3 runs failed on it one after another by no fault of theirs",
    "no ends": "is set aside: 3 runs failed on it one after another by no fault of theirs",
    "lie": "is set aside: it came to failed",
    "quiet lie": "is set aside: it came to passed, trace",
    "hang": "(is set aside: [0-9]+ runs came to no answer on it and to one elsewhere, [0-9]+ of them late|has had [0-9]+ runs for)",
    "memory": "is set aside: [0-9]+ runs came to no answer on it and to one elsewhere",
    "refuse": "is set aside: it came to refused",
    "image": "is set aside: its disk has [0-9a-f]{64}.hex otherwise than it was sent",
    "freeze": "has had [0-9]+ runs for [0-9]+ s; they are begun elsewhere too",
}

COUNT = 40
FIRST = 100
CAMPAIGN = f"""attempts = 3
timeout = TIMEOUT
[[run]]
scenario = "net.toml"
expect = "net.expect"
[run.vary]
latency = {{ from = {FIRST}, to = LAST }}
"""
CASE = "* 0 sent AA\n"


def campaign(sickness, count=COUNT):
    """A run that hangs is waited for; any other may take as long as a busy machine makes it."""
    text = CAMPAIGN.replace("LAST", str(FIRST + count - 1))
    return text.replace("TIMEOUT", "10" if sickness == "hang" else "600")


def expected(count=COUNT):
    """By hand: each run passes, and its trace is that of its latency."""
    found = {}
    for latency in range(FIRST, FIRST + count):
        rows = f"{latency} 0 sent AA\n{latency + 9} 1 heard 1 AA 0\n5000 0 end 10 running\n5000 1 end 10 running\n"
        found[f"net latency={latency}"] = "passed", hashlib.sha256(rows.encode()).hexdigest()
    return found



@contextlib.contextmanager
def place_of(path):
    """Makes a folder of campaign_runs one with a sick simulator."""
    os.mkdir(f"{path}/counts")
    with open(f"{path}/avrora", "w", encoding="utf-8") as file:
        file.write(SIMULATOR)
    yield path


def verdicts(rows):
    return {row["name"]: (row["outcome"], row["hash"]) for row in rows}


def assert_told(text, worker, sickness):
    assert re.search(f"the worker {worker} {SICKNESSES[sickness]}", text), text
