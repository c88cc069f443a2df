#!/usr/bin/env python3
"""What a run of a campaign costs: processor milliseconds of client, scheduler, workers and program, as the table of CAMPAIGNS.md.

    bench/campaigns.py PROGRAM [RUNS]

`radio` and `alone` are runs of 5,000,000 cycles of nodes, each checked by a case: three nodes of examples/packet.hex
that send and listen, and one of bench/mixed.hex that computes. `drawn` are those of bench/network/drawn.campaign. The
figure of each part is the processor time of a campaign of RUNS runs (1,600) less that of one with a quarter of them,
divided by how many runs it has more. So what it takes to start is not in it. The program's figure is of the same
runs, as their results have it. Workers are processes of this machine, or, where dask.distributed is installed, those
of dask beside a scheduler, started as CAMPAIGNS.md says. What a run takes of all processors with one worker and with
four tells how many times as fast four are as one, if each has a processor. First, how a campaign of a million
variants begins. Other work on the machine adds to the clock, and also to processor times if it shares caches.
"""
import contextlib
import importlib.util
import json
import os
import re
import signal
import sqlite3
import subprocess
import sys
import tempfile
import time
from pathlib import Path

TOP = Path(__file__).resolve().parent.parent
TOOLS = TOP / "tools"
LOOPBACK = "127.0.0.1"

# The client, which writes its processor time and that of its children, in seconds, to the file named first.
CLIENT = """import json, resource, sys
sys.path.insert(0, sys.argv[1])
from avrora_tools import main
status = main.run(["campaign", *sys.argv[3:]])
used = [resource.getrusage(who) for who in (resource.RUSAGE_SELF, resource.RUSAGE_CHILDREN)]
with open(sys.argv[2], "w") as file:
    json.dump([it.ru_utime + it.ru_stime for it in used], file)
sys.exit(status)
"""

WORKERS = 4
MILLION = 1_000_000

# What CAMPAIGNS.md has users set for dask: its own clockwork goes on while a run waits for a processor.
SETTINGS = {
    "DASK_DISTRIBUTED__ADMIN__SYSTEM_MONITOR__INTERVAL": "10s",
    "DASK_DISTRIBUTED__ADMIN__TICK__INTERVAL": "1s",
    "DASK_DISTRIBUTED__SCHEDULER__WORK_STEALING": "False",
    "DASK_DISTRIBUTED__WORKER__MEMORY__MONITOR_INTERVAL": "2s",
    "DASK_DISTRIBUTED__WORKER__PROFILE__ENABLED": "False",
}


class Folder:
    """A folder with the scenarios, and campaigns of them."""

    def __init__(self, path, program):
        self.path, self.program = Path(path), program
        radio = (TOP / "examples" / "packet.toml").read_text().replace("737_280", "1_666_667")
        self.write("radio.toml", radio.replace('"packet.hex"', f'"{TOP}/examples/packet.hex"'))
        self.write("radio.expect", (TOP / "examples" / "arrives.expect").read_text())
        self.write("alone.toml", f'cycles = 5_000_000\nlatency = 100\n[[node]]\nimage = "{TOP}/bench/mixed.hex"\n')
        self.write("alone.expect", "* 0 end * running\n")

    def write(self, name, text):
        (self.path / name).write_text(text)
        return self.path / name

    def campaign(self, which, runs):
        """The file of a campaign of so many variants."""
        if which == "drawn":
            text = (TOP / "bench" / "network" / "drawn.campaign").read_text()
            text = text.replace("999_999", str(runs - 1)).replace("drawn_runs.py", f"{TOP}/bench/network/drawn_runs.py")
            return self.write(f"{runs}.campaign", text)
        windows = max(1, runs // 1_000)
        return self.write(
            f"{runs}.campaign",
            f'[[run]]\nscenario = "{which}.toml"\nexpect = "{which}.expect"\n[run.vary]\n'
            f"latency = {{ from = 100, to = {99 + runs // windows} }}\n"
            f"window = [{', '.join(f'[{cycle}, {cycle}]' for cycle in range(windows))}]\n",
        )

    def run(self, which, runs, *words):
        """Runs a campaign anew; the processor times of the client, of its children, and of the program, in seconds."""
        used = self.path / "used"
        words = [sys.executable, "-B", "-c", CLIENT, TOOLS, used, "--anew", "--run-code", "--avrora", self.program, *words]
        words.append(self.campaign(which, runs))
        done = subprocess.run(words, stdout=subprocess.PIPE, stderr=subprocess.STDOUT, text=True, check=False)
        if done.returncode:
            sys.exit(f"a campaign ended with status {done.returncode}:\n{done.stdout[-2_000:]}")
        with contextlib.closing(sqlite3.connect(self.path / f"{runs}.results" / "results.sqlite")) as database:
            (program,) = database.execute("SELECT sum(processor) FROM run").fetchone()
        return *json.loads(used.read_text()), program


def used_by(process):
    """Ends a process; its processor time and that of its children, in seconds."""
    process.terminate()
    _, _, used = os.wait4(process.pid, 0)
    process.returncode = 0
    return used.ru_utime + used.ru_stime


def local_costs(folder, which, runs, count):
    """Seconds of client and of workers with their programs, for so many runs on so many processes of this machine."""
    client, workers, program = folder.run(which, runs, "--jobs", str(count))
    return {"client": client, "worker": workers - program, "program": program}


def dask_costs(folder, which, runs, count):
    """The same on so many workers of dask, and of its scheduler."""
    module = [sys.executable, "-m"]
    file = folder.path / "scheduler.json"
    file.unlink(missing_ok=True)
    quiet = {"stdout": subprocess.DEVNULL, "stderr": subprocess.DEVNULL, "cwd": folder.path, "env": {**os.environ, **SETTINGS}}
    place = ["--host", LOOPBACK, "--no-dashboard"]
    scheduler = subprocess.Popen(
        [*module, "distributed.cli.dask_scheduler", *place, "--port", "0", "--scheduler-file", file],
        **quiet,
    )
    address = None
    while address is None:
        time.sleep(0.1)
        with contextlib.suppress(FileNotFoundError, json.JSONDecodeError):
            address = json.loads(file.read_text())["address"]
    workers = [
        subprocess.Popen([*module, "distributed.cli.dask_worker", *place, "--nthreads", "1", "--no-nanny", address], **quiet)
        for _ in range(count)
    ]
    try:
        client, _, program = folder.run(which, runs, "--scheduler", address)
    finally:
        used = [used_by(worker) for worker in workers]
        of_scheduler = used_by(scheduler)
    return {"client": client, "scheduler": of_scheduler, "worker": sum(used) - program, "program": program}


def each_run(costs, folder, which, runs, count):
    """The milliseconds of each part for a run more, and of the clock."""
    spent = []
    for number in (runs // 4, runs):
        start = time.monotonic()
        spent.append(costs(folder, which, number, count) | {"clock": time.monotonic() - start})
    few, many = spent
    return {part: 1_000 * (many[part] - few[part]) / (runs - runs // 4) for part in many}


PARTS = ("client", "scheduler", "worker", "program")


def tell_costs(pools, folder, which, runs):
    """Prints the rows of one kind of runs, and how many times as fast four workers are as one."""
    for name, costs in pools.items():
        taken = {}
        for count in (1, WORKERS):
            each = each_run(costs, folder, which, runs, count)
            taken[count] = sum(each.get(part, 0) for part in PARTS)
            cells = [f"{each[part]:.2f}" if part in each else "" for part in PARTS]
            others = f"{taken[count] / each['program'] - 1:.2f}"
            print("|", " | ".join([f"`{which}`", f"{count} {name}", *cells, others, f"{each['clock']:.1f}"]), "|", flush=True)
        times = WORKERS * taken[1] / taken[WORKERS]
        print(f"  {which}, {name}: {WORKERS} are {times:.2f} times as fast as one; load {os.getloadavg()[0]:.0f}", flush=True)


def tell_beginning(folder):
    """How long a million take to begin, and the client's memory then and some results later."""
    path = folder.campaign("radio", MILLION)
    words = [sys.executable, "-B", TOOLS, "campaign", "--avrora", folder.program, "--jobs", str(WORKERS), path]
    start = time.monotonic()
    client = subprocess.Popen(words, stdout=subprocess.DEVNULL, stderr=subprocess.DEVNULL)
    said = False
    while True:
        time.sleep(0.05)
        found = results(folder.path / f"{MILLION}.results" / "results.sqlite")
        if found and not said:
            said = True
            print(f"{MILLION:,} variants: the first result is there after {time.monotonic() - start:.1f} s", end="")
            print(f", {used_until_now(client.pid):.1f} s of the client's processor time; {memory(client.pid)} MB at most", end="")
        if found >= 1_000 or time.monotonic() - start > 120:
            print(f", {memory(client.pid)} MB after {found:,} results")
            break
    client.send_signal(signal.SIGTERM)
    client.wait()


def results(path):
    if not path.exists():
        return 0
    with contextlib.closing(sqlite3.connect(path, timeout=60)) as database, contextlib.suppress(sqlite3.OperationalError):
        return database.execute("SELECT count(*) FROM run").fetchone()[0]
    return 0


def used_until_now(pid):
    fields = Path(f"/proc/{pid}/stat").read_text().rpartition(")")[2].split()
    return (int(fields[11]) + int(fields[12])) / os.sysconf("SC_CLK_TCK")


def memory(pid):
    """The most memory that a process has had, in MB."""
    status = Path(f"/proc/{pid}/status").read_text()
    return int(re.search(r"VmHWM:\s+(\d+) kB", status)[1]) * 1_024 // 1_000_000


def main():
    if len(sys.argv) not in (2, 3):
        sys.exit(__doc__)
    runs = int(sys.argv[2]) if len(sys.argv) == 3 else 1_600
    load = os.getloadavg()[0]
    print(f"{os.cpu_count()} processors; {load:.1f} others want to run on them", flush=True)
    pools = {"of this machine": local_costs}
    if importlib.util.find_spec("distributed"):
        pools["of dask"] = dask_costs
    else:
        print("dask: skipped, distributed is not installed")
    with tempfile.TemporaryDirectory() as path:
        folder = Folder(path, os.path.abspath(sys.argv[1]))
        tell_beginning(folder)
        print("| Runs | Workers |", " | ".join(PARTS), "| all others of the program | clock |")
        print("|---" * (4 + len(PARTS)) + "|")
        tell_costs(pools, folder, "radio", runs)
        tell_costs(pools, folder, "alone", runs)
        tell_costs({"of this machine": local_costs}, folder, "drawn", 2 * runs)


if __name__ == "__main__":
    if sys.argv[1:2] in (["--help"], ["-h"]):
        sys.exit(print(__doc__))
    main()
