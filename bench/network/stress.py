#!/usr/bin/env python3
"""Looks for runs by threads that differ from the run on one thread, or do not end: no contract says that a node that
waits is woken.

    bench/network/stress.py PROGRAM [COUNT [FIRST]]

It draws COUNT networks (100) of up to 64 nodes, from number FIRST (0) on, some of many epochs. It runs each with `run
--plain` once and with `run` three times: as it is, beside a busy program for each processor, and with only few
threads allowed by the system (as root; for other users this run is as the first). A run by threads has a minute more
than ten times that on one thread. It ends with counts. If a run differs or does not end, it keeps the files, and its
exit status is 1.
"""
import os
import random
import shutil
import subprocess
import sys
import tempfile
import time
from collections import Counter
from contextlib import contextmanager
from pathlib import Path

from compare import written
from draw import drawn
from states import EPOCH

# The most spans that a scenario may have.
MOST_SPANS = 4_096

# The user for whom threads are counted, who has no others: nobody.
NOBODY = 65_534
BUSY = "while True: pass"


@contextmanager
def busy_processors():
    """Each processor has something else to do."""
    running = [subprocess.Popen([sys.executable, "-c", BUSY]) for _ in range(os.cpu_count())]
    try:
        yield
    finally:
        for it in running:
            it.kill()
            it.wait()


def network_of(number):
    """A drawn network: most are small and short, some have up to 64 nodes, some run for up to eight epochs."""
    rng = random.Random(f"stress {number}")
    nodes_most = rng.choice((4, 8, 16, 64))
    cycles_most = rng.choice((20_000, EPOCH + 200_000, (8 if nodes_most <= 16 else 2) * EPOCH))
    it = drawn(rng.randrange(1 << 40), nodes_most, cycles_most)
    # the trace of each instruction would be most of the time
    it.document.pop("window", None)
    # of many links more spans may be drawn than a scenario may have: the links behind those are always open
    spans = 0
    for link in it.document["link"]:
        spans += len(link.get("open", []))
        if spans > MOST_SPANS:
            link.pop("open", None)
    return it, rng.choice((1, 2, 3, len(it.document["node"])))


def allowing(threads, program):
    """The words that begin a run for which so many threads are allowed, the first one included."""
    if os.geteuid() != 0:
        return [program]
    limits = ["prlimit", f"--nproc={threads}"]
    return ["setpriv", "--reuid", str(NOBODY), "--regid", str(NOBODY), "--clear-groups", *limits, program]


def ran(folder, words, seconds):
    """What a run wrote, or None where it did not end or said something else; and how long it took."""
    began = time.monotonic()
    try:
        done = subprocess.run(words, cwd=folder, capture_output=True, timeout=seconds, check=False)
    except subprocess.TimeoutExpired:
        return None, seconds
    good = done.returncode == 0 and not done.stderr
    return (done.stdout if good else None), time.monotonic() - began


def differing(folder, program, threads, counts):
    """Which runs of the network in the folder are not as the one on one thread."""
    due, took = ran(folder, [program, "run", "--plain", "net.toml"], 600)
    if due is None:
        return ["on one thread"]
    counts["rows"] += due.count(b"\n")
    words, seconds, wrong = ["run", "net.toml"], 60 + 10 * took, []
    if ran(folder, [program, *words], seconds)[0] != due:
        wrong.append("by threads")
    if ran(folder, [*allowing(threads, program), *words], seconds)[0] != due:
        wrong.append(f"with {threads} threads allowed")
    with busy_processors():
        if ran(folder, [program, *words], 4 * seconds)[0] != due:
            wrong.append("by threads beside busy programs")
    return wrong


def main():
    if len(sys.argv) < 2:
        sys.exit(__doc__)
    count, first = (int(w) for w in (sys.argv[2:] + ["100", "0"][len(sys.argv) - 2 :])[:2])
    top = Path(tempfile.mkdtemp(prefix="stress."))
    top.chmod(0o755)
    program = str(shutil.copy(sys.argv[1], top / "program"))
    counts = Counter()
    for number in range(first, first + count):
        it, threads = network_of(number)
        folder = written(top / f"{number}", it)
        counts["networks"] += 1
        counts["nodes"] += len(it.document["node"])
        counts["cycles of nodes"] += it.document["cycles"] * len(it.document["node"])
        wrong = differing(folder, program, threads, counts)
        if wrong:
            counts["different"] += 1
            print(f"{folder}: {', '.join(wrong)}", flush=True)
        else:
            shutil.rmtree(folder)
    for name, value in sorted(counts.items()):
        print(f"{name}: {value}")
    if not counts["different"]:
        shutil.rmtree(top)
    sys.exit(1 if counts["different"] else 0)


if __name__ == "__main__":
    if sys.argv[1:2] in (["--help"], ["-h"]):
        sys.exit(print(__doc__))
    main()
