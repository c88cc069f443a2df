#!/usr/bin/env python3
"""What the client of a campaign takes of a processor a run, with workers that take no time: milliseconds, by their
count.

    bench/client.py [RUNS [WORKERS...]]

The workers are a mock in this process: each answers a batch as soon as the client waits for it, and says that a run
took 8 ms. So the figure is all that the client does itself: making runs and their digests, sharing them out, judging
answers, and the file of results. What dask takes of the client to send and to receive is not in it.
"""
import collections
import contextlib
import sys
import tempfile
import time
from pathlib import Path

TOP = Path(__file__).resolve().parent.parent
sys.path.insert(0, str(TOP / "tools"))

from avrora_tools import campaigns, driving, pools, results, runs, sittings  # noqa: E402

TEXT = """[[run]]
scenario = "{top}/examples/packet.toml"
expect = "{top}/examples/arrives.expect"
[run.vary]
latency = {{ from = 1, to = 1_000 }}
"input.2.at" = {{ from = 2_000, to = 999_999 }}
"""


class Mock:
    """Workers that answer at once. Their own time is taken off."""

    def __init__(self, count):
        self.events = [pools.Proved(pools.Worker(f"worker {number}", machine=f"host {number // 8}")) for number in range(count)]
        self.sent = collections.deque()
        self.used = 0.0

    def send(self, worker, ticket, jobs):
        worker.tickets[ticket] = None
        self.sent.append((worker, ticket, len(jobs)))

    def wait(self, seconds):
        events, self.events = self.events, []
        begun = time.process_time()
        for _ in range(min(8, len(self.sent))):
            worker, ticket, count = self.sent.popleft()
            del worker.tickets[ticket]
            answer = {**runs.answer(runs.PASSED), "hash": "ab" * 32, "counts": [1, 2, 3, 4, 5], "seconds": 0.008}
            events.append(pools.Done(worker, ticket, [dict(answer) for _ in range(count)], None))
        self.used += time.process_time() - begun
        return events

    def set_aside(self, worker):
        raise AssertionError("nobody is sick")

    def unproved(self):
        return []

    def has_hope(self):
        return True

    def close(self):
        pass


def cost(count, workers):
    """Seconds of a processor that a client takes for so many runs."""
    with tempfile.TemporaryDirectory() as path, contextlib.ExitStack() as stack:
        file = Path(path) / "many.campaign"
        file.write_text(TEXT.format(top=TOP))
        folder = stack.enter_context(results.opened_folder(f"{path}/results", make=True))
        store = stack.enter_context(contextlib.closing(results.Store(folder)))
        campaign = campaigns.read(str(file))
        sitting = sittings.Sitting(campaign, sittings.Words(), b"simulator", store)
        sitting.progress.next = float("inf")
        pool = Mock(workers)
        wanted = sitting.wanted()
        iterators = [attempt for attempt in [(next(wanted) for _ in range(count))]]
        driver = driving.Driver(pool, 3, sitting.progress, sitting.save, clock=lambda: 0.0)
        driver.learn = lambda answers, seconds, driver=driver: setattr(driver, "seconds_a_run", 0.008)
        begun = time.process_time()
        driver.drive(lambda: iterators.pop() if iterators else None, sitting.rest)
        return time.process_time() - begun - pool.used


def main():
    count = int(sys.argv[1]) if len(sys.argv) > 1 else 400_000
    for workers in map(int, sys.argv[2:] or ["4", "1600"]):
        few, many = cost(count // 4, workers), cost(count, workers)
        print(f"{workers:>5} workers: {1_000 * (many - few) / (count - count // 4):.4f} ms a run")


if __name__ == "__main__":
    main()
