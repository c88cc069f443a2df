"""campaign: a million runs are made as they are wanted, and shared out in batches."""
import subprocess
import sys
import unittest

from campaign_runs import folder
from support import TOOLS, TOP
from avrora_tools import attempts as attempts_module
from avrora_tools import campaigns, driving, pools, runs, watching
from avrora_tools.errors import CannotWork

# Begins a campaign: reads it, takes the first of the runs that are wanted, and says what it took.
BEGIN = """import resource, sys, time
from avrora_tools import campaigns, results, sittings
read = campaigns.read(sys.argv[1])
store = results.Store(results.opened_folder(sys.argv[2], make=True))
sitting = sittings.Sitting(read, sittings.Words(), b"simulator", store)
first = next(sitting.wanted())
first.run.shipped()
print(read.count, time.process_time(), resource.getrusage(resource.RUSAGE_SELF).ru_maxrss)
"""


class AMillion(unittest.TestCase):
    TEXT = f"""[[run]]
scenario = "{TOP}/examples/packet.toml"
expect = "{TOP}/examples/arrives.expect"
[run.vary]
latency = {{ from = 1, to = 1_000 }}
"input.2.at" = {{ from = 2_000, to = 2_999 }}
"""

    def test_begins_at_once(self):
        """Within five seconds of processor time, in less than 300 MB."""
        with folder(self.TEXT) as path:
            words = [sys.executable, "-B", "-c", BEGIN, f"{path}/c.toml", f"{path}/results"]
            done = subprocess.run(words, env={"PYTHONPATH": TOOLS}, capture_output=True, text=True, check=True)
        count, seconds, kilobytes = map(float, done.stdout.split())
        self.assertEqual(count, 1_000_000)
        self.assertLess(seconds, 5)
        self.assertLess(kilobytes, 300_000)

    def test_any_of_them(self):
        """The last axis varies first."""
        with folder(self.TEXT) as path:
            campaign = campaigns.read(f"{path}/c.toml")
        self.assertEqual(campaign.run(0).parameters, {"latency": 1, "input.2.at": 2_000})
        self.assertEqual(campaign.run(1).parameters, {"latency": 1, "input.2.at": 2_001})
        self.assertEqual(campaign.run(999_999).parameters, {"latency": 1_000, "input.2.at": 2_999})
        shard = campaigns.Shard(2, 250_000)
        self.assertEqual([run.number for run in campaign.runs(shard)], [1, 250_001, 500_001, 750_001])


class FakePool:
    """Workers by name, each of which takes some seconds for a run; the time is counted, and nothing waits."""

    def __init__(self, seconds, sick=(), troubled=(), killers=()):
        """Those `sick` become so with their second batch; a run of a number in `killers` takes its worker with it."""
        self.seconds, self.sick, self.troubled, self.killers = seconds, sick, troubled, killers
        self.workers = [pools.Worker(name) for name in seconds]
        self.events = [pools.Proved(worker) for worker in self.workers]
        self.sizes = []
        self.most_held = self.waits = 0
        self.ran = []
        self.batches = {name: 0 for name in seconds}
        self.now = 0.0
        self.busy = {name: 0.0 for name in seconds}

    def clock(self):
        return self.now

    def unproved(self):
        return []

    def send(self, worker, ticket, jobs):
        worker.tickets[ticket] = jobs
        self.sizes.append(len(jobs))
        self.most_held = max(self.most_held, sum(len(jobs) for it in self.workers for jobs in it.tickets.values()))

    def wait(self, seconds):
        events, self.events = self.events, []
        self.waits += 1
        assert self.waits < 10_000, "nobody gets what is left"
        for worker in [worker for worker in self.workers if worker.tickets and not events]:
            ticket, jobs = worker.tickets.popitem(last=False)
            self.batches[worker.name] += 1
            numbers = [int(text) for text, *_ in jobs]
            if worker.name in self.sick and self.batches[worker.name] > 1:
                events.append(pools.Done(worker, ticket, [], "the disk is full"))
            elif set(numbers) & set(self.killers):
                self.workers.remove(worker)
                self.workers.append(pools.Worker(worker.name))
                lost = [ticket, *worker.tickets]
                worker.tickets.clear()
                events += [pools.Lost(worker, lost, "killed"), pools.Proved(self.workers[-1])]
            else:
                trouble = worker.name in self.troubled
                outcome = runs.answer(
                    runs.BROKEN, "no space", again=True, trouble=True
                ) if trouble else runs.answer(runs.PASSED)
                self.ran += [] if trouble else numbers
                self.now = max(self.now, self.busy[worker.name]) + len(jobs) * self.seconds[worker.name]
                self.busy[worker.name] = self.now
                answers = [{**outcome, "seconds": self.seconds[worker.name]} for _ in jobs]
                events.append(pools.Done(worker, ticket, answers, None))
        if not events:
            self.now += seconds
        return events

    def set_aside(self, worker):
        self.workers.remove(worker)

    def has_hope(self):
        return bool(self.workers)

    def close(self):
        pass


class Run:
    """A run whose scenario is its number."""

    def __init__(self, number):
        self.number, self.name, self.group = number, f"run {number}", self
        self.check = 0

    def job(self, is_alone=False):
        return runs.Job(str(self.number), 0, {}, None)


class Sharing(unittest.TestCase):
    def drive(self, pool, count, attempts=3, **more):
        saved = {}

        def save(attempt, answer, host, second):
            self.assertNotIn(attempt.run.number, saved, "saved twice")
            saved[attempt.run.number] = answer["outcome"], attempt.number, host

        self.made = 0

        def wanted():
            for number in range(count):
                self.made += 1
                yield attempts_module.Attempt(Run(number), "digest")

        progress = watching.Progress(count)
        progress.say = lambda text: None
        driver = driving.Driver(pool, attempts, progress, save, clock=pool.clock, **{"sample": 0, **more})
        iterators = [wanted()]
        driver.drive(lambda: iterators.pop() if iterators else None, lambda: None)
        return saved

    def test_a_batch_takes_two_seconds(self):
        """Of runs of a fiftieth of a second a hundred go together, and never more than a few batches are made."""
        pool = FakePool({"a": 0.02, "b": 0.02})
        saved = self.drive(pool, 5_000)
        self.assertEqual(set(saved.values()), {("passed", 1, "a"), ("passed", 1, "b")})
        self.assertEqual(len(saved), 5_000)
        self.assertEqual(pool.sizes[0], 1)
        self.assertIn(max(pool.sizes), range(90, 101))
        self.assertLessEqual(pool.most_held, 400)

    def test_long_runs_go_one_by_one(self):
        pool = FakePool({"a": 4.0})
        self.drive(pool, 20)
        self.assertEqual(set(pool.sizes), {1})

    def test_a_worker_that_becomes_sick(self):
        """What it had goes to the other one, and counts as no attempt."""
        pool = FakePool({"a": 0.1, "b": 0.1}, sick=["b"])
        saved = self.drive(pool, 200, attempts=1)
        self.assertEqual({outcome for outcome, _, _ in saved.values()}, {"passed"})
        self.assertEqual(sorted(pool.ran), list(range(200)))

    def test_all_become_sick(self):
        pool = FakePool({"a": 0.1, "b": 0.1}, sick=["a", "b"])
        with self.assertRaisesRegex(CannotWork, "all workers are set aside: .*the disk is full"):
            self.drive(pool, 200)

    def test_a_worker_on_which_runs_fail(self):
        """It proves itself each time, and fails each run: they end well on the other one."""
        pool = FakePool({"a": 0.1, "b": 0.1}, troubled=["b"])
        saved = self.drive(pool, 200)
        self.assertEqual({(outcome, host) for outcome, _, host in saved.values()}, {("passed", "a")})
        self.assertEqual([worker.name for worker in pool.workers], ["a"])

    def test_the_last_run_goes_to_another_worker(self):
        """Also where the worker that it is to avoid is the first to be asked."""
        for troubled in ("a", "b"):
            pool = FakePool({"a": 0.1, "b": 0.1}, troubled=[troubled])
            saved = self.drive(pool, 2)
            self.assertEqual({outcome for outcome, _, _ in saved.values()}, {"passed"})
            self.assertEqual({host for _, _, host in saved.values()}, {"a", "b"} - {troubled})

    def test_a_run_that_kills_its_worker(self):
        """It is found among those that were sent with it: they are passed, by one attempt each."""
        pool = FakePool({"a": 0.01, "b": 0.01}, killers=[150])
        saved = self.drive(pool, 300)
        broken = {number: found[:2] for number, found in saved.items() if found[0] != "passed"}
        self.assertEqual(broken, {150: ("broken", 3)})
        self.assertEqual({attempt for number, (_, attempt, _) in saved.items() if number != 150}, {1})


if __name__ == "__main__":
    unittest.main()
