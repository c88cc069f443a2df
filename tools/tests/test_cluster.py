"""campaign on dask: a cluster that is there, workers that are sick or die, a scheduler that goes."""
import contextlib
import glob
import json
import os
import signal
import socket
import subprocess
import sys
import unittest

from campaign_runs import CAMPAIGN, Outcomes, folder, let_go, run_campaign, starts, stored
from support import LONG, LOOPBACK, TOOL, needs_loopback, needs_module, needs_mounts, wait_for, with_disk


@needs_module("distributed", "python3-distributed")
@needs_loopback
class Cluster(unittest.TestCase):
    """A scheduler and workers, each a process of its own that knows nothing of this repository."""

    CAMPAIGN = CAMPAIGN
    HELD = 1_000_000  # the latency from which on runs wait
    WORKERS = 1

    def setUp(self):
        self.stack = contextlib.ExitStack()
        self.addCleanup(self.stack.close)
        self.path = self.stack.enter_context(folder(self.CAMPAIGN))
        self.env = {name: value for name, value in os.environ.items() if name != "PYTHONPATH"}
        self.env |= {"CAMPAIGN_LOG": f"{self.path}/log", "CAMPAIGN_HELD": str(self.HELD)}
        self.scheduler = self.start_dask("scheduler", "--port", "0", "--scheduler-file", f"{self.path}/scheduler.json")
        self.address = wait_for(self.address_of_scheduler)
        self.workers = [self.start_worker(f"worker{number}") for number in range(self.WORKERS)]

    def start(self, words, **more):
        """Starts a process, which is ended with the test. The runs that wait end with the folder."""
        process = subprocess.Popen(words, **{"env": self.env, **more})
        self.stack.callback(process.wait)
        self.stack.callback(process.kill)
        return process

    def start_dask(self, what, *words, disk=None, env=None):
        """Starts a scheduler or a worker; `disk` is a folder that is a disk of its own, and its options."""
        words = [sys.executable, "-m", f"distributed.cli.dask_{what}", "--host", LOOPBACK, "--no-dashboard", *words]
        if disk:
            words = with_disk(*disk, words)
        env = {**self.env, **(env or {})}
        return self.start(words, cwd=self.path, env=env, stdout=subprocess.DEVNULL, stderr=subprocess.DEVNULL)

    def start_worker(self, name, disk=None, **more):
        """Starts a worker; its folder is a disk with these options of mount."""
        folder = f"{self.path}/{name}"
        os.mkdir(folder)
        words = ["--nthreads", "1", "--no-nanny", "--name", name, "--local-directory", folder]
        return self.start_dask("worker", *words, self.address, disk=disk and (folder, disk), **more)

    def wait_for_workers(self, count):
        """Waits until the scheduler knows so many workers."""
        code = "import distributed, sys; distributed.Client(sys.argv[1]).wait_for_workers(int(sys.argv[2]))"
        words = [sys.executable, "-c", code, self.address, str(count)]
        subprocess.run(words, check=True, capture_output=True, timeout=LONG, env=self.env)

    def address_of_scheduler(self):
        """What the scheduler wrote into its file; None while that is not there, or a part of it is not: the file has
        its name before its content."""
        with contextlib.suppress(FileNotFoundError, json.JSONDecodeError):
            with open(f"{self.path}/scheduler.json", encoding="utf-8") as file:
                return json.load(file)["address"]
        return None

    def start_campaign(self):
        """The campaign on the cluster; its process, and the file of what it says."""
        said = self.stack.enter_context(open(f"{self.path}/said", "w+", encoding="utf-8"))
        words = [*TOOL, "campaign", "--avrora", f"{self.path}/avrora", "--scheduler", self.address]
        return self.start([*words, f"{self.path}/c.toml"], stdout=said, stderr=subprocess.STDOUT), said

    def ended(self, campaign, said):
        """Waits for the end of a campaign; its status and what it said."""
        wait_for(lambda: campaign.poll() is not None)
        said.seek(0)
        return campaign.returncode, said.read()

    def rows(self):
        with open(f"{self.path}/c.results/summary.jsonl", encoding="utf-8") as file:
            return [json.loads(line) for line in file]


class OnDask(Outcomes, Cluster):
    """What comes of five runs."""

    @contextlib.contextmanager
    def place(self):
        yield self.path, ["--scheduler", self.address]

    def test_no_scheduler(self):
        with socket.socket() as free:
            free.bind((LOOPBACK, 0))  # and nobody listens
            address = f"tcp://{LOOPBACK}:{free.getsockname()[1]}"
            env = {"DASK_DISTRIBUTED__COMM__TIMEOUTS__CONNECT": "1s"}
            status, _, errors, _ = run_campaign(self.path, "--scheduler", address, without_dask=False, **env)
            self.assertEqual(status, 3)
            self.assertIn(f"no scheduler of dask answers at {address}", errors)


class Sick(Cluster):
    """A worker that cannot work gets nothing to do, and is named."""

    CAMPAIGN = CAMPAIGN.replace("[1, 3, 4, 20, 30]", "{ from = 100, to = 119 }")
    WORKERS = 0

    def assert_set_aside(self, reason, at_once=True):
        """Beside a worker that is well one named `sick` is set aside for a reason; all runs are passed, each by one
        attempt that counts. Where that is `at_once`, none on the sick one."""
        self.start_worker("well")
        self.wait_for_workers(2)
        status, text = self.ended(*self.start_campaign())
        self.assertEqual(status, 0, text)
        self.assertRegex(text, f"the worker {socket.gethostname()} sick is set aside: .*{reason}")
        rows = self.rows()
        self.assertEqual([row["outcome"] for row in rows], ["passed"] * 20)
        self.assertEqual([row["attempts"] for row in rows], [1] * 20)
        hosts = {f"{socket.gethostname()} {name}" for name in (["well"] if at_once else ["well", "sick"])}
        self.assertLessEqual({row["host"] for row in rows}, hosts)

    @needs_mounts
    def test_a_full_disk(self):
        self.start_worker("sick", disk="size=16k")
        self.wait_for_workers(1)
        status, text = self.ended(*self.start_campaign())
        self.assertEqual(status, 3, text)  # while it is the only one
        self.assertIn("all workers are set aside: ", text)
        self.assertIn("No space left on device", text)
        self.assert_set_aside("No space left on device")

    @needs_mounts
    def test_a_disk_that_becomes_full(self):
        """By what a run writes: that run and the others of its batch go elsewhere."""
        self.start_worker("sick", disk="size=4m", env={"CAMPAIGN_FULL": "101"})
        self.assert_set_aside("No space left on device", at_once=False)

    @needs_mounts
    def test_a_folder_without_exec(self):
        self.start_worker("sick", disk="noexec")
        self.assert_set_aside("/avrora: Permission denied")

    def test_all(self):
        """A simulator that does otherwise than it should on each of them, and one that cannot be executed."""
        self.start_worker("wrong", env={"CAMPAIGN_SICK": "1"})
        status, text = self.ended(*self.start_campaign())
        self.assertEqual(status, 3, text)
        self.assertIn("all workers are set aside: ", text)
        self.assertIn("wrong: the known scenario ended with status 7", text)
        self.assertEqual(stored(self.path), 0)
        with open(f"{self.path}/avrora", "w", encoding="utf-8") as file:
            file.write("no program")
        status, text = self.ended(*self.start_campaign())
        self.assertEqual(status, 3, text)
        self.assertIn("Exec format error", text)


class SeveralClients(Cluster):
    """Two campaigns at a time on one scheduler."""

    CAMPAIGN = CAMPAIGN.replace("[1, 3, 4, 20, 30]", "{ from = 100, to = 119 }")
    WORKERS = 2

    def test_each_has_its_own(self):
        """Both come to their ends with their own results, and nothing is left on the scheduler."""
        self.wait_for_workers(2)
        with folder(self.CAMPAIGN, "* 1 heard *\n") as path:
            words = [*TOOL, "campaign", "--avrora", f"{path}/avrora", "--scheduler", self.address, f"{path}/c.toml"]
            other = self.start(words, stdout=subprocess.DEVNULL, stderr=subprocess.PIPE, text=True)
            status, text = self.ended(*self.start_campaign())
            errors = other.communicate(timeout=LONG)[1]
            self.assertEqual((status, other.returncode), (0, 0), text + errors)
            with open(f"{path}/c.results/summary.jsonl", encoding="utf-8") as file:
                rows = [json.loads(line) for line in file]
        for found, said in ((self.rows(), text), (rows, errors)):
            self.assertEqual([row["parameters"]["latency"] for row in found], list(range(100, 120)))
            self.assertEqual({row["outcome"] for row in found}, {"passed"})
            self.assertNotIn("set aside", said)
        self.assertEqual({row["host"].split()[-1] for row in self.rows() + rows}, {"worker0", "worker1"})
        code = """import distributed, sys
client = distributed.Client(sys.argv[1])
print(client.run_on_scheduler(lambda dask_scheduler: sorted(dask_scheduler.worker_plugins)))"""
        left = subprocess.run(
            [sys.executable, "-c", code, self.address], capture_output=True, text=True, timeout=LONG, env=self.env
        )
        self.assertNotIn("campaign-", left.stdout)


class ClientKilled(Cluster):
    CAMPAIGN = CAMPAIGN.replace("[1, 3, 4, 20, 30]", "{ from = 100, to = 119 }")
    HELD = 115  # behind the second batch, whoever comes first
    WORKERS = 2

    def test_the_same_command_goes_on(self):
        """At once, though the workers still have the runs of the client that was killed; and at the end they have no
        files of either."""
        campaign, _ = self.start_campaign()
        wait_for(lambda: any(name.startswith("held-") for name in os.listdir(self.path)) and stored(self.path) >= 3)
        campaign.kill()
        campaign.wait(LONG)
        at_kill = stored(self.path)
        os.unlink(f"{self.path}/log")  # which lets the runs go on that are held
        let_go(self.path)
        status, text = self.ended(*self.start_campaign())
        self.assertEqual(status, 0, text)
        self.assertIn(f"{at_kill} of 20 results are there already, and are kept", text)
        self.assertEqual([row["outcome"] for row in self.rows()], ["passed"] * 20)
        self.assertLessEqual(len(set(starts(self.path))), 20 - at_kill)
        wait_for(lambda: not glob.glob(f"{self.path}/worker*/**/avrora-*", recursive=True))


class Gone(Cluster):
    CAMPAIGN = CAMPAIGN.replace("[1, 3, 4, 20, 30]", "{ from = 100, to = 105 }")
    HELD = 103

    def test_the_scheduler(self):
        """It is said in a line; the same command goes on, on another one."""
        campaign, said = self.start_campaign()
        wait_for(lambda: any(name.startswith("held-") for name in os.listdir(self.path)))
        self.scheduler.kill()
        status, text = self.ended(campaign, said)
        let_go(self.path)
        self.assertEqual(status, 3, text)
        self.assertLessEqual(len(text.splitlines()), 3, text)
        self.assertIn("the scheduler of dask is gone", text)
        status, _, errors, rows = run_campaign(self.path)
        self.assertEqual((status, len(rows)), (0, 6), errors)


def parent_of(process):
    with open(f"/proc/{process}/stat", encoding="utf-8") as file:
        return int(file.read().rpartition(")")[2].split()[1])


class Killed(Cluster):
    RUNS = 60
    CAMPAIGN = CAMPAIGN.replace("[1, 3, 4, 20, 30]", f"{{ from = 100, to = {99 + RUNS} }}")
    HELD = 140  # behind the second batch, whoever comes first
    WORKERS = 3

    def worker_that_is_held(self):
        """A worker whose process has a run under way which waits, and that process."""
        held = [int(name.removeprefix("held-")) for name in os.listdir(self.path) if name.startswith("held-")]
        workers = {worker.pid: worker for worker in self.workers}
        return next(((workers[parent_of(process)], process) for process in held), None)

    def test_a_worker(self):
        self.assert_it_goes_on(lambda worker, _: worker.kill(), "the worker is gone")

    def test_the_process_of_a_worker(self):
        """The worker starts another one, which proves itself."""
        self.assert_it_goes_on(lambda _, process: os.kill(process, signal.SIGKILL), "its process ended with status -9")

    def assert_it_goes_on(self, kill, reason):
        campaign, said = self.start_campaign()
        held = wait_for(self.worker_that_is_held)
        wait_for(lambda: stored(self.path) >= 5)
        kill(*held)
        at_kill = stored(self.path)
        let_go(self.path)
        status, text = self.ended(campaign, said)
        self.assertEqual(status, 0, text)
        self.assertIn(reason, text)
        self.assertLessEqual(at_kill, self.HELD - 100)
        rows = self.rows()
        self.assertEqual(
            [row["name"] for row in rows], [f"net latency={latency}" for latency in range(100, 100 + self.RUNS)]
        )
        self.assertEqual({row["outcome"] for row in rows}, {"passed"})
        self.assertEqual(stored(self.path), self.RUNS)
        # What the killed worker had begun was run again, at least the one that waited, and nothing else.
        self.assertIn(len(starts(self.path)), range(self.RUNS + 1, self.RUNS + 21))
        self.assertEqual(
            {row["parameters"]["latency"] for row in rows}, {int(latency) for latency in starts(self.path)}
        )
