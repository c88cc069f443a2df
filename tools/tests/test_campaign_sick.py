"""campaign: one worker of some is sick, after it has proved itself. What comes of the runs is what came of them without
it, and its name is told."""
import os
import signal
import unittest
from unittest import mock

import pytest

import sick
from campaign_runs import folder, run_campaign
from sick import CASE, SICKNESSES, assert_told, expected, verdicts
from support import needs_loopback, needs_module
from test_cluster import Cluster
from avrora_tools import driving

FAKETIME = "/usr/lib/x86_64-linux-gnu/faketime/libfaketime.so.1"


@pytest.mark.parametrize("sickness", SICKNESSES)
def test_a_process_of_this_machine(sickness):
    with folder(sick.campaign(sickness), CASE) as path, sick.place_of(path), mock.patch.object(driving, "SAMPLE", 2):
        env = {"CAMPAIGN_SICKNESS": sickness, "CAMPAIGN_ONE": "1", "CAMPAIGN_PLACE": path}
        status, _, errors, rows = run_campaign(path, "--jobs", "3", without_dask=False, **env)
        assert status == 0, errors
        assert verdicts(rows.values()) == expected()
        assert_told(errors, "[^ ]+ process [012]", sickness)
        with open(f"{path}/c.results/campaign.log", encoding="utf-8") as file:
            assert_told(file.read(), "[^ ]+ process [012]", sickness)


def test_all_write_nothing():
    """No run is passed, whatever there is to check, and nothing is kept of them."""
    for more in ("", 'compare = ["plain"]\n'):
        text = sick.campaign("empty").replace('expect = "net.expect"\n', more)
        with folder(text, CASE) as path, sick.place_of(path):
            status, out, errors, rows = run_campaign(
                path, "--jobs", "2", CAMPAIGN_SICKNESS="empty", CAMPAIGN_PLACE=path
            )
            assert status == 3, errors
            assert "passed" not in out and not rows
            assert "all workers are set aside" in errors


@needs_module("distributed", "python3-distributed")
@needs_loopback
class OnDask(Cluster):
    """Three workers, of which one is sick."""

    CAMPAIGN = sick.campaign("")
    WORKERS = 0

    def setUp(self):
        super().setUp()
        self.enterContext(sick.place_of(self.path))
        self.env |= {"CAMPAIGN_PLACE": self.path}
        with open(f"{self.path}/net.expect", "w", encoding="utf-8") as file:
            file.write(CASE)

    def assert_told_of(self, sickness, env=None, stop=False, wait=True):
        with open(f"{self.path}/c.toml", "w", encoding="utf-8") as file:
            file.write(sick.campaign(sickness))
        worker = self.start_worker("sick", env={"CAMPAIGN_SICKNESS": sickness, **(env or {})})
        for name in ("well", "other"):
            self.start_worker(name)
        self.wait_for_workers(3)
        if stop:
            worker.send_signal(signal.SIGSTOP)
        with mock.patch.object(driving, "SAMPLE", 2):
            words = ("--avrora", f"{self.path}/avrora", "--scheduler", self.address)
            status, _, text, rows = run_campaign(self.path, *words, without_dask=False, CAMPAIGN_PLACE=self.path)
        worker.send_signal(signal.SIGCONT)
        self.assertEqual(status, 0, text)
        self.assertEqual(verdicts(rows.values()), expected())
        return text, rows

    def test_lie(self):
        text, rows = self.assert_told_of("lie")
        assert_told(text, "[^ ]+ sick", "lie")
        self.assertNotIn("sick", {row["host"].split()[-1] for row in rows.values() if row["second"] is None})

    def test_quiet_lie(self):
        text, _ = self.assert_told_of("quiet lie")
        assert_told(text, "[^ ]+ sick", "quiet lie")

    def test_image(self):
        text, _ = self.assert_told_of("image")
        assert_told(text, "[^ ]+ sick", "image")

    def test_hang(self):
        text, rows = self.assert_told_of("hang")
        assert_told(text, "[^ ]+ sick", "hang")
        tried = [host for row in rows.values() for host, what in row["tried"] if what == "took more than 10 s"]
        self.assertLessEqual({host.split()[-1] for host in tried}, {"sick"})

    def test_its_process_is_frozen(self):
        """The process within the worker, which dask does not see."""
        text, _ = self.assert_told_of("freeze")
        assert_told(text, "[^ ]+ sick", "freeze")

    def test_frozen_at_the_start(self):
        """The others begin."""
        text, _ = self.assert_told_of("", stop=True)
        self.assertIn("the worker sick did not prove itself while the campaign ran", text)

    @unittest.skipUnless(os.path.exists(FAKETIME), "needs faketime (Debian's libfaketime)")
    def test_a_clock_that_runs_wild(self):
        """Whether it works or not, what comes of the runs is the same, and the others begin."""
        worker = self.start_worker("sick", env={"LD_PRELOAD": FAKETIME, "FAKETIME": "+0 x1000"})
        for name in ("well", "other"):
            self.start_worker(name)
        self.wait_for_workers(2)
        words = ("--avrora", f"{self.path}/avrora", "--scheduler", self.address)
        status, _, text, rows = run_campaign(self.path, *words, without_dask=False, CAMPAIGN_PLACE=self.path)
        self.assertEqual(status, 0, text)
        self.assertEqual(verdicts(rows.values()), expected())
        self.assertTrue(all(0 <= row["seconds"] < 600 for row in rows.values()))
        worker.kill()
