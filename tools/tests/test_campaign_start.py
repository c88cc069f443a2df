"""campaign: what it starts, how it is ended, and what it says of a scenario that is refused."""
import contextlib
import os
import signal
import subprocess
import unittest

from campaign_runs import folder, hidden_dask, let_go
from support import LONG, TOOL, TOP, wait_for
from avrora_tools import campaigns, results, runs, shipping, sittings


class Start(unittest.TestCase):
    def test_it_is_built_where_avrora_is(self):
        """What ./avrora has proved and built is taken, and not built anew."""
        room = shipping.BUILT
        with open(f"{TOP}/avrora", encoding="utf-8") as file:
            words = file.read()
        self.assertIn(f"\nroom=$top/{room}\n", words)
        self.assertIn('run "$python" "$top/prove.py" avrora_program "$room"', words)


class End(unittest.TestCase):
    def test_terminated(self):
        """SIGTERM ends it as ^C does, also where that is ignored, and nothing is left that Python warns of."""
        with folder() as path:
            env = {**os.environ, "CAMPAIGN_LOG": f"{path}/log", "CAMPAIGN_HELD": "0", **hidden_dask(path)}
            words = [*TOOL, "campaign", "--avrora", f"{path}/avrora", f"{path}/c.toml"]
            words = ["/bin/sh", "-c", 'trap "" INT; exec "$@"', "sh", *words]
            campaign = subprocess.Popen(words, env=env, stdout=subprocess.DEVNULL, stderr=subprocess.PIPE)
            wait_for(lambda: os.path.exists(f"{path}/log"))
            campaign.send_signal(signal.SIGTERM)
            let_go(path)
            errors = campaign.communicate(timeout=LONG)[1].decode()
        self.assertEqual(campaign.returncode, 130, errors)
        self.assertIn("the same command goes on from there", errors)
        self.assertNotIn("leaked", errors)


class Refused(unittest.TestCase):
    def test_where_the_fault_is(self):
        """In the file that is kept of the run."""
        text = '[[run]]\nscenario = "net.toml"\n[run.vary]\nbyte_time = [100]\n'
        with folder(text) as path:
            campaign = campaigns.read(f"{path}/c.toml")
            with results.opened_folder(
                f"{path}/results", make=True
            ) as place, contextlib.closing(results.Store(place)) as store:
                sitting = sittings.Sitting(campaign, sittings.Words(), b"simulator", store)
                run = campaign.run(0)
                line = run.scenario().splitlines().index("byte_time = 100") + 1
                refusal = runs.answer(runs.REFUSED, "avrora: scenario refused: OutOfRange")
                self.assertEqual(
                    sitting.explained(run, refusal).splitlines(),
                    [
                        "avrora: scenario refused: OutOfRange",
                        f"runs/net,byte_time=100.toml: OutOfRange, line {line}, byte_time: 100 is not 256 to 4,096",
                    ],
                )
                self.assertEqual(sitting.explained(run, runs.answer(runs.PASSED)), "")

    def test_an_image_by_its_name(self):
        """And not by that of its content."""
        with folder('[[run]]\nscenario = "net.toml"\n') as path:
            campaign = campaigns.read(f"{path}/c.toml")
            with results.opened_folder(
                f"{path}/results", make=True
            ) as place, contextlib.closing(results.Store(place)) as store:
                sitting = sittings.Sitting(campaign, sittings.Words(), b"simulator", store)
                (shipped,) = campaign.files
                refusal = runs.answer(runs.REFUSED, f"avrora: {shipped}: image refused: NoEnd")
                self.assertEqual(sitting.explained(campaign.run(0), refusal), "avrora: a.hex: image refused: NoEnd")
