"""campaign: runs that differ in what arrives at one node are made many by one process, by the program that
AVRORA_PROGRAM names: with the rows of each made by itself, and where runs are short in a third of the program's time at
most."""
import shutil
import tempfile

import pytest

from campaign_runs import folder
from firmware import PROGRAM, needs_program
from support import TOP
from avrora_tools import benches, campaigns, files, runs, sittings

COUNT = 96

# The first byte arrives behind the first epoch.
TEXT = f"""traces = "all"
[[run]]
scenario = "{TOP}/examples/packet.toml"
expect = "late.expect"
[run.vary]
"input.2.at" = {{ from = 300_000, to = {300_000 + 500 * (COUNT - 1)}, step = 500 }}
"""
TWO_KEYS = TEXT + '"input.2.hex" = ["02", "0202", "03FF"]\n"input.2.every" = [1, 5_000]\n'

# Not met by those that start late, and by a node of another number.
LATE = 'text 0 "from 2 packet 0: 22\\n"\nwithin 0..475_000: count >= 1: * 2 sent AA\n'

# Runs of which what is before the first byte, and the program's start, are most.
SHORT = """[[run]]
scenario = "short.toml"
expect = "late.expect"
[run.vary]
"input.2.at" = { from = 270_000, to = 289_000, step = 200 }
"""


def both_ways(text):
    """The answers to all runs of a campaign made together, and one by one; and the seconds of processors that each way
    took of the simulator."""
    with folder(text) as path, tempfile.TemporaryDirectory() as place:
        with open(f"{path}/late.expect", "w", encoding="utf-8") as file:
            file.write(LATE)
        write_short(path)
        campaign = campaigns.read(f"{path}/c.toml")
        bench = benches.Bench(sittings.shipment_of(campaign, files.read_named(PROGRAM, 1 << 30)), place)
        assert bench.prove() is None
        found = []
        for is_alone in (False, True):
            jobs = [run.job(is_alone) for run in campaign.runs()]
            assert all((job.moves is None) == is_alone for job in jobs)
            answers, before = [], bench.caller.processor
            while len(answers) < len(jobs):
                came = bench.run_batch(jobs[len(answers) :])
                assert came["sick"] is None and came["answers"]
                answers += came["answers"]
            found.append((answers, bench.caller.processor - before))
        bench.caller.close()
        bench.files.close()
        return found


def write_short(path):
    """The network of packet.toml for 300,000 cycles."""
    shutil.copy(f"{TOP}/examples/packet.hex", path)
    with open(
        f"{TOP}/examples/packet.toml", encoding="utf-8"
    ) as packet, open(f"{path}/short.toml", "w", encoding="utf-8") as file:
        file.write(packet.read().replace("cycles = 737_280", "cycles = 300_000"))


def without_times(answer):
    return {key: value for key, value in answer.items() if key not in ("seconds", "processor")}


@needs_program
@pytest.mark.parametrize("text", [TEXT, TWO_KEYS.replace(f"{300_000 + 500 * (COUNT - 1)}", "301_500")])
def test_the_same_rows(text):
    (together, _), (alone, _) = both_ways(text)
    assert list(map(without_times, together)) == list(map(without_times, alone))
    assert {answer["outcome"] for answer in alone} == {runs.PASSED, runs.FAILED}
    assert len({answer["hash"] for answer in alone}) >= len(alone) // 3  # a second byte may change nothing


@needs_program
def test_a_third_of_the_time():
    (_, together), (_, alone) = both_ways(SHORT)
    assert 3 * together < alone, f"{1_000 * together / COUNT:.2f} ms a run together, {1_000 * alone / COUNT:.2f} alone"
