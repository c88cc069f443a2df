"""campaign: runs compared with other ways to run them, and what is told of that."""
import contextlib
import io
import os
import re
import sys
import tempfile
import unittest
from unittest import mock

from campaign_runs import folder, run_campaign
from support import DATA, run_tool
from avrora_tools import comparisons, outputs, runs
from avrora_tools.errors import BadInput
from avrora_tools.states import EPOCH

# Stands for the simulator: a run of two epochs and a part, of four rows. The latency says what is wrong: 20 with `run
# --plain`, 30 with `resume`, 40 with `save`, 50 with the status of `run --plain`, 60 with the samples.
SIMULATOR = f"""#!{sys.executable} -IS
import sys
text = open("scenario.toml").read()
if "{runs.PROOF_NAME}" in text:
    sys.exit(print({runs.PROOF_TRACE!r}, end=""))
latency = int(text.split("latency = ")[1].split()[0])
word, last = sys.argv[1], sys.argv[-1]
rows = [(5, "0 sent AA"), (latency + 21, "1 heard 1 AA 1"), (300_000, "0 sent AB"), (600_000, "0 end 9 running"),
        (600_000, "1 end 9 running")]
if latency == 60:
    rows[1] = (81, "1 heard 1 AB 1")
elif latency == 20 and sys.argv[2] == "--plain":
    rows[2] = (300_001, "0 sent AB")
elif latency == 30 and word == "resume":
    rows[3] = (600_000, "0 end 8 running")
elif latency == 50 and sys.argv[2] == "--plain":
    sys.exit(7)
if word == "save":
    if latency == 40:
        sys.stderr.write("avrora: scenario.toml: state refused: PastEnd, line 1\\n")
        sys.exit(8)
    sys.exit(print(last))
first, end = 0, 1_000_000
if word == "head":
    end = int(last) * {EPOCH}
elif word == "resume":
    first = int(open(last).read()) * {EPOCH}
for cycle, row in rows:
    if first <= cycle < end:
        print(cycle, row)
"""

SCENARIO = """version = 3
cycles = 600_000
latency = 100
[[node]]
image = "a.hex"
[[node]]
image = "a.hex"
[[link]]
from = 0
to = 1
"""

CAMPAIGN = """[[run]]
scenario = "net.toml"
compare = ["plain", "resumed", "links"]
vary.latency = [100, 20, 30, 40, 50, 60]
"""


@contextlib.contextmanager
def place(campaign=CAMPAIGN):
    with folder(campaign, scenario=SCENARIO) as path:
        with open(f"{path}/avrora", "w", encoding="utf-8") as file:
            file.write(SIMULATOR)
        yield path


class InACampaign(unittest.TestCase):
    def test_what_differs_is_told(self):
        with place() as path:
            status, out, errors, rows = run_campaign(path, "--jobs", "2")
            self.assertEqual(status, 1, errors)
            found = {row["parameters"]["latency"]: row for row in rows.values()}
            self.assertEqual({latency for latency, row in found.items() if row["outcome"] == "passed"}, {100})
            for latency, first, second in (
                (20, "run --plain differs in row 3:", "- 300000 0 sent AB"),
                (30, "head N and then resume differs in row 4:", "- 600000 0 end 9 running"),
                (40, "save N: status 8: avrora: scenario.toml: state refused: PastEnd, line 1", None),
                (50, "run --plain: status 7: ", None),
                (
                    60,
                    "links: 81 node 1 heard 1 AB 1: on the air is AA of node 0 sent at 5, so 1 AA 1 should be heard",
                    None,
                ),
            ):
                lines = found[latency]["message"].splitlines()
                # which of two epochs goes by the scenario's text
                self.assertEqual(re.sub("^(head|save) [12]", r"\1 N", lines[0]), first)
                if second:
                    self.assertEqual(lines[1], second)
            self.assertEqual(found[100]["compared"], {"plain": 5, "resumed": 5, "links": 1})
            self.assertEqual(found[40]["compared"], {"plain": 5, "resumed": 0, "links": 1})
            self.assertEqual(found[20]["compared"], {"plain": 2, "resumed": 5, "links": 1})
            self.assertIn("\n6 samples checked by links, in 6 runs\n", out)
            with contextlib.suppress(FileNotFoundError):
                os.unlink(f"{path}/c.results/summary.txt")
            _, out, _ = run_tool("campaign", "--report", f"{path}/c.toml")
            self.assertIn("\n22 rows equal to those of run --plain, in 5 runs\n", out)

    def test_it_decides_what_is_kept(self):
        """A run that was compared in another way is run again."""
        with place(CAMPAIGN.replace("[100, 20, 30, 40, 50, 60]", "[100]")) as path:
            run_campaign(path)
            _, _, errors, _ = run_campaign(path)
            self.assertIn("1 of 1 results", errors)
            with open(f"{path}/c.toml", "w", encoding="utf-8") as file:
                file.write(CAMPAIGN.replace("[100, 20, 30, 40, 50, 60]", "[100]").replace('"plain", ', ""))
            _, _, errors, rows = run_campaign(path)
            self.assertNotIn("already", errors)
            self.assertEqual(rows["net latency=100"]["compared"], {"resumed": 5, "links": 1})


class Counts(unittest.TestCase):
    def test_rows_of_each_kind(self):
        """By hand; a block ends within each row once."""
        rows = (
            b"0 0 instr 0000 ldi r16, 0x01\n7 0 sent AA\n9 1 heard 1 AA 0\n9 2 heard 2 AB 0\n9 3 heard 0 00 0\n"
            b"10 1 heard 1 AA 1\n11 1 serial 0D\n12 1 stop 0010 BREAK\n12 1 entry 2\n20 0 end 11 running\n"
        )
        for size in range(1, len(rows) + 1):
            with mock.patch.object(outputs, "BLOCK", size):
                self.assertEqual(outputs.looked_through(io.BytesIO(rows))[1], [1, 2, 1, 1, 1])


class OneByOne(unittest.TestCase):
    """Each way by itself, with a stored trace of nearly three epochs."""

    def setUp(self):
        self.folder = tempfile.TemporaryDirectory()
        self.addCleanup(self.folder.cleanup)
        with open(f"{DATA}/packet.trace", "rb") as file:
            self.rows = file.read().splitlines(keepends=True)
        with open(f"{DATA}/packet.toml", encoding="utf-8") as file:
            self.scenario = file.read()
        self.content = b"".join(self.rows)

    def write(self, name, content):
        with open(f"{self.folder.name}/{name}", "wb") as file:
            file.write(content)

    def call(self, words, output):
        """What the simulator does."""
        first, end = 0, 1 << 40
        if words[0] == "save":
            output.write(words[-1].encode())
        else:
            if words[0] == "head":
                end = int(words[-1]) * EPOCH
            if words[0] == "resume":
                with open(f"{self.folder.name}/{words[-1]}", "rb") as file:
                    first = int(file.read()) * EPOCH
            output.write(b"".join(row for row in self.rows if first <= int(row.split()[0]) < end))

    def found(self, way):
        self.write("trace", self.content)
        with (
            open(f"{self.folder.name}/trace", "rb", buffering=0) as trace,
            open(f"{self.folder.name}/output", "w+b", buffering=0) as output,
        ):
            place = comparisons.Place(self.folder.name, "scenario.toml", self.scenario, trace, output, self.call)
            return comparisons.WAYS[way](place)

    def test_equal(self):
        heard = sum(b" heard " in row for row in self.rows)
        self.assertGreater(heard, 0)
        self.assertEqual(self.found("plain"), (None, len(self.rows)))
        self.assertEqual(self.found("resumed"), (None, len(self.rows)))
        self.assertEqual(self.found("links"), (None, heard))

    def test_a_row_too_few_or_too_many(self):
        self.rows.append(b"737281 0 end 1 running\n")
        found = self.found("plain")
        self.assertEqual(found.difference.splitlines()[1:], ["- no row", "+ 737281 0 end 1 running"])
        del self.rows[-2:]
        self.assertRegex(self.found("plain").difference, "(?s)differs in row .*\n\\+ no row$")

    def test_nothing_to_cut(self):
        """A run within its first epoch has no state."""
        self.scenario = self.scenario.replace("737_280", "262_144")
        self.assertEqual(self.found("resumed"), (None, 0))

    def test_no_trace_of_the_scenario(self):
        self.content = b"".join(self.rows[:-1])
        with self.assertRaises(BadInput):
            self.found("links")


if __name__ == "__main__":
    unittest.main()
