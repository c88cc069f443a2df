#!/usr/bin/env python3
"""A campaign by the real simulator, of which one worker lies from the middle on: is any result another one than without
it?

    AVRORA_PROGRAM=PROGRAM tools/tests/lying_worker.py [--alone] [RUNS [WORKERS [FOLDER]]]

The runs are short ones of examples/echo.hex, to which bytes come at different times. A process of the program makes
many of them; with --alone each is made by its own. One process of this machine, the first to begin, tells a lie in each
third of its runs once it has made its share of the first half: by turns a byte of what the node wrote, so that the case
is not met, and a count in an end row, which shows in the hash alone. The same campaign by the program itself, beside
it, says what is right. Both go on where they were if FOLDER keeps what an earlier call left. Status 1 where a result
differs, or the worker is not set aside.
"""
import argparse
import concurrent.futures
import contextlib
import os
import shutil
import subprocess
import sys
import tempfile
import time
from pathlib import Path

HERE = Path(__file__).resolve().parent
TOP = HERE.parent.parent
sys.path[:0] = [str(HERE), str(HERE.parent)]

from avrora_tools import results, runs  # noqa: E402

# In place of the simulator. It counts the runs of the worker that lies, each of which ends with the end row of its one
# node.
LIAR = f"""#!/bin/sh
place=$CAMPAIGN_PLACE
case $1 in run|sweep) ;; *) exec "$place/avrora" "$@" ;; esac
[ -e "$place/sick" ] || (set -C; echo $PPID >"$place/sick") 2>/dev/null
read sick <"$place/sick"
if [ "$sick" != $PPID ] || grep -q {runs.PROOF_NAME} scenario.toml; then exec "$place/avrora" "$@"; fi
read count <"$place/count"
"$place/avrora" "$@" >"$place/rows" || exit
awk -v count="$count" -v after="$CAMPAIGN_AFTER" -v place="$place" '
{{ number = count + 1; lies = number > after && number % 3 == 0 }}
lies && number % 2 == 0 {{ sub(/ serial 41$/, " serial 40") }}
lies && number % 2 == 1 && $3 == "end" {{ $4 = 7 }}
$3 == "end" {{ count = number; if (lies) print number >>(place "/lies") }}
{{ print }}
END {{ print count >(place "/count") }}' "$place/rows"
"""

SCENARIO = """version = 3
cycles = 310_000
[[node]]
image = "echo.hex"
[[input]]
node = 0
at = 270_000
hex = "41"
"""

CASE = "* 0 serial 41\n"

BYTES = ["41", "4142", "414243", "41424344"]
FIRST = 262_144  # the first byte comes behind the first epoch, so that one process can make many runs

CAMPAIGN = """[[run]]
scenario = "short.toml"
expect = "short.expect"
[run.vary]
"input.0.hex" = {bytes}
"input.0.at" = {{ from = {first}, to = {last} }}
"""
ALONE = "cycles = [310_000]\n"  # another key than of the input


def found(path, words, env):
    """What comes of all runs, by their names; what was said in this and earlier calls; and the seconds of this one."""
    begun = time.monotonic()
    words = [sys.executable, "-B", str(HERE.parent), "campaign", *words, f"{path}/c.toml"]
    with open(f"{path}/said", "a+", encoding="utf-8") as said:
        subprocess.run(words, env={**os.environ, **env}, check=False, stdout=subprocess.DEVNULL, stderr=said)
        said.seek(0)
        text = said.read()
    with results.reading(f"{path}/c.results/results.sqlite") as reading:
        rows = {row["name"]: (row["outcome"], row["hash"]) for row in results.rows(reading.database)}
    return rows, text, time.monotonic() - begun


def place(path, count, more):
    """Makes a folder one of a campaign, with the program and the liar, unless an earlier call did."""
    last = FIRST + count // len(BYTES) - 1
    texts = {
        "short.toml": SCENARIO,
        "short.expect": CASE,
        "c.toml": CAMPAIGN.format(bytes=BYTES, first=FIRST, last=last) + more,
        "echo.hex": (TOP / "examples/echo.hex").read_text(encoding="utf-8"),
        "liar": LIAR,
    }
    path.mkdir(parents=True, exist_ok=True)
    for name, text in texts.items():
        (path / name).write_text(text, encoding="utf-8")
    (path / "liar").chmod(0o755)
    if not (path / "count").exists():
        shutil.copy(os.environ["AVRORA_PROGRAM"], path / "avrora")
        (path / "count").write_text("0\n", encoding="utf-8")
    (path / "sick").unlink(missing_ok=True)  # the process that an earlier call found is no more


def made(path, words, workers, is_lying):
    """What comes of a campaign, and how many lies were told in it."""
    place(path, words.runs, ALONE if words.alone else "")
    options = ["--jobs", str(workers), "--avrora", str(path / ("liar" if is_lying else "avrora"))]
    env = {"CAMPAIGN_PLACE": str(path), "CAMPAIGN_AFTER": str(words.runs // workers // 2)}
    outcomes, said, seconds = found(path, options, env)
    lies = path / "lies"
    told = len(lies.read_text(encoding="utf-8").split()) if lies.exists() else 0
    print(f"{path.name}: {len(outcomes):,} results, {seconds:,.0f} s, {told:,} lies\n{said}", flush=True)
    return outcomes, said, told


def main():
    parser = argparse.ArgumentParser(description=__doc__, formatter_class=argparse.RawDescriptionHelpFormatter)
    parser.add_argument("--alone", action="store_true")
    parser.add_argument("runs", metavar="RUNS", nargs="?", type=int, default=100_000)
    parser.add_argument("workers", metavar="WORKERS", nargs="?", type=int, default=4)
    parser.add_argument("folder", metavar="FOLDER", nargs="?")
    words = parser.parse_args()
    count = words.runs = words.runs - words.runs % len(BYTES)
    with contextlib.ExitStack() as stack:
        temporary = stack.enter_context(tempfile.TemporaryDirectory(prefix="avrora-lying-"))
        path = Path(words.folder or temporary).absolute()
        os.environ["XDG_STATE_HOME"] = str(path / "state")  # for the key of these results
        threads = stack.enter_context(concurrent.futures.ThreadPoolExecutor())
        by_program = threads.submit(made, path / "well", words, max(1, words.workers // 2), False)
        lying, said, lies = made(path / "lying", words, words.workers, True)
        well, *_ = by_program.result()
    wrong = [name for name, it in well.items() if lying.get(name) != it]
    passed = sum(outcome == "passed" for outcome, _ in lying.values())
    is_named = "is set aside: it came to" in said and "begun again" in said
    told = f"{lies:,} lies were told, named: {is_named}"
    print(f"{len(lying):,} runs, {passed:,} passed, {len(wrong)} wrong {wrong[:5]}; {told}")
    return int(bool(wrong) or len(well) != count or len(lying) != count or not lies or not is_named)


if __name__ == "__main__":
    sys.exit(main())
