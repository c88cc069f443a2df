#!/usr/bin/env python3
"""Damages traces, states, cases, scenarios and campaigns, and feeds them to the tools: each ends with status 0, 1 or 2,
and no other exception comes up than those that the command makes a line of.

    tools/tests/fuzz.py [COUNT] [SEED] [FIRST]   the inputs from number FIRST (else 0) on, below COUNT (else 100,000);
                                                   the same SEED makes the same ones

Exit status: 0 none was found, 1 inputs were found that end a tool otherwise; each is told, and kept in a file.
"""
import contextlib
import io
import os
import random
import sys
import tempfile
import traceback

TESTS = os.path.dirname(os.path.realpath(__file__))
TOP = os.path.dirname(os.path.dirname(TESTS))
sys.path.insert(0, os.path.dirname(TESTS))

from avrora_tools import main  # noqa: E402
from avrora_tools.errors import Status, ToolError  # noqa: E402

COUNT, SEED, FIRST = 100_000, 1, 0

# Bytes that mean something to one of the readers.
TELLING = [
    b"\n",
    b" ",
    b"0",
    b"9",
    b"-",
    b"..",
    b"*",
    b"{",
    b"}",
    b"[",
    b"]",
    b'"',
    b"'",
    b"=",
    b"#",
    b"\\",
    b"\xff",
    b"\x00",
    b"\r",
]

STATE_LINES = [
    "avrora state 1",
    "cycle 262144",
    f"core 0 {' '.join('0' * 41)}",
    f"timers 0 {' '.join('0' * 38)}",
    f"ports 0 {' '.join('0' * 29)}",
    f"io 0 {'0' * 448}",
    f"sram 0 {'0' * 8192}",
    "send 0 262143 5B",
    "end",
    "",
]


def stored(path):
    with open(f"{TOP}/{path}", "rb") as file:
        return file.read()


def some_rows(name):
    """A short trace: the first rows of a stored one, and its end rows."""
    lines = stored(f"tools/tests/data/{name}.trace").splitlines(keepends=True)
    ends = [line for line in lines if b" end " in line]
    return b"".join(lines[:40] + ends)


CASE = b"""only 0-4 sent serial stop heard
6542 0 sent 72
next 2: * 0 heard *
never * * stop *
count >= 1: * {0,1} sent {72,65}
within 0..40_000: text 0 matches "r[e]l"
text 1 lines == 0
"""

CAMPAIGN = b"""attempts = 2
[[run]]
scenario = "net.toml"
[run.vary]
latency = [50, 100]
"input.0.at" = { from = 2_000, to = 5_000, step = 1_000 }
[[run]]
name = "ring"
[run.network]
shape = "ring"
images = ["net.toml*3"]
link_latency = [10, 20]
inputs = { 0 = "01" }
window = [0, 10]
spans = { "0-1" = [[0, 5]] }
"""

# By the kind of input: a good one, and the words of the tools that read it as the file @.
DATA = f"{TOP}/tools/tests/data"
SUBJECTS = {
    "trace": (
        some_rows("relay"),
        [
            ["console", "@"],
            ["annotate", "@"],
            ["profile", "@"],
            ["profile", "-s", f"{DATA}/relay.toml", "@"],
            ["links", f"{DATA}/relay.toml", "@"],
            ["vcd", "-n", "0-4", "@"],
            ["timeline", "-s", f"{DATA}/relay.toml", "@"],
            ["expect", "--trace", "@", f"{TOP}/examples/relay.expect"],
        ],
    ),
    "state": ("\n".join(STATE_LINES).encode(), [["inspect", "@"], ["inspect", "@", "@"]]),
    "case": (CASE, [["expect", "--trace", f"{DATA}/relay.trace", "@"]]),
    "scenario": (stored("tools/tests/data/relay.toml"), [["why", "@"], ["links", "@", f"{DATA}/relay.trace"]]),
    "campaign": (CAMPAIGN, [["campaign", "--list", "@"]]),
}


def damaged(draw, content):
    """The content with a few changes."""
    content = bytearray(content)
    for _ in range(draw.choice([1, 1, 1, 2, 5])):
        at = draw.randrange(len(content) + 1)
        how = draw.randrange(6)
        if how == 0 and at < len(content):
            content[at] = draw.randrange(256)
        elif how == 1:
            content[at:at] = draw.choice(TELLING)
        elif how == 2:
            del content[at : at + draw.choice([1, 2, 10, 100])]
        elif how == 3:
            end = draw.randrange(len(content) + 1)
            content[at:at] = content[min(at, end) : max(at, end)][:200]
        elif how == 4:
            lines = bytes(content).splitlines(keepends=True)
            draw.shuffle(lines) if draw.random() < 0.2 else lines.insert(
                draw.randrange(len(lines) + 1), draw.choice(lines or [b"\n"])
            )
            content = bytearray(b"".join(lines))
        else:
            content[at : at + 1] = str(
                draw.choice([0, 1, 63, 64, 255, 256, 2**31, 2**40, 2**63, 10**25])
            ).encode()
    return bytes(content)


def ended(words):
    """How a tool ends on its words: its status, or the traceback of what is no ToolError."""
    out, errors = io.TextIOWrapper(io.BytesIO()), io.StringIO()
    try:
        with contextlib.redirect_stdout(out), contextlib.redirect_stderr(errors):
            return main.run(words)
    except ToolError as fault:
        return fault.status
    except Exception:
        return traceback.format_exc()


def fuzz(count, seed, first):
    draw = random.Random(seed)
    good = (Status.GOOD, Status.NOT_MET, Status.BAD_INPUT)
    found = 0
    with tempfile.TemporaryDirectory() as folder:
        path = f"{folder}/input"
        with open(f"{folder}/net.toml", "wb") as file:
            file.write(b'cycles = 5\nnode = [{image = "net.toml"}]\ninput = [{node = 0, at = 5, hex = "00"}]\n')
        for number in range(count):
            kind = draw.choice(list(SUBJECTS))
            content, tools = SUBJECTS[kind]
            content = damaged(draw, content)
            words = draw.choice(tools)
            if number < first:
                continue
            with open(path, "wb") as file:
                file.write(content)
            end = ended([path if word == "@" else word for word in words])
            if end not in good:
                found += 1
                kept = f"fuzz-{seed}-{number}"
                with open(kept, "wb") as file:
                    file.write(content)
                print(f"{' '.join(words)}, with {kept} as @, input {number} of seed {seed}: {end}", flush=True)
            if number % 1000 == 999:
                print(f"{number + 1:,} inputs", flush=True)
    print(f"{found} of the damaged inputs {first:,} to {count - 1:,} end a tool otherwise than they should")
    return int(found > 0)


if __name__ == "__main__":
    if sys.argv[1:2] in (["--help"], ["-h"]):
        sys.exit(print(__doc__))
    numbers = [int(word.replace("_", "").replace(",", "")) for word in sys.argv[1:]]
    sys.exit(fuzz(*(numbers + [COUNT, SEED, FIRST][len(numbers) :])))
