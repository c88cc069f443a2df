#!/usr/bin/env python3
"""How long the tools take for a million rows, and how much memory: the table of README.md.

    tools/tests/times.py [ROWS]     of a trace of about so many rows (else 1,000,000), which it makes itself

It makes a network of 16 nodes of which all listen, in cycles of their own, and the trace of it that the rules of the
air give. Seconds are those of the processor, of which the least of three runs is told, so other work on the machine
counts little. """
import heapq
import os
import random
import subprocess
import sys
import tempfile

TOOLS = os.path.dirname(os.path.dirname(os.path.realpath(__file__)))
sys.path.insert(0, TOOLS)

from avrora_tools.scenarios import Air, Scenario, answer  # noqa: E402

NODES, WIDTH = 16, 4
BYTE_TIME, EVERY, SEND_EVERY = 1_024, 160, 300  # cycles, cycles from a node's sample to its next one, samples to a send
RUNS = 3

READING = "import sys; from avrora_tools.traces import Form, read; [0 for _ in read(sys.argv[1], Form.WHOLE)]"


def scenario_of(cycles):
    links = [
        f"[[link]]\nfrom = {a}\nto = {b}\n"
        for a in range(NODES)
        for b in range(NODES)
        if abs(a % WIDTH - b % WIDTH) + abs(a // WIDTH - b // WIDTH) == 1
    ]
    top = f"version = 3\ncycles = {cycles}\nlatency = 300\nbyte_time = {BYTE_TIME}\n"
    return top + '[[node]]\nimage = "a.hex"\n' * NODES + "".join(links)


def write_trace(file, scenario):
    """The samples of all nodes, about `EVERY` cycles from one to the next; each sends now and then."""
    draw = random.Random(1)
    air = Air(scenario)
    due = [(1_000 + 17 * node, node) for node in range(NODES)]
    while due[0][0] < scenario.cycles:
        cycle, node = due[0]
        heapq.heapreplace(due, (cycle + EVERY + draw.randrange(-8, 9), node))
        write_rows(file, air, cycle, node, draw.randrange(256) if draw.randrange(SEND_EVERY) == 0 else None)
    for node in range(NODES):
        file.write(f"{scenario.cycles} {node} end 1 running\n")


def write_rows(file, air, cycle, node, byte):
    sends = air.sends[node]
    if byte is not None and (not sends or sends[-1][0] + BYTE_TIME <= cycle):
        file.write(f"{cycle} {node} serial {byte:02X}\n{cycle} {node} sent {byte:02X}\n")
        air.send(node, cycle, byte)
    status, heard, age = answer(air.heard(node, cycle), cycle)
    file.write(f"{cycle} {node} heard {status} {heard:02X} {age}\n")


def measured(words):
    """The least seconds of the processor of some runs, and MiB."""
    seconds, most = [], 0
    for _ in range(RUNS):
        child = subprocess.Popen(words, stdout=subprocess.DEVNULL, cwd=TOOLS)
        _, status, usage = os.wait4(child.pid, 0)
        if status:
            raise SystemExit(f"{' '.join(words)}: status {os.waitstatus_to_exitcode(status)}")
        seconds.append(usage.ru_utime + usage.ru_stime)
        most = max(most, usage.ru_maxrss)
    return min(seconds), most / 1024


def main(rows):
    with tempfile.TemporaryDirectory() as folder:
        trace, net, case = (f"{folder}/{name}" for name in ("a.trace", "net.toml", "a.expect"))
        text = scenario_of(max(2_000, rows * EVERY // NODES))
        with open(net, "w") as file:
            file.write(text)
        with open(case, "w") as file:
            file.write("never * * stop *\ncount >= 1: * * sent *\n")
        with open(trace, "w") as file:
            write_trace(file, Scenario.of_text(text, net))
        with open(trace) as file:
            million = sum(1 for _ in file) / 1e6
        tool = [sys.executable, "-B", TOOLS]
        commands = {
            "reading alone": [sys.executable, "-B", "-c", READING, trace],
            "console": [*tool, "console", trace],
            "expect": [*tool, "expect", "--trace", trace, case],
            "annotate": [*tool, "annotate", trace],
            "links": [*tool, "links", net, trace],
            "diff": [*tool, "diff", trace, trace],
            "vcd": [*tool, "vcd", "-s", net, trace],
            "timeline": [*tool, "timeline", "-s", net, trace],
        }
        for name, words in commands.items():
            seconds, mebibytes = measured(words)
            of = 2 * million if name == "diff" else million
            print(
                f"{name:15} {seconds / of:6.2f} s a million rows, {of / seconds * 1e6:11,.0f} rows a second, "
                f"{mebibytes:4.0f} MiB",
                flush=True,
            )


if __name__ == "__main__":
    if sys.argv[1:2] in (["--help"], ["-h"]):
        sys.exit(print(__doc__))
    main(int(sys.argv[1].replace("_", "").replace(",", "")) if sys.argv[1:] else 1_000_000)
