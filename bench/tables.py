#!/usr/bin/env python3
"""Writes the tables of docs/SPEED.md from what the scripts beside it printed.

    bench/run.sh >run.out; bench/paths.py >paths.out; bench/networks.sh >networks.out
    for k in 1 2 3; do bench/threads.sh PROGRAM >idle$k.out; bench/threads.sh PROGRAM 4 >busy$k.out; done
    bench/tables.py run.out paths.out networks.out idle*.out busy*.out

Each table stands between `<!-- table: bench/SCRIPT -->` and `<!-- end -->`; one of whose script no output is given stays as it
is. Of several outputs of a script the table has the range of each figure. What an image or a network is stays as the table
has it; a row that no output names is dropped, and named.
"""
import re
import sys
from pathlib import Path

SPEED = Path(__file__).resolve().parent.parent / "docs" / "SPEED.md"

NODE = re.compile(r"(simavr, )?(\w+): \d+ cycles in (under )?([\d.]+) s, .*, (\d+) KiB at most")
HOST = re.compile(r"(\w+): ([\d.]+) host instructions an instruction")
NETWORK = re.compile(r"(.+): \d+ cycles of nodes and (\d+) rows in (under )?([\d.]+) s: ([\d.]+) million cycles and ([\d.]+) .*, (\d+) KiB at most")
BUSY = re.compile(r"\d+ processors, (\d+) busy programs beside, load .*")
PATH = re.compile(r"([\d,]+) instructions: of one kind ([\d.]+) ns each, drawn ([\d.]+) ns(?:, simavr ([\d.]+) ns)?")
THREADS = re.compile(
    r"(.+): one thread ([\d.]+) s, a thread a node ([\d.]+) s, ([\d.]+) times as fast, .*, "
    r"processors [\d.]+ s and [\d.]+ s, ([\d.]+) times as much, .* rows"
)


def span(values, digits, unit=""):
    """A figure, or from the least to the greatest."""
    least, most = f"{min(values):,.{digits}f}", f"{max(values):,.{digits}f}"
    return (least if least == most else f"{least} to {most}") + unit


class Figures(dict):
    """All figures of a row, by their name."""

    def add(self, row, name, value):
        self.setdefault(row, {}).setdefault(name, []).append(float(value))


def node_cells(row):
    """Time, simavr, ratio, host instructions."""
    ours, peers = row["time"], row.get("peer")
    ratio = span([p / max(o, 0.001) for o, p in zip(ours, peers)], 1) if peers else ""
    time = "under 0.001 s" if max(ours) < 0.001 else span(ours, 3, " s")
    host = span(row["host"], 0 if min(row["host"]) >= 1 else 2) if "host" in row else ""
    return [time, span(peers, 3, " s") if peers else "", ratio, host]


def network_cells(row):
    return [span(row["cycles"], 0, " million"), span(row["rows"], 2, " million"), span(row["kib"], 0, " KiB")]


def path_cells(row):
    """Of one kind, drawn, drawn on simavr, and how many times as long that takes."""
    peers = row.get("peer")
    ratio = span([p / o for o, p in zip(row["drawn"], peers)], 1) if peers else ""
    return [span(row["one"], 1, " ns"), span(row["drawn"], 1, " ns"), span(peers, 1, " ns") if peers else "", ratio]


def threads_cells(row):
    """On one thread, by threads, how many times as fast, how many times the processor time; the last two also beside four
    busy programs, where measured."""
    alone = [span(row["plain"], 2, " s"), span(row["threads"], 2, " s"), span(row["gain"], 1), span(row["cost"], 1)]
    return alone + [span(row[it], 1) if it in row else "" for it in ("gain beside 4", "cost beside 4")]


# The script of a table, how its cells are made, and how many cells before them say what the row is.
TABLES = {
    "bench/run.sh": (node_cells, 2),
    "bench/paths.py": (path_cells, 1),
    "bench/networks.sh": (network_cells, 1),
    "bench/threads.sh": (threads_cells, 1),
}


def read(paths):
    """The figures of each script, by the row's name."""
    found, busy = {script: Figures() for script in TABLES}, "0"
    for line in (line.strip() for path in paths for line in Path(path).read_text().splitlines()):
        if it := NODE.fullmatch(line):
            found["bench/run.sh"].add(it[2], "peer" if it[1] else "time", 0.0 if it[3] else it[4])
            if not it[1]:
                found["bench/run.sh"].add(it[2], "kib", it[5])
        elif it := HOST.fullmatch(line):
            found["bench/run.sh"].add(it[1], "host", it[2])
        elif it := PATH.fullmatch(line):
            for name, place in (("one", 2), ("drawn", 3), ("peer", 4)):
                if it[place]:
                    found["bench/paths.py"].add(it[1], name, it[place])
        elif it := NETWORK.fullmatch(line):
            for name, place in (("cycles", 5), ("rows", 6), ("kib", 7)):
                found["bench/networks.sh"].add(it[1], name, it[place])
        elif it := BUSY.fullmatch(line):
            busy = it[1]
        elif it := THREADS.fullmatch(line):
            beside = "" if busy == "0" else f" beside {busy}"
            found["bench/threads.sh"].add(it[1], f"gain{beside}", it[4])
            found["bench/threads.sh"].add(it[1], f"cost{beside}", it[5])
            if not beside:
                found["bench/threads.sh"].add(it[1], "plain", it[2])
                found["bench/threads.sh"].add(it[1], "threads", it[3])
    return found


def table_of(script, old, figures):
    """The lines of a table, with the figures in place of those that stand there."""
    make, kept = TABLES[script]
    lines, left = old[:2], dict(figures)
    for line in old[2:]:
        cells = [it.strip() for it in line.strip("|").split("|")]
        name = cells[0].strip("`")
        if name in left:
            lines.append("| " + " | ".join(cells[:kept] + make(left.pop(name))) + " |")
        else:
            print(f"{script}: no figures of {name}: its row is dropped", file=sys.stderr)
    for name, row in left.items():
        lines.append("| " + " | ".join([name] + [""] * (kept - 1) + make(row)) + " |")
    return lines


def main(paths):
    if not paths or paths[0].startswith("-"):
        print(__doc__, file=sys.stderr)
        return 2
    text, found = SPEED.read_text(), read(paths)

    def replaced(it):
        script, old = it[1], it[2].strip("\n").split("\n")
        lines = table_of(script, old, found[script]) if found[script] else old
        return f"<!-- table: {script} -->\n" + "\n".join(lines) + "\n<!-- end -->"

    kib = [it for row in found["bench/run.sh"].values() for it in row.get("kib", [])]
    if kib:
        print("memory of one node:", span([it / 1024 for it in kib], 1, " MiB"))
    SPEED.write_text(re.sub(r"<!-- table: (\S+) -->\n(.*?)\n<!-- end -->", replaced, text, flags=re.S))
    return 0


if __name__ == "__main__":
    if sys.argv[1:2] in (["--help"], ["-h"]):
        sys.exit(print(__doc__))
    sys.exit(main(sys.argv[1:]))
