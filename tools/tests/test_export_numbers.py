"""Each format of `export` on a network of 64 nodes with eleven compiled programs, read back by a program that it is
for, or
by a reader that is written here from the format's own description, and compared to the cycle with what `profile`,
`links` and `energy` tell, and with the rows themselves.

AVRORA_EXPORT_WINDOW names more cycles of instructions than the tests take (at most 20,000)."""
import collections
import csv
import json
import os
import re
import subprocess
from pathlib import Path

import pytest

from firmware import needs_compiler, needs_program as needs_simulator
from support import TOP, needs_program, run_tool

CYCLES, BEGIN = 300_000, 100_000
WINDOW = int(os.environ.get("AVRORA_EXPORT_WINDOW", "3000"))
# How many nodes run each: radio programs, and such with handlers, calls, jumps between functions, sleep.
NODES = {
    "flood": 14, "relay": 6, "packet": 8, "alarm": 8, "echo": 4, "ring": 4, "torn": 4, "ticks": 4, "wake": 4, "calls": 4,
    "data": 4,
}  # fmt: skip
SOURCES = {name: f"examples/{name}.c" for name in ("flood", "relay", "packet", "echo")}
SOURCES |= {name: f"examples/races/{name}.c" for name in ("alarm", "ring", "torn", "ticks", "wake", "data")}
SOURCES["calls"] = "tools/tests/firmware/calls.c"

pytestmark = [needs_simulator, needs_compiler]


class Network:
    """A folder with the network, its programs, and its trace."""

    def __init__(self, folder):
        self.folder = folder
        for name, source in SOURCES.items():
            build(f"{TOP}/{source}", folder / name)
        words = ["mknet", "--cycles", str(CYCLES), "--window", f"{BEGIN}..{BEGIN + WINDOW}", "--latency", "100"]
        images = [f"{name}.hex*{count}" for name, count in NODES.items()]
        self.scenario, self.trace = f"{folder}/net.toml", f"{folder}/net.trace"
        (folder / "net.toml").write_text(told(*words, "grid:8", *images))
        self.simulate("run", "net.trace")
        self.simulate("monitor", "net.profile")
        self.simulate("monitor", "whole.profile", "0", str(CYCLES))
        self.elfs = [word for name in NODES for word in ("-e", f"{folder}/{name}.elf")]
        self.programs = [name for name, count in NODES.items() for _ in range(count)]
        self.rows = [line.split(" ", 3) for line in Path(self.trace).read_text().splitlines()]
        self.profile = told("profile", "-s", self.scenario, *self.elfs, self.trace)

    def simulate(self, word, name, *more):
        with open(self.folder / name, "wb") as file:
            words = [os.environ["AVRORA_PROGRAM"], word, "net.toml", *more]
            subprocess.run(words, cwd=self.folder, stdout=file, check=True)

    def export(self, form, *words):
        path = f"{self.folder}/out.{form}"
        programs = [] if form in ("pcapng", "csv") else self.elfs
        status, out, err = run_tool("export", form, "-s", self.scenario, *programs, *words, "-o", path, self.trace)
        assert (status, out, err) == (0, "", "")
        return path

    def of_kind(self, kind):
        return [row for row in self.rows if row[2] == kind]

    def column(self, number):
        """A column of the nodes of `profile`."""
        found = [int(line.split()[number].replace(",", "")) for line in self.profile.splitlines()[1:65]]
        assert len(found) == 64
        return found

    def functions(self):
        """Cycles by function, as `profile` tells them; interrupts with their entries as one."""
        part = self.profile[self.profile.index("all nodes\n") :].splitlines()[2:]
        return grouped((line.split()[-1], int(line.split()[0].replace(",", ""))) for line in part if "(a" not in line and "(b" not in line)


def build(source, target):
    words = ["avr-gcc", "-mmcu=atmega128", "-Os", "-gdwarf-2", "-o", f"{target}.elf", source]
    subprocess.run(words, check=True, capture_output=True)
    subprocess.run(
        ["avr-objcopy", "-j", ".text", "-j", ".data", "-O", "ihex", f"{target}.elf", f"{target}.hex"], check=True
    )


def told(*words):
    status, out, err = run_tool(*words)
    assert status == 0, err
    return out


def grouped(costs):
    """Cycles by function, those of interrupts (their entries, the jumps at the vectors, what they do) as one."""
    found = collections.Counter()
    for name, cycles in costs:
        found["interrupts" if is_of_interrupts(name) else name] += cycles
    return +found


def is_of_interrupts(name):
    return name.endswith("_vect") or name in ("__vectors", "interrupts)")


@pytest.fixture(scope="module")
def network(tmp_path_factory):
    pytest.importorskip("elftools", reason="needs pyelftools (Debian's python3-pyelftools)")
    return Network(tmp_path_factory.mktemp("numbers"))


@pytest.fixture(scope="module")
def stacks(network):
    """Cycles by call stack, from the folded form: a line a stack, its cycles last."""
    lines = Path(network.export("folded")).read_text().splitlines()
    found = collections.Counter()
    for line in lines:
        assert re.fullmatch(r"node \d+(;[^;]+)+ \d+", line), line
        path, cycles = line.rsplit(" ", 1)
        found[tuple(path.split(";"))] += int(cycles)
    return found


# ---- cycles


def test_the_profile_of_the_trace_is_that_of_the_simulators_own_count(network):
    report = told("profile", "-s", network.scenario, f"{network.folder}/net.profile")
    assert report.splitlines()[:65] == network.profile.splitlines()[:65]
    for node in range(64):
        assert sum(network.column(number)[node] for number in (1, 2, 3, 4)) == WINDOW


def test_folded_stacks_have_the_cycles_of_profile(network, stacks):
    by_node = collections.Counter()
    for path, cycles in stacks.items():
        by_node[path[0]] += cycles
    assert [by_node[f"node {node}"] for node in range(64)] == network.column(1)
    # a handler may call functions: they are below it, and `profile` tells them by their own names
    own = grouped((path[-1], cycles) for path, cycles in stacks.items())
    assert own == network.functions() and own["interrupts"] > 1_000 and len(own) >= 6
    asleep = Path(network.export("folded", "--asleep")).read_text()
    slept = dict(re.findall(r"(?m)^node (\d+);\(asleep\) (\d+)$", asleep))
    assert [int(slept.get(str(node), 0)) for node in range(64)] == network.column(2)


SPEEDSCOPE = {  # by the format's own description, in TypeScript, as far as sampled profiles go
    "type": "object",
    "required": ["$schema", "shared", "profiles"],
    "properties": {
        "$schema": {"const": "https://www.speedscope.app/file-format-schema.json"},
        "name": {"type": "string"},
        "exporter": {"type": "string"},
        "activeProfileIndex": {"type": "number"},
        "shared": {
            "type": "object",
            "required": ["frames"],
            "properties": {
                "frames": {
                    "type": "array",
                    "items": {
                        "type": "object",
                        "required": ["name"],
                        "additionalProperties": False,
                        "properties": {
                            "name": {"type": "string"}, "file": {"type": "string"}, "line": {"type": "number"},
                            "col": {"type": "number"},
                        },
                    },
                }
            },
        },
        "profiles": {
            "type": "array",
            "items": {
                "type": "object",
                "required": ["type", "name", "unit", "startValue", "endValue", "samples", "weights"],
                "additionalProperties": False,
                "properties": {
                    "type": {"const": "sampled"},
                    "name": {"type": "string"},
                    "unit": {"enum": ["bytes", "microseconds", "milliseconds", "nanoseconds", "none", "seconds"]},
                    "startValue": {"type": "number"},
                    "endValue": {"type": "number"},
                    "samples": {
                        "type": "array", "items": {"type": "array", "items": {"type": "integer", "minimum": 0}}
                    },
                    "weights": {"type": "array", "items": {"type": "number", "minimum": 0}},
                },
            },
        },
    },
    "additionalProperties": False,
}  # fmt: skip


def valid(document, schema):
    jsonschema = pytest.importorskip("jsonschema", reason="needs jsonschema (Debian's python3-jsonschema)")
    jsonschema.Draft7Validator.check_schema(schema)
    jsonschema.Draft7Validator(schema).validate(document)


def test_speedscope_is_of_its_schema_and_has_the_same_stacks(network, stacks):
    document = json.loads(Path(network.export("speedscope")).read_text())
    names = [frame["name"] for frame in document["shared"]["frames"]]
    found = collections.Counter()
    for profile in document["profiles"]:
        for sample, weight in zip(profile["samples"], profile["weights"], strict=True):
            found[(profile["name"], *(names[at] for at in sample))] += weight
    assert found == stacks
    valid(document, SPEEDSCOPE)


@needs_program("callgrind_annotate", "valgrind")
def test_callgrind_annotate_tells_the_cycles_of_profile(network, stacks):
    path = network.export("callgrind")
    words = ["callgrind_annotate", "--auto=no", "--threshold=100", "--show-percs=no", path]
    done = subprocess.run(words, capture_output=True, text=True, check=True)
    assert done.stderr == ""
    totals = re.search(r"(?m)^ *([\d,]+) +([\d,]+) +PROGRAM TOTALS", done.stdout)
    assert int(totals[1].replace(",", "")) == sum(network.column(1))
    in_window = [row for row in network.of_kind("instr") if row[3] != "" and BEGIN <= int(row[0]) < BEGIN + WINDOW]
    assert int(totals[2].replace(",", "")) == len(in_window)
    lines = re.findall(r"(?m)^ *([\d,]+) +[\d,.]+ +\S+?:(\S+)(?: \[node \d+: \S+\])?$", done.stdout)
    assert len(lines) > 20
    assert grouped((name, int(cycles.replace(",", ""))) for cycles, name in lines) == network.functions()
    by_node, node, is_call = collections.Counter(), None, False  # callgrind_annotate tells no objects apart
    for line in Path(path).read_text().splitlines():
        if line.startswith("ob="):
            node = line.split(":")[0].removeprefix("ob=")
        elif line.startswith("0x"):
            by_node[node] += 0 if is_call else int(line.split()[2])
        is_call = line.startswith("calls=")
    assert [by_node[f"node {node}"] for node in range(64)] == network.column(1)


def text(values=None):
    return {"type": "string"} | ({"enum": values} if values else {})


# The JSON object format of trace events, by its description: the phases that are written, and what each must have.
NUMBER, COUNT = {"type": "number", "minimum": 0}, {"type": "integer", "minimum": 0}
EVENT = {
    "type": "object", "required": ["ph", "pid"],
    "properties": {"ph": text(list("BEXMsfi")), "pid": COUNT, "tid": COUNT, "ts": NUMBER},
}
NEEDED = {
    "B": ["name", "ts", "tid"], "E": ["ts", "tid"], "X": ["name", "ts", "dur", "tid"], "M": ["name", "args"],
    "s": ["name", "cat", "id", "ts", "tid"], "f": [
        "name", "cat", "id", "ts", "tid", "bp"
    ], "i": ["name", "s", "ts", "tid"],
}  # fmt: skip
PHASES = [
    {"if": {"properties": {"ph": {"const": phase}}}, "then": {"required": needed}} for phase, needed in NEEDED.items()
]
TRACE_EVENTS = {
    "type": "object",
    "required": ["traceEvents"],
    "properties": {
        "displayTimeUnit": text(["ms", "ns"]),
        "otherData": {"type": "object"},
        "traceEvents": {"type": "array", "items": {**EVENT, "allOf": PHASES}},
    },
    "additionalProperties": False,
}


def test_perfetto_has_the_cycles_of_profile_the_sends_and_who_heard_them(network):
    document = json.loads(Path(network.export("perfetto", "--hz", "1_000_000")).read_text())  # a cycle is a microsecond
    events = document["traceEvents"]
    slept, functions = collections.Counter(), collections.Counter()
    open_ = collections.defaultdict(list)  # by node functions that have not returned: their names
    since = {}
    for event in events:
        node = event["pid"]
        if event["ph"] == "X" and event["name"] == "asleep":
            slept[node] += event["dur"] - 1  # SLEEP itself takes a cycle
        elif event["ph"] in "BE":
            assert event["ts"] == int(event["ts"]) and BEGIN <= event["ts"] <= BEGIN + WINDOW
            if open_[node]:
                functions[node, open_[node][-1]] += event["ts"] - since[node]
            open_[node].append(event["name"]) if event["ph"] == "B" else open_[node].pop()
            since[node] = event["ts"]
    assert not any(open_.values())
    assert [slept[node] for node in range(64)] == network.column(2)
    spent = collections.Counter()
    for (node, _), cycles in functions.items():
        spent[node] += cycles
    assert [spent[node] - slept[node] for node in range(64)] == network.column(1)
    awake = grouped((name, cycles) for (_, name), cycles in functions.items())
    expected = network.functions()
    assert sum(awake.values()) - sum(slept.values()) == sum(expected.values())
    for name in ("f", "g", "transfer", "take", "pause"):  # that nothing sleeps in, but `pause`
        assert name == "pause" or awake[name] == expected[name], name
    sent = [(event["pid"], event["ts"]) for event in events if event["ph"] == "s"]
    assert sorted(sent) == sorted((int(row[1]), int(row[0])) for row in network.of_kind("sent"))
    flows = {(event["id"], event["pid"]) for event in events if event["ph"] == "f"}
    links = links_of(network)
    assert len(flows) == sum(clean + clashed for clean, clashed in links.values()) > 500
    assert {flow for flow, _ in flows} <= {f"{node}-{cycle:.0f}" for node, cycle in sent}
    valid(document, TRACE_EVENTS)


# ---- lines that ran


@needs_program("genhtml", "lcov")
@needs_program("lcov", "lcov")
def test_lcov_counts_what_the_rows_say(network):
    path = network.export("lcov")
    page = subprocess.run(["genhtml", "-o", f"{network.folder}/page", path], capture_output=True, text=True, check=True)
    assert "warning" not in (page.stdout + page.stderr).lower() and "error" not in page.stderr.lower()
    summary = subprocess.run(["lcov", "--summary", path], capture_output=True, text=True, check=True).stdout
    content = Path(path).read_text()
    hit, found = (sum(map(int, re.findall(rf"(?m)^{word}:(\d+)", content))) for word in ("LH", "LF"))
    assert f"({hit} of {found} lines)" in summary and hit > 50
    assert "Overall coverage rate" in page.stdout and f"({hit} of {found} lines)" in page.stdout
    told_, by_source = collections.Counter(), re.split(r"(?m)^SF:", content)[1:]
    for record in by_source:
        source = Path(record.splitlines()[0]).name
        for count, name in re.findall(r"(?m)^FNDA:(\d+),(.+)$", record):
            told_[source, name] += int(count)
    ran = collections.Counter(
        (network.programs[int(row[1])], int(row[3].split()[0], 16)) for row in network.of_kind("instr")
    )
    compared = 0
    for program in NODES:
        symbols = subprocess.run(
            ["avr-nm", f"{network.folder}/{program}.elf"], capture_output=True, text=True, check=True
        )
        for address, name in re.findall(r"(?m)^([0-9a-f]{8}) [Tt] (\w+)$", symbols.stdout):
            key = f"{program}.c", name
            if key in told_:
                assert told_[key] == ran[program, int(address, 16) // 2], key
                compared += told_[key] > 0
    assert compared >= 5


# ---- packets and links


def links_of(network):
    """By link how many sends came clean, and how many clashed, as `links` tells them."""
    rows = re.findall(
        r"(?m)^ *(\d+) to +(\d+) +(\d+) +\d+ +(\d+) +(\d+) ", told("links", network.scenario, network.trace)
    )
    assert len(rows) > 50  # nodes that never send are left out
    return {(int(row[0]), int(row[1])): (int(row[3]), int(row[4])) for row in rows}


@needs_program("tshark", "tshark")
@needs_program("capinfos", "tshark")
def test_tshark_reads_each_byte_that_was_sent_and_heard(network):
    path = network.export("pcapng", "--bytes", "--hz", "1_000_000_000")  # a cycle is a nanosecond
    said = subprocess.run(["capinfos", "-M", path], capture_output=True, text=True, check=True)
    assert said.stderr.strip() == "" and re.search(r"Number of interfaces in file: +64\b", said.stdout)
    fields = ["frame.interface_name", "frame.time_epoch", "frame.packet_flags_direction", "frame.comment", "frame.len"]
    words = ["tshark", "-r", path, "-T", "fields", "-E", "separator=|", *(w for field in fields for w in ("-e", field))]
    env = {**os.environ, "HOME": str(network.folder), "XDG_RUNTIME_DIR": str(network.folder)}
    done = subprocess.run(words, capture_output=True, text=True, check=True, env=env)
    assert [line for line in done.stderr.splitlines() if "Running as user" not in line] == []
    sent, heard, clashes = [], collections.Counter(), 0
    last = -1
    for line in done.stdout.splitlines():
        name, time, direction, comment, length = line.split("|")
        node, (seconds, fraction) = int(name.removeprefix("node ")), time.split(".")
        cycle = int(seconds) * 10**9 + int(fraction)
        assert length == "1" and cycle >= last
        last = cycle
        if int(direction, 16) == 2:
            sent.append((cycle, node))
        elif comment:
            clashes += 1
        else:
            heard[node] += 1
    assert sorted(sent) == sorted((int(row[0]), int(row[1])) for row in network.of_kind("sent"))
    assert clashes == sum(row[3].startswith("2 ") for row in network.of_kind("heard"))
    clean = collections.Counter()
    for (_, hearer), (count, _) in links_of(network).items():
        clean[hearer] += count
    assert heard == +clean and sum(heard.values()) > 500


@needs_program("tshark", "tshark")
def test_tshark_reads_the_frames_that_the_rows_have(network):
    path = network.export("pcapng", "--hz", "1_000_000_000")
    words = ["tshark", "-r", path, "-T", "fields", "-e", "frame.interface_name", "-e", "frame.packet_flags_direction"]
    env = {**os.environ, "HOME": str(network.folder), "XDG_RUNTIME_DIR": str(network.folder)}
    lines = subprocess.run(words, capture_output=True, text=True, check=True, env=env).stdout.splitlines()
    found = collections.Counter(
        name for name, direction in (line.split("\t") for line in lines) if int(direction, 16) == 2
    )
    by_node = collections.defaultdict(bytearray)
    for row in network.of_kind("sent"):
        by_node[f"node {row[1]}"].append(int(row[3], 16))
    frames = {name: len(re.findall(rb"\xaa\xaa\x7e(?:\x01.|\x02..|\x03...|\x04....)", data, re.S)) for name, data in by_node.items()}
    assert found == +collections.Counter(frames)


# ---- rows, and energy


def test_the_table_has_each_row_and_energy_the_same_sends(network):
    with open(network.export("csv"), newline="", encoding="utf-8") as file:
        cells = list(csv.DictReader(file))
    kinds = collections.Counter((row["node"], row["kind"]) for row in cells)
    assert kinds == collections.Counter((row[1], row[2]) for row in network.rows) and len(cells) == len(network.rows)
    currents = f"{TOP}/examples/currents.toml"
    report = told("energy", "--always-listening", currents, network.scenario, f"{network.folder}/whole.profile")
    rows = [line.split() for line in report.splitlines() if re.match(r" +\d+ +[\d.]+%", line)]
    assert [int(row[3].replace(",", "")) for row in rows] == [kinds[str(node), "sent"] for node in range(64)]
    whole = told("profile", "-s", network.scenario, f"{network.folder}/whole.profile").splitlines()[1:65]
    for row, line in zip(rows, whole, strict=True):
        busy = int(line.split()[1].replace(",", ""))
        assert float(row[1].rstrip("%")) == pytest.approx(100 * busy / CYCLES, abs=0.0051)
    ends = {row["node"]: int(row["instructions"]) for row in cells if row["kind"] == "end"}
    assert len(ends) == 64 and min(ends.values()) > 100
