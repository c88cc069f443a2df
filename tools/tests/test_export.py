"""Traces in the formats of other programs. Expected values are worked by hand from the rows, or told by the program
that the format is for; relay.elf is described in test_programs.py."""
import collections
import csv
import io
import json
import os
import random
import re
import shutil
import struct
import subprocess
import sys

import pytest

from firmware import compiled, needs_compiler
from support import DATA, SEED, TOP, data, needs_module, needs_program, run_tool, scratch
from avrora_tools.events import EVENTS, event_of
from avrora_tools.exports import coverage, flames, pcapng, perfetto, tables
from avrora_tools.exports.frames import Finder, SentByte
from avrora_tools.exports.walking import StackReader
from avrora_tools.programs import Program
from avrora_tools.scenarios import Scenario

ELF = f"{DATA}/relay.elf"
RELAY = (f"-s{DATA}/relay.toml", "-e", ELF, f"{DATA}/relay.trace")

pyelftools = needs_module("elftools", "python3-pyelftools")


def exported(*words, status=0):
    code, out, err = run_tool("export", *words)
    assert code == status, err
    return out if status == 0 else err


class Table:
    """Functions by a table of their first words."""

    def __init__(self, firsts):
        self.firsts = firsts

    def name(self, _node, word):
        return self.firsts[max(first for first in self.firsts if first <= word)]

    def begins(self, _node, word):
        return word in self.firsts


# `main` at 10 calls `f` at 20, which jumps to `g` at 30 and is interrupted there; the handler of vector 24 lies at 40.
FUNCTIONS = Table({0x00: "vectors", 0x10: "main", 0x20: "f", 0x30: "g", 0x40: "TIMER0_COMP_vect"})


def stacks_of(rows, end):
    reader = StackReader((0, end), None, FUNCTIONS)
    for cycle, text in rows:
        reader.read(cycle, 0, event_of(text))
    reader.finish(end)
    return reader.costs[0]


def test_calls_jumps_interrupts_and_returns():
    costs = stacks_of(
        [
            (0, "instr 0010 nop"),
            (1, "instr 0011 call 0x0040"),
            (5, "instr 0020 nop"),
            (6, "instr 0021 jmp 0x0060"),
            (9, "instr 0030 nop"),
            (10, "enter 001E 0031"),
            (14, "instr 001E jmp 0x0080"),
            (17, "instr 0040 nop"),
            (18, "instr 0041 reti"),
            (22, "instr 0031 ret"),
            (26, "instr 0013 nop"),
        ],
        30,
    )
    # 5 = NOP and CALL of main, and 4 cycles of the last row; the handler's cycles are nobody else's.
    assert costs.paths == {
        ("main",): 1 + 4 + 4,
        ("main", "f"): 1 + 3,
        ("main", "g"): 1 + 4,
        ("TIMER0_COMP_vect",): 4 + 3 + 1 + 4,
    }
    calls = {key: (it.count, it.cycles, it.instructions) for key, it in costs.calls.items()}
    assert calls == {("main", 0x11, "f"): (1, 4, 2), ("main", 0x11, "g"): (1, 5, 2)}


def test_a_call_of_the_next_word_only_makes_room():
    costs = stacks_of([(0, "instr 0010 rcall .+0"), (4, "instr 0011 rcall .+0"), (8, "instr 0012 nop")], 9)
    assert costs.paths == {("main",): 9}
    assert not costs.calls


def test_an_interrupt_between_a_call_and_the_callee_keeps_the_call():
    rows = [
        (0, "instr 0010 call 0x0040"),
        (4, "enter 001E 0020"),
        (8, "instr 0040 reti"),
        (12, "instr 0020 ret"),
        (16, "instr 0012 nop"),
    ]
    costs = stacks_of(rows, 17)
    assert costs.paths == {("main",): 5, ("TIMER0_COMP_vect",): 8, ("main", "f"): 4}
    assert costs.calls["main", 0x10, "f"].count == 1


def test_sleep_is_apart():
    costs = stacks_of([(0, "instr 0010 sleep"), (100, "enter 001E 0011"), (108, "instr 0040 reti")], 112)
    assert costs.paths == {("main",): 1, ("TIMER0_COMP_vect",): 12}
    assert costs.asleep == 99
    assert list(flames.folded({0: costs}, True)) == [
        "node 0;TIMER0_COMP_vect 12",
        "node 0;main 1",
        "node 0;(asleep) 99",
    ]
    assert "(asleep)" not in "".join(flames.folded({0: costs}, False))


def test_recursion_and_a_jump_back_over_callers():
    rows = [
        (0, "instr 0010 call 0x0040"),
        (4, "instr 0020 call 0x0040"),
        (8, "instr 0020 call 0x0060"),
        (12, "instr 0030 nop"),
        (13, "instr 0011 nop"),
    ]
    costs = stacks_of(rows, 14)
    assert costs.paths == {("main",): 4 + 1, ("main", "f"): 4, ("main", "f", "f"): 4, ("main", "f", "f", "g"): 1}


# ---- callgrind, flame graphs, coverage


def busy_of_profile():
    _, out, _ = run_tool("profile", *RELAY)
    return [int(line.split()[1].replace(",", "")) for line in out.splitlines()[1:6]]


@pyelftools
def test_callgrind_has_the_cycles_of_profile():
    text = exported("callgrind", *RELAY)
    total = int(re.search(r"^totals: (\d+) ", text, re.M)[1])
    assert total == sum(busy_of_profile()) > 0
    own, skips = 0, False
    for line in text.splitlines():
        if re.match(r"0x", line):
            own += 0 if skips else int(line.split()[2])
            skips = False
        skips = line.startswith("calls=") or skips and not line.startswith("0x")
    assert own == total


@pyelftools
@needs_program("callgrind_annotate", "valgrind")
def test_callgrind_annotate_reads_it_without_a_word():
    with scratch("relay.out", exported("callgrind", *RELAY)) as path:
        done = subprocess.run(["callgrind_annotate", "--auto=no", path], capture_output=True, text=True, check=True)
        assert done.stderr == ""
        total = re.search(r"([\d,]+) \(100\.0%\) .* PROGRAM TOTALS", done.stdout)[1]
        assert int(total.replace(",", "")) == sum(busy_of_profile())


@pyelftools
def test_folded_and_speedscope_have_the_same_cycles():
    lines = exported("folded", *RELAY).splitlines()
    by_node = collections.Counter()
    for line in lines:
        path, cycles = line.rsplit(" ", 1)
        by_node[path.split(";")[0]] += int(cycles)
    assert [by_node[f"node {node}"] for node in range(5)] == busy_of_profile()
    document = json.loads(exported("speedscope", *RELAY))
    assert document["$schema"] == "https://www.speedscope.app/file-format-schema.json"
    names = [frame["name"] for frame in document["shared"]["frames"]]
    for node, profile in enumerate(document["profiles"]):
        assert (profile["type"], profile["unit"], profile["name"]) == ("sampled", "none", f"node {node}")
        assert len(profile["samples"]) == len(profile["weights"])
        assert sum(profile["weights"]) == profile["endValue"] == busy_of_profile()[node]
        stacks = {";".join([f"node {node}", *(names[at] for at in sample)]) for sample in profile["samples"]}
        assert stacks == {line.rsplit(" ", 1)[0] for line in lines if line.startswith(f"node {node};")}
    seconds = json.loads(exported("speedscope", "--hz", "1_000_000", *RELAY))["profiles"][0]
    assert seconds["unit"] == "seconds" and sum(seconds["weights"]) == pytest.approx(busy_of_profile()[0] / 1e6)


@pyelftools
def test_names_that_would_mean_something():
    """In callgrind's format a number in brackets stands for another name, in a folded stack a ; begins the next."""
    with open(ELF, "rb") as file:
        content = file.read().replace(b"__vector_15\0", b"(7);ab;wxyz\0").replace(b"relay.c\0", b"(2)ay.c\0")
    with scratch("relay.elf", content) as path:
        words = (RELAY[0], "--force", "-e", path, RELAY[-1])
        text = exported("callgrind", *words)
        assert r"fn=\x287);ab;wxyz" in text.splitlines() and not re.search(r"^c?f[nlie]i?=\(", text, re.M)
        stacks = {line.rsplit(" ", 1)[0] for line in exported("folded", *words).splitlines()}
        assert {name for line in stacks for name in line.split(";")[1:]} == {"TIMER0_COMP_vect", "(7):ab:wxyz"}


def test_an_image_named_to_move_a_cursor():
    """capinfos and tshark show the description of an interface as it is."""
    text = data("packet.toml").replace('"packet.hex"', '"\\u001b[2J\\u202e\\r.hex"')
    with scratch("net.toml", text) as scenario, scratch("packet.pcapng") as path:
        exported("pcapng", "-s", scenario, "-o", path, f"{DATA}/packet.trace")
        with open(path, "rb") as file:
            content = file.read()
        assert rb"\x1B[2J\u202E\x0D.hex" in content and b"\x1b[" not in content


def test_times_that_a_packet_cannot_have():
    text = data("packet.toml").replace("cycles = 737_280", "cycles = 1_099_511_627_776")
    rows = "1099511627000 0 sent AA\n" + "".join(f"1099511627776 {node} end 9 running\n" for node in range(3))
    with scratch("net.toml", text) as scenario, scratch("net.trace", rows) as trace, scratch("a.pcapng") as path:
        words = ("pcapng", "--bytes", "-s", scenario, "-o", path, trace)
        assert "--hz 1: a packet of pcapng has no time as late as cycle 1,099,511,627,776" in exported(
            *words, "--hz", "1", status=2
        )
        exported(*words, "--hz", "120")
        exported(*words)


@pyelftools
def test_lcov_has_what_ran():
    text = exported("lcov", *RELAY)
    found = {}
    for record in text.removeprefix("TN:\n").split("end_of_record\n")[:-1]:
        lines = record.splitlines()
        assert lines[0].endswith("relay.c")
        found = dict(line.split(":", 1)[1].split(",")[:2] for line in lines if line.startswith("DA:"))
        called = dict(line[5:].split(",")[::-1] for line in lines if line.startswith("FNDA:"))
        assert f"LF:{len(found)}" in lines and f"LH:{sum(1 for it in found.values() if it != '0')}" in lines
        # within the window each node enters the handler of timer 0 once; nobody calls `put` there
        assert called["TIMER0_COMP_vect"] == "5" and called["put"] == "0"
    assert found["52"] == "5"
    twice = exported("lcov", *RELAY, RELAY[-1])
    assert "FNDA:10,TIMER0_COMP_vect" in twice


@pyelftools
@needs_compiler
def test_lcov_has_a_function_in_the_file_that_declares_it(tmp_path):
    """The first code of `main` is that of an inlined function of another file."""
    (tmp_path / "radio.h").write_text("#include <avr/io.h>\nstatic inline void begin(void)\n{\n    PORTB = 1;\n}\n")
    (tmp_path / "send.c").write_text(
        '#include "radio.h"\n\nint main(void)\n{\n    begin();\n    for (;;)\n        PINB;\n}\n'
    )
    program = Program(str(compiled(tmp_path / "send.c", tmp_path, "-Os")))
    main = next(function.first for function in program.functions if function.name == "main")
    covered = coverage.Covered()
    covered.add(program, {main: 2})
    found = {path.rpartition("/")[2]: source for path, source in coverage.sources(covered).items()}
    assert found["send.c"].functions["main"] == (3, 2) and not found["radio.h"].functions
    assert found["radio.h"].lines[4] == 2  # the line of its code stays there


@pyelftools
@needs_program("genhtml", "lcov")
def test_genhtml_reads_it():
    with scratch("relay.c", "\n" * 200) as source:
        folder = os.path.dirname(source)
        shutil.copy(ELF, f"{folder}/relay.elf")
        text = exported("lcov", RELAY[0], "-e", f"{folder}/relay.elf", RELAY[-1])
        text = re.sub("^SF:.*", f"SF:{source}", text, flags=re.M)
        with open(f"{folder}/relay.info", "w", encoding="utf-8") as file:
            file.write(text)
        done = subprocess.run(
            ["genhtml", "-o", f"{folder}/page", f"{folder}/relay.info"], capture_output=True, text=True, check=True
        )
        assert "warning" not in (done.stdout + done.stderr).lower()
        assert os.path.exists(f"{folder}/page/index.html")


def test_what_wants_a_program_says_so():
    for form in ("callgrind", "folded", "speedscope", "lcov"):
        assert "needs the program (-e)" in exported(form, RELAY[0], RELAY[-1], status=2)
    assert "export pcapng -s packet.toml -o packet.pcapng packet.trace" in exported(
        "--help"
    )  # flood.toml sends no packets
    assert "needs the scenario (-s)" in exported("pcapng", RELAY[-1], status=2)
    assert "needs the scenario (-s)" in exported("perfetto", RELAY[-1], status=2)


@pyelftools
def test_a_trace_without_instructions_is_refused():
    for form in ("callgrind", "folded", "speedscope", "lcov"):
        assert "no instruction is traced" in exported(form, "-e", ELF, f"{DATA}/packet.trace", status=2)


@pyelftools
def test_nothing_is_left_where_the_trace_is_broken():
    with scratch("broken.trace", data("relay.trace")[:-40]) as path:
        target = f"{path}.out"
        for form in ("callgrind", "lcov", "perfetto", "pcapng", "csv"):
            assert exported(form, "-o", target, *RELAY[:3], path, status=2)
            assert not os.path.exists(target)


# ---- packets


def naive_frames(data_):
    """The frames of all that a node sent, straight from the rule."""
    found, at = [], 0
    while at < len(data_):
        head = data_[at : at + 4]
        if head[:3] == [0xAA, 0xAA, 0x7E] and len(head) == 4 and 1 <= head[3] <= 32 and at + 4 + head[3] <= len(data_):
            found.append((at, data_[at : at + 4 + head[3]]))
            at += 4 + head[3]
        else:
            at += 1
    return found


def test_frames_are_those_of_the_rule():
    draw = random.Random(1)
    for _ in range(3_000):
        sent = [draw.choice([0xAA, 0xAA, 0x7E, 1, 2, 3, 0, 33, draw.randrange(256)]) for _ in range(draw.randrange(60))]
        finder, found, passed = Finder(), [], 0
        for at, byte in enumerate(sent):
            found += finder.send(SentByte(at, byte))
            passed += len(finder.passed)
            finder.passed.clear()
            assert len(finder.held) <= 35
        found += finder.end()
        assert [(frame[0].cycle, [one.byte for one in frame]) for frame in found] == naive_frames(sent)
        assert passed + len(finder.passed) + sum(map(len, found)) == len(sent)


def blocks(content):
    """The blocks of a file in pcapng: type and body."""
    found, at = [], 0
    while at < len(content):
        kind, length = struct.unpack_from("<II", content, at)
        assert length % 4 == 0 and struct.unpack_from("<I", content, at + length - 4)[0] == length
        found.append((kind, content[at + 8 : at + length - 4]))
        at += length
    return found


def options(content):
    found, at = {}, 0
    while at < len(content):
        code, length = struct.unpack_from("<HH", content, at)
        if code == 0:
            break
        found[code] = content[at + 4 : at + 4 + length]
        at += 4 + (length + 3) // 4 * 4
    return found


def packets(content):
    """The packets of a file: node, nanoseconds, bytes, comment, whether it was sent."""
    found = []
    for kind, body in blocks(content):
        if kind == 6:
            node, high, low, length, whole = struct.unpack_from("<IIIII", body)
            assert length == whole
            more = options(body[20 + (length + 3) // 4 * 4 :])
            sent = struct.unpack("<I", more[2])[0] == 2
            found.append((node, high << 32 | low, body[20 : 20 + length].hex(), more.get(1, b"").decode(), sent))
    return found


NETWORK = """version = 3
cycles = 100_000
latency = 100
byte_time = 1_000
node = [{ image = "a.hex" }, { image = "a.hex" }, { image = "a.hex" }]
link = [{ from = 0, to = 2 }, { from = 1, to = 2 }, { from = 0, to = 1, open = [[0, 4_500]] }]
"""


def written(rows, wants_bytes=False):
    with scratch("net.toml", NETWORK) as path:
        writer = pcapng.Packets(Scenario.load(path), 1_000_000_000, wants_bytes)
    events = [(cycle, node, event_of(text)) for cycle, node, text in rows]
    return packets(b"".join(writer.written(events))), writer


# Node 0 sends AA AA 7E 01 55, a byte each 1,000 cycles; node 2 hears all of it, except that the fourth byte clashes
# with one of node 1.
SENDS = [(1_000 * (at + 1), 0, f"sent {byte}") for at, byte in enumerate("AA AA 7E 01 55".split())]
SAMPLES = [
    (1_500, 2, "heard 1 AA 25"),
    (1_700, 2, "heard 1 AA 37"),
    (2_500, 2, "heard 1 AA 25"),
    (3_500, 2, "heard 1 7E 25"),
    (4_050, 1, "sent FF"),
    (4_500, 2, "heard 2 FF 0"),
    (5_500, 2, "heard 1 55 25"),
]


def test_a_frame_as_it_was_sent_and_heard():
    found, _ = written(sorted(SENDS + SAMPLES))
    # node 1 has an open link up to cycle 4,500: four of the bytes could be heard there, and it took no sample
    assert found == [
        (0, 5_000, "aaaa7e0155", "node 2: 1 of 5 bytes lost, 1 in clashes; node 1: not heard", True),
        (2, 5_500, "aaaa7e55", "of node 0: 1 of 5 bytes lost, 1 in clashes", False),
    ]


def test_bytes_as_they_were_sent_and_heard():
    found, _ = written(sorted(SENDS + SAMPLES), wants_bytes=True)
    assert [(node, at, what) for node, at, what, _, _ in found] == [
        (0, 1_000, "aa"),
        (2, 1_500, "aa"),
        (0, 2_000, "aa"),
        (2, 2_500, "aa"),
        (0, 3_000, "7e"),
        (2, 3_500, "7e"),
        (0, 4_000, "01"),
        (1, 4_050, "ff"),
        (2, 4_500, "ff"),
        (0, 5_000, "55"),
        (2, 5_500, "55"),
    ]
    assert [it[3] for it in found if it[3]] == ["clash: 01 of node 0, FF of node 1"]


def test_what_is_held_does_not_grow():
    draw = random.Random(2)
    rows, cycle = [], 0
    for _ in range(4_000):
        cycle += draw.randrange(1_000, 1_400)
        rows.append((cycle, 0, f"sent {draw.choice(['AA', 'AA', '7E', '02', '33'])}"))
        rows.append((cycle + 300, 2, "heard 1 00 0"))
    for wants_bytes in (False, True):
        _, writer = written(rows, wants_bytes)
        assert len(writer.wanted) <= 40 and len(writer.ears[2].alone) <= 40
        assert not writer.waiting and not writer.whole


def sends(node, first, content):
    """Rows of a node that sends bytes, one each 1,000 cycles."""
    return [(first + 1_000 * at, node, f"sent {byte}") for at, byte in enumerate(content.split())]


def test_a_frame_in_the_bytes_of_one_that_never_ends_comes_in_its_time():
    unended = sends(0, 1_000, "AA AA 7E 20 AA AA 7E 01 55")
    later = sends(1, 20_000, "AA AA 7E 01 66") + sends(1, 40_000, "AA AA 7E 01 77")
    found, _ = written(sorted(unended + later))
    assert [(node, at, what) for node, at, what, _, _ in found] == [
        (0, 9_000, "aaaa7e0155"),
        (1, 24_000, "aaaa7e0166"),
        (1, 44_000, "aaaa7e0177"),
    ]


def test_a_frame_whose_last_bytes_are_lost_comes_in_the_order_of_time():
    long = sends(0, 1_000, "AA AA 7E 06 01 02 03 04 05 06")
    found, _ = written(sorted([*long, (1_500, 2, "heard 1 AA 25"), *sends(1, 2_000, "AA AA 7E 01 66")]))
    assert [(node, at, what) for node, at, what, _, _ in found] == [
        (1, 6_000, "aaaa7e0166"),
        (0, 10_000, "aaaa7e06010203040506"),
        (2, 10_000, "aa"),
    ]


def test_packets_of_drawn_sends_come_in_the_order_of_time():
    draw = random.Random(SEED)
    for _ in range(60):
        rows, wanted = [], []
        for node in (0, 1):
            cycle = draw.randrange(1_000, 30_000)
            content = [draw.choice([0xAA, 0xAA, 0x7E, 0x01, 0x02, 0x09]) for _ in range(draw.randrange(60))]
            rows += sends(node, cycle, " ".join(f"{byte:02X}" for byte in content))
            frames = naive_frames(content)
            wanted += [(cycle + 1_000 * (at + len(what) - 1), node, bytes(what).hex()) for at, what in frames]
        rows += [(draw.randrange(1_100, 90_000), 2, "heard 1 AA 0") for _ in range(40)]
        found, _ = written(sorted(rows))
        times = [at for _, at, _, _, _ in found]
        assert times == sorted(times), SEED
        assert sorted((at, node, what) for node, at, what, _, was_sent in found if was_sent) == sorted(wanted), SEED


def test_a_time_of_a_slow_clock_is_exact():
    with scratch("net.toml", NETWORK) as path:
        writer = pcapng.Packets(Scenario.load(path), 1_000, wants_bytes=True)
    last = (1 << 40) - 1
    assert [
        at for _, at, _, _, _ in packets(b"".join(writer.written([(last, 0, event_of("sent AA"))])))
    ] == [last * 10**6]


@needs_program("capinfos", "tshark")
def test_wireshark_reads_the_packets():
    scenario, trace = f"{DATA}/packet.toml", f"{DATA}/packet.trace"
    with scratch("packet.pcapng") as path:
        exported("pcapng", "-s", scenario, "-o", path, trace)
        said = subprocess.run(["capinfos", path], capture_output=True, text=True, check=True).stdout
        assert re.search("Strict time order: +True", said) and "Number of packets:   16" in said
        script = f"lua_script:{TOP}/examples/avrora.lua"
        words = [
            "tshark",
            "-X",
            script,
            "-r",
            path,
            "-T",
            "fields",
            "-e",
            "avrora.packet.node",
            "-e",
            "avrora.packet.reading",
        ]
        done = subprocess.run(words, capture_output=True, text=True, check=True)
        # as `sniff` tells: 1 frame 3 010015, 2 frame 3 020016, ..; each is sent once and heard once
        assert done.stdout.split("\n")[:4] == ["1\t21", "1\t21", "2\t22", "2\t22"]
        assert not re.search("malformed|warning|error", done.stdout + done.stderr.replace("dangerous", ""), re.I)


def test_a_trace_without_frames_is_told():
    with scratch("flood.pcapng") as path:
        code, _, err = run_tool("export", "pcapng", "-s", f"{DATA}/flood.toml", "-o", path, f"{DATA}/flood.trace")
        assert code == 0 and "no frame (AA AA 7E n) was sent; --bytes writes each byte" in err
        with open(path, "rb") as file:
            assert [kind for kind, _ in blocks(file.read())] == [0x0A0D0D0A] + [1] * 16


# ---- timeline and table


@pyelftools
def test_the_timeline_is_well_formed():
    document = json.loads(exported("perfetto", *RELAY))
    events = document["traceEvents"]
    begun = collections.defaultdict(list)
    last = collections.defaultdict(float)
    for event in events:
        key = event["pid"], event.get("tid")
        if event["ph"] in "BE":
            assert event["ts"] >= last[key]
            last[key] = event["ts"]
            begun[key].append(event["name"]) if event["ph"] == "B" else begun[key].pop()
        if event["ph"] == "X":
            assert event["dur"] > 0
    assert not any(begun.values())
    sends = {event["id"] for event in events if event["ph"] == "s"}
    assert {event["id"] for event in events if event["ph"] == "f"} <= sends and sends
    rows = data("relay.trace").splitlines()
    sent = [event for event in events if event["ph"] == "X" and event["name"].startswith("sent ")]
    assert len(sent) == sum(" sent " in row for row in rows)
    # in microseconds: the first send of the trace
    first = next(int(row.split()[0]) for row in rows if " sent " in row)
    assert sent[0]["ts"] == pytest.approx(first / 7.3728) and sent[0]["dur"] == pytest.approx(3_072 / 7.3728)
    names = {event["args"]["name"] for event in events if event["ph"] == "M" and event["name"] == "process_name"}
    assert names == {f"node {node} (relay.hex)" for node in range(5)}


def test_lines_of_usart0_and_stops_on_the_timeline():
    with scratch("net.toml", NETWORK) as path:
        timeline = perfetto.Timeline(Scenario.load(path), None, 1_000_000)
    rows = [
        (10, 0, "serial 68"),
        (20, 0, "serial 69"),
        (30, 0, "serial 0A"),
        (40, 1, "serial 07"),
        (60, 1, "stop 0010 adc"),
    ]
    events = [event for event in timeline.events((c, n, event_of(text)) for c, n, text in rows) if event["ph"] in "Xi"]
    assert [(event["name"], event["ts"], event.get("dur")) for event in events] == [
        ("hi", 10, 11),
        ("\\x07", 40, 1),
        ("stop: adc", 60, None),
    ]


def test_the_table_says_what_the_rows_say():
    text = exported("csv", f"{DATA}/relay.trace")
    table = list(csv.DictReader(io.StringIO(text)))
    rows = [line.split(" ", 3) for line in data("relay.trace").splitlines()]
    assert len(table) == len(rows)
    for row, cells in zip(rows, table):
        assert [cells["cycle"], cells["node"], cells["kind"]] == row[:3]
        rest, kind = row[3].split(), row[2]
        if kind == "instr":
            assert (int(cells["address"]), cells["instruction"]) == (int(rest[0], 16), row[3].split(" ", 1)[1])
        elif kind == "enter":
            assert (int(cells["vector"]), int(cells["address"])) == (int(rest[0], 16), int(rest[1], 16))
        elif kind in ("sent", "serial"):
            assert int(cells["byte"]) == int(rest[0], 16)
        elif kind == "heard":
            assert [cells["status"], int(cells["byte"]), cells["age"]] == [rest[0], int(rest[1], 16), rest[2]]
        else:
            assert [cells["instructions"], cells["state"]] == rest
    only = exported("csv", "-n", "2", f"{DATA}/relay.trace")
    assert {row["node"] for row in csv.DictReader(io.StringIO(only))} == {"2"}


def test_every_kind_of_row_has_its_cells():
    texts = [
        "instr 0010 nop",
        "enter 001E 0031",
        "serial 68",
        "sent AA",
        "heard 1 AA 25",
        "stop 0010 adc",
        "end 5 running",
    ]
    events = [event_of(text) for text in texts]
    assert {type(event) for event in events} == set(EVENTS)
    for event in events:
        assert set(tables.cells(event)) <= set(tables.COLUMNS) and tables.cells(event)
    assert tables.cells(events[5]) == {"address": 0x10, "cause": "adc"}


# In place of pyarrow, which Debian does not have: what it is given, as JSON.
STAND_IN = {
    "__init__.py": """
import json
from . import parquet
def schema(fields): return dict(fields)
def string(): return "string"
def int64(): return "int64"
class Table:
    @classmethod
    def from_pylist(cls, rows, schema):
        assert all(set(row) <= set(schema) for row in rows)
        return [[row.get(name) for name in schema] for row in rows]
""",
    "parquet.py": """
import json
class ParquetWriter:
    def __init__(self, file, schema): self.file, self.schema = file, schema
    def __enter__(self): return self
    def __exit__(self, *about): self.file.write(b"end")
    def write_table(self, table): self.file.write(json.dumps([list(self.schema.items()), table]).encode() + b"\\n")
""",
}


def test_parquet_is_given_each_row_in_groups(tmp_path, monkeypatch):
    (tmp_path / "pyarrow").mkdir()
    for name, text in STAND_IN.items():
        (tmp_path / "pyarrow" / name).write_text(text)
    monkeypatch.syspath_prepend(str(tmp_path))
    monkeypatch.setattr("avrora_tools.exports.tables.ROWS_A_GROUP", 100)
    *groups, end = exported("parquet", f"{DATA}/relay.trace").split("\n")
    tables = [json.loads(group) for group in groups]
    assert end == "end" and [len(table) for _, table in tables] == [100, 100, 60]
    kinds = dict(tables[0][0])
    rows = [dict(zip(kinds, row)) for _, table in tables for row in table]
    text = exported("csv", f"{DATA}/relay.trace")
    for row, cells in zip(rows, csv.DictReader(io.StringIO(text)), strict=True):
        assert {name: "" if value is None else str(value) for name, value in row.items()} == cells
        assert all(
            value is None or isinstance(value, int if kinds[name] == "int64" else str) for name, value in row.items()
        )


def test_parquet_without_its_library_is_refused_by_name(monkeypatch):
    monkeypatch.setitem(sys.modules, "pyarrow", None)
    status, out, err = run_tool("export", "parquet", f"{DATA}/relay.trace")
    assert (status, out) == (3, "") and "has no pyarrow" in err
