"""Charge by a table of currents. The report and the sums are worked out by hand from docs/FORMATS.md, "Profiles"."""
import re
import subprocess
from dataclasses import astuple

import pytest

from avrora_tools import listening, toml
from avrora_tools.budgets import (
    Currents,
    account,
    always_selected,
    duty_cycle,
    listening_cycle,
    milliampere_hours,
    sent,
    table_of,
    whole,
)
from avrora_tools.errors import BadInput
from avrora_tools.listening import DDRB, PORTB, Pin, Radio
from avrora_tools.profiles import MonitorReader, Spent
from avrora_tools.scenarios import Scenario
from avrora_tools.sweeping.simulation import Simulator
from firmware import PROGRAM, compiled, needs_compiler, needs_program
from support import TOP, run_tool

# 1,000 cycles: node 0 awake for 300 of them (290 by two instructions, 10 by a vector), 200 without an owner, 2 bytes
# sent; node 1 sleeps from the first cycle on and stops in cycle 400.
REPORT = """0 lead 200
0 at 0050 10 90
0 at 0052 100 200
0 vector 0018 2 10
0 asleep 500
0 stopped 0
0 charge 3924
1 lead 0
1 at 0051 1 1
1 asleep 399
1 stopped 600
1 charge 407
"""

CURRENTS = """
awake = 8
asleep = 2.0
sending = 20
listening = 10
hz = 1_000
"""

SCENARIO = 'cycles = 1_000\nwindow = [0, 1_000]\nbyte_time = 256\nnode = [{ image = "a.hex" }, { image = "b.hex" }]\n'


def nodes():
    return MonitorReader("r", Scenario.of_text(SCENARIO, "s")).read(REPORT.splitlines()).values()


def test_the_bytes_that_were_sent_are_what_the_charge_has_beside_the_cycles():
    assert [sent(node) for node in nodes()] == [2, 0]


def test_the_account_of_a_node():
    table = table_of(CURRENTS, "c")
    zero, one = (account(node, table.common, 256, table.hz, always_selected(node, 256)) for node in nodes())
    # 300 ms at 8 mA; 500 asleep and 200 unknown at 2 mA at least, at 8 at most; 512 ms sending, the other 488
    # listening.
    assert astuple(zero) == pytest.approx((2.4, 1.4, 10.24, 4.88, 0, 1.2))
    assert (zero.least, zero.most) == pytest.approx((18.92, 20.12))
    # until its stop in 400: 1 ms awake, 399 asleep, all of it listening
    assert astuple(one) == pytest.approx((0.008, 0.798, 0, 4.0, 0, 0))
    assert whole([zero, one]).most == pytest.approx(20.12 + 4.806)
    assert milliampere_hours(7_200) == 2.0


def test_a_radio_that_is_not_selected_does_not_listen():
    """600 cycles of 1,000 selected, of which 512 are those of sends."""
    table = table_of(CURRENTS + "off = 1\n", "c")
    node = next(iter(nodes()))
    found = account(node, table.common, 256, table.hz, Radio(88))
    assert (found.sending, found.listening, found.off) == pytest.approx((10.24, 0.88, 0.4))
    assert found.unknown == pytest.approx(1.2)
    assert listening_cycle(node, 256, Radio(88)) == pytest.approx(0.088)
    assert account(node, table.common, 256, table.hz, Radio(0)).listening == 0


def test_the_duty_cycle_has_the_lead_as_a_span_and_no_stop():
    zero, one = nodes()
    assert duty_cycle(zero) == (0.3, 0.5)
    assert duty_cycle(one) == (0.0025, 0.0025)


def test_a_table_of_some_nodes():
    table = table_of(CURRENTS + "battery = 100\n[node.'1,3-4']\nlistening = 0\n", "c")
    assert table.of(0) == Currents(8, 2, 20, 10)
    assert table.of(3) == Currents(8, 2, 20, 0)
    assert (table.hz, table.battery) == (1_000, 100)


@pytest.mark.parametrize(
    "text",
    [
        "awake = 1",
        CURRENTS + "awkae = 1",
        CURRENTS.replace("awake = 8", "awake = -8"),
        CURRENTS.replace("awake = 8", "awake = true"),
        CURRENTS.replace("awake = 8", "awake = '8'"),
        CURRENTS.replace("awake = 8", "awake = nan"),
        CURRENTS.replace("awake = 8", "awake = inf"),
        CURRENTS.replace("1_000", "0"),
        CURRENTS + "[node.x]\nawake = 1",
        CURRENTS + "[node.99]\nawake = 1",
        CURRENTS + "[node.1]\nhz = 1",
        CURRENTS + "node = 5",
        "awake = ",
    ],
)
def test_what_is_no_table_is_refused(text):
    with pytest.raises(BadInput):
        table_of(text, "c")


@pytest.fixture
def inputs(tmp_path):
    for name, text in (("c.toml", CURRENTS), ("s.toml", SCENARIO), ("r.profile", REPORT)):
        (tmp_path / name).write_text(text)
    return [str(tmp_path / name) for name in ("c.toml", "s.toml", "r.profile")]


def test_the_table_and_the_picture(inputs, tmp_path):
    picture = tmp_path / "bars.svg"
    status, out, err = run_tool("energy", "--always-listening", *inputs, "--svg", str(picture))
    assert status == 0 and "node 1 stopped" in err
    first, _, zero, one, network = out.splitlines()
    assert first == "1,000 cycles, 1 s at 1,000 Hz"
    assert zero.split() == [
        "0",
        "30.00..50.00%",
        "48.80%",
        "2",
        "18.920..20.120",
        "0.005256..0.005589",
        "454.08..482.88",
    ]
    assert one.split() == ["1", "0.25%", "100.00%", "0", "4.806", "0.001335", "115.34"]
    name, duty, listens, sent, current = network.split()[:5]
    assert (name, listens, sent, current) == ("network", "74.40%", "2", "23.726..24.926")
    assert [float(part) for part in duty.rstrip("%").split("..")] == pytest.approx([15.125, 25.125], abs=0.006)
    text = picture.read_text()
    assert text.startswith("<svg") and text.count("<title>node 0, ") == 6 and "18.920..20.120 mA" in text
    widths = dict(re.findall(r'width="([\d.]+)" height="16" class="fill-(\w+)"', text)[i][::-1] for i in range(6))
    assert float(widths["awake"]) / float(widths["sending"]) == pytest.approx(2.4 / 10.24, rel=0.01)


def test_the_report_of_another_scenario_is_refused(inputs, tmp_path):
    (tmp_path / "s.toml").write_text(SCENARIO.replace(', { image = "b.hex" }', ""))
    status, out, err = run_tool("energy", *inputs)
    assert (status, out) == (2, "") and "the scenario has 1 nodes" in err


def test_the_report_comes_from_the_standard_input_too(inputs):
    assert run_tool("energy", "--always-listening", *inputs[:2], stdin=REPORT)[0] == 0
    assert run_tool("energy", *inputs[:2], stdin="")[0] == 2


def test_the_report_of_a_span_is_whole_by_the_window_that_is_named(inputs, tmp_path):
    """The report has 1,000 cycles a node; the scenario has 2,000, and its window 400."""
    (tmp_path / "s.toml").write_text(SCENARIO.replace("= 1_000", "= 2_000", 1).replace("[0, 1_000]", "[600, 1_000]"))
    assert run_tool("energy", "--always-listening", *inputs, "--window", "0..1_000")[0] == 0
    for words, cycles in (((), "400"), (("--window", "0..999"), "999")):
        status, out, err = run_tool("energy", *inputs, *words)
        assert (status, out) == (2, "")
        assert (
            f"node 0 do not add up to the {cycles} cycles of the window, but to 1,000" in err
            and "--window FROM..TO" in err
        )


def test_the_report_of_the_whole_run_needs_no_window(inputs, tmp_path):
    for window in ("", "window = [600, 1_000]"):
        (tmp_path / "s.toml").write_text(SCENARIO.replace("window = [0, 1_000]", window))
        assert run_tool("energy", "--always-listening", *inputs)[0] == 0
        assert run_tool("profile", "-s", *inputs[1:])[0] == 0


def test_a_report_of_no_cycles_says_how_one_of_the_whole_run_is_made(inputs, tmp_path):
    (tmp_path / "s.toml").write_text(SCENARIO.replace("window = [0, 1_000]", ""))
    (tmp_path / "r.profile").write_text(
        "".join(f"{k} {kind} 0\n" for k in (0, 1) for kind in ("lead", "asleep", "stopped", "charge"))
    )
    for words in (("energy", *inputs), ("profile", "-s", *inputs[1:])):
        status, out, err = run_tool(*words)
        assert (status, out) == (2, "") and "`avrora monitor FILE 0 1000` is of all its cycles" in err


def test_a_charge_that_does_not_add_up_is_refused(inputs, tmp_path):
    (tmp_path / "r.profile").write_text(REPORT.replace("charge 3924", "charge 3925"))
    status, out, err = run_tool("energy", *inputs)
    assert (status, out) == (2, "") and "the lines of node 0 do not add up to their charge" in err


def test_the_table_to_begin_with():
    with open(f"{TOP}/examples/currents.toml", encoding="utf-8") as file:
        table = table_of(file.read(), "currents.toml")
    assert table.common == Currents(8, 3.2, 12, 7) and table.of(0).listening == 5.5 and table.battery == 2_500


# ---- whether a radio is selected

SLOT = """
#include <avr/io.h>
#include <util/delay_basic.h>
volatile uint8_t table[2] = { 0xFE, 0x01 };
volatile uint8_t *volatile port = &PORTB;
int main(void)
{
    DDRB |= 1;
    for (;;) {
        %s
        _delay_loop_2(100);
        %s
        _delay_loop_2(900);
    }
}
"""


def energy(folder, low, high, flags, cycles=400_000, begin=0, more=()):
    """The line of a node whose radio is selected for a tenth of its time, and the cycles that its rows tell."""
    (folder / "slot.c").write_text(SLOT % (low, high))
    elf = compiled(folder / "slot.c", folder, *flags)
    toml = folder / "slot.toml"
    toml.write_text(f'cycles = {cycles}\nbyte_time = 256\nnode = [{{ image = "slot.hex" }}]\n')
    (folder / "c.toml").write_text(CURRENTS + "off = 1")
    report = subprocess.run(
        [PROGRAM, "monitor", "slot.toml", str(begin), str(cycles)], cwd=folder, capture_output=True, check=True
    )
    (folder / "r.profile").write_bytes(report.stdout)
    words = ("--window", f"{begin}..{cycles}") if begin else ()
    status, out, err = run_tool("energy", *words, *more, str(folder / "c.toml"), str(toml), str(folder / "r.profile"))
    assert (status, err) == (0, ""), err
    return [float(part) for part in out.splitlines()[2].split()[2].rstrip("%").split("..")], elf


@needs_program
@needs_compiler
@pytest.mark.parametrize("flags", [["-O0"], ["-Os"], ["-O2"]], ids=" ".join)
@pytest.mark.parametrize("begin", [0, 270_000])
def test_a_node_that_listens_in_slots(tmp_path, flags, begin):
    """Loops of 4 cycles a time: 400 of about 4,000."""
    listens, _ = energy(tmp_path, "PORTB &= 0xFE;", "PORTB |= 1;", flags, begin=begin)
    assert len(listens) == 1 and listens[0] == pytest.approx(10, abs=0.5)


@needs_program
@needs_compiler
def test_it_is_the_cycles_between_the_writes(tmp_path):
    cycles = 20_000
    listens, elf = energy(tmp_path, "PORTB &= 0xFE;", "PORTB |= 1;", ["-Os"], cycles)
    (tmp_path / "w.toml").write_text(f'cycles = {cycles}\nwindow = [0, {cycles}]\nnode = [{{ image = "slot.hex" }}]\n')
    rows = subprocess.run(
        [PROGRAM, "run", "--plain", "w.toml"], cwd=tmp_path, capture_output=True, text=True, check=True
    ).stdout
    events = [
        (int(c), name) for c, name in re.findall(r"^(\d+) 0 instr .... (sbi 0x17|cbi 0x18|sbi 0x18), 0$", rows, re.M)
    ]
    selected = sum(
        (events[i + 1][0] if i + 1 < len(events) else cycles) - at
        for i, (at, name) in enumerate(events)
        if name != "sbi 0x18"
    )
    assert listens == [pytest.approx(100 * selected / cycles, abs=0.005)]


@needs_program
@needs_compiler
@pytest.mark.parametrize(
    "low, high, flags, listened",
    [
        ("PORTB = table[0];", "PORTB |= 1;", ["-Os"], 10),
        ("*port &= 0xFE;", "*port |= 1;", ["-O0"], 10),
        ("PORTB |= 1;", "", ["-Os"], 0),
        ("DDRB = 0;", "", ["-Os"], 0),
        ("PORTB &= 0xFE;", "", ["-O0"], 100),
    ],
)
def test_a_pin_written_by_values_and_pointers_of_the_memory(tmp_path, low, high, flags, listened):
    assert energy(tmp_path, low, high, flags)[0] == [pytest.approx(listened, abs=0.6)]


@needs_program
@needs_compiler
def test_stretches_of_a_run_make_one(tmp_path, monkeypatch):
    """Whatever is watched in one call, also where a window begins within one."""

    def told():
        words = ("*port &= 0xFE;", "*port |= 1;", ["-Os"], 700_000)
        return [energy(tmp_path, *words, begin)[0] for begin in (0, 300_000)]

    one = told()
    monkeypatch.setattr(listening, "STRETCH", 1)
    assert one == told()


@needs_program
@pytest.mark.parametrize("stretch", [1, 64])
def test_bytes_on_the_air_are_no_listening_in_each_stretch(monkeypatch, stretch):
    """The radios of examples/packet.toml are selected all the time."""
    folder, first, end = f"{TOP}/examples", 300_000, 700_000
    words = [PROGRAM, "run", "--plain", "packet.toml"]
    rows = subprocess.run(words, cwd=folder, capture_output=True, text=True, check=True).stdout
    scenario = Scenario.load(f"{folder}/packet.toml")
    wanted = [end - first] * 3
    for cycle, node in re.findall(r"(?m)^(\d+) (\d) sent ", rows):
        begun = int(cycle)
        wanted[int(node)] -= max(0, min(begun + scenario.byte_time, end) - max(begun, first))
    monkeypatch.setattr(listening, "STRETCH", stretch)
    with open(f"{folder}/packet.toml", encoding="utf-8") as file:
        document = toml.loads(file.read())
    found = listening.watched_radios(Simulator(PROGRAM, folder, 600), scenario, document, (first, end), [Spent()] * 3)
    assert [radio.listened for radio in found] == wanted and wanted[1] < 400_000


@needs_program
@needs_compiler
def test_always_listening_runs_nothing(tmp_path):
    assert energy(tmp_path, "PORTB |= 1;", "", ["-Os"], more=["--always-listening"])[0] == [100]


def test_the_cycles_in_which_a_pin_selects():
    pin = Pin(first=100, last=1_000)
    changes = [(50, DDRB, 3), (200, PORTB, 0xFF), (300, PORTB, 0xFE), (310, PORTB, 0), (900, DDRB, 2)]
    for cycle, address, byte in changes:
        pin.change(cycle, address, byte)
    assert not pin.is_selected() and pin.listened == 100 + 600
    pin.change(950, DDRB, 1)
    pin.count_to(2_000)
    assert pin.listened == 100 + 600 + 50


def test_a_byte_on_the_air_takes_no_time_from_what_was_listened_before():
    """A driver that selects the radio for each transfer alone sends long after."""
    pin = Pin(first=0, last=10_000)
    for cycle, byte in [(0, 0), (1_000, 1), (1_100, 0), (1_150, 1), (3_000, 0)]:
        pin.change(cycle, PORTB, byte)
        pin.change(cycle, DDRB, 1)
        if cycle == 1_100:
            pin.send(1_120, 3_072)
    assert pin.listened == 1_000 + 20
    pin.count_to(5_000)
    assert pin.listened == 1_000 + 20 + 5_000 - (1_120 + 3_072)
