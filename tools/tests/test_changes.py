"""Changes of variables in runs. firmware/watched.c says what is written in which order; in which cycle says the trace,
by the instructions that store: a second opinion, as `watch` is not asked for it."""
import re
import subprocess

import pytest

from avrora_tools.commands.vcd import words_of
from avrora_tools.observing.quantities import Quantity
from avrora_tools.states import EPOCH
from avrora_tools.variables import UNSIGNED_CHAR, Base
from firmware import PROGRAM, compiled, needs_compiler, needs_program
from support import run_tool

SCENARIO = 'version = 3\ncycles = 3_000\nwindow = [0, 3_000]\nnode = [{ image = "watched.hex" }]\n'

pytestmark = [needs_program, needs_compiler]


@pytest.fixture(scope="module")
def folder(tmp_path_factory):
    pytest.importorskip("elftools", reason="needs pyelftools (Debian's python3-pyelftools)")
    place = tmp_path_factory.mktemp("changes")
    compiled("watched.c", place, "-Os")
    (place / "watched.toml").write_text(SCENARIO)
    return place


@pytest.fixture(scope="module")
def stores(folder):
    """By data address the cycles in which an instruction stores there."""
    status, trace, _ = run_tool("window", f"{folder}/watched.toml", "0", "3000")
    assert status == 0
    found = {}
    for row in re.finditer(r"^(\d+) 0 instr \w+ sts 0x(\w+), ", trace, re.M):
        found.setdefault(int(row[2], 16), []).append(int(row[1]))
    return found


def changes(folder, *words):
    """The changes that the tool tells: (cycle, name, old, new, by)."""
    status, output, errors = run_tool("changes", "-e", f"{folder}/watched.elf", *words, f"{folder}/watched.toml")
    assert (status, errors) == (0, ""), errors
    row = re.compile(r" *(\d+)  0  (\S+): (.+?) -> (.+?)(?:   by (.+))?")
    return [(int(it[1]), it[2], it[3], it[4], it[5]) for it in map(row.fullmatch, output.splitlines())]


def address_of(folder, name):
    symbols = subprocess.run(["avr-nm", f"{folder}/watched.elf"], capture_output=True, text=True, check=True).stdout
    return int(re.search(rf"^00(80\w+) . {name}$", symbols, re.M)[1], 16) - 0x800000


def line_of(text):
    """The number of the line of the source with this text."""
    source = compiled.__globals__["SOURCES"] / "watched.c"
    return next(number for number, line in enumerate(source.read_text().splitlines(), 1) if text in line)


def test_each_value_that_the_source_writes_is_told_once_and_in_order(folder):
    found = [(name, old, new) for _, name, old, new, _ in changes(folder, "-w", "box", "-w", "wide", "-w", "ratio")]
    assert found == [
        ("wide", "0", "255"),
        ("wide", "255", "256"),
        ("box.count", "0", "14"),
        ("box.level", "0", "-300"),
        ("box.state", "IDLE", "BUSY"),
        ("box.low", "0", "5"),
        ("box.high", "0", "17"),
        ("box.row[1][2]", "0", "9"),
        ("ratio", "0", "0.5"),
        ("box.row[1][2]", "9", "10"),
    ]


def test_cycles_are_those_of_the_stores(folder, stores):
    ticks = address_of(folder, "ticks")
    told = changes(folder, "-w", "ticks")
    assert [cycle for cycle, *_ in told] == stores[ticks] and len(told) >= 3
    done = address_of(folder, "done")
    assert [cycle for cycle, *_ in changes(folder, "-w", "done")] == stores[done][-1:]


def test_who_wrote_is_told_with_the_line_and_the_handler(folder):
    _, _, _, _, who = changes(folder, "-w", "ticks")[0]
    assert re.fullmatch(rf"TIMER0_COMP_vect\+0x\w+ watched.c:{line_of('ticks++')}", who)
    _, _, _, _, who = changes(folder, "-w", "twice.last")[0]
    assert who.startswith("twice") and who.endswith(f"watched.c:{line_of('last = number')}")
    flags = changes(folder, "-w", "SREG.I")
    assert flags[0][2:4] == ("0", "1") and flags[1][4] == "the entry of TIMER0_COMP_vect"


def test_a_pointer_is_told_by_its_target(folder):
    [(_, _, old, new, _)] = changes(folder, "-w", "where")
    assert old == "0" and new.endswith("&box.row[1][2]")


def test_a_register_that_keeps_its_byte(folder):
    assert [it[2:4] for it in changes(folder, "-w", "PORTB")] == [("0", "33")]
    assert [it[2:4] for it in changes(folder, "-w", "PORTB.5")] == [("0", "1")]


def test_torn_values_are_told_byte_by_byte(folder):
    """avr-gcc stores the upper byte first: 0x00FF, 0x01FF, 0x0100."""
    assert [it[3] for it in changes(folder, "-w", "wide", "--torn")] == ["255", "511", "256"]


def test_a_span_has_the_changes_of_the_whole_in_it(folder):
    whole = changes(folder, "-w", "*", "-w", "SREG.I")
    cut = whole[len(whole) // 2][0]
    parts = [
        changes(folder, "-w", "*", "-w", "SREG.I", *words) for words in (["--until", str(cut)], ["--from", str(cut)])
    ]
    assert parts[0] + parts[1] == whole and all(parts)


def test_the_last_change_before_a_cycle(folder):
    whole = changes(folder, "-w", "ticks", "-w", "wide")
    second = [it for it in whole if it[1] == "ticks"][1]
    found = changes(folder, "-w", "ticks", "-w", "wide", "--last-before", str(second[0] + 1))
    assert found == [[it for it in whole if it[1] == "wide"][-1], second]
    assert second not in changes(folder, "-w", "ticks", "--last-before", str(second[0]))


def test_where_a_condition_breaks(folder, stores):
    third = stores[address_of(folder, "ticks")][2]
    words = ["changes", "-e", f"{folder}/watched.elf", f"{folder}/watched.toml"]
    status, output, _ = run_tool(*words, "--breaks", "ticks < 3 || wide != 256")
    assert status == 1 and f"does not hold in cycle {third + 1} (from there on): ticks is 3, wide is 256" in output
    assert f"{third}  0  ticks: 2 -> 3   by TIMER0_COMP_vect" in output
    status, output, _ = run_tool(*words, "--breaks", "ticks < 200")
    assert status == 0 and "each condition holds in the cycles 0 to 3,000" in output
    status, output, _ = run_tool(*words, "--breaks", "wide > 0")
    assert status == 1 and "does not hold in cycle 0 (as it begins): wide is 0" in output


@pytest.mark.parametrize(
    "words, why",
    [
        ([], "name what to watch"),
        (["-w", "wide", "--breaks", "wide < 3"], "name what to watch"),
        (["-w", "nothing"], "no variable `nothing`"),
        (["-w", "OCR0"], "a device makes up"),
        (["-w", "wide", "--from", "9", "--until", "8"], "the run has the cycles 0 to 3,000"),
        (["-w", "wide", "--until", "3001"], "the run has the cycles 0 to 3,000"),
        (["-w", "wide", "-n", "1"], "there is no node 1"),
        (["--breaks", "wide <"], "is not a condition"),
    ],
)
def test_bad_words_are_refused_by_name(folder, words, why):
    status, output, errors = run_tool("changes", "-e", f"{folder}/watched.elf", *words, f"{folder}/watched.toml")
    assert (status, output) == (2, "") and why in errors


# ---- cases


def judged(folder, *statements):
    case = folder / "one.expect"
    case.write_text("\n".join(["run watched.toml", "elf watched.elf", *statements]) + "\n")
    return run_tool("expect", str(case))


def test_conditions_that_a_run_meets(folder, stores):
    third = stores[address_of(folder, "ticks")][2]
    good = [
        "always 0 ticks <= 3",
        "never 0 box.state == LOST",
        "reaches 0 box.state == BUSY && box.level == -300",
        f"before {third + 1}: always 0 ticks <= 2",
        f"within {third + 1}..: always 0 ticks == 3",
        f"within ..{third}: never 0 done",
        "never * * stop *",
    ]
    status, output, errors = judged(folder, *good)
    assert status == 0, output + errors


@pytest.mark.parametrize(
    "statement, said",
    [
        ("always 0 ticks <= 2", "`ticks <= 2` does not hold at node 0 in cycle {after}: ticks is 3"),
        ("never 0 ticks == 3", "`ticks == 3` holds at node 0 in cycle {after}: ticks is 3"),
        ("within ..{at}: reaches 0 ticks == 3", "was to hold once at node 0 within 0..{at}, and never did"),
        ("within 2_000..: always 0 ticks < 3", "does not hold at node 0 in cycle 2000: ticks is 3"),
        ("before {later}: always 0 ticks < 3", "does not hold at node 0 in cycle {after}"),
        ("reaches 0 ticks == 1\nwithin 2_000..: never 0 ticks != 9", "holds at node 0 in cycle 2000: ticks is 3\n"),
    ],
)
def test_conditions_that_a_run_breaks_are_told_with_who_wrote(folder, stores, statement, said):
    at = stores[address_of(folder, "ticks")][2]
    numbers = {"at": at, "after": at + 1, "later": at + 2}
    status, output, _ = judged(folder, statement.format(**numbers))
    assert status == 1 and said.format(**numbers) in output
    if "reaches" not in statement and "2_000" not in statement:  # it was written before the span, and is not looked for
        assert f"> {at} 0 ticks: 2 -> 3 by TIMER0_COMP_vect" in output


@pytest.mark.parametrize(
    "statements, why",
    [
        (["always 0 tocks < 3"], "it has no variable `tocks`; is it `ticks`"),
        (["always 0 ticks >= 0"], "holds whatever the values are"),
        (["always 1 ticks < 3"], "no node 1"),
        (["always 64 ticks < 3"], "nodes are 0 to 63"),
        (["always ticks < 3"], "`always NODE CONDITION`"),
        (["within 4_000..: always 0 ticks < 3"], "the run ends in cycle 3000"),
        (["before 0: always 0 ticks < 3"], "no cycle comes before 0"),
        (["never * * stop *"], "no condition uses its variables"),
        (["reaches 0 ticks == 0"], "`ticks == 0`: it holds at reset, where all memory is 0, so it cannot fail"),
        (["within ..2_000: reaches 0 !box.level && SREG.I == 0"], "it holds at reset"),
        (["before 9: reaches 0 ratio < 0.05"], "it holds at reset"),
    ],
)
def test_conditions_that_no_run_decides_are_refused(folder, statements, why):
    status, output, errors = judged(folder, *statements)
    assert status == 2 and why in output + errors, output + errors


def test_what_does_not_hold_at_reset_may_be_reached(folder, stores):
    at = stores[address_of(folder, "ticks")][2]
    met = [f"within {at + 1}..: reaches 0 ticks == 3", "reaches 0 ticks == 1", "reaches 0 PORTB == 0 && ticks != 1"]
    status, output, errors = judged(folder, *met)
    assert status == 0, output + errors
    status, output, _ = judged(folder, f"within {at + 1}..: reaches 0 ticks == 0")
    assert status == 1 and "and never did" in output


def test_a_condition_needs_a_run(folder):
    case = folder / "two.expect"
    case.write_text("node watched.hex 3000\nelf watched.elf\nalways 0 ticks < 3\n")
    status, output, errors = run_tool("expect", str(case))
    assert status == 2 and "a condition is judged over a run" in output + errors
    case.write_text("run watched.toml\nelf watched.elf\nalways 0 ticks < 3\n")
    (folder / "w.trace").write_text(run_tool("window", f"{folder}/watched.toml", "0", "3000")[1])
    status, output, errors = run_tool("expect", "--trace", f"{folder}/w.trace", str(case))
    assert status == 2 and "judged over a run, by `expect`, `campaign` and `report`, and not over a trace" in output + errors


# ---- waves, and a state at a cycle


def test_waves_have_the_values_of_the_source(folder):
    trace = folder / "waves.trace"
    trace.write_text(run_tool("window", f"{folder}/watched.toml", "0", "3000")[1])
    words = ["-s", f"{folder}/watched.toml", "-e", f"{folder}/watched.elf", "--watch", "wide", "--watch", "box.state"]
    status, dump, errors = run_tool("vcd", *words, "--watch", "ratio", "--watch", "box.level", str(trace))
    assert (status, errors) == (0, "")
    codes = {name: code for code, name in re.findall(r"^\$var \S+ \d+ (\S+) (\S+)", dump, re.M)}
    at = {}
    for time, values in re.findall(r"^#(\d+)\n((?:[^#].*\n)*)", dump.partition("$enddefinitions")[2], re.M):
        for value, code in re.findall(r"^[bsr](\S+) (\S+)$", values, re.M):
            at.setdefault(code, []).append((int(time), value))
    told = {name: [(it[0] + 1, it[3]) for it in changes(folder, "-w", name)] for name in ("wide", "box.state", "ratio")}
    assert [(time, str(int(value, 2))) for time, value in at[codes["wide"]] if time] == told["wide"]
    assert [it for it in at[codes["box.state"]] if it[0]] == told["box.state"]
    assert [it for it in at[codes["ratio"]] if it[0]] == told["ratio"]
    assert at[codes["box.level"]][-1][1] == f"{-300 & 0xFFFF:b}"


def waves_of_ticks(place, toml, head=()):
    """The cycles at which a dump of a head or a whole run has a new value of `ticks`, and each time that it names."""
    folder, scenario = place, f"{place}/{toml}"
    words = ["head", toml, "1"] if head else ["run", "--plain", toml]
    rows = subprocess.run([PROGRAM, *words], cwd=folder, capture_output=True, check=True).stdout
    named = ["-s", scenario, "-e", f"{folder}/watched.elf", "--watch", "ticks"]
    status, dump, errors = run_tool("vcd", *head, *named, stdin=rows)
    assert (status, errors) == (0, "")
    code = re.search(r"^\$var \S+ \d+ (\S+) ticks ", dump, re.M)[1]
    times, found = [], []
    for line in dump[dump.index("$enddefinitions") :].splitlines():
        if line.startswith("#"):
            times.append(int(line[1:]))
        elif line.startswith("b") and line.split()[1] == code:
            found.append(times[-1])
    return [at for at in found if at], times


def ticks_of(place, toml, end):
    words = ["-e", f"{place}/watched.elf", "-n", "0", "-w", "ticks", "--until", str(end), "--no-writers"]
    told = run_tool("changes", *words, f"{place}/{toml}")[1]
    return [int(at.replace(",", "")) + 1 for at in re.findall(r"(?m)^ *([\d,]+) +0  ticks: ", told)]


def test_waves_behind_the_window_come_in_the_order_of_time(folder):
    (folder / "short.toml").write_text(SCENARIO.replace("[0, 3_000]", "[0, 300]"))
    found, times = waves_of_ticks(folder, "short.toml")
    assert times == sorted(set(times))
    assert found == ticks_of(folder, "short.toml", 3_000) and found[-1] > 300


def test_waves_of_a_head_go_on_behind_its_last_row(folder):
    text = SCENARIO.replace("[0, 3_000]", "[0, 300]").replace("cycles = 3_000", "cycles = 600_000")
    (folder / "long.toml").write_text(text)
    found, times = waves_of_ticks(folder, "long.toml", ("--head", "1"))
    assert times == sorted(set(times))
    assert found == ticks_of(folder, "long.toml", EPOCH) and found[-1] > 300


def test_a_variable_has_a_wave_of_its_own_whatever_it_is_called():
    """A dump has a variable `sent` for the radio already, and no letters beyond those of ASCII."""
    kinds = [("sent", 0x100), ("sample", 0x102), ("wide", 0x104), ("b\u00e4", 0x106), ("b\u00f6", 0x107), ("b_", 0x108)]
    found = words_of([Quantity(name, at, Base("uint8_t", 1, UNSIGNED_CHAR)) for name, at in kinds])
    assert list(found.values()) == ["sent@0100", "sample@0102", "wide", "b_", "b_@0107", "b_@0108"]
    assert words_of([Quantity("clash", 0x100, Base("uint8_t", 1, UNSIGNED_CHAR), 2, 3)]) == {"clash": "clash@0100.3"}


def test_waves_want_a_scenario(folder):
    trace = folder / "no_scenario.trace"
    trace.write_text(run_tool("window", f"{folder}/watched.toml", "0", "3000")[1])
    status, _, errors = run_tool("vcd", "--watch", "wide", "-e", f"{folder}/watched.elf", str(trace))
    assert status == 2 and "name it (-s)" in errors


def test_a_state_at_any_cycle(folder, stores):
    at = stores[address_of(folder, "ticks")][1]
    for cycle, value in ((at, 1), (at + 1, 2)):
        words = ["inspect", "--at", str(cycle), "-e", f"{folder}/watched.elf", "-g", "ticks", f"{folder}/watched.toml"]
        status, output, _ = run_tool(*words)
        assert status == 0 and f"ticks = {value}\n" in output
    status, _, errors = run_tool("inspect", "--at", "3001", f"{folder}/watched.toml")
    assert status == 2 and "the run has the cycles 0 to 3,000" in errors
