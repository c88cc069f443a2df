"""Sweeps of examples/races by the program that AVRORA_PROGRAM names: each race is found, at its line, and its fix is
clean.

How many arrivals fail follows from the instructions: an arrival in a cycle of one is noticed at the next, so as many
fail as the instructions between the first and the last use take cycles, each time that the code is passed."""
import os
import re
import shutil
import subprocess
from pathlib import Path

import pytest

from support import TOP, run_tool

RACES = Path(TOP) / "examples" / "races"
PROGRAM = os.environ.get("AVRORA_PROGRAM")

needs_program = pytest.mark.skipif(not PROGRAM, reason="AVRORA_PROGRAM names no program")
needs_compiler = pytest.mark.skipif(not shutil.which("avr-gcc"), reason="needs avr-gcc (Debian's gcc-avr)")

pytestmark = needs_program


def marked_lines(source):
    """The lines of a source that say where its race is."""
    return [
        n for n, line in enumerate((RACES / source).read_text().splitlines(), 1) if re.search(r"the race|to here", line)
    ]


@pytest.fixture(scope="module")
def races(tmp_path_factory):
    """A copy of the folder with the ELF files beside the images, where the compiler is there."""
    folder = tmp_path_factory.mktemp("examples") / "races"
    shutil.copytree(RACES, folder)
    shutil.copy2(RACES.parent / "radio.h", folder.parent)
    if shutil.which("avr-gcc"):
        images = {path.name: path.read_bytes() for path in folder.glob("*.hex")}
        subprocess.run([folder / "build"], check=True, capture_output=True)
        for name, content in images.items():
            if (folder / name).read_bytes() != content:
                pytest.fail(f"{name} is not what its source makes: run examples/races/build")
    return folder


def sweep(folder, *words):
    here = os.getcwd()
    os.chdir(folder)
    try:
        return run_tool("sweep", "--jobs", "2", *words)
    finally:
        os.chdir(here)


# A race, the words of its sweep, how many arrivals of each visit fail, and of how many visits.
SWEEPS = [
    # The read of the low half takes two cycles.
    ("torn", ["--start", "0=270_950..271_100", "--until", "300_000"], 2, 1),
    # LDS of the flag takes two, and two tests one each.
    ("wake", ["--start", "0=514_150..514_250", "--until", "530_000"], 4, 1),
    # LDS two, SUBI one.
    ("ring", ["--start", "0=271_200..271_400", "--until", "300_000", "--compare", "any-order"], 3, 1),
    # The read of the low half is the one instruction that SEI owes: a tick within the nine cycles from CLI on comes
    # behind it.
    ("ticks", ["--start", "0=384_100..384_250", "--until", "397_000", "--check", "ticks_check.py"], 11, 1),
    # From the read of TCNT1L to the write of TIFR five cycles, each 1,024.
    ("late", ["--start", "0=270_200..271_400", "--until", "300_000"], 5, 2),
    # As torn, of two visits 253 cycles apart.
    ("data", ["--start", "0=291_100..291_500", "--until", "320_000", "--expect", "data.expect"], 2, 2),
    # From the read of `queued` that makes the place (in cycle 443,346) to the end of `queued++` (443,366).
    ("alarm", ["--input", "2:1=443_300..443_420", "--until", "660_000", "--compare", "lines"], 20, 1),
]


@pytest.fixture(scope="module", params=SWEEPS, ids=[row[0] for row in SWEEPS])
def swept(request, races):
    """A race, with what its sweep printed: with the names of the program where the compiler is there."""
    name, words, each, visits = request.param
    elf = ["-e", f"{name}.elf"] if shutil.which("avr-gcc") else []
    status, out, err = sweep(races, f"{name}.toml", *words, *elf)
    assert (status, err) == (1, "")
    return name, out, each, visits


def test_a_race_is_found(swept):
    _, out, each, visits = swept
    assert re.findall(r"^\d+\. ([\d,]+) of", out, re.M) == [str(each * visits)]
    moves = re.search(r"moves: (.*)", out)[1]
    stretches = [
        [int(end.replace(",", "")) for end in part.split(" to ")] for part in re.split(r", (?=\d+,\d+ to)", moves)
    ]
    assert [last - first + 1 for first, last in stretches] == [each] * visits


@needs_compiler
def test_the_report_names_the_racing_line(swept):
    name, out, _, _ = swept
    parting = re.search(r"^   in run .* between .*", out, re.M)[0]
    lines = {int(number) for number in re.findall(rf"{name}\.c:(\d+)", parting)}
    if name == "alarm":  # what is marked is the call; the lines are those of the function that is called
        assert "`enqueue` (alarm.c:23-27); `queued` is used here and in `USART0_RX_vect`" in out
        assert lines and lines <= set(range(23, 28))
    else:
        assert lines and lines <= set(marked_lines(f"{name}.c"))


@pytest.mark.parametrize("name, words", [row[:2] for row in SWEEPS], ids=[row[0] for row in SWEEPS])
def test_its_fix_is_clean_over_the_same_span(races, name, words):
    status, out, err = sweep(races, f"{name}-fixed.toml", *words)
    assert (status, err) == (0, "")
    assert re.search(r"^0 of ([\d,]+) classes fail; \1 runs", out, re.M)


@needs_compiler
@pytest.mark.parametrize("name, words", [row[:2] for row in SWEEPS], ids=[row[0] for row in SWEEPS])
def test_a_first_look_finds_each_race_and_says_what_it_is(races, name, words):
    status, out, _ = sweep(races, f"{name}.toml", *words, "-e", f"{name}.elf", "--quick")
    assert status == 1
    assert re.search(r"^[\d,]+ of [\d,]+ classes were not run$", out, re.M)


@needs_compiler
def test_a_clean_first_look_proves_nothing(races):
    status, out, _ = sweep(races, "torn-fixed.toml", *SWEEPS[0][1], "-e", "torn-fixed.elf", "--quick")
    assert status == 0 and "first look, which proves nothing" in out


def test_the_earliest_failure_is_written_as_a_scenario_that_fails(races, tmp_path):
    words = [
        "--input",
        "2:1=443_340..443_350",
        "--until",
        "660_000",
        "--compare",
        "lines",
        "--out",
        str(tmp_path / "failed.toml"),
    ]
    status, out, _ = sweep(races, "alarm.toml", *words)
    assert status == 1
    assert re.search(
        r"^4433\d\d 2 enter 0024 0084$", rows_of_earliest(out, races), re.M
    )  # between the two reads, in the window
    notes = (tmp_path / "failed.toml").read_text().splitlines()[:2]
    assert re.fullmatch(r"# The run of a sweep with byte 1 of node 2's input at 443,34\d\.", notes[0])
    assert notes[1] == "# It begins in the state beside it: avrora resume failed.toml failed.toml.state"


def rows_of_earliest(out, folder):
    """What the command writes that a sweep tells last, run by a shell where the sweep was."""
    command = re.search(r"^earliest: (.*)", out, re.M)[1]
    return subprocess.run(command, shell=True, cwd=folder, capture_output=True, text=True, check=True).stdout


@pytest.mark.parametrize("is_beside", [True, False])
def test_the_earliest_failure_of_a_byte_alone_names_its_moves(races, tmp_path, is_beside):
    folder = races if is_beside else tmp_path
    words = [
        str(races / "alarm.toml"),
        "--input",
        "2:1=443_340..443_350",
        "--alone",
        "--until",
        "660_000",
        "--compare",
        "lines",
    ]
    status, out, _ = sweep(folder, *words, "--out", str(tmp_path / "it is alone.toml"))
    assert status == 1
    assert ("earliest: (cd " in out) != is_beside and "debug: " not in out
    assert re.search(r"^4433\d\d 2 enter 0024 0084$", rows_of_earliest(out, folder), re.M)
    notes = (tmp_path / "it is alone.toml").read_text().splitlines()[1:3]
    assert notes == [
        "# What arrives at node 2 is said by the moves beside it, and not here; it begins in the state beside it:",
        "# avrora sweep 'it is alone.toml' 'it is alone.toml.state' 'it is alone.toml.moves'",
    ]


def test_late_is_told_apart_from_lost(races):
    out = sweep(races, "wake.toml", "--start", "0=514_208..514_211", "--until", "530_000")[1]
    assert re.search(r"late: node 0 writes it in cycle 7[67]\d,\d\d\d", out)  # behind the tick of cycle 768,000
    out = sweep(races, "late.toml", "--start", "0=270_304..270_308", "--until", "300_000")[1]
    assert "late: node" not in out


def test_a_case_of_expect_checks_each_run(races, tmp_path):
    case = tmp_path / "answer.expect"
    case.write_text('within 514_000..530_000: text 0 "A"\nnever * * stop *\n')
    status, out, err = sweep(races, "wake.toml", "--start", "0=514_200..514_215", "--expect", str(case))
    assert (status, err) == (1, "")
    assert re.search(r"^1\. 4 of ", out, re.M) and "node 0 did not write within 514000..530000" in out


def test_a_state_of_the_user_gives_the_same_verdicts(races, tmp_path):
    state = tmp_path / "wake.state"
    with open(state, "wb") as file:
        subprocess.run([PROGRAM, "save", "wake.toml", "1"], cwd=races, stdout=file, check=True)
    out = sweep(races, "wake.toml", "--start", "0=514_200..514_215", "--until", "530_000", "--state", str(state))[1]
    assert "moves: 514,208 to 514,211" in out


def test_two_events_make_a_grid(races):
    """The later start of node 3 moves its readings, so they are left out; the race of node 2 stays where it is."""
    words = ["--start", "3=262_200..262_201", "--input", "2:1=443_344..443_349", "--compare", "lines", "--drop", "3r\n"]
    out = sweep(races, "alarm.toml", "--until", "660_000", *words)[1]
    assert "12 moves" in out and re.search(r"^1\. 8 of 8 ", out, re.M)  # 443,346 to 443,349, twice


def test_a_latency_moves(races):
    out = sweep(races, "alarm.toml", "--latency", "1-0=100..103", "--until", "300_000")
    assert out[0] == 0 and "0 of 4 classes fail; 4 runs" in out[1]


def test_a_step_takes_some_moves_and_tells_the_classes_that_were_not_run(races):
    out = sweep(races, "late.toml", "--start", "0=270_300..270_319/5", "--until", "300_000")[1]
    assert "1 of 4 classes fail; 4 runs" in out and "16 of 20 classes were not run" in out


@pytest.mark.parametrize(
    "words",
    [
        [],
        ["--start", "0=270_000..270_010", "--quick"],
        ["--start", "0=270_000..270_010", "--until", "500_000"],
        ["--start", "1=270_000..270_010"],
        ["--input", "0:1=270_000..270_010"],
        ["--start", "0=270_000..270_010", "--expect", "x", "--check", "y"],
        ["--start", "0=270_000..270_010", "--check", "/nowhere.py"],
        ["--start", "0=270_000..270_010", "--drop", "("],
        ["--start", "0=270_000..270_010", "--until", "280_000"],  # the unmoved byte comes then
        ["--start", "0=5..6", "--start", "0=5..6"],
    ],
)
def test_bad_words_have_status_two(races, words):
    status, out, err = sweep(races, "torn.toml", *words)
    assert (status, out) == (2, "") and err.count("\n") == 1


# A race that an invariant tells, the words of a sweep without a look at any output, the condition, how many arrivals of
# how many break it, in which moves, and the text of the line that wrote the value. The other races of the folder spoil
# a local copy in registers or miss a clock's tick: no condition on variables tells those.
INVARIANTS = [
    # While interrupts are on, the queue is empty or its last entry is written.
    (
        "alarm", ["--input", "2:1=443_340..443_350", "--until", "460_000"],
        "2 !SREG.I || queued == 0 || queue[(first + queued - 1) % 8].kind != 0", "443,346 to 443,350", "queued++;",
    ),
    # Main may have moved `tail` and not `count` yet; the other way round an entry is forgotten.
    (
        "ring", ["--start", "0=271_280..271_300", "--until", "280_000"],
        "0 !SREG.I || (head + 32 - tail - count) % 16 != 1", "271,290 to 271,292", "/* the race */",
    ),
    # No command still waits as the timer ticks. What is written then is the tick, so the line is that of its handler.
    (
        "wake", ["--start", "0=514_200..514_220", "--until", "770_000"], "0 !tick || !command", "514,208 to 514,211",
        "tick = 1;",
    ),
]  # fmt: skip


@needs_compiler
@pytest.mark.parametrize("name, words, condition, moves, text", INVARIANTS, ids=[row[0] for row in INVARIANTS])
def test_an_invariant_finds_the_race_and_no_output_is_looked_at(races, name, words, condition, moves, text):
    status, out, err = sweep(races, f"{name}.toml", *words, "-e", f"{name}.elf", "--always", condition)
    assert status == 1, err
    assert re.findall(r"^   moves: (.*)", out, re.M) == [moves]
    wrote = re.search(rf"does not hold: .*, by .*{name}\.c:(\d+)$", out, re.M)
    assert text in (RACES / f"{name}.c").read_text().splitlines()[int(wrote[1]) - 1]
    assert "did not write" not in out
    status, out, err = sweep(races, f"{name}-fixed.toml", *words, "-e", f"{name}-fixed.elf", "--always", condition)
    assert (status, bool(re.search(r"^0 of ([\d,]+) classes fail; \1 runs", out, re.M))) == (0, True), err
