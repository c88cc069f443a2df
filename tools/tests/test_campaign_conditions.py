"""campaign: cases that state conditions on variables, judged by workers. firmware/watched.c says what is written; when
says `changes`."""
import os
import re
import stat
import sys

import pytest

from campaign_runs import STATE_HOME  # results are sealed by a key of the tests
from firmware import compiled, needs_compiler, needs_program
from support import run_tool

pytestmark = [needs_program, needs_compiler]

SCENARIO = 'version = 3\ncycles = 3_000\nnode = [{ image = "watched.hex" }, { image = "watched.hex" }]\n'
CASE = "run watched.toml\nelf watched.elf\n"
CAMPAIGN = '[[run]]\nscenario = "watched.toml"\nexpect = "w.expect"\n'

# Stands before the simulator, and does otherwise in a call of `watch`.
BEFORE = f"""#!{sys.executable} -IS
import os, sys, time
if sys.argv[1] == "watch":
    WHAT
os.execv({os.environ.get("AVRORA_PROGRAM", "")!r}, ["avrora", *sys.argv[1:]])
"""


@pytest.fixture(scope="module")
def programs(tmp_path_factory):
    pytest.importorskip("elftools", reason="needs pyelftools (Debian's python3-pyelftools)")
    assert STATE_HOME
    place = tmp_path_factory.mktemp("conditions")
    compiled("watched.c", place, "-Os")
    return place


@pytest.fixture
def folder(programs, tmp_path):
    for name in ("watched.elf", "watched.hex"):
        (tmp_path / name).write_bytes((programs / name).read_bytes())
    (tmp_path / "watched.toml").write_text(SCENARIO)
    return tmp_path


def campaign(folder, case, vary="", text=CAMPAIGN, **env):
    (folder / "w.expect").write_text(CASE + case)
    (folder / "c.campaign").write_text(text + (f"[run.vary]\n{vary}\n" if vary else ""))
    return run_tool("campaign", "--jobs", "2", str(folder / "c.campaign"), env=env)


def third_tick(folder):
    words = ["changes", "-e", f"{folder}/watched.elf", "-n", "1", "-w", "ticks", f"{folder}/watched.toml"]
    return int(re.search(r"(?m)^ *(\d+)  1  ticks: 2 -> 3 ", run_tool(*words)[1])[1])


def test_a_failure_names_cycle_node_value_and_line(folder):
    last = third_tick(folder)
    status, out, err = campaign(folder, "always 1 ticks <= 2\n", f"cycles = [{last}, {last + 40}, {last + 50}]")
    assert status == 1, err
    found = re.findall(r"(?m)^w?.*cycles=(\d+) +(\w+) ", out)
    assert found == [(str(last), "passed"), (str(last + 40), "failed"), (str(last + 50), "failed")]
    why = f"w.expect, line 3: `ticks <= 2` does not hold at node 1 in cycle {last + 1}: ticks is 3"
    assert out.count(why) == 2
    assert len(re.findall(rf"> {last} 1 ticks: 2 -> 3 by TIMER0_COMP_vect\S* watched\.c:\d+", out)) == 2


def test_a_failure_names_no_file_that_is_gone(folder):
    status, out, err = campaign(folder, "always 1 ticks <= 2\n1..2000 1 serial *\n")
    assert status == 1, err
    assert "w.expect, line 3: " in out and "w.expect, line 4: " in out
    kept = out + "".join(
        path.read_text(errors="replace") for path in folder.rglob("*") if "results" in str(path) and path.is_file()
    )
    assert "debug:" not in kept and "tmp/" not in kept, kept


def test_expect_says_how_a_case_names_a_program(folder):
    (folder / "w.expect").write_text("run watched.toml\nalways 1 ticks < 3\n")
    _, out, _ = run_tool("expect", str(folder / "w.expect"))
    assert "line 2: `ticks` is not a register, and no program is known: `elf FILE` names its ELF file" in out
    text = run_tool("expect", "--help")[1]
    for said in (
        "  elf FILE", "  always NODE CONDITION", "  never NODE CONDITION", "  reaches NODE CONDITION",
        "  before 9000: always",
    ):
        assert said in text, text


def test_a_failure_before_main_says_what_may_be_meant(folder):
    """Initial values are written by the code before `main`: until then each is 0."""
    (folder / "start.c").write_text("#include <stdint.h>\nvolatile uint8_t level = 7;\nint main(void) { for (;;) ; }\n")
    compiled(folder / "start.c", folder, "-Os")
    (folder / "start.toml").write_text(SCENARIO.replace("watched", "start"))
    case = "run start.toml\nelf start.elf\n"
    (folder / "w.expect").write_text(case + "always 1 level == 7\n")
    status, out, _ = run_tool("expect", str(folder / "w.expect"))
    assert status == 1 and "`level == 7` does not hold at node 1 in cycle 0: level is 0\n" in out
    meant = re.search(
        "initial values come some hundred cycles after reset; `(within 1_000..: always 1 level == 7)` looks", out
    )
    (folder / "w.expect").write_text(f"{case}{meant[1]}\n")
    assert run_tool("expect", str(folder / "w.expect"))[0] == 0
    (folder / "w.expect").write_text(f"{case}within 1_000..: always 1 level == 8\n")
    status, out, _ = run_tool("expect", str(folder / "w.expect"))
    assert status == 1 and "in cycle 1000: level is 7" in out and "initial values" not in out


def test_each_kind_of_statement(folder):
    last = third_tick(folder)
    met = f"reaches 0 box.state == BUSY\nnever 1 ticks > 3\nbefore {last + 1}: always 0 ticks < 3\n"
    status, out, err = campaign(folder, met + f"within {last + 1}..: reaches 1 ticks == 3\n")
    assert (status, "1 passed" in out) == (0, True), err + out
    unmet = f"reaches 0 box.state == LOST\nnever 1 ticks == 3\nbefore {last + 2}: always 0 ticks < 3\n"
    status, out, err = campaign(folder, unmet)
    assert status == 1
    assert "`box.state == LOST` was to hold once at node 0 within 0.., and never did" in out
    assert f"`ticks == 3` holds at node 1 in cycle {last + 1}: ticks is 3" in out
    assert f"`ticks < 3` does not hold at node 0 in cycle {last + 1}: ticks is 3" in out


@pytest.mark.parametrize(
    ("case", "why"),
    [
        ("always 0 tocks < 3\n", "watched.elf: it has no variable `tocks`; is it `ticks`"),
        ("always 0 ticks >= 0\n", "holds whatever the values are"),
        ("always 0 number < 3\n", "`number` was optimised away: it has no place in memory"),
        ("always 2 ticks < 3\n", "the scenario has nodes 0 to 1, and no node 2"),
        ("within 4_000..: always 0 ticks < 3\n", "the run ends in cycle 3000, and not within 4000.."),
    ],
)
def test_what_no_cycle_could_fail_is_refused_before_the_first_run(folder, case, why):
    status, out, err = campaign(folder, case)
    assert (status, out) == (2, "") and "w.expect, line 3: " in err and why in err, err
    assert "run watched:" in err and not (folder / "c.results").exists()


def test_a_run_that_varies_is_looked_at_too(folder):
    """What holds of the first run may be nothing of the last one."""
    status, _, err = campaign(folder, "within 2_000..: always 0 ticks < 9\n", "cycles = [3_000, 1_000]")
    assert status == 2 and "run watched cycles=1000: w.expect, line 3: the run ends in cycle 1000" in err
    (folder / "other.hex").write_text(":00000001FF\n")
    vary = '"node.0.image" = ["watched.hex", "other.hex"]\n"node.1.image" = ["watched.hex", "other.hex"]'
    status, _, err = campaign(folder, "always 0 ticks < 9\n", vary)
    assert status == 2 and "node.1.image=other.hex: watched.elf: no node has an image of this program" in err


def test_the_program_of_nodes_that_are_named_and_of_a_network(folder):
    network = '[[run]]\nexpect = "w.expect"\n[run.network]\nshape = "line"\nimages = "watched.hex*3"\ncycles = 3_000\n'
    status, out, err = campaign(folder, "always 2 ticks < 3\n", text=network)
    assert status == 1 and "`ticks < 3` does not hold at node 2 in cycle" in out, err
    (folder / "other.elf").write_bytes((folder / "watched.elf").read_bytes())
    case = CASE.replace("elf watched.elf", "elf 1=other.elf")
    (folder / "w.expect").write_text(case + "always 1 ticks < 3\n")
    (folder / "c.campaign").write_text(CAMPAIGN)
    status, out, _ = run_tool("campaign", "--jobs", "1", str(folder / "c.campaign"))
    assert status == 1 and "`ticks < 3` does not hold at node 1" in out
    (folder / "w.expect").write_text(case + "always 0 ticks < 3\n")
    status, _, err = run_tool("campaign", "--jobs", "1", str(folder / "c.campaign"))
    assert status == 2 and "`ticks` is not a register, and no program is known: `elf FILE` names its ELF file" in err


def test_another_program_makes_results_anew(folder):
    assert campaign(folder, "always 0 ticks < 9\n")[0] == 0
    assert "1 of 1 results are there already" in campaign(folder, "always 0 ticks < 9\n")[2]
    with open(folder / "watched.elf", "ab") as file:
        file.write(b"\0")
    assert "results are there already" not in campaign(folder, "always 0 ticks < 9\n")[2]


def simulator(folder, what):
    path = folder / "before"
    path.write_text(BEFORE.replace("WHAT", what))
    path.chmod(path.stat().st_mode | stat.S_IXUSR)
    return {"AVRORA_PROGRAM": str(path), "PYTHONPATH": ""}


def test_conditions_that_are_not_judged_in_time(folder):
    text = "timeout = 2\nattempts = 1\n" + CAMPAIGN
    status, out, _ = campaign(folder, "always 0 ticks < 9\n", text=text, **simulator(folder, "time.sleep(600)"))
    assert status == 3 and "w.expect: its conditions took more than 2 s" in out


def test_a_simulator_that_fails_is_asked_again(folder):
    log = folder / "log"
    what = f"open({str(log)!r}, 'a').write('x') > 0 and len(open({str(log)!r}).read()) < 2 and sys.exit(6)"
    status, out, err = campaign(
        folder, "always 0 ticks < 9\n", text="attempts = 3\n" + CAMPAIGN, **simulator(folder, what)
    )
    assert status == 0 and "1 passed" in out, err + out
    assert len(log.read_text()) == 2
