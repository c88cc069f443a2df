"""avr-gdb over networks of two images and of 64 nodes, with nodes that sleep and stop, clients that go away, and an
editor's machine interface."""
import contextlib
import json
import os
import random
import re
import signal
import socket
import subprocess
import time

import pytest

from avrora_tools.debugging import history, motion, packets, ranges, session
from firmware import compiled
from gdb_driver import Gdb
from support import LONG, LOOPBACK, TOOL, TOP, has_loopback
from test_gdb import PROGRAM, gdb, needs_all, stands  # noqa: F401

NODES = "\n".join('[[node]]\nimage = "%s.hex"' % name for name in ("total", "every_tick", "total"))
LINKS = "\n".join(f"[[link]]\nfrom = 1\nto = {node}" for node in (0, 2))
TWO = f"version = 3\ncycles = 600_000\nlatency = 100\nbyte_time = 3_072\n{NODES}\n{LINKS}\n"


@pytest.fixture(scope="module")
def folder(tmp_path_factory):
    """A network whose node 1 runs another program than the others."""
    place = tmp_path_factory.mktemp("two")
    for source in ("total.c", "every_tick.c"):
        compiled(source, place, "-Os")
    (place / "two.toml").write_text(TWO, encoding="utf-8")
    return place


@pytest.fixture
def two(folder):
    with Gdb(folder) as one:
        one.type("set schedule-multiple on")
        one.connect("two.toml", PROGRAM, "-e", "total.elf", "-e", "every_tick.elf")
        yield one


def where(one):
    """Where gdb stands: (cycle, node)."""
    return stands(one.type("monitor cycle").text)[0]


# ---- programs


@needs_all
def test_each_image_is_an_inferior_with_its_own_symbols(two):
    said = two.type("info inferiors").text
    assert "total.elf" in said and "every_tick.elf" in said
    names = re.findall(r'Thread (\d\.\d) "(node \d)"', two.type("info threads").text)
    assert names == [("1.1", "node 0"), ("1.3", "node 2"), ("2.2", "node 1")]
    # both have it, each at an address of its own
    assert "(2 locations)" in two.type("break main").text
    two.type("delete")
    two.type("break compute")
    two.type("continue")
    assert "= 5 '" in two.type("print next_value").text
    assert two.type("print total").word == "error"


@needs_all
def test_breakpoints_of_two_programs_there_and_back(two):
    """What node 1 computes, the other two hear; each in its turn, and the same back."""
    two.type("break compute")
    two.type("break take")
    there = []
    for _ in range(9):
        said = two.type("continue")
        there.append((*where(two), re.search(r"hit Breakpoint \d, (\w+) \(\w+=(\d+)", said.text).groups()))
    assert [(node, what[0]) for _, node, what in there] == [(1, "compute"), (0, "take"), (2, "take")] * 3
    assert [cycle for cycle, _, _ in there] == sorted(cycle for cycle, _, _ in there)
    heard = [int(what[1]) for _, node, what in there if node == 0]
    computed = [int(what[1]) for _, node, what in there if node == 1]
    assert heard == [(3 * one + 1) & 0xFF for one in computed]
    for wanted in there[-2::-1]:
        said = two.type("reverse-continue")
        assert (*where(two), re.search(r"hit Breakpoint \d, (\w+) \(\w+=(\d+)", said.text).groups()) == wanted


@needs_all
def test_an_inferior_alone_goes_on_where_gdb_is_told_so(two):
    two.type("set schedule-multiple off")
    two.type("break compute")
    two.type("break take")
    for _ in range(3):  # from node 0: those of node 1 do not stop it
        assert "take" in two.type("continue").text
    two.type("set scheduler-locking on")
    node = where(two)[1]
    for command in ("continue", "continue", "reverse-continue"):
        assert "take" in two.type(command).text and where(two)[1] == node


@needs_all
def test_the_same_address_of_two_programs_is_watched_for_its_own(two, folder):
    two.type("thread 2.1")
    two.type("watch next_value")
    values = []
    for _ in range(4):
        said = two.type("continue").text
        values.append(int(re.search(r"New value = (\d+)", said)[1]))
        assert where(two)[1] == 1
    assert values == [5, 16, 49, 148]  # the first is that of the start-up code
    assert re.search(r"New value = 49", two.type("reverse-continue").text)


@needs_all
def test_an_inferior_may_be_left(two):
    two.type("thread 2.1")
    assert two.type("detach").word == "done"
    assert re.findall(r'"(node \d)"', two.type("info threads").text) == ["node 0", "node 2"]
    two.type("thread 1.1")
    two.type("break take")
    assert "hit Breakpoint" in two.type("continue").text


@needs_all
def test_an_elf_of_another_program_is_refused(folder):
    words = [*TOOL, "gdb", "--avrora", PROGRAM, "-e", "0=every_tick.elf", "two.toml"]
    done = subprocess.run(words, cwd=folder, stdin=subprocess.DEVNULL, capture_output=True, text=True, check=False)
    assert done.returncode == 2 and "not the program of the image total.hex" in done.stderr


# ---- steps over writes, sleep and interrupts


@needs_all
def test_a_step_over_a_write_of_what_is_watched_tells_it(two):
    two.type("break compute")
    two.type("continue")
    two.type("watch next_value")
    two.type("delete 1")
    old = None
    for _ in range(30):
        said = two.type("stepi").text
        if found := re.search(r"Old value = (\d+).*\nNew value = (\d+)", said):
            old = found.groups()
            break
    assert old == ("5", "16")
    at = where(two)
    said = two.type("reverse-stepi").text
    assert re.search(r"Old value = 16.*\nNew value = 5", said) and where(two)[0] < at[0]


@needs_all
def test_interrupts_are_stepped_over_or_into(two):
    two.type("thread 2.1")
    two.type("tbreak every_tick.c:18")
    two.type("continue")

    def slept():
        """Steps until a step takes long: what stands where it ends, and the cycles that it took."""
        for _ in range(300):
            before = where(two)[0]
            two.type("stepi")
            if (took := where(two)[0] - before) > 1_000:
                return two.type("info symbol $pc").text, took
        raise AssertionError("no step slept")

    assert slept()[0].startswith("main ")
    two.type("monitor interrupts show")
    symbol, took = slept()
    assert took > 8_000 and not symbol.startswith("__vector_12")  # the interrupt's entry, where main stands still
    two.type("stepi")
    two.type("stepi")
    assert two.type("info symbol $pc").text.startswith("__vector_12")


@needs_all
def test_a_step_from_where_an_interrupt_begins_goes_over_it(two):
    """gdb shows what is interrupted there: the node's next instruction, once the handler has returned."""

    def at_interrupt(word):
        two.type(f"monitor {word} interrupt of 1")
        two.type("maintenance flush register-cache")
        return where(two)[0]

    two.type("thread 2.1")
    two.type("monitor goto 300_000")
    begin = at_interrupt("next")
    counter = two.type("print $pc").text.partition("= ")[2]
    assert two.type("info symbol $pc").text.startswith("main ")
    two.type("stepi")
    behind = where(two)[0]
    assert two.type("print $pc").text.partition("= ")[2] == counter and behind > begin + 20
    two.type("stepi")
    two.type("reverse-stepi")
    assert where(two)[0] == behind
    assert at_interrupt("last") == begin
    two.type("break *$pc thread 2.1")  # gdb steps over it at first, and is not to pass it
    assert "hit Breakpoint" in two.type("continue").text and where(two)[0] == behind
    two.type("delete")
    assert at_interrupt("last") == begin
    two.type("monitor interrupts show")
    two.type("stepi")
    assert two.type("info symbol $pc").text.startswith("__vectors")


def main_of(folder, name):
    """The byte addresses of the function main."""
    symbols = subprocess.run(
        ["avr-nm", "-S", f"{name}.elf"], cwd=folder, capture_output=True, text=True, check=True
    ).stdout
    first, size = (int(text, 16) for text in re.search(r"^(\w+) (\w+) T main$", symbols, re.M).groups())
    return first, first + size


@needs_all
def test_a_long_step_ends_where_the_short_ones_do(folder, monkeypatch):
    """Of drawn ranges of instructions: by the ways out of them, and instruction by instruction."""
    draw = random.Random(7)
    own, other = socket.socketpair()
    with own, other, history.history(str(folder / "two.toml"), PROGRAM) as past:
        one = session.Session(past, packets.Channel(own.fileno(), own.fileno()))
        ends = []
        for _ in range(24):
            node, cycle = draw.randrange(3), past.limit - draw.randrange(30_000, 60_000)
            row = past.next_row(node, cycle)
            first, end = 2 * row.address - draw.choice([0, 4, 20]), 2 * row.address + draw.choice([2, 8, 40, 300])
            if draw.random() < 0.7:  # the loop of main, in which the node sleeps
                first, end = main_of(folder, "every_tick" if node == 1 else "total")
                while row.kind != "instr" or not first <= 2 * row.address < end:
                    row = past.next_row(node, row.cycle)
            words = f"vCont;r{first:x},{end:x}:{node + 1:x};c".encode()
            found = []
            for long in (1, 10**9):
                monkeypatch.setattr(motion, "LONG_STEP", long)
                one.motion.stand(motion.Place(row.cycle, node))
                answer = one.answered(words)
                found.append((one.motion.at, re.sub(rb"(?:[0-9a-f]{2}:[0-9a-f]+;)+", b"", answer)))
            assert found[0] == found[1], (row, words)
            ends.append(found[0][0].cycle - row.cycle)
        assert max(ends) > 1_000


@pytest.mark.parametrize(
    "text, first, end, wanted",
    [
        ("0000 0000", 0, 2, {1}),
        ("ffcf", 0, 2, set()),  # rjmp .-2: a loop that nothing leaves
        ("09f4 0000 0000", 0, 2, {1, 2}),  # brne .+2
        ("0e940001 0895", 0, 4, {0x100, 2}),  # call 0x0100
        ("0895", 0, 2, None),
        ("0994", 0, 2, None),
        ("00fd 0e940001 0000", 0, 2, {1, 3}),  # sbrc over an instruction of two words
    ],
)
def test_ways_out_of_a_range(text, first, end, wanted):
    assert ranges.ways_out(bytes.fromhex(text.replace(" ", "")) + bytes(8), first, end) == wanted


# ---- many nodes, nodes that stop


def many(folder, count):
    nodes = '[[node]]\nimage = "every_tick.hex"\n' + '[[node]]\nimage = "total.hex"\n' * (count - 1)
    links = "".join(f"[[link]]\nfrom = 0\nto = {node}\n" for node in range(1, count))
    text = f"version = 3\ncycles = 600_000\nlatency = 100\nbyte_time = 3_072\n{nodes}{links}"
    (folder / f"many{count}.toml").write_text(text, encoding="utf-8")
    return f"many{count}.toml"


@needs_all
def test_a_network_of_64(folder):
    with Gdb(folder) as one:
        one.type("set schedule-multiple on")
        one.connect(many(folder, 64), PROGRAM, "-e", "total.elf", "-e", "every_tick.elf", "--at", "300_000")
        assert len(re.findall(r'"node \d+"', one.type("info threads").text)) == 64
        one.type("break take")
        one.type("continue")
        places = [where(one)]
        for _ in range(62):
            one.type("continue")
            places.append(where(one))
        assert [node for _, node in places] == list(range(1, 64)) and len({cycle for cycle, _ in places}) == 1
        one.type("reverse-continue")
        assert where(one) == places[-2]


@needs_all
def test_a_node_that_stops_is_told_and_passed_back_over(tmp_path):
    compiled("breaks.c", tmp_path)
    nodes = '[[node]]\nimage = "breaks.hex"\n' * 2
    inputs = "".join(f'[[input]]\nnode = {node}\nat = {at}\nhex = "41"\n' for node, at in ((1, 100_000), (0, 400_000)))
    (tmp_path / "stops.toml").write_text(f"version = 3\ncycles = 900_000\n{nodes}{inputs}", encoding="utf-8")
    rows = subprocess.run(
        [PROGRAM, "run", "stops.toml"], cwd=tmp_path, capture_output=True, text=True, check=True
    ).stdout
    stops = [(int(it[1]), int(it[2])) for it in re.finditer(r"^(\d+) (\d+) stop ", rows, re.M)]
    assert len(stops) == 2
    with Gdb(tmp_path, "breaks.elf") as one:
        one.connect("stops.toml", PROGRAM)
        for wanted in stops:
            said = one.type("continue")
            assert where(one) == wanted and f"node {wanted[1]} stops in cycle {wanted[0]:,}" in said.text
            assert "SIGILL" in said.text
        one.type("continue")
        assert where(one)[0] == 900_000
        assert "stopped: " in one.type("info threads").text
        one.type("reverse-stepi")
        assert where(one)[0] < stops[-1][0] + 1
        one.type("monitor goto 900_000")
        one.type("maintenance flush register-cache")
        one.type("reverse-continue")
        assert where(one) == stops[1]


# ---- those who come over a port


@contextlib.contextmanager
def served(folder):
    if not has_loopback():
        pytest.skip("needs a network that has 127.0.0.1")
    words = [*TOOL, "gdb", "--avrora", PROGRAM, "--port", "0", "-e", "total.elf", "-e", "every_tick.elf", "two.toml"]
    with subprocess.Popen(words, cwd=folder, stderr=subprocess.PIPE, text=True) as server:
        try:
            yield int(re.search(r"target remote :(\d+)", server.stderr.readline())[1])
        finally:
            server.kill()


@needs_all
def test_a_client_that_goes_away_leaves_the_tool_as_it_was(folder):
    with served(folder) as port:
        for _ in range(2):
            with Gdb(folder) as one:
                one.type(f"target remote :{port}")
                one.type("break take")
                one.type("continue")
            # killed there, with its breakpoints set
        with Gdb(folder) as one:
            one.type(f"target remote :{port}")
            assert where(one) == (0, 0)
            one.type("continue")
            assert where(one)[0] == 600_000


@needs_all
def test_garbage_on_the_socket_ends_that_one_alone(folder):
    with served(folder) as port:
        for junk in (
            b"\x16\x03\x01" * 900, b"$" + b"a" * 300_000, os.urandom(5_000), b"$#", b"$qSupported#zz" * 9, b""
        ):
            with socket.create_connection((LOOPBACK, port), LONG) as client, contextlib.suppress(OSError):
                client.sendall(junk)
                client.shutdown(socket.SHUT_WR)
                while client.recv(4_096):
                    pass
        with Gdb(folder) as one:
            one.type(f"target remote :{port}")
            one.type("break take")
            assert "hit Breakpoint" in one.type("continue").text


@needs_all
def test_two_sessions_at_once_know_nothing_of_each_other(folder):
    """Each has a tool of its own by a pipe; over a port the second one waits until the first has gone."""
    words = ("two.toml", PROGRAM, "-e", "total.elf", "-e", "every_tick.elf")
    with Gdb(folder) as one, Gdb(folder) as other:
        one.connect(*words)
        other.connect(*words, "--at", "300_000")
        one.type("break take")
        one.type("continue")
        assert where(other) == (300_000, 0)
        other.type("reverse-continue")
        assert where(other)[0] == 0 and where(one)[0] > 0


@needs_all
def test_a_long_continue_is_interrupted_and_goes_on(folder):
    """^C in gdb while the tool searches a run of minutes."""
    long = TWO.replace("cycles = 600_000", "cycles = 4_000_000_000")
    (folder / "long.toml").write_text(long, encoding="utf-8")
    with Gdb(folder) as one:
        one.connect("long.toml", PROGRAM, "-e", "total.elf", "-e", "every_tick.elf")
        one.type("break __bad_interrupt")
        begun = time.monotonic()
        one.send('-interpreter-exec console "continue"')
        time.sleep(3)
        one.process.send_signal(signal.SIGINT)
        said = one.answer(begun)
        assert 'signal-name="SIGINT"' in said.rest and said.seconds < 60
        cycle, _ = where(one)
        assert 0 < cycle < 4_000_000_000
        assert one.type("info registers pc").word == "done"


# ---- editors


@needs_all
def test_what_an_editor_sends(folder):
    """The commands of VS Code's C++ adapter, of CLion and of Emacs's gud, in their order."""
    with Gdb(folder) as one:
        one.type("set sysroot /")
        one.type("set remotetimeout 60")
        assert one.ask("-gdb-set pagination off").word == "done"
        assert one.ask("-gdb-set auto-solib-add on").word == "done"
        assert one.ask("-gdb-set solib-search-path /tmp").word == "done"
        assert one.ask(f"-environment-cd {folder}").word == "done"
        assert one.ask("-file-exec-and-symbols total.elf").word == "done"
        remote = " ".join([*TOOL, "gdb", "--avrora", PROGRAM, "-e", "total.elf", "-e", "every_tick.elf", "two.toml"])
        assert one.ask(f"-target-select remote | {remote}").word in ("connected", "stopped")
        found = one.ask("-break-insert -f total.c:10")
        assert found.word == "done" and found.field("line") == "10"
        stopped = one.ask("-exec-continue")
        assert stopped.field("reason") == "breakpoint-hit" and stopped.field("func") == "take"
        threads = one.ask("-thread-info")
        assert threads.rest.count('name="node ') == 3
        stack = one.ask("-stack-list-frames --thread 1 0 20")
        assert [it for it in re.findall(r'func="(\w+)"', stack.rest)][:2] == ["take", "__vector_12"]
        assert 'name="byte"' in one.ask("-stack-list-variables --thread 1 --frame 0 --simple-values").rest
        made = one.ask("-var-create --thread 1 --frame 0 - * total")
        assert made.word == "done" and made.field("value") == "0"
        assert one.ask(f'-var-evaluate-expression {made.field("name")}').field("value") == "0"
        assert one.ask(f'-break-delete {found.field("number")}').word == "done"  # node 2 comes to it in this cycle too
        assert one.ask("-exec-next").field("reason") == "end-stepping-range"
        assert one.ask("-exec-next").word == "stopped"
        assert one.ask("-exec-step --reverse").word == "stopped"
        assert one.ask("-exec-finish").word == "stopped"
        assert one.ask("-exec-next --reverse").word == "stopped"
        assert one.ask("-exec-continue --reverse").word == "stopped"
        assert one.ask("-data-list-register-values x 0 24 32").rest.count("number=") == 3
        assert one.ask("-data-read-memory-bytes 0x800100 16").field("contents")
        assert one.ask("-data-disassemble -s $pc -e $pc+8 -- 0").rest.count("inst=") >= 2
        assert one.ask("-data-evaluate-expression total=7").word == "error"
        assert one.ask("-exec-interrupt").word in ("done", "error")
        assert one.ask("-gdb-exit").word == "exit"


def test_the_launch_file_names_what_there_is():
    """examples/launch.json: VS Code's adapter for gdb, avr-gdb, and a task that serves the scenario."""
    with open(f"{TOP}/examples/launch.json", encoding="utf-8") as file:
        launch = json.load(file)
    for one in launch["configurations"]:
        assert one["type"] == "cppdbg" and one["MIMode"] == "gdb" and one["miDebuggerPath"] == "avr-gdb"
        assert re.fullmatch(r"localhost:\d+", one["miDebuggerServerAddress"])
        assert {"request", "name", "program", "cwd", "setupCommands"} <= set(one)
