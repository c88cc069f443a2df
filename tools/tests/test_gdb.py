"""Debugging by avr-gdb. The addresses and variables are those of examples/packet.c as the test compiles it; what gdb
shows is compared with rows of the trace and with states, which other tests compare with the manual."""
import contextlib
import os
import pathlib
import random
import re
import shutil
import socket
import subprocess
import threading

import pytest

from support import LONG, LOOPBACK, TOOL, TOP, has_loopback, needs_program
from avrora_tools import cli, images
from avrora_tools.debugging import checkpoints, history, packets, session, sightings, target
from avrora_tools.errors import BadInput
from avrora_tools.observing.places import Kind, Place
from avrora_tools.scenarios import MAX_WINDOW

PROGRAM = os.environ.get(cli.PROGRAM_VARIABLE)
TOP_EXAMPLES = pathlib.Path(TOP) / "examples"


def needs_all(test):
    """Skips a test without a program, avr-gdb or a compiler."""
    for name, package in (("avr-gcc", "gcc-avr"), ("avr-objcopy", "binutils-avr"), ("avr-gdb", "gdb-avr")):
        test = needs_program(name, package)(test)
    return pytest.mark.skipif(not PROGRAM, reason="needs a program (AVRORA_PROGRAM)")(test)


@pytest.fixture(scope="module")
def folder(tmp_path_factory):
    """Two sensors and a sink, compiled with names of lines and variables."""
    place = tmp_path_factory.mktemp("gdb")
    for name in ("packet.c", "packet.toml", "radio.h"):
        shutil.copy(f"{TOP}/examples/{name}", place)
    words = ["avr-gcc", "-mmcu=atmega128", "-Os", "-gdwarf-2", "packet.c", "-o", "packet.elf"]
    subprocess.run(words, cwd=place, check=True)
    words = ["avr-objcopy", "-j", ".text", "-j", ".data", "-O", "ihex", "packet.elf", "packet.hex"]
    subprocess.run(words, cwd=place, check=True)
    return place


@pytest.fixture
def past(folder):
    with history.history(f"{folder}/packet.toml", PROGRAM) as found:
        yield found


def traced(past, first, end, like=""):
    """The processor's rows of a trace, by windows: (cycle, node, kind, word address, rest), those whose text from the
    kind on begins so."""
    found = []
    row = re.compile(r"(\d+) (\d+) ((instr|enter|stop) ([0-9A-F]+)(?: (.*))?)")
    for begin in range(first, end, MAX_WINDOW):
        behind = min(begin + MAX_WINDOW, end)
        for line in past.traced_text(begin, behind).decode().splitlines():
            it = row.fullmatch(line)
            if it and begin <= int(it[1]) < behind and it[3].startswith(like):
                found.append((int(it[1]), int(it[2]), it[4], int(it[5], 16), it[6]))
    return found


def crossings(past, words, first=0, end=None):
    """The same of instructions at word addresses: (cycle, node)."""
    rows = traced(past, first, past.limit if end is None else end, "instr")
    return [(cycle, node) for cycle, node, _, word, _ in rows if word in words]


def gdb(folder, *commands, at=None, node=0, state=None):
    """What avr-gdb says to commands, over the tool by a pipe."""
    begins = [*(["--state", state] if state else []), *(["--at", str(at)] if at is not None else [])]
    remote = " ".join([*TOOL, "gdb", "--avrora", PROGRAM, *begins, "--node", str(node), "packet.toml"])
    words = [
        "avr-gdb",
        "-nx",
        "-batch",
        "-ex",
        "set pagination off",
        "-ex",
        "set remotetimeout 60",
        "-ex",
        "file packet.elf",
    ]
    for command in (f"target remote | {remote}", *commands):
        words += ["-ex", command]
    done = subprocess.run(words, cwd=folder, capture_output=True, text=True, timeout=LONG, check=False)
    return done.stdout + done.stderr


CYCLE_OF = re.compile(r"^cycle ([\d,]+), node (\d+)$", re.M)


def stands(said):
    """Where `monitor cycle` says that gdb stands, each time: (cycle, node)."""
    return [(int(cycle.replace(",", "")), int(node)) for cycle, node in CYCLE_OF.findall(said)]


# ---- packets


def channel():
    """A channel, and the end of it that a gdb would have."""
    own, other = socket.socketpair()
    return packets.Channel(own.fileno(), own.fileno()), own, other


def test_packets_there_and_back():
    draw = random.Random(1)
    for _ in range(2_000):
        data = bytes(draw.choice([*b"#$}*", draw.randrange(256)]) for _ in range(draw.randrange(40)))
        one, own, other = channel()
        with own, other:
            other.sendall(b"+" + packets.framed(data))
            assert one.receive() == data
            assert other.recv(10) == b"+"


def test_a_packet_with_a_wrong_sum_is_asked_for_again():
    one, own, other = channel()
    with own, other:
        other.sendall(b"$g#00$m0,4#fd")
        assert one.receive() == b"m0,4"
        assert other.recv(10) == b"-+"


def test_a_packet_that_comes_twice_is_answered_once():
    one, own, other = channel()
    with own, other:
        other.sendall(packets.framed(b"qSupported") * 2 + b"+")
        assert one.receive() == b"qSupported"
        one.send(b"x")
        other.sendall(packets.framed(b"g"))
        assert one.receive() == b"g"


def test_noise_and_an_end_are_no_packet():
    one, own, other = channel()
    with own, other:
        sender = threading.Thread(target=other.sendall, args=(b"$" + b"garbage" * 20_000,), daemon=True)
        sender.start()
        with pytest.raises(packets.Gone):
            one.receive()
    one, own, other = channel()
    with own:
        other.close()
        with pytest.raises(packets.Gone):
            one.receive()


def test_an_interrupt_is_heard_between():
    one, own, other = channel()
    with own, other:
        assert not one.has_interrupt()
        other.sendall(b"\x03")
        assert one.has_interrupt() and not one.has_interrupt()


# ---- a run at any cycle


@needs_all
def test_rows_forward_and_back_are_those_of_the_trace(past, folder):
    """Of drawn nodes and cycles the next and the last row are those of a window of the whole run."""
    draw = random.Random(2)
    for _ in range(12):
        first = draw.randrange(0, past.limit - 20_000)
        text = past.traced_text(first, first + 20_000).decode()
        rows = [re.match(r"(\d+) (\d+) (instr|enter|stop) ([0-9A-F]+)", line) for line in text.splitlines()]
        for _ in range(6):
            node, cycle = draw.randrange(past.nodes), draw.randrange(first + 5_000, first + 15_000)
            own = [int(row[1]) for row in rows if row and int(row[2]) == node and int(row[1]) >= first]
            later, before = [at for at in own if at > cycle], [at for at in own if at < cycle]
            if later:
                assert past.next_row(node, cycle).cycle == later[0]
            if before:
                assert past.last_row(node, cycle).cycle == before[-1]


@needs_all
def test_a_search_finds_all_and_in_order(past):
    words = {0x0046, 0x005D}
    places = [Place(node, Kind.AT, word) for node in range(past.nodes) for word in words]
    wanted = crossings(past, words)
    assert len(wanted) > 100
    seek = past.sightings
    for whole in (False, True):
        for begin, end in ((0, past.limit), (0, 300_000), (300_000, past.limit), (262_143, 262_145)):
            there = [one for _, seen in seek.searched(seek.pieces_on(begin, end, whole), places) for one in seen]
            back = [one for _, seen in seek.searched(seek.pieces_back(end, begin, whole), places) for one in seen[::-1]]
            assert [(one.cycle, one.place.node) for one in there] == [it for it in wanted if begin <= it[0] < end]
            assert back == there[::-1]


@needs_all
def test_what_is_forgotten_is_asked_for_again(past, monkeypatch):
    monkeypatch.setattr(sightings, "KEPT_LISTS", 3)
    places = [Place(node, Kind.AT, 0x0046) for node in range(past.nodes)]
    seek = past.sightings
    found = [one for _, seen in seek.searched(seek.pieces_on(0, 400_000), places) for one in seen]
    assert [(one.cycle, one.place.node) for one in found] == crossings(past, {0x0046}, 0, 400_000)
    assert len(seek.kept) <= 3


@needs_all
def test_a_replay_is_what_the_simulator_tells(past):
    """Of drawn cycles: all bytes that a replay has, and where the node stands, forwards and backwards in a span."""
    draw = random.Random(4)
    for _ in range(4):
        node, number = draw.randrange(past.nodes), draw.randrange(past.limit // history.STEP_SPAN)
        begin = number * history.STEP_SPAN
        past.foresee(node, begin + history.STEP_SPAN // 2)
        for _ in range(6):
            cycle = begin + draw.randrange(history.STEP_SPAN)
            state, row = past.looked(cycle).nodes[node], past.row_at(node, cycle)
            data, wanted = past.replayed(node, cycle), target.data_space(state)
            assert data[:32] == wanted[:32] and data[0x100:] == wanted[0x100:] and data[0x5D:0x60] == wanted[0x5D:0x60]
            assert row is None or row.address == state["PC"]


def test_states_far_apart_are_kept_few(tmp_path):
    """Some lie evenly along the run, the others where one looked last; each is made from the nearest one before."""
    made = []

    def save(epochs, state):
        before = 0 if state is None else int(pathlib.Path(state).read_text())
        made.append(before + epochs)
        return str(before + epochs).encode()

    one = checkpoints.Checkpoints(str(tmp_path), None, 0, 10_000, save)
    assert one.made(0) is None
    for epoch in (9_999, 9_998, 9_990, 5_000, *range(300, 100, -1)):
        assert pathlib.Path(one.made(epoch)).read_text() == str(epoch)
    assert len(made) < 10_000 // one.stride + 3 * checkpoints.BEFORE + 200 * 3
    assert len(list(tmp_path.iterdir())) == len(one.saved) <= checkpoints.EVEN + checkpoints.RECENT + 1
    with one.state(4_321) as path:
        for epoch in range(600, 800):
            one.made(epoch)
        assert pathlib.Path(path).read_text() == "4321"  # it stays while it is used


def test_registers_as_gdb_orders_them():
    class Node(dict):
        data = bytes(range(32)) + bytes(0x1100 - 32)

        def __missing__(self, name):
            return int(name[1:]) if re.fullmatch(r"r\d+", name) else 0

    node = Node({"SREG": 0x82, "SP": 0x10D5, "PC": 0x0068, "TCNT1": 0x1234, "TOV0": 1, "OCF1A": 1, "RAMPZ": 1})
    found = target.registers(node)
    assert found == bytes(range(32)) + b"\x82\xd5\x10" + b"\xd0\x00\x00\x00"
    assert [found[first : first + length] for first, length in target.PLACES[-2:]] == [b"\xd5\x10", b"\xd0\x00\x00\x00"]
    data = target.data_space(node)
    assert (data[0x4C], data[0x4D], data[0x56], data[0x5B], data[0x5D], data[0x5E], data[0x5F]) == (
        0x34,
        0x12,
        0x11,
        1,
        0xD5,
        0x10,
        0x82,
    )
    assert b"".join(target.without_counter(data)) == found[:-4]


# ---- with avr-gdb


@needs_all
def test_forward_to_a_breakpoint_and_back_to_the_cause(folder):
    said = gdb(
        folder,
        "break put",
        "continue",
        "bt",
        "delete",
        "break packet.c:49",
        "reverse-continue",
        "print got",
        "print coming",
        at=300_000,
    )
    assert "hit Breakpoint 1, put (text=0x" in said
    assert re.search(r"#1 .* in sink \(\)", said)
    assert re.search(r"hit Breakpoint 2, receive \(byte=", said)
    assert re.search(r"= 3 '\\003'", said) and "length = 3" in said


@needs_all
def test_nodes_are_threads_with_words(folder):
    said = gdb(folder, "info threads", "thread 2", "print/x $sp", at=300_000)
    assert re.findall(r'"(node \d)" \(cycle 300,000, (?:asleep|awake)\)', said) == ["node 0", "node 1", "node 2"]
    assert "Switching to thread 2" in said


@needs_all
def test_steps_back_and_forth_are_the_same_places(folder):
    """A drawn walk of steps: each way the same program counters and registers."""
    there = ["stepi"] * 12
    show = ['printf "at %x %x %x\\n", $pc, $sp, $r24']
    commands = ["stepi", *(it for step in there for it in (*show, step)), *show]  # it wakes first
    commands += [it for step in there for it in ("reverse-stepi", *show)]
    found = re.findall(r"^at (.*)$", gdb(folder, *commands, at=151_000, node=1), re.M)
    assert len(found) == 25
    assert found[:13] == found[12:][::-1]


@needs_all
def test_both_ends_of_the_run_are_told(folder):
    said = gdb(folder, "reverse-continue", "monitor cycle", "continue", "monitor cycle", at=1_000)
    assert said.count("No more reverse-execution history") == 2
    assert "cycle 0, node 0" in said and "cycle 737,280, node 0" in said


@needs_all
def test_a_breakpoint_of_another_node_is_not_passed_by(folder, past):
    """Node after node meets the same line; none is lost while gdb steps another one over it."""
    word = 0x005D  # the loop of the start-up code that clears memory, in which all three are at once
    rows = [(node, cycle) for cycle, node in crossings(past, {word}, 0, 1_000)]
    assert {node for node, _ in rows[:7]} == {0, 1, 2}
    commands = [f"break *{2 * word:#x}"] + ["continue", "monitor cycle"] * 7
    found = re.findall(r"^cycle ([\d,]+), node (\d)", gdb(folder, *commands), re.M)
    assert [(int(node), int(cycle.replace(",", ""))) for cycle, node in found] == rows[:7]


@needs_all
def test_words_of_the_network(folder):
    said = gdb(
        folder,
        "monitor next heard of 0",
        "monitor who",
        "monitor air",
        "monitor last sent",
        "monitor next interrupt TIMER1_COMPA of 0",
        "monitor console 0",
        at=300_000,
    )
    heard = re.search(r"cycle ([\d,]+), node 0: heard 1 AA", said)
    assert heard
    sent = re.search(r"AA that node 1 sent in cycle ([\d,]+): goto", said)
    assert sent and int(sent[1].replace(",", "")) + 100 <= int(heard[1].replace(",", ""))
    assert re.search(r"node 0 can hear AA that node 1 sent", said)
    assert f"cycle {sent[1]}, node 1: sent AA" in said
    assert "TIMER1_COMPA_vect interrupts" in said
    assert "from 1 packet 0: 21" in said


@needs_all
def test_wrong_words_are_told(folder):
    said = gdb(
        folder,
        "monitor goto 9_999_999",
        "monitor goto x",
        "monitor jump 3",
        "monitor next rain",
        "monitor next sent of 7",
        "monitor next interrupt FOO",
    )
    for text in (
        "the run has 737,280 cycles",
        "x is neither a cycle nor a bookmark",
        "no word is called jump",
        "one of sent, heard",
        "7 is not a node",
        "FOO is not an interrupt",
    ):
        assert text in said, text


@needs_all
def test_nothing_can_be_written(folder):
    said = gdb(folder, "set var got = 9", "print got", "set var $r24 = 7", "print $r24", at=300_000)
    assert re.search("Cannot access memory|a run is a fact", said)
    assert "$1 = 3" in said


NO_PACKETS = """m m0 mzz,4 m-5,5 m800000,-1 m0,11111111111111111 p pzz Z0 Z0, Z0,zz,2 z1,5 Hgzz Tx T vCont vCont;
vCont;q vCont;s:zz vCont;r5:1 qThreadExtraInfo, qThreadExtraInfo,zz qRcmd,zz qRcmd,6 qXfer:threads:read::
qXfer:threads:read::x,y qXfer:memory-map:read::0 Z2 Z2,xyz Z2,100,-1 z2 z2,1""".split()


@pytest.mark.skipif(not PROGRAM, reason="needs a program (AVRORA_PROGRAM)")
def test_what_no_gdb_sends_is_an_error_and_no_end(past):
    """Whoever may connect to the port sends what he likes; the gdb that comes next finds the tool as it was."""
    one = session.Session(past, packets.Channel(-1, -1))
    for packet in NO_PACKETS:
        assert one.answered(packet.encode()) == session.MALFORMED, packet
    assert one.answered(b"vCont;\xff") == session.MALFORMED
    before = one.motion.at
    for words in ("goto " + "9" * 5_000, "goto 1" + "_" * 5_000, "next sent of " + "9" * 5_000, "next sent of \u0663"):
        said = bytes.fromhex(one.answered(b"qRcmd," + words.encode().hex().encode()).decode()).decode()
        assert "is neither a cycle" in said or "is not a node" in said
    assert one.motion.at == before


@pytest.mark.skipif(not PROGRAM, reason="needs a program (AVRORA_PROGRAM)")
def test_a_name_of_a_bookmark_moves_no_cursor(past):
    one = session.Session(past, packets.Channel(-1, -1))
    for words in ("bookmark \x1b[2J", "bookmark"):
        said = bytes.fromhex(one.answered(b"qRcmd," + words.encode().hex().encode()).decode()).decode()
        assert r"\x1B[2J: " in said and "\x1b" not in said


@pytest.mark.skipif(not PROGRAM, reason="needs a program (AVRORA_PROGRAM)")
@pytest.mark.parametrize("name", ["packet.hex", "packet.toml"])
def test_a_file_that_changes_meanwhile_is_told(folder, tmp_path, name):
    """What was kept is of the run before, and what is asked anew would be of another one."""
    for one in ("packet.hex", "packet.toml"):
        shutil.copy(folder / one, tmp_path)
    with history.history(f"{tmp_path}/packet.toml", PROGRAM) as past:
        past.state(100)
        with open(tmp_path / name, "a", encoding="utf-8") as file:
            file.write("\n")
        with pytest.raises(BadInput, match=f"{name} changed since this began"):
            past.state(200)
        with pytest.raises(BadInput, match="changed since"):
            session.Session(past, packets.Channel(-1, -1))


@pytest.mark.skipif(not PROGRAM, reason="needs a program (AVRORA_PROGRAM)")
def test_an_image_may_be_named_from_the_root(folder, tmp_path):
    text = (folder / "packet.toml").read_text()
    (tmp_path / "net.toml").write_text(text.replace('"packet.hex"', f'"{folder}/packet.hex"'))
    with history.history(f"{tmp_path}/net.toml", PROGRAM) as past:
        assert len(session.Session(past, packets.Channel(-1, -1)).flashes[0]) == images.FLASH_BYTES


@needs_all
def test_over_a_port_one_gdb_after_another(folder):
    if not has_loopback():
        pytest.skip("needs a network that has 127.0.0.1")
    words = [*TOOL, "gdb", "--avrora", PROGRAM, "--port", "0", "packet.toml"]
    server = subprocess.Popen(words, cwd=folder, stderr=subprocess.PIPE, text=True)
    try:
        number = int(re.search(r"target remote :(\d+)", server.stderr.readline())[1])
        with socket.create_connection((LOOPBACK, number), LONG) as garbage:
            garbage.sendall(b"GET / HTTP/1.1\r\n\r\n")
            with contextlib.suppress(ConnectionResetError):
                assert garbage.recv(10) == b""
        for _ in range(2):
            command = ["avr-gdb", "-nx", "-batch", "-ex", "set remotetimeout 60", "-ex", "file packet.elf"]
            command += ["-ex", f"target remote :{number}", "-ex", "break main", "-ex", "continue"]
            done = subprocess.run(command, cwd=folder, capture_output=True, text=True, timeout=LONG, check=False)
            assert "hit Breakpoint 1, main" in done.stdout
    finally:
        server.kill()
        server.communicate()


@needs_all
def test_the_hunt_of_the_document(folder, tmp_path):
    """What docs/DEBUGGING.md shows: from a wrong byte at the sink back to the handler that came between."""
    for name in ("alarm.c", "alarm.toml"):
        shutil.copy(f"{TOP}/examples/races/{name}", tmp_path)
    (tmp_path / "radio.h").write_text((TOP_EXAMPLES / "radio.h").read_text(), encoding="utf-8")
    source = (tmp_path / "alarm.c").read_text(encoding="utf-8").replace("../radio.h", "radio.h")
    (tmp_path / "alarm.c").write_text(source, encoding="utf-8")
    words = ["avr-gcc", "-mmcu=atmega128", "-Os", "-gdwarf-2", "alarm.c", "-o", "packet.elf"]
    subprocess.run(words, cwd=tmp_path, check=True)
    words = ["avr-objcopy", "-j", ".text", "-j", ".data", "-O", "ihex", "packet.elf", "alarm.hex"]
    subprocess.run(words, cwd=tmp_path, check=True)
    moves = ["--input", "2:1=443_340..443_350", "--until", "660_000", "--compare", "lines", "-e", "packet.elf"]
    words = [*TOOL, "sweep", "--avrora", PROGRAM, "alarm.toml", *moves, "--out", "packet.toml"]
    done = subprocess.run(words, cwd=tmp_path, stdin=subprocess.DEVNULL, capture_output=True, check=False)
    assert done.returncode == 1, done.stderr
    state = "packet.toml.state"
    said = gdb(tmp_path, "break put if c == 0", "continue", "monitor who", state=state)
    assert "hit Breakpoint 1, put (c=0" in said
    sent = re.search(r"00 that node 2 sent in cycle ([\d,]+): goto", said)[1].replace(",", "")
    back = ["break alarm.c:25 thread 3", *["reverse-continue", "print kind", "print place"] * 2, "bt 2"]
    said = gdb(tmp_path, *back, state=state, at=sent, node=2)
    # main took place 1 with its reading, and so did the handler before it with its alarm
    assert re.findall(r"^\$\d = (.*)$", said, re.M) == ["114 'r'", "1 '\\001'", "65 'A'", "1 '\\001'"]
    assert re.search(r"#1 .* in __vector_18 \(\)", said)


@needs_all
def test_a_long_continue_is_interrupted(folder):
    """gdb's ^C is a byte between packets."""
    own, other = socket.socketpair()
    with own, other, history.history(f"{folder}/packet.toml", PROGRAM) as past:
        one = session.Session(past, packets.Channel(own.fileno(), own.fileno()))
        one.answered(b"Z0,1e000,2")
        other.sendall(b"\x03")
        assert one.answered(b"vCont;c").startswith(b"T02")
        assert one.answered(b"vCont;c").endswith(b"replaylog:end;")
        other.sendall(b"\x03")
        assert one.answered(b"bc").startswith(b"T02")
        assert one.answered(b"bc").endswith(b"replaylog:begin;")


@needs_all
@pytest.mark.parametrize(
    "words, said",
    [(["--at", "737_281"], "the run has"), (["--node", "3"], "nodes 0 to 2"), (["--port", "70000"], "is not a port")],
)
def test_bad_words_are_refused(folder, words, said):
    done = subprocess.run(
        [*TOOL, "gdb", "--avrora", PROGRAM, *words, "packet.toml"],
        cwd=folder,
        stdin=subprocess.DEVNULL,
        capture_output=True,
        text=True,
        check=False,
    )
    assert done.returncode == 2 and said in done.stderr
