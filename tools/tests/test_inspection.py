"""Variables, call chains and the room of the stack. Expected values are those that a program's source gives its
variables; call chains are compared with the calls, returns and entries of a trace."""
import os
import re
import shutil
import subprocess

import pytest

from avrora_tools.stacks import lowest_used
from avrora_tools.states import DATA_END, State
from avrora_tools.variables import (
    Array,
    Base,
    Enumeration,
    Member,
    Pointer,
    Renamed,
    Structure,
    place_in,
    taken_together,
    text_of,
)
from firmware import compiled, scenario
from support import SEED, needs_module, run_tool

import drawn_types

PROGRAM = os.environ.get("AVRORA_PROGRAM")
needs_program = pytest.mark.skipif(not PROGRAM, reason="AVRORA_PROGRAM names no program")
needs_compiler = pytest.mark.skipif(not shutil.which("avr-gcc"), reason="needs avr-gcc (Debian's gcc-avr)")

needs_gdb = pytest.mark.skipif(not shutil.which("avr-gdb"), reason="avr-gdb is not installed (Debian's gdb-avr)")

UINT8 = Renamed("uint8_t", Base("unsigned char", 1, 0x08))
INT16 = Base("int", 2, 0x05)
CHAR = Base("char", 1, 0x06, True)
RECORD = Structure("record", 3, (Member("kind", 0, UINT8), Member("value", 1, INT16)))


class NoMemory:
    def read(self, address, size):
        return bytes(size)

    def object_at(self, address):
        return "queue[1].value" if address == 0x104 else None

    def function_at(self, word):
        return "send" if word == 0x80 else None


@pytest.mark.parametrize(
    "type_, data, text",
    [
        (UINT8, "FE", "254"),
        (INT16, "FEFF", "-2"),
        (CHAR, "41", "65 'A'"),
        (CHAR, "07", "7"),
        (Base("_Bool", 1, 0x02), "01", "true"),
        (Base("float", 4, 0x04), "0000C03F", "1.5"),
        (Base("float", 4, 0x04), "CDCCCC3D", "0.100000001"),  # as many digits as tell it from its neighbours
        (Base("float", 4, 0x04), "000080FF", "-inf"),
        (Base("float", 4, 0x04), "0000C0FF", "-nan(0x400000)"),
        (Base("double", 8, 0x04), "333333333333D33F", "0.29999999999999999"),
        (Base("_Accum", 4, 0x0D), "00C00000", "1.5 (raw 49152)"),
        (Base("short _Fract", 1, 0x0D), "C0", "-0.5 (raw -64)"),
        (Base("unsigned long _Accum", 8, 0x0E), "0000008002000000", "2.5 (raw 10737418240)"),
        (Base("long long _Accum", 8, 0x0D), "000000000000FEFF", "-4 (raw -562949953421312)"),
        (Base("complex", 8, 0x03), "0000803F00000040", "00 00 80 3F 00 00 00 40"),
        (Enumeration("enum", 2, ((-3, "LOW"), (0, "FIRST"))), "FDFF", "LOW"),
        (Enumeration("enum", 2, ((-3, "LOW"), (0, "FIRST"))), "FEFF", "-2"),
        (Enumeration("enum", 1, ((1, "A"), (2, "B"), (4, "C"))), "05", "(A | C)"),
        (Enumeration("enum", 1, ((1, "A"), (2, "B"))), "0A", "(B | unknown: 0x8)"),
        (Enumeration("enum", 1, ((0, "A"), (3, "B"))), "02", "2"),
        (Enumeration("enum", 2, ((1, "A"), (1, "ALSO"))), "0100", "A"),
        # bits 5 to 10 of two bytes; one with a sign; one that is an enumeration
        (Structure("s", 2, (Member("a", 0, UINT8, 5, 0), Member("b", 0, UINT8, 6, 5))), "B105", "{a 17, b 45}"),
        (Structure("s", 2, (Member("d", 0, INT16, 3, 2),)), "1800", "{d -2}"),
        (Structure("s", 1, (Member("e", 0, Enumeration("e", 2, ((2, "TWO"),)), 2, 1),)), "04", "{e TWO}"),
        (Structure("s", 9, (Member("f", 0, Base("long long", 8, 0x05), 64, 3),)), "F8FFFFFFFFFFFFFF07", "{f -1}"),
        (Enumeration("enum", 2, ((0, "FIRST"), (1, "SECOND"))), "0100", "SECOND"),
        (Enumeration("enum", 2, ((0, "FIRST"),)), "0900", "(unknown: 0x9)"),
        (Pointer("uint8_t *", False), "0401", "0x0104 &queue[1].value"),
        (Pointer("uint8_t *", False), "0002", "0x0200"),
        (Pointer("function *", True), "8000", "0x0080 send"),
        (Pointer("uint8_t *", False), "0000", "0"),
        (Array(UINT8, 6), "010000000002", "{1, 0 x 4, 2}"),
        (Array(CHAR, 6), "6F6B0A000000", '"ok\\n"'),
        (Array(CHAR, 3), "000000", "{0 x 3}"),
        (Array(Array(INT16, 2), 2), "0100020003000400", "{{1, 2}, {3, 4}}"),
        (RECORD, "07FFFF", "{kind 7, value -1}"),
        (
            Structure("flags", 1, (Member("low", 0, UINT8, 3, 0), Member("high", 0, UINT8, 5, 3))),
            "AC",
            "{low 4, high 21}",
        ),
    ],
)
def test_values(type_, data, text):
    assert type_.shown(bytes.fromhex(data), NoMemory()) == text


def test_the_name_of_an_array_of_arrays():
    assert Array(Array(INT16, 3), 2).name == "int[2][3]"


@needs_gdb
@needs_compiler
@needs_module("elftools", "python3-pyelftools")
def test_drawn_types_are_told_as_gdb_tells_them(tmp_path):
    assert drawn_types.differences(120, SEED, tmp_path) == []


def test_places_in_a_variable():
    queue = Array(RECORD, 4)
    assert place_in(queue, 0) == "[0].kind"
    assert place_in(queue, 7) == "[2].value"
    assert place_in(queue, 8) == "[2].value+1"
    assert place_in(UINT8, 0) == ""


def test_texts_and_runs():
    assert text_of(b'a"\x00\x00') == '"a\\""'
    assert text_of(b"\x80\x00") is None and text_of(b"") is None
    assert taken_together(["1"] * 3 + ["2"]) == ["1 x 3", "2"]
    assert taken_together([str(i) for i in range(30)])[-1] == ".. 6 more"


def test_the_lowest_byte_that_was_written():
    data = bytearray(DATA_END)
    assert lowest_used(data, 0x110) is None
    data[0x10F] = data[0x10FF] = data[0x10F0] = 1
    assert lowest_used(data, 0x110) == 0x10F0


SOURCE = """
#include <avr/interrupt.h>
#include <avr/io.h>
#include <avr/sleep.h>
enum state { IDLE, BUSY };
struct item { uint8_t kind; int16_t value; struct item *next; };
struct item items[2] = { { 7, -300, 0 }, { 9, 1234, &items[0] } };
char greeting[8] = "ok\\n";
volatile enum state state = BUSY;
struct { uint8_t low : 3; uint8_t high : 5; } flags = { 5, 17 };
uint8_t table[2][3] = { { 1, 2, 3 }, { 4, 5, 6 } };
struct item *volatile chosen = &items[1];
void leaf(void);
void (*volatile handler)(void) = leaf;
float ratio = 1.5;
static uint8_t *volatile inside = &table[1][1];
volatile uint8_t sink;
void __attribute__((noinline)) leaf(void) { for (uint8_t i = 0; i < 40; i++) sink += i; }
void __attribute__((noinline)) frame(uint8_t n) { volatile uint8_t local[20]; local[n] = n; leaf(); sink += local[n]; }
void __attribute__((noinline)) outer(uint8_t n) { static uint8_t calls = 3; calls++; frame(n); handler();
  sink += calls + n; }
ISR(TIMER1_COMPA_vect) { frame(3); }
ISR(TIMER0_COMP_vect) { sink++; }
int main(void)
{
    UCSR0B = _BV(RXEN0);
    loop_until_bit_is_set(UCSR0A, RXC0);
    OCR1A = 730; TIMSK = _BV(OCIE1A) | _BV(OCIE0); TCCR1B = _BV(WGM12) | _BV(CS10);
    OCR0 = 200; TCCR0 = _BV(WGM01) | _BV(CS01);
    sei();
    for (;;) outer(2);
}
"""


@pytest.fixture(scope="module")
def built(tmp_path_factory):
    """What makes an ELF file and an image with some flags of the compiler."""
    folder = tmp_path_factory.mktemp("program")
    (folder / "p.c").write_text(SOURCE)

    def build(*flags):
        subprocess.run(
            ["avr-gcc", "-mmcu=atmega128", "-Os", "-gdwarf-2", *flags, "p.c", "-o", "p.elf"], cwd=folder, check=True
        )
        subprocess.run(
            ["avr-objcopy", "-j", ".text", "-j", ".data", "-O", "ihex", "p.elf", "p.hex"], cwd=folder, check=True
        )
        return folder / "p.elf"

    return build


def scenario_of(elf, at, window=(0, 0)):
    """A scenario whose program starts its timers behind cycle `at`."""
    path = elf.with_name("p.toml")
    path.write_text(
        f'version = 3\ncycles = 300_000\nwindow = [{window[0]}, {window[1]}]\nnode = [{{ image = "p.hex" }}]\n'
        f'input = [{{ node = 0, at = {at}, hex = "00" }}]\n'
    )
    return path


def run(elf, *words):
    done = subprocess.run([PROGRAM, *words], cwd=elf.parent, capture_output=True, text=True, check=True)
    return done.stdout


@needs_program
@needs_compiler
def test_variables_of_a_program(built):
    from avrora_tools.inspection import View
    from avrora_tools.programs import Program

    elf = built()
    node = State.of_text(run(elf, "save", scenario_of(elf, 2_000).name, "1"), "s").nodes[0]
    lines = {
        line.split(" = ")[0].split()[-1]: line.split(" = ")[1]
        for line in View(Program(str(elf))).global_lines(node, ["*"])
    }
    items = r"\{kind 7, value -300, next 0\}, \{kind 9, value 1234, next 0x\w{4} &items\[0\]\.kind\}"
    assert re.fullmatch(rf"\{{{items}\}}", lines["items"])
    assert lines["greeting"] == '"ok\\n"'
    assert lines["state"] == "BUSY"
    assert lines["flags"] == "{low 5, high 17}"
    assert lines["table"] == "{{1, 2, 3}, {4, 5, 6}}"
    assert re.fullmatch(r"0x\w{4} &items\[1\]\.kind", lines["chosen"])
    assert re.fullmatch(r"0x\w{4} &table\[1\]\[1\]", lines["inside"])
    assert re.fullmatch(r"0x\w{4} leaf", lines["handler"])
    assert lines["ratio"] == "1.5"
    assert "outer.calls" in lines


PHASES = 40


def stack_of(trace, first):
    """The return addresses on the stack at the end of a trace that begins in cycle `first`, the inner one first; those
    that were pushed before are not known."""
    stack = []
    rows = [line.split(" ", 3) for line in trace.splitlines()]
    rows = [row for row in rows if row[2] in ("instr", "enter") and int(row[0]) >= first]
    for row, after in zip(rows, rows[1:] + [None]):
        if row[2] == "enter":
            stack.append(int(row[3][5:], 16))
            continue
        address, text = int(row[3][:4], 16), row[3][5:]
        if text.startswith(("call", "rcall", "icall")):
            stack.append(address + (2 if text.startswith("call") else 1))
        elif text in ("ret", "reti") and stack:
            stack.pop()
    return stack[::-1]


@needs_program
@needs_compiler
@pytest.mark.parametrize(
    "flags, least", [([], 32), (["-O0"], 32), (["-mcall-prologues"], 20)], ids=["-Os", "-O0", "-mcall-prologues"]
)
def test_call_chains_are_those_of_the_trace(built, flags, least):
    """At the end of the first epoch, for many phases of the timers: no function is wrong, and most chains are whole."""
    from avrora_tools.inspection import View
    from avrora_tools.programs import Program

    elf = built(*flags)
    unwinder = View(Program(str(elf))).unwinder
    whole, depths = 0, set()
    for at in range(2_000, 2_000 + PHASES * 37, 37):
        state = run(elf, "save", scenario_of(elf, at).name, "1")
        trace = run(elf, "head", scenario_of(elf, at, (242_200, 262_144)).name, "1")
        wanted = stack_of(trace, 242_200)
        chain = unwinder.chain(State.of_text(state, "s").nodes[0])
        found = [frame.word for frame in chain.frames[1:]]
        both = min(len(found), len(wanted))
        assert (
            found[:both] == wanted[:both]
        ), f"{at}: {[f'{word:04X}' for word in found]}, {[f'{word:04X}' for word in wanted]}"
        whole += len(found) >= len(wanted) and not chain.end
        depths.add(len(found))
    assert whole >= least and max(depths) >= 2


@needs_program
@needs_compiler
def test_the_tool_shows_them(built):
    elf = built()
    state = elf.with_name("p.state")
    state.write_text(run(elf, "save", scenario_of(elf, 2_000).name, "1"))
    words = ("inspect", "-s", str(elf.with_name("p.toml")), "-e", str(elf))
    status, out, err = run_tool(*words, "-g", "state", "-g", "*.calls", str(state))
    assert (status, err) == (0, "")
    assert re.search(r"^  01\w\w state state = BUSY$", out, re.M) or re.search(
        r"^  01\w\w enum state = BUSY$", out, re.M
    )
    assert re.search(r"^  01\w\w uint8_t outer\.calls = \d+$", out, re.M)
    assert re.search(
        r"^  stack low  reached 10\w\w at least; [\d,]+ bytes left above the variables, which end at 01\w\w$", out, re.M
    )
    assert run_tool("inspect", "-g", "state", str(state))[0] == 2  # no program
    assert run_tool("inspect", "-e", str(elf), "-g", "stat", str(state))[0] == 2  # no such variable


def state_of(elf, path=None):
    """The state of a program at the end of the first epoch; its file, and the scenario's."""
    toml = scenario(elf.with_suffix(".hex").name, path or elf.with_suffix(".toml"))
    state = elf.with_suffix(".state")
    state.write_text(run(elf, "save", toml.name, "1"))
    return str(state), str(toml)


@needs_program
@needs_compiler
@pytest.mark.parametrize("flag", ["-O0", "-Os"])
def test_a_chain_goes_on_behind_calls_that_do_not_return(tmp_path, flag):
    elf = compiled("panic.c", tmp_path, flag)
    state, toml = state_of(elf)
    status, out, err = run_tool("inspect", "-s", toml, "-e", str(elf), state)
    assert (status, err) == (0, "")
    assert re.findall(r"^  called by  [0-9A-F]{4} (\w+)\+", out, re.M) == ["check", "b", "a", "main"]
    assert "no further" not in out


DEEP = """
#include <stdint.h>
volatile uint8_t depth, first[%d], big[%d];
void __attribute__((noinline)) down(uint8_t n) { depth = n; if (n) down(n - 1); else for (;;) depth++;
  asm volatile(""); }
int main(void) { first[0] = 1; down(%d); for (;;); }
"""


def deep(tmp_path, first, big, depth, flag="-O0"):
    (tmp_path / "deep.c").write_text(DEEP % (first, big, depth))
    elf = compiled(tmp_path / "deep.c", tmp_path, flag)
    state, toml = state_of(elf)
    status, out, err = run_tool("inspect", "-s", toml, "-e", str(elf), state)
    assert (status, err) == (0, "")
    return out, State.load(state).nodes[0]


@needs_program
@needs_compiler
def test_equal_lines_of_a_chain_are_one(tmp_path):
    out, _ = deep(tmp_path, 1, 1, 44)
    assert re.search(
        r"^  called by  [0-9A-F]{4} down\+\S+ deep.c:4, 44 times\n  called by  [0-9A-F]{4} main\+", out, re.M
    )


@needs_program
@needs_compiler
def test_a_stack_within_the_variables_is_an_overflow(tmp_path):
    out, node = deep(tmp_path, 100, 3_700, 200)
    end = 0x100 + 1 + 100 + 3_700
    told = re.search(
        r"^  stack      OVERFLOW: SP lies in `big`, ([\d,]+) bytes below the end of the variables, (....)$", out, re.M
    )
    assert told and int(told[1].replace(",", "")) == end - node["SP"] - 1 and int(told[2], 16) == end
    assert "bytes left above" not in out and "nothing is left above them" in out


@needs_program
@needs_compiler
def test_a_program_that_is_not_that_of_the_state_is_refused_or_warned_of(tmp_path):
    elf = compiled("panic.c", tmp_path, "-O0")
    state, _ = state_of(elf)
    status, _, err = run_tool("inspect", "-e", str(elf), state)
    assert status == 0 and "nothing tells whether this is the program that was run: -s compares it" in err
    assert run_tool("inspect", "--force", "-e", str(elf), state)[::2] == (0, "")
    (tmp_path / "other.c").write_text("int main(void) { for (;;); }")
    other = compiled(tmp_path / "other.c", tmp_path, "-Os")
    status, out, err = run_tool("inspect", "-e", str(other), state)
    assert (status, out) == (2, "") and re.search(
        r"not the program of node 0 in .*, where the program has no instruction", err
    )


@needs_program
@needs_compiler
def test_statics_of_inlined_functions_have_the_name_of_theirs(tmp_path):
    (tmp_path / "inlined.c").write_text(
        "#include <stdint.h>\nvolatile uint8_t sink;\n"
        "static inline __attribute__((always_inline)) uint8_t next(void) { static uint8_t count = 7; return ++count; "
        "}\n"
        "int main(void) { sink = next(); sink = next(); for (;;); }\n"
    )
    elf = compiled(tmp_path / "inlined.c", tmp_path, "-Os")
    state, toml = state_of(elf)
    out = run_tool("inspect", "-s", toml, "-e", str(elf), "-g", "*count*", state)[1]
    assert re.findall(r"^  01\w\w (.*)$", out, re.M) == ["uint8_t next.count = 9"]
