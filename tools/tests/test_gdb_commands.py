"""Each command of gdb that docs/DEBUGGING.md lists, and each that it says is refused."""
import pytest

from gdb_driver import Gdb
from test_gdb import PROGRAM, folder, needs_all  # noqa: F401

# What is typed at a breakpoint in `receive` (packet.c:28), with a part of what gdb shows then.
WORKS = [
    ("delete;tbreak put;continue", "hit Temporary breakpoint"),
    ("hbreak packet.c:58;continue", "hear () at packet.c:58"),
    ("condition $bpnum byte == 3;continue", "receive (byte=3 "),
    ("ignore $bpnum 2;continue;info breakpoints", "already hit 4 times"),
    ("break put thread 1;continue;continue", "Breakpoint"),
    ("step", "packet.c:30|30\t"),
    ("next", "30\t"),
    ("stepi", "0x"),
    ("nexti", "0x"),
    ("finish", "Run till exit"),
    ("until", "30\t"),
    ("advance 60", "60\t"),
    ("next;reverse-next", "28\t"),
    ("step;reverse-step", "28\t"),
    ("stepi;reverse-stepi", "28\t"),
    ("nexti;reverse-nexti", "28\t"),
    ("reverse-finish", "Run till exit|Breakpoint"),
    ("continue;reverse-continue", ", receive (byte=170"),
    ("backtrace", "#1  hear"),
    ("frame 1", "hear ()"),
    ("info locals", "No locals|="),
    ("print coming", "payload"),
    ("x/4xb &coming", "0x8001"),
    ("display ticks;next", "= "),
    ("disassemble", "=> 0x"),
    ("info registers r24 SREG SP pc", "SREG"),
    ("info threads", "node 2"),
    ("thread apply all print ticks", "$3 = "),
    ("delete;watch got;continue", "New value"),
    ("delete;watch got if got == 2;continue;print got", "= 2 "),
    ("set scheduler-locking on;continue", "Thread 1 "),
    ("monitor bookmark here;continue;monitor goto here", "cycle "),
    ("kill", "killed"),
    ("detach", "Detaching|detached"),
]

REFUSED = [
    ("set var got = 9", "a run is a fact"),
    ("set var got = 9", "Cannot access memory"),
    ("set var $r24 = 9", "a run is a fact"),
    ("call put(0)", "a run is a fact"),
    ("jump main", "a run is a fact"),
    ("load", "Load failed"),
    ("rwatch ticks;continue", "only writes can be watched"),
    ("awatch ticks;continue", "delete this watchpoint"),
    ("watch *(unsigned char *)0x800052;continue", "can be watched"),
    ("watch *(char(*)[100])0x800100;continue", "at most 64 bytes"),
    ("rwatch ticks;continue", "Could not insert hardware watchpoint"),
    ("awatch ticks;continue", "Could not insert hardware watchpoint"),
    ("watch *(unsigned char *)0x800052;continue", "Could not insert hardware watchpoint"),
    ("watch *(char(*)[100])0x800100;continue", "Could not insert hardware watchpoint"),
    ("checkpoint", "Undefined command"),
    ("record", "support record"),
    ("run", "does not support"),
]


@pytest.fixture(scope="module")
def begun(folder):  # noqa: F811
    """A gdb, which connects anew for each test."""
    with Gdb(folder, "packet.elf") as one:
        one.type("set confirm off")
        yield one


def typed(one, folder, commands):  # noqa: F811
    """What gdb says to the last of some commands, at a breakpoint."""
    one.type("delete")
    one.connect("packet.toml", PROGRAM, "--at", "200_000")
    one.type("break receive")
    one.type("continue")
    for command in commands.split(";"):
        said = one.type(command)
    one.type("set scheduler-locking off")
    one.type("disconnect")
    return "".join(said.lines)


@needs_all
@pytest.mark.parametrize("commands, wanted", WORKS)
def test_what_works(begun, folder, commands, wanted):  # noqa: F811
    said = typed(begun, folder, commands).replace("\\t", "\t")
    assert any(part in said for part in wanted.split("|")), said
    assert "^error" not in said


@needs_all
@pytest.mark.parametrize("commands, wanted", REFUSED)
def test_what_is_refused(begun, folder, commands, wanted):  # noqa: F811
    said = typed(begun, folder, commands)
    assert wanted in said and "^error" in said, said
