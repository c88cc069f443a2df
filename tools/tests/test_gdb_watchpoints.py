"""Watchpoints of avr-gdb, both ways, against the stores of the trace and the states about them."""
import re
import subprocess

from test_gdb import folder, gdb, needs_all, past, stands, traced  # noqa: F401


def stores_of(past, node, name, folder):
    """The cycles in which a node stores a byte of a variable by its address, of the trace, another than it had
    before."""
    symbols = subprocess.run(["avr-nm", "packet.elf"], cwd=folder, capture_output=True, text=True, check=True).stdout
    address = int(re.search(rf"^00(80\w+) . {name}$", symbols, re.M)[1], 16) - 0x800000
    rows = traced(past, 0, past.limit, "instr")
    cycles = [cycle for cycle, of, _, _, text in rows if of == node and text.startswith(f"sts 0x{address:04X}, ")]
    return [
        cycle for cycle in cycles if len({past.state(c).nodes[node].data[address] for c in (cycle, cycle + 1)}) == 2
    ]


@needs_all
def test_a_watchpoint_stops_behind_each_write_and_back_before_it(folder, past):
    stores = stores_of(past, 0, "has_whole", folder)
    assert len(stores) >= 4
    on = ["continue", "monitor cycle"] * 4
    back = ["reverse-continue", "monitor cycle"] * 4
    said = gdb(folder, "watch has_whole", *on, *back)
    assert stands(said) == [(cycle + 1, 0) for cycle in stores[:4]] + [
        (cycle, 0) for cycle in reversed(stores[:4])
    ], said
    olds = re.findall(r"Old value = (\w+)\nNew value = (\w+)", said)
    turns = [("false", "true"), ("true", "false")]
    assert olds == turns * 2 + [(new, old) for old, new in reversed(turns * 2)]


@needs_all
def test_a_watchpoint_is_of_the_node_that_is_shown(folder, past):
    first = stores_of(past, 1, "ticks", folder)[0]
    said = gdb(folder, "watch ticks", "continue", "monitor watches", "monitor cycle", node=1)
    assert "1 bytes from" in said and "of node 1" in said and stands(said) == [(first + 1, 1)], said


@needs_all
def test_a_watchpoint_with_a_condition_and_a_breakpoint_beside_it(folder, past):
    fifth = stores_of(past, 0, "ticks", folder)[4]
    said = gdb(folder, "watch ticks if ticks == 5", "continue", "monitor cycle")
    assert stands(said) == [(fifth + 1, 0)] and "New value = 5" in said, said
    whole = stores_of(past, 0, "has_whole", folder)[0]
    said = gdb(folder, "watch has_whole", "break put_decimal thread 1", "continue", "monitor cycle", "continue")
    assert stands(said) == [(whole + 1, 0)] and "Breakpoint 2" in said.split("monitor")[-1], said


@needs_all
def test_a_watchpoint_that_nothing_writes_ends_at_the_ends_of_the_run(folder):
    said = gdb(folder, "watch number", "monitor goto 40000", "maintenance flush register-cache", "continue", node=0)
    assert "No more reverse-execution history" in said and "Hardware watchpoint 1: number\n\nOld" not in said, said


@needs_all
def test_a_device_register_is_not_watched(folder):
    said = gdb(folder, "watch *(unsigned char *)0x800052", "continue")
    assert "Could not insert hardware watchpoint" in said or "can be watched" in said, said
