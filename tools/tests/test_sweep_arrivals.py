"""Classes of arrivals, and the flag I, by rows that were written by hand after the instruction set manual and
docs/MACHINE.md."""
import pytest

from avrora_tools.sweeping.arrivals import Start, Watch, classes
from avrora_tools.sweeping.doubts import stack_doubt
from avrora_tools.sweeping.interrupts import Contradiction, InterruptFlag, changed_registers
from avrora_tools.traces import Row


def rows(text):
    """Rows of node 0: CYCLE ADDRESS INSTRUCTION, CYCLE enter VECTOR BACK, or CYCLE stop ADDRESS CAUSE."""
    found = []
    for line in text.strip().splitlines():
        cycle, word, rest = line.strip().split(" ", 2)
        kind, rest = (word, rest) if word in ("enter", "stop") else ("instr", f"{word} {rest}")
        found.append(Row(int(cycle), 0, kind, rest))
    return found


def found(text, first, last, start=Start(0), end=200):
    """The classes as (first move, last move, cycle where it is noticed, address there, asleep)."""
    return [
        (
            one.moves[0],
            one.moves[-1],
            one.point and one.point.cycle,
            one.point and one.point.place.address,
            one.point and one.point.place.asleep,
        )
        for one in classes(rows(text), start, first, last, end).classes
    ]


CODE = """
10 0050 lds r24, 0x0100
12 0052 nop
13 0053 rjmp .-6
15 0051 nop
"""


def test_with_interrupts_on_each_boundary_is_a_point():
    # An arrival in cycle 10 comes behind what the processor does in it, so it is noticed in cycle 12.
    assert found(CODE, 9, 14) == [
        (9, 9, 10, 0x50, False),
        (10, 11, 12, 0x52, False),
        (12, 12, 13, 0x53, False),
        (13, 14, 15, 0x51, False),
    ]


def test_with_interrupts_off_nothing_is_a_point_but_the_port_and_pointers():
    off = Start(0, True)
    assert found(CODE, 9, 14, off) == [(9, 14, None, None, None)]
    for text in (
        "in r24, 0x0C",
        "out 0x0A, r24",
        "sbis 0x0B, 7",
        "lds r24, 0x002B",
        "sts 0x0095, r24",
        "ld r24, X",
        "std Z+1, r24",
    ):
        assert found(CODE.replace("13 0053 rjmp .-6", f"13 0053 {text}"), 9, 14, off)[0] == (9, 12, 13, 0x53, False)
    for text in ("in r24, 0x0D", "sts 0x012B, r24", "lds r24, 0x0C2A", "sbi 0x1B, 2", "ldi r24, 0x0B"):
        assert found(CODE.replace("13 0053 rjmp .-6", f"13 0053 {text}"), 9, 14, off) == [(9, 14, None, None, None)]


def test_cli_and_sei_and_the_instruction_that_is_owed():
    text = """
    10 0050 bclr 7
    11 0051 nop
    12 0052 bset 7
    13 0053 nop
    14 0054 nop
    """
    # Between CLI and the instruction behind SEI nothing can be entered: the first point behind 10 is 14.
    assert found(text, 9, 13) == [(9, 9, 10, 0x50, False), (10, 13, 14, 0x54, False)]


def test_a_copy_of_sreg_is_followed_through_registers_and_the_stack():
    text = """
    9 004F bclr 7
    10 0050 in r24, 0x3F
    11 0051 push r24
    13 0052 nop
    14 0053 ldi r24, 0x00
    15 0054 pop r25
    17 0055 mov r20, r25
    18 0056 out 0x3F, r20
    19 0057 nop
    20 0058 nop
    """
    assert [one[2] for one in found(text, 9, 19)] == [None]  # OUT leaves I clear
    unknown = [one[2] for one in found(text.replace("mov r20, r25", "movw r24, r30"), 9, 19)]
    assert unknown == [20]  # what r20 has is not known, so it counts as one that turns I on, which owes an instruction


def test_a_copy_that_is_written_over_is_none():
    for name, operands, changed in (
        ("movw", ["r24", "r30"], {"r24", "r25"}),
        ("mul", ["r2", "r3"], {"r0", "r1"}),
        ("adiw", ["r30", "0x01"], {"r30", "r31"}),
        ("ld", ["r5", "X+"], {"r5", "r26", "r27"}),
        ("st", ["-Y", "r5"], {"r28", "r29"}),
        ("std", ["Z+3", "r5"], set()),
        ("lpm", [], {"r0"}),
        ("cpi", ["r24", "0x01"], set()),
        ("inc", ["r7"], {"r7"}),
    ):
        assert changed_registers(name, operands) == changed


def test_a_new_stack_pointer_forgets_the_stack():
    flag = InterruptFlag(True)
    for text in ("in r24, 0x3F", "push r24", "out 0x3D, r28", "pop r0", "out 0x3F, r0"):
        flag.execute(text)
    assert not flag.is_clear


def test_a_call_for_two_bytes_of_stack_is_counted():
    flag = InterruptFlag(True)
    for text in ("in r24, 0x3F", "push r24", "rcall .+0", "pop r0", "out 0x3F, r0"):
        flag.execute(text)
    assert not flag.is_clear  # r0 has a byte of the return address
    for text in ("pop r0", "pop r0", "out 0x3F, r0"):
        flag.execute(text)
    assert flag.is_clear


@pytest.mark.parametrize("store", ["st Z, r24", "std Y+1, r24", "st -X, r0"])
def test_behind_a_store_through_a_pointer_the_flag_and_its_copies_are_not_known(store):
    """It may write SREG (which owes an instruction), a register, or what lies on the stack."""
    flag = InterruptFlag(True)
    for text in ("in r24, 0x3F", "push r24", store):
        flag.execute(text)
    assert not flag.is_clear and not flag.may_enter()
    flag.execute("nop")
    assert flag.may_enter()
    for text in ("bclr 7", "pop r0", "out 0x3F, r0", "nop"):
        flag.execute(text)
    assert flag.may_enter()
    for text in ("bclr 7", "out 0x3F, r24", "nop"):
        flag.execute(text)
    assert flag.may_enter()


# A stack lies at the end of the SRAM, or where a program has put it.
@pytest.mark.parametrize("store", ["sts 0x10FE, r24", "sts 0x0100, r24", "sts 0x0018, r1"])
def test_a_store_to_the_stack_or_to_a_register_forgets_the_copy(store):
    flag = InterruptFlag(True)
    for text in ("in r24, 0x3F", "push r24", store, "mov r20, r24", *(["pop r20"] if "r24" in store else [])):
        flag.execute(text)
    flag.execute("out 0x3F, r20")
    assert not flag.is_clear
    flag = InterruptFlag(True)
    for text in ("in r24, 0x3F", "push r24", "sts 0x0090, r1", "pop r20", "out 0x3F, r20"):
        flag.execute(text)
    assert flag.is_clear


HANDLER = """
10 0050 nop
11 enter 0018 0051
15 0018 jmp 0x0060
18 0060 nop
19 0061 reti
23 0051 nop
24 0052 nop
"""


def test_an_entry_with_a_lower_vector_goes_first_and_a_handler_is_passed_in_one_class():
    # 11: vector 18 is due too and goes first. 23: RETI owes one instruction.
    assert found(HANDLER, 9, 23) == [(9, 9, 10, 0x50, False), (10, 23, 24, 0x52, False)]


def test_an_entry_with_a_higher_vector_would_wait():
    assert found(HANDLER.replace("enter 0018", "enter 0026"), 9, 10)[1] == (10, 10, 11, 0x51, False)


def test_a_class_knows_the_handler_that_is_interrupted():
    text = HANDLER.replace("18 0060 nop", "18 0060 bset 7").replace(
        "19 0061 reti", "19 0061 nop\n20 0062 nop\n21 0063 reti"
    )
    text = text.replace("23 0051", "25 0051").replace("24 0052", "26 0052")
    found_classes = classes(rows(text), Start(0), 15, 20, 100).classes
    assert [(one.point.cycle, one.point.place.handlers) for one in found_classes] == [(20, (0x18,)), (21, (0x18,))]


SLEEP = """
10 0050 bset 7
11 0051 sleep
17 enter 0018 0052
25 0018 jmp 0x0060
"""


def test_each_cycle_of_a_sleep_is_a_point_of_its_own():
    # The byte that comes in cycle 11 wakes the node in 12. In cycle 17 the timer is due too, and goes first.
    assert found(SLEEP, 11, 16) == [(x, x, x + 1, 0x52, True) for x in range(11, 16)] + [(16, 16, None, None, None)]


def test_a_sleep_with_interrupts_off_is_never_ended():
    assert found("10 0050 bclr 7\n11 0051 sleep", 11, 90, Start(0), 100) == [(11, 90, None, None, None)]


def test_a_sleep_to_the_end_of_the_rows():
    assert found("10 0050 nop\n11 0051 sleep", 20, 23, Start(0), 100) == [
        (x, x, x + 1, 0x52, True) for x in range(20, 24)
    ]


def test_a_span_that_begins_in_a_sleep_of_the_state():
    start = Start(100, asleep_at=0x77)
    assert found("", 102, 104, start) == [(x, x, x + 1, 0x77, True) for x in range(102, 105)]


def test_behind_a_stop_nothing_is_noticed():
    assert found("10 0050 nop\n11 stop 0051 adc", 9, 50) == [
        (9, 9, 10, 0x50, False),
        (10, 10, 11, 0x51, False),
        (11, 50, None, None, None),
    ]


def test_a_contradiction_makes_each_cycle_a_class():
    """An entry while I is said to be clear: what was concluded is wrong, so nothing is concluded."""
    text = "10 0050 bclr 7\n11 0051 nop\n13 enter 0018 0052\n17 0018 nop"
    with pytest.raises(Contradiction):
        list(Watch(Start(0)).points(rows(text), 200))
    doubt = classes(rows(text), Start(0), 10, 15, 200).doubt
    assert doubt.startswith(
        "node 0 enters TIMER1_COMPA_vect in cycle 13, where its flag I is clear by all that the rows tell"
    )
    assert [one[:3] for one in found(text, 10, 15)] == [(x, x, x + 1) for x in range(10, 16)]


def test_all_moves_are_in_one_class_each():
    for text in (CODE, HANDLER, SLEEP):
        moves = [x for one in classes(rows(text), Start(0), 5, 60, 80).classes for x in one.moves]
        assert moves == list(range(5, 61))


def test_a_doubt_makes_each_cycle_a_class_and_is_told():
    result = classes(rows(CODE), Start(0, True), 9, 14, 200, "the stack lies over registers")
    assert [list(one.moves) for one in result.classes] == [[x] for x in range(9, 15)]
    assert result.doubt == "the stack lies over registers"


def test_the_stores_behind_which_the_flag_is_not_known_are_told():
    text = "10 0050 bclr 7\n11 0051 st Z, r24\n13 0052 st Z, r24\n15 0053 bclr 7\n16 0054 std Z+1, r24"
    assert classes(rows(text), Start(0), 9, 20, 30).stores == {0x51, 0x54}


class AtSp(dict):
    """A node of a state, of which only the stack pointer is asked for."""


@pytest.mark.parametrize(
    "listing, doubt",
    [
        (["0000 ldi r28, 0xFF", "0001 ldi r29, 0x10", "0002 out 0x3E, r29", "0003 out 0x3D, r28"], None),
        (
            ["0000 ldi r28, 0x5F", "0001 eor r1, r1", "0002 out 0x3E, r1", "0003 out 0x3D, r28"],
            "high byte becomes 0 at 0002",
        ),
        (["0000 ldi r28, 0x5F", "0001 out 0x3D, r28", "0002 nop"], "low byte alone is written, at 0001"),
        (
            [
                "0000 in r28, 0x3D",
                "0001 in r29, 0x3E",
                "0002 sbiw r28, 0x04",
                "0003 out 0x3E, r29",
                "0004 out 0x3D, r28",
            ],
            None,
        ),
        (["0000 ldi r29, 0x00", "0001 lds r29, 0x0100", "0002 out 0x3E, r29", "0004 out 0x3D, r28"], None),
    ],
)
def test_constants_tell_where_a_stack_may_lie_over_registers(listing, doubt):
    said = stack_doubt(None, listing)
    assert said is None if doubt is None else doubt in said


def test_a_state_tells_where_a_stack_lies_over_registers():
    assert stack_doubt(AtSp(SP=0x10F0), []) is None and stack_doubt(AtSp(SP=0), []) is None
    assert stack_doubt(AtSp(SP=0x61), []) == "the stack pointer is 0061, so the stack lies over registers"
