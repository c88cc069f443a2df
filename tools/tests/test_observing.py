"""Quantities, conditions and values in time, without a simulator. Names, addresses and types are those of
firmware/watched.c as its source has them; what it writes, in which order, stands there too."""
import random
import subprocess

import pytest

from support import SEED, TESTS
from avrora_tools.errors import BadInput, CannotWork
from avrora_tools.observing.conditions import Reader
from avrora_tools.observing.places import Change, Kind, Place, change_of, is_seen, text_of
from avrora_tools.observing.quantities import Names, Quantity
from avrora_tools.observing.searching import Judge, Watched
from avrora_tools.observing.settling import SETTLING, Moment, Settler
from avrora_tools.programs import Program
from avrora_tools.variables import UNSIGNED, UNSIGNED_CHAR, Base


@pytest.fixture(scope="module")
def names(tmp_path_factory):
    if not subprocess.run(["which", "avr-gcc"], capture_output=True, check=False).stdout:
        pytest.skip("needs avr-gcc (Debian's gcc-avr)")
    pytest.importorskip("elftools", reason="needs pyelftools (Debian's python3-pyelftools)")
    path = tmp_path_factory.mktemp("watched") / "watched.elf"
    words = ["avr-gcc", "-mmcu=atmega128", "-Os", "-gdwarf-2", f"{TESTS}/firmware/watched.c", "-o", str(path)]
    subprocess.run(words, check=True)
    return Names(Program(str(path)))


# ---- places


def test_places_are_written_in_order_and_once():
    places = [Place(1, Kind.AT, 0x10), Place(1, Kind.BYTE, 0x100), Place(0, Kind.BYTE, 0x5F), Place(1, Kind.AT, 0x10)]
    assert text_of(places) == "0 byte 005F\n1 byte 0100\n1 at 0010\n"


def test_no_place_and_too_many_are_refused():
    with pytest.raises(BadInput, match="nothing"):
        text_of([])
    with pytest.raises(BadInput, match="8,192"):
        text_of(Place(0, Kind.AT, word) for word in range(8_193))
    assert text_of(Place(0, Kind.AT, word) for word in range(8_192)).count("\n") == 8_192


def test_lines_of_changes():
    assert change_of("12 3 byte 0100 A0\n") == Change(12, Place(3, Kind.BYTE, 0x100), 0xA0)
    assert change_of("12 3 at 00A0\n") == Change(12, Place(3, Kind.AT, 0xA0), None)
    for line in ("12 3 byte 0100 A0", "12 3 byte 100 A0\n", "12 byte 0100 A0\n", "12 3 at 00A0 00\n", ""):
        with pytest.raises(CannotWork):
            change_of(line)


def test_which_bytes_can_be_watched():
    # registers; SP, SREG; PORTB keeps a byte; TCNT0 and UDR0 are devices; SRAM
    for address in (0, 0x1F, 0x5D, 0x5E, 0x5F, 0x38, 0x100, 0x10FF):
        assert is_seen(address)
    for address in (0x20, 0x52, 0x2C, 0x60, 0xFF, 0x1100):
        assert not is_seen(address)


# ---- quantities


def test_parts_of_variables(names):
    box = names.quantity("box.count").address
    assert names.quantity("box.level").address == box + 1 and names.quantity("box.level").size == 2
    assert names.quantity("box.row[1][2]").address == names.quantity("box.row[0][0]").address + 5
    low, high = names.quantity("box.low"), names.quantity("box.high")
    assert (low.bits, low.low_bit, high.bits, high.low_bit) == (3, 0, 5, 3) and low.address == high.address


def test_values_of_bytes(names):
    assert names.quantity("box.level").number(bytes([0xD4, 0xFE])) == -300
    assert names.quantity("box.high").number(bytes([17 << 3 | 5])) == 17
    assert names.quantity("box.low").number(bytes([17 << 3 | 5])) == 5
    assert names.quantity("ratio").number(bytes([0, 0, 0, 0x3F])) == 0.5
    assert names.quantity("box.state").shown(b"\x05", names.targets) == "BUSY"
    assert names.quantity("twice.last").size == 1


def test_a_pointer_is_shown_by_what_it_points_to(names):
    target = names.quantity("box.row[1][2]").address
    assert names.quantity("where").shown(
        target.to_bytes(2, "little"), names.targets
    ) == f"0x{target:04X} &box.row[1][2]"


def test_registers_and_bits(names):
    assert (names.quantity("PORTB").address, names.quantity("SP").size, names.quantity("r24").address) == (0x38, 2, 24)
    assert names.quantity("PORTB.5").number(bytes([0x20])) == 1
    assert names.quantity("PORTB.5").number(bytes([0xDF])) == 0
    assert names.quantity("SREG.I").number(bytes([0x80])) == 1
    assert Names(None).quantity("SREG.Z").number(bytes([0x02])) == 1


@pytest.mark.parametrize(
    "name, why",
    [
        ("nothing", "no variable `nothing`"),
        ("boxes", "is it `box`"),
        ("box", "such as `box.count`"),
        ("box.size", "no member `size`, but `count`"),
        ("box.row[2][0]", r"2 elements, from \[0\] on, and no \[2\]"),
        ("box.count.x", "has no part"),
        ("wide[0]", "has no part"),
        ("number", "optimised away|lies in registers or on the stack"),
        ("twice", "is a function"),
        ("PORTB.8", "has no part"),
        ("PORTB.bit8", "has no part"),
        ("box.", "a .member or an"),
        ("", "no variable"),
    ],
)
def test_what_has_no_value_of_its_own_is_refused_by_name(names, name, why):
    with pytest.raises(BadInput, match=why):
        names.quantity(name)


def test_without_a_program_there_are_registers_alone():
    with pytest.raises(BadInput, match="no program is known"):
        Names(None).quantity("wide")


def test_patterns(names):
    assert [one.name for one in names.matching("box.row[0]")] == ["box.row[0][0]", "box.row[0][1]", "box.row[0][2]"]
    assert {one.name for one in names.matching("PORT?")} == {f"PORT{letter}" for letter in "ABCDEFG"}
    found = {one.name for one in names.matching("*")}
    assert {"box.count", "wide", "twice.last", "box.high"} <= found and "PORTB" not in found
    with pytest.raises(BadInput, match=r"is called `zz\*`$"):
        names.matching("zz*")
    for pattern in ("box.row*", "box.row[1]*"):
        with pytest.raises(
            BadInput, match="; a pattern stands for names of variables, and not of their parts: `box` has all of them"
        ):
            names.matching(pattern)


# ---- conditions


def holds(names, text, **values):
    return Reader(names).read(text).holds({name.replace("__", "."): value for name, value in values.items()})


def test_conditions_of_c_and_of_python(names):
    for text in (
        "box.count <= 3 && wide != 0x10", "box.count <= 3 and not wide == 16", "!(box.count > 3 || wide == 020)"
    ):
        assert holds(names, text, box__count=3, wide=17), text
        assert not holds(names, text, box__count=4, wide=17), text
        assert not holds(names, text, box__count=3, wide=16), text


def test_numbers_are_those_of_c(names):
    assert holds(names, "box.level / 2 == -1", box__level=-3)  # towards 0
    assert holds(names, "box.level % 2 == -1", box__level=-3)
    assert not holds(names, "wide / 0 == box.level", wide=3, box__level=3)  # no number
    assert holds(names, "wide == 10UL", wide=10)
    assert holds(names, "box.count == 'A'", box__count=65)
    assert holds(names, "1 < wide < 3", wide=2) and not holds(names, "1 < wide < 3", wide=3)
    assert holds(names, "(wide >> 4 & 0xF) == 0xA", wide=0xA0)


def test_an_element_whose_number_is_worked_out(names):
    row = {f"box__row[{a}][{b}]": 10 * a + b for a in range(2) for b in range(3)}
    assert holds(names, "box.row[wide & 1][box.count - 1] == 12", wide=3, box__count=3, **row)
    assert not holds(names, "box.row[wide & 1][box.count - 1] == 12", wide=2, box__count=3, **row)
    assert not holds(names, "box.row[wide][0] == box.row[wide][0]", wide=2, **row)  # no such element


def test_enumerators_stand_for_their_numbers(names):
    assert holds(names, "box.state == BUSY", box__state=5)
    assert holds(names, "box.state != LOST", box__state=5)


@pytest.mark.parametrize(
    "text, why",
    [
        ("", "is not a condition"),
        ("1 < 2", "names no variable"),
        ("wide <", "is not a condition"),
        ("box.count >= 0", "holds whatever"),
        ("box.count > 255", "does not hold whatever"),
        ("box.low < 8", "holds whatever"),
        ("BUSY == 5", "names no variable"),
        ("wide == NOPE", "no variable `NOPE`$"),
        ("box.state == BUZY", "no variable `BUZY`; is it `BUSY`"),
        ("wibe == 1", "no variable `wibe`; is it `wide`"),
        ("where->count == 1", "`where` is a pointer, and pointers are not followed"),
        ("f(wide)", "has no place in a condition"),
        ("wide if wide else 1", "has no place in a condition"),
        ("wide in (1, 2)", "is not a condition"),
        ("box.row[1:2] == 1", "is not a name"),
        ("wide[wide] == 1", "is not an array"),
        ("box.row[wide] == 1", "name a part"),
        ("wide == 'AB'", "is neither a number nor a character"),
        ("wide == " + "1 + " * 400 + "1", "at most"),
        ("-" * 200 + "wide", "fifty parts|no condition"),
        ("wide << 70 == 1", "takes 0 to 63"),
        ("ratio << 1 == 0", "takes whole numbers"),
    ],
)
def test_what_no_value_can_change_is_refused(names, text, why):
    with pytest.raises(BadInput, match=why):
        Reader(names).read(text)


# ---- values in time


WIDE = Quantity("wide", 0x100, Base("uint16_t", 2, UNSIGNED))
BYTE = Quantity("byte", 0x102, Base("uint8_t", 1, UNSIGNED_CHAR))


def moments(*changes, torn=False):
    """The new values of two variables of node 0 that are 0 at first, as (cycle, name, number)."""
    settler = Settler({0: [WIDE, BYTE]}, {(0, 0): bytes(2), (0, 1): bytes(1)}, torn)
    found = settler.moments(Change(cycle, Place(0, Kind.BYTE, at), byte) for cycle, at, byte in changes)
    return [(one.cycle, one.quantity.name, one.quantity.number(one.held)) for one in found]


def test_a_value_of_two_bytes_is_one():
    assert moments((10, 0x101, 2), (12, 0x100, 1)) == [(12, "wide", 0x201)]


def test_torn_values_are_told_where_they_are_asked_for():
    assert moments((10, 0x101, 2), (12, 0x100, 1), torn=True) == [(10, "wide", 0x200), (12, "wide", 0x201)]


def test_a_value_that_stands_half_written_is_one():
    late = 10 + SETTLING + 1
    assert moments((10, 0x101, 2), (late, 0x100, 1)) == [(10, "wide", 0x200), (late, "wide", 0x201)]
    assert moments((10, 0x101, 2), (late - 1, 0x100, 1)) == [(late - 1, "wide", 0x201)]


def test_a_byte_that_changes_again_ends_the_value_before():
    changes = [(10 + 2 * number, 0x100, number + 1) for number in range(20)]
    assert moments(*changes) == [(cycle, "wide", byte) for cycle, _, byte in changes]


def test_of_values_written_soon_one_behind_another_each_is_whole():
    """wide = 0x00FF; wide = 0x0100; the upper byte of the first is there already."""
    assert moments((163, 0x100, 0xFF), (167, 0x101, 1), (169, 0x100, 0)) == [(163, "wide", 0xFF), (169, "wide", 0x100)]


def test_a_bit_field_over_two_bytes_is_one_value():
    """flags.wide = 300, from bit 2 on: one byte is stored for its lower bits, the other, and the first once more."""
    field = Quantity("flags.wide", 0x100, Base("uint16_t", 2, UNSIGNED), 10, 2)
    settler = Settler({0: [field, BYTE]}, {(0, 0): bytes(2), (0, 1): bytes(1)})
    stored = [(10, 0x100, 0xB0), (13, 0x101, 4), (14, 0x102, 1), (15, 0x102, 2), (16, 0x100, 0xB3), (90, 0x101, 0)]
    found = settler.moments(Change(cycle, Place(0, Kind.BYTE, at), byte) for cycle, at, byte in stored)
    told = [(one.cycle, one.quantity.name, one.quantity.number(one.held)) for one in found]
    assert told == [(14, "byte", 1), (15, "byte", 2), (16, "flags.wide", 300), (90, "flags.wide", 44)]


def test_values_come_in_order_of_cycle():
    assert moments((10, 0x101, 2), (11, 0x102, 7), (12, 0x100, 1), (13, 0x102, 8)) == [
        (11, "byte", 7),
        (12, "wide", 0x201),
        (13, "byte", 8),
    ]


def test_drawn_writes_of_whole_values_come_out_as_they_were_written():
    """Words and bytes are stored one behind another, each byte two cycles behind the one before; a third opinion is the
    list of what was stored."""
    draw = random.Random(SEED)
    for _ in range(200):
        cycle, held, changes, due = 5, {0x100: 0, 0x101: 0, 0x102: 0}, [], []
        for _ in range(draw.randrange(1, 30)):
            cycle += draw.choice([2, 3, 9, 40])
            if draw.random() < 0.5:
                value, places = draw.randrange(1 << 16), [0x101, 0x100] if draw.random() < 0.5 else [0x100, 0x101]
                bytes_ = {0x100: value & 0xFF, 0x101: value >> 8}
            else:
                value, places = draw.randrange(256), [0x102]
                bytes_ = {0x102: value}
            last = None
            for at in places:
                if held[at] != bytes_[at]:
                    held[at], last = bytes_[at], cycle
                    changes.append((cycle, at, held[at]))
                cycle += 2
            if last is not None:
                due.append((last, "wide" if len(places) == 2 else "byte", value))
            cycle += SETTLING + 1
        assert moments(*changes) == due, f"AVRORA_SEED={SEED}"


def test_a_judge_tells_each_turn(names):
    condition = Watched(0, Reader(names).read("box.count < 3"))
    one = names.quantity("box.count")
    judge = Judge([condition], {0: [one]}, {(0, 0): b"\x00"})
    settler = Settler({0: [one]}, {(0, 0): bytes(1)})
    changes = (
        Change(cycle, Place(0, Kind.BYTE, one.address), byte) for cycle, byte in ((5, 2), (9, 3), (12, 4), (20, 1))
    )
    turned = [(moment.cycle, value) for moment in settler.moments(changes) for _, value, _ in judge.take([moment])]
    assert judge.holds == [True] and turned == [(9, False), (20, True)]


def test_what_one_instruction_writes_is_judged_together(names):
    """MOVW writes two registers in one cycle: of the two values there is none that the node never had."""
    condition = Watched(0, Reader(names).read("r24 == r25"))
    registers = [names.quantity("r24"), names.quantity("r25")]
    judge = Judge([condition], {0: registers}, {(0, 0): b"\x07", (0, 1): b"\x07"})
    both = [Moment(9, 0, one, b"\x08", b"\x07") for one in registers]
    assert list(judge.take(both)) == []
    assert list(judge.take(both[:1])) == [] and judge.holds == [True]
    lower = Moment(12, 0, registers[1], b"\x01", b"\x08")
    assert list(judge.take([lower])) == [(0, False, lower)]
