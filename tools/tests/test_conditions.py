"""How conditions are read: what binds as in C, what no value can change; and when they turn, in a run that is known
byte by byte. Without a simulator and a compiler."""
import ast
import itertools
import math
import random
import re
import struct

import pytest

from avrora_tools import cases
from avrora_tools.drawings import Drawing, Lane
from avrora_tools.errors import BadInput
from avrora_tools.observing import tracks
from avrora_tools.observing.conditions import Reader, of_python
from avrora_tools.observing.places import Change, Kind, Place
from avrora_tools.observing.quantities import Names, Quantity
from avrora_tools.observing.running import Run
from avrora_tools.observing.searching import Watched, turns
from avrora_tools.states import NAMES, Node, State
from avrora_tools.variables import (
    FLOAT,
    NAMELESS,
    SIGNED_CHAR,
    UNSIGNED,
    UNSIGNED_CHAR,
    Array,
    Base,
    Member,
    Structure,
    place_in,
)
from support import SEED

U8, I8, U16 = Base("uint8_t", 1, UNSIGNED_CHAR), Base("int8_t", 1, SIGNED_CHAR), Base("uint16_t", 2, UNSIGNED)
PAIR = Structure("struct", 3, (Member("both", 0, U8, 4, 0), Member("rest", 0, U8, 4, 4), Member("in", 1, Array(I8, 2))))
EITHER = Structure("union", 3, (Member("first", 0, U8), Member(NAMELESS, 0, PAIR)))
VARIABLES = {
    "wide": Quantity("wide", 0x100, U16),
    "count": Quantity("count", 0x102, U8),
    "other": Quantity("other", 0x103, U8),
    "level": Quantity("level", 0x104, I8),
    "low": Quantity("low", 0x102, U8, 1, 0),
    "next": Quantity("next", 0x102, U8, 1, 1),
    "ratio": Quantity("ratio", 0x108, Base("float", 4, FLOAT)),
    "row": Quantity("row", 0x110, Array(Array(U8, 3), 2)),
    "box": Quantity("box", 0x130, Structure("struct box", 4, (Member("count", 0, U8), Member(NAMELESS, 1, EITHER)))),
    "turn": Quantity("turn", 0x140, Base("complex float", 8, 3)),
    **{name: Quantity(name, 0x120 + place, U8) for place, name in enumerate(("in", "is", "from"))},
}


class Plain(Names):
    """These names, without a program."""

    def head_of(self, name):
        head = re.split(r"[.\[]", name, maxsplit=1)[0]
        if head not in VARIABLES:
            raise BadInput(f"no variable {head}")
        return VARIABLES[head], len(head)


PLAIN = Plain(None)
ROW = [f"row[{a}][{b}]" for a in range(2) for b in range(3)]


def read(text):
    return Reader(PLAIN).read(text)


def holds(text, row=7, **values):
    return read(text).holds({**dict.fromkeys(ROW, row), **values})


def test_not_binds_as_in_c():
    """`!a == b` is `(!a) == b`; `not a == b` is `not (a == b)`, as Python has it."""
    assert holds("!count == 1", count=0) and not holds("!count == 1", count=2)
    assert holds("not count == 1", count=2)
    assert holds("!count & wide", count=0, wide=1)
    assert not holds("!count & wide", count=2, wide=1)
    assert holds("2 * !count + 1 == 3", count=0)
    assert holds("!!count == 1 && !-count == 0", count=7)
    assert holds("!row[1][2] && wide != 3", row=0, wide=1)
    assert holds("!(count > 3 || wide == 020)", count=3, wide=17)


@pytest.mark.parametrize(
    "text",
    [
        "wide & 1 == 0",
        "0 == wide & 1",
        "wide | count != 3 && wide",
        "wide ^ 1 < 5",
        "count < 3 == 1",
        "count == wide == 1",
        "1 < count > 3",
    ],
)
def test_what_c_reads_otherwise_is_refused(text):
    with pytest.raises(BadInput, match="parentheses"):
        read(text)


def test_parentheses_say_what_is_meant():
    assert holds("(wide & 1) == 0 && 0 == (wide & 2)", wide=4)
    assert holds("(count < 3) == 1", count=2)
    assert holds("wide & (1 == 1)", wide=1)
    assert holds("1 < count <= 3 && 5 >= wide > 2", count=3, wide=5)
    with pytest.raises(BadInput, match="`wide \\*\\* 2` has no place"):
        read("wide ** 2 == 4")


def test_what_is_no_number_fulfils_nothing():
    for text in ("row[wide][0] != 3", "row[wide][0]", "row[wide][0] && wide", "wide / (wide - 2) != 2"):
        assert not holds(text, wide=2), text
        assert holds(text, wide=1), text
    assert holds("!row[wide][0]", wide=2)


@pytest.mark.parametrize(
    "text",
    [
        "wide >= 0 || ratio > 1",
        "wide == wide || count == 1",
        "wide < 65536 && level > -129",
        "wide != 70000 || other",
        "wide * 2 <= 131070 || other",
        "wide % 10 < 10 || other",
        "(wide & 0xF) <= 15 && level < 128",
        "wide / 3 < 21846 || ratio > 1",
        "(wide | count) <= 65535 || other",
        "level * wide <= 8388480",
        "-wide <= 0 && ~wide < level + 129",
        "row[wide & 1][0] < 256",
        "(wide >> 8) <= 255 || other",
        "(wide << 4) <= 1048560 || other",
        "(level >> 2) >= -32 || wide",
        "(wide | 1) && (count | 4) >= 4",
    ],
)
def test_what_holds_of_all_of_many_values_is_refused(text):
    """Of more bits than are tried one by one."""
    with pytest.raises(BadInput, match=" holds whatever the values are"):
        read(text)
    with pytest.raises(BadInput, match="does not hold whatever the values are"):
        read(f"!({text})")


@pytest.mark.parametrize(
    "text, below, above",
    [
        ("ratio < 1.05", 1.04, 1.06),
        ("ratio < 0.05", 0.04, 0.06),
        ("ratio < .010", 0.009, 0.011),
        ("ratio < 1.010", 1.0, 1.1),
        ("ratio < 1.5e-05", 1.4e-5, 1.6e-5),
        ("ratio < 1e-010", 0.9e-10, 1.1e-10),
        ("ratio < 2e+010", 1.9e10, 2.1e10),
        ("ratio < 7.", 6.9, 7.1),
        ("ratio * 010 < 08.4", 1.04, 1.06),
        ("ratio < 010 - 6.95", 1.04, 1.06),
    ],
)
def test_digits_behind_a_point_are_not_octal(text, below, above):
    assert holds(text, ratio=below) and not holds(text, ratio=above)


def test_floats_have_four_bytes_as_those_of_avr_gcc():
    """The variable holds what the compiler makes of 0.1."""
    tenth = struct.unpack("<f", struct.pack("<f", 0.1))[0]
    assert holds("ratio == 0.1 && ratio * 3 == 0.3 + 1e-9", ratio=tenth)
    assert holds("row[0][0] + 16777210 == ratio", ratio=16777216.0) and not holds("ratio != 16777217", ratio=16777216.0)
    assert not holds("ratio == 0.1", ratio=0.1000001)
    assert holds("ratio * 1e30 * 1e30 > 1e38", ratio=1.0)


@pytest.mark.parametrize(
    "text", ["ratio % 2 < 1", "wide & ratio", "~ratio == 1", "(wide << 0.5) == 1", "ratio ^ 1.5 || wide"]
)
def test_what_takes_whole_numbers_is_refused_before_the_run(text):
    with pytest.raises(BadInput, match="takes whole numbers"):
        read(text)


@pytest.mark.parametrize("text", ["(row[wide][0] & 1) == 0", "row[wide][1] % 2 == 0", "(wide / (wide - 7) | 1) > 0"])
def test_bits_of_what_is_no_number_are_no_number(text):
    assert not holds(text, wide=7) and holds(f"!({text})", wide=7)


def test_nan_differs_from_each_number_as_in_c():
    """No number fulfils a comparison; C's NaN fulfils `!=`, and counts as true."""
    assert holds("ratio != 3 && ratio != ratio && ratio && !(ratio < 3)", ratio=math.nan)
    assert not holds("ratio == ratio || ratio < 3 || ratio * 2 >= 3 || !ratio", ratio=math.nan)
    assert not holds("ratio != ratio", ratio=1.5)
    read("wide != 3 || ratio != ratio")


def test_a_shift_by_more_than_a_number_has_bits_is_no_number():
    assert not holds("(1 << wide) >= 0", wide=64) and holds("(1 << wide) >= 0", wide=63)
    assert not holds("(wide >> level) >= 0", wide=5, level=-1)
    with pytest.raises(BadInput, match="takes 0 to 63"):
        read("wide << 64 == 0")


def test_characters_are_signed_as_those_of_avr_gcc():
    assert holds("level == '\\xFF' && level < 'A'", level=-1) and holds("level == '\\377'", level=-1)


def test_an_element_that_is_never_there_is_refused():
    for text in ("row[-1][0] == 3", "row[wide + 2][0] < 3", "row[1][3 + wide] != 0"):
        with pytest.raises(BadInput, match="none is ever of that number"):
            read(text)


def test_a_complex_number_is_not_one_number():
    with pytest.raises(BadInput, match="`turn` is of the type complex float, of which nothing is known"):
        read("turn == 1")
    assert PLAIN.matching("turn") == []


def test_names_that_python_has_for_other_things():
    assert holds("in == 3 && is != in && !from", **{"in": 3, "is": 4, "from": 0})
    with pytest.raises(BadInput, match="^`in` is a value"):
        read("in.x == 3")
    with pytest.raises(BadInput, match="is not a condition"):
        read("wide in row")


def test_members_of_what_has_no_name_are_named_as_in_c():
    first, rest, last = (PLAIN.quantity(f"box.{name}") for name in ("first", "rest", "in[1]"))
    assert (first.address, rest.address, rest.bits, rest.low_bit, last.address) == (0x131, 0x131, 4, 4, 0x133)
    names = ["box.count", "box.first", "box.both", "box.rest", "box.in[0]", "box.in[1]"]
    assert [it.name for it in PLAIN.matching("box")] == names
    assert read("box.in[1] == -2 && box.rest > box.both").named[0].name == "box.in[1]"
    assert [place_in(VARIABLES["box"].type, at) for at in (0, 1, 3)] == [".count", ".first", ".in[1]"]
    with pytest.raises(BadInput, match="no member `none`, but `count`, `first`, `both`, `rest`, `in`"):
        PLAIN.quantity("box.none")


def test_octal_numbers_are_those_of_c():
    assert holds("wide == 010 && count == 00 && wide != 10", wide=8, count=0)
    assert holds("wide == 017u && row[01][02] == 7", wide=15)
    assert of_python("PORTB.3 && q[1].5") == "PORTB.bit3  and  q[1].5"


def test_what_some_values_change_is_taken():
    for text in ("ratio == ratio || wide", "row[wide][0] < 256", "row[count][0] >= 0 && level", "wide / count >= 0"):
        read(text)


def test_ranges_have_all_that_a_term_may_be():
    """Terms by chance at the ends of their values, and between."""
    draw = random.Random(SEED)
    numbers = {"wide": [0, 1, 65535, 4096], "level": [-128, -1, 0, 127], "count": [0, 1, 255]}
    words = ["wide", "level", "count", "(wide - level)", "(wide & count)", "(wide ^ 3)", "-level", "~wide"]
    words += ["(wide % 9)", "level * count", "(wide >> 2)", "(level % 5)", "(wide | count)", "(level / 3)"]
    words += [
        "(level & wide)", "(level ^ count)", "(wide / 7)", "(level >> 3)", "(wide << 5)", "(level << 2)", "(wide | 5)"
    ]
    words += ["(1 << (count % 9))", "(level | count)", "(level >> (count & 7))"]
    both = 0
    for _ in range(400):
        sign = draw.choice(["<", "<=", ">", ">=", "==", "!="])
        text = f"{draw.choice(words)} {sign} {draw.choice([*words, '0', '65535', '-1', '300', '7'])}"
        text = draw.choice(["{0}", "!({0})", "{0} || count < 3", "{0} && wide < 9", "!({0}) + level"]).format(text)
        reader = Reader(PLAIN)
        reader.source = of_python(text).strip()
        term = reader.term(ast.parse(reader.source, mode="eval").body, 0)
        values = [dict(zip(numbers, found)) for found in itertools.product(*numbers.values())]
        assert all(term.range.low <= term.of(it) <= term.range.high for it in values), f"{text} AVRORA_SEED={SEED}"
        if len({term.is_true(it) for it in values}) == 2:
            both += 1
            assert not term.range.is_true() and not term.range.is_false(), f"{text} AVRORA_SEED={SEED}"
    assert both > 50


def test_a_condition_behind_never_is_no_row(tmp_path):
    path = tmp_path / "a.expect"
    texts = ["wide * 2 > 9", "(row[0][1] * 2) / 3 == 4", "3 * wide == 12", "count", "!count"]
    rows = ["0 * serial 72", "* 3 sent *", "5 {0,1} * 72", "0 3 * *", "9..12 0 instr 006E ldd r0, Y+3"]
    lines = ["run a.toml", *(f"never 0 {it}" for it in texts), *(f"never {it}" for it in rows)]
    path.write_text("\n".join(lines) + "\n")
    case = cases.read_case(str(path))
    assert [it.text for it in case.conditions] == texts
    assert [it.pattern.text for it in case.statements if isinstance(it, cases.Never)] == rows


# ---- when they turn

# `wide` gets 0x01FF about cycle 500, a byte on each side of it; two bits of one byte turn over; two bytes change at
# once.
CHANGED = [(499, 0x100, 0xFF), (501, 0x101, 1), (700, 0x102, 0b01), (800, 0x102, 0b10)]
CHANGED += [(900, 0x102, 0), (900, 0x103, 1)]


class Recorded(Run):
    """A run in which these bytes change."""

    def looked(self, cycle):
        sram = bytearray(0x1000)
        for at, where, byte in CHANGED:
            sram[where - 0x100] = byte if at < cycle else sram[where - 0x100]
        return State(cycle, [Node([0] * len(NAMES), bytes(0xE0), bytes(sram))], [])

    def changes(self, first, end, places):
        seen = {place.address for place in places}
        return (
            Change(at, Place(0, Kind.BYTE, where), byte)
            for at, where, byte in CHANGED
            if first <= at < end and where in seen
        )


def turned(text, first=0, end=1_000, torn=False):
    """When a condition turns, and whether it holds then."""
    found = turns(Recorded("", "", "", 1_000), [Watched(0, read(text))], first, end, torn)
    return [(where.cycle, now) for _, now, where in found]


def test_a_value_that_is_half_written_as_a_span_begins_is_the_old_one():
    assert turned("wide == 0xFF") == [(0, False)]
    assert turned("wide == 0xFF", first=500) == [(500, False)]
    assert turned("wide == 0", first=500) == [(500, True), (502, False)]
    assert turned("wide == 0x1FF", first=502) == [(502, True)]
    assert turned("wide == 0xFF", first=500, torn=True) == [(500, True), (502, False)]


class OfTracks:
    """A network of one node with these names."""

    def selected(self, words, nodes):
        return {node: [PLAIN.quantity(word) for word in words] for node in nodes}

    def names(self, node):
        return PLAIN


@pytest.mark.parametrize(
    "first, changes",
    [
        (0, [(0, "0"), (502, "511")]),
        (500, [(500, "0"), (502, "511")]),
        (501, [(501, "0"), (502, "511")]),
        (502, [(502, "511")]),
        (999, [(999, "511")]),
    ],
)
def test_a_track_begins_with_the_old_value_of_one_that_is_half_written(first, changes):
    drawing = Drawing(None, "x", first)
    drawing.lanes, drawing.last_cycle = {0: Lane()}, 999
    tracks.add_to(drawing, Recorded("", "", "", 1_000), OfTracks(), ["wide"])
    (track,) = drawing.lanes[0].tracks
    assert [(cycle, track.texts[place]) for cycle, place in track.changes()] == changes


def test_what_changes_in_one_cycle_changes_at_once():
    """One store turns two bits over: between them is not a cycle."""
    assert turned("low == next") == [(0, True), (701, False), (901, True)]
    assert turned("low != next", first=750) == [(750, True), (901, False)]
    assert turned("other || count", first=750) == [(750, True)]
    assert turned("other && !count", first=750) == [(750, False), (901, True)]


def test_what_changes_behind_a_span_does_not_count():
    assert turned("wide == 0", end=501) == [(0, True)]
    assert turned("wide == 0", end=502) == [(0, True), (502, False)]
    assert turned("count", first=1_000) == [(1_000, False)]


@pytest.mark.parametrize("look", [1, 500, 502, 700, 701, 702, 801, 900, 901, 999])
def test_a_look_within_a_span_has_the_values_of_its_cycle(look):
    """What a condition looks at changes while it holds, so the values of its last turn are old ones."""
    watched = Watched(0, read("count < 3 || other"))
    run = Recorded("", "", "", 1_000)
    looked = [where for _, _, where in turns(run, [watched], 0, 999, looks=[look]) if where.cycle == look]
    alone = next(where for _, _, where in turns(run, [watched], look, 999))
    assert [it.values for it in looked] == [alone.values] and len(set(alone.values)) == 2
    last = [at for at, where, _ in CHANGED if where in (0x102, 0x103) and at < look]
    assert (looked[0].moment.cycle if looked[0].moment else None) == (max(last) if last else None)
