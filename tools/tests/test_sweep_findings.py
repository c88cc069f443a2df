"""Findings are cut where what an arrival meets changes: the receiver, the flag I, the last writers; by hand."""
from avrora_tools.sweeping.arrivals import FLAG, RECEIVER, ArrivalClass, Place, Point, Start, classes
from avrora_tools.sweeping.findings import NEVER, Spots, findings
from avrora_tools.sweeping.plans import Cell
from avrora_tools.traces import Row

CODE = [
    (10, "0050 sts 0x0100, r24"),
    (12, "0052 out 0x0A, r24"),
    (13, "0053 lds r24, 0x0101"),
    (15, "0055 bclr 7"),
    (16, "0056 in r24, 0x0C"),
    (17, "0057 nop"),
]


def rows():
    return [Row(cycle, 0, "instr", text) for cycle, text in CODE]


def test_what_an_arrival_meets():
    found = classes(rows(), Start(0), 9, 14, 20, written={0x50: "queued"}).classes
    contexts = [(one.point.cycle, one.point.behind, dict(one.point.context)) for one in found if one.point]
    assert contexts == [
        (10, None, {FLAG: True}),
        (12, 0x50, {FLAG: True, "queued": 0x50}),
        (13, 0x52, {FLAG: True, "queued": 0x50, RECEIVER: 0x52}),
        (15, 0x53, {FLAG: True, "queued": 0x50, RECEIVER: 0x52}),
    ]
    (clear,) = [one.point for one in classes(rows(), Start(0), 15, 15, 20).classes]
    assert (clear.cycle, dict(clear.context)[FLAG]) == (16, False)


def cell(move, address, behind, **context):
    return Cell(
        (), ArrivalClass(range(move, move + 1), Point(move + 1, Place(address), tuple(context.items()), behind))
    )


def found(cells, handed_over=None):
    return findings(cells, dict.fromkeys(cells, "lost"), Spots(None), handed_over)


def test_a_byte_before_the_receiver_is_enabled_is_another_cause():
    cells = [cell(1, 0x50, 0x4F), cell(2, 0x51, 0x50), cell(3, 0x52, 0x51, RXEN=0x51), cell(4, 0x53, 0x52, RXEN=0x51)]
    one, two = found(cells)
    assert one.label == ((RECEIVER, NEVER),) and two.label == ((RECEIVER, 0x51),)
    assert (one.ends(), two.ends()) == ((0x4F, 0x51), (0x51, 0x53))


def test_another_last_writer_is_another_cause_unless_one_thing_is_used_at_both_ends():
    cells = [cell(1, 0x50, 0x4F, flag=0x40), cell(2, 0x51, 0x50, flag=0x50), cell(3, 0x52, 0x51, flag=0x50)]
    assert [len(it.failing) for it in found(cells)] == [1, 2]
    assert [len(it.failing) for it in found(cells, {0x4F: "queued", 0x52: "queued"})] == [3]
    assert [len(it.failing) for it in found(cells, {0x4F: "queued", 0x52: "flag"})] == [1, 2]


def test_visits_of_both_causes_are_two_findings():
    first = [cell(1, 0x50, 0x4F), cell(2, 0x50, 0x4F, RXEN=0x51)]
    second = [cell(11, 0x50, 0x4F), cell(12, 0x50, 0x4F, RXEN=0x51)]
    cells = [*first, cell(5, 0x60, 0x5F), *second]
    merged = findings(cells, {it: "lost" for it in first + second}, Spots(None))
    assert [[it.arrivals.moves[0] for it in one.failing] for one in merged] == [[1, 11], [2, 12]]
