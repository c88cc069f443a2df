"""Which runs one process makes, and what it wrote of each."""
import time

import pytest

from avrora_tools.errors import CannotWork
from avrora_tools.sweeping.simulation import NO_WINDOW, Simulator, batches, pieces


def jobs(*moves, window=NO_WINDOW):
    return [(move, window) for move in moves]


def test_batches_grow_up_to_the_most():
    sizes = [len(values) for _, _, values in batches(jobs(*((i,) for i in range(20))), 8)]
    assert sizes == [1, 2, 4, 8, 5]


def test_a_batch_has_one_window_and_one_value_of_the_events_before():
    found = list(batches(jobs((1, 5), (2, 6), (2, 7)) + jobs((2, 8), window=(3, 4)), 8))
    assert found == [((1,), NO_WINDOW, [5]), ((2,), NO_WINDOW, [6, 7]), ((2,), (3, 4), [8])]


def test_batches_take_no_more_than_is_asked_for():
    taken = []

    def moves():
        for i in range(10):
            taken.append(i)
            yield (i,), NO_WINDOW

    some = batches(moves(), 4)
    assert next(some)[2] == [0] and next(some)[2] == [1, 2]
    assert len(taken) <= 3


def test_a_run_ends_with_the_end_row_of_its_last_node():
    one, two = b"5 0 serial 41\n9 0 end 3 asleep\n9 1 end 4 running\n", b"9 0 end 3 asleep\n9 1 end 5 running\n"
    assert pieces(one + two, 2, 2) == [one, two]
    with pytest.raises(CannotWork):
        pieces(one + two[:-5], 2, 2)
    with pytest.raises(CannotWork):
        pieces(one, 2, 2)


def test_a_run_that_takes_too_long_ends_with_what_it_started(tmp_path):
    script = tmp_path / "avrora"
    script.write_text("#!/bin/sh\nsleep 1000\n")
    script.chmod(0o755)
    simulator = Simulator(str(script), str(tmp_path), 0.5)
    begun = time.monotonic()
    with pytest.raises(CannotWork, match="more than 0.5 seconds"):
        simulator.call("run", "--plain", "a.toml")
    assert time.monotonic() - begun < 500 and not simulator.groups.running
