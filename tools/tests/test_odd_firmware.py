"""Firmware of rare forms: every move against the classes of a sweep, and what tools tell of rows against the rows.
`odd_firmwares.py` does so for all of them."""
import random

import pytest

from firmware import needs_compiler, needs_program
from odd_firmwares import NAMES, classes, recounts
from support import SEED

pytestmark = [needs_program, needs_compiler]

DRAWN = random.Random(SEED).sample(NAMES, 3)


@pytest.mark.parametrize("place", range(3))
def test_each_move_of_a_class_makes_one_execution(tmp_path, place):
    wrong, said = classes(DRAWN[place], SEED, tmp_path)
    assert not wrong, f"AVRORA_SEED={SEED}: {said}"


@pytest.mark.parametrize("place", range(3))
def test_what_is_told_is_what_the_rows_say(tmp_path, place):
    pytest.importorskip("elftools", reason="needs pyelftools (Debian's python3-pyelftools)")
    assert recounts(DRAWN[place], SEED, tmp_path) == [], f"AVRORA_SEED={SEED}"


@pytest.mark.parametrize("name", ["labelled", "routines"])
def test_a_label_and_room_on_the_stack_are_no_functions_and_calls(tmp_path, name):
    pytest.importorskip("elftools", reason="needs pyelftools (Debian's python3-pyelftools)")
    assert recounts(name, SEED, tmp_path) == [], f"AVRORA_SEED={SEED}"
