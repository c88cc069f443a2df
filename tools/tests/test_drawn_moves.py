"""Every move of firmware that is drawn anew, against the classes of a sweep; `drawn_moves.py` does so for more."""
import random

import pytest

from drawn_moves import mixed
from firmware import needs_compiler, needs_program
from support import SEED

pytestmark = [needs_program, needs_compiler]


@pytest.mark.parametrize("number", range(5))
def test_each_move_of_a_class_makes_one_execution(tmp_path, number):
    wrong, said = mixed(random.Random(f"{SEED} {number}"), tmp_path)
    assert not wrong, f"AVRORA_SEED={SEED}: {said}\n{(tmp_path / 'moved.c').read_text()}"
