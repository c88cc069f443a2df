"""That the mutants of the readers, which run outside the gate, are still mutants of what is there."""
import pytest

from mutants import MUTANTS
from support import TOOLS


@pytest.mark.parametrize("mutant", MUTANTS, ids=lambda mutant: mutant.name)
def test_what_a_mutant_changes_stands_there_once(mutant):
    with open(f"{TOOLS}/avrora_tools/{mutant.module}.py", encoding="utf-8") as file:
        assert file.read().count(mutant.right) == 1 and mutant.right != mutant.wrong


def test_each_has_a_name_of_its_own():
    assert len({mutant.name for mutant in MUTANTS}) == len(MUTANTS) == 73
