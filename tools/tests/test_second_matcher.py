"""Cases of `expect` that are drawn anew, against a second matcher; `second_matcher.py` does so for more."""
import pytest

from second_matcher import differences, row_matches
from support import SEED


def test_drawn_cases_have_one_verdict_by_both(tmp_path):
    found, seen = differences(600, SEED, tmp_path)
    assert not found, f"AVRORA_SEED={SEED}\n{found[0]}"
    assert seen["met"] > 30 and seen["not met"] > 150  # as it is to be


@pytest.mark.parametrize(
    "pattern, row, matches",
    [
        ("10 0 sent 72", "10 0 sent 72", True),
        ("+5 0 sent *", "15 0 sent 72", True),
        ("* {0,2} sent 70..7F", "10 2 sent 72", True),
        ("* 0 sent 73..", "10 0 sent 72", False),
        ("* * stop *", "80 1 stop 0102 reserved opcode", True),
        ("* * heard 1 72 11+-1", "30 1 heard 1 72 12", True),
        ("9..11 0 sent", "10 0 sent 72", False),
    ],
)
def test_the_second_matcher(pattern, row, matches):
    assert row_matches(pattern, row, 10) is matches
