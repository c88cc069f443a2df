"""A sweep and a hunt that are cut at drawn moments have lost nothing; `drawn_cuts.py` cuts more often."""
import contextlib
import random
import signal

import pytest

from drawn_cuts import Hunted, Lost, Swept
from firmware import needs_program
from support import SEED

pytestmark = needs_program

CUTS = 4


@pytest.fixture(scope="module", params=[Swept, Hunted])
def whole(request, tmp_path_factory):
    """What nothing cuts, in a folder of its own."""
    with contextlib.chdir(tmp_path_factory.mktemp("whole")):
        yield request.param()


@pytest.mark.parametrize("number", [signal.SIGINT, signal.SIGTERM, signal.SIGKILL])
def test_what_was_run_is_known_behind_each_cut(whole, number):
    try:
        assert whole.cut(random.Random(f"{SEED} {number}"), CUTS, (number,)) <= CUTS
    except Lost as fault:
        pytest.fail(f"AVRORA_SEED={SEED}: {fault}")
