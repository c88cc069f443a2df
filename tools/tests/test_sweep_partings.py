"""How a sweep says where a failing run parts from one that passes, and what of a finding is late."""
from types import SimpleNamespace
from typing import Any, cast

import pytest

from avrora_tools.sweeping import evidence, wording
from avrora_tools.sweeping.evidence import Parting
from avrora_tools.sweeping.ordering import Enter, Step, Use
from avrora_tools.sweeping.sharing import SLEEP
from avrora_tools.sweeping.verdicts import Late

SHARING: Any = SimpleNamespace(
    program=SimpleNamespace(line_at=lambda address: {0x80: "a.c:1", 0x82: "a.c:2", 0x84: "a.c:3"}.get(address)),
    watched={0x80: "first", 0x82: "queued", 0x84: SLEEP},
    timer_uses={},
)
HANDLER = Step(Enter(0x24), 102, 0x82, 0)


def use(address: int, cycle: int) -> Step:
    return Step(Use(address), cycle, address, 0)


@pytest.mark.parametrize(
    "failing, passing, behind, ahead, said",
    [
        (
            HANDLER,
            use(0x82, 102),
            use(0x80, 100),
            use(0x82, 104),
            "`USART0_RX_vect` comes between `first` at a.c:1 (0080) and `queued` at a.c:2 (0082)",
        ),
        (
            use(0x82, 102),
            HANDLER,
            use(0x80, 100),
            use(0x82, 102),
            "`queued` at a.c:2 (0082) comes where the run that passes has `USART0_RX_vect`",
        ),
        (None, HANDLER, use(0x80, 100), None, "nothing more comes where the run that passes has `USART0_RX_vect`"),
        (
            use(0x84, 104),
            use(0x82, 104),
            use(0x80, 100),
            None,
            "the sleep at a.c:3 (0084) comes where the run that passes has `queued` at a.c:2 (0082)",
        ),
    ],
)
def test_where_two_runs_part(
    failing: Step | None, passing: Step | None, behind: Step | None, ahead: Step | None, said: str
) -> None:
    assert evidence.described(Parting(failing, passing, behind, ahead), SHARING) == said


@pytest.mark.parametrize(
    "cycle, said",
    [(1_000, ["node 2 writes it in cycle 1,000 (100 behind the deadline)"]), (899, [])],
)
def test_only_what_comes_behind_the_deadline_is_late(cycle: int, said: list[str]) -> None:
    sweep = SimpleNamespace(late=lambda finding: Late(2, cycle, None), scenario=SimpleNamespace(until=900))
    assert wording.late_of(cast(Any, sweep), cast(Any, None)) == said
