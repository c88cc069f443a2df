"""What nodes draw, as bars."""
from collections.abc import Sequence

from avrora_tools.budgets import Account, between
from avrora_tools.reporting.bars import Bar, Part

# The parts of an account with the names of their colours.
PARTS = {
    "awake": "awake",
    "asleep": "resting",
    "sending": "sending",
    "listening": "listening",
    "off": "off",
    "unknown": "unknown",
}


def currents_of(accounts: Sequence[Account], seconds: float) -> list[Bar]:
    """A bar for each node, of what its mean current in mA is made of."""
    return [
        Bar(
            f"node {number}",
            [Part(name, colour, getattr(one, name) / seconds) for name, colour in PARTS.items()],
            f"{between(one.least / seconds, one.most / seconds, '.3f')} mA",
        )
        for number, one in enumerate(accounts)
    ]
