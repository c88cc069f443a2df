"""The command that opens avr-gdb where something was found (docs/DEBUGGING.md)."""
import os
from collections.abc import Sequence
from typing import NamedTuple

from avrora_tools.showing import shell_line


class Where(NamedTuple):
    """Where something was found: a cycle, and the node that it is about."""

    cycle: int
    node: int


def debug_command(
    scenario: str, where: Where, elfs: Sequence[str] = (), state: str | None = None, images: str | None = None
) -> str:
    """A line for a shell, from the folder in which this tool was called. `state`: the run begins there; `images`: the
    folder of the images, where it is another one than the scenario's."""
    words = ["avrora-tools", "gdb", "--at", f"{where.cycle:_}", "--node", str(where.node)]
    words += [word for elf in elfs for word in ("-e", elf)]
    words += ["--state", state] if state else []
    beside = os.path.dirname(os.path.abspath(scenario))
    words += ["--images", images] if images and os.path.realpath(images) != os.path.realpath(beside) else []
    return shell_line([*words, scenario])
