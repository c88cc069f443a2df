"""The rows of one node out of what a run wrote, and what nodes wrote to USART0. What the simulator itself has just written is
not checked again."""
import re
from collections import defaultdict
from collections.abc import Iterable, Iterator

from avrora_tools.traces import Row

SERIAL = re.compile(rb"^(\d+) (\d+) serial ([0-9A-F]{2})$", re.MULTILINE)
STOP = re.compile(rb"^\d+ (\d+) stop ([0-9A-F]{4}) (.*)$", re.MULTILINE)


def all_rows(output: bytes) -> Iterator[Row]:
    for line in output.decode("ascii").splitlines():
        cycle, node, kind, rest = line.split(" ", 3)
        yield Row(int(cycle), int(node), kind, rest)


def processor_rows(output: bytes, node: int, window: tuple[int, int]) -> list[Row]:
    """The instructions, entries and the stop of a node in a window."""
    first, end = window
    pattern = re.compile(rf"^(\d+) {node} (instr|enter|stop) (.*)$".encode(), re.MULTILINE)
    found = ((int(c), kind, rest) for c, kind, rest in pattern.findall(output))
    return [Row(c, node, kind.decode(), rest.decode()) for c, kind, rest in found if first <= c < end]


def written(outputs: Iterable[bytes]) -> dict[int, bytes]:
    """What each node wrote to USART0, by the rows of the pieces of a run."""
    return written_before(outputs, None)


def written_before(outputs: Iterable[bytes], end: int | None) -> dict[int, bytes]:
    """What each node wrote to USART0 before a cycle."""
    texts: dict[int, bytearray] = defaultdict(bytearray)
    for output in outputs:
        for cycle, node, digits in SERIAL.findall(output):
            if end is None or int(cycle) < end:
                texts[int(node)].append(int(digits, 16))
    return {node: bytes(text) for node, text in texts.items()}


def writes(output: bytes) -> list[tuple[int, int, int]]:
    """What nodes wrote to USART0, in order: the cycle, the node, the byte."""
    return [(int(cycle), int(node), int(digits, 16)) for cycle, node, digits in SERIAL.findall(output)]


def stops(outputs: Iterable[bytes]) -> dict[int, str]:
    """The nodes that stopped, each with its cause and the address, by the rows of the pieces of a run."""
    found = (one for output in outputs for one in STOP.findall(output))
    return {int(node): f"{cause.decode()} at {address.decode()}" for node, address, cause in found}
