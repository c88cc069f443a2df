"""Lines of what nodes write to USART0, and how they are shown."""
from collections.abc import Callable
from typing import NamedTuple

CR, LF, BACKSLASH = b"\r\n\\"

SILENCE = 100_000  # cycles without a byte that end a line

# How each byte is shown; a backslash as two, so that what is shown of other bytes is not taken for what was written.
SHOWN = [chr(byte) if 0x20 <= byte < 0x7F else f"\\x{byte:02X}" for byte in range(256)]
SHOWN[BACKSLASH] *= 2


class Line(NamedTuple):
    """A line: the cycles of its first byte and of its last one, the node, its bytes without the end of the line."""

    first: int
    last: int
    node: int
    data: bytes

    @property
    def text(self) -> str:
        return shown(self.data)


class Open:
    """What a node has written since its last line ended."""

    def __init__(self, cycle: int) -> None:
        self.first = self.last = cycle
        self.bytes = bytearray()


def shown(data: bytes) -> str:
    return "".join(SHOWN[byte] for byte in data)


class Lines:
    """Makes lines of bytes as they come, and gives each to `put` as it ends: with LF, CR or CR LF, and where the node
    is silent for long. An empty line is one; with a `length` all bytes are data, and a line has so many."""

    def __init__(self, put: Callable[[Line], None], silence: int = SILENCE, length: int | None = None) -> None:
        self.put, self.silence, self.length = put, silence, length
        self.lines: dict[int, Open] = {}
        self.last: dict[int, int] = {}  # by node its last byte
        self.silent: set[int] = set()  # nodes whose last line was ended by their silence, and not by them

    def write(self, cycle: int, node: int, byte: int) -> None:
        for silent in [other for other, line in self.lines.items() if cycle - line.last > self.silence]:
            self.end(silent)
            self.silent.add(silent)
        before, self.last[node] = self.last.get(node), byte
        if byte in (CR, LF) and self.length is None:
            self.end_line(cycle, node, byte == LF and before == CR)
            return
        self.silent.discard(node)
        line = self.lines.setdefault(node, Open(cycle))
        line.last = cycle
        line.bytes.append(byte)
        if len(line.bytes) == self.length:
            self.end(node)

    def end_line(self, cycle: int, node: int, is_ended: bool) -> None:
        """A node ends its line, which is an empty one where it has no bytes and was not ended before."""
        if node in self.lines:
            self.end(node)
        elif not is_ended and node not in self.silent:
            self.put(Line(cycle, cycle, node, b""))
        self.silent.discard(node)

    def end(self, node: int) -> None:
        line = self.lines.pop(node, None)
        if line:
            self.put(Line(line.first, line.last, node, bytes(line.bytes)))

    def end_all(self) -> None:
        for node in list(self.lines):
            self.end(node)
