"""The frames that nodes send by radio, as `avrora sniff` finds them (docs/FORMATS.md, "Frames"), found as rows come."""
from collections.abc import Iterator, Sequence
from typing import NamedTuple

HEAD = b"\xaa\xaa\x7e"
LONGEST_PAYLOAD = 32
SHORTEST = len(HEAD) + 2  # a length and one byte of payload


class SentByte(NamedTuple):
    """A byte that a node sent."""

    cycle: int
    byte: int


# The sends of a frame, from its first byte on.
Frame = Sequence[SentByte]


class Finder:
    """Takes the sends of one node, and gives frames as soon as nothing that may come can change them."""

    def __init__(self) -> None:
        self.held: list[SentByte] = []
        self.passed: list[SentByte] = []  # over which it went since it was last asked, since they are of no frame

    def send(self, one: SentByte) -> Iterator[Frame]:
        """The frames that are certain once this was sent."""
        self.held.append(one)
        yield from self.taken(is_over=False)

    def end(self) -> Iterator[Frame]:
        """The frames in what is left, where nothing more is sent."""
        yield from self.taken(is_over=True)

    def inner_end(self) -> int | None:
        """The cycle in which the first frame ends that comes to light if nothing more is sent: it lies in the bytes of
        a longer one that is not whole yet. None where there is no such frame."""
        if len(self.held) <= SHORTEST:  # a frame within must begin behind the first byte
            return None
        rest = Finder()
        rest.held = self.held[1:]
        return next((frame[-1].cycle for frame in rest.end()), None)

    def taken(self, is_over: bool) -> Iterator[Frame]:
        while self.held:
            length = length_of([one.byte for one in self.held])
            if length and length <= len(self.held):
                frame, self.held = self.held[:length], self.held[length:]
                yield frame
            elif length is None or is_over:
                self.passed.append(self.held.pop(0))
            else:
                return


def length_of(data: Sequence[int]) -> int | None:
    """How many bytes the frame has that begins here; 0 where it is not known yet, None where none begins."""
    if any(byte != due for byte, due in zip(data, HEAD)):
        return None
    if len(data) <= len(HEAD):
        return 0
    payload = data[len(HEAD)]
    return len(HEAD) + 1 + payload if 1 <= payload <= LONGEST_PAYLOAD else None
