"""Packets of gdb's remote protocol (its manual, "Remote Protocol", "Overview") over a pair of streams of bytes."""
import os
import select

INTERRUPT = 0x03
ESCAPE, ESCAPED_BY = 0x7D, 0x20
SPECIAL = b"#$}*"

# More bytes than a packet has that gdb sends.
LONGEST = 1 << 16


class Gone(Exception):
    """The other side went away, or sent what no gdb sends."""


def escaped(data: bytes) -> bytes:
    """The data of a packet as it is sent."""
    out = bytearray()
    for byte in data:
        out += bytes([ESCAPE, byte ^ ESCAPED_BY]) if byte in SPECIAL else bytes([byte])
    return bytes(out)


def unescaped(data: bytes) -> bytes:
    out, place = bytearray(), 0
    while place < len(data):
        if data[place] == ESCAPE and place + 1 < len(data):
            place += 1
            out.append(data[place] ^ ESCAPED_BY)
        else:
            out.append(data[place])
        place += 1
    return bytes(out)


def framed(data: bytes) -> bytes:
    """A packet, from its $ to its sum."""
    content = escaped(data)
    return b"$" + content + b"#%02x" % (sum(content) & 0xFF)


class Channel:
    """One gdb: packets from a descriptor to read, and to one to write."""

    def __init__(self, source: int, target: int) -> None:
        self.source, self.target = source, target
        self.buffer = bytearray()
        self.acknowledges = True
        self.last = b""  # the packet that was sent last, for a gdb that did not get it
        self.interrupted = False

    def receive(self) -> bytes:
        """The data of the next packet. Raises Gone where none comes any more."""
        while True:
            packet = self.taken()
            # gdb waits for an answer before it sends the next packet: where two lie here, it sent the first one again.
            while packet is not None and self.acknowledges and (again := self.taken()) is not None:
                packet = again
            if packet is not None:
                return packet
            self.fill()

    def waits(self, seconds: float) -> bool:
        """Whether something lies here to be read, or comes within so many seconds."""
        return bool(self.buffer or select.select([self.source], [], [], seconds)[0])

    def send(self, data: bytes) -> None:
        self.last = framed(data)
        self.write(self.last)

    def has_interrupt(self) -> bool:
        """Whether gdb asks to stop what goes on; that is forgotten then."""
        while not self.interrupted and select.select([self.source], [], [], 0)[0]:
            self.fill()
            self.drop_noise()
        interrupted, self.interrupted = self.interrupted, False
        return interrupted

    def write(self, data: bytes) -> None:
        try:
            while data:
                data = data[os.write(self.target, data) :]
        except OSError:
            raise Gone from None

    def fill(self) -> None:
        try:
            more = os.read(self.source, 1 << 14)
        except OSError:
            more = b""
        if not more or len(self.buffer) + len(more) > LONGEST:
            raise Gone
        self.buffer += more

    def drop_noise(self) -> None:
        """Passes over acknowledgements and interrupts before a packet. Raises Gone at what no gdb sends."""
        while self.buffer and self.buffer[0] != ord("$"):
            byte = self.buffer.pop(0)
            if byte == INTERRUPT:
                self.interrupted = True
            elif byte == ord("-") and self.last:
                self.write(self.last)
            elif byte not in b"+-":
                raise Gone

    def taken(self) -> bytes | None:
        """The data of the packet that stands in the buffer, or None where it is not whole."""
        while True:
            self.drop_noise()
            end = self.buffer.find(b"#")
            if end < 0 or len(self.buffer) < end + 3:
                return None
            content, told = bytes(self.buffer[1:end]), bytes(self.buffer[end + 1 : end + 3])
            del self.buffer[: end + 3]
            if not self.acknowledges:
                return unescaped(content)
            if told.lower() == b"%02x" % (sum(content) & 0xFF):
                self.write(b"+")
                return unescaped(content)
            self.write(b"-")
