"""The devices of a node, cycle by cycle, as docs/MACHINE.md and docs/AIR.md have them."""


class Stop(Exception):
    """A program asks for what the simulated part does not have."""

    def __init__(self, cause):
        super().__init__(cause)
        self.cause = cause


def listed(running):
    """The end and the byte of what runs, behind the flag that something does."""
    return [0, 0, 0] if running is None else [1, *running]


class Timer:
    """Timers 0 to 3: of 8 bits with one compare value, of 16 with three, ICR and TEMP."""

    def __init__(self, bits, dividers):
        self.bits, self.maximum, self.dividers = bits, (1 << bits) - 1, dividers
        self.count, self.blocked, self.control, self.temp = 0, False, 0, 0
        self.values = {"a": 0} if bits == 8 else {"a": 0, "b": 0, "c": 0, "icr": 0}
        self.flags = {"a": 0, "b": 0, "c": 0, "icf": 0, "ov": 0}

    def tick(self, now):
        select = self.control & 7
        if select == 0 or (now + 1) % self.dividers[select - 1] != 0:
            return
        c = self.count
        if not self.blocked:
            for name in "abc":
                if self.values.get(name) == c:
                    self.flags[name] = 1
            if self.mode() == 12 and self.values["icr"] == c:
                self.flags["icf"] = 1
        if c == self.maximum:
            self.count = 0
            self.flags["ov"] = 1
        elif c == self.top() and not self.blocked:
            self.count = 0
        else:
            self.count = c + 1
        self.blocked = False

    def mode(self):
        """Of a timer of 16 bits: 0, 4 or 12. Of one of 8 bits: 0, or 4 for CTC."""
        if self.bits == 8:
            return 4 if self.control & 8 else 0
        return (self.control >> 3 & 3) << 2

    def top(self):
        return {0: None, 4: self.values["a"], 12: self.values.get("icr")}[self.mode()]

    def get8(self, name):
        return {"ocr": self.values["a"], "tcnt": self.count, "tccr": self.control}[name]

    def put8(self, name, byte):
        if name == "ocr":
            self.values["a"] = byte
        elif name == "tcnt":
            self.count, self.blocked = byte, True
        else:
            if byte & 0x80:
                raise Stop("forced compare")
            if byte & 0x40:
                raise Stop("pwm mode")
            if byte & 0x30:
                raise Stop("compare output")
            if byte & 7 > len(self.dividers):
                raise Stop("external timer clock")
            self.control = byte & 0x0F

    def get16(self, name, half):
        if name == "tccra":
            return 0
        if name == "tccrb":
            return self.control
        value = self.count if name == "tcnt" else self.values[name]
        if name in ("tcnt", "icr"):
            if half == "high":
                return self.temp
            self.temp = value >> 8
        return value >> 8 if half == "high" else value & 0xFF

    def put16(self, name, half, byte):
        if name == "tccra":
            if byte & 0xFC:
                raise Stop("compare output")
            if byte & 3:
                raise Stop("pwm mode")
        elif name == "tccrb":
            if byte >> 3 & 3 == 2:
                raise Stop("pwm mode")
            if byte & 7 > len(self.dividers):
                raise Stop("external timer clock")
            self.control = byte & 0xDF
        elif half == "high":
            self.temp = byte
        elif name == "tcnt":
            self.count, self.blocked = self.temp << 8 | byte, True
        elif name != "icr" or self.mode() == 12:
            self.values[name] = self.temp << 8 | byte

    def numbers(self):
        """As a state has them."""
        wide = [self.values["b"], self.values["c"], self.values["icr"], self.temp] if self.bits == 16 else []
        names = ("ov", "a", "b", "c", "icf") if self.bits == 16 else ("ov", "a")
        return [self.control, self.count, self.values["a"], *wide, int(self.blocked), *(self.flags[name] for name in names)]

    def restore(self, numbers):
        self.control, self.count, self.values["a"], *rest = numbers
        if self.bits == 16:
            self.values["b"], self.values["c"], self.values["icr"], self.temp, *rest = rest
        self.blocked = bool(rest[0])
        self.flags.update(zip(("ov", "a", "b", "c", "icf"), rest[1:]))


class Usart:
    """USART0."""

    REGISTERS = {0x29: "brl", 0x90: "brh", 0x2A: "b", 0x2B: "a", 0x95: "c", 0x2C: "udr"}

    def __init__(self):
        self.baud, self.b, self.c, self.double = 0, 0, 0x06, 0
        self.frame, self.waiting, self.txc = None, None, 0
        self.received, self.overrun = [], 0

    def bits(self):
        return 5 + (self.c >> 1 & 3)

    def cut(self, byte):
        return byte & (1 << self.bits()) - 1

    def begin(self, byte, now):
        stops = 2 if self.c & 8 else 1
        length = (1 + self.bits() + stops) * (8 if self.double else 16) * (self.baud + 1)
        self.frame = (now + length, self.cut(byte))

    def arrive(self, byte):
        if not self.b & 0x10:
            return
        if len(self.received) == 2:
            self.overrun = 1
        else:
            self.received.append(self.cut(byte))

    def tick(self, now):
        """The byte whose frame ends in this cycle, or None."""
        if self.frame is None or self.frame[0] != now:
            return None
        byte, self.frame = self.frame[1], None
        if self.waiting is not None:
            next_byte, self.waiting = self.waiting, None
            self.begin(next_byte, now)
        else:
            self.txc = 1
        return byte

    def get(self, name):
        if name == "a":
            empty = self.waiting is None
            return bool(self.received) << 7 | self.txc << 6 | empty << 5 | self.overrun << 3 | self.double << 1
        if name == "udr":
            self.overrun = 0
            return self.received.pop(0) if self.received else 0
        return {"brl": self.baud & 0xFF, "brh": self.baud >> 8, "b": self.b, "c": self.c}[name]

    def put(self, name, byte, now):
        if name == "brl":
            self.baud = self.baud & 0xF00 | byte
        elif name == "brh":
            self.baud = self.baud & 0xFF | (byte & 0x0F) << 8
        elif name == "a":
            if byte & 1:
                raise Stop("usart mode")
            if byte & 0x40:
                self.txc = 0
            self.double = byte >> 1 & 1
        elif name == "b":
            if byte & 4:
                raise Stop("usart mode")
            self.b = byte & 0xFD
            if not byte & 0x10:
                self.received, self.overrun = [], 0
        elif name == "c":
            if byte & 0x70:
                raise Stop("usart mode")
            self.c = byte & 0x0F
        elif self.b & 0x08:
            if self.frame is None:
                self.begin(byte, now)
            elif self.waiting is None:
                self.waiting = byte

    def numbers(self):
        """As a state has them."""
        count, (first, second) = len(self.received), (self.received + [0, 0])[:2]
        port = [self.double, self.b, self.c, self.baud, self.txc, self.overrun, count, first, second]
        return port + listed(self.frame) + ([0, 0] if self.waiting is None else [1, self.waiting])

    def restore(self, numbers):
        self.double, self.b, self.c, self.baud, self.txc, self.overrun, count, first, second, *rest = numbers
        runs, end, byte, waits, waiting = rest
        self.received = [first, second][:count]
        self.frame, self.waiting = (end, byte) if runs else None, waiting if waits else None


class Spi:
    """The SPI as a master."""

    REGISTERS = {0x2D: "control", 0x2E: "status", 0x2F: "data"}

    def __init__(self):
        self.control, self.double, self.spif, self.wcol = 0, 0, 0, 0
        self.seen_spif, self.seen_wcol = 0, 0
        self.end, self.out, self.data = None, 0, 0

    def ends_at(self, now):
        return self.end == now

    def finish(self, answer):
        self.end, self.data, self.spif = None, answer, 1

    def get(self, name):
        if name == "control":
            return self.control
        if name == "status":
            self.seen_spif, self.seen_wcol = self.spif, self.wcol
            return self.spif << 7 | self.wcol << 6 | self.double
        self.clear_seen()
        return self.data

    def clear_seen(self):
        if self.seen_spif:
            self.spif = 0
        if self.seen_wcol:
            self.wcol = 0
        self.seen_spif, self.seen_wcol = 0, 0

    def put(self, name, byte, now):
        if name == "control":
            if byte & 0x50 == 0x40:
                raise Stop("spi slave")
            self.control = byte
            if not byte & 0x40:
                self.end = None
        elif name == "status":
            self.double = byte & 1
        else:
            self.clear_seen()
            if self.end is not None:
                self.wcol = 1
            elif self.control & 0x40:
                divider = (4, 16, 64, 128)[self.control & 3] // (2 if self.double else 1)
                self.end, self.out = now + 8 * divider, byte

    def numbers(self):
        """As a state has them."""
        transfer = listed(None if self.end is None else (self.end, self.out))
        return [self.control, self.double, self.data] + transfer + [self.spif, self.wcol, self.seen_spif, self.seen_wcol]

    def restore(self, numbers):
        self.control, self.double, self.data, runs, end, self.out, *flags = numbers
        self.end = end if runs else None
        self.spif, self.wcol, self.seen_spif, self.seen_wcol = flags


class Radio:
    """The radio on the SPI."""

    def __init__(self, byte_time):
        self.byte_time, self.free = byte_time, 0
        self.sending, self.answers, self.sample = False, [], []

    def transfer(self, now, selected, byte):
        """The answer, the byte that is sent or None, and whether the air is sampled."""
        sending, self.sending = self.sending, False
        if not selected:
            self.answers = []
            return 0xFF, None, False
        if sending:
            if now < self.free:
                return 0x01, None, False
            self.free = now + self.byte_time
            return 0x00, byte, False
        if self.answers:
            return self.answers.pop(0), None, False
        self.sending = byte == 0x01
        return 0x00, None, byte == 0x02

    def heard(self, heard):
        self.answers, self.sample = list(heard), list(heard)

    def numbers(self):
        """As a state has them: the whole sample as long as an answer is left."""
        if self.answers:
            return [5 - len(self.answers), *self.sample, self.free]
        return [int(self.sending), 0, 0, 0, self.free]

    def restore(self, numbers):
        state, *self.sample, self.free = numbers
        self.sending, self.answers = state == 1, self.sample[state - 2 :] if state >= 2 else []
