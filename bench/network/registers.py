"""The I/O registers and the vectors of the timers, as docs/MACHINE.md has them, and the causes of a stop in its order."""
# Registers that only keep the byte that is written, by data address, with the byte that they start with.
KEPT = {
    a: 0
    for a in [0x22, 0x23, 0x27, 0x31, 0x32, 0x34, 0x35, 0x37, 0x38, 0x3A, 0x3B, 0x3D, 0x3E, 0x3F, 0x42, 0x5A]
    + [0x61, 0x62, 0x6A, 0x6C, 0x6D, 0x6F, 0x70, 0x98, 0x99, 0x9C]
}
KEPT |= {0x71: 0xF8, 0x72: 0xFE, 0x73: 0xFF, 0x9B: 0x20, 0x9D: 0x06}
# Registers that keep some bits, and the writes at which they stop: (bits of the byte that stop, cause).
PARTLY_KEPT = {
    0x26: (0xFF, 0, (0xC0, "adc")),
    0x28: (0xC3, 0, (0x0C, "comparator interrupt")),
    0x3C: (0x00, 0, (0x0F, "eeprom access")),
    0x40: (0x0C, 0, (0x83, "prescaler control")),
    0x50: (0x00, 0, (0x08, "asynchronous timer")),
    0x57: (0xFF, 0, (0x20, "input capture enable")),
    0x59: (0x00, 0, (0xFF, "external interrupt")),
    0x5C: (0xFF, 0, (0x80, "clock division")),
    0x64: (0x1F, 0, None),
    0x65: (0x1F, 0, None),
    0x74: (0xFF, 0, (0x04, "twi")),
    0x7A: (0x00, 0, (0xE0, "forced compare")),
    0x7D: (0x3F, 0, (0x20, "input capture enable")),
    0x8C: (0x00, 0, (0xE0, "forced compare")),
    0x9A: (0xFF, 0, (0x18, "usart1")),
}
# Pins read their port.
PINS = {0x20: 0x62, 0x21: 0x23, 0x30: 0x32, 0x33: 0x35, 0x36: 0x38, 0x39: 0x3B, 0x63: 0x65}
READ_ZERO = {0x24, 0x25, 0x58, 0x68}
# Timers 0 and 2: OCR, TCNT, TCCR. Timers 1 and 3: each byte's address, with the register and the byte of it.
TIMERS8 = {0x51: (0, "ocr"), 0x52: (0, "tcnt"), 0x53: (0, "tccr"), 0x43: (2, "ocr"), 0x44: (2, "tcnt"), 0x45: (2, "tccr")}
TIMERS16 = {}
for number, base in ((1, 0x46), (3, 0x80)):
    names = ["icr", "b", "a", "tcnt"] if number == 1 else ["icr", "c", "b", "a", "tcnt"]
    for place, name in enumerate(names):
        TIMERS16[base + 2 * place] = (number, name, "low")
        TIMERS16[base + 2 * place + 1] = (number, name, "high")
    TIMERS16[base + 2 * len(names)] = (number, "tccrb", "")
    TIMERS16[base + 2 * len(names) + 1] = (number, "tccra", "")
TIMERS16[0x78], TIMERS16[0x79] = (1, "c", "low"), (1, "c", "high")
# The flags of TIFR and ETIFR, from bit 0 on.
TIFR = [(0, "ov"), (0, "a"), (1, "ov"), (1, "b"), (1, "a"), (1, "icf"), (2, "ov"), (2, "a")]
ETIFR = [(1, "c"), (3, "c"), (3, "ov"), (3, "b"), (3, "a"), (3, "icf")]
# Vectors of the timers: address, the register and bit that enable, the timer and its flag.
TIMER_VECTORS = [
    (0x12, 0x57, 7, 2, "a"), (0x14, 0x57, 6, 2, "ov"), (0x18, 0x57, 4, 1, "a"), (0x1A, 0x57, 3, 1, "b"),
    (0x1C, 0x57, 2, 1, "ov"), (0x1E, 0x57, 1, 0, "a"), (0x20, 0x57, 0, 0, "ov"),
    (0x30, 0x7D, 0, 1, "c"), (0x34, 0x7D, 4, 3, "a"), (0x36, 0x7D, 3, 3, "b"), (0x38, 0x7D, 1, 3, "c"), (0x3A, 0x7D, 2, 3, "ov"),
]
CAUSES = ["reserved opcode", "undefined operands", "spm", "break", "sleep mode", "pwm mode", "external timer clock", "compare output"]
CAUSES += ["forced compare", "input capture enable", "prescaler control", "usart mode", "spi slave", "external memory", "watchdog enable"]
CAUSES += ["eeprom access", "adc", "comparator interrupt", "twi", "external interrupt", "clock division", "asynchronous timer"]
CAUSES += ["moved vectors", "usart1", "reserved address", "address past 0x10FF"]
