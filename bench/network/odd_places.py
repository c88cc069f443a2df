"""Small networks that do something odd about the end of an epoch: each node sleeps until a byte arrives shortly before, and then
runs a few instructions that were written by hand."""
from draw import DDRB, MCUCR, OCR0, PORTB, SPCR, SPDR, SPH, SPL, SPSR, TCCR0, TIMSK, UBRR, UCSRA, UCSRB, UDR, Assembler, hex_text, ldi, out, word
from states import EPOCH

TCNT0, TIFR, SREG = 0x32, 0x36, 0x3F
TCCR1B, TCNT1H, TCNT1L, OCR1AH, OCR1AL, ICR1H, ICR1L = 0x2E, 0x2D, 0x2C, 0x2B, 0x2A, 0x27, 0x26
TCCR2, TCNT2, OCR2 = 0x25, 0x24, 0x23
RECEIVED, SETUP = 0x24, 0x50
VECTORS = (0x12, 0x14, 0x18, 0x1A, 0x1C, 0x1E, 0x20, 0x22, 0x26, 0x28)
# The byte arrives behind the processor's part of a cycle; the entry takes eight cycles, and the jump at the vector two.
WAKES = 11


def put(address, byte):
    return [ldi(16, byte), out(address, 16)]


NOP, SEI, CLI, SLEEP, RETI, BREAK = word("nop"), word("bset", s=7), word("bclr", s=7), word("sleep"), word("reti"), word("break_")


def image(instructions):
    """A node that sleeps until a byte arrives, and then does these instructions, `transfer` being a subroutine's name."""
    a = Assembler(SETUP)
    a.words[0] = word("rjmp", k=SETUP - 1)
    a.add(*put(SPH, 0x10), *put(SPL, 0xFF), *put(DDRB, 1), *put(SPCR, 0x50), *put(SPSR, 1), *put(UCSRB, 0x98), *put(MCUCR, 0x20))
    a.add(SEI, SLEEP, word("rjmp", k=-2))
    a.words[RECEIVED] = word("rjmp", k=len(a.words) - RECEIVED - 1)
    a.add(word("in_", d=18, A=UDR), *put(UCSRB, 0x18))
    for it in instructions:
        if it == "transfer":
            a.call(it)
        else:
            a.add(it)
    a.add(word("rjmp", k=-1))
    places = {"transfer": len(a.words)}
    a.add(out(SPDR, 16), word("sbis", A=SPSR, b=7), word("rjmp", k=-2), word("in_", d=16, A=SPDR), word("ret"))
    for vector in VECTORS:
        a.words[vector] = word("rjmp", k=len(a.words) - vector - 1)
    a.add(word("inc", d=21), RETI)
    return hex_text(a.finish(places))


def command(byte):
    return [ldi(16, byte), "transfer"]


SAMPLE = command(2) + ["transfer"] * 3
CTC_BY_8, OVERFLOWS = [*put(OCR0, 10), *put(TCNT0, 0), *put(TCCR0, 0x0A)], [*put(TCNT2, 250), *put(TCCR2, 1)]

# What is done about the end, how long it takes in cycles at most, and the bytes behind the one that wakes.
PLACES = {
    "frames": ([*put(UDR, 0x41), *put(UDR, 0x42), *put(UDR, 0x43), NOP, *put(UDR, 0x44), *put(UCSRB, 0)], 340, ""),
    "short frames": ([*put(UCSRA, 2), *put(UDR, 0xFF), *put(UDR, 0x42), word("sbi", A=UCSRA, b=6)], 180, ""),
    "a stop with frames": ([*put(UDR, 0x41), *put(UDR, 0x42), BREAK], 30, ""),
    "a stop with a transfer": ([*put(SPCR, 0x51), *put(SPDR, 0x41), word("spm")], 30, ""),
    "a stop of a push": ([*put(SPH, 0x20), *put(UCSRB, 0x38), SEI, NOP, NOP], 30, ""),
    "received": ([NOP] * 12 + [word("in_", d=19, A=UDR), NOP, word("in_", d=19, A=UDR)], 40, "A1A2A3A4A5"),
    "a send and a sample": (command(1) + command(0x5A) + SAMPLE + command(1) + command(0x5B) + SAMPLE, 420, ""),
    "away from a sample": (command(2) + ["transfer", word("sbi", A=PORTB, b=0), "transfer", word("cbi", A=PORTB, b=0), "transfer"], 190, ""),
    "a transfer that collides": ([*put(SPDR, 1), word("in_", d=17, A=SPSR), *put(SPDR, 2)] + [NOP] * 9 + [word("in_", d=17, A=SPSR), NOP, word("in_", d=17, A=SPDR)], 50, ""),
    "a transfer that is broken off": ([*put(SPDR, 1), NOP, *put(SPCR, 0x10), NOP, *put(SPCR, 0x50), *put(SPDR, 2)], 50, ""),
    "interrupts of transfers": ([*put(SPCR, 0xD0), SEI, *put(SPDR, 1), SLEEP, NOP, *put(SPDR, 7), SLEEP], 90, ""),
    "asleep": ([*CTC_BY_8, *put(TIMSK, 2), SEI, SLEEP, SLEEP, SLEEP], 310, ""),
    "owed": ([*OVERFLOWS, *put(TIMSK, 0x40), *[NOP] * 8, SEI, NOP, CLI, ldi(16, 0x80), out(SREG, 16), SEI, SEI, NOP], 60, ""),
    "woken at once": ([*OVERFLOWS, *put(TIMSK, 0x40), *[NOP] * 8, SEI, SLEEP, NOP, NOP], 50, ""),
    "a clock that is blocked": ([*put(TCCR0, 7), *put(OCR0, 5), *put(TCNT0, 5), *put(TCCR2, 0x0D), *put(TCNT2, 0)], 2_300, ""),
    "flags": ([*CTC_BY_8, *put(TCCR2, 1), *put(OCR2, 20), *put(TIFR, 0xC3)], 300, ""),
    "a wide timer": ([*put(TCCR1B, 0x19), *put(ICR1H, 0), *put(ICR1L, 40), *put(OCR1AH, 0), *put(OCR1AL, 7), *put(TCNT1H, 0), *put(TCNT1L, 39)], 110, ""),
    "half a write": ([*put(TCNT1H, 0x12), *put(TCNT1L, 0xFE), *put(TCCR1B, 2), word("in_", d=17, A=TCNT1L), *put(OCR1AH, 0x77)], 60, ""),
    "in instructions": ([word("rcall", k=0), word("pop", d=17), word("pop", d=17), word("lpm"), word("adiw", d=24, K=5), word("mul", d=16, r=16), word("cpse", d=1, r=1), word("ldi", d=0, K=0), word("push", r=16)], 40, ""),
}


def networks(step):
    """Networks of two nodes that hear each other, each with the end of an epoch at another place of what they do: a name, the
    files by their names. Of a place that takes long each `step`th cycle is taken, of a short one each."""
    for name, (instructions, cycles, bytes_behind) in PLACES.items():
        text = image(instructions)
        for before in range(0, cycles, step if cycles > 60 else 1):
            at = EPOCH - WAKES - before
            inputs = [{"node": k, "at": at - 5 * k, "every": 4, "hex": "00" + bytes_behind} for k in (0, 1)]
            lines = ["version = 2", f"cycles = {EPOCH + 2_000}", "latency = 30", "byte_time = 256", f"window = [{EPOCH - 400}, {EPOCH + 400}]"]
            lines += ['node = [{image = "odd.hex"}, {image = "odd.hex"}]', "link = [{from = 0, to = 1}, {from = 1, to = 0, latency = 1}]"]
            lines += ["[[input]]\n" + "\n".join(f"{key} = {value!r}" for key, value in row.items()) for row in inputs]
            yield f"{name}, {before} cycles before", {"odd.hex": text.encode(), "net.toml": ("\n".join(lines) + "\n").encode()}
