"""Draws networks: images, links, latencies, spans, inputs. Always the same of the same number."""
import functools
import random
from pathlib import Path

from instructions import TABLE
from states import EPOCH

HERE = Path(__file__).resolve().parent
NET = (HERE / "net.hex").read_text()
SPL, SPH, DDRB, PORTB, MCUCR = 0x3D, 0x3E, 0x17, 0x18, 0x35
SPCR, SPSR, SPDR = 0x0D, 0x0E, 0x0F
UBRR, UCSRB, UCSRA, UDR = 0x09, 0x0A, 0x0B, 0x0C
TCCR0, OCR0, TIMSK = 0x33, 0x31, 0x37
PATTERNS = {name: pattern for pattern, name, _ in TABLE}
TIMER0_COMP, USART0_RX = 0x1E, 0x24


# ---- images


@functools.lru_cache(None)  # as of one instruction there are few, and campaigns draw millions
def word(name, **fields):
    """The word of an instruction, from the pattern of its row. Registers stand as the pattern spells them."""
    digits = ""
    left = {letter: PATTERNS[name].count(letter) for letter in fields}
    for letter in PATTERNS[name]:
        if letter in "01":
            digits += letter
        else:
            left[letter] -= 1
            digits += str(fields[letter] >> left[letter] & 1)
    return int(digits, 2)


def hex_text(words):
    """An image of these words from word 0 on."""
    data = b"".join(w.to_bytes(2, "little") for w in words)
    lines = []
    for at in range(0, len(data), 16):
        piece = data[at : at + 16]
        record = bytes([len(piece), at >> 8, at & 0xFF, 0]) + piece
        lines.append(":" + (record + bytes([-sum(record) & 0xFF])).hex().upper())
    return "\n".join(lines + [":00000001FF", ""])


def ldi(register, byte):
    return word("ldi", d=register - 16, K=byte)


def out(address, register):
    return word("out", A=address, r=register)


def ring(byte, count):
    """Sends and samples by the radio without end; the byte that it sends goes by what it heard."""
    words = [ldi(16, 0x10), out(SPH, 16), ldi(16, 0xFF), out(SPL, 16), ldi(16, 1), out(DDRB, 16), ldi(16, 0x50), out(SPCR, 16)]
    words += [ldi(17, byte), ldi(19, count), word("dec", d=19), word("brbc", s=1, k=-2)]
    words += [ldi(16, 1), word("rcall", k=11), word("mov", d=16, r=17), word("rcall", k=9)]
    words += [ldi(16, 2), word("rcall", k=7), word("rcall", k=6), word("rcall", k=5), word("mov", d=18, r=16)]
    words += [word("rcall", k=3), word("add", d=17, r=18), word("inc", d=17), word("rjmp", k=-13)]
    return words + [out(SPDR, 16), word("sbis", A=SPSR, b=7), word("rjmp", k=-2), word("in_", d=16, A=SPDR), word("ret")]


def foreign(number):
    """256 words of a linear congruential generator: code that nobody wrote."""
    words, w = [], number
    for _ in range(256):
        words.append(w)
        w = (25173 * w + 13849) % 65536
    return words


class Assembler:
    """Words from 0 on, and relative calls to be filled in."""

    def __init__(self, first):
        self.words, self.calls = [0xFFFF] * first, []

    def add(self, *words):
        self.words += words

    def call(self, name):
        self.calls.append((len(self.words), name))
        self.words.append(0)

    def finish(self, places):
        for at, name in self.calls:
            self.words[at] = word("rcall", k=places[name] - at - 1)
        return self.words


def drawn_image(rng, is_woken=False):
    """A program that sends, samples, waits, writes to USART0, sleeps and goes on by what it heard, in a drawn order. One that
    is woken sleeps until its first byte arrives; how long it waits then, and what it sends, goes by that byte; it does
    both, send and sample."""
    ticks = rng.random() < 0.4
    a = Assembler(0x40 if ticks or is_woken else 0)
    first = len(a.words)
    a.add(ldi(16, 0x10), out(SPH, 16), ldi(16, 0xFF), out(SPL, 16), ldi(16, 1), out(DDRB, 16))
    a.add(ldi(16, 0x50 | rng.choice((0, 0, 0, 1))), out(SPCR, 16))
    if rng.random() < 0.5:
        a.add(ldi(16, 1), out(SPSR, 16))
    a.add(ldi(16, rng.randrange(1, 9)), out(UBRR, 16), ldi(16, 0x18), out(UCSRB, 16))
    if ticks:
        a.add(ldi(16, rng.randrange(20, 200)), out(OCR0, 16), ldi(16, 0x0A), out(TCCR0, 16), ldi(16, 2), out(TIMSK, 16))
        a.add(ldi(16, 0x20), out(MCUCR, 16), word("bset", s=7))
    if is_woken:
        a.add(ldi(16, 0x98), out(UCSRB, 16), ldi(16, 0x20), out(MCUCR, 16), word("bset", s=7))
        a.add(word("sleep"), word("sbic", A=UCSRB, b=7), word("rjmp", k=-3))  # other interrupts wake it, too
        a.add(word("mov", d=19, r=18), word("dec", d=19), word("brbc", s=1, k=-2))
    a.add(ldi(17, rng.randrange(256)), ldi(22, rng.randrange(3, 40)))
    if is_woken:
        a.add(word("add", d=17, r=18))
    a.add(ldi(19, rng.randrange(1, 256)), word("dec", d=19), word("brbc", s=1, k=-2))
    top = len(a.words)
    for kind in rng.sample(("send", "sample"), 2) if is_woken else ():
        add_action(rng, a, kind)
    for _ in range(rng.randrange(1, 8)):
        draw_action(rng, a, ticks)
    if rng.random() < 0.1:
        a.add(word("dec", d=22), word("brbc", s=1, k=1), word(rng.choice(("break_", "spm"))))
    a.add(word("rjmp", k=top - len(a.words) - 1))
    places = {"transfer": len(a.words)}
    a.add(out(SPDR, 16), word("sbis", A=SPSR, b=7), word("rjmp", k=-2), word("in_", d=16, A=SPDR), word("ret"))
    places["pause"] = len(a.words)
    a.add(ldi(19, rng.randrange(1, 256)), word("dec", d=19), word("brbc", s=1, k=-2), word("ret"))
    if ticks:
        a.words[0] = word("rjmp", k=first - 1)
        a.words[TIMER0_COMP] = word("rjmp", k=len(a.words) - TIMER0_COMP - 1)
        a.add(word("push", r=0), word("in_", d=0, A=0x3F), word("inc", d=21), out(0x3F, 0), word("pop", d=0), word("reti"))
    if is_woken:
        a.words[0] = word("rjmp", k=first - 1)
        a.words[USART0_RX] = word("rjmp", k=len(a.words) - USART0_RX - 1)
        a.add(word("in_", d=18, A=UDR), word("cbi", A=UCSRB, b=7), word("reti"))
    return a.finish(places)


def draw_action(rng, a, ticks):
    kinds = ["send", "sample", "send", "sample", "wait", "write", "read", "odd", "away", "part", "go"]
    add_action(rng, a, rng.choice(kinds + ["sleep"] * 3 if ticks else kinds))


def add_action(rng, a, kind):
    if kind == "send":
        a.add(ldi(16, 1))
        a.call("transfer")
        a.add(word("mov", d=16, r=17))
        a.call("transfer")
        if rng.random() < 0.5:
            a.add(word("add", d=17, r=16), word("inc", d=17))
    elif kind == "sample":
        a.add(ldi(16, 2))
        a.call("transfer")
        a.call("transfer")
        a.add(word("mov", d=20, r=16))
        a.call("transfer")
        a.add(word("add", d=17, r=16))
        a.call("transfer")
        if rng.random() < 0.5:
            a.add(word("eor", d=17, r=16))
    elif kind == "wait":
        a.add(ldi(19, rng.randrange(1, 256)), word("dec", d=19), word("brbc", s=1, k=-2))
    elif kind == "write":
        a.add(out(UDR, 17))
    elif kind == "read":
        a.add(word("in_", d=18, A=UDR), word("add", d=17, r=18))
    elif kind == "odd":
        a.add(ldi(16, rng.randrange(256)))
        a.call("transfer")
    elif kind == "away":
        a.add(word("sbi", A=PORTB, b=0), ldi(16, rng.randrange(4)))
        a.call("transfer")
        a.add(word("cbi", A=PORTB, b=0))
    elif kind == "part":
        a.add(ldi(16, 2))
        a.call("transfer")
        a.call("transfer")
    elif kind == "go":
        a.add(word(rng.choice(("sbrc", "sbrs")), r=rng.choice((17, 20)), b=rng.randrange(2)))
        a.call("pause")
    else:
        a.add(word("sleep"))


# ---- scenarios


class Drawn:
    """A scenario as a dictionary of its numbers, and its images by their names."""

    def __init__(self, document, images):
        self.document, self.images = document, images

    def text(self):
        it = self.document
        lines = [f"{key} = {it[key]}" for key in ("version", "cycles", "latency", "byte_time", "window") if key in it]
        for kind in ("node", "link", "input"):
            for row in it[kind]:
                lines += [f"[[{kind}]]"] + [f"{k} = " + (f'"{v}"' if type(v) is str else str(v)) for k, v in row.items()]
        return "\n".join(lines) + "\n"


def drawn_input(rng, node, limit, bytes_most):
    data = bytes(rng.randrange(256) for _ in range(rng.randrange(bytes_most)))
    row = {"node": node, "at": rng.randrange(limit), "hex": data.hex()}
    if rng.random() < 0.8:
        row["every"] = rng.choice((1, rng.randrange(1, 200), rng.randrange(200, 2000)))
    return row


def drawn_spans(rng, limit):
    edges = sorted(rng.randrange(limit + 1) for _ in range(2 * rng.randrange(1, 5)))
    return [[a, b] for a, b in zip(edges[::2], edges[1::2]) if a < b] or [[0, limit]]


def drawn(number, nodes_most=8, cycles_most=8000):
    """The drawn network with this number."""
    rng = random.Random(number)
    kind = rng.choice(("ring", "drawn", "drawn", "drawn", "orders", "mixed", "foreign"))
    nodes = 2 if kind == "foreign" else rng.randrange(2, nodes_most + 1)
    limit = rng.randrange(300, cycles_most)
    version = rng.choice((1, 2, 3))
    document = {"cycles": limit, "byte_time": rng.choice((256, 512, rng.randrange(256, 4097))), "node": [], "link": [], "input": []}
    if version > 1 or rng.random() < 0.5:
        document["version"] = version
    if rng.random() < 0.9:
        document["latency"] = rng.choice((1, 2, rng.randrange(1, 300), rng.randrange(1, 4000)))
    if rng.random() < 0.3:
        first = rng.randrange(limit)
        document["window"] = [first, min(limit, first + rng.randrange(60))]
    images = {}
    for k in range(nodes):
        which = rng.choice(("ring", "drawn", "orders")) if kind == "mixed" else kind
        name = f"{k}.hex"
        if which == "orders":
            name = "net.hex"
            images[name] = NET
            document["input"].append({"node": k, "at": rng.randrange(400), "every": rng.randrange(300, 1200),
                                      "hex": bytes(rng.randrange(256) for _ in range(12)).hex()})
        elif which == "foreign":
            images[name] = hex_text(foreign(rng.randrange(200)))
        else:
            images[name] = hex_text(ring(rng.randrange(256), rng.randrange(1, 256)) if which == "ring" else drawn_image(rng))
        if which == "drawn" and rng.random() < 0.4:
            document["input"].append(drawn_input(rng, k, limit, 12))
        document["node"].append({"image": name})
    pairs = [(j, k) for j in range(nodes) for k in range(nodes) if j != k]
    dense = rng.choice((0.3, 0.6, 1.0))
    for j, k in rng.sample(pairs, len(pairs)):
        if rng.random() < dense:
            link = {"from": j, "to": k}
            if version > 1 and rng.random() < 0.6:
                link["latency"] = rng.choice((1, rng.randrange(1, 300), rng.randrange(1, 5000)))
            if version == 3 and rng.random() < 0.6:
                link["open"] = drawn_spans(rng, limit)
            document["link"].append(link)
    return Drawn(document, images)


def late(number):
    """A drawn network whose nodes sleep up to about the end of an epoch, and send and sample on both sides of it: there a run
    drops what can no longer be heard."""
    rng = random.Random(f"late {number}")
    nodes = rng.randrange(2, 5)
    document = {"version": 3, "cycles": EPOCH + rng.randrange(1, 4000), "latency": rng.randrange(1, 3000)}
    document |= {"byte_time": rng.randrange(256, 4097), "node": [{"image": "net.hex"}] * nodes, "link": [], "input": []}
    for k in range(nodes):
        orders = bytes(rng.choice((0x80, 0x40, 0xC0)) | rng.randrange(32) for _ in range(rng.randrange(8, 20)))
        at = EPOCH - rng.randrange(3000)
        document["input"].append({"node": k, "at": at, "every": rng.randrange(260, 600), "hex": orders.hex()})
        for j in range(nodes):
            if j != k:
                link = {"from": j, "to": k}
                if rng.random() < 0.6:
                    link["latency"] = rng.choice((rng.randrange(1, 300), rng.randrange(1, 4000)))
                if rng.random() < 0.2:
                    link["open"] = [[EPOCH - rng.randrange(2000), EPOCH], [EPOCH, EPOCH + rng.randrange(1, 2000)]]
                document["link"].append(link)
    return Drawn(document, {"net.hex": NET})


def aimed(number, base, network):
    """The same network, but for one link: its latency or its spans are such that a byte that was sent in the run of
    `network` is just heard, or just not, by a sample of that run. None where no such link is found."""
    rng = random.Random(f"aimed {number}")
    links = base.document["link"]
    found = [
        (link, sent, cycle)
        for link in links
        for node, sent, _ in network.sends
        if node == link["from"]
        for listener, cycle, _ in network.samples
        if listener == link["to"] and 1 <= cycle - sent
    ]
    if not found:
        return None
    link, sent, cycle = rng.choice(found)
    document = dict(base.document) | {"version": 3, "link": [dict(it) for it in links]}
    changed = document["link"][links.index(link)]
    changed.pop("open", None)
    off = rng.choice((0, 1, -1, document["byte_time"] - 1, document["byte_time"]))
    changed["latency"] = min(65_535, max(1, cycle - sent - off))
    if rng.random() < 0.4:
        a, b = rng.choice(((sent, sent + 1), (sent + 1, sent + 9), (max(0, sent - 9), sent), (0, sent + 1)))
        changed["open"] = [[a, max(b, a + 1)]]
    return Drawn(document, base.images)
