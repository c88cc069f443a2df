"""Draws states of a scenario, also such as no run comes to: each number anywhere within its bounds (docs/FORMATS.md, "States").
Always the same of the same random numbers."""
from states import CORE, EPOCH, IO_BITS, IO_BYTES, IO_FIRST, SRAM_BYTES, Saved, SavedNode, core_bounds, ports_bounds, timers_bounds, within

SPI_CONTROL, RADIO, FREE = 14, 24, 28


def drawn_number(rng, bound):
    """A number of those that a bound allows, often one at its ends."""
    if isinstance(bound, int):
        return rng.choice((0, bound, rng.randrange(bound + 1), rng.randrange(min(bound, 300) + 1)))
    return rng.choice((bound[0], bound[-1], bound[rng.randrange(len(bound))], bound[rng.randrange(min(len(bound), 2000))]))


def drawn_core(rng, used, stopped):
    core = [drawn_number(rng, bound) for bound in core_bounds()]
    if rng.random() < 0.8:
        core[33] = rng.choice((0x10FF, rng.randrange(0x100, 0x1100)))
    if rng.random() < 0.9:
        core[34] = rng.randrange(used)
    core[36], core[37] = rng.choice((0, 0, rng.randrange(8))), rng.choice((0, 0, 1))
    core[38] = rng.choice((0, 0, 0, 1))
    core[39] = rng.randrange(1, 27) if stopped else 0
    return core


def begin(core):
    """The processor as its program begins, without interrupts."""
    core[32] &= 0x7F
    core[34] = core[38] = 0


def drawn_ports(rng, first):
    ports = [0] * 29
    # the bounds of a number go by those before it
    for place in range(len(ports)):
        ports[place] = drawn_number(rng, ports_bounds(ports, first)[place])
        if place == SPI_CONTROL and rng.random() < 0.6:
            ports[place] = rng.choice((0x50, 0x51, 0xD0))
        if place == FREE and rng.random() < 0.8:
            ports[place] = rng.choice((0, rng.randrange(first + 1), max(0, first + rng.randrange(-600, 3_000))))
    return ports


def drawn_io(rng):
    io = bytearray(IO_BYTES)
    for at, bits in IO_BITS.items():
        io[at - IO_FIRST] = rng.choice((0, bits, rng.randrange(256))) & bits
    if rng.random() < 0.8:
        # the radio is selected, sleep is idle
        io[0x37 - IO_FIRST] |= 1
        io[0x38 - IO_FIRST] &= 0xFE
        io[0x55 - IO_FIRST] &= 0x63
    return bytes(io)


def drawn_node(rng, cycle, used):
    stopped = rng.random() < 0.05
    core = drawn_core(rng, used, stopped)
    if rng.random() < 0.7:
        begin(core)
    timers = [drawn_number(rng, bound) for bound in timers_bounds()]
    ports = drawn_ports(rng, 0 if stopped else cycle)
    sram = bytes(rng.randrange(256) for _ in range(SRAM_BYTES)) if rng.random() < 0.5 else bytes(SRAM_BYTES)
    assert len(core) == CORE and within(ports, ports_bounds(ports, 0 if stopped else cycle))
    return SavedNode(core, timers, ports, drawn_io(rng), sram)


def drawn_sends(rng, rules, cycle):
    """Sends that can be heard, of any node, as close as can be."""
    span = rules.longest + rules.byte_time - 1
    kind = rng.choice(("none", "few", "many", "close"))
    count = {"none": 0, "few": 3, "many": 40, "close": 20}[kind]
    width = min(span, 30 if kind == "close" else span)
    first = rng.randrange(max(cycle - span, 0), cycle - width + 1)
    found = {(rng.randrange(first, first + width), rng.randrange(rules.nodes)) for _ in range(count)}
    if rng.random() < 0.3:
        found |= {(max(cycle - span, 0), rng.randrange(rules.nodes)), (cycle - 1, rng.randrange(rules.nodes))}
    return [(node, sent, rng.choice((0x01, 0x02, 0x80, 0xFF, rng.randrange(256)))) for sent, node in sorted(found)]


def drawn_state(rng, rules, epochs=1, used=60):
    """A state at the end of one of the first epochs, of programs that use so many words."""
    cycle = EPOCH * rng.randrange(1, epochs + 1)
    nodes = [drawn_node(rng, cycle, used) for _ in range(rules.nodes)]
    return Saved(cycle, nodes, drawn_sends(rng, rules, cycle))
