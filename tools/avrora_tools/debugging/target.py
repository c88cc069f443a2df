"""A node as avr-gdb sees one: its registers, and its memories behind the addresses that avr-gdb gives them."""
from avrora_tools.states import IO_FIRST, SRAM_FIRST, Node

# Where avr-gdb has the data space; the flash is at 0.
DATA_SPACE = 0x800000
DATA_BYTES = 0x1100

# The addresses of the core's registers in the data space (ATmega128 datasheet, "Register Summary").
RAMPZ, SPL, SPH, SREG = 0x5B, 0x5D, 0x5E, 0x5F

# Device registers by data address: the name of the number that a state has, and whether it is its upper byte.
BYTES = {
    0x53: "TCCR0", 0x52: "TCNT0", 0x51: "OCR0", 0x45: "TCCR2", 0x44: "TCNT2", 0x43: "OCR2",
    0x4E: "TCCR1B", 0x8A: "TCCR3B", 0x2A: "UCSR0B", 0x2D: "SPCR", 0x2F: "SPDR",
}  # fmt: skip
WORDS = {
    0x4C: "TCNT1", 0x4A: "OCR1A", 0x48: "OCR1B", 0x78: "OCR1C", 0x46: "ICR1",
    0x88: "TCNT3", 0x86: "OCR3A", 0x84: "OCR3B", 0x82: "OCR3C", 0x80: "ICR3",
}  # fmt: skip

# Flag registers: the numbers of their bits, from bit 0 on.
FLAGS = {
    0x56: ("TOV0", "OCF0", "TOV1", "OCF1B", "OCF1A", "ICF1", "TOV2", "OCF2"),
    0x7C: ("OCF1C", "OCF3C", "TOV3", "OCF3B", "OCF3A", "ICF3", "", ""),
}


def registers(node: Node) -> bytes:
    """All registers in the order of avr-gdb: r0 to r31, SREG, SP (two bytes), PC (four, a byte address)."""
    stack, counter = node["SP"], 2 * node["PC"]
    general = bytes(node[f"r{number}"] for number in range(32))
    return general + bytes([node["SREG"]]) + stack.to_bytes(2, "little") + counter.to_bytes(4, "little")


def without_counter(data: bytes | bytearray) -> list[bytes]:
    """The same but PC, one by one, of a data space in which SP and SREG stand too."""
    return [bytes(data[at : at + 1]) for at in (*range(32), SREG)] + [bytes(data[SPL : SPH + 1])]


# Where each register lies in that: its first byte, and how many it has.
PLACES = [(number, 1) for number in range(33)] + [(33, 2), (35, 4)]


def data_space(node: Node) -> bytes:
    """The data space as it can be looked at without the effects of a read: general registers, the core's, those of
    devices that a state tells, bytes that registers keep, the SRAM. A register that a state does not tell is 0."""
    data = bytearray(node.data)
    for at, name in BYTES.items():
        data[at] = node[name] & 0xFF
    for at, name in WORDS.items():
        data[at : at + 2] = node[name].to_bytes(2, "little")
    for at, names in FLAGS.items():
        data[at] = sum(1 << bit for bit, name in enumerate(names) if name and node[name])
    data[RAMPZ], data[SREG] = node["RAMPZ"], node["SREG"]
    data[SPL], data[SPH] = node["SP"] & 0xFF, node["SP"] >> 8
    assert IO_FIRST < SRAM_FIRST <= len(data)
    return bytes(data)


def memory_map(flash_bytes: int) -> bytes:
    """What gdb is told of the memories."""
    return (
        '<?xml version="1.0"?><!DOCTYPE memory-map PUBLIC "+//IDN gnu.org//DTD GDB Memory Map V1.0//EN" '
        '"http://sourceware.org/gdb/gdb-memory-map.dtd"><memory-map>'
        f'<memory type="rom" start="0x0" length="{flash_bytes:#x}"/>'
        f'<memory type="ram" start="{DATA_SPACE:#x}" length="{DATA_BYTES:#x}"/></memory-map>'
    ).encode()
