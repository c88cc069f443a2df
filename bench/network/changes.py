"""What is seen of a run of the slow simulator beside this file, by whole states. After each cycle all bytes of each
node are compared with those before it, and the address of each instruction that begins is written down."""
from places import AT, BYTE, KINDS

SRAM_FIRST, SIZE = 0x100, 0x1100
BYTES, BEGUN = KINDS.index(BYTE), KINDS.index(AT)


def memory(node):
    """All bytes of a node that a state has, by data address."""
    held = bytearray(SIZE)
    held[:32] = bytes(node.reg)
    for at, byte in node.io.items():
        held[at] = byte
    held[0x5D], held[0x5E], held[0x5F] = node.sp & 0xFF, node.sp >> 8, node.sreg
    held[SRAM_FIRST:] = node.sram[SRAM_FIRST:]
    return bytes(held)


class Changes:
    """All that is seen of a network from the cycle on in which it stands: in `seen` cycle, node, kind, address, and byte."""

    def __init__(self, network):
        self.network, self.seen = network, []
        self.held = [memory(node) for node in network.nodes]
        for node in network.nodes:
            self.note_instructions(node)

    def note_instructions(self, node):
        plain = type(node).instruction

        def noted():
            self.seen.append((node.now, node.number, BEGUN, node.pc, None))
            plain(node)

        node.instruction = noted

    def run_to(self, end):
        for cycle in range(self.network.first, end):
            moving = [node for node in self.network.nodes if not node.stopped and (not node.rests or cycle in node.script)]
            self.network.run_to(cycle + 1)
            for node in moving:
                before, after = self.held[node.number], memory(node)
                if before != after:
                    self.seen += [(cycle, node.number, BYTES, at, after[at]) for at in range(SIZE) if before[at] != after[at]]
                    self.held[node.number] = after

    def text(self, places, first, end):
        """What `watch` writes of these places in the cycles from `first` on and below `end`."""
        chosen = set(places)
        return "".join(line(*it) for it in sorted(it[:4] + (it[4] or 0,) for it in self.seen if first <= it[0] < end and it[1:4] in chosen)).encode()


def line(cycle, node, kind, address, byte):
    return f"{cycle} {node} {KINDS[kind]} {address:04X}" + (f" {byte:02X}\n" if kind == BYTES else "\n")
