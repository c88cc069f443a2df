"""One gdb: where it stands in the run, and what it asks."""
import os
import re
from collections.abc import Callable

from avrora_tools import images, terminal
from avrora_tools.debugging import replays, target
from avrora_tools.debugging.history import History
from avrora_tools.debugging.inferiors import NUMBER as NUMBER_TEXT
from avrora_tools.debugging.inferiors import THREAD as THREAD_TEXT
from avrora_tools.debugging.inferiors import Inferiors
from avrora_tools.debugging.motion import Action, Motion, Place, Point, Stop
from avrora_tools.debugging.packets import Channel
from avrora_tools.debugging.watchpoints import Range
from avrora_tools.debugging.words import Words
from avrora_tools.errors import ToolError
from avrora_tools.states import Node

LARGEST_PACKET = 0x4000

SUPPORTED = (
    f"PacketSize={LARGEST_PACKET:x};ReverseStep+;ReverseContinue+;swbreak+;hwbreak+;vContSupported+;QStartNoAckMode+;"
    "qXfer:memory-map:read+;qXfer:threads:read+;qXfer:exec-file:read+"
)

FIXED_WORDS = "a run is a fact: nothing of it can be changed"
FIXED = f"E.{FIXED_WORDS}".encode()
NO_ANSWER = b""  # of what this does not know
MALFORMED = b"E.malformed packet"

# What stands behind the first letters of packets: numbers of at most 64 bits in hexadecimal digits.
NUMBER, THREAD = NUMBER_TEXT.encode(), THREAD_TEXT.encode()
FORMS = {
    b"qXfer:memory-map:read::": rb"%s,%s" % (NUMBER, NUMBER),
    b"qXfer:threads:read::": rb"%s,%s" % (NUMBER, NUMBER),
    b"qXfer:exec-file:read:": rb"(?:%s)?:%s,%s" % (NUMBER, NUMBER, NUMBER),
    b"qThreadExtraInfo,": THREAD,
    b"qRcmd,": rb"(?:[0-9a-fA-F]{2})*",
    b"vCont": rb"(?:;[cCsS][0-9a-fA-F]*(?::%s)?|;r%s,%s(?::%s)?)+" % (THREAD, NUMBER, NUMBER, THREAD),
    b"p": NUMBER,
    b"m": rb"%s,%s" % (NUMBER, NUMBER),
    b"H": rb"[a-z](?:%s)?" % THREAD,
    b"T": THREAD,
    b"D": rb"(?:;%s)?" % NUMBER,
    b"vKill": rb";%s" % NUMBER,
    **dict.fromkeys((b"Z0", b"Z1", b"Z2", b"z0", b"z1", b"z2"), rb",%s,%s.*" % (NUMBER, NUMBER)),
}

THINKING = 0.05  # seconds without a packet: gdb waits for its user

PC = 34  # as gdb numbers registers



class Ended(Exception):
    """gdb takes its leave."""


class Session:
    """Answers the packets of one gdb."""

    def __init__(
        self,
        history: History,
        channel: Channel,
        cycle: int = 0,
        node: int = 0,
        inferiors: Inferiors | None = None,
    ) -> None:
        self.history, self.channel = history, channel
        self.inferiors = inferiors or Inferiors(history.scenario)
        history.refuse_changes()
        self.flashes = [history.flash(node) for node in self.nodes()]
        self.motion = Motion(history, Place(cycle, node), self.inferiors.of_node, channel.has_interrupt, self.tell)
        self.general = self.shown = node  # the node that gdb asks about; the one that its user looks at
        self.going = list(self.nodes())  # those that gdb lets go
        self.detached: set[int] = set()  # programs that gdb is done with
        self.words = Words(self)
        self.answers: list[tuple[bytes, Callable[[bytes], bytes | None]]] = [
            (b"qSupported", self.negotiate),
            (b"QStartNoAckMode", self.stop_acknowledging),
            (b"qXfer:memory-map:read::", self.read_memory_map),
            (b"qXfer:threads:read::", self.read_threads),
            (b"qXfer:exec-file:read:", self.read_exec_file),
            (b"qfThreadInfo", self.list_threads),
            (b"qsThreadInfo", lambda _: b"l"),
            (b"qThreadExtraInfo,", self.tell_thread),
            (b"qC", lambda _: f"QC{self.inferiors.thread(self.motion.at.node)}".encode()),
            (b"qAttached", lambda _: b"1"),
            (b"qSymbol", lambda _: b"OK"),
            (b"qRcmd,", self.command),
            (b"vCont?", lambda _: b"vCont;c;C;s;S;r"),
            (b"vCont", self.resume),
            (b"vMustReplyEmpty", lambda _: NO_ANSWER),
            (b"vKill", self.leave),
            (b"?", lambda _: self.told(Stop())),
            (b"g", lambda _: self.registers(self.general).hex().encode()),
            (b"p", self.read_register),
            (b"m", self.read_memory),
            (b"G", lambda _: FIXED),
            (b"P", lambda _: FIXED),
            (b"M", self.refuse_write),
            (b"X", self.refuse_write),
            (b"H", self.choose),
            (b"T", self.is_alive),
            (b"Z0", self.set_point),
            (b"Z1", self.set_point),
            (b"Z2", self.set_watch),
            (b"Z3", self.refuse_read_watch),
            (b"Z4", self.refuse_read_watch),
            (b"z0", self.clear_point),
            (b"z1", self.clear_point),
            (b"z2", self.clear_watch),
            (b"bs", lambda _: self.told(self.motion.step_back(self.continuing()))),
            (b"bc", lambda _: self.told(self.motion.go_back(self.going))),
            (b"s", lambda _: self.told(self.motion.step(Action(True, 0, 0, True, self.continuing(), [])))),
            (b"c", lambda _: self.told(self.motion.go_on(self.going))),
            (b"D", self.leave),
            (b"k", self.end),
        ]

    # ---- the conversation

    def serve(self) -> None:
        """Answers until gdb takes its leave, or is gone."""
        while True:
            if not self.channel.waits(THINKING):
                self.motion.rest()
            packet = self.channel.receive()
            try:
                answer = self.answered(packet)
            except Ended:
                self.channel.send(b"OK")
                return
            except ToolError as fault:
                answer = f"E.{fault}".encode("ascii", "replace")
            if answer is not None:
                self.channel.send(answer)

    def answered(self, packet: bytes) -> bytes | None:
        for begins, answer in self.answers:
            if packet.startswith(begins):
                form = FORMS.get(begins, rb".*")
                return answer(packet) if re.fullmatch(form, packet[len(begins) :], re.DOTALL) else MALFORMED
        return NO_ANSWER

    def stop_acknowledging(self, _: bytes) -> None:
        self.channel.send(b"OK")
        self.channel.acknowledges = False

    def end(self, _: bytes) -> bytes:
        raise Ended

    def leave(self, packet: bytes) -> bytes:
        """gdb is done with an inferior, or with all where it names none."""
        _, named, process = packet.decode("ascii").partition(";")
        if named and self.inferiors.are_several:
            self.detached.add(int(process, 16) - 1)
        if not named or set(self.inferiors.of_node) <= self.detached or not self.inferiors.are_several:
            raise Ended
        return b"OK"

    def negotiate(self, packet: bytes) -> bytes:
        several = self.inferiors.negotiate(packet.decode("ascii", "replace").partition(":")[2])
        return (SUPPORTED + ";multiprocess+" * several).encode()

    def tell(self, text: str) -> None:
        """Shows a text to the user while a run through time is under way."""
        self.channel.send(b"O" + (text + "\n").encode().hex().encode())

    def told(self, stop: Stop) -> bytes:
        node = self.general = self.shown = self.motion.at.node
        self.going = list(self.nodes())
        thread = self.inferiors.thread(node)
        return f"T{stop.signal:02x}thread:{thread};{self.known_registers(node)}{stop.more}".encode()

    def known_registers(self, node: int) -> str:
        """Registers for a stop reply, as far as no call of the simulator is made for them."""
        if self.motion.word is None:
            return ""
        counter = (2 * self.motion.word).to_bytes(4, "little").hex()
        data = self.history.replayed(node, self.motion.at.cycle)
        found = "".join(
            f"{number:02x}:{at.hex()};" for number, at in enumerate(target.without_counter(data))
        ) if data else ""
        return f"{found}{PC:02x}:{counter};"

    # ---- what there is

    def state(self, node: int) -> Node:
        return self.history.state(self.motion.at.cycle).nodes[node]

    def registers(self, node: int) -> bytes:
        cycle = self.motion.at.cycle
        if (row := self.history.row_at(node, cycle)) and (data := self.history.replayed(node, cycle)):
            return b"".join(target.without_counter(data)) + (2 * row.address).to_bytes(4, "little")
        return target.registers(self.state(node))

    def read_register(self, packet: bytes) -> bytes:
        number = int(packet[1:], 16)
        if number >= len(target.PLACES):
            return b"E.no such register"
        first, length = target.PLACES[number]
        return self.registers(self.general)[first : first + length].hex().encode()

    def read_memory(self, packet: bytes) -> bytes:
        address, length = (int(part, 16) for part in packet[1:].split(b","))
        length = min(length, LARGEST_PACKET // 2 - 8)
        found = self.memory(self.general, address, length)
        return found.hex().encode() if found or not length else b"E.no memory there"

    def memory(self, node: int, address: int, length: int) -> bytes:
        """So many bytes from an address of avr-gdb on, fewer at the end of a memory; none where there is none."""
        if address < target.DATA_SPACE:
            return self.flashes[node][address : address + length]
        at = address - target.DATA_SPACE
        if replays.is_replayed(at, length) and (data := self.history.replayed(node, self.motion.at.cycle)):
            return bytes(data[at : at + length])
        return target.data_space(self.state(node))[at : at + length]

    def read_memory_map(self, packet: bytes) -> bytes:
        return part_of(target.memory_map(images.FLASH_BYTES), packet)

    def read_threads(self, packet: bytes) -> bytes:
        rows = [
            f'<thread id="{self.inferiors.thread(node)}" name="node {node}">{self.about(node)}</thread>'
            for node in self.attached()
        ]
        return part_of(f'<?xml version="1.0"?><threads>{"".join(rows)}</threads>'.encode(), packet)

    def read_exec_file(self, packet: bytes) -> bytes:
        path = self.inferiors.elf(packet.split(b":")[3].decode("ascii"))
        return part_of(os.fsencode(os.path.abspath(path)), packet) if path else b"E.no ELF file is named: -e ELF"

    def list_threads(self, _: bytes) -> bytes:
        return b"m" + ",".join(self.inferiors.thread(node) for node in self.attached()).encode()

    def tell_thread(self, packet: bytes) -> bytes:
        node = self.named(packet.split(b",")[1])
        return b"E.no such node" if node is None else f"node {node}, {self.about(node)}".encode().hex().encode()

    def nodes(self) -> range:
        return range(self.history.nodes)

    def attached(self) -> list[int]:
        """The nodes of all programs that gdb is not done with."""
        return [node for node in self.nodes() if self.inferiors.of_node[node] not in self.detached]

    def named(self, thread: bytes) -> int | None:
        """The one node that a packet names; None where it names several, or none."""
        found = self.inferiors.named(thread.decode("ascii"))
        return found[0] if len(found) == 1 else None

    def about(self, node: int) -> str:
        """What a node does now, in words."""
        stop, asleep = self.history.doing(node, self.motion.at.cycle)
        does = f"stopped: {stop}" if stop else "asleep" if asleep else "awake"
        return f"cycle {self.motion.at.cycle:,}, {does}"

    def choose(self, packet: bytes) -> bytes:
        """Hg: whom gdb asks about; Hc: whom it lets go."""
        found = self.inferiors.named(packet[2:].decode("ascii"))
        if not found:
            return b"E.no such node"
        one = packet[2:] not in (b"", b"0", b"-1") and len(found) == 1
        if packet[1:2] == b"c":
            self.going = found
        elif one:
            self.general = found[0]
        return b"OK"

    def is_alive(self, packet: bytes) -> bytes:
        """gdb asks it of the thread that its user chooses, and of no thread that `info threads` lists."""
        node = self.named(packet[1:])
        if node is None:
            return b"E.no such node"
        self.shown = node
        return b"OK"

    def command(self, packet: bytes) -> bytes:
        text = self.words.answer(bytes.fromhex(packet.split(b",", 1)[1].decode("ascii")).decode("utf-8", "replace"))
        return (text + "\n").encode().hex().encode() if text else b"OK"

    # ---- breakpoints

    def point(self, packet: bytes) -> Point:
        return Point(self.program(), int(packet.split(b",")[1], 16) // 2)

    def program(self) -> int:
        return self.inferiors.of_node[self.general]

    def set_point(self, packet: bytes) -> bytes:
        self.motion.add_point(self.point(packet))
        return b"OK"

    def clear_point(self, packet: bytes) -> bytes:
        self.motion.remove_point(self.point(packet))
        return b"OK"

    def set_watch(self, packet: bytes) -> bytes:
        if self.motion.watches.insert(range_of(packet), self.general):
            return b"OK"
        return explained(
            "only registers, SP, SREG, kept I/O bytes and the SRAM can be watched, at most 64 bytes: delete it"
        )

    def clear_watch(self, packet: bytes) -> bytes:
        self.motion.watches.remove(range_of(packet), self.general)
        return b"OK"

    def refuse_read_watch(self, _: bytes) -> bytes:
        return explained("only writes can be watched, and no reads: delete this watchpoint, and use `watch`")

    def refuse_write(self, packet: bytes) -> bytes:
        """M and X. gdb first tries X with no bytes, which changes nothing."""
        return FIXED if re.match(rb"X[0-9a-fA-F]+,0+:", packet) else explained(FIXED_WORDS)

    # ---- runs through time

    def resume(self, packet: bytes) -> bytes:
        """vCont: what the first thread that is named does; the others go on with it, or only time does."""
        action = self.action_of(packet.decode("ascii"))
        return self.told(self.motion.step(action) if action.steps else self.motion.go_on(action.others))

    def action_of(self, packet: str) -> Action:
        parts = [part.partition(":")[::2] for part in packet.split(";")[1:]]
        word, thread = parts[0]
        named = self.inferiors.named(thread)
        node = named[0] if thread and len(named) == 1 else self.motion.at.node
        ranged = re.fullmatch("r([0-9a-f]+),([0-9a-f]+)", word)
        first, end = (int(ranged[1], 16), int(ranged[2], 16)) if ranged else (0, 0)
        others = sorted({one for _, thread in parts for one in self.inferiors.named(thread)})
        return Action(word[:1] in "sSr", first, end, bool(thread) and len(parts) == 1, node, others)

    def continuing(self) -> int:
        """The node that moves where a packet names none."""
        return self.going[0] if len(self.going) == 1 else self.general


def explained(why: str) -> bytes:
    """A refusal whose words gdb keeps to itself: they go to the standard error too, which gdb shows of a pipe."""
    terminal.say(why)
    return f"E.{why}".encode()


def range_of(packet: bytes) -> Range:
    """The bytes that a packet Z2 or z2 names."""
    address, length = (int(part, 16) for part in packet.split(b";")[0].split(b",")[1:3])
    return Range(address - target.DATA_SPACE, length)


def part_of(text: bytes, packet: bytes) -> bytes:
    """The part of an object that a packet qXfer asks for."""
    offset, length = (int(part, 16) for part in packet.rsplit(b":", 1)[1].split(b","))
    part = text[offset : offset + length]
    return (b"m" if offset + length < len(text) else b"l") + part
