"""States: the text that `avrora save` writes (docs/FORMATS.md, "States"), and the names of what it says."""
import re

from avrora_tools import files
from avrora_tools.errors import BadInput


TITLE = "avrora state 1"

EPOCH = 262_144  # cycles; states are those between two epochs

SRAM_FIRST, DATA_END = 0x100, 0x1100
IO_FIRST, IO_BYTES = 0x20, 0xE0

# The causes of a stop, from number 1 on (docs/MACHINE.md, "Stops").
STOPS = """reserved opcode,undefined operands,spm,break,sleep mode,pwm mode,external timer clock,compare output,forced
compare,input capture enable,prescaler control,usart mode,spi slave,external memory,watchdog enable,eeprom
access,adc,comparator interrupt,twi,external interrupt,clock division,asynchronous timer,moved
vectors,usart1,reserved address,address past 0x10FF""".replace(
    "\n", " "
).split(
    ","
)

# The registers that keep a byte themselves, by data address.
KEPT = """22 DDRE 23 PORTE 26 ADCSRA 27 ADMUX 28 ACSR 31 DDRD 32 PORTD 34 DDRC 35 PORTC 37 DDRB 38 PORTB 3A DDRA
3B PORTA 3D EEDR 3E EEARL 3F EEARH 40 SFIOR 42 OCDR 54 MCUCSR 55 MCUCR 57 TIMSK 5A EICRB 5C XDIV 61 DDRF 62 PORTF
64 DDRG 65 PORTG 6A EICRA 6C XMCRB 6D XMCRA 6F OSCCAL 70 TWBR 71 TWSR 72 TWAR 73 TWDR 74 TWCR 7D ETIMSK 98 UBRR1H
99 UBRR1L 9A UCSR1B 9B UCSR1A 9C UDR1 9D UCSR1C""".split()
IO_NAMES = {int(at, 16): name for at, name in zip(KEPT[::2], KEPT[1::2])}

# The names of a node's numbers in their order. `:2` and `:4` say how many hexadecimal digits show one; without them
# it is decimal.
CORE = [f"r{n}:2" for n in range(32)]
CORE += ["SREG:2", "SP:4", "PC:4", "RAMPZ", "cycles left", "owed", "asleep", "stop", "instructions"]
TIMER8 = ["TCCR{}:2", "TCNT{}:2", "OCR{}:2", "TCNT{} blocked", "TOV{}", "OCF{}"]
TIMER16 = [
    "TCCR{}B:2",
    "TCNT{}:4",
    "OCR{}A:4",
    "OCR{}B:4",
    "OCR{}C:4",
    "ICR{}:4",
    "TEMP{}:2",
    "TCNT{} blocked",
    "TOV{}",
]
TIMER16 += ["OCF{}A", "OCF{}B", "OCF{}C", "ICF{}"]
IN_ORDER = ((0, TIMER8), (2, TIMER8), (1, TIMER16), (3, TIMER16))
TIMERS = [name.format(n) for n, names in IN_ORDER for name in names]
PORTS = ["U2X", "UCSR0B:2", "UCSR0C:2", "UBRR0", "TXC", "DOR", "received", "received 1:2", "received 2:2"]
PORTS += ["frame", "frame end", "frame byte:2", "waiting", "waiting byte:2"]
PORTS += ["SPCR:2", "SPI2X", "SPDR:2", "transfer", "transfer end", "transfer byte:2"]
PORTS += ["SPIF", "WCOL", "SPIF seen", "WCOL seen"]
PORTS += ["radio", "heard status", "heard byte:2", "heard age", "radio free"]
NAMES = [name.partition(":")[0] for name in CORE + TIMERS + PORTS]
DIGITS = [int(name.partition(":")[2] or 0) for name in CORE + TIMERS + PORTS]

NUMBER, SENT = re.compile("0|[1-9][0-9]{0,12}"), re.compile("send (0|[1-9][0-9]?) (0|[1-9][0-9]{0,12}) ([0-9A-F]{2})")


class Node:
    """A node of a state: its numbers by name, and its data space: general registers, I/O bytes that are kept, SRAM."""

    def __init__(self, numbers: list[int], io: bytes, sram: bytes) -> None:
        self.numbers = dict(zip(NAMES, numbers))
        self.data = bytes(byte & 0xFF for byte in numbers[:32]) + io + sram

    def __getitem__(self, name: str) -> int:
        return self.numbers[name]

    def stop(self) -> str | None:
        """The cause that stopped it, or None."""
        number = self["stop"]
        return None if number == 0 else STOPS[number - 1] if number <= len(STOPS) else f"cause {number}"

    def timer(self, number: int) -> dict[str, int]:
        """The numbers of a timer by their names without its number, such as TCNT."""
        names = TIMER16 if number in (1, 3) else TIMER8
        bare = [name.partition(":")[0] for name in names]
        return {name.replace("{}", ""): self[name.format(number)] for name in bare}


class State:
    """A state: its cycle, its nodes, and the sends that may still be heard as (cycle, node, byte)."""

    def __init__(self, cycle: int, nodes: list[Node], sends: list[tuple[int, int, int]]) -> None:
        self.cycle, self.nodes, self.sends = cycle, nodes, sends

    @classmethod
    def load(cls, name: str) -> "State":
        """The state in the file `name`. Raises BadInput where it is none; whether it keeps all bounds the simulator
        says."""
        return cls.of_text(files.read_text(name), files.shown(name))

    @classmethod
    def of_text(cls, text: str, name: str) -> "State":
        lines = text.split("\n")
        if lines[0] != TITLE:
            raise BadInput(f"{name}, line 1: no state: it does not begin with `{TITLE}`")
        if len(lines) < 4 or lines[-2:] != ["end", ""]:
            raise BadInput(f"{name}: the state is cut off: it does not end with a line `end`")
        cycle = numbers(lines, 1, "cycle", 1, name)[0]
        nodes: list[Node] = []
        place = 2
        while lines[place].startswith("core "):
            nodes.append(node_at(lines, place, len(nodes), name))
            place += 5
        sends = [send_at(lines, number, name) for number in range(place, len(lines) - 2)]
        return cls(cycle, nodes, sends)


def node_at(lines: list[str], place: int, k: int, name: str) -> Node:
    found = numbers(lines, place, f"core {k}", len(CORE), name)
    found += numbers(lines, place + 1, f"timers {k}", len(TIMERS), name)
    found += numbers(lines, place + 2, f"ports {k}", len(PORTS), name)
    io = data(lines, place + 3, f"io {k}", IO_BYTES, name)
    return Node(found, io, data(lines, place + 4, f"sram {k}", DATA_END - SRAM_FIRST, name))


def rest_of(lines: list[str], place: int, words: str, name: str) -> str:
    if place >= len(lines) or not lines[place].startswith(words + " "):
        raise BadInput(f"{name}, line {place + 1}: no state: this line must be `{words}`")
    return lines[place][len(words) + 1 :]


def numbers(lines: list[str], place: int, words: str, count: int, name: str) -> list[int]:
    parts = rest_of(lines, place, words, name).split(" ")
    if len(parts) != count or not all(NUMBER.fullmatch(part) for part in parts):
        raise BadInput(f"{name}, line {place + 1}: no state: this line must be `{words}` and {count} numbers")
    return [int(part) for part in parts]


def data(lines: list[str], place: int, words: str, count: int, name: str) -> bytes:
    digits = rest_of(lines, place, words, name)
    if not re.fullmatch(f"([0-9A-F]{{2}}){{{count}}}", digits):
        raise BadInput(f"{name}, line {place + 1}: no state: this line must be `{words}` and {2 * count} digits")
    return bytes.fromhex(digits)


def send_at(lines: list[str], place: int, name: str) -> tuple[int, int, int]:
    match = SENT.fullmatch(lines[place])
    if not match:
        raise BadInput(f"{name}, line {place + 1}: no state: this line must be a `send` or `end`")
    return int(match[2]), int(match[1]), int(match[3], 16)


def shown_number(name: str, value: int) -> str:
    """A number of a node as text."""
    digits = DIGITS[NAMES.index(name)]
    return f"{value:0{digits}X}" if digits else str(value)


def data_name(at: int) -> str:
    """What a data address is called."""
    return f"0x{at:04X} {IO_NAMES[at]}" if at in IO_NAMES else f"0x{at:04X}"
