"""A trace as a value change dump, for GTKWave and other viewers of waves."""
import argparse
import heapq
import itertools
import sys
from collections.abc import Iterator, Mapping, Sequence
from typing import Final

from avrora_tools import cli, programs, showing, traces
from avrora_tools.errors import BadInput, BadWords
from avrora_tools.events import CLASH, Enter, Event, Heard, Instr, Sent, Serial, Stop
from avrora_tools.hearing import Hearing
from avrora_tools.instructions import SLEEP
from avrora_tools.observing.quantities import Quantity, bare
from avrora_tools.observing.running import Network, Observed, Run
from avrora_tools.observing.settling import Moment
from avrora_tools.scenarios import DEFAULT_TIME, Scenario
from avrora_tools.states import EPOCH
from avrora_tools.variables import Base, Enumeration

SUMMARY = "waves for GTKWave"

DESCRIPTION = """Writes a trace as a value change dump (VCD, IEEE 1364), for GTKWave. For each node:
  sent        1 while its byte is on the air (the scenario's byte time); sent_byte the byte
  sample      an event for each sample of the air; heard_status (0 to 2), heard_byte, heard_age what it heard;
              clash 1 for status 2
  serial      an event for each byte that USART0 sent; serial_byte the byte
  pc          the word address of the instruction, instr its text, asleep, vector the interrupt that was entered
              last; unknown outside of the window, where no instructions are traced
  function    with -e: the function that the instruction lies in
  stopped     1 from the node's stop on
With --watch, -s and -e there are variables and registers too, by their names: enumerations by the names of their
values, floating-point numbers as real ones, each from the cycle behind its write on. If a variable has one of the
names above, its address stands behind its name: sent@0104. The simulator runs for them once more. A time unit is a
cycle, or with --hz a picosecond. The tool takes a trace with its end rows, also one of `avrora resume` and of the tool window, or with --head
the beginning of one."""

REAL = "real"

PICOSECONDS_A_SECOND = 10**12

Kinds = Mapping[str, int | str]

# The variables of a node: their widths in bits, or the kinds that VCD knows besides.
VARIABLES: Final[Kinds] = {
    "sent": 1,
    "sent_byte": 8,
    "sample": "event",
    "heard_status": 2,
    "heard_byte": 8,
    "heard_age": 8,
    "clash": 1,
    "serial": "event",
    "serial_byte": 8,
    "pc": 16,
    "instr": "string",
    "function": "string",
    "asleep": 1,
    "vector": "string",
    "stopped": 1,
}
KNOWN_FROM_THE_START = ("sent", "clash", "stopped")
OF_THE_WINDOW = ("pc", "asleep")  # unknown again behind it


class Writer:
    """Writes changes in the order of time; some are known before their time."""

    def __init__(
        self, nodes: Sequence[int], names: Mapping[int, str], hz: int | None, waves: Mapping[int, Kinds] | None = None
    ) -> None:
        """`waves` are kinds of further variables, by node and name."""
        self.hz = hz
        self.kinds: dict[int, Kinds] = {node: {**VARIABLES, **(waves or {}).get(node, {})} for node in nodes}
        self.codes: dict[tuple[int, str], str] = {}
        self.now = 0
        self.later: list[tuple[int, int, int, str, int]] = []
        self.order = itertools.count()
        self.values: dict[str, int | float | str | None] = {}
        self.head(nodes, names)

    def head(self, nodes: Sequence[int], names: Mapping[int, str]) -> None:
        unit = "1 ps" if self.hz else "1 ns"
        note = "" if self.hz else "$comment one unit of time is one cycle $end\n"
        sys.stdout.write(f"{note}$timescale {unit} $end\n$scope module network $end\n")
        for node in nodes:
            sys.stdout.write(f"$scope module node{node}{showing.vcd_word(names[node]) if names[node] else ''} $end\n")
            for name, width in self.kinds[node].items():
                code = self.codes[node, name] = code_of(len(self.codes))
                kind = f"{width} {64 if width == REAL else 1}" if isinstance(width, str) else f"wire {width}"
                bits = f" [{width - 1}:0]" if isinstance(width, int) and width > 1 else ""
                sys.stdout.write(f"$var {kind} {code} {name}{bits} $end\n")
            sys.stdout.write("$upscope $end\n")
        sys.stdout.write("$upscope $end\n$enddefinitions $end\n#0\n$dumpvars\n")
        for node in nodes:
            for name, width in self.kinds[node].items():
                if isinstance(width, int):
                    self.put(node, name, 0 if name in KNOWN_FROM_THE_START else None)
        sys.stdout.write("$end\n")

    def advance(self, cycle: int) -> None:
        """Goes on to a cycle, past the changes that wait for an earlier one."""
        while self.later and self.later[0][0] <= cycle:
            due, _, node, name, value = heapq.heappop(self.later)
            self.time(due)
            self.put(node, name, value)
        self.time(cycle)

    def time(self, cycle: int) -> None:
        if cycle != self.now:
            self.now = cycle
            sys.stdout.write(f"#{(cycle * PICOSECONDS_A_SECOND + self.hz // 2) // self.hz if self.hz else cycle}\n")

    def put(self, node: int, name: str, value: int | float | str | None) -> None:
        """Sets a variable now; None is an unknown value."""
        width, code = self.kinds[node][name], self.codes[node, name]
        if width == "event":
            sys.stdout.write(f"1{code}\n")
        elif code in self.values and self.values[code] == value:
            return
        elif width == "string":
            sys.stdout.write(f"s{showing.vcd_word(str(value))} {code}\n")
        elif width == REAL:
            sys.stdout.write(f"r{value!r} {code}\n")
        elif width == 1:
            sys.stdout.write(f"{'x' if value is None else value}{code}\n")
        else:
            sys.stdout.write(f"b{'x' if value is None else f'{value:b}'} {code}\n")
        self.values[code] = value

    def wait(self, cycle: int, node: int, name: str, value: int) -> None:
        """Sets a variable once the time has come."""
        heapq.heappush(self.later, (cycle, next(self.order), node, name, value))

    def cancel(self, node: int, name: str) -> None:
        self.later = [change for change in self.later if change[2:4] != (node, name)]
        heapq.heapify(self.later)

    def finish(self) -> None:
        """Writes what still waits."""
        self.advance(max((change[0] for change in self.later), default=self.now))


def code_of(number: int) -> str:
    """The short name of a variable, of printable characters."""
    code = ""
    while True:
        number, digit = divmod(number, 94)
        code += chr(33 + digit)
        if not number:
            return code


class Dump:
    """Turns rows into changes."""

    def __init__(
        self,
        writer: Writer,
        nodes: Sequence[int],
        byte_time: int,
        window: tuple[int, int] | None,
        all_programs: programs.Programs,
    ) -> None:
        self.writer, self.nodes, self.byte_time, self.window = writer, nodes, byte_time, window
        self.programs = all_programs
        self.naps: set[int] = set()  # nodes whose sleep waits to begin
        self.last_heard: dict[int, Heard] = {}

    def advance(self, cycle: int) -> None:
        """Goes on to a cycle, past the window's end if that comes before."""
        if self.window and cycle >= self.window[1]:
            self.leave_window(self.window[1])
        self.writer.advance(cycle)

    def read(self, cycle: int, node: int, event: Event) -> None:
        self.advance(cycle)
        if isinstance(event, Instr):
            self.read_instr(cycle, node, event)
        elif isinstance(event, Heard):
            self.read_heard(node, event)
        elif isinstance(event, Enter):
            self.wake(node)
            self.writer.put(node, "vector", programs.vector_name(event.vector))
        elif isinstance(event, Serial):
            self.writer.put(node, "serial_byte", event.byte)
            self.writer.put(node, "serial", 1)
        elif isinstance(event, Sent):
            self.read_sent(cycle, node, event)
        elif isinstance(event, Stop):
            if node in self.naps:  # an interrupt woke it, whose entry stopped it
                self.wake(node)
            self.writer.put(node, "instr", f"stop {event.cause}")
            self.writer.put(node, "stopped", 1)

    def leave_window(self, end: int) -> None:
        """What instruction rows tell is unknown from the window's end on."""
        self.writer.advance(end)
        self.naps.clear()
        for node in self.nodes:
            self.writer.cancel(node, "asleep")
            for name in OF_THE_WINDOW:
                self.writer.put(node, name, None)
        self.window = None

    def wake(self, node: int) -> None:
        if node in self.naps:
            self.writer.cancel(node, "asleep")
            self.naps.discard(node)
        self.writer.put(node, "asleep", 0)

    def read_instr(self, cycle: int, node: int, event: Instr) -> None:
        self.wake(node)
        self.writer.put(node, "pc", event.address)
        self.writer.put(node, "instr", event.instruction)
        program = self.programs.of(node)
        function = program.function_at(event.address) if program else None
        if function:
            self.writer.put(node, "function", function.name)
        if event.instruction == SLEEP:
            self.writer.wait(cycle + 1, node, "asleep", 1)
            self.naps.add(node)

    def read_sent(self, cycle: int, node: int, event: Sent) -> None:
        self.writer.cancel(node, "sent")
        self.writer.put(node, "sent_byte", event.byte)
        self.writer.put(node, "sent", 1)
        self.writer.wait(cycle + self.byte_time, node, "sent", 0)

    def read_heard(self, node: int, event: Heard) -> None:
        put = self.writer.put
        if self.last_heard.get(node) is not event:
            self.last_heard[node] = event
            put(node, "heard_status", event.status)
            put(node, "heard_byte", event.byte)
            put(node, "heard_age", event.age)
            put(node, "clash", int(event.status == CLASH))
        put(node, "sample", 1)


class Waves:
    """Quantities of nodes as variables of the dump."""

    def __init__(self, observed: Observed, network: Network) -> None:
        self.observed, self.network = observed, network
        self.words = {node: words_of(found) for node, found in observed.quantities.items()}
        self.kinds: dict[int, Kinds] = {
            node: {self.words[node][one.name]: kind_of(one) for one in found}
            for node, found in observed.quantities.items()
        }

    def begin(self, writer: Writer) -> None:
        """The values at the beginning of the run."""
        for (node, number), held in self.observed.values(self.observed.run.first).items():
            one = self.observed.quantities[node][number]
            writer.put(node, self.words[node][one.name], self.value(node, one, held))

    def value(self, node: int, one: Quantity, held: bytes) -> int | float | str:
        kind = kind_of(one)
        if kind == "string":
            return one.shown(held, self.network.names(node).targets)
        if kind == REAL:
            return float(one.number(held))
        return int.from_bytes(one.data(held), "little") & (1 << int(kind)) - 1

    def moments(self) -> Iterator[tuple[int, Moment]]:
        """Each new value, with the cycle from which on the node has it."""
        run = self.observed.run
        for moment in self.observed.moments(run.first, run.limit):
            yield moment.cycle + 1, moment


def words_of(quantities: Sequence[Quantity]) -> dict[str, str]:
    """A word of the dump for each quantity, by its name. One gets its address behind it where the dump has a variable
    of its own by that name, such as `sent`, or where another name differs in no letter that a dump may have."""
    found: dict[str, str] = {}
    taken = set(VARIABLES)
    for one in quantities:
        word = showing.vcd_word(one.name)
        if word in taken:
            word += f"@{one.address:04X}" + (f".{one.low_bit}" if one.bits else "")
        taken.add(word)
        found[one.name] = word
    return found


def kind_of(one: Quantity) -> int | str:
    """A width in bits, or a kind of VCD."""
    type_ = bare(one.type)
    if isinstance(type_, Enumeration):
        return "string"
    if isinstance(type_, Base) and isinstance(one.number(bytes(one.size)), float):
        return REAL
    return one.bits or 8 * one.size


def waves_of(
    arguments: argparse.Namespace, scenario: Scenario | None, all_programs: programs.Programs, nodes: Sequence[int]
) -> Waves | None:
    if not arguments.watch:
        return None
    if scenario is None:
        raise BadWords("--watch runs the scenario once more: name it (-s)")
    network = Network(scenario, all_programs)
    limit = arguments.head * EPOCH if arguments.head else scenario.cycles
    run = Run.of(cli.simulator(arguments.avrora), arguments.scenario, min(limit, scenario.cycles))
    return Waves(Observed(run, network.selected(arguments.watch, nodes)), network)


def configure(parser: argparse.ArgumentParser) -> None:
    cli.describe(parser, DESCRIPTION, "vcd -s flood.toml flood.trace > flood.vcd")
    cli.add_simulator(parser)
    cli.add_watch(parser)
    programs.add_programs(parser)
    cli.add_nodes(parser)
    parser.add_argument("--byte-time", type=cli.positive, help="where no scenario tells it (%d)" % DEFAULT_TIME)
    cli.add_clock(parser)
    cli.add_head(parser)
    cli.add_trace(parser)


def run(arguments: argparse.Namespace) -> int:
    scenario = Scenario.load(arguments.scenario) if arguments.scenario else None
    all_programs = programs.Programs(arguments.elf, scenario, arguments.force)
    nodes = nodes_of(arguments, scenario)
    names = {node: f"_{programs.stem(scenario.images[node])}" if scenario else "" for node in nodes}
    byte_time = arguments.byte_time or (scenario.byte_time if scenario else DEFAULT_TIME)
    trace = traces.read(
        arguments.trace, traces.form_of(arguments), scenario=scenario, epochs=arguments.head, prints=True
    )
    hearing = Hearing(scenario, trace.name) if scenario else None
    rows = iter(trace)
    first = next(rows)  # what is not a trace leaves no front of a dump
    waves = waves_of(arguments, scenario, all_programs, nodes)
    writer = Writer(nodes, names, arguments.hz, waves.kinds if waves else None)
    dump = Dump(writer, nodes, byte_time, scenario.window if scenario else None, all_programs)
    changes: Iterator[tuple[int, Moment]] = iter(())
    if waves:
        waves.begin(writer)
        changes = waves.moments()
    waiting = next(changes, None)
    for cycle, node, event in itertools.chain([first], rows):
        while waves and waiting and waiting[0] <= cycle:
            put_change(dump, waves, waiting)
            waiting = next(changes, None)
        all_programs.compare(node, event)
        if hearing:
            hearing.row(cycle, node, event)
        if node in names:
            dump.read(cycle, node, event)
    while waves and waiting and arguments.head:  # a head has no end rows
        put_change(dump, waves, waiting)
        waiting = next(changes, None)
    writer.finish()
    return 0


def put_change(dump: Dump, waves: Waves, change: tuple[int, Moment]) -> None:
    cycle, moment = change
    dump.advance(cycle)
    name = waves.words[moment.node][moment.quantity.name]
    dump.writer.put(moment.node, name, waves.value(moment.node, moment.quantity, moment.held))


def nodes_of(arguments: argparse.Namespace, scenario: Scenario | None) -> list[int]:
    """The nodes that are written: those of -n, else of the scenario, else those that a first look at the file finds."""
    wanted: set[int] | None = arguments.nodes
    if scenario:
        nodes = set(range(len(scenario.images)))
    elif wanted is not None:
        nodes = wanted
    elif arguments.trace == "-":
        raise BadInput("a stream tells its nodes too late: name them (-n), or the scenario (-s)")
    else:
        nodes = {node for _, node, _ in traces.read(arguments.trace, traces.Form.ROWS)}
    nodes = nodes if wanted is None else nodes & wanted
    if not nodes:
        raise BadInput("the scenario has none of these nodes")
    return sorted(nodes)
