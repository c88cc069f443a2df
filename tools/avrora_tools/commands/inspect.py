"""Shows in words what a state says, and what differs between two."""
import argparse
import re
from collections.abc import Iterator, Sequence

from avrora_tools import cli, files, scenarios, states, terminal
from avrora_tools.errors import BadInput, BadWords, Status
from avrora_tools.inspection import View
from avrora_tools.observing.running import Run
from avrora_tools.programs import Program, Programs, add_programs
from avrora_tools.states import Node, State

SUMMARY = "a state in words; what differs between two"

DESCRIPTION = """Shows what `avrora save` or `avrora look` wrote: each node's processor, stack and devices, and what is
on the air. With --at CYCLE it takes a scenario, and shows the state in which its run begins that cycle. With a second
state it tells instead what differs, by name: the number of the first state, then that of the second. Addresses of the
program are word addresses, as in a trace. Status of a comparison: 0 nothing differs, 1 something does.

With -e it also tells which functions have not returned, as far as their frames show, and how low the stack has been:
the lowest byte above the variables that is not 0, as all memory is 0 at reset. With -g variables have their types and
values: -g 'queue*', or -g '*' for all; one that is static in a function is called FUNCTION.NAME."""

Named = tuple[str, str]  # a name and a text
Span = tuple[int, int]  # of data addresses: the first, and the one behind the last

FLAGS = "ITHSVNZC"
STACK_BYTES = 16
MOST_DIFFERENCES = 64  # of the bytes of one node, unless all are asked for
DIVIDERS = {0: (1, 8, 32, 64, 128, 256, 1024), 1: (1, 8, 64, 256, 1024)}
MODES16 = {1: ", CTC to OCRA", 3: ", CTC to ICR"}
RADIO = ("idle", "waits for the byte to send", "3 answers left", "2 answers left", "1 answer left")

# ---- one state


def plural(count: int, what: str) -> str:
    return f"{count:,} {what}" + "s" * (count != 1)


def heading(node: Node) -> str:
    stop = node.stop()
    state = f"stopped: {stop}" if stop else "asleep" if node["asleep"] else "awake"
    waits = [f"{plural(node['cycles left'], 'cycle')} left of what it does"] * bool(node["cycles left"])
    waits += ["an instruction is owed"] * bool(node["owed"])
    return ", ".join([state, plural(node["instructions"], "instruction"), *waits])


def flags_text(sreg: int) -> str:
    """SREG as letters, capital where the flag is set."""
    return "".join(letter if sreg >> (7 - place) & 1 else letter.lower() for place, letter in enumerate(FLAGS))


def processor(node: Node, program: Program | None) -> Iterator[Named]:
    place = f" {program.place(node['PC'])}" if program else ""
    sreg = f"SREG {node['SREG']:02X} {flags_text(node['SREG'])}"
    yield "processor", f"PC {node['PC']:04X}{place}, SP {node['SP']:04X}, {sreg}, RAMPZ {node['RAMPZ']}"
    for first in (0, 16):
        yield f"r{first} to r{first + 15}", node.data[first : first + 16].hex(" ").upper()
    pairs = (node["r26"] | node["r27"] << 8, node["r28"] | node["r29"] << 8, node["r30"] | node["r31"] << 8)
    yield "pointers", "X {:04X}, Y {:04X}, Z {:04X}".format(*pairs)
    first = node["SP"] + 1
    if states.SRAM_FIRST <= first < states.DATA_END:
        yield "stack", f"from {first:04X} on: {node.data[first : first + STACK_BYTES].hex(' ').upper()}"


def timer(node: Node, number: int) -> str:
    it = node.timer(number)
    wide = number in (1, 3)
    control, digits = it["TCCRB" if wide else "TCCR"], 4 if wide else 2
    select = control & 7
    dividers = DIVIDERS[0 if number == 0 else 1]
    clock = "halted"
    if 1 <= select <= len(dividers):
        clock = f"a clock each {plural(dividers[select - 1], 'cycle')}"
    mode = MODES16.get(control >> 3 & 3, "") if wide else ", CTC" * (control >> 3 & 1)
    values = [name for name in it if name.startswith(("TCNT", "OCR", "ICR")) and "blocked" not in name]
    shown = ", ".join(f"{name} {it[name]:0{digits}X}" for name in values)
    marks = [name for name in it if name.startswith(("TOV", "OCF", "ICF")) and it[name]]
    marks += ["the next clock is blocked"] * bool(it["TCNT blocked"])
    marks += [f"TEMP {it.get('TEMP', 0):02X}"] * bool(it.get("TEMP"))
    return f"{clock}{mode}, {shown}" + "".join(f", {mark}" for mark in marks)


def until(end: int, cycle: int) -> str:
    return f"until cycle {end:,} (in {end - cycle:,})" if end >= cycle else f"until cycle {end:,}, which is over"


def usart(node: Node, cycle: int) -> str:
    parts = [f"UCSR0B {node['UCSR0B']:02X}, UCSR0C {node['UCSR0C']:02X}, UBRR {node['UBRR0']}"]
    parts += [name for name in ("U2X", "TXC", "DOR") if node[name]]
    if node["frame"]:
        parts.append(f"sends {cli.shown_byte(node['frame byte'])} {until(node['frame end'], cycle)}")
    if node["waiting"]:
        parts.append(f"then {cli.shown_byte(node['waiting byte'])}")
    if node["received"]:
        received = [node["received 1"], node["received 2"]][: node["received"]]
        parts.append("received " + " ".join(map(cli.shown_byte, received)))
    return ", ".join(parts)


def spi(node: Node, cycle: int) -> str:
    parts = [f"SPCR {node['SPCR']:02X}, SPDR {node['SPDR']:02X}"]
    parts += [name for name in ("SPI2X", "SPIF", "WCOL") if node[name]]
    parts += [f"SPSR showed {name}" for name in ("SPIF", "WCOL") if node[f"{name} seen"]]
    if node["transfer"]:
        parts.append(f"transfers {node['transfer byte']:02X} {until(node['transfer end'], cycle)}")
    return ", ".join(parts)


def radio(node: Node, cycle: int) -> str:
    state = node["radio"]
    parts = [RADIO[state] if state < len(RADIO) else f"state {state}"]
    if state >= 2:
        parts.append("of heard {} {:02X} {}".format(node["heard status"], node["heard byte"], node["heard age"]))
    if node["radio free"] > cycle:
        parts.append(f"busy {until(node['radio free'], cycle)}")
    return ", ".join(parts)


def io_text(node: Node) -> str:
    """The I/O registers that keep a byte other than 0."""
    return ", ".join(f"{name} {node.data[at]:02X}" for at, name in states.IO_NAMES.items() if node.data[at])


def dump(node: Node, first: int, end: int) -> Iterator[str]:
    """The data space from `first` on and below `end`, 16 bytes a line."""
    for at in range(first, end, 16):
        part = node.data[at : min(at + 16, end)]
        text = "".join(chr(byte) if 0x20 <= byte < 0x7F else "." for byte in part)
        yield f"  {at:04X}  {part.hex(' ').upper():<47}  {text}"


def show_node(state: State, k: int, view: View | None, span: Span | None, patterns: Sequence[str]) -> None:
    node = state.nodes[k]
    print(f"node {k}: {heading(node)}")
    rows = list(processor(node, view.program if view else None))
    rows += list(view.rows(node)) if view else []
    rows += [(f"timer {n}", timer(node, n)) for n in range(4)]
    rows += [("USART0", usart(node, state.cycle)), ("SPI", spi(node, state.cycle)), ("radio", radio(node, state.cycle))]
    rows.append(("I/O", io_text(node)))
    for name, text in rows:
        print(f"  {name:<10} {text}".rstrip())
    for line in view.global_lines(node, patterns) if view else ():
        print(line)
    for line in dump(node, *span) if span else ():
        print(line)


def views_of(nodes: Sequence[int], all_programs: Programs, patterns: Sequence[str]) -> dict[int, View | None]:
    """What is read of the program of each node. Raises BadInput where variables are asked for that none has."""
    of_nodes = {k: all_programs.of(k) for k in nodes}
    by_program = {program: View(program) for program in of_nodes.values() if program}
    for pattern in patterns:
        if not any(view.has(pattern) for view in by_program.values()):
            raise BadInput(f"-g {files.printable(pattern)}: no program of these nodes has such a variable")
    return {k: by_program[program] if program else None for k, program in of_nodes.items()}


def show(
    state: State, nodes: Sequence[int], all_programs: Programs, span: Span | None, patterns: Sequence[str]
) -> None:
    views = views_of(nodes, all_programs, patterns)
    bytes_ = plural(len(state.sends), "byte")
    print(f"cycle {state.cycle:,}, {plural(len(state.nodes), 'node')}, {bytes_} that may still be heard")
    for k in nodes:
        show_node(state, k, views[k], span, patterns)
    for cycle, node, byte in state.sends:
        if node in nodes:
            print(f"node {node} sent {cli.shown_byte(byte)} in cycle {cycle:,}, {state.cycle - cycle:,} before")


# ---- two states


def differences(a: Node, b: Node, program: Program | None) -> Iterator[tuple[str, str, str]]:
    """What differs between two nodes: a name, what the first has, what the second has."""
    for name in states.NAMES:
        if a[name] != b[name]:
            texts = [states.shown_number(name, node[name]) for node in (a, b)]
            if name == "PC" and program:
                texts = [f"{text} {program.place(node[name])}" for text, node in zip(texts, (a, b))]
            if name == "SREG":
                texts = [f"{text} {flags_text(node[name])}" for text, node in zip(texts, (a, b))]
            yield name, texts[0], texts[1]


def byte_differences(a: Node, b: Node) -> Iterator[tuple[str, str, str]]:
    for at in range(states.IO_FIRST, states.DATA_END):
        if a.data[at] != b.data[at]:
            yield states.data_name(at), f"{a.data[at]:02X}", f"{b.data[at]:02X}"


def compare(a: State, b: State, nodes: Sequence[int], all_programs: Programs, most: int) -> bool:
    """Tells what differs; whether something does."""
    found = []
    if a.cycle != b.cycle:
        found.append(f"cycle: {a.cycle}, {b.cycle}")
    if len(a.nodes) != len(b.nodes):
        found.append(f"nodes: {len(a.nodes)}, {len(b.nodes)}")
    for k in nodes:
        if k < min(len(a.nodes), len(b.nodes)):
            one, two = a.nodes[k], b.nodes[k]
            found += [f"node {k} {name}: {x}, {y}" for name, x, y in differences(one, two, all_programs.of(k))]
            bytes_ = [f"node {k} {name}: {x}, {y}" for name, x, y in byte_differences(one, two)]
            found += bytes_[:most]
            if len(bytes_) > most:
                found.append(f"node {k}: {len(bytes_) - most} bytes more differ (--all tells them)")
    for sends, others, which in ((a.sends, b.sends, "first"), (b.sends, a.sends, "second")):
        for cycle, node, byte in sends:
            if (cycle, node, byte) not in others and node in nodes:
                found.append(f"node {node} sent {byte:02X} in cycle {cycle}: only in the {which}")
    print("\n".join(found) if found else "nothing differs")
    return bool(found)


# ---- the command line


def span_of(text: str) -> Span:
    """A range of data addresses FIRST-LAST, as the first one and the one behind the last, for argparse."""
    match = re.fullmatch(r"(?:0x)?([0-9A-Fa-f]{1,4})-(?:0x)?([0-9A-Fa-f]{1,4})", text)
    first, end = (int(match[1], 16), int(match[2], 16) + 1) if match else (1, 0)
    if not first < end <= states.DATA_END:
        raise argparse.ArgumentTypeError(f"{text} is not a range of data addresses such as 100-13F, up to 10FF")
    return first, end


def check_programs(state: State, path: str, nodes: Sequence[int], all_programs: Programs, has_scenario: bool) -> None:
    """Raises BadInput where a node is at what is not an instruction of its program; warns where nothing else tells
    whose it is."""
    unsure: dict[str, None] = {}
    for k in nodes:
        program = all_programs.of(k) if k < len(state.nodes) else None
        if program is None:
            continue
        word = state.nodes[k]["PC"]
        if not program.has_instruction(word):
            raise BadInput(
                f"{program.name}: not the program of node {k} in {files.shown(path)}: the node is at {word:04X}, where "
                "the program has no instruction (--force takes it all the same)"
            )
        unsure[program.name] = None
    for name in unsure if not has_scenario else ():
        terminal.warn(
            f"{name}: nothing tells whether this is the program that was run: -s compares it with the scenario's image"
        )


def read_state(arguments: argparse.Namespace) -> State:
    """The state that is shown: that of a file, or of the scenario's run as a cycle begins."""
    if arguments.at is None:
        return State.load(arguments.state)
    if arguments.other or arguments.scenario:
        raise BadWords("--at takes a scenario, and no other file")
    arguments.scenario = arguments.state
    limit = scenarios.Scenario.load(arguments.state).cycles
    if arguments.at > limit:
        raise BadWords(f"--at {arguments.at:,}: the run has the cycles 0 to {limit:,}")
    return Run.of(cli.simulator(arguments.avrora), arguments.state, limit).looked(arguments.at)


def run(arguments: argparse.Namespace) -> int:
    state = read_state(arguments)
    scenario = scenarios.Scenario.load(arguments.scenario) if arguments.scenario else None
    all_programs = Programs(arguments.elf, scenario, arguments.force)
    other = State.load(arguments.other) if arguments.other else None
    count = max(len(state.nodes), len(other.nodes) if other else 0)
    nodes = sorted(arguments.nodes if arguments.nodes is not None else range(count))
    if nodes and nodes[-1] >= count:
        raise BadInput(f"{files.shown(arguments.state)}: there is no node {nodes[-1]}: the state has {count}")
    for one, path in ((state, arguments.state), (other, arguments.other)):
        if one and not arguments.force:
            check_programs(one, path, nodes, all_programs, has_scenario=scenario is not None)
    if arguments.globals and (other or not arguments.elf):
        raise BadWords("-g tells variables of one state, and needs their program (-e)")
    if other:
        most = states.DATA_END if arguments.all else MOST_DIFFERENCES
        return Status.NOT_MET if compare(state, other, nodes, all_programs, most) else Status.GOOD
    show(state, nodes, all_programs, arguments.dump, arguments.globals)
    return Status.GOOD


def configure(parser: argparse.ArgumentParser) -> None:
    cli.describe(parser, DESCRIPTION, "inspect -n 1 -e packet.elf --dump 100-13F packet.state")
    parser.add_argument("-n", "--nodes", type=cli.node_set, metavar="NODES", help="only these nodes, such as 0,2-4")
    parser.add_argument(
        "--dump", type=span_of, metavar="FIRST-LAST", help="show the data space between these addresses too, such as 100-13F"
    )
    parser.add_argument(
        "-g", "--globals", action="append", default=[], metavar="PATTERN", help="with -e: show the variables with such names"
    )
    parser.add_argument("--all", action="store_true", help="with two states: show all bytes that differ")
    parser.add_argument(
        "--at", type=cli.natural, metavar="CYCLE", help="STATE is a scenario: show its run as CYCLE begins"
    )
    cli.add_simulator(parser)
    add_programs(parser)
    parser.add_argument("state", metavar="STATE", help="a state; with --at a scenario")
    parser.add_argument("other", nargs="?", metavar="OTHER", help="a second state, to compare with")
