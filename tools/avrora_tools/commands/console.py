"""Shows what nodes write to USART0."""
import argparse
import sys

from avrora_tools import cli, lines, traces
from avrora_tools.errors import BadInput
from avrora_tools.events import Serial, Stop
from avrora_tools.lines import Line, Lines

SUMMARY = "what each node wrote to USART0"

DESCRIPTION = """Shows what each node writes to USART0, as a serial monitor does: each line with the cycle of its
first byte and the node's number. A line ends with LF, CR or CR LF, or when the node stops or is silent for --idle
cycles. Empty lines are shown too. Bytes that are not visible ASCII are shown as \\xHH, and a backslash as two. Stops are shown too.
The tool takes any rows of a trace, also of one that is still being written."""

BYTES_A_LINE = 16  # with --hex


class Console:
    """Prints the lines of all nodes as they end."""

    def __init__(self, arguments: argparse.Namespace) -> None:
        self.hz: int | None = arguments.hz
        self.hex: bool = arguments.hex
        self.lines = Lines(self.put, arguments.idle, BYTES_A_LINE if self.hex else None)

    def put(self, line: Line) -> None:
        self.show(line.first, line.node, "|", line.data.hex(" ").upper() if self.hex else line.text)

    def show(self, cycle: int, node: int, sign: str, text: str) -> None:
        print(f"{cli.shown_cycle(cycle, self.hz)} {node:>2} {sign}{' ' * bool(text)}{text}", flush=sys.stdout.isatty())


def configure(parser: argparse.ArgumentParser) -> None:
    cli.describe(parser, DESCRIPTION, "console --hz 7372800 flood.trace")
    cli.add_nodes(parser)
    form = parser.add_mutually_exclusive_group()
    form.add_argument("--hex", action="store_true", help="hexadecimal digits, 16 bytes a line")
    form.add_argument("--raw", action="store_true", help="the bytes alone, as they are; for one node, with -n")
    parser.add_argument(
        "--idle", type=cli.positive, default=lines.SILENCE, help="cycles without a byte that end a line (%(default)s)"
    )
    cli.add_clock(parser)
    cli.add_trace(parser)


def run(arguments: argparse.Namespace) -> int:
    console = Console(arguments)
    try:
        seen = show_rows(arguments, console)
    finally:  # also what came before a fault of the trace
        console.lines.end_all()
    if not seen:
        raise BadInput("the trace has no row of these nodes")
    return 0


def show_rows(arguments: argparse.Namespace, console: Console) -> bool:
    """Shows all rows; whether one is of the nodes that are asked for."""
    nodes: set[int] | None = arguments.nodes
    seen = False
    for cycle, node, event in traces.read(arguments.trace, traces.Form.ROWS, prints=True):
        if nodes is not None and node not in nodes:
            continue
        seen = True
        if isinstance(event, Serial):
            if arguments.raw:
                sys.stdout.buffer.write(bytes([event.byte]))
            else:
                console.lines.write(cycle, node, event.byte)
        elif isinstance(event, Stop) and not arguments.raw:
            console.lines.end(node)
            console.show(cycle, node, "!", event.text)
    return seen
