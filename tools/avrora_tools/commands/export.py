"""A trace in the formats of other programs."""
import argparse
import itertools
import sys
from collections.abc import Callable, Iterable, Iterator
from typing import IO, Any, NamedTuple, cast

import avrora_tools
from avrora_tools import cli, files, profiles, programs, terminal, traces
from avrora_tools.errors import BadInput, BadWords
from avrora_tools.exports import callgrind, coverage, flames, pcapng, perfetto, tables
from avrora_tools.exports.walking import Functions, NodeCosts, StackReader
from avrora_tools.scenarios import Scenario

SUMMARY = "a trace for Wireshark, KCachegrind, lcov, Perfetto, pandas"

DESCRIPTION = f"""Writes what traces say in the format of another program:
  pcapng      Wireshark: the frames (`AA AA 7E n`) that each node sent and heard, an interface a node; a comment says
              what was lost. A packet's time is that of its last byte. With --bytes each byte, and each clash
  callgrind   KCachegrind, callgrind_annotate: cycles by function, line, instruction and caller, an object a node
  folded      flame graphs (flamegraph.pl): cycles by call stack; interrupts have stacks of their own
  speedscope  speedscope.app: the same
  lcov        genhtml, coverage pages: lines and functions that ran, of any number of traces or monitor reports
  perfetto    ui.perfetto.dev: functions, interrupts, sleep, radio with its flows, USART0, a process a node
  csv         pandas, R: a line a row
  parquet     the same as columns, where pyarrow can be imported
callgrind, folded, speedscope, lcov and perfetto's functions cover the window, in which instructions are traced.
Their cycles are those of `profile`: sleep is left out, or with --asleep is a function of flame graphs. Times are by a
clock of {cli.CLOCK:,} cycles a second, or of --hz. It takes a trace with its end rows, also one of `avrora resume` and
of the tool window, or with --head the beginning of one; csv and parquet take any rows."""


class Format(NamedTuple):
    """A format: what writes it, and what its words are."""

    summary: str
    written: Callable[["Source"], Iterator[str]] | Callable[["Source"], Iterator[bytes]]
    takes_many: bool = False
    options: tuple[str, ...] = ()


def configure(parser: argparse.ArgumentParser) -> None:
    cli.describe(parser, DESCRIPTION, "export pcapng -s packet.toml -o packet.pcapng packet.trace")
    formats = parser.add_subparsers(dest="format", metavar="FORMAT", required=True)
    for name, form in FORMATS.items():
        one = formats.add_parser(name, help=form.summary)
        programs.add_programs(one)
        cli.add_nodes(one)
        cli.add_clock(one)
        cli.add_head(one)
        one.add_argument(
            "-o", "--output", default=files.STANDARD_STREAM, metavar="FILE", help="else the standard output"
        )
        if "bytes" in form.options:
            one.add_argument("--bytes", action="store_true", help="a packet for each byte and each clash")
        if "asleep" in form.options:
            one.add_argument("--asleep", action="store_true", help="sleep too, as a function")
        if form.takes_many:
            many = "traces, and what `avrora monitor` wrote; .gz too; - or none: the standard input"
            one.add_argument("trace", nargs="*", metavar="TRACE", help=many)
        else:
            cli.add_trace(one)


class Source:
    """What is exported: the rows of the trace that the words name."""

    def __init__(self, arguments: argparse.Namespace) -> None:
        self.arguments = arguments
        self.nodes: set[int] | None = arguments.nodes
        self.scenario = Scenario.load(arguments.scenario) if arguments.scenario else None
        self.programs = programs.Programs(arguments.elf, self.scenario, arguments.force)

    def wanted(self, node: int) -> bool:
        return self.nodes is None or node in self.nodes

    def needs_program(self) -> None:
        if not self.programs.all:
            raise BadWords(f"{self.arguments.format} needs the program (-e)")

    def needs_scenario(self) -> Scenario:
        if self.scenario is None:
            raise BadWords(f"{self.arguments.format} needs the scenario (-s)")
        return self.scenario

    def trace(self, form: traces.Form | None = None) -> traces.Trace:
        """The one trace that is named."""
        form = form or traces.form_of(self.arguments)
        return traces.read(self.arguments.trace, form, scenario=self.scenario, epochs=self.arguments.head)

    def compared(self, trace: traces.Trace) -> Iterator[traces.TraceRow]:
        """The rows of the trace, whose instructions are those of the programs."""
        for row in trace:
            self.programs.compare(row[1], row[2])
            yield row

    def costs(self) -> dict[int, NodeCosts]:
        """What the functions of the nodes took."""
        self.needs_program()
        trace = self.trace()
        reader = StackReader(None, self.scenario, Functions(self.programs))
        for cycle, node, event in self.compared(trace):
            reader.read(cycle, node, event)
        reader.finish(trace.limit if trace.epochs is None else trace.bound)
        found = {node: costs for node, costs in reader.costs.items() if self.wanted(node) and costs.words}
        if not found:
            raise BadInput(f"{trace.name}: {profiles.NOTHING_TRACED}")
        return found


def lines_of_callgrind(source: Source) -> Iterator[str]:
    title = source.arguments.scenario or source.arguments.trace
    return ended(callgrind.written(source.costs(), source.programs, files.printable(title), avrora_tools.__version__))


def lines_of_folded(source: Source) -> Iterator[str]:
    return ended(flames.folded(source.costs(), source.arguments.asleep))


def text_of_speedscope(source: Source) -> Iterator[str]:
    title = files.printable(source.arguments.scenario or source.arguments.trace)
    arguments = source.arguments
    yield flames.speedscope(source.costs(), arguments.asleep, title, avrora_tools.__version__, arguments.hz) + "\n"


def lines_of_lcov(source: Source) -> Iterator[str]:
    source.needs_program()
    covered = coverage.Covered()
    for name in source.arguments.trace or [files.STANDARD_STREAM]:
        for node, spent in spent_of(source, name).items():
            program = source.programs.of(node)
            if program and source.wanted(node):
                covered.add(program, {word: share.count for word, share in spent.at.items()})
    if not any(counts for counts in covered.counts.values()):
        raise BadInput(profiles.NOTHING_TRACED)
    return ended(coverage.written(covered))


def spent_of(source: Source, name: str) -> dict[int, profiles.Spent]:
    """What each node executed, by a trace or by what `avrora monitor` wrote."""
    shown, blocks = files.shown(name), traces.file_blocks(name)
    first = next(blocks, b"")
    blocks = itertools.chain([first], blocks)
    if profiles.is_monitor(first):
        return profiles.MonitorReader(shown, source.needs_scenario()).read(profiles.text_lines(blocks, shown))
    form, head = traces.form_of(source.arguments), source.arguments.head
    trace = traces.Trace(blocks, shown, form, scenario=source.scenario, epochs=head)
    return profiles.read_trace(trace, None, source.scenario, source.programs).spent


def text_of_perfetto(source: Source) -> Iterator[str]:
    scenario = source.needs_scenario()
    functions = Functions(source.programs) if source.programs.all else None
    timeline = perfetto.Timeline(scenario, functions, source.arguments.hz or cli.CLOCK)
    events = timeline.events(source.compared(source.trace()))
    about = {"scenario": files.printable(source.arguments.scenario), "by": f"avrora-tools {avrora_tools.__version__}"}
    return perfetto.written((event for event in events if source.wanted(event["pid"])), about)


def text_of_csv(source: Source) -> Iterator[str]:
    rows = source.trace(traces.Form.ROWS)
    return tables.written(row for row in rows if source.wanted(row[1]))


def blocks_of_parquet(source: Source) -> Iterator[bytes]:
    library = tables.parquet_library()
    rows = source.trace(traces.Form.ROWS)
    return tables.parquet((row for row in rows if source.wanted(row[1])), library)


def blocks_of_pcapng(source: Source) -> Iterator[bytes]:
    scenario = source.needs_scenario()
    if source.nodes is not None:
        raise BadWords("pcapng takes all nodes: filter by interface (frame.interface_name) in Wireshark")
    hz = source.arguments.hz or cli.CLOCK
    if not pcapng.has_times(scenario.cycles, hz):
        raise BadWords(f"--hz {hz}: a packet of pcapng has no time as late as cycle {scenario.cycles:,}")
    packets = pcapng.Packets(scenario, hz, source.arguments.bytes)
    yield from pcapng.heads(scenario, avrora_tools.__version__)
    count = 0
    for count, one in enumerate(packets.written(source.trace()), 1):
        yield one
    if not count:
        terminal.warn(
            "no frame (AA AA 7E n) was sent" + ("" if source.arguments.bytes else "; --bytes writes each byte")
        )


def ended(lines: Iterable[str]) -> Iterator[str]:
    return (f"{line}\n" for line in lines)


FORMATS = {
    "pcapng": Format("Wireshark: frames, or bytes, that nodes sent and heard", blocks_of_pcapng, options=("bytes",)),
    "callgrind": Format("KCachegrind: cycles by function, line and caller", lines_of_callgrind),
    "folded": Format("flame graphs: cycles by call stack", lines_of_folded, options=("asleep",)),
    "speedscope": Format("speedscope.app: the same", text_of_speedscope, options=("asleep",)),
    "lcov": Format("genhtml: lines and functions that ran", lines_of_lcov, takes_many=True),
    "perfetto": Format("ui.perfetto.dev: a timeline", text_of_perfetto),
    "csv": Format("pandas, R: a row a line", text_of_csv),
    "parquet": Format("pandas, R: columns of rows, by pyarrow", blocks_of_parquet),
}


def run(arguments: argparse.Namespace) -> int:
    write(arguments.output, FORMATS[arguments.format].written(Source(arguments)))
    return 0


def write(path: str, pieces: Iterator[str] | Iterator[bytes]) -> None:
    """Writes a text, or bytes, piece by piece; a file whole or not at all."""
    first: str | bytes = next(pieces, "")
    binary = isinstance(first, bytes)
    every: Iterator[Any] = itertools.chain([first], pieces)
    if path == files.STANDARD_STREAM:
        sys.stdout.flush()
        cast(IO[Any], sys.stdout.buffer if binary else sys.stdout).writelines(every)
        return
    with files.whole_file(path, binary) as file:
        file.writelines(every)
