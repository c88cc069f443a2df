"""The parts of a report that tell what was run, what came of it, who heard whom, and what it cost."""
import shlex
from collections.abc import Iterator, Sequence
from typing import NamedTuple

from avrora_tools import budgets, files, maps, showing
from avrora_tools.budgets import between
from avrora_tools.drawings import Lane
from avrora_tools.events import CLASH, NOTHING, ONE_BYTE
from avrora_tools.fates import FATES
from avrora_tools.lines import shown
from avrora_tools.reporting import bars, pages, tables, timelines
from avrora_tools.reporting.bars import Bar, Part
from avrora_tools.reporting.currents import currents_of
from avrora_tools.reporting.gathering import MOST_CLASHES, Gathered
from avrora_tools.reporting.markup import Content, Html, code, html, joined, tag
from avrora_tools.reporting.pages import Section
from avrora_tools.reporting.tables import Column, Row, numbers

MOST_LINES = 1_000  # of a log that are shown
MOST_TEXT = 500_000  # characters of all logs
LINE_OVERHEAD = 110  # characters of HTML about a line
MOST_APART = 4  # nodes that write have a log each; more have one together
MOST_BYTES = 48  # of an input that are shown
FEW_INPUTS = 8  # are shown at once
OPENED_LINES = 12  # a node with so many shows them at once


def command(*words: str) -> str:
    """A line for a shell."""
    return shlex.join(["avrora-tools", *map(files.shown, words)])


def at(cycle: int, node: int | None = None, text: str = "") -> Html:
    """A cycle that leads to the timeline."""
    return tag("a", text or f"{cycle:,}", href=f"#{cycle}" + (f"@{node}" if node is not None else ""))


def seconds(cycles: int, hz: int) -> str:
    return f"{cycles / hz:.6f} s"


# ---- what was run


def what_was_run(run: Gathered, hz: int) -> Section:
    scenario = run.scenario
    images = tables.drawn(
        "images",
        [Column("image"), *numbers("nodes", "bytes"), Column("SHA-256", "hash"), Column("which")],
        ([one.name, len(one.nodes), one.size, one.sha256, maps.numbers(one.nodes)] for one in run.images),
    )
    version, _, digest = run.program.partition("\n")
    facts = [
        ("scenario", Html(html(files.shown(run.path)) + " " + code(run.sha256))),
        ("simulator", Html(html(version) + " " * bool(version) + code(digest))),
        ("cycles", f"{scenario.cycles:,} ({seconds(scenario.cycles, hz)} at {hz:,} Hz)"),
        ("a byte is on the air for", f"{scenario.byte_time:,} cycles ({seconds(scenario.byte_time, hz)})"),
        ("latency of links", latencies(run)),
        ("rows of the trace", f"{run.rows:,}"),
        (
            "window of instructions",
            f"{scenario.window[0]:,} to {scenario.window[1]:,}" if any(scenario.window) else "none",
        ),
    ]
    facts_list = tag("dl", *(Html(tag("dt", name) + tag("dd", html(value))) for name, value in facts), class_="facts")
    content = joined([facts_list, tag("h3", "Images"), images, tag("h3", "Input to USART0"), inputs(run)])
    return Section("run", "What was run", [shlex.join(["avrora", "run", files.shown(run.path)]) + " >TRACE"], content)


def latencies(run: Gathered) -> str:
    found = sorted({link.latency for link in run.scenario.links})
    if not found:
        return "no links"
    return f"{found[0]:,} cycles" if len(found) == 1 else f"{found[0]:,} to {found[-1]:,} cycles"


def inputs(run: Gathered) -> Html:
    rows = []
    for one in run.document.get("input", []):
        data = bytes.fromhex(one["hex"])
        text = shown(data[:MOST_BYTES]) + ("\u2026" if len(data) > MOST_BYTES else "")
        hexed = data[:MOST_BYTES].hex(" ").upper() + (" \u2026" if len(data) > MOST_BYTES else "")
        rows.append([one["node"], one["at"], one.get("every", ""), len(data), code(hexed), code(text)])
    if not rows:
        return pages.note("Nothing arrives at any node.")
    columns = [
        *numbers("node", "from cycle", "cycles apart", "bytes"),
        Column("hexadecimal", "long"),
        Column("text", "long"),
    ]
    table = tables.drawn("inputs", columns, rows, filter_words="show inputs with")
    return table if len(rows) <= FEW_INPUTS else tag("details", tag("summary", f"{len(rows)} nodes have input"), table)


# ---- what came


def what_came(run: Gathered, hz: int) -> Section:
    lanes, reader = run.drawing.lanes, run.reader
    rows: list[Row] = []
    sums = [0] * 6
    has_stops = any(lane.stop for lane in lanes.values())
    for node in range(len(run.scenario.images)):
        lane, end = lanes.get(node, Lane()), run.ended[node]
        heard = [reader.samples[node, status] for status in (NOTHING, ONE_BYTE, CLASH)]
        stop: Content = (
            joined((Html(at(cycle, node) + html(f" {cause}")) for cycle, cause in lane.stop), ", ") if lane.stop else ""
        )
        counts = [reader.sends[node], *heard, len(lane.serial), end.instructions]
        sums = [one + other for one, other in zip(sums, counts)]
        rows.append(
            [node, run.drawing.name(node).partition(" ")[2], *counts, end.state, *([stop] if has_stops else [])]
        )
    columns = [
        *numbers("node"), Column("image"), *numbers("sent", "heard nothing", "heard a byte", "heard a clash"),
        *numbers("to USART0", "instructions"),
        Column("at the end"), *([Column("stopped", "long")] if has_stops else []),
    ]  # fmt: skip
    table = tables.drawn("nodes", columns, rows, ["all", "", *sums, ""], filter_words="show nodes with")
    parts = [table, *faults_of(run), *clashes_of(run), tag("h3", "What nodes wrote to USART0"), *serial_of(run, hz)]
    commands = [
        command("links", "--clashes", run.path, "TRACE"),
        command("console", "--hz", str(hz), "TRACE"),
    ]
    return Section("came", "What came", commands, joined(parts))


def faults_of(run: Gathered) -> Iterator[Html]:
    if run.reader.faults:
        yield pages.warning(f"{run.reader.faults:,} samples or sends are not as they should be:")
        yield tag("pre", joined(map(html, run.faults), "\n"), class_="text")


def clashes_of(run: Gathered) -> Iterator[Html]:
    total = sum(run.reader.samples[node, CLASH] for node in range(len(run.scenario.images)))
    if not total:
        return
    told = [clash_line(line) for line in run.clashes]
    more = f" (the first {MOST_CLASHES})" if total > len(told) else ""
    yield tag("h3", f"{total:,} samples heard a clash{more}")
    yield tag("details", tag("summary", "each clash, with what clashed"), tag("pre", joined(told, "\n"), class_="text"))


def clash_line(line: str) -> Html:
    """A line of `links --clashes`, whose cycle leads to the timeline."""
    cycle, _, rest = line.partition(" ")
    node = rest.removeprefix("clash at node ").partition(":")[0]
    return Html(at(int(cycle), int(node)) + " " + html(rest))


def serial_of(run: Gathered, hz: int) -> Iterator[Html]:
    """Lines to USART0: of each node where few write, else of all nodes in the order of time."""
    writers = [(node, lane) for node, lane in sorted(run.drawing.lanes.items()) if lane.lines]
    if not writers:
        yield pages.note("No node wrote anything.")
        return
    if len(writers) > MOST_APART:
        every = sorted(Said(cycle, node, text) for node, lane in writers for cycle, _, text in lane.lines)
        size = sum(len(lane.serial) for _, lane in writers)
        yield log(
            f"{len(writers)} nodes: {len(every):,} lines, {size:,} bytes", every, hz, MOST_TEXT, "", with_nodes=True
        )
        return
    for node, lane in writers:
        said = [Said(cycle, node, text) for cycle, _, text in lane.lines]
        words = f"node {run.drawing.name(node)}: {len(said):,} lines, {len(lane.serial):,} bytes"
        yield log(words, said, hz, MOST_TEXT // len(writers), f"-n {node} ")


class Said(NamedTuple):
    """A line to USART0."""

    cycle: int
    node: int
    text: str


def log(words: str, said: Sequence[Said], hz: int, room: int, option: str, with_nodes: bool = False) -> Html:
    """Lines with their cycles and seconds, as many as there is room for."""
    told: list[Html] = []
    for one in said[:MOST_LINES]:
        room -= len(one.text) + LINE_OVERHEAD
        if room < 0:
            break
        who = f" {one.node:>2} |" if with_nodes else ""
        stamp = tag(
            "span", at(one.cycle, one.node, f"{one.cycle:>14,}"), f"  {one.cycle / hz:.6f} s {who} ", class_="at"
        )
        told.append(Html(stamp + html(one.text)))
    left = len(said) - len(told)
    more = [pages.note(f"{left:,} more lines: avrora-tools console {option}TRACE")] if left else []
    text = tag("pre", joined(told, "\n"), class_="text")
    return tag("details", tag("summary", words), text, *more, open=len(said) <= OPENED_LINES or with_nodes)


# ---- the timeline


def timeline(run: Gathered, hz: int) -> Section:
    note = pages.note(
        "Click an event to see who sent and who heard it; the wheel zooms once the timeline is clicked, or with Ctrl. "
        "Cycles and rows elsewhere on this page lead here."
    )
    words = ["timeline", "--sleep", "-s", run.path]
    for name in run.watched:
        words += ["--watch", name]
    if run.watched:
        words += [word for one in run.programs.all for word in ("-e", one.path)]
    words += ["-o", "timeline.html", "TRACE"]
    return Section("time", "Timeline", [command(*words)], Html(note + timelines.element()))


# ---- links


def links(run: Gathered) -> Section:
    qualities = run.reader.qualities()
    counts = run.reader.fates.counts
    name = shlex.quote(files.shown(run.path))
    commands = [f"avrora-tools links --map map.svg {name} TRACE"]
    if not qualities:
        return Section("links", "Links", commands, pages.note("The scenario has no link."))
    picture = Html(maps.drawn(maps.placed(len(run.scenario.images), list(qualities)), qualities, is_part_of_page=True))
    has_spans = any(link.spans is not None for link in run.scenario.links)
    rows: list[Row] = []
    for link in sorted(run.scenario.links):
        ends = link.sender, link.hearer
        clean, sent = counts[ends, "clean"], counts[ends, "sent"]
        rows.append(
            [link.sender, link.hearer, *(counts[ends, fate] for fate in FATES), tables.meter(clean, sent), link.latency]
        )
        if has_spans:
            rows[-1] = [*rows[-1], "always" if link.spans is None else f"{len(link.spans):,} spans"]
    columns = [
        *numbers("from", "to"),
        Column("sent", "n", "by the node at its head"),
        Column("closed", "n", "while the link was not open"),
        Column("clean", "n", "heard alone by a sample at least"),
        Column("clashed", "n", "heard by samples, but never alone"),
        Column("unheard", "n", "by no sample"),
        Column("clean of sent", "meter"),
        *numbers("latency"),
        *([Column("open")] if has_spans else []),
    ]
    table = tables.drawn("quality", columns, rows, filter_words="show links with")
    odd = maps.oddities(len(run.scenario.images), list(qualities))
    notes = [tag("ul", *(tag("li", line) for line in odd))] if odd else []
    return Section(
        "links",
        "Links",
        commands,
        Html(tag("div", tag("div", tag("div", picture, class_="wide"), *notes), table, class_="columns links")),
    )


# ---- energy

DUTIES = (("awake", "awake"), ("asleep", "resting"), ("stopped", "stopped"), ("not known", "unknown"))


def energy(run: Gathered, currents: str | None) -> Section:
    scenario = run.scenario
    end = str(scenario.cycles)
    commands = [shlex.join(["avrora", "monitor", files.shown(run.path), "0", end]) + " >REPORT"]
    duties = [
        Bar(
            f"node {node}",
            [Part(name, colour, value) for (name, colour), value in zip(DUTIES, shares)],
            f"{100 * budgets.duty_cycle(one)[0]:.2f}% awake",
        )
        for node, one in run.spent.items()
        for shares in [[100 * part / max(1, one.total()) for part in (one.busy(), one.asleep, one.stopped, one.lead)]]
    ]
    parts = [
        tag("h3", "Duty cycle of the processors"),
        bar_picture(duties, "%", "duty cycle of each node"),
        spent_table(run),
    ]
    if run.table and currents:
        commands.append(command("energy", currents, run.path, "REPORT"))
        whole = next(iter(run.spent.values())).total() / run.table.hz
        drawn = bar_picture(currents_of(run.accounts, whole), " mA", "mean current of each node")
        parts += [tag("h3", "Mean current"), drawn, charge_table(run, whole)]
    else:
        parts.append(
            pages.note(
                "With --currents FILE, a table of currents, this page tells mA, charge and days of a battery too."
            )
        )
    return Section("energy", "Energy and duty cycle", commands, joined(parts))


def bar_picture(rows: Sequence[Bar], unit: str, title: str) -> Html:
    return bars.in_page(rows, unit, title)


def spent_table(run: Gathered) -> Html:
    rows: list[Row] = []
    sums = [0] * 6
    for node, one in run.spent.items():
        counts = [one.busy(), one.asleep, one.stopped, one.lead, budgets.sent(one), one.charge]
        sums = [sum_ + count for sum_, count in zip(sums, counts)]
        rows.append([node, *counts, tables.percent(one.busy(), one.total() - one.stopped)])
    columns = [
        *numbers("node", "cycles awake", "asleep", "stopped", "not known", "bytes sent"),
        Column("charge", "n", "in units: 8 for each cycle awake, 1 for each asleep, 512 for each byte sent"),
        Column("awake", "n", "of the cycles before it stopped"),
    ]
    return tag("details", tag("summary", "as numbers"), tables.drawn("spent", columns, rows, ["all", *sums, ""]))


def charge_table(run: Gathered, whole: float) -> Html:
    assert run.table
    byte_time, battery = run.scenario.byte_time, run.table.battery
    rows: list[Row] = []
    for (node, one), account, radio in zip(run.spent.items(), run.accounts, run.radios):
        least, most = account.least / whole, account.most / whole
        listens = budgets.listening_cycle(one, byte_time, radio)
        days = ""
        if battery and least:
            hours = battery / (most * budgets.HOURS_A_DAY), battery / (least * budgets.HOURS_A_DAY)
            days = between(*hours, ".0f")
        charges = between(budgets.milliampere_hours(account.least), budgets.milliampere_hours(account.most), ".4g")
        rows.append(
            [node, percent(budgets.duty_cycle(one)), f"{100 * listens:.2f}%", budgets.sent(one),
             between(least, most, ".3f"), charges,
             between(least * budgets.HOURS_A_DAY, most * budgets.HOURS_A_DAY, ".2f"), days]
        )  # fmt: skip
    columns = numbers("node", "awake", "listens", "sent", "mA", "mA h", "mA h a day", "days")
    return tables.drawn("charge", columns, rows)


def percent(part: tuple[float, float]) -> str:
    return between(100 * part[0], 100 * part[1], ".2f") + "%"


# ---- the head


def cards(run: Gathered, hz: int) -> list[tuple[str, str]]:
    """What is wanted first; a name that ends in ! is a warning."""
    nodes = range(len(run.scenario.images))
    stops = sum(len(lane.stop) for lane in run.drawing.lanes.values())
    clashes = sum(run.reader.samples[node, CLASH] for node in nodes)
    heard = sum(run.reader.samples[node, ONE_BYTE] for node in nodes)
    serial = sum(len(lane.serial) for lane in run.drawing.lanes.values())
    found = [
        ("nodes", f"{len(nodes)}"),
        ("links", f"{len(run.scenario.links)}"),
        (f"{run.scenario.cycles:,} cycles", f"{run.scenario.cycles / hz:.6g} s"),
        ("bytes sent", f"{sum(run.reader.sends.values()):,}"),
        ("samples that heard a byte", f"{heard:,}"),
        ("samples that heard a clash" + "!" * bool(clashes), f"{clashes:,}"),
        ("bytes to USART0", f"{serial:,}"),
        ("nodes stopped" + "!" * bool(stops), f"{stops}"),
    ]
    if run.cases:
        bad = sum(1 for one in run.cases if one.outcome.failure)
        found.append(("cases met" + "!" * bool(bad), f"{len(run.cases) - bad} of {len(run.cases)}"))
    return found


def title(run: Gathered) -> str:
    return showing.printable(run.path.rpartition("/")[2])
