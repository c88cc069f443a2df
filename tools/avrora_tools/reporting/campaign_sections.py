"""A campaign in a page: how many runs came to what, which are not passed, and each parameter against each outcome."""
import itertools
import json
import math
from collections import Counter
from collections.abc import Iterable, Iterator, Mapping, Sequence
from dataclasses import dataclass, field
from fractions import Fraction
from typing import Any

from avrora_tools import reports, runs
from avrora_tools.reporting import bars, pages, tables
from avrora_tools.reporting.markup import Html, html, joined, lines, tag
from avrora_tools.reporting.pages import Section
from avrora_tools.reporting.tables import Cell, Column, numbers
from avrora_tools.showing import printable

MOST_BINS = 24  # of a histogram
MOST_PARAMETERS = 24
MOST_VALUES = 4_096  # of a parameter that are told apart before it is put into bins
MOST_ROWS = 1_000  # runs in the table
MOST_MESSAGES = 60  # failures that are told
LONGEST_MESSAGE = 4_000
OTHERS = "others"

# What a run came to as numbers.
MEASURES = (*runs.COUNTS, "seconds", "attempts")

COLOURS = {runs.PASSED: "good", runs.FAILED: "bad", runs.REFUSED: "closed", runs.BROKEN: "broken"}


@dataclass
class Bin:
    """The runs whose parameter has a value of the bin: how many came to what; of each measure the least, the greatest,
    the sum and how many runs have one."""

    label: str
    outcomes: Counter[str] = field(default_factory=Counter)
    measures: dict[str, list[float]] = field(default_factory=dict)

    def add(self, row: Mapping[str, Any]) -> None:
        self.outcomes[row["outcome"]] += 1
        for name in MEASURES:
            value = row[name]
            if value is None:
                continue
            held = self.measures.setdefault(name, [math.inf, -math.inf, 0.0, 0])
            held[0], held[1] = min(held[0], value), max(held[1], value)
            held[2] += value
            held[3] += 1

    def data(self) -> dict[str, object]:
        return {"label": self.label, "outcomes": dict(self.outcomes), "measures": self.measures}


@dataclass
class Values:
    """The values that a parameter has in the runs, as far as they are told apart; beyond that the least and the
    greatest."""

    known: set[object] = field(default_factory=set)
    is_numeric: bool = True
    is_many: bool = False
    least: float = math.inf
    greatest: float = -math.inf

    def add(self, value: object) -> None:
        if isinstance(value, (int, float)) and not isinstance(value, bool) and math.isfinite(value):
            self.least, self.greatest = min(self.least, value), max(self.greatest, value)
        else:
            self.is_numeric = False
        if len(self.known) < MOST_VALUES:
            self.known.add(key_of(value))
        else:
            self.is_many = self.is_many or key_of(value) not in self.known


def key_of(value: object) -> object:
    return (
        value
        if isinstance(value, (int, float, str)) and not isinstance(value, bool)
        else json.dumps(value, default=str)
    )


class Histogram:
    """The bins of a parameter: its values where they are few, spans of numbers, or the first values and all others."""

    def __init__(self, values: Values) -> None:
        self.spans: list[float] = []
        self.by_value: dict[object, Bin] = {}
        if values.is_numeric and (len(values.known) > MOST_BINS or values.is_many):
            step, digits = bars.round_step(Fraction(values.greatest - values.least) / MOST_BINS, may_be_part=True)
            first = math.floor(Fraction(values.least) / step)
            last = math.floor(Fraction(values.greatest) / step)
            self.spans = [float(number * step) for number in range(first, last + 2)]
            self.bins = [Bin(f"{one:,.{digits}f}..{two:,.{digits}f}") for one, two in itertools.pairwise(self.spans)]
            return
        ordered = sorted(values.known, key=lambda value: (isinstance(value, str), value))
        self.bins = [Bin(label_of(value)) for value in ordered[:MOST_BINS]]
        self.by_value = dict(zip(ordered, self.bins))
        if len(ordered) > MOST_BINS or values.is_many:
            self.bins.append(Bin(OTHERS))

    def add(self, value: object, row: Mapping[str, Any]) -> None:
        if self.spans:
            number = float(value)  # type: ignore[arg-type]
            place = min(
                len(self.bins) - 1, max(0, int((number - self.spans[0]) / (self.spans[1] - self.spans[0]) + 1e-9))
            )
            self.bins[place].add(row)
        else:
            self.by_value.get(key_of(value), self.bins[-1]).add(row)


def label_of(value: object) -> str:
    return printable(value) if isinstance(value, str) else f"{value:,}" if isinstance(value, int) else f"{value}"


@dataclass
class Statistics:
    """What is told of the results of a campaign."""

    name: str
    total: int
    outcomes: Counter[str]
    closing: str
    compared: list[str]
    rows: list[dict[str, Any]]  # some, those that are not passed first
    histograms: dict[str, Histogram]

    def data(self) -> dict[str, object]:
        """What the script of the page draws."""
        parameters = [
            {"name": printable(name), "bins": [one.data() for one in histogram.bins]}
            for name, histogram in self.histograms.items()
        ]
        return {
            "parameters": parameters,
            "outcomes": list(runs.OUTCOMES),
            "measures": list(MEASURES),
            "colours": COLOURS,
        }


def statistics(report: reports.Report) -> Statistics:
    """The statistics of results, which are gone through twice, row by row."""
    values: dict[str, Values] = {}
    for row in report.rows():
        for name, value in row["parameters"].items():
            if name in values or len(values) < MOST_PARAMETERS:
                values.setdefault(name, Values()).add(value)
    histograms = {name: Histogram(one) for name, one in values.items()}
    for row in report.rows():
        for name, value in row["parameters"].items():
            if name in histograms:
                histograms[name].add(value, row)
    ranked = itertools.chain(report.rows(runs.OUTCOMES[1:]), report.rows(runs.OUTCOMES[:1]))
    shown = list(itertools.islice(ranked, MOST_ROWS))
    return Statistics(
        report.name, report.total(), report.outcomes(), report.closing_line(), report.compared(), shown, histograms
    )


def section(found: Statistics, command: str = "avrora-tools campaign --report RESULTS") -> Section:
    """A campaign as a part of a page."""
    parts = [tag("p", found.closing), *(tag("p", line) for line in found.compared)]
    if any(found.outcomes.values()):
        total = sum(found.outcomes.values())
        shares = [
            bars.Part(word, COLOURS[word], 100 * found.outcomes[word] / total)
            for word in runs.OUTCOMES
            if found.outcomes[word]
        ]
        parts.append(bars.in_page([bars.Bar("runs", shares, f"{total:,}")], "%", "what runs came to"))
    parts += [*histogram_place(found), *messages(found), tag("h3", "Runs"), runs_table(found)]
    return Section("campaign", f"Campaign {found.name}", [command], joined(parts))


def histogram_place(found: Statistics) -> Iterator[Html]:
    if not found.histograms:
        return
    yield tag("h3", "A parameter against an outcome")
    one = tag("label", "parameter ", tag("select", "", id="histogram-parameter"))
    two = tag("label", "outcome ", tag("select", "", id="histogram-outcome"))
    yield tag("p", one, two, class_="filters")
    yield tag("div", "", id="histogram")
    yield tag("p", "", id="histogram-status", class_="note", aria_live="polite")


def messages(found: Statistics) -> Iterator[Html]:
    """Why runs are not passed: what many say is told once."""
    told: dict[str, list[str]] = {}
    for row in found.rows:
        if row["message"]:
            told.setdefault(shape_of(row["message"]), []).append(row["name"])
    if not told:
        return
    yield tag("h3", "Why runs are not passed")
    first = {row["name"]: row["message"] for row in found.rows}
    for names in sorted(told.values(), key=len, reverse=True)[:MOST_MESSAGES]:
        message = first[names[0]][:LONGEST_MESSAGE]
        more = f" and {len(names) - 1:,} more" if len(names) > 1 else ""
        head = tag("h3", names[0], tag("span", more, class_="faint"))
        yield tag("article", head, tag("pre", lines(message), class_="text"), class_="finding")


def shape_of(message: str) -> str:
    """A message without its numbers: what is wrong, wherever."""
    return "".join("#" if letter.isdigit() else letter for letter in message.partition("\n")[0])


def runs_table(found: Statistics) -> Html:
    rows = [run_row(row) for row in found.rows]
    columns = [
        Column("run", "long"),
        Column(""),
        Column("parameters", "long"),
        *numbers(*runs.COUNTS, "seconds", "attempts"),
        Column("host"),
    ]
    total = sum(found.outcomes.values())
    more = (
        pages.note(f"{len(rows):,} of {total:,} runs; --report --json FILE writes all")
        if total > len(rows)
        else Html("")
    )
    return Html(tables.drawn("runs", columns, rows, filter_words="show runs with") + more)


def run_row(row: Mapping[str, Any]) -> Sequence[str | int | Html | Cell]:
    parameters = ", ".join(f"{name} = {label_of(key_of(value))}" for name, value in row["parameters"].items())
    counts: list[str | int] = ["" if row[name] is None else int(row[name]) for name in runs.COUNTS]
    badge = tag("span", row["outcome"], class_=f"badge {COLOURS.get(row['outcome'], 'broken')}")
    return [row["name"], badge, parameters, *counts, f"{row['seconds']:.2f}", row["attempts"], html(row["host"] or "")]


def cards(found: Statistics) -> list[tuple[str, str]]:
    made = [("runs", f"{found.total:,}"), ("passed", f"{found.outcomes[runs.PASSED]:,}")]
    made += [(f"{word}!", f"{found.outcomes[word]:,}") for word in runs.OUTCOMES[1:] if found.outcomes[word]]
    lacking = found.total - sum(found.outcomes.values())
    return [*made, ("without a result yet!", f"{lacking:,}")] if lacking > 0 else made


def page(found: Statistics, command: str, told: Iterable[str], by: str) -> str:
    """A page of a campaign alone."""
    head = pages.header(found.name, "a campaign of avrora", cards(found), by)
    body = joined([head, *(pages.warning(line) for line in told), pages.sections([section(found, command)])])
    data = {"histogram-data": found.data()}
    return pages.page(
        found.name,
        body,
        styles=["page.css"],
        scripts=["page.js", "histograms.js"],
        data=data,
        name="report",
        rules=bars.fills(),
    )
