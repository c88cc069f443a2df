"""The cases of `expect` in a page: what was not met, and where."""
import re
from collections.abc import Sequence
from typing import NamedTuple

from avrora_tools import files
from avrora_tools.errors import Status
from avrora_tools.events import KINDS
from avrora_tools.expectations import Case, Outcome
from avrora_tools.reporting import pages, tables
from avrora_tools.reporting.markup import Html, html, joined, tag
from avrora_tools.reporting.pages import Section
from avrora_tools.reporting.tables import Cell, Column, numbers


class Checked(NamedTuple):
    """A case of `expect`, what came of it, and the seconds that it took."""

    case: Case
    outcome: Outcome
    seconds: float


WORDS = {
    Status.GOOD: ("met", "good"),
    Status.NOT_MET: ("not met", "bad"),
    Status.BAD_INPUT: ("refused", "broken"),
    Status.CANNOT_WORK: ("no answer", "broken"),
}

# A row of a trace in what is told of a case, behind its sign; or a value that a node wrote.
ROW = re.compile(rf"([>+ -]? ?)((\d{{1,13}}) (\d{{1,2}}) (?:(?:{'|'.join(KINDS)})(?: .*)?|\S+: .* -> .*))")

MOST_TEXT = 200_000  # characters that are shown of a case


def cases(checked: Sequence[Checked], command: str, has_timeline: bool) -> Section:
    """What came of each case: those that are not met first, each with what was not and the rows about it."""
    bad = [one for one in checked if one.outcome.failure]
    rows = [row_of(one) for one in sorted(checked, key=lambda one: not one.outcome.failure)]
    columns = [Column(""), Column("case", "long"), *numbers("expectations", "rows looked at", "seconds")]
    table = tables.drawn("cases", columns, rows, filter_words="show cases with")
    told = [failure(one, has_timeline) for one in bad]
    return Section("cases", "Cases of expect", [command], joined([*told, table]))


def row_of(one: Checked) -> list[str | int | Html | Cell]:
    return [
        badge(one.outcome.status),
        files.shown(one.case.path),
        one.outcome.expectations,
        one.outcome.rows,
        f"{one.seconds:.2f}",
    ]


def badge(status: Status) -> Html:
    word, colour = WORDS[status]
    return tag("span", word, class_=f"badge {colour}")


def failure(one: Checked, has_timeline: bool) -> Html:
    text = (one.outcome.failure or "")[:MOST_TEXT]
    shown = joined((line_of(line, has_timeline) for line in text.split("\n")), "\n")
    head = tag("h3", badge(one.outcome.status), " ", files.shown(one.case.path))
    return tag("article", head, tag("pre", shown, class_="text"), class_="finding")


def line_of(line: str, has_timeline: bool) -> Html:
    """A line of what is told; a row in it leads to the timeline."""
    match = ROW.fullmatch(line)
    if not match or not has_timeline:
        return html(line)
    return Html(html(match[1]) + tag("a", match[2], href=f"#{match[3]}@{match[4]}"))


def cards(checked: Sequence[Checked]) -> list[tuple[str, str]]:
    bad = sum(1 for one in checked if one.outcome.status == Status.NOT_MET)
    others = sum(1 for one in checked if one.outcome.status > Status.NOT_MET)
    found = [
        ("cases", f"{len(checked)}"),
        ("met", f"{len(checked) - bad - others}"),
        ("not met" + "!" * bool(bad), f"{bad}"),
        ("expectations", f"{sum(one.outcome.expectations for one in checked):,}"),
        ("seconds", f"{sum(one.seconds for one in checked):.1f}"),
    ]
    return [*found, ("refused, or no answer!", f"{others}")] if others else found


def page(checked: Sequence[Checked], command: str, by: str) -> str:
    """A page of cases alone."""
    part = cases(checked, command, has_timeline=False)
    head = pages.header("Cases of expect", "avrora-tools expect", cards(checked), by)
    body = Html(head + pages.sections([part]))
    return pages.page("expect", body, styles=["page.css"], scripts=["page.js"], data={}, name="report")
