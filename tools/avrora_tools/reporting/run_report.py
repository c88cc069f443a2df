"""The page of one run, put together of its parts."""
from collections.abc import Sequence
from dataclasses import dataclass

from avrora_tools import maps, results, showing, terminal
from avrora_tools import reports as campaign_reports
from avrora_tools.reporting import (
    bars,
    campaign_sections,
    case_sections,
    code_sections,
    findings,
    pages,
    run_sections,
    timelines,
)
from avrora_tools.reporting.campaign_sections import Statistics
from avrora_tools.reporting.findings import Search
from avrora_tools.reporting.gathering import Gathered
from avrora_tools.reporting.markup import Html
from avrora_tools.reporting.pages import Section
from avrora_tools.reporting.run_sections import command

STYLES = timelines.STYLES
SCRIPTS = ("page.js", *timelines.SCRIPTS, "flames.js", "histograms.js")


@dataclass(frozen=True)
class Options:
    """How the page is written: the clock, the table of currents, the folder of sources, by whom."""

    hz: int
    currents: str | None
    sources: str | None
    by: str


def campaign_of(name: str, adopts: bool) -> Statistics:
    """The statistics of the results of a campaign in the file `name`."""
    with results.reading(name, adopts, terminal.say) as reading:
        found = campaign_sections.statistics(campaign_reports.Report([reading.database]))
    return found


def sections(
    run: Gathered, searches: Sequence[Search], statistics: Statistics | None, options: Options
) -> list[Section]:
    """The parts of the page, in the order in which they are read."""
    parts = [run_sections.what_was_run(run, options.hz), run_sections.what_came(run, options.hz)]
    if run.cases:
        checks = command("expect", *(one.case.path for one in run.cases))
        parts.append(case_sections.cases(run.cases, checks, has_timeline=True))
    for number, search in enumerate(searches, 1):
        parts.append(findings.section(search, f"findings-{number}", has_timeline=True))
    parts += [
        run_sections.timeline(run, options.hz),
        run_sections.links(run),
        run_sections.energy(run, options.currents),
        code_sections.functions(run),
    ]
    if run.programs.all:
        parts.append(code_sections.covered(run, options.sources))
    if statistics:
        parts.append(campaign_sections.section(statistics))
    return parts


def page(run: Gathered, searches: Sequence[Search], statistics: Statistics | None, options: Options) -> str:
    """The page, of which the timeline takes what room the other parts leave."""
    parts = sections(run, searches, statistics, options)
    title = run_sections.title(run)
    head = pages.header(title, "a run of avrora", run_sections.cards(run, options.hz), options.by)
    body = Html(head + pages.sections(parts))
    data: dict[str, object] = {}
    if run.costs:
        data["flame-data"] = code_sections.flame_data(run.costs)
    if statistics:
        data["histogram-data"] = statistics.data()

    def text(timeline: dict[str, object]) -> str:
        carried: dict[str, object] = {"timeline-data": timeline, **data}
        return pages.page(
            title,
            body,
            styles=STYLES,
            scripts=SCRIPTS,
            data=carried,
            name="report",
            rules=maps.page_rules() + bars.fills(),
        )

    names = code_sections.names_of(run)
    room = pages.LARGEST_PAGE - len(showing.encoded(text({})))
    return text(timelines.fitted(run.drawing, None, names, room, f"in `avrora-tools timeline` {timelines.ADVICE}"))
