"""The timeline of a run as data of a page."""
import shlex
from collections.abc import Sequence
from dataclasses import dataclass

from avrora_tools import cli, drawings, files, programs, showing, terminal
from avrora_tools.drawings import Drawing
from avrora_tools.reporting import pages
from avrora_tools.reporting.markup import Html

STYLES, SCRIPTS = ("page.css", "timeline.css"), ("events.js", "lanes.js", "timeline.js")


@dataclass(frozen=True)
class Names:
    """What the files of a run are called in the commands that a page shows."""

    scenario: str | None = None
    trace: str | None = None
    elf: Sequence[str] = ()

    def words(self) -> dict[str, str]:
        named = {"scenario": self.scenario, "trace": self.trace}
        found = {key: quoted(name) for key, name in named.items() if name and name != files.STANDARD_STREAM}
        if self.elf:
            found["programs"] = " ".join(f"-e {quoted(word)}" for word in self.elf)
        return found


def quoted(name: str) -> str:
    """A name as a word for a shell, as far as it can be shown."""
    return shlex.quote(files.shown(name))


def element() -> Html:
    """The place of the timeline in a page, which its script fills."""
    return Html(pages.asset("timeline.html"))


def content(
    drawing: Drawing, hz: int | None, names: Names = Names(), thinning: drawings.Thinning | None = None
) -> dict[str, object]:
    """The data of the timeline; without an event where no `thinning` is named."""
    scenario = drawing.scenario
    links = [[link.sender, link.hearer, link.latency] for link in scenario.links] if scenario else []
    texts: dict[str, int] = {}
    nodes: list[dict[str, object]] = []
    for node, lane in sorted(drawing.lanes.items()):
        one: dict[str, object] = {
            "node": node,
            "name": drawing.name(node),
            "state": lane.state,
            "closed": drawing.closed(node),
        }
        one |= {kind: drawings.flat(thinning.of(kind, lane), kind) if thinning else [] for kind in drawings.FIELDS}
        if lane.where:
            one["where"] = {cycle: texts.setdefault(text, len(texts)) for cycle, text in lane.where.items()}
        if lane.rest:
            one["rest"] = lane.rest
        if lane.tracks:
            one["tracks"] = thinning.of_tracks(lane) if thinning else []
        nodes.append(one)
    return {
        "first": drawing.first,
        "end": drawing.last_cycle,
        "limit": scenario.cycles if scenario else drawing.last_cycle,
        "byteTime": drawing.byte_time,
        "hz": hz or 0,
        "clock": hz or cli.CLOCK,
        "links": links,
        "window": list(drawing.window),
        "thinned": str(thinning or drawings.MOST_WORDS),
        "files": names.words(),
        "texts": list(texts),
        "buckets": drawing.spans,
        "nodes": nodes,
        "vectors": {word: programs.vector_name(word) for word in programs.VECTORS},
    }


# What draws more than a page that is thinned has.
ADVICE = "--from, --to and --nodes draw less, and all of it"


def fitted(drawing: Drawing, hz: int | None, names: Names, most: int, advice: str = ADVICE) -> dict[str, object]:
    """The data, thinned to at most so many bytes of a page; the user is told, with what draws more."""
    thinning = drawings.least_thinning(drawing, most - len(showing.script_data(content(drawing, hz, names))))
    if thinning.step:
        terminal.warn(f"{thinning}; {advice}")
    return content(drawing, hz, names, thinning)


def page(drawing: Drawing, hz: int | None, title: str, names: Names) -> str:
    """A page of the timeline alone."""

    def text(data: dict[str, object]) -> str:
        return pages.page(title, element(), styles=STYLES, scripts=SCRIPTS, data={"timeline-data": data}, name="alone")

    return text(fitted(drawing, hz, names, pages.LARGEST_PAGE - len(text({}))))
