"""What a search found, for whoever finds it: a sweep, a hunt. A finding is data, which a file in JSON holds, and which
a page shows."""
import dataclasses
import json
from collections.abc import Sequence
from dataclasses import dataclass
from typing import Any

from avrora_tools import files
from avrora_tools.errors import BadInput
from avrora_tools.reporting import pages
from avrora_tools.reporting.markup import Html, html, joined, lines, tag
from avrora_tools.reporting.pages import Section

FORM = "avrora findings 1"  # what a file of findings says it is
MOST_FINDINGS = 2_000


@dataclass(frozen=True)
class Finding:
    """One thing that was found."""

    title: str  # what is wrong, in a line
    where: str = ""  # the function and the line of source, or what else tells where
    details: Sequence[tuple[str, str]] = ()  # more of it: what each is, and the text
    commands: Sequence[str] = ()  # that show it
    cycle: int | None = None  # in which it shows in the run that a report is of
    node: int | None = None
    count: int | None = None  # how many of what was tried show it
    of: int | None = None  # .. of how many


@dataclass(frozen=True)
class Search:
    """What was looked for, and what was found."""

    title: str
    facts: Sequence[tuple[str, str]] = ()  # what is wanted first: what it is, and its value
    notes: Sequence[str] = ()  # what was not looked at
    findings: Sequence[Finding] = ()
    commands: Sequence[str] = ()  # that make it again


# ---- in JSON


def written(search: Search) -> str:
    """The text of a file of findings."""
    return json.dumps({"form": FORM, **dataclasses.asdict(search)}, indent=1, ensure_ascii=True) + "\n"


def load(name: str) -> Search:
    """The findings in the file `name`. Raises BadInput where it is none."""
    try:
        document = json.loads(files.read_text(name))
    except ValueError as fault:
        raise BadInput(f"{files.shown(name)}: no JSON: {files.printable(str(fault))}") from None
    except RecursionError:
        raise BadInput(f"{files.shown(name)}: no file of findings") from None
    if not isinstance(document, dict) or document.pop("form", None) != FORM:
        raise BadInput(f"{files.shown(name)}: no file of findings ({FORM})")
    try:
        found = document.pop("findings", [])
        if not isinstance(found, list) or len(found) > MOST_FINDINGS:
            raise ValueError
        return Search(**checked(document, Search), findings=[Finding(**checked(one, Finding)) for one in found])
    except (TypeError, ValueError):
        raise BadInput(f"{files.shown(name)}: a finding in it is not as findings are") from None


def checked(table: dict[str, Any], kind: type[Finding] | type[Search]) -> dict[str, Any]:
    """The keys and values of a table, if they are those of the kind. Raises ValueError or TypeError else."""
    found: dict[str, Any] = {}
    for part in dataclasses.fields(kind):
        if part.name not in table:
            continue
        value = table[part.name]
        if part.name in ("facts", "details"):
            value = [(text(one), text(other)) for one, other in value]
        elif part.name in ("notes", "commands"):
            value = [text(one) for one in listed(value)]
        elif part.name in ("title", "where"):
            value = text(value)
        elif value is not None and type(value) is not int:
            raise ValueError
        found[part.name] = value
    if set(table) - set(found) or "title" not in found:
        raise ValueError
    return found


def text(value: object) -> str:
    if not isinstance(value, str):
        raise ValueError
    return value


def listed(value: object) -> list[object]:
    if not isinstance(value, list):
        raise ValueError
    return value


# ---- in a page


def section(search: Search, name: str = "findings", has_timeline: bool = False) -> Section:
    """The findings as a part of a page; with a timeline in it, cycles lead there."""
    facts = tag("dl", *(Html(tag("dt", what) + tag("dd", value)) for what, value in search.facts), class_="facts")
    notes = [pages.warning(note) for note in search.notes]
    if search.findings:
        shown = [article(number, one, has_timeline) for number, one in enumerate(search.findings, 1)]
    else:
        shown = [tag("p", tag("span", "nothing found", class_="badge good"))]
    return Section(name, search.title, search.commands, joined([facts, *notes, *shown]))


def page(
    search: Search,
    title: str,
    kind: str,
    by: str,
    cards: Sequence[tuple[str, str]] = (),
    more: Sequence[Section] = (),
    rules: str = "",
) -> str:
    """A page of what was found alone: what it is of (`title`), by which search (`kind`), by whom; `cards` are what is
    wanted first, beside the number of findings, `more` are parts below the findings, which need the style `rules`."""
    found = [("findings" + "!" * bool(search.findings), f"{len(search.findings):,}"), *cards]
    body = joined([pages.header(title, kind, found, by), pages.sections([section(search), *more])])
    return pages.page(title, body, styles=["page.css"], scripts=["page.js"], data={}, name="report", rules=rules)


def article(number: int, one: Finding, has_timeline: bool) -> Html:
    share = f"{one.count:,} of {one.of:,}" if one.count is not None and one.of is not None else ""
    rows = [("where", html(one.where))] if one.where else []
    rows += [("how many", html(share))] if share else []
    if one.cycle is not None:
        place = f"{one.cycle:,}" + (f", node {one.node}" if one.node is not None else "")
        leads = f"#{one.cycle}" + (f"@{one.node}" if one.node is not None else "")
        rows.append(("cycle", tag("a", place, href=leads) if has_timeline else html(place)))
    rows += [(what, tag("pre", lines(more)) if "\n" in more else html(more)) for what, more in one.details]
    rows += (
        [("to see it", joined(tag("code", command, class_="command") for command in one.commands))]
        if one.commands
        else []
    )
    facts = tag("dl", *(Html(tag("dt", what) + tag("dd", value)) for what, value in rows))
    return tag("article", tag("h3", f"{number}. ", one.title), facts, class_="finding")
