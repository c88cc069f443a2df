"""Tables of a page, which its script sorts and filters."""
from collections.abc import Iterable, Sequence
from typing import NamedTuple

from avrora_tools.reporting.markup import Content, Html, html, tag

FEW_ROWS = 12  # need no filter


class Column(NamedTuple):
    """A column: its title, the class of its cells (`n` for numbers), what its title means."""

    title: str
    kind: str = ""
    meaning: str = ""


class Cell(NamedTuple):
    """A cell that is sorted by another value than its text."""

    content: Content
    value: float | str


Row = Sequence[Content | Cell]


def numbers(*titles: str) -> list[Column]:
    return [Column(title, "n") for title in titles]


def drawn(
    name: str,
    columns: Sequence[Column],
    rows: Iterable[Row],
    foot: Sequence[Content] = (),
    caption: str = "",
    filter_words: str = "",
) -> Html:
    """A table. With `filter_words` a field above it shows the rows alone that have a text."""
    body = [row_of(columns, row) for row in rows]
    head = tag(
        "tr",
        *(tag("th", one.title, scope="col", class_=one.kind or None, title=one.meaning or None) for one in columns),
    )
    parts = [tag("caption", caption)] if caption else []
    parts += [tag("thead", head), tag("tbody", *body)]
    if foot:
        parts.append(tag("tfoot", row_of(columns, foot)))
    table = tag("div", tag("table", *parts, id=f"table-{name}", class_="sortable"), class_="wide")
    if not filter_words or len(body) < FEW_ROWS:
        return table
    field = tag("label", filter_words, " ", tag("input", type="search", data_filter=f"table-{name}"))
    return Html(tag("p", field, tag("span", "", class_="faint", data_count=f"table-{name}"), class_="filters") + table)


def row_of(columns: Sequence[Column], row: Row) -> Html:
    cells = []
    for column, cell in zip(columns, row):
        kind = column.kind or None
        if isinstance(cell, Cell):
            cells.append(tag("td", html(cell.content), class_=kind, data_value=str(cell.value)))
        else:
            cells.append(tag("td", html(cell), class_=kind))
    return tag("tr", *cells)


def percent(part: float, whole: float) -> Cell:
    """A part in percent, that is sorted by its value."""
    share = part / whole if whole else 0.0
    return Cell(f"{100 * share:.1f}%" if whole else "", share if whole else -1.0)


def meter(part: float, whole: float, colour: str = "sent", width: int = 80) -> Cell:
    """The same as a bar that has its number behind it."""
    share = min(1.0, part / whole) if whole else 0.0
    bar = (
        f'<svg width="{width}" height="11" viewBox="0 0 {width} 11" aria-hidden="true">'
        f'<rect class="fill-rule" width="{width}" height="11"/><rect class="fill-{colour}" '
        f'width="{width * share:.1f}" height="11"/></svg>'
    )
    return Cell(Html(f"{bar} {100 * share:.1f}%" if whole else ""), share if whole else -1.0)
