"""A page that needs no other file and may fetch none: its style, its data, and a script that is named by its hash."""
import base64
import hashlib
import importlib.resources
from collections.abc import Mapping, Sequence
from typing import NamedTuple

import avrora_tools.reporting
from avrora_tools import showing
from avrora_tools.reporting import palette
from avrora_tools.reporting.markup import Html, html, joined, tag

LARGEST_PAGE = 5_000_000  # bytes


class Section(NamedTuple):
    """A part of a page: what its link is called, its title, the commands that give what it shows, its content."""

    name: str
    title: str
    commands: Sequence[str]
    content: Html


def asset(name: str) -> str:
    """A file of this package."""
    return importlib.resources.files(avrora_tools.reporting).joinpath(name).read_text("utf-8")


def source_of(content: str) -> str:
    """How a policy names an inline style or script."""
    return f"'sha256-{base64.b64encode(hashlib.sha256(content.encode()).digest()).decode()}'"


def page(
    title: str,
    body: Html,
    *,
    styles: Sequence[str],
    scripts: Sequence[str],
    data: Mapping[str, object],
    name: str = "",
    rules: str = "",
) -> str:
    """A page. `styles` and `scripts` are names of files of this package, `rules` more of style; `data` has JSON by the
    id of its element."""
    style = palette.variables() + "".join(map(asset, styles)) + rules
    script = "\n" + "".join(map(asset, scripts))
    sources = f"style-src {source_of(style)}; script-src {source_of(script)}"
    policy = f"default-src 'none'; {sources}; base-uri 'none'; form-action 'none'"
    carried = "".join(
        f'<script type="application/json" id="{key}">{showing.script_data(value)}</script>\n'
        for key, value in data.items()
    )
    head = joined(
        [
            tag("meta", charset="utf-8"),
            tag("meta", http_equiv="Content-Security-Policy", content=policy),
            tag("meta", name="viewport", content="width=device-width, initial-scale=1"),
            tag("meta", name="referrer", content="no-referrer"),
            tag("title", title),
            Html(f"<style>{style}</style>"),
        ],
        "\n",
    )
    opened = Html(f'<body class="{showing.markup(name)}">' if name else "<body>")
    return f'<!doctype html>\n<html lang="en">\n{head}\n{opened}\n{body}\n{carried}<script>{script}</script>\n'


def sections(parts: Sequence[Section]) -> Html:
    """The parts of a page, below links to all of them."""
    links = joined(tag("a", part.title, href=f"#{part.name}") for part in parts)
    return joined([tag("nav", links, aria_label="parts of this page"), tag("main", *map(section, parts))], "\n")


def section(part: Section) -> Html:
    commands = joined(tag("code", command, class_="command") for command in part.commands)
    return tag(
        "section",
        tag("h2", tag("a", part.title, href=f"#{part.name}")),
        tag("p", commands, class_="commands") if part.commands else Html(""),
        part.content,
        id=part.name,
    )


def header(title: str, kind: str, facts: Sequence[tuple[str, str]], by: str) -> Html:
    """The head of a page: what it is of, and the facts that are wanted first; one whose name ends in ! is a warning."""
    cards = joined(
        tag(
            "div",
            tag("b", value),
            tag("span", what.removesuffix("!")),
            class_="card" + (" warns" if what.endswith("!") else ""),
        )
        for what, value in facts
    )
    return tag(
        "header",
        tag("p", kind, class_="kind"),
        tag("h1", title),
        tag("div", cards, class_="cards"),
        tag("p", by, class_="by"),
    )


def note(text: str) -> Html:
    """A line on how to read what stands below it."""
    return tag("p", html(text), class_="note")


def warning(text: str) -> Html:
    return tag("p", html(text), class_="warning")
