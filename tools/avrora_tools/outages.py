"""Keys of a campaign that close links for a while: `link.A-B.outage`, `node.K.outage` and `node.K.silent`.

A scenario has no such keys: it says when a link is open. So an outage is written as the cycles of `open` without its
own.
"""
import dataclasses
import re
from collections.abc import Callable, Mapping, Sequence
from typing import Any

from avrora_tools.campaign_keys import LAST_CYCLE, Table, is_pair
from avrora_tools.errors import BadInput
from avrora_tools.files import printable

OPEN = "open"  # the key of a link

# What a link is that is closed in all cycles: the simulator wants a pair, and no run comes to this one.
NEVER = (LAST_CYCLE - 1, LAST_CYCLE)

Span = tuple[int, int]

# By the words of a key: whether a link goes down where an outage of node K is meant.
OF_NODES: Mapping[str, Callable[[Table, str], bool]] = {
    "outage": lambda link, node: node in ("*", str(link.get("from")), str(link.get("to"))),
    "silent": lambda link, node: node in ("*", str(link.get("from"))),
}

KEY = re.compile(r"link\.(?P<link>[^.]+)\.outage|node\.(?P<node>[^.]+)\.(?P<word>outage|silent)")


def is_outage(key: str) -> bool:
    return KEY.fullmatch(key) is not None


@dataclasses.dataclass(frozen=True)
class Cut:
    """Stands in a template for the cycles in which a link is open: `base` without what the values of these axes close.
    `slot` is the index of its text behind those of the axes."""

    slot: int
    base: tuple[Span, ...]
    axes: tuple[int, ...]


def cut_links(place: str, network: Table, axes: Sequence[Any], slots: int) -> list[Cut]:
    """Has cuts in place of `open` in all links that a key closes. Raises BadInput where a key means no link."""
    closed_by: dict[int, list[int]] = {}
    found = network.get("link")
    links = [link for link in found if isinstance(link, dict)] if isinstance(found, list) else []
    for index, axis in enumerate(axes):
        match = KEY.fullmatch(axis.key)
        if not match:
            continue
        for value in (axis.values[0], axis.values[-1]) if isinstance(axis.values, range) else axis.values:
            closed(place, axis, value)
        means = [number for number, link in enumerate(links) if is_meant(match, link)]
        if not means:
            raise BadInput(f"{place}: {printable(axis.key)} is of no link of the scenario")
        for number in means:
            closed_by.setdefault(number, []).append(index)
    cuts: list[Cut] = []
    for number, indices in closed_by.items():
        base = links[number].get(OPEN, [[0, LAST_CYCLE]])
        if not are_spans(base):
            raise BadInput(f"{place}: a link has an outage and varies in {OPEN}, or its {OPEN} is not a list of spans")
        cuts.append(Cut(slots + len(cuts), tuple((first, end) for first, end in base), tuple(indices)))
        links[number][OPEN] = cuts[-1]
    return cuts


def is_meant(match: "re.Match[str]", link: Table) -> bool:
    if match["link"]:
        return match["link"] in ("*", f"{link.get('from')}-{link.get('to')}")
    return OF_NODES[match["word"]](link, match["node"])


def are_spans(value: Any) -> bool:
    if not isinstance(value, list) or not value:
        return False
    return all(is_pair(span, 0, LAST_CYCLE) and span[0] < span[1] for span in value)


def closed(place: str, axis: Any, value: Any) -> list[Span]:
    """The cycles that a value of an outage means: a start, with the length of all; a span; or some. Raises BadInput
    where it means none."""
    if axis.length and type(value) is int and 0 <= value < LAST_CYCLE:
        return [(value, min(value + axis.length, LAST_CYCLE))]
    spans = [value] if isinstance(value, list) and value and type(value[0]) is int else value
    if axis.length or not are_spans(spans):
        forms = "a span such as [10_000, 40_720], a list of spans, or a range with a length"
        raise BadInput(f"{place}: {printable(axis.key)} is not {forms}")
    return [(first, end) for first, end in spans]


def text_of(cut: Cut, axes: Sequence[Any], values: Sequence[Any]) -> str:
    """The cycles in which a link is open, as TOML."""
    spans = list(cut.base)
    for index in cut.axes:
        for first, end in closed("", axes[index], values[index]):
            spans = [part for span in spans for part in ((span[0], min(span[1], first)), (max(span[0], end), span[1]))]
            spans = [span for span in spans if span[0] < span[1]]
    return "[" + ", ".join(f"[{first}, {end}]" for first, end in spans or [NEVER]) + "]"
