"""Bars of parts, with a scale, as SVG: for a page, or as a picture that stands for itself."""
import math
from collections.abc import Sequence
from fractions import Fraction
from typing import NamedTuple

from avrora_tools import showing
from avrora_tools.reporting import palette
from avrora_tools.reporting.markup import Html, tag

BAR, GAP, LEFT, RIGHT, TOP, BOTTOM, LETTER = 16, 6, 60, 112, 34, 26, 6.6
TICKS = 8
PAGE_WIDTH = 720  # pixels of bars in a page
ENTRY = 120  # pixels of the legend for each part


class Part(NamedTuple):
    """A part of a bar: the name of what it is, its colour's, and how much it is."""

    name: str
    colour: str
    value: float


class Bar(NamedTuple):
    """A bar: what it is of, its parts, what stands behind it."""

    label: str
    parts: Sequence[Part]
    said: str


def round_step(least: Fraction, may_be_part: bool) -> tuple[Fraction, int]:
    """The least of 1, 2, 5, 10, 20, 50, .. that is no less than `least`, or of parts of 1 such as 0.5 too; and how many
    digits such a number has behind its point."""
    power = -6 if may_be_part else 0
    while True:
        for factor in (1, 2, 5):
            step = factor * Fraction(10) ** power
            if step >= least:
                return step, max(0, -power)
        power += 1


def scale_of(greatest: float) -> tuple[list[float], int]:
    """Where the ticks of a scale stand that begins at 0, and how many digits they have behind the point."""
    step, digits = round_step(Fraction(greatest) / TICKS, may_be_part=True)
    return [float(number * step) for number in range(math.floor(Fraction(greatest) / step) + 1)], digits


def drawn(bars: Sequence[Bar], unit: str, title: str, width: int = 900, is_part_of_page: bool = False) -> str:
    """Bars as SVG, each part of which says on hovering what it is: of which bar, what, how much."""
    parts = {part.name: part.colour for bar in bars for part in bar.parts}
    rules = [(".paper", "fill", "paper"), ("text", "fill", "ink"), (".grid", "stroke", "rule")]
    rules += [(f".fill-{colour}", "fill", colour) for colour in dict.fromkeys(parts.values())]
    left = max(LEFT, math.ceil(LETTER * max((len(bar.label) for bar in bars), default=0)) + 14)
    greatest = max((sum(part.value for part in bar.parts) for bar in bars), default=0.0) or 1.0
    across = (width - left - RIGHT) / greatest
    columns = max(1, (width - 20) // ENTRY)
    top = TOP + 20 * ((len(parts) - 1) // columns)
    bottom = top + len(bars) * (BAR + GAP)
    out = [
        f'<svg xmlns="http://www.w3.org/2000/svg" class="bars" viewBox="0 0 {width} {bottom + BOTTOM}" role="img" '
        + ("" if is_part_of_page else f'width="{width}" height="{bottom + BOTTOM}" ')
        + f'font-family="DejaVu Sans,sans-serif" font-size="11" aria-label="{showing.markup(title)}">'
    ]
    if not is_part_of_page:
        out.append(palette.style(rules) + '<rect class="paper" width="100%" height="100%"/>')
    for place, (name, colour) in enumerate(parts.items()):
        column, row = 10 + ENTRY * (place % columns), 10 + 20 * (place // columns)
        out.append(
            f'<rect x="{column}" y="{row}" width="12" height="12" class="fill-{colour}"/>'
            f'<text x="{column + 17}" y="{row + 10}">{showing.markup(name)}</text>'
        )
    ticks, digits = scale_of(greatest)
    for tick in ticks:
        x = left + tick * across
        out.append(
            f'<line class="grid" x1="{x:.1f}" x2="{x:.1f}" y1="{top - 4}" y2="{bottom}"/>'
            f'<text x="{x:.1f}" y="{bottom + 14}" '
            f'text-anchor="middle">{tick:,.{digits}f}{unit if tick == ticks[-1] else ""}</text>'
        )
    for number, bar in enumerate(bars):
        out += bar_shapes(bar, unit, left, top + number * (BAR + GAP), across)
    return "\n".join(out) + "\n</svg>\n"


def in_page(bars: Sequence[Bar], unit: str, title: str) -> Html:
    """Bars as a part of a page, which scrolls where it is narrow."""
    return tag("div", Html(drawn(bars, unit, title, PAGE_WIDTH, is_part_of_page=True)), class_="wide")


def bar_shapes(bar: Bar, unit: str, left: int, y: int, across: float) -> list[str]:
    along = float(left)
    out = [f'<text x="{left - 8}" y="{y + BAR - 4}" text-anchor="end">{showing.markup(bar.label)}</text>']
    for part in bar.parts:
        long = part.value * across
        words = showing.markup(f"{bar.label}, {part.name}: {part.value:.4g}{unit}")
        out.append(
            f'<rect x="{along:.1f}" y="{y}" width="{long:.1f}" height="{BAR}" class="fill-{part.colour}">'
            f'<title>{words}</title></rect>'
        )
        along += long
    return [*out, f'<text x="{along + 6:.1f}" y="{y + BAR - 4}">{showing.markup(bar.said)}</text>']


def fills() -> str:
    """The rules of bars within a page."""
    return palette.rules((f".fill-{name}", "fill", name) for name in palette.COLOURS) + ".grid{stroke:var(--rule)}"
