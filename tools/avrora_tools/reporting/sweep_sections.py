"""A sweep in a page: its findings, and which moves fail."""
from fractions import Fraction
from typing import NamedTuple

from avrora_tools.reporting import bars, findings
from avrora_tools.reporting.findings import Search
from avrora_tools.reporting.markup import Html, tag
from avrora_tools.reporting.pages import Section
from avrora_tools.sweeping.sweep import Sweep

WIDTH, LEFT, RIGHT = bars.PAGE_WIDTH, 34, 34


class Stretch(NamedTuple):
    """Moves that stand one behind another and came to the same: the first, the last, and to what."""

    first: int
    last: int
    state: str


STATES = {"passes": "good", "fails": "bad", "not run": "unused"}


def stretches(sweep: Sweep) -> list[Stretch]:
    """The moves of the last event, where it is the only one that moves."""
    found: list[Stretch] = []
    for cell in sweep.cells if len(sweep.scenario.moved) == 1 else ():
        results = sweep.results
        state = "fails" if cell in results.failures else "passes" if cell in results.ran else "not run"
        first, last = cell.arrivals.moves[0], cell.arrivals.moves[-1]
        if found and found[-1].state == state and found[-1].last + 1 == first:
            found[-1] = found[-1]._replace(last=last)
        else:
            found.append(Stretch(first, last, state))
    return found


def strip(every: list[Stretch]) -> Html:
    """Which moves fail, on a scale of the moves."""
    first, end = every[0].first, every[-1].last + 1
    across = (WIDTH - LEFT - RIGHT) / (end - first)
    shapes = []
    drawn_to = -1.0
    for one in every:
        x, wide = LEFT + (one.first - first) * across, (one.last + 1 - one.first) * across
        if one.state != "fails" and x + wide < drawn_to + 0.2:
            continue  # less than can be seen
        wide = max(wide, 1.0 if one.state == "fails" else 0.3)
        drawn_to = x + wide
        words = f"{one.first:,} to {one.last:,} {one.state}"
        shapes.append(
            f'<rect class="fill-{STATES[one.state]}" x="{x:.1f}" y="{14 if one.state == "fails" else 18}" '
            f'width="{wide:.1f}" '
            f'height="{20 if one.state == "fails" else 12}"><title>{words}</title></rect>'
        )
    step, _ = bars.round_step(Fraction(end - first) / bars.TICKS, may_be_part=False)
    tick = -(-first // int(step)) * int(step)
    while tick < end:
        x = LEFT + (tick - first) * across
        shapes.append(
            f'<line class="grid" x1="{x:.1f}" x2="{x:.1f}" y1="10" y2="40"/><text x="{x:.1f}" y="54" '
            f'text-anchor="middle">{tick:,}</text>'
        )
        tick += int(step)
    about = 'class="bars" role="img" aria-label="which moves fail" font-size="11"'
    svg = f'<svg viewBox="0 0 {WIDTH} 60" {about}>{"".join(shapes)}</svg>'
    keys = tag("p", *(key(state) for state in STATES if any(one.state == state for one in every)), class_="keys")
    return Html(tag("div", Html(svg), class_="wide") + keys)


def key(state: str) -> Html:
    colour = STATES[state]
    square = f'<rect class="fill-{colour}" width="12" height="12"/>'
    swatch = f'<svg width="12" height="12" class="swatch" viewBox="0 0 12 12">{square}</svg>'
    return tag("span", Html(swatch), state)


def page(sweep: Sweep, search: Search, scenario: str, by: str) -> str:
    """A page of a sweep."""
    results = sweep.results
    cards = [
        ("moves", f"{sum(len(cell.arrivals.moves) for cell in sweep.cells):,}"),
        ("classes", f"{len(sweep.cells):,}"),
        ("classes that fail" + "!" * bool(results.failures), f"{len(results.failures):,}"),
        ("runs", f"{results.runs:,}"),
        ("seconds", f"{results.seconds:.1f}"),
    ]
    every = stretches(sweep)
    more = [Section("moves", "Which moves fail", [], strip(every))] if every else []
    return findings.page(search, scenario, "a sweep of avrora", by, cards, more, bars.fills())
