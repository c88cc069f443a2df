"""Variables over time as shapes of a picture (SVG)."""
from collections.abc import Callable, Iterator, Sequence

from avrora_tools import showing
from avrora_tools.tracks import Look, Number, Track

ROW, HIGH = 16, 12  # pixels of a track, and of its greatest value
BASE = 11  # where its text stands, below the top
SIZE = 9  # of the font
LETTER = 0.62 * SIZE  # of a font whose letters all have one width
ASIDE = 4  # pixels between where a value begins and its text, and between its text and its line
LETTERS = range(2, BASE + 2)  # where a line would go through letters, below the top: it would read as a minus sign
LOWEST = 0.12  # of the height: the least of several numbers
CLOSEST = 0.5  # pixels: values that lie closer are drawn as one bar

Place = Callable[[float], float]  # of a cycle, in pixels


def level(track: Track, place: int, span: tuple[Number, Number]) -> float:
    """How high a value stands, as a part of the height."""
    if track.look is Look.NAME:
        return 1
    number = track.numbers[place]
    if track.look is Look.FLAG:
        return 1 if number else 0
    least, most = span
    if not least < most or not least <= number <= most:  # all one, or no number
        return LOWEST
    return LOWEST + (1 - LOWEST) * (number - least) / (most - least)


def shapes(track: Track, node: int, top: int, x: Place, end: int) -> Iterator[str]:
    """The elements of a track whose row begins at the height `top`, up to the cycle `end`. The line of a number has a
    gap where its text stands."""
    known = [number for number in track.numbers if abs(number) < float("inf")]
    span = (min(known), max(known)) if known else (0, 0)
    low = top + HIGH + 2
    path: list[str] = []
    for group in grouped(list(track.changes()), x, end):
        begin, behind, places = group
        heights = [HIGH * level(track, place, span) for place in places]
        height, text = heights[-1], track.texts[places[-1]]
        if len(places) > 1:
            foot = 0 if track.look is Look.NAME else min(heights)
            path.append(f"M{begin:g} {low - foot:.1f}V{low - max(heights):.1f}")
        has_text = track.look is not Look.FLAG and ASIDE + LETTER * len(text) + 2 < behind - begin
        path.append(f"{'L' if path else 'M'}{begin:g} {low - height:.1f}")
        if has_text and track.look is Look.NUMBER and LETTERS.start < low - height - top < LETTERS.stop:
            path.append(f"M{min(begin + 2 * ASIDE + LETTER * len(text), behind):g} {low - height:.1f}")
        path.append(f"H{behind:g}")
        words = showing.markup(text)
        yield (
            f'<rect class="wave" x="{begin:g}" y="{low - height:.1f}" width="{behind - begin:.2f}" '
            f'height="{height:.1f}"><title>node {node}: {showing.markup(track.name)} = {words}</title></rect>'
        )
        if has_text:
            yield f'<text class="value" x="{begin + ASIDE:g}" y="{top + BASE}" font-size="{SIZE}">{words}</text>'
        if track.look is Look.NAME:
            path.append(f"V{low}")
    yield f'<path class="level" d="{"".join(path)}"/>'


def grouped(
    changes: Sequence[tuple[int, int]], x: Place, end: int
) -> Iterator[tuple[float, float, list[int]]]:
    """Values with where they begin and end in pixels; those that lie too close together as one, in their order."""
    at = 0
    while at < len(changes):
        begin, places = x(changes[at][0]), [changes[at][1]]
        while at + 1 < len(changes) and x(changes[at + 1][0]) < begin + CLOSEST:
            at += 1
            places.append(changes[at][1])
        at += 1
        yield begin, x(changes[at][0] if at < len(changes) else end), places
