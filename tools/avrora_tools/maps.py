"""The map of a network: where its nodes are drawn, and how well each link does, as SVG; and what is odd about who hears
whom."""
import math
from collections.abc import Callable, Iterable, Mapping, Sequence
from dataclasses import dataclass

from avrora_tools import networks, showing, toml
from avrora_tools.errors import BadInput
from avrora_tools.reporting import palette

Ends = tuple[int, int]  # the node that is heard, the one that hears
Point = tuple[float, float]


# ---- what is odd


def unreached(count: int, links: Iterable[Ends]) -> list[int]:
    """The nodes that no link leads to: they hear nobody."""
    hearers = {hearer for _, hearer in links}
    return [node for node in range(count) if node not in hearers]


def one_way(links: Iterable[Ends]) -> list[Ends]:
    """The links that have none back."""
    all_links = set(links)
    return sorted((a, b) for a, b in all_links if (b, a) not in all_links)


def parts(count: int, links: Iterable[Ends]) -> list[list[int]]:
    """The parts that the network falls into, each with its nodes: no link, of whatever direction, joins two of them."""
    beside: dict[int, set[int]] = {node: set() for node in range(count)}
    for a, b in links:
        beside[a].add(b)
        beside[b].add(a)
    found: list[list[int]] = []
    left = set(range(count))
    while left:
        part, reached = set[int](), {min(left)}
        while reached:
            part |= reached
            reached = set[int]().union(*(beside[node] for node in reached)) - part
        found.append(sorted(part))
        left -= part
    return found


def deaf_leaves(count: int, links: Iterable[Ends]) -> tuple[int, list[int]] | None:
    """The middle of a star, and its leaves, where no leaf hears another: three nodes or more, of which all links lead
    to or from one."""
    ends = set(links)
    if count < 3 or not ends:
        return None
    middles = [node for node in range(count) if all(node in pair for pair in ends)]
    leaves = sorted({a for a, b in ends if middles and b == middles[0]})
    return (middles[0], leaves) if len(middles) == 1 and len(leaves) > 1 else None


def oddities(count: int, links: Sequence[Ends]) -> list[str]:
    """What is odd, each in a line."""
    found = []
    if alone := unreached(count, links):
        found.append(f"nothing reaches {listed(alone)}")
    if lone := one_way(links):
        found.append(f"links of one direction: {', '.join(f'{a} to {b}' for a, b in lone)}")
    if len(groups := parts(count, links)) > 1:
        found.append(f"{len(groups)} parts that no link joins: {'; '.join(numbers(part) for part in groups)}")
    if star := deaf_leaves(count, links):
        found.append(
            f"{listed(star[1])} do not hear each other, and clash at node {star[0]} unless they send at times that "
            "lie apart"
        )
    return found


def listed(nodes: Sequence[int]) -> str:
    return f"node {nodes[0]}" if len(nodes) == 1 else f"nodes {numbers(nodes)}"


def numbers(nodes: Sequence[int]) -> str:
    """Numbers of nodes, rising, as 0, 2-4."""
    found: list[list[int]] = []
    for node in nodes:
        if found and found[-1][1] + 1 == node:
            found[-1][1] = node
        else:
            found.append([node, node])
    return ", ".join(str(first) if first == last else f"{first}-{last}" for first, last in found)


# ---- where nodes are drawn

ROUNDS = 300
WARMTH = 0.1  # how far a node moves at first, of the width


def places_of(text: str, name: str, count: int) -> list[Point]:
    """The places in a TOML text, NODE = [x, y] of each node. Raises BadInput where it is no such text."""
    try:
        document = toml.loads(text)
    except toml.NotToml as fault:
        raise BadInput(f"{name}, line {fault.line}: no TOML: {fault.why}") from None
    found = []
    for node in range(count):
        place = document.pop(str(node), None)
        if not isinstance(place, list) or len(place) != 2 or not all(is_coordinate(part) for part in place):
            raise BadInput(
                f"{name}: a place such as {node} = [0.25, 1.0] is missing: each node needs one, from 0 to {count - 1}"
            )
        found.append((float(place[0]), float(place[1])))
    if document:
        raise BadInput(f"{name}: {next(iter(document))!r} is not a node: there are {count}")
    return found


def shape_places(shape: str, count: int, seed: int) -> list[Point]:
    """Where the nodes of a shape of mknet lie: in rows, in a square as the seed draws them, on a line, or on a circle,
    in a star about node 0."""
    name, _, value = shape.partition(":")
    if name in ("grid", "torus"):
        return [(float(node % int(value)), float(node // int(value))) for node in range(count)]
    if name == "geo":
        return networks.drawn_places(count, seed)
    if name == "line":
        return [(float(node), 0.0) for node in range(count)]
    leaves = [node for node in range(count) if node or name != "star"]
    turn = 2 * math.pi / max(1, len(leaves))
    circle = {node: (math.cos(turn * k), math.sin(turn * k)) for k, node in enumerate(leaves)}
    return [circle.get(node, (0.0, 0.0)) for node in range(count)]


def places_text(places: Sequence[Point]) -> str:
    """Places as TOML."""
    return "".join(f"{node} = [{x:.4f}, {y:.4f}]\n" for node, (x, y) in enumerate(places))


def is_coordinate(value: object) -> bool:
    return (
        isinstance(value, (int, float)) and not isinstance(value, bool) and math.isfinite(value) and abs(value) <= 1e9
    )


def laid_out(count: int, links: Iterable[Ends]) -> list[Point]:
    """Places for the nodes: linked ones draw each other near and all push each other away, from a circle on. The same
    network always gets the same places."""
    pairs = sorted({(min(ends), max(ends)) for ends in links})
    places = [
        (math.cos(2 * math.pi * k / count), math.sin(2 * math.pi * k / count) * (1 + 0.01 * k)) for k in range(count)
    ]
    apart = 2 / math.sqrt(count)  # how far nodes would like to be
    for round_ in range(ROUNDS if count > 2 else 0):
        moves = [[0.0, 0.0] for _ in range(count)]
        for a in range(count):
            for b in range(a):
                push(places, moves, a, b, lambda distance: apart**2 / distance)
        for a, b in pairs:
            push(places, moves, b, a, lambda distance: -(distance**2) / apart)
        most = WARMTH * (1 - round_ / ROUNDS)
        places = [moved(place, move, most) for place, move in zip(places, moves)]
    return places


def placed(count: int, links: Iterable[Ends]) -> list[Point]:
    """Places for the nodes of a network: where links make a grid, a line, a ring or a star of mknet, the places of
    that; else as `laid_out` has them, turned so that most links lie level or upright."""
    pairs = sorted({(min(ends), max(ends)) for ends in links})
    if shape := shape_of(count, pairs):
        return shape_places(shape, count, 0)
    return upright(laid_out(count, pairs), pairs)


def shape_of(count: int, pairs: Sequence[Ends]) -> str | None:
    """The shape of mknet that has these pairs of linked nodes, if any."""
    widths = range(2, count // 2 + 1)
    shapes = ["line", *(f"grid:{width}" for width in widths)]
    shapes += [f"torus:{width}" for width in widths if count % width == 0]
    shapes += ["ring", "star"] if count > 3 else []
    return next((shape for shape in shapes if count > 1 and networks.pairs_of(shape, count) == list(pairs)), None)


QUARTER = 4  # turns of a square that leave it as it is


def upright(places: Sequence[Point], pairs: Iterable[Ends]) -> list[Point]:
    """The places, turned so that most links lie level or upright."""
    across = along = 0.0
    for a, b in pairs:
        dx, dy = places[b][0] - places[a][0], places[b][1] - places[a][1]
        angle, long = math.atan2(dy, dx), math.hypot(dx, dy)
        across += long * math.cos(QUARTER * angle)
        along += long * math.sin(QUARTER * angle)
    turn = -math.atan2(along, across) / QUARTER if across or along else 0.0
    cos, sin = math.cos(turn), math.sin(turn)
    return [(x * cos - y * sin, x * sin + y * cos) for x, y in places]


def push(places: Sequence[Point], moves: list[list[float]], a: int, b: int, force: Callable[[float], float]) -> None:
    """Adds to the moves of two nodes what pushes them apart."""
    dx, dy = places[a][0] - places[b][0], places[a][1] - places[b][1]
    distance = max(math.hypot(dx, dy), 1e-3)
    strength = force(distance) / distance
    for node, sign in ((a, 1), (b, -1)):
        moves[node][0] += sign * dx * strength
        moves[node][1] += sign * dy * strength


def moved(place: Point, move: Sequence[float], most: float) -> Point:
    long = math.hypot(*move)
    part = min(1.0, most / long) if long else 0.0
    return place[0] + move[0] * part, place[1] + move[1] * part


# ---- the picture

SIZE, MARGIN, RADIUS = 720, 60, 14
LEGEND = 64
BEND = 0.08  # of a link, so that the two directions lie side by side
MOST_NUMBERED = 160  # links that have their numbers on them

# How well a link does: the least part of what was sent that is clean, the class, and what the legend says.
GRADES = (
    (1.0, "link4", "100%"),
    (0.9, "link3", "90% or more"),
    (0.5, "link2", "50% or more"),
    (1e-12, "link1", "less"),
    (0.0, "link0", "nothing"),
)
UNUSED = "unused"
WIDTHS = {"link4": 1.6, "link3": 1.8, "link2": 2.2, "link1": 2.6, "link0": 3.0, UNUSED: 1.0}

RULES: list[palette.Rule] = [
    (".paper", "fill", "paper"), (".map text", "fill", "ink"),
    (".node circle", "fill", "paper"), (".node circle", "stroke", "ink"), (".alone circle", "stroke", "bad"),
    (".number", "stroke", "paper"),
    *((f".{name}", "stroke", name) for name in WIDTHS), *((f".tip-{name}", "fill", name) for name in WIDTHS),
]  # fmt: skip
MORE = (
    "".join(f".{name}{{stroke-width:{width}px}}" for name, width in WIDTHS.items())
    + ".node circle{stroke-width:1.5px}.alone circle{stroke-width:3px}.lone{stroke-dasharray:6 4}"
    ".number{font-size:10px;stroke-width:3px;paint-order:stroke;text-anchor:middle}"
)


@dataclass(frozen=True)
class Quality:
    """What became of the bytes that were sent, some of them while the link was closed."""

    sent: int
    clean: int
    clashed: int
    unheard: int
    closed: int = 0

    @property
    def share(self) -> float | None:
        return self.clean / self.sent if self.sent else None


def grade(share: float | None) -> str:
    """The class of a link by which part of what was sent is clean; of its own where nothing was sent."""
    return UNUSED if share is None else next(name for least, name, _ in GRADES if share >= least)


def page_rules() -> str:
    """The rules of a map within a page."""
    return palette.rules(RULES) + MORE


def drawn(places: Sequence[Point], links: Mapping[Ends, Quality], is_part_of_page: bool = False) -> str:
    """The map as SVG."""
    at = fitted(places)
    low = min(y for _, y in at) - MARGIN
    high = max(y for _, y in at) + MARGIN - low
    height = high + LEGEND
    size = "" if is_part_of_page else f'width="{SIZE}" height="{height:.0f}" '
    out = [
        f'<svg xmlns="http://www.w3.org/2000/svg" class="map" viewBox="0 {low:.0f} {SIZE} {height:.0f}" '
        f'{size}role="img" '
        'aria-label="map of the network" font-family="DejaVu Sans,sans-serif" font-size="11">'
    ]
    if not is_part_of_page:
        out.append(palette.style(RULES, MORE))
        out.append(f'<rect class="paper" y="{low:.0f}" width="100%" height="100%"/>')
    out.append("<defs>" + "".join(map(tip, sorted({grade(quality.share) for quality in links.values()}))) + "</defs>")
    lone = set(one_way(links))
    out += [link_shape(at, ends, quality, ends in lone) for ends, quality in sorted(links.items())]
    if len(links) <= MOST_NUMBERED:
        out += [link_number(at, ends, quality) for ends, quality in sorted(links.items())]
    alone = set(unreached(len(places), links))
    for node, (x, y) in enumerate(at):
        title = f"node {node}: nothing reaches it" if node in alone else f"node {node}"
        out.append(
            f'<g class="node{" alone" * (node in alone)}"><title>{title}</title><circle cx="{x:.1f}" cy="{y:.1f}" '
            f'r="{RADIUS}"/>'
            f'<text x="{x:.1f}" y="{y + 4:.1f}" text-anchor="middle">{node}</text></g>'
        )
    return "\n".join(out + legend(low + high)) + "\n</svg>\n"


def tip(name: str) -> str:
    return (
        f'<marker id="tip-{name}" viewBox="0 0 8 8" refX="8" refY="4" markerWidth="8" markerHeight="8" orient="auto" '
        f'markerUnits="userSpaceOnUse"><path d="M0 0L8 4L0 8z" class="tip-{name}"/></marker>'
    )


def fitted(places: Sequence[Point]) -> list[Point]:
    """The places within the picture, as large as fits."""
    xs, ys = [x for x, _ in places], [y for _, y in places]
    wide = max(max(xs) - min(xs), max(ys) - min(ys)) or 1.0
    scale = (SIZE - 2 * MARGIN) / wide
    left, top = (SIZE - scale * (max(xs) - min(xs))) / 2, (SIZE - scale * (max(ys) - min(ys))) / 2
    return [(left + (x - min(xs)) * scale, top + (y - min(ys)) * scale) for x, y in places]


def bend_of(at: Sequence[Point], ends: Ends) -> Point:
    """The point towards which a link is bent."""
    (x, y), (end_x, end_y) = at[ends[0]], at[ends[1]]
    dx, dy = end_x - x, end_y - y
    return (x + end_x) / 2 - dy * BEND, (y + end_y) / 2 + dx * BEND


def link_shape(at: Sequence[Point], ends: Ends, quality: Quality, is_lone: bool) -> str:
    """A link as a bent arrow, dashed where it has none back."""
    bend = bend_of(at, ends)
    start, end = towards(at[ends[0]], bend), towards(at[ends[1]], bend)
    share = "nothing sent" if quality.share is None else f"{100 * quality.share:.1f}% of {quality.sent:,} bytes clean"
    more = f", {quality.clashed:,} clashed, {quality.unheard:,} unheard" if quality.sent else ""
    more += f", {quality.closed:,} while it was closed" if quality.closed else ""
    title = showing.markup(f"{ends[0]} to {ends[1]}: {share}{more}{', one direction' if is_lone else ''}")
    name = grade(quality.share)
    return (
        f'<path d="M{start[0]:.1f} {start[1]:.1f}Q{bend[0]:.1f} {bend[1]:.1f} {end[0]:.1f} {end[1]:.1f}" fill="none" '
        f'class="{name}{" lone" * is_lone}" marker-end="url(#tip-{name})"><title>{title}</title></path>'
    )


def link_number(at: Sequence[Point], ends: Ends, quality: Quality) -> str:
    """Which part of what was sent is clean, in percent, beside the link's middle, nearer to the hearer."""
    if quality.share is None:
        return ""
    (x, y), bend, (end_x, end_y) = at[ends[0]], bend_of(at, ends), at[ends[1]]
    part = 0.58
    on_x, on_y = (
        (1 - part) ** 2 * one + 2 * part * (1 - part) * middle + part**2 * other
        for one, middle, other in ((x, bend[0], end_x), (y, bend[1], end_y))
    )
    return f'<text class="number" x="{on_x:.1f}" y="{on_y + 3.5:.1f}">{math.floor(100 * quality.share)}</text>'


def towards(place: Point, other: Point) -> Point:
    """The point at the edge of a node's circle in the direction of another point."""
    dx, dy = other[0] - place[0], other[1] - place[1]
    long = math.hypot(dx, dy) or 1.0
    return place[0] + dx / long * (RADIUS + 1), place[1] + dy / long * (RADIUS + 1)


def legend(top: float) -> list[str]:
    """What the colours, the numbers and the lines say."""
    y = top + 18
    out = [f'<text x="20" y="{y + 4:.0f}">heard clean of what was sent, in percent:</text>']
    entries = [*((name, words) for _, name, words in GRADES), (UNUSED, "none sent")]
    for place, (name, words) in enumerate(entries):
        x = 20 + 114 * place
        out.append(f'<line x1="{x}" x2="{x + 24}" y1="{y + 20:.0f}" y2="{y + 20:.0f}" class="{name}"/>')
        out.append(f'<text x="{x + 30}" y="{y + 24:.0f}">{words}</text>')
    return [*out, f'<text x="300" y="{y + 4:.0f}">dashed: one direction alone; thick circle: nothing reaches it</text>']
