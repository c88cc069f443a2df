"""Networks of a shape, as the text of a scenario."""
import math
import random
import re
from collections.abc import Mapping, Sequence
from typing import Any

from avrora_tools import scenarios, terminal
from avrora_tools.cli import MAX_NODES
from avrora_tools.errors import BadInput

# What a scenario has where nothing else is said, in cycles. The start-up code of a program has cleared memory and
# enabled the receiver by AT; STAGGER, a prime, is no multiple of what programs wait; BYTE_TIME is that of a scenario.
CYCLES, LATENCY, BYTE_TIME = 2_000_000, 300, scenarios.DEFAULT_TIME
AT, STAGGER, EVERY = 2_000, 977, 7_680

# The shapes, in words.
SHAPES = """line: each node is linked with the next, ring: the last one with the first too, grid:WIDTH: with those
beside, above and below, torus:WIDTH: the same without edges, star: node 0 with all others, full: all with all,
geo:RANGE: those at most RANGE apart, where nodes lie in a square of side 1 as the seed draws them"""


# A table of TOML.
Table = dict[str, Any]

# Two nodes, the lower one first; or the nodes at the head and at the end of a link.
Pair = tuple[int, int]


def pairs_of(shape: str, count: int, seed: int = 0) -> list[Pair]:
    """The pairs of linked nodes of a shape, the lower node first, in order. Raises BadInput where the shape is none."""
    name, _, value = shape.partition(":")
    if name in ("grid", "torus"):
        found = grid(whole(shape, value), count, name == "torus")
    elif name == "geo":
        found = near(positive(shape, value), count, seed)
    elif value:
        raise BadInput(f"{shape}: {name} takes no number")
    elif name in ("line", "ring"):
        found = [(node, node + 1) for node in range(count - 1)] + [(0, count - 1)] * (name == "ring" and count > 2)
    elif name == "star":
        found = [(0, node) for node in range(1, count)]
    elif name == "full":
        found = [(low, high) for high in range(count) for low in range(high)]
    else:
        raise BadInput(f"{shape} is not a shape: line, ring, grid:WIDTH, torus:WIDTH, star, full, geo:RANGE")
    return sorted(set(found))


def whole(shape: str, text: str) -> int:
    if not re.fullmatch("[1-9][0-9]{0,8}", text):
        raise BadInput(f"{shape}: {text or 'nothing'} is not a whole number of at least 1")
    return int(text)


def positive(shape: str, text: str) -> float:
    try:
        value = float(text)
    except ValueError:
        value = 0.0
    if not 0 < value < math.inf:
        raise BadInput(f"{shape}: {text or 'nothing'} is not a distance above 0")
    return value


def grid(width: int, count: int, closed: bool) -> list[Pair]:
    """Neighbours in rows of `width` nodes; a torus is closed at its edges, and its last row must be full."""
    if closed and count % width:
        raise BadInput(f"torus:{width}: {count} nodes are not whole rows")
    found: list[Pair] = []
    for node in range(count):
        row, column = divmod(node, width)
        beside = node + 1 if column + 1 < width else row * width if closed else count
        below = node + width if node + width < count or not closed else column
        found += [(min(node, other), max(node, other)) for other in (beside, below) if other < count and other != node]
    return found


def near(distance: float, count: int, seed: int) -> list[Pair]:
    """Nodes in a square of side 1 that lie at most `distance` apart; their places are drawn by the seed."""
    places = drawn_places(count, seed)
    return [
        (low, high) for high in range(count) for low in range(high) if math.dist(places[low], places[high]) <= distance
    ]


def drawn_places(count: int, seed: int) -> list[tuple[float, float]]:
    """Places in a square of side 1, drawn by the seed."""
    draw = random.Random(seed)
    return [(draw.random(), draw.random()) for _ in range(count)]


def scenario(
    shape: str,
    images: Sequence[str],
    *,
    cycles: int = CYCLES,
    latency: int = LATENCY,
    byte_time: int = BYTE_TIME,
    window: Pair = (0, 0),
    seed: int = 0,
    link_latency: Pair | None = None,
    at: int = AT,
    stagger: int = STAGGER,
    spans: Mapping[Pair, Sequence[Pair]] | None = None,
    numbers: bool = True,
    inputs: Mapping[int, str] | None = None,
    every: int = EVERY,
) -> str:
    """The text of a scenario of version 3: `images` are the names of the nodes' images, in order; all links go both
    ways.

    `link_latency` is a pair of numbers, between which each link draws a latency of its own by the seed. Where
    `numbers` is true each node's number arrives at its USART0 as the first byte, at cycle `at` and `stagger` cycles
    later for each node. `inputs` has further bytes that arrive at nodes, `every` cycles apart, as hexadecimal digits:
    node: digits. `spans` has the spans of links that are not always open: (from, to): [(first, end), ..].
    Raises BadInput where it would be no scenario, CannotWork where the library that writes TOML is missing.
    """
    try:
        import tomlkit
    except ImportError:
        raise terminal.missing("tomlkit", "python3-tomlkit") from None
    links = links_of(shape, len(images), seed, link_latency, spans or {})
    scripts = scripts_of(len(images) if numbers else 0, inputs or {}, at, stagger, every)
    document = tomlkit.document()
    document.add(tomlkit.comment(f"{shape}, {len(images)} nodes, seed {seed}"))
    top: Table = {"version": 3, "cycles": cycles, "latency": latency, "byte_time": byte_time, "window": list(window)}
    for key, value in top.items():
        document.add(key, tomlkit.item(value))
    nodes: list[Table] = [{"image": image} for image in images]
    for name, tables in (("node", nodes), ("link", links), ("input", scripts)):
        array = tomlkit.aot()
        for number, content in enumerate(tables):
            table = tomlkit.table()
            if name == "node":
                table.comment(str(number))
            for key, value in content.items():
                table.add(key, tomlkit.item(value))
            table.add(tomlkit.nl())
            array.append(table)
        if tables:
            document.add(tomlkit.nl())
            document.add(name, array)
    text = re.sub("\n{2,}", "\n\n", tomlkit.dumps(document)).rstrip("\n") + "\n"
    scenarios.Scenario.of_text(text, "the network")
    return text


def links_of(
    shape: str, count: int, seed: int, latencies: Pair | None, spans: Mapping[Pair, Sequence[Pair]]
) -> list[Table]:
    """The tables of the links of a shape, both ways."""
    draw = random.Random(f"{seed} latencies")
    if latencies and latencies[0] > latencies[1]:
        raise BadInput(f"{latencies[0]} to {latencies[1]} is not a range of latencies: the lower one comes first")
    left = dict(spans)
    found: list[Table] = []
    for low, high in pairs_of(shape, count, seed):
        for ends in ((low, high), (high, low)):
            link: Table = {"from": ends[0], "to": ends[1]}
            if latencies:
                link["latency"] = draw.randint(*latencies)
            if ends in left:
                link["open"] = [list(span) for span in left.pop(ends)]
            found.append(link)
    if left:
        first, end = next(iter(left))
        raise BadInput(f"{shape} has no link from {first} to {end} to be open for a while")
    return found


def scripts_of(numbered: int, inputs: Mapping[int, str], at: int, stagger: int, every: int) -> list[Table]:
    """The tables of what arrives at the nodes: of the first `numbered` their numbers, and the `inputs`."""
    found: list[Table] = []
    for node in sorted(set(range(numbered)) | set(inputs)):
        digits = f"{node:02X}" * (node < numbered) + inputs.get(node, "")
        script: Table = {"node": node, "at": at + node * stagger, "hex": digits}
        if len(digits) > 2:
            script["every"] = every
        found.append(script)
    return found


def counted(words: Sequence[str]) -> list[str]:
    """The names of images that IMAGE*COUNT stands for. Raises BadInput where a word has no IMAGE, or no COUNT of 1 or
    more, and where they are too many."""
    images: list[str] = []
    for word in words:
        match = re.fullmatch(r"(.*)\*([0-9]+)", word, re.DOTALL)
        name, count = (match[1], match[2].lstrip("0")) if match else (word, "1")
        if not name.strip("*") or not count:
            raise BadInput(f"{word or 'nothing'} is no IMAGE and no IMAGE*COUNT, where COUNT is 1 or more")
        if len(count) > 9 or len(images) + int(count) > MAX_NODES:
            raise BadInput(f"{word}: more than {MAX_NODES} nodes")
        images += [name] * int(count)
    return images
