"""A trace as a picture: SVG for papers."""
from collections.abc import Iterator
from fractions import Fraction

from avrora_tools import cli, drawings, lines, showing
from avrora_tools.drawings import Drawing, Lane
from avrora_tools.reporting import palette, wave_pictures
from avrora_tools.reporting.bars import round_step


# What is drawn by which colour, and the widths of lines. The names of the classes are those of EVENTS.
RULES: list[palette.Rule] = [
    ("text", "fill", "ink"), (".paper", "fill", "paper"), (".grid", "stroke", "rule"), (".line", "stroke", "panel"),
    *((f".{name}", "fill", name) for name in ("sent", "serial", "asleep", "stopped", "stop", "closed", "window")),
    (".wave", "fill", "track"), (".level", "stroke", "track"), (".named", "fill", "faint"),
    *((f".{name}", "stroke", name) for name in ("heard", "clash", "quiet", "enter")),
    *((f".p-{name}", "stroke", name) for name in ("sent", "heard", "clash", "quiet", "serial")),
    (".way", "stroke", "clash"), (".hop", "stroke", "heard"), (".said", "fill", "serial"),
]  # fmt: skip
WIDTHS = """.heard{stroke-width:1.3}.clash{stroke-width:1.8}.quiet{stroke-width:.7}.enter{stroke-width:.8}
.way{stroke-width:.7;opacity:.55;stroke-dasharray:4 2}.hop{stroke-width:.6;opacity:.45}.said,.value{font-family:monospace}
.wave{fill-opacity:.2}.level{fill:none}"""

MAX_TITLED = 20_000  # events that each have a text of their own to hover
LEAST_MARGIN, MOST_MARGIN = 92, 260  # left of the cycles, in pixels
RIGHT = 12
TOP = 30
BOTTOM, LEGEND_ROW = 36, 14
MOST_TICKS = 10
LETTER = 6.4  # at most, of the font of the picture
MONOSPACE = 0.62  # of the size of a font whose letters all have one width
MOST_CROWDED = 20  # pixels of a row that has room for text


class Picture:
    """The drawing as SVG."""

    def __init__(self, drawing: Drawing, hz: int | None, width: int, shows_quiet: bool) -> None:
        self.drawing, self.hz, self.width, self.shows_quiet = drawing, hz, width, shows_quiet
        self.nodes = sorted(drawing.lanes)
        self.row = {node: number for number, node in enumerate(self.nodes)}
        self.step = 12 if len(self.nodes) > 32 else 18 if len(self.nodes) > 16 else 26 if len(self.nodes) > 6 else 38
        names = [drawing.name(node) for node in self.nodes]
        names += [track.name for node in self.nodes for track in drawing.lanes[node].tracks]
        longest = max(map(len, names), default=0)
        self.margin = int(min(MOST_MARGIN, max(LEAST_MARGIN, LETTER * longest + 8)))
        self.legend = self.legend_rows()
        self.tops: dict[int, int] = {}
        self.bottom = TOP
        for node in self.nodes:
            self.tops[node] = self.bottom
            self.bottom += self.step + wave_pictures.ROW * len(drawing.lanes[node].tracks)
        self.height = self.bottom + BOTTOM + LEGEND_ROW * (len(self.legend) - 1)
        self.scale = (width - self.margin - RIGHT) / max(1, drawing.last_cycle - drawing.first)
        kinds = [kind for kind in drawings.FIELDS if kind != "lines"]
        self.count = sum(lane.count(*kinds) for lane in drawing.lanes.values())
        self.titled = self.count <= MAX_TITLED
        self.out: list[str] = []

    def text(self) -> str:
        self.out = [
            f'<svg xmlns="http://www.w3.org/2000/svg" viewBox="0 0 {self.width} {self.height}" width="{self.width}" '
            f'height="{self.height}" font-family="DejaVu Sans,sans-serif" font-size="10">{palette.style(RULES, WIDTHS)}'
            '<rect class="paper" width="100%" height="100%"/>'
        ]
        self.draw_grid()
        for node in self.nodes:
            self.draw_lane(node)
            self.draw_tracks(node)
        self.draw_ways()
        self.draw_legend()
        return "\n".join(self.out) + "\n</svg>\n"

    def x(self, cycle: float) -> float:
        return round(
            self.margin
            + (min(max(cycle, self.drawing.first), self.drawing.last_cycle) - self.drawing.first) * self.scale,
            2,
        )

    def y(self, node: int) -> int:
        return self.tops[node]

    def draw_grid(self) -> None:
        first, last = self.drawing.first, self.drawing.last_cycle
        for cycle, label in ticks(first, last, self.hz, self.width - self.margin - RIGHT):
            x = self.x(cycle)
            self.out.append(
                f'<line class="grid" x1="{x}" x2="{x}" y1="{TOP - 6}" y2="{self.bottom + 4}"/>'
                f'<text x="{x}" y="{TOP - 12}" text-anchor="middle">{label}</text>'
            )
        first, end = self.drawing.window
        if end > self.drawing.first and first < min(end, self.drawing.last_cycle):
            width = max(2, self.x(end) - self.x(first))
            self.out.append(
                f'<rect x="{self.x(first)}" y="{TOP - 6}" width="{width:.2f}" height="3" class="window">'
                f"<title>instructions are traced from {first:,} to {end:,}</title></rect>"
            )

    def draw_lane(self, node: int) -> None:
        lane, y, high = self.drawing.lanes[node], self.y(node), self.step - 3
        self.out.append(
            f'<text x="{self.margin - 6}" y="{y + high / 2 + 3.5}" text-anchor="end">'
            f"{showing.markup(shortened(self.drawing.name(node), int((self.margin - 8) / LETTER)))}</text>"
            f'<line class="line" x1="{self.margin}" x2="{self.width - RIGHT}" y1="{y + high + 1}" y2="{y + high + 1}"/>'
        )
        for cycle, _ in lane.stop:
            self.out.append(
                f'<rect class="stopped" x="{self.x(cycle)}" y="{y}" '
                f'width="{self.width - RIGHT - self.x(cycle):.2f}" height="{high}"/>'
            )
        for cycle, cycles in lane.asleep:
            self.add(
                f'<rect class="asleep" x="{self.x(cycle)}" y="{y}" width="{max(.3, cycles * self.scale):.2f}" '
                f'height="{high}"',
                f"node {node} asleep from {cycle:,} to {cycle + cycles:,}",
            )
        for first, end, sender in self.drawing.closed(node):
            self.add(
                f'<rect class="closed" x="{self.x(first)}" y="{y + high - 1.5}" '
                f'width="{self.x(end) - self.x(first):.2f}" '
                'height="1.5"',
                f"the link from node {sender} to node {node} is closed from {first:,} to {end:,}",
            )
        (self.draw_each if self.titled else self.draw_paths)(node, lane, y, high)
        for cycle, cause in lane.stop:
            self.add(
                f'<path class="stop" d="M{self.x(cycle)} {y}l8 {high / 2}l-8 {high / 2}z"',
                f"{cycle:,}: node {node} stopped at {cause}",
            )

    def draw_tracks(self, node: int) -> None:
        """The variables of a node, a row each below it."""
        for number, track in enumerate(self.drawing.lanes[node].tracks):
            top = self.y(node) + self.step + number * wave_pictures.ROW
            name = showing.markup(shortened(track.name, int((self.margin - 8) / LETTER)))
            self.out.append(
                f'<text class="named" x="{self.margin - 6}" y="{top + wave_pictures.BASE}" text-anchor="end">{name}</text>'
            )
            self.out += wave_pictures.shapes(track, node, top, self.x, self.drawing.last_cycle)

    def add(self, tag: str, title: str) -> None:
        self.out.append(f"{tag}><title>{showing.markup(title)}</title></{tag[1:].split()[0]}>")

    def draw_each(self, node: int, lane: Lane, y: int, high: int) -> None:
        """Each event as a shape of its own, which says on hovering what it is."""
        for cycle, byte in lane.sent:
            width = max(1, (min(cycle + self.drawing.byte_time, self.drawing.last_cycle) - cycle) * self.scale - 0.4)
            self.add(
                f'<rect class="sent" x="{self.x(cycle)}" y="{y + 1}" width="{width:.2f}" height="{high * .4:.1f}"',
                f"{cycle:,}: node {node} sent {cli.shown_byte(byte)}",
            )
        for cycle, *_ in lane.events("quiet") if self.shows_quiet else ():
            self.tick("quiet", cycle, y + high * 0.78, y + high, f"{cycle:,}: node {node} heard nothing")
        for cycle, byte, age, sender in lane.heard:
            whose = f" of node {sender}" if sender >= 0 else ""
            self.tick(
                "heard",
                cycle,
                y + high * 0.64,
                y + high,
                f"{cycle:,}: node {node} heard {cli.shown_byte(byte)}{whose}, age {age}",
            )
        for cycle, byte, senders in lane.clash:
            whose = f" of nodes {', '.join(map(str, senders))}" if senders else ""
            self.tick("clash", cycle, y + high * 0.5, y + high, f"{cycle:,}: a clash{whose} at node {node}")
        spoken = list(self.draw_lines(lane, y, high))
        for cycle, byte in lane.serial:
            is_told = any(first <= cycle <= last for first, last in spoken) or spoken and byte in (lines.CR, lines.LF)
            if not is_told:
                self.add(
                    f'<circle class="serial" cx="{self.x(cycle)}" cy="{y + high * .54:.1f}" '
                    f'r="{min(2.4, high * .18):.1f}"',
                    f"{cycle:,}: node {node} wrote {cli.shown_byte(byte)} to USART0",
                )

    def draw_lines(self, lane: Lane, y: int, high: int) -> Iterator[tuple[int, int]]:
        """Lines of USART0 as texts, where there is room behind them and their bytes lie close together; of each the
        cycles of its first byte and of its last one."""
        size = min(10, high * 0.3)
        letter = size * MONOSPACE
        for at, (cycle, cycles, text) in enumerate(lane.lines):
            begin, long = self.x(cycle), letter * len(text)
            behind = self.x(lane.lines[at + 1][0]) if at + 1 < len(lane.lines) else self.width - RIGHT
            if text and high >= MOST_CROWDED and begin + long < behind and cycles * self.scale < long:
                yield cycle, cycle + cycles
                self.add_text(text, begin, y + high * 0.5 + size * 0.42, size, f"{cycle:,}: a line of USART0: {text}")

    def add_text(self, text: str, x: float, y: float, size: float, title: str) -> None:
        shown = showing.markup(text)
        self.out.append(
            f'<text class="said" x="{x}" y="{y:.1f}" font-size="{size:g}">{shown}<title>{showing.markup(title)}'
            '</title></text>'
        )

    def tick(self, name: str, cycle: int, top: float, bottom: float, title: str) -> None:
        x = self.x(cycle)
        self.add(f'<line class="{name}" x1="{x}" x2="{x}" y1="{top:.1f}" y2="{bottom:.1f}"', title)

    def draw_paths(self, node: int, lane: Lane, y: int, high: int) -> None:
        """All events of a kind as one path, those of half a pixel as one stroke."""
        kinds = [
            ("sent", 1, 0.4, max(0.6, self.drawing.byte_time * self.scale)),
            ("heard", 0.64, 0.36, 0.6),
            ("serial", 0.44, 0.2, 0.6),
            ("clash", 0.5, 0.5, 0.8),
        ]
        if self.shows_quiet:
            kinds.insert(1, ("quiet", 0.78, 0.22, 0.5))
        for kind, top, part, width in kinds:
            events = lane.events(kind)
            places = sorted({round(2 * self.x(event[0])) for event in events})
            if not places:
                continue
            shift = width / 2 if kind == "sent" else 0
            top = y + 1 if kind == "sent" else y + high * top
            strokes = "".join(f"M{place / 2 + shift:g} {top:.1f}v{high * part:.1f}" for place in places)
            self.out.append(
                f'<path class="p-{kind}" stroke-width="{width:.2f}" d="{strokes}">'
                f"<title>node {node}: {kind}, {lane.count(kind):,}</title></path>"
            )

    def draw_ways(self) -> None:
        """Thin lines from sends to where they were heard, where there are few."""
        if not self.titled or len(self.drawing.ways) > drawings.MAX_WAYS:
            return
        high = self.step - 3
        for kind, sender, sent, hearer, cycle in self.drawing.ways:
            if sender in self.row and sent >= self.drawing.first:
                name = "way" if kind == "clash" else "hop"
                self.line(name, self.x(sent), self.y(sender) + high * 0.4, self.x(cycle), self.y(hearer) + high * 0.64)

    def line(self, name: str, x: float, y: float, end_x: float, end_y: float) -> None:
        self.out.append(f'<line class="{name}" x1="{x}" y1="{y:.1f}" x2="{end_x}" y2="{end_y:.1f}"/>')

    def legend_rows(self) -> list[list[tuple[str, str]]]:
        """The signs and words of the legend, in as many rows as there is room for them, the cycles that are drawn
        last."""
        entries = [
            entry
            for entry in SIGNS
            if "closed" not in entry[0] or any(self.drawing.closed(node) for node in self.nodes)
        ]
        if any(self.drawing.lanes[node].tracks for node in self.nodes):
            entries.append(('<rect class="wave" x="{x}" y="{top}" width="16" height="8"/>', "a variable"))
        entries.append(("", f"cycles {self.drawing.first:,} to {self.drawing.last_cycle:,}"))
        rows: list[list[tuple[str, str]]] = [[]]
        room = float(self.width - self.margin - RIGHT)
        left = room
        for entry in entries:
            if rows[-1] and legend_width(entry[1]) > left:
                rows.append([])
                left = room
            rows[-1].append(entry)
            left -= legend_width(entry[1])
        return rows

    def draw_legend(self) -> None:
        y = self.bottom + BOTTOM - 12
        for row in self.legend:
            x = float(self.margin)
            for sign, words in row:
                at = f"{x:g}"
                shape = sign.format(x=at, y=y, top=y - 8, middle=y - 4)
                place = f'x="{x + 21:g}"' if sign else f'x="{self.width - RIGHT}" text-anchor="end"'
                self.out.append(f'{shape}<text {place} y="{y}">{words}</text>')
                x += legend_width(words)
            y += LEGEND_ROW


SIGNS = (
    ('<rect class="sent" x="{x}" y="{top}" width="16" height="8"/>', "a byte on the air"),
    ('<line class="heard" x1="{x}" x2="{x}" y1="{top}" y2="{y}"/>', "heard"),
    ('<line class="clash" x1="{x}" x2="{x}" y1="{top}" y2="{y}"/>', "a clash"),
    ('<circle class="serial" cx="{x}" cy="{middle}" r="2.4"/>', "USART0"),
    ('<path class="stop" d="M{x} {top}l8 4l-8 4z"/>', "stopped"),
    ('<rect class="asleep" x="{x}" y="{top}" width="16" height="8"/>', "asleep, in the window"),
    ('<rect class="closed" x="{x}" y="{middle}" width="16" height="1.5"/>', "a link to it is closed"),
)


def legend_width(words: str) -> float:
    """The room that a sign and its words take."""
    return 21 + LETTER * len(words) + 12


def shortened(text: str, most: int) -> str:
    return text if len(text) <= most else f"{text[: most - 1]}\u2026"


def ticks(first: int, end: int, hz: int | None, width: float) -> list[tuple[float, str]]:
    """The ticks of an axis of so many pixels: the cycle and the label of each, at round cycles, or by a clock at round
    times, so far apart that no label stands over another."""
    for most in range(MOST_TICKS, 0, -1):
        found = list(round_ticks(first, end, hz, most))
        apart = width * (found[1][0] - found[0][0]) / max(1, end - first) if len(found) > 1 else width
        if LETTER * max((len(label) for _, label in found), default=0) + LETTER < apart:
            return found
    return found[:1]


def round_ticks(first: int, end: int, hz: int | None, most: int) -> Iterator[tuple[float, str]]:
    """At most one tick more than so many."""
    scale = Fraction(hz, 1000) if hz else Fraction(1)  # cycles of a unit: a millisecond, or a cycle
    step, digits = round_step(Fraction(end - first) / scale / most, may_be_part=hz is not None)
    number = -(-Fraction(first) / scale // step)
    while (at := number * step) * scale < end:
        yield float(at * scale), f"{float(at):.{digits}f} ms" if hz else f"{int(at):,}"
        number += 1
