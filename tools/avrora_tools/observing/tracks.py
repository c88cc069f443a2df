"""Quantities of the nodes of a drawing as tracks in it."""
from collections.abc import Sequence

from avrora_tools.drawings import Drawing
from avrora_tools.errors import BadInput
from avrora_tools.observing.quantities import Quantity, bare
from avrora_tools.observing.running import Network, Observed, Run
from avrora_tools.showing import printable
from avrora_tools.tracks import Look, Track
from avrora_tools.variables import BOOLEAN, Base, Enumeration, Pointer

MOST_TRACKS = 512  # of a drawing


def look_of(one: Quantity) -> Look:
    type_ = bare(one.type)
    if one.bits == 1 and not isinstance(type_, Enumeration) or isinstance(type_, Base) and type_.encoding == BOOLEAN:
        return Look.FLAG
    return Look.NAME if isinstance(type_, (Enumeration, Pointer)) else Look.NUMBER


def add_to(drawing: Drawing, run: Run, network: Network, words: Sequence[str]) -> None:
    """Gives each node that is drawn the tracks of the quantities that names and patterns stand for. Raises BadInput
    where there are none of them, or too many."""
    selected = network.selected(words, sorted(drawing.lanes))
    count = sum(map(len, selected.values()))
    if count > MOST_TRACKS:
        raise BadInput(
            f"--watch stands for {count:,} values of all nodes, and {MOST_TRACKS} are the most: name fewer, or nodes (-n)"
        )
    observed = Observed(run, selected)
    end = min(drawing.last_cycle, run.limit)
    tracks = {
        node: {one.name: Track(printable(one.name), look_of(one)) for one in found} for node, found in selected.items()
    }

    def put(cycle: int, node: int, one: Quantity, held: bytes) -> None:
        text = printable(one.shown(held, network.names(node).targets))
        tracks[node][one.name].add(cycle, text, one.number(held))

    values, moments = observed.followed(drawing.first, max(drawing.first, end - 1))
    for (node, number), held in values.items():
        put(drawing.first, node, selected[node][number], held)
    for moment in moments:
        put(moment.cycle + 1, moment.node, moment.quantity, moment.held)
    for node, found in tracks.items():
        drawing.lanes[node].tracks = list(found.values())
