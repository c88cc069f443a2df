"""Writes the scenario of a network of some shape."""
import argparse
import re

from avrora_tools import cli, files, maps, networks, scenarios
from avrora_tools.terminal import warn

SUMMARY = "writes the scenario of a network of some shape"

DESCRIPTION = f"""Writes the scenario of a network of a shape to the standard output. The images are those of the nodes
in order; IMAGE*COUNT is one that COUNT nodes have. Links go both ways. Shapes: {networks.SHAPES}. The number of each
node arrives at its USART0 as the first byte: at node 0 in cycle --at, at each next one --stagger cycles later. A node
that learns it before its receiver is enabled loses it and waits for ever. Nodes that learn it in the same cycle run in
lockstep, so that all that they send clashes. A byte time that is shorter than the firmware's round of sampling loses
bytes. See docs/FIRMWARE.md, "Three losses that nothing reports". Nodes that do not hear each other, such as the outer
nodes of a star, clash all the same unless the stagger is longer than a packet of theirs. The tool warns of such a
star, of nodes that nothing reaches, and of parts that no link joins. The same words write the same text."""


def two_numbers(text: str) -> networks.Pair:
    match = re.fullmatch(r"([0-9]{1,13})(?:,|\.\.)([0-9]{1,13})", text)
    if not match:
        raise argparse.ArgumentTypeError(f"{text} is not a pair A..B")
    return int(match[1]), int(match[2])


def link_spans(text: str) -> tuple[networks.Pair, list[networks.Pair]]:
    """FROM-TO=A..B,C..D: a link, and when it is open."""
    match = re.fullmatch(r"([0-9]{1,13})-([0-9]{1,13})=(\d+\.\.\d+(?:,\d+\.\.\d+)*)", text)
    if not match:
        raise argparse.ArgumentTypeError(f"{text} is no FROM-TO=A..B,C..D")
    return (int(match[1]), int(match[2])), [two_numbers(span) for span in match[3].split(",")]


def node_bytes(text: str) -> tuple[int, str]:
    """NODE=HEX: bytes that arrive at a node."""
    match = re.fullmatch(r"([0-9]{1,13})=((?:[0-9A-Fa-f]{2})+)", text)
    if not match:
        raise argparse.ArgumentTypeError(f"{text} is no NODE=HEX")
    return int(match[1]), match[2].upper()


def run(arguments: argparse.Namespace) -> int:
    images = networks.counted(arguments.image)
    text = networks.scenario(
        arguments.shape,
        images,
        cycles=arguments.cycles,
        latency=arguments.latency,
        byte_time=arguments.byte_time,
        window=arguments.window,
        seed=arguments.seed,
        link_latency=arguments.link_latency,
        at=arguments.at,
        stagger=arguments.stagger,
        spans=dict(arguments.open),
        numbers=not arguments.no_numbers,
        inputs=dict(arguments.input),
        every=arguments.every,
    )
    print(text, end="")
    links = [(link.sender, link.hearer) for link in scenarios.Scenario.of_text(text, "the network").links]
    for odd in maps.oddities(len(images), links):
        warn(odd)
    if arguments.places:
        places = maps.shape_places(arguments.shape, len(images), arguments.seed)
        files.write_whole(arguments.places, maps.places_text(places))
    return 0


def configure(parser: argparse.ArgumentParser) -> None:
    cli.describe(parser, DESCRIPTION, "mknet --cycles 500000 --input 0=0102 grid:8 'flood.hex*64' > network.toml")
    parser.add_argument(
        "--cycles", type=cli.positive, default=networks.CYCLES, help="the cycles of the run (%(default)s)"
    )
    parser.add_argument(
        "--latency", type=cli.positive, default=networks.LATENCY, help="the latency of all links, in cycles (%(default)s)"
    )
    parser.add_argument(
        "--link-latency", type=two_numbers, metavar="A..B", help="each link's own latency, drawn by the seed"
    )
    parser.add_argument(
        "--byte-time", type=cli.positive, default=networks.BYTE_TIME, help="the byte time, in cycles (%(default)s)"
    )
    parser.add_argument(
        "--window", type=two_numbers, default=(0, 0), metavar="A..B", help="instructions are traced in these cycles"
    )
    parser.add_argument("--seed", type=int, default=0, help="the seed of what is drawn (%(default)s)")
    parser.add_argument(
        "--at", type=cli.natural, default=networks.AT, help="the cycle in which node 0 learns its number (%(default)s)"
    )
    parser.add_argument(
        "--stagger", type=cli.natural, default=networks.STAGGER, help="cycles until the next node learns its number (%(default)s)"
    )
    parser.add_argument("--no-numbers", action="store_true", help="no byte arrives at USART0")
    parser.add_argument(
        "--input",
        type=node_bytes,
        action="append",
        default=[],
        metavar="NODE=HEX",
        help="bytes that arrive at a node behind its number",
    )
    parser.add_argument(
        "--every", type=cli.positive, default=networks.EVERY, help="cycles from one byte to the next (%(default)s)"
    )
    parser.add_argument(
        "--open",
        type=link_spans,
        action="append",
        default=[],
        metavar="FROM-TO=A..B,..",
        help="open this link only in these cycles",
    )
    parser.add_argument("--places", metavar="FILE", help="also write where the nodes lie, for --places of links")
    parser.add_argument("shape", metavar="SHAPE")
    parser.add_argument("image", nargs="+", metavar="IMAGE[*COUNT]")
