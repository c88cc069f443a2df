"""Draws the runs of drawn.campaign by their numbers: short networks of few images, as a run costs little more than the starts of the
program. Of each 64 numbers

    22  `edged`: nodes of net.hex, asleep but for their orders. A send and a sample of a link are apart by its latency, or by that
        and a byte's time, but for a cycle or two; spans begin and end at sends
     6  the same with latencies of up to 65,535 cycles
     4  the same about the end of an epoch, so that their run can be cut there
     1  the same with 12 to 40 nodes
    18  `awake`: two to six nodes with one or two drawn programs, which go on by what they hear
     4  the same about the end of an epoch: they are asleep up to there
     8  `drawn` of draw.py: each node with an image of its own, rings, code that nobody wrote
     1  two nodes that are awake for an epoch and more
"""
import random

from draw import NET, Drawn, drawn, drawn_image, drawn_input, hex_text
from states import EPOCH

# Of net.hex, behind the arrival of an order and the cycles that it waits: to the send, to the sample, and from the one to the other.
SENDS, SAMPLES, BETWEEN = 113, 83, 33
SEND, SAMPLE, WAIT = 0x80, 0x40, 16  # bits of an order, and the cycles of one in bits 4 to 0

LONG = 131_072  # cycles beyond an epoch, at most


def draw(number):
    """The text of a scenario, and its images by their names."""
    it = kind(number, number % 64)
    return it.text(), {name: text.encode() for name, text in it.images.items()}


def kind(number, place):
    if place < 22:
        return edged(number)
    if place < 28:
        return edged(number, latency_most=65_535)
    if place < 32:
        return edged(number, begin=EPOCH)
    if place == 32:
        return edged(number, nodes_least=12, nodes_most=40)
    if place < 51:
        return awake(number)
    if place < 55:
        return awake(number, begin=EPOCH)
    if place < 63:
        return drawn(number, nodes_most=4, cycles_most=4_000)
    return awake(number, nodes_most=2, cycles=(EPOCH, EPOCH + LONG))


def latency(rng, most):
    return rng.choice((1, 2, rng.randrange(1, 300), rng.randrange(1, most + 1), rng.randrange(1, most + 1)))


def links(rng, nodes, most):
    """Links of which each node has three at most, each with a latency of its own or without; a node's first is from node 0."""
    found = []
    for k in range(nodes):
        others = rng.sample([j for j in range(nodes) if j != k], min(nodes - 1, rng.randrange(1, 4)))
        if k and 0 not in others:
            others[0] = 0
        for j in sorted(others):
            link = {"from": j, "to": k}
            if rng.random() < 0.7:
                link["latency"] = latency(rng, most)
            found.append(link)
    return found


def head(rng, begin, most):
    """The top of a scenario, without its limit."""
    byte_time = rng.choice((256, 512, rng.randrange(256, 1_000), rng.randrange(256, 4_097)))
    found = {"version": 3, "byte_time": byte_time, "latency": latency(rng, most), "node": [], "link": [], "input": []}
    if rng.random() < 0.15:
        first = begin + rng.randrange(600)
        found["window"] = [first, first + rng.randrange(1, 50)]
    return found


def edged(number, nodes_least=2, nodes_most=6, latency_most=4_000, begin=0):
    """Nodes of net.hex: node 0 sends in a raster, the others sample by the same orders, later by a latency and an edge."""
    rng = random.Random(f"edged {number}")
    document = head(rng, max(0, begin - 600), latency_most)
    nodes = rng.randrange(nodes_least, nodes_most + 1)
    document["node"] = [{"image": "net.hex"}] * nodes
    document["link"] = links(rng, nodes, latency_most)
    count = rng.randrange(3, 13)
    every = rng.randrange(300, 1_800)
    waits = [rng.randrange(1, 32) for _ in range(count)]
    first = rng.randrange(50, 500) if not begin else begin - rng.randrange(min(every * count, begin))
    last = 0
    for k in range(nodes):
        bits = SEND | SAMPLE * (rng.random() < 0.2) if not k else rng.choice((SAMPLE, SAMPLE, SAMPLE, SEND, SEND | SAMPLE))
        at = first
        if k:
            into = next(link for link in document["link"] if link["from"] == 0 and link["to"] == k)
            edge = rng.choice((0, document["byte_time"])) + rng.randrange(-2, 2)
            at = max(0, first + into.get("latency", document["latency"]) + edge + SENDS - SAMPLES - BETWEEN * (bits == SEND | SAMPLE))
            if rng.random() < 0.3:
                sent = first + every * rng.randrange(count) + WAIT * waits[0] + SENDS
                into["open"] = [[0, sent + rng.randrange(-1, 3)], [sent + every, sent + 9 * every]]
        orders = [bits | (wait if rng.random() < 0.8 else rng.randrange(32)) for wait in waits]
        document["input"].append({"node": k, "at": at, "every": every, "hex": bytes(orders).hex()})
        last = max(last, at + every * count)
    document["cycles"] = max(begin, last, *document.get("window", [0])) + rng.randrange(1, 1_500)
    return Drawn(document, {"net.hex": NET})


def awake(number, nodes_most=6, cycles=(1_000, 10_000), begin=0):
    """Nodes of one or two drawn programs, that most of them begin by the first byte that arrives."""
    rng = random.Random(f"awake {number}")
    begin = max(0, begin - rng.randrange(3_000))
    document = head(rng, begin, 3_000)
    nodes = rng.randrange(2, nodes_most + 1)
    is_woken = begin > 0 or rng.random() < 0.8
    names = [f"{place}.hex" for place in range(1 if is_woken and rng.random() < 0.75 else 2)]
    images = {name: hex_text(drawn_image(rng, is_woken)) for name in names}
    document["node"] = [{"image": rng.choice(names)} for _ in range(nodes)]
    images = {name: text for name, text in images.items() if {"image": name} in document["node"]}
    document["link"] = links(rng, nodes, 3_000)
    for k in range(nodes):
        if rng.random() < (0.95 if is_woken else 0.3):
            arrives = drawn_input(rng, k, 300, 12)
            arrives["at"] += begin
            arrives["hex"] = arrives["hex"] or "5A"
            document["input"].append(arrives)
    document["cycles"] = max(begin + rng.randrange(*cycles), *document.get("window", [0]))
    return Drawn(document, images)
