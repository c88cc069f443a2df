"""Moves of a sweep as docs/FORMATS.md has them ("Moves"): what a text says, or its first fault. It is written from that document
alone."""
import re

from states import Fault

MOST_MOVES, MOST_BYTES, LAST = 4_194_304, 65_536, 2**40
NUMBER, DIGITS = re.compile(rb"0|[1-9][0-9]*"), re.compile(rb"([0-9A-Fa-f]{2})+")


def number(word, line, cause, least, most):
    if not NUMBER.fullmatch(word):
        raise Fault("BadLine", line)
    if not least <= int(word) <= most:
        raise Fault(cause, line)
    return int(word)


def move_of(nodes, text, line):
    """The node of a line, and the byte that arrives in each cycle."""
    words = text.split(b" ")
    node = number(words[0], line, "NoNode", 0, nodes - 1)
    script, free, left = {}, 0, MOST_BYTES
    stretches = words[1:]
    while stretches or not script:
        if len(stretches) < 3:
            raise Fault("BadLine", line)
        at = number(stretches[0], line, "OutOfRange", 0, LAST)
        every = number(stretches[1], line, "OutOfRange", 1, 65_535)
        if not DIGITS.fullmatch(stretches[2]):
            raise Fault("BadLine", line)
        arriving = bytes.fromhex(stretches[2].decode())
        if at < free:
            raise Fault("Unordered", line)
        if len(arriving) > left:
            raise Fault("TooLong", line)
        script |= {at + place * every: byte for place, byte in enumerate(arriving)}
        free, left, stretches = max(script) + 1, left - len(arriving), stretches[3:]
    return node, script


def read_moves(nodes, text):
    """The moves that a text says. Raises Fault."""
    if len(text) > MOST_MOVES:
        raise Fault("TooLong")
    if not text:
        raise Fault("Empty")
    *lines, rest = text.split(b"\n")
    moves = [move_of(nodes, line, place) for place, line in enumerate(lines, 1)]
    if rest:
        raise Fault("BadLine", len(lines) + 1)
    return moves
