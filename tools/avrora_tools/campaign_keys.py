"""What the file of a campaign may say: the keys of each of its tables, and of each what a value is, in words and as a
check.

CAMPAIGNS.md has the same tables for who writes such a file; a test compares them.
"""
import dataclasses
import re
from collections.abc import Callable, Iterable, Mapping
from typing import Any

from avrora_tools import comparisons, networks, scenarios
from avrora_tools.errors import BadInput
from avrora_tools.files import printable

# A table of TOML.
Table = dict[str, Any]


@dataclasses.dataclass(frozen=True)
class Key:
    """What a value is in words, whether a value is one, and what it is where the key is absent."""

    form: str
    accepts: Callable[[Any], object]
    default: Any = None


def number(least: int, most: int, default: Any = None, unit: str = "") -> Key:
    form = f"{least:,} to {most:,}{unit}"
    return Key(form, lambda value: type(value) is int and least <= value <= most, default)


def one_of(*words: str) -> Key:
    """The first is the default."""
    form = f"{', '.join(words[:-1])} or {words[-1]}"
    return Key(form, lambda value: isinstance(value, str) and value in words, words[0])


def is_text(value: Any) -> bool:
    """Whether it is a text of one line that says something."""
    return isinstance(value, str) and bool(value) and not re.search(r"[\n\0]", value)


def is_texts(value: Any) -> bool:
    return is_text(value) or isinstance(value, list) and bool(value) and all(map(is_text, value))


def is_table(value: Any) -> bool:
    return isinstance(value, dict)


def is_pair(value: Any, least: int, most: int) -> bool:
    """Whether it is two whole numbers of a range, the lower one first."""
    return (
        isinstance(value, list)
        and len(value) == 2
        and all(type(part) is int and least <= part <= most for part in value)
        and value[0] <= value[1]
    )


def is_spans(value: Any) -> bool:
    return is_table(value) and all(
        re.fullmatch("[0-9]{1,2}-[0-9]{1,2}", ends)
        and isinstance(spans, list)
        and all(is_pair(span, 0, LAST_CYCLE) for span in spans)
        for ends, spans in value.items()
    )


def is_inputs(value: Any) -> bool:
    return is_table(value) and all(
        re.fullmatch("[0-9]{1,2}", node) and isinstance(digits, str) and re.fullmatch("([0-9A-Fa-f]{2})+", digits)
        for node, digits in value.items()
    )


def are_ways(value: Any) -> bool:
    if not isinstance(value, list) or not value:
        return False
    return all(isinstance(way, str) and way in comparisons.WAYS for way in value)


LAST_CYCLE = scenarios.MAX_CYCLES[3]
LATENCIES = scenarios.LATENCY.start, scenarios.LATENCY.stop - 1
LEAST_TIME, MOST_TIME = scenarios.BYTE_TIME.start, scenarios.BYTE_TIME.stop - 1
SEEDS = 2**63 - 1  # the greatest whole number of TOML

TOP: Mapping[str, Key] = {
    "name": Key(
        "letters, digits and _ . + -", lambda value: isinstance(value, str) and re.fullmatch(r"[\w.+-]+", value)
    ),
    "results": Key("a folder", is_text),
    "attempts": number(1, 100, 3),
    "timeout": number(1, 1_000_000, 600, " seconds"),
    "traces": one_of("none", "failed", "all"),
    "run": Key(
        "tables [[run]]", lambda value: isinstance(value, list) and bool(value) and all(map(is_table, value))
    ),
}

RUN: Mapping[str, Key] = {
    "name": Key("a text of one line", is_text),
    "scenario": Key("the name of a file", is_text),
    "network": Key("a table: shape, images, and the options of mknet", is_table),
    "draw": Key("the name of a file", is_text),
    "expect": Key("a name or a list of names", is_texts, ()),
    "check": Key("the name of a Python file", is_text),
    "compare": Key(f"a list of {', '.join(comparisons.WAYS)}", are_ways, ()),
    "vary": Key("a table: keys and their values", is_table, {}),
}

# Those of what `mknet` takes; what holds where one is absent stands in `networks.scenario`.
NETWORK: Mapping[str, Key] = {
    "shape": Key("a shape, such as line, ring, grid:8 or geo:0.4", is_text),
    "images": Key("IMAGE, IMAGE*COUNT, or a list of them", is_texts),
    "cycles": number(1, LAST_CYCLE),
    "latency": number(*LATENCIES),
    "byte_time": number(LEAST_TIME, MOST_TIME),
    "window": Key("a pair such as [0, 20_000]", lambda value: is_pair(value, 0, LAST_CYCLE)),
    "seed": Key("a whole number", lambda value: type(value) is int and -SEEDS <= value <= SEEDS),
    "link_latency": Key(
        f"a pair such as [100, 900] of {LATENCIES[0]:,} to {LATENCIES[1]:,}, the lower one first",
        lambda value: is_pair(value, *LATENCIES),
    ),
    "at": number(0, LAST_CYCLE),
    "stagger": number(0, LAST_CYCLE),
    "numbers": Key("true or false", lambda value: isinstance(value, bool)),
    "inputs": Key('a table such as { 2 = "0AFF" }: nodes, and pairs of hexadecimal digits', is_inputs),
    "every": number(1, 65_535),
    "spans": Key('a table such as { "0-1" = [[0, 1_000]] }: links, and when each is open', is_spans),
}
NEEDED_OF_NETWORK = ("shape", "images")
assert NETWORK.keys() == networks.scenario.__kwdefaults__.keys() | set(NEEDED_OF_NETWORK)


def check(place: str, table: Table, keys: Mapping[str, Key]) -> None:
    """Raises BadInput where the table has a key that is none of these, or a value that is not of its key's form."""
    unknown(place, table, keys)
    for key, value in table.items():
        check_value(place, key, value, keys)


def check_value(place: str, key: str, value: Any, keys: Mapping[str, Key]) -> None:
    if not keys[key].accepts(value):
        raise BadInput(f"{place}: {key} is not {keys[key].form}")


def unknown(place: str, found: Iterable[str], keys: Iterable[str]) -> None:
    """Raises BadInput where one that is found is none of the keys."""
    for key in sorted(set(found) - set(keys)):
        raise BadInput(f"{place}: the key {printable(key)} is unknown; there are {', '.join(sorted(keys))}")
