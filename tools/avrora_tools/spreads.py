"""The values of a key that a campaign varies: a list, all numbers of a range, or some that are drawn from it."""
import hashlib
from collections.abc import Sequence
from typing import Any

from avrora_tools.campaign_keys import Table
from avrora_tools.errors import BadInput
from avrora_tools.files import printable
from avrora_tools.outages import is_outage
from avrora_tools.variants import Axis

MAX_RUNS = 1_000_000_000
MOST_DRAWN = 1_000_000  # values of one key, as they are kept

FORMS = "{ from = A, to = B, step = C }, also with drawn = N"
RANGE_KEYS = {"from", "to", "step", "drawn", "seed"}


def flat(table: Table, prefix: str = "") -> Table:
    """A table whose keys have dots: `input.2.at = ..` in TOML is a table in a table."""
    found: Table = {}
    for key, value in table.items():
        if isinstance(value, dict) and not value.keys() & {"from", "to"}:
            found.update(flat(value, f"{prefix}{key}."))
        else:
            found[prefix + key] = value
    return found


def axis_of(place: str, key: str, values: Any) -> Axis:
    """A key with its values. Raises BadInput where there are none."""
    if isinstance(values, list) and values:
        return Axis(key, values)
    allowed = RANGE_KEYS | {"length"} if is_outage(key) else RANGE_KEYS
    if isinstance(values, dict) and values.keys() <= allowed and all(type(v) is int for v in values.values()):
        first, last, step, drawn = (values.get(word) for word in ("from", "to", "step", "drawn"))
        step = 1 if step is None else step
        if is_outage(key) and values.get("length", 0) < 1:
            raise BadInput(f"{place}: {printable(key)} has no length of 1 and more: {{ from = A, to = B, length = N }}")
        if first is not None and last is not None and first <= last and step > 0 and (drawn is None or drawn > 0):
            if (drawn is None or drawn > MOST_DRAWN) and (last - first) // step >= MAX_RUNS:
                raise BadInput(f"{place}: {printable(key)} has more than {MAX_RUNS:,} values")
            numbers = range(first, last + 1, step)
            return Axis(key, numbers if drawn is None else drawn_of(place, key, numbers, values), values.get("length"))
    raise BadInput(f"{place}: {printable(key)} has no list of values and no {FORMS}")


def drawn_of(place: str, key: str, numbers: range, values: Table) -> Sequence[int]:
    """So many different numbers, in rising order; `seed` and the key decide which, the same ones on each machine."""
    count = values["drawn"]
    size = (numbers[-1] - numbers[0]) // numbers.step + 1  # which may be more than `len` tells
    if count >= size:
        return numbers
    if count > MOST_DRAWN:
        raise BadInput(f"{place}: {printable(key)} has more than {MOST_DRAWN:,} drawn values")
    is_left_out = count > size // 2 and size <= 2 * MOST_DRAWN
    wanted = size - count if is_left_out else count
    found: set[int] = set()
    place_in = 0
    while len(found) < wanted:
        digest = hashlib.sha256(f"{values.get('seed', 0)} {key} {place_in}".encode("utf-8", "surrogateescape")).digest()
        found.add(int.from_bytes(digest[:16], "big") % size)
        place_in += 1
    chosen = (index for index in range(size) if index not in found) if is_left_out else sorted(found)
    return [numbers[index] for index in chosen]
