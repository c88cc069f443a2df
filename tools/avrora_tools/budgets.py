"""Charge by a table of currents: what each node draws awake, asleep, and by its radio."""
import argparse
import re
from collections.abc import Mapping, Sequence
from dataclasses import dataclass, fields

from avrora_tools import toml
from avrora_tools.cli import CLOCK, node_set
from avrora_tools.errors import BadInput
from avrora_tools.files import printable
from avrora_tools.listening import Radio
from avrora_tools.profiles import ASLEEP_CHARGE, BUSY_CHARGE, SEND_CHARGE, Spent

SECONDS_AN_HOUR, HOURS_A_DAY = 3_600, 24

OFF = "off"  # the current that a table may leave out


@dataclass(frozen=True)
class Currents:
    """Milliamperes: of the processor awake and asleep, of the radio while a byte is on the air, while it is else
    selected, and while it is not."""

    awake: float
    asleep: float
    sending: float
    listening: float
    off: float = 0.0


@dataclass(frozen=True)
class Table:
    """The currents of all nodes, of some by their numbers, and the clock in cycles a second; a battery in mA h, if
    any."""

    common: Currents
    by_node: Mapping[int, Currents]
    hz: float = float(CLOCK)
    battery: float | None = None

    def of(self, node: int) -> Currents:
        return self.by_node.get(node, self.common)


@dataclass(frozen=True)
class Account:
    """The charge of a node over a span, in mA s. What the processor drew in cycles without an owner is not known:
    `unknown` has the difference between awake and asleep all the time, and `asleep` the lower of the two."""

    awake: float
    asleep: float
    sending: float
    listening: float
    off: float
    unknown: float

    @property
    def least(self) -> float:
        return self.awake + self.asleep + self.sending + self.listening + self.off

    @property
    def most(self) -> float:
        return self.least + self.unknown


def sent(node: Spent) -> int:
    """How many bytes a node sent, by what its charge has beside its cycles."""
    return (node.charge - BUSY_CHARGE * node.busy() - ASLEEP_CHARGE * node.asleep) // SEND_CHARGE


def account(node: Spent, currents: Currents, byte_time: int, hz: float, radio: Radio) -> Account:
    """The charge of a node. From its stop on a node draws nothing here."""
    seconds = 1 / hz
    on_air, listening, off = shares(node, byte_time, radio)
    lower, higher = sorted((currents.awake, currents.asleep))
    return Account(
        node.busy() * currents.awake * seconds,
        (node.asleep * currents.asleep + node.lead * lower) * seconds,
        on_air * currents.sending * seconds,
        listening * currents.listening * seconds,
        off * currents.off * seconds,
        node.lead * (higher - lower) * seconds,
    )


def shares(node: Spent, byte_time: int, radio: Radio) -> tuple[int, int, int]:
    """In how many cycles a node's radio sent, listened, and did neither. A byte is on its way also where the radio is
    no longer selected."""
    running = node.total() - node.stopped
    on_air = min(sent(node) * byte_time, running)
    return on_air, radio.listened, max(0, running - on_air - radio.listened)


def always_selected(node: Spent, byte_time: int) -> Radio:
    """A radio that listens whenever it does not send."""
    running = node.total() - node.stopped
    return Radio(max(0, running - sent(node) * byte_time))


def listening_cycle(node: Spent, byte_time: int, radio: Radio) -> float:
    """Which part of its time a node's radio listened."""
    running = node.total() - node.stopped
    return shares(node, byte_time, radio)[1] / running if running else 0.0


def duty_cycle(node: Spent) -> tuple[float, float]:
    """Which part of its time the node was awake: at least and at most."""
    running = node.total() - node.stopped
    return (node.busy() / running, (node.busy() + node.lead) / running) if running else (0.0, 0.0)


def whole(accounts: Sequence[Account]) -> Account:
    """The sum of accounts."""
    return Account(*(sum(getattr(one, part.name) for one in accounts) for part in fields(Account)))


def table_of(text: str, name: str) -> Table:
    """The table of currents in a TOML text. Raises BadInput where it is none."""
    try:
        document = toml.loads(text)
    except toml.NotToml as fault:
        raise BadInput(f"{name}, line {fault.line}: no TOML: {fault.why}") from None
    names = [part.name for part in fields(Currents)]
    if unknown := set(document) - {*names, "hz", "battery", "node"}:
        raise BadInput(f"{name}: a table of currents has no key {printable(sorted(unknown)[0])}")
    common = Currents(*(current(document, key, name) for key in names if key != OFF or key in document))
    by_node: dict[int, Currents] = {}
    tables = document.get("node", {})
    if not isinstance(tables, dict) or not all(isinstance(table, dict) for table in tables.values()):
        raise BadInput(f"{name}: the currents of some nodes stand in tables such as [node.3] or [node.'1-4']")
    for key, table in tables.items():
        if unknown := set(table) - set(names):
            raise BadInput(f"{name}: [node.{printable(key)}] has no key {printable(sorted(unknown)[0])}")
        own = Currents(*(current(table, part, name) if part in table else getattr(common, part) for part in names))
        by_node.update(dict.fromkeys(nodes_of(key, name), own))
    hz = current(document, "hz", name) if "hz" in document else float(CLOCK)
    battery = current(document, "battery", name) if "battery" in document else None
    if hz == 0:
        raise BadInput(f"{name}: hz must be above 0")
    return Table(common, by_node, hz, battery)


def nodes_of(key: str, name: str) -> set[int]:
    try:
        return node_set(key)
    except argparse.ArgumentTypeError:
        raise BadInput(f"{name}: [node.{re.sub(r'[^ -~]', '?', key)}] names no nodes such as 3 or '1-4'") from None


def current(table: Mapping[str, object], key: str, name: str) -> float:
    value = table.get(key)
    if isinstance(value, bool) or not isinstance(value, (int, float)) or not 0 <= value < 1e12:
        raise BadInput(
            f"{name}: {key} must be a number of at least 0" + ("" if key in table else ", and is missing")
        )
    return float(value)


def milliampere_hours(charge: float) -> float:
    """Of a charge in mA s."""
    return charge / SECONDS_AN_HOUR


def between(least: float, most: float, form: str) -> str:
    """A value, or a span where the two ends do not look the same."""
    one, two = format(least, form), format(most, form)
    return one if one == two else f"{one}..{two}"
