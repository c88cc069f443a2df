"""The scenarios of a campaign: one with other values at some keys, networks of a shape, or what a function draws; made
one by one, as they are needed.

All runs that differ in the values of the same keys are a group. A group knows how many they are, and makes each from
its index, so that a campaign of a million runs costs no more to begin than one of ten.
"""
import copy
import dataclasses
import hashlib
import json
import math
import os
import re
from collections.abc import Callable, Sequence
from typing import Any

from avrora_tools import campaign_keys, checkers, networks, outages, runs, scenarios, toml
from avrora_tools.campaign_keys import Table, unknown
from avrora_tools.errors import BadInput
from avrora_tools.files import printable
from avrora_tools.states import EPOCH

# The name in the shipment of a file, which is then in it. Raises BadInput where the file cannot be read.
Ship = Callable[[str], str]

DEFAULT_EVERY = 7_680  # cycles from one byte of an input to the next

# Of an axis with few values each is tried before the first run, so that a bad one is told at once.
FEW_VALUES = 64


@dataclasses.dataclass(frozen=True, slots=True)
class Axis:
    """A key that varies, and its values."""

    key: str
    values: Sequence[Any]
    length: int | None = None  # of an outage whose values are its starts


@dataclasses.dataclass(frozen=True, slots=True)
class Slot:
    """Stands in a template for the value of the axis of this index."""

    axis: int


@dataclasses.dataclass(frozen=True, slots=True)
class Run:
    """One run: its place in the campaign, its name, and the values of its group's axes."""

    number: int
    name: str
    values: tuple[Any, ...]
    group: "Group"

    @property
    def parameters(self) -> Table:
        return {axis.key: value for axis, value in zip(self.group.axes, self.values)}

    def scenario(self) -> str:
        """The scenario for the user, whose images have the names that the user gave them. Raises BadInput where the
        values make none."""
        return self.group.scenario(self.values)

    def shipped(self) -> str:
        """The scenario for a worker, whose images have their names in the shipment."""
        return self.group.shipped(self.values)

    def images(self) -> dict[str, bytes]:
        """The images of this run alone, by the names that its scenario has for them; others are in the shipment."""
        return self.group.own_images(self.values)

    def job(self, is_alone: bool = False) -> runs.Job:
        """The run for a worker. With `is_alone` it is not one of those that a process makes together."""
        group = self.group
        moves = None if is_alone else group.moves(self.values)
        text = group.shipped(self.values) if moves is None else group.unmoved
        return runs.Job(text, group.check, group.own_images(self.values), moves, self.values)

    def recipe(self) -> str:
        """All that the scenario is made of, the content of its images too, as a text."""
        return self.group.recipe(self.values)


class Group:
    """The runs for all combinations of the axes' values; the last axis varies first."""

    def __init__(self, place: str, name: str, axes: Sequence[Axis], check: int) -> None:
        """`check` is the index of what the campaign checks these runs by."""
        self.place, self.name, self.axes, self.check = place, name, tuple(axes), check
        self.count = math.prod(len(axis.values) for axis in axes)
        for axis in axes:
            if not isinstance(axis.values, range) and len({shown(value) for value in axis.values}) < len(axis.values):
                raise BadInput(f"{place}: two runs have the same name, as {printable(axis.key)} has a value twice")

    def run(self, index: int, number: int) -> Run:
        """The run of this index, which has this number in the campaign."""
        values: list[Any] = []
        for axis in reversed(self.axes):
            index, place = divmod(index, len(axis.values))
            values.append(axis.values[place])
        values.reverse()
        name = self.name
        for axis, value in zip(self.axes, values):
            name += f" {axis.key}={value if type(value) is int else shown(value)}"
        return Run(number, name, tuple(values), self)

    def index_of(self, name: str) -> int | None:
        """The index of the run of this name."""
        places = self.places_of(name.removeprefix(self.name), 0, set()) if name.startswith(self.name) else None
        index = 0
        for axis, place in zip(self.axes, places or ()):
            index = index * len(axis.values) + place
        return None if places is None else index

    def places_of(self, text: str, first: int, dead: set[tuple[int, int]]) -> list[int] | None:
        """The places of the values of the axes from the `first` on that the end of a name has. `dead` has the ends that
        the axes from one on do not have: values may have keys in them, so that there are many ways to each end."""
        if first == len(self.axes):
            return [] if not text else None
        axis = self.axes[first]
        head = f" {axis.key}="
        if not text.startswith(head) or (first, len(text)) in dead:
            return None
        rest = text[len(head) :]
        if isinstance(axis.values, range):
            number = re.match("-?[0-9]+", rest)
            found = [(int(number[0]), number[0])] if number and int(number[0]) in axis.values else []
            choices = [(axis.values.index(value), text) for value, text in found if str(value) == text]
        else:
            texts = enumerate(map(shown, axis.values))
            choices = [(place, text) for place, text in texts if rest.startswith(text)]
        for place, value in choices:
            others = self.places_of(rest[len(value) :], first + 1, dead)
            if others is not None:
                return [place, *others]
        dead.add((first, len(text)))
        return None

    def scenario(self, values: Sequence[Any]) -> str:
        raise NotImplementedError

    def shipped(self, values: Sequence[Any]) -> str:
        raise NotImplementedError

    def own_images(self, values: Sequence[Any]) -> dict[str, bytes]:
        return {}

    unmoved = ""  # the scenario of all runs that differ in what arrives at a node

    def moves(self, values: Sequence[Any]) -> tuple[int, str] | None:
        """What arrives at the node that alone differs from run to run, and how many epochs end before any of it; None
        where that is not all that differs."""
        return None

    def recipe(self, values: Sequence[Any]) -> str:
        raise NotImplementedError

    def signature(self) -> str:
        """What tells this group from another one, as a text: how its runs are called, and what they are made of."""
        axes: list[list[Any]] = []
        for axis in self.axes:
            axes.append([axis.key, str(axis.values) if isinstance(axis.values, range) else axis.values])
            axes[-1] += [axis.length] if axis.length else []
        return json.dumps([self.name, axes, self.base()], default=str)

    def base(self) -> Any:
        """What all runs of the group are made of."""
        raise NotImplementedError


class ScenarioGroup(Group):
    """A scenario with other values at the keys of the axes."""

    def __init__(
        self, place: str, name: str, axes: Sequence[Axis], check: int, scenario: Table, folder: str, ship: Ship
    ) -> None:
        super().__init__(place, name, axes, check)
        network = varied(scenario, place, [axis.key for axis in axes])
        self.cuts = outages.cut_links(place, network, axes, len(axes))
        self.template = Template(scenario_text(network))
        for node in network["node"] if is_tables(network.get("node")) else []:
            node["image"] = shipped_image(node.get("image"), folder, ship)
        self.shipped_template = Template(scenario_text(network))
        # The values of an axis of images as the shipment knows them.
        self.images: dict[int, dict[str, str]] = {}
        for index, axis in enumerate(axes):
            if re.fullmatch(r"node\..*\.image", axis.key):
                names = [value for value in axis.values if isinstance(value, str)]
                self.images[index] = {value: shipped_image(value, folder, ship) for value in names}
        self.moved = moved_of(network, axes)
        if self.moved:
            self.unmoved = self.shipped([axis.values[0] for axis in axes])

    def scenario(self, values: Sequence[Any]) -> str:
        return self.template.filled([value_text(value) for value in values] + self.cut_texts(values))

    def shipped(self, values: Sequence[Any]) -> str:
        texts = []
        for index, value in enumerate(values):
            images = self.images.get(index)
            texts.append(value_text(images.get(value, value) if images and isinstance(value, str) else value))
        return self.shipped_template.filled(texts + self.cut_texts(values))

    def cut_texts(self, values: Sequence[Any]) -> list[str]:
        return [outages.text_of(cut, self.axes, values) for cut in self.cuts]

    recipe = shipped

    def moves(self, values: Sequence[Any]) -> tuple[int, str] | None:
        if self.moved is None:
            return None
        node, epochs, script = self.moved
        at, every, digits = (values[it.axis] if isinstance(it, Slot) else it for it in script)
        return epochs, f"{node} {at} {every} {digits}\n"

    def base(self) -> Any:
        return [self.shipped_template.pieces, sorted(self.images.items()), *map(str, self.cuts)]


class NetworkGroup(Group):
    """Networks that mknet makes of a table and the values of the axes."""

    def __init__(
        self, place: str, name: str, axes: Sequence[Axis], check: int, table: Table, folder: str, ship: Ship
    ) -> None:
        super().__init__(place, name, axes, check)
        self.table = table
        campaign_keys.check(place, table, campaign_keys.NETWORK)
        unknown(place, [axis.key for axis in axes], campaign_keys.NETWORK)
        for axis in axes:
            for value in (axis.values[0], axis.values[-1]) if isinstance(axis.values, range) else axis.values:
                campaign_keys.check_value(place, axis.key, value, campaign_keys.NETWORK)
        for key in campaign_keys.NEEDED_OF_NETWORK:
            if key not in table and all(axis.key != key for axis in axes):
                raise BadInput(f"{place}: a network has {' and '.join(campaign_keys.NEEDED_OF_NETWORK)}")
        varied_images = [axis.values for axis in axes if axis.key == "images"]
        self.images: dict[str, str] = {}
        for value in varied_images[0] if varied_images else [table["images"]]:
            for image in images_of(place, value):
                self.images[image] = shipped_image(image, folder, ship)
        first = [axis.values[0] for axis in axes]
        self.scenario(first)
        for index, axis in enumerate(axes):
            for value in axis.values[1:] if len(axis.values) <= FEW_VALUES and axis.key != "seed" else ():
                self.scenario([*first[:index], value, *first[index + 1 :]])

    def options(self, values: Sequence[Any]) -> Table:
        return {**self.table, **{axis.key: value for axis, value in zip(self.axes, values)}}

    def scenario(self, values: Sequence[Any]) -> str:
        return network_text(self.place, self.options(values), {})

    def shipped(self, values: Sequence[Any]) -> str:
        return network_text(self.place, self.options(values), self.images)

    def recipe(self, values: Sequence[Any]) -> str:
        """Without making the network: that takes as long as many a run."""
        options = self.options(values)
        names = [self.images[image] for image in images_of(self.place, options.pop("images"))]
        version = checkers.version(checkers.NETWORKS)
        return json.dumps([version, names, sorted(options.items())], default=str)

    def base(self) -> Any:
        return [checkers.version(checkers.NETWORKS), sorted(self.images.items()), sorted(self.table.items())]


def shown(value: Any) -> str:
    """A value in the name of a run."""
    if isinstance(value, str):
        return value
    return str(value) if type(value) is int else json.dumps(value, separators=(",", ":"), default=str)


def moved_of(network: Table, axes: Sequence[Axis]) -> tuple[int, int, list[Any]] | None:
    """Where a scenario with slots differs in one node's input alone: that node, how many epochs end before any of its
    bytes, and its script: the cycle of the first byte, the cycles to the next, and the bytes."""
    tables = [table for table in network.get("input", ()) if any(isinstance(value, Slot) for value in table.values())]
    heads = {axis.key.rsplit(".", 1)[0] for axis in axes}
    if len(tables) != 1 or len(heads) != 1 or not axes[0].key.startswith("input."):
        return None
    table = tables[0]
    script = [table.get("at"), table.get("every", DEFAULT_EVERY), table.get("hex")]
    allowed: list[Callable[[Any], bool]] = [is_cycle, is_every, is_hex]
    values = [axes[it.axis].values if isinstance(it, Slot) else [it] for it in script]
    are_fit = all(all(map(fits, ends_of(of))) for fits, of in zip(allowed, values))
    if isinstance(table.get("node"), Slot) or not are_fit:
        return None
    cycles, epochs = network.get("cycles"), min(ends_of(values[0])) // EPOCH
    if type(cycles) is not int or epochs < 1 or epochs * EPOCH >= cycles:
        return None
    return table["node"], epochs, script


def ends_of(values: Sequence[Any]) -> Sequence[Any]:
    """What all values of a range lie between, or all of a list."""
    return (values[0], values[-1]) if isinstance(values, range) else values


def is_cycle(value: Any) -> bool:
    return type(value) is int and 0 <= value <= 2**40


def is_every(value: Any) -> bool:
    return type(value) is int and 1 <= value <= 65_535


def is_hex(value: Any) -> bool:
    return isinstance(value, str) and bool(re.fullmatch("([0-9A-Fa-f]{2})+", value)) and len(value) < 20_000


def shipped_image(image: Any, folder: str, ship: Ship) -> Any:
    """The name of an image in the shipment; what is not a name of one stays for the simulator to refuse."""
    return ship(os.path.join(folder, image)) if isinstance(image, str) and image else image


def varied(scenario: Table, place: str, keys: Sequence[str]) -> Table:
    """A scenario with slots at the keys."""
    network = copy.deepcopy(scenario)
    for index, key in enumerate(keys):
        if outages.is_outage(key):
            continue
        parts = key.split(".")
        targets = [network] if len(parts) == 1 else tables_of(place, network, key, parts)
        if len(parts) == 1 and key in scenarios.TABLE_KEYS:
            raise BadInput(f"{place}: {key} is an array of tables, whose keys can be varied: {key}.K.KEY")
        unknown(place, [parts[-1]], scenarios.TOP_KEYS if len(parts) == 1 else scenarios.TABLE_KEYS[parts[0]])
        for target in targets:
            target[parts[-1]] = Slot(index)
    return network


def tables_of(place: str, network: Table, key: str, parts: Sequence[str]) -> list[Table]:
    """The tables that a key such as input.2.at, node.*.image or link.0-1.latency means."""
    if len(parts) != 3 or parts[0] not in scenarios.TABLE_KEYS:
        raise BadInput(
            f"{place}: {printable(key)} is no KEY, node.K.KEY, input.K.KEY or link.A-B.KEY; * stands for all of them"
        )
    kind, which, _ = parts
    tables = network.get(kind, [])
    found = []
    for index, table in enumerate(tables if is_tables(tables) else []):
        ends = f"{table.get('from')}-{table.get('to')}"
        name = {"node": f"{index}", "input": f"{table.get('node')}", "link": ends}[kind]
        if which in ("*", name):
            found.append(table)
    if not found:
        raise BadInput(f"{place}: the scenario has no {kind} {printable(which)}")
    return found


def images_of(place: str, images: str | list[str]) -> list[str]:
    """The names of a network's images, in the order of its nodes."""
    try:
        return list(networks.counted([images] if isinstance(images, str) else images))
    except BadInput as fault:
        raise BadInput(f"{place}: {fault}") from None


def network_text(place: str, options: Table, names: dict[str, str]) -> str:
    """The scenario that mknet makes of the options, with the images called by `names`. Raises BadInput where they make
    none."""
    options = dict(options)
    shape, images = options.pop("shape"), images_of(place, options.pop("images"))
    for key in ("window", "link_latency"):
        if key in options:
            options[key] = tuple(options[key])
    if "spans" in options:
        options["spans"] = {
            (int(first), int(second)): [tuple(span) for span in spans]
            for (first, second), spans in ((ends.split("-"), spans) for ends, spans in options["spans"].items())
        }
    if "inputs" in options:
        options["inputs"] = {int(node): digits for node, digits in options["inputs"].items()}
    try:
        return networks.scenario(shape, [names.get(image, image) for image in images], **options)
    except BadInput as fault:
        raise BadInput(f"{place}: {fault}") from None


class Template:
    """A text with slots, which is filled with the texts of values."""

    def __init__(self, text: str) -> None:
        pieces = text.split(MARK)
        self.pieces = pieces
        self.places = [(place, int(pieces[place])) for place in range(1, len(pieces), 2)]

    def filled(self, texts: Sequence[str]) -> str:
        pieces = self.pieces.copy()
        for place, axis in self.places:
            pieces[place] = texts[axis]
        return "".join(pieces)


# About the number of a slot in the text of a template; no text in TOML has it as it stands.
MARK = "\0"


def scenario_text(network: Table) -> str:
    """A scenario as TOML: the keys of the top, then its tables."""
    top = {key: value for key, value in network.items() if not is_tables(value)}
    lines = [f"{key_text(key)} = {value_text(value)}" for key, value in top.items()]
    for key, value in network.items():
        for table in value if is_tables(value) else []:
            lines += ["", f"[[{key_text(key)}]]"] + [
                f"{key_text(name)} = {value_text(it)}" for name, it in table.items()
            ]
    return "\n".join(lines) + "\n"


def is_tables(value: Any) -> bool:
    return isinstance(value, list) and bool(value) and all(isinstance(table, dict) for table in value)


def key_text(key: str) -> str:
    return key if re.fullmatch(r"[A-Za-z0-9_-]+", key) else json.dumps(key)


def value_text(value: Any) -> str:
    """A value as TOML, as it was read from TOML."""
    if type(value) is int:
        return str(value)
    if isinstance(value, (Slot, outages.Cut)):
        return f"{MARK}{value.axis if isinstance(value, Slot) else value.slot}{MARK}"
    if isinstance(value, dict):
        return "{" + ", ".join(f"{key_text(key)} = {value_text(it)}" for key, it in value.items()) + "}"
    if isinstance(value, list):
        return "[" + ", ".join(map(value_text, value)) + "]"
    if isinstance(value, (bool, str)):
        return json.dumps(value, ensure_ascii=False).replace("\x7f", "\\u007f")
    return str(value.isoformat()) if hasattr(value, "isoformat") else repr(value)


def parsed(text: str, path: str) -> Table:
    try:
        return toml.loads(text)
    except toml.NotToml as fault:
        raise BadInput(f"{printable(path)}: no TOML: {printable(str(fault))}") from None


def content_name(content: bytes, path: str) -> str:
    """The name in a shipment of a file with this content."""
    return f"{hashlib.sha256(content).hexdigest()}{os.path.splitext(path)[1]}"
