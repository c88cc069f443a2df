"""Cycles by call stack, for flame graphs: folded stacks (flamegraph.pl, inferno), and speedscope's file format."""
import json
from collections.abc import Iterator, Mapping

from avrora_tools.exports.walking import ASLEEP, NodeCosts, Path

SPEEDSCOPE_SCHEMA = "https://www.speedscope.app/file-format-schema.json"


def paths_of(costs: NodeCosts, with_sleep: bool) -> list[tuple[Path, int]]:
    """The call stacks of a node with their cycles, most first."""
    paths = sorted(costs.paths.items(), key=lambda item: (-item[1], item[0]))
    if with_sleep and costs.asleep:
        paths.append(((ASLEEP,), costs.asleep))
    return [(path, cycles) for path, cycles in paths if cycles]


def folded(costs: Mapping[int, NodeCosts], with_sleep: bool) -> Iterator[str]:
    """A line a call stack: the node and its functions, the outermost first, and the cycles."""
    for node, one in sorted(costs.items()):
        for path, cycles in paths_of(one, with_sleep):
            names = (name.replace(";", ":") for name in path)  # a ; begins the next function
            yield f"{';'.join((f'node {node}', *names))} {cycles}"


def speedscope(costs: Mapping[int, NodeCosts], with_sleep: bool, title: str, version: str, hz: int | None) -> str:
    """The text of a file of speedscope: a profile for each node, in seconds where the clock is known."""
    names: dict[str, int] = {}
    profiles = []
    for node, one in sorted(costs.items()):
        paths = paths_of(one, with_sleep)
        samples = [[names.setdefault(name, len(names)) for name in path] for path, _ in paths]
        weights = [cycles / hz if hz else cycles for _, cycles in paths]
        profiles.append(
            {
                "type": "sampled",
                "name": f"node {node}",
                "unit": "seconds" if hz else "none",
                "startValue": 0,
                "endValue": sum(weights),
                "samples": samples,
                "weights": weights,
            }
        )
    document = {
        "$schema": SPEEDSCOPE_SCHEMA,
        "name": title,
        "exporter": f"avrora-tools {version}",
        "shared": {"frames": [{"name": name} for name in names]},
        "profiles": profiles,
    }
    return json.dumps(document)
