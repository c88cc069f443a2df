"""Runs of a campaign of which conditions on variables are stated: what judges them, by the files of a shipment."""
import os
import tempfile
from collections.abc import Mapping, Sequence

from avrora_tools import cases, runs
from avrora_tools.errors import BadInput
from avrora_tools.files import printable
from avrora_tools.observing.expecting import NAMED_BY, Observer
from avrora_tools.observing.running import Network
from avrora_tools.programs import Programs
from avrora_tools.runs import ShippedCase
from avrora_tools.scenarios import Scenario

MOST_NETWORKS = 16  # whose programs are kept for the runs behind


class Observers:
    """Makes what judges the conditions of cases over runs, whose files lie in a folder by their names in the
    shipment."""

    def __init__(self, folder: str) -> None:
        self.folder = folder
        self.networks: dict[tuple[ShippedCase, tuple[str, ...]], Network] = {}

    def observer(self, shipped: ShippedCase, case: cases.Case, scenario: Scenario, path: str) -> Observer:
        """What judges the conditions of a case over the run of the scenario in the file `path`. Raises BadInput where
        one is none of the programs of its nodes."""
        return Observer(case, f"{self.folder}/{runs.PROGRAM}", path, scenario, self.network(shipped, scenario))

    def network(self, shipped: ShippedCase, scenario: Scenario) -> Network:
        """The names that the programs of a case give to the nodes. They are kept for runs with the same images, unless
        a run brought its images itself."""
        key = shipped, tuple(scenario.images)
        keeps = os.path.realpath(scenario.folder) == os.path.realpath(self.folder)
        if keeps and key in self.networks:
            return self.networks[key]
        found = Programs([], scenario)
        for program in shipped.programs:
            path = f"{self.folder}/{program.file}"
            if program.nodes:
                found.add(f"{program.nodes}={path}", None)
            else:
                found.add_by_content(path, scenario, program.path)
        found.compare_images(scenario)
        network = Network(scenario, found, NAMED_BY)
        if keeps:
            if len(self.networks) >= MOST_NETWORKS:
                self.networks.clear()
            self.networks[key] = network
        return network


def demand(text: str, contents: Mapping[str, bytes], shipped: Sequence[ShippedCase], name: str) -> None:
    """Raises BadInput where the run of this name, of a scenario with files of this content, can have no condition of a
    case judged over it."""
    with tempfile.TemporaryDirectory(prefix="avrora-conditions-") as folder:
        try:
            scenario = Scenario.of_text(text, "the scenario", folder)
        except BadInput:
            return  # what is wrong with it the simulator says, in the run
        programs = {program.file for one in shipped for program in one.programs}
        used = programs | {one.file for one in shipped} | set(scenario.images)
        for file in used & contents.keys():
            with open(f"{folder}/{file}", "wb") as copy:
                copy.write(contents[file])
        observers = Observers(folder)
        for one in shipped:
            case = cases.read_case(f"{folder}/{one.file}")._replace(path=one.path)
            try:
                observers.observer(one, case, scenario, f"{folder}/{runs.SCENARIO}")
            except BadInput as fault:
                raise BadInput(f"run {printable(name)}: {named(str(fault), folder, one)}") from None


def named(text: str, folder: str, shipped: ShippedCase) -> str:
    """A message with the names that the user gave to the files of a case."""
    for program in shipped.programs:
        text = text.replace(f"{folder}/{program.file}", program.path).replace(program.file, program.path)
    return text
