"""Nodes as gdb names them: all are threads. Where nodes have different images each image is an inferior of gdb's, with
symbols of its own (gdb's manual, "Remote Protocol", "General Query Packets", multiprocess)."""
import re
from collections.abc import Sequence

from avrora_tools.errors import BadInput
from avrora_tools.programs import Programs
from avrora_tools.scenarios import Scenario

NUMBER = "[0-9a-fA-F]{1,16}"

# A thread in a packet, where all threads are -1 or p-1.-1, and those of an inferior pN.-1 or pN.
THREAD = rf"(?:p(?:-1|{NUMBER})(?:\.(?:-1|{NUMBER}))?|-1|{NUMBER})"

EVERY = ("-1", "0")


class Inferiors:
    """The programs of a network's nodes, by number, and the words for nodes and programs in packets."""

    def __init__(self, scenario: Scenario, elfs: Sequence[str] = (), force: bool = False) -> None:
        """`elfs`: ELF or NODES=ELF. Raises BadInput where one is none, or of another program than an image."""
        programs = Programs(elfs, scenario, force)
        images = list(dict.fromkeys(scenario.images))
        self.of_node = [images.index(image) for image in scenario.images]
        self.images = images
        self.elfs: list[str | None] = []
        for number in range(len(images)):
            paths = {found.path for node in self.nodes(number) if (found := programs.of(node))}
            if len(paths) > 1:
                raise BadInput(f"{', '.join(sorted(paths))}: all are of {images[number]}, which has one program")
            self.elfs.append(paths.pop() if paths else None)
        self.are_several = False  # as gdb sees them

    def negotiate(self, features: str) -> bool:
        """gdb tells what it knows; whether each program is an inferior from now on."""
        self.are_several = "multiprocess+" in features.split(";") and len(self.images) > 1
        return self.are_several

    def nodes(self, program: int) -> list[int]:
        return [node for node, number in enumerate(self.of_node) if number == program]

    def thread(self, node: int) -> str:
        """A node as packets name it."""
        return f"p{self.of_node[node] + 1:x}.{node + 1:x}" if self.are_several else f"{node + 1:x}"

    def named(self, thread: str) -> list[int]:
        """The nodes that a word for threads names; all where it is none."""
        match = re.fullmatch(rf"(?:p(-1|{NUMBER})\.?)?(-1|{NUMBER})?", thread)
        process, one = (match[1] or "-1", match[2] or "-1") if match else ("-1", "-1")
        chosen = list(range(len(self.of_node)))
        if process not in EVERY:
            chosen = self.nodes(int(process, 16) - 1)
        return chosen if one in EVERY else [node for node in chosen if node == int(one, 16) - 1]

    def elf(self, process: str) -> str | None:
        """The file of a program by the number that gdb has for it; of the first without one."""
        number = int(process, 16) - 1 if process and self.are_several else 0
        return self.elfs[number] if 0 <= number < len(self.elfs) else None
