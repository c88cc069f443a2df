#!/usr/bin/env python3
"""Drawn walks of the real avr-gdb through a run, forwards and backwards, against a model of the run that is made of the
rows of its whole trace and of states that `look` writes.

    tools/tests/gdb_walks.py FOLDER [COUNT [SEED]]    COUNT walks (1,000) through FOLDER/packet.toml

test_gdb_walks.py takes a few. A failure names its seed, by which the same walk comes again."""
import bisect
import os
import random
import re
import subprocess
import sys
from collections import namedtuple
from pathlib import Path

sys.path[:0] = [str(Path(__file__).resolve().parents[n]) for n in (1, 0)]

from avrora_tools.debugging.history import History, history  # noqa: E402
from avrora_tools.debugging.target import registers  # noqa: E402
from avrora_tools.scenarios import MAX_WINDOW  # noqa: E402

from gdb_driver import Gdb  # noqa: E402

Row = namedtuple("Row", "cycle kind word text")

MOVES = 12  # of a walk
STANDS = re.compile(r"^cycle ([\d,]+), node (\d+)$", re.M)

# A breakpoint of a loop that executes all the time is not a good: walks go to places that a node comes to now and then.
MOST_VISITS = 4_000


class Model:
    """A run: all rows of each node's processor, and when a byte of each changes."""

    def __init__(self, past: History, variable: str, elf: str) -> None:
        self.past, self.limit, self.nodes = past, past.limit, past.nodes
        self.rows: list[list[Row]] = [[] for _ in range(past.nodes)]
        like = re.compile(r"(\d+) (\d+) (?:(instr|stop) ([0-9A-F]+) (.*)|(enter) ([0-9A-F]+) ([0-9A-F]+))")
        for begin in range(0, past.limit, MAX_WINDOW):
            for line in past.traced_text(begin, min(begin + MAX_WINDOW, past.limit)).decode().splitlines():
                found = like.fullmatch(line)
                if found and int(found[1]) >= begin:
                    word = found[4] or found[8]
                    row = Row(int(found[1]), found[3] or found[6], int(word, 16), found[5] or found[7])
                    self.rows[int(found[2])].append(row)
        self.cycles = [[row.cycle for row in rows] for rows in self.rows]
        self.visits: dict[int, list[tuple[int, int]]] = {}
        for node, rows in enumerate(self.rows):
            for row in rows:
                if row.kind == "instr":
                    self.visits.setdefault(row.word, []).append((row.cycle, node))
        for places in self.visits.values():
            places.sort()
        self.words = sorted(word for word, places in self.visits.items() if len(places) <= MOST_VISITS)
        self.variable = variable
        self.address = address_of(elf, variable)
        self.writes = [self.stores(node) for node in range(past.nodes)]

    def stores(self, node: int) -> list[int]:
        """The cycles in which a node stores another byte in the variable than it has, by the states about them."""
        text = f"sts 0x{self.address:04X}, "
        found = [row.cycle for row in self.rows[node] if row.kind == "instr" and row.text.startswith(text)]
        return [cycle for cycle in found if self.byte(node, cycle) != self.byte(node, cycle + 1)]

    def byte(self, node: int, cycle: int) -> int:
        return self.past.looked(cycle).nodes[node].data[self.address]

    # ---- where gdb is to come to

    def step(self, cycle: int, node: int, points: set[int]) -> tuple[int, int]:
        """Behind a step of a node, over interrupts unless a breakpoint lies in them."""
        here = bisect.bisect_left(self.cycles[node], cycle)
        # Where an interrupt begins in this cycle gdb shows what it interrupts.
        own = self.rows[node][here : bisect.bisect_right(self.cycles[node], cycle)]
        depth, end = int(any(row.kind == "enter" for row in own)), self.limit
        for row in self.rows[node][here + len(own) :]:
            if row.kind == "enter":
                depth += 1
            elif depth and row.text == "reti":
                depth -= 1
            elif not depth or row.word in points:
                end = row.cycle
                break
        return end, node

    def passed(self, before: tuple[int, int], at: tuple[int, int], points: set[int]) -> tuple[int, int] | None:
        """The first breakpoint that another node than that of `at` meets on the way there."""
        return next((one for one in self.hits(points) if before < one < at and one[1] != at[1]), None)

    def stands_at(self, at: tuple[int, int], points: set[int]) -> bool:
        return any(at in self.visits[word] for word in points)

    def step_back(self, cycle: int, node: int) -> tuple[int, int]:
        depth = 0
        for row in reversed(self.rows[node][: bisect.bisect_left(self.cycles[node], cycle)]):
            if row.kind == "instr" and row.text == "reti":
                depth += 1
            elif row.kind == "enter":
                depth = max(depth - 1, 0)
            elif not depth:
                return row.cycle, node
        return 0, node

    def hits(self, points: set[int]) -> list[tuple[int, int]]:
        return sorted(place for word in points for place in self.visits[word])

    def go_on(self, start: tuple[int, int], own: tuple[int, int], points: set[int]) -> tuple[int, int]:
        """The first breakpoint behind a place, where one node has gone on to another place since."""
        later = (at for at in self.hits(points) if at > start and not (at[1] == own[1] and at[0] <= own[0]))
        return next(later, (self.limit, own[1]))

    def go_back(self, cycle: int, node: int, points: set[int]) -> tuple[int, int]:
        return next((at for at in reversed(self.hits(points)) if at < (cycle, node)), (0, node))


def address_of(elf: str, variable: str) -> int:
    symbols = subprocess.run(["avr-nm", elf], capture_output=True, text=True, check=True).stdout
    return int(re.search(rf"^00(80\w+) . {variable}$", symbols, re.M)[1], 16) - 0x800000


class Walk:
    """One walk: moves are drawn, and gdb is to stand where the model says."""

    def __init__(self, gdb: Gdb, model: Model, seed: int) -> None:
        self.gdb, self.model, self.draw, self.seed = gdb, model, random.Random(seed), seed
        self.done: list[str] = []
        self.at = (0, 0)
        # Where gdb took its breakpoint out to step over it: it does not see other nodes come to theirs meanwhile.
        self.unseen: tuple[int, int] | None = None
        self.points: set[int] = set()

    def type(self, command: str) -> str:
        self.done.append(command)
        return self.gdb.type(command).text

    def go(self) -> None:
        self.type("delete")
        self.goto(self.draw.randrange(self.model.limit))
        self.type(f"thread {self.draw.randrange(self.model.nodes) + 1}")
        self.step(first=True)
        for _ in range(MOVES):
            self.draw.choice([self.step, self.step, self.back, self.back, self.search, self.search, self.watch])()
            self.check()

    def goto(self, cycle: int) -> None:
        self.type(f"monitor goto {cycle}")
        self.type("maintenance flush register-cache")

    def step(self, first: bool = False) -> None:
        """A step of the node that gdb shows."""
        if first:
            self.at, self.unseen = (self.place()[0], self.gdb_thread()), None
        before = self.unseen or self.at
        if self.model.stands_at(self.at, self.points):
            self.at, self.unseen = self.model.step(*self.at, self.points), before
        else:
            self.at, self.unseen = self.model.step(*self.at, self.points), None
            self.at = self.model.passed(before, self.at, self.points) or self.at
        self.type("stepi")

    def back(self) -> None:
        self.at, self.unseen = self.model.step_back(*self.at), None
        self.type("reverse-stepi")

    def go_on(self) -> None:
        start = own = self.at
        if self.model.stands_at(self.at, self.points):
            own = self.model.step(*self.at, self.points)
        if own != start and self.model.stands_at(own, self.points):
            self.at, self.unseen = own, self.unseen or start
        else:
            self.at, self.unseen = self.model.go_on(self.unseen or start, own, self.points), None
        self.type("continue")

    def search(self) -> None:
        """To a drawn breakpoint, on or back; it may stay for the moves behind."""
        word = self.draw.choice(self.model.words)
        self.points.add(word)
        self.type(f"break *{2 * word:#x}")
        for _ in range(self.draw.randrange(1, 4)):
            if self.draw.random() < 0.5:
                self.go_on()
            else:
                self.at, self.unseen = self.model.go_back(*self.at, self.points), None
                self.type("reverse-continue")
            self.check()
        if self.draw.random() < 0.7:
            self.points.clear()
            self.type("delete")

    def watch(self) -> None:
        """To the writes of the node's variable, on and back again; nothing else stops gdb meanwhile."""
        self.points.clear()
        self.type("delete")
        self.step()  # so that the tool sees that the watchpoint before is gone, which may be another node's
        node = self.at[1]
        self.unseen = None
        self.type(f"watch *(unsigned char *){0x800000 + self.model.address:#x}")
        writes = self.model.writes[node]
        for _ in range(self.draw.randrange(1, 4)):
            if self.draw.random() < 0.5:
                later = [cycle for cycle in writes if cycle >= self.at[0]]
                self.at = (later[0] + 1, node) if later else (self.model.limit, node)
                self.type("continue")
            else:
                before = [cycle for cycle in writes if cycle < self.at[0]]
                self.at = (before[-1], node) if before else (0, node)
                self.type("reverse-continue")
            self.check()
        self.type("delete")

    # ---- what is compared

    def gdb_thread(self) -> int:
        return int(re.search(r"\d+", self.gdb.type("print $_thread").text.partition("=")[2])[0]) - 1

    def place(self) -> tuple[int, int]:
        found = STANDS.search(self.gdb.type("monitor cycle").text)
        return int(found[1].replace(",", "")), int(found[2])

    def check(self) -> None:
        assert self.place() == self.at, self.told(f"gdb stands at {self.place()}, and not at {self.at}")
        assert self.gdb_thread() == self.at[1], self.told("gdb shows another node")
        shown = self.gdb.ask("-data-list-register-values x " + " ".join(map(str, range(35))))
        values = [int(value, 16) for value in re.findall(r'value="(0x[0-9a-f]+)"', shown.rest)]
        state = self.model.past.looked(self.at[0]).nodes[self.at[1]]
        data = registers(state)
        wanted = [*data[:33], data[33] | data[34] << 8, int.from_bytes(data[35:39], "little")]
        pointer = [value & 0xFFFF if number == 33 else value for number, value in enumerate(values)]
        assert pointer == wanted, self.told(f"registers {values}, and not {wanted}")
        first = self.draw.randrange(0x100, 0x10F0)
        found = self.gdb.ask(f"-data-read-memory-bytes {0x800000 + first:#x} 16").field("contents")
        assert bytes.fromhex(found) == state.data[first : first + 16], self.told(f"bytes from {first:04X} on")

    def told(self, what: str) -> str:
        return f"walk {self.seed}: {what}, behind: {'; '.join(self.done)}"


def walks(folder: str, program: str, seeds: range, say=None) -> int:
    """Takes a walk of each seed through the network packet.toml in a folder; how many."""
    with history(f"{folder}/packet.toml", program) as past, Gdb(folder, "packet.elf") as gdb:
        model = Model(past, "has_whole", f"{folder}/packet.elf")
        gdb.type("set confirm off")
        gdb.connect("packet.toml", program)
        for count, seed in enumerate(seeds, 1):
            Walk(gdb, model, seed).go()
            if say and count % 10 == 0:
                say(f"{count} walks")
    return len(seeds)


def main() -> None:
    folder, count, seed = sys.argv[1], int((sys.argv[2:] or [1_000])[0]), int((sys.argv[3:] or [1])[0])
    done = walks(folder, os.environ["AVRORA_PROGRAM"], range(seed, seed + count), lambda text: print(text, flush=True))
    print(f"{done} walks of {MOVES} moves: all as the trace and the states say")


if __name__ == "__main__":
    if sys.argv[1:2] in (["--help"], ["-h"]):
        sys.exit(print(__doc__))
    main()
