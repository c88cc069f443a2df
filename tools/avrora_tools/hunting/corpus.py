"""What a hunt found and how far it came, in a folder: a later hunt tries first what failed, and goes on behind it.

What a stranger's corpus says failed is tried too. How far it says that it came counts for nothing, as no round would be
made of those that fail; a seal tells whose it is."""
import json
import os
import re
from collections.abc import Collection, Mapping, Sequence
from dataclasses import dataclass, field
from typing import Any

from avrora_tools import files, seals
from avrora_tools.errors import BadInput
from avrora_tools.hunting.changes import MOST_WAITING, Left, Trial, record_of, trial_of
from avrora_tools.hunting.visits import Visit
from avrora_tools.writing import Folder

STATE = "hunt.json"
SCENE = re.compile(r"(found-[0-9]+)(?:-right)?\.toml")
RACE = re.compile(r"race-[0-9]+\.toml(?:\.state|\.moves)?")
VERSION = 1
MOST_TRIALS, MOST_ARRIVALS = 1_000, 100


@dataclass(frozen=True)
class Known:
    """What failed: trials, and spans of arrivals."""

    trials: Sequence[Trial] = ()
    arrivals: Sequence[Visit] = ()

    @classmethod
    def of_record(cls, record: Mapping[str, Any]) -> "Known":
        trials = [trial_of(it) for it in record["failed"][:MOST_TRIALS]]
        return cls(trials, [Visit.of_record(it) for it in record.get("arrivals", [])[:MOST_ARRIVALS]])


@dataclass(frozen=True)
class Progress:
    """How far the rounds of a seed came: how many were made, and what the next one draws from."""

    rounds: int = 0
    credit: Mapping[str, int] = field(default_factory=dict)  # of kinds that found something of late
    left: Mapping[str, Left] = field(default_factory=dict)  # by kinds
    turns: int = 0  # of sweeps

    @classmethod
    def of_record(cls, record: Mapping[str, Any]) -> "Progress":
        credit = {str(name): int(count) for name, count in record.get("credit", {}).items()}
        left = {str(name): left_of_record(it) for name, it in record.get("left", {}).items()}
        return cls(int(record["rounds"]), credit, left, int(record.get("turns", 0)))

    def record(self) -> dict[str, Any]:
        left = {name: record_of_left(it) for name, it in self.left.items()}
        return {"rounds": self.rounds, "credit": dict(self.credit), "left": left, "turns": self.turns}


def record_of_left(left: Left) -> dict[str, Any]:
    waiting = {"following": left.following, "idle": left.idle}
    return {"count": left.count, **{name: [record_of(it) for it in trials] for name, trials in waiting.items()}}


def left_of_record(record: Mapping[str, Any]) -> Left:
    following, idle = (tuple(map(trial_of, record[name][:MOST_WAITING])) for name in ("following", "idle"))
    return Left(max(0, int(record["count"])), following, idle)


def seal_of(record: Mapping[str, Any]) -> str:
    """What nobody but this user writes beside how far a hunt came."""
    came = {name: record.get(name) for name in ("seed", "whose", *Progress().record())}
    return seals.seal(seals.text_of(("how far a hunt came", json.dumps(came, sort_keys=True)))).hex()


class Corpus:
    """The folder of a hunt. What it has is tried anew, so it decides nothing."""

    def __init__(self, folder: str) -> None:
        self.folder = folder
        self.seed, self.whose = 0, ""  # the seed of the rounds, and what they were rounds of
        self.progress = Progress()
        self.trials: dict[str, Trial] = {}  # that failed, by their texts
        self.arrivals: dict[Visit, None] = {}
        path = os.path.join(folder, STATE)
        if os.path.lexists(path):
            self.read(path)

    def read(self, path: str) -> None:
        try:
            found: Any = json.loads(files.read_named_text(path))
            if found["version"] != VERSION:
                raise BadInput(f"{files.shown(path)}: of another version of this tool")
            seed, whose, progress = int(found["seed"]), str(found.get("whose", "")), Progress.of_record(found)
            if found.get("seal") == seal_of(found):
                self.seed, self.whose, self.progress = seed, whose, progress
            self.take(Known.of_record(found))
        except (ValueError, KeyError, TypeError, AttributeError, OverflowError, RecursionError) as fault:
            raise BadInput(f"{files.shown(path)}: no corpus of a hunt: {type(fault).__name__}") from None

    @property
    def known(self) -> Known:
        """All that failed."""
        return Known(list(self.trials.values()), list(self.arrivals))

    def take(self, known: Known) -> None:
        """Adds what failed, each once, as far as there is room."""
        for trial in known.trials:
            if len(self.trials) < MOST_TRIALS:
                self.trials.setdefault(json.dumps(record_of(trial), sort_keys=True), trial)
        for visit in known.arrivals:
            if len(self.arrivals) < MOST_ARRIVALS:
                self.arrivals.setdefault(visit)

    def begin(self, seed: int, whose: str) -> Progress:
        """How far the rounds of a seed came, of what `whose` says: a hash of all that decides a run. Of another seed
        none was made. Of another program, say, other ones follow, which go through all packets and visits again."""
        if seed != self.seed:
            self.progress = Progress()
        elif whose != self.whose:
            self.progress = Progress(self.progress.rounds)
        self.seed, self.whose = seed, whose
        return self.progress

    def write(self, lasting: bool = False) -> None:
        came = {"seed": self.seed, "whose": self.whose, **self.progress.record()}
        record = {
            "version": VERSION,
            **came,
            "seal": seal_of(came),
            "failed": [record_of(it) for it in self.trials.values()],
            "arrivals": [it.record() for it in self.arrivals],
        }
        files.write_whole(os.path.join(self.folder, STATE), json.dumps(record) + "\n", lasting)

    def found(self, number: int) -> str:
        """The file of a finding."""
        return os.path.join(self.folder, f"found-{number}.toml")

    def race(self, number: int) -> str:
        """The file of an arrival that fails, which may need a state and moves beside it."""
        return os.path.join(self.folder, f"race-{number}.toml")

    def clear(self) -> None:
        """Makes the folder, and removes the scenarios of an earlier hunt: they are written anew as far as they still
        fail."""
        with Folder.named(self.folder, make=True) as folder:
            for name in folder.names():
                if SCENE.fullmatch(name) or RACE.fullmatch(name):
                    folder.remove(name)

    def keep_found(self, paths: Collection[str]) -> None:
        """Removes the scenarios of findings but these, and the right ones beside them."""
        kept = {os.path.basename(path) for path in paths}
        with Folder.named(self.folder, make=True) as folder:
            for name in folder.names():
                if (scene := SCENE.fullmatch(name)) and f"{scene[1]}.toml" not in kept:
                    folder.remove(name)
