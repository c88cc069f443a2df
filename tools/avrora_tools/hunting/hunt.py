"""A hunt: rounds in which each kind of variation has turns, more of them where it found something."""
import random
import time
from collections import Counter
from collections.abc import Iterator, Sequence
from dataclasses import dataclass
from typing import Protocol

from avrora_tools.hunting.causes import Finding, Lines, Trail, look_of
from avrora_tools.hunting.changes import Document, Trial
from avrora_tools.hunting.corpus import Known, Progress
from avrora_tools.hunting.handing import Handing
from avrora_tools.hunting.kinds import Facts, Kind, kinds_of, left_of, take_up
from avrora_tools.hunting.oracles import Failure, Oracle, Reference
from avrora_tools.hunting.races import NAME as ARRIVALS
from avrora_tools.hunting.races import Races
from avrora_tools.hunting.said import bursts_of
from avrora_tools.hunting.smaller import OracleOf, Scene, Smaller
from avrora_tools.hunting.trails import Trails
from avrora_tools.hunting.trials import Runner, processor_seconds
from avrora_tools.hunting.waiting import Failing, Waiting
from avrora_tools.scenarios import DEFAULT_TIME
from avrora_tools.sweeping.limits import Limit

LOOKING = 0.85  # the share of the time in which new trials are made; what failed is made small in the rest too
TURN = 12  # trials of a kind in a round
SMALL_SHARE = 0.4  # of the runs go at most into making small what failed, but for the first of each look
RARE = 4  # and of those kinds that seldom find something
RARE_KINDS = ("latencies", "losses")
MOST_FOR_FINDING = 3  # as many times a turn, where a kind found new causes of late


class Listener(Protocol):
    """Hears of a hunt while it goes on, so that what is known is kept before more is tried."""

    def say(self, text: str) -> None:
        """A line for the user."""

    def found(self, number: int, finding: Finding) -> None:
        """The finding of this number is new, or has a smaller scenario."""

    def failed(self, known: Known) -> None:
        """This failed."""

    def came(self, progress: Progress) -> None:
        """So far the rounds came."""


@dataclass(frozen=True)
class Means:
    """What a hunt works with. `has_check`: whether the user says what is right."""

    runner: Runner
    oracle_of: OracleOf
    has_check: bool
    races: Races | None
    lines: Lines
    handing: Handing
    trails: Trails
    limit: Limit


class Hunt:
    """One hunt."""

    def __init__(self, means: Means, document: Document, until: int, seed: int, chosen: set[str] | None = None) -> None:
        self.runner, self.oracle_of, self.has_check = means.runner, means.oracle_of, means.has_check
        self.races, self.lines, self.handing, self.limit = means.races, means.lines, means.handing, means.limit
        self.trails = means.trails
        self.document, self.until, self.seed, self.chosen = document, until, seed, chosen
        self.begun = time.monotonic()
        output = self.runner.output(document)
        self.reference = Reference(output, until, int(document["cycles"]))
        self.oracle: Oracle = self.oracle_of(len(document["node"]))
        self.unmoved_failure = self.oracle.failure(self.reference, None, output)
        self.facts = Facts(document, bursts_of(output, int(document.get("byte_time", DEFAULT_TIME))), until, self.has_check)
        self.tried: Counter[str] = Counter()
        self.failed: Counter[str] = Counter()
        self.credit: Counter[str] = Counter()
        self.findings: list[Finding] = []
        self.waiting = Waiting()  # what failed and was not made small
        self.small_runs = 0  # that this took so far
        self.progress = Progress()
        self.kinds = kinds_of(self.facts, random.Random(f"{seed}"), chosen)

    @property
    def rounds(self) -> int:
        """How many were made, of the seed."""
        return self.progress.rounds

    def run(self, progress: Progress, known: Known, most_rounds: int | None, listener: Listener) -> None:
        """Tries what failed before, and then makes rounds until the limit, behind those of an earlier hunt."""
        self.progress = progress
        take_up(self.kinds, progress.left)
        self.try_all(known.trials, {}, listener)
        self.credit = Counter(progress.credit)
        if self.races:
            for visit in known.arrivals:
                self.take_races(self.races.again(visit, self.oracle, self.reference), listener)
            self.races.skip(progress.turns)
        last = progress.rounds + most_rounds if most_rounds else None
        while not self.limit.is_over(LOOKING) and self.rounds != last:
            self.round(self.kinds, listener)
            if self.limit.signal is None:  # a round that was cut is made again
                turns = self.races.turns if self.races else 0
                self.progress = Progress(self.rounds + 1, dict(self.credit), left_of(self.kinds), turns)
                listener.came(self.progress)
        if most_rounds is None:
            self.look_closer(1.0, listener)
        self.fold()

    def look_closer(self, share: float, listener: Listener) -> None:
        """Makes more of what failed small: what looks alike may have several causes."""
        while self.waiting.count() and not self.limit.is_over():
            if self.small_runs >= share * self.runner.runs:
                return
            self.take_small(self.waiting.next(), listener)

    def fold(self) -> None:
        """What was not made small is counted with a finding of the same look."""
        for failing in self.waiting.rest():
            kin = next((it for it in self.findings if it.drawn_look == failing.look), None)
            if kin:
                kin.note(failing.trial.kind, failing.failure)
            else:
                scene = Scene(self.document, self.until, failing.trial)
                found = Finding(failing.look, failing.failure, scene, failing.trial, failing.look)
                found.note(failing.trial.kind, failing.failure)
                self.findings.append(found)

    def round(self, kinds: Sequence[Kind], listener: Listener) -> None:
        by_name = {kind.name: kind for kind in kinds}
        trials = [trial for kind in kinds for trial in self.drawn(kind)]
        self.try_all(trials, by_name, listener)
        self.credit = Counter({name: credit - 1 for name, credit in self.credit.items() if credit > 1})
        if self.races and not self.limit.is_over():
            random_ = random.Random(f"{self.seed} {self.rounds} {ARRIVALS}")
            self.take_races(self.races.turn(random_, self.oracle, self.reference), listener)
        self.look_closer(SMALL_SHARE, listener)

    def drawn(self, kind: Kind) -> Iterator[Trial]:
        """The trials of a kind in this round, by the seed and the round alone."""
        random_ = random.Random(f"{self.seed} {self.rounds} {kind.name}")
        count = RARE if kind.name in RARE_KINDS else TURN
        for _ in range(count * min(MOST_FOR_FINDING, 1 + self.credit[kind.name])):
            if (trial := kind.draw(random_)) and trial.changes:
                yield trial

    def try_all(self, trials: Sequence[Trial], kinds: dict[str, Kind], listener: Listener) -> None:
        byte_time = self.facts.byte_time
        fresh: list[tuple[Trial, Failure]] = []
        for trial, output in self.runner.tried(self.document, trials):
            self.tried[trial.kind] += 1
            failure = self.oracle.failure(self.reference, trial, output)
            if failure:
                self.failed[trial.kind] += 1
                listener.failed(Known([trial]))
                fresh.append((trial, failure))
            elif trial.kind in kinds:
                kinds[trial.kind].passed(trial, bursts_of(output, byte_time))
        for trial, failure in fresh:
            self.take(trial, failure, listener)

    def take(self, trial: Trial, failure: Failure, listener: Listener) -> None:
        """Keeps a failing trial for a closer look; the first one of its look has that at once."""
        failing = Failing(trial, failure, look_of(trial, self.document, failure))
        if self.waiting.knows(failing.look) or self.limit.is_over():
            self.waiting.put(failing)
        else:
            self.take_small(failing, listener)

    def take_small(self, failing: Failing, listener: Listener) -> None:
        before = self.runner.runs
        self.waiting.count_small(failing)
        if found := self.small(failing):
            found.note(failing.trial.kind, failing.failure)
            self.merge(found, failing.trial.kind, listener)
        else:
            listener.say(f"a worker of the cluster said what is not so here: {failing.failure.text}")
        self.small_runs += self.runner.runs - before

    def small(self, failing: Failing) -> Finding | None:
        """A finding with the smallest scenario that fails as this trial does; none where others made the runs, and it
        does not fail here."""
        smaller = Smaller(self.runner, self.oracle_of, not self.has_check, self.limit.is_over)
        scene, wrong = smaller.smaller(Scene(self.document, self.until, failing.trial), failing.failure)
        if self.runner.is_elsewhere and not smaller.made_here(scene):
            return None
        look = look_of(scene.trial, scene.document, wrong)
        if self.limit.is_over():  # who ends a hunt does not wait for what these take
            return Finding(look, wrong, scene, failing.trial, failing.look)
        alone, uneven = self.lines.otherwise(scene)
        overwritten = self.handing.overwritten(scene)
        return Finding(look, wrong, scene, failing.trial, failing.look, alone, uneven, overwritten)

    def merge(self, found: Finding, kind: str, listener: Listener) -> None:
        """Findings of one cause are one."""
        for number, finding in enumerate(self.findings, 1):
            if found.is_of(finding):
                finding.kinds += found.kinds
                finding.texts += found.texts
                if found.scene and finding.scene and found.scene.size() < finding.scene.size():
                    finding.scene, finding.failure, finding.look = found.scene, found.failure, found.look
                    finding.lines, finding.uneven, finding.overwritten = found.lines, found.uneven, found.overwritten
                    finding.trail = self.trail(found)
                    listener.found(number, finding)
                return
        self.credit[kind] += 2
        found.trail = self.trail(found)
        self.add(found, kind, found.failure.text, listener)

    def trail(self, found: Finding) -> Trail | None:
        """Where what is lost or doubled ends; who ends a hunt does not wait for it."""
        return self.trails.of(found.scene, found.failure) if found.scene and not self.limit.is_over() else None

    def take_races(self, findings: Sequence[Finding], listener: Listener) -> None:
        """What a sweep found."""
        assert self.races
        listener.failed(Known(arrivals=self.races.failing))
        self.tried[ARRIVALS] = self.races.runs
        for found in findings:
            self.failed[ARRIVALS] += found.count
            self.take_race(found, listener)

    def take_race(self, found: Finding, listener: Listener) -> None:
        for finding in self.findings:
            if finding.look == found.look:
                finding.kinds += found.kinds
                finding.texts += found.texts
                return
        if found.scene:
            smaller = Smaller(self.runner, self.oracle_of, not self.has_check, self.limit.is_over)
            if wrong := smaller.failure(found.scene):
                found.scene, found.failure = smaller.smaller(found.scene, wrong)
            else:
                found.scene = None
        self.add(found, ARRIVALS, found.places[0], listener)

    def add(self, found: Finding, kind: str, text: str, listener: Listener) -> None:
        """A finding is new: its files are written before it is told."""
        self.findings.append(found)
        listener.found(len(self.findings), found)
        runs = self.runner.runs + (self.races.runs if self.races else 0)
        listener.say(f"found after {runs:,} runs ({processor_seconds():,.0f} s of processors), by {kind}: {text}")

