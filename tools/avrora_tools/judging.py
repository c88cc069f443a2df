"""What is believed of the answers of workers.

No worker is believed alone where that decides something. A run that is not passed is made again on another worker, and
so is one in a hundred of those that passed. Where two differ a third one decides, or this process where there is none;
who was wrong is set aside, and what it came to by itself is begun again.
"""
import collections
import random
from collections.abc import Callable
from typing import Protocol

from avrora_tools import runs
from avrora_tools.attempts import OWN, Attempt, Own, described, first_line, verdict
from avrora_tools.crews import Crew
from avrora_tools.files import printable
from avrora_tools.pools import Worker
from avrora_tools.watching import Progress

MOST_TROUBLES = 3  # one after another, of a worker that proves itself between them
MOST_BLAMED = 3  # runs that came to no answer on a worker and to one elsewhere,
BLAMED_OF = 100  # where they are more than one of so many

MOST_OPINIONS = 3  # of workers on one run

# Saves what came of a run: the answer, on which host, and on which other one it came to the same.
Save = Callable[[Attempt, runs.Answer, str, str | None], None]

# Drops the results that a worker came to by itself: how many of each outcome.
Distrust = Callable[[str], "collections.Counter[str]"]

# What this process comes to in a run itself.
Arbiter = Callable[[runs.Job], runs.Answer]


def nothing_known(_: str) -> "collections.Counter[str]":
    return collections.Counter()


class Shares(Protocol):
    """Who gives runs to workers, as a judge wants it."""

    def put_again(self, attempt: Attempt, avoid: Worker | None) -> None:
        """Has a run begun again, on another worker than one that it is to avoid."""

    def set_aside(self, worker: Worker, reason: str) -> None:
        """Gives a worker nothing any more."""

    def hopes_for_others(self) -> bool:
        """Whether workers may yet come that have not proved themselves."""


class Judge:
    """Hears what workers answer, and settles runs."""

    def __init__(
        self,
        crew: Crew,
        shares: Shares,
        attempts: int,
        progress: Progress,
        save: Save,
        distrust: Distrust,
        arbiter: Arbiter | None,
        sample: int,
    ) -> None:
        """Of `sample` runs of a worker that passed one is made again elsewhere, of 0 none."""
        self.crew, self.shares, self.attempts, self.progress = crew, shares, attempts, progress
        self.save, self.distrust, self.arbiter, self.sample = save, distrust, arbiter, sample
        self.until_sample: dict[Worker, int] = {}
        self.liars: collections.Counter[str] = collections.Counter()  # by their machines
        self.troubles: collections.Counter[Worker] = collections.Counter()
        self.doubted: set[Worker] = set()  # that came to something else than others

    def is_of_liars(self, worker: Worker) -> bool:
        """Whether a worker is on a machine of which two came to wrong answers, and there are other machines."""
        return self.liars[worker.machine] > 1 and len(self.crew.machines) > 1

    def welcome(self, worker: Worker) -> None:
        """Takes a worker that has proved itself. Which of its runs are made again is drawn."""
        self.until_sample[worker] = random.randint(1, self.sample) if self.sample else 0

    def end_of_batch(self, worker: Worker) -> None:
        if self.troubles[worker] >= MOST_TROUBLES and worker in self.crew:
            self.shares.set_aside(worker, f"{MOST_TROUBLES} runs failed on it one after another by no fault of theirs")

    def hear(self, attempt: Attempt, answer: runs.Answer, worker: Worker) -> None:
        """Begins a run again where that can come to something else, or hears what came of it."""
        attempt.copies -= 1
        tally = self.crew.tally(worker)
        tally.runs += 1
        if answer["trouble"]:
            tally.troubles += 1
            self.troubles[worker] += 1
        elif self.troubles[worker]:
            self.troubles[worker] = 0
        tally.timeouts += answer["late"]
        if attempt.is_settled:  # it came to an answer elsewhere
            return
        if answer["outcome"] == runs.BROKEN and answer["again"]:
            self.came_to_nothing(attempt, answer, worker)
        else:
            self.weigh(attempt, answer, worker)

    def came_to_nothing(self, attempt: Attempt, answer: runs.Answer, worker: Worker) -> None:
        self.note_try(attempt, worker, answer["message"])
        attempt.failed_on = (*attempt.failed_on, worker)
        if attempt.copies:  # another one is at it
            return
        if attempt.number < self.attempts:
            attempt.number += 1
            self.progress.again += 1
            self.progress.note(f"begun again: {attempt.run.name}: on {worker.name}: {first_line(answer['message'])}")
            self.shares.put_again(attempt, worker)
        else:
            self.settle(attempt, answer, worker, None)

    @staticmethod
    def note_try(attempt: Attempt, worker: Worker, what: str) -> None:
        attempt.tried = [*(attempt.tried or []), (worker.name, first_line(what))]

    def wants_second(self, answer: runs.Answer, worker: Worker) -> bool:
        """Whether another worker is to say what it comes to: where a run is not passed, and of a hundred that are
        once."""
        if answer["outcome"] != runs.PASSED:
            return True
        until = self.until_sample.get(worker)
        if not until:
            return False
        self.until_sample[worker] = until - 1 or self.next_gap()
        return until == 1

    def next_gap(self) -> int:
        """How many runs go by up to the next that is made again: as many as `sample` on the average, and drawn, so that
        no lie that comes each so many runs goes by."""
        return random.randint(1, 2 * self.sample - 1)

    def weigh(self, attempt: Attempt, answer: runs.Answer, worker: Worker) -> None:
        """Settles a run by an answer, or asks another worker first."""
        if attempt.opinions is None and not self.wants_second(answer, worker):
            self.settle(attempt, answer, worker, None)
            return
        opinions = attempt.opinions = [*(attempt.opinions or []), (worker, answer)]
        same = [it for it, other in opinions if verdict(other) == verdict(answer)]
        if len(same) > 1:
            self.agreed(attempt, answer, same)
            return
        asked = {known.name for known, _ in opinions}
        is_other = any(it.name not in asked for it in self.crew.workers) or self.shares.hopes_for_others()
        if len(opinions) == 1 and not self.arbiter:
            is_other = True  # the same one, where there is no other
        if is_other and len(opinions) < MOST_OPINIONS:
            if not attempt.copies:
                self.shares.put_again(attempt, worker)
        else:
            self.decide(attempt)

    def agreed(self, attempt: Attempt, answer: runs.Answer, same: list[Worker]) -> None:
        """Two came to the same; those that did not were wrong."""
        assert attempt.opinions
        wrong = [(worker, other) for worker, other in attempt.opinions if verdict(other) != verdict(answer)]
        another = next((worker for worker in same[1:] if worker is not same[0]), None)
        for worker, other in wrong:
            self.note_try(attempt, worker, described(other))
        for worker in same:
            self.crew.tally(worker).confirmed += another is not None
        self.settle(attempt, answer, same[0], another)
        for worker, other in wrong:
            self.was_wrong(worker, attempt, other, answer)

    def decide(self, attempt: Attempt) -> None:
        """Workers differ, and there is no other one: this process makes the run itself."""
        assert attempt.opinions
        run = attempt.run
        own = self.arbiter(run.job(True)) if self.arbiter else None
        same = [worker for worker, other in attempt.opinions if own and verdict(other) == verdict(own)]
        for worker, other in attempt.opinions:
            if worker not in same:
                self.note_try(attempt, worker, described(other))
        if own is not None and not same and len(attempt.opinions) == 1 and own["outcome"] in runs.FINAL:
            ((worker, other),) = attempt.opinions  # one against this process, which the user chose
            self.settle(attempt, own, None, OWN)
            self.was_wrong(worker, attempt, other, own)
            return
        is_own_final = own is not None and own["outcome"] in runs.FINAL
        if len(attempt.opinions) == 1 and not is_own_final and attempt.opinions[0][1]["outcome"] == runs.PASSED:
            ((worker, other),) = attempt.opinions  # as of most runs that passed one alone says so
            self.settle(attempt, other, worker, None)
            return
        if own is None or not same:
            said = "; ".join(f"{worker.name}: {described(other)}" for worker, other in attempt.opinions)
            broken = runs.answer(runs.BROKEN, f"it came out otherwise each time: {said}")
            self.settle(attempt, broken, attempt.opinions[-1][0], None)
            return
        wrong = [(worker, other) for worker, other in attempt.opinions if worker not in same]
        self.settle(attempt, next(other for worker, other in attempt.opinions if worker in same), same[0], OWN)
        for worker, other in wrong:
            self.was_wrong(worker, attempt, other, own)

    def was_wrong(self, worker: Worker, attempt: Attempt, answer: runs.Answer, right: runs.Answer) -> None:
        """Sets a worker aside that came to something else than others, and begins again what it came to by itself."""
        self.crew.tally(worker).differing += 1
        reason = f"it came to {described(answer)} where others came to {described(right)}: {attempt.run.name}"
        self.doubt(worker, reason)
        self.liars[worker.machine] += 1
        if self.is_of_liars(worker):
            for other in self.crew.of_machine(worker.machine):
                self.doubt(other, two_others(worker))

    def doubt(self, worker: Worker, reason: str) -> None:
        self.doubted.add(worker)
        if worker in self.crew:
            self.shares.set_aside(worker, reason)
        dropped = self.distrust(worker.name)
        for outcome, count in dropped.items():
            self.progress.count(outcome, -count)
        if dropped:
            name = printable(worker.name)
            self.progress.say(f"{dropped.total()} results that {name} came to by itself are begun again")

    def settle(
        self, attempt: Attempt, answer: runs.Answer, worker: Worker | None, second: "Worker | Own | None"
    ) -> None:
        attempt.is_settled = True
        self.progress.count(answer["outcome"])
        name = worker.name if worker else second.name if second else ""
        self.save(attempt, answer, name, second.name if second else None)
        if answer["outcome"] != runs.PASSED:
            self.progress.not_passed(attempt.run.name, answer, name)
        for blamed in attempt.failed_on:
            if blamed is not worker and answer["outcome"] in runs.FINAL:
                self.blame(blamed)

    def blame(self, worker: Worker) -> None:
        """A run came to no answer on a worker, and to one elsewhere."""
        tally = self.crew.tally(worker)
        tally.blamed += 1
        is_bad = tally.blamed >= MOST_BLAMED and tally.blamed * BLAMED_OF > tally.runs
        if is_bad and worker in self.crew and len(self.crew) > 1:
            late = f", {tally.timeouts} of them late" if tally.timeouts else ""
            self.shares.set_aside(worker, f"{tally.blamed} runs came to no answer on it and to one elsewhere{late}")


def two_others(worker: Worker) -> str:
    """Why a worker is not believed that did nothing wrong."""
    return f"two others of {worker.machine} came to wrong answers"
