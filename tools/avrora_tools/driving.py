"""Drives a campaign: takes runs as they are made, shares them out in batches, and saves what comes of them.

Who gets what is decided here; what is believed of the answers, in `judging`.
"""
import collections
import itertools
import math
import time
from collections.abc import Callable, Iterable, Iterator

from avrora_tools import judging, pools, runs
from avrora_tools.attempts import Attempt, Batch
from avrora_tools.crews import BATCHES_A_WORKER, Crew
from avrora_tools.errors import BadInput, CannotWork
from avrora_tools.files import printable
from avrora_tools.judging import Arbiter, Distrust, Judge, Save, nothing_known
from avrora_tools.pools import Pool, Worker
from avrora_tools.watching import Progress

BATCH_SECONDS = 2.0  # that a worker is to take for a batch
MOST_IN_BATCH = 200
WAIT_SECONDS = 0.2
LOOK_SECONDS = 1.0  # between two looks at what takes long

SAMPLE = 100  # of so many runs of a worker that passed one is made again elsewhere

# Before the answers of a batch are overdue: for the way, and for a worker that proves itself anew.
GRACE_SECONDS = runs.PROOF_SECONDS + 60.0

# What is under way for so long, and for so many times what it should take, is begun elsewhere where a worker is idle.
IDLE_SECONDS, IDLE_TIMES = 5.0, 4.0
UNKNOWN_SECONDS = 30.0  # where it is not known how long runs take
OTHER_SECONDS = 20.0  # that a run waits for another worker than the one it is to avoid

# How much of the measured time of a run is that of the last batch.
WEIGHT_OF_LAST = 0.3

# Gives the runs that have no result; a None among them gives this time for other work. None where all have one.
Wanted = Callable[[], Iterator[Attempt | None] | None]


class Driver:
    """One sitting of a campaign. At no time it has more runs at hand than a few batches for each worker; what it does
    for a run does not depend on how many workers there are."""

    def __init__(
        self,
        pool: Pool,
        attempts: int,
        progress: Progress,
        save: Save,
        distrust: Distrust = nothing_known,
        arbiter: Arbiter | None = None,
        longest: float = 600.0,
        sample: int | None = None,
        clock: Callable[[], float] = time.monotonic,
    ) -> None:
        """`longest` is what one run may take, with all that it is compared with."""
        self.pool, self.progress, self.longest, self.clock = pool, progress, longest, clock
        self.again: collections.deque[Attempt] = collections.deque()
        self.under_way: dict[int, Batch] = {}
        self.runs_under_way = 0
        self.crew = Crew(clock)
        sample = SAMPLE if sample is None else sample
        self.judge = Judge(self.crew, self, attempts, progress, save, distrust, arbiter, sample)
        self.reasons: list[str] = []  # of the workers that were set aside
        self.tickets = itertools.count()
        self.seconds_a_run = 0.0
        self.next_look = 0.0
        self.is_at_end = False
        self.named: set[Worker] = set()  # workers of which it was told that they are slow

    # ---- the loop

    def drive(self, wanted: Wanted, rest: Callable[[], None]) -> None:
        """Runs all that is wanted. `rest` is called from time to time. Raises CannotWork where no worker is left."""
        found = wanted()
        while found is not None:
            for _ in self.steps(found):
                rest()
            found = wanted()
        for name in self.pool.unproved():
            self.progress.say(f"the worker {printable(name)} did not prove itself while the campaign ran")

    def steps(self, wanted: Iterator[Attempt | None]) -> Iterator[None]:
        """Runs all that is wanted, and yields from time to time."""
        self.is_at_end = False
        while True:
            self.share_out(wanted)
            if self.is_at_end and not self.again and not self.runs_under_way:
                return
            if not self.pool.has_hope():
                raise CannotWork(f"all workers are set aside: {'; '.join(self.reasons) or 'none came'}")
            for event in self.pool.wait(WAIT_SECONDS if self.is_at_end or self.has_all() else 0):
                self.take(event)
            if self.clock() >= self.next_look:
                self.next_look = self.clock() + LOOK_SECONDS
                self.look()
            self.progress.tell(self.runs_under_way, len(self.crew))
            yield

    def take(self, event: pools.Event) -> None:
        if isinstance(event, pools.Proved):
            self.proved(event.worker)
        elif isinstance(event, pools.SetAside):
            self.tell_aside(event.worker, event.reason)
        elif isinstance(event, pools.Lost):
            self.lost(event)
        else:
            self.done(event)

    # ---- who gets what

    def has_all(self) -> bool:
        """Whether no worker has room for another batch."""
        return not any(self.crew.rooms[: self.depth()])

    def share_out(self, wanted: Iterator[Attempt | None]) -> None:
        """Gives each worker what it has room for; those with least go first."""
        for room in range(BATCHES_A_WORKER):
            for worker in list(self.crew.rooms[room]) if room < self.depth() else ():
                if self.is_at_end and not self.again:
                    break
                batch = self.batch(worker, wanted)
                if batch:  # else there may be one for another worker, which this one is to avoid
                    self.send(worker, batch)
        if self.is_at_end and self.crew.rooms[0]:
            self.begin_elsewhere()

    def by_time(self) -> int:
        """How many runs take a batch's time."""
        return max(1, min(MOST_IN_BATCH, int(BATCH_SECONDS / self.seconds_a_run))) if self.seconds_a_run else 1

    def left(self) -> int:
        """How many runs are still to be given to workers."""
        return self.progress.left - self.runs_under_way

    def depth(self) -> int:
        """How many batches a worker has at once. A second one waits for the first, so that a worker of many short runs
        has no pause; where runs are long or few are left none waits behind another while a worker has nothing to do."""
        enough = BATCHES_A_WORKER * len(self.crew) * self.by_time()
        return BATCHES_A_WORKER if self.by_time() > 1 and self.left() >= enough else 1

    def size(self) -> int:
        """How many runs a batch has: as many as take its time, and near the end no more than are left for each."""
        share = math.ceil(self.left() / max(1, BATCHES_A_WORKER * len(self.crew)))
        return max(1, min(self.by_time(), share))

    def batch(self, worker: Worker, wanted: Iterator[Attempt | None]) -> list[Attempt]:
        size = self.size()
        found: list[Attempt] = []
        for _ in range(min(len(self.again), 2 * size + len(self.crew))):
            attempt = self.again.popleft()
            if attempt.is_settled:
                continue
            if not self.may_have(worker, attempt) or attempt.is_alone and found:
                self.again.append(attempt)
                continue
            found.append(attempt)
            if attempt.is_alone or len(found) == size:
                return found
        while len(found) < size and not self.is_at_end:
            try:
                attempt_or_pause = next(wanted)
            except StopIteration:
                self.is_at_end = True
                break
            if attempt_or_pause is None:
                break
            found.append(attempt_or_pause)
        return found

    def may_have(self, worker: Worker, attempt: Attempt) -> bool:
        """Whether a worker may get a run that is begun again: no worker that it is to avoid, and of another machine
        where there is one, as long as there is hope of that. One that ended and was started again has its name."""
        if not attempt.avoid:
            return True
        if worker.name in [it.name for it in attempt.avoid]:
            if len(self.crew) == 1 and not self.hopes_for_others():
                return True
            # Nobody confirms himself; and what came to nothing waits for others, which may still prove themselves.
            return not attempt.opinions and self.clock() - attempt.since > OTHER_SECONDS
        machines = {it.machine for it in attempt.avoid if it in self.crew}
        return worker.machine not in machines or len(self.crew.machines) <= len(machines)

    def send(self, worker: Worker, batch: list[Attempt]) -> None:
        jobs, good = [], []
        for attempt in batch:
            try:
                # A second opinion is of a run by itself, whatever was made together with others.
                jobs.append(attempt.run.job(bool(attempt.opinions) or attempt.number > 1))
                good.append(attempt)
                attempt.copies += 1
            except BadInput as fault:  # values that make no network
                self.judge.settle(attempt, runs.answer(runs.REFUSED, str(fault)), None, None)
        if good:
            ticket = next(self.tickets)
            self.under_way[ticket] = Batch(worker, good, self.clock())
            self.runs_under_way += len(good)
            self.pool.send(worker, ticket, jobs)
            self.crew.place(worker)

    def begin_elsewhere(self) -> None:
        """Where a worker has nothing to do, and nothing else is left, it gets what another one has had for long."""
        now = self.clock()
        for batch in self.under_way.values():
            expected = self.seconds_a_run * len(batch.attempts) if self.seconds_a_run else UNKNOWN_SECONDS
            if batch.is_elsewhere or now - batch.sent < max(IDLE_SECONDS, IDLE_TIMES * expected):
                continue
            batch.is_elsewhere = True
            left = [attempt for attempt in batch.attempts if not attempt.is_settled]
            for attempt in left:
                self.put_again(attempt, batch.worker)
            if left:
                name = printable(batch.worker.name)
                seconds = now - batch.sent
                self.tell_slow(batch.worker, f"the worker {name} has had {len(left)} runs for {seconds:.0f} s")
                return

    def put_again(self, attempt: Attempt, avoid: Worker | None) -> None:
        attempt.since = self.clock()
        if avoid is not None and avoid not in attempt.avoid:
            attempt.avoid = (*attempt.avoid, avoid)
        self.again.append(attempt)

    def hopes_for_others(self) -> bool:
        return bool(self.pool.unproved())

    def tell_slow(self, worker: Worker, text: str) -> None:
        if worker not in self.named:
            self.named.add(worker)
            self.progress.say(f"{text}; they are begun elsewhere too")

    # ---- who comes and goes

    def proved(self, worker: Worker) -> None:
        if self.judge.is_of_liars(worker):
            self.set_aside(worker, judging.two_others(worker))
            return
        self.crew.add(worker)
        self.judge.welcome(worker)
        self.progress.note(f"the worker {worker.name} proved itself")

    def tell_aside(self, worker: Worker, reason: str) -> None:
        self.reasons.append(f"{worker.name}: {reason}")
        self.crew.tally(worker).aside = reason
        self.progress.say(f"the worker {printable(worker.name)} is set aside: {printable(reason)}")

    def taken(self, ticket: int) -> list[Attempt]:
        """The attempts of a batch that has come to its end."""
        batch = self.under_way.pop(ticket, None)
        if batch is None:
            return []
        self.runs_under_way -= len(batch.attempts)
        return batch.attempts

    def lost(self, event: pools.Lost) -> None:
        """Of the batches that a worker had it had begun the first alone. Where that is of several runs they are begun
        again run by run, which counts for none of them: it is not known which of them took the worker."""
        self.crew.drop(event.worker)
        self.progress.say(f"the worker {printable(event.worker.name)}: {printable(event.reason)}")
        for place, ticket in enumerate(event.tickets):
            batch = self.taken(ticket)
            if place == 0 and len(batch) == 1:
                self.judge.hear(batch[0], runs.answer(runs.BROKEN, event.reason, again=True), event.worker)
                continue
            for attempt in batch:
                attempt.is_alone = attempt.is_alone or place == 0
            self.give_back(batch)

    def give_back(self, batch: Iterable[Attempt]) -> None:
        """What was not begun is begun elsewhere, which counts as no attempt."""
        for attempt in batch:
            attempt.copies -= 1
            if not attempt.is_settled and not attempt.copies:
                self.put_again(attempt, None)

    def set_aside(self, worker: Worker, reason: str) -> None:
        """Gives what a worker had to others."""
        tickets = list(worker.tickets)
        self.crew.drop(worker)
        self.pool.set_aside(worker)
        for ticket in tickets:
            self.give_back(self.taken(ticket))
        self.tell_aside(worker, reason)

    def look(self) -> None:
        """Sets those aside whose answers are overdue: a worker gives back what it does not come to. What waits in vain
        for a second opinion is made here."""
        now = self.clock()
        if self.is_at_end or self.left() <= len(self.again):
            doubtful = [it for it in self.again if it.opinions and not it.is_settled]
            for attempt in [it for it in doubtful if now - it.since > OTHER_SECONDS]:
                self.judge.decide(attempt)
        overdue = runs.SECONDS_A_BATCH + self.longest + GRACE_SECONDS
        for batch in list(self.under_way.values()):
            behind = BATCHES_A_WORKER if len(batch.worker.tickets) > 1 else 1
            if now - batch.sent > behind * overdue and batch.worker in self.crew:
                seconds = now - batch.sent
                self.set_aside(batch.worker, f"no answer to a batch of {len(batch.attempts)} runs in {seconds:.0f} s")

    # ---- what came

    def done(self, event: pools.Done) -> None:
        worker = event.worker
        batch = self.under_way.get(event.ticket)
        attempts = self.taken(event.ticket)
        if batch is None:
            return
        self.crew.place(worker)
        now = self.clock()
        self.learn(event.answers, now - batch.sent)
        if event.sick is not None and worker in self.crew:
            self.set_aside(worker, event.sick)
        for attempt, answer in zip(attempts, event.answers):
            if worker in self.judge.doubted:  # of what it said of others no more is believed
                self.give_back([attempt])
            else:
                self.judge.hear(attempt, answer, worker)
        self.give_back(attempts[len(event.answers) :])
        self.judge.end_of_batch(worker)

    def learn(self, answers: Iterable[runs.Answer], seconds: float) -> None:
        """How long runs take. The clock of a worker may run wild, so it is believed no further than this one."""
        answers = list(answers)
        for answer in answers:
            if not 0 <= answer["seconds"] <= seconds:
                answer["seconds"] = round(seconds / len(answers), 4)
        if answers:
            mean = sum(answer["seconds"] for answer in answers) / len(answers)
            weight = WEIGHT_OF_LAST if self.seconds_a_run else 1.0
            self.seconds_a_run += weight * (max(mean, 1e-6) - self.seconds_a_run)
