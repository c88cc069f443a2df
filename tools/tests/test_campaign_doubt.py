"""campaign: what of the answers of workers is believed. The workers are a mock in this process, and their time is
counted."""
import collections

import pytest

from test_campaign_large import FakePool, Run
from avrora_tools import attempts, driving, pools, runs, watching
from avrora_tools.errors import CannotWork

RUNS = 100_000


class Answering(FakePool):
    """Workers that answer with the number of the run as its trace's hash. Who lies, and from which of its runs on, is
    said by `lies`; a lie is each third of them: another hash, or that the run failed."""

    def __init__(self, names, lies=None, outcome=runs.PASSED):
        super().__init__(dict.fromkeys(names, 0.01))
        self.lies, self.outcome = lies or {}, outcome
        self.answered = collections.Counter()
        self.lied = collections.Counter()

    def wait(self, seconds):
        events, self.events = self.events, []
        self.waits += 1
        for worker in [worker for worker in self.workers if worker.tickets and not events]:
            ticket, jobs = worker.tickets.popitem(last=False)
            self.now += len(jobs) * self.seconds[worker.name] / len(self.seconds)
            events.append(pools.Done(worker, ticket, [self.answer(worker, int(text)) for text, *_ in jobs], None))
        return events

    def answer(self, worker, number):
        self.answered[worker.name] += 1
        first = self.lies.get(worker.name)
        lies = first is not None and self.answered[worker.name] > first and self.answered[worker.name] % 3 == 0
        self.lied[worker.name] += lies
        found = runs.answer(self.outcome if lies else runs.PASSED)
        return {**found, "hash": f"{number + lies:064x}", "counts": [0] * 5, "seconds": self.seconds[worker.name]}


class Results:
    """What a campaign's results do, in memory."""

    def __init__(self, count):
        self.count = count
        self.found = {}
        self.has_gaps = True

    def wanted(self):
        if not self.has_gaps:
            return None
        self.has_gaps = False
        return (attempts.Attempt(Run(number), "") for number in range(self.count) if number not in self.found)

    def save(self, attempt, answer, host, second):
        assert attempt.run.number not in self.found
        self.found[attempt.run.number] = answer["outcome"], answer["hash"], host, second

    def distrust(self, host):
        gone = [number for number, (_, _, by, second) in self.found.items() if by == host and second is None]
        dropped = collections.Counter(self.found.pop(number)[0] for number in gone)
        self.has_gaps = self.has_gaps or bool(gone)
        return dropped


def driven(pool, count, arbiter=None, sample=None):
    results, said = Results(count), []
    progress = watching.Progress(count)
    progress.say = said.append
    words = {"arbiter": arbiter, "clock": pool.clock, "sample": sample}
    driver = driving.Driver(pool, 3, progress, results.save, results.distrust, **words)
    driver.drive(results.wanted, lambda: None)
    assert progress.left == 0
    return results.found, said


def wrong(found):
    return [
        number for number, (outcome, hashed, *_) in found.items() if (outcome, int(hashed, 16)) != (runs.PASSED, number)
    ]


@pytest.mark.parametrize("outcome", [runs.PASSED, runs.FAILED])
def test_one_of_four_lies_from_the_middle_on(outcome):
    pool = Answering("abcd", {"d": RUNS // 8}, outcome)
    found, said = driven(pool, RUNS)
    assert pool.lied["d"] > 0
    assert len(found) == RUNS and not wrong(found)
    assert any(text.startswith("the worker d is set aside: it came to ") for text in said)
    assert any(text.endswith("results that d came to by itself are begun again") for text in said)


def test_no_failure_is_told_of_one_worker_alone():
    """Each run that is not passed was made by two, and none of two hundred is from the one that says so of what is
    well."""
    found, _ = driven(
        Answering("ab", {"b": 0}, runs.FAILED), 200,
        arbiter=lambda job: Answering("x").answer(pools.Worker("x"), int(job[0])),
    )
    assert not wrong(found)


class Late(Answering):
    """The worker that lies proves itself first, and the others some runs later."""

    def __init__(self, names, *words):
        super().__init__(names, *words)
        self.late, self.events = self.events[:-1], self.events[-1:]

    def unproved(self):
        return [event.worker.name for event in self.late]

    def wait(self, seconds):
        found = super().wait(seconds)
        if self.waits == 20:
            found, self.late = found + self.late, []
        return found


def test_nobody_confirms_himself():
    found, said = driven(Late("abd", {"d": -1}, runs.FAILED), 400, arbiter=lambda job: pytest.fail("there are others"))
    assert not wrong(found)
    assert any(text.startswith("the worker d is set aside: it came to failed") for text in said)


class LateAndIdle(Late):
    """The one that proves itself first comes to nothing, and has no memory for any run."""

    def answer(self, worker, number):
        found = super().answer(worker, number)
        return runs.answer(runs.BROKEN, "status 6: ", again=True) if worker.name == "d" else found


def test_who_comes_first_decides_nothing():
    """What comes to nothing on the only worker that is there waits for the others."""
    found, said = driven(LateAndIdle("abd"), 400)
    assert not wrong(found)
    assert any(text.startswith("the worker d is set aside: ") for text in said)


class Unfinished(Answering):
    """One works and comes to nothing the first time; another one never proves itself. Time goes by where nobody has
    work."""

    def unproved(self):
        return ["z"]

    def wait(self, seconds):
        found = super().wait(seconds)
        self.now += not found
        assert self.waits < 10_000
        return found

    def answer(self, worker, number):
        self.lied[number] += 1
        found = super().answer(worker, number)
        return found if self.lied[number] > 1 else runs.answer(runs.BROKEN, "status 6: ", again=True)


def test_another_worker_that_never_comes():
    """The one that is there gets it again after a while."""
    pool = Unfinished("a")
    found, _ = driven(pool, 20, sample=0)
    assert not wrong(found) and len(found) == 20
    assert pool.now > driving.OTHER_SECONDS


def test_two_that_differ_and_nobody_else():
    """It is not a verdict."""
    found, _ = driven(Answering("ab", {"b": 0}, runs.FAILED), 30)
    assert {outcome for outcome, *_ in found.values()} == {runs.PASSED, runs.BROKEN}


def test_one_in_a_hundred_is_made_again():
    pool = Answering("abcd")
    found, said = driven(pool, 20_000)
    again = sum(pool.answered.values()) - 20_000
    assert 150 <= again <= 250, again
    assert again == sum(second is not None for *_, second in found.values())
    assert not said


def test_a_second_opinion_that_does_not_come():
    """A run that passed, and that nobody else comes to an answer of in time, is passed as those that one alone made
    are."""
    busy = runs.answer(runs.BROKEN, "took more than 10 s")
    driver = driving.Driver(
        Answering("a"), 3, watching.Progress(1), lambda *words: saved.append(words), arbiter=lambda job: busy
    )
    saved = []
    for outcome, comes_to in ((runs.PASSED, runs.PASSED), (runs.FAILED, runs.BROKEN)):
        attempt = attempts.Attempt(Run(7), "")
        worker = pools.Worker("a")
        attempt.opinions = [(worker, {**runs.answer(outcome), "hash": "00", "counts": [0] * 5})]
        driver.judge.decide(attempt)
        assert saved[-1][1]["outcome"] == comes_to and saved[-1][3] is None


class Regular(Answering):
    """One lies in each tenth run, of which a hundred is a multiple."""

    def answer(self, worker, number):
        found = super().answer(worker, number)
        lies = worker.name == "d" and self.answered["d"] % (driving.SAMPLE // 10) == 0
        self.lied[worker.name] += lies
        return {**found, "hash": f"{number + lies:064x}"}


def test_a_lie_in_step_with_second_opinions():
    """It is found, as these come at drawn places; then what it alone said is made again."""
    pool = Regular("abcd")
    found, said = driven(pool, 600 * driving.SAMPLE)
    assert pool.lied["d"] > 0 and not wrong(found)
    assert any(text.startswith("the worker d is set aside: it came to ") for text in said), pool.lied


def test_all_lie():
    with pytest.raises(CannotWork, match="all workers are set aside"):
        driven(
            Answering("a", {"a": 0}, runs.FAILED), 100,
            arbiter=lambda job: Answering("x").answer(pools.Worker("x"), int(job[0])),
        )
