"""One call of a campaign: what of it is to be run, what is kept of before, and how it is driven."""
import collections
import contextlib
import dataclasses
import hashlib
import itertools
import math
import os
import secrets
import tempfile
from collections.abc import Callable, Iterator

from avrora_tools import benches, campaigns, checkers, draws, driving, files, pools, results, runs, scenarios
from avrora_tools import terminal, watching
from avrora_tools.attempts import Attempt
from avrora_tools.campaigns import Campaign, Shard
from avrora_tools.errors import BadInput, CannotWork, ToolError
from avrora_tools.files import printable
from avrora_tools.variants import Run
from avrora_tools.writing import Folder

RUNS_A_LOOK = 500  # whose results of before are looked up together

ORDERS = ("file", "drawn")


@dataclasses.dataclass(frozen=True)
class Words:
    """What the user chose for a sitting."""

    shard: Shard = Shard()
    order: str = "file"
    stop_after: int | None = None
    scheduler: str | None = None
    jobs: int | None = None
    counts: str | None = None
    drops: bool = False


class Numbers:
    """The numbers of a part of a campaign, as they stand there or each once in an order that the campaign's name
    decides."""

    def __init__(self, numbers: range, order: str, name: str) -> None:
        self.numbers, self.count = numbers, len(numbers)
        self.factor, self.start = 1, 0
        if order == "drawn" and self.count > 2:
            drawn = int.from_bytes(hashlib.sha256(name.encode("utf-8", "surrogateescape")).digest()[:16], "big")
            self.start = drawn % self.count
            self.factor = int(self.count * 0.618) or 1  # neighbours lie far apart
            while math.gcd(self.factor, self.count) != 1:
                self.factor += 1

    def __len__(self) -> int:
        return self.count

    def __getitem__(self, place: int) -> int:
        return self.numbers[(self.start + place * self.factor) % self.count]

    def looks(self) -> Iterator[list[int]]:
        """All of them, some at a time."""
        for first in range(0, self.count, RUNS_A_LOOK):
            yield [self[place] for place in range(first, min(first + RUNS_A_LOOK, self.count))]


class Identity:
    """What decides the outcomes of all runs: the simulator, the checker, the campaign's runs, and what `draw` reads."""

    def __init__(self, campaign: Campaign, simulator: str, recorded: str | None, generation: str | None) -> None:
        """`recorded` is what `draw` had read, and `generation` a word for it."""
        self.program, self.checker = simulator, checkers.version()
        self.generation = ""
        if campaign.drawn:
            is_same = recorded is not None and generation and draws.is_as_recorded(recorded, campaign.folder)
            self.generation = generation if is_same and generation else secrets.token_hex(8)
        self.whole = whole_of(simulator, self.checker, campaign.signature, self.generation)


def whole_of(simulator: str, checker: str, signature: str, generation: str) -> str:
    return hashlib.sha256(f"{simulator} {checker} {signature} {generation}".encode()).hexdigest()


def about_of(campaign: Campaign, shard: Shard) -> dict[str, str]:
    """What results say of themselves: of which campaign they are, and of which part."""
    return {
        "name": campaign.name,
        "total": str(len(shard.numbers(campaign.count))),
        "campaign_total": str(campaign.count),
        "campaign": campaign.signature,
        "shard": str(shard),
        "signature": hashlib.sha256(f"{shard} {campaign.signature}".encode()).hexdigest(),
    }


class Sitting:
    """What is wanted of one call of a campaign, and what is saved."""

    def __init__(
        self, campaign: Campaign, words: Words, simulator: bytes, store: results.Store, log: watching.Log | None = None
    ) -> None:
        self.campaign, self.words, self.store = campaign, words, store
        self.traces = campaign.settings["traces"]
        shard = words.shard
        self.numbers = Numbers(shard.numbers(campaign.count), words.order, campaign.name)
        program = hashlib.sha256(simulator).hexdigest()
        self.identity = Identity(campaign, program, store.about("inputs"), store.about("generation"))
        self.digests = campaigns.Digests(campaign, program, self.identity.checker)
        about = {**about_of(campaign, shard), "generation": self.identity.generation}
        self.moved = store.arrange(about["signature"], campaign.runs(shard))
        store.begin(about, self.identity.whole, program, self.identity.checker)
        self.inputs = store.about("inputs") or ""
        self.progress = watching.Progress(len(self.numbers), log)
        self.failures = 0
        self.passes = 0
        self.has_gaps = False

    @property
    def is_enough(self) -> bool:
        return self.words.stop_after is not None and self.failures >= self.words.stop_after

    def wanted(self) -> Iterator[Attempt | None] | None:
        """What has no result: at first what no result of before is kept of, then what was dropped since. None where
        that is nothing."""
        self.passes += 1
        if self.is_enough or self.passes > 1 and not self.has_gaps:
            return None
        self.has_gaps = False
        return self.without_kept() if self.passes == 1 else self.dropped()

    def without_kept(self) -> Iterator[Attempt | None]:
        """What no result is kept of; a None after each few runs that have one."""
        for look in self.numbers.looks():
            known = self.store.known(look)
            for number in look:
                if self.is_enough:
                    return
                found = known.get(number)
                if found and found[1].identity == self.identity.whole and self.store.is_final(found[0], self.traces):
                    self.progress.kept += 1
                    continue
                run = self.campaign.run(number)
                digest = self.digests.of(run)
                is_same = found is not None and found[0][results.DIGEST] == bytes.fromhex(digest)
                if found and is_same and self.store.is_final(found[0], self.traces):
                    self.store.take_over(*found)
                    self.progress.kept += 1
                else:
                    yield Attempt(run, digest)
            if known:
                yield None

    def dropped(self) -> Iterator[Attempt | None]:
        """What lost its result in this sitting."""
        for look in self.numbers.looks():
            for number in self.store.without_result(look):
                run = self.campaign.run(number)
                yield Attempt(run, self.digests.of(run))
            yield None

    def distrust(self, host: str) -> "collections.Counter[str]":
        dropped = self.store.forget(host)
        self.has_gaps = self.has_gaps or bool(dropped)
        found: collections.Counter[str] = collections.Counter()
        for outcome, count in dropped.items():
            found[outcome] = min(count, self.progress.outcomes[outcome])
            self.progress.kept = max(0, self.progress.kept - (count - found[outcome]))
            self.failures -= found[outcome] * (outcome in (runs.FAILED, runs.REFUSED))
        return found

    def save(self, attempt: Attempt, answer: runs.Answer, host: str, second: str | None) -> None:
        if answer["outcome"] != runs.PASSED:
            answer = {**answer, "message": self.explained(attempt.run, answer)}
            self.failures += answer["outcome"] in (runs.FAILED, runs.REFUSED)
        self.store.save(attempt.run, attempt.digest, answer, host, attempt.number, second, attempt.tried)

    def explained(self, run: Run, answer: runs.Answer) -> str:
        """The message of an answer. Of a scenario that was refused it says where the fault is, in the file that is
        kept, and an image that was refused has the name that the user gave it."""
        message = str(answer["message"])
        if answer["outcome"] != runs.REFUSED:
            return message
        for name, path in self.campaign.shipped_from.items():
            message = message.replace(name, path)
        with contextlib.suppress(BadInput):  # what is not a scenario
            found = scenarios.faults(run.scenario())
            if found:
                return f"{message}\nruns/{campaigns.file_name(run.name)}.toml: {scenarios.described(found[0])}"
        return message

    def rest(self) -> None:
        """Writes what is due: first what `draw` has read, then what came of it."""
        codes = [group.code for group in self.campaign.drawn]
        inputs = draws.record(codes) if codes else ""
        if inputs != self.inputs:
            self.inputs = inputs
            self.store.note(inputs=inputs)
        self.store.commit(if_due=True)


def shipment_of(campaign: Campaign, simulator: bytes) -> runs.Shipment:
    settings = campaign.settings
    shipped = {**campaign.files, runs.PROGRAM: simulator}
    return runs.Shipment(shipped, campaign.checks, settings["timeout"], settings["traces"])


MOST_CALLS = 3  # of the simulator for one way of comparing: save, head and resume


def longest(campaign: Campaign) -> float:
    """Seconds that one run may take at most, with all calls by which it is compared."""
    ways = max((len(check.ways) for check in campaign.checks), default=0)
    return float(campaign.settings["timeout"] * (1 + MOST_CALLS * ways))


class Arbiter:
    """Makes a run in this process, where workers differ and there is no other one."""

    def __init__(self, shipment: runs.Shipment, stack: contextlib.ExitStack) -> None:
        self.shipment, self.stack = shipment, stack
        self.bench: benches.Bench | None = None

    def __call__(self, job: runs.Job) -> runs.Answer:
        if self.bench is None:
            place = self.stack.enter_context(tempfile.TemporaryDirectory(prefix="avrora-arbiter-"))
            self.bench = benches.Bench(self.shipment, place)
            self.stack.callback(self.bench.close)
            reason = self.bench.prove()
            if reason:
                self.bench = None
                return runs.answer(runs.BROKEN, f"this machine cannot say: {reason}")
        try:
            return self.bench.run(job)
        except runs.Sick as sick:
            return runs.answer(runs.BROKEN, f"this machine cannot say: {sick}")


class Counts:
    """The counts of workers in a file, written anew from time to time."""

    def __init__(self, campaign: Campaign, driver: driving.Driver, write: Callable[[str], None]) -> None:
        self.name, self.driver, self.write = campaign.name, driver, write
        self.next = 0.0

    def tell(self, is_last: bool = False) -> None:
        now = self.driver.clock()
        if is_last or now >= self.next:
            self.next = now + watching.SECONDS_A_COUNT
            self.write(watching.metrics(self.name, self.driver.progress, self.driver.crew.tallies, now, not is_last))


def run_wanted(sitting: Sitting, simulator: bytes) -> None:
    """Runs all that has no result; what came of it is saved however it ends."""
    campaign, progress, words, store = sitting.campaign, sitting.progress, sitting.words, sitting.store
    with contextlib.ExitStack() as stack:
        driver: driving.Driver | None = None
        counts: Counts | None = None
        try:
            first = sitting.wanted()
            begun = first_of(first, progress) if first else None
            if progress.kept:
                kept = max(progress.kept, store.count_final(sitting.identity.whole))
                progress.say(f"{kept} of {progress.total} results are there already, and are kept")
            if begun is None or first is None:
                return
            iterators: list[Iterator[Attempt | None]] = [itertools.chain([begun], first)]
            shipment = shipment_of(campaign, simulator)
            pool = pools.pool(words.scheduler, words.jobs, shipment, progress.left, store.folder.path)
            stack.callback(pool.close)
            arbiter = Arbiter(shipment, stack)
            driver = driving.Driver(
                pool,
                campaign.settings["attempts"],
                progress,
                sitting.save,
                sitting.distrust,
                arbiter,
                longest(campaign),
            )
            counts = Counts(campaign, driver, lambda text: write_counts(store.folder, words.counts, text))
            told = counts.tell

            def rest() -> None:
                sitting.rest()
                told()

            driver.drive(lambda: iterators.pop() if iterators else sitting.wanted(), rest)
            if sitting.is_enough and progress.left:
                progress.say(
                    f"ended, as {sitting.failures} runs are failed or refused; {progress.left:,} have no result yet, and "
                    "the same command goes on from there"
                )
        except (KeyboardInterrupt, ToolError):
            there = progress.kept + progress.done
            progress.say(f"cut, with {there} of {progress.total} results; the same command goes on from there")
            raise
        finally:
            progress.end()
            store.commit()
            if counts:
                counts.tell(is_last=True)
            told_of_workers(driver)


def write_counts(folder: Folder, path: str | None, text: str) -> None:
    folder.write(watching.COUNTS, text, lasting=False)
    if path:
        files.write_whole(path, text, lasting=False)


def told_of_workers(driver: driving.Driver | None) -> None:
    """A line of the log for each worker, with what it did."""
    if driver is None:
        return
    for name, tally in driver.crew.tallies.items():
        parts = [f"{getattr(tally, number)} {number}" for number in watching.NUMBERS if getattr(tally, number)]
        aside = f"; set aside: {tally.aside}" if tally.aside else ""
        driver.progress.note(f"the worker {name}: {', '.join(parts) or 'nothing'}{aside}")


def first_of(wanted: Iterator[Attempt | None], progress: watching.Progress) -> Attempt | None:
    """The first run that has no result."""
    for attempt in wanted:
        if attempt is not None:
            return attempt
        progress.tell(0, 0)
    return None


# ---- what it will cost

DRY_RUNS = 50


def tell_cost(campaign: Campaign, words: Words, simulator: bytes) -> None:
    """Makes some drawn runs, keeps nothing of them, and says what all of them will cost."""
    numbers = Numbers(words.shard.numbers(campaign.count), "drawn", campaign.name)
    count = min(DRY_RUNS, len(numbers))
    chosen = [campaign.run(numbers[place]) for place in range(count)]
    answers: list[runs.Answer] = []
    progress = watching.Progress(count)
    with tempfile.TemporaryDirectory(prefix="avrora-dry-") as place, contextlib.ExitStack() as stack:
        shipment = shipment_of(campaign, simulator)
        pool = pools.pool(words.scheduler, words.jobs, shipment, count, place)
        stack.callback(pool.close)

        def save(attempt: Attempt, answer: runs.Answer, host: str, second: str | None) -> None:
            answers.append(answer)

        iterators = [iter([Attempt(run, "") for run in chosen])]
        driver = driving.Driver(pool, 1, progress, save, longest=longest(campaign), sample=0)
        driver.drive(lambda: iterators.pop() if iterators else None, lambda: None)
        workers = max(1, len(driver.crew))
    progress.end()
    if progress.outcomes[runs.BROKEN] == count:
        raise CannotWork(f"none of {count} drawn runs came to an answer: {printable(answers[0]['message'])}")
    each = sum(answer["seconds"] for answer in answers) / len(answers)
    processor = sum(answer["processor"] for answer in answers) / len(answers)
    slowest = max(answer["seconds"] for answer in answers)
    outcomes = ", ".join(f"{number} {word}" for word, number in progress.outcomes.items() if number)
    total = len(numbers)
    size = total * (ROW_BYTES + sum(len(answer["trace"] or b"") for answer in answers) / len(answers))
    print(f"{count} drawn runs: {outcomes}; {1_000 * each:.1f} ms each, the slowest {1_000 * slowest:.1f} ms")
    print(f"{total:,} runs: about {shown_seconds(each * total / workers)} with {workers:,} workers")
    taken = shown_seconds(processor * total)
    print(f"the simulator takes {taken} of processors for them, and results {shown_bytes(size)}")


ROW_BYTES = 300  # of a result in the file, about


def shown_seconds(seconds: float) -> str:
    for unit, size in (("days", 86_400), ("hours", 3_600), ("minutes", 60)):
        if seconds >= 2 * size:
            return f"{seconds / size:.1f} {unit}"
    return f"{seconds:.1f} s"


def shown_bytes(count: float) -> str:
    for unit, size in (("GB", 1e9), ("MB", 1e6)):
        if count >= size:
            return f"{count / size:.1f} {unit}"
    return f"{count / 1e3:.0f} kB"


def program_known(path: str | None) -> str | None:
    """The hash of the simulator that the campaign would take, where nothing is to be built for it."""
    from avrora_tools import cli, shipping

    with contextlib.suppress(ToolError, OSError):
        path = cli.simulator(path)
        top = os.path.dirname(os.path.realpath(path))
        if os.path.exists(f"{top}/prove.py"):
            path = f"{top}/{shipping.BUILT}/avrora_program"
        with open(path, "rb") as file:
            return hashlib.file_digest(file, "sha256").hexdigest()
    return None


def warn_of_results(sitting: Sitting) -> None:
    """Tells what a changed campaign, or a damaged file, means to what was there."""
    store, progress, moved = sitting.store, sitting.progress, sitting.moved
    if moved.aside:
        progress.say(
            f"{moved.aside:,} results are of runs that are no longer in the campaign: they are put aside in the results, "
            "and come back where the runs do; --drop drops them"
        )
    if moved.back:
        progress.say(f"{moved.back:,} results that were aside are back")
    if sitting.words.drops:
        dropped = store.drop_aside()
        terminal.say(f"{dropped:,} results of runs that are no longer in the campaign are dropped")
