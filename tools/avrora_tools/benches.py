"""Where a run of a campaign takes place: in a process of this machine, or in one of a machine that a worker of dask is
on.

A worker trusts its own disk no further than it must. A trace that lacks its end rows is trouble of the worker. Before
it answers that a run failed or is refused, and at the end of each batch, it compares all that it was sent with what its
disk has: where that differs it is sick, and what it found since its last comparison is not an answer.
"""
import contextlib
import hashlib
import io
import itertools
import os
import re
import tempfile
import time
from collections.abc import Iterator, Sequence
from typing import Any, BinaryIO, cast

from avrora_tools import (
    calling,
    cases,
    comparisons,
    deadlines,
    expectations,
    observed_runs,
    outputs,
    predicates,
    runs,
    scenarios,
)
from avrora_tools.errors import CannotWork, ToolError
from avrora_tools.outputs import Ends
from avrora_tools.runs import BROKEN, FAILED, PASSED, PROGRAM, REFUSED, SCENARIO
from avrora_tools.runs import Answer, Job, ShippedCase, ShippedFile, Shipment, Sick, answer

# The files of a run, and the folder of the scenario and the images of one with images of its own.
TRACE, OUTPUT, OWN = "trace", "output", "own"
MOVES, SWEPT_STATE = "moves", "swept.state"  # of runs that one process makes
WORDS_OF_ONE_STRETCH = 4  # of a line of moves

# Statuses of the simulator: the scenario is refused, an image is; writing or reading failed, which is the worker's
# fault, as all that is read came in the shipment; the memory was not enough.
REFUSALS = (4, 5)
WORKER_FAULTS = (1, 3)
MEMORY_FAULTS = (6, 9)


class NoAnswer(Exception):
    """Ends a run that came to no trace; the answer says how."""

    def __init__(self, found: Answer) -> None:
        super().__init__(found["message"])
        self.answer = found


class Late(CannotWork):
    """Conditions on variables that are not judged in time."""


class Bench:
    """A folder with a shipment, where runs take place."""

    def __init__(self, shipment: Shipment, place: str) -> None:
        self.shipment, self.place = shipment, place
        self.folder = ""
        self.cases: dict[int, list[cases.Case]] = {}
        self.predicates: dict[str, predicates.Predicate] = {}
        self.observers = observed_runs.Observers("")
        self.images: dict[str, bytes] = {}  # that are in the folder of a run's own
        self.head: tuple[tuple[str, int], bytes] = (("", 0), b"")  # of a scenario's first epochs: their rows
        self.state_name = SWEPT_STATE
        self.last_read: tuple[str, scenarios.Scenario | None] = ("", None)
        # For the trace of a run and for what it is compared with. They stay open, as many runs are as short as that
        # takes.
        self.trace: io.FileIO
        self.output: io.FileIO
        self.files = contextlib.ExitStack()
        self.caller = calling.Caller()
        content = {**shipment.files, runs.PROOF_NAME: runs.PROOF_IMAGE.encode()}
        self.sums = {name: hashlib.sha256(content).digest() for name, content in content.items()}

    def close(self) -> None:
        """Closes what is open, once no run is asked for any more."""
        self.files.close()
        self.caller.close()

    def prove(self) -> str | None:
        """Unpacks what is not there, and runs a known scenario. None where it came out as it should, else why not."""
        try:
            self.unpack()
            self.write_scenario(self.folder, runs.PROOF_SCENARIO)
            ended = self.call(self.folder, ["run", SCENARIO], self.trace, runs.PROOF_SECONDS)
            self.trace.seek(0)
            found = hashlib.sha256(self.trace.read()).digest()
        except OSError as fault:
            return described(fault)
        except calling.TooLong:
            return f"the known scenario took more than {runs.PROOF_SECONDS} s"
        if ended.status:
            return f"the known scenario ended with status {ended.status}: {ended.said}".rstrip(": ")
        if found != hashlib.sha256(runs.PROOF_TRACE.encode()).digest():
            return "the known scenario came out otherwise than it should"
        return None

    def unpack(self) -> None:
        """Writes the files of the shipment that are not there, and opens anew those that a run writes to."""
        if not os.path.isdir(self.folder):
            self.folder = tempfile.mkdtemp(prefix="avrora-", dir=self.place)
            self.observers = observed_runs.Observers(self.folder)
        self.files.close()
        self.trace, self.output = (
            self.files.enter_context(open(f"{self.folder}/{name}", "w+b", buffering=0)) for name in (TRACE, OUTPUT)
        )
        self.images.clear()
        os.makedirs(f"{self.folder}/{OWN}", exist_ok=True)
        for name, content in [*self.shipment.files.items(), (runs.PROOF_NAME, runs.PROOF_IMAGE.encode())]:
            path = f"{self.folder}/{name}"
            if not os.path.exists(path) or os.path.getsize(path) != len(content):
                with named(path), open(path, "wb") as file:
                    file.write(content)
                os.chmod(path, 0o755 if name == PROGRAM else 0o644)

    def run_batch(self, jobs: Sequence[Job]) -> dict[str, Any]:
        """The answers to jobs, in order. To the first of them alone where the worker became sick, and then why; or
        where the batch takes long, as others may have nothing to do."""
        answers: list[Answer] = []
        sick = None
        begun = time.monotonic()
        places = itertools.count()

        def made_together(job: Job) -> tuple[object, ...]:
            return (job.scenario, job.check, job.moves[0]) if job.moves else (next(places),)

        for _, alike in itertools.groupby(jobs, made_together):
            group = list(alike)
            try:
                answers += self.swept(group) if group[0].moves else [self.run(group[0])]
            except Sick as fault:
                sick = str(fault)
                break
            if time.monotonic() - begun > runs.SECONDS_A_BATCH:
                break
        changed = self.changed()
        return {"answers": [] if changed else answers, "sick": changed or sick}

    def changed(self) -> str | None:
        """Which file of the shipment the disk has not as it was sent, in words, or None."""
        for name, expected in self.sums.items():
            try:
                with open(f"{self.folder}/{name}", "rb") as file:
                    found = hashlib.file_digest(file, "sha256").digest()
            except OSError as fault:
                return described(fault)
            if found != expected:
                return f"its disk has {name} otherwise than it was sent"
        return None

    def run(self, job: Job, rows: bytes | None = None) -> Answer:
        """Runs a job, or judges the rows that a process wrote for it beside others. Raises Sick where it is the worker
        that cannot."""
        start, used = time.monotonic(), self.caller.processor
        try:
            comparisons.empty(self.trace)
            place = self.folder_for(job)
            if rows is None:
                found = self.judged(job, place)
            else:
                self.trace.write(rows)
                found = self.checked_swept(job, place)
            if found["outcome"] in (FAILED, REFUSED) or job.images:
                self.confirm(job, place)
            keeps = self.shipment.traces
            if keeps == "all" or keeps == "failed" and found["outcome"] in (FAILED, BROKEN):
                found["trace"] = outputs.packed(self.trace, self.shipment.kinds)
        except OSError as fault:
            found = answer(BROKEN, described(fault), again=True, trouble=True)
        except ToolError as fault:  # of a case that the client has read
            found = answer(BROKEN, str(fault), again=True, trouble=True)
        except MemoryError:
            found = answer(BROKEN, "the worker is out of memory", again=True, trouble=True)
        if found["trouble"]:
            reason = self.changed() or self.prove()
            if reason:
                raise Sick(reason)
        found["seconds"] = round(time.monotonic() - start, 4)
        found["processor"] = round(self.caller.processor - used, 4)
        return found

    def swept(self, jobs: Sequence[Job]) -> list[Answer]:
        """Runs jobs that differ in their moves alone, by one process. Where that does not end well each is run by
        itself."""
        start, used = time.monotonic(), self.caller.processor
        try:
            rows = self.swept_rows(jobs)
        except (OSError, NoAnswer):
            rows = None
        if rows is None or len(rows) != len(jobs):
            return [self.by_itself(job) for job in jobs]
        share = (time.monotonic() - start) / len(jobs), (self.caller.processor - used) / len(jobs)
        answers = []
        for job, piece in zip(jobs, rows):
            found = self.run(job, piece)
            found["seconds"] = round(found["seconds"] + share[0], 4)
            found["processor"] = round(found["processor"] + share[1], 4)
            answers.append(found)
        return answers

    def swept_rows(self, jobs: Sequence[Job]) -> list[bytes] | None:
        """The rows of each of such jobs, behind those that all have; None where the simulator refuses something."""
        scenario, moves = jobs[0].scenario, jobs[0].moves
        assert moves is not None
        head = self.head_of(scenario, moves[0])
        if head is None:
            return None
        with named(f"{self.folder}/{MOVES}"), open(f"{self.folder}/{MOVES}", "w", encoding="ascii") as file:
            file.writelines(job.moves[1] for job in jobs if job.moves)
        comparisons.empty(self.output)
        status, _ = self.said_at_end(self.folder, ["sweep", SCENARIO, self.state_name, MOVES], self.output)
        if status:
            return None
        self.output.seek(0)
        pieces = outputs.swept_pieces(self.output.readall())
        return pieces and [head + piece for piece in pieces]

    def head_of(self, scenario: str, epochs: int) -> bytes | None:
        """The rows before the epoch in which the first byte arrives, and the state there, which stay for the jobs
        behind; None where the simulator refuses that."""
        if self.shipment.words[0] == "resume":  # the state is in the shipment
            self.write_scenario(self.folder, scenario)
            self.state_name = self.shipment.words[-1]
            return b""
        key = (scenario, epochs)
        if self.head[0] != key:
            self.write_scenario(self.folder, scenario)
            self.head = (("", 0), b"")
            with open(f"{self.folder}/{SWEPT_STATE}", "wb", buffering=0) as state:
                if self.said_at_end(self.folder, ["save", SCENARIO, str(epochs)], state)[0]:
                    return None
            comparisons.empty(self.output)
            if self.said_at_end(self.folder, ["head", SCENARIO, str(epochs)], self.output)[0]:
                return None
            self.output.seek(0)
            self.head = (key, self.output.readall())
        else:
            self.write_scenario(self.folder, scenario)
        self.state_name = SWEPT_STATE
        return self.head[1]

    def by_itself(self, job: Job) -> Answer:
        """Runs a job by a process of its own, with its moves as its scenario's input where that can say them."""
        moves = job.moves
        if moves and len(moves[1].split()) == WORDS_OF_ONE_STRETCH:
            return self.run(job._replace(scenario=with_moves(job.scenario, moves[1]), moves=None))
        try:
            rows = self.swept_rows([job])
        except NoAnswer as end:
            return end.answer
        if rows is None or len(rows) != 1:
            return answer(BROKEN, "the simulator refuses what arrives, or writes no whole trace", again=True)
        return self.run(job, rows[0])

    def checked_swept(self, job: Job, place: str) -> Answer:
        """What the checks say of rows that are in the trace already."""
        try:
            return self.checked(job, place)
        except NoAnswer as end:
            return end.answer

    def confirm(self, job: Job, place: str) -> None:
        """Raises Sick where the disk has not what the simulator was to read in this run."""
        images = job.images
        wanted = {SCENARIO: job.scenario.encode(errors="surrogateescape"), **images}
        for name, content in wanted.items():
            with named(f"{place}/{name}"), open(f"{place}/{name}", "rb") as file:
                if file.read(len(content) + 1) != content:
                    raise Sick(f"its disk has {name} otherwise than it was written")
        if not images:  # all that it read else is in the shipment, and compared with each batch
            reason = self.changed()
            if reason:
                raise Sick(reason)

    def folder_for(self, job: Job) -> str:
        """Where the simulator finds the images of a job, which it seeks from the folder that it works in."""
        images = job.images
        if not images:
            return self.folder
        place = f"{self.folder}/{OWN}"
        for name, content in images.items():
            if self.images.get(name) != content:
                self.images.pop(name, None)
                with named(f"{place}/{name}"), open(f"{place}/{name}", "wb") as file:
                    file.write(content)
                self.images[name] = content
        return place

    def write_scenario(self, place: str, text: str) -> None:
        with open(f"{place}/{SCENARIO}", "wb") as file:
            file.write(text.encode(errors="surrogateescape"))

    def call(self, place: str, words: Sequence[str], output: io.FileIO, seconds: float) -> calling.Ended:
        """Runs the simulator in a folder."""
        return self.caller.call(f"{self.folder}/{PROGRAM}", words, place, output, seconds)

    def said_at_end(self, place: str, words: Sequence[str], output: io.FileIO) -> tuple[int, str]:
        """The status of a call of the simulator, and what it said. Raises NoAnswer where that is nothing of the
        scenario's: where another call may come to something else."""
        try:
            status, said = self.call(place, words, output, self.shipment.timeout)
        except calling.TooLong:
            late = answer(BROKEN, f"took more than {self.shipment.timeout} s", again=True)
            raise NoAnswer({**late, "late": True}) from None
        trouble = status in WORKER_FAULTS
        if trouble or status < 0 or status in MEMORY_FAULTS:
            raise NoAnswer(answer(BROKEN, f"status {status}: {said}", again=True, trouble=trouble))
        return status, said

    def judged(self, job: Job, place: str) -> Answer:
        """What came of the simulator and of the checks."""
        self.write_scenario(place, job.scenario)
        try:
            status, said = self.said_at_end(place, self.shipment.words, self.trace)
            if status in REFUSALS:
                return answer(REFUSED, said)
            if status:
                return answer(BROKEN, f"status {status}: {said}")
            return self.checked(job, place)
        except NoAnswer as end:
            return end.answer

    def checked(self, job: Job, place: str) -> Answer:
        """Shows all cases the trace of a job, compares it in all ways, and gives it to the function; the first failure
        of each is told."""
        index, scenario = job.check, job.scenario
        check = self.shipment.checks[index]
        statuses: list[int] = []  # of the calls by which the run is compared

        def call(words: Sequence[str], output: io.FileIO) -> str | None:
            status, said = self.said_at_end(place, words, output)
            statuses.append(status)
            return f"status {status}: {said}" if status else None

        read = self.read(scenario)
        compares = comparisons.Place(place, SCENARIO, scenario, self.trace, self.output, call, read)
        if index not in self.cases:
            self.cases[index] = [self.case(shipped) for shipped in check.cases]
        window = range(*read.window) if read else None
        ends = Ends(read.cycles, len(read.images)) if read else None
        self.demand_whole(self.trace, ends, "its trace")
        failures = []
        for shipped, case in zip(check.cases, self.cases[index]):
            self.trace.seek(0)

            def unmet(shipped: ShippedCase = shipped, case: cases.Case = case) -> list[str]:
                return self.unmet_conditions(shipped, case, f"{place}/{SCENARIO}", scenario)

            try:
                failure = expectations.check(
                    case, cast(BinaryIO, self.trace), window=window, conditions=unmet if case.conditions else None
                ).failure
            except ToolError as fault:
                return answer(BROKEN, f"{shipped.path}: {observed_runs.named(str(fault), self.folder, shipped)}")
            if failure:
                for golden in shipped.goldens:
                    failure = failure.replace(f"{self.folder}/{golden.file}", golden.path)
                failures.append(failure)
        compared = {}
        for way in check.ways:
            statuses.clear()
            try:
                found = comparisons.WAYS[way](compares)
            except ToolError as fault:
                found = comparisons.Found(f"{way}: {fault}", 0)
            compared[way] = found.compared
            if statuses and not any(statuses):
                self.demand_whole(self.output, ends, f"what was compared by {way}")
            if found.difference:
                failures.append(found.difference)
        if check.code:
            try:
                said = self.predicate(check.code).failure(job.values, self.whole_trace())
            except ToolError as fault:
                return answer(BROKEN, str(fault).replace(f"{self.folder}/{check.code.file}", check.code.path))
            failures += [f"{check.code.path}: {said}"] * bool(said)
        judged = answer(FAILED if failures else PASSED, "\n".join(failures))
        judged["hash"], judged["counts"] = outputs.looked_through(self.trace)
        judged["compared"] = compared
        return judged

    def unmet_conditions(self, shipped: ShippedCase, case: cases.Case, path: str, text: str) -> list[str]:
        """What is not met of the conditions of a case over the run of the scenario in the file `path`, a text each.
        Raises NoAnswer where the simulator does not come to it."""
        scenario = scenarios.Scenario.of_text(text, "the scenario", os.path.dirname(path))
        late = Late(f"{shipped.path}: its conditions took more than {self.shipment.timeout} s")
        try:
            with deadlines.in_time(self.shipment.timeout, late):
                return list(self.observers.observer(shipped, case, scenario, path).failures())
        except CannotWork as fault:
            is_late = fault is late
            told = observed_runs.named(str(fault), self.folder, shipped)
            raise NoAnswer({**answer(BROKEN, told, again=True, trouble=not is_late), "late": is_late}) from None

    def read(self, text: str) -> scenarios.Scenario | None:
        """A scenario as the tools read it, once for runs that have the same one; None where the simulator is to say
        what is wrong."""
        if self.last_read[0] != text:
            found = None
            with contextlib.suppress(ToolError):
                found = scenarios.Scenario.of_text(text, "the scenario")
            self.last_read = text, found
        return self.last_read[1]

    def predicate(self, code: ShippedFile) -> predicates.Predicate:
        """The function of a file of the shipment, which is loaded once."""
        if code.file not in self.predicates:
            self.predicates[code.file] = predicates.Predicate(f"{self.folder}/{code.file}", self.shipment.timeout)
        return self.predicates[code.file]

    def whole_trace(self) -> bytes:
        self.trace.seek(0)
        return self.trace.readall()

    @staticmethod
    def demand_whole(output: io.FileIO, ends: "Ends | None", what: str) -> None:
        """Raises NoAnswer where an output has not the end rows: the worker lost a part of it."""
        if not outputs.is_whole(output, ends):
            message = f"{what} is not whole: the rows of its end are not there"
            raise NoAnswer(answer(BROKEN, message, again=True, trouble=True))

    def case(self, shipped: ShippedCase) -> cases.Case:
        """A case of the shipment, by the names that its reader knows."""
        case = cases.read_case(f"{self.folder}/{shipped.file}")
        goldens = iter(shipped.goldens)
        statements = [
            statement._replace(path=f"{self.folder}/{next(goldens).file}")
            if isinstance(statement, cases.Golden)
            else statement
            for statement in case.statements
        ]
        # No `debug:` line: files of the shipment are gone with the campaign, and the scenario is none of the user's.
        return case._replace(path=shipped.path, statements=statements, source=None)


def with_moves(scenario: str, line: str) -> str:
    """A scenario in which what a line of moves says arrives at its node. The line has one stretch."""
    node, at, every, digits = line.split()
    table = f"[[input]]\nnode = {node}\nat = {at}\nevery = {every}\nhex = \"{digits}\"\n"
    parts = re.split(r"(?m)^(?=\[\[)", scenario)
    kept = [part for part in parts if not (part.startswith("[[input]]") and re.search(rf"(?m)^node = {node}$", part))]
    return "".join([*kept, "\n", table])


@contextlib.contextmanager
def named(path: str) -> Iterator[None]:
    """An OSError in the block that names no file names this one: writing to it failed."""
    try:
        yield
    except OSError as fault:
        raise OSError(fault.errno, fault.strerror, fault.filename or path) from None


def described(fault: OSError) -> str:
    return f"{fault.filename}: {fault.strerror}" if fault.filename else str(fault.strerror or fault)
