"""What an operator sees of a campaign at work: a line of progress, a log with times and hosts, and counts of each
worker in a file that Prometheus' node exporter reads."""
import collections
import contextlib
import dataclasses
import os
import re
import sys
import time
from collections.abc import Iterator, Mapping
from typing import IO

from avrora_tools import runs, terminal
from avrora_tools.files import printable

MOST_TOLD = 50  # runs that are not passed, as they come; the others are told at the end alone
MESSAGE_LINES = 4  # of one that is told: a difference stands in the lines behind the first
SECONDS_A_LINE = 60.0  # of progress where no terminal shows it
SECONDS_A_LOOK = 0.5  # of progress on a terminal
SECONDS_OF_RATE = 60.0  # by which it is reckoned when the campaign ends

LOG, COUNTS = "campaign.log", "campaign.prom"
SECONDS_A_COUNT = 15.0  # between two writes of the counts


@dataclasses.dataclass
class Tally:
    """What a worker did in this sitting."""

    since: float
    runs: int = 0  # that came to an answer of some kind
    troubles: int = 0  # that came to none by the worker's fault
    timeouts: int = 0  # that took longer than they may
    blamed: int = 0  # that came to no answer here, and to one elsewhere
    confirmed: int = 0  # in which another worker came to the same
    differing: int = 0  # in which others came to something else
    aside: str = ""  # why it gets nothing any more


class Log:
    """A file with a line for each thing that happens, with its time. Lines are added to it, sitting by sitting."""

    def __init__(self, file: IO[str] | None = None) -> None:
        self.file = file

    def note(self, text: str) -> None:
        if self.file:
            when = time.strftime("%Y-%m-%dT%H:%M:%SZ", time.gmtime())
            self.file.write(f"{when} {printable(text)}\n")
            self.file.flush()


class Progress:
    """What is told as it happens: a line on a terminal that is written anew; without one, a line a minute. Runs that
    are not passed, and workers that are set aside, are told at once; these and all else stand in the log."""

    def __init__(self, total: int, log: Log | None = None) -> None:
        self.total, self.kept = total, 0
        self.log = log or Log()
        self.outcomes: collections.Counter[str] = collections.Counter()
        self.done = self.again = self.told = 0
        self.start = time.monotonic()
        self.is_terminal = os.isatty(2)
        self.next = self.start + (0 if self.is_terminal else SECONDS_A_LINE)
        self.marks: collections.deque[tuple[float, int]] = collections.deque([(self.start, 0)])

    def count(self, outcome: str, by: int = 1) -> None:
        self.outcomes[outcome] += by
        self.done += by
        if by < 0:  # results were dropped: the rate begins anew
            self.marks = collections.deque([(time.monotonic(), self.done)])

    @property
    def left(self) -> int:
        """How many runs have no result."""
        return self.total - self.kept - self.done

    def seconds_to_go(self) -> float | None:
        """By the rate of the last minute."""
        now = time.monotonic()
        if now - self.marks[-1][0] >= 1.0:
            self.marks.append((now, self.done))
            while len(self.marks) > 2 and now - self.marks[1][0] > SECONDS_OF_RATE:
                self.marks.popleft()
        then, done = self.marks[0]
        return self.left * (now - then) / (self.done - done) if self.done > done else None

    def text(self, under_way: int, workers: int) -> str:
        seconds = time.monotonic() - self.start
        parts = [f"{count} {outcome}" for outcome, count in self.outcomes.items() if count]
        parts += [f"{self.kept} kept"] * bool(self.kept) + [f"{self.again} begun again"] * bool(self.again)
        parts += [f"{under_way} under way with {workers} workers", f"{seconds:.0f} s"]
        to_go = self.seconds_to_go()
        if to_go is not None and self.left:
            end = time.localtime(time.time() + to_go)
            day = "" if to_go < 12 * 3600 else time.strftime("%Y-%m-%d ", end)
            parts.append(f"{to_go:.0f} s to go, until about {day}{time.strftime('%H:%M', end)}")
        return f"{self.kept + self.done} of {self.total}: {', '.join(parts)}"

    def tell(self, under_way: int, workers: int) -> None:
        now = time.monotonic()
        if now < self.next:
            return
        text = self.text(under_way, workers)
        if self.is_terminal:
            self.next = now + SECONDS_A_LOOK
            sys.stderr.write(f"\r{text}\x1b[K")
            sys.stderr.flush()
        else:
            self.next = now + SECONDS_A_LINE
            terminal.say(text)

    def say(self, text: str) -> None:
        """Tells the user, and the log."""
        self.note(text)
        self.end()
        terminal.say(text)

    def note(self, text: str) -> None:
        """Tells the log alone."""
        self.log.note(text)

    def not_passed(self, name: str, answer: runs.Answer, host: str) -> None:
        self.told += 1
        lines = [printable(line) for line in str(answer["message"]).splitlines()[:MESSAGE_LINES]] or [""]
        first = f"{answer['outcome']}: {printable(name)} (on {printable(host)}): {lines[0]}"
        self.note(first)
        if self.told <= MOST_TOLD:
            self.end()
            terminal.say("\n    ".join([first, *lines[1:]]))
        elif self.told == MOST_TOLD + 1:
            self.say("further runs that are not passed are told at the end, and by --report")

    def end(self) -> None:
        if self.is_terminal:
            sys.stderr.write("\r\x1b[K")
            sys.stderr.flush()


@contextlib.contextmanager
def logging_to(folder: int) -> Iterator[Log]:
    """The log in a folder, which is given by its descriptor; a link there is not followed."""
    handle = os.open(LOG, os.O_WRONLY | os.O_APPEND | os.O_CREAT | os.O_NOFOLLOW, 0o666, dir_fd=folder)
    with open(handle, "w", encoding="utf-8", errors="backslashreplace") as file:
        yield Log(file)


# By the name of a number of a worker: what it is.
NUMBERS = {
    "runs": "Runs that came to an answer.",
    "troubles": "Runs that came to none by a fault of the worker.",
    "timeouts": "Runs that took longer than they may.",
    "blamed": "Runs that came to no answer here and to one elsewhere.",
    "confirmed": "Runs in which another worker came to the same.",
    "differing": "Runs in which others came to something else.",
}


def metrics(name: str, progress: Progress, tallies: Mapping[str, Tally], now: float, is_running: bool) -> str:
    """The counts in Prometheus' text format."""
    campaign = f'campaign="{label(name)}"'
    lines = []

    def family(metric: str, kind: str, what: str) -> None:
        lines.extend([f"# HELP avrora_campaign_{metric} {what}", f"# TYPE avrora_campaign_{metric} {kind}"])

    family("results", "gauge", "Results of this sitting by outcome, and those that were there before.")
    for outcome, count in {**dict.fromkeys(runs.OUTCOMES, 0), **progress.outcomes, "kept": progress.kept}.items():
        lines.append(f'avrora_campaign_results{{{campaign},outcome="{outcome}"}} {count}')
    family("running", "gauge", "1 while the campaign is at work, 0 once it has ended by itself.")
    lines.append(f"avrora_campaign_running{{{campaign}}} {int(is_running)}")
    family("wanted", "gauge", "Runs of the campaign in all.")
    lines.append(f"avrora_campaign_wanted{{{campaign}}} {progress.total}")
    for number, what in NUMBERS.items():
        family(f"worker_{number}_total", "counter", what)
        for worker, tally in tallies.items():
            words = f'{campaign},worker="{label(worker)}"'
            lines.append(f"avrora_campaign_worker_{number}_total{{{words}}} {getattr(tally, number)}")
    family("worker_rate", "gauge", "Runs a second since the worker proved itself.")
    family_of_aside = []
    for worker, tally in tallies.items():
        words = f'{campaign},worker="{label(worker)}"'
        lines.append(f"avrora_campaign_worker_rate{{{words}}} {tally.runs / max(1e-3, now - tally.since):.4f}")
        family_of_aside.append(f"avrora_campaign_worker_set_aside{{{words}}} {int(bool(tally.aside))}")
    family("worker_set_aside", "gauge", "1 where the worker gets nothing any more.")
    return "\n".join([*lines, *family_of_aside]) + "\n"


def label(text: str) -> str:
    """A text as the value of a label."""
    return re.sub(r'([\\"])', r"\\\1", printable(text).replace("\\", "/"))
