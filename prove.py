#!/usr/bin/env python3
"""Proves a program of this repository and every crate below it, as many side by side as there are processors and
memory, and builds it. `./avrora` calls it where a file changed since it was called last (scripts/proving/seen.py).

    prove.py PROGRAM ROOM

leaves the program at ROOM/PROGRAM. It keeps what is proved of a crate in ROOM too, until the kit, a source of the crate, or a library
below it changes. So a change that leaves the library of its crate as it was (a comment, a proof) ends there. It builds a program again
that is not the one that was built here (emptied, cut off, replaced). Exit status: 0 the program is there, 1 a crate was not
proved or built, 2 bad words, 128 and its number after a signal, which ends the checks too.

    prove.py --adopt FILE ROOM

puts FILE, the program of a release of this commit, at ROOM/avrora_program: it stands in for one that is proved here, until the
commit or a source changes. Exit status: 0 it is there, 1 it is not that of such a release.

Each crate is proved by one `rattle build` of the kit, over the statements of the crates below it; that ends well only for a
crate that is proved. The gate, `rt ci`, proves them so too, and does more: it takes nothing that was kept, looks for
contracts that no call can meet, tries the must-fail edits, and runs the programs as two compilers build them.
"""
import fcntl
import os
import re
import shutil
import signal
import subprocess
import sys
import time

TOP = os.path.dirname(os.path.realpath(__file__))

sys.path.insert(0, f"{TOP}/scripts")

import proved  # noqa: E402  pylint: disable=wrong-import-position
from proving import crates as of_crates, faults  # noqa: E402  pylint: disable=wrong-import-position
from proving.crates import Kit, NotProved, names_below  # noqa: E402  pylint: disable=wrong-import-position
from proving.room import Room, adopted_mark, read_record  # noqa: E402  pylint: disable=wrong-import-position

# How many processor seconds the check of each crate took when it was last measured, a line each; scripts/seconds.py writes it.
SECONDS = f"{TOP}/bench/seconds.txt"

# The most memory that a check here was seen to take, in bytes.
MEMORY_OF_A_CHECK = 2_500_000_000

# How many forked copies may share a check: with more it gets no faster.
MOST_COPIES = 4

# The program that a release has.
RELEASED = "avrora_program"

class KitThatProved:
    """What is known of a kit that is not on the PATH any more, by what was proved with it."""

    def __init__(self, identity):
        self.identity = identity


class Signalled(BaseException):
    """A signal that is to end this."""

    def __init__(self, number):
        super().__init__(number)
        self.number = number


def crates_below(program):
    """The program and the crates below it by name, each behind those that it uses."""
    return of_crates.crates_below(program, TOP)


def given(room, crate, copies):
    """What rattle is given to check a crate, by so many copies of itself."""
    kit = room.kit.folder
    words = ["--crate-name", crate.name, f"src/{'main' if crate.is_program else 'lib'}.rt"]
    for used in ["std", *crate.uses]:
        words += ["--extern", f"{used}={room.made(room.crates[used]) if used in room.crates else room.kit.library(used)}"]
    words += ["-L", f"dependency={kit}/rlibs", "-L", f"dependency={room.folder}"]
    words += ["--antt-project", f"{kit}/rattle/logic/antt-project.json", "--logic-built", f"{kit}/logic_built"]
    return [*words, "--links", f"{crate.name}=", "--jobs", str(copies)]


def check_words(room, crate, copies):
    """The command that proves a crate and writes its library, or the object file of a program."""
    kit = room.kit.folder
    words = [f"{kit}/bin/rattle", "build", *given(room, crate, copies)]
    if crate.is_program:
        return [*words, "--toolchain", f"{kit}/toolchain", "--backend", "llvm", "-o", f"{room.made(crate)}.o"]
    return [*words, "--statements", "-o", room.made(crate)]


def link_words(room, crate):
    kit = room.kit.folder
    words = [f"{kit}/bin/rattle-link", "--target", "x86_64-unknown-linux-gnu", "--toolchain", f"{kit}/toolchain"]
    return [*words, "-o", room.made(crate), f"{room.made(crate)}.o", f"{kit}/c/libos_c.a", f"{kit}/c/liblibc_c.a"]


class Check:
    """The check of a crate that runs."""

    def __init__(self, room, crate, copies):
        self.room, self.crate = room, crate
        self.began = time.monotonic()
        self.seconds = 0.0
        room.clear(crate)
        self.marks = room.marks(crate)
        room.look_again(crate)
        with open(room.log(crate), "wb") as said:
            self.process = self.start(check_words(room, crate, copies), said)

    def start(self, words, said):
        # a process group of its own, so that its copies end with it
        return subprocess.Popen(words, cwd=self.crate.folder, stdin=subprocess.DEVNULL, stdout=said, stderr=subprocess.STDOUT, preexec_fn=os.setpgrp)

    def kill(self):
        """Ends it, with all copies of it."""
        try:
            os.killpg(self.process.pid, signal.SIGKILL)
        except ProcessLookupError:
            pass
        self.process.wait()

    def ended(self):
        """Whether it ended. Then it is known how many processor seconds it took, with its copies."""
        if self.process.returncode is None:
            pid, status, used = os.wait4(self.process.pid, os.WNOHANG)
            if pid:
                self.process.returncode = os.waitstatus_to_exitcode(status)
                self.seconds = used.ru_utime + used.ru_stime
        return self.process.returncode is not None

    def finish(self):
        """Keeps what an ended check proved, or says that it proved nothing."""
        with open(self.room.log(self.crate), "a+", encoding="utf-8", errors="replace") as said:
            well = self.process.returncode == 0
            if well and self.crate.is_program:
                well = self.start(link_words(self.room, self.crate), said).wait() == 0
            said.seek(0)
            text = said.read()
        name = self.crate.name
        if not well or not re.search(r"^logic=proved ", text, re.M):
            told = faults.told(name, TOP, text)
            raise NotProved(f"{name} was not proved; {self.room.log(self.crate)} has all that was said of it", "\n".join(told))
        if self.room.marks(self.crate) != self.marks:
            raise NotProved(f"crates/{name}: a source was changed while it was proved, so nothing of it is kept: do the same once more")
        self.room.keep(self.crate, self.seconds)


def measured_seconds():
    """What bench/seconds.txt says; nothing where it is not there."""
    try:
        with open(SECONDS, encoding="utf-8") as it:
            return {name: float(seconds) for name, seconds in map(str.split, it)}
    except OSError:
        return {}


class Order:
    """In which order crates are proved, and by how many copies each."""

    def __init__(self, crates):
        self.crates = crates
        measured = measured_seconds()
        self.works = {it.name: measured.get(it.name) or it.likely_seconds() for it in crates.values()}
        self.above = {name: set() for name in crates}
        # the work from a crate up to the program: what it holds up
        self.ways = {}
        for crate in reversed(crates.values()):
            users = [it.name for it in crates.values() if crate.name in it.uses]
            self.above[crate.name] = set(users).union(*(self.above[it] for it in users))
            self.ways[crate.name] = self.works[crate.name] + max((self.ways[it] for it in users), default=0)

    def left(self, undone, running):
        """How many seconds of work each crate that is not done still is."""
        left = {name: self.works[name] for name in undone}
        for check in running:
            left[check.crate.name] = max(0.0, self.works[check.crate.name] - (time.monotonic() - check.began))
        return left

    def seconds_left(self, undone, running, lanes):
        """How long all of it takes at least: the longest way up to the program, or the work of each processor."""
        left, ends = self.left(undone, running), {}
        for name, crate in self.crates.items():
            if name in undone:
                ends[name] = left[name] + max((ends[it] for it in crate.uses if it in ends), default=0.0)
        return max([sum(left.values()) / lanes, *ends.values()])

    def copies(self, crate, undone, running, lanes):
        """How many copies share the check of a crate: the processors that no other crate can use while it lasts."""
        if crate.is_program:
            return 1  # it has one function, and most of its time goes into what is done in one piece
        work = self.works[crate.name]
        left = self.left(undone, running)
        starts = {}

        def starts_in(name):
            """In how many seconds a crate can begin at the earliest."""
            if name not in starts:
                starts[name] = max((starts_in(it) + left[it] for it in self.crates[name].uses if it in undone), default=0.0)
            return starts[name]

        beside = [it for it in undone if it != crate.name and it not in self.above[crate.name]]
        taken = sum(max(0.0, min(left[it], work - starts_in(it))) / work for it in beside)
        return max(1, min(MOST_COPIES, lanes, round(lanes - taken)))


def lanes_here():
    """How many checks may run at once: one a processor, as far as memory goes."""
    with open("/proc/meminfo", encoding="utf-8") as it:
        free = next((1024 * int(line.split()[1]) for line in it if line.startswith("MemAvailable:")), MEMORY_OF_A_CHECK)
    return max(1, min(len(os.sched_getaffinity(0)), free // MEMORY_OF_A_CHECK))


class Progress:
    """Tells how far the proving is: over the same line where somebody looks, else in a line for each crate that is done."""

    # So many seconds of the work are to be done before the time that they took says how fast this machine is.
    SURE = 60

    def __init__(self, order, undone, of_all, lanes):
        self.order, self.of_all, self.lanes = order, of_all, lanes
        self.began, self.whole = time.monotonic(), order.seconds_left(undone, [], lanes)

    def minutes_left(self, undone, running):
        left = self.order.seconds_left(undone, running, self.lanes)
        done, took = self.whole - left, time.monotonic() - self.began
        pace = took / done if done >= self.SURE else 1.0
        return round(left * pace / 60)

    def tell(self, undone, running, ended=None):
        """`ended` is the check that has just ended, if one has."""
        is_looked_at, done = sys.stderr.isatty(), self.of_all - len(undone)
        if not is_looked_at and ended is None:
            return
        minutes = self.minutes_left(undone, running)
        left = "" if not undone else f", about {minutes} min left" if minutes > 1 else ", about a minute left"
        name = f" ({ended.crate.name})" if ended and not is_looked_at else ""
        ends = "\r" if is_looked_at and undone else "\n"
        print(f"avrora: {done} of {self.of_all} crates are proved{name}{left}".ljust(76 if is_looked_at else 0), end=ends, file=sys.stderr, flush=True)

    def tell_as_before(self, count):
        """Tells that crates needed not be proved again."""
        said = f"avrora: {self.of_all} of {self.of_all} crates are proved, {count} of them over the same libraries as before"
        print(said.ljust(76 if sys.stderr.isatty() else 0), file=sys.stderr, flush=True)


def prove(room, names):
    """Proves each of these crates that is not kept, once those below it are; first what holds up the most. One over libraries that
    came out as they were is kept."""
    crates, order, lanes = room.crates, Order(room.crates), lanes_here()
    undone = {it for it in names if not room.is_kept(crates[it])}
    waiting = sorted(undone, key=lambda it: -order.ways[it])
    running, kept = [], 0
    progress = Progress(order, undone, len(names), lanes)
    try:
        while undone:
            ready = [it for it in waiting if not undone.intersection(names_below(crates[it], crates))]
            if as_before := [it for it in ready if room.is_kept(crates[it])]:
                # what was proved below them gave the libraries that they were made over
                waiting = [it for it in waiting if it not in as_before]
                undone.difference_update(as_before)
                kept += len(as_before)
                continue
            for name in ready[: lanes - len(running)]:
                waiting.remove(name)
                running.append(Check(room, crates[name], order.copies(crates[name], undone, running, lanes)))
            progress.tell(undone, running)
            time.sleep(0.1)
            for check in [it for it in running if it.ended()]:
                running.remove(check)
                check.finish()
                undone.remove(check.crate.name)
                progress.tell(undone, running, check)
        if kept:
            progress.tell_as_before(kept)
    finally:
        for check in running:
            check.kill()


def end_by_signals(handler):
    for number in (signal.SIGHUP, signal.SIGINT, signal.SIGTERM):
        signal.signal(number, handler)


def raise_signalled(number, _frame):
    end_by_signals(signal.SIG_IGN)  # the checks are ended in peace
    raise Signalled(number)


def is_adopted(folder, program):
    """Whether the program was adopted, and still is one of this commit; where it no longer is, that is said."""
    if not os.path.exists(adopted_mark(folder, program)):
        return False
    try:
        proved.checked(f"{folder}/{program}")
    except proved.NotFit as why:
        print(f"avrora: the program that was adopted is not used: {why}", file=sys.stderr)
        return False
    return True


def kit_for(folder, program):
    """The kit on the PATH; where there is none, what is known of the one that proved the program there."""
    try:
        return Kit()
    except NotProved:
        record = read_record(f"{folder}/{program}.sum")
        if record is None or shutil.which("rt"):
            raise
        return KitThatProved(record.kit)


def is_proved_here(folder):
    """Whether the released program lies there because it was proved here of these sources."""
    try:
        room = Room(folder, kit_for(folder, RELEASED), crates_below(RELEASED))
    except NotProved:
        return False
    return room.is_kept(room.crates[RELEASED])


def is_there(room, program):
    """Whether the program lies there, proved and built of what stands here; then the next call sees that by less."""
    crate = room.crates[program]
    if room.is_kept(crate):
        kit_id = [f"{room.kit.folder}/KIT-ID"] if isinstance(room.kit, Kit) else []
        room.note_seen([f"{TOP}/crates.txt", *kit_id])
        return True
    if room.is_spoilt(crate):
        print(f"avrora: {room.made(crate)} is not what was built here: it was emptied, cut off or replaced; it is built again", file=sys.stderr)
    return False


def make(program, folder):
    """Has the program lie in the folder."""
    room = Room(folder, kit_for(folder, program), crates_below(program), program)
    if is_there(room, program):
        return
    if not isinstance(room.kit, Kit):
        raise NotProved(of_crates.NO_KIT)
    os.makedirs(folder, exist_ok=True)
    with open(f"{folder}/lock", "w", encoding="utf-8") as lock:
        # Two calls at once: the second one waits, and finds the program.
        fcntl.flock(lock, fcntl.LOCK_EX)
        room = Room(folder, room.kit, room.crates, program)
        if not is_there(room, program):
            print("avrora: proving and building the program; the first time takes minutes", file=sys.stderr)
            prove(room, list(room.crates))
            is_there(room, program)
            print(f"avrora: the program lies at {room.made(room.crates[program])}", file=sys.stderr)


def adopt(program, folder):
    """Takes the program of a release of this commit in place of one that is proved here; the exit status."""
    try:
        said = proved.checked(program)
        mark = proved.with_program(program)
    except proved.NotFit as why:
        print(f"avrora: {why}", file=sys.stderr)
        return 1
    os.makedirs(folder, exist_ok=True)
    with open(f"{folder}/lock", "w", encoding="utf-8") as lock:
        fcntl.flock(lock, fcntl.LOCK_EX)
        if is_proved_here(folder) or os.path.realpath(program) == f"{folder}/{RELEASED}":
            print("avrora: nothing is adopted: the program is there already", file=sys.stderr)
            return 0
        for path in (f"{folder}/{RELEASED}.sum", f"{folder}/{RELEASED}"):
            if os.path.lexists(path):
                os.remove(path)
        # the mark comes last: a program without one is not used
        shutil.copy(program, f"{folder}/{RELEASED}")
        shutil.copyfile(mark, adopted_mark(folder, RELEASED))
    print(f"avrora: adopted: {program} of release {said.release}; of commit {said.commit}, proved elsewhere, with {said.kit_line()}; the gate there: {said.gate}", file=sys.stderr)
    return 0


def main(words):
    end_by_signals(raise_signalled)
    if len(words) == 3 and words[0] == "--adopt":
        return adopt(words[1], os.path.realpath(words[2]))
    if len(words) != 2:
        print("usage: prove.py PROGRAM ROOM, or prove.py --adopt FILE ROOM", file=sys.stderr)
        return 2
    program, folder = words[0], os.path.realpath(words[1])
    try:
        if not is_adopted(folder, program):
            make(program, folder)
    except NotProved as it:
        for line in [*it.said.splitlines(), f"avrora: {it}"]:
            print(line, file=sys.stderr)
        return 1
    except Signalled as it:
        return 128 + it.number
    return 0


if __name__ == "__main__":
    if sys.argv[1:2] in (["--help"], ["-h"]):
        sys.exit(print(__doc__))
    sys.exit(main(sys.argv[1:]))
