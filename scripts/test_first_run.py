#!/usr/bin/env python3
"""Tests of `./avrora` and prove.py over a kit that proves nothing and three crates that say nothing: what they write while they
prove, what a signal ends, and what stands below the program's line on a terminal.

    scripts/test_first_run.py
"""
import contextlib
import os
import pty
import re
import shutil
import signal
import subprocess
import sys
import tempfile
import time
import unittest
from pathlib import Path
from unittest import mock

import fake_kit
from gating import suites
from proving import crates, room

TOP = Path(__file__).resolve().parent.parent

# Seconds that nothing takes but what hangs: a busy machine is not a failure.
LONG = 600

# The signals that end `./avrora` and all that it started.
SIGNALS = (signal.SIGTERM, signal.SIGINT, signal.SIGHUP)

# What `./avrora` is a script for.
NEEDS = ("bash", "awk", "python3")


def heed_signals():
    """Has a process heed signals which one that runs in the background is born to ignore."""
    for number in SIGNALS:
        signal.signal(number, signal.SIG_DFL)


class OfARepository(unittest.TestCase):
    """Has a repository of its own, in which nothing is proved yet."""

    def setUp(self):
        self.place = tempfile.TemporaryDirectory()
        self.addCleanup(self.place.cleanup)
        self.addCleanup(self.end_all)
        self.top = Path(self.place.name).resolve() / "repository"
        kit = self.top.parent / "kit"
        fake_kit.write_kit(kit)
        fake_kit.write_crates(self.top)
        # a function, as the place of a fault names it
        self.write("crates/middle/src/lib.rt", "fn half() {}\n")
        for folder in ("docs", "scripts"):
            (self.top / folder).mkdir()
        for path in ("avrora", "prove.py", "docs/FORMATS.md", "scripts/launcher.sh", "scripts/proved.py"):
            shutil.copy2(TOP / path, self.top / path)
        shutil.copytree(TOP / "scripts/proving", self.top / "scripts/proving", ignore=shutil.ignore_patterns("__pycache__"))
        self.environment = fake_kit.environment(kit)
        self.started = []

    def write(self, path, text):
        (self.top / path).write_text(text, encoding="utf-8")

    def end_all(self):
        """Ends what a test that failed left behind."""
        for run in self.started:
            run.kill()
        for pid, _ in self.left():
            with contextlib.suppress(ProcessLookupError):
                os.kill(int(pid), signal.SIGKILL)
        for run in self.started:
            run.communicate()

    def start(self, *words, **more):
        environment = {**self.environment, **more.pop("fake", {})}
        given = {"stdin": subprocess.DEVNULL, "stdout": subprocess.PIPE, "stderr": subprocess.PIPE, "text": True, **more}
        run = subprocess.Popen([str(self.top / "avrora"), *words], cwd=self.top, env=environment, preexec_fn=heed_signals, **given)
        self.started.append(run)
        return run

    def ended(self, *words, given=None, **fake):
        more = {"stdin": subprocess.PIPE} if given is not None else {}
        run = self.start(*words, fake=fake, **more)
        out, err = run.communicate(given, timeout=LONG)
        return run.returncode, out, err

    def left(self):
        """The processes of the fake kit and its program that run."""
        found = []
        for pid in filter(str.isdigit, os.listdir("/proc")):
            try:
                words = Path(f"/proc/{pid}/cmdline").read_bytes().decode(errors="replace")
            except OSError:
                continue
            if any(it in words for it in (f"{self.top.parent}/kit/bin/rattle", f"{self.top}/crates", f"{self.top}/prove.py")):
                found.append((pid, words))
        return found

    def until(self, holds):
        end = time.monotonic() + LONG
        while time.monotonic() < end:
            if holds():
                return
            time.sleep(0.05)
        self.fail("it did not come to that")


class FirstRun(OfARepository):
    def test_no_words_prove_nothing(self):
        for words, told in (([], "a command is missing"), (["-C"], "-C: DIR is missing"), (["-C", "docs"], "a command is missing"), (["--adopt"], "--adopt takes one FILE")):
            status, out, err = self.ended(*words)
            self.assertEqual((status, out), (2, ""))
            self.assertTrue(err.startswith("avrora: bad command line\nUsage: "))
            self.assertEqual(err.splitlines()[-1], f"({told})")
        self.assertFalse((self.top / "crates/avrora_program/out").exists())

    def test_a_line_for_each_crate(self):
        status, out, err = self.ended("run", "x y", given="what comes in")
        self.assertEqual((status, out), (0, "run x y in repository\nwhat comes in"))
        self.assertEqual([it.split(",")[0] for it in err.splitlines()[1:-1]], [
            "avrora: 1 of 3 crates are proved (low)",
            "avrora: 2 of 3 crates are proved (middle)",
            "avrora: 3 of 3 crates are proved (avrora_program)",
        ])
        self.assertIn("left", err.splitlines()[1])
        self.assertEqual(self.ended("run", "x"), (0, "run x in repository\n", ""))

    def test_another_folder(self):
        self.ended("run")
        self.assertEqual(self.ended("-C", "docs", "run", "x"), (0, "run x in docs\n", ""))
        self.assertEqual(self.ended("-C", "crates", "-C", "low", "run"), (0, "run in low\n", ""))
        self.assertEqual(self.ended("-C", "nowhere", "run"), (3, "", "avrora: cannot read nowhere\n"))

    def test_no_other_folder(self):
        """Neither CDPATH nor `-` leads elsewhere, and no path is written before the trace."""
        self.ended("run")
        for folder in ("elsewhere/docs", "-"):
            (self.top / folder).mkdir(parents=True)
        lead = {"CDPATH": str(self.top / "elsewhere"), "OLDPWD": str(self.top / "docs")}
        self.assertEqual(self.ended("-C", "docs", "run", "x", **lead), (0, "run x in docs\n", ""))
        (self.top / "docs").rename(self.top / "papers")
        self.assertEqual(self.ended("-C", "docs", "run", "x", **lead), (3, "", "avrora: cannot read docs\n"))
        self.assertEqual(self.ended("-C", "-", "run", "x", **lead), (0, "run x in -\n", ""))

    def test_a_crate_that_is_not_proved(self):
        """What is told begins with the place from the top and the function, and how to go on."""
        status, out, err = self.ended("run", FAKE_FAULT="middle")
        self.assertEqual((status, out), (10, ""))
        at = err.splitlines().index("avrora: crates/middle/src/lib.rt:1:1: in `middle::half`: it is not proved that what the function ensures holds")
        self.assertEqual(err.splitlines()[at + 1 : -1], [
            "avrora: to go on from there: scripts/seed.py . && cd crates/middle && rt check",
            "note: crates/middle/src/lib.rt:1:1: it is not proved that what the function ensures holds",
            "fn middle::half: no proof: expected answers in crates/middle/proofs/half/Answers.antt",
            "error: an open goal",
        ])  # fmt: skip
        self.assertTrue(err.splitlines()[-1].startswith("avrora: middle was not proved; "))
        self.assertEqual(self.ended("run")[0], 0)

    def test_signals_end_the_checks(self):
        for number in SIGNALS:
            run = self.start("run", fake={"FAKE_SECONDS": "3600"})
            self.until(lambda: any("rattle-copy" in it for _, it in self.left()))
            run.send_signal(number)
            run.communicate(timeout=LONG)
            self.assertEqual(run.returncode, 128 + number)
            self.until(lambda: not self.left())

    def test_a_signal_ends_the_program(self):
        self.ended("run")
        run = self.start("long")
        self.until(lambda: any("-long" in it for _, it in self.left()))
        run.terminate()
        run.communicate(timeout=LONG)
        self.assertEqual(run.returncode, 143)
        self.until(lambda: not self.left())

    def test_stacks_of_threads_are_kept(self):
        """Unless the user says what the C library does, or the address space has an end."""
        self.environment.pop("GLIBC_TUNABLES", None)
        self.assertEqual(self.ended("stacks")[:2], (0, f"glibc.pthread.stack_cache_size={2**30}\n"))
        own = "glibc.malloc.arena_max=1"
        self.assertEqual(self.ended("stacks", GLIBC_TUNABLES=own)[:2], (0, f"{own}\n"))
        self.assertEqual(self.ended("stacks", GLIBC_TUNABLES="")[:2], (0, "\n"))
        script = f"ulimit -v {2**22} && exec ./avrora stacks"
        run = subprocess.run(["bash", "-c", script], cwd=self.top, env=self.environment, stdin=subprocess.DEVNULL, capture_output=True, text=True, check=False)
        self.assertEqual((run.returncode, run.stdout), (0, "\n"))

    def test_what_stands_below_the_line(self):
        self.ended("run")
        self.assertEqual(self.ended("refused"), (5, "", "avrora: a.hex: image refused: NoEnd\n"))
        status, out, err = self.ended("bad")
        self.assertEqual((status, out), (2, ""))
        self.assertTrue(err.startswith("avrora: bad command line\nUsage: "))
        self.assertEqual(err.splitlines().count("avrora: bad command line"), 1)

    def test_what_is_wrong_with_a_word_is_told(self):
        """A word of a bad command line that is not a command, no number as FORMATS.md has it, or no name of a file; or one too many or too few."""
        most = "this must be a number from 0 to 1099511627776, of at most 13 digits"
        for words, told in (
            ("monitor a 0 7_372_800", "'7_372_800': write a number in digits alone: 7372800"),
            ("monitor a 7,372,800 9", "'7,372,800': write a number in digits alone: 7372800"),
            ("look a 7.372.800", "'7.372.800': write a number in digits alone: 7372800"),
            ("monitor a 0 0x10", "'0x10': write a number in decimal digits alone"),
            ("monitor a +1 5", "'+1': a number takes no sign"),
            ("make -1", "'-1': a number takes no sign"),
            ("node a 1e6", "'1e6': this is not a number"),
            ("node a _", "'_': this is not a number"),
            ("monitor a 9 08", "'08': TO is below FROM, which is 9"),
            ("monitor a 0 1099511627777", f"'1099511627777': {most}"),
            ("look a 00000000000001", f"'00000000000001': {most}"),
            ("look a 10995116277770 b", f"'10995116277770': {most}"),
            ("head a 0", "'0': this must be a number from 1 to 9999999, of at most 7 digits"),
            ("save a 10000000 b", "'10000000': this must be a number from 1 to 9999999, of at most 7 digits"),
            ("node a 10000001", "'10000001': this must be a number from 1 to 10000000, of at most 8 digits"),
            ("make 65536", "'65536': this must be a number from 0 to 65535, of at most 5 digits"),
            ("save a 1 -b", "'-b': a file name cannot begin with -; write ./-b"),
            ("check -a", "'-a': a file name cannot begin with -; write ./-a"),
            ("make \x1b[31m", "$'\\E[31m': this is not a number"),
            ("watch a 0 7_372_800 b", "'7_372_800': write a number in digits alone: 7372800"),
            ("watch a 9 8 b c d", "'8': TO is below FROM, which is 9"),
            ("watch a 8 9 b -c", "'-c': a file name cannot begin with -; write ./-c"),
            ("watch a 8 9 b c d", ""),
            ("watch a 8 9 -b c d", "'-b': a file name cannot begin with -; write ./-b"),
            ("watch a 8 9 b c d e", "'e': a word too many for watch"),
            ("monitor a 08 9", ""),
            ("monitor a 0 1099511627776", ""),
            ("node a 09999999", ""),
            ("node a 10000000", ""),
            ("make 08", ""),
            ("run --plain a", ""),
            ("resume a b", ""),
            ("monitor a", ""),
            ("rum a", "'rum': there is no such command"),
            ("--plian", "'--plian': there is no such command"),
            ("run", "run: FILE is missing"),
            ("run --plain", "run: FILE is missing"),
            ("run --plian a", "'--plian': run has only the option --plain; a file name cannot begin with -; write ./--plian"),
            ("run --plain a b", "'b': a word too many for run"),
            ("run -C", "'-C': put -C DIR before the command"),
            ("check -C a", "'-C': put -C DIR before the command"),
            ("resume a", "resume: STATE is missing"),
            ("sweep a b", "sweep: MOVES is missing"),
            ("watch a 8 9", "watch: PLACES is missing"),
            ("monitor a 1", "monitor: TO is missing"),
            ("monitor a 1 2 3", "'3': a word too many for monitor"),
            ("save a 1 b c", "'c': a word too many for save"),
            ("make", "make: NUMBER is missing"),
            ("", ""),
        ):
            script = 'called= own_help= notice= formats=; . "$1"; shift; explain_words "$@"'
            run = ["bash", "-uc", script, "bash", TOP / "scripts/launcher.sh", *words.split()]
            said = subprocess.run(run, capture_output=True, text=True, check=True).stderr
            self.assertEqual(said, f"({told})\n" if told else "", words)

    def test_what_is_wrong_stands_below_the_usage(self):
        fake = self.top.parent / "refusing"
        fake.write_text("#!/bin/sh\necho 'avrora: bad command line' >&2\nexit 2\n")
        fake.chmod(0o755)
        script = 'called= own_help= notice= formats=; . "$1"; own_words() { :; }; find_program() { program=$FAKE; }; shift; launch "$@"'
        run = ["bash", "-c", script, "bash", TOP / "scripts/launcher.sh", "node", "a", "1_000"]
        said = subprocess.run(run, env={**self.environment, "FAKE": str(fake)}, stdin=subprocess.DEVNULL, capture_output=True, text=True, check=False)
        lines = said.stderr.splitlines()
        self.assertEqual((lines[0], lines[-1]), ("avrora: bad command line", "('1_000': write a number in digits alone: 1000)"))
        self.assertTrue(lines[1].startswith("Usage: "))
        self.assertEqual(said.returncode, 2)

    def test_the_version_is_of_no_other_repository(self):
        """Neither of one that a hook has in the environment, nor of one in which this folder lies; and no program of its settings runs."""
        other, spy = self.top.parent, self.top.parent / "spy"
        spy.write_text(f"#!/bin/sh\n: >{other}/ran\n")
        spy.chmod(0o755)
        for folder in (other, self.top):
            for words in (["init", "-q"], ["config", "core.fsmonitor", str(spy)], ["add", "-A", "-f", "."], ["commit", "-q", "-m", folder.name]):
                names = ["-c", "user.name=a", "-c", "user.email=a@b", "-c", "core.fsmonitor=false"]
                subprocess.run(["git", "-C", folder, *names, *words], check=True, capture_output=True)
        own, there = (subprocess.run(["git", "-C", it, "rev-parse", "--short", "HEAD"], check=True, capture_output=True, text=True).stdout.strip() for it in (self.top, other))
        said = self.ended("--version", GIT_DIR=f"{other}/.git", GIT_WORK_TREE=str(other))[1]
        self.assertEqual(said.splitlines()[0].split("-")[0], f"avrora {own}")
        shutil.rmtree(self.top / ".git")
        said = self.ended("--version")[1]
        self.assertEqual(said.splitlines()[0], "avrora of no commit")
        self.assertNotIn(there, said)
        self.assertFalse((other / "ran").exists())

    def on_a_terminal(self, *words):
        """What stands on a terminal after a call, and its status."""
        try:
            ours, theirs = pty.openpty()
        except OSError as it:
            self.skipTest(f"no terminal is to be had here: {it}")
        status = self.start(*words, stdout=subprocess.DEVNULL, stderr=theirs).wait(timeout=LONG)
        os.close(theirs)
        with open(ours, "rb", buffering=0) as terminal:
            return status, read_to_end(terminal).decode().splitlines()

    def test_what_stands_below_it_on_a_terminal(self):
        """A line for each status; none where all is well."""
        self.ended("run")
        for status, line, below in (
            (5, "avrora: a.hex: image refused: NoEnd", "(NoEnd: no line is faulty and none has type 01; docs/FORMATS.md)"),
            (4, "avrora: a.toml: scenario refused: SelfLink", "(SelfLink: a link from a node to itself; docs/FORMATS.md; avrora-tools why FILE says where)"),
            (8, "avrora: m: moves refused: TooLong, line 2", "(TooLong: a line has more than 65,536 bytes to arrive; docs/FORMATS.md)"),
            (8, "avrora: m: moves refused: TooLong", "(TooLong: it has more than 4,194,304 bytes; docs/FORMATS.md)"),
            (8, "avrora: p: places refused: NoPlace, line 2", "(NoPlace: no such byte stands at this data address: "),
            # a name of somebody's choice
            (8, "avrora: a: image refused: NoEnd: state refused: OutOfBounds, line 3", "(OutOfBounds: the line (other than line 2) "),
            (1, "avrora: write failed", "(a full disk, a closed descriptor, "),
            (3, "avrora: cannot read a", "(it is not there, it is a folder, "),
            (6, "avrora: out of memory", "(the system refused memory; "),
        ):
            ended, said = self.on_a_terminal("say", str(status), line)
            self.assertEqual((ended, said[0], len(said)), (status, line, 2), said)
            self.assertTrue(said[1].startswith(below), said)
        self.assertEqual(self.on_a_terminal("say", "9", ""), (9, ["avrora: a word of the command line is no UTF-8, or memory is refused (docs/FAULTS.md)"]))
        for status in (0, 137):
            self.assertEqual(self.on_a_terminal("say", str(status), "a line"), (status, ["a line"]))

    def test_what_a_cause_says_of_the_command_line(self):
        """Where the command line decides, its words are told and not those of a file; all other causes have their row."""
        past = "avrora: a.toml: state refused: PastEnd"
        bad_range = "avrora: a.toml: scenario refused: OutOfRange"
        no_toml = "scenario refused: NotToml"
        why = "docs/FORMATS.md; avrora-tools why FILE says where"
        for status, line, words, begins, ends in (
            (8, past, "save a.toml 2", "(PastEnd: N epochs of 262144 cycles, here 2, end in cycle 524288, which is not below the scenario's cycles;", "docs/FORMATS.md)"),
            (8, past, "head a.toml 08", "(PastEnd: N epochs of 262144 cycles, here 08, end in cycle 2097152, which", "docs/FORMATS.md)"),
            (8, past, "look a.toml 9", "(PastEnd: CYCLE, which is 9, is above the scenario's cycles;", "docs/FORMATS.md)"),
            (8, past, "save a.toml 1 b", "(PastEnd: the cycle of line 2 ", "docs/FORMATS.md)"),
            (8, past, "resume a.toml b", "(PastEnd: the cycle of line 2 ", "docs/FORMATS.md)"),
            (4, bad_range, "monitor a.toml 0 9", "(OutOfRange: TO, which is 9, is above the scenario's cycles; or a number,", f"{why} if it is in the file)"),
            (4, bad_range, "watch a.toml 0 9 p s", "(OutOfRange: TO, which is 9, is above the scenario's cycles; or a number,", f"{why} if it is in the file)"),
            (4, bad_range, "monitor a.toml", "(OutOfRange: a number,", f"{why})"),
            (4, bad_range, "run a.toml", "(OutOfRange: a number,", f"{why})"),
            (4, f"avrora: a.hex: {no_toml}", "run a.hex", "(NotToml: ", "; an image runs by: node FILE CYCLES)"),
            (4, f"avrora: a.toml: {no_toml}", "run a.toml", "(NotToml: ", f"{why})"),
            (7, "avrora: a.c: source refused: UnknownMnemonic, line 1", "asm a.c", "(UnknownMnemonic: asm has no such mnemonic: ", "docs/FORMATS.md; a C file is for avr-gcc)"),
            (7, "avrora: a.s: source refused: UnknownMnemonic, line 1", "asm a.s", "(UnknownMnemonic: asm has no such mnemonic: ", "docs/FORMATS.md)"),
            (3, "avrora: cannot read 0100", "watch a.toml 0 9 0100", "(PLACES is the name of a file; it is not there, ", "docs/FAULTS.md)"),
            (3, "avrora: cannot read s", "sweep a.toml s m", "(STATE is the name of a file; it is not there, ", "docs/FAULTS.md)"),
            (3, "avrora: cannot read a", "watch a 0 9 b", "(it is not there, ", "docs/FAULTS.md)"),
            (3, "avrora: cannot read a", "run --plain a", "(it is not there, ", "docs/FAULTS.md)"),
        ):
            script = 'called= own_help= notice= formats=$1; . "$2"; shift 2; explain "$@"'
            run = ["bash", "-uc", script, "bash", TOP / "docs/FORMATS.md", TOP / "scripts/launcher.sh", str(status), line, *words.split()]
            said = subprocess.run(run, capture_output=True, text=True, check=True).stderr
            self.assertEqual((said.startswith(begins), said.endswith(f"{ends}\n"), said.count("\n")), (True, True, 1), (words, said))

    def test_no_folder_on_a_terminal(self):
        self.assertEqual(self.on_a_terminal("-C", "avrora", "run"), (3, ["avrora: cannot read avrora", "(it is not there, it is not a folder, or you may not enter it)"]))

    def test_a_program_of_no_release(self):
        """No command uses it; each says what to do, and ends with the same status."""
        other = self.top.parent / "other"
        other.write_text("#!/bin/sh\nexit 0\n")
        other.chmod(0o755)
        for words in (["run", "x"], ["--version"]):
            status, _, err = self.ended(*words, AVRORA_PROGRAM=str(other))
            self.assertEqual(status, 10)
            self.assertIn(f"avrora: {other} is of no release that is proved: ", err)
            self.assertIn("libexec/avrora/avrora_program of an unpacked release of this commit, or none (`unset AVRORA_PROGRAM`)", err)
            self.assertEqual(err.count("is of no release"), 1)

    def test_each_cause_is_explained(self):
        """Each cause that the program can write, in its line, by the row of FORMATS.md; no table there has another one."""
        for kind, (status, part, crate) in REFUSALS.items():
            written, rows = written_causes(kind, crate), list(causes(part))
            self.assertTrue(written, kind)
            self.assertEqual(sorted(name for name, _ in written), sorted(cause for _, cause, _ in rows), kind)
            for name, has_line in written:
                texts = {whole: text for whole, cause, text in rows if cause == name}
                text = texts.get(not has_line, next(iter(texts.values())))
                line = f"avrora: a name: {kind} refused: {name}{', line 7' if has_line else ''}"
                words = ["bash", "-c", 'called= own_help= notice= formats=$1; . "$2"; explain "$3" "$4"', "bash"]
                words += [TOP / "docs/FORMATS.md", TOP / "scripts/launcher.sh", str(status), line]
                said = subprocess.run(words, capture_output=True, text=True, check=True).stderr
                self.assertTrue(said.startswith(f"({name}: {text}; docs/FORMATS.md"), (line, said))


# Each kind of refusal in the program's lines: its exit status, the part of FORMATS.md with its causes, and the crate that finds them;
# command_plans alone names those of states.
REFUSALS = {
    "scenario": (4, "Scenarios", "scenario_file"),
    "image": (5, "Images", "ihex_loader"),
    "source": (7, "Sources", "asm_text"),
    "state": (8, "States", None),
    "moves": (8, "Moves", "moves_text"),
    "places": (8, "Places", "places_text"),
}


def written_causes(kind, crate):
    """The causes that the program writes of a kind, each with whether a line number stands behind it. Want of memory ends with a
    status and a line of its own."""
    reports = (TOP / "crates/command_plans/src/reports.rt").read_text(encoding="utf-8")
    found = re.findall(rf'{kind.capitalize()}(?:Cause::\w+|Cause::Faulty\([^"]*\)) => \("(\w+)", (None|Some)', reports)
    if crate:
        own = (TOP / f"crates/{crate}/src/fault.rt").read_text(encoding="utf-8")
        # of a scenario no fault has a line
        found += [(name, "Some" if of == "LineFault" else "None") for of, name in re.findall(r'(\w+)::\w+ => "(\w+)"', own)]
    return [(name, line == "Some") for name, line in found if name != "NoMemory"]


def causes(part):
    """The causes of a part of FORMATS.md: whether each is one of a whole file, its name, and its text without backquotes."""
    text = (TOP / "docs/FORMATS.md").read_text(encoding="utf-8")
    within = re.search(rf"^## {part}.*?\n(.*?)(?=^## |\Z)", text, re.M | re.S)[1]
    for table in re.findall(r"(?:^\|.*\n)+", within, re.M):
        head, _, *rows = table.splitlines()
        if "Fault" in head or "Cause" in head:
            for row in rows:
                _, cause, meaning, _ = re.split(r" *\| *", row)
                yield "whole file" in head, cause.strip("`"), meaning.replace("`", "")


class Later(OfARepository):
    """What a later call sees of what changed since the one before, and what it proves again."""

    ALL = ["low", "middle", "avrora_program"]

    def setUp(self):
        super().setUp()
        self.notes = self.top.parent / "proved"
        self.room = self.top / "crates/avrora_program/out/rlib"
        self.program = self.room / "avrora_program"
        self.assert_proves(self.ALL)

    def proves(self, **fake):
        """Which crates a call proves, and what it says; it runs the program in any case."""
        self.notes.write_text("", encoding="utf-8")
        status, out, err = self.ended("run", "x", FAKE_PROVED=str(self.notes), **fake)
        self.assertEqual((status, out), (0, "run x in repository\n"), err)
        return self.notes.read_text(encoding="utf-8").split(), err

    def assert_proves(self, crates, **fake):
        proved, err = self.proves(**fake)
        self.assertEqual(proved, crates, err)
        return err

    def settle(self):
        """Waits until files that were changed just now are noted as they are, which a call sees without prove.py."""
        time.sleep(3.2)
        self.assert_proves([])
        self.assertTrue(self.is_seen_at_once())

    def is_seen_at_once(self):
        return subprocess.run(["/usr/bin/env", "python3", "-I", "-S", "-B", self.top / "scripts/proving/seen.py", f"{self.program}.seen"], env=self.environment, check=False).returncode == 0

    def put_over(self, path, text, in_place=True):
        """Gives a file another text of the same size, with the times that it had."""
        path, was = self.top / path, (self.top / path).stat()
        self.assertEqual(len(text.encode()), was.st_size)
        other = path if in_place else path.with_name("other")
        other.write_text(text, encoding="utf-8")
        other.chmod(was.st_mode)
        os.utime(other, ns=(was.st_atime_ns, was.st_mtime_ns))
        os.replace(other, path)
        self.assertEqual((path.stat().st_size, path.stat().st_mtime_ns), (was.st_size, was.st_mtime_ns))

    def test_nothing_changed(self):
        self.assert_proves([])
        self.settle()
        # what proves is not even called
        self.write("prove.py", "import sys\nsys.exit('called')\n")
        self.assert_proves([])
        os.utime(self.top / "crates/low/src/lib.rt")
        self.assertEqual(self.ended("run")[0], 10)

    def test_a_change_of_the_same_size_and_times(self):
        """At once, and after the files' clock has moved on; in place, and by another file in its place."""
        number = 0
        for settles in (False, True):
            for in_place in (True, False):
                number += 1
                if settles:
                    self.settle()
                self.put_over("crates/middle/src/lib.rt", f"fn hal{number}() {{}}\n", in_place)
                self.assertFalse(self.is_seen_at_once())
                self.assert_proves(["middle", "avrora_program"])

    def test_many_changes_within_a_second(self):
        for number in range(5):
            self.put_over("crates/middle/src/lib.rt", f"fn hal{number}() {{}}\n", number % 2)
            self.assert_proves(["middle", "avrora_program"])

    def test_files_that_come_and_go(self):
        self.settle()
        (self.top / "crates/low/proofs").mkdir()
        self.write("crates/low/proofs/New.antt", "new\n")
        self.assert_proves(["low"])
        self.settle()
        (self.top / "crates/low/proofs/New.antt").unlink()
        self.assertFalse(self.is_seen_at_once())
        self.assert_proves(["low"])
        self.write("crates/low/src/new.rt", "fn new() {}\n")
        self.assert_proves(self.ALL)

    def test_what_leaves_a_library_as_it_was(self):
        """A comment is in no library: the crates above stay proved."""
        self.write("crates/low/src/lib.rt", "// nothing but a comment\n")
        err = self.assert_proves(["low"])
        self.assertIn("avrora: 1 of 3 crates are proved (low)", err)
        self.assertIn("avrora: 3 of 3 crates are proved, 2 of them over the same libraries as before\n", err)
        self.write("crates/low/src/lib.rt", "fn low() {}\n")
        self.assert_proves(self.ALL)

    def test_what_is_as_it_was_again(self):
        """A call that ended between two changes keeps what it proved."""
        self.write("crates/low/src/lib.rt", "fn low() {}\n")
        self.assertEqual(self.ended("run", FAKE_FAULT="middle")[0], 10)
        self.assert_proves(["middle", "avrora_program"])

    def test_another_kit(self):
        self.settle()
        fake_kit.write(self.top.parent / "kit/KIT-ID", "another-kit logic 00\n")
        self.assert_proves(self.ALL)

    def test_no_kit(self):
        """The program that was proved of these sources runs; one of others is not proved, and what helps is named."""
        without = fake_kit.environment()["PATH"]
        self.assert_proves([], PATH=without)
        self.settle()
        self.assert_proves([], PATH=without)
        self.write("crates/low/src/lib.rt", "// other\n")
        status, out, err = self.ended("run", PATH=without)
        self.assertEqual((status, out), (10, ""))
        self.assertTrue(err.startswith("avrora: there is no `rt` on the PATH"))
        for word in ("kit", "./avrora --adopt FILE", "AVRORA_PROGRAM=FILE", "docs/RELEASE.md"):
            self.assertIn(word, err)

    def test_a_program_that_is_not_the_one_that_was_built(self):
        """Emptied it would end with status 0 and no trace. It is built again, and that is told."""
        whole = self.program.read_text(encoding="utf-8")
        for settles in (False, True):
            for text in ("", whole[:50], "#!/bin/sh\necho other\n", whole.replace("in ${PWD##*/}", "at ${PWD##*/}")):
                with self.subTest(text):
                    if settles and len(text) in (0, len(whole)):
                        self.settle()
                    if len(text) == len(whole):
                        self.put_over(self.program, text)
                    else:
                        self.program.write_text(text, encoding="utf-8")
                    self.assertIn(f"avrora: {self.program} is not what was built here: it was emptied, cut off or replaced", self.assert_proves(["avrora_program"]))
        self.program.chmod(0o644)
        self.assert_proves(["avrora_program"])
        self.program.unlink()
        self.assert_proves(["avrora_program"])

    def test_a_library_that_is_not_the_one_that_was_built(self):
        (self.room / "low.rlib").write_text("other\n", encoding="utf-8")
        self.assert_proves([])
        self.write("crates/middle/src/lib.rt", "fn more() {}\n")
        self.assert_proves(["low", "middle", "avrora_program"])

    def test_records_that_are_cut_off(self):
        self.assert_proves([])
        for name in ("avrora_program.seen", "avrora_program.sum", "low.sum"):
            for text in ("", (self.room / name).read_bytes()[:60].decode()):
                with self.subTest((name, text)):
                    self.assert_proves([])
                    (self.room / name).write_text(text, encoding="utf-8")
                    self.assertFalse(self.is_seen_at_once() and name.endswith(".seen"))
                    proved, _ = self.proves()
                    self.assertLessEqual(set(proved), {"low"} if name == "low.sum" else {"avrora_program"})

    def test_a_change_while_it_is_proved(self):
        self.write("crates/low/src/lib.rt", "fn low() {}\n")
        run = self.start("run", fake={"FAKE_SECONDS": "2"})
        self.until(lambda: any("rattle-copy" in it for _, it in self.left()))
        self.put_over("crates/low/src/lib.rt", "fn wol() {}\n")
        self.put_over("crates/low/src/lib.rt", "fn low() {}\n")
        _, err = run.communicate(timeout=LONG)
        self.assertEqual(run.returncode, 10)
        self.assertIn("avrora: crates/low: a source was changed while it was proved, so nothing of it is kept", err)
        self.assert_proves(self.ALL)

    def test_what_is_kept_depends_on_no_program(self):
        """A crate below two programs is kept for both, whichever of its libraries each of them names first."""
        lines = ["low:", "middle:", "high: low middle", "one: low high", "other: middle high"]
        (self.top / "crates.txt").write_text("\n".join(lines), encoding="utf-8")
        for name in ("high", "one", "other"):
            fake_kit.write(self.top / f"crates/{name}/src/lib.rt", "// nothing\n")
        kit = mock.Mock(identity="a kit")
        for name in ("low", "middle"):
            shutil.rmtree(self.room / f"{name}.rlib", ignore_errors=True)
            (self.room / f"{name}.rlib").write_text(name, encoding="utf-8")
        keys = set()
        for program in ("one", "other"):
            below = crates.crates_below(program, str(self.top))
            kept = room.Room(str(self.room), kit, below)
            for name in ("low", "middle"):
                kept.mark(below[name])
            keys.add(kept.key(below["high"]))
        self.assertEqual(len(keys), 1)
        self.assertNotIn(None, keys)

    def test_all_is_on_the_disk_before_it_is_noted(self):
        """The program and what is noted of it are synced before the note stands under its name."""
        done = []
        kit = mock.Mock(identity="a kit")
        crate = crates.Crate("avrora_program:", str(self.top))
        kept = room.Room(str(self.room), kit, {crate.name: crate})
        with mock.patch.object(os, "fsync", lambda number: done.append(os.readlink(f"/proc/self/fd/{number}"))), mock.patch.object(os, "replace", lambda one, other: done.append(other)):
            kept.mark(crate)
        note = f"{self.program}.sum"
        self.assertEqual(done[-1], str(self.room))
        self.assertEqual(done.index(note), len(done) - 2)
        self.assertLess(done.index(str(self.program)), done.index(f"{note}.new"))


def read_to_end(terminal):
    """All that was written to a terminal which nobody writes to any more. What it hands over at once may be a part of it."""
    said = b""
    with contextlib.suppress(OSError):  # the end of a terminal
        while part := terminal.read(10000):
            said += part
    return said


if __name__ == "__main__":
    if sys.argv[1:2] in (["--help"], ["-h"]):
        sys.exit(print(__doc__))
    sys.exit(suites.run("test_first_run", sys.modules[__name__], NEEDS))
