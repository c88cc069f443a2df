#!/usr/bin/env python3
"""Tests of a release: of how it is made, over a kit that proves nothing; of what is in it, its launcher, its package and its
manual pages; and of a checkout that takes its program.

    scripts/test_release.py

With a real program, the one that AVRORA_PROGRAM names or else the one that `./avrora` proved of these sources, an unpacked
release also runs the commands of README.md and the script for pipelines. What is not installed is skipped by name. scripts/test_bare tries a release
in a system that has nothing else.
"""
import contextlib
import functools
import os
import re
import shutil
import subprocess
import sys
import tarfile
import tempfile
import unittest
from pathlib import Path

TOP = Path(__file__).resolve().parent.parent
sys.path.insert(1, str(TOP))

import check_docs  # pylint: disable=wrong-import-position
import fake_kit  # pylint: disable=wrong-import-position
import prove  # pylint: disable=wrong-import-position
from gating import suites  # pylint: disable=wrong-import-position
from releases import debian, gates, manuals  # pylint: disable=wrong-import-position

# Seconds that nothing takes but what hangs.
LONG = 600

NEEDS = ("bash", "awk", "git", "dpkg-deb", "sha256sum", "tar")

# What a release is made from beside its crates.
PARTS = ("README.md", "SECURITY.md", "CHANGELOG.md", "avrora", "prove.py", ".gitignore", ".ci/", "docs/", "examples/", "scripts/", "tools/")

# The commits of the repository that is released here are of this time.
ENVIRONMENT = {
    "GIT_CONFIG_GLOBAL": os.devnull,
    "GIT_CONFIG_SYSTEM": os.devnull,
    "GIT_AUTHOR_NAME": "Some One",
    "GIT_AUTHOR_EMAIL": "one@example.org",
    "GIT_AUTHOR_DATE": "2026-01-02T03:04:05+00:00",
    "GIT_COMMITTER_NAME": "Some One",
    "GIT_COMMITTER_EMAIL": "one@example.org",
    "GIT_COMMITTER_DATE": "2026-01-02T03:04:05+00:00",
}

# The wrong edit of a crate: it and three crates are what the gate counts.
EDIT = "file: src/lib.rt\nold: // nothing\nnew: // something\n"
PASSED = "4 passed, 0 failed"


@functools.lru_cache(maxsize=None)
def real_program():
    """A program that does what the documents say, if there is one."""
    if lent := os.environ.get("AVRORA_PROGRAM"):
        return os.path.abspath(lent)
    room = f"{TOP}/crates/{prove.RELEASED}/out/rlib"
    return f"{room}/{prove.RELEASED}" if prove.is_proved_here(room) else None


def ran(words, place, environment=None, given=""):
    """The status of a command, and what it wrote."""
    done = subprocess.run(list(map(str, words)), cwd=place, env={**(environment or fake_kit.environment()), **ENVIRONMENT}, input=given, capture_output=True, text=True, timeout=LONG, check=False)
    return done.returncode, done.stdout, done.stderr


class Repository:
    """A repository like this one, but with three crates that a kit proves which proves nothing; both are in the folder `place`."""

    def __init__(self, place):
        self.place, self.top, self.kit = place, place / "repository", place / "kit"
        if not place.exists():
            self.write()

    def write(self):
        fake_kit.write_kit(self.kit)
        fake_kit.write_crates(self.top)
        fake_kit.write(self.top / "crates/low/must-fail/says.edit", EDIT)
        for path in filter(lambda it: it.startswith(PARTS), check_docs.tracked()):
            (self.top / path).parent.mkdir(parents=True, exist_ok=True)
            shutil.copy2(TOP / path, self.top / path)
        self.git("init", "-q")
        self.commit()

    def git(self, *words):
        status, out, err = ran(["git", *words], self.top)
        if status:
            raise AssertionError(err)
        return out.strip()

    def commit(self, message="A commit"):
        self.git("add", "-A")
        self.git("commit", "-q", "--allow-empty", "-m", message)

    def head(self):
        return self.git("rev-parse", "HEAD")

    def log(self, end=PASSED, changed="", commit=None, kit=fake_kit.IDENTITY):
        """The log of a gate."""
        path = self.place / "gate.log"
        path.write_text(f"gate: commit {commit or self.head()}, {changed}{kit}\ncheck_docs: 0 wrong\nrt: ok\n{end}\n", encoding="utf-8")
        return path

    def release(self, *words, out="made", is_tried=False, **environment):
        """scripts/release, of the log of a gate that passed where no words are given."""
        words = [*(words or ("--gate-log", self.log())), *([] if is_tried else ["--untried"])]
        return ran(["scripts/release", *words, self.place / out], self.top, {**fake_kit.environment(self.kit), **environment})

    def made(self, out="made"):
        """What a release consists of, each file with its bytes."""
        return {it.name: it.read_bytes() for it in (self.place / out).iterdir()}

    def avrora(self, *words, kit=None, **environment):
        return ran([self.top / "avrora", *words], self.top, {**fake_kit.environment(kit), **environment})


@functools.lru_cache(maxsize=None)
def first_place():
    """The place of a repository of which a release is made; the tests have copies of it."""
    folder = tempfile.TemporaryDirectory()
    unittest.addModuleCleanup(folder.cleanup)
    first = Repository(Path(folder.name).resolve() / "first")
    status, _, err = first.release()
    if status:
        raise AssertionError(err)
    return first.place


class OfARepository(unittest.TestCase):
    """Has a repository of its own, and of its first commit a release."""

    def setUp(self):
        folder = tempfile.TemporaryDirectory()
        self.addCleanup(folder.cleanup)
        self.place = Path(folder.name).resolve() / "place"
        shutil.copytree(first_place(), self.place, symlinks=True)
        self.repository = Repository(self.place)

    def unpacked(self, name="unpacked", out="made"):
        """The top of the unpacked archive."""
        folder = self.place / name
        folder.mkdir(exist_ok=True)
        ran(["tar", "-xzf", next((self.place / out).glob("*.tar.gz"))], folder)
        return next(folder.glob("avrora-*"))

    def made(self, *words):
        shutil.rmtree(self.place / "made")
        status, _, err = self.repository.release(*words)
        self.assertEqual((status, [it for it in err.splitlines() if not it.startswith(("avrora: ", "release: it was not tried "))]), (0, []))

    def assert_refused(self, why, *words):
        """There is no release, and the last line says why."""
        status, out, err = self.repository.release(*words, out="refused")
        self.assertEqual((status, out), (1, ""))
        self.assertRegex(err.splitlines()[-1], f"^release: .*{why}")
        self.assertEqual([it for it in self.repository.made("refused") if not it.endswith(".log")], [])


class Making(OfARepository):
    def test_the_same_bytes(self):
        first = self.repository.made()
        self.assertEqual(sorted(first), ["SHA256SUMS", "avrora-0.1.0-linux-x86_64.tar.gz", "avrora_0.1.0_amd64.deb"])
        self.assertEqual(ran(["sha256sum", "-c", "--quiet", "SHA256SUMS"], self.place / "made")[0], 0)
        # another folder, another time zone, other rights of new files, other times of the sources, and all proved anew
        other = Repository(self.place / "other")
        old = os.umask(0o077)
        try:
            status, _, err = other.release(TZ="Asia/Tokyo", LC_ALL="C.UTF-8")
        finally:
            os.umask(old)
        self.assertEqual(status, 0, err)
        self.assertEqual(other.made(), first)

    def test_what_says_of_which_sources_it_is(self):
        top = self.unpacked()
        program = ran(["sha256sum", "libexec/avrora/avrora_program"], top)[1].split()[0]
        lines = (top / "PROVED").read_text(encoding="utf-8").splitlines()
        head = self.repository.head()
        for line in (
            "release: 0.1.0",
            f"commit: {head}",
            "kit: fake-kit",
            "logic sum: 0123456789abcdef",
            "gate: 4 passed, 0 failed",
            f"program: {program}",
            f"    git checkout {head}",
        ):
            self.assertIn(line, lines)
        self.assertEqual(ran([top / "avrora", "--version"], self.place), (0, f"avrora 0.1.0, commit {head}\nfake-kit logic 0123456789abcdef\n", ""))

    def test_only_of_a_commit(self):
        readme = self.repository.top / "README.md"
        readme.write_text("changed\n", encoding="utf-8")
        self.assert_refused("this differs from it: README.md")
        self.repository.git("checkout", "README.md")
        (self.repository.top / "crates/low/src/new.rt").write_text("// new\n", encoding="utf-8")
        self.assert_refused("this differs from it: crates/low/src/new.rt")

    def test_only_where_the_gate_passed(self):
        log = self.repository.log
        for why, words in {
            "its last line is no `N passed, 0 failed`: 3 passed, 1 failed": {"end": "3 passed, 1 failed"},
            "its last line is no .*: 2 passed, 0 failed .low and the crates below alone: not the gate": {"end": "2 passed, 0 failed (low and the crates below alone: not the gate)"},
            "its last line is no .*: Killed": {"end": f"{PASSED}\nKilled"},
            "it passed 3; this commit has 3 crates and 1 edits": {"end": "3 passed, 0 failed"},
            "files were changed when it began": {"changed": "changed, "},
            "it is of commit 0123, and this is commit": {"commit": "0123"},
            "it is by another-kit logic 00, and the kit here is fake-kit": {"kit": "another-kit logic 00"},
        }.items():
            with self.subTest(why):
                self.assert_refused(why, "--gate-log", log(**words))
        self.assert_refused("No such file", "--gate-log", self.place / "nowhere.log")
        (self.place / "gate.log").write_text(f"{PASSED}\n", encoding="utf-8")
        self.assert_refused("it has 0 lines `gate: commit", "--gate-log", self.place / "gate.log")

    def test_the_gate_is_run(self):
        """The gate of this repository asks much of a machine; one that only tells its lines stands in for it."""
        fake_kit.write(self.repository.top / ".ci/run", f'#!/bin/sh\necho "gate: commit $(git rev-parse HEAD), {fake_kit.IDENTITY}"\necho {PASSED}\n')
        self.repository.commit()
        self.made("--gate")
        self.assertTrue(self.repository.made()["gate.log"].decode().endswith(f"\n{PASSED}\n"))

    def test_the_gate_begins_as_its_log_is_known(self):
        """The first line of .ci/run is the one by which scripts/release knows its log."""
        fake_kit.write(self.repository.top / "scripts/before_gate.py", "")
        self.repository.commit()
        head = self.repository.head()
        begin = lambda: gates.BEGINS.match(ran([self.repository.top / ".ci/run"], self.repository.top, fake_kit.environment(self.repository.kit))[1]).groupdict()
        self.assertEqual(begin(), {"commit": head, "changed": None, "kit": fake_kit.IDENTITY})
        (self.repository.top / "new").write_text("", encoding="utf-8")
        self.assertEqual(begin(), {"commit": head, "changed": "changed, ", "kit": fake_kit.IDENTITY})

    def try_by(self, text):
        """How a release ends that is tried by this script, with what it says last, and the log of the trial."""
        fake_kit.write(self.repository.top / "scripts/test_bare", f"#!/bin/sh\n{text}\n")
        self.repository.commit()
        status, out, err = self.repository.release(is_tried=True)
        self.assertEqual("deb" in out, status != 2)
        return status, err.splitlines()[-1], (self.place / "made/trial.log").read_text(encoding="utf-8")

    def test_it_is_tried(self):
        """A check that is not met is a fault of the release; where nothing can be tried that is said."""
        line = "test_bare: 2026-01-02, x.tar.gz, commit c, in bookworm: 26 checks, 0 not met"
        self.assertEqual(self.try_by(f'echo "$1"; echo "{line}"'), (0, f"release: {line}", f"{self.place}/made\n{line}\n"))
        self.assertEqual(self.try_by("echo 'x: 26 checks, 2 not met'; exit 1"), (1, "release: x: 26 checks, 2 not met", "x: 26 checks, 2 not met\n"))
        said = "test_bare: only root can make a system"
        self.assertEqual(self.try_by(f"echo '{said}' >&2; exit 3"), (0, f"release: it was not tried in bare systems: {said}", f"{said}\n"))
        self.assertEqual(self.try_by("exit 9")[:2], (1, "release: it says nothing"))
        self.assertIn("release: it was not tried in bare systems: --untried says so\n", self.repository.release()[2])

    def test_what_a_trial_needs(self):
        """By the script itself: no release, no root or a program that is missing."""
        script = TOP / "scripts/test_bare"
        self.assertEqual(ran([script, self.place], self.place)[0], 2)
        self.assertEqual(ran([script, "--help"], self.place)[0], 0)
        status, _, err = ran([sys.executable, script, self.place / "made"], self.place, {**fake_kit.environment(), "PATH": "/nowhere"})
        self.assertEqual(status, 3)
        self.assertRegex(err, "^test_bare: mmdebstrap, .* is not installed: apt-get install lintian mmdebstrap\n$")

    def test_only_what_is_proved(self):
        shutil.rmtree(self.repository.top / "crates/avrora_program/out")
        status, _, err = self.repository.release(FAKE_FAULT="middle")
        self.assertEqual((status, err.splitlines()[-1]), (1, "release: the program is not proved"))

    def test_what_the_gate_proved_is_not_proved_again(self):
        """Where the kit's gate kept the libraries of these sources they are taken; a kit that has another module has none to give."""
        shutil.rmtree(self.repository.top / "crates/avrora_program/out")
        status, _, err = self.repository.release(out="first")
        self.assertEqual(status, 0)
        self.assertIn("avrora: no library of the gate is taken: SyntaxError: ", err)
        self.assertIn("avrora: 3 of 3 crates are proved", err)
        fake_kit.write_gate(self.repository.kit, "low")
        shutil.rmtree(self.repository.top / "crates/avrora_program/out")
        # a check of `low` would fail
        status, _, err = self.repository.release(out="second", FAKE_FAULT="low")
        self.assertEqual(status, 0, err)
        self.assertIn("avrora: libraries that the gate proved, and that lie ready: 1\n", err)
        self.assertEqual(self.repository.made("second"), self.repository.made("first"))
        # nor is one taken over another that was not: `middle` is kept, and `low` is not
        fake_kit.write_gate(self.repository.kit, "middle")
        shutil.rmtree(self.repository.top / "crates/avrora_program/out")
        self.assertIn("avrora: libraries that the gate proved, and that lie ready: 0\n", self.repository.release(out="third")[2])

    def test_a_program_that_is_built_otherwise_each_time(self):
        link = self.repository.kit / "bin/rattle-link"
        fake_kit.write(link, link.read_text(encoding="utf-8") + 'echo "# $out" >>"$out"\n')
        self.assert_refused("the program was built a second time, and has other bytes")

    def test_one_number(self):
        path = self.repository.top / "CHANGELOG.md"
        path.write_text(path.read_text(encoding="utf-8").replace("## 0.1.0", "## 0.1.1"), encoding="utf-8")
        self.repository.commit()
        self.assert_refused("CHANGELOG.md begins with 0.1.1, and the tools say 0.1.0")

    def test_unproved(self):
        """To try things there are releases that are not proved: nothing of them can be taken for one that is."""
        (self.place / "program").write_text("#!/bin/sh\n", encoding="utf-8")
        self.made("--unproved", self.place / "program")
        self.assertEqual(sorted(self.repository.made()), ["SHA256SUMS", "avrora-0.1.0-UNPROVED-linux-x86_64.tar.gz", "avrora_0.1.0~unproved_amd64.deb"])
        top = self.unpacked()
        self.assertFalse((top / "PROVED").exists())
        self.assertIn("nothing of this is proved\n", ran([top / "avrora", "--version"], top)[1])
        self.assertEqual(self.repository.avrora("--adopt", top / "libexec/avrora/avrora_program")[0], 10)
        self.assertIn("NOTHING OF THIS IS PROVED", ran(["dpkg-deb", "-f", next((self.place / "made").glob("*.deb")), "Description"], top)[1])


class Contents(OfARepository):
    def setUp(self):
        super().setUp()
        self.top = self.unpacked()

    def test_the_archive(self):
        with tarfile.open(next((self.place / "made").glob("*.tar.gz"))) as archive:
            members = archive.getmembers()
        names = [it.name for it in members]
        self.assertEqual(names, sorted(names))
        self.assertEqual({(it.uid, it.gid, it.uname, it.gname, it.mtime) for it in members}, {(0, 0, "root", "root", 1767323045)})
        scripts = {it for it in check_docs.tracked() if it.startswith("examples/") and os.access(TOP / it, os.X_OK)}
        self.assertIn("examples/ci/check.sh", scripts)
        run = {it.name.partition("/")[2] for it in members if it.isfile() and it.mode != 0o644}
        self.assertEqual(run, {"bin/avrora", "bin/avrora-tools", "libexec/avrora/avrora_program", *scripts})
        self.assertEqual(sorted(it.name for it in self.top.iterdir()), ["CHANGELOG.md", "PROVED", "README.md", "SECURITY.md", "SHA256SUMS", "avrora", "avrora-tools", "bin", "docs", "examples", "include", "libexec", "share", "tools"])
        self.assertEqual((self.top / "include/radio.h").read_bytes(), (TOP / "examples/radio.h").read_bytes())

    def test_sums(self):
        self.assertEqual(ran(["sha256sum", "-c", "--quiet", "SHA256SUMS"], self.top), (0, "", ""))
        told = {line.split("  ", 1)[1] for line in (self.top / "SHA256SUMS").read_text(encoding="utf-8").splitlines()}
        there = {str(it.relative_to(self.top)) for it in self.top.rglob("*") if it.is_file() and not it.is_symlink()}
        self.assertEqual(told, there - {"SHA256SUMS"})

    def test_the_tools_find_their_own_sources(self):
        """Results of a campaign are of a version of the checks: the same from the zip as from a checkout."""
        ask = ["import sys; sys.path.insert(0, sys.argv[1]); from avrora_tools import checkers; print(checkers.version())"]
        from_zip, from_checkout = (ran([sys.executable, "-B", "-c", *ask, it], self.place) for it in (self.top / "libexec/avrora/avrora-tools.pyz", TOP / "tools"))
        self.assertEqual(from_zip, from_checkout)
        self.assertRegex(from_zip[1], "^[0-9a-f]{64}\n$", from_zip[2])

    def test_links_of_the_documents(self):
        for path in [self.top / "README.md", *self.top.glob("docs/*.md"), *self.top.glob("tools/*.md")]:
            for target in check_docs.LINK.findall(check_docs.prose(path.read_text(encoding="utf-8"))):
                if not re.match(r"[a-z]+:|#", target):
                    self.assertTrue((path.parent / target.partition("#")[0]).exists(), f"{path}: {target}")

    def test_a_licence_where_there_is_one(self):
        (self.repository.top / "LICENSE").write_text("Do what you like.\n", encoding="utf-8")
        self.repository.commit()
        self.made()
        self.assertEqual((self.unpacked("licensed") / "LICENSE").read_text(encoding="utf-8"), "Do what you like.\n")


class Launcher(OfARepository):
    """Of a release that lies in a folder whose name has spaces, and that nobody can write to."""

    def setUp(self):
        super().setUp()
        self.top = self.unpacked("a folder of somebody's")
        for it in [self.top, *self.top.rglob("*")]:
            if not it.is_symlink():
                it.chmod(it.stat().st_mode & ~0o222)
        self.addCleanup(ran, ["chmod", "-R", "u+w", self.top], self.place)

    def avrora(self, *words, **more):
        return ran([self.top / "bin/avrora", *words], self.place, **more)

    def test_words_come_to_the_program(self):
        self.assertEqual(self.avrora("run", "x y", given="what comes in"), (0, f"run x y in {self.place.name}\nwhat comes in", ""))
        self.assertEqual(self.avrora("-C", self.top, "-C", "docs", "run"), (0, "run in docs\n", ""))
        self.assertEqual(self.avrora("-C", "nowhere", "run"), (3, "", "avrora: cannot read nowhere\n"))
        self.assertEqual(self.avrora("refused"), (5, "", "avrora: a.hex: image refused: NoEnd\n"))

    def test_from_anywhere(self):
        """By a link, by the PATH, and by its name from its own folder."""
        (self.place / "link").symlink_to(self.top / "avrora")
        there = {**fake_kit.environment(), "PATH": f"{self.top / 'bin'}:{os.environ['PATH']}"}
        for words in ([self.place / "link"], ["bash", self.top / "bin/avrora"]):
            self.assertEqual(ran([*words, "run"], self.place), (0, f"run in {self.place.name}\n", ""))
        self.assertEqual(ran(["avrora", "run"], self.place, there), (0, f"run in {self.place.name}\n", ""))
        self.assertEqual(ran(["./avrora", "run"], self.top), (0, f"run in {self.top.name}\n", ""))

    def test_usage(self):
        status, out, err = self.avrora("help")
        self.assertEqual((status, err), (0, ""))
        self.assertTrue(out.startswith("Usage: avrora [-C DIR] COMMAND\n"))
        for word in ("prove", "--adopt"):
            self.assertNotIn(word, out.replace("proved with", ""))
        for words in ("-h", "--help"):
            self.assertEqual(self.avrora(words), (0, out, ""))
        self.assertEqual(self.avrora(), (2, "", f"avrora: bad command line\n{out}(a command is missing)\n"))
        self.assertEqual(self.avrora("bad"), (2, "", f"avrora: bad command line\n{out}('bad': there is no such command)\n"))
        # both launchers have one text
        here = self.repository.avrora("help")[1].replace("./avrora", "avrora").splitlines()
        self.assertEqual([it for it in out.splitlines() if it not in here], [])

    def test_an_older_processor(self):
        """A file stands in for /proc/cpuinfo where this system lets a process have a /proc/cpuinfo of its own."""
        old = self.place / "cpuinfo"
        old.write_text("processor\t: 0\nflags\t\t: fpu cx16 lahf_lm pni sse4_1 ssse3\n", encoding="utf-8")
        command = 'mount --bind "$1" /proc/cpuinfo && shift && exec "$@"'
        own = ["unshare", "--mount", "--map-root-user", "sh", "-c", command, "sh", old]
        if not shutil.which("unshare") or ran([*own, "true"], self.place)[0]:
            self.skipTest("no process can have a /proc/cpuinfo of its own here")
        told = (10, "", "avrora: the program needs an x86-64-v2 processor, and this one lacks popcnt sse4_2\n")
        self.assertEqual(ran([*own, self.top / "avrora", "run"], self.place), told)
        self.assertEqual(ran([*own, self.repository.top / "avrora", "run"], self.place), told)
        self.assertEqual(ran([*own, self.top / "avrora", "--version"], self.place)[0], 0)

    def test_what_a_processor_lacks(self):
        all_ = "cx16 lahf_lm pni popcnt sse4_1 sse4_2 ssse3"
        for text, lacking in {
            f"vendor_id\t: X\nflags\t\t: fpu {all_} avx\nflags\t\t: none\n": "",
            "flags\t: fpu pni ssse3 cx16\n": "lahf_lm popcnt sse4_1 sse4_2",
            f"flags\t: {all_.replace('sse4_2', 'sse4_20')}\n": "sse4_2",
            f"Features\t: {all_}\n": all_,
            "": "",
        }.items():
            told = self.place / "cpuinfo"
            told.write_text(text, encoding="utf-8")
            words = ["bash", "-c", 'set -u; called= own_help= notice= formats=; . "$1"; find_lacking "$2"; echo "$lacking"', "bash", TOP / "scripts/launcher.sh", told]
            self.assertEqual(ran(words, self.place), (0, f"{lacking}\n", ""), text)
        self.assertEqual(ran([*words[:-1], self.place / "nowhere"], self.place), (0, "\n", ""))

    def test_the_tools(self):
        """They find the program of their release; the one here knows no scenario."""
        status, out, err = ran([self.top / "avrora-tools", "--version"], self.place)
        if status == 3:
            self.skipTest(err.strip())
        self.assertEqual((status, out, err), (0, "avrora-tools 0.1.0\n", ""))
        for tool in sorted(it.stem for it in (TOP / "tools/avrora_tools/commands").glob("[a-z]*.py")):
            self.assertEqual(ran([self.top / "bin/avrora-tools", tool, "--help"], self.place)[0], 0, tool)
        (self.place / "a.expect").write_text("run a.toml\ncount == 0: * * sent *\n", encoding="utf-8")
        self.assertIn(f"run a.toml in {self.place.name}", ran([self.top / "bin/avrora-tools", "expect", "a.expect"], self.place)[1])

    def test_without_a_program(self):
        (self.top / "libexec/avrora").chmod(0o755)
        (self.top / "libexec/avrora/avrora_program").unlink()
        self.assertEqual(self.avrora("run"), (10, "", f"avrora: cannot run {self.top}/libexec/avrora/avrora_program\n"))


class Adopting(OfARepository):
    """A checkout that takes the program of a release: there is no kit, so nothing could be proved."""

    def setUp(self):
        super().setUp()
        self.top = self.unpacked()
        self.program = self.top / "libexec/avrora/avrora_program"
        self.head = self.repository.head()
        shutil.rmtree(self.repository.top / "crates/avrora_program/out")

    def assert_not_used(self, why, *words, **environment):
        status, out, err = self.repository.avrora(*words, **environment)
        self.assertEqual((status, out), (10, ""))
        self.assertRegex(err, f"^avrora: .*{why}")

    def test_adopted(self):
        self.assert_not_used("there is no `rt` on the PATH", "run")
        status, out, err = self.repository.avrora("--adopt", self.program)
        self.assertEqual((status, out), (0, ""))
        self.assertEqual(err, f"avrora: adopted: {self.program} of release 0.1.0; of commit {self.head}, proved elsewhere, with fake-kit logic 0123456789abcdef; the gate there: {PASSED}\n")
        self.assertEqual(self.repository.avrora("run", "x"), (0, "run x in repository\n", ""))
        self.assertEqual(self.repository.avrora("--version")[1].splitlines()[1], "fake-kit logic 0123456789abcdef, proved elsewhere of this commit: the program of release 0.1.0")
        # what a release is made of was proved where it is made
        status, _, err = self.repository.release()
        self.assertEqual((status, err), (1, "release: the program here was adopted from a release, and a release is made where it is proved\n"))

    def test_adopted_no_longer(self):
        self.repository.avrora("--adopt", self.program)
        self.repository.commit("Another")
        self.assert_not_used(f"the program that was adopted is not used: .* is proved of commit {self.head}, and this is commit {self.repository.head()}", "run")
        # with a kit it is proved then, and is adopted no more
        status, out, err = self.repository.avrora("run", "x", kit=self.repository.kit)
        self.assertEqual((status, out), (0, "run x in repository\n"))
        self.assertIn("3 of 3 crates are proved", err)
        self.assertEqual(self.repository.avrora("run", "x", kit=self.repository.kit), (0, "run x in repository\n", ""))

    def test_lent(self):
        status, out, err = self.repository.avrora("run", "x", AVRORA_PROGRAM=str(self.program))
        self.assertEqual((status, out, err), (0, "run x in repository\n", f"avrora: {self.program} is used, which was proved elsewhere, of this commit\n"))
        # as seen from where it is called, whatever -C says
        relative = os.path.relpath(self.program, self.repository.top)
        self.assertEqual(self.repository.avrora("-C", "docs", "run", "x", AVRORA_PROGRAM=relative)[:2], (0, "run x in docs\n"))
        self.assertIn("proved elsewhere of this commit", self.repository.avrora("--version", AVRORA_PROGRAM=relative)[1])
        self.assert_not_used("there is no `rt` on the PATH", "run")

    def test_of_another_commit(self):
        self.repository.commit("Another")
        why = f"{self.program} is proved of commit {self.head}, and this is commit {self.repository.head()}"
        self.assert_not_used(why, "--adopt", self.program)
        self.assert_not_used(why, "run", AVRORA_PROGRAM=str(self.program))
        self.assert_not_used("there is no `rt` on the PATH", "run")

    def test_where_a_source_was_changed(self):
        path = self.repository.top / "crates/low/src/lib.rt"
        path.write_text("// something\n", encoding="utf-8")
        self.assert_not_used(f"proved of commit {self.head}, from which this differs: crates/low/src/lib.rt", "--adopt", self.program)
        self.repository.git("checkout", str(path))
        (self.repository.top / "README.md").write_text("changed\n", encoding="utf-8")
        self.assertEqual(self.repository.avrora("--adopt", self.program)[0], 0)
        path.write_text("// something\n", encoding="utf-8")
        self.assert_not_used("the program that was adopted is not used: .* differs: crates/low/src/lib.rt", "run")

    def test_a_program_that_was_changed(self):
        with open(self.program, "a", encoding="utf-8") as it:
            it.write("# more\n")
        self.assert_not_used(f"{self.program} is not the program of {self.top}/PROVED", "--adopt", self.program)

    def test_no_program_of_a_release(self):
        other = self.place / "program"
        shutil.copy(self.program, other)
        self.assert_not_used(f"{other} is of no release that is proved", "--adopt", other)
        self.assert_not_used(f"cannot read {self.place}/nothing: No such file", "--adopt", self.place / "nothing")
        (self.place / "PROVED").write_text(f"commit: {self.head}\n", encoding="utf-8")
        self.assert_not_used(f"{self.place}/PROVED is no PROVED of a release: it has 0 lines `release: ..`", "--adopt", other)
        self.assertEqual(self.repository.avrora("--adopt")[0], 2)
        self.assertEqual(self.repository.avrora("--adopt", self.program, "x")[0], 2)

    def test_where_there_is_no_commit(self):
        shutil.rmtree(self.repository.top / ".git")
        self.assert_not_used("the commit of this checkout is not known: ", "--adopt", self.program)

    def test_where_it_is_proved_already(self):
        self.repository.avrora("run", kit=self.repository.kit)
        self.assertEqual(self.repository.avrora("--adopt", self.program, kit=self.repository.kit), (0, "", "avrora: nothing is adopted: the program is there already\n"))
        self.assertIn(fake_kit.IDENTITY, self.repository.avrora("--version", kit=self.repository.kit)[1].splitlines())


class Package(OfARepository):
    def setUp(self):
        super().setUp()
        self.package = next((self.place / "made").glob("*.deb"))

    def field(self, name):
        return ran(["dpkg-deb", "-f", self.package, name], self.place)[1].strip()

    def test_what_it_says(self):
        fields = {"Package": "avrora", "Version": "0.1.0", "Architecture": "amd64", "Maintainer": "Some One <one@example.org>", "Recommends": "avr-libc, gcc-avr, python3 (>= 3.11)"}
        self.assertEqual({name: self.field(name) for name in fields}, fields)

    def test_the_c_library(self):
        names = b"\0".join([b"", b"GLIBC_2.2.5", b"GLIBC_2.34", b"GLIBC_2.4", b"GLIBC_PRIVATE", b""])
        self.assertEqual(debian.needed_libc(names), "2.34")

    def test_its_files_are_those_of_the_archive(self):
        unpacked, top = self.place / "package", self.unpacked()
        ran(["dpkg-deb", "-x", self.package, unpacked], self.place)
        for path in ("bin/avrora", "bin/avrora-tools", "libexec/avrora/avrora_program", "libexec/avrora/launcher.sh", "libexec/avrora/avrora-tools.pyz"):
            self.assertEqual((unpacked / "usr" / path).read_bytes(), (top / path).read_bytes(), path)
        for path in ("README.md", "PROVED", "docs/FORMATS.md", "examples/relay.hex", "tools/README.md", "include/radio.h"):
            self.assertEqual((unpacked / "usr/share/avrora" / path).read_bytes(), (top / path).read_bytes(), path)
        for name in ("README.md", "PROVED", "docs", "examples", "tools"):
            self.assertTrue((unpacked / "usr/share/doc/avrora" / name).exists(), name)
        self.assertEqual(ran([unpacked / "usr/bin/avrora", "run"], self.place), (0, f"run in {self.place.name}\n", ""))
        self.assertEqual(ran([unpacked / "usr/bin/avrora", "--version"], self.place)[1].splitlines()[1], fake_kit.IDENTITY)

    def test_lintian(self):
        if not shutil.which("lintian"):
            self.skipTest("needs lintian (Debian's lintian)")
        package = self.package
        if program := real_program():
            status, _, err = self.repository.release("--unproved", program, out="real")
            self.assertEqual(status, 0, err)
            package = next((self.place / "real").glob("*.deb"))
        status, out, err = ran(["lintian", "--allow-root", "--fail-on", "error,warning,info", "--suppress-tags", "unused-override", package], self.place)
        self.assertEqual((status, out), (0, ""), err)


class Manuals(OfARepository):
    def test_what_becomes_of_markdown(self):
        markdown = "\n".join(
            [
                "Text with `a-b`, **bold** and [a link](x.md#y),",
                "over two lines.",
                "",
                "    code -C \\n",
                "    .dot",
                "",
                "- an item",
                "  over two lines",
                "",
                "### Below",
                "",
                "| Key | Is |",
                "|---|---|",
                "| `k` | a key |",
                "",
                "```console",
                "$ command",
                "```",
                "'quoted'",
            ]
        )
        due = [
            ".PP",
            r"Text with \fBa\-b\fR, \fBbold\fR and a link, over two lines.",
            ".PP",
            ".RS 4",
            ".EX",
            r"code \-C \en",
            r"\&.dot",
            ".EE",
            ".RE",
            r".IP \(bu 2",
            "an item over two lines",
            '.SS "Below"',
            ".TP",
            r"\fBk\fR",
            "a key",
            ".PP",
            ".RS 4",
            ".EX",
            "$ command",
            ".EE",
            ".RE",
            ".PP",
            r"\(aqquoted\(aq",
        ]
        self.assertEqual(list(manuals.roff(markdown)), due)

    def test_tables_with_more_columns(self):
        wide = "| Table | Key | What | Range |\n|---|---|---|---|\n| top | `k` | a key | 1 to 3 |"
        self.assertEqual(list(manuals.roff(wide)), [".TP", r"top: \fBk\fR", "What: a key; Range: 1 to 3"])
        twice = "| Status | Means | Status | Means |\n|---|---|---|---|\n| 0 | a | 2 | c |\n| 1 | b | | |"
        self.assertEqual(list(manuals.roff(twice)), [".TP", "0", "a", ".TP", "1", "b", ".TP", "2", "c"])

    def test_a_part(self):
        text = "# T\n\n## A\n\none\n\n```\n## no heading\n```\n\n### B\n\ntwo\n\n## C\n\nthree\n"
        self.assertEqual(manuals.part(text, "## A"), "one\n\n```\n## no heading\n```\n\n### B\n\ntwo")
        with self.assertRaises(manuals.NoSuchPart):
            manuals.part(text, "## D")
        about = "# T\n\nOne. Two. The end is proved. More.\n\nThe start.\n"
        self.assertEqual(manuals.first_paragraph(about, without="The end is"), "One. Two.")
        with self.assertRaises(manuals.NoSuchPart):
            manuals.first_paragraph(about, without="The start")

    def test_the_pages(self):
        pages = sorted(self.unpacked().glob("share/man/*/*"))
        self.assertEqual([it.name for it in pages], ["avrora-tools.1", "avrora.1", "avrora-scenario.5", "avrora-trace.5"])
        main, scenario, trace = (it.read_text(encoding="utf-8") for it in pages[1:])
        about = main.partition('.SH "DESCRIPTION"')[2].partition(".SH")[0]
        self.assertIn("Intel HEX", about)
        self.assertNotIn("proved", about)
        self.assertIn(".TP\n\\fBrun \\-\\-plain FILE\\fR\nthe same, on one thread\n", main)
        self.assertRegex(main, r"\.TP\n\\fBwatch .*\\fR\nrun it, and write each change of .* once for each of its lines\n")
        self.assertIn(".TP\n10\nno proved program here, or the processor lacks a feature\n", main)
        self.assertIn(".TP\n\\fBSelfLink\\fR\na link from a node to itself\n", scenario)
        self.assertIn(".TP\nheard: \\fBCYCLE NODE heard STATUS BYTE AGE\\fR\n", trace)
        if not shutil.which("man"):
            self.skipTest("needs man (Debian's man-db)")
        for it in pages:
            shown = ran(["man", "--warnings", "-l", "-Tutf8", it], self.place, {**fake_kit.environment(), "MANWIDTH": "80", "LC_ALL": "C.UTF-8"})
            self.assertEqual((shown[0], shown[2]), (0, ""), it)


class Gate(unittest.TestCase):
    def test_edits_that_could_not_be_tried(self):
        """The gate does not count them."""
        want = gates.Wanted("c", "k logic 1", crates=3, edits=4)
        log = "gate: commit c, k logic 1\nrt: note: bad must-fail edits, as told above: 2. They fail nothing here\n{} passed, 0 failed\n"
        self.assertEqual(gates.last_line(log.format(5), want), "5 passed, 0 failed")
        with self.assertRaisesRegex(gates.NotGated, "it passed 7; this commit has 3 crates and 4 edits, 2 of them bad"):
            gates.last_line(log.format(7), want)


class Unpacked(check_docs.Here):
    """Where commands run: beside a release that nobody can write to, with its documents and copies of its examples."""

    def __init__(self, top):
        super().__init__(None)
        self.top = top

    @contextlib.contextmanager
    def place(self):
        with tempfile.TemporaryDirectory() as folder:
            for name in ("docs", "examples", "tools", "README.md"):
                ran(["cp", "-R", self.top / name, folder], folder)
            for name in ("avrora", "avrora-tools"):
                os.symlink(self.top / name, f"{folder}/{name}")
            yield folder


class Running(OfARepository):
    """A release with a real program."""

    def setUp(self):
        if not real_program():
            self.skipTest("no program of these sources is built here, and AVRORA_PROGRAM names none")
        super().setUp()
        self.made("--unproved", real_program())
        self.top = self.unpacked("a folder of somebody's")

    def test_the_commands_of_the_readme(self):
        text = (self.top / "README.md").read_text(encoding="utf-8")
        self.assertEqual(list(check_docs.run_commands("README.md", text, Unpacked(self.top))), [])

    def test_a_campaign(self):
        """Its runs go to other processes, with the tools from the release's zip."""
        with Unpacked(self.top).place() as folder:
            status, out, err = ran([f"{folder}/avrora-tools", "campaign", "examples/packet.campaign"], folder)
        if status == 3 and "python3-" in err:
            self.skipTest(err.strip())
        self.assertEqual((status, out.splitlines()[-1]), (1, "packet: 100 runs, 96 passed, 4 failed"), err)

    def test_the_script_for_pipelines(self):
        if not shutil.which("avr-gcc"):
            self.skipTest("needs avr-gcc (Debian's gcc-avr)")
        if ran([os.environ.get("PYTHON", "/usr/bin/python3"), "-c", "import junit_xml"], self.place)[0]:
            self.skipTest("needs junit_xml (Debian's python3-junit.xml)")
        mine = self.place / "my firmware"
        mine.mkdir()
        for name in ("relay", "flood", "packet"):
            for end in ("c", "toml", "expect"):
                shutil.copy(self.top / f"examples/{name}.{end}", mine)
        script = self.top / "examples/ci/check.sh"
        for shell in filter(shutil.which, ("dash", "bash")):
            status, out, err = ran([shell, script, mine, shell], self.place)
            self.assertEqual((status, err), (0, ""), out)
            self.assertIn("<testsuite ", (self.place / shell / "junit.xml").read_text(encoding="utf-8"))
            self.assertEqual((self.place / shell / "relay.hex").read_bytes(), (self.top / "examples/relay.hex").read_bytes())
        (mine / "relay.expect").write_text("run relay.toml\ncount == 1: * * sent *\n", encoding="utf-8")
        self.assertEqual(ran([script, mine, "again"], self.place)[0], 1)
        self.assertIn("<failure ", (self.place / "again/junit.xml").read_text(encoding="utf-8"))
        self.assertEqual(ran([script, "my firmware", "my firmware/out"], self.place), (2, "", "check.sh: my firmware/out lies in my firmware, which is copied there\n"))
        self.assertEqual(ran([script], self.place), (2, "", "usage: check.sh [--timeout SECONDS] FOLDER [OUT]\n"))


def main():
    if cause := check_docs.why_no_files():
        print(f"test_release: no test can run: {cause}", file=sys.stderr)
        return suites.CANNOT
    return suites.run("test_release", sys.modules[__name__], NEEDS)


if __name__ == "__main__":
    if sys.argv[1:2] in (["--help"], ["-h"]):
        sys.exit(print(__doc__))
    sys.exit(main())
