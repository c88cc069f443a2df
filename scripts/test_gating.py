#!/usr/bin/env python3
"""Tests of `.ci/run` without its gate: what it asks of a machine, how packages come, what a part that did not run does
to it, and its last lines. Stand-ins for apt-get, `rt` and the parts do what they are told.

    scripts/test_gating.py
"""
import contextlib
import io
import os
import re
import shutil
import signal
import subprocess
import sys
import tempfile
import unittest
import zipfile
from pathlib import Path
from unittest import mock

import fake_kit
from gating import machine, packages, parts, suites

TOP = Path(__file__).resolve().parent.parent

# Seconds that nothing takes but what hangs.
LONG = 120

NEEDS = ("bash", "git")

# An apt-get that notes its words, and puts a program into its own folder for each package but those of REFUSED.
APT_GET = """#!/usr/bin/env bash
here=$(dirname "$0")
read -r -t 5 line && echo "asked: $line" >>"$here/../said"
echo "$DEBIAN_FRONTEND: $*" >>"$here/../said"
[[ " $* " == *" install "* ]] || exit 0
for it in $REFUSED; do [[ " $* " != *" $it "* ]] || { echo "E: no package $it"; exit 100; }; done
for it in "${@: -1}" "$@"; do case $it in one | two | three) printf '#!/bin/sh\\n' >"$here/$it"; chmod +x "$here/$it" ;; esac; done
"""


def program(name):
    return packages.Package(name, "program", name, None)


# The scripts that come before the tools, in their order.
PARTS = (
    "check_docs",
    "test_doc_maps",
    "test_documents",
    "test_believed",
    "test_gating",
    "test_wrong_bodies",
    "test_first_run",
    "test_release",
)


class Folder(unittest.TestCase):
    """Has a folder of its own, whose bin is on the PATH."""

    def setUp(self):
        place = tempfile.TemporaryDirectory()
        self.addCleanup(place.cleanup)
        self.place = Path(place.name).resolve()
        (self.place / "bin").mkdir()
        self.change(PATH=f"{self.place}/bin:{os.environ['PATH']}", XDG_CACHE_HOME=f"{self.place}/cache")

    def change(self, **environment):
        changed = mock.patch.dict(os.environ, environment)
        changed.start()
        self.addCleanup(changed.stop)


class Packages(Folder):
    def setUp(self):
        super().setUp()
        fake_kit.write(self.place / "bin/apt-get", APT_GET)

    def set_up(self, *wanted, is_root=True):
        with contextlib.redirect_stderr(io.StringIO()) as self.told:
            return packages.set_up(list(wanted), sys.executable, is_root)

    def said(self):
        path = self.place / "said"
        return path.read_text(encoding="utf-8").splitlines() if path.exists() else []

    def test_the_list(self):
        listed = packages.listed()
        self.assertIn(packages.Package("python3-junit.xml", "module", "junit_xml", "junit-xml"), listed)
        self.assertEqual({it.kind for it in listed}, {"module", "program", "file"})
        self.assertEqual(len({it.name for it in listed}), len(listed))

    def test_each_that_a_test_asks_for_is_in_it(self):
        names = {it.name for it in packages.listed()}
        asked = set()
        for path in [*TOP.glob("tools/tests/*.py"), TOP / "scripts/test_release.py", TOP / "scripts/test_first_run.py"]:
            text = path.read_text(encoding="utf-8")
            for found in parts.LACKS.finditer(text):
                asked.update((found["names"] or found["name"]).split(", "))
            asked.update(re.findall(r'needs_(?:module|program)\("[^"]+", "([^"]+)"\)', text))
        self.assertLessEqual({"lintian", "python3-pip", "chromium"}, asked)
        self.assertEqual({it for it in asked if "{" not in it} - names, set())

    def test_what_is_missing(self):
        here, gone = packages.Package("a", "module", "json", None), packages.Package(
            "b", "module", "no_such_module", None
        )
        file, no_file = packages.Package("c", "file", "/", None), packages.Package("d", "file", "/nowhere/at/all", None)
        self.assertEqual(
            packages.missing([here, gone, file, no_file, program("sh"), program("one")], sys.executable),
            [gone, no_file, program("one")],
        )

    def test_nothing_is_done_where_nothing_is_missing(self):
        self.assertEqual(self.set_up(program("sh")), sys.executable)
        self.assertEqual((self.said(), self.told.getvalue()), ([], ""))

    def test_installed_by_root(self):
        self.assertEqual(self.set_up(program("sh"), program("one"), program("two")), sys.executable)
        update, install = self.said()
        self.assertRegex(update, "^noninteractive: -qq -y .* update$")
        self.assertRegex(install, "^noninteractive: -qq -y .* install --no-install-recommends one two$")

    def test_one_that_cannot_be_had(self):
        """The others are installed, and one command is told for it."""
        self.change(REFUSED="two")
        with self.assertRaises(packages.CannotHave) as caught:
            self.set_up(program("one"), program("two"), program("three"))
        self.assertIn("\n    apt-get install --no-install-recommends two\n", str(caught.exception))
        self.assertIn(".ci/run --without two", str(caught.exception))
        self.assertIn("apt-get ended with status 100; E: no package two", self.told.getvalue())
        self.assertTrue(all(shutil.which(it) for it in ("one", "three")))

    def test_one_that_does_not_end(self):
        fake_kit.write(self.place / "bin/apt-get", "#!/bin/sh\nexec sleep 3600\n")
        with mock.patch.multiple(packages, UPDATE=0.2, INSTALL=0.2), self.assertRaises(packages.CannotHave):
            self.set_up(program("one"), program("two"))
        self.assertIn("apt-get did not end in 0.2 s", self.told.getvalue())
        # nor is each tried alone for as long once more
        self.assertEqual(self.told.getvalue().count("did not end"), 2)

    def test_who_is_not_root(self):
        with self.assertRaises(packages.CannotHave) as caught:
            self.set_up(program("one"), is_root=False)
        self.assertIn("\n    sudo apt-get install --no-install-recommends one\n", str(caught.exception))
        self.assertEqual(self.said(), [])

    def test_wheels(self):
        """Who is not root has Python's packages in an environment of his own, which is used again."""
        if not packages.missing([packages.Package("python3-venv", "module", "ensurepip", None)], sys.executable):
            self.write_wheel()
            self.change(PIP_FIND_LINKS=str(self.place), PIP_NO_INDEX="1")
            wanted = packages.Package("python3-one", "module", "avrora_one", "avrora-one")
            python = self.set_up(program("sh"), wanted, is_root=False)
            self.assertEqual(python, packages.python_of(packages.environment_folder(sys.executable)))
            self.assertEqual(packages.missing([wanted], python), [])
            (self.place / "avrora_one-1-py3-none-any.whl").unlink()
            self.assertEqual(self.set_up(wanted, is_root=False), python)
            with self.assertRaises(packages.CannotHave):
                self.set_up(wanted._replace(shown_by="avrora_two", wheel="avrora-two"), is_root=False)
            self.assertIn(
                "-m pip" if "-m pip" in self.told.getvalue() else "python3 ended with status 1", self.told.getvalue()
            )
        else:
            self.skipTest("needs ensurepip (Debian's python3-venv)")

    def write_wheel(self):
        facts = "avrora_one-1.dist-info"
        with zipfile.ZipFile(self.place / "avrora_one-1-py3-none-any.whl", "w") as wheel:
            wheel.writestr("avrora_one.py", "")
            wheel.writestr(f"{facts}/METADATA", "Metadata-Version: 2.1\nName: avrora-one\nVersion: 1\n")
            wheel.writestr(
                f"{facts}/WHEEL", "Wheel-Version: 1.0\nGenerator: here\nRoot-Is-Purelib: true\nTag: py3-none-any\n"
            )
            wheel.writestr(
                f"{facts}/RECORD", f"avrora_one.py,,\n{facts}/METADATA,,\n{facts}/WHEEL,,\n{facts}/RECORD,,\n"
            )


class Machine(Folder):
    def number(self, name, text):
        path = self.place / name
        path.write_text(text, encoding="ascii")
        return str(path)

    def test_memory(self):
        meminfo = self.number("meminfo", "MemTotal: 9 kB\nMemAvailable:    4 kB\n")
        group = self.number("most", "3000\n"), self.number("held", "1000\n")
        unlimited = self.number("max", "max\n"), self.number("held", "1000\n")
        self.assertEqual(machine.free_memory(meminfo, (unlimited,)), 4096)
        self.assertEqual(machine.free_memory(meminfo, (unlimited, group)), 2000)
        self.assertIsNone(machine.free_memory("/nowhere", (("/nowhere", "/nowhere"),)))

    def test_what_is_too_little(self):
        self.assertEqual(machine.faults(str(self.place), 0, 0), [])
        memory, *disks = machine.faults(str(self.place), 10**18, 10**18)
        self.assertRegex(
            memory, r"^[\d.]+ GB of memory are free, and the check of a crate takes up to 1000000000\.0 GB$"
        )
        self.assertRegex(disks[0], rf"^[\d.]+ GB are free on the disk of {self.place}, and the gate writes up to ")


class Parts(Folder):
    def part(self, text, status=0, report=None):
        fake_kit.write(self.place / "part", f"#!/bin/sh\ncat <<'END'\n{text}\nEND\nexit {status}\n")
        with contextlib.redirect_stdout(io.StringIO()):
            return parts.Part("a part", [[str(self.place / "part")]], report).run({**os.environ})

    def test_counts(self):
        told = self.part("a: skipped b.test_c: needs x (Debian's one, two)\na: 7 tests, 0 not met, 1 skipped")
        self.assertEqual(
            (told.ran, told.wrong, told.skips), (6, 0, [parts.Skip("b.test_c", "needs x (Debian's one, two)")])
        )
        self.assertEqual(told.line(), "a part: 6 tests, 0 wrong; 1 skipped: needs x (Debian's one, two)")
        self.assertEqual(self.part("a: 17 documents, 2 wrong", 1).line(), "a part: 17 documents, 2 wrong")

    def test_what_counts_for_nothing(self):
        for why, text, status in (
            ("its last line tells no count: all is well", "all is well", 0),
            ("its last line tells no count: it has none", "", 0),
            ("nothing of it ran", "a: 2 tests, 0 not met, 2 skipped", 0),
            ("ended with status 9", "a: 2 tests, 0 not met, 0 skipped", 9),
        ):
            with self.subTest(why), self.assertRaisesRegex(
                parts.Failed, why if text else "its last line tells no count"
            ):
                self.part(text, status)

    def test_a_report(self):
        path = self.place / "report.xml"
        path.write_text(
            '<testsuites><testsuite><testcase name="a"/><testcase name="b"><failure message="m">text</failure></testcase><testcase name="c"><error/></testcase>'
            '<testcase name="d"><skipped message="needs x (Debian\'s one)">text</skipped></testcase></testsuite></testsuites>',
            encoding="utf-8",
        )
        told = self.part("", 1, str(path))
        self.assertEqual((told.ran, told.wrong, told.skips), (3, 2, [parts.Skip("d", "needs x (Debian's one)")]))
        for text in ("<testsuites", ""):
            path.write_text(text, encoding="utf-8")
            with self.assertRaisesRegex(parts.Failed, "its report cannot be read"):
                self.part("", 0, str(path))
        path.write_text("<testsuites/>", encoding="utf-8")
        with self.assertRaisesRegex(parts.Failed, "nothing of it ran"):
            self.part("", 0, str(path))

    def test_what_did_not_run(self):
        skips = [
            parts.Skip("a", "needs x (Debian's one)"),
            parts.Skip("b", "has no y. Debian: apt-get install two"),
            parts.Skip("c", "z is not installed"),
            parts.Skip("d", "needs the privilege to mount"),
        ]
        told = [parts.Told("tools", 1, "tests", 0, skips)]
        self.assertEqual([it.split()[1] for it in parts.lacking(told, [])], ["a", "b", "c"])
        self.assertEqual([it.split()[1] for it in parts.lacking(told, ["one"])], ["b", "c"])
        self.assertEqual([it.split()[1] for it in parts.lacking(told, ["one", "two", "z"])], ["c"])


# What stands in for the parts, each of which notes that it ran.
PART = "import sys\nopen('ran', 'a').write('{0} ')\nprint('{0}: 5 things, 0 wrong')\n"
TOOLS = """#!/bin/sh
for it; do case $it in --junitxml=*) cp report.xml "${it#*=}" ;; esac; done
"""
REPORT = '<testsuites><testcase name="a"/><testcase name="b">{}</testcase></testsuites>'
RT = """#!/usr/bin/env bash
[[ $1 == ci ]] || { echo 'fake-kit logic 01'; exit; }
echo "rt $*" >>ran
echo one; echo two >&2; echo three
GATE
"""


class Run(Folder):
    """`.ci/run` in a repository of stand-ins."""

    def setUp(self):
        super().setUp()
        self.top = self.stands = self.place / "repository"
        for path in (
            ".ci/run",
            "scripts/before_gate.py",
            "prove.py",
            "scripts/proved.py",
            *(
                str(it.relative_to(TOP))
                for folder in ("gating", "proving")
                for it in (TOP / "scripts" / folder).glob("*.py")
            ),
        ):
            (self.top / path).parent.mkdir(parents=True, exist_ok=True)
            shutil.copy2(TOP / path, self.top / path)
        for name in PARTS:
            fake_kit.write(self.top / f"scripts/{name}.py", PART.format(name))
        fake_kit.write(self.top / "tools/test", TOOLS)
        fake_kit.write_crates(self.top)
        self.write(
            "scripts/gating/packages.txt",
            "shell program:sh -\nlintian program:sh -\npython3-pytest-xdist program:sh -\nvalgrind program:sh -\n",
        )
        self.write("report.xml", REPORT.format(""))
        self.gate("echo 5 passed, 0 failed")
        subprocess.run(["git", "init", "-q"], cwd=self.top, check=True)

    def write(self, path, text):
        (self.top / path).write_text(text, encoding="utf-8")

    def gate(self, text):
        fake_kit.write(self.place / "bin/rt", RT.replace("GATE", text))
        fake_kit.write(self.place / "KIT-ID", "fake-kit logic 01\n")

    def run_all(self, *words, **environment):
        """The status of it, its lines, what it said of errors, and which parts and gate ran."""
        kept = {key: value for key, value in os.environ.items() if key not in ("PYTHON", "AVRORA_PROGRAM", "AVRORA")}
        (self.top / "ran").unlink(missing_ok=True)
        done = subprocess.run(
            [str(self.top / ".ci/run"), *words], cwd=self.stands, env={**kept, "PYTHON": sys.executable, "CI": "true", **environment},
            stdin=subprocess.DEVNULL, capture_output=True, text=True, timeout=LONG, check=False,
        )  # fmt: skip
        ran = self.top / "ran"
        return (
            done.returncode,
            done.stdout.splitlines(),
            done.stderr,
            ran.read_text(encoding="utf-8").split() if ran.exists() else [],
        )

    def test_a_plain_gate_is_its_last_command(self):
        self.assertIn("rt ci", (TOP / ".ci/run").read_text(encoding="utf-8").splitlines())

    def test_where_one_stands(self):
        """It may be a stranger's repository: the gate is that of the one in which the script lies."""
        self.stands = self.place / "other"
        self.stands.mkdir()
        subprocess.run(["git", "init", "-q"], cwd=self.stands, check=True)
        for name in ("before_gate.py", "gating/last_lines.py"):
            fake_kit.write(self.stands / f"scripts/{name}", "open('strange', 'w').close()\n")
        status, _, err, ran = self.run_all()
        self.assertEqual((status, bool(ran)), (0, True), err)
        self.assertEqual(sorted(it.name for it in self.stands.iterdir()), [".git", "scripts"])

    def test_the_last_lines(self):
        status, lines, err, ran = self.run_all()
        self.assertEqual(status, 0, err)
        self.assertEqual(
            ran,
            [
                *PARTS,
                "rt",
                "ci",
            ],
        )
        self.assertRegex(lines[0], "^gate: commit unknown, changed, fake-kit logic 01$")
        self.assertEqual(lines[-12:], [
            "one",
            "three",
            "documents: 5 things, 0 wrong",
            "maps: 5 things, 0 wrong",
            "checks: 5 things, 0 wrong",
            "what is believed: 5 things, 0 wrong",
            "set-up: 5 things, 0 wrong",
            "wrong bodies: 5 things, 0 wrong",
            "first run: 5 things, 0 wrong",
            "release: 5 things, 0 wrong",
            "tools: 2 tests, 0 wrong",
            "5 passed, 0 failed",
        ])  # fmt: skip

    def test_its_status_is_that_of_the_gate(self):
        for text, status, last in (
            ("echo 4 passed, 1 failed; exit 1", 1, "4 passed, 1 failed"),
            ("printf 'cut off'; exit 137", 137, "cut off"),
            ("kill -TERM $$", 143, "three"),
            # a process that the gate leaves behind is not waited for
            ("sleep 3600 2>/dev/null & echo $! >left; echo 5 passed, 0 failed", 0, "5 passed, 0 failed"),
        ):
            with self.subTest(text):
                self.gate(text)
                ended, lines, err, _ = self.run_all()
                if (self.top / "left").exists():
                    os.kill(int((self.top / "left").read_text(encoding="utf-8")), 9)
                self.assertEqual((ended, lines[-1]), (status, last), err)
                self.assertIn("tools: 2 tests, 0 wrong", lines[-3:])

    def assert_no_gate(self, status, said, *words, **environment):
        ended, lines, err, ran = self.run_all(*words, **environment)
        self.assertEqual(ended, status, err)
        self.assertRegex("\n".join(lines) + err, said)
        self.assertNotIn("rt", ran)

    def test_parts_heed_interrupts(self):
        """Also where `.ci/run` was started in the background, by a shell that has such commands ignore them."""
        ignored = "import signal\nassert signal.getsignal(signal.SIGINT) is not signal.SIG_IGN\n"
        fake_kit.write(self.top / "scripts/check_docs.py", ignored + PART.format("check_docs"))
        was = signal.signal(signal.SIGINT, signal.SIG_IGN)
        try:
            status, _, err, _ = self.run_all()
        finally:
            signal.signal(signal.SIGINT, was)
        self.assertEqual(status, 0, err)

    def test_a_part_that_is_not_met(self):
        fake_kit.write(
            self.top / "scripts/test_release.py",
            "import sys\nprint('test_release: 5 tests, 1 not met, 0 skipped')\nsys.exit(1)\n",
        )
        self.assert_no_gate(1, "release: 5 tests, 1 wrong")
        fake_kit.write(self.top / "scripts/test_release.py", "")
        self.assert_no_gate(1, "release: its last line tells no count")
        fake_kit.write(self.top / "scripts/test_release.py", PART.format("test_release"))
        self.write("report.xml", REPORT.format("<failure/>"))
        self.assert_no_gate(1, "tools: 2 tests, 1 wrong")
        (self.top / "report.xml").unlink()
        self.assert_no_gate(1, "tools: its report cannot be read")

    def test_a_test_that_did_not_run(self):
        self.write("report.xml", REPORT.format('<skipped message="needs lintian (Debian\'s lintian)"/>'))
        self.assert_no_gate(3, "tools: b did not run: needs lintian")
        self.assert_no_gate(3, "tools: b did not run: needs lintian", "--without", "valgrind")
        status, lines, err, _ = self.run_all("--without", "lintian")
        self.assertEqual(
            (status, lines[-2]), (0, "tools: 1 tests, 0 wrong; 1 skipped: needs lintian (Debian's lintian)"), err
        )
        self.write("report.xml", REPORT.format('<skipped message="no program is built here"/>'))
        self.assertEqual(self.run_all()[0], 0)

    def test_a_package_that_cannot_be_had(self):
        self.write("scripts/gating/packages.txt", "shell program:sh -\nnone program:no-such-program -\n")
        fake_kit.write(self.place / "bin/apt-get", "#!/bin/sh\nexit 100\n")
        self.assert_no_gate(3, "apt-get install --no-install-recommends none\n")

    def test_bad_words(self):
        self.assert_no_gate(2, "invalid choice: 'nothing'", "--without", "nothing")
        self.assert_no_gate(2, "unrecognized arguments: --anew", "--anew")

    def test_help(self):
        status, lines, err, ran = self.run_all("--help")
        self.assertEqual((status, err, ran), (0, "", []))
        self.assertTrue(lines[0].startswith("Runs all that must pass before a change lands: .ci/run [--without PACKAGE].."))

    def test_no_kit(self):
        self.assert_no_gate(
            3,
            "^.ci/run: there is no rt on the PATH",
            PATH=fake_kit.environment()["PATH"].replace(f"{self.place}/bin:", ""),
        )

    def test_no_python(self):
        self.assert_no_gate(3, "^.ci/run: there is no Python of version 3.11 or later", PYTHON="/nowhere")


if __name__ == "__main__":
    if sys.argv[1:2] in (["--help"], ["-h"]):
        sys.exit(print(__doc__))
    sys.exit(suites.run("test_gating", sys.modules[__name__], NEEDS))
