"""How the command and each of its tools end: statuses, one line on the standard error, streams that are closed."""
import argparse
import os
import signal
import stat
import subprocess
import unittest
import unittest.mock

from support import DATA, TOOL, TOP, run_tool, scratch
from avrora_tools import cli, files, main

# The tools that read a trace, each with the words that it wants before it.
READERS = {
    "annotate": [],
    "console": [],
    "links": [f"{DATA}/relay.toml"],
    "profile": [],
    "timeline": [],
    "vcd": ["-n", "0"],
}


class Ends(unittest.TestCase):
    """Status 2 with one line for bad input, quietly where the output is closed."""

    def each_says(self, trace, message, stdin=""):
        for name, words in READERS.items():
            with self.subTest(name):
                status, out, err = run_tool(name, *words, trace, stdin=stdin)
                self.assertEqual((status, out, err), (2, "", f"avrora-tools {name}: {message}\n"))

    def test_no_trace(self):
        self.each_says("-", "standard input, line 1: no row of a trace: ok 5 nodes", "ok 5 nodes\n")

    def test_empty_trace(self):
        self.each_says("-", "standard input: an empty trace")

    def test_no_file(self):
        self.each_says("/nowhere", "cannot read /nowhere: No such file or directory")

    def test_large_files(self):
        for tool, words in (("why", []), ("annotate", ["-s"])):
            status, out, err = run_tool(tool, *words, "/dev/zero")
            self.assertEqual(
                (status, out, err), (2, "", f"avrora-tools {tool}: /dev/zero: more than 16,777,216 bytes\n")
            )

    def test_closed_pipe(self):
        rows = [f"{cycle} 0 serial 0A\n" for cycle in range(20_000)]
        for name, words in (("console", ["--hex"]), ("annotate", []), ("vcd", ["-n", "0"])):
            with self.subTest(name):
                tool = subprocess.Popen(
                    [*TOOL, name, *words, "-"], stdin=subprocess.PIPE, stdout=subprocess.PIPE, stderr=subprocess.PIPE
                )
                tool.stdout.close()
                _, err = tool.communicate("".join([*rows, "20000 0 end 1 running\n"]).encode())
                self.assertEqual((tool.returncode, err), (-signal.SIGPIPE, b""))  # as cat ends

    @unittest.skipUnless(os.path.exists("/dev/full"), "needs /dev/full")
    def test_full_device(self):
        with open("/dev/full", "wb") as full:
            done = subprocess.run(
                [*TOOL, "console", f"{DATA}/relay.trace"], stdout=full, stderr=subprocess.PIPE, check=False
            )
        said = b"avrora-tools console: write failed: No space left on device\n"
        self.assertEqual((done.returncode, done.stderr), (3, said))

    def test_closed_streams(self):
        """A closed standard input cannot be read, a closed output not written; what nobody can be told is not told."""
        for closed, status, said in (("<&-", 2, "cannot read standard input"), (">&-", 3, "write failed")):
            words = f'exec "$@" {closed}'
            source = [] if closed == "<&-" else [f"{DATA}/relay.trace"]
            done = subprocess.run(
                ["/bin/sh", "-c", words, "sh", *TOOL, "console", *source], capture_output=True, text=True, check=False
            )
            self.assertEqual(done.returncode, status, done.stderr)
            self.assertIn(f"avrora-tools console: {said}", done.stderr)
            self.assertEqual(done.stderr.count("\n"), 1)
        done = subprocess.run(
            ["/bin/sh", "-c", 'exec "$@" 2>&-', "sh", *TOOL, "console", "/nowhere"], capture_output=True, check=False
        )
        self.assertEqual((done.returncode, done.stdout), (2, b""))

    def test_names_that_are_no_text(self):
        name = b"/nowhere/\xff\n.trace"
        done = subprocess.run([*TOOL, "console", name], capture_output=True, check=False)
        said = b"avrora-tools console: cannot read /nowhere/\\xff\\x0A.trace: No such file or directory\n"
        self.assertEqual((done.returncode, done.stderr), (2, said))

    def test_a_folder_for_a_file(self):
        for name, words in READERS.items():
            status, out, err = run_tool(name, *words, "/tmp")
            self.assertEqual((status, out, err), (2, "", f"avrora-tools {name}: cannot read /tmp: Is a directory\n"))

    def test_no_place_to_write(self):
        status, out, err = run_tool("timeline", "-o", "/nowhere/page.html", f"{DATA}/relay.trace")
        self.assertEqual((status, out), (3, ""))
        self.assertRegex(err, r"^avrora-tools timeline: .*No such file or directory\n$")

    def test_a_fault_of_a_tool(self):
        """A line, and the traceback on request alone."""
        with scratch(
            "tomllib.py", "def loads(*_, **__): raise ZeroDivisionError('one\\ntwo')\nTOMLDecodeError = OSError\n"
        ) as path:
            env = {"PYTHONPATH": os.path.dirname(path)}
            status, out, err = run_tool("why", f"{DATA}/relay.toml", env=env)
            self.assertEqual((status, out), (3, ""))
            self.assertIn("a fault of this tool: ZeroDivisionError: one; --traceback", err)
            self.assertEqual(err.count("\n"), 1)
            status, _, err = run_tool("--traceback", "why", f"{DATA}/relay.toml", env=env)
            self.assertEqual((status, "Traceback" in err), (3, True))
            status, _, err = run_tool("why", f"{DATA}/relay.toml", env=env | {main.TRACEBACK_VARIABLE: "1"})
            self.assertEqual((status, "Traceback" in err), (3, True))


class Command(unittest.TestCase):
    def test_help(self):
        status, out, err = run_tool("--help")
        self.assertEqual((status, err), (0, ""))
        for name in main.names():
            self.assertIn(f"\n  {name} ", out)

    def test_help_of_each_has_an_example(self):
        for name in main.names():
            with self.subTest(name):
                status, out, err = run_tool(name, "--help")
                self.assertEqual((status, err), (0, ""))
                self.assertIn(f"example:\n  avrora-tools {name} ", out)

    def test_bad_words(self):
        run_tool("console", "--nope")  # after which a call without a tool has the package's name again
        for words, said in (
            ([], "avrora-tools: no tool is named; --help lists them all\n"),
            (["nothing"], "avrora-tools: no tool is called nothing; --help lists them all\n"),
            (["../main"], "avrora-tools: no tool is called ../main; --help lists them all\n"),
            (["console", "--nope"], "avrora-tools console: unrecognized arguments: --nope; --help lists the words\n"),
        ):
            self.assertEqual(run_tool(*words), (2, "", said))

    def test_the_launcher(self):
        """From any folder, and through a link."""
        with scratch("x") as path:
            link = f"{os.path.dirname(path)}/tools"
            os.symlink(f"{TOP}/avrora-tools", link)
            done = subprocess.run([link, "--version"], cwd="/", capture_output=True, text=True, check=False)
        self.assertEqual((done.returncode, done.stderr, done.stdout[:13]), (0, "", "avrora-tools "))

    def test_no_python(self):
        done = subprocess.run(
            [f"{TOP}/avrora-tools"],
            env={**os.environ, "PYTHON": "/nowhere"},
            capture_output=True,
            text=True,
            check=False,
        )
        self.assertEqual(done.returncode, 3)
        self.assertIn("no Python of version 3.11 or later", done.stderr)


class Words(unittest.TestCase):
    def test_node_set(self):
        self.assertEqual(cli.node_set("0,2-4,63"), {0, 2, 3, 4, 63})
        for text in ("", "a", "4-2", "64", "1-", "1,,2", "\u0661"):
            with self.subTest(text), self.assertRaises(argparse.ArgumentTypeError):
                cli.node_set(text)

    def test_numbers(self):
        self.assertEqual((cli.natural("0"), cli.positive("1_000")), (0, 1000))
        for text in ("", "-1", "1__0", "_1", "1.0", "\u0661", "9" * 5000):
            with self.subTest(text), self.assertRaises(argparse.ArgumentTypeError):
                cli.natural(text)
        with self.assertRaises(argparse.ArgumentTypeError):
            cli.positive("0")

    def test_shown(self):
        self.assertEqual(cli.shown_byte(0x72), "72 'r'")
        self.assertEqual(cli.shown_byte(0x0A), "0A")
        self.assertEqual(cli.shown_cycle(7_372_800, 7_372_800), "    1.000000s")

    def test_the_simulator(self):
        named = {cli.PROGRAM_VARIABLE: "/p", cli.SIMULATOR_VARIABLE: "/s"}
        with unittest.mock.patch.dict(os.environ, named):
            self.assertEqual((cli.simulator("/w"), cli.simulator()), ("/w", "/p"))
            del os.environ[cli.PROGRAM_VARIABLE]
            self.assertEqual(cli.simulator(), "/s")
            del os.environ[cli.SIMULATOR_VARIABLE]
            self.assertEqual(cli.simulator(), f"{TOP}/avrora")


class WholeFiles(unittest.TestCase):
    def test_whole_or_not_at_all(self):
        with scratch("out", "before") as path:
            with self.assertRaises(ZeroDivisionError), files.whole_file(path) as file:
                file.write("half")
                1 / 0
            with open(path, encoding="utf-8") as file:
                self.assertEqual(file.read(), "before")
            files.write_whole(path, "after")
            with open(path, encoding="utf-8") as file:
                self.assertEqual(file.read(), "after")
            self.assertEqual(os.listdir(os.path.dirname(path)), ["out"])

    def test_a_folder_that_is_not_there(self):
        """What is named is the file that was asked for."""
        status, _, err = run_tool("timeline", "-o", "/nowhere/page.html", f"{DATA}/relay.trace")
        self.assertEqual((status, err), (3, "avrora-tools timeline: /nowhere/page.html: No such file or directory\n"))

    def test_what_is_no_file_stays(self):
        """A device or a pipe is written to, and is not replaced; a link is refused."""
        with scratch("target", "before") as path:
            folder = os.path.dirname(path)
            link, pipe = f"{folder}/link", f"{folder}/pipe"
            os.symlink("target", link)
            status, _, err = run_tool("timeline", "-o", link, f"{DATA}/relay.trace")
            self.assertEqual(
                (status, err), (2, f"avrora-tools timeline: {link}: it is a link, and the tool writes through none\n")
            )
            with open(path, encoding="utf-8") as file:
                self.assertEqual(file.read(), "before")
            os.mkfifo(pipe)
            with open(os.open(pipe, os.O_RDONLY | os.O_NONBLOCK), "rb") as reader:
                files.write_whole(pipe, b"through")
                self.assertEqual(reader.read(), b"through")
            self.assertTrue(stat.S_ISFIFO(os.stat(pipe).st_mode))
            self.assertEqual(sorted(os.listdir(folder)), ["link", "pipe", "target"])
