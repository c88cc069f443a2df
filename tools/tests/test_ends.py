"""How each tool ends where something is wrong about it: its status, and one line on the standard error."""
import gzip
import os
import pathlib
import shutil
import signal
import sys
import tempfile

import pytest

from avrora_tools import main
from support import CLOSED, DATA, TOP, run_tool

# The words of a good use of each tool, where @ is the folder of the inputs, and its status.
USES = {
    "annotate": (["-s", "@relay.toml", "@relay.trace"], 0),
    "campaign": (["--list", "@relay.campaign"], 0),
    "changes": (["-w", "SREG", "@relay.toml"], None),  # it needs the simulator
    "console": (["@relay.trace"], 0),
    "diff": (["@relay.trace", "@flood.trace"], 1),
    "energy": (["--always-listening", "@currents.toml", "@energy.toml", "@energy.profile"], 0),
    "expect": (["--trace", "@relay.trace", "@relay.expect"], 0),
    "export": (["csv", "@relay.trace"], 0),
    "gdb": (["--avrora", "@avrora", "@relay.toml"], None),  # it speaks with gdb
    "hunt": (["--until", "9000", "@relay.toml"], None),  # it needs the simulator
    "inspect": (["@net.state"], 0),
    "links": (["@relay.toml", "@relay.trace"], 0),
    "mknet": (["line", "relay.hex*5"], 0),
    "profile": (["-s", "@relay.toml", "@relay.trace"], 0),
    "report": (["--avrora", "@avrora", "--no-sleep", "--trace", "@relay.trace", "@relay.toml"], 0),
    "rerun": (["--runs", "1", "/dev/null", "--", "true"], None),  # it tells what it does on the standard error
    "sweep": (
        ["--start", "0=5..6", "--until", "9000", "--compare", "bytes", "@relay.toml"],
        None,
    ),  # it needs the simulator
    "timeline": (["-s", "@relay.toml", "@relay.trace"], 0),
    "vcd": (["-s", "@relay.toml", "@relay.trace"], 0),
    "when": (["@relay.toml", "0", "0000"], None),  # it needs the simulator
    "why": (["@relay.toml"], 0),
    "window": (["--avrora", "@avrora", "@relay.toml", "80_000", "90_000"], 0),
}

# Another file than these is not an input: it is written, or run.
NO_INPUTS = ("@avrora",)

ONES = [
    (tool, place)
    for tool, (words, _) in USES.items()
    for place, word in enumerate(words)
    if word[0] == "@" and word not in NO_INPUTS
]
TOML = [(tool, place) for tool, place in ONES if USES[tool][0][place].endswith((".toml", ".campaign"))]

STATE = "\n".join(
    [
        "avrora state 1",
        "cycle 262144",
        f"core 0 {' '.join('0' * 41)}",
        f"timers 0 {' '.join('0' * 38)}",
        f"ports 0 {' '.join('0' * 29)}",
        f"io 0 {'0' * 448}",
        f"sram 0 {'0' * 8192}",
        "end",
        "",
    ]
)


@pytest.fixture(scope="module")
def place():
    """A folder that all may read, with an input of each kind."""
    with tempfile.TemporaryDirectory() as name:
        folder = pathlib.Path(name)
        folder.chmod(0o755)
        fill(folder)
        yield folder


def fill(folder):
    for name in ("relay.toml", "relay.trace", "relay.hex", "flood.trace"):
        shutil.copy(f"{DATA}/{name}", folder / name)
    shutil.copy(f"{TOP}/examples/relay.expect", folder)
    for name, text in (
        ("relay.campaign", '[[run]]\nscenario = "relay.toml"\n'),
        ("currents.toml", "awake = 8\nasleep = 2\nsending = 20\nlistening = 10\nhz = 1_000\n"),
        ("energy.toml", 'cycles = 100\nwindow = [0, 100]\nnode = [{ image = "a.hex" }]\n'),
        ("energy.profile", "0 lead 0\n0 at 0051 1 1\n0 asleep 99\n0 stopped 0\n0 charge 107\n"),
        ("net.state", STATE),
        ("avrora", f"#!{sys.executable} -IS\nimport sys\n{simulated(folder)}"),
    ):
        (folder / name).write_text(text)
    (folder / "avrora").chmod(0o755)


def simulated(folder):
    """A simulator of relay.toml: its trace, and of `monitor` a report."""
    monitor = "".join(f"{node} lead 0\n{node} at 0000 1 1\n{node} asleep 89999\n{node} stopped 0\n{node} charge 90007\n" for node in range(5))
    return f"print({monitor!r} if sys.argv[1] == 'monitor' else open({str(folder / 'relay.trace')!r}).read(), end='')\n"


def words_of(tool, place, changes=None):
    """The words of a use with some of them changed, by their place."""
    return [
        (changes or {}).get(number, str(place / word[1:]) if word[0] == "@" else word)
        for number, word in enumerate(USES[tool][0])
    ]


def told(tool, err, *parts):
    """Whether the errors are a line of the tool that has these parts, and nothing more."""
    return err.startswith(f"avrora-tools {tool}: ") and err.count("\n") == 1 and all(part in err for part in parts)


def test_a_use_of_each_tool_is_here():
    assert sorted(USES) == main.names()


@pytest.mark.parametrize("tool", [tool for tool, (_, status) in USES.items() if status is not None])
class TestOutput:
    """Each tool that writes what it found to the standard output."""

    def test_a_good_use(self, tool, place):
        status, out, err = run_tool(tool, *words_of(tool, place))
        assert (status, err, bool(out)) == (USES[tool][1], "", True)

    @pytest.mark.skipif(not os.path.exists("/dev/full"), reason="needs /dev/full")
    def test_a_full_disk(self, tool, place):
        with open("/dev/full", "wb") as full:
            status, _, err = run_tool(tool, *words_of(tool, place), out=full)
        assert status == 3 and told(tool, err, "write failed: No space left on device")

    def test_a_closed_output(self, tool, place):
        status, _, err = run_tool(tool, *words_of(tool, place), out=CLOSED)
        assert status == 3 and told(tool, err, "write failed")

    def test_a_closed_pipe(self, tool, place):
        read, write = os.pipe()
        os.close(read)
        with open(write, "wb") as pipe:
            status, _, err = run_tool(tool, *words_of(tool, place), out=pipe)
        assert (status, err) == (-signal.SIGPIPE, "")  # as cat ends


@pytest.mark.skipif(not os.path.exists("/dev/full"), reason="needs /dev/full")
@pytest.mark.parametrize("tool", list(USES))
def test_the_help_and_a_full_disk(tool):
    with open("/dev/full", "wb") as full:
        status, _, err = run_tool(tool, "--help", out=full)
    assert status == 3 and told(tool, err, "write failed: No space left on device")


@pytest.mark.parametrize("tool, number", ONES)
class TestInputs:
    """Each file that a tool reads."""

    def ended(self, tool, place, number, path, **options):
        """The status of the tool on another file, whose line names it; of `expect` also what it tells of a case."""
        status, out, err = run_tool(tool, *words_of(tool, place, {number: path}), **options)
        name = os.fsencode(os.path.basename(path)).decode("utf-8", "backslashreplace").replace("\n", "\\x0A")
        if tool == "expect" and out:
            assert err == "" and out.count("not ok") == 1 and name in out
        else:
            assert told(tool, err, name)
        return status

    def test_no_file(self, tool, place, number):
        assert self.ended(tool, place, number, str(place / "none")) == 2

    def test_a_folder(self, tool, place, number):
        (place / "folder").mkdir(exist_ok=True)
        assert self.ended(tool, place, number, str(place / "folder")) == 2

    def test_a_name_that_is_no_text(self, tool, place, number):
        assert self.ended(tool, place, number, os.fsdecode(b"/nowhere/\xff\n.toml")) == 2

    def test_a_packed_file_that_is_cut_off(self, tool, place, number):
        content = (place / USES[tool][0][number][1:]).read_bytes()
        (place / "cut.gz").write_bytes(gzip.compress(content)[:-6])
        assert self.ended(tool, place, number, str(place / "cut.gz")) == 2

    def test_a_packed_file_that_is_none(self, tool, place, number):
        (place / "none.gz").write_bytes(b"no gzip")
        assert self.ended(tool, place, number, str(place / "none.gz")) == 2

    def test_no_permission(self, tool, place, number):
        """It is not the input that is at fault."""
        main.command(tool)  # what it imports is read by who may
        path = place / "secret"
        path.write_text("x")
        path.chmod(0)
        assert self.ended(tool, place, number, str(path), by_nobody=True) == 3

    def test_bytes_that_are_no_text(self, tool, place, number):
        (place / "bytes").write_bytes(b"\xff\xfe\x00\n" * 100)
        assert self.ended(tool, place, number, str(place / "bytes")) in (1, 2)


# By its name a text of many levels.
DEEP = {
    "arrays": "a = " + "[" * 100_000,
    "tables": "a = " + "{b = " * 50_000,
    "names": "[" + "a." * 50_000 + "a]",
    "deeper than the simulator goes": "a = " + "[" * 150 + "]" * 150,
}


@pytest.mark.parametrize("tool, number", TOML)
@pytest.mark.parametrize("name", list(DEEP))
def test_toml_in_many_levels(tool, number, name, place):
    (place / "deep.toml").write_text(DEEP[name])
    status, out, err = run_tool(tool, *words_of(tool, place, {number: str(place / "deep.toml")}))
    if tool == "why":
        assert (status, err, out.count("\n")) == (1, "", 1) and out.startswith("NotToml: ")
    else:
        assert status == 2 and told(tool, err, "deep.toml")
