"""Names and values of a stranger's files, in what the tools write: none moves a cursor, begins a line or ends an
element."""
import collections
import html.parser
import io
import json
import os
import re
import shutil
import xml.etree.ElementTree

import pytest

from avrora_tools import events, reports, results, runs, showing, variables
from support import DATA, needs_module, run_tool, scratch
from test_ends import STATE

# A name that colours, clears, ends its line, turns the direction, ends elements, begins comments and data of a dump.
HOSTILE = "\x1b[31m\r\n#1\x9b2J\u202e\u2028<!--<script>&\"'$end\x07"

# In an ELF file, where it replaces a name of the same length.
REPLACED = {b"transfer\0": b"\x1b[2J\n#9x\0", b"relay.c\0": b"\x1b[2J\n#9\0", b"main\0": b"\n#7\x07\0"}


def is_clean(text):
    """Whether all lines show, and none begins within a name."""
    return all(line.isprintable() for line in text.split("\n")) and not re.search(r"(?m)^#(9[x:]|7$)", text)


@pytest.fixture
def place(tmp_path):
    for name in ("relay.toml", "relay.trace", "relay.hex"):
        shutil.copy(f"{DATA}/{name}", tmp_path)
    with open(f"{DATA}/relay.elf", "rb") as file:
        content = file.read()
    for old, new in REPLACED.items():
        assert old in content and len(old) == len(new)
        content = content.replace(old, new)
    (tmp_path / "relay.elf").write_bytes(content)
    (tmp_path / "net.state").write_text(STATE)
    return tmp_path


@needs_module("elftools", "python3-pyelftools")
@pytest.mark.parametrize(
    "tool, words",
    [
        ("annotate", ["-s", "relay.toml", "-e", "relay.elf", "relay.trace"]),
        ("profile", ["--callers", "--lines", "--coverage", "-s", "relay.toml", "-e", "relay.elf", "relay.trace"]),
        ("vcd", ["-s", "relay.toml", "-e", "relay.elf", "relay.trace"]),
        ("inspect", ["-e", "relay.elf", "-g", "*", "net.state"]),
    ],
)
def test_names_of_a_program(tool, words, place, monkeypatch):
    monkeypatch.chdir(place)
    status, out, err = run_tool(tool, *words)
    assert status == 0 and is_clean(out) and is_clean(err)
    assert "\\x" in out or tool in ("inspect", "vcd")
    if tool == "vcd":
        assert all(re.fullmatch(r"#\d+|[01xs].*|b[01x]+ \S+|\$.*", line) for line in out.splitlines())


@needs_module("elftools", "python3-pyelftools")
def test_the_path_of_a_program(place, monkeypatch):
    monkeypatch.chdir(place)
    os.rename("relay.elf", "a\x1b[31m\n.elf")
    status, out, _ = run_tool("profile", "--coverage", "-e", "a\x1b[31m\n.elf", "relay.trace")
    assert status == 0 and is_clean(out) and r"instructions of a\x1B[31m\x0A.elf that ran" in out


@pytest.mark.parametrize(
    "text", [f"cycles = 9\n{json.dumps(HOSTILE)} = 1\nnode = [{{ image = 'a' }}]\n", "cycles = '\x07'\n", "\x1b[31m"]
)
def test_keys_and_values_of_a_scenario(text):
    with scratch("a\n\x1b[31m.toml", text) as path:
        for words in (["why", path], ["links", path], ["window", path, "0", "9"]):
            status, out, err = run_tool(*words)
            assert status and is_clean(out) and is_clean(err) and f"{out}{err}".count("\n") in (1, 2, 3)


def test_what_the_simulator_says_of_an_image(tmp_path):
    """`window` hands on what the simulator says, and in that are names of files."""
    simulator = tmp_path / "avrora"
    simulator.write_text(
        "#!/bin/sh\nprintf 'avrora: \\033[31m.hex: image refused: NotARecord, line 1\\n' >&2\nexit 5\n"
    )
    simulator.chmod(0o755)
    (tmp_path / "a.hex").write_text(":00000001FF\n")
    (tmp_path / "a.toml").write_text("cycles = 9\nnode = [{ image = 'a.hex' }]\n")
    status, out, err = run_tool("window", "--avrora", str(simulator), str(tmp_path / "a.toml"), "0", "9")
    assert status == 2 and not out and err == "avrora: \\x1B[31m.hex: image refused: NotARecord, line 1\n"


class Page(html.parser.HTMLParser):
    def __init__(self, text):
        super().__init__()
        self.tags, self.scripts, self.attributes, self.id = [], collections.defaultdict(str), [], None
        self.feed(text)
        self.close()

    @property
    def script(self):
        return "".join(self.scripts.values())

    def handle_starttag(self, tag, attributes):
        self.tags.append(tag)
        self.attributes += attributes
        self.id = dict(attributes).get("id", "")

    def handle_data(self, data):
        if self.tags[-1:] == ["script"]:
            self.scripts[self.id] += data


@pytest.mark.parametrize("name", ["<!--<script>", "</script><script>", "]]>", HOSTILE.replace("/", "")])
class TestPictures:
    def scenario(self, name):
        return f"cycles = 9\nwindow = [0, 0]\nnode = [{{ image = {json.dumps(f'{name}.hex')} }}]\n"

    def test_a_page(self, name):
        """It ends its script once, and all of it is data."""
        rows = "5 0 sent 41\n9 0 end 1 running\n"
        with scratch("a.toml", self.scenario(name)) as path, scratch(f"{name.replace('/', '')}.trace", rows) as trace:
            status, out, _ = run_tool("timeline", "-s", path, trace)
        page, plain = Page(out), Page(run_tool("timeline", stdin=rows)[1])
        assert status == 0 and page.tags == plain.tags and "<!--" not in page.script
        data = json.loads(page.scripts["timeline-data"])
        assert data["nodes"][0]["name"] == "0 " + showing.printable(os.path.basename(f"{name}.hex")[:-4])

    def test_a_picture(self, name):
        """It has the elements of one without names; a long name is cut."""
        rows = "5 0 sent 41\n9 0 end 1 running\n"
        with scratch("a.toml", self.scenario(name)) as path, scratch("a.toml", self.scenario("a")) as other:
            status, out, _ = run_tool("timeline", "--svg", "-s", path, stdin=rows)
            plain = run_tool("timeline", "--svg", "-s", other, stdin=rows)[1]
        found, wanted = (xml.etree.ElementTree.fromstring(text) for text in (out, plain))
        assert status == 0 and is_clean("".join(found.itertext()))
        assert {element.tag for element in found.iter()} == {element.tag for element in wanted.iter()}

    def test_a_dump(self, name):
        with scratch("a.toml", self.scenario(name)) as path:
            status, out, _ = run_tool("vcd", "-s", path, stdin="5 0 sent 41\n9 0 end 1 running\n")
        assert status == 0 and is_clean(out) and out.isascii()
        assert len([line for line in out.splitlines() if line.startswith("$scope")]) == 2


class TestExpect:
    @needs_module("junit_xml", "python3-junit.xml")
    def test_the_name_and_rows_of_a_case(self, tmp_path):
        case, golden = tmp_path / "a\n\x1b[31m]]>&\u202e.expect", tmp_path / "g\n\x1b[2J.rows"
        case.write_text("text 4 'no\\x1b[31m'\ntext 3 matches 'x]]>'\n")
        status, out, err = run_tool(
            "expect", "--trace", f"{DATA}/relay.trace", "--junit", f"{tmp_path}/out.xml", str(case)
        )
        assert status == 1 and is_clean(out) and is_clean(err) and out.count("not ok") == 1
        (found,) = xml.etree.ElementTree.parse(tmp_path / "out.xml").iter("testcase")
        assert found.get("name") == showing.printable(str(case)) and is_clean(
            "".join(found.itertext()).replace("\t", "")
        )
        golden.write_bytes("0 0 sent 41 \x1b[31m\u202e\n".encode())
        case.write_text(f"golden {golden}\n")
        status, out, _ = run_tool("expect", "--trace", f"{DATA}/relay.trace", str(case))
        assert status == 2 and is_clean(out)

    def test_what_the_simulator_says(self, tmp_path):
        said = tmp_path / "avrora"
        said.write_text("#!/bin/sh\nprintf 'a\\033[31m\\nnot ok 7\\n' >&2\nexit 4\n")
        said.chmod(0o755)
        (tmp_path / "a.expect").write_text("run a\x1b[31m.toml\n* 0 sent *\n")
        status, out, _ = run_tool("expect", "--avrora", str(said), f"{tmp_path}/a.expect")
        assert status == 2 and is_clean(out) and out.count("\nnot ok") == 1


class Report(reports.Report):
    """Of two runs, whatever a file of results may have of them."""

    def __init__(self):
        super().__init__([])

    def about(self, key):
        return HOSTILE

    def total(self):
        return 2

    def outcomes(self):
        return collections.Counter({runs.FAILED: 1, runs.BROKEN: 1})

    def compared(self):
        return []

    def rows(self, where=runs.OUTCOMES):
        for outcome in (runs.FAILED, runs.BROKEN):
            row = dict.fromkeys(results.COLUMNS, HOSTILE)
            yield {**row, "outcome": outcome, "seconds": 1.0, "message": f"why {HOSTILE}\nmore {HOSTILE}\n"}


def test_the_table_of_a_campaign():
    out = io.StringIO()
    Report().write_table(out)
    assert is_clean(out.getvalue()) and r"\x1B[31m" in out.getvalue()


def test_the_xml_of_a_campaign():
    out = io.BytesIO()
    Report().write_junit(out)
    suite = xml.etree.ElementTree.fromstring(out.getvalue())[0]
    texts = ["".join(suite.itertext()), *(value for element in suite.iter() for value in element.attrib.values())]
    assert [case.get("name") for case in suite.iter("testcase")] == [showing.printable(HOSTILE)] * 2
    assert all(map(is_clean, texts))


def test_messages():
    status, _, err = run_tool("console", f"/nowhere/{HOSTILE}")
    assert status == 2 and is_clean(err) and err.count("\n") == 1


@pytest.mark.parametrize(
    "text", [f"stop {HOSTILE}", "instr 0000 nop\x1b", "sent 4\u0661", "serial 41\x9b", "stop 0000 BREAK\u202e"]
)
def test_rows_have_no_such_text(text):
    """What `annotate`, `diff`, `window` and others write of rows needs no care."""
    assert events.event_of(text) is None


def test_entries_that_stand_for_themselves():
    """Of debugging information, which goes round in a file that nobody's compiler wrote."""

    class Entry:
        def __init__(self):
            self.offset, self.attributes, self.tag = (
                7,
                {"DW_AT_abstract_origin": None, "DW_AT_type": None},
                "DW_TAG_const_type",
            )

        def get_DIE_from_attribute(self, _name):
            return self

    unit = variables.Unit(None, frozenset([7]))
    assert unit.attribute(Entry(), "DW_AT_name") is None
    assert unit.behind(Entry(), ("DW_TAG_const_type",)).offset == 7
