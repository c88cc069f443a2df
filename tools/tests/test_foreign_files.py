"""What a case may name: it is read to an end, none of a secret is told, and nothing is written elsewhere."""
import os
import shutil
import time

import pytest

from avrora_tools import cases, main, toml
from avrora_tools.errors import BadInput
from support import DATA, run_tool

SECRET = "token-hunter2 is the secret of this machine\nmore hunter2\n"


@pytest.fixture
def place(tmp_path):
    """A folder with a trace, beside one with a secret, which stays as it is."""
    for name in ("mine", "secret"):
        (tmp_path / name).mkdir()
    (tmp_path / "secret" / "file").write_text(SECRET)
    (tmp_path / "secret" / "rows").write_text("1 0 sent 41\n" + SECRET)
    shutil.copy(f"{DATA}/relay.trace", tmp_path / "mine")
    os.symlink("../secret/file", tmp_path / "mine" / "link")
    os.symlink("../secret/new", tmp_path / "mine" / "dangling")
    os.symlink("../secret", tmp_path / "mine" / "folder")
    os.link(tmp_path / "secret" / "file", tmp_path / "mine" / "second")
    os.mkfifo(tmp_path / "mine" / "pipe")
    (tmp_path / "mine" / ".git").mkdir()
    for name in (".env", ".git/config"):
        (tmp_path / "mine" / name).write_text(SECRET)
    yield tmp_path / "mine"
    assert (tmp_path / "secret" / "file").read_text() == SECRET
    assert sorted(os.listdir(tmp_path / "secret")) == ["file", "rows"]


def expect(place, case, *words):
    (place / "a.expect").write_text(case)
    status, out, err = run_tool("expect", *words, f"{place}/a.expect")
    assert "hunter2" not in out + err and not err
    return status, out


@pytest.mark.parametrize(
    "name", [*"@/secret/file ../secret/file link second folder/file folder/rows @/secret/rows .env .git/config".split()]
)
def test_secrets_are_not_told(place, name):
    name = name.replace("@", str(place.parent))
    for case in (
        f"trace {name}\n* * sent *\n",
        f"trace relay.trace\ngolden {name}\n",
        f"trace relay.trace\ngolden {name} without cycles\n",
    ):
        status, out = expect(place, case)
        assert status == 2 and "line" in out and "none of its text is told" in out, case


def test_what_lies_here_is_told(place):
    (place / "sub").mkdir()
    (place / "sub" / "rows").write_text("a fault\n")
    for case in ("trace sub/rows\n* * sent *\n", "trace relay.trace\ngolden sub/rows\n"):
        status, out = expect(place, case)
        assert status == 2 and "a fault" in out


@pytest.mark.parametrize("name", ["pipe", "/dev/zero"])
def test_what_has_no_end(place, name):
    simulator = place / "avrora"
    simulator.write_text("#!/bin/sh\nexec cat $2\n")
    simulator.chmod(0o755)
    (place / "net.toml").write_text(f"cycles = 9\nnode = [{{ image = '{name}' }}]\n")
    for source in (
        f"trace {name}",
        f"trace relay.trace\ngolden {name}",
        f"run {name}",
        f"node {name} 10",
        "run net.toml",
    ):
        case = source + ("\n" if "golden" in source else "\n* 0 sent *\n")
        status, out = expect(place, case, "--timeout", "60", "--avrora", str(simulator))
        assert status == 2 and "a device or a pipe, and no file" in out, source


@pytest.mark.parametrize(
    "words",
    [
        "changes -w PORTB net.toml",
        "changes --breaks PORTB==0 net.toml",
        "gdb net.toml",
        "hunt --minutes 1 net.toml",
        "inspect --at 5 net.toml",
        "report --no-sleep -o page.html net.toml",
        "sweep --start 0=100..103 net.toml",
        "vcd --watch PORTB -s net.toml relay.trace",
        "when net.toml 0 00BC",
        "window net.toml 0 100",
    ],
)
def test_an_image_that_has_no_end_is_not_waited_for(place, monkeypatch, words):
    simulator = place / "avrora"
    simulator.write_text("#!/bin/sh\nexit 9\n")
    simulator.chmod(0o755)
    monkeypatch.chdir(place)
    monkeypatch.setenv("AVRORA_PROGRAM", str(simulator))
    text = "cycles = 5_000\nnode = [{ image = 'pipe' }, { image = 'pipe' }]\nlink = [{ from = 0, to = 1 }]\n"
    (place / "net.toml").write_text(text + "input = [{ node = 0, at = 100, hex = '41' }]\n")
    with pytest.raises(BadInput, match="pipe: a device or a pipe, and no file"):
        main.run(words.split())


@pytest.mark.parametrize(
    "name",
    [
        "@/secret/new",
        "@/secret/file",
        "../secret/new",
        "../b.rows",
        "folder/new",
        "link",
        "dangling",
        "folder",
        "sub/../../secret/new",
        "pipe",
    ],
)
def test_golden_traces_are_saved_here_alone(place, name):
    name = name.replace("@", str(place.parent))
    before = {*os.listdir(place), "a.expect"}
    status, out = expect(place, f"trace relay.trace\ngolden {name}\n", "--save")
    assert status == 2 and ("leads out of" in out or "a link" in out or "no file" in out)
    assert {*os.listdir(place)} == before
    assert not (place.parent / "b.rows").exists()


@pytest.mark.parametrize("name", ["a.rows", "sub/a.rows", "sub/../a.rows", "./a.rows", "@/mine/a.rows"])
def test_golden_traces_are_saved_here(place, name):
    (place / "sub").mkdir()
    name = name.replace("@", str(place.parent))
    assert expect(place, f"trace relay.trace\ngolden {name}\n", "--save")[0] == 0
    assert expect(place, f"trace relay.trace\ngolden {name}\n")[0] == 0


@pytest.mark.parametrize("name", ["a.expect", "net.toml", "main.c", ".envrc", ".git/hooks/post-checkout", "sub/.git/x"])
def test_golden_traces_are_saved_over_nothing_else(place, name):
    for path in ("net.toml", "main.c", ".envrc"):
        (place / path).write_text("mine\n")
    for path in (".git/hooks", "sub/.git"):
        (place / path).mkdir(parents=True)
    text = f"trace relay.trace\ngolden {name}\n"
    status, out = expect(place, text, "--save")
    assert status == 2 and ("hidden" in out or "no golden trace" in out)
    assert (place / "a.expect").read_text() == text
    assert all((place / path).read_text() == "mine\n" for path in ("net.toml", "main.c", ".envrc"))
    assert not os.listdir(place / ".git/hooks") and not os.listdir(place / "sub/.git")


@pytest.mark.parametrize("former", ["", "1 0 sent 72\n", "0 sent 72\n"], ids=["empty", "rows", "without cycles"])
def test_golden_traces_are_saved_over_a_former_one(place, former):
    (place / "a.rows").write_text(former)
    assert expect(place, "trace relay.trace\ngolden a.rows\n", "--save")[0] == 0
    assert expect(place, "trace relay.trace\ngolden a.rows\n")[0] == 0


MARKS = 100_000
SECONDS = 60  # of a processor; where each mark is sought an end of again it takes many minutes


@pytest.mark.parametrize(
    "text",
    ['a = "' + r"\"" * MARKS, 'a = """\n' + '\\"""\n' * MARKS + "\\", "a = '''\n" + "''\n" * MARKS],
    ids=["a text", "a text of lines", "a literal text"],
)
def test_texts_that_nothing_ends(text):
    begun = time.process_time()
    with pytest.raises(toml.NotToml):
        toml.loads(text)
    assert list(toml.statements(text)) and time.process_time() - begun < SECONDS


def test_quotes_that_nothing_ends():
    for line, left in (("run it's.toml  # c", "run it's.toml  "), ("text 0 'a#b' # c", "text 0 'a#b' ")):
        assert cases.without_comment(line) == left
    begun = time.process_time()
    assert len(cases.without_comment('"' + r"\"" * MARKS)) == 2 * MARKS + 1
    assert time.process_time() - begun < SECONDS


def test_a_case_of_many_rows(tmp_path):
    """What stands above a row is not gone through for each."""
    begun = time.process_time()
    (tmp_path / "a.expect").write_text("".join(f"{cycle} 0 sent AA\n" for cycle in range(20_000)))
    assert len(cases.read_case(f"{tmp_path}/a.expect").statements) == 20_000
    (tmp_path / "a.expect").write_text("never * 0 sent AA\n" * 20_000 + "* 0 sent BB\n")
    assert len(cases.read_case(f"{tmp_path}/a.expect").statements) == 20_001
    assert time.process_time() - begun < SECONDS


MADE = "the system makes what is read there, and it is no file"


@pytest.mark.parametrize("name", ["/proc/self/environ", "/proc/kmsg", "/proc/self/pagemap", "environ", "sub/environ"])
def test_what_the_system_makes(place, name):
    """Its files may have no end, have secrets, or be waited for, and are files by their kind."""
    (place / "sub").mkdir()
    for path in (place / "environ", place / "sub" / "environ"):
        os.symlink("/proc/self/environ", path)
    (place / "net.toml").write_text(f"cycles = 9\nnode = [{{ image = '{name}' }}]\n")
    (place / "empty.toml").write_text("cycles = 9\nnode = [{ image = 'empty.hex' }]\n")
    (place / "empty.hex").write_text(":00000001FF\n")
    for source in (
        f"trace {name}",
        f"trace relay.trace\ngolden {name}",
        f"run {name}",
        f"node {name} 10",
        f"run empty.toml\nelf {name}\nalways 0 head < 9",
        "run net.toml",
    ):
        case = source + ("\n" if "golden" in source or "always" in source else "\n* 0 sent *\n")
        status, out = expect(place, case, "--timeout", "60", "--avrora", "/bin/false")
        assert status == 2 and (MADE in out or "Permission denied" in out), source
