"""examples/ci/check.sh on folders that nobody wrote well: nothing of them is run, and nothing is written but in OUT."""
import os
import shutil
import subprocess
import xml.etree.ElementTree

import pytest

from firmware import needs_program as firmware_program
from pages_read import Page, check_policy
from support import DATA, LONG, TOP, needs_module, needs_program

SCRIPT = f"{TOP}/examples/ci/check.sh"
GOOD = "int main(void) { return 0; }\n"
CASE = "trace relay.trace\ntext 4 'relay'\n"

pytestmark = [
    pytest.mark.skipif(not shutil.which(program), reason=f"needs {program} (Debian's gcc-avr)")
    for program in ("avr-gcc", "avr-objcopy")
]


@pytest.fixture
def place(tmp_path):
    """A folder to check, beside one of the user's that is as it was afterwards."""
    (tmp_path / "home").mkdir()
    (tmp_path / "home" / "profile").write_text("mine\n")
    (tmp_path / "mine").mkdir()
    (tmp_path / "mine" / "good.c").write_text(GOOD)
    (tmp_path / "mine" / "good.expect").write_text(CASE)
    shutil.copy(f"{DATA}/relay.trace", tmp_path / "mine")
    yield tmp_path
    assert (tmp_path / "home" / "profile").read_text() == "mine\n" and os.listdir(tmp_path / "home") == ["profile"]
    assert not (tmp_path / "ran").exists()


def check(place, *words, **environment):
    """Runs the script on the folder `mine`; its status, output and errors."""
    done = subprocess.run(
        ["/bin/sh", SCRIPT, *(words or ["mine", "out"])],
        cwd=place,
        env={**os.environ, "AVRORA_HOME": TOP, "RAN": f"{place}/ran", **environment},
        stdin=subprocess.DEVNULL,
        capture_output=True,
        check=False,
        timeout=LONG,
    )
    return done.returncode, done.stdout.decode(), done.stderr.decode()


def write_spy(path):
    """A program that tells that it ran."""
    path.write_text('#!/bin/sh\n: >"$RAN"\nexit 1\n')
    path.chmod(0o755)


@needs_module("junit_xml", "python3-junit.xml")
def test_a_good_folder_twice(place):
    for _ in range(2):
        assert check(place) == (0, "TAP version 13\n1..1\nok 1 - ./good.expect # 260 rows, 1 expectations\n", "")
        assert xml.etree.ElementTree.parse(place / "out/junit.xml").getroot()[0].get("tests") == "1"
        (place / "out" / "stale.expect").write_text("no case")
    done = subprocess.run(
        ["sha256sum", "-c", "--strict", "SHA256SUMS"], cwd=place / "out", capture_output=True, check=False
    )
    assert done.returncode in (0, 1) and {"./good.hex: OK", "./good.c: OK"} <= set(done.stdout.decode().splitlines())


@needs_module("junit_xml", "python3-junit.xml")
@pytest.mark.parametrize(
    "name", ["@opts.c", "-x.c", "-wrapper.c", "-o.c", "$(touch ran).c", "a b\n.c", "'.c", '".c', "*.c", "\x1b[31m.c"]
)
def test_names_of_sources(place, name):
    """avr-gcc takes @FILE for a file of options, one of which runs a program."""
    write_spy(place / "mine" / "spy")
    (place / "mine" / "opts.c").write_text("-wrapper ./spy\n")
    (place / "mine" / name).write_text(GOOD if name != "@opts.c" else "-wrapper ./spy\n")
    (place / "mine" / "-x.expect").write_text(CASE)
    (place / "mine" / "--save.expect").write_text(CASE)
    if name == "@opts.c":
        assert check(place)[0] == 1
    os.unlink(place / "mine" / "opts.c")
    status, out, err = check(place)
    assert status == (1 if name == "@opts.c" else 0), err
    assert "\x1b" not in out + err


@needs_module("junit_xml", "python3-junit.xml")
@pytest.mark.parametrize("target", ["../home/profile", "../home", "../home/new"])
def test_links(place, target):
    names = ["junit.xml", "SHA256SUMS", "good.elf", "good.hex", ".check.sh", "deep"]
    for name in names:
        os.symlink(target, place / "mine" / name)
    status, _, err = check(place)
    assert (status, err) == (0, f"check.sh: left out: {len(names)} links, pipes or devices\n")
    assert not [name for name in os.listdir(place / "out") if os.path.islink(place / "out" / name)]


@needs_module("junit_xml", "python3-junit.xml")
def test_links_and_pipes_deeper(place):
    (place / "mine" / "sub").mkdir()
    os.symlink("../../home", place / "mine" / "sub" / "out")
    os.mkfifo(place / "mine" / "pipe.c")
    os.mkfifo(place / "mine" / "pipe.expect")
    os.link(place / "home" / "profile", place / "mine" / "good.hex")
    (place / "mine" / ".git").mkdir()
    (place / "mine" / ".git" / "config").write_text("")
    status, _, err = check(place)
    assert (status, err) == (0, "check.sh: left out: 3 links, pipes or devices\n")
    assert sorted(os.listdir(place / "out")) == [
        ".check.sh",
        "SHA256SUMS",
        "check.reports",
        "good.c",
        "good.elf",
        "good.expect",
        "good.hex",
        "junit.xml",
        "relay.trace",
        "sub",
    ]


@pytest.mark.parametrize(
    "words",
    [["mine", "out"], ["mine", "out/"], ["mine", "out/deep"], ["mine", "@/out"], ["mine", "@/out/deep"], ["mine"]],
)
def test_a_link_on_the_way_to_out(place, words):
    os.symlink("home", place / "out")
    os.symlink("home", place / "build")
    status, out, err = check(place, *(word.replace("@", str(place)) for word in words))
    assert (status, out) == (2, "") and err.endswith(": it is a link, and the tool writes through none\n")


@pytest.mark.parametrize("words", [["out", "made"], ["out/", "made"], ["out/deep", "made"], ["@/out", "made"]])
def test_a_link_for_the_folder(place, words):
    """What a link of the folder leads to would be copied to OUT, which a pipeline may hand out."""
    (place / "home" / "deep").mkdir()
    os.symlink("home", place / "out")
    status, out, err = check(place, *(word.replace("@", str(place)) for word in words))
    os.rmdir(place / "home" / "deep")
    assert (status, out) == (2, "") and err.endswith(": a link; name the folder that it leads to\n")
    assert not (place / "made").exists()


def test_an_out_of_the_users(place):
    assert check(place, "mine", "home") == (2, "", "check.sh: home: it is not empty, and of no earlier call\n")


@pytest.mark.parametrize(
    "words", [[], ["--timeout"], ["--timeout", "0", "mine"], ["--timeout", "1e3", "mine"], ["none"], ["mine", "a", "b"]]
)
def test_words(place, words):
    status, out, err = check(place, *(words or [""]))
    assert (status, out, err) == (2, "", "usage: check.sh [--timeout SECONDS] FOLDER [OUT]\n")


def test_programs_of_the_folder_are_not_run(place):
    """Also where the user looks for programs where he stands."""
    for name in (
        "avr-gcc",
        "avr-objcopy",
        "avrora-tools",
        "timeout",
        "find",
        "tar",
        "sed",
        "cat",
        "sha256sum",
        "python3",
    ):
        write_spy(place / "mine" / name)
        write_spy(place / name)
    for path in (
        f".:{os.environ['PATH']}",
        f":{os.environ['PATH']}",
        f"{os.environ['PATH']}:",
        f"mine:{os.environ['PATH']}",
    ):
        assert check(place, PATH=path, CDPATH=f"{place}/mine:.")[0] in (0, 1)


def test_modules_and_parts_of_the_compiler_are_not_those_of_the_folder(place):
    """An empty entry of these variables, as `$NAME:/other` leaves one, is the folder that is checked."""
    for name in ("cc1", "as", "ld", "collect2"):
        write_spy(place / "mine" / name)
    for name in ("sitecustomize", "json", "tempfile", "argparse"):
        (place / "mine" / f"{name}.py").write_text("import os\nopen(os.environ['RAN'], 'w').close()\n")
    for value in (":", ".", "/nowhere:", ":/nowhere"):
        variables = dict.fromkeys(("PYTHONPATH", "COMPILER_PATH", "LD_LIBRARY_PATH"), value)
        assert check(place, **variables)[0] == 0
        assert not (place / "ran").exists(), value


def test_a_file_of_terabytes_without_a_block(place):
    """Its copy would have blocks, and fill the disk."""
    (place / "mine" / "hole").touch()
    os.truncate(place / "mine" / "hole", 1 << 42)
    status, out, err = check(place)
    assert (status, out) == (2, "") and err == "check.sh: mine has more than 1073741824 bytes\n"
    assert os.listdir(place / "out") == [".check.sh"]


def test_a_path_of_relative_parts_alone(place):
    """What is left of it is empty, and that is the folder too."""
    for name in ("avr-gcc", "tar", "find", "dirname", "cat"):
        write_spy(place / name)
    check(place, PATH=".:")


def test_precompiled_headers(place):
    """They have code in them, of the compiler's own."""
    (place / "mine" / "x.h").write_text("#define RESULT 0\n")
    subprocess.run(["avr-gcc", "-mmcu=atmega128", "-Os", "-gdwarf-2", "-Wall", "x.h"], cwd=place / "mine", check=True)
    (place / "mine" / "x.h").write_text("#error it is read\n")
    (place / "mine" / "good.c").write_text('#include "x.h"\nint main(void) { return RESULT; }\n')
    status, _, err = check(place)
    assert status == 1 and "it is read" in err


def test_what_a_compiler_says(place):
    """A line of a log begins with no command to who reads it."""
    source = b"::set-output name=x::y\n\x1b[31m\n#error \x1b[2J::add-mask::x ##[x] ##vso[y]\n"
    (place / "mine" / "good.c").write_bytes(source)
    status, out, err = check(place)
    assert "#-#[x] #-#vso[y]" in err and "##" not in err
    assert (status, out) == (1, "") and "\x1b" not in err and all(line.startswith("| ") for line in err.splitlines())


def test_a_source_without_an_end(place):
    (place / "mine" / "good.c").write_text('#include "/dev/zero"\n')
    status, out, err = check(place, "--timeout", "5", "mine", "out")
    assert (status, out) == (1, "") and err.count("\n") < 20


@needs_module("junit_xml", "python3-junit.xml")
def test_a_case_without_an_end(place):
    rows = "".join(f"{cycle} 0 serial 61\n" for cycle in range(0, 60_000, 100))
    (place / "mine" / "long.trace").write_text(rows + "90000 0 end 1 running\n")
    (place / "mine" / "good.expect").write_text("trace long.trace\ntext 0 matches '(.*.*)*..#'\n")
    status, out, _ = check(place, "--timeout", "3", "mine", "out")
    assert status == 3 and "it took more than 3 seconds" in out


@needs_program("sha256sum", "coreutils")
def test_a_release_that_was_changed(place):
    home = place / "release"
    (home / "bin").mkdir(parents=True)
    write_spy(home / "avrora-tools")
    (home / "bin" / "avrora").write_text("a")
    sums = subprocess.run(["sha256sum", "bin/avrora", "avrora-tools"], cwd=home, capture_output=True, check=True).stdout
    (home / "SHA256SUMS").write_bytes(sums)
    (home / "bin" / "avrora").write_text("b")
    status, _, err = check(place, AVRORA_HOME=str(home))
    assert status == 3 and f"the programs in {home} are not those of its SHA256SUMS" in err


@firmware_program
@needs_module("junit_xml", "python3-junit.xml")
@needs_module("elftools", "python3-pyelftools")
def test_pages_and_coverage_are_left_for_a_person(place):
    """Of the cases, and of each scenario that a case runs; one that cannot be made is told, and what lay there is gone."""
    net = 'cycles = 2_000\nnode = [{ image = "good.hex" }]\n'
    for name in ("net", "bad", "idle"):
        (place / "mine" / f"{name}.toml").write_text(net)
    (place / "mine" / "bad.toml").write_text("cycles = 5\n")
    (place / "mine" / "net.expect").write_text("run net.toml\ncount == 0: * 0 sent *\n")
    (place / "mine" / "bad.expect").write_text("run   bad.toml\n* 0 sent *\n")
    (place / "mine" / "far.expect").write_text("run ../mine/net.toml\ncount == 0: * 0 sent *\n")
    (place / "mine" / "check.reports").mkdir()
    (place / "mine" / "check.reports" / "idle.html").write_text("<script>mine</script>")
    status, _, err = check(place)
    assert status == 2 and "no page of a scenario" in err and "NoNodes" in err
    assert sorted(os.listdir(place / "out" / "check.reports")) == ["cases.html", "net.html", "net.info"]
    cases, page = (Page((place / "out" / "check.reports" / name).read_text()) for name in ("cases.html", "net.html"))
    check_policy(cases)
    check_policy(page)
    assert len(cases.tables["table-cases"]) == 5 and "main" in page.column("covered-0", "function")
    info = (place / "out" / "check.reports" / "net.info").read_text()
    assert f"SF:{place}/out/good.c" in info and "FNDA:1,main" in info
