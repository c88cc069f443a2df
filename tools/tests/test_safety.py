"""Where one stands in a folder of a stranger nothing of it is run or imported, whatever PATH and PYTHONPATH say."""
import os
import shutil
import subprocess
import sys

import pytest

from avrora_tools import main
from support import DATA, LONG, TOP

PROGRAMS = ["awk", "avr-gdb", "cat", "dirname", "env", "git", "mktemp", "python3", "realpath", "rt", "tail"]
MODULES = ["argparse", "avrora_tools", "hashlib", "json", "proved", "sitecustomize", "tempfile", "tomllib", "typing"]

SPY = "#!/bin/sh\n: >>%s/%s\nexit 1\n"
SPY_MODULE = "import os\nos.close(os.open('%s/%s', os.O_CREAT))\n"


@pytest.fixture
def place(tmp_path):
    """A folder of a stranger with programs and modules, none of which runs."""
    mine, ran = tmp_path / "mine", tmp_path / "ran"
    mine.mkdir()
    ran.mkdir()
    for name in PROGRAMS:
        (mine / name).write_text(SPY % (ran, name))
        (mine / name).chmod(0o755)
    for name in MODULES:
        (mine / f"{name}.py").write_text(SPY_MODULE % (ran, name))
    shutil.copy(f"{DATA}/relay.toml", mine)
    yield mine
    assert not os.listdir(ran)


def called(place, *words, **environment):
    """The status of a call from the stranger's folder, and what it said."""
    done = subprocess.run(
        words, cwd=place, env={**os.environ, **environment}, stdin=subprocess.DEVNULL, stdout=subprocess.PIPE,
        stderr=subprocess.STDOUT, text=True, timeout=LONG, check=False,
    )  # fmt: skip
    return done.returncode, done.stdout


PATHS = [f".:{os.environ['PATH']}", f":{os.environ['PATH']}", f"../mine:{os.environ['PATH']}", ".", ""]
MODULE_PATHS = [":", ".", "", "/nowhere:", "../mine"]


@pytest.mark.parametrize(("path", "modules"), list(zip(PATHS, MODULE_PATHS)))
def test_the_launchers(place, path, modules):
    environment = {"PATH": path, "PYTHONPATH": modules}
    assert called(place, f"{TOP}/avrora", "--version", **environment)[1].startswith("avrora ")
    for words in (["run", "relay.toml"], ["--adopt", "/nowhere/it"]):
        status, said = called(place, f"{TOP}/avrora", *words, **environment, AVRORA_PROGRAM="/nowhere/it")
        assert status == 10 and "/nowhere/it" in said, said
    status, said = called(place, f"{TOP}/avrora-tools", "why", "relay.toml", **environment, PYTHON=sys.executable)
    assert status == 0 and said.startswith("no fault in the scenario"), said


def test_an_environment_of_the_folder(place):
    """What activates one gives its whole name."""
    (place / "bin").mkdir()
    shutil.copy(place / "python3", place / "bin")
    environment = {name: value for name, value in os.environ.items() if name != "PYTHON"} | {"VIRTUAL_ENV": "."}
    words = [f"{TOP}/avrora-tools", "why", "relay.toml"]
    done = subprocess.run(words, cwd=place, env=environment, capture_output=True, text=True, timeout=LONG, check=False)
    assert (done.returncode, done.stderr) == (0, "")


@pytest.mark.parametrize("path", PATHS)
def test_the_launcher_of_a_release(place, path):
    home = place.parent / "release"
    (home / "bin").mkdir(parents=True)
    (home / "libexec" / "avrora").mkdir(parents=True)
    shutil.copy(f"{TOP}/scripts/releases/avrora", home / "bin")
    shutil.copy(f"{TOP}/scripts/launcher.sh", home / "libexec" / "avrora")
    (home / "libexec" / "avrora" / "version").write_text("avrora 1\n")
    assert called(place, f"{home}/bin/avrora", "--version", PATH=path, PYTHONPATH=":") == (0, "avrora 1\n")


LIBRARIES = [":", "/nowhere:", ":/nowhere", "/nowhere;", "../mine:/nowhere", "./"]
TELLS = """#!/bin/sh
echo "$LD_LIBRARY_PATH" >%s
"""


def teller(tmp_path):
    """A program that tells where its libraries are looked for, and the file where it tells it."""
    program, told = tmp_path / "teller", tmp_path / "told"
    program.write_text(TELLS % told)
    program.chmod(0o755)
    return program, told


@pytest.mark.parametrize("libraries", LIBRARIES)
def test_libraries_of_a_simulator(place, tmp_path, libraries):
    """It runs in the folder of its case, where no library of it is looked for: by the launcher and where it is
    installed."""
    program, told = teller(tmp_path)
    (place / "it.expect").write_text("run relay.toml\nnever * * stop *\n")
    (tmp_path / "here").mkdir()
    environment = {"LD_LIBRARY_PATH": libraries, "AVRORA_PROGRAM": f"{program}", "PYTHON": sys.executable}
    for words in ([f"{TOP}/avrora-tools"], [sys.executable, f"{TOP}/tools"]):
        called(tmp_path / "here", *words, "expect", "../mine/it.expect", **environment)
        assert told.read_text().strip() in ("", "/nowhere")
        told.unlink()


@pytest.mark.parametrize("libraries", LIBRARIES)
def test_libraries_of_the_program_elsewhere(place, tmp_path, libraries):
    """-C leads into the stranger's folder before the program starts."""
    program, told = teller(tmp_path)
    home = tmp_path / "release"
    (home / "bin").mkdir(parents=True)
    (home / "libexec" / "avrora").mkdir(parents=True)
    shutil.copy(f"{TOP}/scripts/releases/avrora", home / "bin")
    shutil.copy(f"{TOP}/scripts/launcher.sh", home / "libexec" / "avrora")
    shutil.copy(program, home / "libexec" / "avrora" / "avrora_program")
    (tmp_path / "here").mkdir()
    called(tmp_path / "here", f"{home}/bin/avrora", "-C", "../mine", "run", "relay.toml", LD_LIBRARY_PATH=libraries)
    assert told.read_text().strip() in ("", "/nowhere")


@pytest.mark.parametrize("path", PATHS)
def test_gdb(place, monkeypatch, path):
    """The tool starts the one of the system, or none."""
    started = []
    monkeypatch.chdir(place)
    monkeypatch.setenv("PATH", path)
    monkeypatch.setenv("AVRORA_PROGRAM", "/nowhere/it")
    monkeypatch.setattr(sys.stdin, "isatty", lambda: True, raising=False)
    monkeypatch.setattr(os, "execv", lambda program, words: started.append(program) or sys.exit(0))
    with pytest.raises((SystemExit, main.ToolError)):
        main.run(["gdb", "relay.toml"])
    assert all(os.path.isabs(program) and not program.startswith(f"{place}") for program in started)
