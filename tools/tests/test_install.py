"""The package, installed by pip into a fresh virtual environment: its command runs each tool, by each Python that is
here."""
import os
import re
import shutil
import subprocess
import sys

import pytest

from avrora_tools import main
from support import DATA, LONG, TOOLS, run_tool

NEWER = [f"python3.{minor}" for minor in range(sys.version_info.minor + 1, sys.version_info.minor + 5)]

# What is said where nothing is there to build a package with.
NO_BUILDER = re.compile(
    "No module named pip|No matching distribution|Could not find a version|Connection|resolve", re.I
)


def ended(*words, **options):
    return subprocess.run(
        words, stdin=subprocess.DEVNULL, capture_output=True, text=True, timeout=LONG, check=False, **options
    )


def pythons():
    """This Python, and newer ones that run."""
    return [
        sys.executable,
        *(name for name in NEWER if shutil.which(name) and ended(name, "--version").returncode == 0),
    ]


@pytest.fixture(scope="module")
def package(tmp_path_factory):
    """The package as a wheel, built by what is here, else by what pip gets from a network."""
    folder = tmp_path_factory.mktemp("package")
    shutil.copytree(TOOLS, f"{folder}/tools", ignore=shutil.ignore_patterns("__pycache__", "tests", ".*"))
    pip = [sys.executable, "-m", "pip", "wheel", "--no-input", "--no-deps", "-w", f"{folder}/wheels"]
    has_builder = ended(sys.executable, "-c", "import setuptools, wheel").returncode == 0
    done = ended(
        *pip, *(["--no-build-isolation", "--no-index"] if has_builder else ["--retries", "0"]), f"{folder}/tools"
    )
    if done.returncode and not has_builder and NO_BUILDER.search(done.stderr + done.stdout):
        pytest.skip("needs pip, and setuptools and wheel or a network (Debian's python3-pip, python3-wheel)")
    assert done.returncode == 0, done.stderr
    (wheel,) = os.listdir(f"{folder}/wheels")
    return f"{folder}/wheels/{wheel}"


@pytest.fixture(scope="module", params=pythons(), ids=os.path.basename)
def command(request, package, tmp_path_factory):
    """The command in a new environment, in which nothing else is."""
    venv = tmp_path_factory.mktemp("install") / "venv"
    if ended(request.param, "-m", "venv", str(venv)).returncode:
        own = " (Debian's python3-venv)" if request.param == sys.executable else ""
        pytest.skip(f"{request.param} makes no virtual environment with pip{own}")
    done = ended(f"{venv}/bin/python", "-m", "pip", "install", "--no-input", "--no-index", "--no-deps", package)
    assert done.returncode == 0, done.stderr
    return f"{venv}/bin/avrora-tools"


def used(command, *words):
    """How a tool ends; in a folder of its own, so that nothing of the checkout is imported."""
    done = ended(
        command, *words, cwd="/", env={name: value for name, value in os.environ.items() if name != "PYTHONPATH"}
    )
    return done.returncode, done.stdout, done.stderr


def test_the_help_of_each_tool(command):
    for name in main.names():
        status, out, err = used(command, name, "--help")
        assert (status, err) == (0, "") and f"example:\n  avrora-tools {name} " in out


@pytest.mark.parametrize(
    "words",
    [
        ["--version"],
        ["links", f"{DATA}/flood.toml", f"{DATA}/flood.trace"],
        ["expect", "--trace", f"{DATA}/relay.trace", f"{DATA}/none.expect"],
        ["console", f"{DATA}/relay.trace"],
        ["profile", f"{DATA}/relay.trace"],
        ["timeline", "-s", f"{DATA}/flood.toml", f"{DATA}/flood.trace"],  # a page that is a file of the package
        ["why", f"{DATA}/relay.toml"],
    ],
    ids=lambda words: words[0],
)
def test_a_use_is_as_from_the_checkout(command, words):
    assert used(command, *words) == run_tool(*words)


def test_a_package_that_is_missing_is_named(command):
    status, out, err = used(command, "annotate", "-e", f"{DATA}/relay.elf", f"{DATA}/relay.trace")
    assert (status, out) == (3, "") and re.fullmatch("avrora-tools annotate: .* has no pyelftools. .*\n", err)
