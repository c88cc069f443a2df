"""The Debian packages that tests need: which of them are missing, and how they come here."""
import json
import os
import shutil
import subprocess
import sys
import time
from typing import Iterable, NamedTuple

LIST = f"{os.path.dirname(os.path.realpath(__file__))}/packages.txt"

# How long each step of an install may take, in seconds.
UPDATE, INSTALL, WHEELS = 300, 1200, 600

APT = [
    "apt-get", "-qq", "-y", "-o", "DPkg::Lock::Timeout=300", "-o", "Dpkg::Use-Pty=0", "-o", "Dpkg::Options::=--force-confold",
    "-o", "Acquire::Retries=3", "-o", "Acquire::http::Timeout=60",
]  # fmt: skip

# Asks an interpreter which of these modules it finds.
FIND = (
    "import importlib.util, json, sys; print(json.dumps([it for it in sys.argv[1:] if importlib.util.find_spec(it)]))"
)


class Package(NamedTuple):
    """A line of the list."""

    name: str
    kind: str
    shown_by: str
    wheel: str | None


class CannotHave(Exception):
    """Why the packages cannot be had here, and what to type."""


def listed(path: str = LIST) -> list[Package]:
    """All packages of the list."""
    found = []
    with open(path, encoding="utf-8") as it:
        for line in it:
            if line.strip() and not line.startswith("#"):
                name, shown, wheel = line.split()
                kind, _, by = shown.partition(":")
                found.append(Package(name, kind, by, None if wheel == "-" else wheel))
    return found


def missing(packages: Iterable[Package], python: str) -> list[Package]:
    """Those that are not here, the modules as this interpreter sees them."""
    packages = list(packages)
    modules = [it.shown_by for it in packages if it.kind == "module"]
    asked = subprocess.run(
        [python, "-c", FIND, *modules], stdin=subprocess.DEVNULL, capture_output=True, text=True, check=True
    )
    found = set(json.loads(asked.stdout))
    return [it for it in packages if not (it.shown_by in found if it.kind == "module" else is_here(it))]


def is_here(package: Package) -> bool:
    """Whether the program or the file of a package is here."""
    return bool(shutil.which(package.shown_by)) if package.kind == "program" else os.path.exists(package.shown_by)


def ended(words: list[str], seconds: float) -> str | None:
    """Why a command did not end well, if it did not; it asks nobody."""
    quiet = {**os.environ, "DEBIAN_FRONTEND": "noninteractive", "DEBCONF_NONINTERACTIVE_SEEN": "true"}
    try:
        done = subprocess.run(
            words,
            env=quiet,
            stdin=subprocess.DEVNULL,
            stdout=subprocess.PIPE,
            stderr=subprocess.STDOUT,
            text=True,
            errors="replace",
            timeout=seconds,
            check=False,
        )
    except OSError as fault:
        return f"{words[0]} cannot be run: {fault.strerror}"
    except subprocess.TimeoutExpired:
        return f"{words[0]} did not end in {seconds:.1f} s"
    said = done.stdout.strip().splitlines()[-3:]
    return "; ".join([f"{words[0]} ended with status {done.returncode}", *said]) if done.returncode else None


def install(names: list[str]) -> list[str]:
    """Installs Debian packages, each alone where all together are refused; what went wrong, a line each. All of it takes
    no longer than UPDATE and INSTALL say.
    """
    wrong = ended([*APT, "update"], UPDATE)
    words, ends = [*APT, "install", "--no-install-recommends"], time.monotonic() + INSTALL
    together = ended([*words, *names], INSTALL)
    if together is None:
        return []
    alone = [together]
    if len(names) > 1 and time.monotonic() < ends:
        alone = [why for name in names if (why := ended([*words, name], max(0.0, ends - time.monotonic())))]
    return [it for it in [wrong, *alone] if it]


def make_environment(folder: str, python: str, wheels: list[str]) -> list[str]:
    """Makes a private environment over what this interpreter has, with these wheels; what went wrong, a line each."""
    wrong = ended([python, "-m", "venv", "--system-site-packages", folder], WHEELS)
    wrong = wrong or ended(
        [python_of(folder), "-m", "pip", "install", "-q", "--no-input", "--retries", "1", "--timeout", "30", *wheels],
        WHEELS,
    )
    return [wrong] if wrong else []


def python_of(folder: str) -> str:
    return f"{folder}/bin/python3"


def environment_folder(python: str) -> str:
    """Where the private environment of this interpreter is, which all checkouts of a user share."""
    cache = os.environ.get("XDG_CACHE_HOME") or os.path.expanduser("~/.cache")
    return f"{cache}/avrora/tests{python.replace('/', '-')}"


def command(names: list[str], is_root: bool) -> str:
    """What somebody types who wants these packages."""
    return f"{'' if is_root else 'sudo '}apt-get install --no-install-recommends {' '.join(names)}"


def set_up(packages: list[Package], python: str, is_root: bool) -> str:
    """Sees to it that these packages are here, and answers which interpreter has them."""
    lacks, wrong = missing(packages, python), []
    if lacks and is_root and shutil.which("apt-get"):
        tell(f"installs {names_of(lacks)}")
        wrong += install([it.name for it in lacks])
        lacks = missing(packages, python)
    folder = environment_folder(python)
    if any(it.wheel for it in lacks) and os.access(python_of(folder), os.X_OK):
        python, lacks = python_of(folder), missing(packages, python_of(folder))
    if wheels := [it.wheel for it in lacks if it.wheel]:
        tell(f"makes the environment {folder} with {' '.join(wheels)}")
        failed = make_environment(folder, python, wheels)
        wrong += failed
        if not failed:
            python = python_of(folder)
            lacks = missing(packages, python)
    if lacks:
        for it in wrong:
            tell(it)
        names = [it.name for it in lacks]
        without = " ".join(f"--without {it}" for it in names)
        raise CannotHave(
            f"tests need packages that are not here; type\n    {command(names, is_root)}\nor leave their tests out by: .ci/run {without}"
        )
    return python


def names_of(packages: Iterable[Package]) -> str:
    return " ".join(it.name for it in packages)


def tell(text: str) -> None:
    print(f".ci/run: {text}", file=sys.stderr, flush=True)
