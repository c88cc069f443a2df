"""The simulator as one file, as workers elsewhere get it."""
import os
import subprocess
import sys

from avrora_tools import cli, files
from avrora_tools.errors import CannotWork

BUILT = "crates/avrora_program/out/rlib"


def program(path: str | None) -> bytes:
    """The simulator as one file that needs the C library alone. Where `path` is the script ./avrora that is the program
    which the script builds and starts."""
    path = cli.simulator(path)
    top = os.path.dirname(os.path.realpath(path))
    if not os.path.exists(f"{top}/prove.py"):
        return content_of(path)
    if subprocess.run([sys.executable, f"{top}/prove.py", "avrora_program", f"{top}/{BUILT}"], check=False).returncode:
        raise CannotWork("the simulator could not be built; see above")
    return content_of(f"{top}/{BUILT}/avrora_program")


def content_of(path: str) -> bytes:
    try:
        with open(path, "rb") as file:
            return file.read()
    except OSError as fault:
        raise CannotWork(f"cannot read the simulator {files.shown(path)}: {fault.strerror}") from None
