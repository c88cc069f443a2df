"""Where the command begins. Until its subcommand is there to hear ^C, ^C ends the process as it ends any other, without
a traceback of imports."""
import os
import re
import signal
from typing import NoReturn

# Where the system looks for the libraries of each program that is started.
LIBRARIES = "LD_LIBRARY_PATH"


def keep_whole_names() -> None:
    """A simulator runs in the folder of its case, which may be a stranger's: no library is looked for from there."""
    if LIBRARIES in os.environ:
        folders = re.split("[:;]", os.environ[LIBRARIES])
        os.environ[LIBRARIES] = ":".join(filter(os.path.isabs, folders))


def main() -> NoReturn:
    keep_whole_names()
    # And not where it is ignored, as behind a shell's `&`.
    if signal.getsignal(signal.SIGINT) is signal.default_int_handler:
        signal.signal(signal.SIGINT, signal.SIG_DFL)
    from avrora_tools import main as command

    command.main()
