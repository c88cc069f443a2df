"""campaign: ^C at any moment from the first on ends it without a traceback, and the same command goes on."""
import glob
import os
import random
import signal
import subprocess
import time

import pytest

from campaign_runs import folder, hear_interrupts, hidden_dask, run_campaign
from support import LONG, SEED, TOP

TEXT = """[[run]]
scenario = "net.toml"
expect = "net.expect"
[run.vary]
latency = { from = 30, to = 39 }
"""
DRAWS = 8
# What no user is to see.
TELLTALES = ("Traceback", "Fatal Python error", "KeyboardInterrupt", "ignored in")

ENDED = (130, -signal.SIGINT)  # by the tool, or by the system before the tool hears it


def environment(path, **more):
    return {
        **os.environ,
        "CAMPAIGN_LOG": f"{path}/log",
        "TMPDIR": f"{path}/tmp",
        **hidden_dask(path),
        **more,
    }


def begun(path, env):
    """The campaign as a shell of a terminal starts it: it leads a group, which ^C is sent to."""
    words = [f"{TOP}/avrora-tools", "campaign", "--jobs", "2", "--avrora", f"{path}/avrora", f"{path}/c.toml"]
    streams = {"stdin": subprocess.DEVNULL, "stdout": subprocess.DEVNULL, "stderr": subprocess.PIPE, "text": True}
    return subprocess.Popen(words, env=env, preexec_fn=hear_interrupts, process_group=0, **streams)


def test_at_drawn_moments():
    """From the start to what a whole campaign takes, or the first second."""
    drawn = random.Random(SEED)
    with folder(TEXT) as path:
        os.mkdir(f"{path}/tmp")
        env = environment(path)
        start = time.monotonic()
        with begun(path, env) as process:
            assert process.wait(LONG) == 0, process.stderr.read()
        whole = time.monotonic() - start
        for _ in range(DRAWS):
            moment = drawn.uniform(0, max(1.0, whole))
            with begun(path, env) as process:
                time.sleep(moment)
                os.killpg(process.pid, signal.SIGINT)
                errors = process.communicate(timeout=LONG)[1]
            told = f"seed {SEED}, after {moment:.3f} s of {whole:.3f}: status {process.returncode}\n{errors}"
            assert process.returncode in (0, *ENDED), told
            assert not [text for text in TELLTALES if text in errors], told
            assert not glob.glob(f"{path}/tmp/*"), told
        status, _, errors, rows = run_campaign(path, "--jobs", "2")
        assert status == 0, errors
        assert len(rows) == 10 and {row["outcome"] for row in rows.values()} == {"passed"}


# Sends ^C to itself as the interpreter does what is named.
EARLY = """import os, signal, sys
sys.path.insert(0, {tools!r})
signal.signal(signal.SIGINT, signal.default_int_handler)
from avrora_tools import entry
class Finder:
    def find_spec(self, name, path=None, target=None):
        if name == {name!r}:
            os.kill(os.getpid(), signal.SIGINT)
sys.meta_path.insert(0, Finder())
sys.argv[1:] = ["campaign", "no such file"]
entry.main()
"""


@pytest.mark.parametrize(
    "name, status", [("argparse", -signal.SIGINT), ("avrora_tools.commands.campaign", 130), ("sqlite3", 130)]
)
def test_while_it_imports(name, status):
    """Before the tool can hear it the system ends it; behind that the tool does."""
    script = EARLY.format(tools=f"{TOP}/tools", name=name)
    done = subprocess.run(["python3", "-B", "-c", script], capture_output=True, text=True, check=False, timeout=LONG)
    assert (done.returncode, done.stderr) == (status, "")


def test_where_nothing_can_be_raised():
    """In a callback of which Python tells an exception alone, it comes again."""
    script = f"""import os, signal, sys, time
sys.path.insert(0, {TOP + "/tools"!r})
from avrora_tools import main
signal.signal(signal.SIGINT, signal.default_int_handler)
class Late:
    def __del__(self):
        os.kill(os.getpid(), signal.SIGINT)
        sum(range(1000))
def run(words):
    Late()
    time.sleep(600)
main.run = run
main.main([])
"""
    done = subprocess.run(["python3", "-B", "-c", script], capture_output=True, text=True, check=False, timeout=LONG)
    assert (done.returncode, done.stderr) == (130, "")


def test_where_it_is_ignored_it_stays_so():
    """As behind a shell's `&`."""
    script = f"""import signal, sys
sys.path.insert(0, {TOP + "/tools"!r})
signal.signal(signal.SIGINT, signal.SIG_IGN)
sys.argv[1:] = ["--version"]
from avrora_tools import entry, main
was = main.run
main.run = lambda words: print(signal.getsignal(signal.SIGINT) is signal.SIG_IGN) or was(words)
entry.main()
"""
    done = subprocess.run(["python3", "-B", "-c", script], capture_output=True, text=True, check=False, timeout=LONG)
    assert done.stdout.splitlines()[0] == "True" and done.returncode == 0
