"""What the tests share: where things are, and running a tool as a user does."""
import contextlib
import importlib
import os
import random
import shutil
import socket
import subprocess
import sys
import tempfile
import time
import unittest

from avrora_tools import main

TESTS = os.path.dirname(os.path.realpath(__file__))
TOOLS = os.path.dirname(TESTS)
TOP = os.path.dirname(TOOLS)
DATA = f"{TESTS}/data"

# Seconds that nothing takes but what hangs: a busy machine is not a failure.
LONG = 600

LOOPBACK = "127.0.0.1"

sys.dont_write_bytecode = True

# By which tests draw anew each time; AVRORA_SEED names the one of a failure, which tells it.
SEED = int(os.environ.get("AVRORA_SEED") or random.randrange(1_000_000))

# How the tools are run: by the interpreter of these tests, from the checkout.
TOOL = [sys.executable, "-B", TOOLS]


CLOSED = "closed"  # as an output

NOBODY = 65_534  # a user who may read what all may


def run_tool(*words, stdin="", env=None, out=None, by_nobody=False):
    """Runs a tool as a process of its own; its status, output and errors.

    The process is a fork of this one, which starts at once; a new interpreter where the environment says what it
    imports. `out` is a file that its output goes to instead, or CLOSED; by root it may run `by_nobody`. """
    content = stdin if isinstance(stdin, bytes) else stdin.encode()
    if "PYTHONPATH" in (env or {}):
        done = subprocess.run(
            [*TOOL, *words], input=content, capture_output=True, check=False, env={**os.environ, **env}, timeout=LONG
        )
        return done.returncode, done.stdout.decode(), done.stderr.decode()
    with contextlib.ExitStack() as stack:
        source, caught, errors = [stack.enter_context(tempfile.TemporaryFile()) for _ in range(3)]
        source.write(content)
        source.seek(0)
        child = os.fork()
        if child == 0:
            be_tool(
                words, [source, caught if out in (None, CLOSED) else out, errors], env or {}, out == CLOSED, by_nobody
            )
        status = os.waitstatus_to_exitcode(os.waitpid(child, 0)[1])
        caught.seek(0)
        errors.seek(0)
        return status, caught.read().decode(), errors.read().decode()


def be_tool(words, streams, env, closes_output, by_nobody):
    """Ends this process as the tool."""
    try:
        for number, stream in enumerate(streams):
            os.dup2(stream.fileno(), number)
        sys.stdin, sys.stdout, sys.stderr = open(0), open(1, "w"), open(2, "w")
        if closes_output:
            sys.stdout.close()
            sys.stdout = None
        if by_nobody and os.getuid() == 0:
            os.setgroups([])
            os.setgid(NOBODY)
            os.setuid(NOBODY)
        os.environ.update(env)
        main.main(list(words))
    finally:
        os._exit(99)


@contextlib.contextmanager
def scratch(name, content=""):
    """The path of a new file in a new folder, which is gone afterwards."""
    with tempfile.TemporaryDirectory() as folder:
        path = f"{folder}/{name}"
        with open(path, "wb") as file:
            file.write(content if isinstance(content, bytes) else content.encode())
        yield path


def data(name):
    with open(f"{DATA}/{name}", encoding="utf-8") as file:
        return file.read()


def wait_for(condition):
    """Waits until the condition gives what is true, and returns that."""
    end = time.monotonic() + LONG
    while not (found := condition()):
        if time.monotonic() > end:
            raise TimeoutError(f"not in {LONG} s")
        time.sleep(0.05)
    return found


def needs_module(module, package):
    """Skips a test where Python's `module` cannot be imported, and names Debian's package."""
    try:
        importlib.import_module(module)
    except Exception:  # also where a part of what it needs is not there, or broken
        return unittest.skip(f"needs {module} (Debian's {package})")
    return lambda test: test


# Before a command: it has mounts of its own, which end with it.
OWN_MOUNTS = ["unshare", "--mount"] if os.geteuid() == 0 else ["unshare", "--map-root-user", "--mount"]


def with_disk(path, options, words):
    """The command `words` with a disk of its own at the folder `path`, in memory and with mount's options."""
    return [*OWN_MOUNTS, "/bin/sh", "-c", f'mount -t tmpfs -o {options} tmpfs "$0" && exec "$@"', path, *words]


def may_mount():
    with tempfile.TemporaryDirectory() as path:
        try:
            return (
                subprocess.run(with_disk(path, "size=16k", ["true"]), capture_output=True, check=False).returncode == 0
            )
        except OSError:
            return False


needs_mounts = unittest.skipUnless(may_mount(), "needs the privilege to mount")


def needs_program(program, package):
    return unittest.skipUnless(shutil.which(program), f"needs {program} (Debian's {package})")


def has_loopback():
    try:
        with socket.create_server((LOOPBACK, 0)) as server, socket.create_connection(server.getsockname(), LONG):
            return True
    except OSError:
        return False


needs_loopback = unittest.skipUnless(has_loopback(), f"needs a network that has {LOOPBACK}")
