"""What takes a campaign to the workers of dask: each of them gets this package and the shipment, and starts a process
that works as one of this machine does.

So a worker needs dask and nothing of this repository, and its own process is free for dask while runs take place.
"""
import importlib.resources
import io
import pickle
import zipfile
from collections.abc import Iterator
from importlib.abc import Traversable
from typing import Any

import avrora_tools
from avrora_tools import local_worker
from avrora_tools.runs import Shipment

ARRIVAL_SECONDS = 120  # that the shipment may take to a worker


def package() -> bytes:
    """This package as a zip from which Python imports it."""
    archive = io.BytesIO()
    with zipfile.ZipFile(archive, "w") as zipped:
        for path, content in modules(importlib.resources.files(avrora_tools), avrora_tools.__name__):
            zipped.writestr(path, content)
    return archive.getvalue()


def modules(folder: Traversable, path: str) -> Iterator[tuple[str, bytes]]:
    """The path and the content of each module below a folder of the package."""
    for it in folder.iterdir():
        if it.is_dir():
            yield from modules(it, f"{path}/{it.name}")
        elif it.name.endswith(".py"):
            yield f"{path}/{it.name}", it.read_bytes()


def for_dask(name: str, shipment: Shipment) -> tuple[Any, Any, Any]:
    """The plugin of dask that takes the shipment to each worker, and two functions to call there: one that proves the
    worker, one that runs a batch. What is pickled here for dask names no module of the package."""
    from distributed import WorkerPlugin, get_worker

    tools, start, packed_shipment = package(), local_worker.START, pickle.dumps(shipment)
    tick, silent_seconds, arrival_seconds = local_worker.TICK, local_worker.SILENT_SECONDS, ARRIVAL_SECONDS

    class Carrier(WorkerPlugin):  # type: ignore[misc]  # a local class, which is always pickled by value
        """Has a process work in a folder where the worker has its files. Nothing is written before the worker proves
        itself, so that what fails is told as its reason."""

        def __init__(self) -> None:
            self.name = name

        def setup(self, worker: Any) -> None:
            import threading

            self.place, self.folder = worker.local_directory, ""
            self.process: Any = None
            self.connection: Any = None
            self.lock = threading.Lock()  # for a worker of several threads: its process is for one run at a time

        def teardown(self, worker: Any) -> None:
            import shutil

            self.end()
            shutil.rmtree(self.folder, ignore_errors=True)

        def end(self) -> Any:
            """Ends the process and the simulator that it runs, if any; its status."""
            import contextlib
            import os
            import signal

            process, self.process = self.process, None
            if process is None:
                return None
            self.connection.close()
            with contextlib.suppress(ProcessLookupError):
                os.killpg(process.pid, signal.SIGKILL)
            return process.wait()

        def begin(self) -> None:
            """Starts the process, with this package in place of another version of it."""
            import multiprocessing
            import os
            import subprocess
            import sys
            import tempfile

            self.folder = self.folder or tempfile.mkdtemp(prefix="avrora-", dir=self.place)
            archive = os.path.join(self.folder, "tools.zip")
            with open(archive, "wb") as file:
                file.write(tools)
            self.connection, theirs = multiprocessing.Pipe()
            with theirs:
                self.process = subprocess.Popen(
                    [sys.executable, "-B", "-c", start.format(path=[archive, *sys.path]), str(theirs.fileno())],
                    stdin=subprocess.DEVNULL,
                    stdout=subprocess.DEVNULL,
                    stderr=subprocess.DEVNULL,
                    pass_fds=[theirs.fileno()],
                    process_group=0,
                )
            self.connection.send_bytes(packed_shipment)
            self.connection.send(self.folder)

        def received(self) -> bytes:
            """What the process sends next, pickled as it came; it sends from time to time that it is there."""
            import pickle

            packed_tick = pickle.dumps(tick)
            try:
                while self.connection.poll(silent_seconds):
                    message: bytes = self.connection.recv_bytes()
                    if message != packed_tick:
                        return message
            except (EOFError, OSError):
                raise RuntimeError(f"its process ended with status {self.end()}") from None
            self.end()
            raise RuntimeError(f"its process gave no sign for {silent_seconds:.0f} s")

        def prove(self) -> list[Any]:
            import pickle
            import socket

            with self.lock:
                try:
                    self.end()
                    self.begin()
                    return [socket.gethostname(), pickle.loads(self.received())]
                except RuntimeError as fault:
                    return [socket.gethostname(), str(fault)]
                except OSError as fault:
                    reason = f"{fault.filename}: {fault.strerror}" if fault.filename else str(fault)
                    return [socket.gethostname(), reason]

        def run_batch(self, jobs: bytes) -> bytes:
            """Jobs and answers go through as they are pickled: dask looks into all else, which takes longer than a
            short run."""
            with self.lock:
                try:
                    self.connection.send_bytes(jobs)
                except OSError:
                    pass  # it has ended, which is seen when its answers are waited for
                return self.received()

    def prove() -> Any:
        """Once the plugin is there, which the scheduler sends to each worker by itself."""
        import time

        end = time.monotonic() + arrival_seconds
        while name not in get_worker().plugins and time.monotonic() < end:
            time.sleep(0.05)
        return get_worker().plugins[name].prove()

    return Carrier(), prove, lambda jobs: get_worker().plugins[name].run_batch(jobs)


def on_scheduler() -> tuple[Any, Any]:
    """Two functions to call on the scheduler, which has nothing of this package: one gives a plugin to all workers,
    those that come later too, one takes the plugins away whose names begin alike. Neither waits for a worker: dask's
    own ways end where a single one does not answer."""

    def tell(dask_scheduler: Any, **message: Any) -> None:
        import asyncio

        async def tell_one(address: str) -> None:
            try:
                await dask_scheduler.broadcast(msg=message, workers=[address])
            except Exception:  # whatever keeps a worker from hearing: it will not prove itself
                pass

        tasks = dask_scheduler.__dict__.setdefault("avrora_tasks", set())
        for address in list(dask_scheduler.workers):
            task = asyncio.ensure_future(tell_one(address))
            tasks.add(task)
            task.add_done_callback(tasks.discard)

    async def give(name: str, plugin: bytes, dask_scheduler: Any) -> None:
        dask_scheduler.worker_plugins[name] = plugin
        tell(dask_scheduler, op="plugin-add", plugin=plugin, name=name)

    async def take_away(prefix: str, dask_scheduler: Any) -> None:
        for name in [name for name in dask_scheduler.worker_plugins if name.startswith(prefix)]:
            del dask_scheduler.worker_plugins[name]
            tell(dask_scheduler, op="plugin-remove", name=name)

    return give, take_away
