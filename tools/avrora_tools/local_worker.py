"""A worker of a campaign as a process: it takes batches from the process that started it, which is the client on this
machine or a worker of dask, and ends with it, however that ends."""
import os
import queue
import signal
import sys
import threading
import time
from multiprocessing.connection import Connection
from typing import Any

from avrora_tools import benches

# What starts a worker: it finds this package where the process that starts it does.
START = "import sys; sys.path[:] = {path!r}; from avrora_tools.local_worker import main; main()"

# What a worker sends from time to time, so that one that stands still is told from one that works.
TICK = "tick"
SECONDS_A_TICK = 5.0
SILENT_SECONDS = 60.0  # without any word: the process stands still


def words(connection: int) -> list[str]:
    """The command of a worker that has its batches from this file descriptor."""
    return [sys.executable, "-B", "-c", START.format(path=sys.path), str(connection)]


def main() -> None:
    signal.signal(signal.SIGINT, signal.SIG_IGN)
    os.set_inheritable(int(sys.argv[1]), False)  # it is not the simulator's
    connection: Connection = Connection(int(sys.argv[1]))
    inbox: queue.SimpleQueue[Any] = queue.SimpleQueue()
    lock = threading.Lock()

    def send(message: Any) -> None:
        try:
            with lock:
                connection.send(message)
        except OSError:  # nobody is there who listens
            os.killpg(0, signal.SIGKILL)

    def listen() -> None:
        """Takes what comes at once, so that nobody waits for this worker; and ends it, and the simulator that it runs,
        once nobody is there who sends."""
        try:
            while True:
                inbox.put(connection.recv())
        except (EOFError, OSError):
            os.killpg(0, signal.SIGKILL)

    def tick() -> None:
        while True:
            time.sleep(SECONDS_A_TICK)
            send(TICK)

    threading.Thread(target=listen, daemon=True).start()
    threading.Thread(target=tick, daemon=True).start()
    shipment, folder = inbox.get(), inbox.get()
    bench = benches.Bench(shipment, folder)
    send(bench.prove())
    while True:
        send(bench.run_batch(inbox.get()))
