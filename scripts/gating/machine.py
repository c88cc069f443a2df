"""Whether this machine has what the gate takes: memory for the check of a crate, and room on its disks."""
import contextlib
import os
import tempfile

# The least free memory that the largest check of a crate ends with, and the least room on a disk for what the gate
# writes, in bytes.
LEAST_MEMORY = 2_500_000_000
LEAST_DISK = 3_000_000_000

MEMINFO = "/proc/meminfo"

# Where the limit of a control group stands, and what its processes hold: of version 2, and of version 1.
GROUPS = (
    ("/sys/fs/cgroup/memory.max", "/sys/fs/cgroup/memory.current"),
    ("/sys/fs/cgroup/memory/memory.limit_in_bytes", "/sys/fs/cgroup/memory/memory.usage_in_bytes"),
)


def number_in(path: str) -> int | None:
    """The number that a file of the kernel consists of; none where there is no such file, or it says `max`."""
    with contextlib.suppress(OSError, ValueError):
        with open(path, encoding="ascii") as it:
            return int(it.read())
    return None


def free_memory(meminfo: str = MEMINFO, groups: tuple[tuple[str, str], ...] = GROUPS) -> int | None:
    """How many bytes processes here can still take; none where the kernel does not tell."""
    found = []
    with contextlib.suppress(OSError):
        with open(meminfo, encoding="ascii") as it:
            found += [1024 * int(line.split()[1]) for line in it if line.startswith("MemAvailable:")]
    for limit, held in groups:
        most, now = number_in(limit), number_in(held)
        if most is not None and now is not None:
            found.append(most - now)
    return min(found, default=None)


def free_disk(place: str) -> int:
    """How many bytes can be written below a folder."""
    disk = os.statvfs(place)
    return disk.f_bavail * disk.f_frsize


def gigabytes(number: int) -> str:
    return f"{number / 1e9:.1f} GB"


def faults(top: str, memory: int = LEAST_MEMORY, disk: int = LEAST_DISK) -> list[str]:
    """Why the gate cannot end well here, a line each."""
    found = []
    free = free_memory()
    if free is not None and free < memory:
        found.append(f"{gigabytes(free)} of memory are free, and the check of a crate takes up to {gigabytes(memory)}")
    for place in dict.fromkeys((top, tempfile.gettempdir())):
        if free_disk(place) < disk:
            found.append(
                f"{gigabytes(free_disk(place))} are free on the disk of {place}, and the gate writes up to {gigabytes(disk)}"
            )
    return found
