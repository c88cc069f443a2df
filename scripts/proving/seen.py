"""What was seen of files: the place, size and times of each, and its sum, so that only a file that differs in these is
read again.

    seen.py FILE    whether all files that FILE names are as they were seen, and `rt` is where it was: status 0 or 1

The time of a change to a file's place, content or rights (ctime) cannot be set back, so a file that is swapped for
another of the same size and times is seen. But a clock of files has steps: a file that changed less than MARGIN
before it was noted may change once more within the same step. So it is noted as one that must be read again.

As a script this runs before each command of `./avrora`, so it asks the system by `posix` alone and imports nothing that
takes time.
"""
import posix
import sys

HEAD = b"avrora seen 2"
END = b"end"

# What no file has; it is noted for one that is to be read again.
UNSURE = b"0 0 0 0"

# In nanoseconds: above the steps of the clock of any file system.
MARGIN = 3_000_000_000

# The parts of a line, which ends by a byte that no path has: a mark, a sum, a path.
PART = b"\1"


def mark_of(path):
    """What tells whether a file or folder was changed."""
    it = posix.stat(path)
    return b"%d %d %d %d" % (it.st_ino, it.st_size, it.st_mtime_ns, it.st_ctime_ns)


def find_rt():
    """The first `rt` on the PATH, or nothing."""
    for folder in posix.environ.get(b"PATH", b"/bin:/usr/bin").split(b":"):
        path = (folder or b".") + b"/rt"
        if posix.access(path, posix.X_OK):
            return path
    return b""


def lines_of(path):
    """Where `rt` was, and the lines of a file of what was seen; nothing where it is not whole."""
    try:
        number = posix.open(path, posix.O_RDONLY | posix.O_CLOEXEC)
    except OSError:
        return b"", []
    with open(number, "rb") as it:
        head, *lines = it.read().split(b"\0")
    if not head.startswith(HEAD + b" ") or lines[-2:] != [END, b""]:
        return b"", []
    return head[len(HEAD) + 1 :], lines[:-2]


def is_unchanged(path):
    """Whether all that a file names is as it was seen. Where there is no `rt` now, it is not compared."""
    rt, lines = lines_of(path)
    if not lines or find_rt() not in (rt, b""):
        return False
    try:
        for line in lines:
            mark, _, name = line.split(PART, 2)
            if mark_of(name) != mark:
                return False
    except OSError:
        return False
    return True


class Seen:
    """The sums of files, which are read only where they are not as they were seen."""

    def __init__(self, path=None):
        self.path = path
        self.known = {}
        for line in lines_of(path)[1] if path else []:
            mark, known, name = line.split(PART, 2)
            self.known[name] = (mark, known)
        # what this call asked for
        self.asked = {}

    def sum_of(self, path, anew=False):
        """The SHA-256 of a file, which is read in any case where it may have changed just now."""
        import hashlib  # pylint: disable=import-outside-toplevel

        # before it is read: a change meanwhile is seen by the next look
        name, mark = path.encode(errors="surrogateescape"), mark_of(path)
        was, known = self.known.get(name, (b"", b""))
        if was != mark or anew:
            with open(path, "rb") as it:
                known = hashlib.sha256(it.read()).hexdigest().encode()
        self.asked[name] = self.known[name] = (mark, known)
        return known.decode()

    def note(self, path):
        """Notes a folder, whose entries may come and go, or a file that nobody reads."""
        self.asked[path.encode(errors="surrogateescape")] = (mark_of(path), b"-")

    def write(self):
        """Notes what this call asked for, in the place of what was noted before."""
        new, rt = f"{self.path}.{posix.getpid()}", find_rt()
        if rt:
            self.note(rt.decode(errors="surrogateescape"))
        with open(new, "wb") as it:
            it.write(HEAD)
            it.flush()
            # by the clock of the files
            now = posix.fstat(it.fileno()).st_ctime_ns
            it.write(b" %s\0" % rt)
            for name, (mark, known) in self.asked.items():
                is_sure = int(mark.rpartition(b" ")[2]) < now - MARGIN
                it.write(PART.join((mark if is_sure else UNSURE, known, name)) + b"\0")
            it.write(END + b"\0")
        posix.replace(new, self.path)


if __name__ == "__main__":
    sys.exit(not is_unchanged(sys.argv[1]))
