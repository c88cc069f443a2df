"""The kit, and the crates of a checkout with their sources."""
import os
import shutil
import subprocess

# The folders of a crate that its proof and its code are made from.
PARTS = ("src", "specs", "proofs")

# How long the check of a crate that was not measured is likely to take: so many processor seconds for its start, for
# each library that it names, for a line of code, and for a `?`, behind which all that lives is let go of. Fitted to the
# crates here; lines of proofs hardly count.
OF_A_START = 6.1
OF_A_LIBRARY = 1.7
OF_A_LINE = 0.058
OF_A_QUESTION_MARK = 2.7

NO_KIT = (
    "there is no `rt` on the PATH: to prove the program, put the folder bin of the Rattle kit there. To prove nothing, take the "
    "program of a release of this commit: `./avrora --adopt FILE`, or AVRORA_PROGRAM=FILE for one call (docs/RELEASE.md)"
)


class NotProved(Exception):
    """Why the program is not there, with what the kit said of it."""

    def __init__(self, why, said=""):
        super().__init__(why)
        self.said = said


class Kit:
    """The Rattle kit: its folder, and the text that tells it from other kits."""

    def __init__(self):
        rt = shutil.which("rt")
        if not rt:
            raise NotProved(NO_KIT)
        self.folder = os.path.dirname(os.path.dirname(os.path.realpath(rt)))
        if not os.path.isfile(f"{self.folder}/KIT-ID"):
            # slower, and right wherever rt lies
            self.folder = os.path.dirname(
                subprocess.run(["rt", "doc"], capture_output=True, text=True, check=False).stdout.strip()
            )
        try:
            with open(f"{self.folder}/KIT-ID", encoding="utf-8") as it:
                self.identity = it.read().strip()
        except OSError as fault:
            raise NotProved(f"{rt} is of no Rattle kit: it has no KIT-ID") from fault

    def library(self, name):
        return f"{self.folder}/rlibs/{name}.rlib"


class Crate:
    """A crate of the repository: a line of crates.txt."""

    def __init__(self, line, top):
        name, _, uses = line.partition(":")
        self.name = name.strip()
        self.uses = uses.split()
        self.folder = f"{top}/crates/{self.name}"
        self.is_program = os.path.isfile(f"{self.folder}/src/main.rt")

    def folders(self):
        """The paths of its folder and of those below it that have sources, each with the names of its files."""
        yield self.folder, []
        for part in PARTS:
            for at, folders, names in os.walk(f"{self.folder}/{part}"):
                folders.sort()
                yield at, sorted(name for name in names if name.endswith((".rt", ".antt")))

    def sources(self):
        """The paths of its files below its folder, in order."""
        for at, names in self.folders():
            for name in names:
                yield os.path.relpath(f"{at}/{name}", self.folder)

    def likely_seconds(self):
        """How many processor seconds its check is likely to take, by its sources."""
        seconds = OF_A_START + OF_A_LIBRARY * len(self.uses)
        for source in filter(lambda it: it.endswith(".rt"), self.sources()):
            with open(f"{self.folder}/{source}", "rb") as it:
                stripped = [line.strip() for line in it]
            for code in (line for line in stripped if line and not line.startswith(b"//")):
                seconds += OF_A_LINE + OF_A_QUESTION_MARK * code.count(b"?")
        return seconds


def crates_below(program, top):
    """The program and the crates below it by name, each behind those that it uses."""
    with open(f"{top}/crates.txt", encoding="utf-8") as it:
        lines = [line.partition("#")[0] for line in it]
    listed = {it.name: it for it in (Crate(line, top) for line in lines if line.strip())}
    found = {}

    def visit(name):
        if name in listed and name not in found:
            for used in listed[name].uses:
                visit(used)
            found[name] = listed[name]

    visit(program)
    return found


def names_below(crate, crates):
    """The names of all crates below one, in their order."""
    found = set()

    def visit(name):
        for used in crates[name].uses:
            if used in crates and used not in found:
                found.add(used)
                visit(used)

    visit(crate.name)
    return [name for name in crates if name in found]
