"""Files of stored cases of calls, and what the stored run of `command_facts` is to have of them: the lines of a file, and below
each case what it comes to."""
import sys
from pathlib import Path

sys.path.append(str(Path(__file__).resolve().parent.parent))

from network import Refused  # noqa: E402
from stored_parts import put_part  # noqa: E402

# Of a stream of more lines only the first two and the last two are stored, and between them its length and its hash.
MOST_SHOWN = 20


def fnv(text):
    """The FNV-1a hash of 64 bits."""
    value = 0xCBF2_9CE4_8422_2325
    for byte in text:
        value = (value ^ byte) * 0x100_0000_01B3 % 2**64
    return value


class Files:
    """Files in memory, of which one read may fail."""

    def __init__(self, held, failing=None):
        self.held, self.failing, self.reads = held, failing, 0

    def read(self, name):
        number, self.reads = self.reads, self.reads + 1
        if number == self.failing or name not in self.held:
            raise Refused(3, f"avrora: cannot read {name}")
        return self.held[name]


class CaseFile:
    """A file of cases of crates/command_facts (`folder`): its lines, what is stored of them, and the files that calls can read."""

    def __init__(self, folder, head):
        self.data_folder = folder / "data"
        self.folder, self.data, self.expected, self.held = folder, [], [], {}
        for line in head:
            self.line(line)

    def line(self, text):
        """A line that is stored as it stands."""
        self.data.append(text)
        self.expected.append(text)

    def about(self, text):
        self.line("")
        self.line(f"# {text}")

    def file_in_bars(self, name, text):
        """A file whose lines follow in the file of cases, and are not stored."""
        self.held[name] = text.encode()
        self.line(f"file {name}")
        self.data += ["|" + line for line in text.splitlines()]

    def file_beside(self, word, name, content):
        """A file that lies beside the file of cases."""
        (self.data_folder / name).write_bytes(content)
        self.held[name] = content
        self.line(f"{word} {name}")

    def blank(self, name, length):
        """A file of blank lines."""
        self.held[name] = b"\n" * length
        self.line(f"blank {name} {length}")

    def shown(self, name, text):
        """What is stored of a stream."""
        lines = text.splitlines()
        self.expected.append(f"{name}: {len(text)} bytes, {text.count(chr(10))} lines")
        last = -2 if text.endswith("\n") else -3  # two lines, and what stands behind them without an end
        most = lines if len(lines) <= MOST_SHOWN else [*lines[:2], f".. {len(text)} bytes {fnv(text.encode())}", *lines[last:]]
        self.expected += [f"| {line}" for line in most]

    def write(self, word, name):
        """Writes the file of cases, and into stdout what the word of the stored run is to come to."""
        (self.data_folder / name).write_text("\n".join(self.data) + "\n")
        put_part(self.folder, f"{word}={name}", self.expected)


def folder_of_words(usage):
    """The one word of the command line, which is a folder."""
    if len(sys.argv) != 2:
        sys.exit(usage)
    return Path(sys.argv[1])
