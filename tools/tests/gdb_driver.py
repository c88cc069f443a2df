"""The real avr-gdb as an editor drives it: by lines of its machine interface (gdb's manual, "GDB/MI")."""
import json
import os
import re
import select
import subprocess
import time
from typing import NamedTuple

from support import LONG, TOOL

PROMPT = "(gdb)"

# A command is over with this; a run through time with the stop behind it.
RESULT = re.compile(r"(\d+)\^(done|running|error|connected|exit)(.*)")
STOPPED = re.compile(r"\*stopped(.*)")
TEXT = re.compile(r'([~@&])("(?:[^"\\]|\\.)*")')


class Answer(NamedTuple):
    """What gdb says to a command: `done`, `stopped` or `error`, the rest of that line, the texts for a user, how long
    it took in seconds, and all lines."""

    word: str
    rest: str
    text: str
    seconds: float
    lines: list[str]

    def field(self, name: str) -> str:
        """A field of the last line, such as line or addr; nothing where there is none."""
        found = re.search(rf'\b{name}="((?:[^"\\]|\\.)*)"', self.rest)
        return found[1] if found else ""


class Gdb:
    """An avr-gdb. Use it with `with`: it ends there."""

    def __init__(self, folder, *words: str) -> None:
        self.process = subprocess.Popen(
            ["avr-gdb", "-nx", "-q", "-i=mi3", *words],
            cwd=folder,
            stdin=subprocess.PIPE,
            stdout=subprocess.PIPE,
            stderr=subprocess.STDOUT,
            bufsize=0,
        )
        self.buffer = b""
        self.count = 0
        self.until_prompt([])

    def __enter__(self) -> "Gdb":
        return self

    def __exit__(self, *_: object) -> None:
        self.process.kill()
        self.process.communicate()

    def line(self) -> str:
        end = time.monotonic() + LONG
        while b"\n" not in self.buffer:
            left = end - time.monotonic()
            if left <= 0 or not select.select([self.process.stdout], [], [], left)[0]:
                raise TimeoutError(f"avr-gdb says nothing for {LONG} s")
            more = os.read(self.process.stdout.fileno(), 1 << 16)
            if not more:
                raise EOFError("avr-gdb ended")
            self.buffer += more
        line, self.buffer = self.buffer.split(b"\n", 1)
        return line.decode("utf-8", "replace").rstrip("\r")

    def until_prompt(self, lines: list[str]) -> None:
        while (line := self.line()).strip() != PROMPT:
            lines.append(line)

    def send(self, command: str) -> None:
        """Begins a command of the machine interface."""
        self.count += 1
        self.process.stdin.write(f"{self.count}{command}\n".encode())

    def ask(self, command: str) -> Answer:
        """A command of the machine interface; where it lets the program run, up to where that stops."""
        begun = time.monotonic()
        self.send(command)
        return self.answer(begun)

    def answer(self, begun: float) -> Answer:
        lines: list[str] = []
        word = rest = ""
        while True:
            line = self.line()
            lines.append(line)
            if (found := RESULT.fullmatch(line)) and int(found[1]) == self.count:
                word, rest = found[2], found[3]
            elif found := STOPPED.fullmatch(line):
                word, rest = "stopped", found[1]
            if word == "exit":  # no prompt comes any more
                break
            # `connected` and `running` tell the stop behind themselves.
            if line.strip() == PROMPT and word in ("done", "stopped", "error", "exit", "connected"):
                break
        text = "".join(json.loads(quoted[2]) for one in lines if (quoted := TEXT.fullmatch(one)) and quoted[1] != "&")
        return Answer(word, rest, text, time.monotonic() - begun, lines)

    def type(self, command: str) -> Answer:
        """A command as a user types it."""
        return self.ask(f"-interpreter-exec console {json.dumps(command)}")

    def connect(self, scenario: str, program: str, *words: str) -> Answer:
        """Debugs the run of a scenario, with the tool as a child of gdb."""
        self.type("set remotetimeout 60")
        remote = " ".join([*TOOL, "gdb", "--avrora", program, *words, scenario])
        return self.type(f"target remote | {remote}")
