#!/usr/bin/env python3
"""Runs the tools on repositories of a stranger (`repositories.py`), and looks for what must not come of them: anything
changed in the victim's home or beside it, code run, a secret told or written to a page, a control shown, a traceback, a
tool that does not end, a verdict of a file that the stranger wrote, rounds of a hunt that nobody made.

    tools/tests/fuzz_repositories.py [COUNT] [SEED] [FIRST]    the repositories from number FIRST (else 0) on and below
    COUNT
                                                              (else 10,000); the same SEED (1) makes the same ones

Exit status: 0 nothing was found, 1 something was; each finding is told with the number of its repository.
"""
import os
import pathlib
import re
import resource
import shutil
import signal
import stat
import sys
import tempfile

TESTS = os.path.dirname(os.path.realpath(__file__))
sys.path[:0] = [os.path.dirname(TESTS), TESTS]

import repositories  # noqa: E402
from avrora_tools import elf_files, main, runs, writing  # noqa: E402

COUNT, SEED, FIRST = 10_000, 1, 0
PROGRAM = os.environ.get("AVRORA_PROGRAM")

# Stands for the simulator: each run but that by which a worker proves itself sends a byte in the cycle of its latency.
SIMULATOR = f"""#!{sys.executable} -IS
import sys
words = [word for word in sys.argv[1:] if word != "--plain"]
if words[:1] != ["run"]:
    sys.exit(2)
try:
    text = open(words[1]).read()
except (OSError, ValueError):
    sys.exit(3)
if "{runs.PROOF_NAME}" in text:
    sys.exit(print({runs.PROOF_TRACE!r}, end=""))
latency = text.partition("latency = ")[2].split()
if not latency or not latency[0].isdigit():
    sys.exit(4)
latency = int(latency[0])
print(f"{{latency}} 0 sent AA\\n{{latency + 9}} 1 heard 1 AA 0\\n5000 0 end 10 running\\n5000 1 end 10 running")
"""

SECONDS = 300  # that no call takes, on a busy machine

ROUNDS = 1  # of each hunt

ELF_SECONDS, ELF_MEMORY = 2, 1 << 28  # of a file that is never read to its end

WRITTEN = ("out", "out.html", "out.svg", "out.xml", "out.info", "junit.xml")  # pages and the like

# What is called, in the repository or from elsewhere: @ is the repository.
CALLS = [
    "expect @a.expect",
    "expect --junit @junit.xml @a.expect",
    "expect --save @a.expect",
    "expect --html @out.html @a.expect",
    "report --no-sleep --expect @a.expect -o @out.html @net.toml",
    "report --no-sleep --force -e @relay.elf --trace @relay.trace --lcov @out.info -o @out.html @relay.toml",
    "report --findings @junit.xml --campaign @c.results/results.sqlite @net.toml",
    "rerun --runs 1 @a.expect @net.toml -- true",
    "expect --trace @net.trace @a.expect",
    "expect --jobs 2 --timeout 60 @a.expect @a.expect",
    "why @net.toml",
    "timeline -s @net.toml -o @out.html @net.trace",
    "timeline --svg -o @out.svg @net.trace",
    "timeline --svg -o @out/a.svg @net.trace",
    "vcd -s @net.toml @net.trace",
    "annotate -e @relay.elf @relay.trace",
    "profile --callers --lines --coverage --force -e @relay.elf @relay.trace",
    "profile -s @relay.toml -e @relay.elf @relay.trace",
    "export callgrind -s @relay.toml --force -e @relay.elf -o @out @relay.trace",
    "export lcov -s @relay.toml --force -e @relay.elf @relay.trace",
    "export perfetto -s @net.toml -o @out.html @net.trace",
    "export pcapng --bytes -s @net.toml -o @out.xml @net.trace",
    "export pcapng -s @net.toml -o @deep/../out @net.trace",
    "export folded -s @relay.toml --force -e @relay.elf @relay.trace",
    "export speedscope -s @relay.toml --force -e @relay.elf -o @out.html @relay.trace",
    "export lcov --force -e @relay.elf -o @build @relay.trace @net.trace",
    "export csv -o @golden.rows @net.trace",
    "gdb @net.toml",
    "gdb --state @net.state --at 300_000 @net.toml",
    "energy @relay.toml @net.toml @net.trace",
    "mknet --places @net.toml line @relay.hex*3",
    "vcd -s @relay.toml --force -e 0=@relay.elf @relay.trace",
    "inspect -g * -e @relay.elf @net.state",
    "links --map @out.svg @net.toml @net.trace",
    "console @net.trace",
    "diff -e @relay.elf @net.trace @relay.trace",
    "mknet --places @build line a.hex*3",
    "window @net.toml 0 100",
    "sweep --latency 0-1=20..22 --until 5000 --compare bytes --out @out @net.toml",
]
CAMPAIGNS = [
    "campaign --report @c.campaign",
    "campaign --list @c.campaign",
    "campaign --report @c.results/results.sqlite",
    "campaign --jobs 1 @c.campaign",
    "campaign --report --json @out --junit @out.xml @c.campaign",
    "campaign --report --html @out.html @c.campaign",
    "campaign --jobs 1 --results @out @c.campaign",
    "campaign --report --results @res @c.campaign",
    "campaign --scenario net @c.campaign",
    "campaign --jobs 1 --anew @c.campaign",
]

# Calls of what asks the simulator more than a run: made by the program that AVRORA_PROGRAM names, where it names one.
# % is a copy of the relay's scenario under a name of the stranger's.
OF_THE_PROGRAM = [
    "changes -e @relay.elf --force -n 0 -w * @%",
    "changes -e @relay.elf --force --breaks ring[0]==0||head<9 @%",
    "changes --breaks PORTB==0 --state @net.state @%",
    "changes -e @relay.elf --force --last-before 30_000 -w r* @relay.toml",
    "when -e @relay.elf --force @% 0 relay.c:24",
    "when @% 0 00BC",
    "hunt --rounds 1 --minutes 1 --jobs 1 --only starts @%",
    "hunt -e @relay.elf --force --rounds 1 --minutes 1 --jobs 1 --only latencies --corpus @relay.hunt @%",
    "hunt --rounds 1 --minutes 1 --jobs 1 --only starts --expect @r.expect @%",
    "sweep --start 0=5_000..5_004 --jobs 1 --resume @sweep.log @%",
    "sweep --start 0=5_000..5_004 --jobs 1 --out @out/earliest.toml --html @out.html --findings @out.xml @%",
    "sweep --start 0=5_000..5_004 --jobs 1 -e @relay.elf --force --until 9_000 --out @early.toml @%",
    "sweep --latency 0-1=900..904 --jobs 1 --until 9_000 --expect @r.expect @%",
    "sweep --start 0=5_000..5_002 --jobs 1 -e @relay.elf --force --until 9_000 --always 0,ring[0]!=114 @%",
    "report -e @relay.elf --force -o @out.html @%",
    "rerun --runs 1 @r.expect @% -- true",
    "expect @r.expect",
    "inspect -e @relay.elf --force -g * @net.state",
    "gdb --at 9_000 -e @relay.elf @%",
    "window @% 3_000 3_050",
    "window @net.toml 0 100",
    "gdb @net.toml",
    "changes -w PORTB @net.toml",
    "when @net.toml 0 00BC",
    "sweep --latency 0-1=20..22 --jobs 1 @net.toml",
    "hunt --rounds 1 --minutes 1 --jobs 1 --only losses @net.toml",
    "report --no-sleep -o @out.html @net.toml",
    "energy @relay.toml @% @relay.trace",
]

STATE = "avrora state 1\ncycle 262144\ncore 0 {}\ntimers 0 {}\nports 0 {}\nio 0 {}\nsram 0 {}\nend\n".format(
    " ".join("0" * 41), " ".join("0" * 38), " ".join("0" * 29), "0" * 448, "0" * 8192
)


def words_of(world):
    """The words of a call, and the folder in which it is made."""
    draw = world.draw
    calls = CALLS + OF_THE_PROGRAM if PROGRAM else CALLS
    text = draw.choice(CAMPAIGNS if world.has_campaign and draw.random() < 0.7 else calls)
    world.asks_program = PROGRAM is not None and text in OF_THE_PROGRAM
    folder, at = draw.choice(
        [
            (world.repo, ""),
            (world.repo, f"{world.repo}/"),
            (world.repo, "./"),
            (world.place, "repo/"),
            ("/", f"{world.repo}/"),
        ]
    )
    return folder, [word.replace("@", at).replace("%", world.odd_scenario).replace(",", " ") for word in text.split()]


def call(world, folder, words):
    """Calls a tool; its status, and what it wrote."""
    with tempfile.TemporaryFile() as out, tempfile.TemporaryFile() as errors:
        child = os.fork()
        if child == 0:
            be(world, folder, words, out, errors)
        _, status = os.waitpid(child, 0)
        try:
            os.killpg(child, signal.SIGKILL)
        except ProcessLookupError:
            pass
        out.seek(0)
        errors.seek(0)
        return os.waitstatus_to_exitcode(status), out.read(), errors.read()


def be(world, folder, words, out, errors):
    """Ends this process as the tool of a victim who stands in a folder."""
    try:
        os.setpgid(0, 0)
        signal.alarm(SECONDS)
        resource.setrlimit(resource.RLIMIT_FSIZE, (1 << 28, 1 << 28))
        os.chdir(folder)
        with open(os.devnull, "rb") as none:
            for number, file in enumerate((none, out, errors)):
                os.dup2(file.fileno(), number)
        sys.stdin, sys.stdout, sys.stderr = open(0), open(1, "w"), open(2, "w")
        os.environ.update(
            HOME=world.home,
            XDG_STATE_HOME=f"{world.place}/state",
            TMPDIR=f"{world.place}/tmp",
            AVRORA=PROGRAM if world.asks_program else f"{world.place}/avrora",
            AVRORA_PROGRAM=PROGRAM if world.asks_program else f"{world.place}/avrora",
            PATH=f".:{os.environ['PATH']}",
            MY_TOKEN=repositories.TOKEN,  # as /proc/self/environ has it
        )
        tempfile.tempdir = None
        main.main(words)
    finally:
        os._exit(99)


def faults(world, words, status, out, errors):
    """What is wrong about a call."""
    if status not in range(4):
        yield f"it ended with {status}"
    if b"Traceback" in errors or b"a fault of this tool" in errors:
        yield f"a fault of the tool: {errors[-300:]!r}"
    if world.seen()[0] != world.before[0]:
        changed = {
            path
            for path in {*world.before[0], *world.seen()[0]}
            if world.before[0].get(path) != world.seen()[0].get(path)
        }
        yield f"it changed {sorted(changed)}"
    beside = set(os.listdir(world.place)) - {*world.before[1], "avrora"}
    if beside:
        yield f"it wrote {sorted(beside)}"
    if os.listdir(world.ran):
        yield f"it ran {os.listdir(world.ran)}"
    text = (out + errors).decode("utf-8", "surrogateescape")
    if repositories.TOKEN in text:
        yield "it told a secret"
    for name in WRITTEN:
        path = f"{world.repo}/{name}"
        if os.path.isfile(path) and not os.path.islink(path) and is_small(os.stat(path)):
            if repositories.TOKEN.encode() in pathlib.Path(path).read_bytes():
                yield f"it wrote a secret to {name}"
    rounds = re.search(r"(\d+) rounds of seed", text)
    if rounds and int(rounds[1]) > ROUNDS:
        yield f"it told of {rounds[0]}, and made {ROUNDS} at most"
    if not (words[0] == "campaign" and "--scenario" in words) and words[0] != "mknet":
        if not all(line.isprintable() for line in text.split("\n")):
            yield f"it showed {[line for line in text.splitlines() if not line.isprintable()][:2]!r}"
    if words[0] == "campaign" and not {"--list", "--scenario"} & set(words) and status == 0:
        yield f"all is passed, and nothing is: {out[-200:]!r}"


def is_small(told):
    """Whether a file is nobody else's, and no hole of terabytes."""
    return told.st_nlink == 1 and told.st_size < repositories.HOLE


def looked_at(seed, number, tell):
    """Makes a repository, and calls a tool on it; how many findings there are."""
    found = 0
    with tempfile.TemporaryDirectory(prefix="avrora-fuzz-", ignore_cleanup_errors=True) as place:
        with open(f"{place}/avrora", "w", encoding="utf-8") as file:
            file.write(SIMULATOR)
        os.chmod(f"{place}/avrora", 0o755)
        world = repositories.World(place, f"{seed} {number}")
        if not os.path.lexists(f"{world.repo}/net.state"):
            world.write(f"{world.repo}/net.state", STATE)
        folder, words = words_of(world)
        fill_pipe(world, words)
        status, out, errors = call(world, folder, words)
        for fault in faults(world, words, status, out, errors):
            found += 1
            tell(f"repository {number} of seed {seed}, in {folder}: {' '.join(words)}: {fault}")
        for folder, folders, _ in os.walk(place):
            for name in folders:
                if not os.path.islink(f"{folder}/{name}"):
                    os.chmod(f"{folder}/{name}", 0o755)
        shutil.rmtree(place, ignore_errors=True)
        os.makedirs(place)
    return found


def fill_pipe(world, words):
    """A pipe that the victim names to be read is waited for, as one wants of it: here it is a file."""
    name = f"{world.repo}/junit.xml"
    if "--findings" in words and words[0] == "report" and os.path.exists(name) and stat.S_ISFIFO(os.stat(name).st_mode):
        os.unlink(name)
        world.write(name, "{}")


def run(count=COUNT, seed=SEED, first=FIRST, tell=print):
    """How many findings there are in so many repositories."""
    for name in main.names():
        main.command(name)  # what they import is imported once
    sys.path[:] = [path for path in sys.path if path]  # of the folder in which a tool is called nothing is imported
    writing.READER_SECONDS = 0.5
    elf_files.SECONDS, elf_files.MEMORY = ELF_SECONDS, ELF_MEMORY
    return sum(looked_at(seed, number, tell) for number in range(first, count))


if __name__ == "__main__":
    if sys.argv[1:2] in (["--help"], ["-h"]):
        sys.exit(print(__doc__))
    found = run(*(int(word) for word in sys.argv[1:4]))
    print(f"{found} findings")
    sys.exit(found > 0)
