"""Repositories of a stranger, drawn by a seed: what is in them, and beside them the home of a victim."""
import json
import os
import pathlib
import random
import shutil
import sqlite3
import stat
import struct
import sys

TESTS = os.path.dirname(os.path.realpath(__file__))
DATA = f"{TESTS}/data"

if TESTS not in sys.path:
    sys.path.insert(0, TESTS)

import endless_elf  # noqa: E402

TOKEN = "hunter2"  # of each secret; no tool tells it

# Names that mean something to a terminal, a log, a shell, XML, HTML, a dump, a file system.
NAMES = [
    "a",
    "b",
    "deep/a",
    "\x1b[31m",
    "\x1b]0;x\x07",
    "a\nb",
    "a\r\n#9",
    "\u202eexe",
    "\u2066",
    "\u2028",
    "\udcff",
    "-x",
    "--save",
    "@opts",
    "<!--<script>",
    "</script>",
    "]]>",
    '"',
    "'",
    "$(touch ran)",
    "`id`",
    "%s%n",
    "~",
    "..a",
    "$end",
    "::error::x",
    "n" * 200,
    "ä",
    "\u200b",
    "n" * 250,
    "\U0001f600" * 60,
    "N",
]

# Files by their kind that the system makes as they are read, waits for, or does not have.
SYSTEM = [
    "/dev/stdin",
    "/proc/self/environ",
    "/proc/self/fd/0",
    "/proc/self/mem",
    "/proc/self/pagemap",
    "/proc/kmsg",
    "/sys/kernel/debug/tracing/trace_pipe",
    "/".join(["n" * 200] * 20),
]

# Programs and modules that a careless tool would run from the folder in which it stands.
SPIES = [
    "avrora",
    "python3",
    "sh",
    "env",
    "avr-gcc",
    "tomllib.py",
    "tomlkit.py",
    "json.py",
    "sitecustomize.py",
    "conftest.py",
    "avrora_tools.py",
    "hashlib.py",
    "elftools.py",
    "rt",
    "git",
    "avr-gdb",
    "bash",
    "realpath",
    ".gdbinit",
]

HOLE = 1 << 42  # bytes of a file that has no block on the disk
FUTURE = 1 << 33  # a second after the year 2200
DEPTH = 20_000  # of what stands in one another

HOME = {
    ".bashrc": "# mine\n",
    ".ssh/authorized_keys": f"ssh-rsa {TOKEN}\n",
    ".netrc": f"password {TOKEN}\n",
    "work/a.c": "int a;\n",
    "work/runs/a": "mine\n",
}

# What a victim has within his copy of the repository, where no repository has it.
HIDDEN = {
    ".git/config": f"[http]\n\textraheader = AUTHORIZATION: basic {TOKEN}\n",
    ".env": f"TOKEN={TOKEN}\n",
    ".secret": f"{TOKEN}\n" * 300,
}

SUPER = "d9d505f920a163d7"


class World:
    """A folder with the victim's home and a stranger's repository."""

    def __init__(self, place, seed):
        self.place, self.draw = place, random.Random(seed)
        self.home, self.repo, self.ran = f"{place}/home", f"{place}/repo", f"{place}/ran"
        self.has_campaign, self.shared = False, set()
        self.odd_scenario, self.asks_program = "", False
        for name, text in HOME.items():
            self.write(f"{self.home}/{name}", text)
        for folder in (self.ran, f"{place}/state", f"{place}/tmp"):
            os.makedirs(folder)
        os.makedirs(self.repo)
        self.fill()
        self.before = self.seen()

    # ---- the home

    def seen(self):
        """All of the home: of each file its kind, mode, owner, times, links and content; and the names of what is
        beside it."""
        found = {}
        for folder, folders, names in os.walk(self.home):
            for path in (f"{folder}/{name}" for name in ("", *folders, *names)):
                told = os.lstat(path)
                content = pathlib.Path(path).read_bytes() if stat.S_ISREG(told.st_mode) else None
                # Of a file that the repository has a name of too, that name may go.
                changed = (
                    None if stat.S_ISREG(told.st_mode) and path in self.shared else (told.st_ctime_ns, told.st_nlink)
                )
                found[path] = told.st_mode, told.st_ino, told.st_uid, told.st_size, told.st_mtime_ns, changed, content
        return found, sorted(os.listdir(self.place))

    def targets(self):
        """Where a link may lead: what the victim has, what he has not, and other places."""
        names = [*HOME, ".profile", "work", "work/runs", "new/deep", ""]
        ways = [
            f"{self.home}/{self.draw.choice(names)}",
            f"{self.upwards()}home/{self.draw.choice(names)}",
            "/dev/zero",
            self.draw.choice(SYSTEM),
            "loop",
            ".",
        ]
        return self.draw.choice(ways)

    def upwards(self):
        return "../" * self.draw.choice([1, 1, 1, 2])

    # ---- the repository

    def write(self, path, content, mode=0o644):
        os.makedirs(os.path.dirname(path), exist_ok=True)
        with open(path, "wb") as file:
            file.write(content if isinstance(content, bytes) else content.encode("utf-8", "surrogateescape"))
        os.chmod(path, mode)

    def odd(self, name):
        """Something at a name of the repository that nobody expects there."""
        path = f"{self.repo}/{name}"
        if os.path.lexists(path):
            return
        os.makedirs(os.path.dirname(path), exist_ok=True)
        kind = self.draw.choice(
            ["link", "link", "link", "hard", "pipe", "folder", "garbage", "device", "mode", "empty", "hole", "future"]
        )
        if kind == "link":
            os.symlink(self.targets(), path)
        elif kind == "hard":
            shared = f"{self.home}/{self.draw.choice(list(HOME))}"
            os.link(shared, path)
            self.shared.add(shared)
        elif kind == "pipe":
            os.mkfifo(path)
        elif kind == "folder":
            os.makedirs(f"{path}/{self.draw.choice(['a', 'runs', 'results.sqlite'])}")
        elif kind == "device" and os.geteuid() == 0:
            os.mknod(path, 0o666 | stat.S_IFCHR, os.makedev(1, 5))  # /dev/zero
        elif kind == "hole":
            self.write(path, b"")
            os.truncate(path, HOLE)
        elif kind == "future":
            self.write(path, self.draw.randbytes(100))
            os.utime(path, (FUTURE, FUTURE))
        else:
            content = b"" if kind == "empty" else self.draw.randbytes(self.draw.choice([1, 100, 5000]))
            self.write(path, content, self.draw.choice([0o644, 0o4777, 0o000, 0o755]) if kind == "mode" else 0o644)

    def name(self):
        return self.draw.choice(NAMES)

    def fill(self):
        draw = self.draw
        for name in ("relay.trace", "relay.toml", "relay.hex"):
            shutil.copy(f"{DATA}/{name}", self.repo)
        for name, text in HIDDEN.items():
            self.write(f"{self.repo}/{name}", text)
        for name in SPIES:
            if draw.random() < 0.3:
                shell = "" if name.endswith(".py") else f"#!{sys.executable} -IS\n"
                self.write(f"{self.repo}/{name}", f"{shell}open({self.ran!r} + '/{name}', 'w').close()\n", 0o755)
        image = f"{self.name()}.hex" if draw.random() < 0.95 else draw.choice(SYSTEM)
        if image in SYSTEM:
            pass
        elif draw.random() < 0.9:
            self.write(f"{self.repo}/{image}", ":00000001FF\n")
        else:
            self.odd(image)
        self.write(f"{self.repo}/net.toml", self.scenario(image))
        self.write(
            f"{self.repo}/net.trace", "20 0 sent AA\n29 1 heard 1 AA 0\n5000 0 end 10 running\n5000 1 end 10 running\n"
        )
        self.write(f"{self.repo}/a.expect", self.case())
        self.elf()
        for name in ("out.html", "out.svg", "out.xml", "out", "junit.xml", "golden.rows", "build", "early.toml"):
            if draw.random() < 0.4:
                self.odd(name)
        self.searches()
        if draw.random() < 0.5:
            self.campaign(image)

    def scenario(self, image):
        draw = self.draw
        key = quoted(self.name()) + " = 1\n" if draw.random() < 0.1 else ""
        key = f"{draw.choice(strange_values())}\n" if draw.random() < 0.1 else key
        version = "" if draw.random() < 0.1 else "version = 3\n"
        return (
            f"{version}cycles = 5_000\nlatency = 20\n{key}"
            f"[[node]]\nimage = {quoted(image)}\n[[node]]\nimage = {quoted(image)}\n"
            "[[link]]\nfrom = 0\nto = 1\n"
        )

    def case(self):
        draw = self.draw
        place = draw.choice(
            [
                f"{self.home}/.netrc",
                "../home/.netrc",
                "golden.rows",
                "out",
                "../home/new.rows",
                f"{self.home}/.bashrc",
                "deep/golden.rows",
                "/dev/zero",
                *HIDDEN,
                *SYSTEM,
            ]
        )
        source = draw.choice(
            [
                "run net.toml",
                "run net.toml",
                "trace net.trace",
                "trace net.trace",
                "trace net.trace",
                f"trace {place}",
                f"run {place}",
                f"node {place} 100",
                "trace relay.trace",
            ]
        )
        lines = [source]
        lines += draw.sample(
            [
                f"golden {place}",
                f"golden {place}",
                "* 0 sent AA",
                "* 0 sent AA",
                "never * * stop *",
                "text 4 'relay'",
                r"text 4 'a\x1b[31m'",
                "text 0 matches 'a\u202e'",
                "count == 9: * 0 sent *",
                "\x1b[31m",
                f"{self.name()}",
                '"' + '\\"' * 50_000,
                "it's # 1",
                f"count == {'9' * DEPTH}: * 0 sent *",
                f"text 0 matches '{'(' * DEPTH}{')' * DEPTH}'",
                f"never * 0 sent {'{' * DEPTH}",
            ],
            2,
        )
        return "\n".join(lines) + "\n"

    def searches(self):
        """What `hunt`, `sweep`, `when` and `changes` read and write: a scenario of an odd name, the corpus of an
        earlier hunt, the journal of an earlier sweep, a case with conditions."""
        draw = self.draw
        self.odd_scenario = f"{self.name()}.toml" if draw.random() < 0.8 else "relay.toml"
        if self.odd_scenario != "relay.toml":
            folder = os.path.dirname(self.odd_scenario)
            os.makedirs(f"{self.repo}/{folder}", exist_ok=True)
            shutil.copy(f"{DATA}/relay.toml", f"{self.repo}/{self.odd_scenario}")
            shutil.copy(f"{DATA}/relay.hex", f"{self.repo}/{folder}")
        change = draw.choice(
            [
                {"form": "cut", "sender": 0, "hearer": 1, "first": 0, "end": draw.choice([2**40, 2**70, -1])},
                {"form": "latency", "sender": 0, "hearer": 1, "cycles": draw.choice([1, 0, 2**40])},
                {"form": "input", "node": 0, "at": 5_000, "every": 1, "hex": draw.choice(["72", "\x1b[31m", "7"])},
                {"form": "input", "node": draw.choice([0, 99, -1]), "at": 5_000, "every": 1, "hex": "7265\n"},
                {"form": "cut", "sender": 0, "hearer": 1, "first": "0", "end": 5},
            ]
        )
        trial = {"kind": draw.choice(["cuts", self.name()]), "what": self.name(), "changes": [change]}
        failed = draw.choice([[trial], [trial] * 3, trial, "\x1b[31m", [[]]])
        rounds = draw.choice([0, 0, -5, 10**9])
        corpus = {"version": draw.choice([1, 1, 1, 2]), "seed": 1, "rounds": rounds, "failed": failed}
        for folder in ("relay.hunt", f"{os.path.splitext(self.odd_scenario)[0]}.hunt"):
            if os.path.lexists(f"{self.repo}/{folder}"):
                continue
            if draw.random() < 0.2:
                self.odd(folder)
                continue
            for name in ("found-1.toml", "found-1-right.toml", "race-1.toml", "race-1.toml.state", "hunt.json"):
                if draw.random() < 0.3:
                    self.odd(f"{folder}/{name}")
            if not os.path.lexists(f"{self.repo}/{folder}/hunt.json"):
                text = json.dumps(corpus) if draw.random() < 0.8 else draw.choice(strange_documents())
                self.write(f"{self.repo}/{folder}/hunt.json", text)
        if draw.random() < 0.5:
            self.odd("sweep.log")
        else:
            lines = ['{"sweep": "0"} 00\n', f'{{"move": [5000], "wrong": null}} {"0" * 64}\n', "half a line", ""]
            self.write(f"{self.repo}/sweep.log", "".join(draw.sample(lines, 2)))
        places = ["relay.toml", "relay.toml", "early.toml", f"{self.home}/.netrc", "../home/work", "/dev/zero"]
        conditions = ["always 0 head < 9", "reaches 0 ring[0] == 114", "never 0 SP == 0", f"always 0 {self.name()}"]
        conditions += [f"always 0 {'(' * DEPTH}head{')' * DEPTH} < 9", f"always 0 {'!' * DEPTH}head"]
        conditions += [f"always 0 head{' << 63' * DEPTH} < 9", f"never 0 ring[{'9' * DEPTH}] == 0"]
        elf = draw.choice(["relay.elf", "out", "../home/.netrc"])
        self.write(f"{self.repo}/r.expect", f"run {draw.choice(places)}\nelf {elf}\n{draw.choice(conditions)}\n")

    def elf(self):
        """A program whose names are changed, or one that nobody reads to its end."""
        if self.draw.random() < 0.2:
            made = endless_elf.MAKERS[self.draw.choice(sorted(endless_elf.MAKERS))]
            self.write(f"{self.repo}/relay.elf", made())
            return
        with open(f"{DATA}/relay.elf", "rb") as file:
            content = bytearray(file.read())
        for old in (b"transfer\0", b"relay.c\0", b"main\0", b"ring\0", b"head\0", b"tail\0", b"put\0"):
            new = (
                self.draw.choice([b"\x1b[2J\n#9x", b"\x9b\x07\xe2\x80\xae\n#", b"<!--%s\r\n", b"\xff\xfe\n\0\0\0\0\0"])[
                    : len(old) - 1
                ].ljust(len(old) - 1, b"x")
                + b"\0"
            )
            content = content.replace(old, new)
        if self.draw.random() < 0.3:
            content = content.replace(b"relay.c\0", b".secret\0")
        first = self.draw.choice([64, content.find(b"relay.c") if b"relay.c" in content else 64])
        for _ in range(self.draw.choice([0, 0, 3, 30])):
            content[self.draw.randrange(first, len(content))] = self.draw.randrange(256)
        self.write(f"{self.repo}/relay.elf", bytes(content))

    # ---- a campaign, and results that nobody's campaign wrote

    def campaign(self, image):
        draw = self.draw
        self.has_campaign = True
        results = draw.choice(
            [
                None,
                None,
                None,
                None,
                None,
                "res",
                "res",
                "res",
                "../home",
                "../home/work",
                f"{self.home}/work",
                "deep/../../home",
                "out",
                "runs/..",
                ".",
            ]
        )
        lines = [f"results = {quoted(results)}"] if results else []
        lines += [f"name = {quoted(self.name())}"] if draw.random() < 0.1 else []
        lines += ["attempts = 1", 'traces = "all"', "[[run]]", 'scenario = "net.toml"', 'expect = "b.expect"']
        if draw.random() < 0.1:
            lines += [f"name = {quoted(self.name())}"]
        if draw.random() < 0.2:
            lines[lines.index('scenario = "net.toml"')] = f'draw = "{draw.choice(["draw.py", "../repo/draw.py"])}"'
            self.write(
                f"{self.repo}/draw.py",
                f"open({self.ran!r} + '/draw', 'w').close()\ndef draw(number):\n    return {{}}\n",
            )
            lines += ["vary = { number = [1, 2] }"]
        else:
            lines += ["[run.vary]", f"latency = [20, {draw.choice(['21', '22'])}]"]
            if draw.random() < 0.2:
                low, high = draw.choice([(-(2**63), 2**63 - 1), (0, 2**62), (5, 4), (0, 3)])
                span = f"from = {low}, to = {high}, drawn = {draw.choice([1, 2, 0, 10**6 + 1])}"
                key = quoted(draw.choice(["byte_time", "cycles", "a\n::x"]))
                lines += [f"{key} = {{ {span} }}"]
            if draw.random() < 0.1:
                lines += [f'"node.0.image" = [{quoted(image)}, {quoted(self.name())}]']
        self.write(f"{self.repo}/c.campaign", "\n".join(lines) + "\n")
        self.write(f"{self.repo}/b.expect", "within 0..29: never * 0 sent *\n* 0 sent AA\n")
        folder = f"{results if results and not results.startswith(('.', '/')) and '..' not in results else 'c.results'}"
        if os.path.lexists(f"{self.repo}/{folder}"):
            return
        if draw.random() < 0.1:
            self.odd(folder)
            return
        for name in (
            "summary.txt",
            "summary.jsonl",
            "junit.xml",
            ".lock",
            "runs",
            "results.sqlite-journal",
            "results.sqlite-wal",
            "results.sqlite-shm",
            "runs/net,latency=20.toml",
            "runs/net,latency=20.trace.gz",
            "log",
        ):
            if draw.random() < 0.25:
                try:
                    self.odd(f"{folder}/{name}")
                except (NotADirectoryError, FileExistsError):
                    pass
        if draw.random() < 0.6:
            self.database(f"{self.repo}/{folder}/results.sqlite")
        elif draw.random() < 0.5:
            self.odd(f"{folder}/results.sqlite")

    def database(self, path):
        """A file of results by a stranger: with rows that say `passed`, and with what SQLite would do for him."""
        draw = self.draw
        if os.path.lexists(path):
            return
        os.makedirs(os.path.dirname(path), exist_ok=True)
        for name in ("results.sqlite-journal", "results.sqlite-wal", "results.sqlite-shm"):
            beside = f"{os.path.dirname(path)}/{name}"
            if os.path.lexists(beside):
                shutil.rmtree(beside) if os.path.isdir(beside) and not os.path.islink(beside) else os.unlink(beside)
        try:
            self.rows(path)
        except sqlite3.Error:
            pass
        if draw.random() < 0.4 and os.path.exists(path):
            self.journal(f"{path}-journal", path)

    def rows(self, path):
        from avrora_tools import results

        draw = self.draw
        with sqlite3.connect(path) as database:
            schema = getattr(results, "SCHEMA", None) or __import__("avrora_tools.stored", fromlist=["SCHEMA"]).SCHEMA
            database.executescript(schema)
            columns = [row[1] for row in database.execute("PRAGMA table_info(run)")]
            types = {row[1]: row[2] for row in database.execute("PRAGMA table_info(run)")}
            for number in range(2):
                known = {
                    "number": number,
                    "name": draw.choice([f"net latency={20 + number}", self.name()]),
                    "outcome": "passed",
                    "parameters": "{}",
                    "message": self.name(),
                }
                values = [
                    known.get(name, b"\0" * 32 if types[name] == "BLOB" else 1 if types[name] != "TEXT" else "{}")
                    for name in columns
                ]
                values = [
                    value.encode("utf-8", "surrogateescape") if isinstance(value, str) and "\udcff" in value else value
                    for value in values
                ]
                database.execute(
                    f"INSERT OR IGNORE INTO run ({', '.join(columns)}) VALUES ({', '.join('?' * len(columns))})", values
                )
            database.execute(
                "INSERT OR REPLACE INTO about (key, value) VALUES ('total', '2'), ('name', ?)",
                (draw.choice(["c", "\x1b[31m"]),),
            )
            for text in draw.sample(
                [
                    "CREATE TRIGGER t AFTER INSERT ON run BEGIN UPDATE run SET outcome = 'passed'; END",
                    "CREATE VIEW v AS WITH RECURSIVE c(x) AS (SELECT 1 UNION ALL SELECT x + 1 FROM c) SELECT * FROM c",
                    "DROP VIEW result",
                    "CREATE VIEW result AS WITH RECURSIVE c(x) AS (SELECT 1 UNION ALL SELECT x + 1 FROM c) "
                    "SELECT * FROM c",
                    "UPDATE run SET outcome = zeroblob(100)",
                    "PRAGMA journal_mode = wal",
                ],
                draw.choice([0, 1, 1, 2]),
            ):
                database.execute(text)
                if "DROP" in text:
                    break
        database.close()

    def journal(self, path, of):
        """A journal that is hot, and names another one, which is a file of the victim."""
        size = max(1, os.path.getsize(of) // 4096)
        head = bytes.fromhex(SUPER) + struct.pack(">IIIII", 0, 1234, size, 512, 4096)
        name = f"{self.home}/{self.draw.choice(list(HOME))}".encode()
        end = (
            struct.pack(">II", 0xFFFFFFFF, 0)[:4]
            + name
            + struct.pack(">II", len(name), sum(name) & 0xFFFFFFFF)
            + bytes.fromhex(SUPER)
        )
        self.write(path, head.ljust(512, b"\0") + (end if self.draw.random() < 0.8 else b""))


def strange_values():
    """Lines of TOML that a reader may take long for, or get lost in."""
    tables = "{a = " * DEPTH
    return [
        f"a = {'[' * DEPTH}{']' * DEPTH}",
        f"a = {tables}1{'}' * DEPTH}",
        f"a = {'9' * DEPTH}",
        f"a = 0x{'F' * DEPTH}",
        f"a = 1{'0' * DEPTH}.0e-{DEPTH}",
        f"a = 1e{'9' * DEPTH}",
        f"{'a.' * DEPTH}a = 1",
        f"a = 9999-99-99T99:99:99.{'9' * DEPTH}",
        "include = '/proc/self/environ'",
        "Cycles = 1",
    ]


def strange_documents():
    """Texts of JSON of that kind."""
    objects = '{"version":' * DEPTH
    return [
        "[" * DEPTH + "]" * DEPTH,
        f"{objects}1{'}' * DEPTH}",
        f'{{"version": {"9" * DEPTH}, "seed": 1, "rounds": 1, "failed": []}}',
        '{"version": 1, "seed": NaN, "rounds": Infinity, "failed": []}',
        '{"version": 1, "seed": 1, "rounds": 1e999, "failed": -0.0}',
        '{"version": 1, "seed": "\\ud800", "rounds": "\\udfff", "failed": [null]}',
    ]


def quoted(text):
    """A text as TOML has it."""
    plain = text.encode("utf-8", "surrogateescape").decode("utf-8", "replace")
    return (
        '"'
        + "".join(
            character if 0x20 <= ord(character) < 0x7F and character not in '"\\' else f"\\U{ord(character):08X}"
            for character in plain
        )
        + '"'
    )
