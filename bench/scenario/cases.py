#!/usr/bin/env python3
"""Writes the scenario texts that `run_facts` reads, and what is to be read of each, from the rules of docs/FORMATS.md alone.

It shares nothing with the crate scenario_file: TOML is read by Python's tomllib, and the rules stand below a second time.
What tomllib takes otherwise than TOML 1.1 (a BOM, whole numbers of more than 64 bits, nesting, new lines in inline tables) is
said at the case, by hand.

    python3 bench/scenario/cases.py crates/command_facts       writes data/*.cases, and their parts of stdout
    python3 bench/scenario/cases.py --large FILE               writes the largest scenario, to be timed
    python3 bench/scenario/cases.py --hostile FILE             writes hostile texts of 1 MiB, to be timed
"""
import sys
import tomllib
from pathlib import Path

sys.path.append(str(Path(__file__).resolve().parent.parent))
from stored_parts import put_part

PROBES = [0, 1, 2, 9, 10, 11, 19, 20, 92, 93, 94, 99, 100, 2**40 - 2, 2**40 - 1, 2**40]
TOP = {"version", "cycles", "latency", "byte_time", "window", "node", "link", "input"}


# ---- the rules

def whole(v):
    return type(v) is int


def two(v):
    return type(v) is list and len(v) == 2 and all(whole(n) for n in v)


def rows(doc, key):
    v = doc.get(key)
    return v if type(v) is list else []


def tables(doc, key):
    return [r for r in rows(doc, key) if type(r) is dict]


def numbers_fit(v):
    """Whole numbers are those of 64 bits."""
    if whole(v):
        return -2**63 <= v < 2**63
    if type(v) is list:
        return all(numbers_fit(x) for x in v)
    if type(v) is dict:
        return all(numbers_fit(x) for x in v.values())
    return True


def parse(data):
    if data.startswith(b"\xef\xbb\xbf"):
        data = data[3:]
    try:
        doc = tomllib.loads(data.decode("utf-8"))
    except (UnicodeDecodeError, tomllib.TOMLDecodeError):
        return None
    return doc if numbers_fit(doc) else None


def keys_of(version, kind):
    if kind == "node":
        return {"image"}
    if kind == "input":
        return {"node", "at", "hex", "every"}
    keys = {"from", "to"}
    if version >= 2:
        keys.add("latency")
    if version == 3:
        keys.add("open")
    return keys


def is_open_list(v):
    if not v:
        return False
    last = 0
    for a, b in v:
        if not (last <= a < b <= 2**40):
            return False
        last = b
    return True


def fault_of(doc):
    version = doc.get("version", 1)
    version = version if whole(version) and version in (2, 3) else 1
    # 2
    if set(doc) - TOP:
        return "UnknownKey"
    for kind in ("node", "link", "input"):
        if any(set(r) - keys_of(version, kind) for r in tables(doc, kind)):
            return "UnknownKey"
    # 3
    if "cycles" not in doc:
        return "Missing"
    for kind, needed in (("node", {"image"}), ("link", {"from", "to"}), ("input", {"node", "at", "hex"})):
        if any(needed - set(r) for r in tables(doc, kind)):
            return "Missing"
    # 4
    kinds = [whole(doc[k]) for k in ("version", "cycles", "latency", "byte_time") if k in doc]
    if "window" in doc:
        kinds.append(two(doc["window"]))
    for kind in ("node", "link", "input"):
        if kind in doc:
            kinds.append(type(doc[kind]) is list and all(type(r) is dict for r in doc[kind]))
    for r in tables(doc, "node"):
        kinds.append(type(r["image"]) is str)
    for r in tables(doc, "link"):
        kinds += [whole(r[k]) for k in ("from", "to", "latency") if k in r]
        if "open" in r:
            kinds.append(type(r["open"]) is list and all(two(p) for p in r["open"]))
    for r in tables(doc, "input"):
        kinds += [whole(r[k]) for k in ("node", "at", "every") if k in r]
        kinds.append(type(r["hex"]) is str)
    if not all(kinds):
        return "WrongKind"
    # 5
    count = len(rows(doc, "node"))
    cycles = doc["cycles"]
    good = [
        1 <= doc.get("version", 1) <= 3,
        1 <= cycles <= (2**40 if version == 3 else 10_000_000),
        1 <= doc.get("latency", 3072) <= 65_535,
        256 <= doc.get("byte_time", 3072) <= 4_096,
    ]
    first, last = doc.get("window", [0, 0])
    good.append(0 <= first <= last <= cycles and last - first <= 20_000)
    for r in rows(doc, "node"):
        good.append(1 <= len(r["image"].encode()) <= 255)
    for r in rows(doc, "link"):
        good += [0 <= r["from"] < count, 0 <= r["to"] < count, 1 <= r.get("latency", 1) <= 65_535]
        if "open" in r:
            good.append(is_open_list(r["open"]))
    for r in rows(doc, "input"):
        good += [0 <= r["node"] < count, 0 <= r["at"] <= 2**40, 1 <= r.get("every", 7680) <= 65_535]
        good.append(len(r["hex"]) % 2 == 0 and all(c in "0123456789abcdefABCDEF" for c in r["hex"]))
    good.append(sum(len(r.get("open", [])) for r in rows(doc, "link")) <= 4_096)
    good.append(sum(len(r["hex"].encode()) // 2 for r in rows(doc, "input")) <= 65_536)
    if not all(good):
        return "OutOfRange"
    # 6 to 10
    if count == 0:
        return "NoNodes"
    if count > 64:
        return "TooManyNodes"
    ends = [(r["from"], r["to"]) for r in rows(doc, "link")]
    if any(a == b for a, b in ends):
        return "SelfLink"
    if len(set(ends)) < len(ends):
        return "TwiceLinked"
    nodes = [r["node"] for r in rows(doc, "input")]
    if len(set(nodes)) < len(nodes):
        return "TwiceScripted"
    return None


def described(doc):
    latency = doc.get("latency", 3072)
    first, last = doc.get("window", [0, 0])
    out = [f"  {len(rows(doc, 'node'))} nodes, {doc['cycles']} cycles, latency {latency}, "
           f"byte time {doc.get('byte_time', 3072)}, window {first} to {last}"]
    for k, r in enumerate(rows(doc, "node")):
        script = next((i for i in rows(doc, "input") if i["node"] == k), None)
        data = bytes.fromhex(script["hex"]) if script else b""
        if data:
            at, every = script["at"], script.get("every", 7680)
            end = at + (len(data) - 1) * every
            out.append(f"  node {k}: {r['image']}, {len(data)} bytes, {data[0]} at {at} to {data[-1]} at {end}")
        else:
            out.append(f"  node {k}: {r['image']}, 0 bytes, 0 at 0 to 0 at 0")
    for r in rows(doc, "link"):
        spans = r.get("open")
        signs = "".join("1" if spans is None or any(a <= c < b for a, b in spans) else "0" for c in PROBES)
        out.append(f"  link {r['from']} to {r['to']}: {r.get('latency', latency)} cycles, open {signs}")
    return out


def answer(data):
    doc = parse(data)
    if doc is None:
        return ["NotToml"]
    fault = fault_of(doc)
    return [fault] if fault else ["ok"] + described(doc)


# ---- texts

class Text:
    """A scenario as raw TOML values, so that any of them can be wrong."""

    def __init__(self, version):
        self.top = {"cycles": "500", "latency": "100", "byte_time": "512", "window": "[3, 400]"}
        if version:
            self.top["version"] = str(version)
        self.nodes = [{"image": "'a.hex'"}, {"image": "'b.hex'"}]
        self.links = [{"from": "0", "to": "1"}, {"from": "1", "to": "0"}]
        self.inputs = [{"node": "1", "at": "5", "hex": "'0aFF'", "every": "100"}]
        if version and version >= 2:
            self.links[0]["latency"] = "200"
        if version and version >= 3:
            self.links[1]["open"] = "[[0, 10], [10, 20], [93, 100]]"
        self.raw = []           # lines as they stand
        self.drop = set()       # arrays that are left out
        self.replaced = {}      # arrays given as raw values

    def lines(self):
        out = [f"{k} = {v}" for k, v in self.top.items()]
        for key, table_rows in (("node", self.nodes), ("link", self.links), ("input", self.inputs)):
            if key in self.drop:
                continue
            if key in self.replaced:
                out.append(f"{key} = {self.replaced[key]}")
                continue
            cells = ["{" + ", ".join(f"{k} = {v}" for k, v in r.items()) + "}" for r in table_rows]
            out.append(f"{key} = [{', '.join(cells)}]")
        return out + self.raw

    def bytes(self, backward=False):
        lines = self.lines()
        if backward:
            lines.reverse()
        return "".join(line + "\n" for line in lines).encode()


WORKED = """cycles = 500
latency = 100
byte_time = 512
[[node]]
image = "a.hex"
[[node]]
image = "b.hex"
[[link]]
from = 0
to = 1
"""

WORKED_3 = """# two nodes, seen in part
version = 3
cycles = 30_000_000     # long
byte_time = 512
window = [100, 20_100]

[[node]]
image = 'a.hex'

[[node]]
image = "b\\u002ehex"

[[link]]
from = 0
to = 1
latency = 200
open = [
    [0, 93],
    [94, 1_099_511_627_776],
]

[[link]]
from = 1
to = 0

[[input]]
node = 1
at = 1_000
hex = "48692E"
every = 960
"""

OTHER_KINDS = ["true", "1.5", "2.0", "'x'", "''", "[]", "[1]", "[1, 2]", "[1, 2, 3]", "['a', 2]", "[[1, 2]]", "[[]]",
               "[[1], [2, 3]]", "[[1, 2.0]]", "{}", "{a = 1}", "[{}]", "[{a = 1}]", "1979-05-27", "07:32:00", "5"]


def edits():
    """Single edits: a name, and what it does to a text of version 3."""
    def top(key, value):
        return lambda t: t.top.__setitem__(key, value)

    def cell(table, place, key, value):
        return lambda t: getattr(t, table)[place].__setitem__(key, value)

    def without_top(key):
        return lambda t: t.top.pop(key)

    def without(table, place, key):
        return lambda t: getattr(t, table)[place].pop(key)

    def line(text):
        return lambda t: t.raw.append(text)

    yield "broken", "NotToml", line("broken = ")
    yield "twice_the_key", "NotToml", line("cycles = 500")
    yield "speed", "UnknownKey", top("speed", "1")
    yield "node_speed", "UnknownKey", cell("nodes", 1, "speed", "1")
    yield "link_speed", "UnknownKey", cell("links", 1, "speed", "1")
    yield "input_speed", "UnknownKey", cell("inputs", 0, "speed", "1")
    yield "no_cycles", "Missing", without_top("cycles")
    yield "no_image", "Missing", without("nodes", 0, "image")
    yield "no_to", "Missing", without("links", 0, "to")
    yield "no_hex", "Missing", without("inputs", 0, "hex")
    yield "latency_text", "WrongKind", top("latency", "'x'")
    yield "image_number", "WrongKind", cell("nodes", 0, "image", "1")
    yield "from_float", "WrongKind", cell("links", 0, "from", "0.0")
    yield "open_number", "WrongKind", cell("links", 0, "open", "1")
    yield "at_text", "WrongKind", cell("inputs", 0, "at", "'5'")
    yield "byte_time_255", "OutOfRange", top("byte_time", "255")
    yield "cycles_0", "OutOfRange", top("cycles", "0")
    yield "to_2", "OutOfRange", cell("links", 0, "to", "2")
    yield "open_empty", "OutOfRange", cell("links", 0, "open", "[]")
    yield "hex_odd", "OutOfRange", cell("inputs", 0, "hex", "'0'")

    def bare(t):
        t.nodes, t.links, t.inputs = [], [], []
    yield "no_node", "NoNodes", bare
    yield "65_nodes", "TooManyNodes", lambda t: t.nodes.extend([{"image": "'n'"}] * 63)
    yield "self_link", "SelfLink", lambda t: t.links.append({"from": "1", "to": "1"})
    yield "twice_linked", "TwiceLinked", lambda t: t.links.append({"from": "0", "to": "1"})
    yield "twice_linked_later", "TwiceLinked", lambda t: t.links.append({"from": "1", "to": "0", "latency": "7"})
    yield "twice_scripted", "TwiceScripted", lambda t: t.inputs.append({"node": "1", "at": "9", "hex": "''"})


def alone(out):
    for version in (None, 1, 2, 3):
        name = version or "none"
        out(f"good {name}", Text(version).bytes(), "ok")
        for edit, wanted, change in edits():
            t = Text(version)
            change(t)
            out(f"alone {name} {edit}", t.bytes(), wanted if version == 3 else None)


def strangers(out):
    """Each key of any table in each table that has none of that name."""
    every = sorted(TOP | {"image", "from", "to", "open", "at", "hex", "every", "name", "rate", "script"})
    for version in (None, 1, 2, 3):
        for kind, rows_of in (("top", None), ("node", "nodes"), ("link", "links"), ("input", "inputs")):
            for key in every:
                t = Text(version)
                row = t.top if rows_of is None else getattr(t, rows_of)[0]
                known = TOP if kind == "top" else keys_of(version or 1, kind)
                if key in known:
                    continue
                row[key] = "1"
                out(f"stranger {version or 'none'} {kind} {key}", t.bytes(), "UnknownKey")


def pairs(out):
    done = list(edits())
    for i, (a, _, first) in enumerate(done):
        for b, _, second in done[i + 1:]:
            t = Text(3)
            try:
                first(t)
                second(t)
            except (IndexError, KeyError):
                continue
            out(f"pair {a} {b}", t.bytes())
            out(f"pair {b} {a} backward", t.bytes(backward=True))


CELLS = [("top", None, k) for k in ("version", "cycles", "latency", "byte_time", "window")] + [
    ("nodes", 1, "image"), ("links", 0, "from"), ("links", 0, "to"), ("links", 0, "latency"), ("links", 0, "open"),
    ("inputs", 0, "node"), ("inputs", 0, "at"), ("inputs", 0, "hex"), ("inputs", 0, "every")]


def put(t, cell, value):
    table, place, key = cell
    row = t.top if table == "top" else getattr(t, table)[place]
    if value is None:
        row.pop(key, None)
    else:
        row[key] = value


def kinds(out):
    for cell in CELLS:
        for n, value in enumerate([None] + OTHER_KINDS):
            t = Text(3)
            put(t, cell, value)
            out(f"kind {cell[0]} {cell[2]} {n}", t.bytes())
    for key in ("node", "link", "input"):
        for n, value in enumerate(OTHER_KINDS + ["[{}, 5]", "[{bad = 1}, 5]", "[5, {bad = 1}]", "{bad = 1}", "[[{}]]"]):
            t = Text(3)
            t.replaced[key] = value
            out(f"kind array {key} {n}", t.bytes())
        t = Text(3)
        t.drop.add(key)
        out(f"kind array {key} absent", t.bytes())


def bounds(out):
    def numbers(cell, values, versions=(None, 1, 2, 3), before=None):
        for version in versions:
            for value in values:
                t = Text(version)
                if before:
                    before(t)
                put(t, cell, value)
                out(f"bound {version or 'none'} {cell[0]} {cell[2]} {value if len(str(value)) < 60 else 'long'}", t.bytes())

    def wide(t):
        t.top["window"] = "[0, 0]"

    numbers(("top", None, "version"), ["-1", "0", "1", "2", "3", "4", "5", "'2'", "2.0", "true", "9223372036854775807", "-9223372036854775808", "9223372036854775808"])
    numbers(("top", None, "cycles"), ["-1", "0", "1", "9999999", "10000000", "10000001", "1099511627775", "1099511627776", "1099511627777",
                                      "9223372036854775807", "-9223372036854775808", "99999999999999999999"], before=wide)
    numbers(("top", None, "latency"), ["-1", "0", "1", "65535", "65536"], (1, 3))
    numbers(("top", None, "byte_time"), ["-1", "0", "255", "256", "4096", "4097"], (1, 3))
    numbers(("links", 0, "latency"), ["-1", "0", "1", "65535", "65536", "'x'"])
    numbers(("links", 0, "from"), ["-1", "0", "1", "2", "64", "256", "-9223372036854775808"], (1,))
    numbers(("links", 0, "to"), ["-1", "0", "1", "2", "257", "9223372036854775807"], (1,))
    numbers(("inputs", 0, "node"), ["-1", "0", "1", "2", "65536"], (1,))
    numbers(("inputs", 0, "at"), ["-1", "0", "1099511627776", "1099511627777"], (1, 3))
    numbers(("inputs", 0, "every"), ["-1", "0", "1", "65535", "65536"], (1, 3))
    numbers(("inputs", 0, "hex"), ["''", "'0'", "'00'", "'0g'", "'G0'", "'aF'", "'AF'", "' 0'", "'0x'", "'é0'", "'éé'", "'000'", "'00 '"], (1,))

    def long(t):
        t.top["cycles"] = "100000"
    numbers(("top", None, "window"), ["[0, 0]", "[0, 20000]", "[0, 20001]", "[1, 20001]", "[79999, 99999]", "[79999, 100000]", "[80000, 100000]",
                                      "[80000, 100001]", "[100000, 100000]", "[100001, 100001]", "[5, 4]", "[4, 5]", "[-1, 5]", "[-2, -1]",
                                      "[-9223372036854775808, 9223372036854775807]", "[9223372036854775807, 0]", "[0, 9223372036854775807]"], (1, 3), before=long)
    def longest(t):
        t.top["cycles"] = str(2**40)
    numbers(("top", None, "window"), [f"[{first}, {last}]" for first, last in ((2**32, 2**32 + 20_000), (2**40 - 20_000, 2**40), (2**40 - 20_001, 2**40),
                                                                               (2**40 - 5, 2**40 + 1), (2**32 + 5, 2**32 + 4), (2**40, 2**40))], (3,), before=longest)
    numbers(("nodes", 0, "image"), ["''", "'x'", "'" + "x" * 254 + "'", "'" + "x" * 255 + "'", "'" + "x" * 256 + "'", "'" + "é" * 127 + "x'", "'" + "é" * 128 + "'"], (1,))
    end = 2**40
    numbers(("links", 0, "open"), ["[[0, 1]]", "[[0, 0]]", "[[1, 0]]", "[[-1, 1]]", "[[-2, -1]]", f"[[0, {end}]]", f"[[0, {end + 1}]]", f"[[{end - 1}, {end}]]",
                                   f"[[{end}, {end + 1}]]", "[[0, 93]]", "[[93, 94]]", "[[0, 10], [10, 20]]", "[[0, 10], [9, 20]]", "[[10, 20], [0, 10]]",
                                   "[[0, 10], [11, 20]]", "[[0, 1], [1, 2], [9, 11], [20, 92], [99, 100]]", "[[0, 1], [2, 3], [1, 2]]", "[[5, 6], [5, 6]]",
                                   "[[0, 10], []]", "[[]]", "[[1]]", "[[1, 2, 3]]", "[[1, 2], 3]", "[]", "1", "[[0, 1.0]]", "[[[0, 1]]]"])
    for count in (0, 1, 2, 63, 64, 65, 66):
        for version in (1, 3):
            t = Text(version)
            t.nodes = [{"image": f"'n{k}'"} for k in range(count)]
            t.links, t.inputs = [], []
            out(f"nodes {version} {count}", t.bytes())
            t.links = [{"from": "0", "to": "1"}]
            out(f"nodes {version} {count} linked", t.bytes())
            t.links = [{"from": "0", "to": str(max(count - 1, 0))}]
            out(f"nodes {version} {count} linked to the last", t.bytes())
            t.links = [{"from": str(count), "to": "0"}]
            out(f"nodes {version} {count} linked from past the last", t.bytes())
            t.links = []
            t.inputs = [{"node": str(max(count - 1, 0)), "at": "0", "hex": "'00'"}]
            out(f"nodes {version} {count} with an input of the last", t.bytes())
            t.inputs = [{"node": str(count), "at": "0", "hex": "'00'"}]
            out(f"nodes {version} {count} with an input past the last", t.bytes())
    t = Text(3)
    t.nodes = [{"image": f"'n{k}'"} for k in range(9)]
    t.links = [{"from": str(a), "to": str(b), "latency": str(100 * a + b + 1)} for a in range(9) for b in range(9) if a != b]
    t.inputs = [{"node": str(k), "at": str(k), "hex": f"'{k:02x}{k:02x}'"} for k in (8, 0, 4, 2)]
    out("all links of nine", t.bytes())
    t.links.append({"from": "8", "to": "7"})
    out("all links of nine and one again", t.bytes())
    t.inputs.append({"node": "4", "at": "1", "hex": "''"})
    out("all links of nine, one again, two inputs of one", t.bytes())
    t.links.pop()
    out("all links of nine, two inputs of one", t.bytes())
    for name, first, second in (("at the bound", 65536, 0), ("past it", 65537, 0), ("past it in two", 65536, 1)):
        t = Text(1)
        t.inputs = [{"node": "0", "at": "0", "hex": "'" + "5A" * first + "'", "every": "1"}, {"node": "1", "at": "0", "hex": "'" + "A5" * second + "'", "every": "1"}]
        out(f"script bytes {name}", t.bytes())
    for name, first, second in (("at the bound", 2000, 2096), ("past it", 2000, 2097)):
        t = Text(3)
        t.links[0]["open"] = "[" + ", ".join(f"[{k}, {k + 1}]" for k in range(first)) + "]"
        t.links[1]["open"] = "[" + ", ".join(f"[{k}, {k + 1}]" for k in range(second)) + "]"
        out(f"spans {name}", t.bytes())


def prefixes(out):
    for n in range(len(WORKED) + 1):
        out(f"prefix {n}", WORKED[:n].encode())
    for n in range(len(WORKED_3) + 1):
        out(f"prefix of version 3 {n}", WORKED_3[:n].encode())


def forms(out):
    base = b"node = [{image = 'a'}]\n"
    for name, text in [
        ("empty", b""),
        ("a comment", b"# nothing\n"),
        ("CR LF", WORKED.replace("\n", "\r\n").encode()),
        ("CR LF, version 3", WORKED_3.replace("\n", "\r\n").encode()),
        ("a BOM", b"\xef\xbb\xbf" + WORKED.encode()),
        ("a lone CR", WORKED.replace("\n", "\r").encode()),
        ("no last LF", WORKED[:-1].encode()),
        ("blank lines", ("\n \t\n" + WORKED.replace("\n", "\n\n")).encode()),
        ("comments", WORKED.replace("\n", " # so\n").encode()),
        ("NUL", b"cycles = 5\x00\n" + base),
        ("no UTF-8", b"cycles = 5\n# \xff\n" + base),
        ("half a letter", b"cycles = 5\nnode = [{image = '\xc3'}]\n"),
        ("a letter of two bytes", "cycles = 5\nnode = [{image = 'é'}]\n".encode()),
        ("quoted keys", b"\"cycles\" = 5\n'latency' = 7\n" + base),
        ("escaped key", b"\"cyc\\u006ces\" = 5\n" + base),
        ("key of another case", b"Cycles = 5\n" + base),
        ("key with a blank", b"\"cycles \" = 5\n" + base),
        ("empty key", b"cycles = 5\n\"\" = 1\n" + base),
        ("hexadecimal, octal, binary", b"cycles = 0x1F4\nlatency = 0o144\nbyte_time = 0b1000000000\n" + base),
        ("underscores", b"cycles = 1_0_0\n" + base),
        ("plus", b"cycles = +5\n" + base),
        ("minus zero", b"cycles = 5\nwindow = [-0, +0]\n" + base),
        ("leading zero", b"cycles = 05\n" + base),
        ("dotted top key", b"cycles = 5\nnode.image = 'a'\n"),
        ("dotted unknown key", b"cycles = 5\na.b = 1\n" + base),
        ("dotted key in a row", b"cycles = 5\nnode = [{image.name = 'a'}]\n"),
        ("dotted key below a number", b"cycles = 5\ncycles.x = 5\n" + base),
        ("table for an array", b"cycles = 5\n[node]\nimage = 'a'\n"),
        ("table for a number", b"[cycles]\nx = 1\n"),
        ("array of tables for a number", b"[[cycles]]\nx = 1\n"),
        ("array of tables for the window", b"cycles = 5\n[[node]]\nimage = 'a'\n[[window]]\nx = 1\n"),
        ("table below a row", b"cycles = 5\n[[node]]\nimage = 'a'\n[node.more]\nx = 1\n"),
        ("array below a row", b"cycles = 5\n[[node]]\nimage = 'a'\n[[node.more]]\nx = 1\n"),
        ("table below a row's number", b"cycles = 5\n[[node]]\nimage = 'a'\n[[node]]\nimage = 'b'\n[[link]]\nfrom = 0\nto = 1\n[link.latency]\nx = 1\n"),
        ("array and inline array", b"cycles = 5\nnode = [{image = 'a'}]\n[[node]]\nimage = 'b'\n"),
        ("twice a table", b"cycles = 5\n[a]\n[a]\n"),
        ("unknown table", b"cycles = 5\nnode = [{image = 'a'}]\n[x]\ny = 1\n"),
        ("cycles behind a row", b"[[node]]\nimage = 'a'\ncycles = 5\n"),
        ("empty row", b"cycles = 5\n[[node]]\n"),
        ("row and no keys", b"cycles = 5\nnode = [{}]\n"),
        ("mixed array", b"cycles = 5\nnode = [{image = 'a'}, 'b']\n"),
        ("trailing comma", b"cycles = 5\nwindow = [0, 1,]\nnode = [{image = 'a'},]\n"),
        ("array over lines", b"cycles = 5\nwindow = [ # from\n 0,\n\n 1 # to\n]\n" + base),
        ("basic text over lines", b"cycles = 5\nnode = [{image = \"\"\"a\\\n   b\"\"\"}]\n"),
        ("literal text over lines", b"cycles = 5\nnode = [{image = '''\na'''}]\n"),
        ("escapes", b"cycles = 5\nnode = [{image = \"a\\tb\\u00e9\\U0001F600\"}]\n"),
        ("unknown escape", b"cycles = 5\nnode = [{image = \"a\\q\"}]\n"),
        ("unclosed text", b"cycles = 5\nnode = [{image = \"a}]\n"),
        ("unclosed array", b"cycles = 5\nnode = [{image = \"a\"}\n"),
        ("two on a line", b"cycles = 5 latency = 6\n" + base),
        ("value without a key", b"= 5\n"),
        ("key without a value", b"cycles\n"),
        ("cycles and no value", b"cycles =\n"),
        ("a float as a whole number", b"cycles = 5e2\n" + base),
        ("twice a key in a row", b"cycles = 5\nnode = [{image = 'a', image = 'b'}]\n"),
        ("hex in capitals and not", b"cycles = 5\ninput = [{node = 0, at = 0, hex = 'aBCdEf09'}]\n" + base),
        ("no default is asked", b"cycles = 5\n" + base),
        ("empty arrays", b"cycles = 5\nlink = []\ninput = []\n" + base),
    ]:
        out(f"form {name}", text)
    # What tomllib takes otherwise than TOML 1.1, by hand.
    ok = ["ok", "  1 nodes, 5 cycles, latency 3072, byte time 3072, window 0 to 0", "  node 0: a, 0 bytes, 0 at 0 to 0 at 0"]
    out.by_hand("form new lines in an inline table", b"cycles = 5\nnode = [{\n  image = 'a',\n}]\n", ok)
    out.by_hand("form escape by two digits", b"cycles = 5\nnode = [{image = \"\\x61\"}]\n", ok)
    out.by_hand("form 80 arrays in one another", b"cycles = 5\nwindow = " + b"[" * 80 + b"]" * 80 + b"\n" + base, ["WrongKind"])
    out.by_hand("form 81 arrays in one another", b"cycles = 5\nwindow = " + b"[" * 81 + b"]" * 81 + b"\n" + base, ["NotToml"])
    out.by_hand("form a number past all floats", b"cycles = 1e999\n" + base, ["NotToml"])
    out.by_hand("form a BOM and no more", b"\xef\xbb\xbf", ["Missing"])


# ---- files

class Cases:
    def __init__(self):
        self.cases = []

    def add(self, name, data, lines):
        assert b"\n== " not in b"\n" + data and "\n" not in name
        self.cases.append((name, data, lines))

    def by_hand(self, name, data, lines):
        self.add(name, data, lines)

    def __call__(self, name, data, wanted=None):
        lines = answer(data)
        assert wanted is None or lines[0] == wanted, (name, wanted, lines)
        self.add(name, data, lines)


def main(folder):
    groups = {"alone": alone, "strangers": strangers, "pairs": pairs, "kinds": kinds, "bounds": bounds, "prefixes": prefixes, "forms": forms}
    total = 0
    for name, group in groups.items():
        out = Cases()
        group(out)
        total += len(out.cases)
        (folder / "data" / f"{name}.cases").write_bytes(b"".join(b"== " + n.encode() + b"\n" + d + b"\n" for n, d, _ in out.cases))
        put_part(folder, f"scenarios={name}.cases", [line for n, _, lines in out.cases for line in [f"{n}: {lines[0]}", *lines[1:]]])
    print(total, "cases")


def large():
    spans = 4096
    out = ["version = 3", "cycles = 1_099_511_627_776"]
    out += [f"[[node]]\nimage = 'node{k}.hex'" for k in range(64)]
    for a in range(64):
        for b in range(64):
            if a != b:
                pairs_here = 2 if spans > 4032 else 1
                spans -= pairs_here
                cells = ", ".join(f"[{1000 * k}, {1000 * k + 500}]" for k in range(pairs_here))
                out.append(f"[[link]]\nfrom = {a}\nto = {b}\nlatency = {a + b + 1}\nopen = [{cells}]")
    out += [f"[[input]]\nnode = {k}\nat = {k}\nhex = '{'5A' * 1024}'" for k in range(64)]
    return "\n".join(out).encode() + b"\n"


def hostile():
    most = 1_048_576
    nodes = "node = [" + ", ".join("{image = 'n'}" for _ in range(64)) + "]\n"
    head = "version = 3\ncycles = 500\n"

    def filled(key, cell, before):
        count = (most - len(head) - len(nodes) - 100) // (len(cell) + 1)
        return head + nodes + before + f"{key} = [" + ",".join([cell] * count) + "]\n"
    yield "inputs of the last node", filled("input", "{node=63,at=0,hex=''}", "")
    yield "equal links", filled("link", "{from=0,to=1}", "")
    yield "a link past the nodes behind many", filled("link", "{from=0,to=1},{from=0,to=64}", "")
    yield "self links", filled("link", "{from=1,to=1}", "")
    yield "short spans", head + nodes + "link = [{from=0,to=1,open=[" + ",".join(f"[{k},{k + 1}]" for k in range(70000)) + "]}]\n"
    yield "nodes", head + "node = [" + ",".join(["{image='n'}"] * (most // 13)) + "]\n"
    yield "rows by headers", head + nodes + "[[link]]\nfrom=0\nto=1\n" * (most // 24)
    yield "unknown keys", head + nodes + "".join(f"k{k}=1\n" for k in range(most // 11))
    yield "many deep arrays", head + nodes + "window = [" + ",".join(["[" * 70 + "]" * 70] * (most // 141)) + "]\n"
    yield "deeper than there may be", head + nodes + "window = " + "[" * (most - 2000) + "\n"
    yield "one long text", head + "node = [{image = '" + "x" * (most - 200) + "'}]\n"
    yield "long dotted key", head + nodes + ".".join(["a"] * (most // 2 - 2000)) + " = 1\n"
    yield "unknown keys of a row", head + "node = [{" + ",".join(f"k{k}=1" for k in range(most // 11)) + "}]\n"


if __name__ == "__main__":
    if sys.argv[1:2] in (["--help"], ["-h"]):
        sys.exit(print(__doc__))
    if sys.argv[1] == "--large":
        Path(sys.argv[2]).write_bytes(b"== large\n" + large() + b"\n")
    elif sys.argv[1] == "--hostile":
        Path(sys.argv[2]).write_bytes(b"".join(b"== " + n.encode() + b"\n" + t.encode() + b"\n" for n, t in hostile()))
    else:
        main(Path(sys.argv[1]))
