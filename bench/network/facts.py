#!/usr/bin/env python3
"""Writes the files of cases of networks (`call_facts`) and what the stored run of `command_facts` is to give of them, by the slow simulator beside this file.

    bench/network/facts.py FOLDER        FOLDER is crates/command_facts: writes its files of these cases in data/,
                                          and what they are to come to in stdout

Always the same bytes.
"""
import sys
from pathlib import Path

from case_lines import CaseFile, Files, folder_of_words
from draw import aimed, drawn, hex_text, late, ring
from network import MOST_IMAGE, MOST_SCENARIO, Refused, open_network
from states import EPOCH

HERE = Path(__file__).resolve().parent
EXAMPLES = HERE.parent.parent / "examples"

LINES = """\
# A case file of whole networks. file NAME: a file, whose lines follow behind bars. copy NAME: the file that lies beside this
# one. blank NAME N: a file of N blank lines. run FILE: `run FILE` and `run --plain FILE` over these files; with read N, the
# read with this number fails, from 0; with out N or err N, the output or the error stream takes N bytes in all. The stored run
# has below each run its status, how many bytes each stream took, with the bytes, and whether --plain came to the same.
"""


class Networks(CaseFile):
    def __init__(self, folder, source):
        super().__init__(folder, LINES.splitlines() + ["#"] + [f"# Source: {line}" for line in source] + [""])

    def file(self, name, text):
        assert name not in self.held and (not text or text.endswith("\n")), name
        self.file_in_bars(name, text)

    def copy(self, name, source):
        self.file_beside("copy", name, source.read_bytes())

    def run(self, name, kind=None, number=None, known=None):
        """A run, with what the simulator gives, or with the trace that is known."""
        self.line(f"run {name}" + (f" {kind} {number}" if kind else ""))
        status, out, err = outcome(self.held, name, number if kind == "read" else None, known)
        if kind == "out" and number < len(out):
            status, out, err = 1, out[:number], b"avrora: write failed\n"
        if kind == "err" and number < len(err):
            status, err = 1, err[:number]
        self.expected.append(f"status {status}")
        for stream, taken in (("out", out), ("err", err)):
            self.expected.append(f"{stream} {len(taken)}")
            self.expected += taken.decode().splitlines()
        self.expected.append("plain: the same")
        return status, out


def outcome(held, name, failing, known):
    try:
        network = open_network(Files(held, failing), name)
    except Refused as refused:
        return refused.status, b"", refused.line.encode() + b"\n"
    if known is None:
        network.run()
        assert network.check()
        known = network.trace()
    return 0, known, b""


# ---- two nodes


def two(head="", link="", byte_time=512, latency=100, cycles=500, images=("a.hex", "b.hex"), links=True, rest=""):
    lines = [head, f"cycles = {cycles}", f"latency = {latency}", f"byte_time = {byte_time}"]
    for image in images:
        lines += ["[[node]]", f'image = "{image}"']
    if links:
        lines += ["[[link]]", "from = 0", "to = 1", link]
    return "\n".join(line for line in lines + [rest] if line) + "\n"


def worked(folder):
    it = Networks(folder, ["drawn up by hand; the traces are those of bench/network/network.py."])
    it.file("a.hex", hex_text(ring(0x11, 1)))
    it.file("b.hex", hex_text(ring(0x22, 8)))

    def case(name, about, text):
        it.about(about)
        it.file(name, text)
        it.run(name)

    case("two.toml", "Node 1 hears in its second sample what node 0 sent.", two())
    it.about("The output takes so many bytes and no more.")
    whole = it.run("two.toml", "out", 10_000)[1]
    for room in (0, 1, 17, 100, len(whole) - 1, len(whole)):
        it.run("two.toml", "out", room)
    it.about("Nothing is written to the error stream, so it does not matter what it takes.")
    it.run("two.toml", "err", 0)
    case("plain.toml", "Without a link.", two(links=False))
    case("back.toml", "The link the other way.", two(links=False, rest="[[link]]\nfrom = 1\nto = 0"))
    case("both.toml", "Both ways.", two(rest="[[link]]\nfrom = 1\nto = 0"))
    for latency, about in ((337, "a cycle before"), (338, "in the cycle in which"), (339, "a cycle after")):
        case(f"first{latency}.toml", f"The byte can be heard first {about} it is sampled.", two(latency=latency))
    for latency, about in ((82, "one cycle too late"), (83, "in the last cycle"), (84, "a cycle before the last")):
        case(f"last{latency}.toml", f"The sample comes {about}.", two(latency=latency, byte_time=256))
    case("near.toml", "The shortest latency.", two(latency=1))
    for latency, about in ((50, "one cycle too late"), (51, "in the last cycle, with the greatest age")):
        case(f"age{latency}.toml", f"The longest byte is sampled again and again, at last {about}.",
             two(latency=latency, byte_time=4096, cycles=4240))
    it.about("Node 0 stops, and holds nobody up.")
    it.file("pwm.hex", ":0400000001E00FBD4F\n:00000001FF\n")
    it.file("stops.toml", two(images=("pwm.hex", "b.hex")))
    it.run("stops.toml")
    it.about("All that is erased stops at once.")
    it.file("erased.hex", ":00000001FF\n")
    it.file("all_stop.toml", two(images=("erased.hex", "erased.hex")))
    it.run("all_stop.toml")
    it.file("loop.hex", ":0400000001E0FFCF4D\n:00000001FF\n")
    it.about("A window over two nodes: rows of one cycle stand in order of node.")
    it.file("window.toml", two(rest="", images=("loop.hex", "a.hex"), head="window = [88, 96]"))
    it.run("window.toml")
    it.file("one.toml", 'cycles = 8\nwindow = [0, 8]\nnode = [{image = "loop.hex"}]\n')
    it.run("one.toml")
    it.about("A node that sleeps, in a window from the middle of the run to its end.")
    it.file("sleep.hex", ":020000001FC01F\n:02003C00189515\n:1E00400000E10EBF0FEF0DBF03E601BF02E007BF00E205BF09E003BF78948895FECF92\n:00000001FF\n")
    it.file("sleep.toml", 'cycles = 130\nwindow = [100, 130]\nnode = [{image = "sleep.hex"}]\n')
    it.run("sleep.toml")
    it.about("Two bytes at once, of which a sample gives the OR.")
    it.file("c.hex", hex_text(ring(0x0F, 8)))
    it.file("clash.toml", two(images=("a.hex", "b.hex", "c.hex"), rest="[[link]]\nfrom = 2\nto = 1\n[[link]]\nfrom = 2\nto = 0"))
    it.run("clash.toml")
    it.about("Sixty-four nodes that all hear one another.")
    it.file("d.hex", hex_text(ring(0x40, 1)))
    rows = [", ".join(f"{{from = {j}, to = {k}}}" for k in range(64) if k != j) for j in range(64)]
    it.file("crowd.toml", "cycles = 500\nlatency = 1\nbyte_time = 512\nnode = [\n" + '  {image = "d.hex"},\n' * 64 + "]\nlink = [\n"
            + "".join(f"  {row},\n" for row in rows) + "]\n")
    it.run("crowd.toml")
    it.about("Own latencies: the link's, in a version that has them.")
    for latency in (1, 200, 337, 338, 339):
        it.file(f"own{latency}.toml", two("version = 2", f"latency = {latency}"))
        it.run(f"own{latency}.toml")
    it.file("own_far.toml", two("version = 2", "latency = 1", latency=65_535))
    it.run("own_far.toml")
    it.about("Spans: what counts is the cycle in which a byte is sent.")
    for place, spans in enumerate(([[0, 93]], [[93, 94]], [[94, 500]], [[0, 93], [93, 94]], [[1, 2], [94, 95]], [[0, 2**40]])):
        it.file(f"open{place}.toml", two("version = 3", f"open = {spans}"))
        it.run(f"open{place}.toml")
    it.about("Compiled C: three nodes that write on USART0, send once and sample once; one of them was sent a byte.")
    it.copy("report.hex", HERE / "report.hex")
    report = [f'image = "report.hex"'] * 3
    it.file("report.toml", "cycles = 120_000\n" + "".join(f"[[node]]\n{image}\n" for image in report)
            + "[[link]]\nfrom = 0\nto = 1\n[[link]]\nfrom = 1\nto = 2\n[[input]]\nnode = 0\nat = 1_000\nhex = \"7E\"\n")
    it.run("report.toml")
    it.about("Inputs that say when the nodes send and sample (bench/network/net.c), faster than the nodes read them, and too late.")
    it.copy("net.hex", HERE / "net.hex")
    order = "[[input]]\nnode = 0\nat = 200\nevery = 600\nhex = \"E080C0A1\"\n[[input]]\nnode = 1\nat = 380\nevery = 600\nhex = \"4041E0c2\"\n"
    it.file("orders.toml", two(images=("net.hex", "net.hex"), cycles=4_000, byte_time=256, rest=order))
    it.run("orders.toml")
    it.file("close.toml", two(images=("net.hex", "net.hex"), cycles=4_000, byte_time=256, rest=order.replace("600", "1")))
    it.run("close.toml")
    it.file("late.toml", two(images=("net.hex", "net.hex"), cycles=800, rest=order.replace("200", "800").replace("380", "1_099_511_627_776").replace("E080C0A1", "")))
    it.run("late.toml")
    it.about("More than an epoch of cycles.")
    it.file("epochs.toml", f'cycles = {EPOCH + 40_000}\nwindow = [{EPOCH - 4}, {EPOCH + 6}]\nnode = [{{image = "loop.hex"}}]\n')
    it.run("epochs.toml")
    it.about("A node that stops in the first epoch; in the second the others send to each other, and sample what it never sent.")
    links = "".join(f"[[link]]\nfrom = {j}\nto = {k}\n" for j in range(3) for k in range(3) if j != k)
    orders = "".join(f"[[input]]\nnode = {k}\nat = {at}\nevery = 700\nhex = \"{order}\"\n" for k, at, order in ((1, EPOCH - 244, "E0C0E0"), (2, EPOCH - 144, "C0E0C1")))
    it.file("stopped.toml", two(images=("pwm.hex", "net.hex", "net.hex"), links=False, cycles=EPOCH + 3_000, rest=links + orders))
    it.run("stopped.toml")
    it.about("All nodes stop in the first of three epochs.")
    it.file("all_stopped.toml", two(images=("erased.hex", "pwm.hex"), cycles=2 * EPOCH + 100_000))
    it.run("all_stopped.toml")
    it.about("Thirty million cycles: one instruction of one cycle, then one in each two.")
    it.file("long.toml", 'version = 3\ncycles = 30_000_000\nnode = [{image = "loop.hex"}]\n')
    it.run("long.toml", known=b"30000000 0 end 15000001 running\n")
    return it


# ---- the examples


def examples(folder):
    it = Networks(folder, ["the networks of examples/; the traces are those of bench/network/network.py."])
    for name in ("relay", "flood"):
        it.line("")
        it.copy(f"{name}.hex", EXAMPLES / f"{name}.hex")
        it.copy(f"{name}.toml", EXAMPLES / f"{name}.toml")
        it.run(f"{name}.toml")
    it.about("The image of each node is read in order of number, also where it is that of the node before.")
    for number in (0, 1, 5, 6):
        it.run("relay.toml", "read", number)
    return it


# ---- refusals

RECORDS = {
    "AfterEnd": ":0400000001E0FFCF4D\n:00000001FF\n:00000001FF\n",
    "NotARecord": "\n:0400000001E0FFCF4\n:00000001FF\n",
    "BadSum": ":0400000001E0FFCF4E\n:00000001FF\n",
    "BadType": ":00000006FA\n:00000001FF\n",
    "BadLength": ":0400000001E0FFCF4D\n:010000010AF4\n",
    "Crossing": ":04FFFE0000000000FF\n:00000001FF\n",
    "PastFlash": ":020000040002F8\n:0100000000FF\n:00000001FF\n",
    "NoEnd": ":0400000001E0FFCF4D\n",
}
NODES = '[[node]]\nimage = "a.hex"\n[[node]]\nimage = "b.hex"\n'
TEXTS = {
    "NotToml": "cycles =\n" + NODES,
    "UnknownKey": "cycles = 500\nspeed = 1\n" + NODES,
    "Missing": "latency = 100\n" + NODES,
    "WrongKind": 'cycles = 500\nlatency = "x"\n' + NODES,
    "OutOfRange": "cycles = 500\nlatency = 0\n" + NODES,
    "NoNodes": "cycles = 500\nnode = []\n",
    "TooManyNodes": "cycles = 500\n" + '[[node]]\nimage = "a.hex"\n' * 65,
    "SelfLink": "cycles = 500\n" + NODES + "[[link]]\nfrom = 0\nto = 0\n",
    "TwiceLinked": "cycles = 500\n" + NODES + "[[link]]\nfrom = 0\nto = 1\n" * 2,
    "TwiceScripted": "cycles = 500\n" + NODES + '[[input]]\nnode = 0\nat = 1\nhex = "00"\n' * 2,
}


def refusals(folder):
    it = Networks(folder, ["drawn up by hand from docs/FORMATS.md; the answers are those of bench/network/network.py."])
    it.file("a.hex", hex_text(ring(0x11, 1)))
    it.file("b.hex", hex_text(ring(0x22, 8)))
    it.file("two.toml", two())
    it.about("Words that are none.")
    it.held["-two.toml"] = it.held["two.toml"]
    it.line("run -two.toml")
    it.expected += ["status 2", "out 0", "err 25", "avrora: bad command line", "plain: the same"]
    it.about("The scenario is read first, then the image of each node; each read that fails is told by its name.")
    for number in range(4):
        it.run("two.toml", "read", number)
    it.run("none.toml")
    for name, images in (("none0", ("none.hex", "b.hex")), ("none1", ("a.hex", "none.hex"))):
        it.file(f"{name}.toml", two(images=images))
        it.run(f"{name}.toml")
    it.about("Each fault of a scenario. Its images are not read then, be they there or not.")
    for fault, text in TEXTS.items():
        it.file(f"{fault}.toml", text)
        it.run(f"{fault}.toml")
        assert it.expected[-2].endswith(f": scenario refused: {fault}"), it.expected[-2]
    it.run("TwiceLinked.toml", "read", 1)
    it.file_beside("copy", "bytes.toml", b"cycles = 500 # \xff\n")
    it.run("bytes.toml")
    it.file("empty.toml", "")
    it.run("empty.toml")
    it.file("four.toml", two("version = 4"))
    it.run("four.toml")
    it.file("own1.toml", two("version = 1", "latency = 200"))
    it.run("own1.toml")
    it.file("open2.toml", two("version = 2", "open = [[0, 93]]"))
    it.run("open2.toml")
    it.file("far1.toml", 'version = 1\ncycles = 30_000_000\nnode = [{image = "a.hex"}]\n')
    it.run("far1.toml")
    it.file("missing_images.toml", "cycles = 0\n" + NODES.replace("a.hex", "none.hex"))
    it.run("missing_images.toml")
    it.blank("long.toml", MOST_SCENARIO)
    it.run("long.toml")
    it.blank("longer.toml", MOST_SCENARIO + 1)
    it.run("longer.toml")
    it.about("Of two faults the higher in the list is told.")
    for above, below, text in (
        ("UnknownKey", "Missing", "speed = 1\n" + NODES),
        ("OutOfRange", "TwiceLinked", "cycles = 0\n" + NODES + "[[link]]\nfrom = 0\nto = 1\n" * 2),
        ("SelfLink", "TwiceScripted", TEXTS["SelfLink"] + '[[input]]\nnode = 0\nat = 1\nhex = ""\n' * 2),
    ):
        it.file(f"{above}_{below}.toml", text)
        it.run(f"{above}_{below}.toml")
    it.about("Each fault of an image, in node 1.")
    for fault, text in RECORDS.items():
        it.file(f"{fault}.hex", text)
        it.file(f"image_{fault}.toml", two(images=("a.hex", f"{fault}.hex")))
        it.run(f"image_{fault}.toml")
        assert f": image refused: {fault}" in it.expected[-2], it.expected[-2]
    it.blank("long.hex", MOST_IMAGE)
    it.file("image_long.toml", two(images=("a.hex", "long.hex")))
    it.run("image_long.toml")
    it.blank("longer.hex", MOST_IMAGE + 1)
    it.file("image_longer.toml", two(images=("a.hex", "longer.hex")))
    it.run("image_longer.toml")
    it.about("The first node whose image cannot be had decides: each is loaded before the next is read.")
    for name, images in (
        ("sum_none", ("BadSum.hex", "none.hex")),
        ("none_sum", ("none.hex", "BadSum.hex")),
        ("sum_end", ("BadSum.hex", "NoEnd.hex")),
        ("end_sum", ("NoEnd.hex", "BadSum.hex")),
        ("same", ("BadSum.hex", "BadSum.hex")),
    ):
        it.file(f"{name}.toml", two(images=images))
        it.run(f"{name}.toml")
    it.about("An error stream that takes less than the line.")
    for name in ("none.toml", "Missing.toml", "image_BadSum.toml"):
        for room in (0, 9):
            it.run(name, "err", room)
    it.run("none.toml", "err", len("avrora: cannot read none.toml\n"))
    return it


# ---- drawn networks

MOST_TRACE = 3_500


def drawn_networks(folder):
    """The first networks whose traces are short and in which something is heard, and of each one in which a byte is just
    heard, or just not."""
    it = Networks(folder, ["drawn by bench/network/draw.py; the traces are those of bench/network/network.py."])
    found, number = 0, 1_000
    while found < 28:
        base = drawn(number, cycles_most=3_000)
        network = ran(base)
        number += 1
        if len(network.trace()) > MOST_TRACE or not any(status for _, _, (status, _, _) in network.samples):
            continue
        other = aimed(number, base, network)
        if other is None:
            continue
        found += 1
        it.about(f"Network {found}.")
        for name, text in base.images.items():
            it.file(f"{found}_{name}", text)
        for kind, scenario in (("drawn", base), ("aimed", other)):
            text = scenario.text()
            for name in base.images:
                text = text.replace(f'"{name}"', f'"{found}_{name}"')
            it.file(f"{kind}{found}.toml", text)
            it.run(f"{kind}{found}.toml")
    late_networks(it)
    return it


def late_networks(it):
    """Networks that send and sample on both sides of the end of an epoch; many bytes are just heard, or just not."""
    it.about(f"Networks that sleep up to about cycle {EPOCH:,}, and send and sample on both sides of it.")
    it.file("net.hex", (HERE / "net.hex").read_text())
    for number in range(4):
        base = late(number)
        other = aimed(number, base, ran(base))
        for kind, scenario in (("late", base), ("late_aimed", other)):
            it.file(f"{kind}{number}.toml", scenario.text())
            it.run(f"{kind}{number}.toml")


def ran(it):
    held = {name: text.encode() for name, text in it.images.items()} | {"net.toml": it.text().encode()}
    network = open_network(Files(held, None), "net.toml")
    network.run()
    return network


def main():
    folder = folder_of_words(__doc__)
    for name, make in (("worked", worked), ("examples", examples), ("refusals", refusals), ("drawn", drawn_networks)):
        make(folder).write("networks", f"{name}.txt")


if __name__ == "__main__":
    if sys.argv[1:2] in (["--help"], ["-h"]):
        sys.exit(print(__doc__))
    main()
