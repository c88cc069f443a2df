"""Functions and source lines of addresses, and where cycles went. relay.elf is examples/relay.c as avr-gcc 5.4
compiles it with -Os -gdwarf-2; what is expected of it was read in its listing by avr-objdump -dl."""
import collections
import os
import random
import shutil
import unittest

from support import DATA, data, needs_module, run_tool, scratch
from avrora_tools import cli, programs
from avrora_tools.errors import BadInput

ELF = f"{DATA}/relay.elf"

pyelftools = needs_module("elftools", "python3-pyelftools")


@pyelftools
class Programs(unittest.TestCase):
    def setUp(self):
        self.relay = programs.Program(ELF)

    def test_functions(self):
        names = [(2 * function.first, function.name) for function in self.relay.functions]
        self.assertEqual(
            names,
            [
                (0x00, "__vectors"),
                (0x8C, "__init"),
                (0x98, "__do_clear_bss"),
                (0xB0, "__bad_interrupt"),
                (0xB4, "put"),
                (0xD4, "transfer"),
                (0xDE, "USART0_RX_vect"),
                (0x130, "TIMER0_COMP_vect"),
                (0x1DC, "main"),
                (0x210, "_exit"),
                (0x212, "__stop_program"),
            ],
        )
        self.assertEqual(self.relay.functions[-1].end, 0x214 // 2)

    def test_places(self):
        for byte, place in (
            (0x1E * 2, "__vectors+0x3C"),
            (0xB4, "put relay.c:21"),
            (0xD8, "transfer+0x4 relay.c:29"),
            (0x130, "TIMER0_COMP_vect relay.c:52"),
            (0x20A, "main+0x2E relay.c:71"),
            (0x214, "?"),
        ):
            self.assertEqual(self.relay.place(byte // 2), place)

    def test_instructions(self):
        # put: LDS and STS of two words each among words of one
        words = [2 * word for word in self.relay.instructions(self.relay.functions[4])]
        self.assertEqual(words, [0xB4, 0xB8, 0xBA, 0xBC, 0xBE, 0xC2, 0xC4, 0xC6, 0xC8, 0xCA, 0xCC, 0xCE, 0xD2])

    def test_what_is_no_elf(self):
        with open(ELF, "rb") as file:
            good = file.read()
        for content, why in (
            (b"", "no ELF file"),
            (b"\x7fELF", "no ELF file"),
            (b":00000001FF\n", "no ELF file"),
            (good[:18] + b"\x3e\x00" + good[20:], "for EM_X86_64, and not for the AVR"),
            (good[:600], "no ELF file"),
            (good[:-800], "no ELF file"),
        ):
            with self.subTest(content[:20]), scratch("bad.elf", content) as path, self.assertRaisesRegex(
                BadInput, f"bad.elf: .*{why}"
            ):
                programs.Program(path)

    def test_of_each_node(self):
        class Scenario:
            images = ["a/relay.hex", "other.hex", "relay.hex"]

        def of(words, scenario=None):
            return programs.Programs(words, scenario, force=True)

        self.assertEqual([bool(of([ELF], Scenario).of(node)) for node in range(3)], [True, False, True])
        self.assertEqual([bool(of([f"1-2={ELF}"]).of(node)) for node in range(3)], [False, True, True])
        self.assertTrue(of([ELF]).of(63))
        Scenario.images = ["other.hex"]
        with self.assertRaisesRegex(BadInput, "no node has the image relay.hex"):
            of([ELF], Scenario)
        with open(ELF, "rb") as file, scratch(os.fsdecode(b"e\xff.elf"), file.read()) as path:
            says = r"e\\xff.elf: no node has the image e\\xff.hex; say which: -e NODES=.*e\\xff.elf$"
            with self.assertRaisesRegex(BadInput, says):
                of([path], Scenario)


class AnotherProgram(unittest.TestCase):
    """An ELF of another build than the image, or than the one that made the trace."""

    TOOLS = (("annotate",), ("profile",), ("vcd",))

    def each_says(self, status, said, scenario, trace, *words):
        for name, *more in self.TOOLS:
            found, _, err = run_tool(name, *more, *words, "-s", scenario, "-e", ELF, trace)
            self.assertEqual((found, said in err), (status, True), err)

    @pyelftools
    def test_than_the_image(self):
        # The image, with the first word that has code (a jump) changed: low byte 0C to 0D, and the sum to match.
        image = data("relay.hex")
        first = image.splitlines()[0]
        other = first[:9] + f"{int(first[9:11], 16) ^ 1:02X}" + first[11:-2]
        total = sum(bytes.fromhex(other[1:])) & 0xFF
        with scratch("relay.hex", image.replace(first, f"{other}{-total & 0xFF:02X}")) as path:
            folder = os.path.dirname(path)
            shutil.copy(f"{DATA}/relay.toml", folder)
            trace = f"{DATA}/relay.trace"
            said = "not the program of the image relay.hex of node 0: they differ from word 0000 on (--force"
            self.each_says(2, said, f"{folder}/relay.toml", trace)
            self.each_says(0, "", f"{folder}/relay.toml", trace, "--force")
            os.unlink(path)
            self.each_says(2, "cannot read", f"{folder}/relay.toml", trace)

    @pyelftools
    def test_than_that_of_the_trace(self):
        whole = data("relay.trace")
        row = next(line for line in whole.splitlines() if " instr " in line)
        cycle, node, _, address, _ = row.split(" ", 4)
        with scratch("other.trace", whole.replace(row, f"{cycle} {node} instr {address} nop")) as trace:
            said = f"not the program of the trace: node {node} executed `nop` at {address}, where the program has `"
            self.each_says(2, said, f"{DATA}/relay.toml", trace)
            status, _, err = run_tool("annotate", "-e", ELF, trace)
            self.assertEqual((status, said in err), (2, True))
            self.each_says(0, "", f"{DATA}/relay.toml", trace, "--force")


class Vectors(unittest.TestCase):
    def test_names(self):
        # the manual's table of vectors: 2 INT0, 1E TIMER0 COMP, 22 SPI STC, 44 SPM READY
        self.assertEqual(
            [programs.vector_name(word) for word in (0x02, 0x1E, 0x22, 0x30, 0x44, 0x46)],
            ["INT0_vect", "TIMER0_COMP_vect", "SPI_STC_vect", "TIMER1_COMPC_vect", "SPM_READY_vect", "vector 0046"],
        )

    def test_annotated_without_a_program(self):
        status, out, _ = run_tool("annotate", stdin="5 0 enter 001E 0104\n6 0 sent 41\n")
        self.assertEqual((status, out), (0, f"{'5 0 enter 001E 0104':<44} ; TIMER0_COMP_vect\n6 0 sent 41\n"))


class Annotate(unittest.TestCase):
    @pyelftools
    def test_relay(self):
        status, out, err = run_tool("annotate", "-s", f"{DATA}/relay.toml", "-e", ELF, f"{DATA}/relay.trace")
        self.assertEqual((status, err), (0, ""))
        lines = out.splitlines()
        self.assertEqual([line.split(" ; ")[0].rstrip() for line in lines], data("relay.trace").splitlines())
        notes = [line.split(" ; ")[1] for line in lines[0:75:5] if " ; " in line]
        self.assertEqual(
            notes[:4],
            [
                "TIMER0_COMP_vect, from main+0x2C relay.c:71",
                "__vectors+0x3C",
                "TIMER0_COMP_vect relay.c:52",
                "TIMER0_COMP_vect+0x2 relay.c:52",
            ],
        )

    @pyelftools
    def test_stop(self):
        out = run_tool(
            "annotate", "-e", f"1={ELF}", stdin="5 0 stop 006C reserved opcode\n5 1 stop 006C reserved opcode\n"
        )[1]
        self.assertEqual(
            out.splitlines(),
            ["5 0 stop 006C reserved opcode", f"{'5 1 stop 006C reserved opcode':<44} ; transfer+0x4 relay.c:29"],
        )

    @pyelftools
    def test_no_elf(self):
        status, out, err = run_tool("annotate", "-e", f"{DATA}/relay.toml", f"{DATA}/relay.trace")
        self.assertEqual((status, out), (2, ""))
        self.assertIn(f"avrora-tools annotate: {DATA}/relay.toml: no ELF file", err)

    def test_missing_package(self):
        with scratch("elftools.py", "raise ImportError") as path:
            status, _, err = run_tool(
                "annotate", "-e", ELF, f"{DATA}/relay.trace", env={"PYTHONPATH": path.rsplit("/", 1)[0]}
            )
        self.assertEqual(status, 3)
        self.assertIn("has no pyelftools. Debian: apt-get install python3-pyelftools", err)


# A node's rows about a window of 40 cycles from 1100 on. By hand: lead 1100 to 1110; LDI 1; SLEEP its own cycle 1, then
# asleep 9 up to 1121; the entry 8; JMP 3; the stop owns 1132 to 1140.
ROWS = """\
800 0 sent 41
1110 0 instr 0010 ldi r16, 0x01
1111 0 instr 0011 sleep
1121 0 enter 001E 0012
1125 0 sent 42
1129 0 instr 001E jmp 0x0098
1132 0 stop 0098 reserved opcode
"""
WINDOW = f"{ROWS}2000 0 end 3 stopped\n"


def drawn_rows(draw):
    """Rows of a node as (cycle, kind and rest), up to about cycle 100."""
    rows, cycle, stopped = [], 0, False
    while cycle < 100 and not stopped:
        kind = draw.choice(["instr 0001 nop", "instr 0002 sleep", "enter 0024 0001", "stop 0003 break"])
        stopped = kind[0] == "s"
        rows.append((cycle, kind))
        cycle += draw.choice([1, 2, 9, 30])
    return rows


def owner_of(rows, now):
    """On what a node spends the cycle `now`."""
    cycle, kind = max((row for row in rows if row[0] <= now), default=(now, ""))
    if not kind:
        return "unknown"
    if kind[0] == "s":
        return "stopped"
    return "asleep" if kind.endswith("sleep") and cycle < now else "busy"


class Profile(unittest.TestCase):
    def profile(self, *words, trace=WINDOW):
        status, out, err = run_tool("profile", *words, stdin=trace)
        self.assertEqual((status, err), (0, ""))
        return [line.split() for line in out.splitlines()]

    def refused(self, why, *words, trace):
        status, out, err = run_tool("profile", *words, stdin=trace)
        self.assertEqual((status, out), (2, ""))
        self.assertIn(why, err)

    def test_window(self):
        # 13 busy cycles at 8, 9 asleep, one byte sent in the window at 512
        self.assertEqual(
            self.profile("--window", "1100..1140"),
            [
                "node busy asleep stopped unknown charge".split(),
                "0 13 9 8 10 625".split(),
                [],
                "all nodes".split(),
                "cycles % rows".split(),
                "3 7.50 1 001E".split(),
                "1 2.50 1 0010".split(),
                "1 2.50 1 0011".split(),
                "8 20.00 1 (entering interrupts)".split(),
                "9 22.50 (asleep)".split(),
                "8 20.00 (stopped)".split(),
                "10 25.00 (before the first row)".split(),
            ],
        )

    def test_no_window_named(self):
        # from the first instruction row to the last: 1110 to 1129
        self.assertEqual(self.profile()[1], "0 10 9 0 0 601".split())

    def test_cut_off(self):
        """Without its end rows a trace is none, but where it is said to be what `head` wrote: up to its end."""
        self.refused("no end row of node 0", "--window", "1100..1140", trace=ROWS)
        self.refused(
            "no end row of node 0", "--window", "1100..1140", trace="".join(ROWS.splitlines(keepends=True)[:3])
        )
        self.assertEqual(
            self.profile("--head", "1", "--window", "1100..1140", trace=ROWS)[1], "0 13 9 8 10 625".split()
        )
        self.refused("an end row, which", "--head", "1", trace=WINDOW)

    # The same rows as a whole trace, and as the tool window makes them of a run of 2,000 cycles.
    SCENARIO = 'cycles = 2_000\nwindow = [{}, {}]\nnode = [{{image = "a"}}]\n'
    PART = f"{ROWS}1160 0 end 3 stopped\n"

    def of_scenario(self, first, end, trace):
        with scratch(
            "net.toml", self.SCENARIO.format(first, end).replace("cycles", "byte_time = 256\ncycles")
        ) as scenario:
            return self.profile("-s", scenario, trace=trace)[1]

    def test_window_of_the_scenario(self):
        self.assertEqual(self.of_scenario(1100, 1140, WINDOW), "0 13 9 8 10 625".split())

    def test_another_window_than_the_scenario_s(self):
        """It goes from the first instruction row to the end rows: 1110 to 1160."""
        for first, end in ((1050, 1400), (0, 0), (1120, 1125)):
            with self.subTest(first):
                self.assertEqual(self.of_scenario(first, end, self.PART), "0 13 9 28 0 625".split())

    def test_a_stop_before_the_first_instruction_of_another_window(self):
        """What lies before that window is no part of it, also where the scenario's own begins at reset."""
        scenario = 'cycles = 2_000\nwindow = [{}, 400]\nnode = [{{image = "a"}}, {{image = "a"}}]\n'
        trace = "1110 0 stop 0010 adc\n1110 1 instr 0010 nop\n1160 0 end 3 stopped\n1160 1 end 9 running\n"
        for first in (0, 100):
            with scratch("net.toml", scenario.format(first)) as path:
                rows = self.profile("-s", path, trace=trace)[1:3]
            self.assertEqual(rows, ["0 0 0 50 0 0".split(), "1 50 0 0 0 400".split()])

    def test_no_further_than_the_trace(self):
        self.assertEqual(self.profile("--window", "1100..1200", trace=self.PART)[1], "0 13 9 28 10 625".split())

    def test_no_such_node(self):
        status, _, err = run_tool("profile", "-n", "9", stdin=WINDOW)
        self.assertEqual((status, err), (2, "avrora-tools profile: the trace has no row of these nodes\n"))

    def test_asleep_to_the_end(self):
        trace = "".join(WINDOW.splitlines(keepends=True)[:3]) + "2000 0 end 2 asleep\n"
        self.assertEqual(self.profile("--window", "1100..1140", trace=trace)[1], "0 2 28 0 10 44".split())

    def test_stopped_before(self):
        trace = f"{ROWS}1210 1 instr 0000 nop\n2000 0 end 3 stopped\n2000 1 end 1 running\n"
        self.assertEqual(
            self.profile("--window", "1200..1240", trace=trace)[1:3],
            ["0 0 0 40 0 0".split(), "1 30 0 0 10 240".split()],
        )

    def test_drawn_rows(self):
        """Against the rule, asked of each cycle: its owner is the node's last row up to it."""
        draw = random.Random(1)
        for _ in range(3):
            first = draw.randrange(120)
            end = first + draw.randrange(1, 60)
            trace, expected = [], []
            for node in range(cli.MAX_NODES):
                # as a trace has them: of the window, and each stop
                rows = [row for row in drawn_rows(draw) if first <= row[0] < end or row[1][0] == "s"]
                counts = collections.Counter(owner_of(rows, now) for now in range(first, end))
                kinds = [counts[kind] for kind in ("busy", "asleep", "stopped", "unknown")]
                state = "stopped" if any(kind[0] == "s" for _, kind in rows) else "running"
                trace += [(cycle, node, kind) for cycle, kind in rows] + [(500, node, f"end 1 {state}")]
                expected.append([str(number) for number in (node, *kinds, 8 * counts["busy"] + counts["asleep"])])
            text = "".join(f"{cycle} {node} {kind}\n" for cycle, node, kind in sorted(trace))
            said = self.profile("--window", f"{first}..{end}", trace=text)
            self.assertEqual(said[1 : 1 + cli.MAX_NODES], expected)

    # What a monitor writes of the same window.
    MONITOR = (
        "0 lead 10\n0 at 0010 1 1\n0 at 0011 1 1\n0 at 001E 1 3\n0 vector 001E 1 8\n"
        "0 asleep 9\n0 stopped 8\n0 charge 625\n"
    )

    def test_monitor(self):
        with scratch("net.toml", self.SCENARIO.format(1100, 1140)) as scenario:
            words = ["-s", scenario]
            self.assertEqual(self.profile(*words, trace=self.MONITOR), self.profile("--window", "1100..1140"))
            lines = self.MONITOR.splitlines(keepends=True)
            for count in range(1, len(lines)):  # the first lines alone
                self.refused("it ends with node 0, and the scenario has 1 nodes", *words, trace="".join(lines[:count]))
            self.refused("cut off in its last line", *words, trace=self.MONITOR[:-1])
            for line in ("0 at 0010 1\n", "0 lid 10\n", "64 lead 1\n", "0 lead 10\n", "2 lead 10\n", "0 charge 625\n"):
                self.refused("standard input, line 9: no line of a monitor here", *words, trace=self.MONITOR + line)
            for old, new, why in (
                ("0 at 0011 1 1\n", "0 at 000F 1 1\n", "line 3: no line"),  # no rising order
                ("0 at 0011 1 1\n", "0 at 0010 1 1\n", "line 3: no line"),
                ("0 at 0011 1 1\n", "0 at 0011 2 1\n", "line 3: no line"),  # an instruction takes a cycle
                ("0 at 0011 1 1\n", "0 at 0011 0 0\n", "line 3: no line"),
                ("0 asleep 9\n", "", "line 6: no line"),
                ("0 asleep 9\n", "0 asleep 09\n", "line 6: no line"),
                ("0 vector 001E 1 8\n0 asleep 9\n", "0 asleep 9\n0 vector 001E 1 8\n", "line 6: no line"),
                ("0 lead 10\n", "0 lead 11\n", "do not add up to the 40 cycles"),
                ("0 charge 625\n", "0 charge 626\n", "do not add up"),
            ):
                self.refused(why, *words, trace=self.MONITOR.replace(old, new))
            self.refused(
                "the scenario has 1 nodes",
                *words,
                trace=self.MONITOR + self.MONITOR.replace("\n0", "\n1").replace("0 lead", "1 lead", 1),
            )
        self.refused("its scenario (-s) tells whether it is whole", trace=self.MONITOR)
        with scratch(
            "net.toml", self.SCENARIO.format(1105, 1135)
        ) as scenario:  # the report is of more cycles than the window
            self.refused("do not add up to the 30 cycles", "-s", scenario, trace=self.MONITOR)
            self.assertEqual(
                self.profile("-s", scenario, "--window", "1100..1140", trace=self.MONITOR),
                self.profile("--window", "1100..1140"),
            )

    def test_no_instructions(self):
        """In a trace, and in what a monitor writes of a scenario without a window."""
        self.refused(
            "no instruction is traced: run the scenario with a window", trace="5 0 sent 41\n9 0 end 1 running\n"
        )
        with scratch("net.toml", self.SCENARIO.format(0, 0)) as scenario:
            monitor = "0 lead 0\n0 asleep 0\n0 stopped 0\n0 charge 0\n"
            self.refused(
                "a report of no cycles: the scenario has no window. `avrora monitor", "-s", scenario, trace=monitor
            )

    @pyelftools
    def test_relay(self):
        # Five nodes, each with the entry of an interrupt in 8 cycles and the jump in 3, and 18 cycles of the
        # handler's head.
        lines = self.profile("-s", f"{DATA}/relay.toml", "-e", ELF, "--callers", "--lines", trace=data("relay.trace"))
        for line in (
            "90 51.43 55 TIMER0_COMP_vect",
            "15 8.57 5 __vectors",
            "40 22.86 5 (entering interrupts)",
            "30 17.14 (before the first row)",
            "90 51.43 55 relay.c:52",
            "5 (interrupt) > TIMER0_COMP_vect",
            "3 29 0 0 6 232",
        ):
            self.assertIn(line.split(), lines)

    @pyelftools
    def test_coverage(self):
        # The jump is one of 35 in the table of vectors; eleven pushes and ins of the handler ran.
        lines = self.profile("-s", f"{DATA}/relay.toml", "-e", ELF, "--coverage", trace=data("relay.trace"))
        self.assertIn("1 35 3 __vectors".split(), lines)
        self.assertIn("0 13 0 put".split(), lines)
        self.assertIn("11 76 14 TIMER0_COMP_vect".split(), lines)

    @pyelftools
    def test_calls(self):
        # main calls transfer (word 6A) at word F0, transfer returns; put (word 5A) is called from an interrupt's
        # handler, which comes before the second call's first instruction.
        trace = (
            "1 0 instr 00F0 call 0x006A\n5 0 instr 006A out 0x0F, r24\n6 0 instr 006E ret\n10 0 instr 00F2 nop\n"
            "11 0 instr 00F0 call 0x006A\n15 0 enter 0024 006A\n23 0 instr 0024 jmp 0x006F\n26 0 instr 006F push r1\n"
            "28 0 instr 0083 call 0x005A\n32 0 instr 005A lds r30, 0x0101\n40 0 end 10 running\n"
        )
        # It is not what the program executes there.
        lines = self.profile("--force", "-e", ELF, "--callers", trace=trace)
        self.assertEqual(
            lines[lines.index(["calls"]) + 1 :],
            [["calls"]]
            + [
                line.split()
                for line in ("2 main > transfer", "1 (interrupt) > USART0_RX_vect", "1 USART0_RX_vect > put")
            ],
        )
