"""Calls that `profile --callers` counts, against the CALL and RCALL rows of the same trace, by the program that
AVRORA_PROGRAM names: of firmware whose interrupts come between a call and what is called, and of firmware that is drawn
anew."""
import random
import re
import subprocess
from collections import Counter

import pytest

from avrora_tools import profiles, programs, traces
from avrora_tools.events import Instr
from firmware import PROGRAM, compiled, needs_compiler, needs_program
from support import SEED, run_tool

pytestmark = [needs_program, needs_compiler]

CYCLES = 20_000


def traced(elf, first=0):
    """The trace of a program, with all instructions of so many cycles."""
    toml = elf.with_suffix(".toml")
    toml.write_text(
        f'cycles = {first + CYCLES}\nwindow = [{first}, {first + CYCLES}]\n[[node]]\nimage = "{elf.stem}.hex"\n'
    )
    done = subprocess.run([PROGRAM, "run", "--plain", toml.name], cwd=elf.parent, capture_output=True, check=True)
    return done.stdout


def calls_of_rows(trace):
    """How often each instruction called what its text names; the last row of a window may be a call that comes to
    nothing."""
    rows = re.findall(r"^\d+ 0 instr (....) (r?call) (\S+)$", trace.decode(), re.M)
    found = Counter()
    for word, name, target in rows:
        address = int(word, 16)
        found[address, int(target, 16) if name == "call" else address + 1 + int(target[1:]) // 2] += 1
    return found


def told_calls(trace):
    reader = profiles.read_trace(traces.Trace([trace], "t", traces.Form.WHOLE), None, None, programs.Programs([]))
    return Counter({call[1:]: count for call, count in reader.calls.items() if not isinstance(call[1], str)})


def differences(trace):
    """Calls that are told otherwise than the rows have them. The callee of the last one may stand behind the window."""
    rows, told = calls_of_rows(trace), told_calls(trace)
    return sum(((rows - told) + (told - rows)).values()) - (not called_at_last(trace))


def called_at_last(trace):
    """Whether what the last call calls has a row."""
    events = [event for _, _, event in traces.Trace([trace], "t", traces.Form.WHOLE)]
    last = max(
        i
        for i, event in enumerate(events)
        if isinstance(event, Instr) and event.instruction.split()[0] in ("call", "rcall")
    )
    rows = calls_of_rows(trace)
    target = next(target for address, target in rows if address == events[last].address)
    return any(isinstance(event, Instr) and event.address == target for event in events[last + 1 :])


@pytest.mark.parametrize("flags", [["-O0"], ["-Os"], ["-O2"], ["-Os", "-flto"], ["-Os", "-mrelax"]], ids=" ".join)
def test_a_call_is_counted_whose_callee_an_interrupt_comes_before(tmp_path, flags):
    elf = compiled("calls.c", tmp_path, *flags)
    trace = traced(elf)
    assert re.search(rb" instr \S+ r?call \S+\n\d+ 0 enter", trace)  # as it is to be
    assert differences(trace) == 0


# By hand: a call, before whose callee comes an interrupt; before its jump at the vector comes another one.
BEGINNING = b"0 0 instr 0110 call 0x0120\n4 0 enter 001E 0120\n8 0 enter 0018 001E\n12 0 instr 0018 jmp 0x0140\n"
# Both handlers return, or the inner one jumps to where main goes on, as longjmp does.
ENDS = {
    "returns": b"15 0 instr 0140 reti\n19 0 instr 001E jmp 0x0130\n22 0 instr 0130 reti\n26 0 instr 0120 ret\n",
    "jumps away": b"15 0 instr 0140 ijmp\n17 0 instr 0111 nop\n",
}
INNER, OUTER = ("TIMER1_COMPA_vect", 0x140), ("TIMER0_COMP_vect", 0x130)
BEGUN = {"returns": [INNER, OUTER], "jumps away": [INNER]}


@pytest.mark.parametrize("end", ENDS)
def test_a_call_counts_also_where_the_interrupt_before_its_callee_never_returns(end):
    trace = BEGINNING + ENDS[end] + b"40 0 end 7 running\n"
    reader = profiles.read_trace(traces.Trace([trace], "t", traces.Form.WHOLE), None, None, programs.Programs([]))
    assert reader.calls == {(0, caller, callee): 1 for caller, callee in [(0x110, 0x120), *BEGUN[end]]}


def test_the_report_has_all_calls(tmp_path):
    elf = compiled("calls.c", tmp_path, "-Os")
    path = elf.with_suffix(".trace")
    path.write_bytes(traced(elf))
    status, out, err = run_tool("profile", "--callers", "-e", str(elf), str(path))
    assert (status, err) == (0, "")
    count = sum(count for (_, target), count in calls_of_rows(path.read_bytes()).items())
    told = [
        int(number.replace(",", ""))
        for number in re.findall(r"^ *([\d,]+) +.*\b(?:main|g|f)\b.* (?:g|f|main)$", out, re.M)
    ]
    assert abs(sum(told) - count) <= 1, out


def drawn(random_):
    """A program of functions that call those behind them, with interrupts of drawn distances."""
    count = random_.randint(3, 8)
    lines = ["#include <avr/interrupt.h>", "#include <avr/io.h>", "#include <stdint.h>", "volatile uint8_t k;"]
    lines += [f"__attribute__((noinline)) void f{i}(uint8_t n);" for i in range(count)]
    for i in range(count):
        calls = "".join(
            f" f{random_.randint(i + 1, count - 1)}(n + {random_.randint(0, 3)});"
            for _ in range(random_.randint(0, 3))
            if i + 1 < count
        )
        lines.append(f'void f{i}(uint8_t n) {{ k += n;{calls} k ^= {i}; asm volatile("" ::: "memory"); }}')
    for timer, vector in ((0, "TIMER0_COMP_vect"), (2, "TIMER2_COMP_vect")):
        calls = f" f{random_.randrange(count)}(1);" * random_.randint(0, 1)
        lines.append(f"ISR({vector}{random_.choice(['', ', ISR_NOBLOCK' * (not calls)])}) {{ k++;{calls} }}")
    lines.append("int main(void) {")
    lines.append(f" OCR0 = {random_.randint(150, 255)}; OCR2 = {random_.randint(180, 255)};")
    lines.append(
        " TCCR0 = _BV(WGM01) | _BV(CS01); TCCR2 = _BV(WGM21) | _BV(CS21); TIMSK = _BV(OCIE0) | _BV(OCIE2); sei();"
    )
    lines.append(" for (;;) f0(k); }")
    return "\n".join(lines) + "\n"


@pytest.mark.parametrize("number", range(4))
def test_calls_of_drawn_firmware(tmp_path, number):
    random_ = random.Random(f"{SEED} {number}")
    (tmp_path / "drawn.c").write_text(drawn(random_))
    elf = compiled(tmp_path / "drawn.c", tmp_path, random_.choice(["-O0", "-Os", "-O2"]))
    assert differences(traced(elf)) == 0, f"AVRORA_SEED={SEED}"
