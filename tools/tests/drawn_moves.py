"""Draws firmware that turns interrupts off and on in all ways that come to mind, makes every move of a byte's arrival
over it, and compares whole traces with the classes of a sweep: no class may have two.

    drawn_moves.py [COUNT] [SEED]    so many programs (40), drawn by a seed (1); PROGRAM in AVRORA_PROGRAM

Status: 1 where a class of a program has two traces."""
import contextlib
import io
import os
import random
import subprocess
import sys
import tempfile
from pathlib import Path

sys.path.insert(0, str(Path(__file__).resolve().parent.parent))

from avrora_tools.cli import Parser
from avrora_tools.commands import sweep as command
from classes_against_moves import compare
from firmware import compiled, scenario

FLAGS = [
    ["-O0"],
    ["-Os"],
    ["-O2"],
    ["-Os", "-flto"],
    ["-O3"],
    ["-Os", "-mcall-prologues"],
    ["-O1", "-fno-omit-frame-pointer"],
]
FIRST, MOVES, AFTER = 280_000, 150, 5_000

HEAD = """#include "serial.h"
#include <setjmp.h>
#include <util/atomic.h>
volatile uint16_t count, other;
volatile uint8_t k, got, ring[8], at, keep, task[64];
jmp_buf before;
volatile uint8_t *volatile sreg = &SREG, *volatile port = &UDR0, *volatile state = &UCSR0A, *volatile place = ring;
static void __attribute__((noinline)) frame(uint8_t n) { volatile uint8_t local[11]; local[n % 11] = n;
    k += local[n % 11]; }
static uint8_t __attribute__((noinline)) lock(void) { uint8_t s = SREG; cli(); return s; }
static void __attribute__((noinline)) unlock(uint8_t s) { SREG = s; }
static void __attribute__((noinline)) jump(void) { longjmp(before, 1); }
"""

# What main does over and over, what the handlers do, and what goes before.
STEPS = [
    "k++;",
    "other = count;",
    "frame(k);",
    "{ uint8_t s = lock(); count++; unlock(s); }",
    "{ keep = SREG; cli(); count += 2; SREG = keep; }",
    "cli(); keep = SREG; keep |= 0x80; k++; SREG = keep; k++;",
    "if (!setjmp(before)) { cli(); k++; jump(); } k++; sei();",
    # the copy of SREG on a stack of its own is written by its address
    'asm volatile("cli\\n in r18,0x3d\\n in r19,0x3e\\n ldi r24,lo8(task+63)\\n ldi r25,hi8(task+63)\\n '
    'out 0x3e,r25\\n out 0x3d,r24\\n in r24,0x3f\\n push r24\\n ldi r24,0x80\\n sts task+63,r24\\n pop r24\\n '
    'out 0x3f,r24\\n nop\\n nop\\n nop\\n cli\\n out 0x3e,r19\\n out 0x3d,r18\\n sei"'
    ' ::: "r18", "r19", "r24", "r25", "memory");',
    'asm volatile("cli\\n in r24,0x3f\\n set\\n bld r24,7\\n out 0x3f,r24\\n nop\\n nop\\n clt\\n sei" ::: "r24");',
    'asm volatile("cli\\n in r18,0x3f\\n movw r20,r18\\n ori r20,0x80\\n movw r18,r20\\n out 0x3f,r18\\n nop\\n sei"'
    ' ::: "r18", "r19", "r20", "r21");',
    "{ uint8_t s = SREG; cli(); count++; SREG = s; }",
    "{ uint8_t s = *sreg; cli(); other++; *sreg = s; }",
    "*sreg &= 0x7F; k += 3; *sreg |= 0x80;",
    "cli(); *place = k; sei();",
    "cli(); ring[at & 7] = k; other += ring[k & 7]; sei();",
    "ATOMIC_BLOCK(ATOMIC_RESTORESTATE) { count += 2; frame(2); }",
    "ATOMIC_BLOCK(ATOMIC_FORCEON) { other = count; }",
    "NONATOMIC_BLOCK(NONATOMIC_RESTORESTATE) { k++; }",
    "cli(); NONATOMIC_BLOCK(NONATOMIC_FORCEOFF) { k++; } sei();",
    "cli(); if (*state & 0x80) got = *port; sei();",
    "if (UCSR0A & (1 << RXC0)) got = UDR0;",
    "UCSR0B ^= 1 << RXCIE0;",
    "set_sleep_mode(SLEEP_MODE_IDLE); sleep_mode();",
    "cli(); if (!got) { sleep_enable(); sei(); sleep_cpu(); sleep_disable(); } sei();",
    "put('x');",
    "if (got) { put(got); got = 0; }",
    'asm volatile("in r24,0x3f\\n push r24\\n in r30,0x3d\\n in r31,0x3e\\n ldd r25,Z+1\\n ori r25,0x80\\n std '
    'Z+1,r25\\n'
    ' cli\\n pop r24\\n out 0x3f,r24\\n nop\\n nop\\n nop\\n cli\\n nop\\n sei" ::: "r24", "r25", "r30", "r31");',
    'asm volatile("cli\\n in r24,0x3f\\n mov r20,r24\\n ori r20,0x80\\n nop\\n out 0x3f,r20\\n nop\\n out '
    '0x3f,r24\\n nop\\n sei"'
    ' ::: "r20", "r24");',
    'asm volatile("cli\\n lds r24,0x5f\\n push r24\\n rcall 1f\\n rjmp 2f\\n 1: nop\\n ret\\n 2: pop r24\\n sts '
    '0x5f,r24\\n nop\\n sei" ::: "r24");',
    'asm volatile("cli\\n ldi r30,0x18\\n ldi r31,0\\n in r24,0x3f\\n ldi r20,0x80\\n st Z,r20\\n out 0x3f,r24\\n '
    'nop\\n nop\\n sei"'
    ' ::: "r20", "r24", "r30", "r31");',
]
HANDLER_STEPS = [
    "k += 2;",
    "*place = k;",
    "ring[at++ & 7] = k;",
    "count++;",
    "frame(1);",
    "sei(); k++; other++;",
    "*sreg |= 0x80; k++;",
]
HANDLER_STEPS += ["sei(); k++; cli();", "if (k & 4) put('t');", "k = SREG;"]
TIMERS = {
    "TIMER0_COMP_vect": "OCR0 = {0}; TCCR0 = _BV(WGM01) | _BV(CS01); TIMSK |= _BV(OCIE0);",
    "TIMER1_COMPA_vect": "OCR1A = {1}; TCCR1B = _BV(WGM12) | _BV(CS10); TIMSK |= _BV(OCIE1A);",
    "TIMER2_COMP_vect": "OCR2 = {0}; TCCR2 = _BV(WGM21) | _BV(CS21); TIMSK |= _BV(OCIE2);",
    "TIMER3_COMPA_vect": "OCR3A = {1}; TCCR3B = _BV(WGM32) | _BV(CS30); ETIMSK |= _BV(OCIE3A);",
}


def source(draw: random.Random) -> str:
    """A program."""
    lines = [HEAD]
    by_interrupt = draw.random() < 0.8
    begin = [f"uart({int(by_interrupt)});"]
    handlers = draw.sample(sorted(TIMERS), draw.randint(0, 2))
    begin += [TIMERS[name].format(draw.randint(20, 250), draw.randint(90, 2_000)) for name in handlers]
    for name in [*handlers, *["USART0_RX_vect"] * by_interrupt]:
        steps = draw.sample(HANDLER_STEPS, draw.randint(0, 3))
        if name.startswith("USART"):
            steps.insert(draw.choice([0, len(steps)]), "got = UDR0;")
            steps = [
                step for step in steps if "sei" not in step and "sreg" not in step or steps.index("got = UDR0;") == 0
            ]
        attribute = ", ISR_NOBLOCK" if draw.random() < 0.2 and not name.startswith("USART") else ""
        lines.append(f"ISR({name}{attribute}) {{ {' '.join(steps)} }}")
    steps = [draw.choice(STEPS) for _ in range(draw.randint(2, 6))]
    steps.append("if (got) { put(got); got = 0; }")
    ends = draw.choice(["sei();", "sei();", "cli();", ""])
    lines.append(f"int main(void) {{ {' '.join(begin)} {ends} for (;;) {{ {' '.join(steps)} }} }}")
    return "\n".join(lines) + "\n"


def mixed(draw: random.Random, folder: Path) -> tuple[int, str]:
    """How many classes of a drawn program have two traces or two verdicts, and what was compared."""
    (folder / "moved.c").write_text(source(draw), encoding="utf-8")
    flags = draw.choice(FLAGS)
    compiled(folder / "moved.c", folder, *flags)
    (folder / "any.expect").write_text("never * 0 serial 00\n", encoding="utf-8")
    wrong, said = moved(folder, draw, "--expect", str(folder / "any.expect"))
    return wrong, f"{' '.join(flags)}: {said}"


def moved(folder: Path, draw: random.Random, *check: str) -> tuple[int, str]:
    """The same of the image moved.hex in a folder, by the words of a check."""
    span = FIRST + draw.randint(0, 5_000)
    toml = scenario("moved.hex", folder / "moved.toml", at=span, hex_=draw.choice(["41", "4142", "FF"]))
    parser = Parser()
    command.configure(parser)
    words = ["--start", f"0={span}..{span + MOVES - 1}", "--until", str(span + AFTER), "--jobs", "2"]
    said = io.StringIO()
    with command.prepared(parser.parse_args([*words, *check, str(toml)])) as sweep, contextlib.redirect_stdout(said):
        return compare(sweep), said.getvalue().strip()


def main() -> int:
    count, seed = [int(word) for word in sys.argv[1:]] + [40, 1][len(sys.argv) - 1 :]
    failing = 0
    with tempfile.TemporaryDirectory() as folder:
        for number in range(count):
            try:
                wrong, said = mixed(random.Random(f"{seed} {number}"), Path(folder))
            except subprocess.CalledProcessError as fault:
                print((Path(folder) / "moved.c").read_text(), fault.stderr, file=sys.stderr)
                raise
            failing += wrong > 0
            print(f"{number}: {said}", flush=True)
            if wrong:
                print((Path(folder) / "moved.c").read_text())
    print(f"{count} programs drawn by seed {seed}, {MOVES} moves each: {failing} have classes with two traces")
    return 1 if failing else 0


if __name__ == "__main__":
    if sys.argv[1:2] in (["--help"], ["-h"]):
        sys.exit(print(__doc__))
    os.environ.setdefault("LC_ALL", "C")
    sys.exit(main())
