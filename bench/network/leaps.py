#!/usr/bin/env python3
"""Writes the stored cases of loops that wait, and what the stored run of `command_facts` is to give of them, by the slow simulator beside this file.

    bench/network/leaps.py FOLDER        FOLDER is crates/command_facts

Behind its window a node takes many rounds of such a loop at once. The rows that each case must come to were worked out by hand
first. A word of the flash that no case names is no opcode, and stops the node.
"""
import sys
from case_lines import folder_of_words
from draw import OCR0, SPH, TCCR0, TIMSK, UCSRA, UCSRB, UDR, hex_text, ldi, out, word
from facts import Networks

TCNT0, SREG, FLAG = 0x32, 0x3F, 0x100
SPCR, SPDR, PINB, PORTB = 0x0D, 0x0F, 0x16, 0x18
C, Z, N, V, S, H = range(6)
NOP, RETI, SEI = word("nop"), word("reti"), word("bset", s=7)
JMP_50 = [word("jmp", k=0), 0x50]


def put(at, byte):
    return [ldi(16, byte), out(at, 16)]


def load(at, d):
    return [word("in_", d=d, A=at)]


def lds(at, d):
    return [word("lds", d=d), at]


def back(words):
    """RJMP to so many words before it."""
    return [word("rjmp", k=-1 - words)]


def where(flag, on, words):
    """A branch to so many words before it, where a flag is so."""
    return [word("brbs" if on else "brbc", s=flag, k=-1 - words)]


def image(parts):
    """Words at their addresses, in rising order."""
    words = []
    for at, part in parts:
        words += [0xFFFF] * (at - len(words)) + part
    return hex_text(words)


class Leaps(Networks):
    def case(self, name, about, rows, cycles, *parts, window=None, arrives=None):
        """A run of one node, of words at their addresses, which comes to these rows."""
        if about:
            self.about(about)
        self.file(f"{name}.hex", image(parts))
        lines = [f"cycles = {cycles}"] + ([f"window = {list(window)}"] if window else []) + [f'node = [{{image = "{name}.hex"}}]']
        if arrives:
            lines.append(f'input = [{{node = 0, at = {arrives[0]}, every = 1, hex = "{arrives[1]}"}}]')
        self.file(f"{name}.toml", "\n".join(lines) + "\n")
        _, given = self.run(f"{name}.toml")
        assert given.decode().splitlines() == rows, (name, rows, given.decode())


def polls(it):
    # UDR0 is written in cycle 2: its frame of ten bits of 16 cycles ends in 162, and the byte of cycle 3 leaves the buffer. SBIS begins
    # in 4 + 3 j, so in 163 first behind that, and skips in two cycles: 4 + 53 * 2 + 1 instructions. Below 100 it begins 32 times, as
    # RJMP does; below 110 36 times, and RJMP 35 times.
    send = [ldi(16, 0x08), out(UCSRB, 16), out(UDR, 16), out(UDR, 16), word("sbis", A=UCSRA, b=5), *back(1)]
    it.case("sbis", "A poll by SBIS, up to the end of a frame, to that of the run before it, and to a window.",
            ["162 0 serial 08", "165 0 stop 0006 reserved opcode", "300 0 end 111 stopped"], 300, (0, send))
    it.case("sbis_cut", "", ["100 0 end 68 running"], 100, (0, send))
    it.case("sbis_late", "", ["100 0 instr 0004 sbis 0x0B, 5", "101 0 instr 0005 rjmp .-4", "103 0 instr 0004 sbis 0x0B, 5", "110 0 end 75 running"],
            110, (0, send), window=(100, 104))
    # SBIC begins in 3 j, RJMP in 3 j + 1: below 262,150 that is 87,384 and 87,383 times
    it.case("sbic", "By SBIC, over the end of an epoch.", ["262150 0 end 174767 running"], 262_150, (0, [word("sbic", A=UCSRA, b=5)] + back(1)))
    # IN begins in 2 + 4 j, in 102 first behind an arrival in 100. SBRS skips in 103 and 104, UDR0 is read in 105 and written in 106: the
    # frame ends in 266. 2 + 25 * 3 + 4 instructions, and RJMP to itself from 107 on, 97 times below 300.
    it.case("in_sbrs", "By IN, SBRS and RJMP, up to a byte that arrives.", ["266 0 serial 41", "300 0 end 178 running"], 300,
            (0, [ldi(16, 0x18), out(UCSRB, 16)] + load(UCSRA, 17) + [word("sbrs", r=17, b=7)] + back(2) + load(UDR, 18) + [out(UDR, 18)] + back(0)),
            arrives=(100, "41"))
    # LDS begins in 2 + 5 j, in 102 first behind it; SBRS skips in 104 and 105. 2 + 20 * 3 + 2 instructions.
    it.case("lds_sbrs", "By LDS.", ["106 0 stop 0006 reserved opcode", "200 0 end 64 stopped"], 200,
            (0, [ldi(16, 0x10), out(UCSRB, 16)] + lds(UCSRA + 0x20, 17) + [word("sbrs", r=17, b=7)] + back(3)), arrives=(100, "41"))


def flags(it):
    # TCCR0 is written in 10, so the clock of cycle 10 + n finds the count n, and OCF0 is set in 10 + OCR0. LDS begins in 12 + 5 j,
    # AND in 14 + 5 j, BREQ in 15 + 5 j: the entry is in the first of these behind 10 + OCR0. It takes four cycles, the handler
    # seven, what is left of the round 3, 2 or none, and the last round, whose BREQ goes on, four. Ten instructions come before.
    handler = [ldi(20, 1), word("sts", r=20), FLAG, RETI]
    for ocr, entry, back_to, stop, count in ((198, 209, "005B", 227, 10 + 39 * 3 + 1 + 3 + 2 + 3), (199, 210, "005C", 227, 10 + 39 * 3 + 2 + 3 + 1 + 3),
                                             (200, 212, "0059", 227, 10 + 40 * 3 + 3 + 3), (201, 212, "0059", 227, 10 + 40 * 3 + 3 + 3),
                                             (202, 214, "005B", 232, 10 + 40 * 3 + 1 + 3 + 2 + 3)):
        words = put(SPH, 0x10) + put(TIMSK, 0x02) + put(OCR0, ocr) + [ldi(16, 1), out(TCCR0, 16), SEI]
        words += lds(FLAG, 24) + [word("and_", d=24, r=24)] + where(Z, True, 3)
        it.case(f"flag{ocr}", "A flag in the SRAM, polled by LDS, TST and BREQ, which a handler sets: its interrupt comes due in each place of the loop."
                if ocr == 198 else "",
                [f"{entry} 0 enter 001E {back_to}", f"{stop} 0 stop 005D reserved opcode", f"300 0 end {count} stopped"], 300,
                (0, JMP_50), (0x1E, handler), (0x50, words), window=(entry, entry + 1))


def delays(it):
    # DEC begins in 1 + 3 j: of 200 rounds the last in 598, of 256 in 766. Its BRNE takes one cycle.
    dec = [word("dec", d=16)] + where(Z, False, 1)
    it.case("dec", "Delays: by a byte, by one that begins at 0, by a pair, by three bytes.",
            ["600 0 stop 0003 reserved opcode", "700 0 end 401 stopped"], 700, (0, [ldi(16, 200)] + dec))
    it.case("dec_all", "", ["768 0 stop 0003 reserved opcode", "1000 0 end 513 stopped"], 1000, (0, [ldi(16, 0)] + dec))
    # SBIW begins in 2 + 4 j, of 1,000 rounds the last in 3998
    it.case("sbiw", "", ["4001 0 stop 0004 reserved opcode", "5000 0 end 2002 stopped"], 5000,
            (0, [ldi(24, 1000 % 256), ldi(25, 1000 // 256), word("sbiw", d=0, K=1)] + where(Z, False, 1)))
    # of 40,000 in 159998: bit 15 is left behind within it
    it.case("sbiw_far", "", ["160001 0 stop 0004 reserved opcode", "170000 0 end 80002 stopped"], 170_000,
            (0, [ldi(24, 40_000 % 256), ldi(25, 40_000 // 256), word("sbiw", d=0, K=1)] + where(Z, False, 1)))
    # SUBI begins in 3 + 5 j, of 1,110 rounds the last in 5548; below 5003 a thousand times, as the other three do
    subi = [ldi(18, 1110 % 256), ldi(24, 1110 // 256), ldi(25, 0)]
    subi += [word("subi", d=2, K=1), word("sbci", d=8, K=0), word("sbci", d=9, K=0)] + where(Z, False, 3)
    end = ["5552 0 stop 0007 reserved opcode", "6000 0 end 4443 stopped"]
    it.case("subi", "", end, 6000, (0, subi))
    it.case("subi_cut", "One that the run ends in, one that a window begins in.", ["5003 0 end 4003 running"], 5003, (0, subi))
    it.case("subi_late", "", ["5000 0 instr 0005 sbci r25, 0x00", "5001 0 instr 0006 brbc 1, .-8", "5003 0 instr 0003 subi r18, 0x01", *end],
            6000, (0, subi), window=(5000, 5004))


def other_flags(it):
    """Delays that end by another flag than Z. `rounds` of them are taken; a branch that goes on takes one cycle."""
    # DEC begins in 1 + 3 j, and a word behind BRPL or its like is reached two cycles behind the last. N is set at FF, so 65 rounds; V at 7F, so 129
    # from 0; of 200 on N is set down to 80 and V at 7F, so S is clear at 7E first, behind 74.
    # SBIW begins in 2 + 4 j: N is set at FFFF, V at 7FFF, S is clear at 7FFE first.
    # SUBI begins in 2 + 4 j, what it leaves of the flags is what SBCI leaves: H is set where the low twelve bits were 0, N at FFFF, V at 7FFF,
    # and S is clear at 7FFE first.
    dec, sbiw = [word("dec", d=16)], [word("sbiw", d=0, K=1)]
    subi, sbci = [word("subi", d=4, K=1)], [word("sbci", d=6, K=0)]
    for name, body, flag, on, value, rounds in (
        ("dec_n", dec, N, False, 0x40, 65), ("dec_v", dec, V, False, 0, 129), ("dec_s", dec, S, True, 200, 74),
        ("sbiw_n", sbiw, N, False, 300, 301), ("sbiw_v", sbiw, V, False, 0x8100, 257), ("sbiw_s", sbiw, S, True, 0x8100, 258),
        ("subi_h", subi + sbci, H, False, 0x2345, 838), ("subi_n", subi + sbci, N, False, 0x0105, 262),
        ("subi_v", subi + sbci, V, False, 0x8123, 292), ("subi_s", subi + sbci, S, True, 0x8123, 293),
    ):
        low, high = (16, None) if body is dec else (24, 25) if body is sbiw else (20, 22)
        start = [ldi(low, value % 256)] + ([ldi(high, value // 256)] if high else [])
        cycles, count = (3 if body is dec else 4), len(body) + 1
        stop, words = len(start) + rounds * cycles - 1, len(start) + count
        it.case(name, "Delays that end by N, V, S or H." if name == "dec_n" else "",
                [f"{stop} 0 stop {words:04X} reserved opcode", f"4000 0 end {len(start) + rounds * count} stopped"], 4000,
                (0, start + body + where(flag, on, len(body))))
    # Of three bytes, the highest 10: 102 rounds lower 100102 to 100000, and the next one borrows from a half. SUBI begins in 3 + 5 j.
    three = [ldi(20, 0x02), ldi(22, 0x01), ldi(23, 0x10), *subi, *sbci, word("sbci", d=7, K=0)] + where(H, False, 3)
    it.case("three_h", "", ["1297 0 stop 0007 reserved opcode", "2000 0 end 1039 stopped"], 2000, (0, three))


def seen(it):
    # What a handler finds of a delay: it sends SREG, without I, and the register, and turns its interrupt off. TCCR0 is written in 13, so
    # OCF0 is set in 13 + OCR0. DEC begins in 15 + 3 j, BRNE in 16 + 3 j, at words 5C and 5D. An entry in cycle e writes UDR0 in
    # e + 5 and e + 6: the frames end in e + 165 and e + 325. The handler takes 12 cycles with the entry, so 200 rounds end in 626.
    handler = load(SREG, 21) + [out(UDR, 21), out(UDR, 20), out(TIMSK, 1), RETI]
    start = put(SPH, 0x10) + put(TIMSK, 0x02) + put(UCSRB, 0x08)
    for ocr, entry, sreg, value in ((100, 114, "14", 200 - 33), (101, 115, "14", 200 - 34), (220, 234, "18", 127), (250, 264, "00", 200 - 83)):
        words = start + put(OCR0, ocr) + [ldi(20, 200), ldi(16, 1), out(TCCR0, 16), SEI, word("dec", d=20)] + where(Z, False, 1)
        it.case(f"seen{ocr}", "What a handler finds of a delay: with bit 7 set, between DEC and BRNE, just below 128, far below." if ocr == 100 else "",
                [f"{entry + 165} 0 serial {sreg}", f"{entry + 325} 0 serial {value:02X}", "626 0 stop 005E reserved opcode", "700 0 end 418 stopped"], 700,
                (0, JMP_50), (0x1E, handler), (0x50, words))
    # The same of two bytes, the higher 80, whose bit 7 N and S are of: SUBI begins in 16 + 4 j, the entry in 116 finds 25 rounds done. The
    # handler goes on in 128, and each of the three begins 218 times more below 1000: 14 + 25 * 3 + 5 + 218 * 3.
    words = start + put(OCR0, 101) + [ldi(20, 200), ldi(22, 0x80), ldi(16, 1), out(TCCR0, 16)]
    words += [SEI, word("subi", d=4, K=1), word("sbci", d=6, K=0)] + where(Z, False, 2)
    it.case("seen_long", "Of one by two bytes.", ["281 0 serial 14", "441 0 serial AF", "1000 0 end 748 running"], 1000, (0, JMP_50), (0x1E, handler), (0x50, words))


def seen_pairs(it):
    # The same of a pair: SBIW begins in 16 + 4 j, the entry in 116 finds 25 rounds done. The handler goes on in 128, and 272 rounds end in
    # 1115.
    start = put(SPH, 0x10) + put(TIMSK, 0x02) + put(UCSRB, 0x08)
    sbiw = [SEI, word("sbiw", d=0, K=1)] + where(Z, False, 1)
    words = start + put(OCR0, 100) + [ldi(24, 272 % 256), ldi(25, 272 // 256), ldi(16, 1), out(TCCR0, 16)] + sbiw
    it.case("seen_pair", "Of a pair: below 256, at the end of its negative numbers.",
            ["280 0 serial F7", "440 0 serial 00", "1115 0 stop 005F reserved opcode", "1200 0 end 563 stopped"], 1200,
            (0, JMP_50), (0x1E, [out(UDR, 24), out(UDR, 25), NOP, out(TIMSK, 1), RETI]), (0x50, words))
    # SBIW leaves N and S at 8000, V and S at 7FFF, none at 7FFE. Both begin 218 times more below 1000: 14 + 25 * 2 + 5 + 218 * 2.
    handler = load(SREG, 21) + [out(UDR, 21), out(UDR, 24), out(TIMSK, 1), RETI]
    for low, sreg, left in ((0x19, "14", "00"), (0x18, "18", "FF"), (0x17, "00", "FE")):
        words = start + put(OCR0, 100) + [ldi(24, low), ldi(25, 0x80), ldi(16, 1), out(TCCR0, 16)] + sbiw
        it.case(f"seen_80{low:02X}", "", [f"281 0 serial {sreg}", f"441 0 serial {left}", "1000 0 end 505 running"], 1000,
                (0, JMP_50), (0x1E, handler), (0x50, words))
    # SUBI and SBCI, timed as two bytes above: they leave none at 1000, H alone at 0FFF, none at 0FFE.
    handler = load(SREG, 21) + [out(UDR, 21), out(UDR, 20), out(TIMSK, 1), RETI]
    for low, sreg, left in ((0x19, "00", "00"), (0x18, "20", "FF"), (0x17, "00", "FE")):
        words = start + put(OCR0, 101) + [ldi(20, low), ldi(22, 0x10), ldi(16, 1), out(TCCR0, 16)]
        words += [SEI, word("subi", d=4, K=1), word("sbci", d=6, K=0)] + where(Z, False, 2)
        it.case(f"seen_10{low:02X}", "Of two bytes, whose higher one loses its half: a half carry." if low == 0x19 else "",
                [f"281 0 serial {sreg}", f"441 0 serial {left}", "1000 0 end 748 running"], 1000, (0, JMP_50), (0x1E, handler), (0x50, words))
    # Of three bytes: SUBI begins in 17 + 5 j, the entry in 117 finds 20 rounds done, so FFFF of 010013. The handler goes on in 129: SUBI
    # begins 175 times more below 1000, the other three 174 times: 15 + 20 * 4 + 5 + 175 + 174 * 3.
    words = start + put(OCR0, 101) + [ldi(20, 0x13), ldi(22, 0), ldi(23, 1), ldi(16, 1), out(TCCR0, 16)]
    words += [SEI, word("subi", d=4, K=1), word("sbci", d=6, K=0), word("sbci", d=7, K=0)] + where(Z, False, 3)
    it.case("seen_three", "Of three bytes, whose highest one is lowered.", ["282 0 serial 00", "442 0 serial FF", "1000 0 end 797 running"], 1000,
            (0, JMP_50), (0x1E, handler), (0x50, words))


def stores(it):
    """Stores to SREG between two events, which turn I on and off. TCCR0 is written in 14, so OCF0 is set in 14 + OCR0; SREG is written in 15.
    The handler begins four cycles behind the entry, sends 80 in a frame of 160 cycles, and goes back behind seven. The loop is RJMP."""
    handler = [out(UDR, 17), out(TIMSK, 1), RETI]
    start = put(SPH, 0x10) + put(TIMSK, 0x02) + put(UCSRB, 0x08)
    for name, ocr, behind, rows in (
        # RJMP begins in 16 + 2 j, so the entry is in 116; from 126 on 87 times more: 14 + 50 + 3 + 87
        ("sreg_on", 100, [], ["280 0 serial 80", "300 0 end 154 running"]),
        # off again in 17: RJMP begins in 18 + 2 j, 141 times: 14 + 2 + 141
        ("sreg_off", 100, [NOP, out(SREG, 18)], ["300 0 end 157 running"]),
        # set in the cycle of the store: the NOP in 16 is owed, the entry is in 17, RJMP begins in 27 + 2 j, 137 times: 14 + 1 + 3 + 137
        ("sreg_on_due", 1, [NOP], ["181 0 serial 80", "300 0 end 155 running"]),
        ("sreg_off_due", 3, [NOP, out(SREG, 18)], ["300 0 end 157 running"]),
    ):
        words = start + put(OCR0, ocr) + [ldi(17, 0x80), ldi(18, 0), ldi(16, 1), out(TCCR0, 16), out(SREG, 17)] + behind + back(0)
        it.case(name, "Stores to SREG that turn interrupts on and off, far from the next one and in the cycle that sets its flag." if name == "sreg_on" else "",
                rows, 300, (0, JMP_50), (0x1E, handler), (0x50, words))


def look_alike(it):
    # IN begins in 10 + 4 j and finds 41, 42 and 00, each once
    it.case("udr0", "Loops that only look so. A read of UDR0 takes a byte.", ["21 0 stop 000D reserved opcode", "100 0 end 19 stopped"], 100,
            (0, [ldi(16, 0x10), out(UCSRB, 16)] + 8 * [NOP] + load(UDR, 17) + [word("and_", d=17, r=17)] + where(Z, False, 2)), arrives=(2, "4142"))
    # TCCR0 is written in 1, so in 2 + 4 j TCNT0 reads 1 + 4 j: in 102 it is 101
    it.case("tcnt0", "TCNT0 counts.", ["105 0 stop 0005 reserved opcode", "300 0 end 80 stopped"], 300,
            (0, [ldi(16, 1), out(TCCR0, 16)] + load(TCNT0, 17) + [word("cpi", d=1, K=101)] + where(C, True, 2)))
    it.case("no_bit", "A mask of no bit never ends.", ["100 0 end 75 running"], 100,
            (0, load(UCSRA, 17) + [word("andi", d=1, K=0)] + where(Z, True, 2)))
    # the loop has the address of LDS as an instruction, MOVW: it begins in 5 + 4 j, AND in 2 + 4 j, BREQ in 3 + 4 j
    it.case("word_off", "A branch to the second word of LDS; to itself, one word behind SBIS; to the word before it.", ["100 0 end 75 running"], 100,
            (0, lds(FLAG, 24) + [word("and_", d=24, r=24)] + where(Z, True, 2)))
    it.case("behind", "", ["100 0 end 51 running"], 100, (0, [word("sbis", A=UCSRA, b=7)] + back(0)))
    it.case("before", "", ["100 0 end 75 running"], 100, (0, [NOP, word("sbis", A=UCSRA, b=7)] + back(2)))
    # One that counts up begins in 1 + 3 j, and one by SUBI alone: of 200 rounds the last in 598. By two of 1,000 there are 500 rounds of four
    # cycles, from 2 on. DEC begins in 1 + 4 j where MOV stands behind it: of 200 rounds the last in 797.
    brne = where(Z, False, 1)
    for name, words, end, count in (
        ("up", [ldi(16, 56), word("inc", d=16), *brne], 600, 401), ("subi_alone", [ldi(20, 200), word("subi", d=4, K=1), *brne], 600, 401),
        ("sbiw_two", [ldi(24, 1000 % 256), ldi(25, 1000 // 256), word("sbiw", d=0, K=2), *brne], 2001, 1002),
        ("subi_two", [ldi(20, 1000 % 256), ldi(22, 1000 // 256), word("subi", d=4, K=2), word("sbci", d=6, K=0), *where(Z, False, 2)], 2001, 1502),
        ("counted_twice", [ldi(16, 200), word("dec", d=16), word("mov", d=17, r=16), *where(Z, False, 2)], 800, 601),
    ):
        it.case(name, "Counters that are lowered otherwise than by one, or are not all that a round changes." if name == "up" else "",
                [f"{end} 0 stop {len(words):04X} reserved opcode", f"3000 0 end {count} stopped"], 3000, (0, words))
    # SUBI begins in 1 + 4 j, of 200 rounds the last in 797
    it.case("same_byte", "SBCI of the byte that SUBI lowered.", ["800 0 stop 0004 reserved opcode", "900 0 end 601 stopped"], 900,
            (0, [ldi(16, 200), word("subi", d=0, K=1), word("sbci", d=0, K=0)] + where(Z, False, 2)))


def windows(it):
    # INC begins in each cycle from 0 on, 30 times; RJMP in 30 + 2 j, five times below 40
    inc = word("inc", d=16)
    it.case("straight", "A window that begins and ends within straight code; one whose first cycle is the second of an instruction.",
            ["20 0 instr 0014 inc r16", "21 0 instr 0015 inc r16", "22 0 instr 0016 inc r16", "23 0 instr 0017 inc r16", "40 0 end 35 running"], 40,
            (0, [inc] * 30 + back(0)), window=(20, 24))
    # ADIW begins in 19, so INC behind it in 21; 19 + 1 + 10 instructions, and RJMP in 31 + 2 j, five times below 40
    it.case("straddled", "", ["21 0 instr 0014 inc r16", "22 0 instr 0015 inc r16", "23 0 instr 0016 inc r16", "40 0 end 35 running"], 40,
            (0, [inc] * 19 + [word("adiw", d=0, K=1)] + [inc] * 10 + back(0)), window=(20, 24))


def no_leaps(it):
    """Loops of whose rounds none is passed at once: what is in them does more than wait, stops, or is due."""
    brne = where(Z, False, 1)
    # IN begins in 3 j, 34 times below 100, RJMP 33 times
    for name, at in (("spcr", SPCR), ("spdr", SPDR)):
        it.case(name, "A register of the SPI, and its data." if name == "spcr" else "", ["100 0 end 67 running"], 100, (0, load(at, 16) + back(1)))
    # RJMP, RJMP, and LDS in 4
    for name, at, cause in (("past", 0x1100, "address past 0x10FF"), ("not_there", 0xF0, "reserved address")):
        it.case(name, "Behind a jump back a load stops." if name == "past" else "", [f"4 0 stop 0001 {cause}", "50 0 end 2 stopped"], 50,
                (0, [word("rjmp", k=2)] + lds(at, 24) + back(2)))
    # RET finds the high byte at 10FF, and no low one
    it.case("ret_at_the_end", "RET with one byte of the stack left.", ["4 0 stop 0004 address past 0x10FF", "20 0 end 4 stopped"], 20,
            (0, put(SPH, 0x10) + put(SPH - 1, 0xFE) + [word("ret")]))
    # The round begins with nine NOPs and two jumps, and comes back to its head, word 0A, by a short jump: 13 instructions in 16 cycles, ten
    # times below 160.
    long_way = 9 * [NOP] + [word("rjmp", k=2)]
    it.case("long_poll", "Rounds that are too long: of a poll, of a delay.", ["160 0 end 130 running"], 160,
            (0, long_way + load(PINB, 16) + [word("rjmp", k=-12)] + back(2)))
    it.case("long_delay", "", ["160 0 end 130 running"], 160, (0, long_way + [word("dec", d=16), word("brbc", s=Z, k=-12)] + back(2)))
    # INC makes each round another; SEI behind CLI lets one instruction more go before an interrupt. IN begins in 4 j and in 5 j.
    it.case("with_inc", "A poll that counts; one that turns interrupts off and on.", ["100 0 end 75 running"], 100,
            (0, load(PINB, 16) + [word("inc", d=17)] + back(2)))
    it.case("with_sei", "", ["100 0 end 80 running"], 100, (0, load(PINB, 16) + [word("bclr", s=7), SEI] + back(3)))
    # IN begins in 1 + 4 j, 25 times below 101
    for name, skip in (("with_cpse", word("cpse", d=16, r=17)), ("with_sbrc", word("sbrc", r=17, b=0))):
        it.case(name, "Polls that skip by CPSE and SBRC." if name == "with_cpse" else "", ["101 0 end 76 running"], 101,
                (0, [ldi(17, 1)] + load(PINB, 16) + [skip] + back(2)))
    # DEC begins in 1 + 4 j, of 200 rounds the last in 797. With NOP, BRNE ends the loop in 799; with BREQ, that goes on in 798 and 799.
    it.case("dec_nop", "Delays with NOP, and with RJMP.", ["800 0 stop 0004 reserved opcode", "900 0 end 601 stopped"], 900,
            (0, [ldi(16, 200), word("dec", d=16), NOP] + where(Z, False, 2)))
    it.case("dec_rjmp", "", ["800 0 stop 0004 reserved opcode", "900 0 end 600 stopped"], 900,
            (0, [ldi(16, 200), word("dec", d=16), word("brbs", s=Z, k=1)] + back(2)))
    # SUBI begins in 4 j; in 2 + 4 j, where both bytes are lowered: of 20 rounds the last in 78
    it.case("subi_out", "SUBI, and not SBCI of 0 behind it.", ["100 0 end 75 running"], 100, (0, [word("subi", d=0, K=1), out(PORTB, 16)] + back(2)))
    it.case("both_down", "", ["81 0 stop 0005 reserved opcode", "100 0 end 62 stopped"], 100,
            (0, [ldi(20, 20), ldi(22, 20), word("subi", d=4, K=1), word("sbci", d=6, K=1)] + where(Z, False, 2)))


def two_due(it):
    # TCCR0 is written in 7, so OCF0 and TOV0 are set in 7 + 255. Entry and RETI take four cycles each, and one instruction goes between RETI
    # and the second entry. RJMP begins in 9 + 2 j, so 127 times, once between the two, and from 281 on ten times: 9 + 127 + 3 + 10.
    # DEC begins in 9 + 3 j, and the first entry, in 264, comes before it: 9 + 85 * 2 + 4 + 12. One NOP later it comes before RJMP: 10 + 169 + 3 + 13.
    start = put(SPH, 0x10) + put(TIMSK, 0x03) + put(OCR0, 255) + [ldi(16, 1), out(TCCR0, 16)]
    for name, words, count in (("two_rjmp", [SEI, *back(0)], 149), ("two_dec", [SEI, word("dec", d=20), *back(1)], 195),
                               ("two_dec_later", [NOP, SEI, word("dec", d=20), *back(1)], 195), ("two_subi_later", [NOP, SEI, word("subi", d=4, K=1), *back(1)], 195)):
        it.case(name, "Two interrupts due at once, in the middle of a loop: to the second one's entry it goes on by one instruction." if name == "two_rjmp" else "",
                [f"300 0 end {count} running"], 300, (0, start + words), (0x1E, [RETI]), (0x20, [RETI]))


def main():
    it = Leaps(folder_of_words(__doc__), ["worked out by hand, as bench/network/leaps.py has it at each; the traces are also those of bench/network/network.py."])
    for part in (polls, flags, delays, other_flags, seen, seen_pairs, stores, look_alike, windows, no_leaps, two_due):
        part(it)
    it.write("networks", "leaps.txt")


if __name__ == "__main__":
    if sys.argv[1:2] in (["--help"], ["-h"]):
        sys.exit(print(__doc__))
    main()
