"""The instructions of the ATmega128 as rows of patterns (AVR Instruction Set Manual): pattern, name, text.

A word is looked up by its pattern alone, and each row has one method of `machine.Node` that does it.
"""
import re

ROWS = """
0000000000000000 nop     nop
00000001ddddrrrr movw    movw rD, rR
00000010ddddrrrr muls    muls rD, rR
000000110ddd0rrr mulsu   mulsu rD, rR
000000110ddd1rrr fmul    fmul rD, rR
000000111ddd0rrr fmuls   fmuls rD, rR
000000111ddd1rrr fmulsu  fmulsu rD, rR
000001rdddddrrrr cpc     cpc rD, rR
000010rdddddrrrr sbc     sbc rD, rR
000011rdddddrrrr add     add rD, rR
000100rdddddrrrr cpse    cpse rD, rR
000101rdddddrrrr cp      cp rD, rR
000110rdddddrrrr sub     sub rD, rR
000111rdddddrrrr adc     adc rD, rR
001000rdddddrrrr and_    and rD, rR
001001rdddddrrrr eor     eor rD, rR
001010rdddddrrrr or_     or rD, rR
001011rdddddrrrr mov     mov rD, rR
0011KKKKddddKKKK cpi     cpi rD, K
0100KKKKddddKKKK sbci    sbci rD, K
0101KKKKddddKKKK subi    subi rD, K
0110KKKKddddKKKK ori     ori rD, K
0111KKKKddddKKKK andi    andi rD, K
10q0qq0ddddd0qqq ldd_z   ldd rD, Z+q
10q0qq0ddddd1qqq ldd_y   ldd rD, Y+q
10q0qq1rrrrr0qqq std_z   std Z+q, rR
10q0qq1rrrrr1qqq std_y   std Y+q, rR
1001000ddddd0000 lds     lds rD, ADDRESS
1001000ddddd0001 ld_z_inc ld rD, Z+
1001000ddddd0010 ld_z_dec ld rD, -Z
1001000ddddd0100 lpm_z   lpm rD, Z
1001000ddddd0101 lpm_z_inc lpm rD, Z+
1001000ddddd0110 elpm_z  elpm rD, Z
1001000ddddd0111 elpm_z_inc elpm rD, Z+
1001000ddddd1001 ld_y_inc ld rD, Y+
1001000ddddd1010 ld_y_dec ld rD, -Y
1001000ddddd1100 ld_x    ld rD, X
1001000ddddd1101 ld_x_inc ld rD, X+
1001000ddddd1110 ld_x_dec ld rD, -X
1001000ddddd1111 pop     pop rD
1001001rrrrr0000 sts     sts ADDRESS, rR
1001001rrrrr0001 st_z_inc st Z+, rR
1001001rrrrr0010 st_z_dec st -Z, rR
1001001rrrrr1001 st_y_inc st Y+, rR
1001001rrrrr1010 st_y_dec st -Y, rR
1001001rrrrr1100 st_x    st X, rR
1001001rrrrr1101 st_x_inc st X+, rR
1001001rrrrr1110 st_x_dec st -X, rR
1001001rrrrr1111 push    push rR
1001010ddddd0000 com     com rD
1001010ddddd0001 neg     neg rD
1001010ddddd0010 swap    swap rD
1001010ddddd0011 inc     inc rD
1001010ddddd0101 asr     asr rD
1001010ddddd0110 lsr     lsr rD
1001010ddddd0111 ror     ror rD
1001010ddddd1010 dec     dec rD
100101000sss1000 bset    bset s
100101001sss1000 bclr    bclr s
1001010000001001 ijmp    ijmp
1001010100001001 icall   icall
1001010100001000 ret     ret
1001010100011000 reti    reti
1001010110001000 sleep   sleep
1001010110011000 break_  break
1001010110101000 wdr     wdr
1001010111001000 lpm     lpm
1001010111011000 elpm    elpm
1001010111101000 spm     spm
1001010kkkkk110k jmp     jmp ADDRESS
1001010kkkkk111k call    call ADDRESS
10010110KKddKKKK adiw    adiw rD, K
10010111KKddKKKK sbiw    sbiw rD, K
10011000AAAAAbbb cbi     cbi A, b
10011001AAAAAbbb sbic    sbic A, b
10011010AAAAAbbb sbi     sbi A, b
10011011AAAAAbbb sbis    sbis A, b
100111rdddddrrrr mul     mul rD, rR
10110AAdddddAAAA in_     in rD, A
10111AArrrrrAAAA out     out A, rR
1100kkkkkkkkkkkk rjmp    rjmp OFFSET
1101kkkkkkkkkkkk rcall   rcall OFFSET
1110KKKKddddKKKK ldi     ldi rD, K
111100kkkkkkksss brbs    brbs s, OFFSET
111101kkkkkkksss brbc    brbc s, OFFSET
1111100ddddd0bbb bld     bld rD, b
1111101ddddd0bbb bst     bst rD, b
1111110rrrrr0bbb sbrc    sbrc rR, b
1111111rrrrr0bbb sbrs    sbrs rR, b
"""

# The rows whose pointer, where it is the register that is loaded or stored too, is changed: what comes of it the
# manual leaves undefined.
POINTER = {"x": 26, "y": 28, "z": 30}
TWO_WORDS = ("jmp", "call", "lds", "sts")


class Op:
    """An instruction: its row's name, and the numbers that its letters spell."""

    def __init__(self, name, text, fields):
        self.name, self.text = name, text
        self.d = fields.get("d", 0)
        self.r = fields.get("r", 0)
        self.K = fields.get("K", 0)
        self.A = fields.get("A", 0)
        self.b = fields.get("b", 0)
        self.s = fields.get("s", 0)
        self.q = fields.get("q", 0)
        self.k = fields.get("k", 0)
        self.width = 2 if name in TWO_WORDS else 1

    def text_with(self, second):
        """The text, where `second` is the word behind the instruction's first."""
        offset = 2 * self.k
        written = {
            "rD": f"r{self.d}",
            "rR": f"r{self.r}",
            "K": f"0x{self.K:02X}",
            "A": f"0x{self.A:02X}",
            "ADDRESS": f"0x{second:04X}",
            "OFFSET": f".+{offset}" if offset >= 0 else f".-{-offset}",
            "b": str(self.b),
            "s": str(self.s),
            "q": str(self.q),
        }
        return re.sub(r"\b(rD|rR|K|A|ADDRESS|OFFSET|b|s|q)\b", lambda found: written[found[0]], self.text)


def register(name, letters, value):
    """The register that so many letters d or r spell."""
    if name == "movw":
        return 2 * value
    if name in ("adiw", "sbiw"):
        return 24 + 2 * value
    return value if letters == 5 else 16 + value


def fields_of(name, pattern, word):
    spelled = {}
    for place, letter in enumerate(pattern):
        if letter not in "01":
            spelled[letter] = spelled.get(letter, 0) * 2 + (word >> (15 - place) & 1)
    for letter in "dr":
        if letter in spelled:
            spelled[letter] = register(name, pattern.count(letter), spelled[letter])
    if "k" in spelled and name not in ("jmp", "call"):
        size = pattern.count("k")
        if spelled["k"] >> (size - 1):
            spelled["k"] -= 1 << size
    return spelled


def is_undefined(name, fields):
    base, _, rest = name.partition("_")
    if base in ("ld", "st") and rest[2:] in ("inc", "dec"):
        low = POINTER[rest[0]]
        return fields.get("d", fields.get("r")) in (low, low + 1)
    return name in ("lpm_z_inc", "elpm_z_inc") and fields["d"] in (30, 31)


def matches(pattern, word):
    return all(letter not in "01" or int(letter) == word >> (15 - place) & 1 for place, letter in enumerate(pattern))


TABLE = [line.split(None, 2) for line in ROWS.strip().splitlines()]
DECODED = {}


def decode(word):
    """The instruction of a word; named `reserved` where no row has it, and `undefined` where the manual says nothing."""
    if word not in DECODED:
        found = [row for row in TABLE if matches(row[0], word)]
        assert len(found) <= 1
        if not found:
            op = Op("reserved", "", {})
        else:
            pattern, name, text = found[0]
            fields = fields_of(name, pattern, word)
            op = Op("undefined", "", {}) if is_undefined(name, fields) else Op(name, text, fields)
        DECODED[word] = op
    return DECODED[word]
