"""The machine of docs/MACHINE.md once more, written plainly and slowly, one cycle after another.

The scripts that write stored cases (instruction_cases.py, device_cases.py, node_cases.py beside it) take their expected values
from it. It shares nothing with the crates: instructions come from a table of patterns, flags from their arithmetic meaning, and
no cycle is leapt over.
"""
import functools
import re

CAUSES = ["reserved opcode", "undefined operands", "spm", "break", "sleep mode", "pwm mode", "external timer clock",
          "compare output", "forced compare", "input capture enable", "prescaler control", "usart mode", "spi slave",
          "external memory", "watchdog enable", "eeprom access", "adc", "comparator interrupt", "twi", "external interrupt",
          "clock division", "asynchronous timer", "moved vectors", "usart1", "reserved address", "address past 0x10FF"]


class Stop(Exception):
    def __init__(self, cause):
        assert cause in CAUSES
        self.cause = cause


# ---- flags

C, Z, N, V, S, H, T, I = range(8)


def bit(value, n):
    return value >> n & 1


def signed(b):
    return b - 256 if b >= 128 else b


def with_flags(sreg, **flags):
    for name, on in flags.items():
        n = "CZNVSHTI".index(name)
        sreg = sreg & ~(1 << n) | bool(on) << n
    return sreg


def signs(sreg, result, overflow, zero=None):
    """N, Z, V and S of a byte."""
    negative = bit(result, 7)
    return with_flags(sreg, N=negative, Z=result == 0 if zero is None else zero, V=overflow, S=negative != bool(overflow))


def add(a, b, carry, sreg):
    total = a + b + carry
    out = signs(sreg, total % 256, not -128 <= signed(a) + signed(b) + carry <= 127)
    return total % 256, with_flags(out, C=total >= 256, H=a % 16 + b % 16 + carry >= 16)


def sub(a, b, borrow, sreg, keep=False):
    result = (a - b - borrow) % 256
    zero = result == 0 and (not keep or bit(sreg, Z))
    out = signs(sreg, result, not -128 <= signed(a) - signed(b) - borrow <= 127, zero)
    return result, with_flags(out, C=a < b + borrow, H=a % 16 < b % 16 + borrow)


def logic(result, sreg):
    return result, signs(sreg, result, False)


def com(a, sreg):
    return 255 - a, with_flags(signs(sreg, 255 - a, False), C=True)


def inc(a, sreg):
    return (a + 1) % 256, signs(sreg, (a + 1) % 256, (a + 1) % 256 == 0x80)


def dec(a, sreg):
    return (a - 1) % 256, signs(sreg, (a - 1) % 256, (a - 1) % 256 == 0x7F)


def shift(a, top, sreg):
    result, carry = a >> 1 | top << 7, bit(a, 0)
    return result, with_flags(signs(sreg, result, bit(result, 7) != carry), C=carry)


def word(a, k, sreg, sign):
    total = a + sign * k
    result, negative = total % 65536, bit(total % 65536, 15)
    plain = a - 65536 if a >= 32768 else a
    over = not -32768 <= plain + sign * k <= 32767
    return result, with_flags(sreg, C=total >= 65536 or total < 0, Z=result == 0, N=negative, V=over, S=negative != over)


def product(a, b, sreg, shifted=False):
    value = a * b % 65536
    result = value * 2 % 65536 if shifted else value
    return result, with_flags(sreg, C=bit(value, 15), Z=result == 0)


# ---- instructions: pattern, text, cycles, effect. d, r: registers; K: a constant; A: an I/O address; b: a bit; s: a flag;
# q: a displacement; k: an offset or an address

TABLE = []


def instruction(pattern, text, cycles=1):
    def keep(effect):
        TABLE.append((pattern.replace(" ", ""), text, cycles, effect))
        return effect
    return keep


def rule(pattern, text, cycles=1):
    """An effect that gives the result and SREG: the result goes to rD."""
    def keep(effect):
        def whole(c, f):
            c.r[f["d"]], c.sreg = effect(c, f)
        TABLE.append((pattern.replace(" ", ""), text, cycles, whole))
        return effect
    return keep


def product_rule(pattern, text, left, right, shifted=False):
    def effect(c, f):
        x, y = c.r[f["d"]], c.r[f["r"]]
        value, c.sreg = product(left(x), right(y), c.sreg, shifted)
        c.r[0], c.r[1] = value % 256, value // 256
    TABLE.append((pattern.replace(" ", ""), text, 2, effect))


def plain(b):
    return b


@instruction("0000000000000000", "nop")
def _(c, f):
    pass


@instruction("00000001ddddrrrr", "movw rD, rR")
def _(c, f):
    c.r[f["d"]], c.r[f["d"] + 1] = c.r[f["r"]], c.r[f["r"] + 1]


product_rule("00000010ddddrrrr", "muls rD, rR", signed, signed)
product_rule("000000110ddd0rrr", "mulsu rD, rR", signed, plain)
product_rule("000000110ddd1rrr", "fmul rD, rR", plain, plain, True)
product_rule("000000111ddd0rrr", "fmuls rD, rR", signed, signed, True)
product_rule("000000111ddd1rrr", "fmulsu rD, rR", signed, plain, True)
product_rule("100111rdddddrrrr", "mul rD, rR", plain, plain)


@instruction("000001rdddddrrrr", "cpc rD, rR")
def _(c, f):
    c.sreg = sub(c.r[f["d"]], c.r[f["r"]], bit(c.sreg, C), c.sreg, True)[1]


@rule("000010rdddddrrrr", "sbc rD, rR")
def _(c, f):
    return sub(c.r[f["d"]], c.r[f["r"]], bit(c.sreg, C), c.sreg, True)


@rule("000011rdddddrrrr", "add rD, rR")
def _(c, f):
    return add(c.r[f["d"]], c.r[f["r"]], 0, c.sreg)


@instruction("000100rdddddrrrr", "cpse rD, rR", "skip")
def _(c, f):
    return c.r[f["d"]] == c.r[f["r"]]


@instruction("000101rdddddrrrr", "cp rD, rR")
def _(c, f):
    c.sreg = sub(c.r[f["d"]], c.r[f["r"]], 0, c.sreg)[1]


@rule("000110rdddddrrrr", "sub rD, rR")
def _(c, f):
    return sub(c.r[f["d"]], c.r[f["r"]], 0, c.sreg)


@rule("000111rdddddrrrr", "adc rD, rR")
def _(c, f):
    return add(c.r[f["d"]], c.r[f["r"]], bit(c.sreg, C), c.sreg)


@rule("001000rdddddrrrr", "and rD, rR")
def _(c, f):
    return logic(c.r[f["d"]] & c.r[f["r"]], c.sreg)


@rule("001001rdddddrrrr", "eor rD, rR")
def _(c, f):
    return logic(c.r[f["d"]] ^ c.r[f["r"]], c.sreg)


@rule("001010rdddddrrrr", "or rD, rR")
def _(c, f):
    return logic(c.r[f["d"]] | c.r[f["r"]], c.sreg)


@rule("001011rdddddrrrr", "mov rD, rR")
def _(c, f):
    return c.r[f["r"]], c.sreg


@instruction("0011KKKKddddKKKK", "cpi rD, K")
def _(c, f):
    c.sreg = sub(c.r[f["d"]], f["K"], 0, c.sreg)[1]


@rule("0100KKKKddddKKKK", "sbci rD, K")
def _(c, f):
    return sub(c.r[f["d"]], f["K"], bit(c.sreg, C), c.sreg, True)


@rule("0101KKKKddddKKKK", "subi rD, K")
def _(c, f):
    return sub(c.r[f["d"]], f["K"], 0, c.sreg)


@rule("0110KKKKddddKKKK", "ori rD, K")
def _(c, f):
    return logic(c.r[f["d"]] | f["K"], c.sreg)


@rule("0111KKKKddddKKKK", "andi rD, K")
def _(c, f):
    return logic(c.r[f["d"]] & f["K"], c.sreg)


def displaced(pattern, pointer, name, stores):
    def effect(c, f):
        at = (c.pair(pointer) + f["q"]) % 65536
        if stores:
            c.store(at, c.r[f["r"]])
        else:
            c.r[f["d"]] = c.load(at)
    TABLE.append((pattern, f"std {name}+q, rR" if stores else f"ldd rD, {name}+q", 2, effect))


displaced("10q0qq0ddddd0qqq", 30, "Z", False)
displaced("10q0qq0ddddd1qqq", 28, "Y", False)
displaced("10q0qq1rrrrr0qqq", 30, "Z", True)
displaced("10q0qq1rrrrr1qqq", 28, "Y", True)


def pointed(tail, pointer, name, move, stores):
    """LD and ST by X, Y or Z: `move` is what is added to the pointer, before where it is below 0. A stop leaves it."""
    letter = "r" if stores else "d"
    shown = {0: name, 1: name + "+", -1: "-" + name}[move]

    def effect(c, f):
        if move and f[letter] in (pointer, pointer + 1):
            raise Stop("undefined operands")
        old = c.pair(pointer)
        new = (old + move) % 65536
        at = new if move < 0 else old
        if stores:
            byte = c.r[f["r"]]
            c.check(at)
            if move > 0:
                c.store(at, byte)
                c.set_pair(pointer, new)
            else:
                c.set_pair(pointer, new)
                c.store(at, byte)
        else:
            c.check(at)
            if move < 0:
                c.set_pair(pointer, new)
            byte = c.load(at)
            if move > 0:
                c.set_pair(pointer, new)
            c.r[f["d"]] = byte
    TABLE.append((("1001001rrrrr" if stores else "1001000ddddd") + tail,
                  f"st {shown}, rR" if stores else f"ld rD, {shown}", 2, effect))


for stores_ in (False, True):
    for tail_, pointer_, name_, move_ in (("0001", 30, "Z", 1), ("0010", 30, "Z", -1), ("1001", 28, "Y", 1),
                                          ("1010", 28, "Y", -1), ("1100", 26, "X", 0), ("1101", 26, "X", 1),
                                          ("1110", 26, "X", -1)):
        pointed(tail_, pointer_, name_, move_, stores_)


@instruction("1001000ddddd0000", "lds rD, k", 2)
def _(c, f):
    c.r[f["d"]] = c.load(f["k"])


@instruction("1001001rrrrr0000", "sts k, rR", 2)
def _(c, f):
    c.store(f["k"], c.r[f["r"]])


def program_read(pattern, text, high, moves, fixed=None):
    def effect(c, f):
        d = f["d"] if fixed is None else fixed
        if moves and d in (30, 31):
            raise Stop("undefined operands")
        at = c.pair(30) + (c.rampz << 16 if high else 0)
        byte = c.flash[at]
        if moves:
            c.set_pair(30, (at + 1) % 65536)
            if high:
                c.rampz = (at + 1) % 131072 >> 16
        c.r[d] = byte
    TABLE.append((pattern, text, 3, effect))


program_read("1001000ddddd0100", "lpm rD, Z", False, False)
program_read("1001000ddddd0101", "lpm rD, Z+", False, True)
program_read("1001000ddddd0110", "elpm rD, Z", True, False)
program_read("1001000ddddd0111", "elpm rD, Z+", True, True)
program_read("1001010111001000", "lpm", False, False, 0)
program_read("1001010111011000", "elpm", True, False, 0)


@instruction("1001000ddddd1111", "pop rD", 2)
def _(c, f):
    c.r[f["d"]] = c.pop()


@instruction("1001001rrrrr1111", "push rR", 2)
def _(c, f):
    c.push(c.r[f["r"]])


@rule("1001010ddddd0000", "com rD")
def _(c, f):
    return com(c.r[f["d"]], c.sreg)


@rule("1001010ddddd0001", "neg rD")
def _(c, f):
    return sub(0, c.r[f["d"]], 0, c.sreg)


@rule("1001010ddddd0010", "swap rD")
def _(c, f):
    return c.r[f["d"]] % 16 * 16 + c.r[f["d"]] // 16, c.sreg


@rule("1001010ddddd0011", "inc rD")
def _(c, f):
    return inc(c.r[f["d"]], c.sreg)


@rule("1001010ddddd0101", "asr rD")
def _(c, f):
    return shift(c.r[f["d"]], bit(c.r[f["d"]], 7), c.sreg)


@rule("1001010ddddd0110", "lsr rD")
def _(c, f):
    return shift(c.r[f["d"]], 0, c.sreg)


@rule("1001010ddddd0111", "ror rD")
def _(c, f):
    return shift(c.r[f["d"]], bit(c.sreg, C), c.sreg)


@rule("1001010ddddd1010", "dec rD")
def _(c, f):
    return dec(c.r[f["d"]], c.sreg)


@instruction("100101000sss1000", "bset s")
def _(c, f):
    c.sreg |= 1 << f["s"]
    c.owes |= f["s"] == I


@instruction("100101001sss1000", "bclr s")
def _(c, f):
    c.sreg &= ~(1 << f["s"])


@instruction("1001010000001001", "ijmp", 2)
def _(c, f):
    c.pc = c.pair(30)


@instruction("1001010100001001", "icall", 3)
def _(c, f):
    c.push_word(c.pc)
    c.pc = c.pair(30)


@instruction("1001010100001000", "ret", 4)
def _(c, f):
    high = c.pop()
    c.pc = high << 8 | c.pop()


@instruction("1001010100011000", "reti", 4)
def _(c, f):
    high = c.pop()
    c.pc = high << 8 | c.pop()
    c.sreg |= 1 << I
    c.owes = True


@instruction("1001010110001000", "sleep")
def _(c, f):
    c.sleep()


@instruction("1001010110011000", "break")
def _(c, f):
    raise Stop("break")


@instruction("1001010110101000", "wdr")
def _(c, f):
    pass


@instruction("1001010111101000", "spm")
def _(c, f):
    raise Stop("spm")


@instruction("1001010kkkkk110k", "jmp k", 3)
def _(c, f):
    c.pc = f["k"]


@instruction("1001010kkkkk111k", "call k", 4)
def _(c, f):
    c.push_word(c.pc)
    c.pc = f["k"]


@instruction("10010110KKddKKKK", "adiw rD, K", 2)
def _(c, f):
    value, c.sreg = word(c.pair(f["d"]), f["K"], c.sreg, 1)
    c.set_pair(f["d"], value)


@instruction("10010111KKddKKKK", "sbiw rD, K", 2)
def _(c, f):
    value, c.sreg = word(c.pair(f["d"]), f["K"], c.sreg, -1)
    c.set_pair(f["d"], value)


@instruction("10011000AAAAAbbb", "cbi A, b", 2)
def _(c, f):
    c.store(f["A"] + 0x20, c.load(f["A"] + 0x20) & ~(1 << f["b"]))


@instruction("10011010AAAAAbbb", "sbi A, b", 2)
def _(c, f):
    c.store(f["A"] + 0x20, c.load(f["A"] + 0x20) | 1 << f["b"])


@instruction("10011001AAAAAbbb", "sbic A, b", "skip")
def _(c, f):
    return not bit(c.load(f["A"] + 0x20), f["b"])


@instruction("10011011AAAAAbbb", "sbis A, b", "skip")
def _(c, f):
    return bit(c.load(f["A"] + 0x20), f["b"])


@instruction("10110AAdddddAAAA", "in rD, A")
def _(c, f):
    c.r[f["d"]] = c.load(f["A"] + 0x20)


@instruction("10111AArrrrrAAAA", "out A, rR")
def _(c, f):
    c.store(f["A"] + 0x20, c.r[f["r"]])


@instruction("1100kkkkkkkkkkkk", "rjmp k", 2)
def _(c, f):
    c.pc = (c.pc + f["k"]) % 65536


@instruction("1101kkkkkkkkkkkk", "rcall k", 3)
def _(c, f):
    c.push_word(c.pc)
    c.pc = (c.pc + f["k"]) % 65536


@rule("1110KKKKddddKKKK", "ldi rD, K")
def _(c, f):
    return f["K"], c.sreg


@instruction("111100kkkkkkksss", "brbs s, k", "branch")
def _(c, f):
    return bit(c.sreg, f["s"])


@instruction("111101kkkkkkksss", "brbc s, k", "branch")
def _(c, f):
    return not bit(c.sreg, f["s"])


@rule("1111100ddddd0bbb", "bld rD, b")
def _(c, f):
    return c.r[f["d"]] & ~(1 << f["b"]) | bit(c.sreg, T) << f["b"], c.sreg


@instruction("1111101ddddd0bbb", "bst rD, b")
def _(c, f):
    c.sreg = with_flags(c.sreg, T=bit(c.r[f["d"]], f["b"]))


@instruction("1111110rrrrr0bbb", "sbrc rR, b", "skip")
def _(c, f):
    return not bit(c.r[f["r"]], f["b"])


@instruction("1111111rrrrr0bbb", "sbrs rR, b", "skip")
def _(c, f):
    return bit(c.r[f["r"]], f["b"])


ROWS = [(int(re.sub("[^01]", "0", pattern), 2), int("".join("1" if one in "01" else "0" for one in pattern), 2), pattern, *rest)
        for pattern, *rest in TABLE]
TWO_WORDS = ("jmp", "call", "lds", "sts")


def fields_of(pattern, text, first, second):
    f, widths = {}, {}
    for letter, one in zip(pattern, f"{first:016b}"):
        if letter not in "01":
            f[letter] = f.get(letter, 0) * 2 + int(one)
            widths[letter] = widths.get(letter, 0) + 1
    name = text.split()[0]
    for letter in "dr":
        if letter in f:
            if name == "movw":
                f[letter] *= 2
            elif name in ("adiw", "sbiw"):
                f[letter] = 24 + 2 * f[letter]
            elif widths[letter] in (3, 4):
                f[letter] += 16
    if name in TWO_WORDS:
        f["k"] = second
    elif "k" in f and f["k"] >= 1 << widths["k"] - 1:
        f["k"] -= 1 << widths["k"]
    return f


@functools.cache
def decoded(first, second):
    """The row of a word and its fields; None where there is none."""
    for value, mask, pattern, text, cycles, effect in ROWS:
        if first & mask == value:
            return text, fields_of(pattern, text, first, second), cycles, effect
    return None


def width(first):
    row = decoded(first, 0)
    return 2 if row and row[0].split()[0] in TWO_WORDS else 1


def text_of(first, second):
    row = decoded(first, second)
    if row is None:
        return f".word 0x{first:04X}"
    text, f = row[0], row[1]
    name, _, rest = text.partition(" ")
    for part, letter in (("rD", "d"), ("rR", "r")):
        rest = rest.replace(part, f"r{f.get(letter, 0)}")
    if "K" in f:
        rest = rest.replace("K", f"0x{f['K']:02X}")
    if "A" in f:
        rest = rest.replace("A", f"0x{f['A']:02X}")
    for letter in "bsq":
        rest = re.sub(rf"\b{letter}\b", str(f.get(letter, 0)), rest)
    if name in TWO_WORDS:
        rest = rest.replace("k", f"0x{f['k']:04X}")
    elif "k" in f:
        rest = rest.replace("k", f".{2 * f['k']:+d}")
    return f"{name} {rest}" if rest else name


class Core:
    """A core over a bus, which has `get` and `put` and `has` by data addresses beside the core's own."""

    def __init__(self, bus, flash):
        self.r = [0] * 32
        self.pc = self.sp = self.sreg = self.rampz = 0
        self.bus, self.flash = bus, flash
        self.owes = False       # SEI and RETI owe an instruction by themselves
        self.slept = False

    def pair(self, low):
        return self.r[low] | self.r[(low + 1) % 32] << 8

    def set_pair(self, low, value):
        self.r[low], self.r[(low + 1) % 32] = value % 256, value // 256

    def check(self, at):
        """Stops where an access does."""
        if not (at < 32 or at in (0x5B, 0x5D, 0x5E, 0x5F)):
            self.bus.check(at)

    def load(self, at):
        if at < 32:
            return self.r[at]
        own = {0x5B: self.rampz, 0x5D: self.sp % 256, 0x5E: self.sp // 256, 0x5F: self.sreg}
        return own[at] if at in own else self.bus.get(at)

    def store(self, at, byte):
        if at < 32:
            self.r[at] = byte
        elif at == 0x5B:
            self.rampz = byte & 1
        elif at == 0x5D:
            self.sp = self.sp // 256 * 256 + byte
        elif at == 0x5E:
            self.sp = self.sp % 256 + byte * 256
        elif at == 0x5F:
            self.sreg = byte
        else:
            self.bus.put(at, byte)

    def push(self, byte):
        at = self.sp
        self.store(at, byte)
        self.sp = (at - 1) % 65536

    def pop(self):
        old = self.sp
        self.sp = (old + 1) % 65536
        try:
            return self.load(self.sp)
        except Stop:
            self.sp = old
            raise

    def push_word(self, value):
        self.push(value % 256)
        self.push(value // 256)

    def sleep(self):
        self.slept = True

    def flash_word(self, at):
        at = at % 65536 * 2
        return self.flash[at] | self.flash[at + 1] << 8

    def execute(self, first, second, instead=None):
        """One instruction at the program counter: its cycles. A stop leaves what its accesses did, and the rest as it was.

        `instead` has other cycles, or None, and another effect, to be tried in place of its own."""
        row = decoded(first, second)
        if row is None:
            raise Stop("reserved opcode")
        text, f, cycles, effect = row
        if instead:
            cycles, effect = (cycles if instead[0] is None else instead[0]), instead[1]
        old = self.pc
        self.pc = (old + (2 if text.split()[0] in TWO_WORDS else 1)) % 65536
        try:
            went = effect(self, f)
        except Stop:
            self.pc = old
            raise
        if cycles == "branch":
            if went:
                self.pc = (self.pc + f["k"]) % 65536
            return 2 if went else 1
        if cycles == "skip":
            if not went:
                return 1
            over = width(self.flash_word(self.pc))
            self.pc = (self.pc + over) % 65536
            return 1 + over
        return cycles


# ---- timers

class Timer:
    """A timer; `channels` are the names of its compare values, and `dividers` those of its clock selects."""

    def __init__(self, bits, channels, dividers):
        self.top = 2 ** bits - 1
        self.dividers = dividers
        self.count = self.icr = self.temp = 0
        self.compare = {c: 0 for c in channels}
        self.flags = set()
        self.mode, self.select, self.blocked = 0, 0, False
        self.capture_bits = 0

    def tick(self, cycle):
        divider = self.dividers[self.select]
        if divider == 0 or (cycle + 1) % divider:
            return
        c, blocked, self.blocked = self.count, self.blocked, False
        if not blocked:
            self.flags |= {name for name, value in self.compare.items() if value == c}
            if self.mode == 12 and self.icr == c:
                self.flags.add("icr")
        top = {0: self.top, 4: self.compare["a"], 12: self.icr}[self.mode]
        if c == self.top:
            self.count = 0
            self.flags.add("over")
        elif c == top and not blocked:
            self.count = 0
        else:
            self.count = c + 1


TIMER_0 = [0, 1, 8, 32, 64, 128, 256, 1024]
OTHERS = [0, 1, 8, 64, 256, 1024]


# ---- the board

KEPT = {a: 0xFF for a in [0x22, 0x23, 0x31, 0x32, 0x34, 0x35, 0x37, 0x38, 0x3A, 0x3B, 0x61, 0x62, 0x27, 0x3D, 0x3E, 0x3F, 0x42,
                          0x5A, 0x6A, 0x6C, 0x6D, 0x6F, 0x70, 0x71, 0x72, 0x73, 0x98, 0x99, 0x9B, 0x9C, 0x9D]}
KEPT.update({0x64: 0x1F, 0x65: 0x1F})
NOTHING = [0x24, 0x25, 0x58, 0x68]
PINS = {0x20: 0x62, 0x21: 0x23, 0x30: 0x32, 0x33: 0x35, 0x36: 0x38, 0x39: 0x3B, 0x63: 0x65}
GUARDED = {0x26: (0xC0, "adc", 0xFF), 0x28: (0x0C, "comparator interrupt", 0xC3), 0x3C: (0x0F, "eeprom access", 0),
           0x40: (0x83, "prescaler control", 0x0C), 0x50: (0x08, "asynchronous timer", 0),
           0x57: (0x20, "input capture enable", 0xFF), 0x59: (0xFF, "external interrupt", 0),
           0x5C: (0x80, "clock division", 0xFF), 0x74: (0x04, "twi", 0xFF), 0x7A: (0xE0, "forced compare", 0),
           0x7D: (0x20, "input capture enable", 0x3F), 0x8C: (0xE0, "forced compare", 0), 0x9A: (0x18, "usart1", 0xFF)}
STARTS = {0x54: 0x01, 0x71: 0xF8, 0x72: 0xFE, 0x73: 0xFF, 0x9B: 0x20, 0x9D: 0x06}
# the addresses of a 16-bit timer's registers, low bytes and the control registers
WORDS_1 = {0x46: "icr", 0x48: "b", 0x4A: "a", 0x4C: "count", 0x78: "c"}
WORDS_3 = {0x80: "icr", 0x82: "c", 0x84: "b", 0x86: "a", 0x88: "count"}
# flag registers: the timer and its flag at each bit
TIFR = {7: (2, "a"), 6: (2, "over"), 5: (1, "icr"), 4: (1, "a"), 3: (1, "b"), 2: (1, "over"), 1: (0, "a"), 0: (0, "over")}
ETIFR = {5: (3, "icr"), 4: (3, "a"), 3: (3, "b"), 2: (3, "over"), 1: (3, "c"), 0: (1, "c")}


class Board:
    def __init__(self, byte_time=3072):
        self.cycle = 0
        self.kept = dict(STARTS)
        self.t = [Timer(8, "a", TIMER_0), Timer(16, "abc", OTHERS), Timer(8, "a", OTHERS), Timer(16, "abc", OTHERS)]
        self.baud = self.ucsr_b = 0
        self.ucsr_c, self.double = 0x06, False
        self.frame = self.waiting = None        # (end, byte); a byte
        self.txc = self.dor = False
        self.inbox = []
        self.spcr = self.spdr = 0
        self.spi_double = self.spif = self.wcol = False
        self.transfer = None                    # (end, byte)
        self.notes = set()
        self.free, self.byte_time = 0, byte_time
        self.expects, self.answers = "command", []

    # -- the timers' registers

    def word_of(self, at):
        """The timer, the register and whether it is the high byte."""
        for n, table in ((1, WORDS_1), (3, WORDS_3)):
            for low in (at, at - 1):
                if low in table:
                    return self.t[n], table[low], low != at
        return None

    def get_word(self, timer, reg, high):
        if reg in timer.compare:
            return timer.compare[reg] // 256 if high else timer.compare[reg] % 256
        if high:
            return timer.temp
        value = timer.count if reg == "count" else timer.icr
        timer.temp = value // 256
        return value % 256

    def put_word(self, timer, reg, high, x):
        if high:
            timer.temp = x
            return
        value = timer.temp * 256 + x
        if reg in timer.compare:
            timer.compare[reg] = value
        elif reg == "count":
            timer.count, timer.blocked = value, True
        elif timer.mode == 12:
            timer.icr = value

    def put_control_8(self, n, x):
        for mask, cause in ((0x80, "forced compare"), (0x40, "pwm mode"), (0x30, "compare output")):
            if x & mask:
                raise Stop(cause)
        if n == 2 and x & 7 >= 6:
            raise Stop("external timer clock")
        self.t[n].mode, self.t[n].select = (4 if x & 8 else 0), x & 7

    def put_control_a(self, t, x):
        if x & 0xFC:
            raise Stop("compare output")
        mode = t.mode & 12 | x & 3
        if mode not in (0, 4, 12):
            raise Stop("pwm mode")
        t.mode = mode

    def put_control_b(self, t, x):
        mode = (x >> 3 & 3) << 2 | t.mode & 3
        if mode not in (0, 4, 12):
            raise Stop("pwm mode")
        if x & 7 >= 6:
            raise Stop("external timer clock")
        t.mode, t.select, t.capture_bits = mode, x & 7, x & 0xC0

    # -- the USART's

    def bit_cycles(self):
        return (8 if self.double else 16) * (self.baud + 1)

    def data_bits(self):
        return 5 + (self.ucsr_c >> 1 & 3)

    def begin_frame(self, byte, cycle):
        bits = 1 + self.data_bits() + (2 if self.ucsr_c & 8 else 1)
        self.frame = (cycle + bits * self.bit_cycles(), byte % 2 ** self.data_bits())

    def put_udr(self, x):
        if not self.ucsr_b & 8:
            return
        if self.frame is None:
            self.begin_frame(x, self.cycle)
        elif self.waiting is None:
            self.waiting = x

    def get_udr(self):
        self.dor = False
        return self.inbox.pop(0) if self.inbox else 0

    def arrive(self, byte):
        if not self.ucsr_b & 0x10:
            return
        if len(self.inbox) == 2:
            self.dor = True
        else:
            self.inbox.append(byte % 2 ** self.data_bits())

    def tick_usart(self, cycle, arrival):
        if arrival is not None:
            self.arrive(arrival)
        if self.frame is None or self.frame[0] != cycle:
            return None
        byte, self.frame = self.frame[1], None
        if self.waiting is None:
            self.txc = True
        else:
            self.begin_frame(self.waiting, cycle)
            self.waiting = None
        return byte

    # -- the SPI's and the radio

    def touch_spdr(self):
        if "spif" in self.notes:
            self.spif = False
        if "wcol" in self.notes:
            self.wcol = False
        self.notes = set()

    def put_spdr(self, x):
        self.touch_spdr()
        if not self.spcr & 0x40:
            return
        if self.transfer is not None:
            self.wcol = True
            return
        divider = (4, 16, 64, 128)[self.spcr & 3] // (2 if self.spi_double else 1)
        self.transfer = (self.cycle + 8 * divider, x)

    def selected(self):
        return bool(self.kept.get(0x37, 0) & 1 and not self.kept.get(0x38, 0) & 1)

    def radio(self, cycle, byte):
        """The answer, the byte that is sent, and whether the air is sampled: a node alone hears nothing."""
        if not self.selected():
            self.expects, self.answers = "command", []
            return 0xFF, None, False
        if self.expects == "command":
            if byte == 1:
                self.expects = "byte"
            elif byte == 2:
                self.expects, self.answers = "asked", [0, 0, 0]
                return 0, None, True
            return 0, None, False
        if self.expects == "byte":
            self.expects = "command"
            if cycle < self.free:
                return 1, None, False
            self.free = cycle + self.byte_time
            return 0, byte, False
        answer = self.answers.pop(0)
        if not self.answers:
            self.expects = "command"
        return answer, None, False

    def end_transfer(self, cycle):
        """What is sent and whether the air is sampled, where a transfer ends."""
        if self.transfer is None or self.transfer[0] != cycle:
            return None, False
        byte, self.transfer = self.transfer[1], None
        self.spdr, sent, asks = self.radio(cycle, byte)
        self.spif = True
        return sent, asks

    # -- all registers

    def flag_byte(self, table):
        return sum(1 << n for n, (t, name) in table.items() if name in self.t[t].flags)

    def clear_flags(self, table, x):
        for n, (t, name) in table.items():
            if bit(x, n):
                self.t[t].flags.discard(name)

    def check(self, at):
        if at > 0x10FF:
            raise Stop("address past 0x10FF")
        if at < 0x100 and not (at in KEPT or at in NOTHING or at in PINS or at in GUARDED or self.word_of(at) or at in (
                0x29, 0x90, 0x2A, 0x2B, 0x2C, 0x95, 0x2D, 0x2E, 0x2F, 0x41, 0x43, 0x44, 0x45, 0x4E, 0x4F, 0x51, 0x52, 0x53, 0x54,
                0x55, 0x56, 0x7C, 0x8A, 0x8B)):
            raise Stop("reserved address")

    def get(self, at):
        self.check(at)
        if at in PINS:
            return self.kept.get(PINS[at], 0)
        w = self.word_of(at)
        if w:
            return self.get_word(*w)
        if at == 0x2E:
            self.notes = {n for n, on in (("spif", self.spif), ("wcol", self.wcol)) if on}
            return self.spif << 7 | self.wcol << 6 | self.spi_double
        if at == 0x2F:
            self.touch_spdr()
            return self.spdr
        if at == 0x2C:
            return self.get_udr()
        eight = {0x51: (0, "a"), 0x43: (2, "a"), 0x52: (0, "count"), 0x44: (2, "count"), 0x53: (0, "control"), 0x45: (2, "control")}
        if at in eight:
            t, reg = self.t[eight[at][0]], eight[at][1]
            return {"a": t.compare["a"], "count": t.count, "control": (8 if t.mode else 0) | t.select}[reg]
        for n, a, b in ((1, 0x4F, 0x4E), (3, 0x8B, 0x8A)):
            if at == a:
                return 0
            if at == b:
                return self.t[n].capture_bits | self.t[n].mode >> 2 << 3 | self.t[n].select
        return {0x29: lambda: self.baud % 256, 0x90: lambda: self.baud // 256, 0x2A: lambda: self.ucsr_b & 0xFD,
                0x2B: lambda: bool(self.inbox) << 7 | self.txc << 6 | (self.waiting is None) << 5 | self.dor << 3 | self.double << 1,
                0x95: lambda: self.ucsr_c, 0x2D: lambda: self.spcr, 0x41: lambda: 0, 0x56: lambda: self.flag_byte(TIFR),
                0x7C: lambda: self.flag_byte(ETIFR)}.get(at, lambda: self.kept.get(at, 0))()

    def put(self, at, x):
        self.check(at)
        w = self.word_of(at)
        if at in PINS or at in NOTHING:
            pass
        elif at in KEPT:
            self.kept[at] = x & KEPT[at]
        elif at in GUARDED:
            bits, cause, mask = GUARDED[at]
            if x & bits:
                raise Stop(cause)
            self.kept[at] = x & mask
        elif w:
            self.put_word(*w, x)
        elif at in (0x51, 0x43):
            self.t[0 if at == 0x51 else 2].compare["a"] = x
        elif at in (0x52, 0x44):
            t = self.t[0 if at == 0x52 else 2]
            t.count, t.blocked = x, True
        elif at in (0x53, 0x45):
            self.put_control_8(0 if at == 0x53 else 2, x)
        elif at in (0x4F, 0x8B):
            self.put_control_a(self.t[1 if at == 0x4F else 3], x)
        elif at in (0x4E, 0x8A):
            self.put_control_b(self.t[1 if at == 0x4E else 3], x)
        elif at in (0x56, 0x7C):
            self.clear_flags(TIFR if at == 0x56 else ETIFR, x)
        else:
            self.put_special(at, x)

    def put_special(self, at, x):
        if at == 0x29:
            self.baud = self.baud // 256 * 256 + x
        elif at == 0x90:
            self.baud = self.baud % 256 + x % 16 * 256
        elif at == 0x2A:
            if x & 4:
                raise Stop("usart mode")
            self.ucsr_b = x & 0xFD
            if not x & 0x10:
                self.inbox, self.dor = [], False
        elif at == 0x2B:
            if x & 1:
                raise Stop("usart mode")
            self.double = bool(x & 2)
            if x & 0x40:
                self.txc = False
        elif at == 0x2C:
            self.put_udr(x)
        elif at == 0x95:
            if x & 0x70:
                raise Stop("usart mode")
            self.ucsr_c = x & 0x0F
        elif at == 0x2D:
            if x & 0x40 and not x & 0x10:
                raise Stop("spi slave")
            self.spcr = x
            if not x & 0x40:
                self.transfer = None
        elif at == 0x2E:
            self.spi_double = bool(x & 1)
        elif at == 0x2F:
            self.put_spdr(x)
        elif at == 0x41:
            if x & 8 and not x & 0x10:
                raise Stop("watchdog enable")
        elif at == 0x54:
            self.kept[at] = x & 0x80 | self.kept[at] & x & 0x1F
        elif at == 0x55:
            if x & 0x80:
                raise Stop("external memory")
            if x & 2:
                raise Stop("moved vectors")
            self.kept[at] = x & 0x7C
        else:
            raise AssertionError(hex(at))

    # -- interrupts

    def asks(self):
        """The vectors that ask, each with what an entry clears."""
        timsk, etimsk = self.kept.get(0x57, 0), self.kept.get(0x7D, 0)
        out = {}
        for vector, n, flag, enabled in (
                (0x12, 2, "a", timsk & 0x80), (0x14, 2, "over", timsk & 0x40), (0x18, 1, "a", timsk & 0x10),
                (0x1A, 1, "b", timsk & 8), (0x1C, 1, "over", timsk & 4), (0x1E, 0, "a", timsk & 2), (0x20, 0, "over", timsk & 1),
                (0x30, 1, "c", etimsk & 1), (0x34, 3, "a", etimsk & 0x10), (0x36, 3, "b", etimsk & 8), (0x38, 3, "c", etimsk & 2),
                (0x3A, 3, "over", etimsk & 4)):
            if enabled and flag in self.t[n].flags:
                out[vector] = (n, flag)
        if self.spif and self.spcr & 0x80:
            out[0x22] = "spif"
        if self.inbox and self.ucsr_b & 0x80:
            out[0x24] = None
        if self.waiting is None and self.ucsr_b & 0x20:
            out[0x26] = None
        if self.txc and self.ucsr_b & 0x40:
            out[0x28] = "txc"
        return out

    def entered(self, what):
        if what == "spif":
            self.spif = False
        elif what == "txc":
            self.txc = False
        elif what is not None:
            self.t[what[0]].flags.discard(what[1])


class WholeBus:
    """The board and the SRAM."""

    def __init__(self, board):
        self.board, self.sram = board, {}

    def check(self, at):
        self.board.check(at)

    def get(self, at):
        self.check(at)
        return self.sram.get(at, 0) if at >= 0x100 else self.board.get(at)

    def put(self, at, byte):
        self.check(at)
        if at >= 0x100:
            self.sram[at] = byte
        else:
            self.board.put(at, byte)


# ---- a node

class Node:
    def __init__(self, flash, byte_time=3072, script=None):
        self.board = Board(byte_time)
        self.core = Core(WholeBus(self.board), flash)
        self.wait, self.asleep, self.owed, self.stopped = 0, False, False, False
        self.instructions = 0
        self.script = script or {}
        self.rows = []
        self.core.sleep = self.sleep

    def sleep(self):
        control = self.board.kept.get(0x55, 0)
        if control & 0x20:
            if control & 0x1C:
                raise Stop("sleep mode")
            self.asleep = True

    def due(self):
        asking = self.board.asks() if self.core.sreg & 0x80 else {}
        return min(asking) if asking else None

    def enter(self, vector, cycles):
        c = self.core
        self.row_of(f"enter {vector:04X} {c.pc:04X}", lambda: c.push_word(c.pc))
        c.sreg &= 0x7F
        c.pc = vector
        self.board.entered(self.board.asks_of[vector])
        self.wait, self.asleep = cycles - 1, False

    def row_of(self, text, act):
        act()
        self.row(text)

    def row(self, text):
        self.rows.append((self.board.cycle, text))

    def instruct(self):
        c = self.core
        at, on, c.owes = c.pc, c.sreg & 0x80, False
        first, second = c.flash_word(at), c.flash_word(at + 1)
        cycles = c.execute(first, second)
        self.row(f"instr {at:04X} {text_of(first, second)}")
        self.instructions += 1
        self.owed = bool(c.owes or (not on and c.sreg & 0x80))
        self.wait = cycles - 1

    def process(self):
        if self.wait:
            self.wait -= 1
            return
        vector = self.due()
        self.board.asks_of = self.board.asks()
        if self.asleep:
            if vector is not None:
                self.enter(vector, 8)
        elif vector is not None and not self.owed:
            self.enter(vector, 4)
        else:
            self.instruct()

    def step(self):
        b = self.board
        if not self.stopped:
            try:
                self.process()
            except Stop as stop:
                self.stopped = True
                self.row(f"stop {self.core.pc:04X} {stop.cause}")
            else:
                for t in b.t:
                    t.tick(b.cycle)
                serial = b.tick_usart(b.cycle, self.script.get(b.cycle))
                if serial is not None:
                    self.row(f"serial {serial:02X}")
                sent, asks = b.end_transfer(b.cycle)
                if sent is not None:
                    self.row(f"sent {sent:02X}")
                if asks:
                    self.row("heard 0 00 0")
        b.cycle += 1

    def trace(self, limit, window=20_000):
        for _ in range(limit):
            self.step()
        lines = [f"{cycle} 0 {text}" for cycle, text in self.rows if cycle < window or text.split()[0] not in ("instr", "enter")]
        state = "stopped" if self.stopped else "asleep" if self.asleep else "running"
        return lines + [f"{limit} 0 end {self.instructions} {state}"]


def flash_from(hex_text):
    """The flash of an Intel HEX file."""
    flash, base = bytearray(b"\xff" * 131072), 0
    for line in hex_text.split():
        data = bytes.fromhex(line[1:])
        count, at, kind = data[0], data[1] << 8 | data[2], data[3]
        if kind == 0:
            flash[base + at:base + at + count] = data[4:4 + count]
        elif kind in (2, 4):
            base = (data[4] << 8 | data[5]) * (16 if kind == 2 else 65536)
    return flash


def hex_of(words, at=0):
    """Intel HEX records of words from a word address on, and no end."""
    data = b"".join(w.to_bytes(2, "little") for w in words)
    out = []
    for i in range(0, len(data), 16):
        part = data[i:i + 16]
        record = bytes([len(part)]) + (at * 2 + i).to_bytes(2, "big") + b"\0" + part
        out.append(":" + (record + bytes([-sum(record) % 256])).hex().upper())
    return out
