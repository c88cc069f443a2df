"""One node: an ATmega128 with a byte radio, cycle by cycle, as docs/MACHINE.md and docs/AIR.md have it.

It is written from these documents and the Instruction Set Manual alone, shares nothing with the crates, and is made
to be read, not to be fast. In each cycle the processor does its part, then each device does its own.
"""
from devices import Radio, Spi, Stop, Timer, Usart
from instructions import decode
from registers import CAUSES, ETIFR, KEPT, PARTLY_KEPT, PINS, READ_ZERO, TIFR, TIMER_VECTORS, TIMERS8, TIMERS16
from states import SavedNode

SRAM_FIRST, SRAM_LAST = 0x100, 0x10FF
C, Z, N, V, S, H, T, I = range(8)
POINTERS = {"x": 26, "y": 28, "z": 30}


class Node:
    """A node at reset. `flash` is 131,072 bytes, `script` has the byte that arrives in a cycle; rows go into `rows`."""

    def __init__(self, number, flash, script, window, byte_time, rows):
        self.number, self.flash, self.script, self.window, self.rows = number, flash, script, window, rows
        self.reg, self.sram = [0] * 32, bytearray(SRAM_LAST + 1)
        self.sreg = self.sp = self.pc = self.rampz = 0
        self.wait, self.owed, self.asleep, self.stopped, self.count = 0, False, False, False, 0
        self.io = dict(KEPT) | {a: start for a, (_, start, _) in PARTLY_KEPT.items()} | {0x54: 0x01, 0x55: 0}
        self.timers = {0: Timer(8, (1, 8, 32, 64, 128, 256, 1024)), 2: Timer(8, (1, 8, 64, 256, 1024))}
        self.timers |= {n: Timer(16, (1, 8, 64, 256, 1024)) for n in (1, 3)}
        self.usart, self.spi, self.radio = Usart(), Spi(), Radio(byte_time)
        self.now, self.rests, self.cause = 0, False, None

    # ---- a cycle

    def tick(self, now, hear):
        """Cycle `now`; `hear(number, cycle)` is what a sample hears. The byte that is sent in it, or None."""
        if self.stopped or (self.rests and now not in self.script):
            return None
        self.now = now
        self.processor()
        if self.stopped:
            return None
        for timer in self.timers.values():
            if timer.control & 7:
                timer.tick(now)
        arrived = self.script.get(now)
        if arrived is not None:
            self.usart.arrive(arrived)
        byte = self.usart.tick(now)
        if byte is not None:
            self.row(f"serial {byte:02X}")
        sent = self.transfer(hear) if self.spi.ends_at(now) else None
        self.rests = self.asleep and not self.wait and self.is_quiet()
        return sent

    def is_quiet(self):
        """Whether nothing happens any more before a byte arrives, while the node sleeps."""
        running = any(timer.control & 7 for timer in self.timers.values())
        busy = running or self.usart.frame is not None or self.spi.end is not None
        return not busy and (not self.sreg >> I & 1 or self.due() is None)

    def transfer(self, hear):
        selected = self.io[0x37] & 1 == 1 and self.io[0x38] & 1 == 0
        answer, sent, samples = self.radio.transfer(self.now, selected, self.spi.out)
        self.spi.finish(answer)
        if samples:
            heard = hear(self.number, self.now)
            self.radio.heard(heard)
            self.row("heard %d %02X %d" % heard)
        if sent is not None:
            self.row(f"sent {sent:02X}")
        return sent

    def processor(self):
        if self.wait > 0:
            self.wait -= 1
            return
        due = self.due() if self.sreg >> I & 1 else None
        if self.asleep:
            if due is not None:
                self.enter(due, 8)
        elif due is not None and not self.owed:
            self.enter(due, 4)
        else:
            self.instruction()

    def row(self, text):
        self.rows.append((self.now, self.number, text))

    def in_window(self):
        return self.window[0] <= self.now < self.window[1]

    def stop(self, pc, cause):
        self.stopped, self.cause = True, cause
        self.row(f"stop {pc:04X} {cause}")

    def lines(self):
        """The vectors whose source asks now."""
        for vector, register, bit, number, flag in TIMER_VECTORS:
            if self.io[register] >> bit & 1 and self.timers[number].flags[flag]:
                yield vector
        if self.spi.control >> 7 & self.spi.spif:
            yield 0x22
        b = self.usart.b
        if b >> 7 & 1 and self.usart.received:
            yield 0x24
        if b >> 5 & 1 and self.usart.waiting is None:
            yield 0x26
        if b >> 6 & 1 and self.usart.txc:
            yield 0x28

    def due(self):
        return min(self.lines(), default=None)

    def enter(self, vector, cycles):
        pc = self.pc
        try:
            self.push(pc & 0xFF)
            self.push(pc >> 8)
        except Stop as stop:
            self.stop(pc, stop.cause)
            return
        self.asleep = False
        self.set_flag(I, 0)
        self.pc = vector
        for at, _, _, number, flag in TIMER_VECTORS:
            if at == vector:
                self.timers[number].flags[flag] = 0
        if vector == 0x22:
            self.spi.spif = 0
        if vector == 0x28:
            self.usart.txc = 0
        self.wait = cycles - 1
        if self.in_window():
            self.row(f"enter {vector:04X} {pc:04X}")

    def word(self, at):
        at = 2 * (at & 0xFFFF)
        return self.flash[at] | self.flash[at + 1] << 8

    def instruction(self):
        pc, before = self.pc, self.sreg >> I & 1
        op = decode(self.word(pc))
        self.second = self.word(pc + 1)
        self.next = pc + op.width & 0xFFFF
        self.sleeps = False
        try:
            cycles = getattr(self, "do_" + op.name)(op)
        except Stop as stop:
            self.stop(pc, stop.cause)
            return
        self.pc = self.next
        self.asleep = self.sleeps
        self.wait = cycles - 1
        self.count += 1
        self.owed = op.name == "reti" or (op.name == "bset" and op.s == I) or (not before and self.sreg >> I & 1 == 1)
        if self.in_window():
            self.row(f"instr {pc:04X} {op.text_with(self.second)}")

    def last_row(self, limit):
        state = "stopped" if self.stopped else "asleep" if self.asleep else "running"
        return (limit, self.number, f"end {self.count} {state}")

    # ---- states

    def in_order(self):
        """The timers as a state has them, each with how many numbers it has."""
        return ((self.timers[0], 6), (self.timers[2], 6), (self.timers[1], 13), (self.timers[3], 13))

    def saved(self):
        stop = CAUSES.index(self.cause) + 1 if self.stopped else 0
        core = self.reg + [self.sreg, self.sp, self.pc, self.rampz, self.wait, int(self.owed), int(self.asleep), stop, self.count]
        timers = [number for timer, _ in self.in_order() for number in timer.numbers()]
        ports = self.usart.numbers() + self.spi.numbers() + self.radio.numbers()
        io = bytes(self.io.get(at, 0) for at in range(0x20, 0x100))
        return SavedNode(core, timers, ports, io, bytes(self.sram[SRAM_FIRST:]))

    def restore(self, saved):
        self.reg = list(saved.core[:32])
        self.sreg, self.sp, self.pc, self.rampz, self.wait, owed, asleep, stop, self.count = saved.core[32:]
        self.owed, self.asleep, self.stopped = bool(owed), bool(asleep), bool(stop)
        self.cause = CAUSES[stop - 1] if stop else None
        place = 0
        for timer, count in self.in_order():
            timer.restore(saved.timers[place : place + count])
            place += count
        self.usart.restore(saved.ports[:14])
        self.spi.restore(saved.ports[14:24])
        self.radio.restore(saved.ports[24:])
        self.io = {at: saved.io[at - 0x20] for at in self.io}
        self.sram[SRAM_FIRST:] = saved.sram

    # ---- the data space

    def get(self, a):
        if a < 0x20:
            return self.reg[a]
        if SRAM_FIRST <= a <= SRAM_LAST:
            return self.sram[a]
        if a > SRAM_LAST:
            raise Stop("address past 0x10FF")
        core = {0x5B: self.rampz, 0x5D: self.sp & 0xFF, 0x5E: self.sp >> 8, 0x5F: self.sreg}
        return core[a] if a in core else self.get_io(a)

    def put(self, a, byte):
        if a < 0x20:
            self.reg[a] = byte
        elif SRAM_FIRST <= a <= SRAM_LAST:
            self.sram[a] = byte
        elif a > SRAM_LAST:
            raise Stop("address past 0x10FF")
        elif a == 0x5B:
            self.rampz = byte & 1
        elif a == 0x5D:
            self.sp = self.sp & 0xFF00 | byte
        elif a == 0x5E:
            self.sp = self.sp & 0xFF | byte << 8
        elif a == 0x5F:
            self.sreg = byte
        else:
            self.put_io(a, byte)

    def get_io(self, a):
        if a in PINS:
            return self.io[PINS[a]]
        if a in READ_ZERO or a == 0x41:
            return 0
        if a in TIMERS8:
            number, name = TIMERS8[a]
            return self.timers[number].get8(name)
        if a in TIMERS16:
            number, name, half = TIMERS16[a]
            return self.timers[number].get16(name, half)
        if a in (0x56, 0x7C):
            flags = TIFR if a == 0x56 else ETIFR
            return sum(self.timers[number].flags[flag] << bit for bit, (number, flag) in enumerate(flags))
        if a in self.io:
            return self.io[a]
        if a in Usart.REGISTERS:
            return self.usart.get(Usart.REGISTERS[a])
        if a in Spi.REGISTERS:
            return self.spi.get(Spi.REGISTERS[a])
        raise Stop("reserved address")

    def put_io(self, a, byte):
        if a in PINS or a in READ_ZERO:
            return
        if a == 0x41:
            if byte & 0x18 == 0x08:
                raise Stop("watchdog enable")
        elif a in TIMERS8:
            number, name = TIMERS8[a]
            self.timers[number].put8(name, byte)
        elif a in TIMERS16:
            number, name, half = TIMERS16[a]
            self.timers[number].put16(name, half, byte)
        elif a in (0x56, 0x7C):
            for bit, (number, flag) in enumerate(TIFR if a == 0x56 else ETIFR):
                if byte >> bit & 1:
                    self.timers[number].flags[flag] = 0
        elif a == 0x54:
            self.io[a] = byte & 0x80 | self.io[a] & byte & 0x1F
        elif a == 0x55:
            if byte & 0x80:
                raise Stop("external memory")
            if byte & 0x02:
                raise Stop("moved vectors")
            self.io[a] = byte & 0x7C
        elif a in PARTLY_KEPT:
            bits, _, stop = PARTLY_KEPT[a]
            if stop and byte & stop[0]:
                raise Stop(stop[1])
            self.io[a] = byte & bits
        elif a in KEPT:
            self.io[a] = byte
        elif a in Usart.REGISTERS:
            self.usart.put(Usart.REGISTERS[a], byte, self.now)
        elif a in Spi.REGISTERS:
            self.spi.put(Spi.REGISTERS[a], byte, self.now)
        else:
            raise Stop("reserved address")

    def push(self, byte):
        at = self.sp
        self.put(at, byte)
        self.sp = at - 1 & 0xFFFF

    def pop(self):
        before, self.sp = self.sp, self.sp + 1 & 0xFFFF
        try:
            return self.get(self.sp)
        except Stop:
            self.sp = before
            raise

    def pair(self, low):
        return self.reg[low] | self.reg[low + 1] << 8

    def set_pair(self, low, value):
        self.reg[low], self.reg[low + 1] = value & 0xFF, value >> 8 & 0xFF

    # ---- the flags

    def flag(self, bit):
        return self.sreg >> bit & 1

    def set_flag(self, bit, value):
        self.sreg = self.sreg & ~(1 << bit) | bool(value) << bit

    def result_flags(self, top, v):
        """N, V and S of a result with this top bit."""
        self.set_flag(N, top)
        self.set_flag(V, v)
        self.set_flag(S, bool(top) != bool(v))

    def logic(self, value):
        self.result_flags(value >> 7, 0)
        self.set_flag(Z, value == 0)
        return value

    def added(self, a, b, carry):
        total = a + b + carry
        self.set_flag(C, total > 255)
        self.set_flag(H, (a & 15) + (b & 15) + carry > 15)
        self.result_flags(total >> 7 & 1, not -128 <= signed(a) + signed(b) + carry <= 127)
        self.set_flag(Z, total & 0xFF == 0)
        return total & 0xFF

    def subtracted(self, a, b, borrow=0, keeps_z=False):
        value = a - b - borrow & 0xFF
        self.set_flag(C, a < b + borrow)
        self.set_flag(H, (a & 15) < (b & 15) + borrow)
        self.result_flags(value >> 7, not -128 <= signed(a) - signed(b) - borrow <= 127)
        self.set_flag(Z, value == 0 and (not keeps_z or self.flag(Z)))
        return value

    def shifted(self, a, top):
        value = a >> 1 | top << 7
        self.set_flag(C, a & 1)
        self.result_flags(top, top != a & 1)
        self.set_flag(Z, value == 0)
        return value

    def multiplied(self, product, fractional=False):
        product &= 0xFFFF
        self.set_flag(C, product >> 15)
        if fractional:
            product = product << 1 & 0xFFFF
        self.set_flag(Z, product == 0)
        self.set_pair(0, product)
        return 2

    # ---- the instructions: each gives its cycles

    def do_reserved(self, op):
        raise Stop("reserved opcode")

    def do_undefined(self, op):
        raise Stop("undefined operands")

    def do_spm(self, op):
        raise Stop("spm")

    def do_break_(self, op):
        raise Stop("break")

    def do_nop(self, op):
        return 1

    do_wdr = do_nop

    def do_sleep(self, op):
        control = self.io[0x55]
        if control & 0x20:
            if control & 0x1C:
                raise Stop("sleep mode")
            self.sleeps = True
        return 1

    def do_movw(self, op):
        self.set_pair(op.d, self.pair(op.r))
        return 1

    def do_mov(self, op):
        self.reg[op.d] = self.reg[op.r]
        return 1

    def do_ldi(self, op):
        self.reg[op.d] = op.K
        return 1

    def do_mul(self, op):
        return self.multiplied(self.reg[op.d] * self.reg[op.r])

    def do_muls(self, op):
        return self.multiplied(signed(self.reg[op.d]) * signed(self.reg[op.r]))

    def do_mulsu(self, op):
        return self.multiplied(signed(self.reg[op.d]) * self.reg[op.r])

    def do_fmul(self, op):
        return self.multiplied(self.reg[op.d] * self.reg[op.r], True)

    def do_fmuls(self, op):
        return self.multiplied(signed(self.reg[op.d]) * signed(self.reg[op.r]), True)

    def do_fmulsu(self, op):
        return self.multiplied(signed(self.reg[op.d]) * self.reg[op.r], True)

    def do_add(self, op):
        self.reg[op.d] = self.added(self.reg[op.d], self.reg[op.r], 0)
        return 1

    def do_adc(self, op):
        self.reg[op.d] = self.added(self.reg[op.d], self.reg[op.r], self.flag(C))
        return 1

    def do_cp(self, op):
        self.subtracted(self.reg[op.d], self.reg[op.r])
        return 1

    def do_cpc(self, op):
        self.subtracted(self.reg[op.d], self.reg[op.r], self.flag(C), True)
        return 1

    def do_cpi(self, op):
        self.subtracted(self.reg[op.d], op.K)
        return 1

    def do_sub(self, op):
        self.reg[op.d] = self.subtracted(self.reg[op.d], self.reg[op.r])
        return 1

    def do_sbc(self, op):
        self.reg[op.d] = self.subtracted(self.reg[op.d], self.reg[op.r], self.flag(C), True)
        return 1

    def do_subi(self, op):
        self.reg[op.d] = self.subtracted(self.reg[op.d], op.K)
        return 1

    def do_sbci(self, op):
        self.reg[op.d] = self.subtracted(self.reg[op.d], op.K, self.flag(C), True)
        return 1

    def do_neg(self, op):
        self.reg[op.d] = self.subtracted(0, self.reg[op.d])
        return 1

    def do_and_(self, op):
        self.reg[op.d] = self.logic(self.reg[op.d] & self.reg[op.r])
        return 1

    def do_or_(self, op):
        self.reg[op.d] = self.logic(self.reg[op.d] | self.reg[op.r])
        return 1

    def do_eor(self, op):
        self.reg[op.d] = self.logic(self.reg[op.d] ^ self.reg[op.r])
        return 1

    def do_andi(self, op):
        self.reg[op.d] = self.logic(self.reg[op.d] & op.K)
        return 1

    def do_ori(self, op):
        self.reg[op.d] = self.logic(self.reg[op.d] | op.K)
        return 1

    def do_com(self, op):
        self.reg[op.d] = self.logic(255 - self.reg[op.d])
        self.set_flag(C, 1)
        return 1

    def do_inc(self, op):
        value = self.logic(self.reg[op.d] + 1 & 0xFF)
        self.result_flags(value >> 7, value == 0x80)
        self.reg[op.d] = value
        return 1

    def do_dec(self, op):
        value = self.logic(self.reg[op.d] - 1 & 0xFF)
        self.result_flags(value >> 7, value == 0x7F)
        self.reg[op.d] = value
        return 1

    def do_swap(self, op):
        self.reg[op.d] = self.reg[op.d] >> 4 | self.reg[op.d] << 4 & 0xF0
        return 1

    def do_asr(self, op):
        self.reg[op.d] = self.shifted(self.reg[op.d], self.reg[op.d] >> 7)
        return 1

    def do_lsr(self, op):
        self.reg[op.d] = self.shifted(self.reg[op.d], 0)
        return 1

    def do_ror(self, op):
        self.reg[op.d] = self.shifted(self.reg[op.d], self.flag(C))
        return 1

    def do_adiw(self, op):
        a = self.pair(op.d)
        total = a + op.K
        self.set_flag(C, total > 0xFFFF)
        self.result_flags(total >> 15 & 1, signed16(a) + op.K > 0x7FFF)
        self.set_flag(Z, total & 0xFFFF == 0)
        self.set_pair(op.d, total & 0xFFFF)
        return 2

    def do_sbiw(self, op):
        a = self.pair(op.d)
        value = a - op.K & 0xFFFF
        self.set_flag(C, a < op.K)
        self.result_flags(value >> 15, signed16(a) - op.K < -0x8000)
        self.set_flag(Z, value == 0)
        self.set_pair(op.d, value)
        return 2

    def do_bset(self, op):
        self.set_flag(op.s, 1)
        return 1

    def do_bclr(self, op):
        self.set_flag(op.s, 0)
        return 1

    def do_bst(self, op):
        self.set_flag(T, self.reg[op.d] >> op.b & 1)
        return 1

    def do_bld(self, op):
        self.reg[op.d] = self.reg[op.d] & ~(1 << op.b) | self.flag(T) << op.b
        return 1

    # loads and stores

    def load(self, op, address):
        self.reg[op.d] = self.get(address & 0xFFFF)
        return 2

    def store(self, op, address):
        self.put(address & 0xFFFF, self.reg[op.r])
        return 2

    def do_lds(self, op):
        return self.load(op, self.second)

    def do_sts(self, op):
        return self.store(op, self.second)

    def do_ldd_z(self, op):
        return self.load(op, self.pair(30) + op.q)

    def do_ldd_y(self, op):
        return self.load(op, self.pair(28) + op.q)

    def do_std_z(self, op):
        return self.store(op, self.pair(30) + op.q)

    def do_std_y(self, op):
        return self.store(op, self.pair(28) + op.q)

    def do_ld_x(self, op):
        return self.load(op, self.pair(26))

    def do_st_x(self, op):
        return self.store(op, self.pair(26))

    def load_then_add(self, op, low):
        address = self.pair(low)
        byte = self.get(address)
        self.set_pair(low, address + 1)
        self.reg[op.d] = byte
        return 2

    def subtract_then_load(self, op, low):
        old = self.pair(low)
        self.set_pair(low, old - 1)
        try:
            byte = self.get(self.pair(low))
        except Stop:
            self.set_pair(low, old)
            raise
        self.reg[op.d] = byte
        return 2

    def store_then_add(self, op, low):
        address = self.pair(low)
        self.put(address, self.reg[op.r])
        self.set_pair(low, address + 1)
        return 2

    def subtract_then_store(self, op, low):
        address = self.pair(low) - 1 & 0xFFFF
        byte, old = self.reg[op.r], self.pair(low)
        self.set_pair(low, address)
        try:
            self.put(address, byte)
        except Stop:
            self.set_pair(low, old)
            raise
        return 2

    def do_ld_x_inc(self, op):
        return self.load_then_add(op, 26)

    def do_ld_y_inc(self, op):
        return self.load_then_add(op, 28)

    def do_ld_z_inc(self, op):
        return self.load_then_add(op, 30)

    def do_ld_x_dec(self, op):
        return self.subtract_then_load(op, 26)

    def do_ld_y_dec(self, op):
        return self.subtract_then_load(op, 28)

    def do_ld_z_dec(self, op):
        return self.subtract_then_load(op, 30)

    def do_st_x_inc(self, op):
        return self.store_then_add(op, 26)

    def do_st_y_inc(self, op):
        return self.store_then_add(op, 28)

    def do_st_z_inc(self, op):
        return self.store_then_add(op, 30)

    def do_st_x_dec(self, op):
        return self.subtract_then_store(op, 26)

    def do_st_y_dec(self, op):
        return self.subtract_then_store(op, 28)

    def do_st_z_dec(self, op):
        return self.subtract_then_store(op, 30)

    def do_push(self, op):
        self.push(self.reg[op.r])
        return 2

    def do_pop(self, op):
        self.reg[op.d] = self.pop()
        return 2

    def do_in_(self, op):
        self.reg[op.d] = self.get(op.A + 0x20)
        return 1

    def do_out(self, op):
        self.put(op.A + 0x20, self.reg[op.r])
        return 1

    def do_sbi(self, op):
        self.put(op.A + 0x20, self.get(op.A + 0x20) | 1 << op.b)
        return 2

    def do_cbi(self, op):
        self.put(op.A + 0x20, self.get(op.A + 0x20) & ~(1 << op.b))
        return 2

    # program memory

    def do_lpm(self, op):
        self.reg[0] = self.flash[self.pair(30)]
        return 3

    def do_lpm_z(self, op):
        self.reg[op.d] = self.flash[self.pair(30)]
        return 3

    def do_lpm_z_inc(self, op):
        self.reg[op.d] = self.flash[self.pair(30)]
        self.set_pair(30, self.pair(30) + 1)
        return 3

    def far(self):
        return self.rampz << 16 | self.pair(30)

    def do_elpm(self, op):
        self.reg[0] = self.flash[self.far()]
        return 3

    def do_elpm_z(self, op):
        self.reg[op.d] = self.flash[self.far()]
        return 3

    def do_elpm_z_inc(self, op):
        self.reg[op.d] = self.flash[self.far()]
        after = (self.far() + 1) % 131072
        self.rampz = after >> 16
        self.set_pair(30, after & 0xFFFF)
        return 3

    # the flow

    def skip(self, holds):
        if not holds:
            return 1
        over = decode(self.word(self.next)).width
        self.next = self.next + over & 0xFFFF
        return 1 + over

    def do_cpse(self, op):
        return self.skip(self.reg[op.d] == self.reg[op.r])

    def do_sbrc(self, op):
        return self.skip(not self.reg[op.r] >> op.b & 1)

    def do_sbrs(self, op):
        return self.skip(self.reg[op.r] >> op.b & 1)

    def do_sbic(self, op):
        return self.skip(not self.get(op.A + 0x20) >> op.b & 1)

    def do_sbis(self, op):
        return self.skip(self.get(op.A + 0x20) >> op.b & 1)

    def jump(self, k):
        self.next = self.next + k & 0xFFFF

    def do_brbs(self, op):
        if not self.flag(op.s):
            return 1
        self.jump(op.k)
        return 2

    def do_brbc(self, op):
        if self.flag(op.s):
            return 1
        self.jump(op.k)
        return 2

    def do_rjmp(self, op):
        self.jump(op.k)
        return 2

    def do_jmp(self, op):
        self.next = self.second
        return 3

    def do_ijmp(self, op):
        self.next = self.pair(30)
        return 2

    def push_return(self):
        self.push(self.next & 0xFF)
        self.push(self.next >> 8)

    def do_rcall(self, op):
        self.push_return()
        self.jump(op.k)
        return 3

    def do_call(self, op):
        self.push_return()
        self.next = self.second
        return 4

    def do_icall(self, op):
        self.push_return()
        self.next = self.pair(30)
        return 3

    def do_ret(self, op):
        high = self.pop()
        self.next = high << 8 | self.pop()
        return 4

    def do_reti(self, op):
        self.do_ret(op)
        self.set_flag(I, 1)
        return 4


def signed(byte):
    return byte - 256 if byte > 127 else byte


def signed16(word):
    return word - 65536 if word > 32767 else word
