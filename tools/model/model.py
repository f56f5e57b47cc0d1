#!/usr/bin/env python3
"""A second model of the machine of document 01, as document 02 changes it, and of its run program: reads a run file, prints what the run
program has to print."""
import sys

JOURNAL_BYTES = 65280     # document 01: 960 records of 68 bytes; document 02 [5] and [9] keep the bytes
M64 = (1 << 64) - 1
A, B, X, Y, U, S, PC, DP, CC = range(9)
fC, fV, fZ, fN, fI, fH, fF, fE = 1, 2, 4, 8, 16, 32, 64, 128


class Refuse(Exception):
    def __init__(self, code):
        self.code = code


# ---------------------------------------------------------------- flags
def nz8(cc, r):
    cc &= ~(fN | fZ) & 0xFF
    if r & 0x80:
        cc |= fN
    if r == 0:
        cc |= fZ
    return cc


def nz16(cc, r):
    cc &= ~(fN | fZ) & 0xFF
    if r & 0x8000:
        cc |= fN
    if r == 0:
        cc |= fZ
    return cc


def s8(v):
    return v - 256 if v & 0x80 else v


def s16(v):
    return v - 65536 if v & 0x8000 else v


def out8(v):
    return v < -128 or v > 127


def out16(v):
    return v < -32768 or v > 32767


def add8(cc, a, b, withc, manual):
    c = 1 if withc and cc & fC else 0
    t = a + b + c
    r = t & 0xFF
    if manual:
        v = out8(s8(a) + s8(b) + c)
    else:
        v = out8(s8(a) + c) or out8(s8((a + c) & 0xFF) + s8(b))
    cc = nz8(cc, r) & ~(fC | fV | fH)
    if t > 255:
        cc |= fC
    if v:
        cc |= fV
    if (a & 15) + (b & 15) + c > 15:
        cc |= fH
    return r, cc


def sub8(cc, a, b, withc, manual):
    c = 1 if withc and cc & fC else 0
    t = a - b - c
    r = t & 0xFF
    if manual:
        v = out8(s8(a) - s8(b) - c)
    else:
        v = out8(s8(a) - c) or out8(s8((a - c) & 0xFF) - s8(b))
    cc = nz8(cc, r) & ~(fC | fV)
    if t < 0:
        cc |= fC
    if v:
        cc |= fV
    return r, cc


def add16(cc, a, b):
    t = a + b
    r = t & 0xFFFF
    cc = nz16(cc, r) & ~(fC | fV)
    if t > 0xFFFF:
        cc |= fC
    if out16(s16(a) + s16(b)):
        cc |= fV
    return r, cc


def sub16(cc, a, b):
    t = a - b
    r = t & 0xFFFF
    cc = nz16(cc, r) & ~(fC | fV)
    if t < 0:
        cc |= fC
    if out16(s16(a) - s16(b)):
        cc |= fV
    return r, cc


# unary byte operations: value, cc, manual -> result (None = no store), cc
def u_neg(v, cc, man):
    r = -v & 0xFF
    cc = nz8(cc, r) & ~(fC | fV)
    if v:
        cc |= fC
    if v == 0x80:
        cc |= fV
    return r, cc


def u_com(v, cc, man):
    r = v ^ 0xFF
    return r, (nz8(cc, r) & ~fV) | fC


def u_lsr(v, cc, man):
    r = v >> 1
    return r, (nz8(cc, r) & ~fC) | (v & 1)


def u_ror(v, cc, man):
    r = (v >> 1) | (0x80 if cc & fC else 0)
    return r, (nz8(cc, r) & ~fC) | (v & 1)


def u_asr(v, cc, man):
    r = (v >> 1) | (v & 0x80)
    return r, (nz8(cc, r) & ~fC) | (v & 1)


def _shl(v, cc, low):
    r = ((v << 1) & 0xFF) | low
    cc = nz8(cc, r) & ~(fC | fV)
    if v & 0x80:
        cc |= fC
    if (v ^ r) & 0x80:
        cc |= fV
    return r, cc


def u_asl(v, cc, man):
    return _shl(v, cc, 0)


def u_rol(v, cc, man):
    return _shl(v, cc, cc & fC)


def u_dec(v, cc, man):
    r = (v - 1) & 0xFF
    cc = nz8(cc, r) & ~fV
    if v == (0x80 if man else 0x00):
        cc |= fV
    return r, cc


def u_inc(v, cc, man):
    r = (v + 1) & 0xFF
    cc = nz8(cc, r) & ~fV
    if v == (0x7F if man else 0xFF):
        cc |= fV
    return r, cc


def u_tst(v, cc, man):
    return None, nz8(cc, v) & ~fV


def u_clr(v, cc, man):
    return 0, (cc & ~(fN | fV | fC)) | fZ


UNARY = {0x0: ('NEG', u_neg), 0x3: ('COM', u_com), 0x4: ('LSR', u_lsr), 0x6: ('ROR', u_ror),
         0x7: ('ASR', u_asr), 0x8: ('ASL', u_asl), 0x9: ('ROL', u_rol), 0xA: ('DEC', u_dec),
         0xC: ('INC', u_inc), 0xD: ('TST', u_tst), 0xF: ('CLR', u_clr)}

# ---------------------------------------------------------------- the table
# entry: (name, mode, operand bytes, cycles, kind, arg)
INH, IMM1, IMM2, DIR, EXT, IDX, REL8, REL16 = 'inh imm1 imm2 dir ext idx rel8 rel16'.split()
TABLE = [[None] * 256 for _ in range(3)]


def put(page, op, name, mode, cyc, kind, arg=None):
    assert TABLE[page][op] is None, (page, hex(op))
    TABLE[page][op] = (name, mode, cyc, kind, arg)


def build():
    for lo, (n, f) in UNARY.items():
        put(0, 0x00 + lo, n, DIR, 6, 'unm', f)
        put(0, 0x60 + lo, n, IDX, 6, 'unm', f)
        put(0, 0x70 + lo, n, EXT, 7, 'unm', f)
        put(0, 0x40 + lo, n + 'A', INH, 2, 'unr', (A, f))
        put(0, 0x50 + lo, n + 'B', INH, 2, 'unr', (B, f))
    put(0, 0x0E, 'JMP', DIR, 3, 'jmp')
    put(0, 0x6E, 'JMP', IDX, 3, 'jmp')
    put(0, 0x7E, 'JMP', EXT, 4, 'jmp')
    put(0, 0x12, 'NOP', INH, 2, 'nop')
    put(0, 0x13, 'SYNC', INH, 4, 'sync')
    put(0, 0x16, 'LBRA', REL16, 5, 'bra', 0)
    put(0, 0x17, 'LBSR', REL16, 9, 'jsr')
    put(0, 0x19, 'DAA', INH, 2, 'daa')
    put(0, 0x1A, 'ORCC', IMM1, 3, 'orcc')
    put(0, 0x1C, 'ANDCC', IMM1, 3, 'andcc')
    put(0, 0x1D, 'SEX', INH, 2, 'sex')
    put(0, 0x1E, 'EXG', IMM1, 8, 'exg')
    put(0, 0x1F, 'TFR', IMM1, 6, 'tfr')
    names = 'RA RN HI LS CC CS NE EQ VC VS PL MI GE LT GT LE'.split()
    for i, n in enumerate(names):
        put(0, 0x20 + i, 'B' + n, REL8, 3, 'bra', i)
        if i:
            put(1, 0x20 + i, 'LB' + n, REL16, 5, 'bra', i)
    for i, n in enumerate('XYSU'):
        put(0, 0x30 + i, 'LEA' + n, IDX, 4, 'lea', {'X': X, 'Y': Y, 'S': S, 'U': U}[n])
    put(0, 0x34, 'PSHS', IMM1, 5, 'psh', S)
    put(0, 0x35, 'PULS', IMM1, 5, 'pul', S)
    put(0, 0x36, 'PSHU', IMM1, 5, 'psh', U)
    put(0, 0x37, 'PULU', IMM1, 5, 'pul', U)
    put(0, 0x39, 'RTS', INH, 5, 'rts')
    put(0, 0x3A, 'ABX', INH, 3, 'abx')
    put(0, 0x3B, 'RTI', INH, 6, 'rti')
    put(0, 0x3C, 'CWAI', IMM1, 20, 'cwai')
    put(0, 0x3D, 'MUL', INH, 11, 'mul')
    put(0, 0x3F, 'SWI', INH, 19, 'swi', (0xFFFA, 0x50))
    put(1, 0x3F, 'SWI2', INH, 20, 'swi', (0xFFF4, 0x00))
    put(2, 0x3F, 'SWI3', INH, 20, 'swi', (0xFFF2, 0x00))
    bins = {0: 'SUB', 1: 'CMP', 2: 'SBC', 4: 'AND', 5: 'BIT', 6: 'LD', 8: 'EOR', 9: 'ADC', 0xA: 'OR', 0xB: 'ADD'}
    c8 = {0x00: (IMM1, 2), 0x10: (DIR, 4), 0x20: (IDX, 4), 0x30: (EXT, 5)}
    for base, reg in ((0x80, A), (0xC0, B)):
        rn = 'AB'[reg]
        for off, (mode, cyc) in c8.items():
            for lo, n in bins.items():
                put(0, base + off + lo, n + rn, mode, cyc, 'bin8', (n, reg))
            if off:
                put(0, base + off + 7, 'ST' + rn, mode, cyc, 'st8', reg)
    # 16-bit: extra cycles by family
    D_ = 'D'
    for off, mode, c_ar, c_ld in ((0, IMM2, 4, 3), (0x10, DIR, 6, 5), (0x20, IDX, 6, 5), (0x30, EXT, 7, 6)):
        put(0, 0x83 + off, 'SUBD', mode, c_ar, 'ar16', ('SUB', D_))
        put(0, 0xC3 + off, 'ADDD', mode, c_ar, 'ar16', ('ADD', D_))
        put(0, 0x8C + off, 'CMPX', mode, c_ar, 'ar16', ('CMP', X))
        put(1, 0x83 + off, 'CMPD', mode, c_ar + 1, 'ar16', ('CMP', D_))
        put(1, 0x8C + off, 'CMPY', mode, c_ar + 1, 'ar16', ('CMP', Y))
        put(2, 0x83 + off, 'CMPU', mode, c_ar + 1, 'ar16', ('CMP', U))
        put(2, 0x8C + off, 'CMPS', mode, c_ar + 1, 'ar16', ('CMP', S))
        put(0, 0x8E + off, 'LDX', mode, c_ld, 'ld16', X)
        put(0, 0xCC + off, 'LDD', mode, c_ld, 'ld16', D_)
        put(0, 0xCE + off, 'LDU', mode, c_ld, 'ld16', U)
        put(1, 0x8E + off, 'LDY', mode, c_ld + 1, 'ld16', Y)
        put(1, 0xCE + off, 'LDS', mode, c_ld + 1, 'ld16', S)
        if off:
            put(0, 0x8F + off, 'STX', mode, c_ld, 'st16', X)
            put(0, 0xCD + off, 'STD', mode, c_ld, 'st16', D_)
            put(0, 0xCF + off, 'STU', mode, c_ld, 'st16', U)
            put(1, 0x8F + off, 'STY', mode, c_ld + 1, 'st16', Y)
            put(1, 0xCF + off, 'STS', mode, c_ld + 1, 'st16', S)
    put(0, 0x8D, 'BSR', REL8, 7, 'jsr')
    put(0, 0x9D, 'JSR', DIR, 7, 'jsr')
    put(0, 0xAD, 'JSR', IDX, 7, 'jsr')
    put(0, 0xBD, 'JSR', EXT, 8, 'jsr')


build()

COND = [
    lambda c: True, lambda c: False,
    lambda c: not c & (fC | fZ), lambda c: bool(c & (fC | fZ)),
    lambda c: not c & fC, lambda c: bool(c & fC),
    lambda c: not c & fZ, lambda c: bool(c & fZ),
    lambda c: not c & fV, lambda c: bool(c & fV),
    lambda c: not c & fN, lambda c: bool(c & fN),
    lambda c: bool(c & fN) == bool(c & fV), lambda c: bool(c & fN) != bool(c & fV),
    lambda c: not c & fZ and bool(c & fN) == bool(c & fV),
    lambda c: bool(c & fZ) or bool(c & fN) != bool(c & fV),
]

# cycles beyond the table's, by the post-byte (document 02, [3]): its low digit, bit 7 set; plain, then indirect. A five-bit offset is 1
EXTRA = {0x0: (2, None), 0x1: (3, 6), 0x2: (2, None), 0x3: (3, 6), 0x4: (0, 3), 0x5: (1, 4), 0x6: (1, 4), 0x8: (1, 4), 0x9: (4, 7),
         0xB: (4, 7), 0xC: (1, 4), 0xD: (5, 8), 0xF: (None, 5)}

CODES = {0: 'D', 1: X, 2: Y, 3: U, 4: S, 5: PC, 8: A, 9: B, 10: CC, 11: DP}


class Machine:
    def __init__(self, mem, ram_top, manual, stats=None):
        self.mem = mem
        self.ram_top = ram_top
        self.man = manual
        self.ranges = [(0, 0xFFFF)]  # document 02 [14]: the profile, as first and last; all allowed
        self.r = [0, 0, 0, 0, 0, 0, 0, 0, 0x50]
        self.wait = 0
        self.armed = False     # document 02 [5]: S has been loaded, so that NMI is let in
        self.cycles = 0
        self.instrs = 0
        self.journal = []
        self.used = 0          # document 02 [9]: bytes of the journal in use
        self.room = JOURNAL_BYTES
        self.dev = []          # device writes reported by the last call
        self.taken = []        # document 02 [11]: the addresses read by the last call, a byte each
        self.laid = []         # and the bytes that it wrote, with their addresses, stored or not
        self.stats = stats

    # ---- memory
    def rd(self, a):
        self.taken.append(a)
        return self.mem[a - 0x4000 if a >= 0xFFE0 else a]

    def rdw(self, a):
        """data word (not a program word): at FFFF its low byte is at 0000 (document 02, [8])"""
        return self.rd(a) << 8 | self.rd((a + 1) & 0xFFFF)

    def place(self, a, system):
        """-> place to store at, or None (ignored) or 'dev'"""
        if a <= 0xFEFF:
            return a if a <= self.ram_top or system else None
        if a >= 0xFFE0:
            return a - 0x4000 if a <= self.ram_top or system else None
        if a <= 0xFF3F or a >= 0xFFC0:
            return 'dev'
        return None

    def apply(self, writes, system):
        """-> stored [(place, old)], device [(addr, byte)]; 28, and nothing is stored, if a place lies outside the profile (document 02, [14])"""
        for a, _ in writes:
            p = self.place(a, system)
            if p not in (None, 'dev') and not any(first <= p <= last for first, last in self.ranges):
                raise Refuse(28)
        stored = []
        dev = []
        mem = self.mem
        self.laid += writes
        for a, v in writes:
            p = self.place(a, system)
            if p is None:
                continue
            if p == 'dev':
                dev.append((a, v))
            else:
                stored.append((p, mem[p]))
                mem[p] = v
        return stored, dev

    def revert(self, stored):
        for p, o in reversed(stored):
            self.mem[p] = o

    # ---- journal
    @staticmethod
    def record_length(stored):
        """document 02 [9]: 33 bytes up to the count, three for each entry, and the length"""
        return 34 + 3 * len(stored)

    def record(self, regs, wait, cycles, instrs, stored):
        """the last thing that can refuse: this call's own record does not fit"""
        assert len(stored) <= 12
        if self.used + self.record_length(stored) > self.room:
            self.revert(stored)
            raise Refuse(10)
        self.used += self.record_length(stored)
        self.journal.append((regs, wait, cycles, instrs, stored, self.armed))

    @staticmethod
    def record_bytes(rec):
        regs, wait, cycles, instrs, stored, armed = rec
        b = bytes([regs[A], regs[B]])
        for i in (X, Y, U, S, PC):
            b += regs[i].to_bytes(2, 'big')
        b += bytes([regs[DP], regs[CC], wait, armed]) + cycles.to_bytes(8, 'big') + instrs.to_bytes(8, 'big')
        b += bytes([len(stored)])
        for p, o in stored:
            b += p.to_bytes(2, 'big') + bytes([o])
        return b + bytes([len(b) + 1])

    # ---- frames
    @staticmethod
    def frame(r, entire):
        """bytes to be pushed on S, in stored order; r[CC] already has E right. Lowers r[S]."""
        n = 12 if entire else 3
        if r[S] < n:
            raise Refuse(8)
        w = []
        s = r[S]

        def word(v):
            nonlocal s
            s -= 2
            w.append((s, v >> 8))
            w.append((s + 1, v & 0xFF))

        def byte(v):
            nonlocal s
            s -= 1
            w.append((s, v))
        word(r[PC])
        if entire:
            word(r[U])
            word(r[Y])
            word(r[X])
            byte(r[DP])
            byte(r[B])
            byte(r[A])
        byte(r[CC])
        r[S] = s
        return w

    def vector(self, vec, stored):
        """vector and its byte after stacking; reverts on 9"""
        t = self.rd(vec) << 8 | self.rd(vec + 1)
        if self.rd(t) == 0:
            self.revert(stored)
            raise Refuse(9)
        return t

    # ---- calls
    def op(self, n):
        self.dev = []
        self.taken = []
        self.laid = []
        try:
            if n == 0:
                self.step()
            elif n <= 3:
                self.interrupt(n)
            elif n == 4:
                self.reset()
            else:
                self.undo()
            ans = 0
        except Refuse as e:
            ans = e.code
            self.taken = []    # a refused call reports neither
            self.laid = []
        if self.stats is not None:
            self.stats.note_op(n, ans)
        return ans

    def run(self, allowance, stop=None):
        """document 02 [12] -> (reason, number, device writes, bytes read, bytes written), the reason by its name"""
        reads = writes = 0
        while allowance:
            allowance -= 1
            number = self.op(0)
            reads = (reads + len(self.taken)) & M64
            writes = (writes + len(self.laid)) & M64
            if number:
                return 'refused', number, [], reads, writes
            if self.wait:
                return 'waits', 0, self.dev, reads, writes
            if self.r[PC] == stop:
                return 'stop', 0, self.dev, reads, writes
            if self.dev:
                return 'device', 0, self.dev, reads, writes
        return 'allowance', 0, [], reads, writes

    def undo(self):
        if not self.journal:
            raise Refuse(11)
        regs, wait, cycles, instrs, stored, armed = self.journal.pop()
        self.used -= self.record_length(stored)
        self.revert(stored)
        self.r = list(regs)
        self.wait = wait
        self.armed = armed
        self.cycles = cycles
        self.instrs = instrs

    def reset(self):
        self.record(tuple(self.r), self.wait, self.cycles, self.instrs, [])
        self.r = [0, 0, 0, 0, 0, 0, self.rd(0xFFFE) << 8 | self.rd(0xFFFF), 0, 0x50]
        self.wait = 0
        self.armed = False

    def interrupt(self, n):
        old = tuple(self.r)
        vec, ormask, cmask = {1: (0xFFF8, 0x10, fI), 2: (0xFFF6, 0x50, fF), 3: (0xFFFC, 0x50, 0)}[n]
        if n == 3 and not self.armed and self.stats is not None:
            self.stats.note_held(self.wait)
        if self.r[CC] & cmask or (n == 3 and not self.armed):
            self.record(old, self.wait, self.cycles, self.instrs, [])
            if self.wait == 2:
                self.wait = 0
            return
        r = list(self.r)
        stored, dev = [], []
        if self.wait != 1:
            entire = n != 2
            r[CC] = r[CC] | fE if entire else r[CC] & ~fE
            w = self.frame(r, entire)
            stored, dev = self.apply(w, True)
        r[CC] |= ormask
        r[PC] = self.vector(vec, stored)
        self.record(old, self.wait, self.cycles, self.instrs, stored)
        self.r = r
        self.wait = 0
        self.dev = dev

    def step(self):
        if self.wait:
            raise Refuse(2)
        old = tuple(self.r)
        r = list(old)
        pc = r[PC]
        rd = self.rd
        # opcode bytes
        op = rd(pc)
        n = pc + 1
        page = 0
        if op == 0x10 or op == 0x11:
            page = op - 0x0F
            if n > 0xFFFF:
                raise Refuse(4)
            op = rd(n)
            n += 1
        e = TABLE[page][op]
        if e is None:
            raise Refuse(3)
        name, mode, cyc, kind, arg = e
        ea = None
        imm = None
        pb = None
        extra = 0
        if mode == INH:
            pass
        elif mode == IMM1 or mode == REL8 or mode == DIR:
            if n > 0xFFFF:
                raise Refuse(4)
            imm = rd(n)
            n += 1
            if mode == DIR:
                ea = r[DP] << 8 | imm
            elif mode == REL8:
                ea = (n + s8(imm)) & 0xFFFF
        elif mode == IMM2 or mode == EXT or mode == REL16:
            if n + 1 > 0xFFFF:
                raise Refuse(4)
            imm = rd(n) << 8 | rd(n + 1)
            n += 2
            if mode == EXT:
                ea = imm
            elif mode == REL16:
                ea = (n + imm) & 0xFFFF
        else:
            if n > 0xFFFF:
                raise Refuse(4)
            pb = rd(n)
            n += 1
            ir = (X, Y, U, S)[pb >> 5 & 3]
            if not pb & 0x80:
                off = pb & 0x1F
                if off & 0x10:
                    off -= 32
                ea = (r[ir] + off) & 0xFFFF
                extra = 1
            else:
                low = pb & 0x0F
                ind = pb & 0x10
                if low in (7, 10, 14) or (ind and low in (0, 2)):
                    raise Refuse(5)
                # document 02 [2]: of low form 8F only 9F is in the manual; in 5's place, before any offset byte
                if low == 15 and pb != 0x9F:
                    raise Refuse(24)
                v = r[ir]
                if low == 0:
                    ea = v
                    r[ir] = (v + 1) & 0xFFFF
                elif low == 1:
                    ea = v
                    r[ir] = (v + 2) & 0xFFFF
                elif low == 2:
                    ea = r[ir] = (v - 1) & 0xFFFF
                elif low == 3:
                    ea = r[ir] = (v - 2) & 0xFFFF
                elif low == 4:
                    ea = v
                elif low == 5:
                    ea = (v + s8(r[B])) & 0xFFFF
                elif low == 6:
                    ea = (v + s8(r[A])) & 0xFFFF
                elif low == 11:
                    ea = (v + (r[A] << 8 | r[B])) & 0xFFFF
                elif low == 8 or low == 12:
                    if n > 0xFFFF:
                        raise Refuse(4)
                    off = s8(rd(n))
                    n += 1
                    ea = ((v if low == 8 else n) + off) & 0xFFFF
                else:  # 9, 13, 15
                    if n + 1 > 0xFFFF:
                        raise Refuse(4)
                    off = rd(n) << 8 | rd(n + 1)
                    n += 2
                    ea = ((v if low == 9 else n if low == 13 else 0) + off) & 0xFFFF
                if ind:
                    ea = self.rdw(ea)
                extra = EXTRA[low][1 if ind else 0]
        if n > 0xFFFF:
            raise Refuse(4)
        r[PC] = n
        man = self.man
        cc = r[CC]
        w = []
        wait = 0
        arms = False
        system = False
        stored = dev = None

        if kind == 'bin8':
            o, reg = arg
            v = imm if mode == IMM1 else rd(ea)
            a = r[reg]
            if o == 'LD':
                r[reg] = v
                r[CC] = nz8(cc, v) & ~fV
            elif o == 'ADD' or o == 'ADC':
                r[reg], r[CC] = add8(cc, a, v, o == 'ADC', man)
            elif o == 'SUB' or o == 'SBC':
                r[reg], r[CC] = sub8(cc, a, v, o == 'SBC', man)
            elif o == 'CMP':
                r[CC] = sub8(cc, a, v, False, man)[1]
            else:
                res = a | v if o == 'OR' else a ^ v if o == 'EOR' else a & v
                r[CC] = nz8(cc, res) & ~fV
                if o != 'BIT':
                    r[reg] = res
        elif kind == 'unm':
            res, r[CC] = arg(rd(ea), cc, man)
            if res is not None:
                w.append((ea, res))
        elif kind == 'unr':
            reg, f = arg
            res, r[CC] = f(r[reg], cc, man)
            if res is not None:
                r[reg] = res
        elif kind == 'st8':
            w.append((ea, r[arg]))
            r[CC] = nz8(cc, r[arg]) & ~fV
        elif kind == 'ar16' or kind == 'ld16':
            v = imm if mode == IMM2 else self.rdw(ea)
            if kind == 'ld16':
                r[CC] = nz16(cc, v) & ~fV
                self.setw(r, arg, v)
                arms = arg == S
            else:
                o, reg = arg
                a = self.getw(r, reg)
                res, r[CC] = (add16 if o == 'ADD' else sub16)(cc, a, v)
                if o != 'CMP':
                    self.setw(r, reg, res)
        elif kind == 'st16':
            v = self.getw(r, arg)
            w.append((ea, v >> 8))
            w.append(((ea + 1) & 0xFFFF, v & 0xFF))
            r[CC] = nz16(cc, v) & ~fV
        elif kind == 'jmp':
            r[PC] = ea
        elif kind == 'bra':
            if COND[arg](cc):
                r[PC] = ea
                if mode == REL16 and arg:
                    extra = 1
        elif kind == 'jsr':
            if r[S] < 2:
                raise Refuse(8)
            r[S] -= 2
            w.append((r[S], n >> 8))
            w.append((r[S] + 1, n & 0xFF))
            r[PC] = ea
        elif kind == 'lea':
            r[arg] = ea
            arms = arg == S
            if arg == X or arg == Y:
                r[CC] = cc | fZ if ea == 0 else cc & ~fZ
        elif kind == 'nop':
            pass
        elif kind == 'sync':
            wait = 2
        elif kind == 'daa':
            a = r[A]
            cf = 0
            if cc & fH or a & 15 > 9:
                cf |= 6
            if cc & fC or a >> 4 > 9 or (a >> 4 > 8 and a & 15 > 9):
                cf |= 0x60
            t = a + cf
            r[A] = t & 0xFF
            r[CC] = nz8(cc, t & 0xFF)
            if t > 0xFF:
                r[CC] |= fC
        elif kind == 'orcc':
            r[CC] = cc | imm
        elif kind == 'andcc':
            r[CC] = cc & imm
        elif kind == 'sex':
            r[A] = 0xFF if r[B] & 0x80 else 0
            r[CC] = nz16(cc, r[A] << 8 | r[B])
        elif kind == 'exg' or kind == 'tfr':
            hi, lo = imm >> 4, imm & 15
            if hi not in CODES or lo not in CODES or (hi ^ lo) & 8:
                raise Refuse(7)
            hi, lo = CODES[hi], CODES[lo]
            v1, v2 = self.getw(r, hi), self.getw(r, lo)
            self.setw(r, lo, v1)
            arms = lo == S
            if kind == 'exg':
                self.setw(r, hi, v2)
                arms = S in (hi, lo)
        elif kind == 'psh':
            other = U if arg == S else S
            cnt = bin(imm).count('1') + bin(imm & 0xF0).count('1')
            p = r[arg]
            if p < cnt:
                raise Refuse(8)
            for bit, reg in ((7, PC), (6, other), (5, Y), (4, X), (3, DP), (2, B), (1, A), (0, CC)):
                if imm >> bit & 1:
                    if bit >= 4:
                        p -= 2
                        w.append((p, r[reg] >> 8))
                        w.append((p + 1, r[reg] & 0xFF))
                    else:
                        p -= 1
                        w.append((p, r[reg]))
            r[arg] = p
            extra = cnt
        elif kind == 'pul':
            other = U if arg == S else S
            self.pull(r, arg, imm, other)
            arms = arg == U and bool(imm & 0x40)
            extra = bin(imm).count('1') + bin(imm & 0xF0).count('1')
        elif kind == 'rts':
            self.pull(r, S, 0x80, U)
        elif kind == 'rti':
            self.pull(r, S, 0x01, U)
            if r[CC] & fE:
                extra = 9
            self.pull(r, S, 0xFE if r[CC] & fE else 0x80, U)
        elif kind == 'abx':
            r[X] = (r[X] + r[B]) & 0xFFFF
        elif kind == 'mul':
            d = r[A] * r[B]
            r[A], r[B] = d >> 8, d & 0xFF
            cc &= ~(fZ | fC)
            if d == 0:
                cc |= fZ
            if d & 0x80:
                cc |= fC
            r[CC] = cc
        elif kind == 'cwai':
            r[CC] = (cc & imm) | fE
            w = self.frame(r, True)
            system = True
            wait = 1
        elif kind == 'swi':
            vec, ormask = arg
            r[CC] = cc | fE
            w = self.frame(r, True)
            stored, dev = self.apply(w, True)
            r[CC] |= ormask
            r[PC] = self.vector(vec, stored)
        else:
            raise AssertionError(kind)
        if stored is None:
            stored, dev = self.apply(w, system)
        self.record(old, self.wait, self.cycles, self.instrs, stored)
        self.r = r
        self.wait = wait
        self.armed = self.armed or arms
        self.cycles = (self.cycles + cyc + extra) & M64
        self.instrs = (self.instrs + 1) & M64
        self.dev = dev
        st = self.stats
        if st is not None:
            st.note_exec(page, op, pb)

    def pull(self, r, ptr, mask, other):
        p = r[ptr]
        for bit, reg in ((0, CC), (1, A), (2, B), (3, DP), (4, X), (5, Y), (6, other), (7, PC)):
            if mask >> bit & 1:
                if bit < 4:
                    r[reg] = self.rd(p)
                    p = (p + 1) & 0xFFFF
                else:
                    r[reg] = self.rdw(p)
                    p = (p + 2) & 0xFFFF
        r[ptr] = p

    @staticmethod
    def getw(r, reg):
        return r[A] << 8 | r[B] if reg == 'D' else r[reg]

    @staticmethod
    def setw(r, reg, v):
        if reg == 'D':
            r[A], r[B] = v >> 8, v & 0xFF
        else:
            r[reg] = v


# ---------------------------------------------------------------- run program
def parse(data):
    """-> (ram_top, manual, mem, ops) or None"""
    if len(data) > 32768:
        return None
    n = len(data)

    def w(i):
        return data[i] << 8 | data[i + 1]
    if n < 2:
        return None
    c = w(0)
    if c not in (2, 3) or n < 2 + c:
        return None
    ram_top = w(2)
    manual = 1  # document 02 [6]: a file that names no flags means the manual
    if c == 3:
        manual = data[4]
        if manual > 1:
            return None
    i = 2 + c
    if n < i + 2:
        return None
    pieces = w(i)
    i += 2
    mem = bytearray(65536)
    for _ in range(pieces):
        if n < i + 4:
            return None
        a, ln = w(i), w(i + 2)
        i += 4
        if n < i + ln or a + ln > 0x10000:
            return None
        mem[a:a + ln] = data[i:i + ln]
        i += ln
    if n < i + 2:
        return None
    k = w(i)
    i += 2
    if n != i + k:
        return None
    ops = data[i:]
    if any(o > 5 for o in ops):
        return None
    return ram_top, bool(manual), mem, ops


def line(ans, m):
    return '%d %04X %02X %d\n' % (ans, m.r[PC], m.r[CC], m.cycles)


def run(data, stats=None):
    p = parse(data)
    if p is None:
        if stats is not None:
            stats.note_op('file', 16)
        return b'16\n'
    ram_top, manual, mem, ops = p
    m = Machine(mem, ram_top, manual, stats)
    out = []
    for o in ops:
        ans = m.op(o)
        out.append(line(ans, m))
    return ''.join(out).encode()


if __name__ == '__main__':
    sys.stdout.buffer.write(run(sys.stdin.buffer.read()))
