#!/usr/bin/env python3
"""Compares random run files, played by the built run program and by the model beside this file (README.md).

    tools/model/fuzz.py [--seed N] [--time SECONDS] [--cmd COMMAND]

COMMAND reads a run file from standard input; left out, it is crates/run/out/run, after `rt run` in crates/run.
"""
import sys, os, random, time, subprocess, argparse
from collections import Counter
sys.path.insert(0, os.path.dirname(os.path.abspath(__file__)))
import model
from model import TABLE, Machine, run, parse, INH, IMM1, IMM2, DIR, EXT, IDX, REL8, REL16

EDGES = [0, 1, 2, 3, 4, 5, 0xA, 0xB, 0xC, 0xD, 0xE, 0xFF, 0x100, 0x7FFD, 0x7FFE, 0x7FFF, 0x8000, 0x8001, 0x800C,
         0xBFDF, 0xBFE0, 0xBFE7, 0xBFE8, 0xBFF0, 0xBFF2, 0xBFF8, 0xBFFC, 0xBFFE, 0xBFFF, 0xC000, 0xC001, 0xC00C,
         0xFEF0, 0xFEFD, 0xFEFE, 0xFEFF, 0xFF00, 0xFF01, 0xFF06, 0xFF0C, 0xFF3E, 0xFF3F, 0xFF40, 0xFF41, 0xFF4C,
         0xFFBE, 0xFFBF, 0xFFC0, 0xFFC1, 0xFFC6, 0xFFDD, 0xFFDE, 0xFFDF, 0xFFE0, 0xFFE1, 0xFFE6, 0xFFE7, 0xFFE8,
         0xFFEC, 0xFFF0, 0xFFF2, 0xFFF4, 0xFFF6, 0xFFF8, 0xFFFA, 0xFFFB, 0xFFFC, 0xFFFD, 0xFFFE, 0xFFFF]
BEDGES = [0, 1, 2, 0x0F, 0x10, 0x7E, 0x7F, 0x80, 0x81, 0x99, 0x9A, 0xF0, 0xFE, 0xFF]
RAMTOPS = [0, 0x7FFF, 0x7FFF, 0xBFFF, 0xFFE7, 0xFFFF, 0xFFFF, 0xFEFF, 0xFEFE, 0xFFDF, 0xFFE0, 0xFFFE, 0xBFF7, 0xC000]
DOC = [(p, o) for p in range(3) for o in range(256) if TABLE[p][o]]


class Stats:
    def __init__(self):
        self.exec = Counter()
        self.pb = Counter()
        self.ans = Counter()
        self.held = Counter()

    def note_op(self, n, a):
        self.ans[(n, a)] += 1

    def note_held(self, wait):
        self.held[('running', 'CWAI', 'SYNC')[wait]] += 1

    def note_exec(self, page, op, pb):
        self.exec[(page, op)] += 1
        if pb is not None:
            self.pb[pb] += 1


def w2(v):
    return bytes([v >> 8 & 0xFF, v & 0xFF])


def byte(rng):
    return rng.choice(BEDGES) if rng.random() < 0.45 else rng.randrange(256)


def word(rng, code=()):
    x = rng.random()
    if x < 0.45:
        return (rng.choice(EDGES) + (rng.randrange(-3, 4) if rng.random() < 0.3 else 0)) & 0xFFFF
    if code and x < 0.7:
        a, n = rng.choice(code)
        return (a + rng.randrange(n)) & 0xFFFF
    return rng.randrange(65536)


def instr(rng, at, code, opc=None, wild=0.03):
    """bytes of one instruction to stand at `at`"""
    if opc is None:
        x = rng.random()
        if x < wild:
            return bytes(rng.randrange(256) for _ in range(rng.randrange(1, 4)))
        if x < 0.12:
            opc = rng.choice([(0, 0x8E), (0, 0xCE), (1, 0x8E), (1, 0xCE), (0, 0xCC), (0, 0x1F), (0, 0x1C), (0, 0x34),
                              (0, 0x35), (0, 0x36), (0, 0x37), (0, 0x1A), (0, 0x86), (0, 0xC6), (0, 0x19)])
        else:
            opc = rng.choice(DOC)
    page, op = opc
    name, mode, cyc, kind, arg = TABLE[page][op]
    b = (b'', b'\x10', b'\x11')[page] + bytes([op])
    if mode == INH:
        return b
    if mode == IMM1:
        if kind in ('tfr', 'exg'):
            if rng.random() < 0.85:
                s = (0, 1, 2, 3, 4, 5) if rng.random() < 0.5 else (8, 9, 10, 11)
                return b + bytes([rng.choice(s) << 4 | rng.choice(s)])
            return b + bytes([rng.randrange(256)])
        if kind in ('andcc', 'cwai') and rng.random() < 0.6:
            return b + bytes([rng.choice([0xEF, 0xBF, 0xAF, 0xFF, 0x00, 0xFE, 0x7F])])
        if kind in ('psh', 'pul'):
            x = rng.random()
            if x < 0.3:
                return b + bytes([1 << rng.randrange(8)])
            return b + bytes([rng.randrange(256) if x < .75 else rng.randrange(128)])
        return b + bytes([byte(rng)])
    if mode == DIR:
        return b + bytes([byte(rng)])
    if mode == IMM2:
        return b + w2(word(rng, code))
    if mode == EXT:
        if kind in ('jmp', 'jsr') and code and rng.random() < 0.8:
            a, n = rng.choice(code)
            return b + w2((a + rng.randrange(n)) & 0xFFFF)
        return b + w2(word(rng, code))
    if mode == REL8:
        x = rng.random()
        return b + bytes([(rng.randrange(0, 12) if x < .6 else rng.randrange(-30, 30) if x < .9 else rng.randrange(256)) & 0xFF])
    if mode == REL16:
        x = rng.random()
        if x < .5:
            return b + w2(rng.randrange(0, 20))
        t = word(rng, code)
        return b + w2((t - (at + len(b) + 2)) & 0xFFFF)
    # indexed
    pb = rng.randrange(256)
    if rng.random() < 0.3:
        while pb & 0x80 and (pb & 15 in (7, 10, 14) or (pb & 16 and pb & 15 in (0, 2)) or (pb & 15 == 15 and pb != 0x9F)):
            pb = rng.randrange(256)
    b += bytes([pb])
    if pb & 0x80:
        lo = pb & 15
        if lo in (8, 12):
            b += bytes([byte(rng)])
        elif lo in (9, 15):
            b += w2(word(rng, code))
        elif lo == 13:
            t = word(rng, code)
            b += w2((t - (at + len(b) + 2)) & 0xFFFF)
    return b


def codeblob(rng, at, n, code, wild=0.03):
    out = bytearray()
    while len(out) < n:
        out += instr(rng, at + len(out), code, wild=wild)
    return bytes(out[:n])


def settings(rng):
    rt = rng.choice(RAMTOPS) if rng.random() < 0.8 else rng.randrange(65536)
    x = rng.random()
    if x < 0.15:
        return w2(2) + w2(rt), rt, True
    man = x < 0.6
    return w2(3) + w2(rt) + bytes([1 if man else 0]), rt, man


def pack(sett, pieces, ops):
    out = [sett, w2(len(pieces))]
    for a, b in pieces:
        assert a + len(b) <= 0x10000
        out += [w2(a), w2(len(b)), b]
    out += [w2(len(ops)), bytes(ops)]
    return b''.join(out)


def load(pieces):
    mem = bytearray(65536)
    for a, b in pieces:
        mem[a:a + len(b)] = b
    return mem


def datapieces(rng):
    out = []
    for a, n in ((0, 0x40), (0x7FE0, 0x40), (0xBFD0, 0x22), (0xFEE0, 0x60), (0xFF38, 0x10), (0xFFB8, 0x10), (0xFFD0, 0x10)):
        if rng.random() < 0.6:
            out.append((a, bytes(byte(rng) for _ in range(n))))
    return out


def vectors(rng, targets, wild=0.2):
    """14 bytes for BFF2-BFFF"""
    b = b''
    for _ in range(7):
        x = rng.random()
        if x < wild * 0.6:
            b += w2(word(rng))
        elif x < wild:
            b += w2(rng.randrange(65536))
        else:
            b += w2(rng.choice(targets)())
    return b


def tfrdump():
    b = bytes([0x1F, 0x8A, 0x1F, 0x9A, 0x1F, 0xBA])
    for c in (1, 2, 3, 4):
        b += bytes([0x1F, c << 4, 0x1F, 0x8A, 0x1F, 0x9A])
    return b


def memdump(rng, places):
    b = b''
    prev = None
    for p in sorted(places):
        if prev is None or p != prev + 1:
            b += b'\xCE' + w2(p)
        b += b'\x37\x01'
        prev = p
    return b


def adaptive(rng, m, n, lo_stop=None, und=0.05, touched=None):
    """choose n operations while running m"""
    ops = []
    last = 0
    while len(ops) < n:
        x = rng.random()
        if last not in (0, 2):
            # stuck: get out
            if last == 10:
                if x < .5:
                    k = rng.choice([1, 2, 3, 5, 20])
                    seq = [5] * k
                else:
                    seq = [rng.randrange(6)]
            elif x < .45:
                seq = [5] * rng.choice([1, 1, 2, 3, 4])
            elif x < .85:
                seq = [rng.choice([1, 2, 3, 3])]
            else:
                seq = [rng.choice([4, 0, 4])]
        elif m.wait:
            seq = [rng.choice([0, 1, 2, 3, 5, 1, 2, 3, 1, 2, 3, 4 if x < .3 else 1])]
        elif x < 0.88 - und:
            seq = [0]
        elif x < 0.88:
            seq = [5] * rng.choice([1, 1, 1, 2, 3, 6])
        elif x < 0.98:
            seq = [rng.choice([1, 2, 3])]
        else:
            seq = [4]
        for o in seq:
            if len(ops) >= n:
                break
            jl = len(m.journal)
            last = m.op(o)
            ops.append(o)
            if touched is not None and last == 0 and len(m.journal) > jl:
                for p, _ in m.journal[-1][4]:
                    touched[p] = None
                for a, _ in m.dev:
                    touched[a] = None
    return ops


def gen_soup(rng, big=False):
    sett, rt, man = settings(rng)
    blobs = []
    starts = [0, 0x1000, 0x4000, 0x7F80, 0xBF00, 0xC000, 0xE000, 0xFE80, 0xFEF0, 0xFF20, 0xFF90, 0xFFC0, 0x7FF0, 0xBFC0]
    for _ in range(rng.randrange(1, 5)):
        a = rng.choice(starts) if rng.random() < 0.7 else rng.randrange(65536)
        n = rng.choice([16, 64, 200, 600, 1500])
        n = min(n, 0x10000 - a)
        blobs.append((a, n))
    if rng.random() < 0.5:
        blobs.append((0xBFE0, 0x20))
    wild = rng.choice([0, 0.01, 0.05, 0.3])
    pieces = datapieces(rng) if rng.random() < 0.6 else []
    pieces += [(a, codeblob(rng, a, n, blobs, wild)) for a, n in blobs]

    def t():
        a, n = rng.choice(blobs)
        return (a + (0 if rng.random() < .5 else rng.randrange(n))) & 0xFFFF

    pieces.append((0xBFF2, vectors(rng, [t])))
    H = rng.choice([0x3000, 0x6000, 0xD000, 0xF000])
    obs = rng.random() < 0.6
    if obs and rng.random() < .8:
        pieces.append((0xBFFC, w2(H)))
    if obs and rng.random() < .3:
        pieces.append((0xBFFE, w2(H)))
    n = rng.randrange(20, 400) if not big else rng.randrange(1000, 2200)
    touched = {}
    m = Machine(load(pieces + [(H, b'\x12')]), rt, man)
    ops = [4] if rng.random() < 0.8 else []
    for o in ops:
        m.op(o)
    ops = ops + adaptive(rng, m, n, und=rng.choice([0, 0.02, 0.05, 0.2]), touched=touched)
    tail = []
    if rng.random() < .3:
        tail += [5] * rng.randrange(1, len(ops) + 3)
    if obs:
        pl = list(touched)
        if rng.random() < .5:
            pl = pl[-24:]
        else:
            rng.shuffle(pl)
            pl = pl[:24]
        ob = tfrdump() + memdump(rng, pl) + b'\x20\xFE'
        pieces.append((H, ob))
        if big and not tail:
            tail += [5] * 100
        tail += [rng.choice([3, 3, 4])] + [0] * (len(ob) // 2)
    return pack(sett, pieces, ops + tail)


def setup(rng, code, nxt=None, pp=None, cc=None):
    b = b''
    if pp is not None:
        b += b'\x8E' + w2(nxt) + b'\xBF' + w2(pp)
    b += b'\x86' + bytes([byte(rng)]) + b'\x1F\x8B'
    parts = [b'\x10\xCE' + w2(word(rng, code)), b'\xCE' + w2(word(rng, code)),
             b'\x10\x8E' + w2(word(rng, code)), b'\x8E' + w2(word(rng, code)),
             b'\xCC' + bytes([byte(rng), byte(rng)])]
    rng.shuffle(parts)
    b += b''.join(parts)
    x = rng.randrange(256) if cc is None else cc
    b += b'\x1C\x00\x1A' + bytes([x])
    return b


def gen_direct(rng):
    sett, rt, man = settings(rng)
    chain = rt >= 0x2FFF
    T = rng.randrange(2, 7) if chain else 1
    pp = 0x2F00
    base = rng.choice([0x1000, 0xC100, 0xD000])
    H = rng.choice([0x3000, 0xE000])
    code = [(base, 200), (0x2000, 0x200), (H, 40)]
    pieces = datapieces(rng)
    if rng.random() < .5:
        pieces.append((0x2000, bytes(byte(rng) for _ in range(0x100))))
    slots = [base + 0x80 * k for k in range(T + 1)]
    targets = []
    for k in range(T):
        opc = rng.choice(DOC) if rng.random() < 0.97 else None
        x = rng.random()
        if x < 0.35:
            t = slots[k] + 0x40
        elif x < 0.7:
            t = rng.choice([0, 0x7FFD, 0x7FFE, 0x7FFF, 0xFEFC, 0xFEFD, 0xFEFE, 0xFEFF, 0xFF00, 0xFF3F, 0xFFBF, 0xFFDC, 0xFFDD,
                            0xFFDE, 0xFFDF, 0xFFE0, 0xFFE8, 0xFFF0, 0xFFF8, 0xFFFA, 0xFFFB, 0xFFFB, 0xFFFC, 0xFFFC,
                            0xFFFD, 0xFFFD, 0xFFFE, 0xFFFE, 0xFFFF, 0xFFFF])
        elif x < .85:
            t = rng.randrange(0x10000)
        else:
            t = word(rng)
        if rng.random() < .25:
            lst = [instr(rng, t, code, opc)]
            for _ in range(rng.randrange(3)):
                lst.append(instr(rng, t, code))
            ins = b''.join(lst)
        else:
            ins = instr(rng, t, code, opc)
        sc = setup(rng, code, slots[k + 1] if chain else None, pp if chain else None) + b'\x7E' + w2(t)
        pieces.append((slots[k], sc))
        # inline observer after the instruction
        body = ins + tfrdump() + (b'\x6E\x9F' + w2(pp) if chain else b'\x20\xFE')
        # place by the map: bytes at FFE0.. stand 4000 lower
        lo = body[:max(0, 0xFFE0 - t)] if t < 0xFFE0 else b''
        hi = body[len(lo):][:0x10000 - (t + len(lo))]
        if t < 0xFFE0:
            keep = lo if (t + len(lo) < 0xFFE0) else lo
            pieces.append((t, keep))
            if hi and rng.random() < .9:
                pieces.append((0xBFE0, hi[:len(ins) - len(lo) if len(ins) > len(lo) else 0]))
        else:
            pieces.append((t - 0x4000, ins[:0x10000 - t]))
        targets.append((t, len(ins)))
    pieces.append((slots[T], b'\x12\x20\xFD'))
    # vectors: NMI to H, reset to slot 0; the others random; keep instruction bytes that lie there
    v = bytearray(vectors(rng, [lambda: H, lambda: 0x2000 + rng.randrange(64), lambda: slots[0]]))
    vecs = {0xBFFC: H, 0xBFFE: slots[0]}
    vp = []
    m0 = load(pieces)
    for i in range(14):
        a = 0xBFF2 + i
        if m0[a] == 0 or rng.random() < .1:
            vp.append((a, bytes([v[i]])))
    if m0[0xBFFC] == 0 and m0[0xBFFD] == 0:
        vp.append((0xBFFC, w2(H)))
    vp.append((0xBFFE, w2(slots[0])))
    pieces += vp
    end = b'\x6E\x9F' + w2(pp) if chain else b'\x20\xFE'

    touched = {}

    def drive(pieces, rng2, touched, obslen):
        m = Machine(load(pieces), rt, man)
        ops = []

        def do(o):
            jl = len(m.journal)
            a = m.op(o)
            ops.append(o)
            if a == 0 and touched is not None and len(m.journal) > jl:
                for p, _ in m.journal[-1][4]:
                    touched[p] = None
                for d, _ in m.dev:
                    touched[d] = None
            return a
        do(4)
        for k in range(T):
            t, ln = targets[k]
            c = 0
            while m.r[6] != t and c < 14:
                if do(0):
                    break
                c += 1
            a = do(0)
            x = rng2.random()
            if a:
                if x < .5:
                    do(rng2.choice([1, 2, 3]))
                elif x < .6:
                    do(5)
            elif x < .35:
                do(5)
                if rng2.random() < .5:
                    do(0)
            elif x < .6:
                do(rng2.choice([1, 2]))
                if rng2.random() < .3:
                    do(5)
            elif x < .7:
                do(0)
            # observe
            x = rng2.random()
            if m.wait or x < .5:
                if do(3):
                    # NMI refused: undo out of it, or reset
                    for _ in range(rng2.randrange(1, 4)):
                        do(5)
                    do(3)
            for _ in range(obslen):
                if slots[k + 1] == m.r[6]:
                    break
                if do(0):
                    if do(3):
                        break
        if rng2.random() < .3:
            for _ in range(rng2.randrange(1, len(ops))):
                do(5)
            do(rng2.choice([3, 4, 3]))
            for _ in range(30):
                do(0)
        return ops
    st = rng.getstate()
    h1 = tfrdump() + end
    drive(pieces + [(H, h1)], rng, touched, 22)
    rng.setstate(st)
    pl = list(touched)
    pl = [p for p in pl if not pp <= p < pp + 2]
    rng2 = random.Random(rng.randrange(1 << 30))
    rng2.shuffle(pl)
    h2 = tfrdump() + memdump(rng2, pl[:20]) + end
    pieces = pieces + [(H, h2)]
    ops = drive(pieces, rng2, None, 60)
    return pack(sett, pieces, ops)


def gen_arith(rng):
    """straight line of arithmetic with edge bytes"""
    sett, rt, man = settings(rng)
    out = bytearray()
    ks = ('bin8', 'unr', 'ar16', 'daa', 'mul', 'sex', 'abx')
    pool = [(p, o) for p, o in DOC if TABLE[p][o][3] in ks and TABLE[p][o][1] in (INH, IMM1, IMM2)]
    n = 0
    while n < 300:
        x = rng.random()
        if x < .3:
            out += bytes([0x1C, 0x00, 0x1A, rng.randrange(256)])
            n += 2
        if x < .6:
            out += bytes([0xCC, byte(rng), byte(rng)])
            out += bytes([0x1A, rng.choice([1, 0x21, 0x20, 0x10, 2])]) if rng.random() < .6 else b''
            n += 2
        p, o = rng.choice(pool)
        i = instr(rng, 0, (), (p, o))
        if TABLE[p][o][1] == IMM2 and rng.random() < .5:
            i = i[:-2] + bytes([byte(rng), byte(rng)])
        out += i
        out += bytes([0x1F, 0x8A, 0x1F, 0x9A]) if rng.random() < .3 else b''
        n += 2
    ops = [4] + [0] * 380
    for _ in range(rng.randrange(6)):
        i = rng.randrange(1, len(ops))
        ops[i:i] = [5] * rng.randrange(1, 4)
    a = rng.choice([0x1000, 0xC000])
    return pack(sett, [(a, bytes(out)), (0xBFFE, w2(a))], ops)


def gen_loop(rng):
    """more operations than the journal holds"""
    sett, rt, man = settings(rng)
    a = rng.choice([0x1000, 0xC000, 0x0000])
    body = b''
    for _ in range(rng.randrange(2, 8)):
        body += rng.choice([b'\x4C', b'\x5A', b'\x30\x01', b'\xA7\x80', b'\xED\x81', b'\x34\x06', b'\x35\x06', b'\x7C\x20\x00', b'\x0C\x10',
                            b'\x19', b'\x8B\x77', b'\x3D', b'\x1C\x00', b'\x1A\x50', b'\x3F', b'\x10\x3F', b'\x36\xFF', b'\x8D\x00', b'\x13', b'\x3C\x00'])
    if a:
        su = setup(rng, [(a, 20)], cc=rng.choice([0, 0x50]))
    else:
        su = b''
    code = su + body
    code += b'\x16' + w2((-(len(body) + 3)) & 0xFFFF)
    H = 0x5000
    pieces = [(a, code), (H, rng.choice([b'\x3B', b'\x12\x3B', b'\x7C\x20\x01\x3B', b'\x39'])), (0xBFF2, w2(H) * 6 + w2(a))]
    m = Machine(load(pieces), rt, man)
    ops = [4]
    m.op(4)
    ops += adaptive(rng, m, rng.choice([940, 1300, 1930, 2500, 4000]), und=rng.choice([0, 0, .02, .1]))
    if rng.random() < .5:
        ops += [5] * rng.choice([3, 500, 932, 1300, 1919, 1920, 1921, 2500]) + [0, 0, 3, 0]
    return pack(sett, pieces, ops)


# instructions that load S; that move, store or name it without loading it; and what an NMI meets between them
LOADS = [lambda r: b'\x10\xCE' + w2(word(r)), lambda r: b'\x10\xDE' + bytes([byte(r)]), lambda r: b'\x10\xFE' + w2(word(r)),
         lambda r: b'\x10\xEE' + bytes([r.choice([0x84, 0xA4, 0xC4, 0xE4, 0xE1, 0x1F])]), lambda r: b'\x32' + bytes([r.choice([0x7F, 0x61, 0x84, 0xE4, 0xE1])]),
         lambda r: b'\x1F' + bytes([r.randrange(6) << 4 | 4]), lambda r: b'\x1E' + bytes([r.choice([r.randrange(6) << 4 | 4, 0x40 | r.randrange(6)])]),
         lambda r: b'\x37' + bytes([r.randrange(256) & 0x7F | 0x40])]
MOVES = [lambda r: b'\x1F' + bytes([0x40 | r.choice([0, 1, 2, 3])]), lambda r: b'\x35' + bytes([r.randrange(256) & 0x7F]), lambda r: b'\x34' + bytes([r.randrange(256)]),
         lambda r: b'\x36' + bytes([r.randrange(256)]), lambda r: b'\x37' + bytes([r.randrange(256) & 0x3F]), lambda r: b'\xA6\xE0', lambda r: b'\xEC\xE1',
         lambda r: b'\xA7\xE2', lambda r: b'\x10\xEF\xC4', lambda r: b'\x11\x8C' + w2(word(r)), lambda r: b'\xCE' + w2(word(r)), lambda r: b'\x33\x41',
         lambda r: b'\x1E' + bytes([r.choice([0x12, 0x48, 0x84, 0x64, 0x46])]), lambda r: b'\x1F' + bytes([r.choice([0x31, 0x48, 0x84, 0x74])]), lambda r: b'\x8D\x00',
         lambda r: b'\x3B', lambda r: b'\x39', lambda r: b'\x12', lambda r: b'\x1C\xEF', lambda r: b'\x1A\x50']
WAITS = [lambda r: b'\x13', lambda r: b'\x3C' + bytes([r.choice([0xFF, 0xEF, 0xAF])])]


def gen_nmi(rng):
    """many NMIs, before and after S is loaded, with resets and undos between"""
    sett, rt, man = settings(rng)
    a = rng.choice([0, 0x1000, 0xC000])
    body = b'\x35\x3F\x35\x3F' if rng.random() < .5 else b''  # PULS alone raises S, so that CWAI has room before S is loaded
    while len(body) < 120:
        body += rng.choice(rng.choices([LOADS, MOVES, WAITS], [2, 6, 1])[0])(rng)
    H = 0x5000
    handler = rng.choice([b'\x3B', b'\x12\x3B', b'\x1F\x41\x3B', b'\x10\xCE\x40\x00\x20\xFE'])
    pieces = [(a, body), (H, handler), (0xBFF2, w2(H) * 5 + w2(rng.choice([H, H, H, a, 0x6000])) + w2(a))]
    if rng.random() < .7:
        pieces.insert(0, (0x4000, bytes(rng.randrange(256) for _ in range(64))))
    m = Machine(load(pieces), rt, man)
    ops = []

    def do(o):
        ops.append(o)
        return m.op(o)
    if a:
        do(4)
    while len(ops) < 150:
        x = rng.random()
        if m.wait:
            do(rng.choice([3, 3, 3, 1, 2, 0, 5]))
        elif x < .5:
            if do(0) > 2:
                do(rng.choice([4, 5, 3]))
        elif x < .85:
            do(3)
        elif x < .93:
            do(5)
        elif x < .96:
            do(4)
        else:
            do(rng.choice([1, 2]))
    return pack(sett, pieces, ops + [5] * rng.choice([0, 3, 160]))


def gen_bad(rng):
    k = rng.randrange(22)
    if k == 0:
        return b''
    if k == 1:
        return bytes([rng.randrange(256)])
    if k == 2:
        return bytes(rng.randrange(4) for _ in range(rng.randrange(2, 30)))
    sett, rt, man = settings(rng)
    npc = rng.randrange(4)
    pieces = []
    for _ in range(npc):
        n = rng.choice([0, 1, 2, 5, 40])
        a = rng.choice([0, 0x1000, 0x10000 - n if n else 0xFFFF, rng.randrange(0x10000 - n)])
        pieces.append((a, codeblob(rng, a, n, ()) if n else b''))
    ops = [rng.randrange(6) for _ in range(rng.randrange(0, 12))]
    f = pack(sett, pieces, ops)
    if k == 3:
        return f[:rng.randrange(len(f))]
    if k == 4:
        return f + bytes(rng.randrange(256) for _ in range(rng.randrange(1, 4)))
    if k == 5:   # ops above 5
        ops = ops + [rng.choice([6, 7, 255, 128])]
        rng.shuffle(ops)
        return pack(sett, pieces, ops)
    if k == 6:   # settings count
        c = rng.choice([0, 1, 4, 5, 0x100, 0x200, 0x300, 0x202, 0xFFFF])
        return w2(c) + f[2:]
    if k == 7:
        return w2(c := rng.choice([0, 1, 4, 5])) + bytes(rng.randrange(2) for _ in range(c)) + pack(b'', pieces, ops)
    if k == 8:   # flags
        return w2(3) + w2(rt) + bytes([rng.choice([2, 3, 128, 255, 16])]) + pack(b'', pieces, ops)
    if k == 9:   # piece past FFFF
        a = rng.choice([0xFFFF, 0xFFF0, 0x8000, 0xFFFE])
        n = 0x10000 - a + rng.choice([0, 1, 2])
        if n > 200:
            n = 0x8000 - rng.randrange(40, 60)
        body = w2(a) + w2(n) + bytes(n)
        return sett + w2(1) + body + w2(len(ops)) + bytes(ops)
    if k == 10:  # pieces count lies
        out = bytearray(f)
        i = len(sett)
        c = (npc + rng.choice([-1, 1, 2, 256])) & 0xFFFF
        out[i:i + 2] = w2(c)
        return bytes(out)
    if k == 11:  # ops count lies
        i = len(f) - len(ops) - 2
        c = (len(ops) + rng.choice([-1, 1, 2, 256])) & 0xFFFF
        return f[:i] + w2(c) + f[i + 2:]
    if k == 12 and npc:  # piece length lies
        i = len(sett) + 2 + 2
        n = len(pieces[0][1])
        return f[:i] + w2((n + rng.choice([-1, 1, 2, 3, 256, 0x8000])) & 0xFFFF) + f[i + 2:]
    if k == 13:  # a byte changed
        out = bytearray(f)
        out[rng.randrange(len(out))] = rng.randrange(256)
        return bytes(out)
    if k == 14:  # byte removed or inserted
        i = rng.randrange(len(f))
        return f[:i] + f[i + 1:] if rng.random() < .5 else f[:i] + bytes([rng.randrange(256)]) + f[i:]
    if k in (15, 16) and rng.random() < .5:  # exact sizes
        size = rng.choice([32767, 32768, 32769, 32768, 32769, 40000, 33000])
        if rng.random() < .7:
            pad = size - len(f) - 4
            return pack(sett, pieces + [(0x4000, bytes(rng.randrange(256) for _ in range(16)) + bytes(pad - 16))], ops)
        g = pack(sett, pieces, [])
        rest = size - len(g)
        o = [4] + [rng.choice([0, 0, 0, 5]) for _ in range(rest - 1)]
        return pack(sett, pieces, o)
    if k == 17:
        return sett
    if k == 18:
        return sett + w2(0)
    if k == 19:
        return sett + w2(0) + w2(0)
    if k == 20:
        return sett + w2(0) + w2(len(ops)) + bytes(ops)
    return f


GENS = [(gen_direct, 46), (gen_soup, 26), (lambda r: gen_soup(r, True), 2), (gen_arith, 10), (gen_loop, 4), (gen_nmi, 14), (gen_bad, 12)]
GNAMES = ['direct', 'soup', 'soupbig', 'arith', 'loop', 'nmi', 'bad']


def gen(rng):
    i = rng.choices(range(len(GENS)), [w for _, w in GENS])[0]
    return GNAMES[i], GENS[i][0](rng)


def under_test(cmd, data):
    try:
        p = subprocess.run(cmd, input=data, stdout=subprocess.PIPE, stderr=subprocess.DEVNULL, timeout=60)
        return p.stdout
    except subprocess.TimeoutExpired:
        return b'TIMEOUT\n'


def firstdiff(exp, act):
    e, a = exp.split(b'\n'), act.split(b'\n')
    for i in range(max(len(e), len(a))):
        x = e[i] if i < len(e) else None
        y = a[i] if i < len(a) else None
        if x != y:
            return i, x, y
    return None


def describe(data, i):
    """opcode at PC before operation i"""
    p = parse(data)
    if p is None or i >= len(p[3]):
        return 'file', None
    rt, man, mem, ops = p
    m = Machine(mem, rt, man)
    for o in ops[:i]:
        m.op(o)
    pc = m.r[6]
    bs = bytes(m.rd((pc + j) & 0xFFFF) for j in range(5))
    return ('op %d pc %04X bytes %s regs A=%02X B=%02X X=%04X Y=%04X U=%04X S=%04X DP=%02X CC=%02X wait=%d used=%d ram_top=%04X manual=%d'
            % (ops[i], pc, bs.hex(' '), m.r[0], m.r[1], m.r[2], m.r[3], m.r[4], m.r[5], m.r[7], m.r[8], m.wait, len(m.journal), rt, man)), \
        (ops[i], bs[:2] if bs[0] in (0x10, 0x11) else bs[:1])


def shrink(cmd, data, budget=500):
    n = [budget]

    def bad(d):
        n[0] -= 1
        return n[0] >= 0 and run(d) != under_test(cmd, d)

    p = parse(data)
    if p is None:
        return data
    # unpack pieces
    c = data[1]
    sett = data[:2 + c]
    i = 2 + c
    k = data[i] << 8 | data[i + 1]
    i += 2
    pieces = []
    for _ in range(k):
        a, ln = data[i] << 8 | data[i + 1], data[i + 2] << 8 | data[i + 3]
        pieces.append((a, data[i + 4:i + 4 + ln]))
        i += 4 + ln
    ops = list(data[i + 2:])
    fd = firstdiff(run(data), under_test(cmd, data))
    if fd:
        o2 = ops[:fd[0] + 1]
        if bad(pack(sett, pieces, o2)):
            ops = o2
    changed = True
    while changed and n[0] > 0:
        changed = False
        for j in range(len(pieces) - 1, -1, -1):
            q = pieces[:j] + pieces[j + 1:]
            if bad(pack(sett, q, ops)):
                pieces = q
                changed = True
        ch = max(1, len(ops) // 2)
        while ch >= 1 and n[0] > 0:
            j = 0
            while j < len(ops) and n[0] > 0:
                q = ops[:j] + ops[j + ch:]
                if len(q) < len(ops) and bad(pack(sett, pieces, q)):
                    ops = q
                    changed = True
                else:
                    j += ch
            ch //= 2
        for j in range(len(pieces)):
            a, b = pieces[j]
            for cut in (len(b) // 2, len(b) // 4, 8, 4, 2, 1):
                while cut and len(b) > cut and n[0] > 0:
                    if bad(pack(sett, pieces[:j] + [(a, b[:-cut])] + pieces[j + 1:], ops)):
                        b = b[:-cut]
                    elif bad(pack(sett, pieces[:j] + [(a + cut, b[cut:])] + pieces[j + 1:], ops)):
                        a, b = a + cut, b[cut:]
                    else:
                        break
                    pieces[j] = (a, b)
                    changed = True
    return pack(sett, pieces, ops)


def built(program='run'):
    """A program as `rt run` in its crate's folder leaves it."""
    root = os.path.dirname(os.path.dirname(os.path.dirname(os.path.abspath(__file__))))
    return [os.path.join(root, 'crates', program, 'out', program)]


def main():
    ap = argparse.ArgumentParser()
    ap.add_argument('--seed', type=int, default=1)
    ap.add_argument('--time', type=float, default=60)
    ap.add_argument('--files', type=int, default=0)
    ap.add_argument('--cmd')
    ap.add_argument('--dry', action='store_true')
    ap.add_argument('--maxclasses', type=int, default=25)
    args = ap.parse_args()
    cmd = args.cmd.split() if args.cmd else built()
    rng = random.Random(args.seed)
    st = Stats()
    t0 = time.time()
    files = nops = lines = diffs = 0
    kinds = Counter()
    classes = {}
    longest = 0
    while time.time() - t0 < args.time and (not args.files or files < args.files):
        kind, f = gen(rng)
        exp = run(f, st)
        files += 1
        kinds[kind] += 1
        p = exp.count(b'\n')
        lines += p
        longest = max(longest, p)
        if args.dry:
            continue
        act = under_test(cmd, f)
        if act == exp:
            continue
        diffs += 1
        i, x, y = firstdiff(exp, act)
        d, key = describe(f, i)
        ex = (x or b'').split()
        ac = (y or b'').split()
        cls = (key, tuple(a == b for a, b in zip(ex, ac)), ex[:1], ac[:1])
        cls = repr(cls)
        if cls in classes:
            classes[cls][0] += 1
            continue
        if len(classes) >= args.maxclasses:
            continue
        g = shrink(cmd, f)
        fd = firstdiff(run(g), under_test(cmd, g)) or (i, x, y)
        if len(g) > len(f) or run(g) == under_test(cmd, g):
            g = f
        d, _ = describe(g, fd[0])
        classes[cls] = [1, g.hex()]
        print('DIFF seed %d file %d (%s) line %d\n  model: %s\n  under: %s\n  %s\n  hex: %s' %
              (args.seed, files, kind, fd[0], fd[1], fd[2], d, g.hex() if len(g) < 3000 else g.hex()[:6000] + '...'), flush=True)
    print('seed %d: files %d %s, operations (lines) %d, longest %d, differing files %d in %d classes, %.1f s' %
          (args.seed, files, dict(kinds), lines, longest, diffs, len(classes), time.time() - t0))
    print('answers by (operation, answer):', {('%s:%s' % k): v for k, v in sorted(st.ans.items(), key=str)})
    miss = ['%s%02X' % (('', '10 ', '11 ')[p], o) for p, o in DOC if not st.exec[(p, o)]]
    low = sorted((st.exec[k], '%d/%02X' % k) for k in DOC)[:8]
    print('opcodes executed: %d of %d; missing %s; rarest %s' % (sum(1 for k in DOC if st.exec[k]), len(DOC), miss, low))
    print('post-bytes executed: %d of 217' % len(st.pb))
    print('NMIs before S is loaded, by the wait state:', dict(st.held))
    for c, v in classes.items():
        print('class', c, 'x', v[0])
    sys.exit(1 if diffs else 0)


if __name__ == '__main__':
    main()
