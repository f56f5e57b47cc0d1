#!/usr/bin/env python3
"""As fuzz.py, with files aimed at the limits: the end of the address space, stacks near 0000 and FFFF, frames over vectors."""
import random, sys
import fuzz
from fuzz import *

ST = [0, 1, 2, 3, 4, 5, 6, 7, 8, 9, 10, 11, 12, 13, 14]
WORDOPS = [k for k in DOC if TABLE[k[0]][k[1]][3] in ('ar16', 'ld16', 'st16') and TABLE[k[0]][k[1]][1] != IMM2]
MEMOPS = [k for k in DOC if TABLE[k[0]][k[1]][3] in ('unm', 'st8', 'bin8', 'st16') and TABLE[k[0]][k[1]][1] in (DIR, EXT, IDX)]
IDXOPS = [k for k in DOC if TABLE[k[0]][k[1]][1] == IDX]
PRE = (b'', b'\x10', b'\x11')
TOPS = [0xFEFD, 0xFEFE, 0xFEFF, 0xFF00, 0xFF3E, 0xFF3F, 0xFF40, 0xFFBE, 0xFFBF, 0xFFC0, 0xFFDE, 0xFFDF, 0xFFE0, 0xFFE1, 0xFFE6, 0xFFE7,
        0xFFE8, 0xFFFC, 0xFFFD, 0xFFFE, 0xFFFF, 0x0000, 0x0001, 0x7FFE, 0x7FFF, 0x8000, 0xBFE0, 0xBFFF, 0xC000]


def gen_edge(rng):
    sett, rt, man = settings(rng)
    R = {'S': rng.choice([0x4000, 0x2800, word(rng)]), 'U': word(rng), 'Y': word(rng), 'X': word(rng), 'A': byte(rng), 'B': byte(rng), 'DP': byte(rng)}
    cc = rng.choice([0, 0x50, rng.randrange(256), rng.randrange(256)])
    t = rng.choice([0x2100, 0x2100, 0xC200, 0x7FF8])
    kind = rng.randrange(7)
    near = rng.randrange(0x2000, 0x2060)

    def good():
        return rng.randrange(0x2000, 0x2060)
    sysops = [b'\x3F', b'\x10\x3F', b'\x11\x3F', b'\x3C' + bytes([rng.choice([0xFF, 0xAF, 0, rng.randrange(256)])]), b'\x13', b'\x12']
    if kind == 0:      # the end of the address space
        x = rng.random()
        if x < .12:
            ins = bytes([rng.choice([0x10, 0x11]), rng.randrange(256)])
            t = rng.choice([0xFFFF, 0xFFFE, 0xFFFD])
        elif x < .3:
            ins = bytes([rng.choice([0x1E, 0x1F]), rng.randrange(256)])
            t = rng.choice([0xFFFF, 0xFFFE, 0xFFFE, 0xFFFD])
        elif x < .75:
            p, o = rng.choice(IDXOPS)
            pb = rng.choice([0x8C, 0x8D, 0x9C, 0x9D, 0x9F, 0x8F, 0x88, 0x98, 0x89, 0x99, 0x87, 0x9A, 0x8E, 0x90, 0x92, 0x91, 0x93, 0x94, rng.randrange(256)])
            pb |= rng.choice([0, 0x20, 0x40, 0x60])
            b = PRE[p] + bytes([o, pb])
            lo = pb & 15 if pb & 0x80 else -1
            n = 1 if lo in (8, 12) else 2 if lo in (9, 13, 15) else 0
            t = min(0xFFFF, 0x10000 - len(b) - n + rng.choice([0, 0, 0, -1, -2, 1, 2]))
            nxt = t + len(b) + n
            tgt = rng.choice([0xFFFF, 0xFFFF, 0xFFFE, 0, 0xFFFD, 0xFFF0])
            if lo in (12, 13):
                v = (tgt - nxt) & 0xFFFF
            elif lo == 15:
                v = tgt
            else:
                v = word(rng)
            ins = b + (w2(v) if n == 2 else bytes([v & 0xFF]) if n else b'')
            for q in 'XYUS':
                if rng.random() < .4:
                    R[q] = rng.choice([0xFFFF, 0xFFFE, 0, 1])
        else:
            p, o = rng.choice(DOC) if rng.random() < .85 else (rng.randrange(3), rng.randrange(256))
            if TABLE[p][o]:
                ins = instr(rng, 0xFFF0, (), (p, o))
            else:
                ins = PRE[p] + bytes([o])
            t = min(0xFFFF, 0x10000 - len(ins) + rng.choice([0, 0, -1, -1, -2, 1, 2]))
    elif kind == 1:    # pushes near the bottom
        R['S'] = rng.choice(ST)
        R['U'] = rng.choice(ST)
        for q in 'XY':
            R[q] = good()
        ins = rng.choice(sysops + [b'\x17\x00\x00', b'\x8D\x00', b'\xBD' + w2(good()), b'\xAD\xE1', b'\xAD\xE3', b'\xAD\xE0', b'\xAD\xE2', b'\xAD\x84',
                                   b'\x9D' + bytes([byte(rng)]), b'\xAD\xF1', b'\x34' + bytes([rng.randrange(256)]), b'\x36' + bytes([rng.randrange(256)])])
        cc = rng.choice([0, 0x40, 0x10, 0x50])
    elif kind == 2:    # frames over the vectors and over device space
        base = rng.choice([0xBFF0, 0xC000, 0xFFE0, 0xFFF0, 0xFF00, 0xFF40, 0xFFC0, 0xFFE8, 0x7FFF, rt])
        R['S'] = max(0, min(0xFFFF, base + rng.randrange(0, 16)))
        R['U'], R['Y'], R['X'] = good(), good(), good()
        R['DP'] = rng.choice([0x20, byte(rng)])
        R['A'] = rng.choice([0x20, byte(rng)])
        R['B'] = rng.choice([0x20, byte(rng)])
        cc = rng.choice([0, 0x40, 0x10, 0x20])
        ins = rng.choice(sysops + [b'\x34\xFF', b'\x8D\x00', b'\x34' + bytes([rng.randrange(256)])])
    elif kind == 3:    # pulls
        q = rng.choice([rng.randrange(0xFFEC, 0x10000), rng.randrange(0xFFF2, 0x10000), rng.randrange(0xFEF8, 0xFF04), rng.randrange(0xFFD8, 0xFFE4), 0xFFFF, 0xFFFE])
        R['S'] = R['U'] = q
        ins = rng.choice([b'\x39', b'\x3B', b'\x3B', b'\x35' + bytes([rng.randrange(256)]), b'\x35' + bytes([rng.randrange(128)]),
                          b'\x37' + bytes([rng.randrange(128)]), b'\x37' + bytes([rng.randrange(256)])])
    elif kind == 4:    # auto-increment of the register in use
        p, o, rr = rng.choice([(0, 0x30, 0), (0, 0x31, 1), (0, 0x32, 3), (0, 0x33, 2), (0, 0xAE, 0), (0, 0xAF, 0), (1, 0xAE, 1), (1, 0xAF, 1), (0, 0xEE, 2),
                               (0, 0xEF, 2), (1, 0xEE, 3), (1, 0xEF, 3), (0, 0xAC, 0), (1, 0xAC, 1), (2, 0xA3, 2), (2, 0xAC, 3), (0, 0x6E, 0), (0, 0xAD, 3), (0, 0xAD, 0)])
        if rng.random() < .2:
            rr = rng.randrange(4)
        lo = rng.choice([0x80, 0x81, 0x82, 0x83, 0x91, 0x93, 0x85, 0x86, 0x8B, 0x95, 0x96, 0x9B])
        ins = PRE[p] + bytes([o, lo | rr << 5])
        for q in 'XYUS':
            R[q] = rng.choice([good(), good(), 0xFFFF, 0xFFFE, 0, 1, 2])
    elif kind == 5:    # words at the top
        p, o = rng.choice(WORDOPS)
        mode = TABLE[p][o][1]
        ea = rng.choice(TOPS + [0xFFFF] * 8)
        ins = PRE[p] + bytes([o])
        if mode == DIR:
            R['DP'] = ea >> 8
            ins += bytes([ea & 0xFF])
        elif mode == EXT:
            ins += w2(ea)
        else:
            f = rng.randrange(6)
            rr = rng.randrange(4)
            if f == 0:
                ins += bytes([0x84 | rr << 5])
                R['XYUS'[rr]] = ea
            elif f == 1:
                ins += bytes([0x9F]) + w2(ea)
            elif f == 2:
                ins += bytes([0x89 | rr << 5]) + w2((ea - R['XYUS'[rr]]) & 0xFFFF)
            elif f == 3:
                ins += bytes([0x1F | rr << 5])
                R['XYUS'[rr]] = (ea + 1) & 0xFFFF
            elif f == 4:
                ins += bytes([rng.choice([0x83, 0x93]) | rr << 5])
                R['XYUS'[rr]] = (ea + 2) & 0xFFFF
            else:
                ins += bytes([rng.choice([0x8D, 0x9D])]) + w2((ea - (t + len(ins) + 3)) & 0xFFFF)
    else:              # bytes at the borders
        p, o = rng.choice(MEMOPS)
        mode = TABLE[p][o][1]
        ea = rng.choice(TOPS + [rt, (rt + 1) & 0xFFFF, (rt - 1) & 0xFFFF])
        ins = PRE[p] + bytes([o])
        if mode == DIR:
            R['DP'] = ea >> 8
            ins += bytes([ea & 0xFF])
        elif mode == EXT:
            ins += w2(ea)
        else:
            rr = rng.randrange(4)
            ins += bytes([0x89 | rr << 5]) + w2((ea - R['XYUS'[rr]]) & 0xFFFF)
    # setup code at 0000
    sc = b'\x86' + bytes([R['DP']]) + b'\x1F\x8B'
    parts = [b'\x10\xCE' + w2(R['S']), b'\xCE' + w2(R['U']), b'\x10\x8E' + w2(R['Y']), b'\x8E' + w2(R['X']), b'\xCC' + bytes([R['A'], R['B']])]
    rng.shuffle(parts)
    sc += b''.join(parts) + b'\x1C\x00\x1A' + bytes([cc]) + b'\x7E' + w2(t)
    base = datapieces(rng)
    base = [p for p in base if p[0]]
    base += [(0x2000, bytes(rng.randrange(1, 256) if rng.random() < .95 else 0 for _ in range(0x70))), (0, sc)]
    H = 0x5000
    v = vectors(rng, [good, lambda: H], wild=.15)
    if rng.random() < .8:
        v = v[:10] + w2(H) + v[12:]
    base.append((0xBFF2, v))
    mid = [rng.choice([0, 0, 5, 1, 2, 3, 4]) for _ in range(rng.randrange(0, 5))]
    undo_first = rng.random() < .3
    seen = {}
    pieces = ops = None
    for phase in (0, 1):
        dump = tfrdump() + (memdump(rng, list(seen)[:24]) if phase else b'') + b'\x20\xFE'
        if t < 0xFFE0:
            body = ins + dump
            lo = body[:0xFFE0 - t]
            hi = ins[len(lo):] if len(ins) > len(lo) else b''
            pc = [(t, lo)] + ([(0xBFE0, hi)] if hi else [])
        else:
            pc = [(t - 0x4000, ins[:0x10000 - t])]
        pieces = base + [(H, dump)] + pc
        m = Machine(load(pieces), rt, man)
        ops = []

        def do(o):
            jl = len(m.journal)
            a = m.op(o)
            ops.append(o)
            if a == 0 and len(m.journal) > jl:
                for p, _ in m.journal[-1][4]:
                    seen[p] = None
                for d, _ in m.dev:
                    seen[d] = None
            return a
        for _ in range(10):
            if do(0) or m.r[6] == t:
                break
        do(0)
        if undo_first:
            do(5)
        for o in mid:
            do(o)
        k = 20 if not phase else min(60, len(dump) // 2 + 6)
        if m.wait or rng.random() < .5:
            do(3)
        for _ in range(k):
            if do(0):
                if do(3):
                    break
        if rng.random() < .5:
            for _ in range(len(ops) + 1 if rng.random() < .5 else rng.randrange(1, len(ops) + 1)):
                do(5)
            if rng.random() < .7:
                # same steps again after undo, then observe
                for _ in range(rng.randrange(0, 13)):
                    do(0)
                do(rng.choice([3, 4, 1, 2]))
                for _ in range(k):
                    if do(0):
                        break
    return pack(sett, pieces, ops)


fuzz.GENS[:] = [(gen_edge, 75), (gen_direct, 10), (gen_soup, 10), (gen_bad, 5)]
fuzz.GNAMES[:] = ['edge', 'direct', 'soup', 'bad']
if __name__ == '__main__':
    fuzz.main()
