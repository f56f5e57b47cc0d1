#!/usr/bin/env python3
"""Systematic files, compared as in fuzz.py.

    tools/model/systematic.py arith branches tops posts masks frames sizes    all of these, or some
"""
import sys, time, argparse
import fuzz
from fuzz import *
CMD = fuzz.built()
st = Stats()
tot = Counter()
seen = {}


def cmp(group, f):
    e = run(f, st)
    tot[group, 'files'] += 1
    tot[group, 'lines'] += e.count(b'\n')
    a = under_test(CMD, f)
    if a != e:
        tot[group, 'diff'] += 1
        i, x, y = firstdiff(e, a)
        d, key = describe(f, i)
        k = (group, repr(key), (x or b'')[:2], (y or b'')[:2])
        if k not in seen and len(seen) < 30:
            seen[k] = 1
            g = shrink(CMD, f, 200)
            fd = firstdiff(run(g), under_test(CMD, g))
            print('DIFF', group, 'line', fd, describe(g, fd[0])[0], g.hex()[:4000], flush=True)


def sett(man, rt=0x7FFF):
    return w2(3) + w2(rt) + bytes([man])


def straight(group, man, chunks, per):
    """chunks: (code, steps); files of at most 950 steps from address 0"""
    code = b''
    n = 0
    for c, k in chunks:
        if n + k > 955 or len(code) > 30000:
            cmp(group, pack(sett(man), [(0, code)], [0] * n))
            code, n = b'', 0
        code += c
        n += k
    cmp(group, pack(sett(man), [(0, code)], [0] * n))


TA, TB = b'\x1F\x8A', b'\x1F\x9A'


def arith():
    for man in (0, 1):
        for op in (0x89, 0x82):
            def g():
                for c in (0, 1):
                    for a in range(256):
                        for b in range(256):
                            # carry is set through TFR: B holds the CC wanted
                            yield bytes([0x86, a, 0x1A, 1] if c else [0x86, a, 0x1C, 0xFE]) + bytes([op, b]) + TA, 4
            straight('adc/sbc %d' % man, man, g(), 4)
        for op in (0x8B, 0x80, 0x81):
            def g():
                for a in range(256):
                    for b in BEDGES + list(range(3, 256, 9)):
                        yield bytes([0x86, a, op, b]) + TA, 3
            straight('add/sub/cmp %d' % man, man, g(), 3)

        def g():
            for lo in fuzz.model.UNARY:
                for c in range(4):
                    for a in range(256):
                        yield bytes([0xCC, a, a ^ 0x55, 0x1C, 0xFC, 0x1A, c, 0x40 | lo]) + TA, 5
                        yield bytes([0xCC, a ^ 0x55, a, 0x1C, 0xFC, 0x1A, c, 0x50 | lo]) + TB, 5
        straight('unary %d' % man, man, g(), 5)

    def g():
        for a in range(256):
            for cc in (0, 1, 0x20, 0x21, 0x02, 0x2F):
                yield bytes([0x86, a, 0x1C, 0, 0x1A, cc, 0x19]) + TA, 5
    straight('daa', 0, g(), 5)

    def g():
        for a in range(256):
            for b in range(256):
                yield bytes([0xCC, a, b, 0x3D]) + TA + TB, 4
    straight('mul', 1, g(), 4)

    def g():
        for b in range(256):
            for cc in (0, 0xFF):
                yield bytes([0xCC, 0x33, b, 0x1C, 0, 0x1A, cc, 0x1D]) + TA, 5
                yield bytes([0x8E, 0xFF, b ^ 0x5A, 0xC6, b, 0x3A, 0x1F, 0x10]) + TA + TB, 6
    straight('sex/abx', 0, g(), 6)


def branches():
    # every condition, all 16 N Z V C, short and long
    for page in (0, 1):
        for i in range(16):
            for cc in range(0, 256):
                if cc & 0xF0 not in (0, 0xF0):
                    continue
                op = bytes([0x20 + i, 0x10]) if page == 0 else bytes([0x10, 0x20 + i, 0x01, 0x10])
                cmp('branch', pack(sett(0), [(0, bytes([0x1C, 0, 0x1A, cc]) + op)], [0, 0, 0, 0, 5]))


def tops():
    # all opcode bytes of the three pages with the operand bytes cut at FFFF
    rng = random.Random(5)
    for page in range(3):
        for o in range(256):
            for k in range(5):
                pre = PRE[page] + bytes([o])
                for tail in (b'\x84\x00\x00', bytes(rng.randrange(256) for _ in range(3))):
                    ins = pre + tail
                    t = 0xFFFF - k
                    code = b'\x10\xCE\x40\x00\x7E' + w2(t)
                    cmp('tops', pack(sett(0, 0xFFFF), [(0, code), (t - 0x4000, ins[:0x10000 - t])], [0, 0, 0, 0, 5, 3, 0]))
    # words at the top of memory: read, written, pulled, as pointers; then the bytes there, and all of it taken back
    words = [(p, o) for p in range(3) for o in range(256) if TABLE[p][o] and TABLE[p][o][3] in ('ar16', 'ld16', 'st16') and TABLE[p][o][1] in (EXT, IDX)]
    for rt in (0, 0x7FFF, 0xBFFE, 0xBFFF, 0xFFFE, 0xFFFF):
        for at in (0xFEFF, 0xFFDF, 0xFFFD, 0xFFFE, 0xFFFF, 0x0000):
            bodies = [PRE[p] + bytes([o]) + (w2(at) if TABLE[p][o][1] == EXT else b'\x9F' + w2(at)) for p, o in words]
            bodies += [b'\x10\xCE' + w2(at) + b'\xCE' + w2(at) + x for x in (b'\x39', b'\x3B', b'\x35\x10', b'\x35\x12', b'\x35\xFF', b'\x37\x40', b'\x37\xF0', b'\x37\x81')]
            bodies += [b'\x6E\x9F' + w2(at), b'\xAD\x9F' + w2(at), b'\xA6\x9F' + w2(at), b'\x30\x9F' + w2(at)]
            for man, body in enumerate(bodies):
                start = b'\x10\xCE\x40\x00\x8E\x8A\x5B\x10\x8E\x4C\x3D\xCE\x2E\x1F\xCC\x90\x71' + body
                dump = tfrdump() + b'\xCE\xBF\xFD' + b'\x37\x01' * 4 + b'\xCE\x00\x00' + b'\x37\x01' * 3
                cmp('words', pack(sett(man & 1, rt), [(0x100, start + dump), (0, b'\x20\x7E\x12'), (0x80, b'\x16\x00\x7D'), (0xBFFC, b'\x50\x00\x6D\xA9'), (0x5000, dump)],
                                  [0] * (9 + 14) + [3] + [0] * 24 + [5] * 50 + [0] * 9))


PRE = (b'', b'\x10', b'\x11')


INDEXED = [PRE[p] + bytes([o]) for p, o in DOC if TABLE[p][o][1] == IDX]


def posts():
    # all post-bytes on all indexed opcodes; on five of them also at places near the end, and with pointer targets FFFF
    for pb in range(256):
        for op in INDEXED:
            far = op in (b'\x30', b'\xAE', b'\x10\xAF', b'\xA6', b'\xAD')
            for t in (0x2100, 0xFFF8, 0xFFFA, 0xFFFB, 0xFFFC, 0xFFFD, 0xFFFE, 0xFFFF) if far else (0x2100,):
                for off in (0, 0xFFFF) if far else (0,):
                    b = op + bytes([pb])
                    nl = (2 if pb & 15 in (9, 13, 15) else 1 if pb & 15 in (8, 12) else 0) if pb & 0x80 else 0
                    nxt = t + len(b) + nl
                    v = off
                    if pb & 0x80 and pb & 15 in (12, 13):
                        v = (off - nxt) & 0xFFFF
                    b += w2(v) if nl == 2 else bytes([v & 0xFF]) if nl else b''
                    reg = 0xFFFF if off else 0x1234
                    d = 0 if off else 0x8081
                    code = (b'\x10\xCE' + w2(0x4000 if pb & 0x60 != 0x60 else reg) + b'\xCE' + w2(reg) + b'\x8E' + w2(reg) + b'\x10\x8E' + w2(reg) +
                            b'\xCC' + w2(d) + b'\x7E' + w2(t))
                    dump = tfrdump()
                    if t < 0x8000:
                        pc = [(t, b + dump)]
                    else:
                        pc = [(t - 0x4000, b[:0x10000 - t])]
                    cmp('posts', pack(sett(0, 0xFFFF), [(0, code), (0x1200, bytes(range(0x11, 0x71))), (0x5000, dump), (0xBFFC, w2(0x5000))] + pc,
                                      [0] * 7 + ([0] * 14 if t < 0x8000 else [3] + [0] * 15) + [5] * 3))


def masks():
    # all PSH/PUL masks, all TFR/EXG post-bytes, with dumps
    dump = tfrdump()
    for m in range(256):
        for op in (0x34, 0x35, 0x36, 0x37, 0x1E, 0x1F):
            for s in (0x4000, 5, 0xFFF7, 0xFFFE, 0xFFFF):
                if op in (0x1E, 0x1F) and s != 0x4000:
                    continue
                code = (b'\x86\x21\x1F\x8B' + b'\x10\xCE' + w2(s) + b'\xCE' + w2(s) + b'\x8E\x12\x34\x10\x8E\x56\x78\xCC\x9A\xBC\x1C\x00\x1A\x0D' + bytes([op, m]) + dump +
                        b'\xCE\x3F\xF4' + b'\x37\x01' * 12 + b'\x20\xFE')
                cmp('masks', pack(sett(0), [(0, code), (0x4000, bytes(range(0x41, 0x61))), (0xBFF0, bytes(range(0x50, 0x5C))), (0xBFFC, w2(0x5000)), (0xBFFE, b'\x44\x55'),
                                            (0x5000, dump)], [0] * 10 + [0] * 30 + [3] + [0] * 14 + [5] * 20 + [3] + [0] * 15))


def marks():
    # each opcode of the three pages with each byte after it, on a machine that has not loaded S: does an NMI after it find the mark?
    for page in range(3):
        for o in range(256):
            for b in range(256):
                ins = PRE[page] + bytes([o, b, 0x20, 0x00])
                for pre in (b'', b'\x35\x3E\x35\x3E'):  # S 0000, and moved to 000E by PULS
                    if TABLE[page][o] and (not pre or b % 16 == 4 or b & 0x40):
                        cmp('marks', pack(sett(1), [(0x1000, pre + ins), (0x5000, b'\x3B'), (0xBFF2, w2(0x5000) * 6 + b'\x10\x00')],
                                          [4] + [0] * (len(pre) // 2) + [0, 3, 0, 3, 5, 5, 5, 5, 3, 0, 4, 3]))


def frames():
    # every way of stacking, S at all edges, all ram_tops of note, with dumps of the places
    dump = tfrdump()
    srange = list(range(0, 14)) + list(range(0x7FFE, 0x800E)) + list(range(0xBFEE, 0xC00E)) + list(range(0xFEFE, 0xFF0E)) + list(range(0xFF3E, 0xFF4E)) + \
        list(range(0xFFBE, 0xFFCE)) + list(range(0xFFDE, 0x10000))
    for rt in (0, 0x7FFF, 0xBFFF, 0xFFE7, 0xFFFF):
        for s in srange:
            for what in (b'\x3F', b'\x10\x3F', b'\x11\x3F', b'\x3C\xAF', 1, 2, 3, b'\x8D\x00', b'\x34\xFF', b'\x34\x5A'):
                ins = what if isinstance(what, bytes) else b'\x12'
                lo = max(0, s - 12)
                dumpm = b'\xCE' + w2(lo) + b'\x37\x01' * 12 + b'\x20\xFE'
                code = (b'\x86\x20\x1F\x8B' + b'\x10\xCE' + w2(s) + b'\xCE\x50\x01\x8E\x50\x02\x10\x8E\x50\x03\xCC\x50\x50\x1C\x00\x1A\x0D' + ins + dump + dumpm)
                ops = [0] * 9 + ([0] if isinstance(what, bytes) else [what]) + ([1, 2] if what == b'\x3C\xAF' else []) + [0] * 31 + [5] * 32 + [3] + [0] * 31 + [5] * 45
                cmp('frames', pack(sett(0, rt), [(0, code), (0x5000, b'\x12' * 8 + dump + dumpm), (0xBFF2, w2(0x5000) * 7)], ops))


def sizes():
    for n in (32766, 32767, 32768, 32769, 32770, 65535, 65536, 65537, 70000, 200000, 1000000):
        pad = n - len(pack(sett(0), [(0x100, b'')], [0, 4]))
        if pad < 65536 - 0x100:
            cmp('sizes', pack(sett(0), [(0x100, bytes(pad))], [0, 4]))
        cmp('sizes', bytes(n))
        cmp('sizes', pack(sett(0), [(0x100, b'')], [0, 4]) + bytes(n))
        if n < 65536:
            k = n - len(pack(sett(0), [], []))
            cmp('sizes', pack(sett(0), [], ([0, 5] * n)[:k]))
    # every prefix of a good file, every single-byte change of a small one
    g = bytes.fromhex('00037FFF0000021000 00025F5ABFFE00021000000404000005'.replace(' ', ''))
    for i in range(len(g) + 1):
        cmp('prefix', g[:i])
    for i in range(len(g)):
        for v in range(256):
            cmp('bytechange', g[:i] + bytes([v]) + g[i + 1:])
    for c in range(0, 300):
        cmp('settcount', w2(c) + g[2:])
    # slow pipe
    for f in (g, pack(sett(1), [(0, bytes(30000))], [0] * 900)):
        for step in (1, 7, 4096):
            if len(f) > 1000 and step == 1:
                continue
            p = subprocess.Popen(CMD, stdin=subprocess.PIPE, stdout=subprocess.PIPE)
            for i in range(0, len(f), step):
                p.stdin.write(f[i:i + step])
                p.stdin.flush()
                if i < 200:
                    time.sleep(.002)
            p.stdin.close()
            o = p.stdout.read()
            p.wait()
            tot['slow', 'files'] += 1
            if o != run(f):
                tot['slow', 'diff'] += 1
                print('SLOW PIPE DIFF', len(f), step)


if __name__ == '__main__':
    for name in sys.argv[1:]:
        t0 = time.time()
        globals()[name]()
        print(name, '%.0f s' % (time.time() - t0), flush=True)
    print(dict((' '.join(k), v) for k, v in tot.items()))
    print('answers', {('%s:%s' % k): v for k, v in sorted(st.ans.items(), key=str)})
