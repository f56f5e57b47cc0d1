#!/usr/bin/env python3
"""Compares calls on fenced twins (document 02, [14]), random ones, made by the built program `fences` and by the model beside this file.

    tools/model/fences.py [--seed N] [--time SECONDS] [--scenes N] [--cmd COMMAND]    (fifty scenes at a time)

A scene is a line of crates/fences/README.md with sums: up to eight calls, recorded or not, under two profiles of random ranges. COMMAND
reads scenes from standard input; left out, it is crates/fences/out/fences, after `rt run` in crates/fences.
"""
import argparse
import os
import random
import subprocess
import sys
import time
import zlib
from collections import Counter

sys.path.insert(0, os.path.dirname(os.path.abspath(__file__)))
from fuzz import built, instr, word
from model import A, B, CC, DP, PC, S, U, X, Y, Machine

CODE, ROOM = 0x1000, 12
OPERATION = {'S': 0, 'I': 1, 'F': 2, 'N': 3, 'R': 4, 'U': 5}


class Fenced(Machine):
    """A machine with a journal of any length, or none."""

    def __init__(self, mem, ram_top, manual, room, recorded):
        super().__init__(mem, ram_top, manual)
        self.bytes, self.room, self.recorded = bytearray(room), room, recorded

    def record(self, *parts):
        if self.recorded:
            at = self.used
            super().record(*parts)
            self.bytes[at:self.used] = self.record_bytes(self.journal[-1])


# ---- scenes


def store(rng, near):
    """an instruction that stores, mostly near the places that matter"""
    at = (rng.choice(near) + rng.randrange(-2, 3)) & 0xFFFF
    return bytes([rng.choice([0xB7, 0xF7, 0xFD, 0xBF, 0xFF, 0x7F, 0x7C, 0x73, 0xBD]), at >> 8, at & 0xFF])


def code(rng, near):
    out = b''
    while len(out) < ROOM:
        x = rng.random()
        if x < 0.4:
            out += store(rng, near)
        elif x < 0.6:
            out += rng.choice([b'\x3F', b'\x10\x3F', b'\x11\x3F', b'\x8D\x00', b'\x12', bytes([0x3C, 0xFF])])
        elif x < 0.8:
            out += bytes([rng.choice([0x34, 0x36]), rng.randrange(256)])
        else:
            out += instr(rng, CODE + len(out), [(CODE, ROOM)])
    return out[:ROOM]


def interval(rng, near):
    x = rng.random()
    if x < 0.25:
        return rng.randrange(1, 65536), 0
    if x < 0.35:
        return 0, 0xFFFF
    first = (rng.choice(near) + rng.randrange(-14, 15)) & 0xFFFF if x < 0.85 else word(rng)
    last = first + rng.choice([0, 0, 1, 2, 3, 11, 12, 13, 0x100, 0x4000, -1])
    return first, max(0, min(0xFFFF, last))


def profile(rng, near):
    x = rng.random()
    if x < 0.1:
        return [(1, 0)] * 8
    if x < 0.2:
        return [(0, 0xFFFF)] + [(1, 0)] * 7
    n = rng.randrange(1, 9)
    out = [interval(rng, near) for _ in range(n)] + [(0xFFFF, 0)] * (8 - n)
    rng.shuffle(out)
    return out


def scene(rng):
    stack = rng.choice([0x6000, 0x6000, 0xFF0C, 0xFF06, 0xFF4C, 0x000B, 0x000C, 0x0003, 0xFFEC, 0xFFE6, 0xC000, 0x0100]) if rng.random() < 0.8 else word(rng)
    user = rng.choice([0x5000, 0x2008, 0xFFE4, 0x0002]) if rng.random() < 0.6 else word(rng)
    near = [stack, (stack - 12) & 0xFFFF, user, 0x2000, 0xBFE0, 0xBFFF, 0xFFE0, 0xFEFF, 0x0000, 0xFF00, 0x7FFF]
    place = rng.choice([0xBFF2, 0xBFF4, 0xBFF6, 0xBFF8, 0xBFFA, 0xBFFC, 0xBFFE, 0x2000])
    return {
        'cc': rng.randrange(256), 'a': rng.randrange(256), 'b': rng.randrange(256), 'dp': rng.choice([0, 0x20, 0xBF, 0xFF]),
        'x': rng.choice(near), 'y': word(rng), 'u': user, 's': stack, 'pc': CODE,
        'top': rng.choice([0x7FFF, 0xFFFF, 0x0FFF, 0xBFFF, 0x1FFF, 0x2000]), 'flags': rng.choice('BM'),
        'wait': 0 if rng.random() < 0.93 else rng.choice([1, 2]), 'armed': rng.randrange(2), 'code': code(rng, near), 'place': place,
        'bytes': bytes([0x10, rng.randrange(ROOM)] * 2) if rng.random() < 0.85 else bytes(4), 'journal': rng.choice([0, 40, 70, 100, 800, 800, 800]),
        'calls': ''.join(rng.choice('SSSSSIFNRUp-') for _ in range(8)), 'recorded': rng.random() < 0.6, 'profiles': [profile(rng, near), profile(rng, near)],
    }


def line(number, f):
    registers = '%02X %02X %02X %02X %04X %04X %04X %04X %04X' % tuple(f[k] for k in ('cc', 'a', 'b', 'dp', 'x', 'y', 'u', 's', 'pc'))
    ranges = ' '.join('%04X%04X' % r for p in f['profiles'] for r in p)
    letters = f['calls'] if f['recorded'] else f['calls'].replace('U', '-')
    return '%03d %s %04X %s %d %d %s %04X %s %04X %s %sD %s\n' % (
        number, registers, f['top'], f['flags'], f['wait'], f['armed'], f['code'].hex().upper(), f['place'], f['bytes'].hex().upper(),
        f['journal'], letters, 'J' if f['recorded'] else 'C', ranges)


# ---- what has to be printed


def shown(number, letter, value, m, place):
    at, byte = m.dev[0] if m.dev else (0, 0)
    return '%03d %s %02d %02d %04X %02X %04X %02X %04X %d %010d %05d %08d %08d %s %08X %08X\n' % (
        number, letter, value, len(m.dev), at, byte, m.r[PC], m.r[CC], m.r[S], m.wait, m.cycles, m.instrs, len(m.journal), m.used,
        bytes(m.mem[place:place + 4]).hex().upper(), zlib.adler32(bytes(m.mem)), zlib.adler32(bytes(m.bytes)))


def played(number, f, seen):
    mem = bytearray(65536)
    mem[CODE:CODE + ROOM] = f['code']
    mem[f['place']:f['place'] + 4] = f['bytes']
    m = Fenced(mem, f['top'], f['flags'] == 'M', f['journal'], f['recorded'])
    for register, name in ((A, 'a'), (B, 'b'), (X, 'x'), (Y, 'y'), (U, 'u'), (S, 's'), (PC, 'pc'), (DP, 'dp'), (CC, 'cc')):
        m.r[register] = f[name]
    m.wait, m.armed = f['wait'], bool(f['armed'])
    m.ranges = f['profiles'][0]
    out = ''
    for letter in f['calls']:
        if letter == 'p':
            m.ranges = f['profiles'][1]
        elif letter != '-' and (letter != 'U' or f['recorded']):
            value = m.op(OPERATION[letter])
            seen['%s %d' % ('step' if letter == 'S' else 'undo' if letter == 'U' else 'reset' if letter == 'R' else 'interrupt', value)] += 1
            out += shown(number, letter, value, m, f['place'])
    return out


def main():
    ap = argparse.ArgumentParser()
    ap.add_argument('--seed', type=int, default=1)
    ap.add_argument('--time', type=float, default=60)
    ap.add_argument('--scenes', type=int, default=0)
    ap.add_argument('--cmd')
    args = ap.parse_args()
    cmd = args.cmd.split() if args.cmd else built('fences')
    rng = random.Random(args.seed)
    began, scenes, different, seen = time.time(), 0, 0, Counter()
    while time.time() - began < args.time and (not args.scenes or scenes < args.scenes):
        batch = [scene(rng) for _ in range(50)]
        lines = [line(n, f) for n, f in enumerate(batch)]
        expected = ''.join(played(n, f, seen) for n, f in enumerate(batch))
        done = subprocess.run(cmd, input=''.join(lines).encode(), stdout=subprocess.PIPE, check=False)
        scenes += len(batch)
        got = done.stdout.decode()
        if got != expected:
            wrong = [(g, e) for g, e in zip(got.splitlines() + [''] * 400, expected.splitlines()) if g != e]
            different += len({e[:3] for _, e in wrong})
            g, e = wrong[0] if wrong else (got[-200:], expected[-200:])
            print('DIFFERENT, seed %d, scene %d of %d\n%s  twin:  %s\n  model: %s' % (args.seed, int(e[:3]), scenes, lines[int(e[:3])], g, e), flush=True)
    print('seed %d: %d scenes, %d calls, %d different, %.1f s' % (args.seed, scenes, sum(seen.values()), different, time.time() - began))
    print(', '.join('%s: %d' % k for k in sorted(seen.items())))
    sys.exit(1 if different else 0)


if __name__ == '__main__':
    main()
