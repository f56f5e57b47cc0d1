#!/usr/bin/env python3
"""Compares runs with an allowance (document 02, [12]), random ones, made by the built program `allowances` and by the model beside this file.

    tools/model/allowances.py [--seed N] [--time SECONDS] [--scenes N] [--cmd COMMAND]    (fifty scenes at a time)

A scene is a line of crates/allowances/README.md that ends in D: two runs, then undos until one is refused, each with all of memory and
journal. COMMAND reads scenes from standard input; left out, it is crates/allowances/out/allowances, after `rt run` in crates/allowances.
"""
import argparse
import os
import random
import subprocess
import sys
import time
import zlib
from collections import Counter

sys.path.insert(0, os.path.dirname(os.path.abspath(__file__)))
from fuzz import built, codeblob, instr, word
from model import A, B, CC, DP, M64, PC, S, U, X, Y, Machine, Refuse

REASONS = {'refused': 1, 'waits': 2, 'stop': 3, 'device': 4, 'allowance': 5}
CODE, ROOM = 0x1000, 16


class Recorded(Machine):
    """A machine on a memory and a journal of any length, and with counts of its own at the start."""

    def __init__(self, mem, ram_top, manual, journal, records, used):
        super().__init__(mem, ram_top, manual)
        self.bytes, self.room, self.first, self.used = bytearray(journal), journal, records, used

    def records(self):
        return self.first + len(self.journal)

    def step(self):
        if len(self.mem) != 65536:
            raise Refuse(1)
        if self.used > self.room or self.records() == M64:
            raise Refuse(12)
        super().step()

    def record(self, *parts):
        at = self.used
        super().record(*parts)
        self.bytes[at:self.used] = self.record_bytes(self.journal[-1])

    def undo(self):
        if len(self.mem) != 65536:
            raise Refuse(1)
        if self.used > self.room:
            raise Refuse(12)
        if not self.journal and self.first:
            raise Refuse(12)  # records counted that nobody wrote: zeros
        super().undo()


# ---- scenes


def tail(rng, at):
    """an instruction that is apt to end a run"""
    x = rng.randrange(8)
    if x == 0:
        return b'\x13'
    if x == 1:
        return bytes([0x3C, rng.choice([0xEF, 0xFF, 0xAF])])
    if x < 5:
        device = rng.choice([0xFF00, 0xFF3F, 0xFF40, 0xFFBF, 0xFFC0, 0xFFDF, 0xFFE0, 0xFEFF, 0xFF3E])
        return bytes([rng.choice([0xB7, 0xFD, 0xBF, 0x7F, 0x70]), device >> 8, device & 0xFF])
    if x == 5:
        return bytes([rng.choice([0x01, 0x02, 0x87, 0x3F])])
    return bytes([0x20, rng.randrange(256 - 18, 256)])


def code(rng):
    out = b''
    while len(out) < ROOM:
        x = rng.random()
        out += b'\x12' if x < 0.35 else tail(rng, CODE + len(out)) if x < 0.6 else instr(rng, CODE + len(out), [(CODE, ROOM)])
    return out[:ROOM]


def allowance(rng):
    x = rng.random()
    return rng.randrange(4) if x < 0.35 else rng.randrange(20) if x < 0.8 else rng.randrange(3000) if x < 0.97 else M64 - rng.randrange(3)


def stop(rng):
    x = rng.random()
    return None if x < 0.3 else CODE + rng.randrange(ROOM + 2) if x < 0.85 else word(rng)


def scene(rng):
    """what stands in a line, by the name of its field"""
    records, used = 0, 0
    journal = rng.choice([0, 33, 34, 37, 68, 70, 100, 300]) if rng.random() < 0.3 else rng.randrange(2000, 65536)
    if rng.random() < 0.08:
        records, used = rng.choice([0, 1, 5, M64, M64 - 1, M64 - 3]), rng.choice([0, 1, 34, 70, journal, journal + 1, M64])
    stack = rng.choice([0x6000, 0x6000, 0xFF0C, 0xFF06, 0xFF4C, 0x000B, 0x0005, 0xFFC6, 0x0100]) if rng.random() < 0.7 else word(rng)
    place = rng.choice([0xBFF2, 0xBFF8, 0xBFFA, 0xBFF4, 0x2000]) if rng.random() < 0.7 else word(rng)
    return {
        'cc': rng.randrange(256), 'a': rng.randrange(256), 'b': rng.randrange(256), 'dp': rng.choice([0, 0x20, 0xFF, rng.randrange(256)]),
        'x': word(rng), 'y': word(rng), 'u': word(rng), 's': stack, 'pc': CODE if rng.random() < 0.9 else word(rng),
        'top': rng.choice([0x7FFF, 0xFFFF, 0x0FFF, 0xBFFF]), 'flags': rng.choice('BM'), 'wait': 0 if rng.random() < 0.95 else rng.choice([1, 2]),
        'code': code(rng), 'place': place, 'bytes': bytes([0x10, rng.randrange(ROOM)] * 2) if rng.random() < 0.7 else codeblob(rng, place, 4, []),
        'memory': 0x10000 if rng.random() < 0.98 else rng.choice([0, 0xFFFF, 0x1008]), 'journal': journal, 'records': records, 'used': used,
        'runs': [(allowance(rng), stop(rng)), (allowance(rng), stop(rng))],
    }


def line(number, f):
    runs = ' '.join('%016X %s' % (n, '10000' if at is None else '0%04X' % at) for n, at in f['runs'])
    registers = '%02X %02X %02X %02X %04X %04X %04X %04X %04X' % tuple(f[k] for k in ('cc', 'a', 'b', 'dp', 'x', 'y', 'u', 's', 'pc'))
    return '%03d %s %04X %s %d %s %04X %s %05X %04X %016X %016X %s D\n' % (
        number, registers, f['top'], f['flags'], f['wait'], f['code'].hex().upper(), f['place'], f['bytes'].hex().upper(),
        f['memory'], f['journal'], f['records'], f['used'], runs)


# ---- what has to be printed


def put(mem, at, data):
    for i, b in enumerate(data):
        p = (at + i) & 0xFFFF
        if p < len(mem):
            mem[p] = b


def shown(number, letter, value, devices, m, reads, writes, place):
    at, byte = devices[0] if devices else (0, 0)
    view = ''.join('%02X' % (m.mem[p] if p < len(m.mem) else 0) for p in range(place, place + 4))
    return '%03d %s %02d %02d %04X %02X %04X %02X %d %010d %010d %016X %016X %05d %05d %s %08X %08X\n' % (
        number, letter, value, len(devices), at, byte, m.r[PC], m.r[CC], m.wait, m.cycles, m.instrs, m.records(), m.used,
        reads, writes, view, zlib.adler32(bytes(m.mem)), zlib.adler32(bytes(m.bytes)))


def played(number, f, seen):
    mem = bytearray(f['memory'])
    put(mem, CODE, f['code'])
    put(mem, f['place'], f['bytes'])
    m = Recorded(mem, f['top'], f['flags'] == 'M', f['journal'], f['records'], f['used'])
    m.r = [0] * 9
    for register, name in ((A, 'a'), (B, 'b'), (X, 'x'), (Y, 'y'), (U, 'u'), (S, 's'), (PC, 'pc'), (DP, 'dp'), (CC, 'cc')):
        m.r[register] = f[name]
    m.wait = f['wait']
    out = ''
    for allowed, at in f['runs']:
        before = m.instrs
        reason, value, devices, reads, writes = m.run(allowed, at)
        out += shown(number, REASONS[reason], value, devices, m, reads, writes, f['place'])
        seen['reason ' + reason] += 1
        seen['steps'] += m.instrs - before
        if value:
            seen['number %d' % value] += 1
        if reason == 'waits' and devices:
            seen['waits with a device write'] += 1
        if reason == 'waits' and m.r[PC] == at:
            seen['waits at the stop address'] += 1
        if reason == 'stop' and devices:
            seen['stop with a device write'] += 1
        if reason in ('waits', 'stop', 'device') and m.instrs - before == allowed:
            seen['another reason with the last step'] += 1
    undos = 0
    while not (value := m.op(5)):
        undos += 1
    seen['undos'] += undos
    return out + shown(number, 'U', value, [], m, undos, 0, f['place'])


def main():
    ap = argparse.ArgumentParser()
    ap.add_argument('--seed', type=int, default=1)
    ap.add_argument('--time', type=float, default=60)
    ap.add_argument('--scenes', type=int, default=0)
    ap.add_argument('--cmd')
    args = ap.parse_args()
    cmd = args.cmd.split() if args.cmd else built('allowances')
    rng = random.Random(args.seed)
    began, scenes, different, seen = time.time(), 0, 0, Counter()
    while time.time() - began < args.time and (not args.scenes or scenes < args.scenes):
        batch = [scene(rng) for _ in range(50)]
        lines = [line(n, f) for n, f in enumerate(batch)]
        expected = ''.join(played(n, f, seen) for n, f in enumerate(batch))
        done = subprocess.run(cmd, input=''.join(lines).encode(), stdout=subprocess.PIPE, check=False)
        scenes += len(batch)
        got = done.stdout.decode()
        if got != expected:
            pairs = list(zip(got.splitlines() + [''] * 200, expected.splitlines()))
            wrong = [(g, e) for g, e in pairs if g != e]
            different += len({e[:3] for _, e in wrong})
            g, e = wrong[0]
            print('DIFFERENT, seed %d, scene %d of %d\n%s  twin:  %s\n  model: %s' % (args.seed, int(e[:3]), scenes, lines[int(e[:3])], g, e), flush=True)
    print('seed %d: %d scenes, %d runs, %d different, %.1f s' % (args.seed, scenes, 2 * scenes, different, time.time() - began))
    print(', '.join('%s: %d' % k for k in sorted(seen.items())))
    sys.exit(1 if different else 0)


if __name__ == '__main__':
    main()
