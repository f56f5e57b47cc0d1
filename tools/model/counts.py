#!/usr/bin/env python3
"""Compares random calls of the host library with the model beside this file, and how many bytes each reads and writes (document 02, [11]).

    tools/model/counts.py [--seed N] [--time SECONDS] [--cmd COMMAND]    (forty scenes at a time)
    tools/model/counts.py --play <LINES                                  the model makes the calls, in COMMAND's place

A scene is a memory with code and vectors and a journal, on which calls are made: step, interrupt, reset, undo and runs, recorded and not, refused ones
too. Compared is all that a call returns, and sums over all bytes of memory and journal after it. COMMAND reads the lines that tools/host_tests/counts.c
says; left out, it is target/host/counts, which `tools/host build` makes.
"""
import argparse
import os
import random
import subprocess
import sys
import time
import zlib
from collections import Counter

ROOT = os.path.dirname(os.path.dirname(os.path.dirname(os.path.abspath(__file__))))
sys.path.insert(0, os.path.dirname(os.path.abspath(__file__)))
from fuzz import RAMTOPS, Stats, byte, codeblob, datapieces, vectors, word
from model import A, B, CC, DP, M64, PC, S, U, X, Y, Machine, Refuse

REASONS = {'refused': 1, 'waits': 2, 'stop': 3, 'device': 4, 'allowance': 5}
UNNAMED, NO_STOP = 64, 0x10000
SETTINGS = ('top', 'flags', 'spare')
TWIN = ('cycles', 'instructions', 'records', 'bytes', 'x', 'y', 'u', 's', 'pc', 'a', 'b', 'dp', 'cc', 'wait', 'armed')
REGISTERS = ((A, 'a'), (B, 'b'), (X, 'x'), (Y, 'y'), (U, 'u'), (S, 's'), (PC, 'pc'), (DP, 'dp'), (CC, 'cc'))
PRINTED = ('answer', 'reads', 'writes', *TWIN, 'memory', 'journal', 'one', 'other', 'count', 'devices')
NUMBERS = {'s': 0, 'S': 0, 'i': 1, 'I': 1, 'r': 4, 'R': 4, 'u': 5}


# ---- the model's side


class Called(Machine):
    """A machine for one call: its journal is bytes, and undo reads them."""

    def __init__(self, mem, journal, f, recorded, stats):
        super().__init__(mem, f['top'], f['flags'] == 1, stats)
        self.bytes, self.room, self.used, self.records = journal, len(journal), f['bytes'], f['records']
        self.recorded, self.system = recorded, False
        for register, name in REGISTERS:
            self.r[register] = f[name]
        self.wait, self.armed, self.cycles, self.instrs = f['wait'], bool(f['armed']), f['cycles'], f['instructions']

    def judge(self, recorded):
        if len(self.mem) != 65536:
            raise Refuse(1)
        if recorded and (self.used > self.room or self.records == M64):
            raise Refuse(12)

    def apply(self, writes, system):
        self.system = system
        return super().apply(writes, system)

    def record(self, regs, wait, cycles, instrs, stored):
        if not self.recorded:
            return
        end = self.used + self.record_length(stored)
        if end > self.room:
            self.revert(stored)
            raise Refuse(10)
        self.bytes[self.used:end] = self.record_bytes((regs, wait, cycles, instrs, stored, self.armed))
        self.used, self.records = end, self.records + 1

    def step(self):
        self.judge(self.recorded)
        super().step()

    def interrupt(self, n):
        self.judge(self.recorded)
        super().interrupt(n)

    def reset(self):
        self.judge(self.recorded)
        super().reset()

    def undo(self):
        self.judge(False)
        if self.used > self.room:
            raise Refuse(12)
        if self.records == 0:
            raise Refuse(11)
        size = self.bytes[self.used - 1] if self.used else 0
        r = self.bytes[self.used - size:self.used]
        if not 34 <= size <= self.used or size != 34 + 3 * r[32] or r[32] > 12 or r[14] > 2 or r[15] > 1:
            raise Refuse(12)
        for at in range(33 + 3 * r[32] - 3, 32, -3):
            self.mem[r[at] << 8 | r[at + 1]] = r[at + 2]
        self.r = [r[0], r[1], *(r[i] << 8 | r[i + 1] for i in range(2, 12, 2)), r[12], r[13]]
        self.wait, self.armed = r[14], bool(r[15])
        self.cycles, self.instrs = int.from_bytes(r[16:24], 'big'), int.from_bytes(r[24:32], 'big')
        self.used, self.records = self.used - size, self.records - 1

    def run_unrecorded(self, count):
        """-> what the last step reports, and what is left"""
        answer = 0
        self.dev = []
        while count and not answer and not self.dev:
            answer = self.op(0)
            count -= not answer
        return answer, count

    def twin(self):
        held = {name: self.r[register] for register, name in REGISTERS}
        return {'cycles': self.cycles, 'instructions': self.instrs, 'records': self.records, 'bytes': self.used, 'wait': self.wait,
                'armed': int(self.armed), **held}


class World:
    """Memory and journal, and the calls made on them."""

    def __init__(self, stats=None):
        self.mem, self.journal, self.stats = bytearray(), bytearray(), stats

    def play(self, line):
        """What a line prints, or None; of a call also the twin after it."""
        letter, *words = line.split()
        if letter == 'm':
            self.mem, self.journal = bytearray(int(words[0], 16)), bytearray(int(words[1], 16))
        elif letter == 'p':
            data = bytes.fromhex(words[1]) if len(words) > 1 else b''
            for p, b in enumerate(data, int(words[0], 16)):
                if p < len(self.mem):
                    self.mem[p] = b
        else:
            return self.call(letter, dict(zip((*SETTINGS, *TWIN, 'n', 'stop'), (int(w, 16) for w in words))))
        return None

    def named(self, letter, f):
        settings = letter == 'u' or (f['flags'] < 2 and f['spare'] == 0)
        right = f['n'] < 3 if letter in 'iI' else f['stop'] <= NO_STOP if letter == 'g' else True
        return f['wait'] < 3 and f['armed'] < 2 and settings and right

    def call(self, letter, f):
        reads = writes = one = other = 0
        devices, system, twin = [], False, {name: f[name] for name in TWIN}
        if not self.named(letter, f):
            answer, one = UNNAMED, f['n'] if letter == 'G' else 0
        else:
            m = Called(self.mem, self.journal, f, letter.islower(), self.stats)
            if letter == 'g':
                reason, other, devices, reads, writes = m.run(f['n'], None if f['stop'] == NO_STOP else f['stop'])
                answer, one = 0, REASONS[reason]
            else:
                if letter == 'G':
                    answer, one = m.run_unrecorded(f['n'])
                else:
                    answer = m.op(NUMBERS[letter] + (f['n'] if letter in 'iI' else 0))
                reads, writes, devices = len(m.taken), len(m.laid), m.dev
            twin, system = m.twin(), m.system
        numbers = [answer, reads, writes, *(twin[name] for name in TWIN)]
        numbers += [zlib.adler32(bytes(self.mem)), zlib.adler32(bytes(self.journal)), one, other, len(devices)]
        text = ' '.join(['%x' % n for n in numbers] + ['%x:%x:%x' % (at, b, system) for at, b in devices])
        return text, twin


# ---- random scenes


def most_traffic(rng):
    """an instruction of many reads or writes"""
    return rng.choice([b'\x35\xFF', b'\x37\xFF', b'\x34\xFF', b'\x36\xFF', b'\x10\x3F', b'\x11\x3F', b'\x3F', b'\x3C\xFF', b'\x3B'])


def memory(rng):
    """pieces of memory, and where code stands"""
    blobs = [(0xBFE0, 0x20)] if rng.random() < 0.3 else []
    for _ in range(rng.randrange(1, 4)):
        at = rng.choice([0, 0x1000, 0x4000, 0x7F80, 0xC000, 0xFEF0, 0xFF20, 0xFFC0, 0xBFC0]) if rng.random() < 0.6 else rng.randrange(0x10000)
        blobs.append((at, min(rng.choice([16, 64, 200, 600]), 0x10000 - at)))
    pieces = datapieces(rng) if rng.random() < 0.6 else []
    pieces += [(at, codeblob(rng, at, n, blobs, rng.choice([0, 0.02, 0.1]))) for at, n in blobs]
    pieces += [(at, most_traffic(rng)[:n]) for at, n in blobs if rng.random() < 0.15]
    pieces.append((0xBFF2, vectors(rng, [lambda: rng.choice(blobs)[0]])))
    return pieces, blobs


def machine(rng, blobs):
    """registers, wait state and counters, without the counts of the journal"""
    at, n = rng.choice(blobs)
    pc = at + (0 if rng.random() < 0.4 else rng.randrange(n)) if rng.random() < 0.9 else word(rng)
    stack = rng.choice([0x6000, 0x6000, 0x2000, 0xFF0C, 0xFF06, 0xFF4C, 0x000B, 0x0002, 0xFFC6, 0xFFEA]) if rng.random() < 0.6 else word(rng, blobs)
    f = {name: word(rng, blobs) for name in ('x', 'y', 'u')}
    f.update({name: byte(rng) for name in ('a', 'b', 'dp')})
    x = rng.random()
    return {**f, 's': stack, 'pc': pc & 0xFFFF, 'cc': rng.randrange(256), 'wait': 0 if x < 0.7 else 1 if x < 0.85 else 2, 'armed': rng.randrange(2),
            'cycles': rng.choice([0, rng.randrange(1 << 40), M64 - 3]), 'instructions': rng.choice([0, rng.randrange(1 << 40), M64])}


def strange(rng, f, journal):
    """one number of a call changed: counts of the journal, or one that names nothing"""
    name = rng.choice(['records', 'bytes', 'bytes', 'wait', 'armed', 'flags', 'spare', 'n', 'stop'])
    f[name] = {'records': rng.choice([0, 1, M64, M64 - 1]), 'bytes': rng.choice([0, 1, 34, max(journal - 34, 0), journal, journal + 1, M64]),
               'wait': rng.randrange(3, 256), 'armed': rng.randrange(2, 256), 'flags': rng.randrange(2, 256), 'spare': rng.randrange(1, 256),
               'n': rng.randrange(3, 200), 'stop': rng.randrange(NO_STOP + 1, 1 << 32)}[name]


def letter(rng, wait):
    if wait and rng.random() < 0.6:
        return rng.choice('iI')
    return rng.choices('sSiIrRugG', (28, 22, 11, 11, 2, 2, 12, 7, 5))[0]


def scene(rng, world):
    """lines, and what each has to print; the model plays along"""
    journal = rng.choice([0, 33, 34, 36, 37, 70, 100, 300]) if rng.random() < 0.25 else rng.randrange(1000, 6000)
    pieces, blobs = memory(rng)
    lines = ['m %x %x' % (0x10000 if rng.random() < 0.98 else rng.choice([0, 1, 0xFFFF]), journal)]
    lines += ['p %x %s' % (at, data.hex()) for at, data in pieces]
    out = [(line, world.play(line)) for line in lines]
    held = {**machine(rng, blobs), 'records': 0, 'bytes': 0}
    settings = {'top': rng.choice(RAMTOPS) if rng.random() < 0.8 else rng.randrange(0x10000), 'flags': rng.randrange(2), 'spare': 0}
    answer = 0
    for _ in range(60):
        if answer and rng.random() < 0.8 or rng.random() < 0.2:
            held.update(machine(rng, blobs))
        which = letter(rng, held['wait'])
        f = {**settings, **held, 'n': rng.randrange(3) if which in 'iI' else rng.choice([0, 1, 2, rng.randrange(60)]),
             'stop': NO_STOP if rng.random() < 0.5 else word(rng, blobs)}
        if rng.random() < 0.04:
            strange(rng, f, journal)
        line = which + ' ' + ' '.join('%x' % f[name] for name in (*SETTINGS, *TWIN, 'n', 'stop'))
        text, twin = world.play(line)
        answer = int(text.split()[0], 16)
        if answer != UNNAMED:
            held = twin
        out.append((line, (text, twin)))
    return out


# ---- comparison


def noted(seen, most, line, text):
    which, *words = line.split()
    answer, reads, writes = (int(w, 16) for w in text.split()[:3])
    seen['%s %d' % (which, answer)] += 1
    if which in 'iI' and answer != UNNAMED:
        wait, n = int(words[16], 16), int(words[18], 16)
        how = 'refused' if answer else 'served' if reads else 'held off'
        seen['%s in %s %s' % (('IRQ', 'FIRQ', 'NMI')[n], ('no wait', 'CWAI', 'SYNC')[wait], how)] += 1
    if which in 'sSiI':
        kind = most.setdefault('steps' if which in 'sS' else 'interrupts', [0, 0, 0])
        kind[:] = [max(a, b) for a, b in zip(kind, (reads, writes, reads + writes))]


def fields(text):
    words = text.split()
    return dict(zip(PRINTED, words[:len(PRINTED) - 1] + [' '.join(words[len(PRINTED) - 1:])]))


def first_difference(made, got):
    """of a scene: its call, what was printed, what the model prints"""
    for (line, played), text in zip(((line, played) for line, played in made if played), got):
        if text != played[0]:
            return line, text, played[0]
    return None


def batch(rng, cmd, seen, most, stats):
    """(calls, differences)"""
    world = World(stats)
    scenes = [scene(rng, world) for _ in range(40)]
    text = ''.join(line + '\n' for made in scenes for line, _ in made)
    done = subprocess.run(cmd, input=text.encode(), stdout=subprocess.PIPE, check=False)
    printed = done.stdout.decode().splitlines()
    calls, wrong = 0, []
    for made in scenes:
        n = sum(1 for _, played in made if played)
        got = printed[calls:calls + n]
        calls += n
        difference = first_difference(made, got + [''] * (n - len(got)))
        if difference:
            wrong.append(difference)
        for line, played in made:
            if played:
                noted(seen, most, line, played[0])
    if done.returncode or len(printed) != calls:
        wrong.append(('', '%d lines, status %d' % (len(printed), done.returncode), '%d lines' % calls))
    return calls, wrong


def shown(seed, difference):
    line, theirs, ours = difference
    one, other = fields(theirs), fields(ours)
    names = [name for name in PRINTED if one.get(name) != other.get(name)]
    print('DIFFERENT, seed %d: %s\n  call:    %s\n  library: %s\n  model:   %s' % (
        seed, ', '.join('%s %s, model %s' % (name, one.get(name), other.get(name)) for name in names), line, theirs, ours), flush=True)


def main():
    ap = argparse.ArgumentParser(description=__doc__, formatter_class=argparse.RawDescriptionHelpFormatter)
    ap.add_argument('--seed', type=int, default=1)
    ap.add_argument('--time', type=float, default=60)
    ap.add_argument('--cmd')
    ap.add_argument('--play', action='store_true')
    args = ap.parse_args()
    if args.play:
        world = World()
        for line in sys.stdin:
            played = world.play(line)
            if played:
                print(played[0])
        return
    cmd = args.cmd.split() if args.cmd else [os.path.join(ROOT, 'target/host/counts')]
    if not args.cmd and not os.access(cmd[0], os.X_OK):
        print('counts.py: skipped, nothing was compared: no %s; `tools/host build` makes it' % cmd[0])
        sys.exit(2)
    rng, seen, most, stats = random.Random(args.seed), Counter(), {}, Stats()
    began, scenes, calls, different = time.time(), 0, 0, 0
    while time.time() - began < args.time and different < 20:
        n, wrong = batch(rng, cmd, seen, most, stats)
        scenes, calls, different = scenes + 40, calls + n, different + len(wrong)
        for difference in wrong[:3]:
            shown(args.seed, difference)
    print(', '.join('%s: %d' % k for k in sorted(seen.items())))
    print('; '.join('%s: most reads %d, writes %d, together %d' % (kind, *n) for kind, n in sorted(most.items())))
    print('%d instructions and %d post-bytes executed' % (len(stats.exec), len(stats.pb)))
    print('seed %d: %d scenes, %d calls, %d different, %.1f s' % (args.seed, scenes, calls, different, time.time() - began))
    sys.exit(1 if different else 0)


if __name__ == '__main__':
    main()
