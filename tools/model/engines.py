#!/usr/bin/env python3
"""Plays random run files on both engines, and compares what they print (README.md).

    tools/model/engines.py [--seed N] [--files N]

The programs are crates/run/out/run and crates/run_training/out/run_training, after `rt run` in both folders. The files are those of fuzz.py and edges.py, one
after the other; the model makes them, and is not asked for what is printed.
"""
import argparse, random, sys, os
sys.path.insert(0, os.path.dirname(os.path.abspath(__file__)))
import fuzz

KINDS = [list(fuzz.GENS)]
import edges  # its kinds of files take the place of fuzz's

KINDS.append(list(fuzz.GENS))


def main():
    ap = argparse.ArgumentParser()
    ap.add_argument('--seed', type=int, default=1)
    ap.add_argument('--files', type=int, default=1000)
    args = ap.parse_args()
    first, second = fuzz.built('run'), fuzz.built('run_training')
    rng = random.Random(args.seed)
    lines = different = 0
    for n in range(args.files):
        kinds = KINDS[n % 2]
        file = rng.choices([make for make, _ in kinds], [weight for _, weight in kinds])[0](rng)
        out = fuzz.under_test(first, file)
        lines += out.count(b'\n')
        if out != fuzz.under_test(second, file):
            different += 1
            print('DIFF seed %d file %d: %s' % (args.seed, n, file.hex()), flush=True)
    print('seed %d: files %d, operations (lines) %d, differing files %d' % (args.seed, args.files, lines, different))
    sys.exit(1 if different else 0)


if __name__ == '__main__':
    main()
