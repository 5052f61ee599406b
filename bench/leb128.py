#!/usr/bin/env python3
"""Times the reading of 64 MiB of numbers of one to five bytes against a loop in C, and prints the ratio.

    bench/leb128.py [--size BYTES] [--rounds N]

Both read the same data, and must read the same. A time is the least of the rounds.
"""
import argparse
import os
import subprocess
import sys
import tempfile

from unproved import benchmark

ROOT = os.path.dirname(os.path.dirname(os.path.abspath(__file__)))


def measured(program, size):
    done = subprocess.run([*program, str(size)], capture_output=True, text=True, check=True)
    return int(done.stderr), done.stdout


def main():
    words = argparse.ArgumentParser(description="Times the reading of numbers against a loop in C.")
    words.add_argument("--size", type=int, default=64 << 20)
    words.add_argument("--rounds", type=int, default=5)
    asked = words.parse_args()
    program = benchmark()
    with tempfile.TemporaryDirectory() as folder:
        loop = f"{folder}/numbers"
        subprocess.run(["gcc", "-O2", "-o", loop, f"{ROOT}/bench/leb128.c"], check=True)
        rounds = [(measured([program, "numbers"], asked.size), measured([loop], asked.size)) for _ in range(asked.rounds)]
    if any(ours[1] != theirs[1] for ours, theirs in rounds):
        sys.exit("the two don't read the same")
    ours, theirs = min(r[0][0] for r in rounds), min(r[1][0] for r in rounds)
    print(f"{rounds[0][0][1].strip()}: ours {ours / 1e6:.3f} s, C {theirs / 1e6:.3f} s, ratio {ours / theirs:.2f}")


if __name__ == "__main__":
    main()
