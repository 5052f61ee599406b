#!/usr/bin/env python3
"""Times walrus_inspect against wasm-opt --all-features without passes on files of six shapes, each of three sizes, and prints a table.

    bench/reading.py [--rounds N] [--scale N] [--small-pages] [FILE..]

A time is the least of the rounds, in seconds by the clock, and what it is of that of half the count is told by the middle ones (bench/collisions.py says why);
memory is the most that was resident. In each round wasm-opt runs once and
walrus_inspect three times, so that what disturbs the machine disturbs both; memory is touched before each (`back` of bench/compare.py). wasm-opt reads the file and writes it again.
Wanted are 15 times less time and half of the memory, and at most 2.2 times the time for twice the count. walrus_inspect runs as
bin/walrus_inspect starts it, which has the C library ask for large pages, unless --small-pages is given. --scale divides the counts. Files
that are named are measured instead. binaryen is installed where it is missing.
"""
import argparse
import os
import statistics
import subprocess
import sys
import tempfile

from compare import LARGE_PAGES, back, install, measured

ROOT = os.path.dirname(os.path.dirname(os.path.abspath(__file__)))
PROGRAM = f"{ROOT}/out/proved/walrus_inspect"
# The largest count of each shape: code of some 50 MB, a million of each other thing but of segments, of which there may be fewer (they are small, and data is the same with longer ones).
COUNTS = {"code": 200_000, "names": 1_000_000, "exports": 1_000_000, "segments": 100_000, "data": 100_000, "types": 1_000_000}


def build():
    if not os.path.exists(PROGRAM):
        subprocess.run([f"{ROOT}/bin/build", "walrus_inspect"], check=True)


def least(runs):
    clocks, _, memories = zip(*runs)
    return min(clocks), max(memories), statistics.median(clocks)


def taken(words, settings):
    back()
    return measured(words, settings)


def row(what, file, rounds, settings, before):
    """Prints the figures of a file, beside those of the one before it, and returns the middle one of our times."""
    own, other = [], []
    for _ in range(rounds):
        own += [taken([PROGRAM, file], settings) for _ in range(3)]
        other.append(taken(["wasm-opt", "--all-features", file, "-o", os.devnull], None))
    ours, memory, middle = least(own)
    theirs, much, _ = least(other)
    size = os.path.getsize(file)
    doubled = f"{middle / before:.2f}" if before else ""
    print(f"| {what} | {size / 1e6:.1f} | {ours:.3f} | {doubled} | {theirs:.3f} | {theirs / ours:.1f} | {memory / 2**20:.0f} | {memory / much:.2f} |", flush=True)
    return middle


def main():
    words = argparse.ArgumentParser(description="Times walrus_inspect against wasm-opt.")
    words.add_argument("--rounds", type=int, default=3)
    words.add_argument("--scale", type=int, default=1)
    words.add_argument("--small-pages", action="store_true")
    words.add_argument("files", nargs="*")
    asked = words.parse_args()
    settings = None if asked.small_pages else LARGE_PAGES
    install()
    build()
    print("| What | MB | `walrus_inspect`, s | Times the half | `wasm-opt`, s | Times ours | MiB | Of `wasm-opt`'s |\n|---|---|---|---|---|---|---|---|")
    for file in asked.files:
        row(os.path.basename(file), file, asked.rounds, settings, None)
    with tempfile.TemporaryDirectory() as folder:
        for shape, most in COUNTS.items() if not asked.files else ():
            before = None
            for part in (4, 2, 1):
                count = most // part // asked.scale
                file = f"{folder}/{shape}.wasm"
                # In a process of its own: what this one has resident counts as its children's too.
                subprocess.run([sys.executable, f"{ROOT}/bench/make_file.py", "--count", str(count), shape, file], check=True)
                before = row(f"{shape}, {count:,}", file, asked.rounds, settings, before)


if __name__ == "__main__":
    main()
