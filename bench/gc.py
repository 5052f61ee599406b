#!/usr/bin/env python3
"""Times the dropping of what a module doesn't use, and prints the time an item in modules of 10^4, 10^5 and 10^6 items.

    bench/gc.py [--rounds N] [--alone] [--instructions] [--small-pages]

Each size has modules of 10^6 items in all, which are made first and then dropped from in turn, so that at each size the call finds its module
outside of the caches; with --alone there is one module, which at 10^4 items still lies in them. A time is the least of the rounds, and sizes take
turns. The last column is the time an item at the last size against that at the first: 1 is linear, and at most 1.5 is wanted. With
--instructions valgrind counts the instructions of the whole program on one module of 10^3, 10^4 and 10^5 items, with those that make it,
which no cache and no other work disturbs.
The C library is asked for large pages, as the programs in bin/ do, unless --small-pages is given.
"""
import argparse
import os
import re
import subprocess
import sys

from compare import LARGE_PAGES
from unproved import benchmark

SIZES = (10**4, 10**5, 10**6)
COUNTED = (10**3, 10**4, 10**5)
SHAPES = ("chain", "cycle", "segments", "groups")
KEPT = ("all", "half")


def counts(shape, count, kept):
    """What is to live: functions, types, data segments and element segments."""
    share = 1 if kept == "all" else 2
    if shape == "segments":
        return 1, 1, -(-count // 2 // share), -(-count // 2 // share)
    if shape == "groups":
        return count // 2 // share, count // share, 0, 0
    return count // share, 1, 0, 0


def line(when, numbers):
    return "{}: {} functions, {} types, {} data segments, {} element segments".format(when, *numbers)


def run(program, settings, shape, count, kept, modules, *front):
    words = [*front, program, "gc", shape, str(count), kept, str(modules)]
    said = subprocess.run(words, capture_output=True, text=True, check=True, env={**os.environ, **settings})
    wanted = [line("before", counts(shape, count, "all")), line("after", counts(shape, count, kept))]
    if said.stdout.splitlines() != wanted:
        sys.exit(f"wrong counts: {said.stdout}")
    return said.stderr


def least(program, rounds, settings, shape, kept, alone):
    """The least microseconds of the calls on a module at each size."""
    modules = [1 if alone else SIZES[-1] // count for count in SIZES]
    turns = ([int(run(program, settings, shape, count, kept, many)) / many for count, many in zip(SIZES, modules)] for _ in range(rounds))
    return [min(times) for times in zip(*turns)]


def instructions(program, shape, kept):
    """The instructions of the whole program at each size."""
    found = []
    for count in COUNTED:
        said = run(program, {}, shape, count, kept, 1, "valgrind", "--tool=callgrind", "--callgrind-out-file=/dev/null")
        found.append(int(re.search(r"Collected : (\d+)", said).group(1)))
    return found


def main():
    parser = argparse.ArgumentParser(description="Times the dropping of what a module doesn't use.")
    parser.add_argument("--rounds", type=int, default=5)
    parser.add_argument("--alone", action="store_true")
    parser.add_argument("--instructions", action="store_true")
    parser.add_argument("--small-pages", action="store_true")
    asked = parser.parse_args()
    settings = {} if asked.small_pages else LARGE_PAGES
    program = benchmark()
    sizes = COUNTED if asked.instructions else SIZES
    what = "Instructions" if asked.instructions else "Nanoseconds"
    print(f"| {what} an item | Kept | " + " | ".join(f"{count:,}" for count in sizes) + " | Factor |")
    print("|---" * (3 + len(sizes)) + "|")
    for shape in SHAPES:
        for kept in KEPT:
            found = instructions(program, shape, kept) if asked.instructions else [took * 1000 for took in least(program, asked.rounds, settings, shape, kept, asked.alone)]
            each = [sum_ / count for sum_, count in zip(found, sizes)]
            print(f"| {shape} | {kept} | " + " | ".join(f"{one:.1f}" for one in each) + f" | {each[-1] / each[0]:.2f} |", flush=True)


if __name__ == "__main__":
    main()
