#!/usr/bin/env python3
"""Times the table of types: adds, writes, parses, merges and writes again so many types, looks types up, edits a
table, and adds types with one long front, and prints the time of each.

    bench/type_tables.py [--rounds N]

A time is the processor's, of a whole run of `walrus_bench types`, the least of the rounds; what a run of no look-ups
takes is taken off that of the look-ups.
"""
import argparse
import resource
import subprocess

from unproved import benchmark



def run(program, counts):
    """The seconds of the processor that one run takes."""
    before = resource.getrusage(resource.RUSAGE_CHILDREN)
    subprocess.run([program, "types", *map(str, counts)], stdout=subprocess.DEVNULL, check=True)
    after = resource.getrusage(resource.RUSAGE_CHILDREN)
    return after.ru_utime - before.ru_utime + after.ru_stime - before.ru_stime


def least(program, rounds, counts):
    return min(run(program, counts) for _ in range(rounds))


def main():
    words = argparse.ArgumentParser(description="Times the table of types.")
    words.add_argument("--rounds", type=int, default=3)
    asked = words.parse_args()
    program = benchmark()
    # what is timed, and its sizes: the program's words for a size, those of what is taken off, how many it does
    searches = 10**6
    parts = (
        ("single types", (10**4, 10**5, 10**6), lambda n: (n, 0, 0, 0, 0), None, lambda n: n),
        ("groups of two", (10**3, 10**4, 10**5), lambda n: (0, n, 0, 0, 0), None, lambda n: n),
        ("types, among which 1,000,000 are looked up", (10**4, 10**5, 10**6), lambda n: (n, 0, searches, 0, 0), lambda n: (n, 0, 0, 0, 0), lambda n: searches),
        ("turns of add, rename and, every second, delete", (10**4, 10**5, 10**6), lambda n: (0, 0, 0, n, 0), None, lambda n: n),
        ("types with one front of 1,000 parameters", (2000, 4000, 8000, 16000), lambda n: (0, 0, 0, 0, n), None, lambda n: n),
    )
    for what, sizes, counts, off, times in parts:
        before = None
        for size in sizes:
            took = least(program, asked.rounds, counts(size)) - (least(program, asked.rounds, off(size)) if off else 0)
            growth = f", {took / before[1]:.2f} times that of {before[0]:,}" if before else ""
            print(f"{size:,} {what}: {took:.3f} s, {took * 1e6 / times(size):.2f} microseconds each{growth}")
            before = (size, took)


if __name__ == "__main__":
    main()
