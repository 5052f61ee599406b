#!/usr/bin/env python3
"""Counts the paths of the dependency graph in crates.txt, which the toolchain walks one by one.

    python3 bench/paths.py [MOST]

Prints how many there are, and the crates with most of them; ends with status 1 where there are more than MOST (375,000).
"""

import functools
import os
import sys

ROOT = os.path.dirname(os.path.dirname(os.path.abspath(__file__)))


def crates():
    """Gives a dict from each crate to what its line lists."""
    listed = {}
    with open(f"{ROOT}/crates.txt") as file:
        for line in file:
            name, colon, below = line.partition("#")[0].partition(":")
            if colon:
                listed[name.split()[0]] = below.split()
    return listed


def main():
    most = int(sys.argv[1]) if len(sys.argv) > 1 else 375_000
    below = crates()

    @functools.cache
    def paths(name):
        return 1 + sum(paths(it) for it in below[name] if it in below)

    total = sum(map(paths, below))
    print(f"{total} paths, {sum(map(len, below.values()))} edges, {len(below)} crates")
    for name in sorted(below, key=paths, reverse=True)[:10]:
        print(f"{paths(name):8} {name}")
    return total > most


if __name__ == "__main__":
    sys.exit(main())
