#!/usr/bin/env python3
"""Times adding, finding and deleting items in each of a module's nine collections, and prints the time an item.

    bench/item_collections.py [--rounds N]

A time is the least of the rounds. In brackets stands what an item takes at that size against the size before, half of it: 1 is linear.
"""
import argparse
import subprocess
import sys

from unproved import benchmark

SIZES = (250_000, 500_000, 1_000_000, 2_000_000)


def least(program, rounds, count):
    """The least microseconds of adding, of finding and of deleting so many items, by collection."""
    found = {}
    for _ in range(rounds):
        said = subprocess.run([program, "collections", str(count)], capture_output=True, text=True, check=True)
        for line in said.stdout.splitlines():
            if not line.endswith(f": {count} found, 0 left"):
                sys.exit(f"wrong counts: {line}")
        for line in said.stderr.splitlines():
            name, *times = line.split()
            now = list(map(int, times))
            found[name] = list(map(min, found.get(name, now), now))
    return found


def main():
    parser = argparse.ArgumentParser(description="Times the collections of a module.")
    parser.add_argument("--rounds", type=int, default=5)
    asked = parser.parse_args()
    program = benchmark()
    figures = {count: least(program, asked.rounds, count) for count in SIZES}
    print("| Nanoseconds an item | " + " | ".join(f"{call}, {count:,}" for call in ("added", "found", "deleted") for count in SIZES) + " |")
    print("|---" * (1 + 3 * len(SIZES)) + "|")
    for name in figures[SIZES[0]]:
        cells = []
        for call in range(3):
            before = None
            for count in SIZES:
                each = figures[count][name][call] * 1000 / count
                cells.append(f"{each:.1f}" + (f" ({each / before:.1f})" if before else ""))
                before = each
        print(f"| {name} | " + " | ".join(cells) + " |")


if __name__ == "__main__":
    main()
