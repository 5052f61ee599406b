#!/usr/bin/env python3
"""Times the test whether a body's sequences form a tree, over flat and nested bodies, and prints the time an instruction.

    bench/trees.py [--rounds N]

A time is the shortest of five tests in a run of `walrus_bench tree`, the least of the rounds. An instruction's time is
compared with that of 1,000,000 instructions in one sequence. A list that pushes fill has room for four instructions of
48 bytes at first; lists without room have memory for just what they hold.
"""
import argparse
import subprocess

from unproved import benchmark

# what is timed, how many blocks, how many instructions in each and in the body, where the blocks stand, and the room of their lists
SHAPES = (
    ("1,000,000 instructions in one sequence", 0, 10**6, "flat", "some"),
    ("100,000 nested blocks of ten instructions", 10**5, 9, "nested", "some"),
    ("100,000 nested blocks of ten instructions, lists without room", 10**5, 9, "nested", "none"),
    ("1,000,000 nested blocks of ten instructions", 10**6, 9, "nested", "some"),
    ("100,000 blocks of ten instructions beside each other", 10**5, 9, "flat", "some"),
    ("100,000 nested blocks of two instructions", 10**5, 1, "nested", "some"),
    ("100,000 nested blocks of two instructions, lists without room", 10**5, 1, "nested", "none"),
    ("100,000 nested blocks that hold the next alone", 10**5, 0, "nested", "some"),
    ("100,000 nested blocks that hold the next alone, lists without room", 10**5, 0, "nested", "none"),
    ("1,000,000 nested blocks that hold the next alone, lists without room", 10**6, 0, "nested", "none"),
)


def least(program, rounds, *words):
    """The microseconds of the shortest test, and the count of instructions."""
    runs = []
    for _ in range(rounds):
        said = subprocess.run([program, "tree", *map(str, words)], capture_output=True, text=True, check=True)
        runs.append((int(said.stderr), int(said.stdout.split()[0])))
    return min(runs)


def main():
    parser = argparse.ArgumentParser(description="Times the test of trees.")
    parser.add_argument("--rounds", type=int, default=5)
    asked = parser.parse_args()
    program = benchmark()
    first = None
    for what, *words in SHAPES:
        took, count = least(program, asked.rounds, *words)
        each = took * 1000 / count
        first = first or each
        print(f"{what}: {took / 1000:.1f} ms, {each:.1f} ns an instruction, {each / first:.2f} times the first")


if __name__ == "__main__":
    main()
