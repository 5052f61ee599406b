#!/usr/bin/env python3
"""Times the programs on names and types that are bad for a table of them, and prints the time of each doubling.

    bench/collisions.py [--rounds N] [--least N] [--most N] [--only WORD] [--instructions] [--small-pages]

Exports are read by both programs, types by walrus_inspect alone. The names of one row all collide under the hasher of
the kit's hash tables, whose seed is fixed; those of the next differ in their last bytes alone, behind a long prefix that
all have; those of the last are plain. Types are function types of ten parameters, in no order, behind fifty more that all
have in common, or without these; those of the last row are of ten lists of 14 parameters, and the first halves of their hashes are
all the same. A time is the middle one of the rounds, from the start of the program to its end, and in brackets its own part of that, without the
system's (as the kernel samples it: of some hundredths of a second it says little); behind it stands the least. Where a host swings by a third,
short runs find a quiet moment more often than long ones, so that of the least the factors are higher and lower by turns. Memory is touched before each run, as on some hosts new
pages alone take seven times the time for twice as many (`back` of bench/compare.py, bench/pages.c). Wanted is a factor of at most 2.2 a doubling. The sizes take turns, so that
what else the machine does meets all of them alike. With --instructions those of the processor are counted by valgrind, which no other work
and no cache disturbs, in place of the time. The C library asks for large pages, as it does for the programs in bin/, unless --small-pages
is given.
"""
import argparse
import os
import re
import resource
import statistics
import subprocess
import sys
import tempfile

from compare import LARGE_PAGES, back
from make_module import section, unsigned, vector

ROOT = os.path.dirname(os.path.dirname(os.path.abspath(__file__)))
REWRITER = f"{ROOT}/out/proved/wasm_rewriter"
INSPECTOR = f"{ROOT}/out/proved/walrus_inspect"
# In 24 bytes, whatever eight ASCII bytes follow.
COLLIDING = b"d3cljs4c6ezfz6tz" + bytes.fromhex("576a68d6a3d8997c")
PREFIX = b"a" * 200


def free(number):
    """Eight ASCII bytes, others for each number."""
    return f"{number:08x}".encode()


def scattered(number):
    """Another number below 2^32 for each."""
    return number * 2654435761 % 2**32


HEADER = b"\0asm\x01\0\0\0"


def exporting(name):
    """What makes a module of so many exports, of these names."""

    def module(count):
        names = [name(number) for number in range(count)]
        exports = vector([unsigned(len(name)) + name + b"\x00\x00" for name in names])
        return HEADER + section(1, b"\x01\x60\x00\x00") + section(3, b"\x01\x00") + section(7, exports) + section(10, b"\x01\x02\x00\x0b")

    return module


def typing(front, lists=(b"\x7f", b"\x7e", b"\x7d", b"\x7c")):
    """What makes a module of so many function types with these parameters in common, and behind them ten of these four lists."""

    def module(count):
        # ten digits of base 4, another number below 4^10 for each type
        own = [b"".join(lists[(number * 421_773 % 4**10) >> 2 * k & 3] for k in range(10)) for number in range(count)]
        return HEADER + section(1, vector([b"\x60" + unsigned(len(front + types)) + front + types + b"\x00" for types in own]))

    return module


# The numbers that specs/Hashes.antt of walrus_type_index gives to value types, each with the byte that spells it.
NUMBERS = {1: 0x7F, 2: 0x7E, 3: 0x7D, 4: 0x7C, 5: 0x7B}
NUMBERS |= dict(enumerate((0x70, 0x6F, 0x6E, 0x71, 0x72, 0x73, 0x6D, 0x6B, 0x6A, 0x6C, 0x69, 0x74), 8))
# Four lists of one length and one first half of the hash: the sums of their numbers times powers of 16777619 are equal modulo 2^64, so that any
# two rows of as many of them have one such half, too. Such lists are found by reducing the lattice of the differences of two.
COLLIDING_LISTS = [
    bytes(NUMBERS[number] for number in numbers)
    for numbers in (
        (1, 5, 2, 17, 4, 4, 2, 15, 5, 1, 9, 5, 3, 19),
        (9, 10, 8, 17, 1, 10, 1, 1, 11, 15, 2, 9, 11, 1),
        (10, 12, 10, 19, 19, 1, 1, 11, 14, 11, 1, 5, 8, 16),
        (2, 8, 3, 1, 12, 12, 5, 3, 1, 11, 12, 1, 9, 16),
    )
]
NAMES = {
    "names that collide": lambda number: COLLIDING + free(number),
    "names with a long prefix": lambda number: PREFIX + free(number),
    "plain names": lambda number: b"function " + free(scattered(number)),
}
ROWS = [
    *[(f"{kind}, wasm_rewriter", REWRITER, exporting(name)) for kind, name in NAMES.items()],
    *[(f"{kind}, walrus_inspect", INSPECTOR, exporting(name)) for kind, name in NAMES.items()],
    ("types with a long front, walrus_inspect", INSPECTOR, typing(b"\x7f" * 50)),
    ("plain types, walrus_inspect", INSPECTOR, typing(b"")),
    ("types that collide, walrus_inspect", INSPECTOR, typing(b"", COLLIDING_LISTS)),
]


def seconds(words, settings):
    """The seconds of the processor that a program took, and those that it took itself."""
    # Types take the most, some forty times their file.
    back(max(1536, 40 * os.path.getsize(words[1]) >> 20))
    before = resource.getrusage(resource.RUSAGE_CHILDREN)
    subprocess.run(words, check=True, stdout=subprocess.DEVNULL, env={**os.environ, **settings})
    after = resource.getrusage(resource.RUSAGE_CHILDREN)
    own = after.ru_utime - before.ru_utime
    return own + after.ru_stime - before.ru_stime, own


def instructions(words, settings):
    """The instructions of the processor that a program took, in millions."""
    with tempfile.NamedTemporaryFile(suffix=".count") as file:
        tool = ["valgrind", "--tool=callgrind", f"--callgrind-out-file={file.name}", *words]
        said = subprocess.run(tool, capture_output=True, text=True, check=True, env={**os.environ, **settings}).stderr
    counted = int(re.search(r"Collected : (\d+)", said)[1]) / 1e6
    return counted, counted


def main():
    words = argparse.ArgumentParser(description="Times names and types that are bad for a table of them.")
    words.add_argument("--rounds", type=int, default=5)
    words.add_argument("--most", type=int, default=640_000, help="the most names or types of a module")
    words.add_argument("--least", type=int, default=20_000, help="the least, doubled up to the most")
    words.add_argument("--instructions", action="store_true", help="count instructions in place of the time")
    words.add_argument("--only", default="", help="the rows that have this word alone")
    words.add_argument("--small-pages", action="store_true")
    asked = words.parse_args()
    settings = {} if asked.small_pages else LARGE_PAGES
    cost, unit, rounds = (instructions, "million instructions", 1) if asked.instructions else (seconds, "s", asked.rounds)
    for name in ("wasm_rewriter", "walrus_inspect"):
        subprocess.run([f"{ROOT}/bin/{name}", "--help"], check=True, stdout=subprocess.DEVNULL)
    sizes = [asked.least]
    while 2 * sizes[-1] <= asked.most:
        sizes.append(2 * sizes[-1])
    with tempfile.TemporaryDirectory() as folder:
        for kind, program, module in ROWS:
            if asked.only not in kind:
                continue
            output = [f"{folder}/out.wasm"] if program == REWRITER else []
            for count in sizes:
                with open(f"{folder}/{count}.wasm", "wb") as file:
                    file.write(module(count))
            took = {count: [] for count in sizes}
            for _ in range(rounds):
                for count in sizes:
                    took[count].append(cost([program, f"{folder}/{count}.wasm", *output], settings))
            last = None
            for count in sizes:
                times = [all_of_it for all_of_it, _ in took[count]]
                middle, least = statistics.median(times), min(times)
                own = statistics.median(own for _, own in took[count])
                factor = f", {middle / last[0]:.2f} times ({own / last[1]:.2f}), the least {least / last[2]:.2f}" if last else ""
                print(f"{count:,} {kind}: {middle:.3f} ({own:.3f}) {unit}, the least {least:.3f}{factor}", flush=True)
                last = middle, max(own, 0.001), least


if __name__ == "__main__":
    sys.exit(main())
