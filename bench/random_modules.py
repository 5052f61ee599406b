#!/usr/bin/env python3
"""Reads modules that binaryen's fuzzer makes of random bytes, and damaged copies of them, by walrus_inspect.

    bench/random_modules.py [--seed N] [--count N] [--damaged N]

A module has to be read, with the counts of imports, exports, items and segments that its sections state; a damaged one is read, or refused at
a place, and never more than that. Told are modules that are refused, counts that differ, answers that are neither, and damaged modules that
wabt's wasm-validate accepts and we refuse (its version 1.0.32 takes segments of unknown flags, expressions that end with their section, and
alignments of 2^32). binaryen and wabt are installed where they are missing. References with types are left out: binaryen 108 writes them
in a form that the standard gave to other types since.
"""
import argparse
import collections
import os
import random
import subprocess
import sys
import tempfile

from compare import install
from reading import PROGRAM, build

FEATURES = [
    "--enable-" + name
    for name in "mutable-globals sign-ext nontrapping-float-to-int simd bulk-memory exception-handling multivalue tail-call threads memory64 extended-const".split()
]
PASSES = [[], ["-g"], ["-O1"], ["-O2", "-g"], ["--flatten"], ["--merge-blocks"], ["-O3"]]
SECTIONS = {2: "imports", 3: "functions", 4: "tables", 5: "memories", 6: "globals", 7: "exports", 9: "elements", 11: "data", 13: "tags"}
ITEMS = ("functions", "tables", "memories", "globals", "tags")


def leb(data, at):
    value = shift = 0
    while True:
        byte = data[at]
        at += 1
        value |= (byte & 127) << shift
        shift += 7
        if byte < 128:
            return value, at


def stated(data):
    """The counts that the sections of a module state."""
    counts = dict.fromkeys(SECTIONS.values(), 0)
    at = 8
    while at < len(data):
        section = data[at]
        size, at = leb(data, at + 1)
        if section in SECTIONS:
            counts[SECTIONS[section]] = leb(data, at)[0]
        at += size
    return counts


def agree(told, counts):
    """Whether the lines that were told are the stated counts, imported items among them."""
    imported = sum(told[name] - counts[name] for name in ITEMS)
    return imported == counts["imports"] and all(told[name] == counts[name] for name in ("imports", "exports", "elements", "data"))


def damaged(data, chance):
    data = bytearray(data)
    for _ in range(chance.choice([1, 1, 2, 5])):
        at = chance.randrange(8, len(data))
        kind = chance.randrange(3)
        if kind == 0:
            data[at] = chance.randrange(256)
        elif kind == 1:
            data[at] ^= 1 << chance.randrange(8)
        elif len(data) > 16:
            del data[at : at + chance.randrange(1, 4)]
    return bytes(data)


def inspected(file):
    run = subprocess.run([PROGRAM, file], capture_output=True, text=True)
    told = dict(line.split(": ") for line in run.stdout.splitlines())
    return run.returncode, {name: int(count) for name, count in told.items()}, run.stderr.strip()


def main():
    words = argparse.ArgumentParser(description="Reads random modules and damaged ones by walrus_inspect.")
    words.add_argument("--seed", type=int, default=1)
    words.add_argument("--count", type=int, default=500)
    words.add_argument("--damaged", type=int, default=10)
    asked = words.parse_args()
    install()
    build()
    chance = random.Random(asked.seed)
    results = collections.Counter()
    wrong = 0
    with tempfile.TemporaryDirectory() as folder:
        seed, file = f"{folder}/seed", f"{folder}/module.wasm"
        for number in range(asked.count):
            with open(seed, "wb") as out:
                out.write(chance.randbytes(chance.choice([200, 1000, 4000, 12000])))
            made = subprocess.run(["wasm-opt", *FEATURES, "-ttf", seed, "-o", file, *chance.choice(PASSES)], capture_output=True)
            if made.returncode:
                results["not made"] += 1
                continue
            with open(file, "rb") as module:
                data = module.read()
            status, told, error = inspected(file)
            if status or not agree(told, stated(data)):
                wrong += 1
                print(f"{number}: {error or told}", flush=True)
                continue
            results["read"] += 1
            for _ in range(asked.damaged):
                with open(file, "wb") as out:
                    out.write(damaged(data, chance))
                status, told, error = inspected(file)
                results["damaged, read" if status == 0 else "damaged, refused"] += 1
                if status not in (0, 1) or status == 1 and (told or not error.startswith("error at ")):
                    wrong += 1
                    print(f"{number}, damaged: status {status}, {error}", flush=True)
                elif status == 1 and subprocess.run(["wasm-validate", "--enable-all", file], capture_output=True).returncode == 0:
                    results["damaged, refused, valid to wasm-validate"] += 1
                    print(f"{number}, damaged: wasm-validate accepts; {error}", flush=True)
    print(", ".join(f"{what}: {count}" for what, count in sorted(results.items())) + f", wrong: {wrong}")
    sys.exit(wrong > 0)


if __name__ == "__main__":
    main()
