#!/usr/bin/env python3
"""Times the reading of 50 MB of mixed plain code, operator by operator, and its reading and writing, against loops in C that do the
same, and prints the ratios.

    bench/operators.py [--size BYTES] [--rounds N] [--seed N]

Both read the same file, and must see the same operators and write the same bytes. A time is the processor's, of a whole run but for
the system's calls, the least of the rounds. Calls for memory are counted of these runs and of one that does no more than load the
file: reading makes none, and writing the one for what is written.
"""
import argparse
import os
import random
import resource
import subprocess
import sys
import tempfile

from unproved import benchmark

ROOT = os.path.dirname(os.path.dirname(os.path.abspath(__file__)))

# loaded in front of the C library, it counts the calls for memory
COUNTER = r"""
#define _GNU_SOURCE
#include <dlfcn.h>
#include <stdio.h>
#include <stdlib.h>
static unsigned long calls;
void *malloc(size_t size) {
  static void *(*real)(size_t);
  if (!real) real = (void *(*)(size_t))dlsym(RTLD_NEXT, "malloc");
  calls++;
  return real(size);
}
void *realloc(void *old, size_t size) {
  static void *(*real)(void *, size_t);
  if (!real) real = (void *(*)(void *, size_t))dlsym(RTLD_NEXT, "realloc");
  calls++;
  return real(old, size);
}
__attribute__((destructor)) static void tell(void) { fprintf(stderr, "calls %lu\n", calls); }
"""


def unsigned(n):
    out = []
    while n >= 0x80:
        out.append(n & 0x7F | 0x80)
        n >>= 7
    return bytes(out + [n])


def signed(n):
    out = []
    while not -64 <= n < 64:
        out.append(n & 0x7F | 0x80)
        n >>= 7
    return bytes(out + [n & 0x7F])


def operators(chance):
    """Operators, each with its weight: of the kinds that code is made of, with numbers mostly of one byte."""
    small = lambda: chance.choice([chance.randrange(12), chance.randrange(60), chance.randrange(400)])
    index = lambda: chance.choice([chance.randrange(100), chance.randrange(3000), chance.randrange(40000)])
    offset = lambda: chance.choice([0, 4, 8, 12, 16, chance.randrange(200), chance.randrange(1 << 20)])
    some = []
    add = lambda weight, make, count=40: some.extend((weight / count, make()) for _ in range(count))
    add(30, lambda: bytes([chance.choice([0x20, 0x20, 0x20, 0x21, 0x22])]) + unsigned(small()), 200)
    add(14, lambda: b"\x41" + signed(chance.choice([chance.randrange(-8, 64), chance.randrange(256), chance.randrange(-(1 << 31), 1 << 31)])), 100)
    add(2, lambda: b"\x42" + signed(chance.choice([chance.randrange(64), chance.randrange(-(1 << 63), 1 << 63)])))
    add(1, lambda: b"\x44" + chance.randbytes(8))
    add(16, lambda: bytes([chance.choice([0x6A, 0x6A, 0x6B, 0x71, 0x72, 0x74, 0x46, 0x47, 0x49, 0x45, 0xA7, 0xAD, 0x7C, 0xA0])]))
    add(14, lambda: bytes([chance.choice([0x28, 0x28, 0x29, 0x2D, 0x2F, 0x36, 0x36, 0x37, 0x3A])]) + unsigned(chance.randrange(4)) + unsigned(offset()), 100)
    add(1, lambda: b"\x28" + unsigned(64 + chance.randrange(4)) + unsigned(chance.randrange(1, 4)) + unsigned(offset()))
    add(4, lambda: b"\x10" + unsigned(index()))
    add(3, lambda: bytes([chance.choice([0x23, 0x24])]) + unsigned(chance.randrange(4)))
    add(5, lambda: bytes([chance.choice([0x0C, 0x0D, 0x0D])]) + unsigned(chance.randrange(6)))
    add(4, lambda: bytes([chance.choice([0x02, 0x03, 0x04]), chance.choice([0x40, 0x40, 0x7F, 0x7E])]))
    add(4, lambda: b"\x0b")
    add(2, lambda: chance.choice([b"\x1a", b"\x1b", b"\x05", b"\x0f", b"\x00"]))
    add(0.5, lambda: b"\xfc" + unsigned(chance.choice([0, 2, 3, 6])))
    add(0.3, lambda: b"\xfc\x0a\x00\x00", 1)
    add(0.5, lambda: b"\xfb" + unsigned(chance.randrange(2, 6)) + unsigned(index()) + unsigned(chance.randrange(8)))
    add(1, lambda: b"\xfd" + unsigned(chance.choice([14, 35, 77, 80, 174, 230, 241])))
    add(0.4, lambda: b"\xfd" + unsigned(chance.choice([0, 11])) + unsigned(chance.randrange(5)) + unsigned(offset()))
    add(0.3, lambda: b"\xfd" + unsigned(chance.randrange(21, 35)) + bytes([chance.randrange(4)]))
    return some


def make(size, seed):
    """So many bytes of operators by chance: a fifth, five times."""
    chance = random.Random(seed)
    some = operators(chance)
    weights, texts = [w for w, _ in some], [t for _, t in some]
    part, length = [], 0
    while length < size // 5:
        more = chance.choices(texts, weights, k=100000)
        part += more
        length += sum(map(len, more))
    return b"".join(part) * 5


def measured(program, file, way):
    """The seconds of the processor that one run takes, and what it prints."""
    before = resource.getrusage(resource.RUSAGE_CHILDREN).ru_utime
    done = subprocess.run([*program, file, way], capture_output=True, text=True, check=True)
    return resource.getrusage(resource.RUSAGE_CHILDREN).ru_utime - before, done.stdout


def calls(counter, ours, file, way):
    done = subprocess.run([*ours, file, way], capture_output=True, text=True, check=True, env={**os.environ, "LD_PRELOAD": counter})
    return int(done.stderr.split("calls ")[1])


def main():
    words = argparse.ArgumentParser(description="Times the reading and writing of operators against loops in C.")
    words.add_argument("--size", type=int, default=50 * 10**6)
    words.add_argument("--rounds", type=int, default=5)
    words.add_argument("--seed", type=int, default=1)
    asked = words.parse_args()
    with tempfile.TemporaryDirectory() as folder:
        code = make(asked.size, asked.seed)
        file = f"{folder}/code"
        with open(file, "wb") as it:
            it.write(code)
        loop = f"{folder}/operators"
        subprocess.run(["gcc", "-O2", "-o", loop, f"{ROOT}/bench/operators.c"], check=True)
        with open(f"{folder}/counter.c", "w", encoding="utf-8") as it:
            it.write(COUNTER)
        subprocess.run(["gcc", "-O2", "-shared", "-fPIC", "-o", f"{folder}/counter.so", f"{folder}/counter.c", "-ldl"], check=True)
        program = [benchmark(), "operators"]
        for way in ("read", "write"):
            rounds = [(measured(program, file, way), measured([loop], file, way)) for _ in range(asked.rounds)]
            if any(ours[1] != theirs[1] for ours, theirs in rounds):
                sys.exit(f"the two don't see the same: {rounds[0]}")
            ours, theirs = min(r[0][0] for r in rounds), min(r[1][0] for r in rounds)
            count = int(rounds[0][0][1].split()[0])
            print(f"{way}, {len(code):,} bytes, {count:,} operators: ours {ours:.3f} s, {ours * 1e9 / count:.1f} ns each, C {theirs:.3f} s, ratio {ours / theirs:.2f}")
        made = {way: calls(f"{folder}/counter.so", program, file, way) for way in ("load", "read", "write")}
        print(f"calls for memory more than to load the file: reading {made['read'] - made['load']}, writing {made['write'] - made['load']}")


if __name__ == "__main__":
    main()
