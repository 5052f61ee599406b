#!/usr/bin/env python3
"""Times the parsing of function bodies into trees, and their parsing and emission together, against a loop in C that only decodes the
same operators, and prints the ratios, the memory an instruction and the time an operator.

    bench/bodies.py [--rounds N] [--seed N] [--only WORD]

Each body stands in a file, and is in normal form: what is written is the body again. A time is the processor's, the system's calls
included, of a whole run less that of one that does no more than load the file (the loop in C: that reads an empty one), the least of the
rounds, in each of which all run by turns, memory being touched before each (`back` of bench/compare.py); memory is the greatest that a run holds, less that of one that loads the file, over the
instructions of the tree: of few instructions it says nothing. Each is measured twice: with large pages, for which the programs in bin/ have the C library ask, and with
small ones. A tree takes some twenty times the memory of its code, of which the loop in C touches none, and the kernel's work for new pages
of 4 KiB is a third of the time of parsing; pages of 2 MiB round the memory up by one or two of them. With large pages the C library also
takes memory from the kernel 64 MiB at a time: else it maps lists of more than 128 KiB one by one, at places that lie across large pages, so
that most of such a list has small ones.
"""
import argparse
import os
import random
import subprocess
import sys
import tempfile

sys.path.insert(0, os.path.dirname(os.path.abspath(__file__)))
from compare import LARGE_PAGES, back  # noqa: E402
from operators import signed, unsigned  # noqa: E402
from unproved import benchmark  # noqa: E402

ROOT = os.path.dirname(os.path.dirname(os.path.abspath(__file__)))
# runs a program and tells its processor time in microseconds and its peak in kilobytes: a child of this small process, since the peak of
# one that a greater process starts is that of both
RUNNER = r"""
#include <stdio.h>
#include <sys/resource.h>
#include <sys/wait.h>
#include <unistd.h>
int main(int count, char **words) {
  (void)count;
  pid_t child = fork();
  if (child == 0) { execv(words[1], words + 1); _exit(127); }
  int status;
  struct rusage used;
  wait4(child, &status, 0, &used);
  fprintf(stderr, "%ld %ld\n", (used.ru_utime.tv_sec + used.ru_stime.tv_sec) * 1000000L + used.ru_utime.tv_usec + used.ru_stime.tv_usec, used.ru_maxrss);
  return status != 0;
}
"""

# what is parsed, how many operators, how many locals, how deep its blocks of ten operators nest (0: blocks by chance, a few deep)
SHAPES = (
    ("100,000 operators", 10**5, 400, 0),
    ("1,000,000 operators", 10**6, 400, 0),
    ("10,000,000 operators", 10**7, 400, 0),
    ("1,000,000 operators, 10 locals", 10**6, 10, 0),
    ("1,000,000 operators, 49,000 locals", 10**6, 49000, 0),
    ("100,000 blocks of ten operators, beside each other", 10**6, 400, 1),
    ("the same, 10 deep", 10**6, 400, 10),
    ("the same, 1,000 deep", 10**6, 400, 1000),
    ("the same, 100,000 deep", 10**6, 400, 10**5),
)

PAGES = (("large pages", {name: f"{value}:glibc.malloc.top_pad={64 << 20}" for name, value in LARGE_PAGES.items()}), ("small pages", {}))


def plain(chance, some_locals):
    """An operator that names no label, of the kinds that code is made of."""
    way = chance.random()
    if way < 0.38:
        return bytes([chance.choice([0x20, 0x20, 0x20, 0x21, 0x22])]) + unsigned(chance.randrange(some_locals))
    if way < 0.55:
        return b"\x41" + signed(chance.choice([chance.randrange(-8, 64), chance.randrange(256), chance.randrange(-(1 << 31), 1 << 31)]))
    if way < 0.57:
        return b"\x42" + signed(chance.choice([chance.randrange(64), chance.randrange(-(1 << 63), 1 << 63)]))
    if way < 0.58:
        return b"\x44" + chance.randbytes(8)
    if way < 0.76:
        return bytes([chance.choice([0x6A, 0x6A, 0x6B, 0x71, 0x72, 0x74, 0x46, 0x47, 0x49, 0x45, 0xA7, 0xAD, 0x7C, 0xA0])])
    if way < 0.91:
        offset = chance.choice([0, 4, 8, 12, 16, chance.randrange(200), chance.randrange(1 << 20)])
        return bytes([chance.choice([0x28, 0x28, 0x29, 0x2D, 0x2F, 0x36, 0x36, 0x37, 0x3A])]) + unsigned(chance.randrange(4)) + unsigned(offset)
    if way < 0.95:
        return b"\x10\x00"
    if way < 0.97:
        return bytes([chance.choice([0x23, 0x24])]) + b"\x00"
    return chance.choice([b"\x1a", b"\x1b", b"\xfc\x02", b"\xfd\x0e", b"\xfd\x4d"])


def blocks(chance, count, some_locals):
    """So many operators, in blocks by chance that lie a few deep, all of which are closed."""
    out, kinds = [], []
    while len(out) < count - len(kinds):
        way = chance.random()
        if way < 0.04 and len(kinds) < 7:
            kinds.append(chance.choice([0x02, 0x03, 0x04]))
            out.append(bytes([kinds[-1], chance.choice([0x40, 0x40, 0x7F, 0x7E])]))
        elif way < 0.08 and kinds:
            if chance.random() < 0.3:
                out.append(b"\x0c" + unsigned(chance.randrange(len(kinds))))
            out.append(b"\x05" if kinds[-1] == 0x04 else b"\x0b")
            kinds[-1:] = [0x05] if kinds[-1] == 0x04 else []
        elif way < 0.12:
            out.append(b"\x0d" + unsigned(chance.randrange(len(kinds) + 1)))
        else:
            out.append(plain(chance, some_locals))
    for kind in reversed(kinds):
        out += [b"\x05", b"\x0b"] if kind == 0x04 else [b"\x0b"]
    return b"".join(out)


def nest(chance, depth, some_locals):
    """So many blocks inside one another, each of ten operators: one of them branches to a block around it."""
    out = []
    for k in range(depth):
        out.append(b"\x02\x40")
        out += [plain(chance, some_locals) for _ in range(7)]
        out.append(b"\x0d" + unsigned(chance.randrange(k + 2)))
    return b"".join(out) + b"\x0b" * depth


def body(chance, count, some_locals, depth):
    """The declaration of the locals, and the operators: each local is used once at least."""
    used = b"".join(b"\x20" + unsigned(k) + b"\x1a" for k in range(some_locals))
    left = max(count - 2 * some_locals - 1, 0)
    if depth:
        code = b"".join(nest(chance, depth, some_locals) for _ in range(max(left // (10 * depth), 1)))
    else:
        part = blocks(chance, min(left, 500000), some_locals)
        code = part * round(left / min(left, 500000))
    return b"\x01" + unsigned(some_locals) + b"\x7f", used + code + b"\x0b"


def measured(size, settings, *words):
    """The seconds of the processor that one run takes, the kilobytes that it holds at most, and what it prints, beside so many mebibytes."""
    back(size)
    run = subprocess.run(words, capture_output=True, text=True, check=True, env={**os.environ, **settings})
    took, held = run.stderr.split()[-2:]
    return int(took) / 1e6, int(held), run.stdout


def in_turns(rounds, size, runs):
    """Of each run the least time and memory of the rounds, and what it prints. Each round has all of them, so that what disturbs the machine for
    seconds disturbs all."""
    found = [{name: measured(size, *run) for name, run in runs.items()} for _ in range(rounds)]
    return {name: (min(it[name][0] for it in found), min(it[name][1] for it in found), found[0][name][2]) for name in runs}


def main():
    words = argparse.ArgumentParser(description="Times the parsing and emission of bodies against a loop in C that decodes them.")
    words.add_argument("--rounds", type=int, default=9)
    words.add_argument("--seed", type=int, default=1)
    words.add_argument("--only", default="")
    asked = words.parse_args()
    with tempfile.TemporaryDirectory() as folder:
        loop = f"{folder}/operators"
        subprocess.run(["gcc", "-O2", "-o", loop, f"{ROOT}/bench/operators.c"], check=True)
        runner = f"{folder}/runner"
        with open(f"{runner}.c", "w", encoding="utf-8") as it:
            it.write(RUNNER)
        subprocess.run(["gcc", "-O2", "-o", runner, f"{runner}.c"], check=True)
        ours, file, code = benchmark(), f"{folder}/body", f"{folder}/code"
        first = {}
        for what, count, some_locals, depth in SHAPES:
            if asked.only not in what:
                continue
            declared, operators = body(random.Random(asked.seed), count, some_locals, depth)
            for name, text in ((file, declared + operators), (code, operators)):
                with open(name, "wb") as it:
                    it.write(text)
            runs = {way: ({}, runner, loop, of, "read") for way, of in (("decoded", code), ("nothing", "/dev/null"))}
            for pages, settings in PAGES:
                runs |= {(pages, way): (settings, runner, ours, "body", file, way) for way in ("load", "parse", "both")}
            found = in_turns(asked.rounds, 64 + count // 10**4, runs)
            decoded = found["decoded"][0] - found["nothing"][0]
            seen = int(found["decoded"][2].split()[0])
            for pages, _ in PAGES:
                load, parse, both = (found[pages, way] for way in ("load", "parse", "both"))
                instructions, written = (int(both[2].split()[k]) for k in (0, 2))
                if written != len(declared) + len(operators):
                    sys.exit(f"{what}: of {len(declared) + len(operators)} bytes {written} are written")
                parsed, all_of_it = parse[0] - load[0], both[0] - load[0]
                each = all_of_it / seen
                first.setdefault(pages, each)
                memory = (parse[1] - load[1]) * 1024 / instructions
                print(
                    f"{what}, {pages}: {seen:,} operators, parsed {parsed * 1e9 / seen:.1f} ns each, and written {each * 1e9:.1f} ns, C {decoded * 1e9 / seen:.1f} ns,"
                    f" ratio {all_of_it / decoded:.2f}; {each / first[pages]:.2f} times the first; {memory:.1f} bytes an instruction",
                    flush=True,
                )


if __name__ == "__main__":
    main()
