#!/usr/bin/env python3
"""Prints what each function of a crate costs to prove from nothing, dearest first, in seconds of the processor.

    bench/functions.py CRATE [--test] [--most N] [--keep] [--only PATH]..

The libraries below the crate have to be proved (`rt check` in the crate does it). Nothing is kept: neither the crate's out/ is read
nor written, but with --keep, under which what was proved before has no line. A function's share is what was used from the line before
to its own, so the first one has the loading of std in it, and each has what it was the first to load. `end` is what stands behind the
last. What is known so far goes to standard error. With --only (repeatable) a module or a function alone is proved, with what it calls: no verdict,
but each function that isn't proved is told.
"""
import argparse
import os
import re
import shutil
import subprocess
import sys

ROOT = os.path.dirname(os.path.dirname(os.path.abspath(__file__)))
sys.path.insert(0, os.path.dirname(os.path.realpath(shutil.which("rt"))))
import rtlib  # noqa: E402

TICKS = os.sysconf("SC_CLK_TCK")


def used(pid):
    """The processor seconds of a process and of its finished ones."""
    with open(f"/proc/{pid}/stat", errors="replace") as file:
        fields = file.read().rpartition(")")[2].split()
    return sum(map(int, fields[11:15])) / TICKS


def main():
    words = argparse.ArgumentParser(description="What each function of a crate costs to prove.")
    words.add_argument("crate")
    words.add_argument("--test", action="store_true")
    words.add_argument("--most", type=int, default=40)
    words.add_argument("--keep", action="store_true")
    words.add_argument("--only", action="append", default=[])
    asked = words.parse_args()
    os.chdir(ROOT)
    crate = next((it for it in rtlib.crates_below(ROOT) if it.name == asked.crate), None)
    if not crate:
        sys.exit(f"there is no crate {asked.crate}")
    lacking = [it.name for it in crate.below() if not os.path.isdir(it.rlib)]
    if lacking:
        sys.exit(f"not proved yet: {' '.join(lacking)}")
    command = [rtlib.RATTLE, "check", *crate.words(["--jobs", "1"], tests=asked.test, keeps=False), "--progress"]
    command += rtlib.KEPT if asked.keep else []
    command += [word for path in asked.only for word in ("--only", path)]
    how = {"cwd": crate.folder, "stdin": subprocess.DEVNULL, "stdout": subprocess.PIPE, "stderr": subprocess.STDOUT, "text": True}
    shares, last, said = [], 0.0, ""
    with subprocess.Popen(command, **how) as ran:
        for line in ran.stdout:
            now = used(ran.pid)
            found = re.match(r"checked (\S+), \d+ of \d+", line)
            if found:
                shares.append((now - last, found[1]))
                print(f"{now - last:8.1f} {found[1]}", file=sys.stderr, flush=True)
                last = now
            elif line.strip():
                said = line.strip()
                if re.match(r"fn \S+: (?!proved)|\S+:\d+:\d+: error", said):
                    print(said[:200], file=sys.stderr, flush=True)
    whole = os.times()
    whole = whole.children_user + whole.children_system
    shares.append((whole - last, "end"))
    print(f"{whole:8.1f} together; {said[:100]}")
    for seconds, name in sorted(shares, reverse=True)[: asked.most]:
        print(f"{seconds:8.1f} {name}")


if __name__ == "__main__":
    main()
