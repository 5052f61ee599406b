#!/usr/bin/env python3
"""Prints what a check made for each function of a crate, largest first: the size of its Lts and of all its files, in MB, and the seconds before them.

    bench/lts.py CRATE [--most N]

It reads what `rt check` or `rt test` kept in the crate's out/incremental, so remove that before a check whose seconds are to mean something.
A function's Lts is what the kernel checks first, and most of its cost: 0.6 to 1 second of the processor a megabyte up to 3, 1.5 to 4 from 6 on.
"""
import argparse
import collections
import os
import re

ROOT = os.path.dirname(os.path.dirname(os.path.abspath(__file__)))


def kept(folder):
    """The time, size and name of each file, as they were written."""
    found = []
    for at, _, names in os.walk(folder):
        for name in names:
            about = os.stat(f"{at}/{name}")
            found.append((about.st_mtime_ns / 1e9, about.st_size, name))
    return sorted(found)


def main():
    words = argparse.ArgumentParser(description="What a check made for each function of a crate.")
    words.add_argument("crate")
    words.add_argument("--most", type=int, default=40)
    asked = words.parse_args()
    files = kept(f"{ROOT}/crates/{asked.crate}/out/incremental")
    seconds, whole, lts = collections.Counter(), collections.Counter(), collections.Counter()
    last = files[0][0] if files else 0
    for time, size, name in files:
        path = re.sub(rf"^Rattle-{asked.crate}-(proofs|specs)\.|\.(decls\.)?oantt$", "", name)
        function, _, part = path.rpartition(".")
        seconds[function] += time - last
        whole[function] += size
        lts[function] += size * (part == "Lts")
        last = time
    print(f"{sum(lts.values()) / 1e6:.1f} MB of Lts, {sum(whole.values()) / 1e6:.1f} MB together")
    for function, size in lts.most_common(asked.most):
        print(f"{size / 1e6:7.2f} {whole[function] / 1e6:7.2f} MB {seconds[function]:7.1f} s  {function}")


if __name__ == "__main__":
    main()
