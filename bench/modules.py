#!/usr/bin/env python3
"""Prints what each function of a crate took to prove, dearest first, by when its parts were kept; nothing is run.

    bench/modules.py [--most N] [--minutes N] CRATE..

`rt check` keeps each module that it has checked in out/incremental; a module's share is the time from the one before it to its own. So
these are seconds by the clock, of the whole machine's work, and two times what the processor took where two programs want it. Beside a
function stand its dearest parts: Lts is its code as steps (many paths, many owned values), Proof what the search did, Answers what files say.
--minutes looks at the last ones alone, for checks over what was kept before.
"""
import argparse
import collections
import os
import re
import time

ROOT = os.path.dirname(os.path.dirname(os.path.abspath(__file__)))
# What was kept in another check is no neighbour of what comes next.
LONGEST = 300


def kept(crate, since):
    """The names of the modules that were kept, each with its time, in the order of times."""
    found = []
    for folder, _, names in os.walk(f"{ROOT}/crates/{crate}/out/incremental"):
        for name in names:
            if name.endswith(".oantt"):
                found.append((os.stat(f"{folder}/{name}").st_mtime, name.removesuffix(".oantt").removesuffix(".decls")))
    return sorted(it for it in found if it[0] >= since)


def shares(crate, modules):
    """By function, or by module where it belongs to none: the seconds of its parts."""
    found = collections.defaultdict(collections.Counter)
    for (before, _), (at, name) in zip(modules, modules[1:]):
        if at - before < LONGEST:
            own = re.fullmatch(rf"Rattle-{crate}-proofs\.(.*)\.([A-Z]\w*)", name)
            function, part = own.groups() if own else (name.removeprefix("Rattle-"), "")
            found[function][part] += at - before
    return found


def main():
    words = argparse.ArgumentParser(description="What each function of a crate took to prove.")
    words.add_argument("crates", nargs="+")
    words.add_argument("--most", type=int, default=20)
    words.add_argument("--minutes", type=float)
    asked = words.parse_args()
    since = time.time() - 60 * asked.minutes if asked.minutes else 0
    for crate in asked.crates:
        found = shares(crate, kept(crate, since))
        print(f"{sum(map(lambda it: it.total(), found.values())):8.1f} {crate}")
        for function, parts in sorted(found.items(), key=lambda it: -it[1].total())[: asked.most]:
            told = ", ".join(f"{part} {seconds:.1f}" for part, seconds in parts.most_common(3) if part)
            print(f"{parts.total():8.1f}   {function}" + f" ({told})" * bool(told))


if __name__ == "__main__":
    main()
