#!/usr/bin/env python3
"""Drops libraries from lines of crates.txt that others of the same line pass on, and names them through these.

    python3 bench/thin.py CRATE..

A library is passed on by `pub use Rattle.D.specs as D` in specs/Lib.antt and, where code names it, by `pub use D as alias;` in src/lib.rt.
It stays listed where its lemmas under `proofs/` or its tactics are named. Afterwards: `rt fmt` and `rt check` in each of the crates, from
the lowest on; `bench/paths.py` counts what it was worth.
"""

import functools
import os
import re
import sys

ROOT = os.path.dirname(os.path.dirname(os.path.abspath(__file__)))


def read(path):
    if not os.path.isfile(path):
        return ""
    with open(path) as file:
        return file.read()


class Crates:
    def __init__(self):
        self.lines = read(f"{ROOT}/crates.txt").split("\n")
        self.listed, self.place = {}, {}
        for place, line in enumerate(self.lines):
            name, colon, below = line.partition("#")[0].partition(":")
            if colon:
                self.listed[name.split()[0]] = below.split()
                self.place[name.split()[0]] = place

    def paths(self):
        """Gives a function from a crate to how many paths begin at it."""

        @functools.cache
        def count(name):
            return 1 + sum(count(it) for it in self.listed[name] if it in self.listed)

        return count

    def passed(self, name):
        """What a crate's specs pass on."""
        return re.findall(r"^pub use Rattle\.\w+\.specs(?:\.\w+)* as (\w+)", read(f"{ROOT}/crates/{name}/specs/Lib.antt"), re.M)

    def named(self, name):
        """What its code passes on: each path with its alias."""
        text = read(f"{ROOT}/crates/{name}/src/lib.rt")
        found = dict(re.findall(r"^pub use ([\w:]+) as (\w+);", text, re.M))
        return found | {it: it.split("::")[-1] for it in re.findall(r"^pub use (\w+(?:::\w+)+);", text, re.M)}

    def library(self, path):
        """The library that a path of code names, or None."""
        here, *rest = path.split("::")
        for word in rest:
            ways = [it for it, alias in self.named(here).items() if alias == word] if here in self.listed else []
            here = self.library(ways[0]) if ways else None
        return here if here in self.listed else None

    def reach(self, start, steps, begin, join):
        """Gives each library that is passed on, with the shortest path to it."""
        found, queue = {}, [(start, begin)]
        while queue:
            here, path = queue.pop(0)
            for library, word in steps(here):
                if library in self.listed and library not in found and library != start:
                    found[library] = f"{path}{join}{word}"
                    queue.append((library, found[library]))
        return found

    def in_specs(self, name):
        return self.reach(name, lambda it: [(word, word) for word in self.passed(it)], f"Rattle.{name}.specs", ".")

    def in_code(self, name):
        return self.reach(name, lambda it: [(self.library(path), alias) for path, alias in self.named(it).items()], name, "::")


def texts(name):
    found = {}
    for part in ("src", "specs", "proofs"):
        for folder, _, names in os.walk(f"{ROOT}/crates/{name}/{part}"):
            found |= {f"{folder}/{it}": read(f"{folder}/{it}") for it in names if it.endswith((".rt", ".antt"))}
    return found


def thin(crates, name):
    files, count = texts(name), crates.paths()
    for library in sorted((it for it in crates.listed[name] if it in crates.listed), key=count, reverse=True):
        code = [text for file, text in files.items() if file.endswith(".rt")]
        uses = rf"(?<![\w.:]){library}(?=::| as )"
        if any(f"Rattle.{library}.proofs" in it for it in files.values()) or any(re.search(rf"tactic\([^\n]*{library}::", it) for it in code):
            continue
        others = [it for it in crates.listed[name] if it != library and it in crates.listed]
        specs = [it[library] for it in map(crates.in_specs, others) if library in it]
        ways = [it[library] for it in map(crates.in_code, others) if library in it]
        if not specs and any(f"Rattle.{library}." in it for it in files.values()) or not ways and any(re.search(uses, it) for it in code):
            continue
        for file, text in files.items():
            if specs:
                text = re.sub(rf"Rattle\.{library}\.specs\b", min(specs, key=len), text)
            if ways and file.endswith(".rt"):
                text = re.sub(uses, min(ways, key=len), text)
            files[file] = text
        crates.listed[name].remove(library)
    for file, text in files.items():
        if text != read(file):
            with open(file, "w") as out:
                out.write(text)
    place = crates.place[name]
    crates.lines[place] = f"{crates.lines[place].partition(':')[0]}: {' '.join(crates.listed[name])}"


def main():
    crates = Crates()
    for name in sys.argv[1:]:
        before = crates.paths()(name)
        thin(crates, name)
        print(f"{name}: {before} paths, now {crates.paths()(name)}")
    with open(f"{ROOT}/crates.txt", "w") as out:
        out.write("\n".join(crates.lines))


if __name__ == "__main__":
    sys.exit(main())
