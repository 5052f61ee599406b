#!/usr/bin/env python3
"""Makes the list of crates in docs/ARCHITECTURE.md, between its two marks, of crates.txt and the first sentence of each crate's head comment.

    bench/map.py [--check]

With --check nothing is written, and the status is 1 where the list isn't what it would be. A level counts the crates of the longest chain below.
"""

import os
import re
import sys
import textwrap

from sources import ROOT, Crates, head, read, root_of

FILE = "docs/ARCHITECTURE.md"
MARKS = "<!-- crates: what bench/map.py makes -->", "<!-- crates: the end -->"
TESTS = re.compile(r"_tests$|^test_words$|^tests$|^rows$|_rows$|^examples?(_|$)")
TITLES = {
    "standard": "Definitions and laws of the standard, without code",
    "laws": "Laws of the library, without code",
    "code": "The library",
    "program": "Programs, and what they stand on",
    "test": "Tests, and examples that are computed",
}


def sort_of(name, module):
    if TESTS.search(name):
        return "test"
    if name.startswith(("rewriter_", "inspect_", "wasm_rewriter")) or name.endswith("_cli"):
        return "program"
    # a face has no code of its own, and gives that of others
    if any(it.names for it in module.tree()) or any(not it.is_law for it in module.everything()) or "pub use" in read(root_of(name)).split("mod ")[0]:
        return "code"
    return "standard" if name.startswith("wasm_") else "laws"


def levels(own):
    found = {}

    def level(name):
        if name not in found:
            found[name] = 0
            found[name] = 1 + max((level(it) for it in own[name]), default=0)
        return found[name]

    for name in own:
        level(name)
    return found


def made():
    crates = Crates()
    below = crates.listed
    own = {name: [it for it in names if it in below] for name, names in below.items()}
    level = levels(own)
    above = {name: sum(name in names for names in own.values()) for name in own}
    sorts = {}
    for name in own:
        sorts.setdefault(sort_of(name, crates.module(name)), []).append(name)
    out = [f"{len(own)} crates. Behind a name stand its level (how many crates the longest chain below it has, itself among them) and how many name it.", ""]
    for sort, title in TITLES.items():
        names = sorted(sorts.get(sort, []), key=lambda it: (level[it], it))
        if not names:
            continue
        out += [f"### {title} ({len(names)})", ""]
        for name in names:
            text = f"`{name}` ({level[name]}, {above[name]}): {head(name) or 'no comment.'}"
            out.append(textwrap.fill(text, 158, initial_indent="- ", subsequent_indent="  ", break_long_words=False, break_on_hyphens=False))
        out.append("")
    return "\n".join(out)


def main():
    old = read(FILE) or ""
    if any(it not in old for it in MARKS):
        sys.exit(f"{FILE} has no marks for the crates")
    front, rest = old.split(MARKS[0], 1)
    new = f"{front}{MARKS[0]}\n{made()}{MARKS[1]}{rest.split(MARKS[1], 1)[1]}"
    if "--check" not in sys.argv[1:]:
        with open(os.path.join(ROOT, FILE), "w", encoding="utf-8") as file:
            file.write(new)
    elif new != old:
        sys.exit(f"{FILE}: the crates aren't what bench/map.py makes")


if __name__ == "__main__":
    main()
