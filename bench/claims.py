#!/usr/bin/env python3
"""Makes docs/CLAIMS.md of the sources: the calls that README.md names as proved, and the laws that the faces of the library give.

    bench/claims.py [--check]

The calls are the names with `::` in the section of README.md whose title begins with "What is proved"; a law is a public function without arguments and
answer. Of a law the row has the first sentence of the comment above it, of a call its clauses, as its comment says what it is for. Where README.md
names something that no contract carries, or a face gives something that isn't found, it says so and ends with status 1. With --check nothing is written,
and the status is 1 where the file isn't what it would be.
"""

import os
import re
import sys
import textwrap

from sources import ROOT, Crates, read, sentence

FACES = ["wasmparser", "walrus_ir", "walrus_body", "walrus", "wasm_rewriter"]
FILE = "docs/CLAIMS.md"
HEAD = """# What is proved, by name

Made by `bench/claims.py` from the sources; `bench/claims.py --check` says whether it is so still. What no contract carries isn't here.

A **law** is a function with nothing to do: what its contract says holds of everything, and a proof that wants it calls the function. Its row has its
crate and the first sentence of the comment above it; the contract says it exactly. The words of contracts are defined in the `specs/` of a function's
crate and of those below (`docs/DEFINITIONS.md` has those on which the headline stands).
"""


def filled(text, first="- ", later="  "):
    return textwrap.fill(text, 158, initial_indent=first, subsequent_indent=later, break_long_words=False, break_on_hyphens=False)


def law_row(name, function, crate):
    return filled(f"`{name}` (`{crate}`): {sentence(function.doc) or 'no comment.'}")


def call_row(name, function, crate):
    """A call with its clauses as they stand."""
    clauses = re.split(r"(?m)^\s*(?=(?:requires|ensures)\b)", function.clauses)
    clauses = [re.sub(r"\s+", " ", it).strip() for it in clauses]
    return "\n".join([f"- `{name}` (`{crate}`)"] + [filled(f"`{it}`", "  - ", "    ") for it in clauses if it.startswith(("requires", "ensures"))])


def owners(function, crate):
    """The names by which a function may be called: its type or trait, its file, its crate."""
    owner = re.sub(r"^(impl|trait)\s*(<[^>]*>)?\s*", "", function.owner or "")
    own = [re.match(r"\w*", it.strip())[0] for it in owner.split(" for ")]
    file = os.path.basename(function.path.split(":")[0])[:-3]
    return {*own, file, crate} - {""}


def named(crates):
    """The calls and the laws that README.md names as proved; and what is wrong with them."""
    calls, laws, faults = [], [], []
    section = re.search(r"(?ms)^## What is proved.*?\n(.*?)(?=^## |\Z)", read("README.md"))
    names = list(dict.fromkeys(re.findall(r"`((?:\w+::)+\w+)`", section[1]))) if section else []
    if not names:
        faults.append("README.md names no call as proved")
    for name in names:
        owner, call = name.split("::")[-2:]
        found = []
        for crate in crates.listed:
            for it in crates.module(crate).everything():
                if it.name == call and it.is_pinned and owner in owners(it, crate) and (it.public or " for " in (it.owner or "")):
                    found.append((it, crate))
        if len(found) == 1:
            (laws if found[0][0].is_law else calls).append((name, *found[0]))
        else:
            faults.append(f"README.md names {name}, which is {len(found)} functions with a contract")
    return calls, laws, faults


def given(crates):
    """The laws that the faces give, by the module in which a face gives them; and what isn't found."""
    groups, faults, seen = {}, [], set()
    for face in FACES:
        if face not in crates.listed:
            faults.append(f"there is no face {face}")
            continue
        functions, missing = crates.given(face)
        faults += [f"{it} names nothing that is there" for it in missing]
        for path, it in sorted(functions, key=lambda pair: pair[0].count("::")):
            if it.is_law and id(it) not in seen:
                seen.add(id(it))
                groups.setdefault(path.rsplit("::", 1)[0], []).append((path.rsplit("::", 1)[1], it))
    return groups, faults


def place(function):
    path, line = function.path.rsplit(":", 1)
    return path, int(line)


def main():
    crates = Crates()
    calls, laws, faults = named(crates)
    groups, more = given(crates)
    out = [HEAD, "## Calls that README.md names, with their clauses\n", *(call_row(*it) for it in calls), ""]
    out += ["## Laws that README.md names\n", *(law_row(name.split("::")[-1], *it) for name, *it in laws), ""]
    out.append("Those that follow are the laws that the faces of the library give, each by the module in which it stands there.\n")
    for group, found in groups.items():
        out.append(f"## `{group}`\n")
        for name, it in sorted(found, key=lambda pair: place(pair[1])):
            out.append(law_row(name, it, it.path.split("/")[1]))
        out.append("")
    text = "\n".join(out).rstrip("\n") + "\n"
    for it in faults + more:
        print(it, file=sys.stderr)
    if "--check" in sys.argv[1:]:
        if read(FILE) != text:
            sys.exit(f"{FILE} isn't what bench/claims.py makes")
    else:
        with open(os.path.join(ROOT, FILE), "w", encoding="utf-8") as file:
            file.write(text)
    sys.exit(1 if faults + more else 0)


if __name__ == "__main__":
    main()
