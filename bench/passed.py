#!/usr/bin/env python3
"""Says what crates pass on in code, and has them pass on just what crates above name by it.

    python3 bench/passed.py [--write] [CRATE..]

A line `pub use walrus_x as x;` of src/lib.rt gives a crate a module for each public item of walrus_x, at each path that leads to it, which
each check of the crate makes, and which is loaded wherever it is passed on again (docs/GATE.md). Prints for each crate how many items are
named by such lines. With --write the lines become modules of these items, so that no path changes; new uses above want a line more there,
or the script again. Afterwards: `rt fmt` in each of the crates.
"""

import collections
import os
import re
import sys

ROOT = os.path.dirname(os.path.dirname(os.path.abspath(__file__)))
LINE = re.compile(r"(?m)^pub use ([\w:]+)(?:::\{([\w:, \n]+)\})?(?: as (\w+))?;\n")
HEAD = "// Passed on to crates above, which then list this one alone.\n"


def read(path):
    with open(path) as file:
        return file.read()


def items_of(group):
    return [it for it in re.split(r"[,\s]+", group.strip()) if it]


def leaves(text):
    """The paths that a tree of uses names, without aliases."""
    found, depth, part = [], 0, ""
    for char in text + ",":
        if char == "," and not depth:
            found += [part.strip()] * bool(part.strip())
            part = ""
        else:
            depth += (char == "{") - (char == "}")
            part += char
    paths = []
    for it in found:
        tree = re.match(r"(?s)([\w:]+)::\{(.*)\}$", it)
        paths += [f"{tree[1]}::{leaf}" for leaf in leaves(tree[2])] if tree else [re.sub(r"\s+as\s+\w+$", "", it)]
    return [it.removesuffix("::self") for it in paths]


class Crates:
    def __init__(self):
        rows = (line.partition("#")[0].partition(":") for line in read(f"{ROOT}/crates.txt").split("\n"))
        self.names = [name.split()[0] for name, colon, _ in rows if colon]
        self.aliases = {it: self.passed(it) for it in self.names}
        self.wanted = collections.defaultdict(set)
        for name in self.names:
            for path in self.uses(name):
                if not self.library(path):
                    self.want(path)

    def root(self, name):
        return f"{ROOT}/crates/{name}/src/lib.rt"

    def passed(self, name):
        """What a crate's root passes on of other crates, by its word there."""
        if not os.path.isfile(self.root(name)):
            return {}
        found = {}
        for path, group, alias in LINE.findall(read(self.root(name))):
            if path.split("::")[0] in self.names:
                found |= {it.split("::")[-1]: f"{path}::{it}" for it in items_of(group)} if group else {alias or path.split("::")[-1]: path}
        return found

    def library(self, path):
        """The library that a path is, or None."""
        here, *rest = path.split("::")
        for word in rest:
            here = self.library(self.aliases[here][word]) if word in self.aliases.get(here, {}) else None
        return here if here in self.aliases else None

    def wholes(self, name):
        return {word: path for word, path in self.aliases[name].items() if self.library(path)}

    def uses(self, name):
        """Each path that a crate's code names."""
        first = "|".join(sorted(self.names, key=len, reverse=True))
        for folder, _, files in os.walk(f"{ROOT}/crates/{name}/src"):
            for file in (f"{folder}/{it}" for it in files if it.endswith(".rt")):
                text = re.sub(r"//[^\n]*", "", read(file))
                rest = re.sub(r"(?ms)^\s*(pub )?use [^;]*;", "", text)
                for _, tree in re.findall(rf"(?ms)^\s*(pub )?use ((?:{first})\b[^;]*);", text):
                    for path in leaves(tree):
                        yield path
                        # (a library that is brought in by its word)
                        word = path.split("::")[-1]
                        yield from (f"{path}::{it}" for it in re.findall(rf"(?<![\w.:]){word}::([A-Za-z_]\w*)", rest) if self.library(path))
                yield from re.findall(rf"(?<![\w.:])(?:{first})(?:::[A-Za-z_]\w*)+", rest)

    def want(self, path):
        here, *rest = path.split("::")
        whole = self.wholes(here).get(rest[0]) if here in self.aliases and len(rest) > 1 else None
        if whole:
            self.wanted[here].add("::".join(rest))
            self.want("::".join([whole, *rest[1:]]))

    def modules(self, paths, target, indent):
        """The lines of a module that passes these paths of the target on."""
        here = sorted((it for it in paths if "::" not in it), key=lambda it: (it[0].isupper(), it))
        below = sorted({it.partition("::")[0] for it in paths if "::" in it})
        if here:
            yield f"{indent}pub use {target}::{here[0] if len(here) == 1 else '{' + ', '.join(here) + '}'};"
        for word in below:
            yield f"{indent}pub mod {word} {{"
            yield from self.modules([it.partition("::")[2] for it in paths if it.startswith(f"{word}::")], f"{target}::{word}", indent + "    ")
            yield f"{indent}}}"

    def rewritten(self, name):
        """The root of a crate that passes on just what is named."""
        wholes = self.wholes(name)

        def line(found):
            path, group, alias = found.groups()
            words = items_of(group) if group else [alias or path.split("::")[-1]]
            kept = [it for it in words if it.split("::")[-1] not in wholes]
            if path.split("::")[0] not in self.names or kept == words:
                return found[0]
            return f"pub use {path}::{{{', '.join(kept)}}};\n" if kept else ""

        text = LINE.sub(line, read(self.root(name)).replace(HEAD, "")).rstrip("\n") + "\n"
        made = []
        for word, target in sorted(wholes.items()):
            paths = [it.partition("::")[2] for it in self.wanted[name] if it.startswith(f"{word}::")]
            made += [f"pub mod {word} {{", *self.modules(paths, target, "    "), "}"] if paths else []
        return text + (f"\n{HEAD}" + "\n".join(made) + "\n" if made else "")


def main():
    crates, writes = Crates(), "--write" in sys.argv
    asked = [it for it in sys.argv[1:] if it != "--write"] or crates.names
    for name in asked:
        if not crates.wholes(name):
            continue
        print(f"{name}: {len(crates.wanted[name])} items of {', '.join(sorted(map(crates.library, crates.wholes(name).values())))}")
        if writes:
            text = crates.rewritten(name)
            with open(crates.root(name), "w") as file:
                file.write(text)


if __name__ == "__main__":
    sys.exit(main())
