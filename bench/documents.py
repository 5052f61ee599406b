#!/usr/bin/env python3
"""Checks the documents against the tree: that they are short, and that what they name is there.

    bench/documents.py [DOCUMENT ..]

Says of each document where a line is too long or there are too many, where a date or another machine's doings stand, and which names in backticks
aren't to be found: a path with a slash (below the top, `crates`, or the one folder that the path before it named), a crate, a path of modules, or
a word with an underscore or a capital within. The signatures of docs/LIBRARY.md have to be those of the sources, and each definition of
docs/DEFINITIONS.md has to stand in its file. What bench/claims.py and bench/map.py make is checked by these. Status 1 where anything is wrong.
"""

import glob
import os
import re
import subprocess
import sys

from sources import ROOT, Crates, read

MOST = {
    "README.md": 120,
    "docs/ARCHITECTURE.md": 150,
    "docs/DECISIONS.md": 150,
    "docs/DEFINITIONS.md": 150,
    "docs/DIFFERENCES.md": 90,
    "docs/EXAMPLES.md": 150,
    "docs/GATE.md": 60,
    "docs/LIBRARY.md": 150,
    "docs/PERFORMANCE.md": 80,
    "docs/PROVING.md": 200,
    "wip/README.md": 60,
}
MADE = re.compile(r"(?s)<!-- crates: .*?<!-- crates: the end -->|<!-- gate: what.*?<!-- gate: its end -->")
LONGEST = 160
DATE = re.compile(r"\b20\d\d-\d\d-\d\d\b|\b(?:today|yesterday|that night|last week)\b", re.I)
# Names of other projects' things, which stand nowhere in this tree.
OTHERS = set(
    """anyhow_error Any Cow FuncValidator Hash IndexMut Deref BinaryReaderError CARGO_PKG_VERSION CustomSectionId ModuleDebugData MAP_SHARED
    GLIBC_TUNABLES RT_JOBS FEROPUNA_QUIET and_then IsFinite emit_type_laws patch iter_local_mut take_raw local_func TryFrom
    from_file emit_wasm_file""".split()
)


def words_of(text):
    """The names in backticks, code blocks aside."""
    text = re.sub(r"(?s)```.*?```|(?m:^    .*$)", "", text)
    return re.findall(r"`([^`\n]+)`", text)


def words_in(path):
    with open(path, encoding="utf-8", errors="replace") as file:
        return set(re.findall(r"\w+", file.read()))


class Tree:
    def __init__(self):
        self.crates = Crates()
        paths = [p for kind in ("rt", "antt") for p in glob.glob(f"{ROOT}/crates/*/*/**/*.{kind}", recursive=True) if "/out/" not in p]
        paths += glob.glob(f"{ROOT}/bench/**/*", recursive=True) + glob.glob(f"{ROOT}/bin/*") + [f"{ROOT}/crates.txt"]
        self.files = {os.path.basename(p) for p in paths} | {os.path.basename(p).rsplit(".", 1)[0] for p in paths}
        # proofs are looked into for what is found nowhere else
        self.words, self.proofs = set(self.files), []
        for path in paths:
            if "/proofs/" in path:
                self.proofs.append(path)
            elif os.path.isfile(path) and not path.endswith(("documents.py", "unjudged.txt")):
                self.words.update(words_in(path))

    def has_word(self, word):
        while word not in self.words and self.proofs:
            self.words.update(words_in(self.proofs.pop()))
        return word in self.words

    def has_path(self, path):
        path = path.rstrip("/")
        ways = [path, f"crates/{path}", f"/{path}" if path.startswith("/") else path]
        return any(glob.glob(os.path.join(ROOT, it)) for it in ways)


def fault_of(name, tree):
    """What is wrong with a name, or None."""
    name = name.strip()
    if re.search(r"[\s(){}<>=;,|&\"'$+*]|CRATE|NAME", name) or name.startswith(("-", ".")):
        return None
    if re.fullmatch(r"(?:crates/|bench/|bin/|docs/|wip/|wasm\w*/|walrus\w*/|rewriter\w*/|inspect\w*/|/opt/)[\w./-]*", name):
        return None if tree.has_path(name) else "no such file"
    if re.fullmatch(r"[\w-]+\.(?:rt|antt|py|txt|md|edit)", name):
        return None if name in tree.files or tree.has_path(name) or tree.has_path(f"docs/{name}") else "no such file"
    if re.fullmatch(r"(?:wasm|walrus|rewriter|inspect)_\w+", name) and name not in tree.crates.listed:
        return None if tree.has_word(name) else "no such crate"
    if re.fullmatch(r"\w+(?:(?:::|\.)\w+)*", name) and re.search(r"_|[a-z][A-Z]|::", name):
        parts = re.split(r"::|\.", name)
        missing = [it for it in parts if it not in OTHERS and not tree.has_word(it)]
        return f"{missing[0]} is nowhere" if missing else None
    return None


def signatures(tree):
    """All signatures of public functions and methods, without `pub`."""
    found = set()
    for crate in tree.crates.listed:
        for it in tree.crates.module(crate).everything():
            found.add(re.sub(r"^pub ", "", it.signature))
    return found


def check_library(text, tree):
    have = signatures(tree)
    for line in text.split("\n"):
        if re.match(r"    fn \w+", line):
            said = re.sub(r"\s+//.*|;$", "", line.strip())
            if said not in have:
                yield f"no such signature: {said}"


def check_definitions(text):
    for name, path in re.findall(r"`([^`\s]+)`\s+\(`([\w/]+\.(?:antt|rt))`\)", text):
        body = read(f"crates/{path}")
        if body is None:
            yield f"{name}: no file {path}"
        elif not re.search(rf"(?m)^\s*(?:unfoldable )?(?:pub )?(?:abbrev|record|data|syntax) (?:pub )?{re.escape(name)}(?!\w)", body):
            yield f"{name} isn't defined in {path}"


def faults(path, tree):
    whole = read(path)
    if whole is None:
        yield "isn't there"
        return
    text = MADE.sub("", whole)
    lines = text.rstrip("\n").split("\n")
    if len(lines) > MOST.get(path, 10**6):
        yield f"{len(lines)} lines, where {MOST[path]} are the most"
    for place, line in enumerate(whole.split("\n"), 1):
        if len(line) > LONGEST:
            yield f"{place}: {len(line)} characters"
        if DATE.search(line):
            yield f"{place}: {DATE.search(line)[0]}"
    for name in dict.fromkeys(words_of(text)):
        fault = fault_of(name, tree)
        if fault:
            yield f"`{name}`: {fault}"
    if path == "docs/LIBRARY.md":
        yield from check_library(text, tree)
    if path == "docs/DEFINITIONS.md":
        yield from check_definitions(text)


def main():
    tree, wrong = Tree(), False
    for path in sys.argv[1:] or MOST:
        for fault in faults(path, tree):
            print(f"{path}: {fault}")
            wrong = True
    if not sys.argv[1:]:
        for script in "claims", "map":
            wrong |= subprocess.run([sys.executable, f"{ROOT}/bench/{script}.py", "--check"], check=False).returncode != 0
    sys.exit(wrong)


if __name__ == "__main__":
    main()
