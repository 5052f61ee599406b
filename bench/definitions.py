#!/usr/bin/env python3
"""Counts the lines of definitions in the crates of the grammar, which docs/DEFINITIONS.md names.

    bench/definitions.py [--files] [CRATE ..]      (CRATE/FILE for a file of its specs/ alone)

A definition is an `abbrev`, a `record`, a `data` or a `syntax` of specs/, with its equations and fields. Not counted: imports, lines that name
modules, comments, blank lines; lemmas, and in a format the fields that are proofs (`PROOFS`); files that hold lemmas, laws or computed examples alone.
The longest file is told with all of its lines, whatever they are.
"""
import glob
import os
import re
import sys

ROOT = os.path.dirname(os.path.dirname(os.path.abspath(__file__)))
CRATES = """wasm_formats wasm_file_formats wasm_operators/Items wasm_operators/Readings wasm_operators/ItemSpellings wasm_operators/Table
wasm_operators/Kinds wasm_operators/Operators wasm_operators/Spellings wasm_operators/Names wasm_grammar wasm_sections wasm_body_grammar wasm_modules
wasm_module_rules wasm_ruled_modules wasm_module_spellings wasm_name_payloads wasm_named_modules""".split()
SKIP = re.compile(r"\s*((pub )?use |pub mod |mod \w+$|--|module )")
HEAD = re.compile(r"\s*(?:pub )?(?:abbrev|record|data|syntax) (?:pub )?(\S+)")
PROOFS = re.compile(r"\s*(found|again|told|tells|within|final|front|whole|small) = ")
OTHERS = re.compile(r"-- (Lemmas|Laws|What names and renamings have|Payloads of `name` and `producers`, and what is kept)")


def definitions(text):
    """How many of these lines belong to a definition."""
    found, name, depth, proof = 0, None, 0, None
    for line in text.split("\n"):
        if not line.strip() or SKIP.match(line):
            continue
        indent = len(line) - len(line.lstrip())
        head = HEAD.match(line)
        if head:
            name, depth, proof = head[1], indent, None
        elif name is None or not (indent > depth or line.split()[0] == name or line.lstrip()[0] in ")}]"):
            name = None
        if name is None:
            continue
        if proof is not None and indent > proof:
            continue
        proof = indent if PROOFS.match(line) and indent > depth else None
        found += proof is None
    return found


def text_of(path):
    with open(path, encoding="utf-8") as file:
        return file.read()


def main():
    words = sys.argv[1:]
    tells_files = "--files" in words
    whole, most = 0, (0, "")
    for crate in [it for it in words if it != "--files"] or CRATES:
        lines = 0
        crate, _, alone = crate.partition("/")
        for file in sorted(glob.glob(f"{ROOT}/crates/{crate}/specs/{alone or '*'}.antt")):
            text = text_of(file)
            own = 0 if OTHERS.match(text) else definitions(text)
            most = max(most, (text.count("\n"), os.path.relpath(file, ROOT)))
            lines += own
            if tells_files and own:
                print(f"       {own:6} {os.path.basename(file)}")
        whole += lines
        print(f"{lines:6} {crate}")
    print(f"{whole:6} together; the longest file is {most[1]} with {most[0]} lines")


if __name__ == "__main__":
    main()
