#!/usr/bin/env python3
"""Writes what the prefixes of the modules of crates/rows/data/rows.txt are answered, for its first 17 rows, anew.

    bench/rows.py

The second model (bench/model.py) says where and why a prefix is refused; one in which nothing is kept is answered by the header alone. The
three in which something is kept stand below, by hand. A whole module that a row has refused in its bytes has to be refused so by the model, too.
"""
import itertools
import os
import re

import model

FILE = os.path.join(os.path.dirname(os.path.dirname(os.path.abspath(__file__))), "crates/rows/data/rows.txt")
HEADER = "0061736d01000000"
CODE = HEADER + "010401600000" + "03020100" + "07050101660000" + "0a040102000b"
LOCAL = CODE[:50] + "0a09010701017f20001a0b"
CUSTOM = HEADER + "000301782a"
# What is written of a prefix, and its places.
KEPT = {CODE: (CODE, "1 3 3"), LOCAL: (LOCAL, "3 5 5 7 7 8 8"), HEADER + "000c0b2e64656275675f696e666f000301782a": (CUSTOM, "0")}


def words(row, word):
    return [line.split(" ", 1)[1] for line in row if line.startswith(word + " ")]


def answer(data, options):
    """The lines that tell what becomes of a module."""
    try:
        lines = model.inspect(data, "stable" in options, "legacy" in options, True, "shared" in options)
    except model.Fault as fault:
        return (f"refused {fault}",)
    kept, places = KEPT.get(data.hex(), (HEADER, "0"))
    if kept == HEADER and re.search("[1-9]", lines):
        raise SystemExit(f"something is kept of {data.hex()}")
    return f"output {kept}", f"places {places}"


def told(row):
    """A row with the answers of its prefixes."""
    row = list(itertools.takewhile(lambda line: not line.startswith("first "), row))
    number = re.match("row ([0-9]+)", row[0])
    data = b"".join(int(count) * bytes.fromhex(part) for count, part in (it.split() for it in words(row, "bytes")))
    options = words(row, "with")[0].split()
    for fault in (it for it in words(row, "refused") if it.startswith("error at ")):
        if answer(data, options) != (f"refused {fault}",):
            raise SystemExit(f"{row[0]}: {answer(data, options)}")
    if int(number[1]) > 17:
        return row
    for lines, lengths in itertools.groupby(range(len(data)), lambda length: answer(data[:length], options)):
        lengths = list(lengths)
        row += [f"first {lengths[0]} {lengths[-1]}", *lines]
    return row


def main():
    with open(FILE) as file:
        head, *rows = [part.split("\n") for part in file.read().rstrip("\n").split("\n\n")]
    rows = [*map(told, rows)]
    with open(FILE, "w") as file:
        file.write("\n\n".join("\n".join(part) for part in [head, *rows]) + "\n")


main()
