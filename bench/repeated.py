#!/usr/bin/env python3
"""Makes a large file of a real one: its functions so many times, all else once.

    bench/repeated.py [--export-all] FILE TIMES OUT

The entries of the function and code sections are repeated; custom sections, whose names would be those of the first alone, are left out.
With --export-all each function with a body is exported beside what is exported, so that all of them are kept.
What a compiler made of one program stays what it is that way, operator by operator, and is valid again: calls go to the first of each.
For example, sqlite by clang (Debian's sources of sqlite3, wasi-libc and lld):

    ./configure --disable-tcl && make sqlite3.c
    clang -O2 --target=wasm32-wasi -DSQLITE_OS_OTHER=1 -DSQLITE_THREADSAFE=0 -DSQLITE_OMIT_LOAD_EXTENSION -c sqlite3.c
    wasm-ld --no-entry --export-all --allow-undefined sqlite3.o -o sqlite.wasm
"""
import argparse

from make_module import unsigned

CUSTOM, IMPORT, FUNCTION, EXPORT, CODE = 0, 2, 3, 7, 10


def read_unsigned(text, at):
    """A number in LEB128 at this place, and the place behind it."""
    number = shift = 0
    while True:
        byte = text[at]
        number |= (byte & 0x7F) << shift
        at, shift = at + 1, shift + 7
        if byte < 0x80:
            return number, at


def sections(text):
    """The number and the contents of each section."""
    at = 8
    while at < len(text):
        number = text[at]
        size, at = read_unsigned(text, at + 1)
        yield number, text[at : at + size]
        at += size


def repeated(contents, times):
    """A vector with its entries so many times."""
    count, at = read_unsigned(contents, 0)
    return unsigned(count * times) + contents[at:] * times


def imported_functions(contents):
    """How many functions an import section brings; it has no types of other items that hold references to types by more than their bytes."""
    count, at = read_unsigned(contents, 0)
    functions = 0
    for _ in range(count):
        for _ in range(2):
            size, at = read_unsigned(contents, at)
            at += size
        kind, at = contents[at], at + 1
        if kind == 0:
            functions += 1
            _, at = read_unsigned(contents, at)
        elif kind == 3:
            at += 2 if contents[at] not in (0x63, 0x64) else 3
        elif kind == 4:
            _, at = read_unsigned(contents, at + 1)
        else:
            at += 1 if kind == 1 else 0
            flags, at = contents[at], at + 1
            for _ in range(1 + (flags & 1)):
                _, at = read_unsigned(contents, at)
    return functions


def exported(contents, first, count):
    """An export section's contents with so many functions more, from this number on."""
    had, at = read_unsigned(contents, 0) if contents else (0, 0)
    more = b"".join(unsigned(len(name)) + name + b"\0" + unsigned(first + n) for n in range(count) for name in [f"function {n}".encode()])
    return unsigned(had + count) + contents[at:] + more


def main():
    words = argparse.ArgumentParser(description="Makes a large file of a real one.")
    words.add_argument("file")
    words.add_argument("times", type=int)
    words.add_argument("out")
    words.add_argument("--export-all", action="store_true")
    asked = words.parse_args()
    with open(asked.file, "rb") as file:
        text = file.read()
    found = {number: contents for number, contents in sections(text) if number != CUSTOM}
    own, _ = read_unsigned(found[FUNCTION], 0)
    for number in (FUNCTION, CODE):
        found[number] = repeated(found[number], asked.times)
    if asked.export_all:
        found[EXPORT] = exported(found.get(EXPORT, b""), imported_functions(found[IMPORT]) if IMPORT in found else 0, own * asked.times)
    # 13 stands behind 5, and 12 behind 9
    order = [1, 2, 3, 4, 5, 13, 6, 7, 8, 9, 12, 10, 11]
    with open(asked.out, "wb") as out:
        out.write(text[:8])
        for number in order:
            if number in found:
                out.write(bytes([number]) + unsigned(len(found[number])) + found[number])


if __name__ == "__main__":
    main()
