#!/usr/bin/env python3
"""Makes a valid WebAssembly file of one shape, from a seed: what a reader of whole files has most of.

    bench/make_file.py [--seed N] [--count N] code|names|exports|segments|data|types FILE

code: functions of some 100 operators each (locals, constants, loads and stores, arithmetic, calls, nested blocks, branches), in a module
with a memory, a global and a table. names: empty functions, each with a name and a local with a name. exports: as many exports of one
function, whose names begin alike. segments: as many passive data segments of four bytes. data: the same, of 400 bytes. types: as many
function types, each another. --count is the number of functions, exports, segments or types.
"""
import argparse
import random

I32 = b"\x7f"
END = b"\x0b"
SHAPES = ("code", "names", "exports", "segments", "data", "types")


def unsigned(number):
    """A u32 in LEB128."""
    out = bytearray()
    while number >= 0x80:
        out.append(number & 0x7F | 0x80)
        number >>= 7
    out.append(number)
    return bytes(out)


def signed(number):
    """An i32 in LEB128."""
    out = bytearray()
    while not -64 <= number < 64:
        out.append(number & 0x7F | 0x80)
        number >>= 7
    out.append(number & 0x7F)
    return bytes(out)


def vector(entries):
    return unsigned(len(entries)) + b"".join(entries)


def section(number, contents):
    return bytes([number]) + unsigned(len(contents)) + contents


def name(text):
    return unsigned(len(text)) + text


def local(rng):
    return unsigned(rng.randrange(6))


def value(rng, count, depth=0):
    """Operators that leave an i32."""
    kind = rng.randrange(4 if depth < 3 else 2)
    if kind == 0:
        return b"\x20" + local(rng)
    if kind == 1:
        return b"\x41" + signed(rng.choice((rng.randrange(-64, 64), rng.randrange(-(2**31), 2**31))))
    if kind == 2:
        return value(rng, count, depth + 1) + value(rng, count, depth + 1) + bytes([rng.choice(range(0x6A, 0x6D))])
    return value(rng, count, depth + 1) + b"\x28\x02" + unsigned(4 * rng.randrange(64))


def statement(rng, count, depth):
    """Operators that leave the stack as it was."""
    kind = rng.randrange(6 if depth < 4 else 4)
    if kind == 0:
        return value(rng, count) + b"\x21" + local(rng)
    if kind == 1:
        return value(rng, count) + value(rng, count) + b"\x36\x02" + unsigned(4 * rng.randrange(64))
    if kind == 2:
        return value(rng, count) + b"\x10" + unsigned(rng.randrange(count)) + b"\x1a"
    if kind == 3:
        return b"\x23\x00\x24\x00"
    inner = b"".join(statement(rng, count, depth + 1) for _ in range(rng.randrange(1, 4)))
    if kind == 4:
        return b"\x02\x40" + inner + value(rng, count) + b"\x0d\x00" + END
    return value(rng, count) + b"\x04\x40" + inner + b"\x05" + statement(rng, count, depth + 1) + END


def code(rng, count):
    body = []
    for _ in range(count):
        parts = b"".join(statement(rng, count, 0) for _ in range(6)) + value(rng, count) + END
        inside = b"\x01\x05" + I32 + parts
        body.append(unsigned(len(inside)) + inside)
    return [
        section(1, vector([b"\x60\x01" + I32 + b"\x01" + I32])),
        section(3, unsigned(count) + b"\x00" * count),
        section(4, vector([b"\x70\x00\x01"])),
        section(5, vector([b"\x00\x01"])),
        section(6, vector([I32 + b"\x01\x41\x00" + END])),
        section(7, vector([name(b"main") + b"\x00\x00"])),
        section(10, vector(body)),
    ]


def empty(count):
    return section(1, vector([b"\x60\x01" + I32 + b"\x00"])), section(3, unsigned(count) + b"\x00" * count), section(10, unsigned(count) + b"\x02\x00\x0b" * count)


def names(rng, count):
    types, functions, bodies = empty(count)
    own = vector([unsigned(n) + name(b"a function %d" % n) for n in range(count)])
    locals_ = vector([unsigned(n) + b"\x01\x00" + name(b"x%d" % rng.randrange(10**6)) for n in range(count)])
    payload = name(b"name") + b"\x01" + unsigned(len(own)) + own + b"\x02" + unsigned(len(locals_)) + locals_
    return [types, functions, bodies, section(0, payload)]


def exports(rng, count):
    types, functions, bodies = empty(1)
    order = list(range(count))
    rng.shuffle(order)
    return [types, functions, section(7, vector([name(b"an export of this module, number %d" % n) + b"\x00\x00" for n in order])), bodies]


def segments(rng, count, size=4):
    return [section(5, vector([b"\x00\x01"])), section(11, vector([b"\x01" + name(rng.randbytes(size)) for _ in range(count)]))]


def data(rng, count):
    return segments(rng, count, 400)


def types(rng, count):
    kinds = (b"\x7f", b"\x7e", b"\x7d", b"\x7c")
    forms = [b"\x60" + vector([kinds[n >> 2 * k & 3] for k in range(10)]) + b"\x00" for n in range(count)]
    rng.shuffle(forms)
    return [section(1, vector(forms))]


def bytes_of(shape, seed, count):
    return b"\0asm\x01\0\0\0" + b"".join(globals()[shape](random.Random(seed), count))


def main():
    words = argparse.ArgumentParser(description="Makes a WebAssembly file of one shape.")
    words.add_argument("--seed", type=int, default=1)
    words.add_argument("--count", type=int, default=10000)
    words.add_argument("shape", choices=SHAPES)
    words.add_argument("file")
    asked = words.parse_args()
    with open(asked.file, "wb") as file:
        file.write(bytes_of(asked.shape, asked.seed, asked.count))


if __name__ == "__main__":
    main()
