#!/usr/bin/env python3
"""Hostile shapes at two sizes through a built wasm_rewriter, with a stack of 256 KiB: seconds of the processor, memory, and whether the output is right.

    bench/hostile.py PROGRAM COUNT        e.g. bench/hostile.py out/proved/wasm_rewriter 250000

Each shape has COUNT parts, then twice as many: nests, chains of items, long lists. An output has to be the input where that is in normal form already, or a header alone where
nothing is kept. The last column is the factor of the doubling; a program that recursed along the nesting would run out of its stack.
"""

import os
import resource
import subprocess
import sys
import tempfile

HEADER = b"\0asm\1\0\0\0"
EXPORT = b"\7\5\1\1f\0\0"
STACK = 256 << 10
ROUNDS = 3


def leb(value):
    """An unsigned number."""
    out = bytearray()
    while True:
        byte = value & 127
        value >>= 7
        out.append(byte | (128 if value else 0))
        if not value:
            return bytes(out)


def sleb(value):
    """A signed number."""
    out = bytearray()
    while True:
        byte = value & 127
        value >>= 7
        done = value == 0 and not byte & 64
        out.append(byte if done else byte | 128)
        if done:
            return bytes(out)


def sec(number, contents):
    return bytes([number]) + leb(len(contents)) + contents


def vec(items):
    return leb(len(items)) + b"".join(items)


def body(code, declared=b"\0", types=(b"\x60\0\0",), between=b""):
    """A module of one exported function with this code."""
    whole = declared + code
    return HEADER + sec(1, vec(types)) + sec(3, b"\1\0") + between + EXPORT + sec(10, b"\1" + leb(len(whole)) + whole)


def shapes(n):
    """Names of shapes of n parts, with their bytes, and what is to be written."""
    yield "blocks", body(b"\x02\x40" * n + b"\x0b" * (n + 1)), "same"
    yield "loops", body(b"\x03\x40" * n + b"\x0b" * (n + 1)), "same"
    yield "ifs without else", body((b"\x41\0\x04\x40") * n + b"\x0b" * (n + 1)), None
    yield "ifs with else", body((b"\x41\0\x04\x40") * n + b"\x05\x0b" * n + b"\x0b"), "same"
    yield "else nests", body((b"\x41\0\x04\x40\x05") * n + b"\x0b" * (n + 1)), "same"
    yield "try catch_all", body(b"\x06\x40" * n + b"\x19\x0b" * n + b"\x0b"), "same"
    yield "try in handlers", body(b"\x06\x40\x19" * n + b"\x0b" * (n + 1)), "same"
    yield "delegates", body(b"\x06\x40" * n + b"\x18\0" * n + b"\x0b"), "same"
    yield "try_table nests", body(b"\x1f\x40\x01\x02\0" * n + b"\x0b" * (n + 1)), "same"
    yield "br_table of many", body(b"\x41\0\x0e" + leb(n) + b"\0" * (n + 1) + b"\x0b"), "same"
    yield "br_table nests", body(b"\x02\x40" * n + b"\x41\0\x0e\x01\0" + leb(n) + b"\x0b" * (n + 1)), "same"
    yield "many catches", body(b"\x06\x40" + b"\x07\0" * n + b"\x0b\x0b", between=sec(13, b"\1\0\0")), "same"
    yield "runs of no locals", body(b"\x0b", leb(n) + b"\0\x7f" * n), None
    yield "dropped nests", body(b"\x0f" + b"\x02\x40" * n + b"\x0b" * (n + 1)), None
    yield "constant expression", HEADER + sec(6, b"\1\x7f\0\x41\0" + b"\x41\0\x6a" * n + b"\x0b") + sec(7, b"\1\1g\3\0"), "same"
    yield "type chain", HEADER + sec(1, leb(n) + b"\x5f\0" + b"".join(b"\x5f\1\x63" + sleb(k) + b"\0" for k in range(n - 1))) + sec(4, b"\1\x63" + sleb(n - 1) + b"\0\0") + sec(7, b"\1\1t\1\0"), "same"
    yield "one group", HEADER + sec(1, b"\1\x4e" + leb(n) + b"\x5f\0" * n) + sec(4, b"\1\x63" + sleb(n - 1) + b"\0\0") + sec(7, b"\1\1t\1\0"), "same"
    yield "empty groups", HEADER + sec(1, leb(n) + b"\x4e\0" * n), "header"
    call = [b"\0\x10" + leb(k + 1) + b"\x0b" for k in range(n - 1)] + [b"\0\x0b"]
    yield "call chain", HEADER + sec(1, b"\1\x60\0\0") + sec(3, leb(n) + b"\0" * n) + EXPORT + sec(10, vec([leb(len(c)) + c for c in call])), "same"
    yield "global chain", HEADER + sec(6, leb(n) + b"\x7f\0\x41\0\x0b" + b"".join(b"\x7f\0\x23" + leb(k) + b"\x0b" for k in range(n - 1))) + sec(7, b"\1\1g\3" + leb(n - 1)), "same"
    yield "customs", HEADER + sec(0, b"\1x") * n, "same"


def limit_stack():
    resource.setrlimit(resource.RLIMIT_STACK, (STACK, STACK))


def used():
    times = resource.getrusage(resource.RUSAGE_CHILDREN)
    return times.ru_utime + times.ru_stime


def run(program, data, want):
    """The least seconds of some rounds, the mebibytes, and what is to be said of the answer."""
    with tempfile.TemporaryDirectory() as folder:
        source, target = f"{folder}/in", f"{folder}/out"
        with open(source, "wb") as file:
            file.write(data)
        words = ["/usr/bin/time", "-f", "%M", program, "--no-names", "--no-producers", source, target]
        seconds = []
        for _ in range(ROUNDS):
            before = used()
            ran = subprocess.run(words, capture_output=True, text=True, preexec_fn=limit_stack)
            seconds.append(used() - before)
        *said, memory = ran.stderr.strip().split("\n")
        if ran.returncode:
            return min(seconds), int(memory) // 1024, f"status {ran.returncode} {said}"
        with open(target, "rb") as file:
            out = file.read()
    is_right = {"same": out == data, "header": out == HEADER, None: True}[want]
    return min(seconds), int(memory) // 1024, "right" if is_right else f"wrong: {len(out)} bytes for {len(data)}"


def main():
    if len(sys.argv) != 3:
        sys.exit(__doc__)
    program, count = os.path.abspath(sys.argv[1]), int(sys.argv[2])
    for (name, one, want), (_, two, _) in zip(shapes(count), shapes(2 * count)):
        first, second = run(program, one, want), run(program, two, want)
        for data, (seconds, memory, said) in ((one, first), (two, second)):
            print(f"{name:22} {len(data):>9} {seconds:6.2f} s {memory:>5} MiB  {said}")
        print(f"{'':22} times {second[0] / max(first[0], 0.001):.2f}", flush=True)


if __name__ == "__main__":
    main()
