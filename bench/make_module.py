#!/usr/bin/env python3
"""Makes a valid WebAssembly module of exported and other functions, from a seed.

    bench/make_module.py [--seed N] [--size BYTES] [--functions N] [--exported PERCENT] [--calls] FILE

The module has types, functions, exports and code. Bodies have no declared locals and are of nop, i32.const,
drop, return and end. The size is met to about one part in a hundred; it may end in K or M.

With --calls functions call one another in groups: chains, stars and cycles, three of them large and the others
of 2 to 1,000 functions. Half of the functions are in groups that are reached: the first of each is exported, or
is the start function. The other half is not reached, but calls into both halves. All that is called takes and
gives nothing. The share that is exported then follows from the groups.
"""
import argparse
import random

VALUE_TYPES = bytes([0x7F, 0x7E, 0x7D, 0x7C, 0x7B])
I32 = b"\x7f"
NOP, CONST, DROP, RETURN, END, CALL = b"\x01", b"\x41", b"\x1a", b"\x0f", b"\x0b", b"\x10"
NOTHING = b"\x60\x00\x00"
MOST_TYPES = 1000
PIECES = 4096


def unsigned(number):
    """A u32 in LEB128."""
    out = bytearray()
    while number >= 0x80:
        out.append(number & 0x7F | 0x80)
        number >>= 7
    out.append(number)
    return bytes(out)


def signed(number):
    """An i32 in LEB128."""
    out = bytearray()
    while not -64 <= number < 64:
        out.append(number & 0x7F | 0x80)
        number >>= 7
    out.append(number & 0x7F)
    return bytes(out)


def vector(entries):
    return unsigned(len(entries)) + b"".join(entries)


def section(number, contents):
    return bytes([number]) + unsigned(len(contents)) + contents


def constant(rng):
    return CONST + signed(rng.choice((rng.randrange(-64, 64), rng.randrange(-(2**31), 2**31))))


def piece(rng):
    """Operators that leave the stack as it was."""
    kind = rng.randrange(4)
    if kind == 0:
        return NOP
    if kind == 1:
        return constant(rng) + DROP
    if kind == 2:
        return constant(rng) + NOP + constant(rng) + DROP + DROP
    return b"".join(constant(rng) for _ in range(3)) + DROP * 3


def body(rng, pieces, length, has_result, calls=(), behind=b""):
    """A function's code, with its size, of about `length` bytes: it makes the calls, and has `behind` behind an
    early return."""
    parts, have = [b"\x00"], 4
    calls = list(calls)
    # Some bodies return early, and have code behind it.
    cut = rng.random() < 0.25
    at = rng.random()
    while calls or have < length:
        if cut and not calls and have >= length * at:
            parts.append((constant(rng) if has_result else b"") + RETURN + behind)
            cut = False
        if calls and rng.random() < 0.5:
            part = calls.pop()
        else:
            part = pieces[rng.randrange(PIECES)]
        parts.append(part)
        have += len(part)
    if has_result:
        parts.append(constant(rng))
    parts.append(END)
    code = b"".join(parts)
    return unsigned(len(code)) + code


def groups_of(rng, members):
    """The members in groups, each with its kind. The first three are large, one of each kind."""
    kinds, groups, at = ("cycle", "chain", "star"), [], 0
    while at < len(members):
        large = len(groups) < len(kinds)
        size = max(2, len(members) // 10) if large else int(2 ** rng.uniform(1, 10))
        groups.append((kinds[len(groups)] if large else rng.choice(kinds), members[at : at + size]))
        at += size
    return groups


def call_graph(rng, functions):
    """What each function calls, whether it is called, the functions to export, and the one to start."""
    order = list(range(functions))
    rng.shuffle(order)
    reached = order[: (functions + 1) // 2]
    calls, is_called, firsts = [[] for _ in order], [False] * functions, []

    def call(caller, callee):
        calls[caller].append(callee)
        is_called[callee] = True

    for half in (reached, order[len(reached) :]):
        for kind, group in groups_of(rng, half):
            if half is reached:
                firsts.append(group[0])
            for at in range(1, len(group)):
                call(group[0] if kind == "star" else group[at - 1], group[at])
            if kind == "cycle":
                call(group[-1], group[0])
    # The first group is a cycle, so that what starts the module is called and takes nothing.
    start, exports = firsts[0], sorted(firsts[1:])
    # Some call one that is reached, besides.
    called = [callee for callee in reached if is_called[callee]]
    for caller in order:
        if rng.random() < 0.25:
            calls[caller].append(rng.choice(called))
    return calls, is_called, exports, start


def module_with_calls(seed, size, functions):
    rng = random.Random(seed)
    pieces = [piece(rng) for _ in range(PIECES)]
    types, has_result = types_of(rng, min(MOST_TYPES, functions))
    types.append(NOTHING)
    has_result.append(False)
    calls, is_called, exports, start = call_graph(rng, functions)
    of_type = [len(types) - 1 if is_called[i] else rng.randrange(len(types)) for i in range(functions)]
    callable_ones = [i for i in range(functions) if is_called[i]]
    return written(
        rng,
        pieces,
        size,
        (types, has_result, of_type),
        [export_of(index) for index in exports],
        section(8, unsigned(start)),
        lambda index: {
            "calls": [CALL + unsigned(callee) for callee in calls[index]],
            # What stands behind a return reaches nothing.
            "behind": CALL + unsigned(rng.choice(callable_ones)),
        },
    )


def types_of(rng, count):
    """Function types, and which of them have a result."""
    types, has_result = [], []
    for _ in range(count):
        params = bytes(rng.choice(VALUE_TYPES) for _ in range(rng.randrange(8)))
        results = I32 if rng.random() < 0.5 else b""
        types.append(b"\x60" + vector([params[i : i + 1] for i in range(len(params))]) + unsigned(len(results)) + results)
        has_result.append(bool(results))
    return types, has_result


def export_of(index):
    """The export of a function."""
    name = b"f%d" % index
    return unsigned(len(name)) + name + b"\x00" + unsigned(index)


def module(seed, size, functions, exported):
    rng = random.Random(seed)
    pieces = [piece(rng) for _ in range(PIECES)]
    types, has_result = types_of(rng, min(MOST_TYPES, functions))
    of_type = [rng.randrange(len(types)) for _ in range(functions)]
    names = [export_of(i) for i in range(functions) if rng.randrange(100) < exported]
    return written(rng, pieces, size, (types, has_result, of_type), names)


def written(rng, pieces, size, typing, names, start=b"", within=lambda index: {}):
    """The module of these types, exports and start section; `within` tells what a body calls."""
    types, has_result, of_type = typing
    functions = len(of_type)
    head = b"\x00asm\x01\x00\x00\x00" + section(1, vector(types))
    head += section(3, vector([unsigned(t) for t in of_type]))
    head += section(7, vector(names)) + start
    # What is left of the size goes to the bodies that are left, shorter and longer ones.
    bodies, left = [], size - len(head)
    for index, t in enumerate(of_type):
        mean = max(4, left / (functions - index))
        bodies.append(body(rng, pieces, mean * rng.uniform(0.5, 1.5), has_result[t], **within(index)))
        left -= len(bodies[-1])
    return head + section(10, vector(bodies))


def bytes_of(text):
    """A count of bytes, which may end in K or M."""
    scale = {"K": 2**10, "M": 2**20}.get(text[-1:].upper())
    return int(text[:-1]) * scale if scale else int(text)


def main():
    parser = argparse.ArgumentParser(description=__doc__.splitlines()[0])
    parser.add_argument("--seed", type=int, default=1)
    parser.add_argument("--size", type=bytes_of, default=2**20)
    parser.add_argument("--functions", type=int, default=10_000)
    parser.add_argument("--exported", type=int, default=50, metavar="PERCENT")
    parser.add_argument("--calls", action="store_true", help="functions call one another, and half are reached")
    parser.add_argument("file")
    words = parser.parse_args()
    if words.calls:
        made = module_with_calls(words.seed, words.size, words.functions)
    else:
        made = module(words.seed, words.size, words.functions, words.exported)
    with open(words.file, "wb") as file:
        file.write(made)


if __name__ == "__main__":
    main()
