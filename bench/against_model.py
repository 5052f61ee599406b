#!/usr/bin/env python3
"""Compares walrus_inspect with the model of bench/model.py on random modules, most of them small and near the edges of the grammar.

    bench/against_model.py [--program FILE] [--seed N] [--count N] [--flags=WORDS] [--out FOLDER]

Each module is made section by section, of items, operators and immediates of all kinds, in some modules also wrong ones; copies of it are
damaged in a section, a body or anywhere, cut, or put together otherwise. The program has to tell the model's counts, or to refuse with the
model's place and text, under each set of its flags, or under those that are named (--flags= for none, --flags="--stable --kept" for two).
A module on which the two differ is put into FOLDER, and told with the model's answer and the program's. The program is the proved one, or
FILE: bench/unproved.py builds one that behaves alike in a minute or so. At the end the answers are told with how often each came.
"""
import argparse
import collections
import itertools
import os
import random
import subprocess
import sys
import tempfile

import model
from reading import PROGRAM, build

FLAGS = [list(flags) for count in range(4) for flags in itertools.combinations(("--stable", "--no-legacy", "--kept"), count)]
KINDS = ["function", "table", "memory", "global", "tag"]
ABSTRACT = sorted(model.ABSTRACT)
EDGES = [0, 1, 2, 3, 7, 15, 16, 31, 32, 63, 64, 65, 127, 128, 255, 256, 2**14, 2**20 - 1, 2**20, 2**21, 2**31 - 1, 2**31, 2**32 - 1]
OPERATORS = [code for code in model.TABLES[False, True] if code not in (0x05, 0x07, 0x19, 0x18, 0x0B)]
GROUPS = [[code for code in OPERATORS if (code[0] if isinstance(code, tuple) else 0) == prefix] for prefix in (0, 0xFB, 0xFC, 0xFD, 0xFE)]
NAMING = [code for code in OPERATORS if model.TABLES[False, True][code]]
SEGMENTS = [(0xFC, 8), (0xFC, 9), (0xFB, 9), (0xFB, 18)], [(0xFC, 12), (0xFC, 13), (0xFB, 10), (0xFB, 19)], [(0xFC, 9), (0xFB, 9), (0xFB, 18)]
FAVOURED = [*SEGMENTS, *SEGMENTS, [0x1C, 0xD0], [0x20, 0x21, 0x22], [0x28, 0x36, (0xFD, 0), (0xFD, 84), (0xFE, 16)], [0x10, 0x11, 0x14, 0xD2]]
FAVOURED += [[0x08, 0x1F], [(0xFB, 24), (0xFB, 20)], [0x23], [0x25]]
UNKNOWN = [0x16, 0x17, 0x1D, 0x1E, 0x27, 0xC5, 0xCF, 0xD7, 0xE0, 0xFA, 0xFF, (0xFB, 31), (0xFB, 32), (0xFC, 18), (0xFC, 23), (0xFC, 65544)]
UNKNOWN += [(0xFD, 154), (0xFD, 276), (0xFD, 238), (0xFE, 4), (0xFE, 15), (0xFE, 79)]


def texts(words):
    return [bytes.fromhex(word) for word in words.split()]


BYTES = bytes.fromhex("00 01 02 03 04 05 06 07 08 0b 0f 18 19 40 41 4e 4f 50 5e 5f 60 63 64 65 69 70 7b 7f 80 d0 fb fc fd fe ff")
RUNS = texts("ffffffff0f 8080808010 808080808000 8000 ff7f 8080808070 808040 ffffffffffffffffff01 80808080808080808002 6570 636570 f07f")
HEAPS = texts("6570 7f 40 65 60 68 f07f 8080c000 8080808080 ffffffff1f ffffffff0f")
REFERENCES = texts("6570 7f 40 00 6200 68 75")
TEXTS = texts("01ff 02c080 03eda080 04f4908080 a18d0661 7f61 0180 02c328")
CONSTANTS = [*texts("1a 6d 01 00 2000 fb020000 fc00 fd0d fb80 fd8080808010 fe00 ff 1000 fb898004 16"), b"\xfd\x8c\0" + bytes(16)]
BLOCKS = texts("6570 62 c07f ff7f 8080c000 f07f 8080808080 ffffffff2f 6340")
COMPS = texts("65600000 5d00 5c 4e00")
TABLES = [*texts("700000 63090000 63ffffffffff 7f 6570 700200 701000 70010201 4001 40007000000b 6440 6465 6f"), b""]
MEMORIES = [*texts("0000 010201 0200 1000 008080808010 080001 0a0001 00"), b""]


class Maker:
    def __init__(self, chance):
        self.chance = chance
        self.padding = chance.choice([0, 0, 0.1, 0.5])
        self.where = chance.choice([None, 10, 10, 10, 10, 10, *model.ORDER])
        self.wrong = chance.choice([0, 0, 0, 0.01, 0.03, 0.1] if self.where else [0, 0, 0.003, 0.01])
        self.loose = chance.random() < 0.06
        self.favoured = chance.choice(FAVOURED)
        self.here = 0
        self.types, self.makers, self.twins, self.swap = [], [], {}, {}
        self.functions, self.tables, self.memories, self.globals, self.tags = [], [], [], [], []
        self.known = dict.fromkeys([*KINDS, "type", "element", "data"], 0)
        self.concrete = chance.choice([0, 0.1, 0.4])
        self.palette = [self.number_type() for _ in range(chance.choice([1, 2, 3]))]

    def odd(self):
        return self.where in (None, self.here) and self.chance.random() < self.wrong

    def some(self, most):
        return self.chance.choice([0, 0, 1, 1, 1, 2, 2, 3, most])

    # Numbers and types.

    def leb(self, value, bits=32):
        out = bytearray()
        while value > 127:
            out.append(value & 127 | 128)
            value >>= 7
        out.append(value)
        if self.padding and self.chance.random() < self.padding:
            for _ in range(self.chance.randrange(-(-bits // 7) - len(out) + 1)):
                out[-1] |= 128
                out.append(0)
        return bytes(out)

    def signed(self, value, bits):
        out = bytearray()
        while True:
            out.append(value & 127 | 128)
            value >>= 7
            if value in (0, -1) and bool(out[-1] & 64) == (value < 0):
                break
        if self.padding and self.chance.random() < self.padding:
            for _ in range(self.chance.randrange(-(-bits // 7) - len(out) + 1)):
                out.append(value & 127 | 128)
        out[-1] &= 127
        return bytes(out)

    def vector(self, items):
        count = len(items) + (self.chance.choice([-1, 1, 2, 1000, 2**32 - 1 - len(items)]) if self.odd() else 0)
        return self.leb(max(count, 0)) + b"".join(items)

    def index(self, space, known=None):
        known = self.known[space] if known is None else known
        if self.odd():
            return self.leb(self.chance.choice([known, known + 1, *EDGES]))
        if not known:
            raise LookupError
        return self.leb(self.chance.randrange(known))

    def number_type(self):
        return bytes([self.chance.choice([0x7F, 0x7F, 0x7E, 0x7D, 0x7C, 0x7B])])

    def heap(self, end=None):
        end = self.known["type"] if end is None else end
        if self.odd():
            return self.chance.choice([*HEAPS, self.signed(end, 33)])
        if end and self.chance.random() < self.concrete:
            number = self.chance.randrange(end)
            return self.signed(self.swap.get(number, number), 33)
        return bytes([self.chance.choice(ABSTRACT)])

    def reference(self, end=None):
        if self.odd():
            return self.chance.choice(REFERENCES)
        if self.chance.random() < 0.4:
            return bytes([self.chance.choice([0x63, 0x64])]) + self.heap(end)
        return bytes([self.chance.choice([0x70, 0x70, 0x6F, *ABSTRACT])])

    def value(self, end=None):
        kind = self.chance.random()
        if kind < 0.5:
            return self.chance.choice(self.palette)
        return self.number_type() if kind < 0.6 else self.reference(end)

    def values(self, end=None, most=3):
        return [self.value(end) for _ in range(self.some(most))]

    def sub(self, end):
        """A subtype, and whether it is a function type, its parameters and results, and whether a block type may name it."""
        front, plain, chance = b"", True, self.chance
        if chance.random() < 0.25:
            above = [self.leb(chance.randrange(max(end, 1))) for _ in range(chance.choice([0, 0, 1]))]
            if self.odd():
                above = chance.choice([[b"\0", b"\0"], [self.leb(2**20)], [self.leb(end)], [b"\x80" * 5 + b"\0"]])
            kind = chance.choice([0x50, 0x4F])
            plain = kind == 0x4F and not above
            front = bytes([kind]) + self.vector(above)
        form = chance.random() if end > 1 else 0
        if form < 0.65:
            params, results = self.values(end), self.values(end)
            if self.odd():
                params = chance.choice([[b"\x7f"] * 1000, [b"\x7f"] * 1001])
            return front + b"\x60" + self.vector(params) + self.vector(results), (True, params, results, plain or not params and len(results) < 2)
        if form < 0.85:
            return front + b"\x5f" + self.vector([self.field(end) for _ in range(self.some(4))]), (False, [], [], False)
        if self.odd():
            return front + chance.choice(COMPS), (False, [], [], False)
        return front + b"\x5e" + self.field(end), (False, [], [], False)

    def field(self, end):
        storage = self.value(end) if self.chance.random() < 0.8 else self.chance.choice([b"\x78", b"\x77"])
        return storage + self.chance.choice([b"\2", b"\x80"] if self.odd() else [b"\0", b"\1"])

    def made(self, seed, end, swap):
        """The subtype of a seed, where some of the types that it names give way to twins of theirs."""
        chance, self.chance, self.swap = self.chance, random.Random(seed), swap
        try:
            return self.sub(end)
        finally:
            self.chance, self.swap = chance, {}

    def type_section(self):
        groups, chance = [], self.chance
        for _ in range(chance.choice([0, 1, 2, 3, 3, 5, 5, 8, 12])):
            count = chance.choice([0, 1, 1, 2, 2, 3]) if chance.random() < 0.25 else None
            end, members = len(self.types) + (chance.random() < 0.15 if count is None else count), []
            for _ in range(1 if count is None else count):
                twin = chance.randrange(len(self.makers)) if self.makers and chance.random() < 0.35 else None
                seed, bound = (chance.random(), end) if twin is None else self.makers[twin]
                swap = {old: chance.choice(new) for old, new in self.twins.items() if chance.random() < 0.5} if twin is not None else {}
                if twin is not None:
                    self.twins.setdefault(twin, []).append(len(self.types))
                self.makers.append((seed, bound))
                self.types.append(self.made(seed, bound, swap))
                members.append(self.types[-1][0])
            groups.append(members[0] if count is None else b"\x4e" + self.vector(members))
            self.known["type"] = len(self.types)
        return self.vector(groups)

    def function_type(self):
        good = [number for number, (_, facts) in enumerate(self.types) if facts[0]]
        if self.odd():
            return self.index("type")
        if not good:
            raise LookupError
        return self.leb(self.chance.choice(good))

    def limits(self, memory):
        chance = self.chance
        flags = chance.choice([0, 0, 1, 1, 4, 5]) if not memory else chance.choice([0, 0, 1, 1, 3, 4, 5, 7, 8, 9, 11, 12, 13, 15])
        if self.odd():
            flags = chance.choice([2, 3, 6, 7, 8, 10, 16, 17, 0x80, 0x81, 64])
        bits = 64 if flags & 4 else 32
        edges = [edge for edge in [*EDGES, 2**33, 2**63, 2**64 - 1] if edge < 2**bits]
        least = chance.choice([0, 1, 2, chance.choice(edges)])
        most = max(least, chance.choice(edges)) if not self.odd() else chance.choice(edges)
        out = bytes([flags]) + self.leb(least, bits) + (self.leb(most, bits) if flags & 1 else b"")
        return out + (self.leb(chance.choice([0, 16] if not self.odd() else [1, 15, 17, 32, 2**32 - 1])) if flags & 8 else b""), bits == 64

    def text(self):
        if self.odd():
            return self.chance.choice(TEXTS)
        return self.plain(self.chance.choice(["", "a", "b", "m", "ab", "é", "→x", "😀", "long name" * 3, str(self.chance.randrange(100))]))

    def plain(self, text):
        return self.leb(len(text.encode())) + text.encode()

    # Sections.

    def import_section(self):
        out = []
        for _ in range(self.chance.choice([0, 1, 2, 4, 6])):
            kind = self.chance.randrange(5)
            entry = self.text() + self.text() + (bytes([kind]) if not self.odd() else self.chance.choice([b"\5", b"\x80\0", b"\x7f"]))
            try:
                entry += self.described(KINDS[kind])
            except LookupError:
                continue
            self.known[KINDS[kind]] += 1
            out.append(entry)
        return self.vector(out)

    def zero(self):
        return self.chance.choice([b"\1", b"\x80\0"]) if self.odd() else b"\0"

    def described(self, space):
        if space == "function":
            text = self.function_type()
            self.functions.append(self.parameters(text))
            return text
        if space == "table":
            text = self.reference()
            limits, wide = self.limits(False)
            self.tables.append(wide)
            return text + limits
        if space == "memory":
            limits, wide = self.limits(True)
            self.memories.append(wide)
            return limits
        if space == "global":
            text = self.value()
            self.globals.append(text)
            return text + (self.chance.choice([b"\0", b"\1"]) if not self.odd() else self.chance.choice([b"\2", b"\3", b"\4", b"\x80"]))
        text = self.function_type()
        self.tags.append(text)
        return self.zero() + text

    def parameters(self, text):
        number = model.Reader(text, 0, len(text)).u32()
        return self.types[number][1][1] if number < len(self.types) else []

    def function_section(self):
        out = []
        for _ in range(self.chance.choice([0, 1, 1, 2, 3, 5])):
            try:
                out.append(self.described("function"))
                self.known["function"] += 1
            except LookupError:
                pass
        self.bodies = [self.functions[len(self.functions) - len(out) + number] for number in range(len(out))]
        return self.vector(out)

    def items(self, space):
        out = []
        for _ in range(self.some(4)):
            try:
                if space == "table" and self.chance.random() < 0.3:
                    text = b"\x40" + self.zero() + self.described("table") + self.expression()
                else:
                    text = self.described(space) + (self.expression() if space == "global" else b"")
            except LookupError:
                continue
            self.known[space] += 1
            out.append(text)
        return self.vector(out)

    def export_section(self):
        out, names = [], set()
        for _ in range(self.chance.choice([0, 1, 1, 2, 4])):
            kind = self.chance.choice([0, 0, 0, 1, 2, 3, 4])
            text = self.text()
            if text in names and not self.odd():
                continue
            try:
                out.append(text + (bytes([kind]) if not self.odd() else b"\5") + self.index(KINDS[kind]))
                names.add(text)
            except LookupError:
                pass
        return self.vector(out)

    def constant(self):
        chance = self.chance
        if self.odd():
            return chance.choice(CONSTANTS)
        return self.operator(chance.choice([0x41, 0x23, 0x23, 0xD0, 0xD2, *sorted(model.CONSTANT, key=str)]), [], 0)

    def expression(self, wide=None):
        if self.odd() and self.chance.random() < 0.3:
            return self.chance.choice([b"\x0b", b"", b"\x41\0"])
        if wide is not None and not self.odd() and self.chance.random() < 0.8:
            right = [number for number, text in enumerate(self.globals) if text == (b"\x7e" if wide else b"\x7f")]
            if right and self.chance.random() < 0.4:
                return b"\x23" + self.leb(self.chance.choice(right)) + b"\x0b"
            return self.operator(0x42 if wide else 0x41, [], 0) + b"\x0b"
        out = [self.constant()]
        while self.chance.random() < 0.3 or wide is not None and len(out) < 2 and not self.odd():
            out.append(self.constant())
        return b"".join(out) + b"\x0b"

    def segment_flags(self, flags, most):
        return self.leb(flags) if not self.odd() else self.leb(self.chance.choice([most + 1, most + 2, 128, 2**32 - 1, flags + 2**16]))

    def element_section(self):
        out = []
        for _ in range(self.some(5)):
            flags = self.chance.randrange(8)
            try:
                text = self.segment_flags(flags, 7)
                if not flags & 1:
                    table = self.chance.randrange(len(self.tables)) if self.tables and flags & 2 else 0
                    if not self.tables and not self.odd():
                        continue
                    text += (self.leb(table) if not self.odd() else self.index("table")) if flags & 2 else b""
                    text += self.expression(self.tables[table] if self.tables else False)
                if flags & 4:
                    text += self.reference() if flags & 3 else b""
                    text += self.vector([self.chance.choice([self.expression, self.item])() for _ in range(self.some(3))])
                else:
                    text += (self.zero() if flags else b"") + self.vector([self.index("function") for _ in range(self.some(3))])
            except LookupError:
                continue
            out.append(text)
            self.known["element"] += 1
        return self.vector(out)

    def item(self):
        return b"\xd2" + self.index("function") + b"\x0b"

    def data_section(self):
        out = []
        for _ in range(self.some(4)):
            flags = self.chance.choice([0, 1, 1, 1, 2])
            try:
                text = self.segment_flags(flags, 2)
                if flags != 1:
                    memory = self.chance.randrange(len(self.memories)) if self.memories and flags == 2 else 0
                    if not self.memories and not self.odd():
                        continue
                    text += (self.leb(memory) if not self.odd() else self.index("memory")) if flags == 2 else b""
                    text += self.expression(self.memories[memory] if self.memories else False)
            except LookupError:
                continue
            out.append(text + self.plain("x" * self.chance.randrange(4)) if not self.odd() else text + self.leb(self.chance.choice(EDGES)))
            self.known["data"] += 1
        return self.vector(out)

    # Bodies.

    def block(self):
        kind = self.chance.random()
        if self.odd():
            return self.chance.choice([*BLOCKS, self.leb(self.known["type"])])
        good = [number for number, (_, facts) in enumerate(self.types) if facts[0] and (facts[3] or kind > 0.99)]
        if good and kind > 0.5:
            return self.signed(self.chance.choice(good), 33)
        return b"\x40" if kind < 0.25 else self.value()

    def operator(self, code, frames, local):
        chance = self.chance
        out = bytes([code]) if not isinstance(code, tuple) else bytes([code[0]]) + self.leb(code[1])
        for kind in model.TABLES[False, True].get(code, []):
            out += self.immediate(kind, len(frames) - (code == 0x18), local, code)
        return out

    def immediate(self, kind, labels, local, code):
        chance = self.chance
        if kind in self.known:
            return self.index(kind)
        if kind == "local":
            return self.index(kind, local)
        if kind == "label":
            return self.index(kind, labels)
        if kind == "labels":
            return self.vector([self.index("label", labels) for _ in range(self.some(5))])
        if kind == "clauses":
            clauses = []
            for _ in range(self.some(3)):
                clause = chance.choice([0, 1, 2, 3] if self.tags else [2, 3]) if not self.odd() else chance.choice([4, 128, 0])
                clauses.append(bytes([clause]) + (self.index("tag") if clause < 2 else b"") + self.index("label", labels))
            return self.vector(clauses)
        if kind == "block":
            return self.block()
        if kind == "select":
            outside = b"\x63" + self.leb(self.known["type"])
            return self.vector(chance.choice([[], [b"\x7f", b"\x7e"], [b"\x40"], [outside, b"\x7f"]]) if self.odd() else [self.value()])
        if kind == "heap":
            return self.heap()
        if kind == "memarg":
            if not self.memories and not self.odd():
                raise LookupError
            memory = chance.randrange(len(self.memories)) if self.memories and chance.random() < 0.4 else None
            flags = chance.randrange(32) if not self.odd() else chance.choice([32, 63, 128, 160, 2**16, 2**31])
            wide = self.memories and self.memories[memory or 0]
            offset = chance.choice([0, 1, 2**31, 2**32 - 1] if not (wide or self.odd()) else [2**32, 2**63, 2**64 - 1])
            if memory is None:
                return self.leb(flags) + self.leb(offset, 64)
            return self.leb(flags | 64) + (self.index("memory") if self.odd() else self.leb(memory)) + self.leb(offset, 64)
        if kind in model.SIZES:
            return chance.randbytes(model.SIZES[kind] - self.odd())
        if kind == "zero":
            return self.zero()
        if kind == "cast":
            return bytes([chance.randrange(4) if not self.odd() else chance.choice([4, 128, 255])])
        if kind == "u32":
            return self.leb(chance.choice(EDGES))
        bits = 32 if kind == "i32" else 64
        return self.signed(chance.choice([0, 1, -1, 63, 64, -64, -65, 2 ** (bits - 1) - 1, -(2 ** (bits - 1)), chance.randrange(-1000, 1000)]), bits)

    def body(self, parameters):
        chance, out, local = self.chance, [], len(parameters)
        runs = []
        for _ in range(self.some(3)):
            count = chance.choice([0, 1, 1, 2, 3]) if not self.odd() else chance.choice([max(0, 50_000 - local), max(0, 50_001 - local), 2**32 - 1])
            runs.append(self.leb(count) + self.value())
            local += count if count < 100_000 else 0
        frames = ["body"]
        left = chance.choice([0, 1, 3, 6, 12, 25, 40])
        while frames:
            kind = chance.random()
            if left <= 0 or kind < 0.15 and len(frames) > 1:
                code = 0x0B
                if frames[-1] in ("try", "catch") and chance.random() < 0.4:
                    code = 0x18 if frames[-1] == "try" or self.odd() else 0x0B
                if frames[-1] == "if" and chance.random() < 0.3:
                    code = 0x05
            elif kind < 0.3 and frames[-1] == "if":
                code = 0x05
            elif kind < 0.45 and frames[-1] in ("try", "catch"):
                code = 0x07 if self.tags and chance.random() < 0.6 else 0x19
            elif self.loose and kind > 0.9:
                code = chance.choice([0x05, 0x07, 0x18, 0x19])
            elif self.odd():
                code = chance.choice([0x05, 0x07, 0x18, 0x19, 0x0B, *UNKNOWN])
            elif kind > 0.8 and chance.random() < 0.4:
                code = chance.choice(self.favoured)
            elif kind < 0.6:
                code = chance.choice([0x02, 0x03, 0x04, 0x06, 0x1F, 0x06])
            elif kind < 0.68:
                code = chance.choice([0x00, 0x01, 0x08, 0x09, 0x0A, 0x0C, 0x0D, 0x0E, 0x0F, 0x12, 0x13, 0x15])
            elif kind < 0.78:
                code = chance.choice([0x10, 0x20, 0x21, 0x22, 0x23, 0xD2, 0xD0, 0x1C, 0x11, 0x08])
            elif kind < 0.85:
                code = chance.choice(NAMING)
            else:
                code = chance.choice(chance.choice(GROUPS))
            left -= 1
            try:
                if code in UNKNOWN:
                    text = bytes([code]) if not isinstance(code, tuple) else bytes([code[0]]) + self.leb(code[1])
                else:
                    text = self.operator(code, frames, local)
            except LookupError:
                continue
            out.append(text)
            if code in (0x02, 0x03, 0x04, 0x06, 0x1F):
                frames.append({0x04: "if", 0x06: "try"}.get(code, "block"))
            elif code == 0x05:
                frames[-1] = "else"
            elif code in (0x07, 0x19):
                frames[-1] = "catch" if code == 0x07 else "last"
            elif code in (0x0B, 0x18):
                frames.pop()
        return self.vector(runs) + b"".join(out)

    def custom(self):
        chance = self.chance
        name = chance.choice(["name", "producers", "dylink.0", ".debug_info", "x", "", "linking"])
        if name == "name":
            parts = [(chance.choice([0, 1, 2, 4, 5, 9, 12]), chance.choice(["\1\0\1a", "a\0\0"])) for _ in range(self.some(3))]
            content = b"".join(bytes([part]) + self.plain(text) for part, text in parts)
        elif chance.random() < 0.5:
            content = b"\1" + self.plain("language") + b"\1" + self.plain("Rust") + self.plain("1")
        else:
            content = chance.randbytes(chance.randrange(5))
        return (self.plain(name) if not self.odd() else self.text()) + content

    def module(self):
        """The sections of a module, each an id and its contents; those of the code are a list of bodies."""
        chance, out = self.chance, []

        def put(section, make):
            self.here = section
            content = make()
            if chance.random() < 0.03:
                out.append((0, self.custom()))
            if content != b"\0" or chance.random() < 0.1:
                out.append((section, content))

        put(1, self.type_section)
        put(2, self.import_section)
        put(3, self.function_section)
        put(4, lambda: self.items("table"))
        put(5, lambda: self.items("memory"))
        put(13, lambda: self.items("tag"))
        put(6, lambda: self.items("global"))
        put(7, self.export_section)
        if chance.random() < 0.2 and self.known["function"]:
            put(8, lambda: self.index("function"))
        put(9, self.element_section)
        self.here = 11
        data = self.data_section()
        self.here, segments = 12, self.known["data"]
        if chance.random() < (0.7 if segments else 0.05) or self.odd():
            put(12, lambda: self.leb(chance.choice(EDGES) if self.odd() else segments))
        elif chance.random() < 0.8:
            self.known["data"] = 0
        if self.bodies or chance.random() < 0.05:
            put(10, lambda: [self.body(parameters) for parameters in self.bodies])
        put(11, lambda: data)
        if chance.random() < 0.1:
            out.append((0, self.custom()))
        return out


def bent(data, chance, other=b""):
    """Bytes with a few places changed, taken away, put in or spliced."""
    data = bytearray(data)
    for _ in range(chance.choice([1, 1, 1, 2, 3])):
        at = chance.randrange(len(data) + 1)
        kind = chance.randrange(9)
        if kind == 0 and at < len(data):
            data[at] = chance.randrange(256)
        elif kind in (1, 2) and at < len(data):
            data[at] = chance.choice(BYTES)
        elif kind == 3 and at < len(data):
            data[at] ^= 1 << chance.randrange(8)
        elif kind == 4:
            del data[at : at + chance.randrange(1, 4)]
        elif kind == 5:
            data[at:at] = bytes([chance.choice(BYTES)])
        elif kind == 6:
            data[at : at + chance.choice([0, 1])] = chance.choice(RUNS)
        elif kind == 7 and other:
            start = chance.randrange(len(other))
            data[at : at + chance.choice([0, 1, 3])] = other[start : start + chance.randrange(1, 12)]
        elif kind == 8 and data:
            at = chance.randrange(min(len(data), 2))
            data[at] = (data[at] + chance.choice([1, -1, 2])) & 255
    return bytes(data)


def joined(sections, maker):
    out = [b"\0asm\1\0\0\0"]
    for section, content in sections:
        if isinstance(content, list):
            content = maker.vector([maker.leb(len(body)) + body for body in content])
        out.append(bytes([section]) + maker.leb(len(content)) + content)
    return b"".join(out)


def edges(chance, maker):
    """A module at a limit: of tables, memories, locals, bodies, lists or names."""
    repeat = chance.choice([99, 100, 101, 102])
    kind = chance.randrange(8)
    many = lambda section, entry, count=repeat: (section, maker.leb(count) + entry * count)
    last, memory = chance.choice(TABLES), chance.choice(MEMORIES)
    name = b"\0\0"
    if kind == 0:
        return [(4, maker.leb(repeat + 1) + b"\x70\0\0" * repeat + last)]
    if kind == 1:
        return [(5, maker.leb(repeat + 1) + b"\0\0" * repeat + memory)]
    if kind == 2:
        first = chance.choice([b"\1\x70\0\0", b"\2\0\0"])
        final = b"\1" + last if first[0] == 1 else b"\2" + memory
        return [(2, maker.leb(repeat + 1) + (name + first) * repeat + name + final)]
    if kind == 3:
        cut = chance.randrange(repeat)
        first, entry, final, section = chance.choice([(b"\1\x70\0\0", b"\x70\0\0", last, 4), (b"\2\0\0", b"\0\0", memory, 5)])
        return [many(2, name + first, cut), (section, maker.leb(repeat - cut + 1) + entry * (repeat - cut) + final)]
    if kind == 4:
        params = chance.choice([0, 1, 1000])
        rest = 50_000 - params
        runs = [[rest], [rest + 1], [25_000, rest - 25_000], [25_000, rest - 24_999], [0] * 300 + [1], [rest, 0, 0], [rest, 1], [2**32 - 1] * 2]
        runs = chance.choice(runs)
        bad = chance.choice([b"\x7f", b"\x7f", b"\x65", b"\x40", b"\x63\x09"])
        body = maker.leb(len(runs)) + b"".join(maker.leb(run) + b"\x7f" for run in runs[:-1]) + maker.leb(runs[-1]) + bad
        body += b"\x20" + maker.leb(chance.choice([49_999, 50_000, 0, 1001])) + b"\x1a\x0b"
        return [(1, b"\1\x60" + maker.leb(params) + b"\x7f" * params + b"\0"), (3, b"\1\0"), (10, [body])]
    if kind == 5:
        size = maker.leb(chance.choice([7_654_321, 7_654_322, 7_654_320, 2**32 - 1, 3, 4, 2, 1]))
        return [(1, b"\1\x60\0\0"), (3, b"\1\0"), (10, b"\1" + size + b"\0\x01\x0b")]
    if kind == 6:
        count = chance.choice([9_999, 10_000, 10_001])
        few = maker.leb(count // 10) + b"\x7f" * (count // 10)
        forms = [b"\x5f" + maker.leb(count) + b"\x7f\0" * count, b"\x60" + few + b"\0", b"\x60\0" + few]
        forms += [b"\x4e" + maker.leb(990_000 + count), b"\x50" + maker.leb(chance.choice([1, 2])) + b"\0\0\x60\0\0"]
        form = chance.choice(forms)
        return [(1, b"\1" + form)]
    length = chance.choice([99_999, 100_000, 100_001])
    name = maker.leb(length) + b"a" * length
    return [chance.choice([(0, name), (2, b"\1" + name + b"\0\3\x7f\0"), (7, b"\1" + name + b"\0\0")])]


def modules(chance):
    """Modules without end, each with what was done to it."""
    before = [(0, b"\0")]
    while True:
        maker = Maker(chance)
        if chance.random() < 0.01:
            yield "at a limit", joined(edges(chance, maker), maker)
            continue
        try:
            sections = maker.module()
        except LookupError:
            continue
        yield ("with odd parts" if maker.wrong else "made"), joined(sections, maker)
        for _ in range(chance.choice([0, 1, 2, 4])):
            changed = list(sections)
            kind = chance.randrange(10)
            if kind < 5 and changed:
                what = "bent in a section"
                at = chance.randrange(len(changed))
                if chance.random() < 0.5:
                    at = next((place for place, (section, _) in enumerate(changed) if section == 10), at)
                other = chance.choice(before)[1]
                other = b"".join(other) if isinstance(other, list) else other
                section, content = changed[at]
                if isinstance(content, list) and content:
                    place = chance.randrange(len(content))
                    changed[at] = section, [*content[:place], bent(content[place], chance, other), *content[place + 1 :]]
                elif not isinstance(content, list):
                    changed[at] = section, bent(content, chance, other)
                data = joined(changed, maker)
            elif kind == 5:
                what, data = "bent", bent(joined(changed, maker), chance)
            elif kind == 6:
                what, data = "cut", joined(changed, maker)
                data = data[: chance.randrange(len(data) + 1)]
            elif kind == 7 and changed:
                what, at = "sections moved", chance.randrange(len(changed))
                way = chance.randrange(3)
                section = changed[at] if way == 2 else changed.pop(at)
                if way:
                    changed.insert(chance.randrange(len(changed) + 1), section)
                data = joined(changed, maker)
            elif kind == 8 and changed:
                what = "sections exchanged"
                section = chance.choice(before)
                changed = [section if old[0] == section[0] else old for old in changed]
                data = joined(changed, maker)
            else:
                what, ways = "bodies changed", [lambda bodies: bodies[1:], lambda bodies: bodies + bodies[:1], lambda bodies: bodies[::-1]]
                changed = [(section, chance.choice(ways)(content) if isinstance(content, list) else content) for section, content in changed]
                data = joined(changed, maker)
            yield what, data
        before = sections or before


def told(data, flags):
    try:
        return model.inspect(data, "--stable" in flags, "--no-legacy" not in flags, "--kept" in flags)
    except model.Fault as fault:
        return f"{fault}\n"


def answer(program, flags, file):
    run = subprocess.run([program, *flags, file], capture_output=True, close_fds=False)
    if run.returncode not in (0, 1) or (run.stdout and run.stderr) or bool(run.stderr) != run.returncode:
        return f"status {run.returncode}: {run.stdout}{run.stderr}"
    return (run.stdout or run.stderr).decode()


def main():
    words = argparse.ArgumentParser(description="Compares walrus_inspect with a model on random modules.")
    words.add_argument("--program")
    words.add_argument("--seed", type=int, default=1)
    words.add_argument("--count", type=int, default=2000)
    words.add_argument("--flags")
    words.add_argument("--out", default=tempfile.gettempdir())
    asked = words.parse_args()
    program = asked.program or PROGRAM
    if program == PROGRAM:
        build()
    sets = FLAGS if asked.flags is None else [asked.flags.split()]
    chance, results, answers, wrong = random.Random(asked.seed), collections.Counter(), collections.Counter(), 0
    with tempfile.TemporaryDirectory(dir="/dev/shm" if os.path.isdir("/dev/shm") else None) as folder:
        file = f"{folder}/module.wasm"
        for number, (what, data) in enumerate(itertools.islice(modules(chance), asked.count)):
            with open(file, "wb") as out:
                out.write(data)
            for flags in sets:
                expected = told(data, flags)
                given = answer(program, flags, file)
                read = not expected.startswith("error")
                results[f"{what}, {'read' if read else 'refused'}"] += 1
                answers["read" if read else expected.strip().split(": ", 1)[1]] += 1
                if given != expected:
                    wrong += 1
                    name = f"{asked.out}/differs_{asked.seed}_{number}.wasm"
                    with open(name, "wb") as out:
                        out.write(data)
                    print(f"{name} {' '.join(flags)} ({what}):", *("\n  " + " ".join(text.split()) for text in (expected, given)), flush=True)
    for counter in (results, answers):
        print(", ".join(f"{what}: {count}" for what, count in sorted(counter.items())))
    print(f"compared: {sum(results.values())}, wrong: {wrong}")
    sys.exit(wrong > 0)


if __name__ == "__main__":
    main()
