"""A second model of what `walrus_inspect` answers, written from the formats' text alone, without a look at this repository's definitions.

`inspect(data, stable, legacy, kept, shared)` gives the program's eleven lines, or raises `Fault`, which holds the place and the text of the
refusal; `shared` says whether shared abstract heap types are read.

It is plain and slow, and shares nothing with the proved sources; bench/against_model.py compares the two on random modules.
"""

LINES = "types functions tables memories tags globals elements data imports exports operators".split()
LIMITS = {"types": 10**6, "imports": 10**6, "functions": 10**6, "globals": 10**6, "tags": 10**6, "exports": 10**6}
LIMITS |= {"tables": 100, "memories": 100, "elements": 10**5, "data": 10**5, "locals": 50_000, "body": 7_654_321}
PLURAL = {name if name == "data" else name[:-3] + "y" if name == "memories" else name[:-1]: name for name in LINES[:8]}
KINDS = ["function", "table", "memory", "global", "tag"]
ORDER = [1, 2, 3, 4, 5, 13, 6, 7, 8, 9, 12, 10, 11]
ABSTRACT = {0x70, 0x6F, 0x6E, 0x71, 0x72, 0x73, 0x6D, 0x6B, 0x6A, 0x6C, 0x69, 0x74}
I32, I64, FUNCREF = 0x7F, 0x7E, (True, "abstract", 0x70)
READ, INDEX, FORM, CONST, OFFSET, NESTING, POSITION, OPERATOR, UNSUPPORTED, DUPLICATE, BOUNDS, LIMIT = 1, *range(6, 17)
END, BAD, PASSES, OFF = "unexpected end", "byte is not allowed here", "count passes a limit", "feature is off"
WANTED, OUTSIDE, ORDERED = "a function type is needed", "number out of bounds", "operator may not stand here"
CUTS = {0x00, 0x08, 0x09, 0x0A, 0x0C, 0x0E, 0x0F}
UNSIZED = {0x01, 0x05, 0x07, 0x0B, 0x18, 0x19}


class Fault(Exception):
    def __init__(self, place, number, text):
        super().__init__(f"error: {text}" if place is None else f"error at {place}: {text}")
        self.place, self.number, self.text = place, number, text


def first_of(due):
    """Of the faults that are due at one moment, that of the least place, then of the least number, is answered."""
    if due:
        raise min(due, key=lambda fault: (fault.place, fault.number))


def outside(place, space):
    return Fault(place, INDEX, f"index of a {space} is out of range")


def passed(place, what):
    return Fault(place, LIMIT, f"limit passed: {what}")


class Reader:
    """A window of the file."""

    def __init__(self, data, at, end, shared=False):
        self.data, self.at, self.end, self.shared = data, at, end, shared

    def peek(self):
        if self.at >= self.end:
            raise Fault(self.at, READ, END)
        return self.data[self.at]

    def byte(self):
        value = self.peek()
        self.at += 1
        return value

    def one_of(self, allowed):
        place = self.at
        value = self.byte()
        if value not in allowed:
            raise Fault(place, READ, BAD)
        return value

    def run(self, length):
        if self.end - self.at < length:
            raise Fault(self.at, READ, END)
        self.at += length
        return self.data[self.at - length : self.at]

    def number(self, bits, signed=False):
        value = shift = 0
        while True:
            place = self.at
            byte = self.byte()
            value |= (byte & 127) << shift
            shift += 7
            if shift >= bits:
                break
            if byte < 128:
                return value - (1 << shift) if signed and byte & 64 else value
        rest = (byte & 127) >> (bits - shift + 7 - signed)
        wrong = rest not in (0, (1 << (shift - bits + 1)) - 1) if signed else rest != 0
        if byte >= 128 or wrong and bits == 33:
            raise Fault(place, READ, "number is too long")
        if wrong:
            raise Fault(place, READ, "number is too large")
        return value - (1 << shift) if signed and byte & 64 else value

    def u32(self):
        return self.number(32)

    def count(self, limit):
        place = self.at
        value = self.u32()
        if value > limit:
            raise Fault(place, READ, PASSES)
        return value

    def name(self):
        length = self.count(100_000)
        place = self.at
        text = self.run(length)
        try:
            text.decode()
        except UnicodeDecodeError:
            raise Fault(place, READ, "text is not UTF-8") from None
        return text

    def heap(self):
        place = self.at
        if self.peek() in ABSTRACT:
            return "abstract", self.byte()
        if self.peek() == 0x65:
            return self.shared_heap()
        value = self.number(33, signed=True)
        if value < 0:
            raise Fault(place, READ, BAD)
        if value >= 1 << 20:
            raise Fault(place, READ, PASSES)
        return "concrete", value

    def shared_heap(self):
        if not self.shared:
            raise Fault(self.at, READ, OFF)
        self.at += 1
        return "shared", self.one_of(ABSTRACT)

    def reference(self):
        if self.peek() == 0x65:
            return (True, *self.shared_heap())
        place = self.at
        byte = self.byte()
        if byte in (0x63, 0x64):
            return (byte == 0x63, *self.heap())
        if byte in ABSTRACT:
            return True, "abstract", byte
        raise Fault(place, READ, BAD)

    def value(self):
        return self.byte() if 0x7B <= self.peek() <= 0x7F else self.reference()

    def block(self):
        """A block type: nothing, a value type in a list, or the number of a type."""
        place = self.at
        byte = self.peek()
        if byte == 0x40:
            self.at += 1
            return []
        if 0x7B <= byte <= 0x7F or byte in (0x63, 0x64, 0x65) or byte in ABSTRACT:
            return [self.value()]
        number = self.number(33, signed=True)
        if number < 0:
            raise Fault(place, READ, BAD)
        return number


def named(value):
    """The types that a value type names."""
    return [value[2]] if isinstance(value, tuple) and value[1] == "concrete" else []


class SubType:
    def __init__(self, reader):
        self.place = reader.at
        byte = reader.byte()
        self.final, self.above, self.group = byte != 0x50, [], None
        if byte in (0x50, 0x4F):
            for _ in range(reader.count(1)):
                place = reader.at
                self.above.append(reader.u32())
                if self.above[-1] >= 1 << 20:
                    raise Fault(place, READ, PASSES)
            byte = reader.byte()
        self.shared = byte == 0x65 and reader.shared
        if self.shared:
            byte = reader.byte()
        self.form = byte
        if byte == 0x60:
            self.lists = [[reader.value() for _ in range(reader.count(1000))] for _ in range(2)]
        elif byte in (0x5F, 0x5E):
            self.lists = [[self.field(reader) for _ in range(reader.count(10_000) if byte == 0x5F else 1)]]
        else:
            raise Fault(reader.at - 1, READ, OFF if byte == 0x65 and not reader.shared else BAD)
        values = [value for values in self.lists for value in values]
        self.names = self.above + [name for value in values for name in named(value[0] if byte != 0x60 else value)]

    @staticmethod
    def field(reader):
        storage = reader.byte() if reader.peek() in (0x78, 0x77) else reader.value()
        return storage, reader.one_of((0, 1))


def immediates_of(stable, legacy):
    """The operators that are on: for each code the kinds of its immediates, in their order in the file."""
    table = {}

    def put(codes, kinds="", prefix=None):
        for code in codes:
            table[code if prefix is None else (prefix, code)] = kinds.split()

    put([0x00, 0x01, 0x05, 0x0B, 0x0F, 0x1A, 0x1B, *range(0x45, 0xC5), 0xD1, 0xD3, 0xD4, 0x0A])
    put([0x02, 0x03, 0x04], "block")
    put([0x1F], "block clauses")
    put([0x08], "tag")
    put([0x0C, 0x0D, 0xD5, 0xD6], "label")
    put([0x0E], "labels label")
    put([0x10, 0x12, 0xD2], "function")
    put([0x11, 0x13], "type table")
    put([0x14, 0x15], "type")
    put([0x1C], "select")
    put([0x20, 0x21, 0x22], "local")
    put([0x23, 0x24], "global")
    put([0x25, 0x26], "table")
    put(range(0x28, 0x3F), "memarg")
    put([0x3F, 0x40], "memory")
    for code, kind in zip([0x41, 0x42, 0x43, 0x44], ["i32", "i64", "four", "eight"]):
        put([code], kind)
    put([0xD0], "heap")
    put(range(8), "", 0xFC)
    for code, kinds in enumerate("data memory,data,memory memory,memory,element table,element,table table,table,table,table".split(",")):
        put([8 + code], kinds, 0xFC)
    put([0, 1, 6, 7, 11, 12, 13, 14, 16], "type", 0xFB)
    put([2, 3, 4, 5, 8], "type u32", 0xFB)
    put([9, 18], "type data", 0xFB)
    put([10, 19], "type element", 0xFB)
    put([17], "type type", 0xFB)
    put([15, *range(26, 31)], "", 0xFB)
    put(range(20, 24), "heap", 0xFB)
    put([24, 25], "cast label heap heap", 0xFB)
    put(range(276), "", 0xFD)
    put([*range(12), 92, 93], "memarg", 0xFD)
    put([12, 13], "sixteen", 0xFD)
    put(range(21, 35), "byte", 0xFD)
    put(range(84, 92), "memarg byte", 0xFD)
    for code in [154, 162, 165, 166, 175, 176, 178, 179, 180, 187, 194, 197, 198, 207, 208, 210, 211, 212, 226, 238]:
        del table[0xFD, code]
    put([0, 1, 2, *range(16, 79)], "memarg", 0xFE)
    put([3], "zero", 0xFE)
    if not stable:
        put(range(19, 23), "", 0xFC)
    if legacy:
        put([0x06], "block")
        put([0x07], "tag")
        put([0x09, 0x18], "label")
        put([0x19])
    return table


TABLES = {(stable, legacy): immediates_of(stable, legacy) for stable in (False, True) for legacy in (False, True)}
CONSTANT = {*range(0x41, 0x45), 0x23, 0xD0, 0xD2, *range(0x6A, 0x6D), *range(0x7C, 0x7F), (0xFD, 12)}
CONSTANT |= {(0xFB, code) for code in (0, 1, 6, 7, 8, 26, 27, 28)}
SIZES = {"four": 4, "eight": 8, "sixteen": 16, "byte": 1}


def code_of(reader):
    byte = reader.byte()
    return (byte, reader.u32()) if 0xFB <= byte <= 0xFE else byte


def immediate(reader, kind):
    """An immediate, as what it names (pairs of space and number) and what else is asked of it."""
    if kind in PLURAL or kind in ("label", "local"):
        return [(kind, reader.u32())], None
    if kind == "labels":
        return [("label", reader.u32()) for _ in range(reader.u32())], None
    if kind == "clauses":
        names = []
        for _ in range(reader.u32()):
            if reader.one_of(range(4)) < 2:
                names.append(("tag", reader.u32()))
            names.append(("label", reader.u32()))
        return names, None
    if kind == "block":
        block = reader.block()
        return [("type", name) for name in ([block] if isinstance(block, int) else named((block or [I32])[0]))], block
    if kind == "select":
        values = [reader.value() for _ in range(reader.u32())]
        return [("type", name) for value in values for name in named(value)], len(values)
    if kind == "heap":
        return [("type", name) for name in named((True, *reader.heap()))], None
    if kind == "memarg":
        flags = reader.u32()
        memory = reader.u32() if flags & 64 else 0
        return [("memory", memory)], (flags & ~64, memory, reader.number(64))
    if kind in SIZES:
        reader.run(SIZES[kind])
    elif kind == "zero":
        reader.one_of((0,))
    elif kind == "cast":
        reader.one_of(range(4))
    elif kind == "u32":
        reader.u32()
    else:
        reader.number(32 if kind == "i32" else 64, signed=True)
    return [], None


class Module:
    def __init__(self, data, stable=False, legacy=True, shared=False):
        self.data, self.operators, self.shared = data, TABLES[stable, legacy], shared
        self.types, self.functions, self.tables, self.memories, self.tags, self.globals = [], [], [], [], [], []
        self.elements, self.data_segments, self.imports, self.exports, self.bodies = [], [], [], [], []
        items = self.types, self.functions, self.tables, self.memories, self.tags, self.globals, self.elements, self.data_segments
        self.spaces = dict(zip(PLURAL, items))
        self.names, self.handlers, self.start, self.data_count, self.declared, self.groups = set(), [], None, None, 0, 0
        self.read()

    # Sections.

    def read(self):
        if self.data[:8] != b"\0asm\1\0\0\0":
            raise Fault(0, 2, "not a WebAssembly module")
        reader, last = Reader(self.data, 8, len(self.data), self.shared), -1
        sections = {1: self.type_group, 2: self.import_entry, 3: self.function_entry, 4: self.table_entry, 5: self.memory_entry, 13: self.tag_entry}
        sections |= {6: self.global_entry, 7: self.export_entry, 9: self.element_entry, 10: self.code_entry, 11: self.data_entry}
        while reader.at < reader.end:
            place = reader.at
            section = reader.byte()
            if section and (section > 13 or ORDER.index(section) <= last):
                raise Fault(place, 3, "section out of order")
            last = ORDER.index(section) if section else last
            place = reader.at
            size = reader.u32()
            if size > reader.end - reader.at:
                raise Fault(place, 4, "section size is wrong")
            inner = Reader(self.data, reader.at, reader.at + size, self.shared)
            if section == 0:
                inner.name()
                inner.at = inner.end
            elif section == 8:
                self.start = self.item(inner, "function")
            elif section == 12:
                self.data_count = inner.u32()
            else:
                place = inner.at
                count = inner.u32()
                if section == 10 and count != self.declared or section == 11 and self.data_count not in (None, count):
                    raise Fault(place, 5, "counts do not agree")
                if section == 3:
                    self.declared = count
                for _ in range(count):
                    sections[section](inner)
            if inner.at < inner.end:
                raise Fault(inner.at, 4, "section size is wrong")
            reader.at = inner.end
        if len(self.bodies) != self.declared or self.data_count not in (None, len(self.data_segments)):
            raise Fault(len(self.data), 5, "counts do not agree")
        self.merge()
        self.facts = [self.body(self.functions[len(self.functions) - self.declared + number], *body) for number, body in enumerate(self.bodies)]

    def full(self, place, space):
        return [passed(place, PLURAL[space])] if len(self.spaces[space]) >= LIMITS[PLURAL[space]] else []

    def limited(self, reader, space, entry):
        """An entry that is no unit: past the limit only a fault at its very first byte goes before that of the limit."""
        place, full = reader.at, self.full(reader.at, space)
        try:
            self.spaces[space].append(entry())
        except Fault as fault:
            if full and fault.place > place:
                raise full[0] from None
            raise
        first_of(full)

    def item(self, reader, space):
        place = reader.at
        number = reader.u32()
        if number >= len(self.spaces[space]):
            raise outside(place, space)
        return number

    def function_type(self, reader, also=()):
        place = reader.at
        number = reader.u32()
        due = list(also)
        if number >= len(self.types):
            due.append(outside(place, "type"))
        elif self.types[number].form != 0x60:
            due.append(Fault(place, FORM, WANTED))
        first_of(due)
        return number

    def value_type(self, reader, read):
        place = reader.at
        value = read()
        if any(name >= len(self.types) for name in named(value)):
            raise outside(place, "type")
        return value

    def type_group(self, reader):
        if explicit := reader.peek() == 0x4E:
            reader.at += 1
        self.groups += explicit
        group = [SubType(reader) for _ in range(reader.count(10**6) if explicit else 1)]
        end = len(self.types) + len(group)
        for sub in group:
            sub.group = self.groups if explicit else None
            due = self.full(sub.place, "type")
            if any(name >= end for name in sub.names):
                due.append(outside(sub.place, "type"))
            if sub.shared:
                due.append(Fault(sub.place, UNSUPPORTED, "not supported: shared type"))
            first_of(due)
            self.types.append(sub)

    def limits(self, reader, memory, also=()):
        """Gives whether the numbers have 64 bits."""
        place, size = reader.at, None
        flags = reader.byte()
        if flags > (15 if memory else 7):
            raise Fault(place, READ, BAD)
        bits = 64 if flags & 4 else 32
        least = reader.number(bits)
        most = reader.number(bits) if flags & 1 else None
        due = list(also)
        if flags & 8:
            size = reader.at
            if reader.u32() not in (0, 16):
                due.append(Fault(size, BOUNDS, OUTSIDE))
        if flags & 2 and not memory:
            due.append(Fault(place, UNSUPPORTED, "not supported: shared table"))
        if most is not None and least > most or flags & 2 and memory and most is None:
            due.append(Fault(place, BOUNDS, OUTSIDE))
        first_of(due)
        return bits == 64

    def global_type(self, reader, also=()):
        value = self.value_type(reader, reader.value)
        place, due = reader.at, list(also)
        if reader.one_of(range(4)) > 1:
            due.append(Fault(place, UNSUPPORTED, "not supported: shared global"))
        first_of(due)
        return value

    def import_entry(self, reader):
        place = reader.at
        reader.name()
        reader.name()
        space = KINDS[reader.one_of(range(5))]
        also = [passed(place, "imports")] if len(self.imports) >= LIMITS["imports"] else self.full(place, space)
        if space == "function":
            item = self.function_type(reader, also)
        elif space == "table":
            item = self.value_type(reader, reader.reference), self.limits(reader, False, also), []
        elif space == "memory":
            item = self.limits(reader, True, also)
        elif space == "global":
            item = self.global_type(reader, also), []
        else:
            reader.one_of((0,))
            item = self.function_type(reader, also)
        self.imports.append((space, len(self.spaces[space])))
        self.spaces[space].append(item)

    def function_entry(self, reader):
        self.functions.append(self.function_type(reader, self.full(reader.at, "function")))

    def table_entry(self, reader):
        def entry():
            first = reader.peek() == 0x40
            if first:
                reader.at += 1
                reader.one_of((0,))
            element = self.value_type(reader, reader.reference)
            wide = self.limits(reader, False)
            return element, wide, self.expression(reader) if first else []

        self.limited(reader, "table", entry)

    def memory_entry(self, reader):
        self.memories.append(self.limits(reader, True, self.full(reader.at, "memory")))

    def tag_entry(self, reader):
        def entry():
            reader.one_of((0,))
            return self.function_type(reader)

        self.limited(reader, "tag", entry)

    def global_entry(self, reader):
        self.limited(reader, "global", lambda: (self.global_type(reader), self.expression(reader)))

    def export_entry(self, reader):
        place = reader.at
        name = reader.name()
        space = KINDS[reader.one_of(range(5))]
        due = [Fault(place, DUPLICATE, "duplicate export name")] if name in self.names else []
        index = reader.at
        number = reader.u32()
        if len(self.exports) >= LIMITS["exports"]:
            due.append(passed(place, "exports"))
        if number >= len(self.spaces[space]):
            due.append(outside(index, space))
        first_of(due)
        self.names.add(name)
        self.exports.append((space, number))

    def expression(self, reader, wide=None):
        """The operators of a constant expression, each with what it names; of an offset, whether it has 64 bits is given."""
        operators, start = [], reader.at
        while True:
            place = reader.at
            code = code_of(reader)
            if code == 0x0B and operators:
                break
            if code not in CONSTANT:
                raise Fault(place, CONST, "not a constant expression")
            names = [name for kind in self.operators[code] for name in immediate(reader, kind)[0]]
            for space, number in names:
                if number >= len(self.spaces[space]):
                    raise outside(place, space)
            operators.append((code, names))
        if wide is not None and len(operators) == 1:
            code, names = operators[0]
            given = {0x41: I32, 0x42: I64}.get(code) or (self.globals[names[0][1]][0] if code == 0x23 else None)
            if given != (I64 if wide else I32):
                raise Fault(start, OFFSET, "offset has the wrong type")
        return [name for _, names in operators for name in names]

    def active(self, reader, place, space, written):
        if written:
            number = self.item(reader, space)
        elif self.spaces[space]:
            number = 0
        else:
            raise outside(place, space)
        wide = self.tables[number][1] if space == "table" else self.memories[number]
        return [(space, number), *self.expression(reader, wide)]

    def flags(self, reader, most):
        place = reader.at
        flags = reader.u32()
        if flags > most:
            raise Fault(place, READ, BAD)
        return flags

    def element_entry(self, reader):
        def entry():
            place = reader.at
            flags = self.flags(reader, 7)
            target = [] if flags & 1 else self.active(reader, place, "table", flags & 2)
            names = list(target)
            if flags & 4:
                element = self.value_type(reader, reader.reference) if flags & 3 else FUNCREF
                names += [("type", name) for name in named(element)]
                for _ in range(reader.u32()):
                    names += self.expression(reader)
            else:
                if flags:
                    reader.one_of((0,))
                names += [("function", self.item(reader, "function")) for _ in range(reader.u32())]
            return flags & 3 == 3, target[0][1] if target else None, names

        self.limited(reader, "element", entry)

    def data_entry(self, reader):
        def entry():
            place = reader.at
            flags = self.flags(reader, 2)
            names = [] if flags == 1 else self.active(reader, place, "memory", flags == 2)
            reader.run(reader.u32())
            return flags != 1, names

        self.limited(reader, "data", entry)

    def code_entry(self, reader):
        place = reader.at
        size = reader.u32()
        if size > LIMITS["body"]:
            raise passed(place, "body")
        self.bodies.append((reader.at, reader.at + size))
        reader.run(size)

    # Types: what each stands for, and the picks of block types.

    def merge(self):
        self.same, self.picks, known = list(range(len(self.types))), {}, {}
        for number, sub in enumerate(self.types):
            key = sub.final, tuple(self.same[name] if name < number else name for name in sub.above), sub.form, self.lists(sub.lists)
            if number not in sub.names:
                if sub.group is None:
                    self.same[number] = known.get(key, number)
                if self.same[number] == number:
                    known[key] = number
            if sub.form == 0x60 and sub.final and not sub.above and self.same[number] == number:
                self.picks[key[3]] = number

    def stands(self, value):
        if isinstance(value, tuple) and len(value) == 2:
            return self.stands(value[0]), value[1]
        return (*value[:2], self.same[value[2]]) if named(value) else value

    def lists(self, lists):
        return tuple(tuple(self.stands(value) for value in values) for values in lists)

    def pick(self, lists):
        """What a block type of these lists names, or nothing where it would have to be added."""
        if not lists[0] and len(lists[1]) < 2:
            return [("type", name) for value in lists[1] for name in named(value)]
        key = self.lists(lists)
        return [("type", self.picks[key])] if key in self.picks else None

    def handler(self, lists):
        names = self.pick(lists)
        if names is not None:
            return names
        key = self.lists(lists)
        if key not in self.handlers:
            self.handlers.append(key)
        return [("type", len(self.types) + self.handlers.index(key))]

    # Bodies.

    def body(self, function, start, end):
        """The size of a body's normal form, and what it names."""
        reader = Reader(self.data, start, end, self.shared)
        values = list(self.types[function].lists[0])
        for _ in range(reader.u32()):
            place = reader.at
            count = reader.u32()
            if len(values) + count > LIMITS["locals"]:
                raise passed(place, "locals")
            values += [self.value_type(reader, reader.value)] * count
        size, found = 0, set()
        frames = [Frame(0x02, False, None)]
        while frames:
            place = reader.at
            code = code_of(reader)
            if code not in self.operators:
                raise Fault(place, OPERATOR, "unknown operator")
            given = [(kind, *immediate(reader, kind)) for kind in self.operators[code]]
            names = [name for _, some, _ in given for name in some]
            block = next((what for kind, _, what in given if kind == "block"), None)
            frame = frames[-1]
            bounds = {"label": len(frames) - (code == 0x18), "local": len(values)}
            for space, number in names:
                if number >= (bounds[space] if space in bounds else len(self.spaces[space])):
                    raise outside(place, space)
            if block is not None:
                if isinstance(block, int) and self.types[block].form != 0x60:
                    raise Fault(place, FORM, WANTED)
                lists = self.types[block].lists if isinstance(block, int) else [[], block]
                if self.pick(lists) is None:
                    raise Fault(place, FORM, WANTED)
            if code == 0x05 and frame.kind != 0x04 or code in (0x07, 0x19, 0x18) and frame.kind not in (0x06, 0x07, 0x19):
                raise Fault(place, NESTING, "blocks do not nest")
            if code in (0x07, 0x19, 0x18) and (frame.kind == 0x19 or code == 0x18 and frame.kind == 0x07):
                raise Fault(place, POSITION, ORDERED)
            if self.data_count is None and any(space == "data" for space, _ in names):
                raise Fault(place, POSITION, ORDERED)
            for kind, _, what in given:
                if kind == "select" and what != 1:
                    raise Fault(place, UNSUPPORTED, "not supported: select")
                if kind == "memarg" and (what[0] > 31 or what[2] >> 32 and not self.memories[what[1]]):
                    raise Fault(place, BOUNDS, OUTSIDE)
            alive = not frame.dropped and (not frame.cut or code in (0x05, 0x07, 0x19))
            if alive:
                size += code not in UNSIZED
                found |= {name for kind, some, _ in given if kind != "block" for name in some}
                if block is not None:
                    found |= set(self.pick(lists))
                if code in (0x07, 0x19):
                    found |= set(self.handler([self.tag_values(names), frame.results]))
                if code in CUTS:
                    frame.cut = True
            if block is not None:
                frames.append(Frame(code, not alive, lists[1]))
            elif code in (0x05, 0x07, 0x19):
                frame.kind, frame.cut = code, False
            elif code in (0x0B, 0x18):
                frames.pop()
        if reader.at < end:
            raise Fault(reader.at, NESTING, "blocks do not nest")
        used = [values[number] for space, number in found if space == "local"]
        return size, [(space, number) for space, number in found if space not in bounds] + [("type", name) for value in used for name in named(value)]

    def tag_values(self, names):
        return [value for _, tag in names for value in self.types[self.tags[tag]].lists[0]]

    # What is kept, and the counts.

    def of_type(self, number):
        if number >= len(self.types):
            return [("type", value[2]) for values in self.handlers[number - len(self.types)] for value in values if named(value)]
        sub = self.types[number]
        members = [member for member, other in enumerate(self.types) if other.group == sub.group] if sub.group else []
        return [("type", name) for name in sub.names + members]

    def references(self, space, number):
        if space == "type":
            return self.of_type(number)
        if space == "function":
            local = number - len(self.functions) + self.declared
            return [("type", self.functions[number]), *(self.facts[local][1] if local >= 0 else [])]
        if space == "table":
            element, _, names = self.tables[number]
            segments = [("element", segment) for segment, (_, table, _) in enumerate(self.elements) if table == number]
            return [("type", name) for name in named(element)] + names + segments
        if space == "memory":
            return [("data", segment) for segment, (active, names) in enumerate(self.data_segments) if active and names[0][1] == number]
        if space == "global":
            value, names = self.globals[number]
            return [("type", name) for name in named(value)] + names
        if space == "tag":
            return [("type", self.tags[number])]
        return self.elements[number][2] if space == "element" else self.data_segments[number][1]

    def kept(self):
        imported = {number for space, number in self.imports if space == "table"}
        work = self.exports + ([("function", self.start)] if self.start is not None else [])
        work = work + [("data", number) for number, (active, _) in enumerate(self.data_segments) if active]
        work += [("element", number) for number, (declared, table, _) in enumerate(self.elements) if declared or table in imported]
        kept = set()
        while work:
            space, number = work.pop()
            item = space, self.same[number] if space == "type" and number < len(self.types) else number
            if item not in kept:
                kept.add(item)
                work += self.references(*item)
            spaces = {space for space, _ in kept}
            if not work and self.memories and "data" in spaces and "memory" not in spaces:
                work.append(("memory", 0))
        return kept

    def all(self):
        kept = {(space, number) for space, items in self.spaces.items() if space != "type" for number in range(len(items))}
        return kept | {("type", number) for number in [*set(self.same), *range(len(self.types), len(self.types) + len(self.handlers))]}

    def counts(self, kept):
        live = self.kept() if kept else self.all()
        counts = {PLURAL[space]: sum(of == space for of, _ in live) for space in PLURAL}
        first = len(self.functions) - self.declared
        sizes = sum(size for number, (size, _) in enumerate(self.facts) if ("function", first + number) in live)
        return counts | {"imports": sum(item in live for item in self.imports), "exports": len(self.exports), "operators": sizes}


class Frame:
    def __init__(self, kind, dropped, results):
        self.kind, self.dropped, self.cut, self.results = kind, dropped, False, results


def inspect(data, stable=False, legacy=True, kept=False, shared=False):
    if len(data) > 1 << 30:
        raise Fault(None, 22, "input is too long")
    counts = Module(data, stable, legacy, shared).counts(kept)
    return "".join(f"{name}: {counts[name]}\n" for name in LINES)
