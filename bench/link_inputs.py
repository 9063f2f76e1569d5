#!/usr/bin/env python3
"""Writes the inputs of bench/link.sh: relocatable objects as a compiler of C writes them, byte by byte.

    link_inputs.py small   FOLDER COUNT    objects of two or three short functions each, a tree of calls
    link_inputs.py library FOLDER COUNT    main.o and library.a, whose members need each the next
    link_inputs.py fan     FOLDER COUNT    main.o and library.a, whose members main.o needs all
    link_inputs.py sparse  FOLDER COUNT    main.o and library.a, of whose members main.o needs one in 400
    link_inputs.py large   FOLDER COUNT    objects of 1 MiB of code each
    link_inputs.py dead    FOLDER COUNT    the same objects, of which nothing can be reached
    link_inputs.py small-pic, large-pic    those of small and large as position-independent code, for -shared

But for `dead` and `sparse` every function can be reached from _start. FOLDER/inputs lists the files, one a line. The same words give the same bytes.
"""
import os
import random
import sys

I32 = 0x7F
# Relocations by their numbers in the object format.
FUNCTION_INDEX_LEB, TABLE_INDEX_SLEB, TABLE_INDEX_I32 = 0, 1, 2
MEMORY_ADDR_LEB, MEMORY_ADDR_SLEB, MEMORY_ADDR_I32 = 3, 4, 5
TYPE_INDEX_LEB, GLOBAL_INDEX_LEB, MEMORY_ADDR_REL_SLEB = 6, 7, 11
WITH_ADDEND = {MEMORY_ADDR_LEB, MEMORY_ADDR_SLEB, MEMORY_ADDR_I32, MEMORY_ADDR_REL_SLEB}
# Flags of symbols.
LOCAL, UNDEFINED, NO_STRIP = 2, 16, 128

SEGMENT_BYTES = 32
LARGE_CODE = 1 << 20
# The types of every object: the functions', and _start's.
BINARY, PLAIN = 0, 1
TYPES = [bytes([0x60, 2, I32, I32, 1, I32]), bytes([0x60, 0, 0])]


def groups(number, last):
    """A number in groups of seven bits, up to the first that leaves less than `last`."""
    out = bytearray()
    while number >= last:
        out.append(number & 127 | 128)
        number >>= 7
    out.append(number)
    return bytes(out)


def leb(number):
    return groups(number, 128)


def signed(number):
    """A number that isn't negative."""
    return groups(number, 64)


def padded(number):
    """A number in five bytes, as one that is relocated stands."""
    return bytes([number & 127 | 128, number >> 7 & 127 | 128, number >> 14 & 127 | 128, number >> 21 & 127 | 128, number >> 28 & 127])


def sized(content):
    return leb(len(content)) + content


def text(name):
    return sized(name.encode())


def vector(items):
    return leb(len(items)) + b"".join(items)


def section(number, content):
    return bytes([number]) + sized(content)


def custom(name, content):
    return section(0, text(name) + content)


class Body:
    """The code of a function (i32, i32) -> i32 with four more locals, and its relocations: (place, type, target, addend)."""

    def __init__(self, chance, placed):
        self.code = bytearray()
        self.relocations = []
        self.chance = chance
        self.placed = placed

    def local(self):
        return self.chance.randrange(6)

    def put(self, *numbers):
        self.code += bytes(numbers)

    def refer(self, kind, target, value, addend=0):
        self.relocations.append((len(self.code), kind, target, addend))
        self.code += padded(value)

    def add(self, functions, segments):
        """One statement, which leaves the stack as it was."""
        self.chance.choice(STATEMENTS)(self, functions, segments)

    def arithmetic(self, functions, segments):
        operation = self.chance.choice([0x6A, 0x6B, 0x6C, 0x71, 0x72, 0x73, 0x74, 0x76])
        self.put(0x20, self.local(), 0x20, self.local(), operation, 0x22, self.local(), 0x41, self.chance.randrange(64), operation, 0x21, self.local())

    def through_pointer(self, functions, segments):
        self.put(0x20, self.local(), 0x20, self.local(), 0x28, 2, 4 * self.chance.randrange(16), 0x36, 2, 4 * self.chance.randrange(16))

    def address(self, segment, place):
        """The address of a datum, from the base where the loader places the module."""
        self.put(0x23)
        self.refer(GLOBAL_INDEX_LEB, "memory", 1)
        self.put(0x41)
        self.refer(MEMORY_ADDR_REL_SLEB, ("data", segment), SEGMENT_BYTES * segment + place, place)
        self.put(0x6A)

    def load(self, functions, segments):
        segment, place = self.chance.randrange(segments), 4 * self.chance.randrange(SEGMENT_BYTES // 4)
        if self.placed:
            self.address(segment, place)
            self.put(0x28, 2, 0, 0x21, self.local())
            return
        self.put(0x41, 0, 0x28, 2)
        self.refer(MEMORY_ADDR_LEB, ("data", segment), SEGMENT_BYTES * segment + place, place)
        self.put(0x21, self.local())

    def store(self, functions, segments):
        segment = self.chance.randrange(segments)
        if self.placed:
            self.address(segment, 0)
        else:
            self.put(0x41)
            self.refer(MEMORY_ADDR_SLEB, ("data", segment), SEGMENT_BYTES * segment)
        self.put(0x20, self.local(), 0x36, 2, 4 * self.chance.randrange(8))

    def call(self, functions, segments):
        target = self.chance.randrange(functions)
        self.put(0x20, self.local(), 0x20, self.local(), 0x10)
        self.refer(FUNCTION_INDEX_LEB, ("function", target), 0)
        self.put(0x21, self.local())

    def indirect(self, functions, segments):
        self.put(0x20, self.local(), 0x20, self.local(), 0x20, self.local(), 0x11)
        self.refer(TYPE_INDEX_LEB, BINARY, BINARY)
        self.put(0, 0x21, self.local())

    def branch(self, functions, segments):
        self.put(0x02, 0x40, 0x20, self.local(), 0x45, 0x0D, 0)
        self.arithmetic(functions, segments)
        self.through_pointer(functions, segments)
        self.put(0x0B)

    def loop(self, functions, segments):
        self.put(0x03, 0x40)
        self.through_pointer(functions, segments)
        self.put(0x20, 2, 0x41, 1, 0x6B, 0x22, 2, 0x0D, 0, 0x0B)

    def fork(self, functions, segments):
        self.put(0x20, self.local(), 0x20, self.local(), 0x48, 0x04, 0x40)
        self.call(functions, segments)
        self.put(0x05)
        self.load(functions, segments)
        self.put(0x0B)


STATEMENTS = 4 * [Body.arithmetic] + 4 * [Body.through_pointer] + 3 * [Body.load, Body.call] + 2 * [Body.store, Body.branch] + [
    Body.indirect, Body.loop, Body.fork]


def function_body(chance, length, functions, segments, calls, placed):
    """A body of about so many bytes, which calls the functions of `calls` among others, with a frame on the stack."""
    body = Body(chance, placed)
    body.put(1, 4, I32, 0x23)
    body.refer(GLOBAL_INDEX_LEB, "stack", 0)
    body.put(0x41, 16, 0x6B, 0x22, 3, 0x24)
    body.refer(GLOBAL_INDEX_LEB, "stack", 0)
    for target in calls:
        body.put(0x20, 0, 0x20, 1, 0x10)
        body.refer(FUNCTION_INDEX_LEB, ("function", target), 0)
        body.put(0x21, 4)
    while len(body.code) < length - 20:
        body.add(functions, segments)
    body.put(0x20, 3, 0x41, 16, 0x6A, 0x24)
    body.refer(GLOBAL_INDEX_LEB, "stack", 0)
    body.put(0x20, 4, 0x0B)
    return body


class Shape:
    """Everything of an object but its names: functions that are defined, then those that aren't, and segments of 32 bytes."""

    def __init__(self, chance, lengths, outside, segments, placed):
        defined = len(lengths)
        self.placed = placed
        functions = defined + outside
        self.defined, self.outside, self.segments = defined, outside, segments
        self.bodies = []
        for number, length in enumerate(lengths):
            calls = [n for n in (2 * number + 1, 2 * number + 2) if n < defined]
            if number == 0:
                calls += range(defined, functions)
            self.bodies.append(function_body(chance, length, functions, segments, calls, placed))
        self.prefix, self.suffix = self.sections(chance)

    def symbol_of(self, target):
        """The order of symbols: functions that are defined, others, segments, the stack pointer, the memory's base."""
        if target in ("stack", "memory"):
            return self.defined + self.outside + self.segments + (target == "memory")
        return target[1] + (self.defined + self.outside if target[0] == "data" else 0)

    def index_of(self, target):
        """The number of a function in the object: imports come first."""
        return self.outside + target if target < self.defined else target - self.defined

    def sections(self, chance):
        code, code_relocations = self.code()
        data, data_relocations = self.data(chance)
        prefix = section(3, vector(self.defined * [leb(BINARY)]))
        prefix += section(12, leb(self.segments)) + section(10, code) + section(11, data)
        # The sections are types, imports, functions, the count of segments, code, data.
        suffix = custom("reloc.CODE", leb(4) + vector(code_relocations))
        suffix += custom("reloc.DATA", leb(5) + vector(data_relocations))
        return prefix, suffix

    def code(self):
        out = bytearray(leb(len(self.bodies)))
        relocations = []
        for body in self.bodies:
            out += leb(len(body.code))
            start = len(out)
            out += body.code
            for place, kind, target, addend in body.relocations:
                if kind == FUNCTION_INDEX_LEB:
                    out[start + place:start + place + 5] = padded(self.index_of(target[1]))
                relocations.append(self.relocation(start + place, kind, target, addend))
        return bytes(out), relocations

    def relocation(self, place, kind, target, addend):
        index = target if kind == TYPE_INDEX_LEB else self.symbol_of(target)
        return bytes([kind]) + leb(place) + leb(index) + (leb(addend) if kind in WITH_ADDEND else b"")

    def data(self, chance):
        """Each segment holds the address of another, and that of a function."""
        out = bytearray(leb(self.segments))
        relocations = []
        for number in range(self.segments):
            other, function = chance.randrange(self.segments), chance.randrange(self.defined)
            out += bytes([0, 0x41]) + signed(SEGMENT_BYTES * number) + bytes([0x0B, SEGMENT_BYTES])
            start = len(out)
            out += (SEGMENT_BYTES * other).to_bytes(4, "little") + bytes([1, 0, 0, 0]) + chance.randbytes(SEGMENT_BYTES - 8)
            relocations.append(self.relocation(start, MEMORY_ADDR_I32, ("data", other), 0))
            relocations.append(self.relocation(start + 4, TABLE_INDEX_I32, ("function", function), 0))
        return bytes(out), relocations

    def object(self, own, others, data):
        """The object's bytes, with the names of its functions, of those it calls, and of its data."""
        imports = [memory_import(self.segments)]
        imports += [text("env") + text(name) + bytes([0]) + leb(BINARY) for name in others]
        imports += [text("env") + text("__stack_pointer") + bytes([3, I32, 1])]
        imports += [text("env") + text("__memory_base") + bytes([3, I32, 0])] if self.placed else []
        imports += [table_import()]
        symbols = [bytes([0, 0]) + leb(self.outside + number) + text(name) for number, name in enumerate(own)]
        symbols += [bytes([0, UNDEFINED]) + leb(number) for number in range(self.outside)]
        symbols += [bytes([1, LOCAL]) + text(name) + leb(number) + bytes([0, SEGMENT_BYTES]) for number, name in enumerate(data)]
        symbols += [bytes([2, UNDEFINED, 0])] + ([bytes([2, UNDEFINED, 1])] if self.placed else [])
        symbols += [bytes([5]) + leb(UNDEFINED | NO_STRIP) + bytes([0])]
        segments = [text(".data." + name) + bytes([2, 0]) for name in data]
        linking = bytes([2, 8]) + sized(vector(symbols)) + bytes([5]) + sized(vector(segments))
        return b"\0asm\1\0\0\0" + section(1, vector(TYPES)) + section(2, vector(imports)) + self.prefix + custom("linking", linking) + self.suffix

    def named(self, stem, others):
        """The object whose first function is `stem`."""
        own = [stem] + [f"{stem}_part_{number}" for number in range(1, self.defined)]
        return self.object(own, others, [f"{stem}_table_{number}" for number in range(self.segments)])


def memory_import(segments):
    return text("env") + text("__linear_memory") + bytes([2, 0]) + leb(1 + SEGMENT_BYTES * segments // 65536)


def table_import():
    return text("env") + text("__indirect_function_table") + bytes([1, 0x70, 0, 0])


def start_object(callees):
    """An object whose _start calls these functions."""
    body = bytearray([0])
    relocations = []
    for number in range(len(callees)):
        body += bytes([0x41, 1, 0x41, 2, 0x10])
        relocations.append((len(body), number))
        body += padded(number) + bytes([0x1A])
    body += bytes([0x0B])
    head = leb(1) + leb(len(body))
    imports = [text("env") + text(name) + bytes([0]) + leb(BINARY) for name in callees]
    symbols = [bytes([0, 0]) + leb(len(callees)) + text("_start")] + [bytes([0, UNDEFINED]) + leb(number) for number in range(len(callees))]
    code = section(10, head + body)
    records = [bytes([FUNCTION_INDEX_LEB]) + leb(len(head) + place) + leb(1 + number) for place, number in relocations]
    return (b"\0asm\1\0\0\0" + section(1, vector(TYPES)) + section(2, vector(imports)) + section(3, vector([leb(PLAIN)])) + code
            + custom("linking", bytes([2, 8]) + sized(vector(symbols))) + custom("reloc.CODE", leb(3) + vector(records)))


class Shapes:
    """Shapes by the number of functions outside, some of each, so that objects differ but need not be made one by one."""

    def __init__(self, make, kinds=16, placed=False):
        self.make, self.kinds, self.placed, self.known = make, kinds, placed, {}

    def of(self, number, outside):
        key = (number % self.kinds, outside)
        if key not in self.known:
            self.known[key] = self.make(random.Random(repr(key)), outside, self.placed)
        return self.known[key]


def small_shape(chance, outside, placed=False):
    return Shape(chance, [chance.randrange(200, 500) for _ in range(chance.randrange(2, 4))], outside, 2, placed)


def large_shape(chance, outside, placed=False):
    lengths = []
    while sum(lengths) < LARGE_CODE:
        lengths.append(chance.randrange(200, 2048))
    return Shape(chance, lengths, outside, 200, placed)


def save(folder, name, content):
    with open(os.path.join(folder, name), "wb") as file:
        file.write(content)


def tree(folder, count, shapes, width, roots=1):
    """Objects that call each `width` others, a tree from _start, which calls the first `roots` of them."""
    names = [f"module_{number}_entry" for number in range(count)]
    files = ["main.o"]
    save(folder, "main.o", start_object(names[:roots]))
    for number in range(count):
        others = names[width * number + 1:width * number + 1 + width]
        save(folder, f"{number}.o", shapes.of(number, len(others)).named(names[number], others))
        files.append(f"{number}.o")
    return files


def member_header(name, size):
    return f"{name:<16}{0:<12}{0:<6}{0:<6}{644:<8}{size:<10}`\n".encode()


def library(folder, count, chained, each):
    """A library with an index, whose members stand in an order that is not that of need. They need each the next, where they are chained, and
    else main.o needs one of `each`."""
    shapes = Shapes(small_shape)
    names = [f"module_{number}_entry" for number in range(count)]
    order = list(range(count))
    random.Random(1).shuffle(order)
    offered = {number: [] for number in order}
    members = {}
    for number in order:
        others = names[number + 1:number + 2] if chained else []
        shape = shapes.of(number, len(others))
        members[number] = shape.named(names[number], others)
        offered[number] = [names[number]] + [f"{names[number]}_part_{part}" for part in range(1, shape.defined)]
    strings = b"".join(name.encode() + b"\0" for number in order for name in offered[number])
    total = sum(map(len, offered.values()))
    size = 4 + 4 * total + len(strings)
    at = 8 + 60 + size + size % 2
    index, content = bytearray(total.to_bytes(4, "big")), bytearray()
    for number in order:
        index += len(offered[number]) * (at + len(content)).to_bytes(4, "big")
        member = members[number]
        content += member_header(f"{number}.o/", len(member)) + member + b"\n" * (len(member) % 2)
    save(folder, "main.o", start_object(names[:1] if chained else names[::each]))
    save(folder, "library.a", b"!<arch>\n" + member_header("/", size) + index + strings + b"\n" * (size % 2) + content)
    return ["main.o", "library.a"]


def main():
    kind, folder, count = sys.argv[1], sys.argv[2], int(sys.argv[3])
    os.makedirs(folder, exist_ok=True)
    if kind in ("small", "small-pic"):
        files = tree(folder, count, Shapes(small_shape, placed=kind == "small-pic"), 2)
    elif kind == "large-pic":
        files = tree(folder, count, Shapes(large_shape, 4, True), 2)
    elif kind in ("large", "dead"):
        files = tree(folder, count, Shapes(large_shape, 4), 2, int(kind == "large"))
    else:
        files = library(folder, count, kind == "library", 400 if kind == "sparse" else 1)
    save(folder, "inputs", "".join(name + "\n" for name in files).encode())


main()
