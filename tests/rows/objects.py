"""Builds relocatable objects and static libraries.

A body is a list of parts: bytes, and windows, which are the places that relocations name. Symbols are named by their names, or by their
numbers where two have one name; a symbol that a window names has to be declared."""

import struct
from typing import NamedTuple

HEADER = bytes.fromhex("0061736D01000000")
I32, I64, F32, F64 = 0x7F, 0x7E, 0x7D, 0x7C
WEAK, LOCAL, HIDDEN, UNDEFINED, EXPORTED, EXPLICIT_NAME, NO_STRIP = 1, 2, 4, 0x10, 0x20, 0x40, 0x80
RETAIN = 4
NOTHING = ((), ())
INT = ((), (I32,))
FUNCTION, DATUM, GLOBAL, SECTION, TABLE = 0, 1, 2, 3, 5
# The types of relocations.
FUNCTION_INDEX_LEB, TABLE_INDEX_SLEB, TABLE_INDEX_I32, MEMORY_ADDR_LEB, MEMORY_ADDR_SLEB, MEMORY_ADDR_I32, TYPE_INDEX_LEB, GLOBAL_INDEX_LEB = range(8)
FUNCTION_OFFSET_I32, SECTION_OFFSET_I32, MEMORY_ADDR_REL_SLEB, TABLE_INDEX_REL_SLEB, TABLE_NUMBER_LEB = 8, 9, 11, 12, 20
HAVE_ADDENDS = (MEMORY_ADDR_LEB, MEMORY_ADDR_SLEB, MEMORY_ADDR_I32, FUNCTION_OFFSET_I32, SECTION_OFFSET_I32, MEMORY_ADDR_REL_SLEB)
PADDED_ZERO = bytes.fromhex("8080808000")


def hexa(text):
    return bytes.fromhex(text)


def leb(number):
    out = bytearray()
    while True:
        low, number = number & 0x7F, number >> 7
        if number == 0:
            out.append(low)
            return bytes(out)
        out.append(low | 0x80)


def sleb(number):
    out = bytearray()
    while True:
        low, number = number & 0x7F, number >> 7
        if (number == 0 and not low & 0x40) or (number == -1 and low & 0x40):
            out.append(low)
            return bytes(out)
        out.append(low | 0x80)


def padded(number):
    """Five bytes without a sign."""
    return bytes([number >> shift & 0x7F | 0x80 for shift in (0, 7, 14, 21)] + [number >> 28 & 0x7F])


def padded_signed(number):
    """Five bytes with a sign, of a number that is taken modulo 2^32."""
    return padded(signed(number))


def signed(number):
    """The number from -2^31 to 2^31 - 1 that is the same modulo 2^32."""
    return (number + 2**31) % 2**32 - 2**31


def vector(items):
    items = list(items)
    return leb(len(items)) + b"".join(items)


def name(text):
    text = text.encode() if isinstance(text, str) else text
    return leb(len(text)) + text


def section(number, payload):
    return bytes([number]) + leb(len(payload)) + payload


def custom(title, payload):
    return section(0, name(title) + payload)


def function_type(params, results):
    return b"\x60" + vector(bytes([kind]) for kind in params) + vector(bytes([kind]) for kind in results)


# ---- the parts of a body or a segment


class Window:
    def __init__(self, kind, target, addend=0, width=5):
        self.kind, self.target, self.addend, self.width = kind, target, addend, width

    def bytes(self):
        return PADDED_ZERO if self.width == 5 else bytes(4)


def call(symbol):
    return [b"\x10", Window(FUNCTION_INDEX_LEB, symbol)]


def slot(symbol):
    return [b"\x41", Window(TABLE_INDEX_SLEB, symbol)]


def relative_slot(symbol):
    return [b"\x41", Window(TABLE_INDEX_REL_SLEB, symbol)]


def slot_word(symbol):
    return [Window(TABLE_INDEX_I32, symbol, width=4)]


def load(symbol, addend=0):
    return [b"\x28\x02", Window(MEMORY_ADDR_LEB, symbol, addend)]


def address(symbol, addend=0):
    return [b"\x41", Window(MEMORY_ADDR_SLEB, symbol, addend)]


def relative_address(symbol, addend=0):
    return [b"\x41", Window(MEMORY_ADDR_REL_SLEB, symbol, addend)]


def word(symbol, addend=0):
    return [Window(MEMORY_ADDR_I32, symbol, addend, width=4)]


def global_get(symbol):
    return [b"\x23", Window(GLOBAL_INDEX_LEB, symbol)]


def global_set(symbol):
    return [b"\x24", Window(GLOBAL_INDEX_LEB, symbol)]


def call_indirect(kind, table=None):
    return [b"\x11", Window(TYPE_INDEX_LEB, kind), b"\x00" if table is None else Window(TABLE_NUMBER_LEB, table)]


def const(number):
    return b"\x41" + sleb(number)


DROP = b"\x1A"
ADD = b"\x6A"
LOAD = b"\x28\x02\x00"


def flatten(parts):
    if isinstance(parts, (bytes, bytearray, Window)):
        return [parts]
    return [leaf for part in parts for leaf in flatten(part)]


def placed(parts):
    """The bytes, and the windows with their places."""
    out, windows = b"", []
    for part in flatten(parts):
        if isinstance(part, Window):
            windows.append((len(out), part))
            out += part.bytes()
        else:
            out += part
    return out, windows


# ---- objects


class Import(NamedTuple):
    module: str
    field: str
    form: bytes
    kind: int


class Function(NamedTuple):
    title: str
    type: int
    parts: list


class SegmentInfo(NamedTuple):
    title: str
    align: int
    flags: int


class Symbol(NamedTuple):
    """Where it stands is a segment's number, or a kind and a place: that of an import, or of a function or global of the object's own."""

    kind: int
    title: str
    flags: int
    where: object
    offset: int
    size: int


class Object:
    def __init__(self):
        self.types, self.imports, self.functions, self.globals = [], [], [], []
        self.segments, self.infos, self.symbols, self.inits, self.groups = [], [], [], [], []
        self.exports, self.elements, self.customs = [], b"", []
        self.data_count = None

    # Each of these adds something and answers the object, so that they can be chained.

    def type(self, kind):
        if kind not in self.types:
            self.types.append(kind)
        return self.types.index(kind)

    def symbol(self, kind, title, flags, where=0, offset=0, size=0):
        self.symbols.append(Symbol(kind, title, flags, where, offset, size))
        return self

    def function(self, title, code=(), kind=NOTHING, flags=0, locals=b"\x00", symbol=True):
        """A function of its own; the closing `end` is added."""
        self.functions.append(Function(title, self.type(kind), [locals, code, b"\x0B"]))
        return self.symbol(FUNCTION, title, flags, ("function", len(self.functions) - 1)) if symbol else self

    def alias(self, title, function, flags=0):
        return self.symbol(FUNCTION, title, flags, ("function", function))

    def needs(self, title, kind=NOTHING, flags=0, module="env", field=None):
        """An undefined function on an import of its own."""
        self.imports.append(Import(module, title if field is None else field, b"\x00" + leb(self.type(kind)), FUNCTION))
        explicit = field is not None or flags & EXPLICIT_NAME
        return self.symbol(FUNCTION, title, flags | UNDEFINED | (EXPLICIT_NAME if explicit else 0), ("import", self.count(FUNCTION) - 1))

    def needs_global(self, title, kind=I32, var=True, flags=0, module="env", field=None):
        self.imports.append(Import(module, title if field is None else field, bytes([3, kind, int(var)]), GLOBAL))
        explicit = EXPLICIT_NAME if field is not None else 0
        return self.symbol(GLOBAL, title, flags | UNDEFINED | explicit, ("import", self.count(GLOBAL) - 1))

    def needs_datum(self, title, flags=0):
        return self.symbol(DATUM, title, flags | UNDEFINED)

    def needs_table(self, flags=0, symbol=True):
        self.imports.append(Import("env", "__indirect_function_table", b"\x01\x70\x00\x01", TABLE))
        return self.symbol(TABLE, "__indirect_function_table", flags | UNDEFINED, ("import", 0)) if symbol else self

    def needs_memory(self):
        self.imports.append(Import("env", "__linear_memory", b"\x02\x00\x01", None))
        return self

    def count(self, kind):
        return sum(1 for one in self.imports if one.kind == kind)

    def own_global(self, title, value=0, kind=I32, var=True, flags=0):
        opcode = {I32: b"\x41", I64: b"\x42"}[kind]
        self.globals.append(bytes([kind, int(var)]) + opcode + sleb(value) + b"\x0B")
        return self.symbol(GLOBAL, title, flags, ("global", len(self.globals) - 1))

    def segment(self, parts, align=0, title="", flags=0):
        self.segments.append(parts)
        self.infos.append(SegmentInfo(title, align, flags))
        return self

    def datum(self, title, segment, offset=0, size=None, flags=0):
        length = len(placed(self.segments[segment])[0])
        return self.symbol(DATUM, title, flags, segment, offset, length - offset if size is None else size)

    def data(self, title, parts, align=2, flags=0, keep=0):
        """A segment and a symbol over the whole of it."""
        return self.segment(parts, align, ".data." + title, keep).datum(title, len(self.segments) - 1, flags=flags)

    def init(self, priority, symbol):
        self.inits.append((priority, symbol))
        return self

    def group(self, title, functions=(), segments=()):
        members = [(1, ("function", one)) for one in functions] + [(0, one) for one in segments]
        self.groups.append((title, members))
        return self

    def export(self, title, function, kind=0):
        self.exports.append((title, kind, function))
        return self

    def custom(self, title, payload=b""):
        self.customs.append(custom(title, payload))
        return self

    # What was added, in numbers.

    def index(self, where):
        if isinstance(where, int):
            return where
        kind, place = where
        if kind == "import":
            return place
        return place + self.count({"function": FUNCTION, "global": GLOBAL}[kind])

    def number(self, symbol):
        if isinstance(symbol, int):
            return symbol
        return [one.title for one in self.symbols].index(symbol)

    def symbol_bytes(self, one):
        kind, title, flags, where, offset, size = one
        out = bytes([kind]) + leb(flags)
        if kind == SECTION:
            return out + leb(where)
        if kind == DATUM:
            out += name(title)
            return out if flags & UNDEFINED else out + leb(where) + leb(offset) + leb(size)
        out += leb(self.index(where))
        return out if flags & UNDEFINED and not flags & EXPLICIT_NAME else out + name(title)

    def linking(self, order=(8, 5, 6, 7)):
        parts = {8: vector(self.symbol_bytes(one) for one in self.symbols)}
        if self.infos:
            parts[5] = vector(name(title) + leb(align) + leb(flags) for title, align, flags in self.infos)
        if self.inits:
            parts[6] = vector(leb(priority) + leb(self.number(symbol)) for priority, symbol in self.inits)
        if self.groups:
            parts[7] = vector(
                name(title) + leb(0) + vector(bytes([kind]) + leb(self.index(where)) for kind, where in members) for title, members in self.groups
            )
        return b"\x02" + b"".join(section(number, parts[number]) for number in order if number in parts)

    def reloc_bytes(self, place, window):
        index = self.type(window.target) if window.kind == TYPE_INDEX_LEB and not isinstance(window.target, int) else self.number(window.target)
        out = bytes([window.kind]) + leb(place) + leb(index)
        return out + sleb(window.addend) if window.kind in HAVE_ADDENDS else out

    def code(self):
        """The code section's payload, and its windows."""
        bodies = [placed(one.parts) for one in self.functions]
        return self.counted([(leb(len(out)), out, windows) for out, windows in bodies])

    def data_payload(self):
        segments = [placed(parts) for parts in self.segments]
        return self.counted([(b"\x00\x41\x00\x0B" + leb(len(out)), out, windows) for out, windows in segments])

    @staticmethod
    def counted(items):
        payload, found = leb(len(items)), []
        for front, out, windows in items:
            payload += front
            found += [(len(payload) + place, window) for place, window in windows]
            payload += out
        return payload, found

    def sections(self):
        """The sections as a list of bytes, which a row may change before it joins them."""
        for one in self.functions:
            for part in flatten(one.parts):
                if isinstance(part, Window) and part.kind == TYPE_INDEX_LEB and not isinstance(part.target, int):
                    self.type(part.target)
        out = []
        if self.types:
            out.append(section(1, vector(function_type(*one) for one in self.types)))
        if self.imports:
            out.append(section(2, vector(name(one.module) + name(one.field) + one.form for one in self.imports)))
        if self.functions:
            out.append(section(3, vector(leb(one.type) for one in self.functions)))
        if self.globals:
            out.append(section(6, vector(self.globals)))
        if self.exports:
            out.append(section(7, vector(name(title) + bytes([kind]) + leb(self.index(where)) for title, kind, where in self.exports)))
        if self.elements:
            out.append(section(9, self.elements))
        if self.data_count is not None:
            out.append(section(12, leb(self.data_count)))
        relocs = []
        if self.functions:
            relocs.append(("reloc.CODE", len(out), self.code()[1]))
            out.append(section(10, self.code()[0]))
        if self.segments:
            relocs.append(("reloc.DATA", len(out), self.data_payload()[1]))
            out.append(section(11, self.data_payload()[0]))
        out.append(custom("linking", self.linking()))
        for title, target, windows in relocs:
            if windows:
                out.append(custom(title, leb(target) + vector(self.reloc_bytes(place, window) for place, window in windows)))
        return out + self.customs

    def bytes(self):
        return join(self.sections())


def join(sections):
    return HEADER + b"".join(sections)


def file_of(content):
    return content.bytes() if isinstance(content, Object) else content


# ---- static libraries


def member_header(title, size):
    return b"%-16s%-12s%-6s%-6s%-8s%-10s\x60\x0A" % (title, b"0", b"0", b"0", b"644", str(size).encode())


def library(members, offers=None, index=True):
    """A library of objects. The index gives each of the offers, a list of names and members' places."""
    members = [file_of(one) for one in members]
    offers = offers or []
    names = b"".join(title.encode() + b"\x00" for title, _ in offers)
    size = 4 + 4 * len(offers) + len(names)
    place, places = 8 + (60 + size + size % 2 if index else 0), []
    for one in members:
        places.append(place)
        place += 60 + len(one) + len(one) % 2
    out = b"!<arch>\n"
    if index:
        out += member_header(b"/", size) + struct.pack(">I", len(offers))
        out += b"".join(struct.pack(">I", places[member]) for _, member in offers) + names + b"\n" * (size % 2)
    for number, one in enumerate(members):
        out += member_header(b"%d.o/" % number, len(one)) + one + b"\n" * (len(one) % 2)
    return out
