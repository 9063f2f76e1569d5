"""The module's bytes: the values of windows, and the sections."""

from chunks import CONSTRUCTORS, STACK_POINTER
from inputs import ADDRESSES, PAGE, Fault
from liveness import Reference
from meanings import Null
from numbering import Constant, ExportedDatum, Stub
from objects import *

END = b"\x0B"
UNREACHABLE = b"\x00"
NO_LOCALS = b"\x00"
FUNCTION_ITEM, TABLE_ITEM, MEMORY_ITEM, GLOBAL_ITEM = b"\x00", b"\x01", b"\x02", b"\x03"
FUNCTION_REFERENCE = b"\x70"
SIGNED_WINDOWS = (TABLE_INDEX_SLEB, MEMORY_ADDR_SLEB, MEMORY_ADDR_REL_SLEB, TABLE_INDEX_REL_SLEB)


def constant(number):
    """An expression of a number that is taken modulo 2^32."""
    return const(signed(number)) + END


def listed(number, items):
    """A section of items, which isn't there where there are none."""
    return section(number, vector(items)) if items else b""


class Writer:
    def __init__(self, liveness, layout, numbering, options):
        self.liveness, self.layout, self.numbering, self.options = liveness, layout, numbering, options
        self.objects, self.meanings = liveness.names.objects, liveness.meanings

    def module(self):
        """The sections in order, code before data: of several values out of range the first one is told."""
        return HEADER + b"".join(self.sections())

    def sections(self):
        functions = self.numbering.defined_functions
        return (
            listed(1, [function_type(*one) for one in self.numbering.types]),
            listed(2, self.imports()),
            listed(3, [self.type_number(self.numbering.type_of(one)) for one in functions]),
            listed(4, self.own_table()),
            listed(5, self.own_memory()),
            listed(6, [self.own_global(one) for one in self.numbering.defined_globals]),
            listed(7, self.exports()),
            self.elements(),
            listed(10, [leb(len(body)) + body for body in map(self.body, functions)]),
            self.data(),
        )

    # The values of windows.

    def value(self, input, window):
        if window.kind == TYPE_INDEX_LEB:
            return self.numbering.types.index(window.target)
        if window.kind == TABLE_NUMBER_LEB:
            return 0
        reference = Reference(window.kind, input, window.target)
        meaning = self.liveness.meaning(reference)
        if window.kind == FUNCTION_INDEX_LEB:
            return self.numbering.function(meaning, self.numbering.symbol(reference).title)
        if window.kind in (TABLE_INDEX_SLEB, TABLE_INDEX_I32, TABLE_INDEX_REL_SLEB):
            return self.numbering.slot(meaning)
        if window.kind == GLOBAL_INDEX_LEB:
            return self.numbering.global_of(reference)
        return self.address_value(meaning, window)

    def address_value(self, meaning, window):
        """The address plus the addend, which for the offset of an access isn't below zero; that of null is 0 without addend."""
        value = 0 if isinstance(meaning, Null) else self.layout.address(meaning) + window.addend
        least = 0 if window.kind == MEMORY_ADDR_LEB else -(2**31)
        if not least <= value < ADDRESSES:
            raise Fault("overflow: Reference needs %d" % value)
        return value

    def filled(self, input, parts):
        """The bytes of parts, with the values of their windows."""
        content, windows = placed(parts)
        content = bytearray(content)
        for place, window in windows:
            value = self.value(input, window)
            content[place : place + window.width] = spelled(window, value)
        return bytes(content)

    # Types, imports, the table, the memory and globals.

    def type_number(self, kind):
        return leb(self.numbering.types.index(kind))

    def imports(self):
        functions = [place_of(one) + FUNCTION_ITEM + self.type_number(one.type) for one in self.numbering.imported_functions]
        return self.imported_parts() + functions + [place_of(one) + GLOBAL_ITEM + bytes(one.type) for one in self.numbering.imported_globals]

    def imported_parts(self):
        return [] if self.options.own_memory else [self.imported_memory()]

    def imported_memory(self):
        return name("env") + name("memory") + MEMORY_ITEM + self.limits()

    def own_table(self):
        size = leb(1 + len(self.numbering.slots))
        return [FUNCTION_REFERENCE + b"\x01" + size + size]

    def own_memory(self):
        return [self.limits()] if self.options.own_memory else []

    def limits(self):
        most = self.options.max_memory
        return b"\x00" + leb(self.layout.pages) if most is None else b"\x01" + leb(self.layout.pages) + leb(most // PAGE)

    def own_global(self, item):
        """A constant, a linker-made global, or one of an object with its own bytes."""
        if isinstance(item, Constant):
            return bytes([I32, 0]) + constant(self.constant_value(item.meaning))
        if isinstance(item, ExportedDatum):
            return bytes([I32, 0]) + constant(self.layout.address(item.definition))
        if item.input > 0:
            return self.objects[item.input].globals[item.place]
        if item == STACK_POINTER:
            return bytes([I32, 1]) + constant(self.layout.stack_high)
        return bytes([I32, 0]) + constant(0)

    def constant_value(self, meaning):
        """A function's slot or a datum's address."""
        if isinstance(meaning, Null):
            return 0
        return self.numbering.slot(meaning) if self.meanings.kind(meaning) == FUNCTION else self.layout.address(meaning)

    # Exports and elements.

    def exports(self):
        memory = [name("memory") + MEMORY_ITEM + leb(0)] if self.options.own_memory else []
        return memory + [name(one.title) + self.exported(one) for one in self.liveness.exports]

    def exported(self, export):
        """The kind and the number of what is exported."""
        if export.winner.kind == FUNCTION:
            return FUNCTION_ITEM + leb(self.numbering.function(export.definition))
        if export.winner.kind == TABLE:
            return TABLE_ITEM + leb(0)
        if export.winner.kind == DATUM:
            return GLOBAL_ITEM + leb(self.numbering.globals[ExportedDatum(export.title, export.definition)])
        return GLOBAL_ITEM + leb(self.numbering.own_global(export.definition))

    def elements(self):
        """One segment of all slots."""
        functions = list(self.numbering.slots)
        return listed(9, [b"\x00" + self.slots_begin() + vector(leb(one) for one in functions)] if functions else [])

    def slots_begin(self):
        return constant(self.numbering.FIRST_SLOT)

    # Code and data.

    def body(self, function):
        if function == CONSTRUCTORS:
            return NO_LOCALS + b"".join(map(self.init_call, self.liveness.references(CONSTRUCTORS))) + END
        if isinstance(function, Stub):
            return NO_LOCALS + UNREACHABLE + END
        return self.filled(function.input, self.objects[function.input].functions[function.place].parts)

    def init_call(self, reference):
        return self.filled(reference.input, call(reference.place))

    def data(self):
        """One segment from the first segment that has content to the end of the last one, with zeros in between."""
        if not self.layout.written:
            return b""
        begin = self.layout.addresses[self.layout.written[0]]
        image = bytearray()
        for chunk in self.layout.written:
            image += bytes(self.layout.addresses[chunk] - begin - len(image))
            image += self.filled(chunk.input, self.objects[chunk.input].segments[chunk.place])
        return section(11, leb(1) + b"\x00" + self.data_begin(begin) + leb(len(image)) + bytes(image))

    def data_begin(self, address):
        return constant(address)


def spelled(window, value):
    """Four bytes in data; in code five, with a sign or without it."""
    if window.width == 4:
        return (value % ADDRESSES).to_bytes(4, "little")
    return padded_signed(value) if window.kind in SIGNED_WINDOWS else padded(value)


def place_of(imported):
    return name(imported.module) + name(imported.field)
