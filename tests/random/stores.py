"""The function that stores addresses in words of data and in own cells when a shared output is loaded."""

from chunks import Chunk
from liveness import Reference
from meanings import Definition
from objects import *

STORES = Chunk(FUNCTION, 0, 1)
WORDS = (TABLE_INDEX_I32, MEMORY_ADDR_I32)
MEMORY_BASE, TABLE_BASE = 1, 2
STORE = b"\x36\x02\x00"


def has_stores(liveness):
    return any(one.relocation in WORDS or names_own_cell(liveness, one) for one in liveness.live_references())


def names_own_cell(liveness, reference):
    symbol = liveness.meanings.symbol(reference.input, reference.place)
    return reference.relocation == GLOBAL_INDEX_LEB and symbol.kind != GLOBAL and isinstance(liveness.meaning(reference), Definition)


def value_of(number):
    return b"\x23" + padded(number)


def sum_of(number, offset):
    """The value of a global and an offset."""
    return value_of(number) + b"\x41" + padded_signed(offset) + ADD


class Stores:
    def __init__(self, liveness, layout, numbering):
        self.liveness, self.layout, self.numbering = liveness, layout, numbering

    def code(self):
        """Words by rising offset, and then cells by rising number."""
        return b"".join([*map(self.word_code, self.words()), *map(self.cell_code, self.numbering.constants())])

    def words(self):
        """The offset of each word, its input and its window."""
        for chunk in self.layout.written:
            for place, window in self.layout.content(chunk)[1]:
                yield self.layout.addresses[chunk] + place, chunk.input, window

    def word_code(self, item):
        offset, input, window = item
        return sum_of(MEMORY_BASE, offset) + self.word_value(Reference(window.kind, input, window.target), window.addend) + STORE

    def word_value(self, reference, addend):
        meaning = self.liveness.meaning(reference)
        if isinstance(meaning, Definition):
            return self.own_value(meaning, addend)
        number = self.numbering.globals[meaning]
        return sum_of(number, addend) if reference.relocation == MEMORY_ADDR_I32 else value_of(number)

    def own_value(self, definition, addend=0):
        if self.liveness.meanings.kind(definition) == FUNCTION:
            return sum_of(TABLE_BASE, self.numbering.slot(definition))
        return sum_of(MEMORY_BASE, self.layout.address(definition) + addend)

    def cell_code(self, cell):
        return self.own_value(cell.meaning) + b"\x24" + padded(self.numbering.globals[cell])
