"""The bytes of a shared output where they differ from those of a plain one."""

from dylink import dylink_section
from meanings import Imported
from numbering import Constant
from objects import *
from stores import MEMORY_BASE, STORES, TABLE_BASE, Stores
from writing import END, FUNCTION_REFERENCE, NO_LOCALS, TABLE_ITEM, Writer, constant


def base(number):
    """The expression of a base."""
    return b"\x23" + leb(number) + END


class SharedWriter(Writer):
    def sections(self):
        return (dylink_section(self.liveness, self.layout, self.numbering), *super().sections())

    # The values of windows: words of data hold 0 until they are stored.

    def value(self, input, window):
        if window.kind == TABLE_INDEX_I32:
            return 0
        value = super().value(input, window)
        return 0 if window.kind == MEMORY_ADDR_I32 else value

    def address_value(self, meaning, window):
        """A foreign address is in its cell, so that no sum is judged here."""
        return 0 if isinstance(meaning, Imported) else super().address_value(meaning, window)

    # The memory and the table, which the loader gives, and globals.

    def imported_parts(self):
        size = leb(len(self.numbering.slots))
        return [self.imported_memory(), name("env") + name("__indirect_function_table") + TABLE_ITEM + FUNCTION_REFERENCE + b"\x00" + size]

    def own_table(self):
        return []

    def limits(self):
        return b"\x00" + leb(self.layout.pages)

    def own_global(self, item):
        return bytes([I32, 1]) + constant(0) if isinstance(item, Constant) else super().own_global(item)

    # Elements, code and data.

    def slots_begin(self):
        return base(TABLE_BASE)

    def data_begin(self, address):
        return base(MEMORY_BASE)

    def body(self, function):
        if function == STORES:
            return NO_LOCALS + Stores(self.liveness, self.layout, self.numbering).code() + END
        return super().body(function)
