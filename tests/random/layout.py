"""Where segments, the stack and the heap stand in memory."""

from chunks import chunk_of
from inputs import ADDRESSES, PAGE, Fault
from made_symbols import PLAIN_SYMBOLS
from objects import *


def rounded_up(number, step):
    return (number + step - 1) // step * step


class Layout:
    """The addresses of live segments and of linker-made data, and the memory's pages."""

    def __init__(self, objects, segments, options):
        self.objects, self.options = objects, options
        self.place_all(segments)
        self.place_stack_and_heap()

    def place_all(self, segments):
        zero = [one for one in segments if self.is_zero(one)]
        self.written = [one for one in segments if one not in zero]
        self.begin = self.data_begin()
        self.addresses = {}
        self.data_end = self.begin
        # Segments without content stand behind all others.
        for chunk in self.written + zero:
            self.place(chunk)

    def place_stack_and_heap(self):
        self.stack_low, self.stack_high, self.heap_base = self.stack_and_heap()
        self.refuse_beyond("HeapBase", self.heap_base)
        self.pages = rounded_up(max(self.heap_base, self.options.initial_memory), PAGE) // PAGE
        if self.options.max_memory is not None and self.pages * PAGE > self.options.max_memory:
            raise Fault("overflow: MaxMemory needs %d" % (self.pages * PAGE))

    def content(self, chunk):
        """The bytes of a segment, and its windows with their places."""
        return placed(self.objects[chunk.input].segments[chunk.place])

    def is_zero(self, chunk):
        content, windows = self.content(chunk)
        return not any(content) and not windows

    def data_begin(self):
        if self.options.stack_first:
            return max(self.options.stack_size, self.options.global_base or 0)
        return 1024 if self.options.global_base is None else self.options.global_base

    def place(self, chunk):
        """The next address that the segment's alignment allows, which is given as a power of two."""
        align = self.objects[chunk.input].infos[chunk.place].align
        self.addresses[chunk] = rounded_up(self.data_end, 2**align)
        self.data_end = self.addresses[chunk] + len(self.content(chunk)[0])
        self.refuse_beyond("DataEnd", self.data_end)

    def stack_and_heap(self):
        """The stack stands at 0 and the heap behind data; or the stack stands behind data and the heap behind the stack."""
        behind_data = rounded_up(self.data_end, 16)
        if self.options.stack_first:
            return 0, self.options.stack_size, behind_data
        top = behind_data + self.options.stack_size
        return behind_data, top, top

    def refuse_beyond(self, what, address):
        if address >= ADDRESSES:
            raise Fault("overflow: %s needs %d" % (what, address))

    def made_address(self, place):
        """The address of the linker-made datum at a place."""
        return {
            "__heap_base": self.heap_base,
            "__data_end": self.data_end,
            "__global_base": self.begin,
            "__dso_handle": self.begin,
            "__stack_low": self.stack_low,
            "__stack_high": self.stack_high,
            "__heap_end": min(self.pages * PAGE, ADDRESSES - 1),
        }[PLAIN_SYMBOLS[place].name]

    def address(self, definition):
        """The address of a datum: that of its segment, and its offset there."""
        if definition.input == 0:
            return self.made_address(definition.place)
        symbol = self.objects[definition.input].symbols[definition.place]
        return self.addresses[chunk_of(definition.input, symbol)] + symbol.offset
