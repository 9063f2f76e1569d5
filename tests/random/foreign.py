"""What symbols mean in a shared output: names without a definition are foreign, and the address of a foreign name stands in a cell."""

from chunks import windows_of
from inputs import is_local_definition
from liveness import all_chunks
from meanings import UNRESOLVED, Imported, Meanings
from objects import *


def cell(symbol):
    """The imported global that holds the address of a foreign datum or the slot of a foreign function."""
    return Imported("GOT.mem" if symbol.kind == DATUM else "GOT.func", symbol.title, GLOBAL, (I32, True))


class SharedMeanings(Meanings):
    def __init__(self, names):
        super().__init__(names, allow_undefined=True)
        self.called, self.addressed = set(), set()
        for relocation, symbol in self.uses():
            if symbol.kind == FUNCTION and not is_local_definition(symbol):
                (self.called if relocation == FUNCTION_INDEX_LEB else self.addressed).add(symbol.title)

    def uses(self):
        """The symbols that kept chunks, live or dead, and init functions name, each with the relocation's type."""
        for input, place in self.names.init_functions():
            yield FUNCTION_INDEX_LEB, self.symbol(input, place)
        for input, object in self.names.objects.items():
            for chunk in all_chunks(input, object) - self.names.dropped:
                for _, window in windows_of(self.names.objects, chunk):
                    if window.kind != TYPE_INDEX_LEB:
                        yield window.kind, self.symbol(input, window.target)

    def is_foreign(self, symbol):
        return not is_local_definition(symbol) and symbol.title not in self.names.winners

    def without_winner(self, symbol):
        return self.imported(symbol) or self.cell_alone(symbol)

    def may_be_imported(self, symbol):
        return symbol.kind == GLOBAL or symbol.title in self.called

    def cell_alone(self, symbol):
        """What a foreign datum means, and a foreign function that is nowhere called."""
        title = symbol.title
        alone = symbol.kind == DATUM or (symbol.kind == FUNCTION and title in self.addressed and title not in self.called)
        return cell(symbol) if alone else UNRESOLVED

    def of_reference(self, reference):
        """An address of a foreign function is in its cell, also where calls go to an import."""
        meaning = super().of_reference(reference)
        symbol = self.symbol(reference.input, reference.place)
        in_cell = isinstance(meaning, Imported) and symbol.kind == FUNCTION and reference.relocation != FUNCTION_INDEX_LEB
        return cell(symbol) if in_cell else meaning
