"""What a symbol means: a definition, an import, null or nothing."""

from dataclasses import dataclass

from chunks import Chunk, chunk_of
from inputs import is_local_definition
from objects import *


@dataclass(frozen=True)
class Definition:
    """The symbol of an input at a place; those of input 0 are linker-made."""

    input: int
    place: int


@dataclass(frozen=True)
class Imported:
    module: str
    field: str
    kind: int
    type: object


@dataclass(frozen=True)
class Null:
    """What a weak reference means where nothing is defined, for a function or a datum."""

    kind: int


UNRESOLVED = None


def import_by(entry):
    """The import that a reference names."""
    return Imported(entry.imported.module, entry.imported.field, entry.kind, entry.type)


class Meanings:
    def __init__(self, names, allow_undefined):
        self.names = names
        self.allow_undefined = allow_undefined

    def symbol(self, input, place):
        return self.names.objects[input].symbols[place]

    def of(self, input, place):
        symbol = self.symbol(input, place)
        if is_local_definition(symbol):
            return Definition(input, place) if self.names.is_kept_definition(input, symbol) else UNRESOLVED
        if symbol.title in self.names.winners:
            return Definition(*self.names.winners[symbol.title].at)
        return self.without_winner(symbol)

    def of_reference(self, reference):
        return self.of(reference.input, reference.place)

    def without_winner(self, symbol):
        return self.imported(symbol) or self.null(symbol)

    def imported(self, symbol):
        """The import that the least explicit reference names; else, where undefined names are allowed, the least reference on an import."""
        standing = [one for one in self.names.entries[symbol.title] if one.imported]
        explicit = [one for one in standing if one.explicit_place]
        if not explicit and not (standing and self.may_be_imported(symbol)):
            return None
        return import_by((explicit or standing)[0])

    def may_be_imported(self, symbol):
        """Undefined functions and globals may be, but not for weak references alone."""
        entries = self.names.entries[symbol.title]
        return self.allow_undefined and symbol.kind in (FUNCTION, GLOBAL) and any(not one.is_definition and not one.flags & WEAK for one in entries)

    def null(self, symbol):
        """A weak function or datum is null, whether its symbol is undefined or stands in a group that isn't kept."""
        return Null(symbol.kind) if symbol.flags & WEAK and symbol.kind in (FUNCTION, DATUM) else UNRESOLVED

    def kind(self, meaning):
        """That of an import or a definition."""
        if isinstance(meaning, Imported):
            return meaning.kind
        if meaning.input == 0:
            return self.names.made[meaning.place].kind
        return self.symbol(meaning.input, meaning.place).kind

    def chunk(self, meaning):
        """The chunk in which a definition stands; linker-made data and tables stand in none."""
        if not isinstance(meaning, Definition):
            return None
        if meaning.input > 0:
            return chunk_of(meaning.input, self.symbol(meaning.input, meaning.place))
        kind = self.kind(meaning)
        return Chunk(kind, 0, meaning.place) if kind in (FUNCTION, GLOBAL) else None

    def least_entries(self):
        """For each import the least entry among those of its names."""
        least = {}
        for name, entries in self.names.entries.items():
            meanings = [] if name in self.names.winners else [self.of(*one.at) for one in entries]
            for meaning in meanings:
                if isinstance(meaning, Imported):
                    least[meaning] = min(entries[0].at, least.get(meaning, entries[0].at))
        return least
