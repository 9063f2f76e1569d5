"""The entries of each name, and the one that wins it."""

from dataclasses import dataclass

from chunks import chunk_of, dropped_members
from inputs import Fault, import_of, is_local_definition, is_undefined
from objects import *

STRONG_CLASS, WEAK_CLASS, MADE_DATUM_CLASS = 0, 1, 2


@dataclass
class Entry:
    """A symbol that isn't LOCAL. It stands on an import, or `imported` is None."""

    input: int
    place: int
    name: str
    kind: int
    type: object
    flags: int
    is_definition: bool
    imported: Import | None = None

    @property
    def at(self):
        return (self.input, self.place)

    @property
    def strength(self):
        if self.input == 0:
            return MADE_DATUM_CLASS if self.kind == DATUM else STRONG_CLASS
        return WEAK_CLASS if self.flags & WEAK else STRONG_CLASS

    @property
    def explicit_place(self):
        """The module and the field of an import that is named explicitly."""
        return (self.imported.module, self.imported.field) if self.imported and self.flags & EXPLICIT_NAME else None

    def differs_from(self, least):
        if (self.kind, self.type) != (least.kind, least.type):
            return True
        places = {one.explicit_place for one in (self, least) if one.explicit_place}
        return len(places) == 2


class Names:
    """The objects that are loaded, and their names. Entries of a name are in order of input and place, the linker-made one first."""

    def __init__(self, objects, made):
        self.objects, self.made = objects, made
        self.dropped = dropped_members(objects)
        self.entries = {}
        for entry in [*self.made_entries(), *self.object_entries()]:
            self.entries.setdefault(entry.name, []).append(entry)
        self.winners = {}
        for name, entries in self.entries.items():
            definitions = [one for one in entries if one.is_definition]
            if definitions:
                self.winners[name] = min(definitions, key=lambda one: (one.strength, one.at))

    def made_entries(self):
        return [Entry(0, place, one.name, one.kind, one.type, HIDDEN, True) for place, one in enumerate(self.made)]

    def object_entries(self):
        for number, object in self.objects.items():
            for place, symbol in enumerate(object.symbols):
                if not is_local_definition(symbol):
                    imported = import_of(object, symbol) if is_undefined(symbol) and symbol.kind != DATUM else None
                    kind_type = type_of(object, symbol)
                    yield Entry(number, place, symbol.title, symbol.kind, kind_type, symbol.flags, self.is_kept_definition(number, symbol), imported)

    def is_kept_definition(self, input, symbol):
        return not is_undefined(symbol) and chunk_of(input, symbol) not in self.dropped

    def init_functions(self):
        """By rising priority, then by input and by place in its list. Entries of functions in groups that aren't kept are skipped."""
        entries = []
        for input, object in self.objects.items():
            for at, (priority, place) in enumerate(object.inits):
                symbol = object.symbols[place]
                if is_undefined(symbol) or self.is_kept_definition(input, symbol):
                    entries.append((priority, input, at, place))
        return [(input, place) for _, input, _, place in sorted(entries)]

    def refuse_clashes(self):
        """An entry clashes that differs from the least one of its name. The least clashing entry is told."""
        clashing = [one for entries in self.entries.values() for one in entries if one.differs_from(entries[0])]
        if clashing:
            least = min(clashing, key=lambda one: one.at)
            raise Fault("clash of %s: input %d and input %d" % (least.name, self.entries[least.name][0].input, least.input))

    def refuse_duplicates(self):
        """A strong definition behind another one of its name is a duplicate. The least one is told."""
        repeated = []
        for entries in self.entries.values():
            strong = [one for one in entries if one.is_definition and one.strength == STRONG_CLASS]
            repeated += [(one.at, strong[0]) for one in strong[1:]]
        if repeated:
            (input, _), first = min(repeated, key=lambda one: one[0])
            raise Fault("duplicate %s: input %d and input %d" % (first.name, first.input, input))


def type_of(object, symbol):
    """A function's parameters and results, or a global's value type and whether it varies; data and tables have none."""
    place = symbol.where[1] if symbol.kind in (FUNCTION, GLOBAL) else None
    if symbol.kind == FUNCTION:
        # An import's form is a zero byte and its type's number, which is below 128 here.
        number = import_of(object, symbol).form[1] if is_undefined(symbol) else object.functions[place].type
        return object.types[number]
    if symbol.kind == GLOBAL:
        value, variable = import_of(object, symbol).form[1:] if is_undefined(symbol) else object.globals[place][:2]
        return (value, bool(variable))
    return None
