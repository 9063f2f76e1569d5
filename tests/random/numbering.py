"""The numbers of functions, slots, globals and types in the module."""

from dataclasses import dataclass

from chunks import CONSTRUCTORS, windows_of
from meanings import Definition, Imported, Null
from objects import *

TAKE_SLOTS = (TABLE_INDEX_SLEB, TABLE_INDEX_I32, TABLE_INDEX_REL_SLEB, GLOBAL_INDEX_LEB)


@dataclass(frozen=True)
class Stub:
    """The function that traps where a null function of this name is called."""

    name: str


@dataclass(frozen=True)
class Constant:
    """The global that holds the address or the slot of what a symbol means."""

    meaning: object


@dataclass(frozen=True)
class ExportedDatum:
    """The global that holds the address of an exported datum."""

    title: str
    definition: Definition


def numbered(items):
    return {one: number for number, one in enumerate(items)}


class Numbering:
    """Functions are chunks, stubs and imports; globals are chunks, constants, exported data and imports. Imports have the first numbers."""

    FIRST_SLOT = 1

    def __init__(self, liveness):
        self.liveness, self.meanings = liveness, liveness.meanings
        self.names = liveness.names
        self.references = liveness.live_references()
        self.imported_functions = self.imports(FUNCTION)
        self.defined_functions = self.functions_in_order()
        self.functions = numbered(self.imported_functions + self.defined_functions)
        self.slots = self.slots_in_order()
        self.imported_globals = self.imports(GLOBAL)
        self.defined_globals = self.globals_in_order()
        self.globals = numbered(self.imported_globals + self.defined_globals)
        self.types = self.types_in_order()

    def symbol(self, reference):
        return self.meanings.symbol(reference.input, reference.place)

    def imports(self, kind):
        return self.imports_of(self.references, kind)

    def imports_of(self, references, kind):
        """The imports that references name, by the least entry among their names."""
        named = {self.liveness.meaning(one) for one in references}
        least = self.meanings.least_entries()
        return sorted((one for one in named if isinstance(one, Imported) and one.kind == kind), key=lambda one: least[one])

    # Functions and their slots.

    def functions_in_order(self):
        """The function of constructors, the stubs, and the functions of objects."""
        chunks = self.liveness.of_kind(FUNCTION)
        own = [one for one in chunks if one != CONSTRUCTORS]
        return [one for one in chunks if one == CONSTRUCTORS] + self.stubs() + own

    def stubs(self):
        """One for each name whose null function live chunks call, by the names' least entries."""
        calls = [one for one in self.references if one.relocation == FUNCTION_INDEX_LEB]
        called = {self.symbol(one).title for one in calls if isinstance(self.liveness.meaning(one), Null)}
        return [Stub(name) for name in sorted(called, key=lambda name: self.names.entries[name][0].at)]

    def function(self, meaning, name=None):
        """The number of a function; that of a null one is its stub's."""
        if isinstance(meaning, Null):
            return self.functions[Stub(name)]
        return self.functions[meaning if isinstance(meaning, Imported) else self.meanings.chunk(meaning)]

    def slots_in_order(self):
        """The functions whose addresses live chunks take, by their numbers."""
        taking = [one for one in self.references if one.relocation in TAKE_SLOTS and self.symbol(one).kind == FUNCTION]
        meanings = {self.liveness.meaning(one) for one in taking}
        functions = sorted({self.function(one) for one in meanings if self.has_slot(one)})
        return {function: slot for slot, function in enumerate(functions, self.FIRST_SLOT)}

    def has_slot(self, meaning):
        return not isinstance(meaning, Null)

    def slot(self, meaning):
        return 0 if isinstance(meaning, Null) else self.slots[self.function(meaning)]

    # Globals.

    def globals_in_order(self):
        return self.liveness.of_kind(GLOBAL) + self.constants() + self.exported_data()

    def exported_data(self):
        return [ExportedDatum(one.title, one.definition) for one in self.liveness.exports if one.winner.kind == DATUM]

    def constants(self):
        """One for each meaning of functions and data that live code names as globals, in the order of code."""
        named = [one for one in self.references if one.relocation == GLOBAL_INDEX_LEB and self.symbol(one).kind != GLOBAL]
        return list(dict.fromkeys(Constant(self.liveness.meaning(one)) for one in named))

    def global_of(self, reference):
        meaning = self.liveness.meaning(reference)
        if self.symbol(reference).kind != GLOBAL:
            return self.globals[Constant(meaning)]
        return self.own_global(meaning)

    def own_global(self, meaning):
        """The number of what a global's symbol means."""
        return self.globals[meaning if isinstance(meaning, Imported) else self.meanings.chunk(meaning)]

    # Types.

    def types_in_order(self):
        """Those of imported functions, of defined functions, and those that live code names, each once."""
        types = [one.type for one in self.imported_functions]
        types += [self.type_of(one) for one in self.defined_functions]
        for chunk in self.liveness.of_kind(FUNCTION):
            windows = [] if chunk.input == 0 else windows_of(self.names.objects, chunk)
            types += [window.target for _, window in windows if window.kind == TYPE_INDEX_LEB]
        return list(dict.fromkeys(types))

    def type_of(self, function):
        if isinstance(function, Stub):
            return self.names.entries[function.name][0].type
        if function.input == 0:
            return NOTHING
        object = self.names.objects[function.input]
        return object.types[object.functions[function.place].type]
