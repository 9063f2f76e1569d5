"""The numbers of a shared output, where the loader gives the bases and the cells of foreign names."""

from made_symbols import SHARED_SYMBOLS
from meanings import Definition, Imported
from numbering import Numbering
from objects import *

BASES = {one.name: Imported("env", one.name, GLOBAL, one.type) for one in SHARED_SYMBOLS if one.kind == GLOBAL}


class SharedNumbering(Numbering):
    """Slots count from the table's base. The cells of the output's own functions and data are globals that are filled when it is loaded."""

    FIRST_SLOT = 0

    def imports(self, kind):
        """Functions that are called; the bases, the cells of foreign names in the order of code and data, and other globals. Equal ones are one."""
        if kind == FUNCTION:
            return super().imports(kind)
        cells = [self.liveness.meaning(one) for one in self.references if one.relocation != FUNCTION_INDEX_LEB and self.symbol(one).kind != GLOBAL]
        others = self.imports_of([one for one in self.references if self.symbol(one).kind == GLOBAL], GLOBAL)
        return list(dict.fromkeys([*BASES.values(), *(one for one in cells if isinstance(one, Imported)), *others]))

    def has_slot(self, meaning):
        return isinstance(meaning, Definition)

    def globals_in_order(self):
        own = [one for one in self.liveness.of_kind(GLOBAL) if one.input > 0]
        return own + self.constants() + self.exported_data()

    def constants(self):
        return [one for one in super().constants() if isinstance(one.meaning, Definition)]

    def global_of(self, reference):
        meaning = self.liveness.meaning(reference)
        return self.globals[meaning] if isinstance(meaning, Imported) else super().global_of(reference)

    def own_global(self, meaning):
        if isinstance(meaning, Definition) and meaning.input == 0:
            return self.globals[BASES[SHARED_SYMBOLS[meaning.place].name]]
        return super().own_global(meaning)
