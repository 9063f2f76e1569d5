"""The section dylink.0, which tells the loader what a shared output needs (DynamicLinking.md)."""

from meanings import Imported
from objects import *

MEMORY_INFO, IMPORT_INFO = 1, 4
MAY_BE_ABSENT = 1


def dylink_section(liveness, layout, numbering):
    needs = leb(layout.data_end) + leb(layout.alignment()) + leb(len(numbering.slots)) + leb(0)
    weak = weak_imports(liveness)
    imports = [one for one in numbering.imported_functions + numbering.imported_globals if one in weak]
    infos = [name(one.module) + name(one.field) + leb(MAY_BE_ABSENT) for one in imports]
    return custom("dylink.0", section(MEMORY_INFO, needs) + (section(IMPORT_INFO, vector(infos)) if infos else b""))


def weak_imports(liveness):
    """Those that live chunks use by names all of whose entries are WEAK: what is called, a global, or the cell of an address."""
    references = [one for one in liveness.live_references() if isinstance(liveness.meaning(one), Imported)]
    return {liveness.meaning(one) for one in references if is_weak(liveness, one)}


def is_weak(liveness, reference):
    title = liveness.meanings.symbol(reference.input, reference.place).title
    return all(one.flags & WEAK for one in liveness.names.entries[title])
