"""Whether live code runs wherever it is placed."""

from inputs import Fault
from objects import *

ABSOLUTE = (TABLE_INDEX_SLEB, MEMORY_ADDR_LEB, MEMORY_ADDR_SLEB)
RELATIVE = (MEMORY_ADDR_REL_SLEB, TABLE_INDEX_REL_SLEB)


def refuse_absolute(liveness):
    """The first absolute reference of live code is told, or the first relative one to a foreign name."""
    meanings = liveness.meanings
    for one in liveness.live_references():
        foreign = meanings.is_foreign(meanings.symbol(one.input, one.place))
        if one.relocation in ABSOLUTE or (one.relocation in RELATIVE and foreign):
            raise Fault("input %d: symbol %d: relocation %d is not position-independent" % (one.input, one.place, one.relocation))
