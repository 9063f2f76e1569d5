"""The symbols that the linker makes, which are those of input 0, by their places."""

from typing import NamedTuple

from objects import *


class MadeSymbol(NamedTuple):
    name: str
    kind: int
    type: object = None


CONSTRUCTORS = MadeSymbol("__wasm_call_ctors", FUNCTION, NOTHING)
STORES = MadeSymbol("__wasm_apply_data_relocs", FUNCTION, NOTHING)
BASES = (
    MadeSymbol("__stack_pointer", GLOBAL, (I32, True)),
    MadeSymbol("__memory_base", GLOBAL, (I32, False)),
    MadeSymbol("__table_base", GLOBAL, (I32, False)),
    MadeSymbol("__indirect_function_table", TABLE),
)
PLAIN_DATA = ("__heap_base", "__data_end", "__global_base", "__dso_handle", "__stack_low", "__stack_high", "__heap_end")
PLAIN_SYMBOLS = (CONSTRUCTORS, *BASES, *(MadeSymbol(name, DATUM) for name in PLAIN_DATA))
SHARED_SYMBOLS = (CONSTRUCTORS, STORES, *BASES, MadeSymbol("__dso_handle", DATUM))


def made_symbols(options):
    return SHARED_SYMBOLS if options.shared else PLAIN_SYMBOLS
