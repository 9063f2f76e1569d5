"""What a link is given: its candidates and its options; and how it is refused."""

from dataclasses import dataclass, field

from objects import *

PAGE = 65536
ADDRESSES = 2**32


class Fault(Exception):
    """The link is refused with this line."""


@dataclass
class Candidate:
    """An object. It is loaded at once, or where a name that it offers is needed."""

    object: Object
    at_once: bool
    offers: set = field(default_factory=set)


@dataclass
class Options:
    shared: bool = False
    entry: str | None = None
    exports: list = field(default_factory=list)
    exports_if_defined: list = field(default_factory=list)
    needed: list = field(default_factory=list)
    export_dynamic: bool = False
    allow_undefined: bool = False
    import_memory: bool = False
    drop_dead: bool = True
    stack_first: bool = False
    global_base: int | None = None
    stack_size: int = 65536
    initial_memory: int = 0
    max_memory: int | None = None

    @property
    def own_memory(self):
        """A shared output has the memory of its loader."""
        return not (self.shared or self.import_memory)


def is_undefined(symbol):
    return bool(symbol.flags & UNDEFINED)


def is_local_definition(symbol):
    return bool(symbol.flags & LOCAL) and not is_undefined(symbol)


def defined_names(object):
    """The names that others may mean: those of definitions that aren't LOCAL."""
    return {one.title for one in object.symbols if not is_undefined(one) and not one.flags & LOCAL}


def import_of(object, symbol):
    """The import on which an undefined function, global or table stands."""
    _, place = symbol.where
    return [one for one in object.imports if one.kind == symbol.kind][place]
