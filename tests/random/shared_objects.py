"""Makes random objects for shared outputs. Their code is valid, so that the outputs can be checked, and mostly position-independent."""

from inputs import is_undefined
from made_symbols import PLAIN_SYMBOLS, SHARED_SYMBOLS
from names import type_of
from objects import *
from random_objects import FUNCTION_TYPES, ObjectMaker, rarely

CONSTANTS = {I32: b"\x41\x00", I64: b"\x42\x00"}
BLOCK, END = b"\x02", b"\x0B"
# Globals at places that the output imports anyway, or where it may import an address.
BASE_PLACES = {"g0": ("env", "__stack_pointer"), "g1": ("env", "__stack_pointer"), "g4": ("env", "__memory_base"), "g5": ("env", "__table_base")}
CELL_PLACES = {"g0": ("GOT.func", "f0"), "g1": ("GOT.mem", "d1"), "g6": ("GOT.mem", "d0")}
# Functions of one type, each of which may be imported by the other one's name.
NEIGHBOURS = {"f0": ("env", "f1"), "f1": ("env", "f0"), "f2": ("env", "f3"), "f3": ("env", "f2")}
FAR_ALIGNMENT = 31


def with_values(kind, code):
    """The code between the values that it takes and drops of those that it gives."""
    takes, gives = kind
    return [*(CONSTANTS[one] for one in takes), code, DROP * len(gives)]


def is_never_foreign(symbol):
    return not is_undefined(symbol) or symbol.title in [one.name for one in SHARED_SYMBOLS]


class SharedObjectMaker(ObjectMaker):
    binding_shares = {FUNCTION: (50, 45, 5), DATUM: (55, 40, 5), GLOBAL: (65, 30, 5)}
    # Linker-made data of plain links are foreign names as any other.
    made_symbols = SHARED_SYMBOLS + PLAIN_SYMBOLS[5:7]

    def __init__(self, choose):
        super().__init__(choose)
        self.absolute_share = choose.choice([0, 0, 0, 0, 0, 0, 0, 0, 0, 0.1])
        self.foreign_share = choose.choice([0, 0, 0, 0, 0.1])
        self.is_far = rarely(choose, 0.1)
        self.has_inits = rarely(choose, 0.6)
        self.grouped = []
        self.taken_places = choose.choice([{}, NEIGHBOURS, BASE_PLACES, CELL_PLACES, CELL_PLACES])

    def add_symbols(self):
        """Some functions are in one group alone, so that they are foreign where the group's first object hasn't them."""
        super().add_symbols()
        for title in self.choose.choice([(), ("f8",), ("f9",), ("f8", "f9")]):
            self.grouped.append(len(self.object.functions))
            self.object.function(title, flags=self.definition_flags())
        if rarely(self.choose, 0.2):
            self.object.function("f8", flags=LOCAL)

    def add_groups(self):
        super().add_groups()
        if self.grouped:
            self.object.group("c3", self.grouped)

    def free_functions(self):
        return [one for one in super().free_functions() if one not in self.grouped]

    def add_init_functions(self):
        if self.has_inits:
            super().add_init_functions()

    def import_place(self, title):
        if title in self.taken_places and rarely(self.choose, 0.6):
            return self.taken_places[title]
        return super().import_place(title)

    def define_made(self, made):
        if made.kind == FUNCTION:
            self.object.function(made.name, kind=made.type, flags=self.choose.choice([0, WEAK]))
        else:
            super().define_made(made)

    def addend(self):
        return self.choose.choice([0, 2**31 - 1]) if self.is_far else super().addend()

    def fill_segments(self):
        super().fill_segments()
        if self.is_far:
            self.add_far_datum()

    def add_far_datum(self):
        """Zeros far behind all else, and words that point there and beyond."""
        self.object.segment([bytes(8)], FAR_ALIGNMENT, ".bss")
        self.object.datum("far", len(self.object.segments) - 1, self.choose.randint(0, 8), 0, LOCAL)
        for parts in self.object.segments[:-1]:
            if rarely(self.choose, 0.3):
                parts.append(word(len(self.object.symbols) - 1, self.addend()))

    def fill_functions(self):
        for place, one in enumerate(self.object.functions):
            code = [self.code_part() for _ in range(self.choose.choice([0, 1, 2, 3, 5, 8]))]
            results = [CONSTANTS[kind] for kind in self.object.types[one.type][1]]
            self.object.functions[place] = one._replace(parts=[b"\x00", code, results, END])

    def add_export_names(self):
        super().add_export_names()
        if self.object.functions and rarely(self.choose, 0.02):
            title = self.choose.choice(SHARED_SYMBOLS[:2]).name
            self.object.export(title, ("function", self.choose.randrange(len(self.object.functions))))

    # Code.

    def code_part(self):
        if rarely(self.choose, self.absolute_share):
            return self.absolute_part()
        makers = (
            (30, self.call_part),
            (12, lambda: self.value_part(relative_slot, self.relative_places(FUNCTION))),
            (12, lambda: self.value_part(relative_address, self.relative_places(DATUM), addend=self.addend())),
            (25, lambda: self.value_part(global_get, self.places(FUNCTION, DATUM))),
            (12, lambda: self.value_part(global_get, self.places(GLOBAL))),
            (8, self.global_set_part),
            (8, self.indirect_call_part),
            (4, self.block_part),
            (4, lambda: [const(self.choose.randint(-1000, 100000)), DROP]),
        )
        return self.choose.choices([maker for _, maker in makers], [weight for weight, _ in makers])[0]()

    def absolute_part(self):
        instruction, kind = self.choose.choice([(slot, FUNCTION), (address, DATUM), (load, DATUM)])
        part = self.value_part(instruction, self.places(kind))
        return [CONSTANTS[I32], part] if instruction is load and part else part

    def value_part(self, instruction, places, **more):
        """An instruction that gives the value of one of the symbols, which is dropped; no code where there is none."""
        return [instruction(self.choose.choice(places), **more), DROP] if places else b""

    def relative_places(self, kind):
        """Mostly what isn't foreign, since the code isn't position-independent else."""
        symbols = self.object.symbols
        return [one for one in self.places(kind) if is_never_foreign(symbols[one]) or rarely(self.choose, self.foreign_share)]

    def type_of(self, place):
        return type_of(self.object, self.object.symbols[place])

    def call_part(self):
        places = self.places(FUNCTION)
        if not places:
            return b""
        place = self.choose.choice(places)
        return with_values(self.type_of(place), call(place))

    def global_set_part(self):
        places = [one for one in self.places(GLOBAL) if self.type_of(one)[1]]
        if not places:
            return b""
        place = self.choose.choice(places)
        return [CONSTANTS[self.type_of(place)[0]], global_set(place)]

    def indirect_call_part(self):
        kind, tables = self.choose.choice(FUNCTION_TYPES), self.places(TABLE)
        called = call_indirect(kind, tables[0] if tables and rarely(self.choose, 0.7) else None)
        return with_values(kind, [CONSTANTS[I32], called])

    def block_part(self):
        """A block that drops what it takes and gives what its type says."""
        kind = self.choose.choice(FUNCTION_TYPES)
        takes, gives = kind
        inside = [DROP * len(takes), *(CONSTANTS[one] for one in gives)]
        return with_values(kind, [BLOCK, Window(TYPE_INDEX_LEB, kind), inside, END])
