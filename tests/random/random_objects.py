"""Makes random objects whose names, kinds and types mostly agree with those of others."""

from inputs import is_undefined
from made_symbols import PLAIN_SYMBOLS
from names import type_of
from objects import *

FUNCTION_TYPES = (NOTHING, INT, ((I32,), ()), ((I64, I32), (I64,)))
GLOBAL_TYPES = ((I32, True), (I64, False), (I32, False))
KINDS = {"f": FUNCTION, "d": DATUM, "g": GLOBAL}
STRINGS = 1
# The shares of strong, weak and LOCAL references. Strong ones to data, which can't be imported, are mostly unresolved; so are weak ones to globals.
BINDING_SHARES = {FUNCTION: (40, 55, 5), DATUM: (25, 70, 5), GLOBAL: (75, 20, 5)}


def rarely(choose, share):
    """Whether something happens that has this share of all cases."""
    return choose.random() < share


def some_flags(choose, shares):
    return sum(flag for flag, share in shares.items() if rarely(choose, share))


class ObjectMaker:
    """Symbols are made first, then what refers to them. `choose` is a source of random choices."""

    binding_shares = BINDING_SHARES
    made_symbols = PLAIN_SYMBOLS

    def __init__(self, choose):
        self.choose = choose
        self.object = Object()
        self.strong_share = choose.choice([0.05, 0.2, 0.5])

    def make(self):
        self.add_symbols()
        if rarely(self.choose, 0.5):
            self.object.needs_memory()
        self.fill_segments()
        self.fill_functions()
        self.add_groups()
        self.add_init_functions()
        self.add_export_names()
        return self.object

    def add_symbols(self):
        """References, linker-made names among them, and then definitions, LOCAL ones among them."""
        definitions = []
        for title in self.names():
            if rarely(self.choose, 0.55):
                self.add_reference(title)
            else:
                definitions.append((title, self.definition_flags()))
        self.add_made_references()
        local_count = self.choose.choice([0, 0, 1, 2, 3])
        definitions += [(title, LOCAL) for title in self.choose.choices(["f0", "d0", "g0", "fl", "dl", "gl"], k=local_count)]
        self.choose.shuffle(definitions)
        for title, flags in definitions:
            self.add_definition(title, flags)

    # Names, kinds and types: a name's first letter says its kind, and the name its type, but for rare cases that clash.

    def names(self):
        count = self.choose.choice([2, 4, 7])
        names = [letter + str(number) for letter in KINDS for number in range(count)]
        return self.choose.sample(names, self.choose.randint(0, len(names)))

    def kind(self, title):
        return self.choose.choice(list(KINDS.values())) if rarely(self.choose, 0.003) else KINDS[title[0]]

    def type_by(self, title, types):
        """Names whose last characters make a pair, as 0 and 1 do, have one type."""
        return self.choose.choice(types) if rarely(self.choose, 0.01) else types[ord(title[-1]) // 2 % len(types)]

    # Symbols.

    def definition_flags(self):
        weak = 0 if rarely(self.choose, self.strong_share) else WEAK
        return weak | some_flags(self.choose, {HIDDEN: 0.2, EXPORTED: 0.08, NO_STRIP: 0.08})

    def add_reference(self, title):
        kind = self.kind(title)
        binding = self.choose.choices([0, WEAK, LOCAL], self.binding_shares[kind])[0]
        flags = binding | some_flags(self.choose, {HIDDEN: 0.2, EXPORTED: 0.08, NO_STRIP: 0.08})
        if kind == DATUM:
            self.object.needs_datum(title, flags)
        elif kind == FUNCTION:
            self.object.needs(title, self.type_by(title, FUNCTION_TYPES), flags, *self.import_place(title))
        else:
            self.object.needs_global(title, *self.type_by(title, GLOBAL_TYPES), flags, *self.import_place(title))

    def import_place(self, title):
        """The module, and the field where the import is explicit. Some names share a field, which makes them one import."""
        if not rarely(self.choose, 0.3):
            return self.choose.choice(["env", "env", "other"]), None
        module = "other" if rarely(self.choose, 0.03) else "host"
        return module, "shared" if title[-1] in "01" else "field_" + title

    def add_made_references(self):
        """References to some linker-made symbols, and now and then a definition of such a name."""
        for made in self.choose.sample(self.made_symbols, self.choose.choice([0, 0, 1, 2, 3])):
            if made.kind != TABLE and rarely(self.choose, 0.1 if made.kind == DATUM else 0.01):
                self.define_made(made)
            else:
                self.refer_to_made(made)

    def define_made(self, made):
        if made.kind == DATUM:
            self.add_datum(made.name, self.choose.choice([0, WEAK]))
        elif made.kind == FUNCTION:
            self.object.function(made.name, kind=made.type)
        else:
            self.object.own_global(made.name, 0, *made.type)

    def refer_to_made(self, made):
        if made.kind == DATUM:
            self.object.needs_datum(made.name, self.choose.choice([0, WEAK]))
        elif made.kind == FUNCTION:
            self.object.needs(made.name, made.type)
        elif made.kind == GLOBAL:
            self.object.needs_global(made.name, *made.type)
        else:
            self.object.needs_table()

    def add_definition(self, title, flags):
        kind = self.kind(title)
        if kind == FUNCTION:
            self.add_function(title, flags)
        elif kind == GLOBAL:
            self.object.own_global(title, self.choose.choice([0, 5, -7, 2**31 - 1]), *self.type_by(title, GLOBAL_TYPES), flags)
        else:
            self.add_datum(title, flags)

    def add_function(self, title, flags):
        """A function, or another symbol of one that is there."""
        kind = self.type_by(title, FUNCTION_TYPES)
        alike = [place for place, one in enumerate(self.object.functions) if self.object.types[one.type] == kind]
        if alike and rarely(self.choose, 0.25):
            self.object.alias(title, self.choose.choice(alike), flags)
        else:
            self.object.function(title, kind=kind, flags=flags)

    def add_datum(self, title, flags):
        """A datum in a new segment, or in one that is there."""
        count = len(self.object.segments)
        if count and rarely(self.choose, 0.4):
            self.object.datum(title, self.choose.randrange(count), flags=flags)
        else:
            self.object.segment([], self.choose.randint(0, 5), ".data", self.choose.choice([0, 0, 0, 0, RETAIN, STRINGS]))
            self.object.datum(title, count, flags=flags)

    def places(self, *kinds):
        """The places of the symbols of some kinds."""
        return [place for place, one in enumerate(self.object.symbols) if one.kind in kinds]

    # The content of segments and functions.

    def addend(self):
        usual, unusual = [0, 4, 8], [1, -1, 100, -1024, -2000, 2**31 - 1, -(2**31)]
        return self.choose.choice(unusual if rarely(self.choose, 0.12) else usual)

    def fill_segments(self):
        if rarely(self.choose, 0.25):
            self.object.segment([], self.choose.randint(0, 5), "", RETAIN)
        for place in range(len(self.object.segments)):
            self.object.segments[place] = [self.data_part() for _ in range(self.choose.choice([0, 1, 1, 2, 3, 4]))]
        for place in self.places(DATUM):
            symbol = self.object.symbols[place]
            if not is_undefined(symbol):
                length = len(placed(self.object.segments[symbol.where])[0])
                offset = self.choose.randint(0, length)
                self.object.symbols[place] = symbol._replace(offset=offset, size=self.choose.randint(0, length - offset))

    def data_part(self):
        """Zeros, other bytes, the address of a datum or the slot of a function."""
        data, functions = self.places(DATUM), self.places(FUNCTION)
        part = self.choose.choices(["zeros", "bytes", "address", "slot"], [35, 30, 20, 15])[0]
        if part == "address" and data:
            return word(self.choose.choice(data), self.addend())
        if part == "slot" and functions:
            return slot_word(self.choose.choice(functions))
        if part == "bytes":
            return self.choose.randbytes(self.choose.choice([1, 2, 4, 5]))
        return bytes(self.choose.choice([0, 1, 3, 8]))

    def fill_functions(self):
        for place, one in enumerate(self.object.functions):
            code = [self.code_part() for _ in range(self.choose.choice([0, 1, 2, 3, 5, 8]))]
            self.object.functions[place] = one._replace(parts=[b"\x00", code, b"\x0B"])

    def code_part(self):
        """Code that names a symbol or a type. It need not be valid in a module: the program carries code, and checks no operands."""
        makers = (
            (35, self.with_symbol(call, FUNCTION)),
            (10, self.with_symbol(slot, FUNCTION)),
            (5, self.with_symbol(relative_slot, FUNCTION)),
            (10, self.with_symbol(address, DATUM, addend=self.addend())),
            (5, self.with_symbol(relative_address, DATUM, addend=self.addend())),
            (5, self.with_symbol(load, DATUM, addend=self.addend())),
            (10, self.with_symbol(global_get, GLOBAL)),
            (8, self.with_symbol(global_get, FUNCTION, DATUM)),
            (5, self.with_symbol(global_set, GLOBAL)),
            (5, self.indirect_call),
            (5, lambda: const(self.choose.randint(-1000, 100000))),
        )
        return self.choose.choices([maker for _, maker in makers], [weight for weight, _ in makers])[0]()

    def with_symbol(self, instruction, *kinds, **more):
        """Makes the instruction on some symbol of the kinds, and no code where the object has none."""
        places = self.places(*kinds)
        return lambda: instruction(self.choose.choice(places), **more) if places else b""

    def indirect_call(self):
        tables = self.places(TABLE)
        return call_indirect(self.choose.choice(FUNCTION_TYPES), tables[0] if tables and rarely(self.choose, 0.7) else None)

    # Groups, init functions and export names.

    def add_groups(self):
        """Each function and segment is in one group at most."""
        functions, segments = set(self.free_functions()), set(range(len(self.object.segments)))
        for title in self.choose.sample(["c0", "c1", "c2"], self.choose.choice([0, 0, 1, 1, 2])):
            members = [[one for one in sorted(rest) if rarely(self.choose, 0.3)] for rest in (functions, segments)]
            functions -= set(members[0])
            segments -= set(members[1])
            self.object.group(title, *members)

    def free_functions(self):
        return range(len(self.object.functions))

    def add_init_functions(self):
        places = [place for place in self.places(FUNCTION) if type_of(self.object, self.object.symbols[place]) == NOTHING]
        for _ in range(self.choose.choice([0, 1, 2, 3]) if places else 0):
            self.object.init(self.choose.choice([0, 1, 100, 65535]), self.choose.choice(places))

    def add_export_names(self):
        count = len(self.object.functions)
        for _ in range(self.choose.choice([0, 0, 0, 1, 2]) if count else 0):
            title = self.choose.choice(["e1", "e2", "f1", "memory"]) if rarely(self.choose, 0.2) else "e%d" % self.choose.randrange(50)
            self.object.export(title, ("function", self.choose.randrange(count)))
