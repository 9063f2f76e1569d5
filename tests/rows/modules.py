"""Reads WebAssembly modules: what stands in each section, with bodies and expressions as bytes."""


class Reader:
    def __init__(self, data):
        self.data, self.at = data, 0

    def byte(self):
        self.at += 1
        return self.data[self.at - 1]

    def take(self, count):
        assert self.at + count <= len(self.data), "the bytes end"
        self.at += count
        return self.data[self.at - count : self.at]

    def groups(self):
        """The number in groups of seven bits, how many bits they are, and the last byte."""
        number, shift = 0, 0
        while True:
            one = self.byte()
            number |= (one & 0x7F) << shift
            shift += 7
            if one < 0x80:
                return number, shift, one

    def u32(self):
        return self.groups()[0]

    def signed(self):
        number, bits, last = self.groups()
        return number - (1 << bits) if last & 0x40 else number

    def name(self):
        return self.take(self.u32()).decode()

    def vector(self, item):
        return [item() for _ in range(self.u32())]

    def limits(self):
        flag = self.byte()
        assert flag in (0, 1), "the limits have another form"
        return (self.u32(), self.u32() if flag else None)

    def expression(self):
        """The kind, the value; a constant or the value of a global."""
        opcode = self.byte()
        value = {0x41: self.signed, 0x42: self.signed, 0x23: self.u32}[opcode]()
        assert self.byte() == 0x0B, "the expression goes on"
        return {0x41: ("i32", value & 0xFFFFFFFF), 0x42: ("i64", value), 0x23: ("global", value)}[opcode]

    def done(self):
        return self.at == len(self.data)


class Module:
    def __init__(self, data):
        assert data[:8] == bytes.fromhex("0061736D01000000"), "the header is another"
        self.data = data
        self.types, self.imports, self.functions, self.tables, self.memories = [], [], [], [], []
        self.globals, self.exports, self.elements, self.bodies, self.segments = [], [], [], [], []
        self.section_ids, self.payloads, self.customs = [], {}, []
        outer = Reader(data)
        outer.at = 8
        while not outer.done():
            number = outer.byte()
            reader = Reader(outer.take(outer.u32()))
            self.section_ids.append(number)
            if number == 0:
                self.customs.append((reader.name(), reader.data[reader.at :]))
                continue
            assert number not in self.payloads, "a section comes twice"
            self.payloads[number] = reader.data
            self.read(number, reader)
            assert reader.done(), "section %d has bytes that follow" % number

    def read(self, number, reader):
        if number == 1:
            self.types = reader.vector(lambda: self.read_type(reader))
        elif number == 2:
            self.imports = reader.vector(lambda: self.read_import(reader))
        elif number == 3:
            self.functions = reader.vector(reader.u32)
        elif number == 4:
            self.tables = reader.vector(lambda: (reader.byte(), reader.limits()))
        elif number == 5:
            self.memories = reader.vector(reader.limits)
        elif number == 6:
            self.globals = reader.vector(lambda: (reader.byte(), reader.byte(), reader.expression()))
        elif number == 7:
            self.exports = reader.vector(lambda: (reader.name(), reader.byte(), reader.u32()))
        elif number == 9:
            self.elements = reader.vector(lambda: (reader.u32(), reader.expression(), reader.vector(reader.u32)))
        elif number == 10:
            self.bodies = reader.vector(lambda: reader.take(reader.u32()))
        elif number == 11:
            self.segments = reader.vector(lambda: (reader.u32(), reader.expression(), reader.take(reader.u32())))
        else:
            raise AssertionError("section %d isn't expected" % number)

    def read_type(self, reader):
        assert reader.byte() == 0x60, "a type has another form"
        return (tuple(reader.vector(reader.byte)), tuple(reader.vector(reader.byte)))

    def read_import(self, reader):
        module, field, kind = reader.name(), reader.name(), reader.byte()
        if kind == 0:
            return (module, field, "function", self.types[reader.u32()])
        if kind == 1:
            return (module, field, "table", (reader.byte(), reader.limits()))
        if kind == 2:
            return (module, field, "memory", reader.limits())
        assert kind == 3, "an import has another kind"
        return (module, field, "global", (reader.byte(), reader.byte()))

    # What rows ask.

    def section(self, number):
        """The whole section, its number and its size with it, or nothing."""
        at = 8
        while at < len(self.data):
            reader = Reader(self.data)
            reader.at = at + 1
            reader.take(reader.u32())
            if self.data[at] == number:
                return self.data[at : reader.at]
            at = reader.at
        return b""

    def imported(self, kind):
        return [(module, field) for module, field, one, _ in self.imports if one == kind]

    def names(self):
        return [title for title, _, _ in self.exports]

    def export(self, title):
        """The kind and the number of an export."""
        return {one: (kind, index) for one, kind, index in self.exports}[title]

    def body(self, title):
        kind, index = self.export(title)
        assert kind == 0, "%s is no function" % title
        return self.bodies[index - len(self.imported("function"))]

    def body_of(self, index):
        return self.bodies[index - len(self.imported("function"))]

    def type_of(self, index):
        own = index - len(self.imported("function"))
        return self.types[self.functions[own]] if own >= 0 else [kind for _, _, one, kind in self.imports if one == "function"][index]

    def value(self, title):
        """The value of an exported constant global."""
        kind, index = self.export(title)
        assert kind == 3, "%s is no global" % title
        content, var, (form, value) = self.globals[index - len(self.imported("global"))]
        assert (content, var, form) == (0x7F, 0, "i32"), "%s has another form" % title
        return value

    def memory(self):
        return self.memories[0]

    def image(self):
        """The bytes of data, by address."""
        out = {}
        for flag, (form, start), data in self.segments:
            assert (flag, form) == (0, "i32"), "a segment has another form"
            out.update({start + place: one for place, one in enumerate(data)})
        return out

    def word_at(self, place):
        image = self.image()
        return sum(image.get(place + step, 0) << (8 * step) for step in range(4))
