"""Objects whose metadata isn't spelled whole, and those whose sections don't agree."""

from broken import *
from objects import *
from program import linked, refused, row, same


@row("metadata of another version isn't supported")
def versions():
    foreign(file(custom("linking", hexa("01 08 01 00"))), "LinkingVersion(1)")
    foreign(file(custom("linking", hexa("03"))), "LinkingVersion(3)")
    broken(file(custom("linking", b"")), "section 0")


@row("parts of the metadata come once each, others are skipped")
def subsections():
    linked([file(linking(section(8, b"\x00"), section(5, b"\x00"), section(7, b"\x00"), section(6, b"\x00"), section(1, b"any bytes"), section(1, b"")))])
    linked([file(linking())])
    broken(file(linking(section(8, b"\x00"), section(8, b"\x00"))), "section 0")
    broken(file(linking(section(5, b"\x00\x00"))), "section 0")
    broken(file(custom("linking", hexa("02 08 05 00"))), "section 0")


@row("symbols and segments with flags that aren't known aren't supported")
def flags():
    code = coded("00 0B")
    for flag in (0x100, 0x200, 0x400, 0x8, 0x80000000, 3):
        foreign(file(code, linking(symbols(b"\x00" + leb(flag) + hexa("00 01 66")))), "SymbolFlags(%d)" % flag)
    foreign(file(linking(symbols("04 00 00"))), "TagSymbol")
    broken(file(linking(symbols("06 00 00"))), "section 0")
    for flag in (2, 8, 0x100):
        foreign(file("0B 07 01 00 41 00 0B 01 07", linking(section(5, vector([name("") + leb(0) + leb(flag)])))), "SegmentFlags(%d)" % flag)
    linked([file("0B 07 01 00 41 00 0B 01 07", linking(section(5, vector([name("") + leb(0) + leb(5)]))))])


@row("relocations of other types aren't supported")
def relocations():
    base = coded("00 0B") + linking(symbols("00 00 00 01 66"))
    for kind in (10, 14, 15, 16, 17, 18, 19, 21, 22, 23, 24, 25, 26, 255):
        foreign(file(base, custom("reloc.CODE", bytes([2, 1, kind, 0, 0]))), "RelocType(%d)" % kind)
    broken(file(base, custom("reloc.CODE", hexa("02 01 00 04"))), "section 4")


@row("shared modules aren't supported as inputs")
def shared():
    foreign(file(custom("dylink.0", b""), LINKING), "SharedModule")
    foreign(file(custom("dylink", b"any"), LINKING), "SharedModule")
    linked([file(custom("dylink.1", b"any"), LINKING)])


@row("custom sections need names that are UTF-8, and may stand anywhere")
def customs():
    broken(file(section(0, hexa("01 FF")), LINKING), "section 0")
    broken(file(section(0, b""), LINKING), "section 0")
    linked([file(custom("a", b"x"), TYPES, custom("", b""), custom("a", b"x"), LINKING, custom("b", b""))])
    broken(file(LINKING, custom("c", b""), section(0, hexa("05 61"))), "section 2")


@row("there is exactly one section of metadata, and relocations stand behind it")
def one_linking():
    broken(HEADER, "rule 1")
    broken(file(TYPES), "rule 1")
    broken(file(LINKING, LINKING), "rule 1")
    broken(file(coded("00 0B"), custom("reloc.CODE", hexa("02 00")), LINKING), "rule 1")


@row("functions and bodies are equally many, and the count of data is that of the segments")
def equally_many():
    broken(file(TYPES, ONE, LINKING), "rule 2")
    broken(file("0A 04 01 02 00 0B", LINKING), "rule 2")
    broken(file("0C 01 01", LINKING), "rule 2")
    broken(file("0C 01 02", "0B 06 01 00 41 00 0B 00", LINKING), "rule 2")
    linked([file("0C 01 01", "0B 06 01 00 41 00 0B 00", LINKING)])


@row("numbers in sections are in range")
def in_range():
    broken(file(TYPES, imports(imported("m", "f", "00 01")), LINKING), "rule 3")
    broken(file(TYPES, section(3, hexa("01 01")), section(10, hexa("01 02 00 0B")), LINKING), "rule 3")
    for kind in (0, 1, 3):
        broken(file(section(7, bytes([1, 0, kind, 0])), LINKING), "rule 3")
    broken(file("07 04 01 00 02 01", LINKING), "rule 3")
    broken(file(section(9, hexa("01 00 41 00 0B 01 00")), LINKING), "rule 3")
    broken(file(section(9, hexa("01 02 00 41 00 0B 00 00")), LINKING), "rule 3")
    linked([file(section(9, hexa("01 00 41 00 0B 00")), LINKING)])


@row("symbols name what there is, and are undefined exactly where that is an import")
def symbol_numbers():
    code, data = coded("00 0B"), "0B 07 01 00 41 00 0B 01 07"
    broken(file(code, linking(symbols("00 00 01 01 66"))), "rule 4")
    broken(file(code, linking(symbols("00 10 00"))), "rule 4")
    broken(file(TYPES, imports(imported("m", "f", "00 00")), linking(symbols("00 00 00 01 66"))), "rule 4")
    broken(file(linking(symbols("02 00 00 01 67"))), "rule 4")
    broken(file(linking(symbols("05 10 00"))), "rule 4")
    broken(file(linking(symbols("03 02 05"))), "rule 4")
    linked([file(linking(symbols("03 02 00")))])
    broken(file(linking(symbols("01 00 01 64 00 00 00"))), "rule 4")
    broken(file(data, linking(symbols("01 00 01 64 00 00 02"))), "rule 4")
    broken(file(data, linking(symbols("01 00 01 64 00 02 00"))), "rule 4")
    broken(file(data, linking(symbols("01 00 01 64 00 FF FF FF FF 0F 01"))), "rule 4")
    linked([file(data, linking(symbols("01 00 01 64 00 01 00")))])


@row("the names of an object's symbols differ, but for those of LOCAL definitions")
def names_differ():
    code = coded("00 0B", "00 0B")
    broken(file(code, linking(symbols("00 00 00 01 66", "00 00 01 01 66"))), "rule 5")
    linked([file(code, linking(symbols("00 00 00 01 66", "00 02 01 01 66", "00 02 00 01 66")))])
    broken(file(code, linking(symbols("00 00 00 01 66", "01 12 01 66"))), "rule 5")
    broken(file(linking(symbols("01 10 01 66", "01 10 01 66"))), "rule 5")


@row("there are at most as many descriptions as segments, of alignments up to 2^31")
def descriptions():
    data = "0B 07 01 00 41 00 0B 01 07"
    broken(file(linking(section(5, hexa("01 00 00 00")))), "rule 6")
    broken(file(data, linking(section(5, hexa("01 00 20 00")))), "rule 6")
    linked([file(data, linking(section(5, hexa("01 00 1F 00"))))])
    linked([file(data, linking(section(5, hexa("00"))))])


@row("init entries name functions of type () to ()")
def init_entries():
    code = coded("00 0B")
    linked([file(code, linking(section(6, hexa("01 01 00")), symbols("00 00 00 01 66")))])
    broken(file(code, linking(section(6, hexa("01 01 01")), symbols("00 00 00 01 66"))), "rule 7")
    broken(file(linking(section(6, hexa("01 01 00")), symbols("01 10 01 66"))), "rule 7")
    broken(Object().function("f", const(1), INT).init(1, "f"), "rule 7")


@row("groups have names that differ and members that exist, each in one place")
def group_members():
    code = coded("00 0B")

    def groups(*items):
        return file(code, "0B 06 01 00 41 00 0B 00", linking(section(7, vector(hexa(one) for one in items))))

    linked([groups("01 67 00 03 01 00 00 00 05 00")])
    broken(groups("01 67 00 01 01 01"), "rule 8")
    broken(groups("01 67 00 01 00 01"), "rule 8")
    broken(groups("01 67 00 01 05 09"), "rule 8")
    broken(groups("01 67 00 02 01 00 01 00"), "rule 8")
    broken(groups("01 67 00 01 01 00", "01 68 00 01 01 00"), "rule 8")
    broken(groups("01 67 00 00", "01 67 00 00"), "rule 8")
    broken(groups("01 67 01 00"), "section 4")
    broken(groups("01 67 00 01 02 00"), "section 4")
    imports_one = file(TYPES, imports(imported("m", "f", "00 00")), linking(section(7, hexa("01 01 67 00 01 01 00"))))
    broken(imports_one, "rule 8")


def windowed(body, *entries, more=b""):
    """One function f with this body, and relocations on the code section, whose offsets count from the body."""
    body = hexa(body)
    payload = vector([leb(len(body)) + body])
    entries = vector(bytes([kind, 2 + place]) + rest for kind, place, rest in entries)
    return file(TYPES, ONE, section(10, payload), linking(symbols("00 00 00 01 66")), custom("reloc.CODE", b"\x02" + entries), more)


CALLS = "00 10 80 80 80 80 00 0B"


@row("relocations have a target, each target once, and windows that rise, fit and don't overlap")
def windows_fit():
    linked([windowed(CALLS, (0, 2, b"\x00"))])
    broken(windowed(CALLS, (0, 2, b"\x00"), (0, 2, b"\x00")), "rule 9")
    broken(windowed(CALLS, (0, 2, b"\x00"), (0, 6, b"\x00")), "rule 9")
    broken(windowed(CALLS + " ", (0, 4, b"\x00")), "rule 9")
    broken(windowed("00 10 80 80 80 80 00 10 80 80 80 80 00 0B", (0, 8, b"\x00"), (0, 2, b"\x00")), "rule 9")
    linked([windowed("00 10 80 80 80 80 00 10 80 80 80 80 00 0B", (0, 2, b"\x00"), (0, 8, b"\x00"))])
    broken(windowed(CALLS, (0, 2, b"\x00"), more=custom("reloc.CODE", hexa("02 00"))), "rule 9")
    for target in (0, 1, 9):
        broken(file(coded("00 0B"), LINKING, custom("reloc.x", bytes([target, 0]))), "rule 9")
    foreign(file(coded("00 0B"), LINKING, custom("reloc.x", hexa("09 01 0A 00 00"))), "RelocType(10)")
    broken(file(coded("00 0B"), LINKING, custom("reloc.x", hexa("09 01 00"))), "section 4")
    linked([file(coded("00 0B"), LINKING, custom("x", b""), custom("reloc.x", hexa("04 99 FF")))])
    twice = custom("reloc.x", hexa("04 00"))
    broken(file(coded("00 0B"), LINKING, custom("x", b""), twice, twice), "rule 9")


@row("relocations name symbols of their kind")
def kinds():
    broken(windowed(CALLS, (0, 2, b"\x01")), "rule 10")
    broken(windowed(CALLS, (7, 2, b"\x01")), "rule 10")
    broken(windowed(CALLS, (6, 2, b"\x01")), "rule 10")
    broken(windowed(CALLS, (4, 2, b"\x00\x00")), "rule 10")
    broken(windowed(CALLS, (20, 2, b"\x00")), "rule 10")
    broken(windowed(CALLS, (13, 2, b"\x00")), "rule 10")
    broken(windowed(CALLS, (9, 2, b"\x00\x00")), "rule 10")
    broken(windowed(CALLS, (8, 2, b"\x00\x00")), "rule 11")


@row("windows in code are five bytes of an immediate of their kind")
def immediates():
    broken(windowed("00 41 00 1A 0B", (1, 2, b"\x00")), "rule 9")
    broken(windowed("00 41 00 1A 01 01 01 01 0B", (1, 2, b"\x00")), "rule 11")
    broken(windowed("00 10 00 01 01 01 01 0B", (0, 2, b"\x00")), "rule 11")
    broken(windowed("00 41 80 80 80 80 00 1A 0B", (0, 2, b"\x00")), "rule 11")
    linked([windowed("00 41 80 80 80 80 00 1A 0B", (1, 2, b"\x00"))])
    broken(windowed(CALLS, (1, 2, b"\x00")), "rule 11")
    broken(windowed("00 41 80 80 80 80 00 1A 0B", (1, 1, b"\x00")), "rule 11")
    broken(windowed("00 42 80 80 80 80 00 1A 0B", (1, 2, b"\x00")), "rule 11")
    broken(windowed("00 00 24 80 80 80 80 00 0B", (7, 3, b"\x00")), "rule 11")
    linked([windowed("00 23 80 80 80 80 00 1A 0B", (7, 2, b"\x00"))])
    broken(windowed("00 41 80 80 80 80 00 1A 0B", (2, 2, b"\x00")), "rule 11")


@row("windows in data have a type for data and lie in one segment")
def data_windows():
    def words(kind, place, rest=b""):
        data = hexa("02 00 41 00 0B 05 00 00 00 00 00 00 41 00 0B 04 00 00 00 00")
        symbol = symbols("01 10 01 64") if kind not in (0, 1, 2) else symbols("00 10 00")
        return file(TYPES, imports(imported("m", "f", "00 00")), section(11, data), linking(symbol), custom("reloc.DATA", bytes([2, 1, kind, place, 0]) + rest))

    linked([words(5, 6, b"\x00"), words(2, 7)])
    linked([words(5, 16, b"\x00")])
    broken(words(5, 5, b"\x00"), "rule 11")
    broken(words(5, 8, b"\x00"), "rule 11")
    broken(words(5, 12, b"\x00"), "rule 11")
    broken(words(5, 17, b"\x00"), "rule 9")
    broken(words(4, 6, b"\x00"), "rule 11")
    broken(words(0, 6), "rule 11")


@row("calls, globals, and types of blocks and indirect calls need windows")
def bare():
    broken(file(coded("00 10 00 0B"), LINKING), "rule 12")
    broken(windowed("00 10 80 80 80 80 00 10 00 0B", (0, 2, b"\x00")), "rule 12")
    broken(file(coded("00 23 00 1A 0B"), LINKING), "rule 12")
    broken(file(coded("00 00 24 00 0B"), LINKING), "rule 12")
    broken(file(coded("00 00 11 00 00 0B"), LINKING), "rule 12")
    broken(file(coded("00 02 00 0B 0B"), LINKING), "rule 12")
    linked([windowed("00 00 11 80 80 80 80 00 00 0B", (6, 3, b"\x00"))])
    linked([windowed("00 00 11 80 80 80 80 00 80 80 00 0B", (6, 3, b"\x00"))])
    broken(windowed("00 00 11 80 80 80 80 00 01 0B", (6, 3, b"\x00")), "rule 12")
    linked([windowed("00 02 80 80 80 80 00 0B 0B", (6, 2, b"\x00"))])


@row("of several rules that are broken the first is told")
def first_rule():
    broken(file(TYPES, ONE, linking(symbols("00 00 09 01 66"))), "rule 2")
    broken(file(coded("00 10 00 0B"), linking(symbols("00 00 09 01 66"))), "rule 4")
    broken(file(coded("00 10 00 0B"), linking(symbols("00 00 00 01 66"), section(6, hexa("01 01 01")))), "rule 7")
    broken(windowed("00 10 00 01 01 01 01 10 00 0B", (0, 2, b"\x00")), "rule 11")


@row("the fault of the least object is told")
def least_object():
    refused([Object(), hexa("00"), b"", file("08 00")], "input 2: malformed: frame")
    refused([Object(), file("08 00"), b""], "input 2: unsupported: StartSection")


@row("any object is read as it stands, whatever the order of its metadata")
def orders():
    object = Object().data("d", b"\x01").function("f", address("d"), INT).function("i").init(1, "i").group("g", [0])
    sections = object.sections()
    place = [one for one, content in enumerate(sections) if b"linking" in content][0]
    wanted = linked([object], "--export=f", "--export=__wasm_call_ctors").data
    for order in ((5, 6, 7, 8), (8, 7, 6, 5), (7, 8, 5, 6)):
        sections[place] = custom("linking", object.linking(order))
        same(linked([join(sections)], "--export=f", "--export=__wasm_call_ctors").data, wanted, "the module")
