"""Objects whose sections aren't spelled as they have to be, or have what isn't supported."""

from broken import *
from objects import *
from program import answers, linked, row
from samples import CALL_OBJECT


@row("each cut of an object is refused: inside of a section for its frame, between sections for what is then missing")
def cuts():
    ends, at = [], 8
    while at < len(CALL_OBJECT):
        ends.append(at)
        at += 2 + CALL_OBJECT[at + 1]
    linking_end = ends.pop()
    for length in range(len(CALL_OBJECT)):
        part = "rule 12" if length == linking_end else "rule 1" if length in ends else "frame"
        answers(["a.o", "-o", "out", "--no-entry", "--export=f"], 1, "wasmld: input 1: malformed: " + part, {"a.o": CALL_OBJECT[:length]})


@row("a header of other bytes is no frame")
def header():
    for content in ("00 61 73 6D 02 00 00 00", "00 61 73 6E 01 00 00 00", "00 61 73 6D", "7F 45 4C 46 02 01 01 00 00"):
        broken(hexa(content), "frame")


@row("a section whose size runs past the end, or isn't a number, is no frame")
def sizes():
    broken(file("01 06 00"), "frame")
    broken(file("01"), "frame")
    broken(file("01 80"), "frame")
    broken(file("00 FF FF FF FF 1F 00"), "frame")
    broken(file("00 80 80 80 80 80 00"), "frame")
    broken(file("01 FF FF FF FF 0F"), "frame")


@row("a section of another number, twice or too late is no frame")
def order():
    broken(file("0E 00", LINKING), "frame")
    broken(file("FF 00", LINKING), "frame")
    broken(file(TYPES, TYPES, LINKING), "frame")
    broken(file(ONE, TYPES, LINKING), "frame")
    broken(file("0A 01 00 0C 01 00", LINKING), "frame")
    linked([file("0C 01 00 0A 01 00", LINKING)])
    linked([file("0C 01 00 0A 01 00 0B 01 00", LINKING, custom("x", b"y"))])


@row("sizes and counts may have more bytes than they need")
def long_numbers():
    linked([file("01 88 80 80 80 00 81 80 80 80 00 60 00 00", LINKING)])


@row("a count whose items run out is broken at its section, however great it is")
def counts():
    broken(file("01 05 FF FF FF FF 0F"), "section 0")
    broken(file("01 06 FF FF FF FF 0F 60", LINKING), "section 0")
    broken(file(custom("x", b""), "03 05 FF FF FF FF 0F"), "section 1")
    broken(file("01 05 FF FF FF FF 1F"), "section 0")


@row("bytes that follow in a section are broken")
def following():
    broken(file("01 02 00 00", LINKING), "section 0")
    broken(file("03 03 01 00 00", LINKING), "section 0")
    broken(file("0C 02 00 00", LINKING), "section 0")


@row("a value type that isn't supported is told where it stands before broken bytes")
def first_of_two():
    foreign(file(section(1, hexa("01 60 02 7B 99 00")), LINKING), "ValueType(123)")
    broken(file(section(1, hexa("01 60 02 99 7B 00")), LINKING), "section 0")
    foreign(file(section(1, hexa("05 60 01 7B 00"))), "ValueType(123)")


@row("the first section that isn't spelled whole decides, before what doesn't agree")
def first_section():
    foreign(file(section(1, hexa("01 60 01 70 00")), "03 03 01 00 00"), "ValueType(112)")
    broken(file("01 01 01", "03 03 01 00 00", "08 00"), "section 0")
    foreign(file("08 01 00", "0B 01 01"), "StartSection")
    broken(file("0B 01 01", custom("linking", b"\x03")), "section 0")


@row("the frame is judged before any section")
def frame_first():
    broken(file("01 01 01", "00 7F"), "frame")
    broken(file("08 00", "00 7F"), "frame")


@row("types are spelled by their form")
def types():
    broken(file(section(1, hexa("01 61 00 00")), LINKING), "section 0")
    broken(file(section(1, hexa("01 60 00")), LINKING), "section 0")
    for byte in (0x7B, 0x70, 0x6F):
        foreign(file(section(1, hexa("01 60 01") + bytes([byte]) + b"\x00"), LINKING), "ValueType(%d)" % byte)
    linked([file(section(1, hexa("01 60 04 7F 7E 7D 7C 00")), LINKING)])


@row("imports are spelled by their form")
def import_forms():
    broken(file(imports(imported("m", "f", "05")), LINKING), "section 0")
    broken(file(imports(imported("m", "g", "03 7F 02")), LINKING), "section 0")
    broken(file(imports(imported("m", "g", "03 40 00")), LINKING), "section 0")
    broken(file(imports("01 FF 01 67 03 7F 00"), LINKING), "section 0")
    broken(file(imports("02 C3 28 01 67 03 7F 00"), LINKING), "section 0")
    foreign(file(imports(imported("m", "t", "04 00 00")), LINKING), "TagImport")
    foreign(file(imports(imported("m", "g", "03 6F 00")), LINKING), "ValueType(111)")


@row("a second memory, other limits and other tables aren't supported")
def memories_and_tables():
    memory = imported("env", "__linear_memory", "02 00 01")
    table = "__indirect_function_table"
    foreign(file(imports(memory, memory), LINKING), "MoreMemories")
    foreign(file(imports(memory, name("m") + name("n") + hexa("02")), LINKING), "MoreMemories")
    for flag in (2, 3, 4, 7, 0xFF):
        foreign(file(imports(name("m") + name("n") + bytes([2, flag])), LINKING), "LimitsFlag(%d)" % flag)
    foreign(file(imports(imported("env", "tab", "01 70 00 00")), LINKING), "OtherTable")
    foreign(file(imports(imported("env", "tab", "01 99 02")), LINKING), "OtherTable")
    foreign(file(imports(imported("m", table, "01 70 00 00")), LINKING), "OtherTable")
    foreign(file(imports(imported("env", table, "01 6F 00 00")), LINKING), "OtherTable")
    foreign(file(imports(imported("env", table, "01 70 00 00"), imported("env", table, "01 70 00 00")), LINKING), "OtherTable")
    broken(file(imports(imported("env", table, "01 99 00 00")), LINKING), "section 0")
    foreign(file(imports(imported("env", table, "01 70 02 00")), LINKING), "LimitsFlag(2)")
    linked([file(imports(imported("env", table, "01 70 01 00 05"), memory), LINKING)])


@row("tables, memories, a start and tags of an object's own aren't supported")
def own_parts():
    foreign(file("04 04 01 70 00 00", LINKING), "DefinedTable")
    foreign(file("04 02 01 99", LINKING), "DefinedTable")
    foreign(file("05 03 01 00 01", LINKING), "DefinedMemory")
    foreign(file("05 02 02 FF", LINKING), "DefinedMemory")
    broken(file("04 01 01", LINKING), "section 0")
    broken(file("05 01 01", LINKING), "section 0")
    linked([file("04 01 00", "05 01 00", LINKING)])
    foreign(file("08 01 00", LINKING), "StartSection")
    foreign(file("08 00", LINKING), "StartSection")
    foreign(file("0D 03 01 00 00", LINKING), "TagSection")
    foreign(file("0D 00", LINKING), "TagSection")


@row("expressions other than one constant aren't supported")
def expressions():
    linked([file(section(6, hexa("02 7F 00 41 7F 0B 7E 01 42 80 01 0B")), LINKING)])
    for text, item in (("23 00 0B", 0x23), ("D2 00 0B", 0xD2), ("0B", 0x0B), ("43 00 00 00 00 0B", 0x43), ("41 00 41 00 0B", 0x41), ("41 00 6A 0B", 0x6A)):
        foreign(file(section(6, hexa("01 7F 00") + hexa(text)), LINKING), "ConstExpr(%d)" % item)
    broken(file(section(6, hexa("01 7F 00 41 FF FF FF FF 4F 0B")), LINKING), "section 0")
    broken(file(section(6, hexa("01 7F 00")), LINKING), "section 0")
    broken(file(section(6, hexa("01 7F 00 41 00")), LINKING), "section 0")


@row("segments of other forms aren't supported")
def segment_forms():
    foreign(file("0B 03 01 01 00", LINKING), "PassiveSegment")
    foreign(file("0B 02 01 01", LINKING), "PassiveSegment")
    foreign(file("0B 02 01 03", LINKING), "SegmentForm(3)")
    foreign(file(section(11, hexa("01 FF FF FF FF 0F")), LINKING), "SegmentForm(4294967295)")
    for flag in (1, 3, 4, 7):
        foreign(file(section(9, bytes([1, flag, 0])), LINKING), "SegmentForm(%d)" % flag)
    linked([file(section(11, hexa("01 02 00 41 00 0B 01 07")), LINKING)])
    broken(file(section(11, hexa("01 02 01 41 00 0B 01 07")), LINKING), "rule 3")
    broken(file(section(9, hexa("01 02 00 41 00 0B 01 00")), LINKING), "section 0")
    broken(file(section(11, hexa("01 00 41 00 0B 02 07")), LINKING), "section 0")


@row("exports are spelled by their form")
def export_forms():
    broken(file("07 04 01 00 04 00", LINKING), "section 0")
    broken(file("07 03 01 00 00", LINKING), "section 0")
    linked([file("07 04 01 00 02 00", LINKING)])
