"""Bodies of functions: what is spelled, what isn't supported, and floats, which are carried."""

from broken import *
from objects import *
from program import calls, linked, refused, row, same


@row("instructions outside of the profile aren't supported")
def opcodes():
    for text in ("FD 00 0B", "12 00 0B", "25 00 0B", "D0 70 0B", "06 40 0B 0B", "FF 0B", "C5"):
        foreign(file(coded("00 " + text), LINKING), "Opcode(%d,0)" % hexa(text)[0])
    for sub in (8, 9, 12, 17, 18, 300):
        foreign(file(coded("00 FC %s 0B" % leb(sub).hex()), LINKING), "Opcode(252,%d)" % sub)
    foreign(file(coded("00 FE 03 0B"), LINKING), "Opcode(254,0)")


@row("a body ends at its own end, and its blocks are closed")
def body_ends():
    wrong = "00", "00 01", "00 0B 0B", "00 02 40 0B", "00 05 0B", "00 02 40 05 0B 0B", "00 41 00 04 40 05 05 0B 0B"
    for text in wrong + ("", "01 01", "00 41", "00 41 80 80 80 80 40 0B"):
        broken(file(coded(text), LINKING), "section 2")
    for text in ("00 02 40 0B 0B", "00 41 00 04 40 05 0B 0B", "00 03 40 0B 0B", "00 00 0B", "01 01 7F 0B", "02 01 7F 02 7E 0B"):
        linked([file(coded(text), LINKING)])


@row("locals are fewer than 2^32 together")
def many_locals():
    linked([file(coded("01 FF FF FF FF 0F 7F 0B"), LINKING)])
    broken(file(coded("02 FF FF FF FF 0F 7F 01 7F 0B"), LINKING), "section 2")
    broken(file(coded("02 FF FF FF FF 0F 7F 01 7B 0B"), LINKING), "section 2")
    foreign(file(coded("02 FE FF FF FF 0F 7F 01 7B 0B"), LINKING), "ValueType(123)")


@row("block types are none, a value type or a type's number")
def block_types():
    for byte in (0x7B, 0x70, 0x6F):
        foreign(file(coded("00 02 %02X 0B 0B" % byte), LINKING), "ValueType(%d)" % byte)
    for byte in (0x41, 0x5F, 0x77, 0x6E):
        broken(file(coded("00 02 %02X 0B 0B" % byte), LINKING), "section 2")
    broken(file(coded("00 02 FF 7F 0B 0B"), LINKING), "section 2")
    for byte in (0x7F, 0x7E, 0x7D, 0x7C):
        linked([file(coded("00 02 %02X 00 0B 1A 0B" % byte), LINKING)])


@row("fixed bytes of memory instructions are as they have to be")
def fixed_bytes():
    for text in ("3F 01", "40 80 00", "FC 0A 00 01", "FC 0B 01"):
        broken(file(coded("00 00 %s 0B" % text), LINKING), "section 2")
    linked([file(coded("00 00 3F 00 40 00 1A FC 0A 00 00 FC 0B 00 FC 8B 80 00 00 0B"), LINKING)])


@row("floats are carried: their types, constants and instructions are linked as they stand")
def floats():
    object = Object().function("f", [b"\x20\x00\x1A"], ((F64,), ()))
    whole = "00 61 73 6D 01 00 00 00 01 05 01 60 01 7C 00 03 02 01 00 04 05 01 70 01 01 01 05 03 01 00 02 07 0E 02 06 6D 65 6D 6F 72 79 02 00 01 66 00 00"
    module = linked([object], "--export=f")
    same(module.data, hexa(whole + "0A 07 01 05 00 20 00 1A 0B"), "the module")
    calls(module, ("f", [1.5], None))
    linked([file(section(1, hexa("01 60 01 7C 00")), LINKING)])
    object = Object().function("g", [hexa("43 00 00 80 3F 1A")])
    module = linked([object], "--export=g")
    same(module.body("g"), hexa("00 43 00 00 80 3F 1A 0B"), "the body")
    float_load = [b"\x2A\x02", Window(MEMORY_ADDR_LEB, "d")]
    times_two = hexa("43 00 00 00 40 94")
    object = Object().data("d", hexa("00 00 C0 3F")).function("h", [const(0), float_load, times_two], ((), (F32,)))
    calls(linked([object], "--export=h"), ("h", [], 3))


@row("integer instructions of two parameters keep their bytes")
def integers():
    object = Object().function("f", [hexa("20 00 20 01 7C")], ((I64, I64), (I64,)))
    module = linked([object], "--export=f")
    same(module.section(1), hexa("01 07 01 60 02 7E 7E 01 7E"), "the type section")
    same(module.section(10), hexa("0A 09 01 07 00 20 00 20 01 7C 0B"), "the code section")
    calls(module, ("f", ["40", "2"], "42"))


@row("a body without a typing is linked as it stands, and refused by its number where the output is checked")
def untyped():
    object = Object().function("f", [hexa("41 01")])
    same(linked([object], "--export=f", valid=False).body("f"), hexa("00 41 01 0B"), "the body")
    refused([object], "invalid output: body 0", "--validate", "--export=f")
    refused([object], "invalid output: body 0", "--export=f", "--validate", "--validate")
    caller = Object().needs("g", module="m", field="x").function("f", [call("g"), hexa("6A")])
    refused([caller], "invalid output: body 1", "--validate", "--allow-undefined", "--export=f")
    dead = Object().function("e", [hexa("1A")]).function("f", [])
    linked([dead], "--export=f")
    refused([dead], "invalid output: body 0", "--validate", "--export=f", "--no-gc-sections")


@row("the check of the output is the last to be told")
def checked_last():
    object = Object().needs("h").function("f", [hexa("41 01")]).function("g", call("h"))
    refused([object], "input 1: unresolved h", "--validate", "--export=f", "--no-gc-sections")
