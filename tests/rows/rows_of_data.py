"""Where data, the stack and the heap stand, and what windows on addresses hold."""

from objects import *
from program import calls, holds, linked, refused, row, same

PLACES = ("__global_base", "__dso_handle", "__data_end", "__stack_low", "__stack_high", "__heap_base", "__heap_end")
ANSWER = hexa("2A 00 00 00")


def one_word():
    return Object().data("d", ANSWER)


def two_segments():
    """Three bytes, and four that stand at multiples of eight."""
    return Object().data("a", b"\x01\x02\x03", 0).data("b", b"\x04\x05\x06\x07", 3)


def places(inputs, *words):
    module = linked(inputs, *words, *("--export=" + title for title in PLACES))
    return module, [module.value(title) for title in PLACES]


@row("four bytes of data stand at 1024, the stack above them and the heap above the stack")
def one_datum():
    module = linked([one_word()], "--export=d")
    same(module.section(6), hexa("06 07 01 7F 00 41 80 08 0B"), "the global section")
    same(module.section(11), hexa("0B 0B 01 00 41 80 08 0B 04 2A 00 00 00"), "the data section")
    same((module.value("d"), module.memory()), (1024, (2, None)), "the address and the memory")
    module, found = places([one_word()], "--export=d")
    same(found, [1024, 1024, 1028, 1040, 66576, 66576, 131072], "the linker-made data")
    same(module.memory(), (2, None), "the memory")


@row("a constant that holds an address has five signed bytes")
def address_window():
    object = one_word().function("f", address("d"), INT)
    same(linked([object], "--export=f").body("f")[2:7], hexa("80 88 80 80 00"), "the window")
    same(linked([object], "--export=f", "--global-base=2147483648").body("f")[2:7], hexa("80 80 80 80 78"), "the window")
    calls(linked([object], "--export=f"), ("f", [], 1024))


@row("segments stand at the next address that their alignment allows")
def aligned():
    module = linked([two_segments()], "--export=a", "--export=b")
    same((module.value("a"), module.value("b")), (1024, 1032), "the addresses")
    _, found = places([two_segments()], "--export=a", "--export=b")
    same(found, [1024, 1024, 1036, 1040, 66576, 66576, 131072], "the linker-made data")
    same(module.section(11), hexa("0B 13 01 00 41 80 08 0B 0C 01 02 03 00 00 00 00 00 04 05 06 07"), "the data section, with zeros between")


@row("with --stack-first the stack stands at 0 and data above it")
def stack_first():
    module, found = places([two_segments()], "--export=a", "--export=b", "--stack-first")
    same((module.value("a"), module.value("b"), module.memory()), (65536, 65544, (2, None)), "the addresses and the memory")
    same(found, [65536, 65536, 65548, 0, 65536, 65552, 131072], "the linker-made data")


@row("with --stack-first data begin at the greater of the stack's size and --global-base")
def stack_first_base():
    _, found = places([two_segments()], "--export=a", "--export=b", "--stack-first", "--global-base=65540", "-z", "stack-size=32")
    same(found, [65540, 65540, 65548, 0, 32, 65552, 131072], "the linker-made data")
    _, found = places([one_word()], "--export=d", "--stack-first", "--global-base=16", "-z", "stack-size=32")
    same(found, [32, 32, 36, 0, 32, 48, 65536], "the linker-made data")


@row("the stack's size and where data begin follow the words")
def sizes():
    _, found = places([one_word()], "--export=d", "--global-base=0x800", "-z", "stack-size=16")
    same(found, [2048, 2048, 2052, 2064, 2080, 2080, 65536], "the linker-made data")
    object = one_word().needs_global("__stack_pointer").function("f", global_get("__stack_pointer"), INT)
    module = linked([object], "--export=f", "--export=d", "-z", "stack-size=16")
    calls(module, ("f", [], 1056))


@row("the stack pointer begins at the top of the stack")
def stack_pointer():
    object = Object().needs_global("__stack_pointer").function("f", global_get("__stack_pointer"), INT)
    module = linked([object], "--export=f")
    same(module.section(6), hexa("06 08 01 7F 01 41 80 88 04 0B"), "the global section")
    module = linked([object, one_word()], "--export=f", "--export=d")
    same(module.globals[0], (I32, 1, ("i32", 66576)), "the global")
    module = linked([object], "--export=f", "--stack-first")
    same(module.globals[0], (I32, 1, ("i32", 65536)), "the global")


@row("segments without content stand behind the others and take no bytes")
def zeros_last():
    first = Object().data("z", bytes(8), 3).data("a", b"\x01", 0)
    second = Object().data("b", b"\x02\x00\x00\x00", 2).data("y", bytes(2), 1)
    module = linked([first, second], *("--export=" + title for title in "zaby"))
    same([module.value(title) for title in "zaby"], [1032, 1024, 1028, 1040], "the addresses")
    same(module.section(11), hexa("0B 0F 01 00 41 80 08 0B 08 01 00 00 00 02 00 00 00"), "the data section")
    _, found = places([first, second], *("--export=" + title for title in "zaby"))
    same(found[2:4], [1042, 1056], "the end of data and the stack's low end")


@row("data that are all zero give no data section")
def zeros_alone():
    module = linked([Object().data("z", bytes(100), 0)], "--export=z")
    same(module.section(11), b"", "the data section")
    same(module.value("z"), 1024, "the address")


@row("zeros that hold a window are content")
def window_in_zeros():
    module = linked([Object().data("z", bytes(4)).data("p", word("z"))], "--export=p", "--export=z")
    same((module.value("p"), module.value("z")), (1024, 1028), "the addresses")
    same(module.section(11), hexa("0B 0B 01 00 41 80 08 0B 04 04 04 00 00"), "the data section")


@row("a segment of no bytes stands among the zero ones")
def no_bytes():
    module = linked([Object().data("e", b"", 4).data("a", b"\x01", 0)], "--export=e", "--export=a")
    same((module.value("a"), module.value("e")), (1024, 1040), "the addresses")


@row("windows hold the symbol's address plus the addend, in each form")
def forms():
    object = (
        Object()
        .segment([b"\x01\x02\x03\x04\x05\x06\x07\x08"], 2)
        .datum("low", 0, 0, 4)
        .datum("high", 0, 4, 4)
        .data("p", [word("high", -1), word("low", 0x10)])
        .function("f", [const(0), load("high", 1)], INT)
        .function("g", address("high", -5), INT)
        .function("h", relative_address("high", 2), INT)
    )
    module = linked([object], "--export=f", "--export=g", "--export=h", "--export=p")
    same(module.body("f"), hexa("00 41 00 28 02 85 88 80 80 00 0B"), "the load's offset")
    same(module.body("g"), hexa("00 41 FF 87 80 80 00 0B"), "the constant")
    same(module.body("h"), hexa("00 41 86 88 80 80 00 0B"), "the constant of the relative form")
    same((module.value("p"), module.word_at(1032), module.word_at(1036)), (1032, 1027, 1040), "the words of data")
    calls(module, ("g", [], 1023), ("h", [], 1030))


@row("a word of data below zero is written modulo 2^32")
def below_zero():
    module = linked([one_word().data("p", word("d", -1025))], "--export=p")
    same(module.word_at(1028), 0xFFFFFFFF, "the word of data")
    object = one_word().function("f", address("d", -1025), INT)
    same(linked([object], "--export=f").body("f")[2:7], hexa("FF FF FF FF 7F"), "the window")


@row("an access offset below zero overflows")
def offset_below_zero():
    object = one_word().function("f", [const(0), load("d", -1025)], INT)
    refused([object], "overflow: Reference needs -1", "--export=f")
    same(linked([one_word().function("f", [const(0), load("d", -1024)], INT)], "--export=f").body("f")[5:10], PADDED_ZERO, "the window")


@row("an address plus addend from 2^32 on overflows, in code and in data")
def beyond():
    words = ("--export=f", "--global-base=2147483649")
    most = 2147483647
    refused([one_word().function("f", address("d", most), INT)], "overflow: Reference needs 4294967299", *words)
    refused([one_word().function("f", [const(0), load("d", most)], INT)], "overflow: Reference needs 4294967299", *words)
    pointing = one_word().data("p", word("d", most)).function("f", address("p"), INT)
    refused([pointing], "overflow: Reference needs 4294967299", *words)
    words = ("--export=f", "--global-base=2147483648")
    same(linked([one_word().function("f", address("d", most), INT)], *words).body("f")[2:7], hexa("FF FF FF FF 7F"), "the window")
    same(linked([one_word().function("f", [const(0), load("d", most)], INT)], *words).body("f")[5:10], hexa("FF FF FF FF 0F"), "the window")


@row("of two values out of range the one that stands first in the output is told, code before data")
def first_out_of_range():
    most = 2147483647
    object = one_word().data("p", word("d", most)).data("q", word("d", most - 1)).function("g", address("q"), INT)
    object.function("f", [address("p"), DROP, address("d", most - 2), DROP, address("d", most)], INT)
    refused([object], "overflow: Reference needs 4294967297", "--export=f", "--export=g", "--global-base=2147483652")
    object = one_word().data("p", word("d", most)).data("q", word("d", most - 1)).function("f", [address("q"), DROP, address("p")], INT)
    refused([object], "overflow: Reference needs 4294967299", "--export=f", "--global-base=2147483652")


@row("a value out of range in dead code is no fault")
def dead_value():
    linked([one_word().function("dead", [const(0), load("d", -1025)], INT)], "--export=d")


@row("a stack that ends beyond the memory overflows, the greatest that fits is linked")
def heap_base():
    refused([Object()], "overflow: HeapBase needs 4294967296", "-z", "stack-size=4294966272")
    module = linked([Object()], "-z", "stack-size=4294966256")
    same(module.section(5), hexa("05 05 01 00 80 80 04"), "the memory section")
    module = linked([Object()], "-z", "stack-size=4294966256", "--export=__heap_base", "--export=__heap_end")
    same((module.value("__heap_base"), module.value("__heap_end")), (4294967280, 4294967295), "the heap")


@row("a segment that ends beyond the memory overflows before the stack does")
def data_end():
    refused([one_word()], "overflow: DataEnd needs 4294967300", "--export=d", "--global-base=4294967295")
    refused([one_word()], "overflow: DataEnd needs 4294967296", "--export=d", "--global-base=4294967292")
    refused([Object().data("d", b"\x01\x02\x03", 0)], "overflow: HeapBase needs 4295032832", "--export=d", "--global-base=4294967292")
    refused([two_segments()], "overflow: DataEnd needs 4294967298", "--export=a", "--export=b", "--global-base=4294967295")


@row("a memory that needs more pages than --max-memory allows overflows")
def max_memory():
    refused([Object()], "overflow: MaxMemory needs 131072", "--max-memory=65536")
    refused([Object()], "overflow: MaxMemory needs 196608", "--max-memory=131072", "--initial-memory=196608")
    same(linked([Object()], "--max-memory=131072").section(5), hexa("05 04 01 01 02 02"), "the memory section")
    same(linked([Object()], "--max-memory=4294967296").section(5), hexa("05 06 01 01 02 80 80 04"), "the memory section")


@row("the greatest memory is judged before an unresolved value but after an unresolved name")
def order_of_overflows():
    object = one_word().function("f", [const(0), load("d", -1025)], INT)
    refused([object], "overflow: MaxMemory needs 131072", "--export=f", "--max-memory=0")
    refused([object], "input 0: unresolved g", "--export=g", "--max-memory=0")


@row("an initial memory that is too small is raised, a greater one stands")
def initial_memory():
    same(linked([Object()], "--initial-memory=65536").section(5), hexa("05 03 01 00 02"), "the memory section")
    same(linked([Object()], "--initial-memory=0x30000").section(5), hexa("05 03 01 00 03"), "the memory section")
    module = linked([Object()], "--initial-memory=4294967296", "--export=__heap_end")
    same(module.section(5), hexa("05 05 01 00 80 80 04"), "the memory section")
    same(module.value("__heap_end"), 4294967295, "the end of the heap")
    module = linked([Object()], "--initial-memory=196608", "--export=__heap_end")
    same(module.value("__heap_end"), 196608, "the end of the heap")


@row("the memory is imported with its limits where that is asked, and isn't exported then")
def import_memory():
    module = linked([one_word()], "--export=d", "--import-memory")
    same((module.imports, module.memories, module.names()), ([("env", "memory", "memory", (2, None))], [], ["d"]), "the memory")
    module = linked([one_word()], "--export=d", "--import-memory", "--max-memory=655360", "--initial-memory=327680")
    same(module.imports, [("env", "memory", "memory", (5, 10))], "the imports")
    holds(5 not in module.section_ids, "there is no memory section")


@row("segments stand by input and then by their number, not by their names")
def order_of_segments():
    first = Object().data("z", b"\x01", 0).data("a", b"\x02", 0)
    second = Object().data("m", b"\x03", 0)
    module = linked([first, second], "--export=z", "--export=a", "--export=m")
    same([module.value(title) for title in "zam"], [1024, 1025, 1026], "the addresses")
    module = linked([second, first], "--export=z", "--export=a", "--export=m")
    same([module.value(title) for title in "zam"], [1025, 1026, 1024], "the addresses")


@row("a datum of another input is reached")
def across_inputs():
    first = Object().needs_datum("d").function("f", [address("d"), LOAD], INT).function("g", [const(0), load("d")], INT)
    module = linked([first, Object().data("before", b"\x01", 0), one_word()], "--export=f", "--export=g", "--export=before")
    calls(module, ("f", [], 42), ("g", [], 42))


@row("linker-made data are addresses for code and data")
def made_addresses():
    object = Object().needs_datum("__heap_base").needs_datum("__data_end").data("p", word("__heap_base")).function("f", [address("p"), LOAD], INT)
    object.function("g", address("__data_end", 1), INT)
    module = linked([object], "--export=f", "--export=g")
    calls(module, ("f", [], 66576), ("g", [], 1029))
