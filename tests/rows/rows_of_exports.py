"""Imports, exports, the table, types and numbers."""

from objects import *
from program import Trap, calls, linked, refused, row, same
from samples import CALL_OBJECT

TABLE_NAME = "__indirect_function_table"


def explicit(title, module, field, kind=NOTHING):
    return Object().needs(title, kind, module=module, field=field)


@row("a function that takes its own address has the first slot")
def own_address():
    module = linked([Object().function("f", slot("f"), INT)], "--export=f")
    same(module.body("f")[2:7], hexa("81 80 80 80 00"), "the window")
    same(module.section(4), hexa("04 05 01 70 01 02 02"), "the table section")
    same(module.section(9), hexa("09 07 01 00 41 01 0B 01 00"), "the element section")
    calls(module, ("f", [], 1))


@row("an imported function whose address alone is used is imported, has a slot, and a constant holds the slot")
def imported_address():
    object = explicit("g", "m", "field").function("f", global_get("g"), INT)
    module = linked([object], "--export=f")
    same(module.imports, [("m", "field", "function", NOTHING)], "the imports")
    same(module.elements, [(0, ("i32", 1), [0])], "the elements")
    same(module.section(6)[3:], hexa("7F 00 41 01 0B"), "the global")
    calls(module, ("f", [], 1))


@row("a function goes out under the last name that its own object exports it by")
def export_name():
    cut = CALL_OBJECT.index(hexa("0A 0F 02 08"))
    object = CALL_OBJECT[:cut] + hexa("07 05 01 01 65 00 00") + CALL_OBJECT[cut:]
    object = object.replace(hexa("43 4F 44 45 02"), hexa("43 4F 44 45 03"))
    same(
        linked([object], "--export=f").data,
        hexa("00 61 73 6D 01 00 00 00 01 05 01 60 00 01 7F 03 03 02 00 00 04 05 01 70 01 01 01 05 03 01 00 02 07 0E 02 06 6D 65 6D 6F 72 79 02 00")
        + hexa("01 65 00 00 0A 0F 02 08 00 10 81 80 80 80 00 0B 04 00 41 07 0B"),
        "the module",
    )


@row("of several export names the last counts, and those of other kinds don't")
def last_export_name():
    object = Object().needs_memory().function("f", const(1), INT).export("a", ("function", 0)).export("b", ("function", 0)).export("c", 0, 2)
    same(linked([object], "--export=f").names(), ["memory", "b"], "the exports")
    same(linked([object]).names(), ["memory"], "the exports without a word")


@row("an export name is that of the winner's own object")
def export_name_of_winner():
    first = Object().function("f", const(1), INT, WEAK).export("a", ("function", 0))
    second = Object().function("f", const(2), INT).export("b", ("function", 0))
    same(linked([first, second], "--export=f").names(), ["memory", "b"], "the exports")


@row("two exported symbols of a function that has an export name are a repeated export")
def repeated_export():
    object = Object().function("f", const(1), INT).alias("g", 0).export("a", ("function", 0))
    refused([object], "duplicate a: input 1 and input 1", "--export=f", "--export=g")
    taking = Object().function("h", const(2), INT).export("f", ("function", 0))
    refused([Object().function("f", const(1), INT), taking], "duplicate f: input 1 and input 2", "--export=h", "--export=f")
    memory = Object().function("h", const(2), INT).export("memory", ("function", 0))
    refused([memory], "duplicate memory: input 0 and input 1", "--export=h")
    refused([Object().function("memory")], "duplicate memory: input 0 and input 1", "--export=memory")
    same(linked([memory], "--export=h", "--import-memory").names(), ["memory"], "the exports")


@row("a repeated definition is told before a repeated export, which is told before an unresolved name")
def order_of_repeated():
    memory = Object().function("memory")
    refused([memory, Object().function("f"), Object().function("f")], "duplicate f: input 2 and input 3", "--export=memory")
    refused([memory], "duplicate memory: input 0 and input 1", "--export=memory", "--export=absent")


@row("functions that are imported from one place are one import")
def one_import():
    inputs = [explicit("p", "m", "f").function("a", call("p")), explicit("q", "m", "f").function("b", call("q"))]
    module = linked(inputs, "--export=a", "--export=b")
    same(module.imports, [("m", "f", "function", NOTHING)], "the imports")
    same((module.body("a")[2:7], module.body("b")[2:7]), (PADDED_ZERO, PADDED_ZERO), "the windows")
    calls(module, ("a", [], ["m.f"]), ("b", [], ["m.f"]))


@row("imports of one place and different types are two")
def two_types():
    inputs = [explicit("p", "m", "f").function("a", call("p")), explicit("q", "m", "f", INT).function("b", call("q"), INT)]
    module = linked(inputs, "--export=a", "--export=b")
    same(module.imports, [("m", "f", "function", NOTHING), ("m", "f", "function", INT)], "the imports")


@row("imports stand by the least entry of their names, functions before globals")
def order_of_imports():
    object = Object().needs_global("g", module="m", field="g").needs("z", module="m", field="z").needs("a", module="m", field="a")
    object.function("f", [call("a"), call("z"), global_get("g"), DROP])
    second = explicit("q", "m", "q").function("h", call("q"))
    module = linked([second, object], "--export=f", "--export=h")
    same([one[1:3] for one in module.imports], [("q", "function"), ("z", "function"), ("a", "function"), ("g", "global")], "the imports")
    same(module.body("f"), hexa("00 10 82 80 80 80 00 10 81 80 80 80 00 23 80 80 80 80 00 1A 0B"), "the body")


@row("an undefined function keeps its import's place, by the name that the importing object gives")
def explicit_everywhere():
    plain = Object().needs("g").function("f", call("g"))
    module = linked([plain, explicit("g", "m", "field")], "--export=f")
    same(module.imports, [("m", "field", "function", NOTHING)], "the imports")
    refused([plain], "input 1: unresolved g", "--export=f")


@row("a definition wins against an import")
def definition_before_import():
    module = linked([explicit("g", "m", "field").function("f", call("g")), Object().function("g")], "--export=f")
    same(module.imports, [], "the imports")


@row("an explicit import that is weak stays an import")
def weak_import():
    module = linked([Object().needs("g", module="m", field="x", flags=WEAK).function("f", call("g"))], "--export=f")
    same(module.imports, [("m", "x", "function", NOTHING)], "the imports")


@row("a program as a compiler of C writes it is linked, its import kept and its other sections dropped")
def small_program():
    exit_kind = ((I32,), ())
    object = Object().needs_memory().needs_table(symbol=False)
    object.needs_global("__stack_pointer").needs("__wasi_proc_exit", exit_kind, module="wasi_snapshot_preview1", field="proc_exit")
    object.symbol(TABLE, TABLE_NAME, UNDEFINED | NO_STRIP, ("import", 0))
    object.function("helper", const(7), INT, LOCAL)
    object.segment(hexa("05 00 00 00"), 2, ".data.counter").datum("counter", 0, flags=HIDDEN)
    object.segment(bytes(64), 4, ".bss.buffer").datum("buffer", 1, flags=LOCAL)
    code = [
        [global_get("__stack_pointer"), const(16), b"\x6B", b"\x22\x00", global_set("__stack_pointer")],
        [address("buffer"), [slot("helper"), call_indirect(INT, TABLE_NAME)], b"\x36\x02\x00"],
        [address("buffer"), LOAD, const(0), load("counter"), ADD, call("__wasi_proc_exit")],
        [b"\x20\x00", const(16), ADD, global_set("__stack_pointer")],
    ]
    object.function("_start", code, flags=0, locals=hexa("01 01 7F"))
    object.elements = hexa("01 00 41 01 0B 01 01")
    object.data_count = 2
    object.custom("producers", hexa("00")).custom("target_features", hexa("00"))
    module = linked([object], entry=True)
    same(module.imports, [("wasi_snapshot_preview1", "proc_exit", "function", exit_kind)], "the imports")
    same((module.names(), module.customs), (["memory", "_start"], []), "the exports and the custom sections")
    same(module.section_ids, [1, 2, 3, 4, 5, 6, 7, 9, 10, 11], "the sections")
    same(module.tables, [(0x70, (2, 2))], "the table")
    same(module.elements, [(0, ("i32", 1), [1])], "the elements")
    same(module.globals, [(I32, 1, ("i32", 66640))], "the stack pointer")
    same(module.types, [exit_kind, INT, NOTHING], "the types")
    body = "01 01 7F 23 80 80 80 80 00 41 10 6B 22 00 24 80 80 80 80 00 41 90 88 80 80 00 41 81 80 80 80 00 11 81 80 80 80 00 80 80 80 80 00 36 02 00"
    body += "41 90 88 80 80 00 28 02 00 41 00 28 02 80 88 80 80 00 6A 10 80 80 80 80 00 20 00 41 10 6A 24 80 80 80 80 00 0B"
    same(module.body("_start"), hexa(body), "the body")
    same(module.section(11), hexa("0B 0B 01 00 41 80 08 0B 04 05 00 00 00"), "the data section")
    calls(module, ("_start", [], ["wasi_snapshot_preview1.proc_exit"]))


@row("names exported if defined are exported where they are")
def if_defined():
    object = Object().function("f", const(1), INT).needs("g", INT, WEAK)
    same(linked([object], "--export-if-defined=f", "--export-if-defined=absent", "--export-if-defined=g").names(), ["memory", "f"], "the exports")
    same(linked([object], "--export-if-defined=__wasm_call_ctors").names(), ["memory", "__wasm_call_ctors"], "the exports")


@row("with --export-dynamic all definitions that are neither LOCAL nor HIDDEN are exported")
def dynamic():
    object = Object().function("a", const(1), INT).function("b", const(2), INT, HIDDEN).function("c", const(3), INT, LOCAL).data("d", b"\x01", 0)
    second = Object().function("w", const(4), INT, WEAK).own_global("g", 5).needs("x", module="m", field="x")
    module = linked([object, second], "--export-dynamic")
    same(module.names(), ["memory", "a", "d", "w", "g"], "the exports")
    same(len(module.bodies), 2, "the count of functions")
    calls(module, ("a", [], 1), ("w", [], 4))


@row("a winner that has EXPORTED is exported, a loser's flag counts for nothing")
def exported_flag():
    same(linked([Object().function("f", flags=EXPORTED).data("d", b"\x01", flags=EXPORTED | HIDDEN)]).names(), ["memory", "f", "d"], "the exports")
    same(linked([Object().function("f", flags=EXPORTED | WEAK), Object().function("f")]).names(), ["memory"], "the exports")


@row("exports stand by the input and the symbol of their winners, not by the words")
def order_of_exports():
    first = Object().function("z").data("y", b"\x01", 0)
    second = Object().function("b").function("a")
    words = [first, second], "--export=a", "--export=b", "--export=y", "--export=z", "--export=__heap_base", "--export=__wasm_call_ctors"
    same(linked(*words).names(), ["memory", "__wasm_call_ctors", "__heap_base", "z", "y", "b", "a"], "the exports")


@row("data are exported as constants behind the globals that live code names")
def exported_data():
    object = Object().own_global("g", 5).data("d", b"\x01", 0).function("f", global_get("g"), INT).data("e", b"\x02", 0)
    module = linked([object], "--export=e", "--export=f", "--export=d")
    same(module.globals, [(I32, 1, ("i32", 5)), (I32, 0, ("i32", 1024)), (I32, 0, ("i32", 1025))], "the globals")
    same(module.exports[1:], [("d", 3, 1), ("f", 0, 0), ("e", 3, 2)], "the exports")


@row("a datum inside of a segment, and one at its end, have their offsets")
def offsets():
    object = Object().segment(hexa("01 02 03 04"), 2).datum("a", 0, 2, 1).datum("b", 0, 4, 0).datum("c", 0, 0, 4)
    module = linked([object], "--export=a", "--export=b", "--export=c")
    same([module.value(title) for title in "abc"], [1026, 1028, 1024], "the addresses")


@row("an object's globals are exported with their values and types")
def exported_globals():
    module = linked([Object().own_global("g", -2).own_global("h", 2**40, kind=I64, var=False)], "--export=g", "--export=h")
    same(module.globals, [(I32, 1, ("i32", 0xFFFFFFFE)), (I64, 0, ("i64", 2**40))], "the globals")
    same(module.exports[1:], [("g", 3, 0), ("h", 3, 1)], "the exports")


@row("the table is exported where that is asked")
def export_table():
    for words in (["--export-table"], ["--export=" + TABLE_NAME], ["--export-if-defined=" + TABLE_NAME]):
        module = linked([Object().function("f", slot("f"), INT)], "--export=f", *words)
        same(module.exports, [("memory", 2, 0), (TABLE_NAME, 1, 0), ("f", 0, 0)], "the exports")


@row("linker-made globals are there where they are used, in their order, before an object's")
def made_globals():
    object = Object().own_global("g", 1).needs_global("__table_base", var=False).needs_global("__memory_base", var=False).needs_global("__stack_pointer")
    object.function("f", [global_get("__table_base"), global_get("__memory_base"), ADD, global_get("__stack_pointer"), ADD, global_get("g"), ADD], INT)
    module = linked([object], "--export=f")
    same(module.globals, [(I32, 1, ("i32", 66560)), (I32, 0, ("i32", 0)), (I32, 0, ("i32", 0)), (I32, 1, ("i32", 1))], "the globals")
    calls(module, ("f", [], 66561))
    same(linked([Object()], "--export=__memory_base").exports[1:], [("__memory_base", 3, 0)], "the exports")


@row("an object's global is spelled as short as possible, and numbers in bodies keep their bytes")
def spellings():
    long_numbers = hexa("41 80 80 00 1A 20 80 00")
    long_table_number = [b"\x11", Window(TYPE_INDEX_LEB, NOTHING), b"\x80\x00"]
    object = Object().function("f", long_numbers, ((I32,), (I32,))).function("g", [const(1), long_table_number])
    object.own_global("h")
    object.globals[0] = hexa("7F 01 41 87 80 00 0B")
    module = linked([object], "--export=f", "--export=g", "--export=h")
    same(module.section(6), hexa("06 06 01 7F 01 41 07 0B"), "the global section")
    same(module.body("f"), hexa("00 41 80 80 00 1A 20 80 00 0B"), "the body")
    same(module.body("g"), hexa("00 41 01 11 81 80 80 80 00 80 00 0B"), "the body")


@row("slots go by the functions' numbers, however their addresses are taken")
def slots():
    object = explicit("i", "m", "i").function("c", const(3), INT).function("b", const(2), INT).function("unused", const(0), INT).function("a", const(1), INT)
    object.data("p", [slot_word("a"), slot_word("i")])
    object.function("f", [slot("c"), address("p"), LOAD, ADD, relative_slot("b"), ADD], INT)
    module = linked([object], "--export=f")
    same(module.elements, [(0, ("i32", 1), [0, 1, 2, 3])], "the elements")
    same((module.word_at(1024), module.word_at(1028)), (4, 1), "the words of data")
    same(module.body("f"), hexa("00 41 82 80 80 80 00 41 80 88 80 80 00 28 02 00 6A 41 83 80 80 80 00 6A 0B"), "the body")
    same(module.tables, [(0x70, (5, 5))], "the table")
    calls(module, ("f", [], 9))


@row("a function that is called through the table gives what it gives")
def through_table():
    unary = ((I32,), (I32,))
    object = Object().needs_table().function("double", [b"\x20\x00\x20\x00", ADD], unary).function("square", [b"\x20\x00\x20\x00\x6C"], unary)
    object.data("p", [slot_word("double"), slot_word("square")])
    object.function("f", [b"\x20\x01", b"\x20\x00", const(2), b"\x74", load("p"), call_indirect(unary, TABLE_NAME)], ((I32, I32), (I32,)))
    module = linked([object], "--export=f")
    calls(module, ("f", [0, 7], 14), ("f", [1, 7], 49), ("f", [2, 7], Trap("null")))


@row("constants that hold an address or a slot are made once for each definition, in the order of live code")
def made_constants():
    object = Object().data("d", b"\x01", 0).data("e", b"\x02", 0).function("g", const(5), INT).needs("n", flags=WEAK).needs_datum("m", WEAK)
    object.function("dead", global_get("e"), INT)
    object.function("f", [global_get("g"), global_get("d"), ADD, global_get("g"), ADD, global_get("n"), ADD, global_get("m"), ADD], INT)
    module = linked([object], "--export=f")
    same([one[2] for one in module.globals], [("i32", 1), ("i32", 1024), ("i32", 0), ("i32", 0)], "the globals")
    body = "00 23 80 80 80 80 00 23 81 80 80 80 00 6A 23 80 80 80 80 00 6A 23 82 80 80 80 00 6A 23 83 80 80 80 00 6A 0B"
    same(module.body("f"), hexa(body), "the body")
    calls(module, ("f", [], 1026))


@row("two symbols of one function have a constant each, and both hold its slot")
def constants_of_aliases():
    object = Object().function("g", const(5), INT).alias("h", 0).function("f", [global_get("g"), global_get("h"), b"\x46"], INT)
    module = linked([object], "--export=f")
    same([one[2] for one in module.globals], [("i32", 1), ("i32", 1)], "the globals")
    calls(module, ("f", [], 1))


@row("types stand once, those of imports first, then those of functions, then those that code names")
def order_of_types():
    kinds = {title: ((I32,) * count, ()) for count, title in enumerate("abcd")}
    object = explicit("i", "m", "i", kinds["c"]).needs_table()
    object.function("dead", kind=((I64,), ()))
    indirect = [[const(0)] * 4, call_indirect(kinds["d"], TABLE_NAME), [const(0)] * 3, call_indirect(kinds["c"], TABLE_NAME)]
    object.function("f", [const(0), const(0), call("i"), indirect], kinds["b"])
    object.function("g", kind=kinds["a"]).function("h", kind=kinds["b"])
    module = linked([object], "--export=h", "--export=g", "--export=f")
    same(module.types, [kinds["c"], kinds["b"], kinds["a"], kinds["d"]], "the types")
    same(module.functions, [1, 2, 1], "the functions' types")
    same(module.body("f")[-28:-23] + module.body("f")[-11:-6], hexa("83 80 80 80 00 80 80 80 80 00"), "the windows")


@row("a stub has the type of its function, one for each name that live code calls")
def stubs():
    unary = ((I64,), (I32,))
    object = Object().needs("a", unary, WEAK).needs("b", NOTHING, WEAK).needs("c", NOTHING, WEAK)
    object.function("f", [call("b"), hexa("42 00"), call("a"), DROP, call("b")]).function("dead", call("c"))
    module = linked([object], "--export=f")
    same(module.bodies[:2], [hexa("00 00 0B")] * 2, "the stubs")
    same(([module.type_of(index) for index in (0, 1)], len(module.bodies)), ([unary, NOTHING], 3), "the stubs' types")
    same(module.body("f"), hexa("00 10 81 80 80 80 00 42 00 10 80 80 80 80 00 1A 10 81 80 80 80 00 0B"), "the body")


@row("the function of constructors stands before stubs, and these before an object's functions")
def order_of_functions():
    object = Object().function("f", call("w")).needs("w", flags=WEAK).needs("i", module="m", field="i").function("g", call("i"))
    module = linked([object], "--export=f", "--export=g", "--export=__wasm_call_ctors")
    same(module.exports[1:], [("__wasm_call_ctors", 0, 1), ("f", 0, 3), ("g", 0, 4)], "the exports")
    same(module.body("f"), hexa("00 10 82 80 80 80 00 0B"), "the body")
