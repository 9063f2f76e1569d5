"""Shared outputs: position-independent modules with the section dylink.0, which a loader places (DynamicLinking.md)."""

from modules import Module, Reader
from objects import *
from program import NODE, answers, holds, node, row, run_alike, same
from samples import CALL_OBJECT

BASES = [("env", "__stack_pointer"), ("env", "__memory_base"), ("env", "__table_base")]


def shared(object, *words):
    """The shared output of one object, with any number of workers; it is valid."""
    files = {"a.o": object if isinstance(object, bytes) else object.bytes()}
    ended = run_alike(["a.o", "-o", "out", "-shared", *words], files)
    same((ended.status, ended.printed), (0, ""), "the status and the line")
    module = ended.files.pop("out")
    same(ended.files, files, "the files that were given")
    if NODE:
        holds(node({"module": module})["valid"], "the module is valid")
    return Module(module)


def not_shared(object, line, *words):
    files = {"a.o": object.bytes()}
    ended = run_alike(["a.o", "-o", "out", "-shared", *words], files)
    same((ended.status, ended.printed, ended.files), (1, "wasmld: %s\n" % line, files), "the answer")


def imported_globals(module):
    return module.imported("global")


@row("a pointer to an own datum and one to a foreign one are words that are stored when the module is loaded, byte for byte")
def pointers():
    object = Object().data("d", [word("at"), word("x")], align=2).datum("at", 0, 4, 4, LOCAL).needs_datum("x")
    module = shared(object, "--export=d")
    same(module.data[8:25], hexa("00 0F 08 64 79 6C 69 6E 6B 2E 30 01 04 08 02 00 00"), "the section dylink.0")
    same(imported_globals(module), [*BASES, ("GOT.mem", "x")], "the imported globals")
    stored = (
        "00 23 81 80 80 80 00 41 80 80 80 80 00 6A 23 81 80 80 80 00 41 84 80 80 80 00 6A 36 02 00 "
        "23 81 80 80 80 00 41 84 80 80 80 00 6A 23 83 80 80 80 00 41 80 80 80 80 00 6A 36 02 00 0B"
    )
    same(module.body("__wasm_apply_data_relocs"), hexa(stored), "the body that stores them")
    same(module.export("d")[0], 3, "the datum is exported as a global")
    same(module.globals[-1], (0x7F, 0, ("i32", 0)), "which holds its offset")


@row("a generated case isn't position-independent, and the first reference that isn't is told")
def case():
    answers(["--make-case=2", "-shared"], 1, "wasmld: input 1: symbol 2: relocation 4 is not position-independent")


@row("a shared output without data has an empty memory of its loader, and exports nothing by itself")
def no_data():
    module = shared(CALL_OBJECT)
    same(module.data[8:25], hexa("00 0F 08 64 79 6C 69 6E 6B 2E 30 01 04 00 00 00 00"), "the section dylink.0")
    same([form for _, _, kind, form in module.imports if kind == "memory"], [(0, None)], "the memory's limits")
    same(module.exports, [], "the exports")


@row("the words of a shared output: no value, no partial link beside it, and an entry only where one is given")
def words():
    files = {"a.o": CALL_OBJECT}
    answers(["a.o", "-o", "out", "-shared=1"], 2, "wasmld: usage: UnknownOption at word 3", files)
    answers(["a.o", "-o", "r", "-r", "-shared"], 2, "wasmld: usage: PartialClash", files)
    same(shared(CALL_OBJECT, "--entry=f").names(), ["f"], "the exports")


@row("options that place the memory of a plain output have no effect on a shared one")
def no_effect():
    object = Object().data("d", [bytes(8)], align=3).function("f", const(1), INT)
    placed = shared(object, "--export=d", "--export=f", "--stack-first", "-z", "stack-size=16", "--global-base=4096", "--initial-memory=131072", "--max-memory=196608", "--import-memory", "--allow-undefined")
    same(placed.data, shared(object, "--export=d", "--export=f").data, "the module")


@row("a foreign function is imported where it is called, and its cell where its address is used")
def foreign_functions():
    object = Object().needs("called").needs("asked")
    object.function("f", call("called")).function("g", [global_get("asked"), DROP])
    module = shared(object, "--export=f", "--export=g")
    same(module.imported("function"), [("env", "called")], "the imported functions")
    same(imported_globals(module), [*BASES, ("GOT.func", "asked")], "the imported globals")


@row("a foreign datum is read through its cell, and an own one too where code asks for its cell")
def foreign_data():
    object = Object().data("own", [bytes(4)]).needs_datum("far")
    object.function("f", [global_get("far"), DROP, global_get("own"), DROP])
    module = shared(object, "--export=f")
    same(imported_globals(module), [*BASES, ("GOT.mem", "far")], "the imported globals")
    same(len(module.globals), 1, "the cells of its own")
    same(module.body("f"), hexa("00 23 83 80 80 80 00 1A 23 84 80 80 80 00 1A 0B"), "the body")


@row("a relative address of a foreign datum isn't position-independent")
def relative_foreign():
    object = Object().needs_datum("far").function("f", [relative_address("far"), DROP])
    not_shared(object, "input 1: symbol 0: relocation 11 is not position-independent", "--export=f")


@row("slots count from the table's base")
def slots():
    object = Object().function("f", [relative_slot("g"), DROP]).function("g")
    module = shared(object, "--export=f")
    same(module.elements, [(0, ("global", 2), [module.export("f")[1] + 1])], "the elements")
    same(module.body("f"), hexa("00 41 80 80 80 80 00 1A 0B"), "the body")
    same(module.data[8:25], hexa("00 0F 08 64 79 6C 69 6E 6B 2E 30 01 04 00 00 01 00"), "the section dylink.0")


def may_be_absent(module):
    """The imports that the section dylink.0 tells as such."""
    payloads = dict(module.customs)
    parts, infos = Reader(payloads["dylink.0"]), []
    while not parts.done():
        kind, part = parts.byte(), Reader(parts.take(parts.u32()))
        if kind == 4:
            infos = part.vector(lambda: (part.name(), part.name(), part.u32()))
    same([flags for _, _, flags in infos], [1] * len(infos), "the flags")
    return [(module, field) for module, field, _ in infos]


@row("an import may be absent where live parts use it by a WEAK name: a function that is called, a global, the cell of an address")
def weak_uses():
    object = Object().needs("called", flags=WEAK).needs("asked", flags=WEAK).needs_global("g", flags=WEAK).needs_datum("x", WEAK).needs("s")
    object.data("d", [word("x")]).function("f", [call("called"), call("s"), global_get("asked"), DROP, global_get("g"), DROP])
    module = shared(object, "--export=f", "--export=d")
    same(may_be_absent(module), [("env", "called"), ("GOT.func", "asked"), ("GOT.mem", "x"), ("env", "g")], "the imports")
    same(module.imported("function"), [("env", "called"), ("env", "s")], "the imported functions")


@row("an import isn't told to be absent for a WEAK name that no live part uses, where a strong name uses it, or the linker does")
def weak_unused():
    object = Object().needs_global("sp", flags=WEAK, field="__stack_pointer").function("f")
    same(may_be_absent(shared(object, "--export=f")), [], "beside the stack pointer")
    object = Object().needs("s", module="m", field="i").needs("w", flags=WEAK, module="m", field="i").function("f", call("s"))
    same(may_be_absent(shared(object, "--export=f")), [], "beside a function that is called")
    object = Object().needs_global("s", module="m", field="i").needs_global("w", flags=WEAK, module="m", field="i").function("f", [global_get("s"), DROP])
    same(may_be_absent(shared(object, "--export=f")), [], "beside a global")
    object = Object().needs_datum("x").needs_global("w", flags=WEAK, module="GOT.mem", field="x").function("f", [global_get("x"), DROP])
    same(may_be_absent(shared(object, "--export=f")), [], "beside the cell of a datum")
