"""Which definition a name has, and the cases where it has none or too many."""

from objects import *
from program import Trap, calls, holds, linked, refused, row, same
from samples import CALL_MODULE, CALL_OBJECT, EMPTY_MODULE


def giving(number, flags=0, title="f"):
    """A function that gives a number."""
    return Object().function(title, const(number), INT, flags)


def other(number):
    """An object that has nothing to do with f."""
    return Object().function("other%d" % number, const(number), INT)


@row("a function that calls another is linked, byte for byte")
def one_call():
    holds(len(CALL_OBJECT) == 79, "the object has 79 bytes")
    module = linked([CALL_OBJECT], "--export=f")
    same(module.data, CALL_MODULE, "the module")
    calls(module, ("f", [], 7))


@row("the builder of these rows makes the same object but for the window's content")
def built_alike():
    object = Object().function("f", call("g"), INT).function("g", const(7), INT)
    same(object.bytes().replace(PADDED_ZERO, hexa("8180808000")), CALL_OBJECT, "the object")
    same(linked([object], "--export=f").data, CALL_MODULE, "the module")


@row("an object without symbols gives a table of one empty slot and a memory of two pages")
def nothing():
    same(Object().bytes(), HEADER + hexa("00 0C 07 6C 69 6E 6B 69 6E 67 02 08 01 00"), "the object")
    same(linked([Object()]).data, EMPTY_MODULE, "the module")


@row("a strong definition wins against a weak one, before it or after it")
def strong_wins():
    for inputs in ([giving(2, WEAK), giving(1)], [giving(1), giving(2, WEAK)]):
        module = linked(inputs, "--export=f")
        same(module.bodies, [hexa("00 41 01 0B")], "the functions")
        calls(module, ("f", [], 1))


@row("of two weak definitions the earlier input's wins")
def first_weak():
    module = linked([giving(2, WEAK), giving(3, WEAK)], "--export=f")
    same(module.bodies, [hexa("00 41 02 0B")], "the functions")
    calls(module, ("f", [], 2))


@row("two strong definitions of a name are a duplicate, and nothing is saved")
def duplicate():
    inputs = [other(1), giving(1), other(3), other(4), giving(2)]
    refused(inputs, "duplicate f: input 2 and input 5", "--export=f")
    refused(inputs, "duplicate f: input 2 and input 5")


@row("the third definition of a name is told with the first one where the second is weak")
def duplicate_behind_weak():
    refused([giving(1), giving(2, WEAK), giving(3)], "duplicate f: input 1 and input 3")
    refused([giving(3, WEAK), giving(1), giving(2), giving(4)], "duplicate f: input 2 and input 3")


@row("a LOCAL definition is no entry of its name")
def local_apart():
    first = Object().function("f", const(1), INT, LOCAL).function("a", call("f"), INT)
    module = linked([first, giving(2)], "--export=f", "--export=a")
    calls(module, ("f", [], 2), ("a", [], 1))


@row("a reference and a definition of different types clash, also in dead code")
def clash_of_types():
    first = Object().needs("g", ((I32,), ())).function("dead", [const(0), call("g")])
    second = Object().function("g")
    refused([first, second], "clash of g: input 1 and input 2")
    refused([second, first], "clash of g: input 1 and input 2")


@row("a reference and a definition of different kinds clash")
def clash_of_kinds():
    refused([Object().needs("g"), Object().data("g", bytes(4))], "clash of g: input 1 and input 2")
    refused([Object().needs_datum("g"), Object().own_global("g")], "clash of g: input 1 and input 2")


@row("globals of different types clash")
def clash_of_globals():
    refused([Object().needs_global("g"), Object().own_global("g", var=False)], "clash of g: input 1 and input 2")
    refused([Object().needs_global("g"), Object().own_global("g", kind=I64)], "clash of g: input 1 and input 2")


@row("explicit imports of one name from different places clash")
def clash_of_imports():
    first = Object().needs("g", module="m", field="f")
    refused([first, Object().needs("g", module="m", field="h")], "clash of g: input 1 and input 2")
    refused([first, Object().needs("g", module="n", field="f")], "clash of g: input 1 and input 2")
    linked([first, Object().needs("g", module="m", field="f")])


@row("the least clashing entry is told with the input of the name's least entry")
def least_clash():
    first = Object().needs("z").needs("g")
    second = Object().needs("g").needs("z")
    third = Object().needs("g", INT).needs("z", INT)
    refused([first, second, third, third], "clash of g: input 1 and input 3")


@row("a symbol of a linker-made name with another kind clashes with input 0")
def clash_with_made():
    refused([Object().needs("__heap_base")], "clash of __heap_base: input 0 and input 1")
    refused([Object().needs_global("__stack_pointer", var=False)], "clash of __stack_pointer: input 0 and input 1")


@row("a definition of a strong linker-made name is a duplicate, one of a linker-made datum wins")
def definition_of_made():
    refused([Object().function("__wasm_call_ctors")], "duplicate __wasm_call_ctors: input 0 and input 1")
    refused([Object().own_global("__stack_pointer")], "duplicate __stack_pointer: input 0 and input 1")
    module = linked([Object().data("__heap_base", hexa("07 00 00 00"))], "--export=__heap_base")
    same(module.value("__heap_base"), 1024, "the address")
    module = linked([Object().data("__heap_base", hexa("07 00 00 00"), flags=WEAK)], "--export=__heap_base")
    same(module.value("__heap_base"), 1024, "the address")


@row("a clash is told before a duplicate, and a duplicate before an unresolved name")
def order_of_faults():
    twice = [giving(1), giving(2)]
    refused([*twice, Object().needs("g"), Object().needs("g", INT)], "clash of g: input 3 and input 4", "--export=absent")
    refused(twice, "duplicate f: input 1 and input 2", "--export=absent")


@row("an undefined function that dead code alone calls is no fault")
def dead_reference():
    module = linked([Object().needs("x").function("dead", call("x")).function("f")], "--export=f")
    same((module.imports, module.names()), ([], ["memory", "f"]), "the imports and exports")


@row("an undefined function that live code calls is unresolved")
def unresolved():
    refused([Object().needs("x").function("f", call("x"))], "input 1: unresolved x", "--export=f")


@row("an undefined function is imported from env where that is allowed")
def allowed():
    module = linked([Object().needs("x").function("f", call("x"))], "--export=f", "--allow-undefined")
    same(module.imports, [("env", "x", "function", NOTHING)], "the imports")
    same(module.body("f"), hexa("00 10 80 80 80 80 00 0B"), "the body")
    calls(module, ("f", [], ["env.x"]))


@row("an undefined global is imported where that is allowed, an undefined datum isn't")
def allowed_others():
    module = linked([Object().needs_global("g").function("f", global_get("g"), INT)], "--export=f", "--allow-undefined")
    same(module.imports, [("env", "g", "global", (I32, 1))], "the imports")
    same(module.body("f"), hexa("00 23 80 80 80 80 00 0B"), "the body")
    refused([Object().needs_datum("d").function("f", address("d"), INT)], "input 1: unresolved d", "--export=f", "--allow-undefined")


@row("the least unresolved symbol is told, by input and then by its place")
def least_unresolved():
    first = Object().needs("y").needs("x").function("f", [call("x"), call("y")])
    second = Object().needs("a").function("g", call("a"))
    refused([first, second], "input 1: unresolved y", "--export=f", "--export=g")


@row("an asked name without a definition belongs to input 0, the entry first and then names in word order")
def asked_names():
    object = Object().needs("x").function("f", call("x"))
    refused([object], "input 0: unresolved h", "--export=f", "--export=h", "--export=g")
    refused([object], "input 0: unresolved _start", "--export=h", entry=True)
    refused([object], "input 0: unresolved main", "--export=h", "--entry=main", entry=True)
    refused([object], "input 0: unresolved x", "--export=x")


@row("a weak undefined function is null: a call traps in a stub, its address is 0, and an indirect call of that traps")
def null_function():
    object = (
        Object()
        .needs_table()
        .needs("g", flags=WEAK)
        .function("calls", call("g"))
        .function("takes", slot("g"), INT)
        .function("calls_indirectly", [slot("g"), call_indirect(NOTHING, "__indirect_function_table")])
    )
    module = linked([object], "--export=calls", "--export=takes", "--export=calls_indirectly")
    same(module.imports, [], "the imports")
    same(len(module.bodies), 4, "the count of functions")
    same(module.body_of(0), hexa("00 00 0B"), "the stub")
    same(module.type_of(0), NOTHING, "the stub's type")
    same(module.body("calls"), hexa("00 10 80 80 80 80 00 0B"), "the body that calls")
    same(module.body("takes"), hexa("00 41 80 80 80 80 00 0B"), "the body that takes the address")
    calls(module, ("calls", [], Trap("unreachable")), ("takes", [], 0), ("calls_indirectly", [], Trap("null")))


@row("the address of a weak undefined datum is 0, without the addend")
def null_datum():
    object = Object().needs_datum("d", WEAK).data("p", word("d", 8))
    object.function("f", address("d", 4), INT).function("g", [address("p"), LOAD], INT)
    module = linked([object], "--export=f", "--export=g")
    same(module.body("f"), hexa("00 41 80 80 80 80 00 0B"), "the body")
    calls(module, ("f", [], 0), ("g", [], 0))


@row("a weak undefined function stays null where others may be imported, but is imported where a strong reference is too")
def weak_and_allowed():
    weak = Object().needs("g", flags=WEAK).function("f", call("g"))
    same(linked([weak], "--export=f", "--allow-undefined").imports, [], "the imports")
    strong = Object().needs("g").function("h", call("g"))
    module = linked([weak, strong], "--export=f", "--export=h", "--allow-undefined")
    same(module.imports, [("env", "g", "function", NOTHING)], "the imports")
    calls(module, ("f", [], ["env.g"]), ("h", [], ["env.g"]))


@row("of a weak and a strong reference without a definition the strong one is unresolved")
def weak_and_strong():
    weak = Object().needs("g", flags=WEAK).function("f", call("g"))
    strong = Object().needs("g").function("h", call("g"))
    calls(linked([weak, strong], "--export=f"), ("f", [], Trap("unreachable")))
    refused([weak, strong], "input 2: unresolved g", "--export=f", "--export=h")


@row("a weak undefined global is unresolved, and isn't imported for weak references alone")
def weak_global():
    weak = Object().needs_global("g", flags=WEAK).function("f", global_get("g"), INT)
    refused([weak], "input 1: unresolved g", "--export=f")
    refused([weak], "input 1: unresolved g", "--export=f", "--allow-undefined")
    strong = Object().needs_global("g")
    same(linked([weak, strong], "--export=f", "--allow-undefined").imported("global"), [("env", "g")], "the imports")


@row("an undefined name is imported by the place that its least reference names")
def least_place():
    first = Object().needs("g", module="first").function("f", call("g"))
    second = Object().needs("g", module="second").function("h", call("g"))
    same(linked([first, second], "--export=h", "--allow-undefined").imported("function"), [("first", "g")], "the imports")
    refused([first], "input 1: unresolved g", "--export=f")


@row("the least explicit import of a name counts, where the least entry has none")
def least_explicit():
    plain = Object().needs("g").function("f", call("g"))
    inputs = [plain, Object().needs("g", module="m", field="first"), Object().needs("g", module="m", field="second")]
    for words in ([], ["--allow-undefined"]):
        same(linked(inputs, "--export=f", *words).imported("function"), [("m", "first")], "the imports")


@row("a LOCAL symbol that is undefined means what its name means")
def local_undefined():
    object = Object().needs("g", INT, LOCAL).function("f", call("g"), INT)
    calls(linked([object, giving(4, title="g")], "--export=f"), ("f", [], 4))
    refused([object], "input 1: unresolved g", "--export=f")
    refused([Object().needs("g", flags=LOCAL), giving(4, title="g")], "clash of g: input 1 and input 2")


@row("a weak reference means the definition where there is one")
def weak_reference():
    module = linked([Object().needs("g", INT, WEAK).function("f", call("g"), INT), giving(5, title="g")], "--export=f")
    calls(module, ("f", [], 5))


@row("a name of any bytes is told byte by byte")
def odd_names():
    refused([Object()], "input 0: unresolved a\\x20b\\x5C\\xC3\\xA4!~\\x7F", "--export=a b\\ä!~\x7f")
    refused([Object()], "input 0: unresolved ", "--export=")
