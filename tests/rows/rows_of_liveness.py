"""What is kept: all that the entry and the exports lead to."""

from objects import *
from program import linked, refused, row, same


def chain():
    """f calls g, g calls h; d calls h, and nothing refers to d."""
    return Object().function("f", call("g")).function("g", call("h")).function("h").function("d", call("h"))


@row("a function that nothing leads to is dropped, and kept with --no-gc-sections")
def dropped():
    same(len(linked([chain()], "--export=f").bodies), 3, "the count of functions")
    same(len(linked([chain()], "--export=f", "--no-gc-sections").bodies), 4, "the count of functions")
    same(len(linked([chain()], "--export=f", "--no-gc-sections", "--gc-sections").bodies), 3, "the count of functions")
    same(len(linked([chain()], "--export=f", "--gc-sections", "--no-gc-sections").bodies), 4, "the count of functions")


@row("functions that lead to one another alone are dropped")
def dead_circle():
    object = Object().function("a", call("b")).function("b", call("a")).function("f")
    same(len(linked([object], "--export=f").bodies), 1, "the count of functions")


@row("functions that call themselves and one another end")
def live_circle():
    object = Object().function("a", [call("b"), call("a")]).function("b", call("a"))
    same(len(linked([object], "--export=a").bodies), 2, "the count of functions")


@row("a segment that has RETAIN is placed, though nothing refers to it")
def retained():
    module = linked([Object().segment(b"\x07", 0, "kept", RETAIN).segment(b"\x08", 0, "dropped")])
    same(module.image(), {1024: 7}, "the data")


@row("a retained segment keeps what its windows name")
def retained_windows():
    object = Object().needs_table().function("f", const(1), INT).segment(slot_word("f"), 2, "kept", RETAIN)
    module = linked([object])
    same((len(module.bodies), module.word_at(1024)), (1, 1), "the functions and the word")


@row("a winner that has NO_STRIP is kept but isn't exported")
def no_strip():
    module = linked([Object().function("f", const(1), INT, NO_STRIP).function("g", const(2), INT)])
    same((module.bodies, module.names()), ([hexa("00 41 01 0B")], ["memory"]), "the functions and exports")


@row("NO_STRIP keeps data and globals, but no LOCAL symbol")
def no_strip_of_others():
    object = Object().data("d", b"\x07", 0, NO_STRIP).own_global("g", 5, flags=NO_STRIP).function("l", flags=NO_STRIP | LOCAL)
    module = linked([object])
    same((module.image(), module.globals, module.bodies), ({1024: 7}, [(I32, 1, ("i32", 5))], []), "what is kept")


@row("the function of constructors isn't kept by --no-gc-sections alone")
def constructors_not_kept():
    module = linked([Object().function("f", const(1) + DROP).init(1, "f")], "--no-gc-sections")
    same(module.bodies, [hexa("00 41 01 1A 0B")], "the functions")


@row("NO_STRIP of a definition that loses counts for nothing")
def no_strip_of_loser():
    module = linked([Object().function("f", const(1), INT, WEAK | NO_STRIP), Object().function("f", const(2), INT)])
    same(module.bodies, [], "the functions")


@row("data lead to data and to functions, and functions to data")
def through_data():
    object = (
        Object()
        .needs_table()
        .data("a", word("b"))
        .data("b", slot_word("g"))
        .data("c", b"\x05\x00\x00\x00")
        .data("dead", b"\x09\x00\x00\x00")
        .function("g", address("c"), INT)
        .function("unused", address("dead"), INT)
        .function("f", address("a"), INT)
    )
    module = linked([object], "--export=f")
    same(len(module.bodies), 2, "the count of functions")
    same([module.word_at(1024), module.word_at(1028), module.word_at(1032)], [1028, 1, 5], "the words of data")
    same(len(module.image()), 12, "the bytes of data")


@row("an object's globals are kept where live code names them")
def globals_live():
    object = Object().own_global("a", 1).own_global("b", 2).own_global("c", 3).function("f", global_get("b"), INT).function("g", global_get("c"), INT)
    module = linked([object], "--export=f")
    same(module.globals, [(I32, 1, ("i32", 2))], "the globals")
    same(module.body("f"), hexa("00 23 80 80 80 80 00 0B"), "the body")
    same(len(linked([object], "--export=f", "--no-gc-sections").globals), 3, "the count of globals")


@row("a definition that loses its name is dropped, and kept with --no-gc-sections")
def loser():
    inputs = [Object().function("f", const(1), INT, WEAK), Object().function("f", const(2), INT)]
    same(linked(inputs, "--export=f").bodies, [hexa("00 41 02 0B")], "the functions")
    same(linked(inputs, "--export=f", "--no-gc-sections").bodies, [hexa("00 41 01 0B"), hexa("00 41 02 0B")], "the functions")


@row("imports that dead code alone names aren't imported")
def dead_imports():
    object = Object().needs("x", field="x").needs("y", field="y").function("f", call("y")).function("dead", call("x"))
    same(linked([object], "--export=f").imported("function"), [("env", "y")], "the imports")
    same(linked([object], "--export=f", "--no-gc-sections").imported("function"), [("env", "x"), ("env", "y")], "the imports")


@row("with --no-gc-sections an unresolved name in any function is a fault")
def all_unresolved():
    object = Object().needs("x").function("f").function("dead", call("x"))
    linked([object], "--export=f")
    refused([object], "input 1: unresolved x", "--export=f", "--no-gc-sections")
    refused([object], "input 1: unresolved x", "--no-gc-sections")
