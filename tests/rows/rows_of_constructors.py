"""The function that calls the init functions."""

from objects import *
from program import calls, linked, refused, row, same

CTORS = "__wasm_call_ctors"


def telling(*titles):
    """A function for each name, which calls the import of its name in capitals."""
    object = Object()
    for title in titles:
        object.needs(title.upper(), field=title.upper())
    for title in titles:
        object.function(title, call(title.upper()), flags=HIDDEN)
    return object


@row("init functions are called by rising priority, then by input, then by their place")
def order():
    first = telling("p", "q").init(200, "p").init(100, "q")
    module = linked([first, telling("r").init(100, "r")], "--export=" + CTORS)
    kind, index = module.export(CTORS)
    same(index, 3, "its number, behind the imports")
    same(module.body(CTORS), hexa("00 10 85 80 80 80 00 10 86 80 80 80 00 10 84 80 80 80 00 0B"), "its body")
    calls(module, (CTORS, [], ["env.Q", "env.R", "env.P"]))


@row("init functions of equal priority keep their places in one input")
def ties():
    module = linked([telling("a", "b", "c").init(7, "c").init(7, "a").init(6, "b")], "--export=" + CTORS)
    calls(module, (CTORS, [], ["env.B", "env.C", "env.A"]))


@row("priorities are numbers without a sign, and an entry may stand twice")
def priorities():
    object = telling("a", "b").init(4294967295, "a").init(0, "b").init(0, "b").init(2147483648, "b")
    calls(linked([object], "--export=" + CTORS), (CTORS, [], ["env.B", "env.B", "env.B", "env.A"]))


@row("without init functions its body is empty")
def empty():
    module = linked([Object()], "--export=" + CTORS)
    same(module.body(CTORS), hexa("00 0B"), "its body")
    same(module.names(), ["memory", CTORS], "the exports")
    calls(module, (CTORS, [], None))


@row("where nothing asks for it, it isn't there, and init functions are dead")
def not_asked():
    module = linked([telling("a").init(1, "a")])
    same((module.bodies, module.imports), ([], []), "the functions")


@row("a function may call it")
def called():
    start = Object().needs(CTORS).function("_start", call(CTORS))
    module = linked([start, telling("a").init(1, "a")], entry=True)
    same(module.body_of(1), hexa("00 10 83 80 80 80 00 0B"), "its body")
    calls(module, ("_start", [], ["env.A"]))


@row("an init entry calls what its name means, also in another input")
def meaning_of_entry():
    weak = Object().needs("one", field="one").function("a", call("one"), flags=WEAK).init(1, "a")
    strong = Object().needs("two", field="two").function("a", call("two"))
    calls(linked([weak, strong], "--export=" + CTORS), (CTORS, [], ["env.two"]))
    needing = Object().needs("a").init(1, "a")
    calls(linked([needing, strong], "--export=" + CTORS), (CTORS, [], ["env.two"]))


@row("an init entry without a definition is unresolved where the function is live")
def unresolved_entry():
    needing = Object().needs("a").init(1, "a")
    refused([needing], "input 1: unresolved a", "--export=" + CTORS)
    linked([needing])
    linked([Object().needs("a", flags=WEAK).init(1, "a")], "--export=" + CTORS)


@row("an init function of a group that isn't kept is skipped")
def skipped():
    def member():
        return Object().function("init", const(1) + DROP, flags=LOCAL).group("g", [0]).init(5, "init")

    module = linked([member(), member()], "--export=" + CTORS)
    same((len(module.bodies), module.body(CTORS)), (2, hexa("00 10 81 80 80 80 00 0B")), "the functions and the body")
    calls(module, (CTORS, [], None))
