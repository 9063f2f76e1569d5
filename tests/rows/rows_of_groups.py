"""COMDAT groups: one copy of what several inputs have."""

from objects import *
from program import Trap, calls, linked, refused, row, same


def sharing(place):
    """The group of a weak function and its datum, and a function that uses both."""
    return (
        Object()
        .data("d", (10 * place).to_bytes(4, "little"), flags=WEAK)
        .function("w", const(place), INT, WEAK)
        .group("w", [0], [0])
        .function("f%d" % place, [call("w"), address("d"), LOAD, ADD], INT)
    )


@row("of a group in three inputs the first one's function and datum are kept, and all refer to them")
def one_copy():
    module = linked([sharing(1), sharing(2), sharing(3)], "--export=f1", "--export=f2", "--export=f3")
    same(len(module.bodies), 4, "the count of functions")
    same(module.image(), {1024: 10, 1025: 0, 1026: 0, 1027: 0}, "the data")
    shared = hexa("00 10 80 80 80 80 00 41 80 88 80 80 00 28 02 00 6A 0B")
    same([module.body(title) for title in ("f1", "f2", "f3")], [shared] * 3, "the bodies")
    calls(module, ("f1", [], 11), ("f2", [], 11), ("f3", [], 11))


@row("a group's strong definitions in several inputs are no duplicate")
def strong_members():
    def member(number):
        return Object().function("f", const(number), INT).group("g", [0])

    calls(linked([member(1), member(2)], "--export=f"), ("f", [], 1))
    refused([member(1), Object().function("f", const(2), INT)], "duplicate f: input 1 and input 2")


@row("a member that isn't kept stays a reference of its type")
def reference_of_member():
    first = Object().function("g", const(1), INT).group("c", [0])
    second = Object().function("f").group("c", [0]).function("h", call("f"))
    refused([first, second], "input 2: unresolved f", "--export=h")
    refused([first, second, Object().function("f", const(3), INT)], "clash of f: input 2 and input 3")
    linked([first, second, Object().function("f")], "--export=h")


@row("a weak reference of a member that isn't kept is null")
def weak_member():
    first = Object().function("g").group("c", [0])
    second = Object().function("f", flags=WEAK).group("c", [0]).function("h", call("f"))
    calls(linked([first, second], "--export=h"), ("h", [], Trap("unreachable")))


@row("a function that isn't kept can't be imported")
def not_imported():
    first = Object().function("g").group("c", [0])
    second = Object().function("f").group("c", [0]).function("h", call("f"))
    refused([first, second], "input 2: unresolved f", "--export=h", "--allow-undefined")


@row("a live reference to a LOCAL member that isn't kept is unresolved")
def local_member():
    def member():
        return Object().function("l", flags=LOCAL).group("g", [0])

    calling = member().function("live", call("l"))
    refused([Object(), member(), calling], "input 3: unresolved l", "--export=live")
    linked([Object(), member(), calling])
    linked([Object(), calling, member()], "--export=live")


@row("a group keeps the first input that is loaded, not the first one that is given")
def loaded_alone():
    lazy = Object().function("f", const(1), INT).group("g", [0])
    given = Object().function("f", const(2), INT).group("g", [0])
    files = {"a.o": lazy, "b.o": given}
    calls(linked(files, "--start-lib", "a.o", "--end-lib", "b.o", "--export=f"), ("f", [], 2))


@row("groups of other names don't share")
def other_names():
    def member(title, number):
        return Object().function("f", const(number), INT, WEAK).group(title, [0])

    calls(linked([member("a", 1), member("b", 2)], "--export=f"), ("f", [], 1))


@row("all groups of objects without uses fall away with what is dead")
def dead_group():
    same(linked([sharing(1), sharing(2)], "--export=f2").image(), {1024: 10, 1025: 0, 1026: 0, 1027: 0}, "the data")
    same(linked([sharing(1), sharing(2)]).bodies, [], "the functions")
    module = linked([sharing(1), sharing(2)], "--no-gc-sections")
    same((len(module.bodies), len(module.image())), (3, 4), "the functions and the data")
