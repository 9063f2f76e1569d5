"""Static libraries, and objects that are loaded by need."""

import struct

from objects import *
from program import Trap, answers, calls, linked, refused, row, same

MAGIC = b"!<arch>\n"


def defining(title, number):
    return Object().function(title, const(number), INT)


def calling(title, *needs, result=0):
    """A function that adds what others give to a number."""
    object = Object()
    for need in needs:
        object.needs(need, INT)
    return object.function(title, [const(result), [[call(need), ADD] for need in needs]], INT)


def two_members():
    """Member 1 defines a and needs b, member 2 defines b."""
    return library([calling("a", "b", result=1), defining("b", 20)], [("a", 0), ("b", 1)])


@row("a member is loaded for a name that is needed, and the next one for what that needs")
def by_need():
    unneeded = calling("c", result=9)
    file = library([calling("a", "b", result=1), defining("b", 20), unneeded], [("a", 0), ("b", 1), ("c", 2)])
    for inputs in ([calling("f", "a", result=300), two_members()], [calling("f", "a", result=300), file]):
        module = linked(inputs, "--export=f", "--no-gc-sections")
        same(len(module.bodies), 3, "the count of functions")
        calls(module, ("f", [], 321))


@row("a weak reference loads no member")
def weak_loads_none():
    object = Object().needs("a", INT, WEAK).function("f", call("a"), INT)
    module = linked([object, two_members()], "--export=f", "--no-gc-sections")
    same(len(module.bodies), 2, "the count of functions, a stub among them")
    calls(module, ("f", [], Trap("unreachable")))


@row("a weak reference means a member's definition where something else loads the member")
def weak_and_loaded():
    object = Object().needs("a", INT, WEAK).function("f", call("a"), INT)
    calls(linked([object, two_members()], "--export=f", "-u", "a"), ("f", [], 21))


@row("an index that gives a name to a member without it lies")
def index_lies():
    file = library([defining("b", 1), defining("c", 2)], [("a", 1)])
    refused([calling("f", "a"), file], "input 3: index names a, which is not defined", "--export=f")
    linked([defining("f", 1), file], "--export=f")
    hidden = library([Object().function("a", const(1), INT, LOCAL)], [("a", 0)])
    refused([calling("f", "a"), hidden], "input 2: index names a, which is not defined", "--export=f")
    needing = library([calling("b", "a")], [("a", 0)])
    refused([calling("f", "a"), needing], "input 2: index names a, which is not defined", "--export=f")


@row("of several names that an index lies about the least by bytes is told")
def least_lie():
    file = library([defining("x", 1)], [("b", 0), ("aa", 0), ("a", 0)])
    refused([calling("f", "b", "aa"), file], "input 2: index names aa, which is not defined", "--export=f")


@row("an object fault of a member is told before the lie of its index")
def fault_before_lie():
    file = library([defining("x", 1).bytes()[:-1]], [("a", 0)])
    refused([calling("f", "a"), file], "input 2: malformed: frame", "--export=f")


@row("a member that isn't loaded isn't read")
def unread_member():
    file = library([b"no object", defining("a", 5)], [("x", 0), ("a", 1)])
    calls(linked([calling("f", "a"), file], "--export=f"), ("f", [], 5))
    refused([calling("f", "a"), file], "input 2: malformed: frame", "--export=f", "-u", "x")


@row("members that need one another are both loaded, and loading ends")
def need_one_another():
    file = library([calling("a", "b"), calling("b", "a")], [("a", 0), ("b", 1)])
    module = linked([calling("f", "a"), file], "--export=f")
    same(module.bodies, [hexa("00 41 00 10 %s 6A 0B" % window) for window in ("81 80 80 80 00", "82 80 80 80 00", "81 80 80 80 00")], "the functions")


@row("of two libraries that offer a name the first one's member is loaded")
def first_library():
    module = linked([calling("f", "a"), library([defining("a", 1)], [("a", 0)]), library([defining("a", 2)], [("a", 0)])], "--export=f", "--no-gc-sections")
    same(len(module.bodies), 2, "the count of functions")
    calls(module, ("f", [], 1))


@row("a library may stand before the object that needs its member, which then has the lesser number")
def library_first():
    inputs = [library([defining("a", 7)], [("a", 0)]), calling("f", "a")]
    module = linked(inputs, "--export=f", "--export=a")
    same((module.export("a"), module.export("f")), ((0, 0), (0, 1)), "the functions' numbers")
    same(module.names(), ["memory", "a", "f"], "the exports")
    calls(module, ("f", [], 7))


@row("members count as inputs, loaded or not")
def members_count():
    refused([two_members(), two_members(), Object().needs("x").function("f", call("x"))], "input 5: unresolved x", "--export=f")
    refused([two_members(), b""], "input 3: malformed: frame")


@row("the library's magic alone is a library of no members")
def no_members():
    same(linked([MAGIC]).data, linked([Object()]).data, "the module")
    refused([MAGIC, b""], "input 1: malformed: frame")
    refused([calling("f", "a"), MAGIC], "input 1: unresolved a", "--export=f")


@row("a library without an index is refused, as is a thin one")
def no_index():
    refused([library([defining("a", 1)], index=False)], "file 0: bad library: NoIndex")
    refused([Object(), library([defining("a", 1)], index=False)], "file 1: bad library: NoIndex")
    refused([b"!<thin>\n"], "file 0: bad library: Thin")
    refused([b"!<thin>\n" + two_members()[8:]], "file 0: bad library: Thin")


@row("other forms of index are none")
def other_indexes():
    body = struct.pack(">Q", 0)
    for title in (b"/SYM64/", b"__.SYMDEF", b"//"):
        refused([MAGIC + member_header(title, 8) + body], "file 0: bad library: NoIndex")


@row("an index that counts more names than its bytes hold is refused")
def index_count():
    index = b"\xFF\xFF\xFF\xFF" + bytes(4)
    refused([MAGIC + member_header(b"/", 8) + index], "file 0: bad library: BadIndex(1)")


@row("an index whose place isn't a member's is refused")
def index_place():
    def indexed(place):
        return MAGIC + member_header(b"/", 10) + struct.pack(">II", 1, place) + b"a\x00" + member_header(b"m/", 0)

    linked([indexed(78)])
    for place in (0, 8, 77, 79, 4294967295):
        refused([indexed(place)], "file 0: bad library: BadIndex(2)")


@row("an index with fewer names than places is refused")
def index_names():
    def indexed(names):
        size = 12 + len(names)
        place = 8 + 60 + size + size % 2
        return MAGIC + member_header(b"/", size) + struct.pack(">III", 2, place, place) + names + b"\n" * (size % 2) + member_header(b"m/", 0)

    linked([indexed(b"a\x00b\x00")])
    linked([indexed(b"a\x00\x00bytes that follow")])
    refused([indexed(b"a\x00b")], "file 0: bad library: BadIndex(3)")
    refused([indexed(b"a\x00")], "file 0: bad library: BadIndex(3)")
    refused([indexed(b"")], "file 0: bad library: BadIndex(3)")


@row("a header that states a size beyond the end is refused with its place")
def size_beyond():
    refused([MAGIC + member_header(b"/", 1000)], "file 0: bad library: BadHeader(8)")
    refused([MAGIC + member_header(b"/", 4) + bytes(4) + member_header(b"m/", 1)], "file 0: bad library: BadHeader(72)")


@row("a header that isn't ended, or has no number as its size, is refused")
def bad_headers():
    good = MAGIC + member_header(b"/", 4) + bytes(4)
    linked([good])
    header = member_header(b"m/", 2)
    linked([good + header + b"ab"])
    wrong = [header[:58] + b"\x60\x0B", header[:58] + b"\x0A\x60", header[:48] + b"          \x60\x0A", header[:48] + b" 2        \x60\x0A"]
    wrong += [header[:48] + size + b"\x60\x0A" for size in (b"2 2       ", b"0x2       ", b"-2        ", b"9999999999")]
    for one in wrong:
        refused([good + one + b"ab"], "file 0: bad library: BadHeader(72)")


@row("the table of long names is no candidate, and the padding at the end may be missing")
def long_names():
    member = defining("a", 5).bytes() + bytes.fromhex("00 01 00")
    member += bytes.fromhex("00 01 00") if len(member) % 2 == 0 else b""
    table = member_header(b"//", 3) + b"n/\n" + b"\n"
    index = struct.pack(">II", 1, 8 + 60 + 10 + 64) + b"a\x00"
    file = MAGIC + member_header(b"/", 10) + index + table + member_header(b"/0", len(member)) + member
    same(len(member) % 2, 1, "the member's size, odd or even")
    calls(linked([calling("f", "a"), file], "--export=f"), ("f", [], 5))
    refused([file, b""], "input 2: malformed: frame")


def cut_answer(length, ends, headers, whole):
    """The line for the first bytes of a library, or none where they are a library."""
    if length < 8:
        return "wasmld: input 1: malformed: frame"
    if length == 8 or (length == len(whole) - 1 and length in ends):
        return None
    if length in ends:
        return "wasmld: file 0: bad library: BadIndex(2)"
    return "wasmld: file 0: bad library: BadHeader(%d)" % max(place for place in headers if place < length)


@row("each cut of a library is refused with the cause of the cut, or is a smaller library")
def cuts():
    for last in (Object().function("b"), Object().function("b").function("long")):
        members = [file_of(one) for one in (Object().needs("b").function("a", call("b")), last)]
        whole = library(members, [("a", 0), ("b", 1)])
        second, third = whole.index(b"0.o/"), whole.index(b"1.o/")
        ends = {second, second + 60 + len(members[0]), third, third + 60 + len(members[1])}
        for length in range(len(whole)):
            line = cut_answer(length, ends, (8, second, third), whole)
            answers(["l.a", "-o", "out", "--no-entry"], 0 if line is None else 1, line, {"l.a": whole[:length]})


@row("all members of a whole library are loaded, also where nothing needs them")
def whole():
    words = ("--no-gc-sections", "--no-entry", "-o", "out")
    files = {"l.a": two_members(), "m.a": library([defining("c", 3)], [("c", 0)])}
    same(len(linked(files, "--whole-archive", "l.a", "--no-whole-archive", "m.a", *words, entry=True).bodies), 2, "the count of functions")
    same(len(linked(files, "l.a", "--whole-archive", "m.a", *words, entry=True).bodies), 1, "the count of functions")
    same(len(linked(files, "--whole-archive", "l.a", "m.a", *words, entry=True).bodies), 3, "the count of functions")
    same(len(linked(files, "l.a", "m.a", *words, entry=True).bodies), 0, "the count of functions")


@row("a broken member of a whole library is told though nothing needs it")
def whole_and_broken():
    refused({"l.a": library([defining("a", 1), b"no object"])}, "input 2: malformed: frame", "--whole-archive", "l.a")


@row("the entry, names after -u and exported names load members, those exported if defined don't")
def wanted_names():
    def count(*words, entry=True):
        return len(linked([Object(), library([defining("_start", 1)], [("_start", 0)])], *words, "--no-gc-sections", entry=entry).bodies)

    same(count(), 1, "the count of functions by the default entry")
    same(count("--no-entry"), 0, "the count of functions without an entry")
    same(count("--no-entry", "-u", "_start"), 1, "the count of functions by -u")
    same(count("--no-entry", "--export=_start"), 1, "the count of functions by --export")
    same(count("--no-entry", "--export-if-defined=_start"), 0, "the count of functions by --export-if-defined")
    same(count("--no-entry", "-u", "absent"), 0, "the count of functions by -u of another name")


@row("a name after -u need not be defined")
def wanted_but_absent():
    linked([Object()], "-u", "absent")


@row("a member isn't loaded for a name that is defined or linker-made")
def not_needed():
    file = library([defining("a", 2), Object().data("__heap_base", bytes(4))], [("a", 0), ("__heap_base", 1)])
    object = calling("f", "a").needs_datum("__heap_base").function("g", address("__heap_base"), INT)
    module = linked([object, defining("a", 1), file], "--export=f", "--export=g")
    calls(module, ("f", [], 1), ("g", [], 66560))


@row("objects between --start-lib and --end-lib are loaded by need")
def lazy():
    files = {"f.o": calling("f", "a"), "a.o": calling("a", "b", result=1), "b.o": defining("b", 20), "c.o": b"", "d.o": defining("d", 4)}
    words = ("--export=f", "--no-gc-sections")
    module = linked(files, "--start-lib", "a.o", "b.o", "d.o", "--end-lib", "f.o", *words)
    same(len(module.bodies), 3, "the count of functions")
    calls(module, ("f", [], 21))
    refused(files, "input 2: malformed: frame", "--start-lib", "a.o", "c.o", "--end-lib", "f.o", *words)
    refused(files, "input 1: unresolved a", "f.o", "--start-lib", "d.o", "--end-lib", *words)


@row("a lazy object offers its definitions that aren't LOCAL, weak ones too")
def lazy_offers():
    files = {"f.o": calling("f", "a"), "l.o": Object().function("a", const(1), INT, LOCAL), "w.o": Object().function("a", const(2), INT, WEAK)}
    calls(linked(files, "f.o", "--start-lib", "l.o", "w.o", "--end-lib", "--export=f"), ("f", [], 2))


@row("of libraries and lazy objects the candidate of least number is loaded")
def least_candidate():
    files = {"f.o": calling("f", "a"), "l.o": defining("a", 1), "m.a": library([defining("a", 2)], [("a", 0)])}
    calls(linked(files, "f.o", "m.a", "--start-lib", "l.o", "--end-lib", "--export=f"), ("f", [], 2))
    calls(linked(files, "f.o", "--start-lib", "l.o", "--end-lib", "m.a", "--export=f"), ("f", [], 1))


@row("a name whose candidate of least number is loaded without it stays undefined, though another one offers it")
def loaded_without_it():
    first = library([defining("b", 1)], [("b", 0), ("a", 0)])
    second = library([defining("a", 2)], [("a", 0)])
    weak = Object().needs("b", INT).needs("c", INT).function("f", [call("b"), call("c"), ADD], INT)
    third = library([calling("c", "a")], [("c", 0)])
    refused([weak, first, second, third], "input 4: unresolved a", "--export=f")


@row("loading looks at definitions of groups that aren't kept, too")
def group_members_count():
    def member(title):
        return Object().function(title, const(1), INT).group("g", [0])

    file = library([defining("a", 5)], [("a", 0)])
    refused([member("x"), member("a"), calling("f", "a"), file], "input 3: unresolved a", "--export=f")


@row("strong references of any kind load members, also LOCAL ones")
def any_reference():
    file = library([Object().data("d", b"\x05\x00\x00\x00"), Object().own_global("g", 6)], [("d", 0), ("g", 1)])
    object = Object().needs_datum("d", LOCAL).needs_global("g").function("f", [address("d"), LOAD, global_get("g"), ADD], INT)
    calls(linked([object, file], "--export=f"), ("f", [], 11))


@row("a reference in dead code loads members")
def dead_reference():
    module = linked([calling("dead", "a"), library([defining("a", 5)], [("a", 0)])], "--no-gc-sections")
    same(len(module.bodies), 2, "the count of functions")


@row("two strong definitions in members that are loaded for other names are a duplicate")
def duplicate_members():
    file = library([defining("a", 1).function("x"), defining("b", 1).function("x")], [("a", 0), ("b", 1)])
    refused([calling("f", "a", "b"), file], "duplicate x: input 2 and input 3", "--export=f")


@row("a round's least faulty member is told, and the first round that has one")
def first_fault():
    file = library([b"", calling("b", "a"), b""], [("a", 0), ("b", 1), ("c", 2)])
    refused([calling("f", "c", "b"), file], "input 4: malformed: frame", "--export=f")
    refused([calling("f", "c", "a"), file], "input 2: malformed: frame", "--export=f")


@row("a broken library is told before a broken object")
def library_before_object():
    refused([b"", b"!<thin>\n"], "file 1: bad library: Thin")


@row("the place of a library's file counts inputs alone")
def file_places():
    files = {"a.o": Object(), "l.a": b"!<thin>\n"}
    refused(files, "file 1: bad library: Thin", "-o", "out", "--export-if-defined=f", "a.o", "--no-entry", "l.a", entry=True)
