"""The generated case, whose objects these rows make anew."""

from modules import Module
from objects import *
from program import answers, calls, linked, row, run, same
from samples import CASE_OF_TWO


def generated(place, count):
    """The object of a place: its function adds what the next one and its own w give to its own word."""
    more = place + 1 < count
    object = Object().needs_memory()
    first, following, datum = "f%d" % place, "f%d" % (place + 1), "d%d" % place
    if more:
        object.imports.append(Import("env", following, b"\x00" + leb(object.type(INT)), FUNCTION))
    object.function(first, [call(following) if more else b"", call("w"), ADD if more else b"", address(datum), LOAD, ADD], INT)
    object.function("w", b"\x41" + padded(place), INT, WEAK)
    object.segment((place + 1).to_bytes(4, "little"), 2, ".data").datum(datum, 0)
    if more:
        object.symbol(FUNCTION, following, UNDEFINED, ("import", 0))
    return object.group("w", [1])


def expected(count):
    """The module of a case, by what its parts have to be: f0 is function 0, w is function 1, and all others follow."""
    types = section(1, hexa("01 60 00 01 7F"))
    functions = section(3, leb(count + 1) + bytes(count + 1))
    bodies = []
    for place in range(count):
        more = b"\x10" + padded(place + 2) if place + 1 < count else b""
        adding = ADD if more else b""
        own = b"\x10" + padded(1) + adding + b"\x41" + padded(1024 + 4 * place) + LOAD + ADD
        bodies.append(b"\x00" + more + own + b"\x0B")
    bodies.insert(1, hexa("00 41 80 80 80 80 00 0B"))
    code = section(10, vector(leb(len(body)) + body for body in bodies))
    content = b"".join((place + 1).to_bytes(4, "little") for place in range(count))
    data = section(11, hexa("01 00 41 80 08 0B") + leb(len(content)) + content)
    pages = ((1024 + len(content) + 15) // 16 * 16 + 65536 + 65535) // 65536
    memory = section(5, hexa("01 00") + leb(pages))
    exports = section(7, hexa("02 06 6D 65 6D 6F 72 79 02 00 02 66 30 00 00"))
    return HEADER + types + functions + hexa("04 05 01 70 01 01 01") + memory + exports + code + data


def summary(count, module):
    return "case %d: functions %d segments %d bytes %d sum %d" % (count, len(Module(module).bodies), count, len(module), sum(module))


@row("a case of two objects is printed and saved, byte for byte")
def two():
    answers(["--make-case=2"], 0, "case 2: functions 3 segments 2 bytes 124 sum 5691")
    same(answers(["--make-case=2", "-o", "out"], 0, "case 2: functions 3 segments 2 bytes 124 sum 5691")["out"], CASE_OF_TWO, "the module")
    same(len(CASE_OF_TWO), 124, "the module's length")


@row("a case of 2000 objects gives the same line with 1, 4 and 64 workers, and whenever it is made")
def many():
    line = "case 2000: functions 2001 segments 2000 bytes 62069 sum 4449098"
    for words in (["--threads=1"], ["--threads=4"], ["--threads=64"], [], []):
        answers(["--make-case=2000", *words], 0, line)


@row("the case's objects are those that are told, given as files they give the same module")
def as_files():
    for count in (1, 2, 3, 130):
        module = linked([generated(place, count) for place in range(count)], "--export=f0")
        same(answers(["--make-case=%d" % count, "-o", "out"], 0, summary(count, module.data))["out"], module.data, "the module of %d" % count)
        calls(module, ("f0", [], count * (count + 1) // 2))


@row("cases of many sizes have the module that their parts ask for")
def by_parts():
    same(expected(2), CASE_OF_TWO, "the module that is expected of two")
    same(summary(2000, expected(2000)), "case 2000: functions 2001 segments 2000 bytes 62069 sum 4449098", "the line that is expected of 2000")
    for count in (1, 2, 3, 127, 128, 1000, 20000):
        module = expected(count)
        same(answers(["--make-case=%d" % count, "-o", "out"], 0, summary(count, module))["out"], module, "the module of %d" % count)


@row("any number of workers gives the same module")
def any_workers():
    modules = {run(["--make-case=500", "-o", "out", "--threads=%d" % workers], {}).files["out"] for workers in (1, 2, 3, 5, 8, 13, 31, 64)}
    same(len(modules), 1, "the count of different modules")


@row("other words have their effect on the generated case")
def other_words():
    ended = run(["--make-case=2", "-o", "out", "--export=d1", "--stack-first", "--threads=1"], {})
    same(ended.status, 0, "the status")
    module = Module(ended.files["out"])
    same((module.names(), module.value("d1")), (["memory", "f0", "d1"], 65540), "the exports")
    same(ended.printed, summary(2, module.data) + "\n", "the line")
    answers(["--make-case=2", "--make-case=1", "-o", "out"], 0, summary(1, linked([generated(0, 1)], "--export=f0").data))
    answers(["--make-case=2", "--entry=absent"], 1, "wasmld: input 0: unresolved absent")
    answers(["--make-case=2", "-o", "absent/out"], 4, "wasmld: cannot write the output")
