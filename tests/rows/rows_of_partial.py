"""Partial links: objects are joined into one, which is linked in their place."""

from objects import *
from program import answers, linked, row, run_alike, same
from rows_of_cases import generated
from samples import CALL_MODULE, CALL_OBJECT, CASE_OF_TWO, JOINED_OBJECT


def joined(files, *words):
    """The object that -r makes of files in their order, with any number of workers."""
    ended = run_alike(["-r", *files, "-o", "r.o", *words], files)
    same((ended.status, ended.printed), (0, ""), "the status and the line")
    made = ended.files.pop("r.o")
    same(ended.files, files, "the files that were given")
    return made


def not_joined(words, files, line, status=1):
    ended = run_alike(["-r", *words, "-o", "r.o"], files)
    same((ended.status, ended.printed), (status, "wasmld: %s\n" % line), "the status and the line")
    same(ended.files, files, "the files that were given")


def files_of(objects):
    return {"%d.o" % place: one.bytes() for place, one in enumerate(objects, 1)}


@row("one object alone is joined, and linked to the same module, byte for byte")
def alone():
    made = joined({"a.o": CALL_OBJECT})
    same(made, JOINED_OBJECT, "what is joined")
    words = ["a.o", "-o", "out", "--no-entry", "--export=f"]
    same(answers(words, 0, None, {"a.o": CALL_OBJECT})["out"], CALL_MODULE, "the module")
    same(answers(words, 0, None, {"a.o": made})["out"], CALL_MODULE, "the module of what is joined")


@row("the objects of a case of two are joined, and linked to its module, byte for byte")
def case_of_two():
    made = joined(files_of([generated(0, 2), generated(1, 2)]))
    same(answers(["r.o", "-o", "out", "--no-entry", "--export=f0"], 0, None, {"r.o": made})["out"], CASE_OF_TWO, "the module")


@row("what is joined is joined again")
def again():
    parts = files_of([generated(place, 3) for place in range(3)])
    front = joined({title: parts[title] for title in ("1.o", "2.o")})
    made = joined({"front.o": front, "3.o": parts["3.o"]})
    same(made, joined(parts), "what is joined in two steps")


@row("a name that is undefined stays open in what is joined")
def open_name():
    user = Object().needs("g", INT).function("f", [call("g")], INT)
    made = joined(files_of([user, Object().needs("g", INT).function("h", [call("g")], INT)]))
    giver = Object().function("g", const(3), INT)
    files = {"r.o": made, "g.o": giver.bytes()}
    answers(["r.o", "g.o", "-o", "out", "--no-entry", "--export=f", "--export=h"], 0, None, files)
    answers(["r.o", "-o", "out", "--no-entry", "--export=f"], 1, "wasmld: input 1: unresolved g", files)


@row("two strong definitions are a duplicate in a partial link too")
def duplicate():
    not_joined(["1.o", "2.o"], files_of([Object().function("f"), Object().function("f")]), "duplicate f: input 1 and input 2")


@row("a library and a lazy object are no parts of a partial link")
def not_plain():
    files = {"a.o": CALL_OBJECT, "l.a": library([Object().function("h")], [("h", 0)])}
    not_joined(["a.o", "l.a"], files, "file 1: not an object for a partial link")
    not_joined(["--start-lib", "a.o", "--end-lib", "l.a"], files, "file 0: not an object for a partial link")


@row("other options have no effect on a partial link, but their words are judged")
def other_options():
    made = joined({"a.o": CALL_OBJECT})
    words = "--no-entry", "--export=absent", "-u", "absent", "--export-dynamic", "--import-memory", "--stack-first", "--validate", "--keep-debug"
    same(joined({"a.o": CALL_OBJECT}, *words), made, "what is joined")
    not_joined(["a.o", "--global-base=x"], {"a.o": CALL_OBJECT}, "usage: BadNumber at word 2", 2)


@row("a partial link of a generated case is refused")
def generated_case():
    answers(["-r", "--make-case=2", "-o", "r.o"], 2, "wasmld: usage: PartialClash")
