"""The words of the command line, what is printed, and files that can't be read or written."""

import os

from objects import *
from program import answers, calls, holds, linked, refused, row, run, same
from samples import CALL_MODULE, CALL_OBJECT, CASE_OF_TWO, EMPTY_MODULE


def usage(words, kind, place=None):
    line = "wasmld: usage: " + kind + ("" if place is None else " at word %d" % place)
    files = {"a.o": Object().bytes()}
    same(answers(words, 2, line, files), files, "the files")


def modules_of(words, files=None):
    """The module that these words save as out."""
    return answers(words, 0, None, files or {"a.o": Object().bytes()})["out"]


@row("a count of workers below 1 or above 64 is refused at its word")
def threads():
    usage(["a.o", "--threads=65", "-o", "b"], "BadThreads", 1)
    for word in ("0", "", "x", "-1", "+1", "04", "0x", "0X4", "1.0", "4 ", " 4", "65", "4294967297", "18446744073709551617", "0x41"):
        usage(["a.o", "-o", "b", "--threads=" + word], "BadThreads", 3)
    for word in ("1", "4", "64", "0x1", "0x40", "0x0004"):
        same(modules_of(["a.o", "-o", "out", "--no-entry", "--threads=" + word]), EMPTY_MODULE, "the module")


@row("an option that isn't known is refused at its word")
def unknown():
    usage(["a.o", "--frob", "-o", "b"], "UnknownOption", 1)
    words = "--export-all", "--import-undefined", "--import-table", "--growable-table", "--Map", "-O", "-O2", "-la", "-L.", "-l"
    for word in words + ("-", "---", "-x", "--o=b", "--Export=a"):
        usage(["a.o", "-o", "b", word], "UnknownOption", 3)


@row("help and the version among other words are no options")
def help_among_others():
    usage(["--help", "a.o"], "UnknownOption", 0)
    usage(["a.o", "--version"], "UnknownOption", 1)
    usage(["--help", "--help"], "UnknownOption", 0)


@row("help and the version alone are answered with status 0")
def help_alone():
    for word in ("--help", "--version"):
        ended = run([word], {})
        holds(ended.status == 0 and "wasmld" in ended.printed, "the answer to " + word)


@row("a value where none is due is refused")
def value_not_due():
    words = "--no-entry", "--gc-sections", "--no-gc-sections", "--export-dynamic", "--allow-undefined", "--stack-first", "--import-memory"
    words += "--whole-archive", "--no-whole-archive", "--start-lib", "--end-lib", "--export-table", "--validate", "--strip-all", "--strip-debug"
    for word in [one + value for one in words for value in ("=", "=1")] + ["-s=", "-S=", "-o=b", "-u=a", "-m=wasm32"]:
        usage(["a.o", "-o", "b", word], "UnknownOption", 3)


@row("without an output, or without an input, the words have no plan")
def nothing_given():
    usage(["a.o"], "NoOutput")
    usage([], "NoInput")
    usage(["-o", "b"], "NoInput")
    usage(["--no-entry"], "NoInput")


@row("a group that is left open, opened twice or closed too early is refused at its word")
def groups():
    usage(["--start-lib", "a.o", "-o", "b"], "OpenGroup", 0)
    usage(["--start-lib", "--start-lib", "--end-lib", "--end-lib"], "OpenGroup", 1)
    usage(["a.o", "--end-lib", "-o", "b"], "OpenGroup", 1)
    usage(["--start-lib", "a.o", "--end-lib", "--end-lib", "-o", "b"], "OpenGroup", 3)
    usage(["--start-lib", "--end-lib", "a.o", "-o", "b", "--start-lib", "a.o"], "OpenGroup", 5)
    usage(["--start-lib", "a.o", "--frob"], "UnknownOption", 2)
    usage(["--start-lib", "a.o", "-o"], "MissingValue", 2)
    usage(["--start-lib", "--end-lib"], "NoInput")
    usage(["--start-lib", "a.o", "--", "--end-lib"], "OpenGroup", 0)


@row("words that end where a value is due are refused at the option's word")
def missing_values():
    usage(["a.o", "-o", "b", "--threads"], "MissingValue", 3)
    words = "--entry", "--export", "--export-if-defined", "--global-base", "--initial-memory", "--max-memory", "--make-case", "--threads"
    for word in words + ("-o", "-u", "-z", "-m"):
        usage(["a.o", word], "MissingValue", 1)


@row("behind two hyphens every word is an input")
def two_hyphens():
    usage(["--", "-x", "-o"], "NoOutput")
    usage(["--"], "NoInput")
    same(modules_of(["-o", "out", "--no-entry", "--", "-x", "--"], {"-x": Object().bytes(), "--": Object().bytes()}), EMPTY_MODULE, "the module")


@row("a value may be any word, also one that begins with a hyphen")
def any_value():
    found = answers(["a.o", "-o", "--", "--no-entry"], 0, None, {"a.o": Object().bytes()})
    same(found["--"], EMPTY_MODULE, "the module")
    refused([Object()], "input 0: unresolved --no-entry", "--export", "--no-entry")
    refused([Object()], "input 0: unresolved ", "--export", "")
    usage(["a.o", "-o", "b", "--global-base", "--no-entry"], "BadNumber", 3)


@row("a value stands behind the equal sign or as the next word")
def two_forms():
    files = {"a.o": CALL_OBJECT}
    same(modules_of(["a.o", "-o", "out", "--no-entry", "--export", "f"], files), CALL_MODULE, "the module")
    same(modules_of(["a.o", "-o", "out", "--entry=f"], files), CALL_MODULE, "the module")
    same(modules_of(["a.o", "-o", "out", "--entry", "f"], files), CALL_MODULE, "the module")
    object = Object().function("a=b", const(1), INT)
    same(linked([object], "--export=a=b").names(), ["memory", "a=b"], "the exports")


@row("of options that are given again the last counts, lists add up")
def again():
    files = {"a.o": CALL_OBJECT}
    same(modules_of(["a.o", "-o", "wrong", "-o", "out", "--no-entry", "--export=f", "--export=f"], files), CALL_MODULE, "the module")
    same(modules_of(["a.o", "-o", "out", "--no-entry", "--entry=f"], files), CALL_MODULE, "the module")
    same(modules_of(["a.o", "-o", "out", "--entry=f", "--no-entry"], files), EMPTY_MODULE, "the module")
    same(modules_of(["a.o", "-o", "out", "--entry=x", "--entry=f"], files), CALL_MODULE, "the module")
    same(linked([CALL_OBJECT], "--export=g", "--export=f").names(), ["memory", "f", "g"], "the exports")
    same(linked([Object()], "-z", "stack-size=32", "-z", "stack-size=16", "--export=__stack_high").value("__stack_high"), 1040, "the address")
    usage(["a.o", "--threads=0", "--threads=4", "-o", "b"], "BadThreads", 1)


@row("numbers are decimal without leading zeros, or hexadecimal, without a sign")
def numbers():
    wrong = "", "x", "-1", "+1", "01", "00", "1.0", "1e3", "0x", "0X10", "0xg", "10h", " 1", "1 ", "1_000"
    for word in wrong + ("4294967296", "18446744073709551616", "0x100000000"):
        usage(["a.o", "-o", "b", "--global-base=" + word], "BadNumber", 3)
    for word, number in (("0", 0), ("2048", 2048), ("0x800", 2048), ("0x00000000800", 2048), ("0xaBc", 0xABC)):
        same(linked([Object()], "--global-base=" + word, "--export=__global_base").value("__global_base"), number, "where data begin")


@row("a stack's size is a multiple of 16 below 2^32")
def stack_sizes():
    for word in ("stack-size=8", "stack-size=4294967296", "stack-size=", "stack-size=x", "stack-size=017", "stack-size=-16"):
        usage(["a.o", "-o", "b", "-z", word], "BadNumber", 3)
    for word in ("stack-size", "stacksize=16", "", "now", "=16", "Stack-size=16"):
        usage(["a.o", "-o", "b", "-z", word], "UnknownOption", 3)
    usage(["a.o", "-o", "b", "-zstack-size=16"], "UnknownOption", 3)
    same(linked([Object()], "-z", "stack-size=0", "--export=__heap_base").value("__heap_base"), 1024, "where the heap begins")
    same(linked([Object()], "-z", "stack-size=0x20", "--export=__heap_base").value("__heap_base"), 1056, "where the heap begins")


@row("memory sizes are multiples of 65536 up to 2^32")
def memory_sizes():
    for option in ("--initial-memory", "--max-memory"):
        for word in ("1", "65535", "65537", "4295032832", "", "x", "0x10001"):
            usage(["a.o", "-o", "b", option + "=" + word], "BadNumber", 3)
    same(linked([Object()], "--initial-memory=0", "--max-memory=4294967296").memory(), (2, 65536), "the memory")


@row("the words without effect are taken, with wasm32 alone after -m")
def without_effect():
    same(modules_of(["-m", "wasm32", "-s", "-S", "--strip-all", "--strip-debug", "a.o", "-o", "out", "--no-entry"]), EMPTY_MODULE, "the module")
    for word in ("wasm64", "", "wasm", "wasm32 "):
        usage(["a.o", "-o", "b", "-m", word], "UnknownOption", 3)
    usage(["a.o", "-o", "b", "-mwasm32"], "UnknownOption", 3)


@row("the first faulty word decides, before what is missing from all of them")
def first_fault():
    usage(["--frob", "--threads=0"], "UnknownOption", 0)
    usage(["--threads=0", "--frob"], "BadThreads", 0)
    usage(["a.o", "--threads=0"], "BadThreads", 1)
    usage(["--start-lib", "a.o", "--threads=0"], "BadThreads", 2)
    usage(["--start-lib", "a.o"], "OpenGroup", 0)


@row("a word that isn't UTF-8 ends the program with status 2")
def not_utf8():
    ended = run([b"a\xFF.o", "-o", "b"], {})
    same(ended.status, 2, "the status")


@row("the generated case takes 1 to 20000 and no input")
def case_words():
    for word in ("0", "", "20001", "x", "-1", "01"):
        usage(["--make-case=" + word], "BadNumber", 0)
    usage(["--make-case=2", "a.o"], "CaseAndInput")
    usage(["a.o", "--make-case", "2", "-o", "b"], "CaseAndInput")


@row("a file that can't be read is told with the place of its word, and nothing is saved")
def unreadable():
    files = {"a.o": CALL_OBJECT, "c.o": CALL_OBJECT}
    words = ["a.o", "b.o", "c.o", "-o", "out", "--no-entry", "--export=f"]
    same(answers(words, 3, "wasmld: cannot read word 1", files), files, "the files")
    same(answers(words, 3, "wasmld: cannot read word 1", files, ["b.o"]), files, "the files")
    same(answers(["-o", "out", *words[:3]], 3, "wasmld: cannot read word 3", files), files, "the files")
    same(answers(["x.o", "y.o", "-o", "out"], 3, "wasmld: cannot read word 0", files), files, "the files")
    same(answers(["--", "x.o", "a.o", "-o", "out"], 2, "wasmld: usage: NoOutput", files), files, "the files")
    same(answers(["", "-o", "out"], 3, "wasmld: cannot read word 0", files), files, "the files")


@row("whichever of three files can't be read, the same words link where it is there again")
def any_unreadable():
    files = {"a.o": Object().needs("g", INT).function("f", call("g"), INT), "b.o": Object().function("g", const(7), INT), "c.o": Object()}
    files = {title: one.bytes() for title, one in files.items()}
    words = ["a.o", "b.o", "c.o", "-o", "out", "--no-entry", "--export=f"]
    for old in ({}, {"out": b"old"}):
        for place, absent in enumerate(files):
            given = dict(old, **{title: one for title, one in files.items() if title != absent})
            left = answers(words, 3, "wasmld: cannot read word %d" % place, given)
            same(left, given, "the files")
            same(answers(words, 0, None, dict(left, **files))["out"], CALL_MODULE, "the module")
        left = answers([*words[:4], "absent/out", *words[5:]], 4, "wasmld: cannot write the output", dict(old, **files))
        same(answers(words, 0, None, left)["out"], CALL_MODULE, "the module")


@row("all files are read before any is looked at")
def read_before():
    same(answers(["a.o", "b.o", "-o", "out"], 3, "wasmld: cannot read word 1", {"a.o": b"no object"}), {"a.o": b"no object"}, "the files")


@row("an output that can't be written has status 4, and every file stays")
def unwritable():
    files = {"a.o": CALL_OBJECT}
    line = "wasmld: cannot write the output"
    same(answers(["a.o", "-o", "absent/out", "--no-entry", "--export=f"], 4, line, files), files, "the files")
    same(answers(["a.o", "-o", "inside", "--no-entry", "--export=f"], 4, line, files, ["inside"]), files, "the files")
    same(answers(["a.o", "-o", "", "--no-entry", "--export=f"], 4, line, files), files, "the files")


@row("an output without room has status 4")
def no_room():
    if os.path.exists("/dev/full"):
        files = {"a.o": CALL_OBJECT}
        same(answers(["a.o", "-o", "/dev/full", "--no-entry", "--export=f"], 4, "wasmld: cannot write the output", files), files, "the files")


@row("a line that can't be written changes no status")
def unprintable():
    if not os.path.exists("/dev/full"):
        return
    files = {"a.o": CALL_OBJECT}
    with open("/dev/full", "w") as full:
        for words, status in (
            (["a.o", "-o", "out", "--no-entry", "--export=f"], 0),
            (["a.o", "-o", "out", "--no-entry", "--export=h"], 1),
            (["a.o"], 2),
            (["b.o", "-o", "out"], 3),
            (["a.o", "-o", "absent/out", "--no-entry"], 4),
            (["--make-case=2"], 0),
            (["--help"], 4),
            (["--version"], 4),
        ):
            same(run(words, files, printed_to=full).status, status, "the status of " + " ".join(words))
        same(run(["--make-case=2", "-o", "out"], {}, printed_to=full).files, {"out": CASE_OF_TWO}, "the files")


@row("a refused link leaves an output that is there as it was")
def refused_and_kept():
    files = {"a.o": CALL_OBJECT, "out": b"old"}
    same(answers(["a.o", "-o", "out", "--no-entry", "--export=h"], 1, "wasmld: input 0: unresolved h", files), files, "the files")
    same(answers(["a.o", "-o", "absent/out", "--no-entry", "--export=h"], 1, "wasmld: input 0: unresolved h", files), files, "the files")


@row("an output that is there is replaced whole, also where it is longer, and where it is an input")
def replaced():
    same(answers(["a.o", "-o", "out", "--no-entry", "--export=f"], 0, None, {"a.o": CALL_OBJECT, "out": bytes(1000)})["out"], CALL_MODULE, "the module")
    same(answers(["a.o", "-o", "a.o", "--no-entry", "--export=f"], 0, None, {"a.o": CALL_OBJECT}), {"a.o": CALL_MODULE}, "the files")


@row("the entry is _start where no word says otherwise, and is exported")
def default_entry():
    refused([Object()], "input 0: unresolved _start", entry=True)
    module = linked([Object().function("_start")], entry=True)
    same(module.names(), ["memory", "_start"], "the exports")
    calls(module, ("_start", [], None))


@row("one file may be given twice")
def given_twice():
    weak = Object().function("f", const(1), INT, WEAK).bytes()
    same(answers(["a.o", "a.o", "-o", "out", "--no-entry"], 0, None, {"a.o": weak})["out"], EMPTY_MODULE, "the module")
    files = {"a.o": CALL_OBJECT}
    same(answers(["a.o", "a.o", "-o", "out", "--no-entry"], 1, "wasmld: duplicate f: input 1 and input 2", files), files, "the files")
