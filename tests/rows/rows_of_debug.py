"""Debug sections behind the module, where `--keep-debug` asks for them."""

from objects import *
from broken import file
from program import answers, holds, linked, refused, row, run, same
from samples import CALL_MODULE

CALLS = "00 10 81 80 80 80 00 0B"
STANDS = "00 41 07 01 01 01 01 0B"
PLACES = "08 00 00 01 08 04 01 00"
SECTION_OF_F = hexa("00 11 08 2E 64 65 62 75 67 5F 78 03 00 00 00")


def object_of(first, entries, second="00 41 07 0B", calls=True):
    """Functions f, which can call g, and g; `.debug_x` has eight bytes, and two relocations."""
    bodies = hexa("02 08" + first + "04" + second)
    linking = custom("linking", hexa("02 08 0B 02 00 00 00 01 66 00 00 01 01 67"))
    calling = [custom("reloc.CODE", hexa("02 01 00 04 01"))] if calls else []
    sections = [section(1, hexa("01 60 00 01 7F")), section(3, hexa("02 00 00")), section(10, bodies), custom(".debug_x", bytes(8)), linking]
    return file(*sections, *calling, custom("reloc..debug_x", hexa("03 02" + entries)))


@row("the joined section stands behind the module, and names the places of functions")
def kept():
    one = object_of(CALLS, PLACES)
    same(bytes(linked([one], "--export=f", "--keep-debug").data), CALL_MODULE + SECTION_OF_F + hexa("0B 00 00 00"), "the module and its section")
    same(bytes(linked([one], "--export=f").data), CALL_MODULE, "the module without the word")
    same(bytes(linked([one], "--export=f", "--keep-debug", "--strip-debug").data)[:65], CALL_MODULE, "the front")


@row("the dead word stands for a function that isn't live")
def dead():
    whole = bytes(linked([object_of(STANDS, PLACES, calls=False)], "--export=f", "--keep-debug").data)
    same(whole[-len(SECTION_OF_F) - 4 :], SECTION_OF_F + hexa("FF FF FF FF"), "the section")


@row("a relocation that may not stand there refuses the link where sections are kept, and only there")
def bad():
    one = object_of(CALLS, "08 00 00 01 00 04 01")
    refused([one], "input 1: bad debug section 3", "--export=f", "--keep-debug")
    same(bytes(linked([one], "--export=f").data), CALL_MODULE, "the module without the word")


@row("the check of the output comes before the debug sections")
def order():
    one = object_of(CALLS, "08 00 00 01 00 04 01", second="00 01 01 0B")
    refused([one], "input 1: bad debug section 3", "--export=f", "--keep-debug")
    refused([one], "invalid output: body 1", "--export=f", "--keep-debug", "--validate")


@row("sections of one name are joined in the order of objects, and places count from the second's begin")
def joined():
    first, second = object_of(CALLS, PLACES), Object().function("h", const(1) + b"\x1A").custom(".debug_x", b"ab").custom(".debug_y", b"c")
    module = bytes(linked([first, second], "--export=f", "--export=h", "--keep-debug").data)
    tail = custom(".debug_x", hexa("03 00 00 00 0B 00 00 00") + b"ab") + custom(".debug_y", b"c")
    same(module[-len(tail) :], tail, "the sections")


@row("they stand behind a shared output too, where data count from __memory_base, and the linker's globals are imports")
def shared():
    one = object_of(CALLS, PLACES)
    module = bytes(linked([one], "--export=f", "-shared").data)
    same(bytes(linked([one], "--export=f", "-shared", "--keep-debug").data), module + SECTION_OF_F + hexa("0B 00 00 00"), "the module and its section")
    two = Object().segment([bytes(range(1, 9))]).datum("d", 0, 4).needs_global("__memory_base", var=False).custom(".debug_x", bytes(8))
    two.custom("reloc..debug_x", hexa("03 02 05 00 00 02 0D 04 01"))
    tail = custom(".debug_x", hexa("06 00 00 00 01 00 00 00"))
    same(bytes(linked([two], "--export=d", "-shared", "--keep-debug").data)[-len(tail) :], tail, "the section")


@row("a generated case has none")
def case():
    plain = run(["--make-case=3", "-o", "out"], {})
    kept = run(["--make-case=3", "-o", "out", "--keep-debug"], {})
    holds(plain == kept and plain.status == 0, "the word changes nothing")
