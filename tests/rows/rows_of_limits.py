"""What is too great."""

from objects import *
from program import answers, linked, refused, row, same
from samples import EMPTY_MODULE

MEMBERS = 2**20


@row("2^20 candidates are too many, one less is linked")
def candidates():
    def holding(count):
        return b"!<arch>\n" + member_header(b"/", 4) + bytes(4) + member_header(b"m/", 0) * count

    words = ["l.a", "-o", "out", "--no-entry"]
    answers(words, 1, "wasmld: too many inputs: 1048576", {"l.a": holding(MEMBERS)})
    same(answers(words, 0, None, {"l.a": holding(MEMBERS - 1)})["out"], EMPTY_MODULE, "the module")
    answers(["a.o", *words], 1, "wasmld: too many inputs: 1048576", {"l.a": holding(MEMBERS - 1), "a.o": b"no object"})


@row("an output of 2^31 bytes or more overflows")
def output_length():
    object = Object().segment(b"\x01", 0, "", RETAIN).segment(b"\x02", 31, "", RETAIN)
    before_data = 8 + 7 + 7 + 12
    data = 2**31 + 1
    refused([object], "overflow: OutputLength needs %d" % (before_data + 1 + 5 + 1 + 1 + 3 + 5 + data), "--global-base=0")


@row("a place far up is reached without bytes in between where the last segment is zero")
def far_zeros():
    object = Object().segment(b"\x01", 0, "", RETAIN).segment(bytes(1), 31, "", RETAIN).datum("z", 1)
    module = linked([object], "--export=z")
    same((module.value("z"), len(module.segments[0][2])), (2**31, 1), "the address and the bytes of data")
