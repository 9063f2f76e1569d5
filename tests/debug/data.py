#!/usr/bin/env python3
"""Whether the debug sections of a side module name the places of its data: data.py MODULE NAME=VALUE..

The address of each variable that is named, which counts from __memory_base, is that of a word with this value in the module's data.
"""

import re
import sys

from lines import entries, quoted
from sections import name_at, number_at, read, sections

ADDRESS = re.compile(r"DW_OP_addr(x?) (0x[0-9a-f]+)")


def table_of(module):
    """What stands in .debug_addr, where DWARF 5 keeps addresses."""
    data = read(module)
    for kind, begin, end in sections(data):
        if kind == 0 and (named := name_at(data, begin))[0] == ".debug_addr":
            return data[named[1] : end]
    return b""


def addresses(module):
    """The addresses of variables, by name."""
    found, table, base = {}, table_of(module), 0
    for tag, fields in entries(module):
        if tag == "DW_TAG_compile_unit":
            base = int(fields.get("DW_AT_addr_base", "0x0"), 16)
        if tag == "DW_TAG_variable" and (place := ADDRESS.search(fields.get("DW_AT_location", ""))):
            at = int(place[2], 16)
            address = int.from_bytes(table[base + 4 * at : base + 4 * at + 4], "little") if place[1] else at
            found[quoted(fields.get("DW_AT_name", ""))] = address
    return found


def data_of(module):
    """The bytes of the only segment, which begins at __memory_base."""
    data = read(module)
    begin = next(begin for kind, begin, _ in sections(data) if kind == 11)
    assert data[begin : begin + 5] == b"\x01\x00\x23\x01\x0b", "not one segment at __memory_base"
    size, at = number_at(data, begin + 5)
    return data[at : at + size]


def main():
    module, *wanted = sys.argv[1:]
    found, data = addresses(module), data_of(module)
    right = True
    for name, value in (it.split("=") for it in wanted):
        at = found[name]
        held = int.from_bytes(data[at : at + 4], "little")
        if held != int(value):
            print(f"{name} is told to be at {at}, where {held} stands")
            right = False
    return right


if __name__ == "__main__":
    sys.exit(0 if main() else 1)
