#!/usr/bin/env python3
"""Debug sections of objects and modules, by their bytes.

sections.py tail PLAIN WHOLE: whether WHOLE has the bytes of PLAIN and then custom sections alone, and prints their names.
sections.py code MODULE: prints where the payload of the code section begins.
sections.py spoil OBJECT OUTPUT: writes the object with a relocation of no known type for .debug_info, and prints the number of that section.
sections.py long OUTPUT N: writes an object that has a debug section of N bytes and little else; the file takes no room on the disk.
"""

import sys


def number_at(data, at):
    """An unsigned LEB128 number, and the place behind it."""
    value, shift = 0, 0
    while True:
        byte = data[at]
        value |= (byte & 0x7F) << shift
        at, shift = at + 1, shift + 7
        if byte < 0x80:
            return value, at


def sections(data, at=8):
    """Number and place of the payload and its end, of each section from a place on."""
    while at < len(data):
        kind = data[at]
        size, begin = number_at(data, at + 1)
        at = begin + size
        assert at <= len(data), "a section is cut"
        yield kind, begin, at


def name_at(data, begin):
    """The name of a custom section, and the place behind it."""
    size, begin = number_at(data, begin)
    return data[begin : begin + size].decode(), begin + size


def read(path):
    with open(path, "rb") as file:
        return file.read()


def tail(plain, whole):
    front, data = read(plain), read(whole)
    if not data.startswith(front):
        print("the front differs")
        return False
    behind = list(sections(data, len(front)))
    print(*(name_at(data, begin)[0] for _, begin, _ in behind))
    return all(kind == 0 for kind, _, _ in behind)


def code(path):
    print(next(begin for kind, begin, _ in sections(read(path)) if kind == 10))
    return True


def spoil(path, output):
    data = bytearray(read(path))
    for kind, begin, _ in list(sections(data)):
        if kind != 0:
            continue
        name, at = name_at(data, begin)
        if name == "reloc..debug_info":
            section, at = number_at(data, at)
            _, at = number_at(data, at)
            data[at] = 0x7F
            print(section)
    with open(output, "wb") as file:
        file.write(data)
    return True


def number(value):
    """An unsigned LEB128 number of five bytes."""
    return bytes([*((value >> shift & 0x7F | 0x80) for shift in (0, 7, 14, 21)), value >> 28])


def long(path, size):
    linking = b"\x07linking\x02"
    name = b"\x08.debug_x"
    with open(path, "wb") as file:
        file.write(b"\x00asm\x01\x00\x00\x00\x00" + number(len(linking)) + linking)
        file.write(b"\x00" + number(len(name) + int(size)) + name)
        file.truncate(file.tell() + int(size))
    return True


if __name__ == "__main__":
    sys.exit(0 if {"tail": tail, "code": code, "spoil": spoil, "long": long}[sys.argv[1]](*sys.argv[2:]) else 1)
