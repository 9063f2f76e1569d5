#!/usr/bin/env python3
"""What the custom sections of a module say: custom.py MODULE list|functions|features.

`list` prints the names of the custom sections, in their order; `functions` the names of the functions, those of imports too, each in a line, in
the order of their bytes; `features` the features that the module says it uses.
"""

import sys


class Reader:
    """The bytes of a module or of a part of it."""

    def __init__(self, data):
        self.data, self.at = data, 0

    def number(self):
        value = shift = 0
        while True:
            byte = self.data[self.at]
            self.at += 1
            value |= (byte & 0x7F) << shift
            shift += 7
            if byte < 0x80:
                return value

    def take(self, length):
        self.at += length
        return self.data[self.at - length : self.at]

    def name(self):
        return self.take(self.number())

    def ended(self):
        return self.at == len(self.data)


def customs(data):
    """The names and contents of the custom sections."""
    module = Reader(data[8:])
    while not module.ended():
        code = module.take(1)[0]
        section = Reader(module.name())
        if code == 0:
            yield section.name(), section


def functions(section):
    """The names of the functions by their numbers."""
    while not section.ended():
        code = section.take(1)[0]
        part = Reader(section.name())
        if code == 1:
            numbers = []
            for _ in range(part.number()):
                numbers.append(part.number())
                yield part.name()
            assert numbers == sorted(set(numbers))


def features(section):
    for _ in range(section.number()):
        yield section.take(1) + section.name()


def main(path, what):
    with open(path, "rb") as module:
        found = list(customs(module.read()))
    told = [name for name, _ in found]
    if what == "functions":
        told = sorted(name for kind, it in found if kind == b"name" for name in functions(it))
    if what == "features":
        told = [feature for kind, it in found if kind == b"target_features" for feature in features(it)]
    for line in told:
        sys.stdout.buffer.write(line + b"\n")


main(*sys.argv[1:])
