"""What rows on broken objects share: files from sections, and the two kinds of answer."""

from objects import *
from program import refused

LINKING = custom("linking", hexa("02 08 01 00"))
TYPES = section(1, hexa("01 60 00 00"))
ONE = section(3, hexa("01 00"))


def file(*sections):
    return HEADER + b"".join(hexa(one) if isinstance(one, str) else one for one in sections)


def broken(content, part, *words):
    refused([content], "input 1: malformed: " + part, *words)


def foreign(content, item):
    refused([content], "input 1: unsupported: " + item)


def imports(*items):
    return section(2, vector(hexa(one) if isinstance(one, str) else one for one in items))


def imported(module, field, kind):
    return name(module) + name(field) + hexa(kind)


def coded(*bodies):
    """A type section, one function of type () to () for each body, and their code."""
    return TYPES + section(3, vector(b"\x00" for _ in bodies)) + section(10, vector(leb(len(hexa(one))) + hexa(one) for one in bodies))


def linking(*parts):
    return custom("linking", b"\x02" + b"".join(parts))


def symbols(*items):
    return section(8, vector(hexa(one) if isinstance(one, str) else one for one in items))
