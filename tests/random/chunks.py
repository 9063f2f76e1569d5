"""Chunks, which are kept or dropped whole: functions, segments and globals."""

from typing import NamedTuple

from objects import *


class Chunk(NamedTuple):
    """A chunk by its place among those of its kind in its input. Those of input 0 are linker-made and have their symbols' places."""

    kind: int
    input: int
    place: int


CONSTRUCTORS = Chunk(FUNCTION, 0, 0)
STACK_POINTER = Chunk(GLOBAL, 0, 1)


def chunk_of(input, symbol):
    """The chunk in which a definition of an object stands."""
    if symbol.kind == DATUM:
        return Chunk(DATUM, input, symbol.where)
    _, place = symbol.where
    return Chunk(symbol.kind, input, place)


def windows_of(objects, chunk):
    """The windows of an object's function or segment with their places; a global has none."""
    object = objects[chunk.input]
    if chunk.kind == FUNCTION:
        return placed(object.functions[chunk.place].parts)[1]
    return placed(object.segments[chunk.place])[1] if chunk.kind == DATUM else []


def dropped_members(objects):
    """The members of groups that a lesser input has."""
    owners, dropped = {}, set()
    for number, object in objects.items():
        for title, members in object.groups:
            if owners.setdefault(title, number) != number:
                dropped |= {member_chunk(number, *member) for member in members}
    return dropped


def member_chunk(input, kind, where):
    """Members of kind 1 are functions, those of kind 0 segments."""
    return Chunk(FUNCTION, input, where[1]) if kind == 1 else Chunk(DATUM, input, where)
