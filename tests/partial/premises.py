"""When joining a run of neighbouring objects is said to leave the bytes of a link as they are."""

from chunks import chunk_of, member_chunk
from inputs import is_local_definition, is_undefined
from made_symbols import PLAIN_SYMBOLS
from names import Names
from objects import *


def in_objects(entries):
    return [one for one in entries if one.input > 0]


def are_uniform(run):
    """No name that the run leaves open has both weak and strong references there, and each stands on an import or is a datum."""
    for name, entries in run.entries.items():
        entries = in_objects(entries)
        if not entries or any(one.is_definition for one in entries):
            continue
        if len({bool(one.flags & WEAK) for one in entries}) > 1:
            return False
        if not any(one.imported for one in entries) and entries[0].kind != DATUM:
            return False
    return True


def imports_agree(whole):
    """The references of a name that name an import explicitly name one import."""
    return all(len({one.explicit_place for one in entries if one.explicit_place}) < 2 for entries in whole.entries.values())


def defined_in(input, object, members):
    """The names that aren't LOCAL and are defined in these members of a group, with their flags."""
    chunks = {member_chunk(input, *one) for one in members}
    own = [one for one in object.symbols if not is_undefined(one) and one.kind != SECTION and not is_local_definition(one)]
    return {(one.title, one.flags) for one in own if chunk_of(input, one) in chunks}


def groups_agree(whole):
    """All inputs with a group of one name define the same names with the same flags in it."""
    found = {}
    for input, object in whole.objects.items():
        for title, members in object.groups:
            found.setdefault(title, []).append(defined_in(input, object, members))
    return all(one == defined[0] for defined in found.values() for one in defined)


def inits_stand(run):
    """An init function that is kept and whose name an object of the run defines in a group is won by its own object."""
    grouped = {title for input, object in run.objects.items() for _, members in object.groups for title, _ in defined_in(input, object, members)}
    for input, object in run.objects.items():
        for _, place in object.inits:
            symbol = object.symbols[place]
            if is_undefined(symbol) or chunk_of(input, symbol) in run.dropped or is_local_definition(symbol):
                continue
            if symbol.title in grouped and run.winners[symbol.title].input != input:
                return False
    return True


def hold(objects, begin, end):
    """Whether all of them hold of the objects, by their inputs, and of the run from the one input to before the other."""
    whole = Names(objects, PLAIN_SYMBOLS)
    run = Names({input: one for input, one in objects.items() if begin <= input < end}, PLAIN_SYMBOLS)
    return are_uniform(run) and imports_agree(whole) and groups_agree(whole) and inits_stand(run)
