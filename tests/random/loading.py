"""Which inputs are loaded: some at once, others in rounds, by the names that are needed."""

from inputs import Fault, defined_names, is_undefined
from made_symbols import made_symbols
from objects import *


def loaded_objects(candidates, options):
    """The objects by their numbers as inputs, which count from 1 over all candidates."""
    numbered = dict(enumerate(candidates, 1))
    loaded = {number for number, one in numbered.items() if one.at_once}
    while True:
        added = next_round(numbered, loaded, options)
        if not added:
            return {number: numbered[number].object for number in sorted(loaded)}
        refuse_lies(numbered, added)
        loaded |= set(added)


def next_round(numbered, loaded, options):
    """The candidates that a round adds, each with the names for which it is added."""
    needed, defined = asked_names(options), {one.name for one in made_symbols(options)}
    for number in loaded:
        needed |= strongly_referenced(numbered[number].object)
        defined |= defined_names(numbered[number].object)
    added = {}
    for name in needed - defined:
        offering = [number for number, one in numbered.items() if name in one.offers]
        # Where the least candidate is loaded without the name, no other one is added for it.
        if offering and min(offering) not in loaded:
            added.setdefault(min(offering), []).append(name)
    return added


def asked_names(options):
    entry = set() if options.entry is None else {options.entry}
    return entry | set(options.exports) | set(options.needed)


def strongly_referenced(object):
    return {one.title for one in object.symbols if is_undefined(one) and not one.flags & WEAK}


def refuse_lies(numbered, added):
    """A library's index lies where the member for a name doesn't define it. The least input is told, and its least name by bytes."""
    for number in sorted(added):
        lies = set(added[number]) - defined_names(numbered[number].object)
        if lies:
            raise Fault("input %d: index names %s, which is not defined" % (number, min(lies, key=str.encode)))
