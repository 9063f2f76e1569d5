"""What is exported, in which order and by which names."""

from dataclasses import dataclass

from inputs import Fault
from meanings import Definition
from names import Entry
from objects import *


@dataclass
class Export:
    title: str
    winner: Entry

    @property
    def definition(self):
        return Definition(*self.winner.at)


def exports_of(names, options, more=()):
    """The exports by their winners' inputs and places. An asked name without a winner is left to the unresolved ones."""
    winners = [names.winners[one] for one in exported_names(names, options) | set(more) if one in names.winners]
    return [Export(export_title(names.objects, one), one) for one in sorted(winners, key=lambda one: one.at)]


def exported_names(names, options):
    asked = [] if options.entry is None else [options.entry]
    exported = {*asked, *options.exports, *options.exports_if_defined}
    for name, winner in names.winners.items():
        dynamic = options.export_dynamic and not winner.flags & HIDDEN
        if winner.input > 0 and (winner.flags & EXPORTED or dynamic):
            exported.add(name)
    return exported


def export_title(objects, winner):
    """The symbol's name, or the last name by which a function's own object exports it."""
    if winner.input == 0 or winner.kind != FUNCTION:
        return winner.name
    object = objects[winner.input]
    function = object.symbols[winner.place].where
    titles = [title for title, kind, where in object.exports if kind == 0 and where == function]
    return titles[-1] if titles else winner.name


def refuse_repeated_exports(exports, options):
    """The first export whose name an earlier one has is told; an own memory is exported first, as of input 0."""
    inputs = {"memory": 0} if options.own_memory else {}
    for export in exports:
        if export.title in inputs:
            raise Fault("duplicate %s: input %d and input %d" % (export.title, inputs[export.title], export.winner.input))
        inputs[export.title] = export.winner.input
