"""Which chunks are live: those to which references lead from the roots. Also the live references that mean nothing."""

from typing import NamedTuple

from chunks import CONSTRUCTORS, Chunk, windows_of
from inputs import Fault
from meanings import UNRESOLVED, Definition
from objects import *


class Reference(NamedTuple):
    """A relocation's type, and the symbol that it names in its input."""

    relocation: int
    input: int
    place: int


class Liveness:
    def __init__(self, names, meanings, exports, options):
        self.names, self.meanings, self.exports, self.options = names, meanings, exports, options
        self.chunks = self.reached(self.roots())

    def references(self, chunk):
        """Those of windows on symbols. The function of constructors calls the init functions."""
        if chunk == CONSTRUCTORS:
            return [Reference(FUNCTION_INDEX_LEB, input, place) for input, place in self.names.init_functions()]
        if chunk.input == 0:
            return []
        windows = [window for _, window in windows_of(self.names.objects, chunk)]
        return [Reference(one.kind, chunk.input, one.target) for one in windows if one.kind != TYPE_INDEX_LEB]

    def meaning(self, reference):
        return self.meanings.of_reference(reference)

    def roots(self):
        """The exports, winners with NO_STRIP and segments with RETAIN. Where the dead aren't dropped, all chunks of objects are roots."""
        roots = {self.meanings.chunk(one.definition) for one in self.exports}
        for winner in self.names.winners.values():
            if winner.flags & NO_STRIP:
                roots.add(self.meanings.chunk(Definition(*winner.at)))
        for input, object in self.names.objects.items():
            retained = {Chunk(DATUM, input, place) for place, info in enumerate(object.infos) if info.flags & RETAIN}
            roots |= retained if self.options.drop_dead else all_chunks(input, object)
        return roots - {None} - self.names.dropped

    def reached(self, roots):
        live, waiting = set(), list(roots)
        while waiting:
            chunk = waiting.pop()
            if chunk not in live:
                live.add(chunk)
                targets = [self.meanings.chunk(self.meaning(one)) for one in self.references(chunk)]
                waiting += [one for one in targets if one]
        return live

    def of_kind(self, kind):
        """The live chunks of a kind by input and place, linker-made ones first."""
        return sorted(one for one in self.chunks if one.kind == kind)

    def live_references(self):
        return [one for chunk in sorted(self.chunks) for one in self.references(chunk)]

    def refuse_unresolved(self):
        """The entry is told first, then exported names in word order, then the least symbol that a live chunk names and that means nothing."""
        asked = [] if self.options.entry is None else [self.options.entry]
        for name in asked + self.options.exports:
            if name not in self.names.winners:
                raise Fault("input 0: unresolved " + name)
        unresolved = [(one.input, one.place) for one in self.live_references() if self.meaning(one) is UNRESOLVED]
        if unresolved:
            input, place = min(unresolved)
            raise Fault("input %d: unresolved %s" % (input, self.meanings.symbol(input, place).title))


def all_chunks(input, object):
    counts = ((FUNCTION, len(object.functions)), (DATUM, len(object.segments)), (GLOBAL, len(object.globals)))
    return {Chunk(kind, input, place) for kind, count in counts for place in range(count)}
