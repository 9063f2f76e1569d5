"""The steps of a link in a row."""

from exports import exports_of, refuse_repeated_exports
from layout import Layout
from liveness import Liveness
from loading import loaded_objects
from made_symbols import made_symbols
from meanings import Meanings
from names import Names
from numbering import Numbering
from objects import DATUM
from shared import shared_module
from writing import Writer


def link(candidates, options):
    """The module's bytes; a link that is refused raises a Fault, the first one that applies."""
    objects = loaded_objects(candidates, options)
    names = Names(objects, made_symbols(options))
    names.refuse_clashes()
    names.refuse_duplicates()
    return shared_module(names, options) if options.shared else plain_module(names, options)


def plain_module(names, options):
    exports = exports_of(names, options)
    refuse_repeated_exports(exports, options)
    liveness = Liveness(names, Meanings(names, options.allow_undefined), exports, options)
    liveness.refuse_unresolved()
    layout = Layout(names.objects, liveness.of_kind(DATUM), options)
    return Writer(liveness, layout, Numbering(liveness), options).module()
