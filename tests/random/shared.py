"""The steps of the link of a shared output, from its names on."""

from exports import exports_of, refuse_repeated_exports
from foreign import SharedMeanings
from liveness import Liveness
from objects import DATUM
from position_independence import refuse_absolute
from shared_layout import SharedLayout
from shared_numbering import SharedNumbering
from shared_writing import SharedWriter
from stores import has_stores


def shared_module(names, options):
    liveness = shared_liveness(names, options)
    refuse_repeated_exports(liveness.exports, options)
    refuse_absolute(liveness)
    liveness.refuse_unresolved()
    layout = SharedLayout(names.objects, liveness.of_kind(DATUM), options)
    return SharedWriter(liveness, layout, SharedNumbering(liveness), options).module()


def shared_liveness(names, options):
    """The functions of constructors and of stores are exported, each where it has work, since the loader calls them."""
    meanings = SharedMeanings(names)
    called = ["__wasm_call_ctors"] if names.init_functions() else []
    liveness = Liveness(names, meanings, exports_of(names, options, called), options)
    if has_stores(liveness):
        called.append("__wasm_apply_data_relocs")
    return Liveness(names, meanings, exports_of(names, options, called), options)
