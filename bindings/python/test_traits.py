"""What `trait` gives of traits is what getattr gives, whichever class has them.

test_traits.py PACKAGE, the folder where the package is built.
"""

import sys

sys.path.insert(0, sys.argv[1])

import traitlets
from checks import check, run
from ipykernel.comm import Comm
from ipykernel.ipkernel import IPythonKernel
from rolgunai._native import trait
from rolgunai._traits import know

NAMES = ("comm_id", "kernel", "log", "target_name", "_closed", "_msg_callback", "nothing")


class Plain(traitlets.HasTraits):
    comm_id, target_name = traitlets.Unicode("a"), traitlets.Unicode()
    kernel, _closed = traitlets.Any(), traitlets.Bool(True)


class Sub(Plain):
    log = "no trait"


class Dynamic(Plain):
    @traitlets.default("_closed")
    def _is_closed(self):
        return False

    @traitlets.default("comm_id")
    def _its_id(self):
        return "made"


class Got(traitlets.Unicode):
    def get(self, owner, kind=None):
        return "got"


class Own(Plain):
    comm_id = Got()


class Property(Plain):
    comm_id = property(lambda self: "a property")


class Attributes(Plain):
    def __getattribute__(self, name):
        return "any" if name in NAMES else super().__getattribute__(name)


class Alone:
    comm_id = "of no traits"


KINDS = Plain, Sub, Dynamic, Own, Property, Attributes, Alone


def what_getattr_gives():
    for kind in KINDS:
        know(kind)
        names = [(name, "default") for name in NAMES]
        wanted = [getattr(kind(), *words) for words in names]
        check(f"of a new {kind.__name__}", [trait(kind(), *words) for words in names], wanted)
        one, other = kind(), kind()
        for it in (one, other):
            if kind not in (Property, Own):
                it.comm_id = "b"
            it._closed, it.kernel = False, kind
        wanted = [getattr(one, *words) for words in names]
        check(f"of a {kind.__name__} that was changed", [trait(other, *words) for words in names], wanted)


def the_shorter_way():
    """How often traitlets is asked for a value that isn't set."""
    own_get, asked = traitlets.TraitType.get, []

    def get(self, owner, kind=None):
        asked.append(self.name)
        return own_get(self, owner, kind)

    traitlets.TraitType.get = get
    try:
        for kind, wanted in ((Plain, 0), (Sub, 1), (Dynamic, 1), (Own, 1), (Property, 1)):
            made = kind()
            asked.clear()
            trait(made, "_closed")
            check(f"a {kind.__name__}'s value", len(asked), wanted)
    finally:
        traitlets.TraitType.get = own_get


def ipykernels_own():
    for kind in (IPythonKernel, Comm):
        know(kind)
        names = [name for name in (*NAMES, "session", "shell", "iopub_socket") if hasattr(kind, name)]
        one = kind(comm_id="a", primary=False) if kind is Comm else kind()
        wanted = [getattr(one, name) for name in names]
        check(f"of ipykernel's {kind.__name__}", [trait(one, name) for name in names], wanted)


sys.exit(run(what_getattr_gives, the_shorter_way, ipykernels_own))
