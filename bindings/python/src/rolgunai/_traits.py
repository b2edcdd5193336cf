"""Traits of ipykernel's objects: `trait(object, name)` is what getattr gives, by a shorter way where it is the same."""

from __future__ import annotations

from typing import Any

from traitlets import Bool, HasTraits, TraitType

from rolgunai._native import know_traits

# What the package asks of kernels, their comm managers and comms.
_NAMES = ("comm_id", "iopub_socket", "kernel", "log", "session", "shell", "target_name", "_closed", "_msg_callback")


def know(kind: Any) -> None:
    """Has `trait` read the traits of objects of just this class where their values lie, if that is all that the class
    itself does: each of the names is a plain trait of it, or none of it. One that is true or false may have no value
    yet, and then it is what the class says, which takes traitlets as long as all else that is done for an open."""
    is_plain = issubclass(kind, HasTraits) and kind.__getattribute__ is object.__getattribute__
    if not is_plain or not all(_is_plain(getattr(kind, name, None), name) for name in _NAMES):
        return
    found = {name: getattr(kind, name, None) for name in _NAMES if _is_static(kind, name)}
    know_traits(kind, {name: it.default_value for name, it in found.items() if type(it) is Bool})


def _is_plain(found: Any, name: str) -> bool:
    """Whether what a class has by a name is nothing, or a trait whose value is given as it lies there."""
    if found is None:
        return True
    kind: Any = type(found)
    if not isinstance(found, TraitType) or found.name != name:
        return False
    return kind.__get__ is TraitType.__get__ and kind.get is TraitType.get


def _is_static(kind: Any, name: str) -> bool:
    """Whether no function of a class makes what a trait begins with."""
    makes_it = any(name in vars(each).get("_trait_default_generators", ()) for each in kind.__mro__)
    return not makes_it and not hasattr(kind, f"_{name}_default")
