"""What is said of a widget's state."""

from __future__ import annotations

import operator
from collections.abc import Callable, Iterable, Sequence
from typing import Any

# The state and the paths as JSON, with what of them is asked for later, when the data that they were written of may be
# others: the keys of the state, and the key that each buffer lies under; and the buffers.
Update = tuple[bytes, bytes, Sequence[str], Sequence[str], Sequence[Any]]
# What a state has besides: the paths of its buffers, the key that each lies under, and the buffers.
Parts = tuple[Sequence[Any], Sequence[Any], Sequence[Any]]
NO_PARTS: Parts = ((), (), ())
_first = operator.itemgetter(0)


def update_of(state: Any, paths: Any, buffers: Any, pack: Callable[[Any], bytes]) -> Update:
    """An update with this state, and buffers at these paths; either may be None. Raises what `pack` does."""
    text = b"{}" if state is None else pack(state)
    keys = tuple(state) if isinstance(state, dict) else ()
    if not paths:
        return text, b"[]", keys, (), list(buffers) if buffers else ()
    return text, pack(paths), keys, roots_of(paths), list(buffers or ())


def roots_of(paths: Iterable[Any]) -> list[Any]:
    """The first step of each path; of what are none, which the manager refuses, no matter what."""
    try:
        return [*map(_first, paths)]
    except (TypeError, LookupError):
        return []
