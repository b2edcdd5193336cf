"""What a widget of Python's holds, beside what the manager has of it: the kernel has the last word.

A widget is known by what it does: the method that it gave its comm's `on_msg` is bound to an object with `keys` and
`get_state(key)`, as ipywidgets' are.
"""

from __future__ import annotations

import weakref
from collections.abc import Callable, Iterable, Sequence
from typing import Any

from rolgunai._native import trait

Data = dict[str, Any]
Keys = frozenset[str]
_NUMBERS = (int, float)
_BYTES = (bytes, bytearray, memoryview)
_PLAIN = frozenset((int, float, str, bool, bytes, type(None)))
_OF_IPYWIDGETS = "ipywidgets.widgets.widget"
# A set for each class, and not for each of its widgets.
_keys_of_classes: weakref.WeakKeyDictionary[type, Keys] = weakref.WeakKeyDictionary()


def widget_of(comm: Any) -> Any:
    """The widget that a comm is of, or None."""
    owner: Any = getattr(trait(comm, "_msg_callback", None), "__self__", None)
    if owner is None or not callable(getattr(owner, "get_state", None)):
        return None
    keys = getattr(owner, "keys", None)
    return None if keys is None or callable(keys) else owner


def keys_of(comm: Any) -> Keys | None:
    """The keys of the widget that a comm is of, or None."""
    widget = widget_of(comm)
    if widget is None:
        return None
    keys = frozenset(widget.keys)
    shared = _keys_of_classes.setdefault(type(widget), keys)
    return shared if shared == keys else keys


def known_part(
    state: Data, paths: Sequence[Any], buffers: Sequence[Any], known: Keys
) -> tuple[Data, Sequence[Any], Sequence[Any]]:
    """An update's state, paths and buffers with those keys alone that the widget has, as ipywidgets takes it: the
    manager is told of no other."""
    strange = [path for path in paths if isinstance(path, list) and _is_strange(path, known)]
    state = {key: value for key, value in state.items() if key in known}
    buffers = [buffer for place, buffer in enumerate(buffers) if place >= len(paths) or paths[place] not in strange]
    return state, [path for path in paths if path not in strange], buffers


def _is_strange(path: list[Any], known: Keys) -> bool:
    return bool(path) and isinstance(path[0], str) and path[0] not in known


def separated(value: Any, path: list[Any], paths: list[list[Any]], buffers: list[Any]) -> Any:
    """A state without its bytes, whose paths and buffers are appended."""
    if isinstance(value, dict):
        kept = {}
        for key, item in value.items():
            if isinstance(item, _BYTES):
                paths.append([*path, key])
                buffers.append(item)
            else:
                kept[key] = separated(item, [*path, key], paths, buffers)
        return kept
    if isinstance(value, (list, tuple)):
        items: list[Any] = []
        for place, item in enumerate(value):
            if isinstance(item, _BYTES):
                paths.append([*path, place])
                buffers.append(item)
                items.append(None)
            else:
                items.append(separated(item, [*path, place], paths, buffers))
        return items
    return value


def same(one: Any, other: Any) -> bool:
    """Whether two values are the same to a frontend: 3 and 3.0 are, and neither 1 and true nor a text and its bytes."""
    if one is other:
        return True
    if isinstance(one, bool) or isinstance(other, bool):
        return False
    if isinstance(one, _NUMBERS) and isinstance(other, _NUMBERS):
        return one == other or (one != one and other != other)  # nan
    if one is None or other is None:
        return False
    if isinstance(one, str) and isinstance(other, str):
        return one == other
    if isinstance(one, _BYTES) and isinstance(other, _BYTES):
        return _flat(one) == _flat(other)
    if isinstance(one, (list, tuple)) and isinstance(other, (list, tuple)):
        return len(one) == len(other) and all(map(same, one, other))
    if isinstance(one, dict) and isinstance(other, dict):
        return one.keys() == other.keys() and all(same(item, other[key]) for key, item in one.items())
    return False


def _flat(buffer: Any) -> bytes:
    """Bytes are compared by one call of C; Python has another for each byte of two views."""
    return buffer if isinstance(buffer, bytes) else memoryview(buffer).tobytes()


def differences(widget: Any, keys: Iterable[str] | None, held: Data, plain: Callable[[Any], Any]) -> Data:
    """What the widget holds of these keys, or of all, where it differs from what the manager has of them. `plain` makes
    of a value what a frontend would read."""
    if keys is None:
        holds = widget.get_state()
    else:
        asked = [key for key in keys if not (key in held and _is_plainly(widget, key, held[key]))]
        if not asked:
            return {}
        known = widget.keys
        # Of several keys at once, Debian's ipywidgets 6 fails.
        holds = {key: widget.get_state(key)[key] for key in asked if key in known}
    return {key: value for key, value in holds.items() if not (key in held and _is_told(held[key], value, plain))}


def _is_told(held: Any, value: Any, plain: Callable[[Any], Any]) -> bool:
    return same(held, value) or _is_read_as(held, value, plain)


def _is_plainly(widget: Any, key: str, held: Any) -> bool:
    """Whether a trait of ipywidgets' has this number, text or bytes, and is sent as it is: `get_state` takes longer to
    say."""
    kind = type(widget)
    if kind.get_state.__module__ != _OF_IPYWIDGETS or kind._trait_to_json.__module__ != _OF_IPYWIDGETS:
        return False
    value = getattr(widget, key, widget)  # nothing plain, where it has no such key
    return type(value) in _PLAIN and same(held, value) and widget.trait_metadata(key, "to_json") is None


def _is_read_as(held: Any, value: Any, plain: Callable[[Any], Any]) -> bool:
    """Whether a value that is none of JSON's, as an enumeration or an array, is read as what the manager has."""
    try:
        return same(held, plain(value))
    except (TypeError, ValueError):
        return False
