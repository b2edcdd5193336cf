"""Version 1 of the widget protocol, translated at the edge: the manager speaks version 2.

ipywidgets 6 and its browser side, as Debian 12 has them, speak version 1, in which the data of an open is the state, a
frontend's update has the method `backbone`, and buffers stand at the top of a state, by their keys. Nothing else of the
package knows of it. Here `kernel` is the side of Python, `frontend` that of the browser.
"""

from __future__ import annotations

import json
from collections.abc import Sequence
from typing import Any

from rolgunai._native import write

Data = dict[str, Any]
_PATHS = b'"data":{"buffer_paths":'
_decoder = json.JSONDecoder()


def is_old_open(data: Any) -> bool:
    """Whether the data of an open by the kernel is a widget's state itself."""
    return isinstance(data, dict) and "_model_name" in data and "state" not in data


def is_old_ask(data: Any) -> bool:
    """Whether a frontend asks for a widget of a class, as in version 1."""
    return isinstance(data, dict) and "widget_class" in data and "state" not in data


def open_of(state: bytes) -> bytes:
    """The data of an open by the kernel in version 1, in version 2; both are JSON."""
    return b'{"state":' + state + b',"buffer_paths":[]}'


def paths_of(data: Data) -> list[list[Any]]:
    """The paths of the buffers of an update by the kernel in version 1."""
    keys = data.get("buffers")
    return [[key] for key in keys] if keys else []


def to_kernel(data: Data) -> Data:
    """What a frontend says in version 2, as Python hears it in version 1."""
    if data.get("method") != "update":
        return data
    keys = [path[0] for path in data.get("buffer_paths") or ()]
    return {"method": "backbone", "sync_data": data.get("state"), "buffer_keys": keys}


def for_kernel(msg: dict[str, Any]) -> dict[str, Any]:
    """A message of a frontend's as Python hears it in version 1."""
    content = msg["content"]
    data = content["data"]
    heard = to_kernel(data)
    return msg if heard is data else {**msg, "content": {**content, "data": heard}}


def update_of(data: Data) -> tuple[Any, Any]:
    """The state, and the paths of its buffers, that a frontend says in version 1."""
    keys = data.get("buffer_keys") or ()
    return data.get("sync_data"), [[key] for key in keys] if keys and isinstance(keys, list) else keys


def to_frontend(content: bytes, said: bytes = b"", keys: Sequence[str] = ()) -> bytes:
    """The content of a `comm_msg` with buffers of the manager's in version 2, as a frontend reads it in version 1. One
    without buffers is the same in both. The paths may be those that were said, which these keys begin."""
    before, _, rest = content.partition(_PATHS)  # the manager writes the keys in their order: the paths come first
    if said and rest.startswith(said):
        return before + b'"data":{"buffers":' + write(keys) + rest[len(said) :]
    after = rest.decode()
    paths, end = _decoder.raw_decode(after)
    told = write([path[0] for path in paths])
    return b'%s"data":{"buffers":%s%s' % (before, told, after[end:].encode())
