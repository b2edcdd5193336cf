"""What a page asks for that is loaded: the states of all widgets, by `request_states` on ipywidgets' control comm.

The hub answers in the place of ipywidgets, which walks a table of its own meanwhile that other threads change, and then
gives no answer at all.
"""

from __future__ import annotations

from collections.abc import Iterable
from typing import Any

from rolgunai._calls import Calls, Pack
from rolgunai._kernel import CONTROL, WIDGET, Comm
from rolgunai._last_word import LastWord
from rolgunai._native import Turns

_OF_IPYWIDGETS = "ipywidgets.widgets.widget"
_NAMES = ("model_name", "model_module", "model_module_version")


def asks_for_states(comm: Comm, data: Any) -> bool:
    """Whether this is said on a control comm of ipywidgets', and is no message to a target of another's."""
    if comm.target_name != CONTROL or not isinstance(data, dict) or data.get("method") != "request_states":
        return False
    return getattr(getattr(comm, "_msg_callback", None), "__module__", None) == _OF_IPYWIDGETS


class PageLoads:
    """Answers by the states that the manager has, once it has what the widgets hold."""

    def __init__(self, calls: Calls, turns: Turns, last_word: LastWord, pack: Pack) -> None:
        self._calls, self._turns, self._last_word, self._pack = calls, turns, last_word, pack

    def answer(self, control: Comm, comms: Iterable[Comm], parent: Any) -> None:
        """Says on the control comm what all widgets hold. These are the comms that are open."""
        for comm in comms:
            if comm.target_name == WIDGET:
                self._last_word.ask(comm)
        self._turns.call(self._say_states, control, parent)

    def _say_states(self, control: Comm, parent: Any) -> None:
        """All in one call, so that no update of another thread goes out between a state's reading and its sending."""
        states: dict[str, Any] = {}
        paths: list[list[Any]] = []
        buffers: list[Any] = []
        for comm_id, target_name in self._calls.open_comms.items():
            told = self._calls.state(comm_id) if target_name == WIDGET else None
            if told is None or not all(isinstance(told[0].get(f"_{name}"), str) for name in _NAMES):
                continue
            state, its_paths, its_buffers = told
            states[comm_id] = {**{name: state[f"_{name}"] for name in _NAMES}, "state": state}
            paths += [[comm_id, "state", *path] for path in its_paths]
            buffers += its_buffers
        data = {"method": "update_states", "states": states, "buffer_paths": paths}
        content = self._pack({"comm_id": control.comm_id, "data": data})
        self._calls.say("comm_msg", control.comm_id, content, {}, buffers, parent)
