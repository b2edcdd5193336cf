"""What frontends say to a widget: updates of its state, requests for that, and what is for its own code."""

from __future__ import annotations

import logging
from collections.abc import Callable
from typing import Any, NamedTuple

from rolgunai import Outcome, _widgets, old_widgets
from rolgunai._calls import DELIVERED, Calls, Pack
from rolgunai._kernel import NOT_PLAYABLE, Comm, Message
from rolgunai._last_word import LastWord
from rolgunai._native import Turns, Watch, copied
from rolgunai._update import Parts, roots_of

Data = dict[str, Any]


class Hearing(NamedTuple):
    """How the hub hears any message."""

    play: Callable[[str, Message, Data, Any], Outcome | None]  # plays one; None where it is refused, which is logged
    is_done: Callable[[str, Data, Outcome], bool]  # whether one was taken that was played; a refusal is logged
    deliver: Callable[[Comm, Message], None]  # calls the comm's callback


class WidgetMessages:
    """Has the manager play what a widget is told, then the widget's callback, and then gives the widget the last word.
    Messages in version 1 of the protocol are played in version 2."""

    def __init__(
        self, calls: Calls, turns: Turns, last_word: LastWord, pack: Pack, hearing: Hearing, log: logging.Logger
    ) -> None:
        self._calls, self._turns, self._last_word, self._pack = calls, turns, last_word, pack
        self._hearing, self._deliver, self._log = hearing, hearing.deliver, log
        self._old, self._end, self._play_update = calls.old, last_word.end, calls.hear_update

    def hear(self, comm: Comm, msg: Message, content: Data, data: Data) -> None:
        """Hears a `comm_msg` with this content and data."""
        method = data.get("method")
        if method == "request_state":
            self._state_request(comm, msg, content)
        elif method == "update":
            self._hear_update(comm, msg, content, data.get("state"), data.get("buffer_paths") or ())
        elif method == "backbone":
            state, paths = old_widgets.update_of(data)
            content = {**content, "data": {"method": "update", "state": state, "buffer_paths": paths}}
            self._hear_update(comm, msg, content, state, paths)
        else:
            self._hear_other(comm, msg, content, ())

    def _hear_other(self, comm: Comm, msg: Message, content: Data, buffers: Any) -> None:
        if self._hearing.play("comm_msg", msg, content, buffers) is not None:
            self._deliver(comm, msg)

    def _hear_update(self, comm: Comm, msg: Message, content: Data, state: Any, paths: Any) -> None:
        """Hears an update that isn't a plain one: the widget is asked for its keys."""
        buffers = msg.get("buffers") or ()
        if not (isinstance(state, dict) and isinstance(paths, (list, tuple))):
            # One that has no state tells nothing, and what is none is refused.
            self._hear_other(comm, msg, content, buffers)
            return
        keys = _widgets.keys_of(comm)
        if keys is not None:
            state, paths, buffers = _widgets.known_part(state, paths, buffers, keys)
        comm_id = content["comm_id"]
        try:
            held = copied(state)
            text = self._pack({**content, "data": {"method": "update", "state": state, "buffer_paths": paths}})
        except NOT_PLAYABLE as error:
            self._log.warning("comm_msg: %s", error)
            return
        self.update(comm, msg, comm_id, text, held, (paths, roots_of(paths), buffers), keys)

    def update(
        self,
        comm: Comm,
        msg: Message,
        comm_id: str,
        text: bytes,
        held: Data,
        parts: Parts | None,
        keys: frozenset[str] | None = None,
    ) -> None:
        """Hears an update, of which `text` is the content and `held` a copy of its state. The widget has these keys,
        where it was asked for them."""
        watch = Watch(comm_id, self._end)
        if keys is not None:
            watch.keys = keys
        try:
            try:
                refused = self._turns.call(self._play_update, watch, msg, text, held, parts)
            except NOT_PLAYABLE as error:
                self._log.warning("comm_msg: %s", error)
                return
            if refused is not None and not self._hearing.is_done("comm_msg", {"comm_id": comm_id}, refused):
                return
            told = [*held]
            if comm_id in self._old:
                msg = old_widgets.for_kernel(msg)
            self._deliver(comm, msg)
            if watch.is_crossed:  # an echo of ipywidgets' may have gone out after what another thread said
                watch.held = {}
            self._last_word.say(comm, watch, told)
        finally:
            self._end(watch)

    def _state_request(self, comm: Comm, msg: Message, content: Data) -> None:
        """The widget answers, as it does in ipywidgets, and so has a say in what of it goes out. Where it says nothing
        the manager answers with what it has, which is what the frontends were told."""
        with self._last_word.watch(comm.comm_id) as watch:
            self._turns.call(self._calls.watches.begin, watch, {})
            self._deliver(comm, msg)
            self._last_word.say(comm, watch, list(watch.held))
        if not watch.is_answered:
            self._hearing.play("comm_msg", msg, content, ())
