"""The kernel has the last word on a widget's state: what the widget holds once callbacks ran, beside what the frontends
were told of it."""

from __future__ import annotations

import functools
import logging
from collections.abc import Callable, Iterable
from typing import Any

from rolgunai import _widgets
from rolgunai._calls import Calls, Pack
from rolgunai._kernel import Comm
from rolgunai._native import Turns, Watch, placed, trait
from rolgunai._update import update_of
from rolgunai._wire import read

_LOOKS = 3


class LastWord:
    """Compares, without the lock, and says what differs by the calls on the manager, with it. `request()` is the
    message that the kernel's code runs for."""

    def __init__(self, calls: Calls, turns: Turns, pack: Pack, request: Callable[[], Any], log: logging.Logger) -> None:
        self._calls, self._turns, self._pack, self._request, self._log = calls, turns, pack, request, log
        self.end = functools.partial(turns.call, calls.end_watch)

    def watch(self, comm_id: str) -> Watch:
        """A context for callbacks to run in. Once it is begun, what the kernel says of the comm's state counts as what
        the manager has. When they are through nobody changes any more the buffers that they were handed."""
        return Watch(comm_id, self.end)

    def say(self, comm: Comm, watch: Watch, keys: Iterable[str] | None = None) -> None:
        """What the widget holds of the keys, or of all, goes to the manager and to every frontend where it isn't what
        they were told: a value that was refused, clamped, made another, or changed in place. Once it went, it is looked
        at again, since another thread may have said something else meanwhile: who says the last word looks last."""
        widget = _widgets.widget_of(comm)
        if widget is None or trait(comm, "_closed"):
            return
        try:
            looks = 0
            while looks < _LOOKS:
                times = watch.times
                differ = _widgets.differences(widget, keys, watch.held, self._plain)
                if not differ:
                    return
                paths: list[list[Any]] = []
                buffers: list[Any] = []
                state = _widgets.separated(differ, [], paths, buffers)
                update = update_of(state, paths, buffers, self._pack)
                if not self._turns.call(self._calls.push, comm.comm_id, update, self._request()):
                    return
                looks += watch.times <= times + 1  # else another thread said something meanwhile
        except Exception:
            self._log.warning("The state of %s couldn't be compared", comm.comm_id, exc_info=True)

    def ask(self, comm: Comm, keys: Iterable[str] | None = None) -> None:
        """Has the manager have what the widget holds of the keys, or of all, as where it was changed in place."""
        if _widgets.widget_of(comm) is None:
            return
        with self.watch(comm.comm_id) as watch:
            self._turns.call(self._begin_as_told, watch)
            self.say(comm, watch, keys)

    def _begin_as_told(self, watch: Watch) -> None:
        told = self._calls.state(watch.comm_id)
        self._calls.watches.begin(watch, {} if told is None else placed(*told))

    def _plain(self, value: Any) -> Any:
        """A value as a frontend reads it."""
        return read(self._pack(value))
