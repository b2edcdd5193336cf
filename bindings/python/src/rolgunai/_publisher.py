"""What the kernel's code says on its comms."""

from __future__ import annotations

import logging
from collections.abc import Callable
from typing import Any

from rolgunai import _process, old_widgets
from rolgunai._calls import Calls, Pack
from rolgunai._kernel import WIDGET, Comm
from rolgunai._last_word import LastWord
from rolgunai._native import Turns, trait, write_said
from rolgunai._update import Update, update_of

VERSION = {"version": "2.1.0"}


class Publisher:
    """Writes the JSON of what is said, without the lock, and plays it, with it. `comms` are those that the hub has."""

    def __init__(
        self,
        comms: dict[str, Any],
        calls: Calls,
        turns: Turns,
        last_word: LastWord,
        pack: Pack,
        request: Callable[[], Any],
        log: logging.Logger,
    ) -> None:
        self._comms, self._calls, self._turns, self._pack = comms, calls, turns, pack
        self._last_word, self._request, self._log, self._forks = last_word, request, log, _process.forks
        self._open_comms, self._old = calls.open_comms, calls.old

    def publish(
        self, comm: Any, msg_type: str, data: Any = None, metadata: Any = None, buffers: Any = None, **keys: Any
    ) -> None:
        """Plays what the kernel says on a comm, and sends it; not in a forked child, which has no frontends. On a comm
        that isn't open it goes nowhere, as with ipykernel, which sends it to nobody. Metadata, and the data of a close,
        are the caller's: the manager says nothing of them. Raises CommRefused where the manager refuses; ValueError,
        TypeError or RecursionError for what JSON can't have."""
        if _process.forks != self._forks:
            return
        comm_id, parent = trait(comm, "comm_id"), self._request()
        if msg_type == "comm_msg" and isinstance(data, dict) and data.get("method") == "update":
            if (self._open_comms.get(comm_id) or comm.target_name) == WIDGET:
                is_old = comm_id in self._old
                update = write_said(data, is_old, buffers) or self._update_of(data, is_old, buffers)
                self._turns.call_in_turn(self._push, comm, comm_id, update, parent, metadata)
                return
        data, metadata = {} if data is None else data, dict(metadata) if metadata else {}
        buffers = list(buffers) if buffers else []
        if msg_type == "comm_open":
            self._publish_open(comm, comm_id, data, keys, metadata, buffers, parent)
            return
        content = self._pack({"comm_id": comm_id, "data": data, **keys})
        if msg_type == "comm_close":
            self._turns.call_soon(self._close, comm, comm_id, content, metadata, buffers, parent)
        else:
            self._turns.call_in_turn(self._say, comm, msg_type, comm_id, content, metadata, buffers, parent)

    def _update_of(self, data: dict[str, Any], is_old: bool, buffers: Any) -> Update:
        paths = old_widgets.paths_of(data) if is_old else data.get("buffer_paths")
        return update_of(data.get("state"), paths, buffers, self._pack)

    def _push(self, comm: Comm, comm_id: str, update: Update, parent: Any, metadata: Any) -> None:
        is_anothers = self._comms.get(comm_id, comm) is not comm
        if is_anothers or not self._calls.push(comm_id, update, parent, metadata):
            self._goes_nowhere("comm_msg", comm_id)
        elif self._calls.watches.changes_hands(comm_id):
            _, _, keys, roots, _ = update
            self._turns.call_unlocked(self._last_word.ask, comm, (*keys, *roots))

    def _say(
        self, comm: Comm, kind: str, comm_id: str, content: bytes, metadata: Any, buffers: Any, parent: Any
    ) -> None:
        is_anothers = self._comms.get(comm_id, comm) is not comm
        if is_anothers or not self._calls.say(kind, comm_id, content, metadata, buffers, parent):
            self._goes_nowhere(kind, comm_id)

    def _close(self, comm: Comm, comm_id: str, *parts: Any) -> None:
        is_anothers = self._comms.get(comm_id, comm) is not comm
        if is_anothers or not self._calls.close(comm_id, *parts):
            self._goes_nowhere("comm_close", comm_id)

    def _goes_nowhere(self, kind: str, comm_id: str) -> None:
        words = "%s on the comm %s, which isn't open, goes nowhere"
        self._turns.call_unlocked(self._log.debug, words, kind, comm_id)

    def _publish_open(
        self, comm: Comm, comm_id: str, data: Any, keys: Any, metadata: Any, buffers: Any, parent: Any
    ) -> None:
        target_name, paths, is_old = trait(comm, "target_name"), None, False
        named = {"comm_id": comm_id, "target_name": target_name}
        if target_name == WIDGET:
            metadata, is_old = {**VERSION, **metadata}, old_widgets.is_old_open(data)
            content, text = self._open_texts(data, {**keys, **named}, named, is_old)
            paths = data.get("buffer_paths") if isinstance(data, dict) and not is_old else None
        else:
            content, text = self._pack({"comm_id": comm_id, "data": data, **keys}), self._pack(named)
        parts = comm, comm_id, target_name, is_old, content, text, paths, metadata, buffers, parent
        job: Callable[..., object] = self._open
        tell: Callable[..., object] = self._tell_open
        if self._turns.is_amid():
            job, tell = self._open_later, self._tell_open_later
        self._turns.call_in_turn(job, tell, *parts)

    def _open_texts(self, data: Any, keys: Any, named: Any, is_old: bool) -> tuple[bytes, bytes]:
        """The contents of a widget's open for the frontends and for the manager."""
        if not is_old:
            content = self._pack({**keys, "data": data})
            return content, content
        state = self._pack(data)
        played = old_widgets.open_of(state)
        said = state if self._calls.speaks_old(is_old) else played
        return _with_data(self._pack(keys), said), _with_data(self._pack(named), played)

    def _open(self, tell: Callable[..., object], comm: Comm, comm_id: str, target_name: str, *parts: Any) -> None:
        """Opens a comm, and tells the frontends; where one of these fails, neither is done."""
        is_old, content, text, paths, metadata, buffers, parent = parts
        try:
            self._calls.open(comm_id, target_name, text, buffers, paths)
            if is_old:
                self._calls.old.add(comm_id)
            self._turns.send(tell, comm, comm_id, content, metadata, buffers, parent)
        except BaseException as error:
            self._undo_open(comm, error)
            raise

    def _tell_open(self, comm: Comm, *parts: Any) -> None:
        try:
            self._calls.send_now("comm_open", *parts)
        except BaseException as error:
            self._turns.call(self._undo_open, comm, error)
            raise

    def _undo_open(self, comm: Comm, error: BaseException) -> None:
        if self._comms.get(comm.comm_id, comm) is comm:  # else another one has the id by now
            self._calls.drop(comm.comm_id)
            if not isinstance(error, Exception):  # after which the comm doesn't unregister itself
                self._comms.pop(comm.comm_id, None)

    # An open that came amid another call. Where it fails, its maker can't be told any more: the comm is closed.

    def _open_later(self, tell: Callable[..., object], comm: Comm, *parts: Any) -> None:
        try:
            self._open(tell, comm, *parts)
        except BaseException:
            self._give_up(comm)
            raise

    def _tell_open_later(self, comm: Comm, *parts: Any) -> None:
        try:
            self._tell_open(comm, *parts)
        except BaseException:
            self._give_up(comm)
            raise

    def _give_up(self, comm: Comm) -> None:
        self._comms.pop(comm.comm_id, None)
        comm._closed = True


def _with_data(content: bytes, data: bytes) -> bytes:
    """A content that has this data besides; both are JSON."""
    return content[:-1] + b',"data":' + data + b"}"
