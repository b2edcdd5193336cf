"""The comm manager of a kernel in Python over the proved one, whatever the kernel is.

Which comms are open, whom a message goes to, what state a widget has and what goes out is said by the proved `Manager`
alone. A `Hub` keeps what that can't have: the callbacks of targets and comms. It knows neither ipykernel nor `comm`,
and is handed how to send; `rolgunai.comms` has what makes it a kernel's comm manager.

    >>> from rolgunai.hub import Hub
    >>> class Comm:
    ...     _closed = False
    ...     def __init__(self, comm_id, target_name, **_):
    ...         self.comm_id, self.target_name = comm_id, target_name
    ...     def on_msg(self, callback):
    ...         self.handle_msg = callback
    >>> def send(msg_type, comm_id, content, metadata, buffers, parent):
    ...     print(msg_type, content.decode())
    >>> hub = Hub(send, lambda: None, Comm)

A frontend opens a comm of a target of the user's, and says something; the kernel answers:

    >>> def opened(comm, message):
    ...     comm.on_msg(lambda message: hub.publish(comm, "comm_msg", {"twice": 2 * message["content"]["data"]}))
    >>> hub.register_target("doubler", opened)
    >>> def message(**content):
    ...     return {"metadata": {}, "content": content, "buffers": []}
    >>> hub.comm_open(None, None, message(comm_id="a", target_name="doubler", data={}))
    >>> hub.comm_msg(None, None, message(comm_id="a", data=0.5))
    comm_msg {"comm_id":"a","data":{"twice":1.0}}

A comm that the kernel opens is opened in the manager by its `comm_open`, as a frontend's is, so that any id and any
target are as the kernel has them.

Threads. Any thread may call, and hear callbacks: the manager is one that threads share, each by a client of its own.
The hub has one lock (`Turns`), and a line of what is to be sent:

- The lock is over one change at a time, the call on the manager with what the hub notes of it: which comms are open, of
  which target, by which version of the protocol, and which of them a frontend closed; which targets the manager knows;
  long buffers; watches. So these tables are as the manager is for who has the lock, and nobody else changes them. Who
  hasn't looks up one entry at most, and the manager has the say.
- `comms` and `targets` the kernel's code may change as well, at any time. One step on a dict is whole in CPython; what
  takes two, as where a comm gives way to another of its id, is made under the lock.
- Reads need no lock: `comm_info` is one, by the thread's client. The states that a page asks for are read under it,
  since they have to go out between the changes before them and those after.
- What a change sends is put in line under the lock, so that the line is in the order of the changes' numbers, and is
  sent without. One thread sends at a time, also what others have put in line before. Who says something goes on once it
  is out, so that what it sends by itself then, as the output that shows a widget, comes after it.
- No callback, widget, log or `send` is called under the lock, since they are others' code: it may take locks of its
  own, wait for a thread that says something, or say something itself. The lock is taken, held and given back in one
  function of C, which no interrupt ends, and a call of C on the manager is all that may take long under it.
- A close waits for nobody, neither for the lock nor for what is in line: where another call is under way it comes right
  after that one, on whichever thread. So `__del__` may close a comm at any moment. What is said, or comes from a
  frontend in the same process, amid a call or a sending of its own thread is handled when that is through.

Where two threads speak of a widget's state, each looks afterwards whether what the frontends were told last is what the
widget holds, and puts it right: what one says it may have read before the other set it.
"""

from __future__ import annotations

import contextlib
import logging
import pkgutil
import weakref
from collections.abc import Callable
from typing import Any

from rolgunai import Outcome, Reason, _process, old_widgets
from rolgunai._callbacks import Callbacks
from rolgunai._calls import CLOSED, DONE, NO_COMM, NOTHING, OPENED, Calls, Pack
from rolgunai._kernel import NOT_PLAYABLE, WIDGET, Comm, CommRefused, Message, Send
from rolgunai._last_word import LastWord
from rolgunai._native import Turns, Watch, read_update, trait
from rolgunai._page_loads import PageLoads, asks_for_states
from rolgunai._publisher import VERSION, Publisher
from rolgunai._widget_messages import Hearing, WidgetMessages
from rolgunai._wire import packer

__all__ = ["CommRefused", "Hub"]

def _object(content: Any) -> dict[str, Any]:
    """The content of a message; one that isn't an object counts as empty, and is refused."""
    return content if isinstance(content, dict) else {}


class Hub:
    """A comm manager; the module says more.

    `send(msg_type, comm_id, content, metadata, buffers, parent)` sends to all frontends: the content is JSON, the
    metadata a dict. `request()` is the message that the kernel's code runs for, `make(comm_id=, target_name=,
    primary=)` makes a comm that a frontend opens, and `pack` writes JSON. `is_old_browser` says whether the browser
    side of widgets that speak version 1 of the protocol in Python speaks that too. `comm_log` is where it is told what
    ipykernel and `comm` tell: errors in callbacks, and messages to no comm; `log` has what the manager refuses.
    `handle(comm, msg)` has a comm handle a message, in the place of its `handle_msg`.

    `publish(comm, msg_type, data, metadata, buffers, **keys)` is what the kernel's code says on a comm: help() of it
    says more.
    """

    comms: dict[str, Any]
    targets: dict[str, Any]
    log: Any

    def __init__(
        self,
        send: Send,
        request: Callable[[], Any],
        make: Callable[..., Any],
        *,
        pack: Pack | None = None,
        is_old_browser: bool = True,
        comm_log: logging.Logger | None = None,
        handle: Callable[[Any, Message], object] | None = None,
    ) -> None:
        if not hasattr(self, "log"):
            self.log = logging.getLogger("rolgunai")
        self.comms, self.targets = {}, {}
        self._request, self._make, self._pack = request, make, pack or packer()
        self._comm_log = comm_log or self.log
        self._callbacks = Callbacks(self._comm_log, handle)
        self._turns, self._forks = Turns(self._failed_later), _process.forks
        self._calls = Calls(send, self._turns, self._pack, lambda: self.targets, is_old_browser)
        self._open_comms, self._keys = self._calls.open_comms, self._calls.watches.keys
        self._last_word = LastWord(self._calls, self._turns, self._pack, request, self.log)
        self._page_loads = PageLoads(self._calls, self._turns, self._last_word, self._pack)
        hearing = Hearing(self._play, self._is_done, self._callbacks.heard)
        self._widget_messages = WidgetMessages(self._calls, self._turns, self._last_word, self._pack, hearing, self.log)
        self._hear_update = self._widget_messages.update
        # What is done, under the lock, for each kind of a frontend's messages.
        self._hearing: dict[str, Callable[..., Outcome]] = {
            "comm_open": self._hear_open,
            "comm_msg": self._calls.hear,
            "comm_close": self._hear_close,
        }
        # What the kernel's code says on a comm: each of its messages comes this way, which is a short one.
        self.publish = Publisher(
            self.comms, self._calls, self._turns, self._last_word, self._pack, request, self.log
        ).publish
        self._closed_by_frontends: weakref.WeakSet[Any] = weakref.WeakSet()

    def _failed_later(self, error: Exception) -> None:
        self.log.warning("A call that came amid another one failed", exc_info=error)

    # Targets and comms, as the kernel's code has them.

    def register_target(self, target_name: str, f: Any) -> None:
        """Has f(comm, message) called when a frontend opens a comm of the target; f may be the path of a function. One
        that is registered again has another callback from then on, and its comms stay."""
        self.targets[target_name] = pkgutil.resolve_name(f) if isinstance(f, str) else f

    def unregister_target(self, target_name: str, f: Any) -> Any:
        """Takes the target out, and gives its callback. Its comms stay open. KeyError for one that isn't there."""
        found = self.targets.pop(target_name)
        if not self._is_forked():
            self._turns.call_soon(self._calls.forget_target, target_name)
        return found

    def register_comm(self, comm: Any) -> str:
        """Takes a comm in, and gives its id. Another comm of that id gives way to it. Raises CommRefused where it is
        open and the manager doesn't take it."""
        comm_id: str = trait(comm, "comm_id")
        if self._is_forked():
            self.comms[comm_id] = comm
        else:
            self._turns.call(self._register, comm, comm_id)
        return comm_id

    def _is_forked(self) -> bool:
        """Whether this is a child of the kernel's process. It has no frontends, and a thread that it doesn't have may
        have held a lock when it was forked."""
        return _process.forks != self._forks

    def _register(self, comm: Comm, comm_id: str) -> None:
        other = self.comms.get(comm_id)
        self.comms[comm_id] = comm
        if other is not None and other is not comm:
            other._closed = True
            self._calls.drop(comm_id)
        if comm_id not in self._open_comms:
            self._open_by_hand(comm)

    def _open_by_hand(self, comm: Comm) -> None:
        """Has the manager know a comm that is open and that it doesn't know, as one that was registered by hand."""
        comm_id = trait(comm, "comm_id")
        if comm_id not in self._open_comms and not trait(comm, "_closed", False):
            opened = {"comm_id": comm_id, "target_name": comm.target_name, "data": {"state": {}}}
            self._calls.open(comm_id, comm.target_name, self._pack(opened), ())

    def unregister_comm(self, comm: Any) -> None:
        """Forgets a comm, and never waits. One that is open yet is forgotten by the manager too, and nothing is sent.
        KeyError for one that isn't there, but for one that a frontend has closed meanwhile."""
        comm_id = comm.comm_id
        if self.comms.get(comm_id) is comm and self.comms.pop(comm_id, None) is comm:
            if not comm._closed and not self._is_forked():
                self._turns.call_soon(self._drop, comm_id)
        elif comm not in self._closed_by_frontends:
            raise KeyError(comm_id)

    def _opened_by_hand(self, comm: Comm) -> str:
        """Has the manager know a comm that a frontend speaks to; gives the name of its target."""
        try:
            self._turns.call(self._open_by_hand, comm)
        except NOT_PLAYABLE as error:
            self.log.warning("%s: %s", comm.comm_id, error)
        return comm.target_name

    def _drop(self, comm_id: Any) -> None:
        if isinstance(comm_id, str) and comm_id not in self.comms:
            self._calls.drop(comm_id)

    def get_comm(self, comm_id: str) -> Any:
        """The comm of an id, or None, which is logged."""
        comm = self.comms.get(comm_id)
        if comm is None:
            self._comm_log.warning("No such comm: %s", comm_id)
        return comm

    # What frontends send.

    def comm_open(self, stream: Any, ident: Any, msg: Message) -> None:
        """Plays an open, and calls the target's callback where it is one."""
        self._turns.call_unlocked(self._comm_open, msg)

    def comm_msg(self, stream: Any, ident: Any, msg: Message) -> None:
        """Plays a message, and calls the comm's callback."""
        self._turns.call_unlocked(self._comm_msg, msg)

    def comm_close(self, stream: Any, ident: Any, msg: Message) -> None:
        """Plays a close, and calls the comm's callback for it."""
        self._turns.call_unlocked(self._comm_close, msg)

    def comm_info(self, msg: Message) -> bytes:
        """The content of the reply to a `comm_info_request`, as JSON. It waits for nobody."""
        strange = [comm_id for comm_id in tuple(self.comms) if comm_id not in self._calls.open_comms]
        if strange:
            self._turns.call(self._open_strange, strange)
        content = _object(msg.get("content"))
        target_name = content.get("target_name")
        if target_name is None or isinstance(target_name, str):
            with contextlib.suppress(UnicodeEncodeError):  # half a surrogate pair, which the manager refuses
                return self._calls.infos(target_name)
        return self._turns.call(self._calls.info, self._pack(content))

    def _open_strange(self, comm_ids: list[str]) -> None:
        """Has the manager know those comms that were put among the hub's by hand."""
        for comm_id in comm_ids:
            comm = self.comms.get(comm_id)
            if comm is not None:
                self._open_by_hand(comm)

    def _comm_open(self, msg: Message) -> None:
        content = played = _object(msg.get("content"))
        heard, buffers = msg, msg.get("buffers") or ()
        target_name, data = content.get("target_name"), content.get("data")
        is_old = target_name == WIDGET and old_widgets.is_old_ask(data)
        if is_old:
            played, heard = {**content, "data": {"state": {}}}, {**msg, "metadata": VERSION}
        elif target_name != WIDGET:  # an opaque target, or none
            played, buffers = {"comm_id": content.get("comm_id"), "target_name": target_name}, ()
        if target_name == WIDGET:
            self._widget_open(msg, heard, played, buffers, is_old)
        elif self._play("comm_open", heard, played, buffers) is not None:
            comm = self._comm_of(content)
            if comm is not None:  # else it was closed meanwhile
                self._callbacks.opened(self.targets.get(comm.target_name), comm, msg)

    def _widget_open(self, msg: Message, heard: Message, played: dict[str, Any], buffers: Any, is_old: bool) -> None:
        with self._last_word.watch(str(played.get("comm_id"))) as watch:
            if self._play("comm_open", heard, played, buffers, watch) is None:
                return
            comm = self._comm_of(played)
            if comm is None:
                return
            if is_old:
                self._turns.call(self._calls.note_old, comm.comm_id)
            if self._callbacks.opened(self.targets.get(WIDGET), comm, msg):
                self._last_word.say(comm, watch)

    def _comm_msg(self, msg: Message) -> None:
        update = read_update(msg, self._open_comms, self._keys)
        if update is not None:
            comm_id, text, held, parts = update
            comm = self.comms.get(comm_id)
            if comm is not None:
                self._hear_update(comm, msg, comm_id, text, held, parts)
                return
        self._comm_msg_of_any_kind(msg)

    def _comm_msg_of_any_kind(self, msg: Message) -> None:
        content = _object(msg.get("content"))
        comm, data = self._comm_of(content), content.get("data")
        if comm is None:
            self._play("comm_msg", msg, content, msg.get("buffers"))
            return
        comm_id = content["comm_id"]
        if (self._open_comms.get(comm_id) or self._opened_by_hand(comm)) == WIDGET:
            if isinstance(data, dict):
                self._widget_messages.hear(comm, msg, content, data)
            else:
                self._play("comm_msg", msg, content, msg.get("buffers"))
        elif self._play("comm_msg", msg, {"comm_id": comm_id}, ()) is not None:
            if asks_for_states(comm, data):
                self._page_loads.answer(comm, tuple(self.comms.values()), msg)
            else:
                self._callbacks.heard(comm, msg)

    def _comm_close(self, msg: Message) -> None:
        content = _object(msg.get("content"))
        comm = self._comm_of(content)
        is_closed = self._play("comm_close", msg, {"comm_id": content.get("comm_id")}, ()) is not None
        if is_closed and comm is not None:
            self._callbacks.closed(comm, msg)

    def _comm_of(self, content: dict[str, Any]) -> Any:
        """The comm that a message is about, or None."""
        comm_id = content.get("comm_id")
        return self.comms.get(comm_id) if isinstance(comm_id, str) else None

    def _play(
        self, kind: str, msg: Message, content: dict[str, Any], buffers: Any, watch: Watch | None = None
    ) -> Outcome | None:
        """Plays a message of a frontend, with this content; None where it is refused, which is logged. A watch begins
        with what is heard."""
        try:
            metadata = self._pack(msg.get("metadata") or {}) if kind == "comm_open" else NOTHING
            texts = metadata, self._pack(content)
            outcome = self._turns.call(self._hearing[kind], kind, msg, content, texts, buffers, watch)
        except NOT_PLAYABLE as error:
            self.log.warning("%s: %s", kind, error)
            return None
        return outcome if self._is_done(kind, content, outcome) else None

    def _is_done(self, kind: str, content: dict[str, Any], outcome: Outcome) -> bool:
        """Whether the manager took a message of this content; a refusal is logged."""
        if outcome.reply in DONE:
            return True
        if outcome.reply is NO_COMM:
            self._comm_log.warning("No such comm: %s", content.get("comm_id"))
        elif outcome.reason is Reason.NO_TARGET:
            self._comm_log.error("No such comm target registered: %s", content.get("target_name"))
        else:
            self.log.warning(self._calls.words_of(kind, outcome))
        return False

    def _hear_close(
        self, kind: str, msg: Message, content: dict[str, Any], texts: Any, buffers: Any, watch: None
    ) -> Outcome:
        comm = self._comm_of(content)
        if comm is not None:
            self._open_by_hand(comm)
        outcome = self._calls.hear(kind, msg, content, texts, buffers)
        if outcome.reply is CLOSED and comm is not None:
            with contextlib.suppress(TypeError):  # a class that has no weak references
                self._closed_by_frontends.add(comm)  # before another thread can see that it is gone
            comm._closed = True
            self.comms.pop(comm.comm_id, None)  # which a close by the kernel may have taken out meanwhile
        return outcome

    def _hear_open(
        self, kind: str, msg: Message, content: dict[str, Any], texts: Any, buffers: Any, watch: Watch | None
    ) -> Outcome:
        outcome = None
        try:
            outcome = self._calls.hear(kind, msg, content, texts, buffers, watch)
            if outcome.reply is OPENED:
                comm = self._make(comm_id=content["comm_id"], target_name=content["target_name"], primary=False)
                if comm.comm_id != content["comm_id"]:  # `comm` has another one where it is empty
                    comm.comm_id = content["comm_id"]
                self.register_comm(comm)
        except BaseException:
            if outcome is None or outcome.reply is OPENED:
                self._drop(content.get("comm_id"))
            raise
        return outcome
