"""The calls on the proved manager, each of which hands on what is to be sent.

Changes are made one at a time, under the hub's lock (`rolgunai._native.Turns`), and with each what is kept beside the
manager: which comms are open, long buffers, watches, and which comms speak version 1 of the widget protocol in Python.
`infos` is a read, and takes no lock.
"""

from __future__ import annotations

import collections
import functools
from collections.abc import Callable, Collection, Iterable, Sequence
from typing import Any

from rolgunai import ArgumentError, Kind, Outcome, OutcomeMemoryError, Reason, Reply, SharedManager
from rolgunai import old_widgets
from rolgunai._kernel import WIDGET, CommRefused, Message, Send, State
from rolgunai._long_buffers import LongBuffers
from rolgunai._native import Turns, Watch, Watches, copied, placed
from rolgunai._update import NO_PARTS, Parts, Update, roots_of
from rolgunai._wire import read

MOST_COMMS = 1_048_576  # the most that the library takes as a limit
NOTHING = b"{}"
_VERSION = b'{"version":"2.1.0"}'
_HEADERS = {
    kind: b'{"msg_type":"%s"}' % kind.encode() for kind in ("comm_open", "comm_msg", "comm_close", "comm_info_request")
}
# By names of their own, and not in a set: Python 3.11 runs code of its own to find an enumeration's member or its hash.
DELIVERED, OPENED, CLOSED, NO_COMM = Reply.DELIVERED, Reply.OPENED, Reply.CLOSED, Reply.NO_COMM
DONE = (DELIVERED, Reply.FOR_KERNEL, OPENED, CLOSED, Reply.COMM_INFO, Reply.STATE)
Pack = Callable[[Any], bytes]
Kept = Iterable[tuple[int, bytes]]  # the places and tokens of long buffers


class Calls:
    """`send` sends a message, which the calls have done in their order by `turns`; `pack` writes JSON; `served` has the
    names of the targets that frontends may open comms of; and `is_old_browser` says whether frontends speak version 1
    of the widget protocol to comms that do so in Python."""

    def __init__(
        self, send: Send, turns: Turns, pack: Pack, served: Callable[[], Collection[str]], is_old_browser: bool
    ) -> None:
        self.long = LongBuffers()
        self.old: set[str] = set()  # the ids of the comms whose Python side speaks version 1
        self.open_comms: dict[str, str] = {}  # the target of each comm that is open, by its id
        self.watches = Watches()
        self.send_now, self.send = send, functools.partial(turns.send, send)
        self._pack, self._served, self._is_old_browser = pack, served, is_old_browser
        self._manager = SharedManager(comms=MOST_COMMS, decimals=True)
        self._targets: set[str] = set()  # those that the manager knows
        self._open_of: collections.Counter[str] = collections.Counter()  # how many comms of each target are open

    def speaks_old(self, is_old: bool) -> bool:
        """Whether frontends speak version 1 of the widget protocol to a comm that does so in Python."""
        return is_old and self._is_old_browser

    def note_old(self, comm_id: str) -> None:
        """The Python side of a comm speaks version 1 of the widget protocol."""
        if comm_id in self.open_comms:  # else it was closed meanwhile
            self.old.add(comm_id)

    # Targets: the manager knows those that comms may be or are open of.

    def know_target(self, target_name: str) -> None:
        """Has the manager know a target, as one of widgets or an opaque one."""
        if target_name not in self._targets:
            self._made(self._manager.register, Kind.WIDGET if target_name == WIDGET else Kind.OPAQUE, target_name)
            self._targets.add(target_name)

    def forget_target(self, target_name: str) -> None:
        """Has the manager forget one that no comm is open of and that no frontend may open one of."""
        is_used = self._open_of[target_name] > 0 or target_name == WIDGET or target_name in self._served()
        if target_name in self._targets and not is_used:
            del self._open_of[target_name]
            self._targets.discard(target_name)
            self._manager.unregister(target_name)

    def _began(self, comm_id: str, target_name: str) -> None:
        self.open_comms[comm_id] = target_name
        self._open_of[target_name] += 1

    def _ended(self, comm_id: str) -> None:
        """A comm is closed."""
        self.old.discard(comm_id)
        self.long.forget(comm_id)
        self.watches.forget(comm_id)
        target_name = self.open_comms.pop(comm_id, None)
        if target_name is not None:
            self._open_of[target_name] -= 1
            self.forget_target(target_name)

    # What frontends say.

    def hear(
        self,
        kind: str,
        msg: Message,
        content: dict[str, Any],
        texts: tuple[bytes, bytes],
        buffers: Any,
        watch: Watch | None = None,
    ) -> Outcome:
        """Plays a message of a frontend, with this content; its metadata and that are `texts`, JSON. A watch begins
        with a widget's open or an update that the manager takes."""
        metadata, text = texts
        if kind == "comm_open":
            target_name = content.get("target_name")
            if isinstance(target_name, str) and target_name in self._served():
                self.know_target(target_name)
        frames, kept = self.long.lent(buffers) if buffers else ((), [])
        try:
            outcome = self._manager.message(_HEADERS[kind], metadata, text, frames)
        except Exception as error:
            outcome = self._after(error, kept)
        if outcome.reply is CLOSED:
            self._ended(content["comm_id"])
        elif outcome.reply is OPENED:
            self._opened(content, buffers, kept, watch)
        else:
            self.long.refused(kept)
        if outcome.sent:
            self._send_all(outcome, msg)
        return outcome

    def _opened(self, content: dict[str, Any], buffers: Any, kept: Kept, watch: Watch | None) -> None:
        """The manager took a frontend's open."""
        comm_id = content["comm_id"]
        self._began(comm_id, content["target_name"])
        if watch is not None:
            data = content["data"]
            paths = data.get("buffer_paths") or ()
            if kept:
                self.long.taken(comm_id, (), roots_of(paths), kept)
            self.watches.begin(watch, placed(copied(data.get("state") or {}), paths, buffers))

    def hear_update(
        self, watch: Watch, msg: Message, text: bytes, held: State, parts: Parts | None
    ) -> Outcome | None:
        """Plays an update of a widget's state by a frontend, of which `text` is the content, and `held` a copy of the
        state. None where the manager takes it: the watch begins with it then."""
        paths, roots, buffers = parts or NO_PARTS
        frames, kept = self.long.lent(buffers) if buffers else ((), ())
        try:
            outcome = self._manager.hear(text, frames)
        except Exception as error:
            outcome = self._after(error, kept)
        comm_id = watch.comm_id
        if outcome is not None and outcome.reply is not DELIVERED:
            self.long.refused(kept)
        elif kept or comm_id in self.long.tokens:
            self.long.taken(comm_id, held, roots, kept)
        if outcome is not None:
            if outcome.sent:
                self._send_all(outcome, msg)
            if outcome.reply is not DELIVERED:
                return outcome
        self.watches.begin(watch, placed(held, paths, buffers) if buffers else held)
        return None

    def end_watch(self, watch: Watch) -> None:
        """The callbacks are through that ran while it was told."""
        self.watches.end(watch)
        self.long.settle()

    def infos(self, target_name: str | None) -> bytes:
        """The content of the reply to a `comm_info_request` for a target, or for all. It takes no lock."""
        return self._made(self._manager.infos, target_name).sent[0].content

    def info(self, text: bytes) -> bytes:
        """The same for a request of this content."""
        outcome = self._made(self._manager.message, _HEADERS["comm_info_request"], NOTHING, text, ())
        self._raise_refusal("comm_info_request", outcome)
        return outcome.sent[0].content

    def state(self, comm_id: str) -> tuple[State, list[list[Any]], list[Any]] | None:
        """What the manager has of a widget: the state, and its buffers with their paths. None where it has none."""
        outcome = self._made(self._manager.state, comm_id)
        if outcome.reply is not Reply.STATE or outcome.content is None:
            return None
        held = read(outcome.content)
        return held["state"], held["buffer_paths"], self.long.given_out(outcome.buffers)

    # What the kernel's code says.

    def open(self, comm_id: str, target_name: str, text: bytes, buffers: Any, paths: Any = None) -> None:
        """Opens a comm by its `comm_open`, of which `text` is the content: of a widget's in version 2 of the widget
        protocol, with buffers at these paths. Nothing is sent. One that has the id gives way, and its frontends aren't
        told."""
        if comm_id in self.open_comms:
            self.drop(comm_id)
        frames, kept = self.long.handed_in(buffers) if buffers and target_name == WIDGET else ((), [])
        self.know_target(target_name)
        self._began(comm_id, target_name)
        is_open = False
        try:
            outcome = self._manager.message(_HEADERS["comm_open"], _VERSION, text, frames)
            is_open = outcome.reply is OPENED
        except Exception as error:
            outcome = self._after(error, kept)
            is_open = outcome.reply is OPENED
        finally:
            if not is_open:
                self._ended(comm_id)
        if not is_open:
            self.long.refused(kept)
        elif kept:
            self.long.taken(comm_id, (), roots_of(paths or ()), kept)
        self._raise_refusal("comm_open", outcome)

    def push(self, comm_id: str, update: Update, parent: Any, metadata: dict[str, Any] | None = None) -> bool:
        """Changes keys of a widget's state, and sends that; gives whether the comm is open."""
        state, paths, keys, roots, buffers = update
        frames, kept = self.long.handed_in(buffers) if buffers else ((), [])
        try:
            outcome = self._manager.push(comm_id, state, paths, frames)
        except Exception as error:
            outcome = self._after(error, kept)
        if outcome.reply is not DELIVERED:
            self.long.refused(kept)
            return self._is_open("comm_msg", outcome)
        if kept or comm_id in self.long.tokens:
            self.long.taken(comm_id, keys, roots, kept)
        if comm_id in self.watches.by_comm:
            self.watches.told(comm_id, placed(read(state), read(paths), buffers))
        self._send_all(outcome, parent, metadata, paths, roots)
        return True

    def say(self, kind: str, comm_id: str, content: bytes, metadata: Any, buffers: Any, parent: Any) -> bool:
        """Sends what isn't the manager's; gives whether the comm is open, without which nothing goes out."""
        if self._manager.target(comm_id) is None:
            return False
        self.send(kind, comm_id, content, metadata, buffers, parent)
        return True

    def close(self, comm_id: str, content: bytes, metadata: Any, buffers: Any, parent: Any) -> bool:
        """Closes a comm, and sends that; gives whether it was open."""
        outcome = self._made(self._manager.close, comm_id)
        if not self._is_open("comm_close", outcome):
            return False
        self._ended(comm_id)
        self.send("comm_close", comm_id, content, metadata, buffers, parent)
        return True

    def drop(self, comm_id: str) -> None:
        """Closes a comm, of which nobody is told."""
        self._made(self._manager.close, comm_id)
        self._ended(comm_id)

    # How a call is made, and what comes of it.

    def _made(self, call: Callable[..., Outcome], *arguments: Any) -> Outcome:
        """What a call comes to; one that can't be made is refused."""
        try:
            return call(*arguments)
        except Exception as error:
            return self._after(error, [])

    def _after(self, error: Exception, kept: Kept) -> Outcome:
        """What a call came to that raised an error: where there was only no memory for that, it is asked for again.
        Else it is raised, and the buffers aren't kept."""
        if isinstance(error, OutcomeMemoryError):
            return self._manager.outcome()
        self.long.refused(kept)
        if isinstance(error, ArgumentError):
            raise CommRefused(error.status.name.lower()) from None
        raise error

    def _is_open(self, kind: str, outcome: Outcome) -> bool:
        """Whether the comm that a call was about is open. What else the manager refuses is raised."""
        if outcome.reply is not NO_COMM:
            self._raise_refusal(kind, outcome)
            return True
        return False

    def _raise_refusal(self, kind: str, outcome: Outcome) -> None:
        if outcome.reply not in DONE:
            raise CommRefused(self.words_of(kind, outcome))

    def words_of(self, kind: str, outcome: Outcome) -> str:
        """What isn't taken, and why, for people; where too many comms are open, what they can do."""
        words = f"{kind}: {outcome.words}"
        if outcome.reason != Reason.TOO_MANY_COMMS:
            return words
        widgets = self._open_of[WIDGET]
        return (
            f"{words}: {len(self.open_comms):,} comms are open, of which {widgets:,} are widgets, and no more than "
            f"{MOST_COMMS:,} may be. Close those that are no longer shown: widget.close(), comm.close(), or "
            "ipywidgets.Widget.close_all() for all widgets"
        )

    def _send_all(
        self,
        outcome: Outcome,
        parent: Any,
        metadata: dict[str, Any] | None = None,
        paths: bytes = b"",
        roots: Sequence[str] = (),
    ) -> None:
        """Sends what a call gives. The paths of buffers may be these, of JSON, which these keys begin."""
        for kind, comm_id, content, known, frames in outcome.sent:
            told, buffers = {} if known == NOTHING else read(known), []
            if metadata:
                told.update(metadata)
            if frames:
                buffers = self.long.given_out(frames)
                if comm_id in self.old and self._is_old_browser and kind == "comm_msg":
                    content = old_widgets.to_frontend(content, paths, roots)
            self.send(kind, comm_id, content, told, buffers, parent)
