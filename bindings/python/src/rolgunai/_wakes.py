"""How a kernel's iopub thread is woken, which sends what others hand over to it.

ipykernel wakes it for each message, by a socket of zmq's for each thread. Here it is woken by one call of the system,
once for all that is handed over until it looks: it sends in the same order, and nobody waits who hands something over.
"""

from __future__ import annotations

import weakref
from collections.abc import Iterator
from typing import Any

from ipykernel.iostream import IOPubThread

from rolgunai._native import EventPipe
from rolgunai._patches import Patch

# A pipe that was taken out stays with its thread, which may still be woken by it.
_pipes: weakref.WeakKeyDictionary[Any, EventPipe] = weakref.WeakKeyDictionary()


def patches_of(kernel: Any) -> Iterator[Patch]:
    """Wakes the iopub thread of a kernel this way, where it is woken as in the versions that this was tried with."""
    thread: Any = getattr(getattr(kernel, "iopub_socket", None), "io_thread", None)
    if _is_known(thread):
        pipe = _pipes.get(thread)
        if pipe is None:
            pipe = _pipes[thread] = EventPipe()
            thread.schedule(lambda: _listen(thread, pipe))
        yield Patch(thread, "_local", pipe)


def _is_known(thread: Any) -> bool:
    """Whether what is handed to a thread is put into `_events`, and it is woken by what `_local` has."""
    if not isinstance(thread, IOPubThread):
        return False
    code = getattr(type(thread).schedule, "__code__", None)
    found = getattr(getattr(type(thread), "_event_pipe", None), "fget", None)
    says = {"_events", "append", "_event_pipe", "send"}, {"_local", "event_pipe"}
    knows = [set(getattr(it, "co_names", ())) for it in (code, getattr(found, "__code__", None))]
    return all(mine <= its for mine, its in zip(says, knows)) and hasattr(thread, "_handle_event")


def _listen(thread: Any, pipe: EventPipe) -> None:
    """Has a thread's loop hear the pipe; the thread itself calls it, where it runs."""

    def woken(*_: Any) -> None:
        pipe.heard()
        try:
            thread._handle_event(None)
        finally:
            if thread._events:  # what an error left, or what came meanwhile
                pipe.send()

    thread.io_loop.add_handler(pipe, woken, thread.io_loop.READ)  # which the loop closes where it ends
