"""The callbacks of targets and comms, which are called without a lock. Their errors are logged, as ipykernel does."""

from __future__ import annotations

import logging
from collections.abc import Callable
from typing import Any

from rolgunai._kernel import Comm, Message


class Callbacks:
    """`log` is where ipykernel and `comm` tell errors in callbacks. `handle(comm, msg)` has a comm handle a message,
    where that is more than its own `handle_msg`."""

    def __init__(self, log: logging.Logger, handle: Callable[[Any, Message], object] | None = None) -> None:
        self._log, self._handle = log, handle

    def opened(self, f: Any, comm: Comm, msg: Message) -> bool:
        """Calls a target's callback for a comm; gives whether it took it. Else, as where there is none, the comm is
        closed."""
        try:
            if f is not None:
                f(comm, msg)
                return True
            self._log.error("No such comm target registered: %s", comm.target_name)
        except Exception:
            self._log.error("Exception opening comm with target: %s", comm.target_name, exc_info=True)
        try:
            comm.close()
        except Exception:
            self._log.error("Could not close comm during `comm_open` failure clean-up", exc_info=True)
        return False

    def heard(self, comm: Comm, msg: Message) -> None:
        """Calls a comm's callback for a message."""
        try:
            if self._handle is None:
                comm.handle_msg(msg)
            else:
                self._handle(comm, msg)
        except Exception:
            self._log.error("Exception in comm_msg for %s", comm.comm_id, exc_info=True)

    def closed(self, comm: Comm, msg: Message) -> None:
        """Calls a comm's callback for its close."""
        try:
            comm.handle_close(msg)
        except Exception:
            self._log.error("Exception in comm_close for %s", comm.comm_id, exc_info=True)
