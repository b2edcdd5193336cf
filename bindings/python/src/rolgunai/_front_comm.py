"""The front for the package `comm` alone, from which kernels that aren't ipykernel's take their comms."""

from __future__ import annotations

import logging
from collections.abc import Callable
from typing import Any

import comm
from comm import base_comm

from rolgunai._calls import Pack
from rolgunai._kernel import Send
from rolgunai.hub import Hub


class Comm(base_comm.BaseComm):
    """What `comm.create_comm` makes: `comm`'s own comm, which says by its manager what it says."""

    manager: Hub | None = None  # that it is registered with

    def __init__(self, *words: Any, **keys: Any) -> None:
        comm_id = words[4] if len(words) > 4 else keys.get("comm_id")
        if comm_id and len(words) < 8:  # `comm` makes no topic of an id that isn't ASCII
            keys.setdefault("topic", f"comm-{comm_id}".encode())
        super().__init__(*words, **keys)

    def publish_msg(
        self, msg_type: str, data: Any = None, metadata: Any = None, buffers: Any = None, **keys: Any
    ) -> None:
        """Has the manager play it, which sends what comes of it."""
        manager = self.manager or comm.get_comm_manager()
        if isinstance(manager, Hub):
            manager.publish(self, msg_type, data, metadata, buffers, **keys)


class CommManager(Hub, base_comm.CommManager):
    """What `comm.get_comm_manager` gives."""

    def __init__(
        self, send: Send, request: Callable[[], Any], *, pack: Pack | None = None, is_old_browser: bool = True
    ) -> None:
        log = logging.getLogger("Comm")
        Hub.__init__(self, send, request, Comm, pack=pack, is_old_browser=is_old_browser, comm_log=log)

    def register_comm(self, comm: Any) -> str:
        """Takes a comm in, which goes by this manager from then on; Hub.register_comm says more."""
        if isinstance(comm, Comm):
            comm.manager = self
        return super().register_comm(comm)
