"""What sends a hub's messages to the frontends of a kernel of ipykernel's."""

from __future__ import annotations

from typing import Any

from rolgunai._native import trait
from rolgunai._wire import read


class Sender:
    """Sends on a kernel's iopub socket by the kernel's own session, which takes a content that is JSON already. One
    thread sends at a time."""

    def __init__(self, kernel: Any) -> None:
        self._kernel = kernel
        self._session: Any = None  # the one that is known to read JSON, or not to
        self._takes_json = False
        self._parent: Any = None  # of the last message, and what a session is handed for it
        self._handed: Any = None
        self._topic = "", b"comm-"  # of the last message, with its comm's id

    def send(
        self, msg_type: str, comm_id: str, content: bytes, metadata: dict[str, Any], buffers: list[Any], parent: Any, /
    ) -> None:
        """Sends a message to all frontends."""
        kernel = self._kernel
        session = trait(kernel, "session")
        if session is not self._session:
            self._takes_json, self._session, self._parent = _reads_json(session.unpack), session, None
        said: Any = content if self._takes_json else read(content)
        if parent is not self._parent:
            self._parent = self._handed = parent
        elif self._handed is parent and parent and self._takes_json:
            self._handed = _with_plain_header(parent, session)
        known, topic = self._topic
        if known is not comm_id:
            topic = f"comm-{comm_id}".encode()
            self._topic = comm_id, topic
        # By the names that ipykernel's comms have it by: someone may have put another `send` in its place.
        session.send(
            trait(kernel, "iopub_socket"),
            msg_type,
            said,
            metadata=metadata,
            parent=self._handed,
            ident=topic,
            buffers=buffers,
        )


def _reads_json(unpack: Any) -> bool:
    """Whether a session that reads by this function has frontends that read JSON: another one may have pickles."""
    try:
        return bool(unpack(b'{"a":[1]}') == {"a": [1]})
    except Exception:
        return False


def _with_plain_header(parent: dict[str, Any], session: Any) -> dict[str, Any]:
    """A parent whose header is as frontends read it. A cell's messages have it all, and a date takes the session's JSON
    half as long as a header without one."""
    return {**parent, "header": session.unpack(session.pack(parent["header"]))} if "header" in parent else parent
