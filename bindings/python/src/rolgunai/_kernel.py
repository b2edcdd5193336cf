"""What the comm manager of a kernel is handed and hands on: messages, comms, and how to send."""

from __future__ import annotations

from typing import Any, Protocol

WIDGET, CONTROL = "jupyter.widget", "jupyter.widget.control"

Message = dict[str, Any]  # as jupyter_client has it: a dict with "header", "metadata", "content" and "buffers"
State = dict[str, Any]  # of a widget, its buffers at their places

# What is raised for a message of a frontend that isn't JSON, as one in the same process may have.
NOT_PLAYABLE = (TypeError, ValueError, RecursionError)


class Comm(Protocol):
    """A comm, as ipykernel and `comm` have them."""

    comm_id: str
    target_name: str
    _closed: bool

    def close(self) -> None:
        ...

    def handle_msg(self, msg: Message) -> None:
        ...

    def handle_close(self, msg: Message) -> None:
        ...


class Send(Protocol):
    """Sends to all frontends: the content is JSON, the parent the message that this is brought about by, or None."""

    def __call__(
        self,
        msg_type: str,
        comm_id: str,
        content: bytes,
        metadata: dict[str, Any],
        buffers: list[Any],
        parent: Any,
        /,
    ) -> object:
        ...


class CommRefused(ValueError):
    """The manager didn't do what the kernel's code asked for. Nothing has changed, and nothing went out."""
