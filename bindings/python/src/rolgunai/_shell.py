"""Reads on where ipykernel 7 stops reading its shell. There a thread sends each reply on the socket that a stream reads,
beside that stream. zmq tells a reader once that there is more to read; where that comes amid a send, the send takes it,
and no request on shell is answered any more, of whatever kind it is."""

from __future__ import annotations

from typing import Any

import zmq


class ReadingSocket:
    """A socket for replies, whose stream looks after each whether there is more to read. A thread's own."""

    def __init__(self, socket: Any, stream: Any) -> None:
        self.socket, self.stream = socket, stream

    def send_multipart(self, parts: list[Any]) -> Any:
        """Sends, and has the stream read on."""
        sent = self.socket.send_multipart(parts)
        self.stream.flush(zmq.POLLIN, limit=1)
        return sent


def read_on(kernel: Any) -> None:
    """Has a kernel's shell read on after each reply, where it sends them beside its stream."""
    thread = getattr(kernel, "shell_channel_thread", None)
    manager = thread.manager if thread else None
    if isinstance(getattr(manager, "_shell_socket", None), zmq.Socket):
        manager._shell_socket = ReadingSocket(manager._shell_socket, kernel.shell_stream)
