"""What the proved manager answers: the same messages, played through it, with the targets that the cells register."""

from __future__ import annotations

import json
from typing import Any

from rolgunai import ArgumentError, Kind, Manager, Outcome, Reply, Sent
from rolgunai.conformance.frontend import Message

Json = Any
WIDGET = "jupyter.widget"
TARGETS = {"echo": "conformance.echo", "greeter": "conformance.greeter", "closer": "conformance.closer",
           "listener": "conformance.listener", "raiser": "conformance.raiser"}  # fmt: skip


class Reference:
    """A kernel whose comms are the manager's. What it answers is the manager's, and that of the targets' code."""

    def __init__(self) -> None:
        self.manager = Manager(decimals=True)
        self.manager.register(Kind.WIDGET_ECHO, WIDGET)
        self.targets: set[str] = set()  # whose code is a cell's
        self.known = {WIDGET}
        self.heard: list[Json] = []

    def prepare(self, cell: str) -> None:
        """Registers the target that a cell registers."""
        target = TARGETS.get(cell)
        if target:
            self.targets.add(target)
            self.known.add(target)
            self.manager.register(Kind.OPAQUE, target)

    def unregister(self, cell: str) -> None:
        self.targets.discard(TARGETS[cell])
        self.known.discard(TARGETS[cell])
        self.manager.unregister(TARGETS[cell])

    def message(self, kind: str, content: bytes, metadata: Json = None, buffers: list[bytes] | None = None
                ) -> list[Message]:  # fmt: skip
        """What must come of a frontend's message."""
        texts = (json.dumps({"msg_type": kind}), json.dumps(metadata or {}), content)
        try:
            outcome = self.manager.message(*texts, buffers or [])
        except ArgumentError:
            return []
        answers = [message_of(sent) for sent in outcome.sent]
        return answers + self.target_code(kind, outcome, content, metadata or {}, buffers or [])

    def adopt(self, came: Message) -> None:
        """Plays what the kernel's own code sent: an open, a message or a close."""
        content = came.content
        comm_id, data = str(content.get("comm_id")), content.get("data") or {}
        if came.kind == "comm_open":
            target = str(content.get("target_name"))
            if target not in self.known:
                self.known.add(target)
                self.manager.register(Kind.OPAQUE, target)
            header, metadata = json.dumps({"msg_type": "comm_open"}), json.dumps(came.metadata)
            self.manager.message(header, metadata, json.dumps(content), came.buffers)
        elif came.kind == "comm_msg" and data.get("method") == "update":
            state, paths = json.dumps(data.get("state", {})), json.dumps(data.get("buffer_paths", []))
            self.manager.push(comm_id, state, paths, came.buffers)
        elif came.kind == "comm_close":
            self.manager.close(comm_id)

    def target_code(self, kind: str, outcome: Outcome, content: bytes, metadata: Json, buffers: list[bytes]
                    ) -> list[Message]:  # fmt: skip
        """What the targets' code sends, as that of the cells does."""
        name, comm_id = outcome.target, outcome.comm_id
        if name not in self.targets or not comm_id:
            return []
        data = json.loads(content).get("data", {})
        if name == TARGETS["listener"]:
            self.heard.append([kind, data, [buffer.hex() for buffer in buffers]])
        if name == TARGETS["greeter"] and outcome.reply == Reply.OPENED:
            greeting = {"data": data, "metadata": metadata.get("conformance")}
            return self.sends(comm_id, greeting, buffers)
        if name == TARGETS["raiser"] and outcome.reply == Reply.OPENED:
            return [message_of(sent) for sent in self.manager.close(comm_id).sent]
        if name == TARGETS["echo"] and outcome.reply == Reply.FOR_KERNEL:
            return self.sends(comm_id, data, buffers)
        if name == TARGETS["closer"] and outcome.reply == Reply.FOR_KERNEL:
            return [message_of(sent) for sent in self.manager.close(comm_id).sent]
        return []

    def sends(self, comm_id: str, data: Json, buffers: list[bytes]) -> list[Message]:
        return [message_of(sent) for sent in self.manager.send(comm_id, json.dumps(data), buffers).sent]


def message_of(sent: Sent) -> Message:
    """A message that the manager says is to be sent."""
    channel = "shell" if sent.msg_type == "comm_info_reply" else "iopub"
    parts = json.loads(sent.content), json.loads(sent.metadata)
    return Message(channel, sent.msg_type, *parts, list(sent.buffers), "")
