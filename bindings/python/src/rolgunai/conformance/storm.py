"""A storm: many messages at once on shell and control, or on subshells, of which none may be lost."""

from __future__ import annotations

import json
import time
import uuid
from collections import Counter
from collections.abc import Iterator
from typing import Any

from rolgunai.conformance.frontend import Came, Frontend, NotAnswering, content_of, is_idle

Json = Any
AHEAD = 20  # echoes that are asked for and haven't come


class Storm:
    """What was sent and what came back."""

    def __init__(self, frontend: Frontend, comm_id: str, header: Json) -> None:
        self.frontend, self.comm_id, self.header = frontend, comm_id, header
        self.echoes: Counter[int] = Counter()
        self.requests: dict[str, str] = {}
        self.replies: Counter[str] = Counter()
        self.sent = 0
        self.last: set[tuple[str, bool]] = set()  # requests behind all others: their replies, and the idle of shell's
        self.asked = [("shell", "comm_info_request", header), ("control", "kernel_info_request", {})]

    def under_way(self) -> int:
        return self.sent - len(self.echoes) + len(self.requests) - len(self.replies)

    def send(self) -> None:
        """Sends a message to be echoed, and asks for comm_info on shell and for kernel_info on control."""
        data = json.dumps({"comm_id": self.comm_id, "data": {"number": self.sent}}).encode()
        self.frontend.send("shell", "comm_msg", data, **self.header)
        self.sent += 1
        for channel, kind, header in self.asked:
            self.requests[self.frontend.send(channel, kind, b"{}", **header)] = f"{kind} on {channel}"

    def send_last(self) -> None:
        """Asks behind all that was sent: what hasn't come soon after this is answered is lost."""
        for channel, _, header in self.asked:
            sent = self.frontend.send(channel, "kernel_info_request", b"{}", **header)
            self.last |= {(sent, False), (sent, True)} if channel == "shell" else {(sent, False)}

    def receive(self, seconds: float) -> bool:
        came = self.frontend.receive(seconds)
        for message in came:
            content = content_of(message)
            data = content.get("data")
            if message.parent in self.requests and message.channel != "iopub":
                self.replies[message.parent] += 1
            elif message.channel != "iopub" or is_idle(message):
                self.last.discard((message.parent, message.channel == "iopub"))
            elif message.kind == "comm_msg" and content.get("comm_id") == self.comm_id:
                self.echoes[data.get("number", -1) if isinstance(data, dict) else -1] += 1
        if not came and seconds and not self.frontend.kernel.is_alive():
            raise NotAnswering(self.frontend.why_not(False, seconds))
        return bool(came)

    def faults(self) -> Iterator[str]:
        lost = [number for number in range(self.sent) if number not in self.echoes]
        if lost:
            yield f"{len(lost)} of {self.sent} messages weren't echoed, the first is number {lost[0]}"
        unanswered = Counter(what for sent, what in self.requests.items() if sent not in self.replies)
        for what, count in unanswered.items():
            yield f"{count} of {self.sent} requests without a reply: {what}"
        twice = sum(count > 1 for count in [*self.echoes.values(), *self.replies.values()])
        if twice:
            yield f"{twice} of {self.sent} messages or requests were answered more than once"


def storm(frontend: Frontend, words: str, seconds: float) -> list[str]:
    """Plays a storm against a comm towards conformance.echo. Gives what is wrong.

    `words` is `subshell` where the comm's messages go to a subshell of the kernel's.
    """
    header: Json = {}
    if words == "subshell":
        reply = frontend.reply_to(frontend.send("control", "create_subshell_request", b"{}"))
        if reply.get("status") != "ok" or "subshell_id" not in reply:
            return [f"create_subshell_request was answered by {reply}"]
        header = {"subshell_id": reply["subshell_id"]}
    comm_id = str(uuid.uuid4())
    opened = {"comm_id": comm_id, "target_name": "conformance.echo", "data": {}}
    frontend.send("shell", "comm_open", json.dumps(opened).encode(), **header)
    blown = Storm(frontend, comm_id, header)
    patience = frontend.settle([], Came())
    try:
        frontend.reply_to(frontend.send("control", "kernel_info_request", b"{}"), patience)
    except NotAnswering:
        del blown.asked[1:]  # it isn't among what control has to take
    faults = list(blow(blown, seconds, patience))
    frontend.send("shell", "comm_close", json.dumps({"comm_id": comm_id, "data": {}}).encode(), **header)
    if header and not faults:
        frontend.reply_to(frontend.send("control", "delete_subshell_request", json.dumps(header).encode()))
    return faults


def blow(storm: Storm, seconds: float, patience: float) -> Iterator[str]:
    end = time.monotonic() + seconds
    while time.monotonic() < end:
        if storm.under_way() < 3 * AHEAD:
            storm.send()
        storm.receive(0 if storm.under_way() < 3 * AHEAD else 0.05)
    storm.send_last()
    clock = storm.frontend.clock
    last = now = clock.now()
    while (storm.last or storm.under_way()) and now < last + (storm.frontend.timeout if storm.last else patience):
        now = clock.now()
        last = now if storm.receive(0.1) else last
    yield from storm.faults()
