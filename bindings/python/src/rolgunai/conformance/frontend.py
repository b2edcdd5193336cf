"""A frontend: starts a kernel by its kernelspec, sends on shell and control, and gathers what comes of a message."""

from __future__ import annotations

import hmac
import json
import os
import tempfile
import time
from dataclasses import dataclass, field
from typing import Any, NamedTuple

import zmq
from jupyter_client import KernelManager
from jupyter_client.kernelspec import KernelSpecManager, NoSuchKernel

from rolgunai.conformance.clock import Clock

Json = Any
QUIET = 1.0  # seconds that an answer is waited for that needn't come, or TIMES what one took that had to
TIMES = 10
LAST_WORDS = 5  # lines of what a kernel that ended wrote


class Message(NamedTuple):
    """A message as it came, its buffers as bytes and its parent as that's msg_id."""

    channel: str
    kind: str
    content: Json
    metadata: Json
    buffers: list[bytes]
    parent: str


class NotAnswering(Exception):
    """The kernel didn't start, ended, or doesn't answer kernel_info_request any more."""


@dataclass
class Came:
    """What came of a message that was sent: the comms' messages and the replies, the execution states whose parent it
    was, and what a cell printed and the error that it ended in."""

    messages: list[Message] = field(default_factory=list)
    states: list[str] = field(default_factory=list)
    printed: str = ""
    error: str = ""


def content_of(message: Message) -> dict[str, Json]:
    """A message's content; none of an object's members where it isn't one."""
    return message.content if isinstance(message.content, dict) else {}


def is_idle(message: Message) -> bool:
    return message.kind == "status" and content_of(message).get("execution_state") == "idle"


class Frontend:
    """A kernel that runs, and one client of it."""

    def __init__(self, name: str, timeout: float = 30, kernels: str | None = None) -> None:
        """Starts the kernel with this name, of the folder `kernels` where one is given.

        Raises jupyter_client's NoSuchKernel where there is none, and NotAnswering where it doesn't come up.
        """
        self.name = name
        self.specs = KernelSpecManager(kernel_dirs=[kernels]) if kernels else KernelSpecManager()
        self.timeout = timeout
        self.info: Json = {}
        self.sockets: dict[str, zmq.Socket[bytes]] = {}
        self.start()

    def start(self) -> None:
        """Starts the kernel; where it doesn't come up, once more, since meanwhile another program may have one of the
        ports that were free for it.

        Raises NotAnswering where it doesn't come up then.
        """
        try:
            self.start_once()
        except NotAnswering:
            self.start_once()

    def start_once(self) -> None:
        """Starts the kernel, and connects to it. What it writes is kept for what is said where it ends.

        Raises NotAnswering where it doesn't come up.
        """
        self.kernel = KernelManager(kernel_name=self.name, kernel_spec_manager=self.specs)
        self.words = tempfile.TemporaryFile()
        try:
            self.kernel.start_kernel(stdout=self.words, stderr=self.words)
            self.clock = Clock(getattr(getattr(self.kernel, "provisioner", None), "pid", None))
            self.connect()
        except NotAnswering:
            self.close()
            raise
        except NoSuchKernel:
            raise
        except Exception as error:  # of the command, the kernelspec or the operating system, by jupyter_client
            self.close()
            raise NotAnswering(f"{type(error).__name__}: {error}") from error

    def connect(self) -> None:
        """Connects to the kernel, and waits until it answers on shell and iopub.

        Raises NotAnswering where it doesn't.
        """
        self.session = self.kernel.session
        self.kernel.context.setsockopt(zmq.RCVHWM, 0)  # where a socket is full, kernels let messages go
        self.sockets = {
            "iopub": self.kernel.connect_iopub(),
            "shell": self.kernel.connect_shell(),
            "control": self.kernel.connect_control(),
        }
        self.poller = zmq.Poller()
        for socket in self.sockets.values():
            self.poller.register(socket, zmq.POLLIN)
        end = self.clock.now() + 4 * self.timeout
        probes: set[str] = set()
        heard: set[str] = set()
        while heard != {"iopub", "shell"}:
            if self.clock.now() > end or not self.kernel.is_alive():
                raise NotAnswering(self.why_not("shell" in heard, 4 * self.timeout))
            probes.add(self.send("shell", "kernel_info_request", b"{}"))
            heard |= self.heard(probes)
        self.info = self.reply_to(self.send("shell", "kernel_info_request", b"{}"))

    def language(self) -> str:
        """The name of the kernel's language, as it says it."""
        return str((self.info.get("language_info") or {}).get("name", ""))

    def heard(self, probes: set[str]) -> set[str]:
        """The channels that a kernel is heard on within a second, which answers one of these: what is published before
        iopub is subscribed to is lost, and a slow kernel answers an earlier one."""
        channels: set[str] = set()
        end = time.monotonic() + 1
        while time.monotonic() < end and channels != {"iopub", "shell"} and self.kernel.is_alive():
            channels |= {message.channel for message in self.receive(0.1) if message.parent in probes}
        return channels

    def restart(self) -> None:
        """Kills the kernel and starts another.

        Raises NotAnswering where that doesn't come up.
        """
        self.close()
        self.start()

    def close(self) -> None:
        """Kills the kernel, where one runs."""
        for socket in self.sockets.values():
            socket.close(linger=0)
        self.sockets = {}
        if self.kernel.has_kernel:
            self.kernel.shutdown_kernel(now=True)
        self.words.close()

    def send(
        self, channel: str, kind: str, content: bytes, metadata: Json = None, buffers: list[bytes] | None = None,
        **header: Json,
    ) -> str:  # fmt: skip
        """Sends a message, its content as JSON. Gives its msg_id."""
        message = self.session.msg(kind, metadata=metadata)
        message["content"] = content
        message["header"].update(header)
        self.session.send(self.sockets[channel], message, buffers=buffers)
        return str(message["header"]["msg_id"])

    def receive(self, seconds: float) -> list[Message]:
        """What comes next on any channel, or nothing where that takes longer."""
        ready = dict(self.poller.poll(int(seconds * 1000)))
        found = []
        for channel, socket in self.sockets.items():
            message = self.read(channel, socket.recv_multipart(zmq.NOBLOCK)) if socket in ready else None
            if message:
                found.append(message)
        return found

    def read(self, channel: str, frames: list[bytes]) -> Message | None:
        """The message in some frames; none where they aren't one, or are too deep for this Python. jupyter_client's own
        Session.recv reads the dates too, which takes as long as all else here."""
        try:
            _, (signature, *parts) = self.session.feed_identities(frames)
            if not hmac.compare_digest(signature, self.session.sign(parts[:4])):
                return None
            header, parent, metadata, content = map(json.loads, parts[:4])
            return Message(channel, str(header["msg_type"]), content, metadata, parts[4:], parent.get("msg_id", ""))
        except (ValueError, LookupError, TypeError, AttributeError, RecursionError):
            return None

    def reply_to(self, sent: str, seconds: float | None = None) -> Json:
        """The content of the reply to a request.

        Raises NotAnswering where none comes in time.
        """
        end = self.clock.now() + (seconds or self.timeout)
        while self.clock.now() < end:
            for got in self.receive(0.1):
                if got.parent == sent and got.channel != "iopub":
                    return got.content
        raise NotAnswering(f"no reply within {seconds or self.timeout:g} s")

    def gather(self, sent: list[str], channel: str) -> Came:
        """What came of messages that were sent on a channel, until the kernel has answered what is sent behind them. On
        control, where a kernel needn't take kernel_info_request, it is asked on shell, and they have as long once more.

        Raises NotAnswering where it doesn't answer.
        """
        came = Came()
        patience = self.settle(sent, came)
        if channel == "control":
            end = self.clock.now() + patience
            while self.clock.now() < end and sum(message.channel == channel for message in came.messages) < len(sent):
                for message in self.receive(0.1):
                    self.take(message, sent, came)
            self.settle(sent, came)
        return came

    def settle(self, sent: list[str], came: Came) -> float:
        """Takes what comes until the kernel has answered on shell, with its idle. Gives how many seconds it is to have
        for an answer that needn't come: a kernel that is slow has more.

        Raises NotAnswering where it doesn't answer.
        """
        replied = idle = False
        last = begin = self.clock.now()
        probe = self.send("shell", "kernel_info_request", b"{}")
        while not (replied and idle):
            now = self.clock.now()  # before the look, so that what came while this process stood still counts
            got = self.receive(0.1)
            last = now if got else last
            silent = now > last + self.timeout or not got and not self.kernel.is_alive()
            if silent or now > begin + 4 * self.timeout:
                raise NotAnswering(self.why_not(replied, self.timeout if silent else 4 * self.timeout))
            for message in got:
                if message.parent == probe and content_of(message).get("status") == "aborted":
                    probe = self.send("shell", "kernel_info_request", b"{}")  # as all that waits behind a cell's error
                elif message.parent == probe:
                    replied = replied or message.channel != "iopub"
                    idle = idle or is_idle(message)
                else:
                    self.take(message, sent, came)
        return max(QUIET, TIMES * (self.clock.now() - begin))

    def why_not(self, replied: bool, seconds: float) -> str:
        """Why it is given up on: that it ended, or what is missing of its answer; and what it wrote last."""
        missing = "says no busy and idle on iopub after" if replied else "doesn't answer"
        said = f"the kernel {missing} kernel_info_request within {seconds:g} s"
        size = os.fstat(self.words.fileno()).st_size
        written = os.pread(self.words.fileno(), 4000, max(0, size - 4000)).decode(errors="replace")
        lines = [line.strip() for line in written.splitlines() if line.strip()][-LAST_WORDS:]
        said = said if self.kernel.is_alive() else "the kernel ended"
        return said + (f"; the last that it wrote: {' | '.join(lines)}" if lines else "")

    def take(self, message: Message, sent: list[str], came: Came) -> None:
        """Puts one message where it belongs in what came."""
        content = content_of(message)
        if message.kind == "status" and message.parent in sent:
            came.states.append(str(content.get("execution_state")))
        elif message.kind.startswith("comm_") and (message.channel == "iopub" or message.parent in sent):
            came.messages.append(message)
        elif message.kind == "stream" and message.parent in sent:
            came.printed += str(content.get("text", ""))
        elif message.kind == "execute_reply" and content.get("status") == "error":
            came.error = f"{content.get('ename')}: {content.get('evalue')}"

    def run(self, code: str) -> Came:
        """Runs a cell."""
        asked = {"code": code, "silent": False, "store_history": False, "allow_stdin": False, "stop_on_error": False}
        return self.gather([self.send("shell", "execute_request", json.dumps(asked).encode())], "shell")
