"""The kernel that the conformance suite is tested with: its comms are the proved manager's, and its cells are words. A
cell `fault NAME` breaks it in one way (conformance_faults.py) and begins anew; `fault none` mends it.

conformance_kernel.py PACKAGE -f CONNECTION_FILE: PACKAGE is the folder that has the package rolgunai.
"""

import json
import sys
import uuid

sys.path.insert(0, sys.argv.pop(1))

from ipykernel.kernelapp import IPKernelApp
from ipykernel.kernelbase import Kernel
from tornado.ioloop import IOLoop

from conformance_faults import FAULTS, before_parsing, works
from rolgunai import Kind
from rolgunai.conformance.frontend import Message
from rolgunai.conformance.reference import TARGETS, WIDGET, Reference, message_of

CONTROL_TARGET, FRONT, THEIRS = "jupyter.widget.control", "conformance.front", "conformance.theirs"
SUBSHELL = "conformance-subshell"
COMM_TYPES = ("comm_open", "comm_msg", "comm_close", "comm_info_request")


class Comms:
    """The comms, and what the cells do with them. Each call gives the messages that are to be sent."""

    def __init__(self):
        self.reference = Reference()
        for target in (CONTROL_TARGET, FRONT, THEIRS):
            self.reference.manager.register(Kind.OPAQUE, target)
        self.own = self.widget = ""
        self.controls = set()
        self.dead = False

    def hear(self, kind, content, metadata, buffers):
        """What comes of a frontend's message."""
        comm_id = content.get("comm_id") if isinstance(content, dict) else None
        out = self.reference.message(kind, json.dumps(content).encode(), metadata, buffers)
        if kind == "comm_open" and content.get("target_name") == CONTROL_TARGET:
            self.controls.add(comm_id)
        if kind == "comm_msg" and isinstance(comm_id, str) and comm_id in self.controls:
            state = json.loads(self.reference.manager.state(self.widget).content) if self.widget else {}
            told = {"method": "update_states", "states": {self.widget: state}, "buffer_paths": []}
            out += self.reference.sends(comm_id, told, [])
        return out

    def open(self, target=FRONT, number=1):
        self.own = str(uuid.uuid4())
        content = {"comm_id": self.own, "target_name": target, "data": {"n": number}}
        self.reference.message("comm_open", json.dumps(content).encode())
        return [Message("iopub", "comm_open", content, {"k": [1]}, [b"\0\xff"], "")]

    def send(self):
        sent = self.reference.manager.send(self.own, '{"n": 2}', [b"", b"\1\2"]).sent
        return [message_of(each)._replace(metadata={"k": [2]}) for each in sent]

    def close(self):
        out = [message_of(each) for each in self.reference.manager.close(self.own).sent]
        for message in out:  # with data of the kernel's own
            message.content["data"] = {"bye": 1}
        return out

    def launches(self, state, paths="[]", buffers=()):
        self.widget = str(uuid.uuid4())
        launched = self.reference.manager.launch(WIDGET, self.widget, json.dumps(state), paths, buffers)
        return [message_of(each) for each in launched.sent]

    def prints(self, word):
        """The widget's value, as the manager has it."""
        state = self.reference.manager.state(self.widget)
        return state.buffers[0].hex() if word == "image_value" else str(json.loads(state.content)["state"]["value"])


class BrokenKernel(Kernel):
    implementation = "conformance"
    implementation_version = "1"
    banner = "A kernel for tests"
    language_info = {"name": "conformance", "version": "1", "mimetype": "text/plain", "file_extension": ".txt"}

    def __init__(self, **keys):
        super().__init__(**keys)
        self.comms, self.fault, self.aborts = Comms(), works, False
        for kind in COMM_TYPES:
            self.shell_handlers[kind] = self.control_handlers[kind] = self.hears
        for kind in ("create_subshell_request", "delete_subshell_request"):
            self.control_handlers[kind] = self.subshell

    @property
    def kernel_info(self):
        return {**super().kernel_info, "supported_features": ["kernel subshells"]}

    async def dispatch_shell(self, msg):
        before_parsing(self, [bytes(frame) for frame in msg])
        if not self.aborts:
            return await super().dispatch_shell(msg)
        self.aborts = False
        ident, parts = self.session.feed_identities(msg, copy=False)
        parent = self.session.deserialize(parts, copy=False)
        self.session.send(self.shell_stream, "kernel_reply", {"status": "aborted"}, parent, ident)

    async def process_control(self, msg):
        if self.fault is FAULTS["slow"]:
            IOLoop.current().call_later(2, super().process_control, msg)
        else:
            await super().process_control(msg)

    def _publish_status(self, status, channel, parent=None):
        kind = (parent or self.get_parent(channel)).get("header", {}).get("msg_type", "")
        if self.fault is not FAULTS["no_status"] or not kind.startswith("comm_"):
            super()._publish_status(status, channel, parent)

    def hears(self, stream, ident, parent):
        kind, buffers = parent["msg_type"], [bytes(buffer) for buffer in parent["buffers"]]
        if self.comms.dead:
            return
        content = parent["content"] if isinstance(parent["content"], dict) else {}
        call = {"kind": kind, "content": content, "metadata": parent["metadata"], "buffers": buffers,
                "channel": "control" if stream is self.control_stream else "shell", "header": parent["header"]}
        for message in self.fault(self, call, lambda: self.comms.hear(kind, call["content"], call["metadata"],
                                                                      call["buffers"])):
            self.publish(message, parent, stream, ident)

    def publish(self, message, parent, stream=None, ident=None):
        reply = message.kind == "comm_info_reply"
        parts = {"metadata": message.metadata, "buffers": message.buffers, "ident": ident if reply else None}
        if reply and stream:
            message.content.setdefault("status", "ok")
        if message.parent == "none":
            parent = None
        self.session.send(stream if reply else self.iopub_socket, message.kind, message.content, parent, **parts)

    def subshell(self, stream, ident, parent):
        reply = {"status": "ok", "subshell_id": SUBSHELL}
        self.session.send(stream, parent["msg_type"].replace("request", "reply"), reply, parent, ident)

    def do_execute(self, code, silent, store_history=True, user_expressions=None, allow_stdin=False):
        word, _, rest = code.partition(" ")
        parent = self.get_parent("shell")
        call = {"kind": word, "content": {}, "metadata": {}, "buffers": [], "channel": "cell", "header": {}}
        if word == "fails":  # and what waits behind it is aborted, as IRkernel does
            self.aborts = True
            return {"status": "error", "ename": "CellError", "evalue": "as the test wants it", "traceback": []}
        if word == "fault":
            self.comms, self.fault = Comms(), FAULTS[rest]
        else:
            for message in self.fault(self, call, lambda: self.cell(word)):
                self.publish(message, parent)
        return {"status": "ok", "execution_count": 1, "payload": [], "user_expressions": {}}

    def cell(self, word):
        comms = self.comms
        if word in TARGETS:
            comms.reference.prepare(word)
        elif word == "unregister":
            comms.reference.unregister("echo")
        elif word == "heard":
            self.says(json.dumps([each[:2] for each in comms.reference.heard]))
        elif word == "widget":
            return comms.launches({"value": 3, "description": "conformance"})
        elif word == "image":
            return comms.launches({"format": "conformance"}, '[["value"]]', [b"\0\1\2"])
        elif word in ("widget_value", "image_value"):
            self.says(comms.prints(word))
        elif word == "widget_set":
            return [message_of(each) for each in comms.reference.manager.push(comms.widget, '{"value": 7}').sent]
        elif word == "widget_close":
            return [message_of(each) for each in comms.reference.manager.close(comms.widget).sent]
        elif word == "open_unregistered":
            return comms.open(THEIRS, 3)
        elif word in ("open", "send", "close"):
            return getattr(comms, word)()
        return []

    def says(self, text):
        self.send_response(self.iopub_socket, "stream", {"name": "stdout", "text": text + "\n"})


class App(IPKernelApp):
    capture_fd_output = False

    def init_io(self):
        """What is printed doesn't go to the frontend, and so no call waits until all before it has gone."""
        super().init_io()
        self.reset_io()


if __name__ == "__main__":
    App.launch_instance(kernel_class=BrokenKernel)
