"""What the tests of the comm manager for kernels share: a kernel that keeps what is sent. The first word of the command
is the folder where the package is built; the package `comm` is a stand-in where it isn't here."""

import importlib.util
import json
import logging
import pathlib
import sys

sys.path.insert(0, sys.argv[1])
if importlib.util.find_spec("comm") is None:
    sys.path.append(str(pathlib.Path(__file__).resolve().parent / "stand_in"))

import comm
from rolgunai.comms import Comm, CommManager

logging.disable(logging.CRITICAL)
WIDGET, UUID = "jupyter.widget", "0123abcd-0000-4000-8000-000000000001"


class Kernel:
    """What a kernel hands in: what was sent is a row of type, id, content without the id, metadata and buffers."""

    def __init__(self, **keys):
        self.sent, self.amid = [], None
        self.manager = CommManager(self.send, lambda: "parent", **keys)
        comm.create_comm, comm.get_comm_manager = Comm, lambda: self.manager

    def send(self, msg_type, comm_id, content, metadata, buffers, parent):
        content = json.loads(content)
        assert content.pop("comm_id") == comm_id
        if self.amid is not None:
            amid, self.amid = self.amid, None
            amid()
        self.sent.append((msg_type, comm_id, content, metadata, [bytes(buffer) for buffer in buffers]))

    def came(self):
        sent, self.sent = self.sent, []
        return sent

    def hear(self, kind, comm_id, data, buffers=(), metadata=(), **keys):
        """Hands in a message of a frontend; gives what is sent."""
        content = {"comm_id": comm_id, "data": data, **keys}
        message = {"header": {"msg_type": kind}, "metadata": dict(metadata), "content": content, "buffers": buffers}
        getattr(self.manager, kind)(None, None, message)
        return self.came()

    def info(self):
        content = self.manager.comm_info({"header": {"msg_type": "comm_info_request"}, "content": {}})
        return {comm_id: told["target_name"] for comm_id, told in json.loads(content)["comms"].items()}


def opened(comm_id, target, data, metadata=(), buffers=(), module=None):
    content = {"data": data, "target_name": target, "target_module": module}
    return ("comm_open", comm_id, content, dict(metadata), list(buffers))


def said(comm_id, data, metadata=(), buffers=(), kind="comm_msg"):
    return (kind, comm_id, {"data": data}, dict(metadata), list(buffers))
