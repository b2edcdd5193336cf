"""A frontend of the kernels of this folder: that of the Python kernels, with what else is sent to these."""

import json
import pathlib
import queue
import subprocess
import sys
import time

sys.path.insert(0, str(pathlib.Path(__file__).resolve().parent.parent / "kernel"))

import frontend
from checks import check, counted
from frontend import Frontend, Message
from number_texts import Number, dumps, loads

__all__ = ["Number", "XeusFrontend", "cell", "check", "counted", "loads", "said", "update"]
frontend.SECONDS = 60


def cell(*commands):
    """A cell of the test kernel."""
    return json.dumps(commands)


def update(paths=(), **state):
    return {"method": "update", "state": state, "buffer_paths": list(paths)}


def said(came):
    """The messages of comms in what came."""
    return [(got.kind, got.content.get("data")) for got in came if got.kind.startswith("comm_")]


class XeusFrontend(Frontend):
    """A frontend of the kernel `name` among the kernelspecs of a folder."""

    def __init__(self, kernels, name):
        super().__init__(name, kernels=kernels)

    def post(self, kind, content, channel="shell", metadata=None, buffers=None):
        """Sends, and gives the message's id."""
        sent = {**self.client.session.msg(kind, metadata=metadata), "content": dumps(content).encode()}
        self.client.session.send(getattr(self.client, f"{channel}_channel").socket, sent, buffers=buffers)
        return sent["header"]["msg_id"]

    def gather(self, *posted, beside=(), seconds=frontend.SECONDS):
        """What comes of messages on iopub until the kernel is idle after each, by their ids, or until it is too late;
        with the order in which they ended. What comes of those `beside` meanwhile is given too, and not waited for."""
        came, ended, end = {each: [] for each in (*posted, *beside)}, [], time.monotonic() + seconds
        while not set(posted) <= set(ended) and time.monotonic() < end:
            try:
                got = self.client.get_iopub_msg(timeout=0.2)
            except queue.Empty:
                continue
            parent = got["parent_header"].get("msg_id")
            if parent not in came:
                continue
            if got["msg_type"] == "status" and got["content"]["execution_state"] == "idle":
                ended.append(parent)
            elif got["msg_type"] not in ("status", "execute_input"):
                buffers = [bytes(buffer) for buffer in got["buffers"]]
                came[parent].append(Message(got["msg_type"], got["content"], got["metadata"], buffers))
        return came, ended

    def reply(self, posted, channel):
        """The content of the reply to a request."""
        while True:
            got = getattr(self.client, f"get_{channel}_msg")(timeout=frontend.SECONDS)
            if got["parent_header"].get("msg_id") == posted:
                return got["content"]

    def opens(self, comm_id, target, data=None, metadata=None, buffers=None):
        content = {"comm_id": comm_id, "target_name": target, "data": {} if data is None else data}
        return self.send("comm_open", content, metadata, buffers)

    def on(self, comm_id, buffers=None, **data):
        """Sends on a comm."""
        return self.send("comm_msg", {"comm_id": comm_id, "data": data}, buffers=buffers)

    def closes(self, comm_id):
        return self.send("comm_close", {"comm_id": comm_id, "data": {}})

    def heard(self):
        """What reached the kernel's callbacks since it was asked last: kind, id, data and buffers of each."""
        return json.loads(self.run(cell(["heard"]))[0])

    def end(self):
        """Ends the kernel in order; its exit status."""
        self.post("shutdown_request", {"restart": False}, "control")
        try:
            status = self.kernel.provisioner.process.wait(20)
        except subprocess.TimeoutExpired:
            status = "none after 20 seconds"
        self.close()
        return status
