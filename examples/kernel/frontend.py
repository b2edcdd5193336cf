"""A frontend over ZeroMQ, by jupyter_client: starts the kernel, sends what a notebook sends, and gathers what comes
back. Numbers that aren't whole go and come by their texts (number_texts)."""

import json
import os
import pathlib
import sys
import tempfile
from typing import NamedTuple

import zmq
from jupyter_client import BlockingKernelClient, KernelManager
from jupyter_client.kernelspec import KernelSpecManager

from number_texts import dumps, loads

NAME, KERNEL = "proved_comms", pathlib.Path(__file__).resolve().parent / "kernel.py"
SECONDS = 120  # a machine may be busy with proofs


class Message(NamedTuple):
    kind: str
    content: dict
    metadata: dict
    buffers: list


def printed_by(came):
    """The text of what is printed, which may come in several messages."""
    return "".join(got.content["text"] for got in came if got.kind == "stream")


def write_spec(folder):
    """Makes a folder with the kernelspec of this folder's kernel."""
    folder.mkdir()
    argv = [sys.executable, "-B", "-Xfrozen_modules=off", str(KERNEL), "-f", "{connection_file}"]
    (folder / "kernel.json").write_text(json.dumps({"argv": argv, "display_name": NAME, "language": "python"}))


class Frontend:
    def __init__(self, name=NAME, protocol=2, kernels=None, **environment):
        """Starts a kernel: the one of this folder, the stock one, `python3`, or one of the folder `kernels`. The
        frontends speak this version of the widget protocol."""
        self.specs = tempfile.TemporaryDirectory()
        write_spec(pathlib.Path(self.specs.name) / NAME)
        specs = KernelSpecManager(kernel_dirs=[str(kernels or self.specs.name)])
        self.kernel = KernelManager(kernel_name=name, kernel_spec_manager=specs)
        environment["ROLGUNAI_BROWSER_PROTOCOL"] = str(protocol)
        self.kernel.start_kernel(env={**os.environ, **environment})
        self.client = self.connected()

    def connected(self):
        """A client with a session of its own, as another browser tab has."""
        client = BlockingKernelClient(connection_file=self.kernel.connection_file, parent=self.kernel)
        client.load_connection_file()
        client.session.unpack = loads
        client.context.setsockopt(zmq.RCVHWM, 0)  # who reads late misses nothing
        client.start_channels()
        client.wait_for_ready(timeout=SECONDS)
        return client

    def send(self, kind, content, metadata=None, buffers=None):
        """Sends on the shell channel. Gives what comes of it on iopub, until the kernel is idle."""
        sent = {**self.client.session.msg(kind, metadata=metadata), "content": dumps(content).encode()}
        self.client.session.send(self.client.shell_channel.socket, sent, buffers=buffers)
        came = []
        while True:
            got = self.client.get_iopub_msg(timeout=SECONDS)
            if got["parent_header"].get("msg_id") != sent["header"]["msg_id"]:
                continue
            if got["msg_type"] == "status" and got["content"]["execution_state"] == "idle":
                return came
            if got["msg_type"] not in ("status", "execute_input"):
                buffers = [bytes(buffer) for buffer in got["buffers"]]
                came.append(Message(got["msg_type"], got["content"], got["metadata"], buffers))

    def run(self, code):
        """Runs a cell. Gives what it prints, with the error that it ends in, and the comms' messages."""
        # ipykernel aborts what comes within a tenth of a second after a cell that failed and asked to stop on errors
        came = self.send("execute_request", {"code": code, "silent": False, "stop_on_error": False})
        printed = printed_by(came)
        printed += "".join(f"{got.content['ename']}: {got.content['evalue']}" for got in came if got.kind == "error")
        return printed, [got for got in came if got.kind.startswith("comm_")]

    def speaks_old_widgets(self):
        """Whether the kernel's ipywidgets speaks version 1 of the widget protocol."""
        return int(self.run("import ipywidgets; print(ipywidgets.__version__.split('.')[0])")[0]) < 7

    def info(self, target=None, client=None):
        """The open comms and their targets, as comm_info_reply has them."""
        client = client or self.client
        sent = client.session.msg("comm_info_request", {} if target is None else {"target_name": target})
        client.session.send(client.shell_channel.socket, sent)
        while True:
            got = client.get_shell_msg(timeout=SECONDS)
            if got["parent_header"].get("msg_id") == sent["header"]["msg_id"]:
                return {comm_id: comm["target_name"] for comm_id, comm in got["content"]["comms"].items()}

    def kill(self):
        """Kills the kernel's process, and starts another."""
        self.client.stop_channels()
        self.kernel.restart_kernel(now=True)
        self.client = self.connected()

    def close(self):
        self.client.stop_channels()
        self.kernel.shutdown_kernel(now=True)
        self.specs.cleanup()
