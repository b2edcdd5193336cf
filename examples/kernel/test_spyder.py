"""Spyder's kernel over the stock comms and over the proved ones: what Spyder calls in the kernel comes by a comm, and is
handled on a thread of its own, that of control since spyder-kernels 3, also while a cell makes, moves and closes
widgets. Each call has to be answered, in order, and the cell to end well. The last line is 'N passed, M failed'.
"""

import importlib.util
import json
import pathlib
import pickle
import queue
import sys
import tempfile

import zmq

from checks import check, counted
from frontend import Frontend

CALLS, SECONDS = 200, 60
WORKS = """
import time, ipywidgets
kernel, calls, made = get_ipython().kernel, 0, 0
def count():
    global calls
    calls += 1
    return calls
kernel.frontend_comm.register_call_handler("count", count)
"""
CELL = f"""
ends = time.monotonic() + {SECONDS}
while calls < {CALLS} and time.monotonic() < ends:
    bar = ipywidgets.IntProgress(made)
    made = bar.value = made + 1
    for part in (bar, bar.layout, getattr(bar, "style", None)):
        if part is not None: part.close()
print(made > 0, calls)
"""


class Spyder:
    """What Spyder is to its kernel."""

    def __init__(self, name, kernels):
        self.front = Frontend(name, protocol=1, kernels=kernels)
        self.client, self.comm_id = self.front.client, "c0ffee00c0ffee00c0ffee00c0ffee00"
        import spyder_kernels

        self.is_old = int(spyder_kernels.__version__.split(".")[0]) < 3
        printed = self.front.run(WORKS)[0]
        check(f"{name}: what the test needs", printed, "")
        opened = {"pickle_protocol": 4} if self.is_old else {}
        self.front.send("comm_open", {"comm_id": self.comm_id, "target_name": "spyder_api", "data": opened})
        self.socket = self.client.control_channel.socket
        if self.is_old:  # a socket of its own
            port = int(self.front.run("print(kernel.frontend_comm.comm_port)")[0])
            self.socket = zmq.Context.instance().socket(zmq.DEALER)
            self.socket.connect(f"tcp://127.0.0.1:{port}")

    def call(self, number):
        """Calls `count` in the kernel."""
        content = {"call_name": "count", "call_id": str(number), "settings": {"blocking": True, "send_reply": True}}
        data, buffers = {"spyder_msg_type": "remote_call", "content": content}, []
        if self.is_old:
            data |= {"pickle_protocol": 4, "python_version": sys.version}
            buffers = [pickle.dumps({"call_args": [], "call_kwargs": {}}, 4)]
        else:
            content |= {"call_args": [], "call_kwargs": {}, "buffered_args": [], "buffered_kwargs": []}
        message = self.client.session.msg("comm_msg", {"comm_id": self.comm_id, "data": data})
        self.client.session.send(self.socket, message, buffers=buffers)

    def answers(self, running):
        """What the calls gave until the cell is through, and what that printed."""
        given, printed = [], ""
        while True:
            try:
                got = self.client.get_iopub_msg(timeout=SECONDS)
            except queue.Empty:
                return given, printed + "nothing more came"
            content = got["content"]
            if got["msg_type"] == "comm_msg" and content["comm_id"] == self.comm_id:
                told = content["data"]
                if told["spyder_msg_type"] == "remote_call_reply":
                    value = pickle.loads(got["buffers"][0]) if self.is_old else told["content"]["call_return_value"]
                    given.append(value)
            elif got["msg_type"] in ("stream", "error"):
                printed += content.get("text") or f"{content['ename']}: {content['evalue']}"
            elif got["parent_header"].get("msg_id") == running and content.get("execution_state") == "idle":
                return given, printed


def played(name, kernels):
    """What Spyder finds: how many calls were answered, whether in order, and what the cell printed."""
    spyder = Spyder(name, kernels)
    try:
        running = spyder.client.execute(CELL)
        for number in range(CALLS):
            spyder.call(number)
        given, printed = spyder.answers(running)
        return len(given), given == sorted(given), printed
    finally:
        spyder.front.close()


def write_specs(folder):
    """Makes a folder with the specs of both kernels."""
    kernel = pathlib.Path(__file__).resolve().parent / "spyder_kernel.py"
    for name, words in (("stock", []), ("proved", ["--proved"])):
        argv = [sys.executable, "-B", "-Xfrozen_modules=off", str(kernel), *words, "-f", "{connection_file}"]
        (folder / name).mkdir()
        spec = {"argv": argv, "display_name": name, "language": "python"}
        (folder / name / "kernel.json").write_text(json.dumps(spec))


def main():
    if importlib.util.find_spec("spyder_kernels") is None:
        print("skipped: Spyder's kernel: Debian's package python3-spyder-kernels isn't here")
        return counted()
    with tempfile.TemporaryDirectory() as folder:
        write_specs(pathlib.Path(folder))
        stock, proved = played("stock", folder), played("proved", folder)
    import spyder_kernels

    print(f"spyder-kernels {spyder_kernels.__version__}: {CALLS} calls beside a cell: stock {stock}, here {proved}")
    check("Spyder's calls beside a cell", proved, (CALLS, True, f"True {CALLS}\n"))
    return counted()


if __name__ == "__main__":
    sys.exit(main())
