"""Calls a second from Python, beside ipykernel's own comm manager on the same messages in one run.

bench.py PACKAGE [SECONDS], with the folder where the package is built

Each message comes as the wire has it, its header, metadata and content as JSON texts and its buffers as bytes; it is
played; and what is sent is made into such parts again. ipykernel's widget keeps its state as ipywidgets does, without
traits. SECONDS is how long each measurement takes (1), of which there are three, in turn; the best of each counts.
/usr/bin/python3 has Debian's ipykernel.
"""

import base64
import json
import logging
import sys
import time

sys.path.insert(0, sys.argv[1])
from rolgunai import Kind, Manager, Reply

dumps = json.JSONEncoder(separators=(",", ":"), ensure_ascii=False).encode
OPEN, MSG = b'{"msg_type":"comm_open"}', b'{"msg_type":"comm_msg"}'
VERSION = b'{"version":"2.1.0"}'


class Parts:
    """The library, by parts."""

    name = "by parts"

    def __init__(self):
        self.manager = Manager()
        self.manager.register(Kind.WIDGET, "jupyter.widget")
        self.manager.register(Kind.PLAIN, "plain")
        self.manager.register(Kind.OPAQUE, "opaque")

    def play(self, header, metadata, content, buffers):
        outcome = self.manager.message(header, metadata, content, buffers)
        # For the kernel, which has the message in hand.
        heard = (json.loads(content)["data"], buffers) if outcome.reply == Reply.FOR_KERNEL else None
        return [(sent.content, sent.buffers) for sent in outcome.sent], heard


class Lines(Parts):
    """The library, by lines: the parts are put together as they are, and JSON is read where something goes out."""

    name = "by lines"

    def play(self, header, metadata, content, buffers):
        texts = b",".join(b'"%s"' % base64.b64encode(buffer) for buffer in buffers)
        line = b'{"header":%s,"metadata":%s,"content":%s,"buffers":[%s]}' % (header, metadata, content, texts)
        answer = self.manager.line(line)
        sent, heard = [], None
        for said in answer.splitlines():
            word, rest = said.split(b" ", 1)
            if word == b"out":
                out = json.loads(rest)
                sent.append((dumps(out["content"]), [base64.b64decode(text) for text in out["buffers"]]))
            elif rest.split(b" ", 2)[1] == b"custom":
                heard = json.loads(content)["data"], buffers
        return sent, heard


def separated(value, path, paths, buffers):
    """A state without its bytes, as ipywidgets takes them out."""
    if isinstance(value, dict):
        kept = {}
        for key, item in value.items():
            if isinstance(item, bytes):
                paths.append([*path, key])
                buffers.append(item)
            else:
                kept[key] = separated(item, [*path, key], paths, buffers)
        return kept
    return value


class Widget:
    def __init__(self, comm, message):
        self.comm, self.state = comm, message["content"]["data"]["state"]
        self.place(self.state, message)
        comm.on_msg(self.hear)

    def place(self, state, message):
        for path, buffer in zip(message["content"]["data"]["buffer_paths"], message["buffers"]):
            at = state
            for step in path[:-1]:
                at = at[step]
            at[path[-1]] = buffer

    def hear(self, message):
        data = message["content"]["data"]
        if data["method"] == "update":
            self.place(data["state"], message)
            self.state.update(data["state"])
        else:
            paths, buffers = [], []
            state = separated(self.state, [], paths, buffers)
            self.comm.send({"method": "update", "state": state, "buffer_paths": paths}, buffers=buffers)


class Ipykernel:
    """ipykernel's manager and comms in a kernel that sends nothing over a socket."""

    name = "ipykernel"

    def __init__(self):
        from ipykernel.comm import CommManager
        from ipykernel.kernelbase import Kernel
        from jupyter_client.session import Session

        sent = self.sent = []

        class Sends(Session):
            def send(self, stream, kind, content=None, parent=None, ident=None, buffers=None, **others):
                sent.append((dumps(content), buffers or []))

        class Alone(Kernel):
            shell, implementation, language, banner = None, "bench", "none", ""

            def get_parent(self, channel=None):
                return {}

        log = logging.getLogger("bench")
        kernel = Alone(session=Sends(key=b""), log=log)
        Kernel._instance = Alone._instance = kernel
        self.manager = kernel.comm_manager = CommManager(kernel=kernel, parent=kernel, log=log)
        self.manager.register_target("jupyter.widget", Widget)
        for name in ("plain", "opaque"):
            self.manager.register_target(name, lambda comm, message: comm.on_msg(self.hear))

    def hear(self, message):
        self.heard = message["content"]["data"], message["buffers"]

    def play(self, header, metadata, content, buffers):
        self.sent.clear()
        self.heard = None
        header, metadata, content = map(json.loads, (header, metadata, content))
        message = {"header": header, "metadata": metadata, "content": content, "buffers": buffers}
        if message["header"]["msg_type"] == "comm_open":
            self.manager.comm_open(None, None, message)
        else:
            self.manager.comm_msg(None, None, message)
        return self.sent, self.heard


def opening(buffers):
    """What is played first: a slider, whose state has the buffers, and comms of a kernel's own."""
    keys = {f"key_{n}": n for n in range(20)}
    state = {**keys, "value": 1, "picture": {}}
    data = {"state": state, "buffer_paths": [["picture", "png"]][: len(buffers)]}
    widget = {"comm_id": "widget", "target_name": "jupyter.widget", "data": data}
    yield OPEN, VERSION, dumps(widget).encode(), buffers
    for name in ("plain", "opaque"):
        yield OPEN, b"{}", dumps({"comm_id": name, "target_name": name, "data": {}}).encode(), []


def workloads(buffers):
    paths = [["picture", "png"]][: len(buffers)]
    state = {"value": 7, "picture": {}} if buffers else {"value": 7}
    event = {"event": "mouse", "x": 10, "y": 20}
    for name, comm, data, sent in (
        ("update", "widget", {"method": "update", "state": state, "buffer_paths": paths}, buffers),
        ("request_state", "widget", {"method": "request_state"}, []),
        ("plain comm", "plain", event, buffers),
        ("opaque comm", "opaque", event, buffers),
    ):
        yield name, (MSG, b"{}", dumps({"comm_id": comm, "data": data}).encode(), sent)


def same(one, other):
    """Whether two managers said the same: the JSON of what went out, its bytes, and what the kernel heard."""
    (sent, heard), (other_sent, other_heard) = one, other

    def parts(out):
        return [(json.loads(content), [bytes(buffer) for buffer in buffers]) for content, buffers in list(out)]

    return parts(sent) == parts(other_sent) and heard == other_heard


def a_second(manager, parts, seconds):
    """How many calls a second are made."""
    calls, began = 0, time.perf_counter()
    while True:
        for _ in range(10):
            manager.play(*parts)
        calls += 10
        took = time.perf_counter() - began
        if took >= seconds:
            return calls / took


def main(seconds=1.0):
    logging.disable(logging.CRITICAL)
    names = "".join(f"{kind.name:>11}" for kind in (Parts, Lines, Ipykernel))
    print(f"calls a second        buffer {names}  by parts / ipykernel")
    for size in (0, 2**10, 2**16, 2**20):
        buffers = [bytes(n % 251 for n in range(size))] if size else []
        managers = [Parts(), Lines(), Ipykernel()]
        for parts in opening(buffers):
            for manager in managers:
                manager.play(*parts)
        for name, parts in workloads(buffers):
            by_parts, by_lines, ipykernel = (manager.play(*parts) for manager in managers)
            assert same(by_parts, ipykernel) and same(by_lines, ipykernel), (name, size)
            runs = [[a_second(manager, parts, seconds) for manager in managers] for _ in range(3)]
            best = [max(counts) for counts in zip(*runs)]
            counts = "".join(f"{count:11.0f}" for count in best)
            print(f"{name:20} {size:7} {counts}{best[0] / best[2]:8.2f}", flush=True)


if __name__ == "__main__":
    main(*map(float, sys.argv[2:]))
