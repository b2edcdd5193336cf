"""What goes out on a kernel's socket: what jupyter_client's own session makes of it, which stays the kernel's own.

test_session.py PACKAGE, the folder where the package is built.
"""

import contextlib
import datetime
import io
import json
import sys

sys.path.insert(0, sys.argv[1])

import ipykernel.comm
import rolgunai.comms
from checks import check, raised, run
from ipykernel.kernelbase import Kernel as StockKernel
from jupyter_client.session import Session
from rolgunai._iopub import Sender

HEARD = {"header": {"msg_id": "1", "date": datetime.datetime(2026, 1, 2, 3, 4, 5, 6, datetime.timezone.utc)}}
WIDGET, UUID = "jupyter.widget", "0123abcd-0000-4000-8000-000000000001"


class Socket:
    """A kernel's socket, which keeps what is sent."""

    def __init__(self):
        self.sent = []

    def send_multipart(self, parts, copy=True):
        self.sent.append((parts, copy))


class Sending:
    """What a kernel has that sends."""

    def __init__(self, **settings):
        self.session, self.iopub_socket = Session(**{"key": b"k", **settings}), Socket()

    def came(self):
        """The one message that was sent, by its parts: but the number and date in its header, and its signature, which
        is looked at; and the text of its content."""
        if not self.iopub_socket.sent:
            return None, None
        ((parts, copy),) = self.iopub_socket.sent
        self.iopub_socket.sent.clear()
        ident, mark, _, *frames = parts
        reader = Session(key=self.session.key, signature_scheme=self.session.signature_scheme)
        signed = reader.deserialize(parts[2:])["msg_type"]
        header = json.loads(frames[0])
        del header["msg_id"], header["date"]
        return (ident, mark, signed, header, *map(json.loads, frames[1:4]), frames[4:], copy), bytes(frames[3])


# The parts of messages: type, content, metadata, buffers, parent.
MESSAGES = (
    ("comm_msg", b'{"comm_id":"a","data":{}}', {}, [], HEARD),
    ("comm_open", b'{"comm_id":"a","data":1.50}', {"version": "2.1.0"}, [], HEARD),
    ("comm_open", b"{}", {"version": "2.1.0", "more": {"date": HEARD["header"]["date"], "b": b"x"}}, [b"x"], None),
    ("comm_close", "{\"\u00e9\":1}".encode(), {"\u00e9": [1, True]}, [memoryview(b"y"), bytearray(2**17)], {}),
)
# What a session may be told.
SETTINGS = (
    {},
    {"key": b""},
    {"username": 'an "\u00e9"\\'},
    {"session": 'its "id"'},
    {"metadata": {"version": "1", "own": None}},
    {"copy_threshold": 1},
    {"signature_scheme": "hmac-sha512"},
    {"adapt_version": 4},
    {"debug": True},
    {"pack": lambda value: json.dumps(value, default=str, indent=1).encode()},
)


def as_session_send():
    for settings in SETTINGS:
        kernel = Sending(**settings)
        send = Sender(kernel).send
        for kind, content, metadata, buffers, parent in MESSAGES:
            keys = {"metadata": metadata, "parent": parent, "ident": b"comm-a", "buffers": buffers}
            with contextlib.redirect_stdout(io.StringIO()):
                kernel.session.send(kernel.iopub_socket, kind, json.loads(content), **keys)
                wanted = kernel.came()[0]
                send(kind, "a", content, metadata, buffers, parent)
                got, text = kernel.came()
            check(f"a {kind} of a session with {list(settings)}", got, wanted)
            check("its content as it was", text, content)
        for parent in (HEARD, {**HEARD, "header": {**HEARD["header"], "msg_id": "2"}}, HEARD["header"], {}, None):
            each_of_a_parent(settings, kernel, send, parent)
    odd = [memoryview(bytes(8))[::2]]
    error = raised(lambda: Sender(Sending()).send("comm_msg", "a", b"{}", {}, odd, None))
    check("bytes that don't stand together", type(error), ValueError)


def each_of_a_parent(settings, kernel, send, parent):
    """What a parent brings about has its header each time, as the session writes it."""
    with contextlib.redirect_stdout(io.StringIO()):
        kernel.session.send(kernel.iopub_socket, "comm_msg", {}, parent=parent, ident=b"comm-a")
        for _ in range(3):
            send("comm_msg", "a", b"{}", {}, [], parent)
    (wanted, *got) = (parts[4] for parts, _ in kernel.iopub_socket.sent)
    kernel.iopub_socket.sent.clear()
    check(f"the header of a parent of {parent}, in a session with {list(settings)}", got, [wanted] * 3)


def another_session():
    """The kernel has another one from now on, which may speak another way."""
    kernel = Sending()
    send = Sender(kernel).send
    for settings in ({}, {"packer": "pickle", "unpacker": "pickle"}, {}):
        kernel.session = Session(key=b"others", **settings)
        send("comm_msg", "a", b'{"comm_id":"a","data":1.5}', {"m": 1}, [b"x"], HEARD)
        ((parts, _),) = kernel.iopub_socket.sent
        kernel.iopub_socket.sent.clear()
        heard = Session(key=b"others", **settings).deserialize(parts[2:])
        wanted = ("comm_msg", {"comm_id": "a", "data": 1.5}, {"m": 1}, HEARD["header"]["msg_id"])
        got = heard["msg_type"], heard["content"], heard["metadata"], heard["parent_header"]["msg_id"]
        check(f"a session with {settings}", got, wanted)


class Alone(StockKernel):
    """A kernel of ipykernel's, which isn't started."""

    shell, implementation, language, banner = None, "test", "none", ""

    def get_parent(self, channel=None):
        return HEARD


def installed():
    """A kernel that isn't started, with the manager; and what makes a comm of it."""
    kernel = Alone(session=Session(key=b"k"))
    kernel.iopub_socket = Socket()
    ways = own_ways(kernel)
    manager = rolgunai.comms.install(kernel)
    check("the session and the kernel's ways of sending are its own", own_ways(kernel), ways)

    def make(target, **keys):
        if ipykernel.version_info[:2] >= (6, 18):
            keys["show_warning"] = False  # that `comm` is to be asked for one
        return ipykernel.comm.Comm(target, kernel=kernel, **keys)

    return kernel, manager, make


def own_ways(kernel):
    session = kernel.session
    ways = (session.send, session.pack, session.unpack, session.packer, session.unpacker, session.serialize)
    return (session, *ways, kernel._publish_status, kernel.send_response, sorted(vars(session)))


def said(manager, make):
    """Has the kernel say one message of each kind, and answer a frontend."""
    own, widget = make("mine", data={"a": 1}), make(WIDGET, data={"state": {"v": 1}}, comm_id=UUID)
    own.send([0.5], {"m": 1}, [b"x"])
    widget.send({"method": "update", "state": {"v": 2}})
    asked = {"comm_id": UUID, "data": {"method": "request_state"}}
    manager.comm_msg(None, None, {"header": {"msg_type": "comm_msg"}, "metadata": {}, "content": asked, "buffers": []})
    widget.close()
    own.close({"bye": True})


SAID = ["comm_open", "comm_open", "comm_msg", "comm_msg", "comm_msg", "comm_close", "comm_close"]


def who_wraps_send():
    """Who puts something around `session.send`, at whichever time, is called for each message, and may change it."""
    kernel, manager, make = installed()
    for where, owner in (("its session", kernel.session), ("all sessions", Session)):
        seen, stock = [], owner.send

        def send(*parts, **keys):
            stream, kind, content = parts[-3:]
            seen.append((kind, type(content), json.loads(content)["comm_id"] in str(keys["ident"])))
            return stock(*parts[:-2], kind, content, **{**keys, "metadata": {**keys["metadata"], "seen": True}})

        try:
            owner.send = send
            said(manager, make)
        finally:
            if owner is Session:
                Session.send = stock
            else:
                del kernel.session.send
        check(f"around that of {where}", seen, [(kind, bytes, True) for kind in SAID])
        metadata = [json.loads(parts[5])["seen"] for parts, _ in kernel.iopub_socket.sent]
        check(f"what it changed went out, {where}", metadata, [True] * len(SAID))
        kernel.iopub_socket.sent.clear()


if __name__ == "__main__":
    sys.exit(run(as_session_send, another_session, who_wraps_send))
