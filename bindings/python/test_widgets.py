"""Widgets over the comm manager for kernels: the kernel's last word, echoes, and version 1 of the protocol.

test_widgets.py PACKAGE, the folder where the package is built.
"""

import json
import sys

from comms_kernel import UUID, WIDGET, Kernel, said  # first, since it says where the package is
from checks import check, raised, run
from rolgunai import _widgets
from rolgunai._wire import packer
from rolgunai.comms import Comm


class Holds:
    """A widget without traits, that takes what it is told by a rule of the test's."""

    def __init__(self, rule, made=None, **state):
        self.state, self.rule, self.keys = state, rule, list(state)
        self.comm = made or Comm(WIDGET, {"state": {key: v for key, v in state.items() if not isinstance(v, bytes)}})
        self.comm.on_msg(self.hear)

    def get_state(self, key=None):
        return dict(self.state) if key is None else {key: self.state[key]}

    def hear(self, message):
        if message["content"]["data"].get("method") != "request_state":  # which the manager answers here
            self.rule(self, message)


def takes(widget, message):
    widget.state.update(message["content"]["data"]["state"])


def keeps(widget, message):
    pass


def raises(widget, message):
    raise ValueError("as the test wants it")


def told_and_takes(widget, message):
    takes(widget, message)
    widget.comm.send({"method": "update", "state": {"v": widget.state["v"]}, "buffer_paths": []})


def clamps_and_tells(widget, message):
    widget.state["v"] = 10
    widget.comm.send({"method": "update", "state": {"v": 10}, "buffer_paths": []})


def becomes(value):
    return lambda widget, message: widget.state.update(v=value)


# What a widget holds, what it does with a value, the value, and what is put right.
WORDS = (
    ("taken", 3, takes, 4, []),
    ("kept", 3, keeps, "text", [{"v": 3}]),
    ("kept, an error", 3, raises, 4, [{"v": 3}]),
    ("the same kept", 3, keeps, 3, []),
    ("clamped", 3, becomes(10), 50, [{"v": 10}]),
    ("told by the widget", 3, told_and_takes, 4, [{"v": 4}]),
    ("clamped and told by the widget", 3, clamps_and_tells, 50, [{"v": 10}]),
    ("a float of an integer", 3.5, becomes(4.0), 4, []),
    ("true for 1", 1, keeps, True, [{"v": 1}]),
    ("1 for true", True, keeps, 1, [{"v": True}]),
    ("null for a text", "", keeps, None, [{"v": ""}]),
    ("a tuple of a list", (1, 2), becomes((1, 2)), [1, 2], []),
    ("a longer list", [], becomes([1, 2, 3]), [1, 2], [{"v": [1, 2, 3]}]),
    ("a key more", {}, becomes({"a": 1, "b": 2}), {"a": 1}, [{"v": {"a": 1, "b": 2}}]),
    ("a set, as JSON has it", [], becomes(frozenset([1])), [1], []),
)


def last_words():
    for name, held, rule, value, wanted in WORDS:
        kernel = Kernel(pack=packer(list))
        widget = Holds(rule, v=held, other=1)
        kernel.came()
        update = {"method": "update", "state": {"v": value}, "buffer_paths": []}
        came = kernel.hear("comm_msg", widget.comm.comm_id, update)
        check(f"{name}: what is sent", [content["data"]["state"] for _, _, content, _, _ in came], wanted)
        ((_, _, content, *_),) = kernel.hear("comm_msg", widget.comm.comm_id, {"method": "request_state"})
        holds = json.loads(json.dumps(widget.state, default=list))
        has = content["data"]["state"]
        check(f"{name}: the manager has it", (has, type(has["v"])), (holds, type(has["v"])))
        check(f"{name}: of its type", _widgets.same(has["v"], holds["v"]), True)


def last_words_on_keys_and_bytes():
    kernel = Kernel()
    widget = Holds(takes, v=1, b=b"old")
    kernel.came()
    update = {"method": "update", "state": {"v": 2, "strange": 1}, "buffer_paths": [["odd"], ["b"]]}

    def has():
        ((_, _, content, _, buffers),) = kernel.hear("comm_msg", widget.comm.comm_id, {"method": "request_state"})
        return content["data"]["state"], content["data"]["buffer_paths"], buffers

    kernel.hear("comm_msg", widget.comm.comm_id, update, [b"odd", b"new"])
    check("keys that it hasn't stay out; its bytes are put right", has(), ({"v": 2}, [["b"]], [b"old"]))
    kernel.hear("comm_msg", widget.comm.comm_id, {**update, "state": {"v": 3, "strange": 1}}, [b"odd"])
    check("a buffer that is missing beside such keys is missed", has(), ({"v": 2}, [["b"]], [b"old"]))
    widget.rule = lambda widget, message: widget.state.update(b=memoryview(b"sent"))
    wanted = {"method": "update", "state": {}, "buffer_paths": [["b"]]}
    check("the same bytes", kernel.hear("comm_msg", widget.comm.comm_id, wanted, [b"sent"]), [])
    check("the manager has them", has(), ({"v": 2}, [["b"]], [b"sent"]))
    others = kernel.hear("comm_msg", widget.comm.comm_id, wanted, [b"others"])
    check("other bytes", others, [said(widget.comm.comm_id, wanted, (), [b"sent"])])
    for size in (22, 23, 24, 2**16 - 1, 2**16, 2**20):  # long ones stay in Python
        state = {"method": "update", "state": {"v": size}, "buffer_paths": [["b"]]}
        widget.state.update(v=size, b=bytes(size))
        widget.comm.send(state, {"m": 1}, [widget.state["b"]])
        check(f"{size} bytes go out", kernel.came(), [said(widget.comm.comm_id, state, {"m": 1}, [bytes(size)])])
        check(f"the manager has {size} bytes", has(), ({"v": size}, [["b"]], [bytes(size)]))
        state = {**state, "buffer_paths": [["b"], ["v", "x"]]}
        error = raised(lambda: widget.comm.send(state, None, [bytes(size), b""]))
        check(f"bad paths of {size} bytes", ("bad_path 1" in str(error), kernel.came()), (True, []))
    widget.rule = lambda widget, message: message["content"]["data"]["state"]["v"].append(3) or takes(widget, message)
    came = kernel.hear("comm_msg", widget.comm.comm_id, {**wanted, "state": {"v": [1]}, "buffer_paths": []})
    check("a list that is changed in place", came[0][2]["data"]["state"], {"v": [1, 3]})
    widget.rule = lambda widget, message: widget.comm.close()
    came = kernel.hear("comm_msg", widget.comm.comm_id, {**wanted, "state": {"v": 9}, "buffer_paths": []})
    check("one that closes", [kind for kind, *_ in came], ["comm_close"])


def keys_that_come_later():
    kernel = Kernel()
    widget = Holds(takes, v=1)
    comm_id = widget.comm.comm_id

    def has(**state):
        kernel.hear("comm_msg", comm_id, {"method": "update", "state": state, "buffer_paths": []})
        ((_, _, content, *_),) = kernel.hear("comm_msg", comm_id, {"method": "request_state"})
        return content["data"]["state"]

    kernel.came()
    check("a key", has(v=2), {"v": 2})
    check("one that it hasn't", has(v=3, w=3), {"v": 3})
    widget.keys.append("w")
    check("one that it has since", has(v=4, w=4), {"v": 4, "w": 4})
    Holds(takes, Comm(WIDGET, {"state": {"x": 1}}, comm_id=comm_id), x=1)
    kernel.came()
    check("another widget of its id", has(v=5, x=2), {"x": 2})


def opened_by_a_frontend():
    kernel = Kernel()
    made = []
    kernel.manager.register_target(WIDGET, lambda opened, message: made.append(Holds(takes, opened, v=1, w=2)))
    data = {"state": {"v": 5}, "buffer_paths": []}
    came = kernel.hear("comm_open", "f", data, (), {"version": "2.0.0"}, target_name=WIDGET)
    check(
        "what the widget holds goes out",
        came,
        [said("f", {"method": "update", "state": {"v": 1, "w": 2}, "buffer_paths": []})],
    )
    came = kernel.hear("comm_open", "g", data, target_name=WIDGET)
    check("no version", came, [said("g", {}, kind="comm_close")])
    came = kernel.hear("comm_open", "h", {"widget_class": "Mine"}, target_name=WIDGET)
    check("an open of version 1", [content["data"]["state"] for _, _, content, _, _ in came], [{"v": 1, "w": 2}])
    check("all are open", kernel.info(), {"f": WIDGET, "h": WIDGET})


def echoes_and_clamps(widget, message):
    state = {**message["content"]["data"]["state"], "v": 50}
    widget.comm.send({"method": "echo_update", "state": state, "buffer_paths": []}, None, message["buffers"])
    widget.state["v"] = 10


def echoes():
    """ipywidgets echoes what it likes to, as one message more."""
    kernel = Kernel()
    widget = Holds(echoes_and_clamps, v=1)
    kernel.came()
    update = {"method": "update", "state": {"v": 2}, "buffer_paths": []}
    echo = {"method": "echo_update", "state": {"v": 50}, "buffer_paths": []}
    came = kernel.hear("comm_msg", widget.comm.comm_id, update, [b"x"])
    wanted = [echo, {"method": "update", "state": {"v": 10}, "buffer_paths": []}]
    check("an echo, then the last word", [content["data"] for _, _, content, *_ in came], wanted)
    check("with its buffers", [buffers for *_, buffers in came], [[b"x"], []])
    ((_, _, content, *_),) = kernel.hear("comm_msg", widget.comm.comm_id, {"method": "request_state"})
    check("it changes no state", content["data"]["state"], {"v": 10})


# Version 1 of the widget protocol and version 2, in both directions.
def old_protocol():
    kernel = Kernel()
    widget = Comm(WIDGET, {"_model_name": "M", "v": 1})
    content = {"data": {"_model_name": "M", "v": 1}, "target_name": WIDGET, "target_module": None}
    ((kind, _, told, _, _),) = kernel.came()
    check("an open", (kind, told), ("comm_open", content))
    heard = []
    widget.on_msg(lambda message: heard.append(message["content"]["data"]))
    widget.send({"method": "update", "state": {"v": 2}, "buffers": ["b"]}, buffers=[b"x"])
    data = {"method": "update", "state": {"v": 2}, "buffers": ["b"]}
    check("an update with bytes", kernel.came(), [said(widget.comm_id, data, (), [b"x"])])
    back = {"method": "backbone", "sync_data": {"v": 3}, "buffer_keys": ["b"]}
    check("a frontend's update", (kernel.hear("comm_msg", widget.comm_id, back, [b"y"]), heard), ([], [back]))
    buffered = {"method": "backbone", "sync_method": "update", "sync_data": {"v": 4}}
    kernel.hear("comm_msg", widget.comm_id, buffered)
    check("one without buffer_keys", heard[1:], [buffered])
    data = {"method": "update", "state": {"_model_name": "M", "v": 4}, "buffers": ["b"]}
    came = kernel.hear("comm_msg", widget.comm_id, {"method": "request_state"})
    check("a request_state", came, [said(widget.comm_id, data, (), [b"y"])])
    long = {"method": "update", "state": {"v": 5}, "buffers": ["b"]}
    widget.send(long, buffers=[bytes(2**17)])
    check("an update with long bytes", kernel.came(), [said(widget.comm_id, long, (), [bytes(2**17)])])
    widget.send({"method": "display"})
    check("what only version 1 has", kernel.came(), [said(widget.comm_id, {"method": "display"})])
    kernel = Kernel(is_old_browser=False)
    Comm(WIDGET, {"_model_name": "M", "v": 1}, comm_id=UUID)
    check(
        "frontends of version 2",
        kernel.came()[0][2]["data"],
        {"buffer_paths": [], "state": {"_model_name": "M", "v": 1}},
    )


# What no frontend should send to the widget w: data, and content that has other keys.
HOSTILE = (
    ({"method": "backbone", "sync_data": 1},),
    ({"method": "backbone", "sync_data": {"v": 2}, "buffer_keys": 1},),
    ({"method": "backbone", "sync_data": {"v": 2}, "buffer_keys": [[]]},),
    ({"method": "backbone", "sync_data": {"v": 2}, "buffer_keys": ["v"]},),
    ({"method": "update", "state": []},),
    ({"method": "update", "state": {"v": 2}, "buffer_paths": 1},),
    ({"method": "update", "state": {"v": 2}, "buffer_paths": [1]},),
    ({"method": "update", "state": {"v": 2}, "buffer_paths": [[]]},),
    ({"method": "update", "state": {"v": 2}, "buffer_paths": [[["v"]]]},),
    ({"method": "update", "state": {"v": 2}, "buffer_paths": [["v", "x"]]},),
    ({"method": []},),
    ({},),
    ([],),
    (None,),
    ({"method": "update", "state": {"v": 2}}, ("comm_id", 1)),
    ({"method": "update", "state": {"v": 2}}, ("comm_id", [])),
    ({"method": "update", "state": {"v": 2}}, ("comm_id", None)),
)


def hostile_frontends():
    for data, *keys in HOSTILE:
        kernel = Kernel()
        heard = []
        widget = Holds(lambda widget, message: heard.append(message), v=1)
        kernel.came()
        content = {"comm_id": widget.comm.comm_id, "data": data, **dict(keys)}
        message = {"header": {"msg_type": "comm_msg"}, "metadata": {}, "content": content, "buffers": []}
        error = raised(lambda: kernel.manager.comm_msg(None, None, message))
        check(f"{content} is only noted", (error, kernel.came(), heard), (None, [], []))
        ((_, _, content, *_),) = kernel.hear("comm_msg", widget.comm.comm_id, {"method": "request_state"})
        check("and changes nothing", content["data"]["state"], {"v": 1})
    for content in ({}, {"comm_id": 1}, {"comm_id": "a", "target_name": []}, {"target_name": "t"}):
        for kind in ("comm_open", "comm_msg", "comm_close"):
            kernel = Kernel()
            message = {"header": {"msg_type": kind}, "metadata": {}, "content": content}
            error = raised(lambda: getattr(kernel.manager, kind)(None, None, message))
            wanted = [said("a", {}, kind="comm_close")] if kind == "comm_open" and "comm_id" in content else []
            wanted = wanted if content.get("comm_id") == "a" else []
            check(f"{kind} {content}", (error, kernel.came(), kernel.info()), (None, wanted, {}))


if __name__ == "__main__":
    sys.exit(
        run(
            last_words,
            last_words_on_keys_and_bytes,
            keys_that_come_later,
            opened_by_a_frontend,
            echoes,
            old_protocol,
            hostile_frontends,
        )
    )
