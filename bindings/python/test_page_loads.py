"""What a page asks for that is loaded: the state of a widget, and of all widgets, as the widgets hold them.

test_page_loads.py PACKAGE, the folder where the package is built.
"""

import sys
import threading

from comms_kernel import UUID, WIDGET, Kernel, said  # first, since it says where the package is
from checks import check, run
from rolgunai.comms import Comm
from test_widgets import Holds, takes

CONTROL = "jupyter.widget.control"
SECONDS = 60


class Shown(Holds):
    """A widget that answers for itself, as those of ipywidgets do."""

    def __init__(self, **state):
        super().__init__(takes, **state)
        self.comm.on_msg(self.handle)

    def handle(self, message):
        if message["content"]["data"]["method"] == "request_state":
            self.send_state()
        else:
            takes(self, message)

    def send_state(self):
        self.comm.send({"method": "update", "state": dict(self.state), "buffer_paths": []})


class Quiet(Shown):
    def send_state(self):
        self.comm.send({"method": "update", "state": {"v": self.state["v"], "more": 7}, "buffer_paths": []})


class Fails(Shown):
    def send_state(self):
        raise ValueError("as the test wants it")


def states_that_are_asked_for():
    for kind, wanted in ((Shown, {"v": {"a": 1, "b": 2}, "w": 1}), (Quiet, {"v": {"a": 1, "b": 2}, "more": 7})):
        kernel = Kernel()
        widget = kind(v={"a": 1}, w=1)
        kernel.came()
        widget.state["v"]["b"] = 2  # in place
        came = kernel.hear("comm_msg", widget.comm.comm_id, {"method": "request_state"})
        data = {"method": "update", "state": wanted, "buffer_paths": []}
        check(f"{kind.__name__} answers itself", came, [said(widget.comm.comm_id, data)])
    kernel = Kernel()
    widget = Fails(v={"a": 1}, w=1)
    kernel.came()
    widget.state["v"]["b"] = 2
    came = kernel.hear("comm_msg", widget.comm.comm_id, {"method": "request_state"})
    states = [content["data"]["state"] for _, _, content, *_ in came]
    check("where it fails, the manager does, as it was told", states, [{"v": {"a": 1}, "w": 1}])
    kernel = Kernel()
    made = Comm(WIDGET, {"state": {"v": 1}}, comm_id=UUID)
    heard = []
    made.on_msg(lambda message: heard.append(message["content"]["data"]["method"]))
    kernel.came()
    came = kernel.hear("comm_msg", UUID, {"method": "request_state"})
    data = {"method": "update", "state": {"v": 1}, "buffer_paths": []}
    check("and where nothing answers", (came, heard), ([said(UUID, data)], ["request_state"]))


class OfIpywidgets:
    """As the class of ipywidgets that is told what comes on the control comm."""

    heard = []

    def handle(self, message):
        self.heard.append(message["content"]["data"])

    handle.__module__ = "ipywidgets.widgets.widget"


MODEL = {"_model_name": "M", "_model_module": "m", "_model_module_version": "1"}


def page(kernel, comm_id):
    """What a page is told that asks for all states: its content, its buffers, and what else is said."""
    kernel.hear("comm_open", comm_id, {}, target_name=CONTROL)
    came = kernel.hear("comm_msg", comm_id, {"method": "request_states"})
    kernel.hear("comm_close", comm_id, {})
    ((*_, content, _, buffers),) = [sent for sent in came if sent[1] == comm_id]
    return content["data"], buffers, [sent for sent in came if sent[1] != comm_id]


def pages_that_are_loaded():
    kernel = Kernel()
    kernel.manager.register_target(CONTROL, lambda made, message: made.on_msg(OfIpywidgets().handle))
    shown = Shown(**MODEL, v={"a": 1}, long=b"x" * 70000)
    silent = Comm(WIDGET, {"state": {**MODEL, "v": 3}}, comm_id="silent")
    Comm(WIDGET, {"state": {"v": 4}}, comm_id="of no model")
    Comm("t", comm_id="no widget")
    kernel.came()
    model = {"model_name": "M", "model_module": "m", "model_module_version": "1"}

    def wanted(v):
        state = {**model, "state": {**MODEL, "v": v}}
        return {
            "method": "update_states",
            "states": {shown.comm.comm_id: state, "silent": {**model, "state": {**MODEL, "v": 3}}},
            "buffer_paths": [[shown.comm.comm_id, "state", "long"]],
        }

    data, buffers, others = page(kernel, "first")
    check("all states, with their buffers", (data, buffers), (wanted({"a": 1}), [b"x" * 70000]))
    told = {"method": "update", "state": {}, "buffer_paths": [["long"]]}
    check("what the manager hadn't is told", others, [said(shown.comm.comm_id, told, (), [b"x" * 70000])])
    shown.state["v"]["b"] = float("nan")  # in place
    data, _, others = page(kernel, "second")
    check("as the widget holds them", data, wanted({"a": 1, "b": "nan"}))
    told = {"method": "update", "state": {"v": {"a": 1, "b": "nan"}}, "buffer_paths": []}
    check("and only what isn't told yet goes out", others, [said(shown.comm.comm_id, told)])
    check("a second time nothing does", page(kernel, "third")[2], [])
    shown.state = None
    check(
        "a widget that fails leaves the others",
        list(page(kernel, "fourth")[0]["states"]),
        [shown.comm.comm_id, "silent"],
    )
    check("ipywidgets isn't asked", OfIpywidgets.heard, [])
    silent.close()


def other_messages_on_the_control_comm():
    kernel = Kernel()
    kernel.manager.register_target(CONTROL, lambda made, message: made.on_msg(OfIpywidgets().handle))
    kernel.hear("comm_open", "c", {}, target_name=CONTROL)
    kernel.hear("comm_msg", "c", {"method": "other"})
    check("but what it alone knows", OfIpywidgets.heard, [{"method": "other"}])
    kernel.manager.register_target(CONTROL, lambda made, message: made.on_msg(heard.append))
    heard = []
    kernel.hear("comm_open", "own", {}, target_name=CONTROL)
    came = kernel.hear("comm_msg", "own", {"method": "request_states"})
    check("a target of one's own is left alone", (came, len(heard)), ([], 1))


def pages_that_are_loaded_meanwhile():
    """Another thread makes widgets, moves and closes them: each load is answered, and with the last that was said."""
    kernel = Kernel()
    kernel.manager.register_target(CONTROL, lambda made, message: made.on_msg(OfIpywidgets().handle))
    kept, ends = Shown(**MODEL, v=0), threading.Event()

    def work():
        number = 0
        while not ends.is_set():
            made = Shown(**MODEL, v=0)
            number += 1
            kept.state["v"] = number
            kept.send_state()
            made.comm.close()

    worker = threading.Thread(target=work)
    worker.start()
    answered = stale = 0
    try:
        for n in range(100):
            kernel.came()
            kernel.hear("comm_open", f"c{n}", {}, target_name=CONTROL)
            came = kernel.hear("comm_msg", f"c{n}", {"method": "request_states"})
            before = 0
            for _, comm_id, content, *_ in came:
                if comm_id == kept.comm.comm_id:
                    before = content["data"]["state"].get("v", before)
                elif comm_id == f"c{n}":
                    answered += 1
                    stale += content["data"]["states"][kept.comm.comm_id]["state"]["v"] < before
    finally:
        ends.set()
        worker.join(SECONDS)
    check("loads that are answered, and that are told an old state", (answered, stale), (100, 0))


if __name__ == "__main__":
    sys.exit(
        run(
            states_that_are_asked_for,
            pages_that_are_loaded,
            other_messages_on_the_control_comm,
            pages_that_are_loaded_meanwhile,
        )
    )
