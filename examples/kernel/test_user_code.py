"""What users' code does in a notebook, in the stock kernel and in the proved one: what is printed and what goes out is
the same. The last line is 'N passed, M failed'."""

import contextlib
import json
import os
import re
import sys
import traceback

from checks import check, counted
from frontend import Frontend

PACKAGE, FOUND = os.environ["ROLGUNAI_PACKAGE"], os.environ.get("PYTHONPATH")
ENVIRONMENT = {
    "PYTHONPATH": os.pathsep.join([PACKAGE, FOUND] if FOUND else [PACKAGE]),
    "PYTHONWARNINGS": "ignore::DeprecationWarning,ignore::UserWarning",
    "JUPYTER_WIDGETS_ECHO": "0",
}
PRELUDE = """
import gc, json, os, signal, sys, threading, time
import ipywidgets as W, traitlets as T
import ipykernel.comm
kernel = get_ipython().kernel
M = kernel.comm_manager
try:
    import comm
    make = comm.create_comm if hasattr(ipykernel.comm.comm, "BaseComm") else ipykernel.comm.Comm
except ImportError:
    make = ipykernel.comm.Comm

def attempt(f):
    try:
        return repr(f())
    except BaseException as error:
        return "raises " + type(error).__name__

def hear(kind, comm_id, **content):
    message = kernel.session.msg(kind, {"comm_id": comm_id, **content})
    message["buffers"] = []
    kernel.shell_handlers[kind](None, [], message)
"""
# A name, and what a cell does; `hear` is a message of a frontend.
CELLS = (
    ("send after close()", "c = make(target_name='t'); c.close(); print(attempt(c.close))"),
    (
        "a widget that a frontend closed is set on",
        "w = W.IntSlider(); hear('comm_close', w.comm.comm_id, data={}); w.value = 5; print(w.value); w.close()",
    ),
    (
        "a bar in a thread that a frontend closes",
        """
bar, seen = W.IntProgress(0, 0, 100), []
def job():
    hear("comm_close", bar.comm.comm_id, data={})
    for n in range(20): bar.value = n
    seen.append(bar.value)
thread = threading.Thread(target=job); thread.start(); thread.join(); print(seen)
""",
    ),
    (
        "in on_close",
        """
c = make(target_name="t"); c.on_close(lambda m: print(attempt(lambda: c.close())))
hear("comm_close", c.comm_id, data={})
""",
    ),
    (
        "a second open",
        """
c = make(target_name="t"); c.open({"again": 1}); print(c._closed, c.comm_id in M.comms)
c.send({"n": 1}); c.close()
""",
    ),
    ("open after close", "c = make(target_name='t'); c.close(); c.open({}); print(c._closed); c.send(1); c.close()"),
    (
        "an id of one's own, twice",
        """
old, b = make(target_name="t", comm_id="x"), make(target_name="t", comm_id="x", data={"n": 2})
b.send({"n": 3}); print(M.comms["x"] is b); b.close()
""",
    ),
    (
        "a model_id twice",
        "older, b = W.IntSlider(model_id='y'), W.IntSlider(4, model_id='y'); b.value = 5; print(b.value, b.model_id)",
    ),
    (
        "nan",
        "c = make(target_name='t', data={'x': float('nan')}); c.send({'x': [float('inf'), -float('inf')]}); c.close()",
    ),
    (
        "a FloatText of nan",
        "w = W.FloatText(float('nan')); print(w.value); w.value = 2.0; w.value = float('inf'); print(w.value)",
    ),
    ("a FloatProgress to inf", "print(W.FloatProgress(max=float('inf')).max)"),
    ("circular data", "c, a = make(target_name='t'), []; a.append(a); print(attempt(lambda: c.send(a))); c.close()"),
    ("two keys of one text", "c = make(target_name='t'); print(attempt(lambda: c.send({(): 1, '()': 2}))); c.close()"),
    (
        "what isn't JSON",
        "c = make(target_name='t'); print(attempt(lambda: c.send({'x': object()})).split('(')[0]); c.close()",
    ),
    (
        "a state that is changed in place",
        """
class D(W.Widget):
    d = T.Dict().tag(sync=True)
w = D(d={"a": 1}); w.d["b"] = 2
hear("comm_msg", w.comm.comm_id, data={"method": "request_state"})
""",
    ),
    (
        "a send_state of one's own",
        """
class D(W.Widget):
    n = T.Int(1).tag(sync=True)
    calls = 0
    def send_state(self, *parts, **keys):
        D.calls += 1
        super().send_state(*parts, **keys)
w = D(); hear("comm_msg", w.comm.comm_id, data={"method": "request_state"}); print(D.calls)
""",
    ),
    (
        "a get_state of one's own",
        """
class D(W.Widget):
    n = T.Int(1).tag(sync=True)
    def get_state(self, *parts, **keys):
        return {**super().get_state(*parts, **keys), "extra": 7}
w = D(); hear("comm_msg", w.comm.comm_id, data={"method": "request_state"})
""",
    ),
    (
        "register_comm after unregister_comm",
        """
c = make(target_name="t"); heard = []
c.on_msg(lambda message: heard.append(message["content"]["data"]))
M.unregister_comm(c); print(M.register_comm(c) == c.comm_id)
c.send({"x": 1}); hear("comm_msg", c.comm_id, data={"y": 2}); print(heard); c.close()
""",
    ),
    (
        "a comm of another class",
        """
class F:
    comm_id, target_name, _closed = "f", "t", False
    def handle_msg(self, message): print("heard")
    def handle_close(self, message): print("closed")
M.register_comm(F()); hear("comm_msg", "f", data={}); hear("comm_close", "f", data={}); print("f" in M.comms)
""",
    ),
    (
        "a target in the dict",
        """
M.targets["d"] = lambda c, m: print(c.comm_id)
hear("comm_open", "d1", target_name="d", data={}); M.comms["d1"].close()
""",
    ),
    (
        "a target that is unregistered",
        """
M.register_target("q", lambda c, m: None)
hear("comm_open", "o", target_name="q", data={}); M.unregister_target("q", None)
print("o" in M.comms); M.comms["o"].send({"n": 1}); M.comms["o"].close()
""",
    ),
    (
        "messages without a header",
        """
M.register_target("q", lambda c, m: print("opened"))
M.comm_open(None, None, {"content": {"comm_id": "n", "target_name": "q"}}); M.comms["n"].close()
""",
    ),
    (
        "a class with traits of its own",
        """
class My(ipykernel.comm.Comm):
    n = T.Int(3)
c = My(target_name="t"); print(c.n, isinstance(c, T.HasTraits), attempt(lambda: setattr(c, "n", "x")))
print(c.log is not None, c.kernel is kernel)
c.close()
""",
    ),
    (
        "a publish_msg of one's own",
        """
said = []
class My(ipykernel.comm.Comm):
    def publish_msg(self, kind, *parts, **keys): said.append(kind)
    _publish_msg = publish_msg
c = My(target_name="t"); c.send({}); c.close(); print(said, c.comm_id in M.comms)
""",
    ),
    (
        "what runs around a message",
        """
import logging
seen, events = [], get_ipython().events
class My(ipykernel.comm.Comm):
    def handle_msg(self, message): seen.append("mine"); super().handle_msg(message)
runs = {kind: (lambda kind=kind: seen.append(kind)) for kind in ("pre_execute", "post_execute")}
for kind, f in runs.items(): events.register(kind, f)
logging.disable()  # which tells each error
for c in (make(target_name="t"), My(target_name="t")):
    for heard in (lambda message: seen.append("heard"), lambda message: 1 / 0, None):
        c.on_msg(heard); hear("comm_msg", c.comm_id, data={}); seen.append("then")
c.handle_msg = lambda message: seen.append("its own"); hear("comm_msg", c.comm_id, data={}); c.close()
logging.disable(logging.NOTSET)
for kind, f in runs.items(): events.unregister(kind, f)
print(seen)
""",
    ),
    (
        "the line at debug of a message",
        """
import logging
class Lines(logging.Handler):
    def emit(self, record): print(record.levelname, record.getMessage()[:30])
c = make(target_name="t", comm_id="z"); c.on_msg(lambda message: print("heard"))
log, lines = getattr(c, "log", None) or logging.getLogger("Comm"), Lines(logging.DEBUG)
for where in (log, logging.getLogger()):
    level = log.level; log.setLevel(logging.DEBUG); where.addHandler(lines); hear("comm_msg", "z", data={})
    where.removeHandler(lines); log.setLevel(level)
hear("comm_msg", "z", data={}); c.close()
""",
    ),
    ("the manager", "print(isinstance(M, ipykernel.comm.CommManager), M in get_ipython().configurables)"),
    ("keys of other types", "c = make(target_name='t'); c.send({1: 2, None: 3, True: 4}); c.close()"),
    (
        "a comm that isn't primary",
        "c = make(target_name='t', primary=False); print(c._closed); c.open({'x': 1}); c.send({'x': 2}); c.close()",
    ),
    (
        "a frontend in the kernel's process",
        """
c = make(target_name="t"); heard = []; c.on_msg(lambda message: heard.append(message["content"]["data"]))
send = kernel.session.send
def answers(stream, kind, *parts, **keys):
    sent = send(stream, kind, *parts, **keys)
    if kind == "comm_msg":
        kernel.session.send = send
        hear("comm_msg", c.comm_id, data={"answer": 1})
    return sent
kernel.session.send = answers
c.send({"ask": 1}); print(heard); c.close()
""",
    ),
)
# Where stock sends something on a comm that is closed, which no frontend knows any more, and the proved kernel nothing.
TO_NOBODY = ("a widget that a frontend closed is set on", "a bar in a thread that a frontend closes")
PLOTLY = """
import plotly.graph_objects as go
f = go.FigureWidget(go.Scatter(y=[1, None, float("nan")], customdata=[[1, "x"], [float("nan"), "y"], [2, "z"]]))
f.data[0].y = ["a", float("nan")]
print(type(f).__name__)
"""
AFTER = """
for widget_comm in list(M.comms.values()): widget_comm.close()
M.comms.clear()
"""
ID = re.compile("IPY_MODEL_[0-9a-f-]+|[0-9a-f]{8}-[0-9a-f-]{27}|[0-9a-f]{32}")


def said(came):
    """What goes out, without ids that differ, and without what says nothing: no buffers, the version that ipywidgets 6
    leaves out."""
    told = []
    for kind, content, metadata, buffers in came:
        content = {key: value for key, value in content.items() if value is not None}
        if isinstance(content.get("data"), dict):
            content["data"] = {
                key: value
                for key, value in content["data"].items()
                if value != [] or key not in ("buffer_paths", "buffers")
            }
        known = {key: value for key, value in metadata.items() if key != "version"}
        told.append((kind, ID.sub("ID", json.dumps(content, sort_keys=True)), known, buffers))
    return told


def beside_stock(stock, ours):
    cells = list(CELLS)
    if not stock.run("import plotly")[0]:
        cells.append(("a figure of plotly's with nan", PLOTLY))
    else:
        print("skipped: a figure of plotly's: Debian's package python3-plotly isn't here")
    for name, cell in cells:
        by_stock, by_ours = [front.run(cell) for front in (stock, ours)]
        check(f"{name}: what is printed", ID.sub("ID", by_ours[0]), ID.sub("ID", by_stock[0]))
        goes_out, stocks = said(by_ours[1]), said(by_stock[1])
        if name in TO_NOBODY:
            rest = iter(stocks)
            check(f"{name}: what goes out is part of stock's", [each for each in goes_out if each not in rest], [])
            check(f"{name}: and less than that", len(goes_out) < len(stocks), True)
        else:
            check(f"{name}: what goes out", goes_out, stocks)
        for front in (stock, ours):
            front.run(AFTER)


PAGES = """
going, made = True, [W.IntSlider(n) for n in range(20)]
def work():
    n = 0
    while going:
        bar = W.IntProgress(n); n += 1
        time.sleep(0.001)
        bar.close(); bar.layout.close(); bar.style.close()
thread = threading.Thread(target=work); thread.start()
"""


def pages_that_are_loaded(ours):
    """Each page is told all states while a thread makes widgets; stock leaves some without an answer."""
    ours.run(PAGES)
    answered = 0
    for number in range(50):
        comm_id = f"page {number}"
        ours.send(
            "comm_open", {"comm_id": comm_id, "target_name": "jupyter.widget.control", "data": {}}, {"version": "1.0.0"}
        )
        came = ours.send("comm_msg", {"comm_id": comm_id, "data": {"method": "request_states"}})
        states = [
            got.content["data"]["states"] for got in came if got.kind == "comm_msg" and "states" in got.content["data"]
        ]
        answered += len(states) == 1 and len(states[0]) >= 60
        ours.send("comm_close", {"comm_id": comm_id, "data": {}})
    ours.run("going = False; thread.join()")
    check("pages that were told all states", answered, 50)


INTERRUPTED = """
threading.Timer({}, os.kill, (os.getpid(), signal.SIGINT)).start()
while True:
    w = W.Layout(); w.width = "1px"; w.close(); time.sleep(0.001)
"""
AFTERWARDS = """
thread = threading.Thread(target=lambda: setattr(bar, "value", {}), daemon=True)
thread.start(); thread.join(30); print(thread.is_alive(), bar.value)
"""


def interrupts(ours):
    """A user's interrupts of a cell that opens and closes comms: threads and the frontend are answered after each."""
    ours.run("bar = W.IntProgress()")
    for number in range(1, 9):
        printed = ours.run(INTERRUPTED.format(number / 97))[0]
        check(f"interrupt {number}", "KeyboardInterrupt" in printed, True)
        check("then a thread sets a widget", ours.run(AFTERWARDS.format(number))[0], f"False {number}\n")
        check("and comm_info is answered", len(ours.info()) > 0, True)


def same_states(stock, ours):
    """What a page is told of all widgets is what stock tells."""
    told = []
    for front in (stock, ours):
        front.run(
            "kept = [W.FloatSlider(0.5, description='d'), W.Image(value=b'x' * 70000)]; kept[0].value = 1.5"
        )
        front.run("kept.append(W.FloatText(float('nan')))")
        front.send(
            "comm_open", {"comm_id": "page", "target_name": "jupyter.widget.control", "data": {}}, {"version": "1.0.0"}
        )
        came = front.send("comm_msg", {"comm_id": "page", "data": {"method": "request_states"}})
        ((*_, content, _, buffers),) = [got for got in came if got.content["comm_id"] == "page"]
        states = sorted(ID.sub("ID", json.dumps(state, sort_keys=True)) for state in content["data"]["states"].values())
        told.append((states, [path[1:] for path in content["data"]["buffer_paths"]], buffers))
        front.run(AFTER)
    check("the states", told[1][0], told[0][0])
    check("and their buffers", told[1][1:], told[0][1:])


def main():
    stock, ours = [Frontend("python3", protocol=1, **ENVIRONMENT) for _ in range(2)]
    with contextlib.closing(stock), contextlib.closing(ours):
        try:
            for front in (stock, ours):
                front.client.session.unpack = lambda text: json.loads(bytes(text))
            ours.run("import rolgunai.comms; rolgunai.comms.install()")
            for front in (stock, ours):
                check("the prelude", front.run(PRELUDE)[0], "")
            has_pages = not ours.speaks_old_widgets()
            if has_pages:
                same_states(stock, ours)
            beside_stock(stock, ours)
            interrupts(ours)
            if has_pages:
                pages_that_are_loaded(ours)
        except Exception:
            check("it ends in no error", traceback.format_exc(), None)
    return counted()


if __name__ == "__main__":
    sys.exit(main())
