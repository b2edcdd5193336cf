"""Tries the kernel from a frontend. Each check says what was wanted where it fails; the last line is 'N passed, M
failed', and so is the status."""

import sys
import traceback

from checks import check, counted
from frontend import Frontend, printed_by
from number_texts import Number, loads

PNG = b"\x89PNG\r\n\x1a\n\x00"


def kinds(came):
    return [got.kind for got in came]


def update(state, paths=()):
    return {"method": "update", "state": state, "buffer_paths": list(paths)}


def a_slider(front):
    """ipywidgets' own: what the user sees of it is what it is under ipykernel's comm manager."""
    printed, came = front.run("import ipywidgets; s = ipywidgets.IntSlider(value=3, max=10); print(s.comm.comm_id)")
    slider = printed.strip()
    check("layout, style and slider open", kinds(came), ["comm_open"] * 3)
    opened = came[-1]
    check(
        "the last is the slider", (opened.content["comm_id"], opened.content["target_name"]), (slider, "jupyter.widget")
    )
    check(
        "its state and version", (opened.content["data"]["state"]["value"], opened.metadata), (3, {"version": "2.1.0"})
    )
    check(
        "its layout is the first", opened.content["data"]["state"]["layout"], "IPY_MODEL_" + came[0].content["comm_id"]
    )
    check("comm_info has all three", front.info(), {got.content["comm_id"]: "jupyter.widget" for got in came})
    front.run("seen = []; s.observe(lambda change: seen.append(change['new']), 'value')")

    def move(value):
        return front.send("comm_msg", {"comm_id": slider, "data": update({"value": value})})

    for value in (4, 5, 7):
        check(f"a move to {value} has no answer", move(value), [])
    check("the moves reach Python", front.run("print(s.value, seen)")[0], "7 [4, 5, 7]\n")
    check(
        "a change in Python goes out",
        [got.content["data"] for got in front.run("s.value = 9")[1]],
        [update({"value": 9})],
    )
    check("Python's validation comes back", [got.content["data"] for got in move(50)], [update({"value": 10})])
    came = front.send("comm_msg", {"comm_id": slider, "data": {"method": "request_state"}})
    state = {**opened.content["data"]["state"], "value": 10}
    check("the manager has the state", [got.content["data"] for got in came], [update(state)])
    check(
        "a close in Python",
        [(got.kind, got.content["comm_id"]) for got in front.run("s.close()")[1]],
        [("comm_close", slider)],
    )


# What the user makes, and what its state has then.
FLOATS = (
    ("FloatSlider(value=0.1, max=1e300)", "value", "0.1"),
    ("FloatSlider(value=0.1, max=1e300)", "max", "1e+300"),
    ("FloatRangeSlider(value=(0.25, 50))", "value", "[0.25,50.0]"),
    ("FloatText(value=6.02214076e23)", "value", "6.02214076e+23"),
    ("FloatText(value=-0.0)", "value", "-0.0"),
    ("BoundedFloatText(value=1 / 3)", "value", "0.3333333333333333"),
    ("FloatProgress(max=1)", "max", "1.0"),
    ("Controller()", "timestamp", "0.0"),
    ("interactive(lambda x: None, x=1.0).children[0]", "value", "1.0"),
)


def widgets_with_floats(front):
    for made, key, text in FLOATS:
        printed, came = front.run(f"w = ipywidgets.{made}; print(w.comm.comm_id)")
        opened = {got.content["comm_id"]: got.content["data"]["state"] for got in came if got.kind == "comm_open"}
        check(f"{made}: {key}", opened.get(printed.strip(), {}).get(key, printed), loads(text))


# What a frontend sends of the value, and what Python has then, as the widget says it. JavaScript writes 3.0 as 3.
MOVES = (
    ("2.50", "2.5"),
    ("0.30000000000000004", "0.30000000000000004"),
    ("1e-7", "1e-07"),
    ("3", "3.0"),
    ("7.0", "7.0"),
    ("1E+1", "10.0"),
    ("-0.0", "-0.0"),
    ("0.1000000000000000055511151231257827", "0.1"),
)


def a_float_slider(front):
    """Moved by the frontend: Python has the float, which a page that is loaded is told."""
    made = "f = ipywidgets.FloatSlider(value=5.5, max=10, step=0.05); print(f.comm.comm_id)"
    printed, came = front.run(f"{made}; f.observe(lambda change: heard.append(change['new']), 'value'); heard = []")
    slider, state = printed.strip(), came[-1].content["data"]["state"]
    request = {"comm_id": slider, "data": {"method": "request_state"}}
    for text, held in MOVES:
        moved = update({"value": loads(text)})
        check(f"a move to {text} has no answer", front.send("comm_msg", {"comm_id": slider, "data": moved}), [])
        printed = front.run("print(repr(f.value), heard == [f.value], heard.clear())")[0]
        check(f"a move to {text} reaches Python", printed, f"{held} True None\n")
        came = front.send("comm_msg", request)
        has = update({**state, "value": loads(held)})
        check(f"a page is told of {text}", [got.content["data"] for got in came], [has])
    came = front.send("comm_msg", {"comm_id": slider, "data": update({"value": Number("12.75")})})
    check("Python's bound comes back", [got.content["data"] for got in came], [update({"value": Number("10.0")})])


# What Python does, and what goes out of it.
STEPS = (
    ("p.value = 0.1 + 0.2", '{"value":0.30000000000000004}'),
    ("p.value = 1 / 3", '{"value":0.3333333333333333}'),
    ("p.value = 1e-7", '{"value":1e-07}'),
    ("p.value = 1", '{"value":1.0}'),
    ("p.max = 1e300", '{"max":1e+300}'),
    ("p.value = 2.0 ** 70", '{"value":1.1805916207174113e+21}'),
    ("p.value = 0", '{"value":0.0}'),
)


def a_float_progress(front):
    """Moved by the kernel, as a bar of tqdm's is."""
    printed, came = front.run("p = ipywidgets.FloatProgress(max=1.0); print(p.comm.comm_id)")
    bar, state = printed.strip(), came[-1].content["data"]["state"]
    for code, text in STEPS:
        state.update(loads(text))
        check(f"{code} goes out", [got.content["data"] for got in front.run(code)[1]], [update(loads(text))])
        came = front.send("comm_msg", {"comm_id": bar, "data": {"method": "request_state"}})
        check(f"the manager has {code}", [got.content["data"] for got in came], [update(state)])


def a_button(front):
    printed, _ = front.run(
        "b = ipywidgets.Button(description='x'); b.on_click(lambda _: print('clicked')); print(b.comm.comm_id)"
    )
    came = front.send(
        "comm_msg", {"comm_id": printed.strip(), "data": {"method": "custom", "content": {"event": "click"}}}
    )
    check("a click", (printed_by(came), {got.kind for got in came}), ("clicked\n", {"stream"}))


BYTES_WIDGET = """
class Blob(ipywidgets.DOMWidget):
    value = traitlets.Bytes().tag(sync=True, from_json=lambda value, widget: bytes(value))
"""


def a_widget_with_bytes(front):
    """A user's class over ipywidgets, with binary buffers."""
    printed, came = front.run(f"import traitlets{BYTES_WIDGET}v = Blob(value={PNG!r}); print(v.comm.comm_id)")
    blob = printed.strip()
    check("bytes go out", [got.buffers for got in came if got.content["data"]["buffer_paths"] == [["value"]]], [[PNG]])
    came = front.send("comm_msg", {"comm_id": blob, "data": update({}, [["value"]])}, buffers=[b"\x00\xff"])
    check("bytes come in", (came, front.run("print(bytes(v.value))")[0]), ([], "b'\\x00\\xff'\n"))
    came = front.send("comm_msg", {"comm_id": blob, "data": {"method": "request_state"}})
    check(
        "bytes come back",
        [(got.content["data"]["buffer_paths"], got.buffers) for got in came],
        [([["value"]], [b"\x00\xff"])],
    )


OWN_WIDGET = """
from ipykernel.comm import Comm

class Gauge:
    def __init__(self, level, picture):
        data = {"state": {"level": level, "picture": {}}, "buffer_paths": [["picture", "png"]]}
        self.comm = Comm(target_name="jupyter.widget", data=data, metadata={"version": "2.1.0"}, buffers=[picture])
        self.comm.on_msg(
            lambda message: heard.append(
                (message["content"]["data"]["method"], [bytes(b) for b in message["buffers"]])
            )
        )
        self.comm.on_close(lambda message: heard.append("closed"))

    def set(self, **state):
        self.comm.send({"method": "update", "state": state, "buffer_paths": []})

heard = []
"""


def a_widget_of_ones_own(front):
    """A user's class over a comm, in version 2 of the protocol."""
    printed, came = front.run(OWN_WIDGET + f"g = Gauge(1, {PNG!r}); print(g.comm.comm_id)")
    gauge = printed.strip()
    opened = {"buffer_paths": [["picture", "png"]], "state": {"level": 1, "picture": {}}}
    check(
        "it opens with its bytes",
        [(got.content["data"], got.metadata, got.buffers) for got in came],
        [(opened, {"version": "2.1.0"}, [PNG])],
    )
    check("it changes", [got.content["data"] for got in front.run("g.set(level=2)")[1]], [update({"level": 2})])
    front.send("comm_msg", {"comm_id": gauge, "data": update({"picture": {}}, [["picture", "png"]])}, buffers=[b"new"])
    came = front.send("comm_msg", {"comm_id": gauge, "data": {"method": "request_state"}})
    wanted = [(update({"level": 2, "picture": {}}, [["picture", "png"]]), [b"new"])]
    check("its state has both changes", [(got.content["data"], got.buffers) for got in came], wanted)
    custom = {"comm_id": gauge, "data": {"method": "custom", "content": {"go": True}}}
    check("a custom message", front.send("comm_msg", custom, buffers=[b"\x01", b""]), [])
    heard = "[('update', [b'new']), ('request_state', []), ('custom', [b'\\x01', b''])]\n"
    check("what it heard, as by ipykernel", front.run("print(heard)")[0], heard)
    check("a fault isn't heard", front.send("comm_msg", {"comm_id": gauge, "data": {"method": "dance"}}), [])
    changed = [got.content["data"] for got in front.run("g.set(level=0.5)")[1]]
    check("it changes to a fraction", changed, [update({"level": Number("0.5")})])
    front.send("comm_close", {"comm_id": gauge, "data": {}})
    check("it heard the close", front.run("print(heard[3:])")[0], "['closed']\n")
    check("it is gone, and says nothing more", (gauge in front.info(), front.run("g.set(level=3)")), (False, ("", [])))


OWN_COMMS = """
def opened(comm, message):
    if message["content"]["data"].get("fails"):
        raise ValueError("as the test wants it")
    comm.on_msg(
        lambda message: comm.send(
            {"twice": 2 * message["content"]["data"]["n"]}, {"m": 1}, buffers=list(reversed(message["buffers"]))
        )
    )
    comm.on_close(lambda message: ended.append(message["content"]["data"]))
    comm.send({"hello": message["content"]["data"]})

ended = []
comms = get_ipython().kernel.comm_manager
comms.register_target("my.target", opened)
"""


def comms_of_ones_own(front):
    """A target of the user's, which is a plain one to the manager."""
    front.run(OWN_COMMS)

    def open_comm(comm_id, target="my.target", **data):
        return front.send("comm_open", {"comm_id": comm_id, "target_name": target, "data": data})

    def said(came):
        """What is said on comms; since 6.18 ipykernel shows the errors of callbacks too."""
        return [(got.kind, got.content["comm_id"], got.content["data"]) for got in came if got.kind != "stream"]

    check("an open is heard and answered", said(open_comm("mine", x=1)), [("comm_msg", "mine", {"hello": {"x": 1}})])
    came = front.send("comm_msg", {"comm_id": "mine", "data": {"n": 21}}, buffers=[b"\x00" * 70000, b"", b"\xff"])
    wanted = [("comm_msg", {"comm_id": "mine", "data": {"twice": 42}}, {"m": 1}, [b"\xff", b"", b"\x00" * 70000])]
    check("buffers there and back", [tuple(got) for got in came], wanted)
    check(
        "an id in use is refused, and the comm stays",
        (open_comm("mine", x=2), front.info("my.target")),
        ([], {"mine": "my.target"}),
    )
    check("a target that fails", said(open_comm("other", fails=True)), [("comm_close", "other", {})])
    check("no such target", said(open_comm("other", "nobody")), [("comm_close", "other", {})])
    check("no such comm", said(front.send("comm_msg", {"comm_id": "other", "data": {"n": 1}})), [])
    check("comm_info of a target", (front.info("my.target"), front.info("nobody")), ({"mine": "my.target"}, {}))
    front.send("comm_close", {"comm_id": "mine", "data": {"bye": 1}})
    check("the close is heard", (front.run("print(ended)")[0], front.info("my.target")), ("[{'bye': 1}]\n", {}))
    for comm_id in ("b", "a"):
        open_comm(comm_id)
    printed, came = front.run(
        "comms.unregister_target('my.target', opened); print([c for c in comms.comms if c in 'ab'])"
    )
    check("to unregister leaves the comms, as in ipykernel", (said(came), printed), ([], "['b', 'a']\n"))
    check("but no other opens", said(open_comm("c")), [("comm_close", "c", {})])
    came = front.run("for comm_id in 'ba': comms.comms[comm_id].close()")[1]
    check("until they close", (kinds(came), front.info("my.target")), (["comm_close"] * 2, {}))


# What a frontend sends, and what comes of twice that.
DOUBLES = (
    ("0.1", "0.2"),
    ("1e-1", "0.2"),
    ("0.15", "0.3"),
    ("3.0", "6.0"),
    ("3", "6"),
    ("1e300", "2e+300"),
    ("18446744073709551616", "36893488147419103232"),
)
# Numbers that JSON hasn't, which go out as by ipykernel: what makes them, and the data that go out.
NO_NUMBERS = (
    ("comms.get_comm('n').send({'x': float('nan')})", {"x": "nan"}),
    ("comms.get_comm('n').send({'x': [-float('inf')]})", {"x": ["-inf"]}),
    ("i = Comm(target_name='front.target', data={'x': float('inf')}); i.close()", {"x": "inf"}),
    (
        "g = Gauge(float('nan'), b'')",
        {"state": {"level": "nan", "picture": {}}, "buffer_paths": [["picture", "png"]]},
    ),
)


def fractions_of_ones_own(front):
    """On a plain comm that the frontend opened, and on one of the kernel's."""
    front.run(OWN_COMMS)
    content = {"comm_id": "n", "target_name": "my.target", "data": loads('{"x":[2.50,1e2,-0]}')}
    came = front.send("comm_open", content)
    wanted = [{"hello": loads('{"x":[2.5,100.0,0]}')}]
    check("an open with fractions", [got.content["data"] for got in came], wanted)
    for text, twice in DOUBLES:
        came = front.send("comm_msg", {"comm_id": "n", "data": {"n": loads(text)}})
        check(f"twice {text}", [got.content["data"] for got in came], [{"twice": loads(twice)}])
    for code, data in NO_NUMBERS:
        printed, came = front.run(code)
        check(f"{code} goes out", (printed, came[0].content["data"]), ("", data))
    front.run("comms.unregister_target('my.target', opened)")
    printed, came = front.run("k = Comm(target_name='front.target', data={'x': 0.5}, metadata={'m': 1.5})")
    opened = [(printed, got.content["data"], got.metadata) for got in came]
    check("one of the kernel's opens", opened, [("", {"x": Number("0.5")}, {"m": Number("1.5")})])
    for code, text in (("k.send({'x': [1e22, 0.25]})", '{"x":[1e+22,0.25]}'), ("k.close({'x': 1e-5})", '{"x":1e-05}')):
        check(code, [got.content["data"] for got in front.run(code)[1]], [loads(text)])


# As where the garbage collector ends something amid a call, whose end closes a comm. Whoever has put another `send` in
# the place of the session's sees what comms say.
AMID = """
session = get_ipython().kernel.session
send = session.send

def seen(*parts, **keys):
    session.send = send
    k.close({"bye": 1})
    return send(*parts, **keys)

session.send = seen
k.send({"n": 1})
"""


def a_comm_of_the_kernels(front):
    """A comm that the kernel's code opens towards a target of the frontend's."""
    code = (
        "k = Comm(target_name='front.target', data={'x': 0}, metadata={'m': 2}, buffers=[b'b']); "
        "k.on_msg(lambda m: print(m['content']['data']))"
    )
    printed, came = front.run(code + "; print(k.comm_id)")
    comm_id = printed.strip()
    content = {"comm_id": comm_id, "data": {"x": 0}, "target_name": "front.target", "target_module": None}
    check("it opens", [tuple(got) for got in came], [("comm_open", content, {"m": 2}, [b"b"])])
    check("it is open", front.info("front.target"), {comm_id: "front.target"})
    came = front.send("comm_msg", {"comm_id": comm_id, "data": {"y": [1]}})
    check("it hears", (printed_by(came), {got.kind for got in came}), ("{'y': [1]}\n", {"stream"}))
    printed, came = front.run(AMID)
    wanted = [("comm_msg", {"n": 1}), ("comm_close", {"bye": 1})]
    check(
        "a close amid a call comes after it", (printed, [(got.kind, got.content["data"]) for got in came]), ("", wanted)
    )
    check("it is gone", front.info("front.target"), {})


def two_tabs_and_a_kill(front):
    front.run(OWN_COMMS)
    front.send("comm_open", {"comm_id": "t", "target_name": "my.target", "data": {}})
    before = front.info()
    tab = front.connected()
    check("another tab has the same comms", (front.info(client=tab), before["t"]), (before, "my.target"))
    tab.stop_channels()
    front.kill()
    check("a new kernel has no comms", front.info(), {})
    came = front.send("comm_msg", {"comm_id": "t", "data": {"n": 1}})
    check("and knows none", [got.kind for got in came if got.kind != "stream"], [])
    printed, came = front.run("import ipywidgets; s = ipywidgets.IntSlider(value=6); print(s.comm.comm_id)")
    check("a slider opens again", (kinds(came), came[-1].content["data"]["state"]["value"]), (["comm_open"] * 3, 6))
    front.send("comm_msg", {"comm_id": printed.strip(), "data": update({"value": 8})})
    check("and moves", front.run("print(s.value)")[0], "8\n")


PARTS = (
    a_slider,
    widgets_with_floats,
    a_float_slider,
    a_float_progress,
    a_button,
    a_widget_with_bytes,
    a_widget_of_ones_own,
    comms_of_ones_own,
    fractions_of_ones_own,
    a_comm_of_the_kernels,
    two_tabs_and_a_kill,
)


def main():
    # test_last_word.py has echoes; since 6.18 ipykernel warns of its own class of comms
    front = Frontend(JUPYTER_WIDGETS_ECHO="0", PYTHONWARNINGS="ignore::DeprecationWarning")
    for part in PARTS:
        try:
            part(front)
        except Exception:
            check(f"{part.__name__} ends in no error", traceback.format_exc(), None)
    front.close()
    return counted()


if __name__ == "__main__":
    sys.exit(main())
