"""The kernel has the last word on a widget's state: what each frontend is told where ipywidgets refuses, clamps or
changes what one sends, beside the stock kernel, of which the expected states are; and what ipywidgets echoes. Frontends
speak here the version of the widget protocol that ipywidgets does. The last line is 'N passed, M failed'."""

import json
import sys
import traceback

from checks import check, counted
from frontend import Frontend

CELL = """
import ipywidgets, traitlets

class Even(ipywidgets.IntText):
    @traitlets.validate("value")
    def _is_even(self, proposal):
        if proposal["value"] % 2:
            raise traitlets.TraitError("as the test wants it")
        return proposal["value"]

class Rounds(ipywidgets.FloatText):
    @traitlets.validate("value")
    def _round(self, proposal):
        return float(round(proposal["value"]))

class Resets(ipywidgets.Text):
    @traitlets.observe("value")
    def _reset(self, change):
        self.value = "reset"

class Fails(ipywidgets.Text):
    @traitlets.observe("value")
    def _fail(self, change):
        raise ValueError("as the test wants it")

class Quiet(ipywidgets.Text):
    value = traitlets.Unicode().tag(sync=True, echo_update=False)
"""
SLIDER = "ipywidgets.IntSlider(value=3, max=10)"
# A widget, what a frontend sends of it, the value that the widget has then, and what goes out: by the stock kernel, and
# by the proved one. Stock leaves the frontend that sent with what it sent, wherever its widget doesn't change.
ROWS = (
    ("a value", SLIDER, {"value": 5}, 5, [], []),
    ("a wrong type", SLIDER, {"value": "text"}, 3, [], [{"value": 3}]),
    ("a fraction", SLIDER, {"value": 3.5}, 3, [], [{"value": 3}]),
    ("null", SLIDER, {"value": None}, 3, [], [{"value": 3}]),
    ("a clamp", SLIDER, {"value": 50}, 10, [{"value": 10}], [{"value": 10}]),
    (
        "a clamp that changes nothing",
        "ipywidgets.IntSlider(value=10, max=10)",
        {"value": 50},
        10,
        [{"value": 10}],
        [{"value": 10}],
    ),
    ("a validator that takes it", "Even(value=2)", {"value": 4}, 4, [], []),
    ("a validator that raises", "Even(value=2)", {"value": 5}, 2, [], [{"value": 2}]),
    ("a validator that changes it", "Rounds(value=1.0)", {"value": 2.75}, 3.0, [{"value": 3.0}], [{"value": 3.0}]),
    ("one that changes it back", "Rounds(value=1.0)", {"value": 1.25}, 1.0, [{"value": 1.0}], [{"value": 1.0}]),
    ("an integer for a float", "ipywidgets.FloatText(value=1.5)", {"value": 2}, 2.0, [], []),
    ("an observer that sets it", "Resets()", {"value": "x"}, "reset", [{"value": "reset"}], [{"value": "reset"}]),
    ("an observer that raises", "Fails()", {"value": "x"}, "x", [], []),
    ("a key that it hasn't", SLIDER, {"strange": 1}, 3, [], []),
    ("one of two", SLIDER, {"value": 4, "strange": [1]}, 4, [], []),
    ("a good key beside a bad one", SLIDER, {"description": "d", "value": []}, 3, None, None),
    ("no key", SLIDER, {}, 3, [], []),
)


# What a frontend sends where ipywidgets echoes, and what goes out beside the stock kernel's echo: the widget's last word.
ECHOED = (
    ("a value", SLIDER, {"value": 5}, []),
    ("a wrong type", SLIDER, {"value": "text"}, [{"value": 3}]),
    ("a clamp", SLIDER, {"value": 50}, []),
    ("a key that isn't echoed", "Quiet()", {"value": "x"}, []),
    ("one of two", "Quiet()", {"value": "x", "description": "d"}, []),
    ("a key that it hasn't", SLIDER, {"strange": 1}, []),
)


def datas(came):
    """What is said on comms."""
    return [got.content["data"] for got in came if got.kind == "comm_msg"]


def states(came):
    """What the updates of comms have."""
    return [data["state"] for data in datas(came)]


def update(front, made, state):
    """Makes a widget, and sends an update of it as a frontend does. Gives its comm, and what goes out."""
    comm_id = front.run(f"w = {made}; print(w.comm.comm_id)")[0].strip()
    if front.speaks_old_widgets():
        data = {"method": "backbone", "sync_data": state, "buffer_keys": []}
    else:
        data = {"method": "update", "state": state, "buffer_paths": []}
    return comm_id, front.send("comm_msg", {"comm_id": comm_id, "data": data})


def played(front, made, state):
    """What goes out after a frontend's update, the widget's value, and what a frontend that asks is told."""
    comm_id, came = update(front, made, state)
    sent = states(came)
    value = front.run("print(repr(w.value))")[0].strip()
    ((told,),) = [states(front.send("comm_msg", {"comm_id": comm_id, "data": {"method": "request_state"}}))]
    return sent, value, {key: told[key] for key in told if key not in ("layout", "style")}


def last_words(stock, proved):
    for name, made, state, value, by_stock, by_proved in ROWS:
        sent, held, told = played(stock, made, state)
        if by_stock is not None:
            check(f"{name}: stock sends", sent, by_stock)
        check(f"{name}: stock holds", (held, told["value"]), (repr(value), value))
        sent, held, has = played(proved, made, state)
        if by_proved is not None:
            check(f"{name}: the proved kernel sends", sent, by_proved)
        else:
            check(f"{name}: the proved kernel sends", {key: told[key] for key in sent[0]} if sent else {}, sent[0])
        check(f"{name}: it holds and tells as stock does", (held, has), (repr(value), told))


def echoes(stock, proved):
    for name, made, state, last in ECHOED:
        said, heard = (
            [(data["method"], data["state"]) for data in datas(update(front, made, state)[1])]
            for front in (stock, proved)
        )
        check(f"echoed: {name}", heard, said + [("update", word) for word in last])


def beside_stock(part, **environment):
    """Runs a part over the stock kernel and the proved one."""
    fronts = [Frontend("python3", protocol=1, **environment), Frontend(protocol=1, **environment)]
    try:
        for front in fronts:
            front.client.session.unpack = lambda text: json.loads(bytes(text))
            check("the classes are made", front.run(CELL), ("", []))
        part(*fronts)
    except Exception:
        check(f"{part.__name__} ends in no error", traceback.format_exc(), None)
    finally:
        for front in fronts:
            front.close()


def main():
    beside_stock(last_words, JUPYTER_WIDGETS_ECHO="0")
    beside_stock(echoes, JUPYTER_WIDGETS_ECHO="1")
    return counted()


if __name__ == "__main__":
    sys.exit(main())
