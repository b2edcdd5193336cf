"""What users' code does, and goes on after, as with ipykernel and `comm`.

test_user_code.py PACKAGE, the folder where the package is built.
"""

import contextlib
import json
import logging
import sys

from comms_kernel import WIDGET, Kernel, opened, said  # first, since it says where the package is
from checks import check, raised, run
from rolgunai import _calls
from rolgunai._wire import packer
from rolgunai.comms import Comm, CommRefused
from test_widgets import Holds, keeps, takes

SECONDS = 60


@contextlib.contextmanager
def logged(name, level=logging.DEBUG):
    """The lines that a logger is told meanwhile."""
    lines = []

    class Lines(logging.Handler):
        def emit(self, record):
            lines.append((record.levelname, record.getMessage()))

    log, handler = logging.getLogger(name), Lines()
    before, propagates = log.level, log.propagate
    log.setLevel(level)
    log.addHandler(handler)
    log.propagate = False
    logging.disable(logging.NOTSET)
    try:
        yield lines
    finally:
        logging.disable(logging.CRITICAL)
        log.removeHandler(handler)
        log.setLevel(before)
        log.propagate = propagates


def closed_by_a_frontend(kernel):
    made = Comm("t", comm_id="c")
    kernel.hear("comm_close", "c", {})
    return made


def closed_by_itself(kernel):
    made = Comm("t", comm_id="c")
    made.close()
    return made


def never_registered(kernel):
    return Comm("t", comm_id="c", primary=False)


def unregistered(kernel):
    made = Comm("t", comm_id="c")
    kernel.manager.unregister_comm(made)
    return made


def given_way(kernel):
    made = Comm("t", comm_id="c")
    kernel.keeps = Comm("t", comm_id="c")
    return made


def widget_closed_by_a_frontend(kernel):
    made = Comm(WIDGET, {"state": {"v": 1}}, comm_id="c")
    kernel.hear("comm_close", "c", {})
    return made


NOT_OPEN = (
    closed_by_a_frontend,
    closed_by_itself,
    never_registered,
    unregistered,
    given_way,
    widget_closed_by_a_frontend,
)
SAID = ({"n": 1}, {"method": "update", "state": {"v": 2}}, "text", None)
NOWHERE = ("DEBUG", "comm_msg on the comm c, which isn't open, goes nowhere")


def comms_that_are_not_open():
    for way in NOT_OPEN:
        kernel = Kernel()
        made = way(kernel)
        kernel.came()
        for data in SAID:
            with logged("rolgunai") as lines:
                error = raised(lambda: made.send(data, {"m": 1}, [b"b" * 70000]))
            check(f"{way.__name__}: {data!r} goes nowhere", (error, kernel.came(), lines), (None, [], [NOWHERE]))
        check(f"{way.__name__}: nothing is kept of it", len(kernel.manager._calls.long), 0)
    kernel, errors = Kernel(), []
    made = Comm("t", comm_id="c")
    made.on_close(lambda message: errors.append(raised(lambda: made.send({"bye": 1}))))
    kernel.came()
    check("in on_close", (kernel.hear("comm_close", "c", {}), errors), ([], [None]))


def opens_again():
    for target, data in (("t", {"n": 1}), (WIDGET, {"state": {"v": 1}, "buffer_paths": []})):
        kernel = Kernel()
        made = Comm(target, comm_id="x", data=data)
        heard = []
        made.on_msg(heard.append)
        kernel.came()
        made.open(data)
        ((kind, comm_id, content, *_),) = kernel.came()
        check(f"{target}: open() of an open comm", (kind, comm_id, content["data"]), ("comm_open", "x", data))
        check("it stays", (kernel.manager.comms, kernel.info(), made._closed), ({"x": made}, {"x": target}, False))
        update = {"method": "update", "state": {"v": 2}, "buffer_paths": []}
        check("it hears", (kernel.hear("comm_msg", "x", update), len(heard)), ([], 1))
        made.send(update)
        check("it says", kernel.came(), [said("x", update)])
        made.close()
        made.open(data)
        check("open() of a closed one", [kind for kind, *_ in kernel.came()], ["comm_close", "comm_open"])
        second = Comm(target, comm_id="x", data=data)
        check(
            "a second comm of the id takes its place",
            (kernel.manager.comms["x"] is second, kernel.info()),
            (True, {"x": target}),
        )
        check("the frontends are told as by ipykernel", [kind for kind, *_ in kernel.came()], ["comm_open"])
        del made
        check("the first one's end closes nothing", (kernel.came(), kernel.info()), ([], {"x": target}))
        second.send(update)
        check("the second says", kernel.came(), [said("x", update)])
    kernel = Kernel()
    first = Comm(WIDGET, {"state": {"v": 1}}, comm_id="x")
    error = raised(lambda: Comm(WIDGET, {"state": 1}, comm_id="x"))
    check("one that is refused", (type(error), kernel.info(), kernel.manager.comms), (CommRefused, {}, {}))
    check("took its place", first._closed, True)


def frontends_in_the_same_process():
    """A frontend that answers at once, amid the sending."""
    kernel = Kernel()
    order = []
    made = Comm("t", comm_id="x")
    made.on_msg(lambda message: order.append(message["content"]["data"]))
    kernel.amid = lambda: kernel.hear("comm_msg", "x", {"answer": 1})
    made.send({"ask": 1})
    check("its answer is heard", order, [{"answer": 1}])
    kernel.manager.register_target("t", lambda made, message: made.on_msg(order.append))
    kernel.amid = lambda: kernel.hear("comm_open", "y", {}, target_name="t")
    made.send({"ask": 2})
    check("its open is", ("y" in kernel.info(), "y" in kernel.manager.comms), (True, True))
    kernel.amid = lambda: kernel.hear("comm_close", "x", {})
    made.send({"ask": 3})
    check("its close is", (made._closed, "x" in kernel.info()), (True, False))
    other, infos = Comm("t", comm_id="z"), []
    kernel.amid = lambda: infos.append(kernel.info())
    other.send({})
    check("comm_info is answered at once", infos, [{"y": "t", "z": "t"}])


def messages_of_few_words():
    """As tests of ipykernel's hand them in."""
    kernel = Kernel()
    manager, heard = kernel.manager, []
    manager.register_target("t", lambda made, message: made.on_msg(heard.append))
    manager.comm_open(None, None, {"content": {"comm_id": "n", "target_name": "t"}})
    check("an open without a header", (kernel.came(), kernel.info()), ([], {"n": "t"}))
    manager.comm_msg(None, None, {"content": {"comm_id": "n"}})
    check("a message", len(heard), 1)
    manager.comm_close(None, None, {"content": {"comm_id": "n"}})
    check("a close", kernel.info(), {})
    for kind in ("comm_open", "comm_msg", "comm_close"):
        check(f"{kind} with nothing", raised(lambda: getattr(manager, kind)(None, None, {})), None)
    kernel.hear("comm_open", "", {}, target_name="t")
    check(
        "an empty id is one to both",
        (kernel.info(), list(manager.comms), manager.comms[""].comm_id),
        ({"": "t"}, [""], ""),
    )
    manager.comms[""].send({"n": 1})
    check("and says", kernel.came(), [said("", {"n": 1})])


def many_targets():
    """The kernel's code opens comms each towards a target of its own, as libraries do."""
    kernel = Kernel()
    kernel.manager.register_target("served", print)
    for n in range(2000):
        Comm(f"target {n}", comm_id="x").close()
        Comm("served", comm_id="x").close()
    Comm(WIDGET, {"state": {}}).close()
    kept = Comm("kept")
    again = [Comm("kept").close() for _ in range(3)]
    check("only those that may be opened stay", kernel.manager._calls._targets, {"served", WIDGET, "kept"})
    check("a comm of theirs stays", (kernel.info(), again), ({kept.comm_id: "kept"}, [None] * 3))


# The error where as many comms are open as may be.
FULL = "comm_open: refused too_many_comms: {0} comms are open, of which {1} are widgets, and no more than {0} may be. "
CLOSE = (
    "Close those that are no longer shown: widget.close(), comm.close(), or ipywidgets.Widget.close_all() for all "
    "widgets"
)


def the_most_comms():
    limit = _calls.MOST_COMMS
    check("the limit is the library's own", limit, 1_048_576)
    for most, shown, widgets in ((3, "3", 1), (1200, "1,200", 1000), (10_000, "10,000", 2)):
        _calls.MOST_COMMS = most
        kernel = Kernel()
        targets = [WIDGET] * widgets + ["t"] * (most - widgets)
        made = [Comm(target, {"state": {}}) for target in targets]
        kernel.came()
        words = FULL.format(shown, f"{widgets:,}") + CLOSE
        for target in ("t", WIDGET):
            check(f"the error of {target}", str(raised(lambda: Comm(target, {"state": {}}))), words)
        kernel.manager.register_target("t", lambda opened, message: None)
        with logged("rolgunai") as lines:
            came = kernel.hear("comm_open", "x", {}, target_name="t")
        closed = said("x", {}, kind="comm_close")
        check("a frontend's open is closed, and logged so", (came, lines), ([closed], [("WARNING", words)]))
        made.pop().close()
        check("then there is room", (raised(lambda: Comm("t")), len(kernel.info())), (None, most))
    _calls.MOST_COMMS = limit


# Numbers that JSON hasn't, and what jupyter_client makes of them, strictly written.
NO_NUMBERS = (
    (float("nan"), "nan"),
    (float("inf"), "inf"),
    (-float("inf"), "-inf"),
    ([1.5, float("nan"), None, True], [1.5, "nan", None, True]),
    ({"a": (1, float("inf")), "b": {"c": [float("nan")]}}, {"a": [1, "inf"], "b": {"c": ["nan"]}}),
    ({3: float("nan"), True: 1, None: 2}, {"3": "nan", "True": 1, "None": 2}),
)


def no_numbers():
    packs = {"its own": packer()}
    with contextlib.suppress(ImportError):
        from jupyter_client.jsonutil import json_clean, json_default
        from jupyter_client.session import json_packer

        packs["jupyter_client's"] = packer(json_default, json_clean)
        for value, text in NO_NUMBERS:
            check(f"jupyter_client has {value!r} so", json.loads(json_packer({"v": value})), {"v": text})
    for name, pack in packs.items():
        for value, text in NO_NUMBERS:
            kernel = Kernel(pack=pack)
            made = Comm("t", {"v": value}, comm_id="x")
            check(f"{name}: {value!r} in an open", kernel.came(), [opened("x", "t", {"v": text})])
            made.send({"v": value})
            check(f"{name}: {value!r} in a message", kernel.came(), [said("x", {"v": text})])
            widget = Holds(keeps, v=value)
            check(f"{name}: {value!r} in a widget", kernel.came()[0][2]["data"]["state"], {"v": text})
            update = {"method": "update", "state": {"v": value}, "buffer_paths": []}
            told = {"method": "update", "state": {"v": text}, "buffer_paths": []}
            widget.comm.send(update)
            check("in an update", kernel.came(), [said(widget.comm.comm_id, told)])
            came = kernel.hear("comm_msg", widget.comm.comm_id, {"method": "request_state"})
            check("in a state that is asked for", came, [said(widget.comm.comm_id, told)])
            for same in (text, value):
                moved = {"method": "update", "state": {"v": same}, "buffer_paths": []}
                came = kernel.hear("comm_msg", widget.comm.comm_id, moved)
                check(f"the same of a frontend: {same!r}", came, [])
            came = kernel.hear("comm_msg", widget.comm.comm_id, {**update, "state": {"v": "other"}})
            check("the last word", came, [said(widget.comm.comm_id, told)])


def circles():
    kernel = Kernel()
    made = Comm("t", comm_id="x")
    widget = Holds(takes, v=1)
    kernel.came()
    inside, circle = {}, []
    inside["x"], limit = inside, sys.getrecursionlimit()
    circle.append(circle)
    for limited in (limit, 10**5):
        sys.setrecursionlimit(limited)
        try:
            for data in (inside, {"x": circle}):
                check("circular data", type(raised(lambda: made.send(data))), RecursionError)
                update = {"method": "update", "state": data}
                check("in a widget", type(raised(lambda: widget.comm.send(update))), RecursionError)
        finally:
            sys.setrecursionlimit(limit)
    check("goes nowhere", kernel.came(), [])


if __name__ == "__main__":
    sys.exit(
        run(
            comms_that_are_not_open,
            opens_again,
            frontends_in_the_same_process,
            messages_of_few_words,
            many_targets,
            the_most_comms,
            no_numbers,
            circles,
        )
    )
