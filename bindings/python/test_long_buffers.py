"""Long buffers of widgets, which stay in Python: they come back as they were, and are let go of.

test_long_buffers.py PACKAGE, the folder where the package is built.
"""

import doctest
import importlib.util
import sys

from comms_kernel import UUID, WIDGET, Kernel, said  # first, since it says where the package is
from checks import check, raised, run
from rolgunai import _long_buffers
from rolgunai.comms import Comm
from test_widgets import Holds, takes

PICTURE, OTHER = bytes(range(256)) * 2**12, b"other" * 2**14


def places(widget, message):
    takes(widget, message)
    keys = [key for key, *_ in message["content"]["data"]["buffer_paths"]]
    widget.state.update(zip(keys, map(bytes, message["buffers"])))


def writes(widget, message):
    message["buffers"][0][0] = 7
    places(widget, message)


class Pictures(Kernel):
    """A kernel with one widget, whose state has bytes."""

    def __init__(self):
        super().__init__()
        self.widget = Holds(places, v=1, b=b"", c=b"")
        self.comm_id = self.widget.comm.comm_id
        self.came()

    def says(self, *buffers, paths=("b",), **state):
        """The widget says these bytes of its keys; gives those that are sent."""
        data = {"method": "update", "state": state, "buffer_paths": [[key] for key in paths]}
        self.widget.comm.send(data, None, buffers)
        return [sent for *_, sent in self.came()]

    def hears(self, *buffers, paths=("b",), **state):
        data = {"method": "update", "state": state, "buffer_paths": [[key] for key in paths]}
        return self.hear("comm_msg", self.comm_id, data, [memoryview(buffer) for buffer in buffers])

    def has(self):
        ((_, _, content, _, buffers),) = self.hear("comm_msg", self.comm_id, {"method": "request_state"})
        return dict(zip((key for key, *_ in content["data"]["buffer_paths"]), buffers))

    def kept(self):
        return len(self.manager._calls.long)


def long_buffers():
    kernel = Pictures()
    check("long bytes are sent as they are", kernel.says(PICTURE)[0][0] is PICTURE, True)
    check("and had as they are", kernel.has()["b"] is PICTURE, True)
    long = kernel.manager._calls.long
    frames, kept = long.handed_in([memoryview(PICTURE), memoryview(PICTURE)[: 2**16]])
    shown, part = long.given_out(frames)
    check("a view of bytes is no copy", shown.obj is PICTURE, True)
    check("a small part of them is one", part == PICTURE[: 2**16] and type(part), bytes)
    long.refused(kept)
    (token,) = kernel.manager._calls.long._buffers
    for like in (token, b"%023d" % (int(token) + 3), bytes(23)):
        check("what looks like a token", kernel.says(like, PICTURE, paths="cb"), [[PICTURE, like]])
        check("is what it is", kernel.has(), {"b": PICTURE, "c": like})
    check("short ones of that length are kept too", kernel.kept(), 2)
    changing = bytearray(OTHER)
    check("a bytearray is sent", kernel.says(changing), [[OTHER]])
    changing[:] = bytes(len(changing))
    check("as it was", kernel.has()["b"] == OTHER, True)
    odd = memoryview(bytes(2**18)).cast("i")[::2]
    check("bytes that don't stand together", raised(lambda: kernel.says(odd)) or kernel.has()["b"], bytes(2**17))
    check("and none", (type(raised(lambda: kernel.says("text"))), kernel.has()["b"]), (TypeError, bytes(2**17)))
    kernel.hears(OTHER, PICTURE, paths="bc")
    check("a frontend's", kernel.has(), {"b": OTHER, "c": PICTURE})
    written, kernel.widget.rule = bytearray(OTHER), writes
    came = kernel.hears(written)
    check("what a callback writes is the widget's", (came, kernel.has()["b"]), ([], b"\x07" + OTHER[1:]))
    written[:2] = b"no"
    check("and nothing later is", kernel.has()["b"], b"\x07" + OTHER[1:])
    kernel.widget.rule = places
    kernel.hears(OTHER)
    kernel.widget.rule = lambda widget, message: widget.state.update(c=OTHER, b=PICTURE)
    came = kernel.hears(PICTURE, paths="c")
    check("the last word", ([sent for *_, sent in came], kernel.has()), ([[OTHER]], {"b": OTHER, "c": OTHER}))
    data = {"method": "custom", "content": 1, "state": {"b": 1}}
    kernel.widget.rule = lambda widget, message: check("a custom message", message["buffers"], [PICTURE])
    check("is heard", kernel.hear("comm_msg", kernel.comm_id, data, [PICTURE]), [])
    kernel.hear("comm_msg", kernel.comm_id, {"method": "request_state", "state": {"b": 1}, "buffer_paths": [["c"]]})
    kernel.hear("comm_msg", kernel.comm_id, {"method": "update", "buffer_paths": [["b"]]}, [PICTURE])
    check("nor an update of no state", (kernel.has(), kernel.kept()), ({"b": OTHER, "c": OTHER}, 2))


def long_buffers_are_let_go_of():
    kernel = Pictures()
    for n in range(100):
        kernel.says(OTHER, PICTURE, paths="bc")
        kernel.hears(OTHER)
    check("after many updates", (kernel.has(), kernel.kept()), ({"b": OTHER, "c": PICTURE}, 2))
    for paths, buffers, words in (("bc", [PICTURE], "buffer_missing 1"), (["b", 0], [PICTURE, OTHER], "bad_path 1")):
        error = raised(lambda: kernel.says(*buffers, paths=paths))
        check(f"{words} in the kernel", (words in str(error), kernel.came()), (True, []))
        check(f"{words} of a frontend", kernel.hears(*buffers, paths=paths), [])
        check("nothing has changed", (kernel.has(), kernel.kept()), ({"b": OTHER, "c": PICTURE}, 2))
    check("more buffers than paths", kernel.says(PICTURE, OTHER, PICTURE), [[PICTURE]])
    check("aren't kept", (kernel.has(), kernel.kept()), ({"b": PICTURE, "c": PICTURE}, 2))
    check("after a short one", kernel.says(b"short", OTHER), [[b"short"]])
    check("neither", (kernel.has(), kernel.kept()), ({"b": b"short", "c": PICTURE}, 1))
    kernel.says(OTHER, PICTURE, paths="bb")
    check("a place that is told twice", kernel.has(), {"b": PICTURE, "c": PICTURE})
    kernel.says(paths=(), b=None)
    kernel.hears(paths=(), c=1)
    check("values that are none", (kernel.has(), kernel.kept()), ({}, 0))
    nested = {
        "method": "update",
        "state": {"v": {"x": [None, {}]}},
        "buffer_paths": [["v", "x", 0], ["v", "x", 1, "y"]],
    }
    kernel.widget.comm.send(nested, None, [PICTURE, OTHER])
    check("inside of a value", kernel.came(), [said(kernel.comm_id, nested, (), [PICTURE, OTHER])])
    kernel.says(paths=(), v={"x": []})
    check("they go with it", (kernel.has(), kernel.kept()), ({}, 0))
    ends = (
        lambda kernel: kernel.hear("comm_close", kernel.comm_id, {}),
        lambda kernel: kernel.widget.comm.close(),
        lambda kernel: kernel.manager.unregister_comm(kernel.widget.comm),
    )
    for n, end in enumerate(ends):
        kernel = Pictures()
        kernel.says(PICTURE, OTHER, paths="bc")
        end(kernel)
        check(f"end {n}", (kernel.info(), kernel.kept(), kernel.manager._calls.long.tokens), ({}, 0, {}))


def orders():
    """The bytes of an array are sent as they lie, as a kernel's session sends them."""
    if importlib.util.find_spec("numpy") is None:
        return
    import numpy

    kernel = Pictures()
    for size in (6, 2**17):
        array = numpy.asfortranarray(numpy.arange(size).astype("u1").reshape(2, -1))
        check(f"a Fortran array of {size}", kernel.says(memoryview(array)), [[array.tobytes("A")]])
        check("is had", kernel.has()["b"], array.tobytes("A"))
        both = kernel.says(memoryview(array), memoryview(array[:, ::2]), paths="bc")
        check("and one beside it that lies apart", both, [[array.tobytes("A"), array[:, ::2].tobytes()]])


def interrupted():
    """An interrupt right after the manager took an update: its buffer is there."""
    kernel = Pictures()
    taken, kernel.manager._calls.long.taken = kernel.manager._calls.long.taken, lambda *parts: 1 // 0
    check("interrupted", type(raised(lambda: kernel.says(PICTURE))), ZeroDivisionError)
    kernel.manager._calls.long.taken = taken
    check("the manager has it", kernel.has()["b"], PICTURE)


def without_a_state():
    kernel = Pictures()
    paths = {"method": "update", "buffer_paths": [["b"]]}
    kernel.widget.comm.send(paths, None, [PICTURE])
    told = {"method": "update", "state": {}, "buffer_paths": [["b"]]}
    check("the kernel's is one of no other key", kernel.came(), [said(kernel.comm_id, told, (), [PICTURE])])
    check("a frontend's is none", kernel.hear("comm_msg", kernel.comm_id, paths, [OTHER]), [])
    check("the state stays", (kernel.has()["b"], kernel.kept()), (PICTURE, 1))
    for comm_id in (UUID, "a"):
        refused = raised(lambda: Comm(WIDGET, {"buffer_paths": [["b"]]}, None, [PICTURE], comm_id))
        check(f"an open of {comm_id}", (str(refused), kernel.kept()), ("comm_open: refused no_state", 1))
    for wrong in ([["v", "x"]], 1, [1], [[]]):
        came = kernel.hear("comm_msg", kernel.comm_id, {**paths, "buffer_paths": wrong}, [OTHER])
        check(f"nor is one with the paths {wrong}", (came, kernel.has()["b"]), ([], PICTURE))
    kernel.widget.rule = lambda widget, message: widget.comm.send(paths, None, [OTHER])
    kernel.hears(paths=(), v=2)
    check("amid a callback", (kernel.has()["b"], kernel.kept()), (OTHER, 1))
    kernel.widget.comm.send({"method": "update", "state": {1: 2, "b": None}})
    kernel.came()
    check("keys are as JSON has them", (kernel.has(), kernel.kept()), ({}, 0))


def opened_with_long_buffers():
    data = {"state": {"v": 1}, "buffer_paths": [["b"], ["c"]]}
    for comm_id in (UUID, "a"):
        kernel = Pictures()
        made = Comm(WIDGET, data, None, [PICTURE, bytes(23)], comm_id)
        ((_, _, content, _, buffers),) = kernel.came()
        check(f"{comm_id} opens", (content["data"], buffers), (data, [PICTURE, bytes(23)]))
        ((*_, buffers),) = kernel.hear("comm_msg", comm_id, {"method": "request_state"})
        check("and has them", (buffers, buffers[0] is PICTURE), ([PICTURE, bytes(23)], True))
        made.close()
        refused = raised(lambda: Comm(WIDGET, {**data, "buffer_paths": [[]]}, None, [PICTURE], comm_id))
        check("closed, and refused", ("bad_path 0" in str(refused), kernel.kept()), (True, 0))
    kernel = Pictures()
    kernel.manager.register_target(WIDGET, lambda opened, message: None)
    kernel.hear("comm_open", "f", data, [PICTURE, OTHER], {"version": "2.0.0"}, target_name=WIDGET)
    ((*_, buffers),) = kernel.hear("comm_msg", "f", {"method": "request_state"})
    check("a frontend's open", buffers, [PICTURE, OTHER])


def documented():
    result = doctest.testmod(_long_buffers)
    check("the examples of the module", (result.failed, result.attempted > 5), (0, True))


if __name__ == "__main__":
    sys.exit(
        run(
            long_buffers,
            orders,
            long_buffers_are_let_go_of,
            interrupted,
            without_a_state,
            opened_with_long_buffers,
            documented,
        )
    )
