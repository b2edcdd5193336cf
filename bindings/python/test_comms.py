"""The comm manager for kernels: what it sends, and what it tells the kernel's code.

test_comms.py PACKAGE, the folder where the package is built.
"""

import doctest
import gc
import sys

from comms_kernel import UUID, WIDGET, Kernel, opened, said  # first, since it says where the package is
import comm
import rolgunai.comms
import rolgunai.hub
from checks import check, raised, run
from rolgunai.comms import Comm, CommRefused

# Ids of the caller's own, which have to come back as they are.
IDS = (
    UUID,
    UUID.upper(),
    UUID.replace("-", ""),
    "{" + UUID + "}",
    "urn:uuid:" + UUID,
    "a",
    "é ☃ \U0001f600",
    'with "quotes" and \\',
    " ",
    "x" * 5000,
)


def ids_of_any_form():
    for comm_id in IDS:
        name = comm_id[:40]
        for target, data in ((WIDGET, {"state": {"v": 1}, "buffer_paths": []}), ("my.target", {"v": 1})):
            kernel = Kernel()
            made = comm.create_comm(target, data=data, comm_id=comm_id)
            ((kind, told, content, *_),) = kernel.came()
            check(f"{name} opens", (kind, told, content["data"], made.comm_id), ("comm_open", comm_id, data, comm_id))
            check(f"{name} is open", (kernel.info(), list(kernel.manager.comms)), ({comm_id: target}, [comm_id]))
            heard = []
            made.on_msg(lambda message: heard.append(message["content"]["data"]))
            update = {"method": "update", "state": {"v": 2}, "buffer_paths": []}
            check(f"{name} hears", (kernel.hear("comm_msg", comm_id, update), heard), ([], [update]))
            made.send(update)
            check(f"{name} says", kernel.came(), [said(comm_id, update)])
            made.close({"bye": 1})
            check(f"{name} closes", kernel.came(), [said(comm_id, {"bye": 1}, kind="comm_close")])
            check(f"{name} is gone", (kernel.info(), kernel.manager.comms), ({}, {}))


def what_comm_makes():
    kernel = Kernel()
    made = Comm("t")
    check("an id of its own", (len(made.comm_id), made.topic), (32, b"comm-" + made.comm_id.encode()))
    check("it opens", kernel.came(), [opened(made.comm_id, "t", {})])
    other = Comm("t", {"d": 1}, {"m": 2}, [b"x"], "b", True, "module", _close_data={"c": 3})
    check("all of an open", kernel.came(), [opened("b", "t", {"d": 1}, {"m": 2}, [b"x"], "module")])
    other.close()
    check("close data", kernel.came(), [said("b", {"c": 3}, kind="comm_close")])
    Comm(WIDGET, {"state": {}}, comm_id=UUID, target_module="module")
    check("a widget's module", kernel.came()[0][2]["target_module"], "module")
    check("its version", Comm(WIDGET, {"state": {}}, {"m": 1}).comm_id in kernel.info(), True)
    check("metadata beside it", kernel.came()[0][3], {"version": "2.1.0", "m": 1})


# Data that may be anything on a comm that is no widget's.
DATA = ({"x": [1.5, None]}, [], [1], "text", 0, 0.5, True, "", {"": {"": 1e300}}, 2**70, {"nested": [[[{}]]]})


def data_of_any_kind():
    kernel = Kernel()
    heard = []
    kernel.manager.register_target("any", lambda made, message: made.on_msg(heard.append))
    for data in DATA:
        check(f"an open with {data!r}", kernel.hear("comm_open", "f", data, target_name="any"), [])
        heard.clear()
        kernel.hear("comm_msg", "f", data, [b"\x00", b""])
        check(f"{data!r} is heard", [(m["content"]["data"], m["buffers"]) for m in heard], [(data, [b"\x00", b""])])
        kernel.manager.comms["f"].send(data, {"m": data}, [b"\xff"])
        check(f"{data!r} is said", kernel.came(), [said("f", data, {"m": data}, [b"\xff"])])
        closed = []
        kernel.manager.comms["f"].on_close(closed.append)
        kernel.hear("comm_close", "f", data)
        check(f"a close with {data!r}", [message["content"]["data"] for message in closed], [data])
        made = Comm("any", data=data, comm_id="k")
        check(f"the kernel's open with {data!r}", kernel.came(), [opened("k", "any", data)])
        made.close(data, {"m": 1}, [b"b"])
        check(f"its close with {data!r}", kernel.came(), [said("k", data, {"m": 1}, [b"b"], "comm_close")])


def targets():
    kernel = Kernel()
    manager = kernel.manager
    manager.register_target("path", "collections.OrderedDict")
    check("a target by its path", manager.targets["path"].__name__, "OrderedDict")

    def fails(made, message):
        raise ValueError("as the test wants it")

    manager.register_target("fails", fails)
    closed = [said("a", {}, kind="comm_close")]
    check("a target that fails closes", kernel.hear("comm_open", "a", {}, target_name="fails"), closed)
    check("no target", kernel.hear("comm_open", "a", {}, target_name="nobody"), closed)
    Comm("matplotlib", comm_id="figure")
    kernel.came()
    check("one the kernel only opens towards", kernel.hear("comm_open", "a", {}, target_name="matplotlib"), closed)
    check("the kernel's stays", (kernel.info(), list(manager.comms)), ({"figure": "matplotlib"}, ["figure"]))
    manager.register_target("mine", lambda made, message: None)
    for comm_id in "ba":
        kernel.hear("comm_open", comm_id, {}, target_name="mine")
    live = manager.comms["a"]
    check("an id in use from a frontend", kernel.hear("comm_open", "a", {}, target_name="mine"), [])
    check("the live comm stays", (manager.comms["a"] is live, kernel.hear("comm_msg", "a", {})), (True, []))
    manager.register_target("mine", fails)
    check("registered again, its comms stay", (manager.comms["a"] is live, kernel.came()), (True, []))
    check("an unregister gives the callback", manager.unregister_target("mine", fails), fails)
    check("its comms stay, as in ipykernel", (kernel.came(), live._closed, "a" in kernel.info()), ([], False, True))
    check("and say", (live.send({"n": 1}), kernel.came()), (None, [said("a", {"n": 1})]))
    closed = [said("new", {}, kind="comm_close")]
    check("no other opens", kernel.hear("comm_open", "new", {}, target_name="mine"), closed)
    for comm_id in "ab":
        manager.comms[comm_id].close()
    check("until they close", (len(kernel.came()), kernel.info()), (2, {"figure": "matplotlib"}))
    check("a target that isn't there", type(raised(lambda: manager.unregister_target("mine", None))), KeyError)
    check("a comm that isn't there", type(raised(lambda: manager.unregister_comm(live))), KeyError)
    check("a message to nobody", (kernel.hear("comm_msg", "a", {}), manager.get_comm("a")), ([], None))


def comms_that_are_registered_by_hand():
    kernel = Kernel()
    heard = []
    made = Comm("other", comm_id="x")
    made.on_msg(heard.append)
    kernel.came()
    kernel.manager.unregister_comm(made)
    check("one that is forgotten", (kernel.came(), kernel.info()), ([], {}))
    check(
        "is heard no more, and says nothing", (made.send({}), kernel.hear("comm_msg", "x", {}), heard), (None, [], [])
    )
    check("it is registered again", (kernel.manager.register_comm(made), kernel.info()), ("x", {"x": "other"}))
    made.send({"n": 1})
    check("says", kernel.came(), [said("x", {"n": 1})])
    kernel.hear("comm_msg", "x", {"n": 2})
    check("and hears", [message["content"]["data"] for message in heard], [{"n": 2}])
    for put in (kernel.manager.register_comm, lambda made: kernel.manager.comms.update({made.comm_id: made})):
        foreign = Foreign()
        put(foreign)
        kernel.hear("comm_msg", "f", {"n": 3})
        check("another class hears", foreign.heard, [{"n": 3}])
        check("and is told", kernel.info(), {"x": "other", "f": "foreign"})
        kernel.hear("comm_close", "f", {})
        check("and closes", (foreign._closed, kernel.info()), (True, {"x": "other"}))
    direct = []
    kernel.manager.targets["direct"] = lambda made, message: direct.append(made.comm_id)
    check("a target in the dict", (kernel.hear("comm_open", "d", {}, target_name="direct"), direct), ([], ["d"]))


class Foreign:
    """What has the methods of a comm that a comm manager calls."""

    comm_id, target_name, _closed = "f", "foreign", False

    def __init__(self):
        self.heard = []

    def handle_msg(self, message):
        self.heard.append(message["content"]["data"])

    def handle_close(self, message):
        pass


# What the kernel's code says of a widget, and why it is refused.
REFUSED = (
    (lambda: Comm(WIDGET, {"state": []}), "comm_open: refused bad_state"),
    (lambda: Comm(WIDGET, {"v": 1}), "comm_open: refused no_state"),
    (lambda: Comm(WIDGET, {"state": {}, "buffer_paths": [["x"]]}), "comm_open: refused buffer_missing 0"),
    (lambda: Comm(WIDGET, [1]), "comm_open: bad_content data"),
)


def refusals():
    kernel = Kernel()
    for n, (call, words) in enumerate(REFUSED):
        error = raised(call)
        check(f"refusal {n}", (type(error), str(error)), (CommRefused, words))
        check(f"refusal {n} leaves nothing", (kernel.came(), kernel.info(), kernel.manager.comms), ([], {}, {}))
    widget = Comm(WIDGET, {"state": {"v": 1}}, comm_id=UUID)
    kernel.came()
    check(
        "no push of no state",
        str(raised(lambda: widget.send({"method": "update", "state": 1}))),
        "comm_msg: bad_field state",
    )
    check("nothing went out", kernel.came(), [])


def opens_that_are_not_sent():
    for target, data in (("t", {}), (WIDGET, {"state": {}}), (WIDGET, {"_model_name": "M"})):
        for comm_id in (UUID, "a"):
            kernel = Kernel()
            calls = kernel.manager._calls
            send, calls.send_now = calls.send_now, lambda *parts: 1 // 0
            error = raised(lambda: Comm(target, data, comm_id=comm_id))
            left = kernel.info(), kernel.manager.comms, calls.old
            check(f"{target} {comm_id}: nothing is left", (type(error), *left), (ZeroDivisionError, {}, {}, set()))
            calls.send_now = send
            made = Comm(target, data, comm_id=comm_id)
            check("it opens then", (kernel.info(), kernel.manager.comms), ({comm_id: target}, {comm_id: made}))


def a_comm_that_is_unregistered():
    kernel = Kernel()
    one = Comm("t", comm_id="x")
    kernel.manager.unregister_comm(one)
    other = Comm("t", comm_id="x")
    kernel.came()
    check("it can't be unregistered again", type(raised(one.close)), KeyError)
    del one
    gc.collect()
    check("it closes no other of its id", (kernel.came(), kernel.info()), ([], {"x": "t"}))
    other.send({})
    check("which goes on", kernel.came(), [said("x", {})])


def keys_of_any_kind():
    kernel = Kernel()
    made = Comm("t", comm_id="x")
    kernel.came()
    made.send({(1, 2): {3: [{frozenset(): None}]}, "a": 1})
    check("are texts", kernel.came(), [said("x", {"(1, 2)": {"3": [{"frozenset()": None}]}, "a": 1})])
    for value in ({(1,): 1, "(1,)": 2}, {"v": object()}):
        error = raised(lambda: made.send(value))
        check(f"not {list(value)}", (type(error) in (TypeError, ValueError), kernel.came()), (True, []))


def installed_without_a_kernel():
    stock = comm.base_comm.CommManager()
    stock.register_target("t", print)
    comm.get_comm_manager = lambda: stock
    manager = rolgunai.comms.install(send=lambda *parts: None)
    check("targets that were registered", manager.targets, {"t": print})
    made = comm.create_comm("t")
    error = raised(lambda: rolgunai.comms.install(send=print))
    check("not where comms are open", "1 comms are open" in str(error), True)
    made.close()
    check("else again", rolgunai.comms.install(send=print) is not manager, True)


def what_is_no_object():
    kernel = Kernel()
    for kind in ("comm_open", "comm_msg", "comm_close"):
        for content in ([], None, "text", float("nan")):
            message = {"header": {"msg_type": kind}, "metadata": {}, "content": content, "buffers": []}
            error = raised(lambda: getattr(kernel.manager, kind)(None, None, message))
            check(f"{kind} with the content {content!r}", (error, kernel.came()), (None, []))


def documented():
    for module in (rolgunai.hub, rolgunai.comms):
        result = doctest.testmod(module)
        check(f"the examples of {module.__name__}", (result.failed, result.attempted > 5), (0, True))


if __name__ == "__main__":
    sys.exit(
        run(
            ids_of_any_form,
            what_comm_makes,
            data_of_any_kind,
            targets,
            refusals,
            comms_that_are_registered_by_hand,
            opens_that_are_not_sent,
            a_comm_that_is_unregistered,
            keys_of_any_kind,
            installed_without_a_kernel,
            what_is_no_object,
            documented,
        )
    )
