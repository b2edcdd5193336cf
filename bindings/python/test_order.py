"""Threads over the hub: what goes out is in the order of the changes' numbers, what waits for whom, and that no lock is
held while others' code runs.

test_order.py PACKAGE, the folder where the package is built.
"""

import json
import sys
import threading

from comms_kernel import UUID, WIDGET, Kernel, said  # first, since it says where the package is
from checks import check, raised, run
from rolgunai.comms import Comm
from test_widgets import Holds, takes

SECONDS = 60


class Numbered(Kernel):
    """A kernel that notes the number of the change that each message comes of, as the manager tells it."""

    def __init__(self):
        super().__init__()
        self.noted, self.numbers, self.order = {}, [], []
        calls = self.manager._calls
        put_in_line = calls.send

        def note(kind, comm_id, content, *rest):  # the same may be said twice
            self.noted.setdefault((kind, comm_id, content), []).append(calls._manager.seen())
            put_in_line(kind, comm_id, content, *rest)

        calls.send = note

    def send(self, msg_type, comm_id, content, metadata, buffers, parent):
        self.order.append((msg_type, comm_id, content))
        noted = self.noted.get(self.order[-1])  # an open is put in line by another way
        if noted:
            self.numbers.append(noted.pop(0))
        super().send(msg_type, comm_id, content, metadata, buffers, parent)


def started(f, *arguments):
    thread = threading.Thread(target=f, args=arguments)
    thread.start()
    return thread


def on_another_thread(f):
    """Whether it is through within a second; and, where it is, what it gives."""
    given = []
    thread = threading.Thread(target=lambda: given.append(f()), daemon=True)
    thread.start()
    thread.join(1)
    return (not thread.is_alive(), *given)


def closes(manager, comm_id):
    manager.comm_close(None, None, {"content": {"comm_id": comm_id, "data": {}}})


def moves(kernel, comm_id, v):
    data = {"method": "update", "state": {"v": v}, "buffer_paths": []}
    kernel.manager.comm_msg(None, None, {"content": {"comm_id": comm_id, "data": data}})


def the_order():
    """Eight threads, of the kernel's and of frontends, on comms of their own and on one that they share."""
    kernel, amiss = Numbered(), []
    shared, widget = Comm("t", comm_id="shared"), Holds(takes, v=0)
    kernel.manager.register_target("t", lambda made, message: made.on_msg(lambda message: made.send({"heard": 1})))

    def works(thread):
        for at in range(60):
            made = Comm("t", {"n": at}, comm_id=f"{thread}.{at}")
            shared.send({"by": [thread, at]})
            widget.comm.send({"method": "update", "state": {"v": [thread, at]}, "buffer_paths": []})
            moves(kernel, widget.comm.comm_id, [thread, at, "page"])
            made.send({"n": at})
            if thread % 2:
                made.close()
            else:
                closes(kernel.manager, made.comm_id)
            if kernel.manager.comm_info({"content": {"target_name": "none"}}).find(b'"comms":{}') < 0:
                amiss.append((thread, at))

    interval = sys.getswitchinterval()
    sys.setswitchinterval(1e-6)
    try:
        for thread in [started(works, thread) for thread in range(8)]:
            thread.join(SECONDS)
    finally:
        sys.setswitchinterval(interval)
    check("comm_info is right", amiss, [])
    numbers = kernel.numbers
    check("many went out", len(numbers) > 8 * 60 * 3, True)
    wrong = [at for at in range(1, len(numbers)) if numbers[at - 1] > numbers[at]]
    check(f"{len(numbers)} in the order of their numbers", wrong, [])
    check("opens before what is said on the comm", opens_first(kernel.order), [])
    check("and nothing of a comm after its close", [comm_id for comm_id in after_closes(kernel.order)], [])


def opens_first(order):
    """The comms on which something went out before their open."""
    first = {}
    for kind, comm_id, _ in order:
        first.setdefault(comm_id, kind)
    return [comm_id for comm_id, kind in first.items() if kind != "comm_open"]


def after_closes(order):
    closed = set()
    for kind, comm_id, _ in order:
        if comm_id in closed:
            yield comm_id
        if kind == "comm_close":
            closed.add(comm_id)


class Sending:
    """A kernel one of whose threads sends a message, which takes until `let_go`."""

    def __init__(self):
        self.kernel = Kernel()
        self.heard, self.inside, self.goes = [], threading.Event(), threading.Event()
        self.kernel.manager.register_target("t", lambda made, message: None)
        self.comm, self.other = Comm("t", comm_id="a"), Comm("t", comm_id="b")
        self.other.on_msg(lambda message: self.heard.append(message["content"]["data"]))
        self.widget = Holds(takes, v=1)
        self.kernel.came()
        self.kernel.amid = self.wait
        self.thread = started(self.comm.send, {"n": 1})
        self.inside.wait(SECONDS)

    def wait(self):
        self.inside.set()
        self.goes.wait(SECONDS)

    def let_go(self):
        self.goes.set()
        self.thread.join(SECONDS)


def hears(sending):
    sending.kernel.manager.comm_msg(None, None, {"content": {"comm_id": "b", "data": 7}})
    return sending.heard


def hears_a_move(sending):
    moves(sending.kernel, sending.widget.comm.comm_id, 5)
    return sending.widget.state["v"]


def hears_an_open(sending):
    content = {"comm_id": "new", "target_name": "t", "data": {}}
    sending.kernel.manager.comm_open(None, None, {"content": content})
    return "new" in sending.kernel.manager.comms


def hears_a_close(sending):
    closes(sending.kernel.manager, "b")
    return "b" in sending.kernel.manager.comms


CLOSED_B = said("b", {}, kind="comm_close")

# What another thread does while a message is sent: whether it is through meanwhile, what it gives, and what goes out
# then, after the message.
BESIDE = (
    ("comm_info", lambda sending: sending.kernel.info()["b"], (True, "t"), []),
    ("a message", hears, (True, [7]), []),
    ("a move of a widget", hears_a_move, (True, 5), []),
    ("an open of a frontend's", hears_an_open, (True, True), []),
    ("a close of a frontend's", hears_a_close, (True, False), []),
    ("a target", lambda sending: sending.kernel.manager.register_target("u", print), (True, None), []),
    ("a close of the kernel's", lambda sending: sending.other.close(), (True, None), [CLOSED_B]),
    ("what it says itself", lambda sending: sending.other.send({"n": 2}), (False,), [said("b", {"n": 2})]),
)


def beside_what_is_sent():
    for what, act, wanted, sent in BESIDE:
        sending = Sending()
        check(f"{what}, beside what is sent", on_another_thread(lambda: act(sending)), wanted)
        check(f"{what}: nothing overtakes", sending.kernel.came(), [])
        sending.let_go()
        sending.kernel.manager._turns.call(len, ())
        check(f"{what}: what goes out", until(sending.kernel, 1 + len(sent)), [said("a", {"n": 1}), *sent])


def until(kernel, count):
    """What was sent, once it is so much."""
    for _ in range(1000):
        if len(kernel.sent) >= count:
            break
        threading.Event().wait(0.001)
    return kernel.came()


class Waits:
    """Code of a user's, in which another thread has to be answered."""

    def __init__(self, kernel):
        self.kernel, self.answers = kernel, []
        self.other = Comm("t", comm_id="other")

    def __call__(self, *_):
        def asks():
            self.other.send({"n": 1})
            Comm("t", comm_id="made by another").close()
            return self.kernel.info()["other"]

        self.answers.append(on_another_thread(asks))


def in_a_target(kernel, waits):
    kernel.manager.register_target("u", lambda made, message: waits())
    kernel.hear("comm_open", "x", {}, target_name="u")


def in_on_msg(kernel, waits):
    made = Comm("t", comm_id="x")
    made.on_msg(waits)
    kernel.hear("comm_msg", "x", {})


def in_on_close(kernel, waits):
    made = Comm("t", comm_id="x")
    made.on_close(waits)
    kernel.hear("comm_close", "x", {})


def in_get_state(kernel, waits):
    class Asked(Holds):
        def get_state(self, *keys):
            waits()
            return super().get_state(*keys)

    made = Asked(takes, v=1)
    waits.answers.clear()
    moves(kernel, made.comm.comm_id, 2)


def in_send(kernel, waits):
    made = Comm("t", comm_id="x")

    def amid():
        waits.answers.append(on_another_thread(lambda: kernel.info()["other"]))

    kernel.amid = amid
    made.send({"n": 2})


def in_a_finalizer(kernel, waits):
    class Ends:
        def __del__(self):
            waits()

    made = Comm("t", comm_id="x")
    made.on_msg(lambda message: Ends() and None)
    kernel.hear("comm_msg", "x", {})


CODE = (in_a_target, in_on_msg, in_on_close, in_get_state, in_send, in_a_finalizer)


def no_lock_in_users_code():
    for code in CODE:
        kernel = Kernel()
        waits = Waits(kernel)
        code(kernel, waits)
        check(f"another thread is answered {code.__name__.replace('_', ' ')}", set(waits.answers), {(True, "t")})


def callbacks_on_any_thread():
    """Callbacks open, send and close, those of eight threads at once; each comm's story is whole."""
    kernel = Kernel()

    def opened(made, message):
        def answers(message):
            inner = Comm("t", comm_id=f"{made.comm_id}.inner")
            made.send({"heard": message["content"]["data"]})
            inner.close()
            if message["content"]["data"] == 9:
                made.close()

        made.on_msg(answers)

    kernel.manager.register_target("t", opened)

    def works(thread):
        comm_id = f"c{thread}"
        manager = kernel.manager
        manager.comm_open(None, None, {"content": {"comm_id": comm_id, "target_name": "t", "data": {}}})
        for n in range(10):
            manager.comm_msg(None, None, {"content": {"comm_id": comm_id, "data": n}})

    for thread in [started(works, thread) for thread in range(8)]:
        thread.join(SECONDS)
    told = {}
    for kind, comm_id, content, *_ in kernel.came():
        told.setdefault(comm_id, []).append((kind, content["data"]))
    story = [("comm_msg", {"heard": n}) for n in range(10)] + [("comm_close", {})]
    check("what each comm was told", [told.get(f"c{thread}") for thread in range(8)], [story] * 8)
    inner = [("comm_open", {}), ("comm_close", {})] * 10
    check("and each comm of a callback's", [told.get(f"c{thread}.inner") for thread in range(8)], [inner] * 8)
    check("nothing is left", (kernel.info(), kernel.manager.comms), ({}, {}))


# What a comm_info_request asks for, and what it is answered, or why it is refused.
INFOS = (
    ({}, {"a", "b", UUID}),
    ({"target_name": None}, {"a", "b", UUID}),
    ({"target_name": "t"}, {"a"}),
    ({"target_name": "u é"}, {"b"}),
    ({"target_name": WIDGET}, {UUID}),
    ({"target_name": "none"}, set()),
    ({"target_name": ""}, set()),
    ({"target_name": 3}, "comm_info_request: bad_content target_name"),
    ({"target_name": ["t"]}, "comm_info_request: bad_content target_name"),
    ({"target_name": "\ud800"}, "not_json"),
    ([], {"a", "b", UUID}),
    (None, {"a", "b", UUID}),
)


def infos():
    kernel = Kernel()
    kept = Comm("t", comm_id="a"), Comm("u é", comm_id="b"), Comm(WIDGET, {"state": {}}, comm_id=UUID)
    for content, wanted in INFOS:
        given = []
        error = raised(lambda: given.append(json.loads(kernel.manager.comm_info({"content": content}))))
        got = str(error) if error else (set(given[0]["comms"]), given[0]["status"])
        check(f"comm_info of {content}", got, wanted if isinstance(wanted, str) else (wanted, "ok"))
    check("no content", set(json.loads(kernel.manager.comm_info({}))["comms"]), {"a", "b", UUID})
    del kept


if __name__ == "__main__":
    sys.exit(run(the_order, beside_what_is_sent, no_lock_in_users_code, callbacks_on_any_thread, infos))
