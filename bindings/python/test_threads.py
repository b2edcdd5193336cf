"""Comms of several threads, of finalizers, and of a forked child: what goes out, in what order, and that nobody waits.

test_threads.py PACKAGE, the folder where the package is built.
"""

import faulthandler
import gc
import logging
import os
import random
import sys
import threading
import time

from comms_kernel import UUID, WIDGET, Kernel, said  # first, since it says where the package is
from checks import check, raised, run
from rolgunai.comms import Comm

SECONDS = 60


def finalizers():
    kernel = Kernel()
    first, second = Comm("t", comm_id="1"), Comm("t", comm_id="2")
    kernel.came()
    kernel.amid = second.close
    first.send({"n": 1})
    check(
        "a close amid a call is sent after it", kernel.came(), [said("1", {"n": 1}), said("2", {}, kind="comm_close")]
    )
    kernel.amid = lambda: first.send({"n": 3})
    first.send({"n": 2})
    check("so is a message", kernel.came(), [said("1", {"n": 2}), said("1", {"n": 3})])
    made = []
    kernel.amid = lambda: made.append(Comm(WIDGET, {"state": []}))
    first.send({"n": 4})
    check("an open that is refused then", (made[0]._closed, list(kernel.manager.comms)), (True, ["1"]))
    check("says nothing", (kernel.came(), kernel.info()), ([said("1", {"n": 4})], {"1": "t"}))
    inside, go = threading.Event(), threading.Event()

    def wait():
        inside.set()
        go.wait(60)

    third = Comm("t", comm_id="3")
    kernel.came()
    kernel.amid = wait
    sender = threading.Thread(target=first.send, args=({"n": 4},))
    sender.start()
    inside.wait(60)
    third.close()  # a thread whose finalizers run while another one sends isn't held up
    check("it comes later", (kernel.came(), "3" in kernel.manager.comms), ([], False))
    go.set()
    sender.join(60)
    wanted = [said("1", {"n": 4}), said("3", {}, kind="comm_close")]
    check("right after that", (kernel.came(), kernel.info()), (wanted, {"1": "t"}))
    fourth = Comm("t", comm_id="4")
    kernel.came()
    del kernel.manager.comms["4"], fourth
    gc.collect()
    check("one that nobody has closes", kernel.came(), [said("4", {}, kind="comm_close")])


def many_threads():
    kernel = Kernel()
    kernel.manager.register_target("t", lambda made, message: None)

    def work(number):
        for n in range(100):
            made = Comm("t", comm_id=f"{number}.{n}")
            made.send({"n": n})
            kernel.manager.register_target(f"t{number}", lambda made, message: None)
            made.close()

    threads = [threading.Thread(target=work, args=(number,)) for number in range(8)]
    for thread in threads:
        thread.start()
    for thread in threads:
        thread.join(120)
    told = {}
    for kind, comm_id, *_ in kernel.came():
        told.setdefault(comm_id, []).append(kind)
    check(
        "each comm's messages in their order", set(map(tuple, told.values())), {("comm_open", "comm_msg", "comm_close")}
    )
    check("of all", (len(told), kernel.info(), kernel.manager.comms), (800, {}, {}))


class Owner:
    """What only the garbage collector ends, which closes its comm then."""

    def __init__(self):
        self.comm, self.itself = Comm("t"), self
        self.comm.send({"n": 1})

    def __del__(self):
        self.comm.close()


def garbage_of_many_threads():
    kernel = Kernel()
    threshold = gc.get_threshold()
    gc.set_threshold(7, 2, 2)
    threads = [threading.Thread(target=lambda: [Owner() for _ in range(150)] and None) for _ in range(6)]
    try:
        for thread in threads:
            thread.start()
        for thread in threads:
            thread.join(120)
    finally:
        gc.set_threshold(*threshold)
    gc.collect()
    check("no thread waits for ever", [thread.is_alive() for thread in threads], [False] * 6)
    check("all are closed", (kernel.info(), kernel.manager.comms), ({}, {}))
    told = {}
    for kind, comm_id, *_ in kernel.came():
        told.setdefault(comm_id, []).append(kind)
    wanted = {("comm_open", "comm_msg", "comm_close")}
    check("each in its order", (len(told), set(map(tuple, told.values()))), (900, wanted))


def a_forked_child():
    kernel = Kernel()
    made = Comm("t", comm_id="x")
    kernel.came()
    inside, go = threading.Event(), threading.Event()

    def wait():
        inside.set()
        go.wait(60)

    kernel.amid = wait
    sender = threading.Thread(target=made.send, args=({"n": 1},))
    sender.start()
    inside.wait(60)
    pid = os.fork()
    if pid == 0:  # where the thread that has the lock isn't
        faulthandler.dump_traceback_later(60, exit=True)
        made.send({"n": 2})
        Comm("t", comm_id="y").close()
        made.close()
        os._exit(len(kernel.came()))
    go.set()
    sender.join(60)
    check("it says nothing, and doesn't wait", os.waitpid(pid, 0)[1], 0)
    check("its parent does", (kernel.came(), kernel.info()), ([said("x", {"n": 1})], {"x": "t"}))


def locks_of_others():
    """A line in the log is told without the lock, since a log's handler may have one of its own, and say something."""
    kernel = Kernel()
    shown = Comm(WIDGET, {"state": {"v": ""}}, comm_id=UUID)
    made, answers = Comm("t", comm_id="x"), []

    def emit(record):
        other = threading.Thread(target=lambda: answers.append(kernel.info()), daemon=True)
        other.start()
        other.join(SECONDS)
        shown.send({"method": "update", "state": {"v": record.getMessage()}})

    handler = logging.Handler()
    handler.emit = emit
    log = logging.getLogger("rolgunai")
    log.addHandler(handler)
    log.propagate = False
    logging.disable(logging.NOTSET)
    late = []
    kernel.amid = lambda: late.append(Comm(WIDGET, {"state": []}))
    try:
        made.send({})
    finally:
        logging.disable(logging.CRITICAL)
        log.removeHandler(handler)
        log.propagate = True
    check("another thread is answered meanwhile", answers, [{UUID: WIDGET, "x": "t"}])
    words = [content["data"]["state"]["v"] for kind, comm_id, content, *_ in kernel.came() if comm_id == UUID][1:]
    check("the handler says", words, ["A call that came amid another one failed"])


def both_sides_close():
    """A cell closes a comm while a frontend does: neither fails, and one close is told."""
    kernel, errors, heard = Kernel(), [], []
    interval = sys.getswitchinterval()
    sys.setswitchinterval(1e-6)
    made = [Comm("t") for _ in range(500)]
    for one in made:
        one.on_close(heard.append)
    kernel.came()
    barrier = threading.Barrier(2)

    def frontend():
        for one in made:
            barrier.wait(SECONDS)
            time.sleep(random.random() * 0.0002)
            kernel.manager.comm_close(None, None, {"content": {"comm_id": one.comm_id, "data": {}}})

    other = threading.Thread(target=frontend)
    other.start()
    try:
        for one in made:
            barrier.wait(SECONDS)
            time.sleep(random.random() * 0.0002)
            errors.append(raised(one.close))
    finally:
        other.join(SECONDS)
        sys.setswitchinterval(interval)
    check("no error", set(errors), {None})
    check("nothing is left", (kernel.manager.comms, kernel.info()), ({}, {}))
    check("each is closed by one of both", len(kernel.came()) + len(heard), 500)


class Meanwhile(dict):
    """Has something done once, right after a look at it."""

    def get(self, *words):
        found, act, self.act = super().get(*words), self.act, None
        if act is not None:
            act()
        return found


def closed_while_it_is_unregistered():
    kernel = Kernel()
    made = Comm("t", comm_id="x")
    closes = {"content": {"comm_id": "x", "data": {}}}
    kernel.manager.comms = comms = Meanwhile(kernel.manager.comms)
    comms.act = lambda: kernel.manager.comm_close(None, None, closes)
    check("a frontend closes it then: no error", raised(lambda: kernel.manager.unregister_comm(made)), None)
    comms.act = None
    check("nothing is left", (comms, kernel.info()), ({}, {}))


def closes_beside_comm_info():
    """A close never waits; it is sent once the call that is under way on another thread is through."""
    kernel = Kernel()
    kept = [Comm("t") for _ in range(300)]
    left = 0
    for _ in range(300):
        made = Comm("t")
        kernel.came()
        other = threading.Thread(target=lambda: [kernel.info() for _ in range(3)])
        other.start()
        made.close()
        other.join(SECONDS)
        left += kernel.came() != [said(made.comm_id, {}, kind="comm_close")]
    check("closes that weren't sent when both threads were through", (left, len(kept)), (0, 300))


if __name__ == "__main__":
    sys.exit(
        run(
            finalizers,
            many_threads,
            garbage_of_many_threads,
            a_forked_child,
            locks_of_others,
            both_sides_close,
            closed_while_it_is_unregistered,
            closes_beside_comm_info,
        )
    )
