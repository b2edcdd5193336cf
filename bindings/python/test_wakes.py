"""How a kernel's iopub thread is woken, beside ipykernel's own way: all that it is handed is sent, in order.

test_wakes.py PACKAGE, the folder where the package is built.
"""

import gc
import os
import sys
import threading
import time
import types

sys.path.insert(0, sys.argv[1])

import zmq
from checks import check, run
from ipykernel.iostream import IOPubThread
from rolgunai._patches import Patches
from rolgunai._wakes import patches_of

SECONDS = 60  # a machine may be busy


class Thread(IOPubThread):
    """A kernel's iopub thread, which counts how often it looks."""

    looks = 0

    def __init__(self):
        super().__init__(zmq.Context.instance().socket(zmq.PUB))
        self.start()

    def _handle_event(self, message):
        self.looks += 1
        super()._handle_event(message)

    def patched(self):
        return Patches(patches_of(types.SimpleNamespace(iopub_socket=self.background_socket)))

    def drained(self):
        """Whether all that it was handed is done in time."""
        done = threading.Event()
        self.schedule(done.set)
        return done.wait(SECONDS)

    def ended(self):
        self.stop()
        self.close()
        return not self.thread.is_alive()


def threads_hand_over():
    """Eight threads hand over what they number, 500 times, and wait for every 50th."""
    thread, came = Thread(), []
    patches = thread.patched()

    def hand_over(name):
        for number in range(500):
            thread.schedule(lambda number=number: came.append((name, number)))
            if number % 50 == 0 and not thread.drained():
                return

    others = [threading.Thread(target=hand_over, args=(name,)) for name in range(8)]
    for other in others:
        other.start()
    for other in others:
        other.join()
    check("all is done", thread.drained(), True)
    by_name = {name: [] for name in range(8)}
    for name, number in came:
        by_name[name].append(number)
    check("in each thread's order", [*by_name.values()], [[*range(500)]] * 8)
    patches.take_back()
    check("taken back", (thread.drained(), thread.ended()), (True, True))


def looks_once():
    """While the thread is busy others hand over 100 things: it is woken once for all of them."""
    thread = Thread()
    patches, busy, go_on, came = thread.patched(), threading.Event(), threading.Event(), []
    check("it listens", (thread.drained(), thread.drained()), (True, True))  # the first may come by stock's way
    thread.schedule(lambda: (busy.set(), go_on.wait(SECONDS)))
    busy.wait(SECONDS)
    before = thread.looks
    for number in range(100):
        thread.schedule(lambda number=number: came.append(number))
    go_on.set()
    check("what came meanwhile is done", (thread.drained(), came), (True, [*range(100)]))
    check("looks for it", thread.looks - before in (1, 2), True)
    patches.take_back()
    thread.ended()


def errors_end_nothing():
    """What fails keeps nothing back, whichever is first, nor what comes later."""
    thread, came = Thread(), []
    patches, busy, go_on = thread.patched(), threading.Event(), threading.Event()
    loop = thread.io_loop
    loop.add_callback(lambda: loop.asyncio_loop.set_exception_handler(lambda *_: came.append("told")))
    thread.schedule(lambda: (busy.set(), go_on.wait(SECONDS)))
    busy.wait(SECONDS)
    for number in range(3):
        thread.schedule(lambda: 1 / 0)
        thread.schedule(lambda number=number: came.append(number))
    go_on.set()
    check("after errors", (thread.drained(), sorted(map(str, came))), (True, ["0", "1", "2", "told", "told", "told"]))
    patches.take_back()
    thread.ended()


def it_is_taken_back():
    thread = Thread()
    before = thread._local
    for _ in range(3):
        patches = thread.patched()
        check("another wakes it", thread._local is not before and thread._event_pipe is thread._local, True)
        check("by that", thread.drained(), True)
        patches.take_back()
        own = thread._event_pipe
        check("its own is there again", (thread._local is before, isinstance(own, zmq.Socket)), (True, True))
        check("and wakes it", thread.drained(), True)
    check("it ends", thread.ended(), True)
    check("what ended does it at once", (done := [], thread.schedule(lambda: done.append(1)))[0], [1])


def settled():
    """How many descriptors are open, once their number has stayed for a second."""
    count, since = -1, 0.0
    while time.monotonic() < since + 1:
        gc.collect()
        now = len(os.listdir("/proc/self/fd"))
        if now != count:
            count, since = now, time.monotonic()
        time.sleep(0.05)
    return count


def nothing_is_left_open():
    """Of threads that ended: zmq closes one or another of its own a little later."""

    def one(patch):
        thread = Thread()
        if patch:
            thread.patched()
        thread.drained()
        thread.ended()

    def left(patch):
        one(patch)
        before = settled()
        for _ in range(10):
            one(patch)
        return settled() - before

    of_stock = left(False)
    check("fewer descriptors than threads, beside stock's", left(True) - of_stock < 10, True)


class Otherwise(Thread):
    """Hands over in another way."""

    def schedule(self, f):
        self.io_loop.add_callback(f)


def others_stay():
    thread, otherwise = Thread(), Otherwise()
    kernels = (
        ("no socket", types.SimpleNamespace()),
        ("none", types.SimpleNamespace(iopub_socket=None)),
        ("no thread", types.SimpleNamespace(iopub_socket=zmq.Context.instance().socket(zmq.PUB))),
        ("another way", types.SimpleNamespace(iopub_socket=otherwise.background_socket)),
    )
    for what, kernel in kernels:
        check(f"a kernel with {what}", [*patches_of(kernel)], [])
    check("a kernel's own", [it[:2] for it in thread_patches(thread)], [(thread, "_local")])
    check("they end", (thread.ended(), otherwise.ended()), (True, True))


def thread_patches(thread):
    return [*patches_of(types.SimpleNamespace(iopub_socket=thread.background_socket))]


def children_say_it_themselves():
    """A forked child has no such thread: what it hands over is done at once, and wakes nobody."""
    thread = Thread()
    patches = thread.patched()
    check("it listens", (thread.drained(), thread.drained()), (True, True))  # the first may come by stock's way
    looks = thread.looks
    child = os.fork()
    if not child:
        done = []
        thread.schedule(lambda: done.append(1))
        os._exit(0 if done == [1] else 1)
    check("a child's", os.waitstatus_to_exitcode(os.waitpid(child, 0)[1]), 0)
    check("its parent goes on, unwoken", (thread.looks - looks, thread.drained()), (0, True))
    patches.take_back()
    thread.ended()


PARTS = threads_hand_over, looks_once, errors_end_nothing, it_is_taken_back, nothing_is_left_open, others_stay
sys.exit(run(*PARTS, children_say_it_themselves))
