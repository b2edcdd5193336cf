"""The module in a process: threads, the GIL, what the garbage collector runs amid a call, references and memory.

test_process.py PACKAGE, the folder where the package is built.
"""

import gc
import sys
import threading
import tracemalloc
import weakref

sys.path.insert(0, sys.argv[1])
from checks import check, raised, run
from rolgunai import ClosedError, Kind, Manager, Reason, Reply

ONE = "00000000-0000-0000-0000-000000000001"
OPEN, MSG, CLOSE = (b'{"msg_type":"comm_%s"}' % word for word in (b"open", b"msg", b"close"))
LARGE = bytes(64 * 2**20)


def manager_of(*comm_ids, kind=Kind.PLAIN):
    """A manager with these comms of one target."""
    manager = Manager()
    manager.register(kind, "p")
    for comm_id in comm_ids:
        manager.message(OPEN, b"{}", b'{"comm_id":"%s","target_name":"p"}' % comm_id.encode())
    return manager


class Switching:
    """Threads change only where the GIL is let go."""

    def __enter__(self):
        self.before = sys.getswitchinterval()
        sys.setswitchinterval(1000)

    def __exit__(self, *_):
        sys.setswitchinterval(self.before)


def beside(call, other_call=lambda: None):
    """Makes a call while another thread waits for the GIL, to make another. Whether that one was made meanwhile."""
    go, ready, ran = threading.Lock(), threading.Lock(), []
    go.acquire(), ready.acquire()

    def other():
        ready.release()
        go.acquire()
        other_call()
        ran.append(True)

    with Switching():
        thread = threading.Thread(target=other)
        thread.start()
        ready.acquire()
        go.release()
        call()
        is_beside = bool(ran)
    thread.join()
    return is_beside


def a_call_amid_a_long_one():
    """Another thread calls where a long call has let the GIL go: it waits until that one has all of its outcome."""
    manager, short, long = manager_of("a", "b"), [], []
    is_beside = beside(
        lambda: long.append(manager.send("a", b'{"n":1}', [LARGE])), lambda: short.append(manager.send("b", b"{}"))
    )
    check("the other call waits", is_beside, False)
    check("the long call's outcome", [(it.comm_id, it.sent[0].buffers == (LARGE,)) for it in long], [("a", True)])
    check("the other one's", [(it.comm_id, it.sent[0].buffers) for it in short], [("b", ())])
    check("which came after", manager.outcome(), short[0])


def the_gil():
    manager = manager_of("a")
    text = b'{"comm_id":"a","data":{"k":"%s"}}'
    for what, call, wanted in (
        ("no call", lambda: None, False),
        ("a short call", lambda: manager.message(MSG, b"{}", text % b"x"), False),
        ("1 MiB", lambda: manager.send("a", b"{}", [LARGE[: 2**20]]), False),
        ("100 KiB of JSON", lambda: manager.message(MSG, b"{}", text % (b"x" * 100000)), False),
        ("64 MiB", lambda: manager.send("a", b"{}", [LARGE]), True),
        ("64 MiB in parts", lambda: manager.send("a", b"{}", [LARGE[: 2**25], LARGE[: 2**25]]), True),
        ("4 MiB of JSON", lambda: manager.message(MSG, b"{}", text % (b"x" * 2**22)), True),
        ("a line of 4 MiB", lambda: manager.line(b" " * 2**22 + b"{"), True),
    ):
        # On a busy machine the other thread may come too late now and then.
        check(f"the GIL is let go: {what}", any(beside(call) for _ in range(20 if wanted else 3)), wanted)


def threads():
    """Long calls, which let the GIL go, and short ones, from several threads: each has its own outcome."""
    names = [f"comm {n}" for n in range(4)]
    manager = manager_of(*names)
    amiss = []

    def calls(name, frame):
        for number in range(50):
            data = b'{"n":%d}' % number
            sent = manager.send(name, data, [frame] if number % 16 == 0 else []).sent[0]
            wanted = b'{"comm_id":"%s","data":%s}' % (name.encode(), data)
            if (sent.comm_id, sent.content, sent.buffers) != (name, wanted, (frame,) if number % 16 == 0 else ()):
                amiss.append((name, number))
            heard = manager.message(MSG, b"{}", wanted)
            if (heard.comm_id, heard.content) != (name, data):
                amiss.append((name, number, "heard"))

    frames = [bytes([n]) * (17 * 2**20) for n in range(4)]
    started = [threading.Thread(target=calls, args=pair) for pair in zip(names, frames)]
    for thread in started:
        thread.start()
    for thread in started:
        thread.join()
    check("each thread has its own outcomes", amiss, [])
    ended = []
    waiting = threading.Thread(target=lambda: ended.append(manager.end()))
    beside_end = threading.Thread(target=lambda: ended.append(type(raised(lambda: manager.send("comm 0", b"{}")))))
    manager.send("comm 0", b"{}", [LARGE])
    for thread in (waiting, beside_end):
        thread.start()
        thread.join()
    check("a call after the end by another thread", ended, [None, ClosedError])


class Closing:
    """Closes a comm where the garbage collector ends it, as a widget does. It is part of a cycle."""

    def __init__(self, manager, comm_id, heard):
        self.cycle, self.manager, self.comm_id, self.heard = self, manager, comm_id, heard

    def __del__(self):
        before = self.manager.outcome()
        self.heard.append((before, self.manager.close(self.comm_id)))


def a_finalizer_amid_a_call():
    """The collector runs where a call makes its first tuple: what the call came to is gathered by then."""
    is_amid = sys.version_info < (3, 12)  # later ones run it only between two instructions of Python
    for name, arguments in (("message", (MSG, b"{}", b'{"comm_id":"a","data":{"x":1}}')), ("send", ("a", b"{}", ()))):
        manager, heard = manager_of("a", "b"), []
        wanted = getattr(manager, name)(*arguments)
        manager.register(Kind.PLAIN, "another")
        call = getattr(manager, name)
        gc.collect()
        Closing(manager, "b", heard)
        thresholds = gc.get_threshold()
        gc.set_threshold(1)
        outcome = call(*arguments)
        gc.set_threshold(*thresholds)
        gc.collect()
        check(f"{name}: its own outcome", outcome, wanted)
        check(f"{name}: the finalizer ran once", len(heard), 1)
        before, closed = heard[0]
        check(f"{name}: and closed its comm", (closed.reply, closed.comm_id, len(closed.sent)), (Reply.CLOSED, "b", 1))
        check(f"{name}: amid the call, which was made", before == wanted, is_amid or before == wanted)
        check(f"{name}: the last call is the finalizer's", manager.outcome(), closed)


def a_call_amid_arguments():
    manager, amid = manager_of("a", "b"), []

    def frames():
        yield b"first"
        amid.append(manager.close("b"))
        yield b"second"

    outcome = manager.send("a", b"{}", frames())
    check("a call from a generator of buffers comes before", amid[0].reply, Reply.CLOSED)
    check("and the call has its own outcome", (outcome.comm_id, outcome.sent[0].buffers), ("a", (b"first", b"second")))
    error = raised(lambda: manager.send("a", b"{}", (1 / 0 for _ in "x")))
    check("an error from there", (type(error), manager.outcome()), (ZeroDivisionError, outcome))


def a_finalizer_on_another_thread():
    """A collection by another thread, while a long call of this one has let the GIL go: its finalizer waits."""
    manager, heard = manager_of("a", "b"), []
    Closing(manager, "b", heard)
    collecting = threading.Thread(target=gc.collect)
    with Switching():
        collecting.start()
        outcome = manager.send("a", b"{}", [LARGE])
    collecting.join()
    check("the call's outcome", (outcome.comm_id, len(outcome.sent[0].buffers[0])), ("a", len(LARGE)))
    check("the finalizer's", [closed.reply for _, closed in heard], [Reply.CLOSED])


def every_kind_of_call(manager, frame):
    """Each call once, of which none changes how many comms are open."""
    manager.register(Kind.WIDGET, "w")
    manager.launch("w", ONE, b'{"v":1}', b'[["b"]]', [frame])
    manager.push(ONE, b'{"v":2}', '[["b"]]', [frame, frame])
    manager.state(ONE)
    manager.message(MSG, b"{}", b'{"comm_id":"%s","data":{"method":"request_state"}}' % ONE.encode())
    manager.message(MSG, b"{}", bytearray(b'{"comm_id":"a","data":{"k":1}}'), [memoryview(frame)[::2], frame])
    manager.message(OPEN, b"{}", b'{"comm_id":"z","target_name":"none"}')
    manager.send("a", b"{}", [b"x"] * 9)
    manager.close(ONE)
    manager.unregister("w")
    manager.line(b'{"call":"state","id":"a"}')
    for wrong in (
        lambda: manager.message(MSG, b"{", b"{}", [frame, frame]),
        lambda: manager.message(MSG, b"{}", b"{}", [frame, 3]),
        lambda: manager.send("a", bytearray(b"{}"), [frame], client=-1),
        lambda: manager.register(77, "w"),
        lambda: Manager(comms=0),
    ):
        raised(wrong)
    manager.outcome(), manager.text()


def resident():
    """The bytes of memory that the process has."""
    with open("/proc/self/statm") as file:
        return int(file.read().split()[1]) * 4096


def references():
    manager, frame = manager_of("a"), bytes(range(256)) * 40
    watched = [frame, MSG, ONE, Reply.DELIVERED, Reply.CLOSED, Reason.NONE, Reason.NOT_JSON, (), manager, Manager, None]
    for _ in range(200):
        every_kind_of_call(manager, frame)
    gc.collect()
    counts, room = [sys.getrefcount(it) for it in watched], resident()
    tracemalloc.start()
    every_kind_of_call(manager, frame)
    gc.collect()
    before = tracemalloc.get_traced_memory()[0]
    for _ in range(700):
        every_kind_of_call(manager, frame)
    gc.collect()
    grown = tracemalloc.get_traced_memory()[0] - before
    tracemalloc.stop()
    after = [sys.getrefcount(it) for it in watched]
    # A leak of one reference or block in one of these calls would be 700 of them.
    check("more than 10,000 calls hold on to no reference", [n for n, m in zip(after, counts) if n - m > 100], [])
    check(f"nor to a block of Python's: {grown} bytes", grown < 700 * 16, True)
    check("nor to memory of C's", resident() - room < 700 * len(frame) // 4, True)


def ends_of_managers():
    class Noted(Manager):
        pass

    manager = Noted()
    manager.itself, ended = manager, weakref.ref(manager)
    del manager
    gc.collect()
    check("a manager in a cycle ends", ended(), None)
    room = resident()
    for _ in range(3000):
        manager_of("a", "b").send("a", b"{}", [b"x" * 10000])
    check("3,000 managers, one after another", resident() - room < 3000 * 4096 // 2, True)


PARTS = (
    the_gil,
    a_call_amid_a_long_one,
    threads,
    a_finalizer_amid_a_call,
    a_call_amid_arguments,
    a_finalizer_on_another_thread,
    references,
    ends_of_managers,
)

if __name__ == "__main__":
    sys.exit(run(*PARTS))
