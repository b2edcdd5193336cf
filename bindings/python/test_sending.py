"""What calls of the hub's lock send: in their order, without the lock, and nobody goes on before his own is out.

test_sending.py PACKAGE, the folder where the package is built.
"""

import gc
import signal
import sys
import threading
import time
import weakref

sys.path.insert(0, sys.argv[1])
from checks import check, raised, run
from rolgunai._native import Turns

SECONDS = 60


class Line:
    """Turns, and what was sent, in its order; `say` sends a word amid a call."""

    def __init__(self):
        self.sent, self.errors = [], []
        self.turns = Turns(lambda error: self.errors.append((str(error), self.turns.is_amid())))

    def say(self, word):
        self.turns.send(self.sent.append, word)
        return word

    def says(self, word, way="call"):
        return getattr(self.turns, way)(self.say, word)

    def sends(self, f, *arguments):
        """A call that has this sent."""
        return self.turns.call(self.turns.send, f, *arguments)

    def is_free(self):
        """Whether another thread's call is made at once."""
        made = []
        other = threading.Thread(target=self.turns.call_soon, args=(made.append, 1))
        other.start()
        other.join(SECONDS)
        return made == [1]


def started(f, *arguments):
    thread = threading.Thread(target=f, args=arguments)
    thread.start()
    return thread


def until(holds):
    """Waits until something holds; whether it does."""
    ends = time.monotonic() + SECONDS
    while not holds() and time.monotonic() < ends:
        time.sleep(0.001)
    return holds()


class Held:
    """A sending of another thread's, that is under way until `let_go`."""

    def __init__(self, line):
        self.line, self.began, self.goes = line, threading.Event(), threading.Event()
        self.thread = started(line.sends, self.wait)
        self.began.wait(SECONDS)

    def wait(self):
        self.began.set()
        self.goes.wait(SECONDS)
        self.line.sent.append("held")

    def let_go(self):
        self.goes.set()
        self.thread.join(SECONDS)


# How something is said amid a sending, and what that gives; it is sent after that.
AMID = (("call", "x"), ("call_in_turn", None), ("call_soon", None))


def one_thread():
    line = Line()

    def call():
        line.say("a")
        line.say("b")
        check("nothing is sent yet", line.sent, [])
        return "given"

    check("a call gives what it gives", line.turns.call(call), "given")
    check("and all is out then", line.sent, ["a", "b"])
    check("outside of a call", type(raised(lambda: line.say("c"))), RuntimeError)
    check("with no function", type(raised(line.turns.send)), TypeError)
    for way, wanted in AMID:
        line, given = Line(), []

        def amid():
            given.extend((line.turns.is_amid(), line.is_free(), line.says("x", way)))
            line.turns.call_unlocked(lambda: line.sent.append((line.turns.is_amid(), line.is_free())))
            line.sent.append("amid")

        line.sends(amid)
        check(f"{way} amid a sending, which has no lock", given, [True, True, wanted])
        check(f"{way}: what is sent comes after, and what wants no lock", line.sent, ["amid", "x", (False, True)])
        check(f"{way}: none is under way then", (line.turns.is_amid(), line.is_free()), (False, True))


class Stop(BaseException):
    pass


def raises(error):
    raise error


def errors():
    for error in (ValueError("x"), Stop("x"), KeyboardInterrupt("x")):
        is_told = isinstance(error, Exception)
        for way in ("call", "call_in_turn", "call_soon"):
            line = Line()

            def call():
                line.turns.send(raises, error)
                line.say("next")

            try:
                getattr(line.turns, way)(call)
                came = None
            except BaseException as raised_then:
                came = raised_then
            is_awaited = way != "call_soon" or not is_told
            check(f"{way}: {error!r} is raised where somebody waits", came, error if is_awaited else None)
            check(f"{way}: what comes next is sent", line.sent, ["next"])
            check(f"{way}: else it is told, without the lock", line.errors, [] if is_awaited else [("x", False)])
            check(f"{way}: and the lock is free", (line.turns.is_amid(), line.is_free()), (False, True))
        line = Line()

        def fails():
            line.say("before")
            raise error

        try:
            line.turns.call(fails)
        except BaseException as raised_then:
            check("a call that fails", raised_then, error)
        check("has sent what it had to", line.sent, ["before"])


def others_meanwhile():
    line = Line()
    held = Held(line)
    waits = started(line.says, "waits")
    check("calls are made beside a sending", until(line.turns.call_soon(len, ()) is None and line.is_free), True)
    line.says("soon", "call_soon")
    check("who never waits goes on", line.sent, [])
    check("who waits doesn't", waits.is_alive(), True)
    held.let_go()
    waits.join(SECONDS)
    check("all is sent in its order", (line.sent[0], sorted(line.sent)), ("held", ["held", "soon", "waits"]))
    check("and nobody waits", (held.thread.is_alive(), waits.is_alive()), (False, False))


def orders():
    """Eight threads: what is sent is in the order of the calls, and each one's own is out when its call gives back."""
    line, number, late = Line(), [0], []
    interval = sys.getswitchinterval()
    sys.setswitchinterval(1e-6)

    def counts():
        number[0] += 1
        line.say(number[0])
        return number[0]

    def works(thread):
        for at in range(500):
            way = ("call", "call_in_turn", "call_soon")[(thread + at) % 3]
            made = getattr(line.turns, way)(counts)
            if way != "call_soon" and len(line.sent) < made:
                late.append(made)

    try:
        for thread in [started(works, thread) for thread in range(8)]:
            thread.join(SECONDS)
    finally:
        sys.setswitchinterval(interval)
    check("as they were made", line.sent, list(range(1, 4001)))
    check("none was late", late, [])


def interrupted(handler):
    """A signal in the main thread while it waits for its turn; the error that its call raises, and what is sent."""
    line = Line()
    held = Held(line)
    before = signal.signal(signal.SIGUSR1, lambda *_: handler(line))

    def strikes():
        until(lambda: line.is_free() and line.turns.call(len, "a") == 1)
        time.sleep(0.05)
        signal.pthread_kill(threading.main_thread().ident, signal.SIGUSR1)
        time.sleep(0.05)
        held.goes.set()

    striker = started(strikes)
    try:
        error = None
        try:
            line.says("mine")
        except BaseException as came:
            error = came
    finally:
        held.let_go()
        striker.join(SECONDS)
        signal.signal(signal.SIGUSR1, before)
    return type(error), line.sent


# What a signal's handler does, the error that the call raises, and what is sent.
SIGNALS = (
    ("nothing", lambda line: None, type(None), ["held", "mine"]),
    ("raises", lambda line: raises(KeyboardInterrupt()), KeyboardInterrupt, ["held", "mine"]),
    ("says something", lambda line: line.says("handler"), type(None), ["held", "mine", "handler"]),
    ("says something soon", lambda line: line.says("h", "call_soon"), type(None), ["held", "mine", "h"]),
)


def signals():
    for what, handler, error, sent in SIGNALS:
        check(f"a signal's handler that {what}", interrupted(handler), (error, sent))


def its_end():
    class Owner:
        pass

    owner = Owner()
    owner.turns = Turns(print)
    ended = weakref.ref(owner)
    owner.turns.call(lambda: owner.turns.send(lambda: None))
    del owner
    gc.collect()
    check("one in a cycle ends", ended(), None)


if __name__ == "__main__":
    sys.exit(run(one_thread, errors, others_meanwhile, orders, signals, its_end))
