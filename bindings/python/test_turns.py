"""The hub's lock: one call at a time, those that wait for it, and what an exception leaves behind.

test_turns.py PACKAGE, the folder where the package is built.
"""

import gc
import sys
import threading
import weakref

sys.path.insert(0, sys.argv[1])
from checks import check, raised, run
from rolgunai._native import Turns

SECONDS = 60


class Noted:
    """Turns whose calls are noted."""

    def __init__(self):
        self.said, self.errors = [], []
        self.turns = Turns(lambda error: self.errors.append((str(error), self.is_free())))

    def say(self, word):
        self.said.append(word)
        return word

    def is_free(self):
        """Whether another thread's call is made at once."""
        said = []
        other = threading.Thread(target=self.turns.call_soon, args=(said.append, 1))
        other.start()
        other.join(SECONDS)
        return said == [1]


def orders():
    noted = Noted()
    turns, say = noted.turns, noted.say

    def amid():
        say("begins")
        check("amid a call", (turns.is_amid(), noted.is_free()), (True, False))
        check("what comes in its turn gives None yet", turns.call_in_turn(say, "in turn"), None)
        turns.call_unlocked(lambda: say(("unlocked", noted.is_free(), turns.is_amid())))
        turns.call_soon(say, "soon")
        check("what can't wait is called at once", turns.call(say, "at once"), "at once")
        return say("ends")

    check("a call gives what it gives", turns.call_in_turn(amid), "ends")
    words = ["begins", "at once", "ends", "in turn", "soon", ("unlocked", True, False)]
    check("each in its order", noted.said, words)
    check("then none is under way", (turns.is_amid(), noted.is_free()), (False, True))
    check("without one all are called", [turns.call_unlocked(say, "u"), turns.call_soon(say, "s")], ["u", None])
    check("with no function", type(raised(turns.call)), TypeError)


class Stop(BaseException):
    pass


def raises(error):
    raise error


def errors():
    for error in (ValueError("x"), Stop("x"), KeyboardInterrupt("x")):
        noted = Noted()
        turns = noted.turns
        for call in (turns.call, turns.call_in_turn, turns.call_soon, turns.call_unlocked):
            try:
                call(raises, error)
                check("it raises", False, True)
            except BaseException as came:
                check(f"{error!r} is raised", came, error)
            check("and the lock is free", (turns.is_amid(), noted.is_free()), (False, True))

        def amid():
            turns.call_in_turn(raises, error)
            turns.call_in_turn(noted.say, "the next")
            turns.call_unlocked(noted.say, "unlocked")
            return "done"

        try:
            came = turns.call(amid)
        except BaseException as raised_then:
            came = raised_then
        is_told = isinstance(error, Exception)
        check("one that came amid a call", came, "done" if is_told else error)
        check("what waited is called", noted.said, ["the next", "unlocked"])
        check("an Exception is told, without the lock", noted.errors, [("x", True)] if is_told else [])


def threads():
    noted, counts = Noted(), [0]
    began, go = threading.Event(), threading.Event()

    def holds():
        began.set()
        go.wait(SECONDS)
        noted.say("held")

    holder = threading.Thread(target=noted.turns.call, args=(holds,))
    holder.start()
    began.wait(SECONDS)
    noted.turns.call_soon(noted.say, "soon")
    waiter = threading.Thread(target=noted.turns.call, args=(noted.say, "waited"))
    waiter.start()
    check("neither is called yet", noted.said, [])
    go.set()
    holder.join(SECONDS)
    waiter.join(SECONDS)
    check("both are", noted.said, ["held", "soon", "waited"])

    def adds():
        counts[0] = counts[0] + 1

    workers = [threading.Thread(target=lambda: [noted.turns.call(adds) for _ in range(5000)]) for _ in range(6)]
    for worker in workers:
        worker.start()
    for worker in workers:
        worker.join(SECONDS)
    check("none is lost", counts, [30000])


def none_stays_behind():
    """A call that never waits, beside another thread's that end all the time."""
    noted = Noted()
    interval = sys.getswitchinterval()
    sys.setswitchinterval(1e-6)
    left = 0
    try:
        for _ in range(2000):
            other = threading.Thread(target=lambda: [noted.turns.call(len, ()) for _ in range(3)])
            other.start()
            noted.turns.call_soon(noted.say, "x")
            other.join(SECONDS)
            left += len(noted.said) != 1
            noted.said.clear()
    finally:
        sys.setswitchinterval(interval)
    check("is through when both are", left, 0)


def its_end():
    class Owner:
        pass

    owner = Owner()
    owner.turns = Turns(owner.__init__)
    ended = weakref.ref(owner)
    del owner
    gc.collect()
    check("one in a cycle ends", ended(), None)


if __name__ == "__main__":
    sys.exit(run(orders, errors, threads, none_stays_behind, its_end))
