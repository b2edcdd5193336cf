"""A manager that threads share: a client for each, reads beside changes, numbers, more threads than clients, and
threads that end.

test_clients.py PACKAGE, the folder where the package is built.
"""

import gc
import sys
import threading
import weakref

sys.path.insert(0, sys.argv[1])
from checks import check, raised, run
from rolgunai import Kind, Manager, Reason, Reply, SharedManager, Status
from test_process import beside, resident
from test_rolgunai import CALLS, INFO, MSG, OPEN, WRONG, bad, came, made

SECONDS = 60
CLIENTS = 256


def opened(manager, comm_id, target="p"):
    return manager.message(OPEN, b"{}", '{"comm_id":"%s","target_name":"%s"}' % (comm_id, target))


def shared_of(*comm_ids, kind=Kind.PLAIN):
    """A manager with these comms of one target."""
    manager = SharedManager()
    manager.register(kind, "p")
    for comm_id in comm_ids:
        opened(manager, comm_id)
    return manager


def on_another_thread(call):
    """What a call gives there, or the error that it raises."""
    given = []

    def calls():
        try:
            given.append(call())
        except Exception as error:
            given.append(error)

    thread = threading.Thread(target=calls)
    thread.start()
    thread.join(SECONDS)
    return given[0]


def all_of(works, count):
    """Has threads work at once, each by its number, and waits for all of them; gives the errors."""
    errors = []

    def work(number):
        try:
            works(number)
        except Exception as error:
            errors.append(error)

    threads = [threading.Thread(target=work, args=(number,)) for number in range(count)]
    for thread in threads:
        thread.start()
    for thread in threads:
        thread.join(SECONDS)
    return errors + [thread for thread in threads if thread.is_alive()]


def calls():
    """Each call is as that of the manager of one thread, whichever thread makes it."""
    for what, by in (("one thread", lambda call: call()), ("a thread for each call", on_another_thread)):
        manager = SharedManager(comms=3)
        for number, (name, arguments, wanted) in enumerate(CALLS):
            what_call = f"{what}: call {number}, {name}{arguments}"
            check(what_call, by(lambda: made(manager, name, arguments)), wanted)
    manager = SharedManager()
    check("no call yet", manager.outcome(), came(Reply.NONE))
    check("numbers of clients", type(raised(lambda: manager.close("a", client=0))), TypeError)
    for name, arguments, named, wanted in WRONG:
        if name not in ("line", "state") and "client" not in named:
            error = raised(lambda: getattr(manager, name)(*arguments, **named))
            check(f"{name}{arguments}{named}", type(error), wanted)
    check("a limit", raised(lambda: SharedManager(comms=0)).status, Status.BAD_LIMIT)
    check("a second beginning", raised(manager.__init__).status, Status.ALREADY_OPEN)
    never = SharedManager.__new__(SharedManager)
    for call in (never.outcome, never.seen, never.infos, lambda: never.target("a"), lambda: never.close("a")):
        check("no beginning", raised(call).status, Status.CLOSED)
    decimals = SharedManager(decimals=True)
    decimals.register(Kind.PLAIN, "p")
    check("decimals", decimals.send("a", b'{"v":1.5}').reply, Reply.NO_COMM)
    check("none", manager.send("a", b'{"v":1.5}'), bad(Reason.NOT_WHOLE))


def reads():
    one = Manager()
    shared = SharedManager()
    for manager in (one, shared):
        for name in ("p", "q é"):
            manager.register(Kind.PLAIN, name)
        for comm_id, target in (("a", "p"), ("b", "q é"), ("é", "p")):
            opened(manager, comm_id, target)
    for what, name, content in (
        ("all", (), "{}"),
        ("all, by None", (None,), '{"target_name":null}'),
        ("those of a target", ("p",), '{"target_name":"p"}'),
        ("those of another", ("q é",), '{"target_name":"q é"}'),
        ("those of none", ("none",), '{"target_name":"none"}'),
        ("those of an empty name", ("",), '{"target_name":""}'),
    ):
        wanted = one.message(INFO, b"{}", content)
        check(f"infos: {what}", shared.infos(*name), wanted)
        check(f"infos: {what}, by a message", shared.message(INFO, b"{}", content), wanted)
    for comm_id, wanted in (("a", "p"), ("b", "q é"), ("é", "p"), ("c", None), ("", None), (b"b", "q é")):
        check(f"target of {comm_id!r}", shared.target(comm_id), wanted)
    check("an id that is no text", raised(lambda: shared.target(b"\xff")).status, Status.BAD_NAME)
    check("an id of another type", type(raised(lambda: shared.target(3))), TypeError)
    check("too many names", type(raised(lambda: shared.infos("a", "b"))), TypeError)
    check("reads are no changes", shared.seen(), 5)


def outcomes():
    manager = shared_of("a")
    manager.send("a", b'{"n":1}')
    mine = manager.outcome()
    check("a thread that has made no call", on_another_thread(manager.outcome), came(Reply.NONE))
    other = on_another_thread(lambda: (manager.send("a", b'{"n":2}'), manager.outcome()))
    check("another thread has its own", other[0] == other[1] != mine, True)
    check("and this one still", manager.outcome(), mine)


def numbers():
    """Each change has its own number, and whoever was told of one sees it."""
    manager = shared_of("0")
    begun, told, amiss = manager.seen(), [], []

    def works(thread):
        for at in range(300):
            comm_id = f"{thread}.{at}"
            if opened(manager, comm_id).reply != Reply.OPENED:
                amiss.append(comm_id)
            told.append(manager.seen())
            other, number = comm_id, manager.seen()
            if manager.target(other) != "p" or manager.seen() < number:
                amiss.append((thread, at))
            manager.close(comm_id)
            told.append(manager.seen())
            if manager.target(comm_id) is not None:
                amiss.append((thread, at, "closed"))

    interval = sys.getswitchinterval()
    sys.setswitchinterval(1e-6)
    try:
        check("no errors", all_of(works, 8), [])
    finally:
        sys.setswitchinterval(interval)
    check("each once", sorted(told), list(range(begun + 1, begun + 4801)))
    check("a thread reads its own changes", amiss, [])
    for _ in range(300):
        number = on_another_thread(lambda: (opened(manager, "new"), manager.seen())[1])
        if manager.target("new") != "p" or manager.seen() < number:
            amiss.append(number)
        manager.close("new")
    check("and another's that was answered", amiss, [])


TEXT = b'{"comm_id":"none","data":{"k":"%s"}}' % (b"x" * 2**24)


def long_change(manager):
    """One that takes long to be read, and whose outcome is short."""
    assert manager.message(MSG, b"{}", TEXT).reply == Reply.NO_COMM


def beside_a_long_change():
    """Another thread comes in where a long change has let the GIL go."""
    wanted = (
        ("target", lambda manager: manager.target("b"), True),
        ("infos", lambda manager: manager.infos(), True),
        ("infos of a target", lambda manager: manager.infos("p"), True),
        ("state", lambda manager: manager.state("b"), True),
        ("seen", lambda manager: manager.seen(), True),
        ("outcome", lambda manager: manager.outcome(), True),
        ("send", lambda manager: manager.send("b", b"{}"), False),
        ("close", lambda manager: manager.close("none"), False),
    )
    for what, call, is_beside in wanted:
        found = []
        for _ in range(20 if is_beside else 3):  # on a busy machine the other thread may come too late now and then
            manager = shared_of("a", "b")
            found.append(beside(lambda: long_change(manager), lambda: call(manager)))
        check(f"beside a long change: {what}", any(found), is_beside)


def long_changes():
    """Those that let the GIL go wait for each other, and each thread has its own outcome."""
    manager, amiss = shared_of(*map(str, range(4))), []

    def works(number):
        frame = bytes([number]) * (17 * 2**20)
        for at in range(10):
            data = b'{"n":%d}' % at
            sent = manager.send(str(number), data, [frame]).sent[0]
            if (sent.comm_id, sent.buffers) != (str(number), (frame,)):
                amiss.append((number, at))

    check("no errors", all_of(works, 4), [])
    check("each has its own", amiss, [])


def reads_beside(manager):
    """Whether a new thread, which needs a client of its own for it, reads while this one makes a long change."""

    def starts():
        reader = threading.Thread(target=lambda: manager.target("a"))
        reader.start()
        reader.join(SECONDS)

    return any(beside(lambda: long_change(manager), starts) for _ in range(20))


def more_threads_than_clients():
    """All of them are there at once, and none is told BUSY or that there is no seat."""
    manager, count = shared_of("0"), CLIENTS + 64
    begun, told, together = manager.seen(), [], threading.Barrier(count)

    def works(number):
        comm_id = str(number + 1)
        together.wait(SECONDS)
        outcome = opened(manager, comm_id)
        assert outcome == came(Reply.OPENED, about=(comm_id, "p")), outcome
        together.wait(SECONDS)  # all have had a client, as far as there are some
        for at in range(20):
            sent = manager.send(comm_id, b'{"n":%d}' % at)
            assert sent.comm_id == comm_id and len(sent.sent) == 1, sent
            assert manager.target(comm_id) == "p"
            assert manager.infos("none").reply == Reply.COMM_INFO
            manager.state(comm_id)
        told.append(manager.seen())
        together.wait(SECONDS)

    check("no errors", all_of(works, count), [])
    check("all changes were made", max(told), begun + count * 21)
    opened(manager, "a")
    check("a thread that comes then has a client", reads_beside(manager), True)


def threads_that_end():
    """Many more than there are clients, one after another and in turns: each gives its client back."""
    manager, late = shared_of("a"), []
    for number in range(3 * CLIENTS):
        late += all_of(lambda _: manager.send("a", b"{}"), 1)
        if number == CLIENTS:
            gc.collect()
            room = resident()
    check("one after another", late, [])
    check("they leave no memory", resident() - room < 2**22, True)
    check("each has given its client back", reads_beside(manager), True)
    check("in turns", [error for _ in range(8) for error in all_of(lambda _: manager.target("a"), 64)], [])
    kept = [SharedManager() for _ in range(300)]
    check("each with its own", {on_another_thread(lambda: one.infos().reply) for one in kept}, {Reply.COMM_INFO})


def a_new_thread_beside_a_long_change():
    check("a thread that never called before reads at once too", reads_beside(shared_of("a")), True)


class Reading:
    """Reads and changes where the garbage collector ends it."""

    def __init__(self, manager, comm_id, heard):
        self.cycle, self.manager, self.comm_id, self.heard = self, manager, comm_id, heard

    def __del__(self):
        self.heard.append((self.manager.target(self.comm_id), self.manager.close(self.comm_id).reply))


def finalizers():
    manager, heard = shared_of("a", *map(str, range(200))), []
    threshold = gc.get_threshold()
    gc.set_threshold(5, 2, 2)
    try:
        for number in range(200):
            Reading(manager, str(number), heard)
            outcome = manager.send("a", b'{"n":%d}' % number)
            if outcome.sent[0].content != b'{"comm_id":"a","data":{"n":%d}}' % number:
                heard.append(outcome)
    finally:
        gc.set_threshold(*threshold)
    gc.collect()
    check("each reads, and closes its comm", (set(heard), len(heard)), ({("p", Reply.CLOSED)}, 200))


def ends():
    class Named(SharedManager):
        pass

    manager = Named()
    manager.itself, ended = manager, weakref.ref(manager)
    manager.register(Kind.PLAIN, "p")
    on_another_thread(lambda: opened(manager, "a"))
    del manager
    gc.collect()
    check("one in a cycle ends", ended(), None)
    room = resident()
    for _ in range(2000):
        one = shared_of("a", "b")
        one.send("a", b"{}", [b"x" * 10000])
    check("2,000 managers, one after another", resident() - room < 2000 * 4096 // 2, True)
    stays, goes = threading.Event(), threading.Event()
    manager = shared_of("a")

    def works(manager):
        manager.send("a", b"{}")
        del manager
        stays.set()
        goes.wait(SECONDS)

    thread = threading.Thread(target=works, args=(manager,))
    thread.start()
    stays.wait(SECONDS)
    del manager
    goes.set()
    thread.join(SECONDS)
    check("a thread that outlives its manager ends", thread.is_alive(), False)


PARTS = (
    calls,
    reads,
    outcomes,
    numbers,
    beside_a_long_change,
    a_new_thread_beside_a_long_change,
    long_changes,
    more_threads_than_clients,
    threads_that_end,
    finalizers,
    ends,
)

if __name__ == "__main__":
    sys.exit(run(*PARTS))
