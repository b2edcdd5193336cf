"""What of a widget's watches, of buffers' places and of waking a thread is in C.

test_watches.py PACKAGE, the folder where the package is built.
"""

import select
import sys
import threading
import types

sys.path.insert(0, sys.argv[1])

from checks import check, raised, run
from rolgunai._native import EventPipe, Watch, Watches, know_traits, placed, trait


def by_another(call, *arguments):
    """What a call gives on another thread."""
    given = []
    thread = threading.Thread(target=lambda: given.append(call(*arguments)))
    thread.start()
    thread.join()
    return given[0]


def seen(watch):
    return watch.held, watch.times, watch.is_answered, watch.is_crossed


def watches_are_told():
    """What a watch has seen, after steps of this thread and of another one."""
    here, there = (lambda call, *words: call(*words)), by_another
    for what, steps, wanted in (
        ("nothing", (), ({"a": 1}, 0, False, False)),
        ("this thread speaks", ((here, "told", {"b": 2}),), ({"a": 1, "b": 2}, 1, True, False)),
        ("another thread speaks", ((there, "told", {"a": 2}),), ({"a": 2}, 1, False, True)),
        ("both", ((there, "told", {"a": 2}), (here, "told", {"a": 3})), ({"a": 3}, 2, True, True)),
        ("a frontend speaks", ((here, "begin", {"a": 5}),), ({"a": 5}, 1, False, False)),
        ("one speaks beside another thread", ((there, "begin", {"a": 5}),), ({"a": 5}, 1, False, True)),
        ("after the end", ((here, "end", None), (here, "told", {"a": 2})), ({"a": 1}, 0, False, False)),
        ("after the comm's end", ((here, "forget", None), (here, "told", {"a": 2})), ({"a": 1}, 0, False, False)),
    ):
        watches, watch = Watches(), Watch("x", print)
        watches.begin(watch, {"a": 1})
        for by, name, value in steps:
            if name == "begin":
                by(watches.begin, Watch("x", print), value)
            elif name == "told":
                by(watches.told, "x", value)
            else:
                by(getattr(watches, name), watch if name == "end" else "x")
        watches.told("y", {"a": 9})
        check(f"a watch, {what}", seen(watch), wanted)


def watches_end():
    watches, one, two, ends = Watches(), Watch("x", print), Watch("x", print), []
    watches.end(one)
    check("one that never began ends", watches.by_comm, {})
    one.keys = frozenset("a")
    watches.begin(one, {})
    watches.begin(two, {})
    check("two begin, with keys", (watches.by_comm, watches.keys), ({"x": [one, two]}, {"x": frozenset("a")}))
    watches.end(one)
    check("one ends", watches.by_comm, {"x": [two]})
    watches.end(two)
    watches.end(two)
    check("the other ends, twice", (watches.by_comm, watches.keys), ({}, {"x": frozenset("a")}))
    watches.forget("x")
    watches.forget("y")
    check("comms end", watches.keys, {})
    with Watch("x", ends.append) as watch:
        check("amid its context", ends, [])
    check("its context's end", ends, [watch])
    check("an error in a context", type(raised(lambda: fails_in(Watch("x", ends.append)))), ZeroDivisionError)
    check("no watch", type(raised(lambda: watches.end("x"))), TypeError)
    check("keys that it wasn't given", Watch("x", print).keys, None)


def fails_in(watch):
    with watch:
        1 / 0


def states_change_hands():
    here, there, ended = "here", "there", "a watch of there ends"
    for what, steps, wanted in (
        ("one thread", (here, here), [False, False]),
        ("two threads", (here, there, here, here), [False, True, True, False]),
        ("after a watch", (ended, here, here), [None, True, False]),
        ("another thread watches", ("there watches", here, here), [None, True, True]),
        ("this thread watches", ("here watches", here, here), [None, False, False]),
    ):
        watches, watch = Watches(), by_another(Watch, "x", print)
        calls = {
            here: lambda: watches.changes_hands("x"),
            there: lambda: by_another(watches.changes_hands, "x"),
            ended: lambda: (watches.begin(watch, {}), watches.end(watch))[0],
            "there watches": lambda: watches.begin(watch, {}),
            "here watches": lambda: watches.begin(Watch("x", print), {}),
        }
        check(f"changes of hands, {what}", [calls[step]() for step in steps], wanted)


class Ends:
    """Is let go of by a watch that it ends."""

    def __init__(self, call):
        self.call = call

    def __del__(self):
        self.call()


def code_runs_amid_watches():
    """A value that is let go of ends all watches amid a step."""
    watches = Watches()
    for place in range(3):
        held = {"a": Ends(lambda: watches.forget("x"))} if place == 0 else {}
        watches.begin(Watch("x", print), held)
        del held
    watches.told("x", {"a": 1})
    check("a value's end ends the watches", watches.by_comm, {})


def buffers_are_placed():
    for what, state, paths, buffers, wanted in (
        ("none", {"a": 1}, [], [], {"a": 1}),
        ("at the top", {"a": 1}, [["b"], ["c"]], [b"1", b"2"], {"a": 1, "b": b"1", "c": b"2"}),
        ("in a list", {"a": [None, 1]}, [["a", 0]], [b"1"], {"a": [b"1", 1]}),
        ("in a list's dict", {"a": [{"b": 1}]}, [["a", 0, "c"]], [b"1"], {"a": [{"b": 1, "c": b"1"}]}),
        ("more paths than buffers", {}, (["a"], ["b"]), (b"1",), {"a": b"1"}),
        ("more buffers than paths", {}, iter([["a"]]), iter([b"1", b"2"]), {"a": b"1"}),
    ):
        check(f"buffers at their places, {what}", placed(state, paths, buffers) is state and state, wanted)
    for path, error in ((["b", "c"], KeyError), (["a", "c"], TypeError), ([], IndexError), (1, TypeError)):
        check(f"a buffer at {path}", type(raised(lambda path=path: placed({"a": 1}, [path], [b""]))), error)


def traits_are_read():
    class Plain:
        _trait_values = {"a": 1}
        a = b = property(lambda self: "the descriptor's")
        c = 3

    class Other(Plain):
        pass

    nowhere = object()
    know_traits(Plain, {"a": 8, "b": 2})
    for kind, wanted in ((Plain, [1, 2, 3, nowhere]), (Other, ["the descriptor's", "the descriptor's", 3, nowhere])):
        check(f"traits of {kind.__name__}", [trait(kind(), name, nowhere) for name in "abcd"], wanted)
    check("an attribute that isn't there", type(raised(lambda: trait(Plain(), "d"))), AttributeError)
    strange = Plain()
    strange._trait_values = types.MappingProxyType({"a": 9})
    check("values that are no dict", trait(strange, "a"), "the descriptor's")


def is_readable(pipe):
    return bool(select.select([pipe], [], [], 0)[0])


def pipes_wake_once():
    pipe = EventPipe()
    steps = ("send", "send", "heard", "heard", "send", "heard")
    found = [(getattr(pipe, step)(), is_readable(pipe))[1] for step in steps]
    check("a pipe can be read", found, [True, True, False, False, True, False])
    check("it is itself what a thread has", [by_another(lambda: pipe.event_pipe), pipe.event_pipe], [pipe] * 2)
    check("as zmq's socket", (pipe.send(b""), pipe.send(b"", copy=False), is_readable(pipe)), (None, None, True))
    steps = "close", "close", "send", "heard", "fileno"
    check("one that is closed", [getattr(pipe, step)() for step in steps], [None] * 4 + [-1])


PARTS = watches_are_told, watches_end, states_change_hands, code_runs_amid_watches, buffers_are_placed
sys.exit(run(*PARTS, traits_are_read, pipes_wake_once))
