"""What the package reads and writes of widgets' updates in C, beside what Python makes of the same messages.

test_updates.py PACKAGE, the folder where the package is built.
"""

import copy
import gc
import itertools
import json
import random
import sys
import tracemalloc

sys.path.insert(0, sys.argv[1])

from checks import check, raised, run
from rolgunai._native import copied, read_update, write, write_said, write_update

WIDGET = "jupyter.widget"
TARGETS = {"w": WIDGET, "o": "other", "n": WIDGET, "é": WIDGET}
KEYS = {"w": frozenset(("v", "b", "c")), "o": frozenset(("v",)), "é": frozenset(("v",)), "gone": frozenset(("v",))}


class Text(str):
    pass


class Words(dict):
    pass


class Row(list):
    pass


def new(state, paths=None, buffers=(), comm_id="w", **more):
    """A frontend's update in version 2 of the widget protocol."""
    data = {"method": "update", "state": state, **({} if paths is None else {"buffer_paths": paths}), **more}
    return {"metadata": {}, "content": {"comm_id": comm_id, "data": data}, "buffers": list(buffers)}


def old(state, keys=None, buffers=(), comm_id="w"):
    """The same in version 1."""
    data = {"method": "backbone", "sync_data": state, **({} if keys is None else {"buffer_keys": keys})}
    return {"content": {"comm_id": comm_id, "data": data}, "buffers": list(buffers)}


# Messages, and what is read of each: the comm's id, the state, the paths of buffers, and the buffers.
PLAIN = {
    "an update": (new({"v": 1}), ("w", {"v": 1}, [], ())),
    "with no paths": (new({"v": 1.5}, []), ("w", {"v": 1.5}, [], ())),
    "of nothing": (new({}), ("w", {}, [], ())),
    "of another id": (new({"v": "é\ud800"}, comm_id="é"), ("é", {"v": "é\ud800"}, [], ())),
    "with more keys": (new({"v": None}, echo=True), ("w", {"v": None}, [], ())),
    "with a buffer": (new({"v": 1}, [["b"]], [b"x"]), ("w", {"v": 1}, [["b"]], [b"x"])),
    "deep in a value": (new({"v": [None]}, [["v", 0]], [b"x"]), ("w", {"v": [None]}, [["v", 0]], [b"x"])),
    "with two buffers": (new({}, [["b"], ["c"]], [b"x", b"y"]), ("w", {}, [["b"], ["c"]], [b"x", b"y"])),
    "with a buffer that is missing": (new({}, [["b"]]), ("w", {}, [["b"]], ())),
    "with a buffer too many": (new({"v": 1}, None, [b"x"]), ("w", {"v": 1}, [], [b"x"])),
    "without buffers": ({"content": new({"v": 1})["content"]}, ("w", {"v": 1}, [], ())),
    "in version 1": (old({"v": 1}, []), ("w", {"v": 1}, [], ())),
    "in version 1, without keys": (old({"v": [1, {"k": 2}]}), ("w", {"v": [1, {"k": 2}]}, [], ())),
    "in version 1, with buffers": (old({}, ["b", "c"], [b"x", b"y"]), ("w", {}, [["b"], ["c"]], [b"x", b"y"])),
}  # fmt: skip
# What Python reads in another way, or the manager refuses.
OTHERS = {
    "no message": None,
    "an empty one": {},
    "no content": {"content": None},
    "no data": {"content": {"comm_id": "w"}},
    "a text as data": {"content": {"comm_id": "w", "data": "update"}},
    "no method": {"content": {"comm_id": "w", "data": {"state": {"v": 1}}}},
    "a method that is no text": new({"v": 1}, method=1),
    "another method": new({"v": 1}, method="custom"),
    "a request": new({}, method="request_state"),
    "no state": {"content": {"comm_id": "w", "data": {"method": "update"}}},
    "a list as state": new([]),
    "a state of a class of its own": new(Words(v=1)),
    "a key that the widget hasn't": new({"v": 1, "x": 2}),
    "a key that is none": new({1: 2}),
    "a key of a class of its own": new({Text("v"): 2}),
    "an id that is none": new({"v": 1}, comm_id=["w"]),
    "an id of a class of its own": new({"v": 1}, comm_id=Text("w")),
    "a comm that isn't open": new({"v": 1}, comm_id="gone"),
    "a comm that nobody knows": new({"v": 1}, comm_id="nobody"),
    "another target": new({"v": 1}, comm_id="o"),
    "a widget whose keys aren't known": new({"v": 1}, comm_id="n"),
    "paths that are none": new({"v": 1}, {"b": 0}),
    "a tuple of paths": new({"v": 1}, (["b"],), [b"x"]),
    "an empty path": new({"v": 1}, [[]], [b"x"]),
    "a path that is a text": new({"v": 1}, ["b"], [b"x"]),
    "a path to no key": new({"v": 1}, [[0]], [b"x"]),
    "a path to a key that the widget hasn't": new({"v": 1}, [["b"], ["x"]], [b"x", b"y"]),
    "keys that are paths": old({"v": 1}, [["b"]], [b"x"]),
    "a value that is no JSON": new({"v": {1, 2}}),
    "a nan": new({"v": float("nan")}),
}


def plain_messages():
    for what, (message, (comm_id, state, paths, buffers)) in PLAIN.items():
        before = copy.deepcopy(message)
        update = read_update(message, TARGETS, KEYS)
        check(f"{what}: is read", update is not None, True)
        told, text, held, parts = update
        data = {"method": "update", "state": state, **({"buffer_paths": paths} if paths else {})}
        check(f"{what}: the content", text, write({"comm_id": comm_id, "data": data}))
        check(f"{what}: the state", (told, held, held is state), (comm_id, state, False))
        wanted = (paths or (), [path[0] for path in paths] or (), buffers) if paths or buffers else None
        check(f"{what}: its buffers", parts, wanted)
        check(f"{what}: stays", message, before)


def other_messages():
    for what, message in OTHERS.items():
        check(what, read_update(message, TARGETS, KEYS), None)
    nobody = raised(lambda: read_update(new({"v": 1}), TARGETS))
    check("without keys", type(nobody), TypeError)


# What the kernel says: the state, the paths or, in version 1, the keys, and the buffers; and what is written of it.
SAID = {
    "a value": (({"v": 1}, None, None), (b'{"v":1}', b"[]", ["v"], (), ())),
    "no buffers": (({"v": [1.5, None], "c": ""}, [], []), (b'{"v":[1.5,null],"c":""}', b"[]", ["v", "c"], (), ())),
    "a buffer": (({}, ["b"], [b"x"]), (b"{}", b'[["b"]]', [], ["b"], [b"x"])),
    "two": (({"v": 1}, ["b", "c"], (b"x", b"y")), (b'{"v":1}', b'[["b"],["c"]]', ["v"], ["b", "c"], [b"x", b"y"])),
    "buffers without paths": (({"v": 1}, None, [b"x"]), (b'{"v":1}', b"[]", ["v"], (), [b"x"])),
}  # fmt: skip
STATES = (None, [1], Words(v=1), {"v": {1}}, {"v": float("inf")})
NOT_SAID = (None, 1, {}, *({"state": state} for state in STATES))


def said():
    for what, ((state, keys, buffers), wanted) in SAID.items():
        paths = keys and [[key] for key in keys]
        got = write_said({"method": "update", "state": state, "buffer_paths": paths}, False, buffers)
        check(f"{what}, said", got, wanted)
        got = write_said({"method": "update", "state": state, "buffers": keys}, True, buffers)
        check(f"{what}, said in version 1", got, wanted)
    for data in NOT_SAID:
        check(f"not {data!r}", [write_said(data, is_old, None) for is_old in (False, True)], [None, None])
    for paths in ([[]], [[1]], ["b"], ("b",), 1):
        check(f"nor the paths {paths!r}", write_said({"state": {}, "buffer_paths": paths}, False, [b"x"]), None)
    check("nor keys that are none", write_said({"state": {}, "buffers": [["b"]]}, True, [b"x"]), None)
    nested = {"state": {"v": {"x": None}}, "buffer_paths": [["v", "x"]]}
    got = write_said(nested, False, [b"x"])
    check("deep in a value", got, (b'{"v":{"x":null}}', b'[["v","x"]]', ["v"], ["v"], [b"x"]))


def anything(rng, depth):
    kind = rng.randrange(9 if depth else 6)
    if kind < 6:
        return (None, True, rng.randrange(-(2**70), 2**70), rng.random(), "text é", rng.randbytes(3))[kind]
    inner = [anything(rng, depth - 1) for _ in range(rng.randrange(4))]
    return (inner, tuple(inner), {f"k{n}": item for n, item in enumerate(inner)})[kind - 6]


def listed(value):
    """A copy, with lists in the place of tuples, by Python."""
    if isinstance(value, dict):
        return {key: listed(item) for key, item in value.items()}
    return [listed(item) for item in value] if isinstance(value, (list, tuple)) else value


def containers(value):
    """The ids of a value's lists, dicts and tuples."""
    if isinstance(value, (dict, list, tuple)):
        yield id(value)
        for item in value.values() if isinstance(value, dict) else value:
            yield from containers(item)


def copies():
    rng = random.Random(7)
    for number in range(2000):
        value = anything(rng, 5)
        made = copied(value)
        check(f"copy {number}", repr(made), repr(listed(value)))
        check(f"copy {number}: its own", set(containers(value)) & set(containers(made)), set())
    odd = Words(a=Row([1, Words(b=2)]))
    check("of classes of their own", (copied(odd), type(copied(odd)), type(copied(odd)["a"])), (odd, dict, list))
    check("of another object", copied(check), check)
    endless = []
    endless.append(endless)
    deep = []
    for _ in range(10**5):
        deep = [deep]
    circular = {}
    circular |= {"a": circular, "b": circular}
    limit = sys.getrecursionlimit()
    for levels in (limit, 10**6):
        sys.setrecursionlimit(levels)
        for value in (endless, {"a": endless}, circular, deep):
            check(f"without an end, or too deep, of {levels}", type(raised(lambda: copied(value))), RecursionError)
    sys.setrecursionlimit(limit)
    while deep:
        deep = deep.pop()


def nothing_is_left():
    """No memory, also of what isn't read."""
    calls = [lambda message=message: read_update(message, TARGETS, KEYS) for message, _ in PLAIN.values()]
    calls += [lambda message=message: read_update(message, TARGETS, KEYS) for message in OTHERS.values()]
    calls += [lambda data=data: write_said(data, False, [b"x"]) for data in NOT_SAID]
    calls.append(lambda: write_said({"state": {"v": 1}, "buffer_paths": [["b"], ["c"]]}, False, [b"x"]))
    calls.append(lambda: write_said({"state": {"v": 1}, "buffers": ["b", 1]}, True, [b"x"]))
    calls.append(lambda: copied({"a": [1, {"b": ("c", {})}]}))
    tracemalloc.start()
    for number, call in enumerate(calls):
        call()
        gc.collect()
        held = tracemalloc.get_traced_memory()[0]
        for _ in range(50):
            call()
        gc.collect()
        check(f"call {number}: memory", tracemalloc.get_traced_memory()[0] - held < 1500, True)
    tracemalloc.stop()


def no_memory():
    """Each allocation fails in turn, and all after it."""
    try:
        import _testcapi
    except ImportError:
        print("skipped: the failing of allocations: this Python has no _testcapi")
        return
    message = new({"v": {"x": [None, 0.5]}}, [["v", "x", 0], ["b"]], [b"x", b"y"])
    data = {"state": {"v": [1, "x" * 3000]}, "buffer_paths": [["b"]]}
    calls = (
        lambda: read_update(message, TARGETS, KEYS),
        lambda: read_update(PLAIN["in version 1, with buffers"][0], TARGETS, KEYS),
        lambda: write_said(data, False, [b"x"]),
        lambda: copied(message["content"]),
        lambda: write_update("w", {"v": "x" * 3000}, [["b"]]),
    )
    for place, call in enumerate(calls):
        wanted, failures = call(), 0
        for number in itertools.count():
            got = None
            _testcapi.set_nomemory(number)
            try:
                got = call()
            except MemoryError:
                pass
            finally:
                _testcapi.remove_mem_hooks()
            if got is not None:
                break
            failures += 1
        check(f"call {place}: once there is memory", (got, failures > 0), (wanted, True))


def texts():
    for state, paths in (({}, None), ({"v": 1}, []), ({"v": [None, "é"]}, [["b"], ["v", 0]])):
        data = {"method": "update", "state": state, **({} if paths is None else {"buffer_paths": paths})}
        wanted = json.dumps({"comm_id": 'an "id"', "data": data}, separators=(",", ":"), ensure_ascii=False).encode()
        check(f"the update {data}", write_update('an "id"', state, paths), wanted)
    for wrong in ((), ("w", {}), ("w", {1, 2}, None), ("w", {"v": float("inf")}, None)):
        error = raised(lambda: write_update(*wrong))
        check(f"{wrong}", isinstance(error, (TypeError, ValueError)), True)


if __name__ == "__main__":
    sys.exit(run(plain_messages, other_messages, said, texts, copies, nothing_is_left, no_memory))
