"""Each allocation of the library fails in turn: a call that wasn't made is made again, what came of one that was made
is asked for again, and then all is as if nothing had failed; no block is left.

test_memory.py PACKAGE, a folder where the package is built over bindings/c/heap_fail.c.
"""

import ctypes
import functools
import sys

sys.path.insert(0, sys.argv[1])
from checks import check, run
from rolgunai import Kind, Manager, OutcomeMemoryError, OutOfMemoryError, SharedManager, _native

ONE = "00000000-0000-0000-0000-000000000001"
OPEN, MSG, CLOSE = (b'{"msg_type":"comm_%s"}' % word for word in (b"open", b"msg", b"close"))
HEAP = ctypes.CDLL(_native.__file__)
fail_at, count, live = (ctypes.c_long.in_dll(HEAP, f"heap_{name}") for name in ("fail_at", "count", "live"))

CALLS = (
    ("register", (Kind.WIDGET_ECHO, "w")),
    ("register", (Kind.PLAIN, "p")),
    ("launch", ("w", ONE, b'{"v":1}', b'[["b"]]', [b"x" * 5000])),
    ("push", (ONE, b'{"v":{"a":[2,"x"]}}', b'[["b"]]', [b"y"])),
    ("message", (MSG, b"{}", b'{"comm_id":"%s","data":{"method":"update","state":{"v":3}}}' % ONE.encode())),
    ("message", (MSG, b"{}", b'{"comm_id":"%s","data":{"method":"request_state"}}' % ONE.encode())),
    ("state", (ONE,)),
    ("message", (OPEN, b"{}", b'{"comm_id":"a","target_name":"p"}')),
    ("message", (MSG, b"{}", b'{"comm_id":"a","data":{"k":1}}', [b"1", b"22" * 4000])),
    ("send", ("a", b'{"k":1}', [b"1", b"22"])),
    ("message", (b'{"msg_type":"comm_info_request"}', b"{}", b"{}")),
    ("message", (OPEN, b"{}", b'{"comm_id":"b","target_name":"none"}')),
    ("line", (b'{"call":"state","id":"%s"}' % ONE.encode(),)),
    ("message", (CLOSE, b"{}", b'{"comm_id":"a"}')),
    ("register", (Kind.PLAIN, "p")),
    ("close", (ONE,)),
    ("unregister", ("w",)),
)


def until_there_is_memory(call, ask):
    """What comes of a call, and which errors it raised before."""
    raised = []
    while True:
        try:
            return (ask if raised and raised[-1] is OutcomeMemoryError else call)(), raised
        except (OutOfMemoryError, OutcomeMemoryError) as error:
            raised.append(type(error))


READS = (("target", (ONE,)), ("infos", ()), ("infos", ("p",)))


def played(kind, calls, number):
    """What comes of the calls where this allocation fails, how many there were, and the errors."""
    fail_at.value, count.value = number, 0
    manager, errors = until_there_is_memory(kind, None)
    outcomes = []
    for name, arguments in calls:
        call = functools.partial(getattr(manager, name), *arguments)
        ask = call if name == "target" else manager.text if name == "line" else manager.outcome
        outcome, raised = until_there_is_memory(call, ask)
        outcomes.append(outcome)
        errors += raised
    del manager, call, ask
    fail_at.value = -1
    return outcomes, count.value, errors


def each_in_turn(kind, calls):
    wanted, allocations, errors = played(kind, calls, -1)
    check("no error where none fails", errors, [])
    seen = set()
    for number in range(1, allocations + 1):
        outcomes, _, errors = played(kind, calls, number)
        seen.update(errors)
        what = f"{kind.__name__}, allocation {number}"
        # An arena that gets no memory tries a smaller block first, and a spare client is made another time.
        check(f"{what}: at most one error", len(errors) <= 1, True)
        check(f"{what}: what came of the calls", outcomes, wanted)
        check(f"{what}: blocks left", live.value, 0)
    check("both errors were seen", seen, {OutOfMemoryError, OutcomeMemoryError})


def of_one_thread():
    each_in_turn(Manager, CALLS)


def of_clients():
    calls = [call for call in CALLS if call[0] != "line"]
    each_in_turn(SharedManager, [*calls[:-2], *READS, *calls[-2:]])


if __name__ == "__main__":
    sys.exit(run(of_one_thread, of_clients))
