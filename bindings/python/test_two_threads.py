"""Two threads speak of one widget's state: what the frontends are told last is what the widget holds.

test_two_threads.py PACKAGE, the folder where the package is built.
"""

import random
import sys
import threading
import time

from comms_kernel import Kernel  # first, since it says where the package is
from checks import check, run
from test_widgets import Holds, takes

SECONDS = 600  # a machine may be busy with proofs


def on_another_thread(call, *arguments):
    thread = threading.Thread(target=call, args=arguments)
    thread.start()
    thread.join(SECONDS)


def say(widget, v, method="update"):
    widget.comm.send({"method": method, "state": {"v": v}, "buffer_paths": []})


def sets(widget, v):
    widget.state["v"] = v
    say(widget, v)


def moves(kernel, widget, v):
    """A page does."""
    data = {"method": "update", "state": {"v": v}, "buffer_paths": []}
    message = {"content": {"comm_id": widget.comm.comm_id, "data": data}}
    kernel.manager.comm_msg(None, None, message)


def told(kernel):
    """What the frontends are told of v, and by what method."""
    datas = [content["data"] for kind, _, content, *_ in kernel.came() if kind == "comm_msg"]
    return [(data["method"], data["state"]["v"]) for data in datas]


def moved_meanwhile(kernel, widget):
    on_another_thread(moves, kernel, widget, 2)
    say(widget, 1)


def set_meanwhile(kernel, widget):
    sets(widget, 1)
    on_another_thread(sets, widget, 2)
    say(widget, 1)


def alone(kernel, widget):
    sets(widget, 1)
    say(widget, 3)


def alone_again(kernel, widget):
    on_another_thread(sets, widget, 1)
    sets(widget, 2)
    say(widget, 3)


def said_while_it_is_moved(kernel, widget):
    def rule(widget, message):
        takes(widget, message)
        on_another_thread(say, widget, 1)

    widget.rule = rule
    moves(kernel, widget, 2)


def set_while_it_is_moved(kernel, widget):
    widget.rule = lambda widget, message: on_another_thread(sets, widget, 3)
    moves(kernel, widget, 2)


def refused_after_an_echo(kernel, widget):
    def rule(widget, message):
        on_another_thread(sets, widget, 1)
        say(widget, 2, "echo_update")

    widget.rule = rule
    moves(kernel, widget, 2)


def moved_while_it_is_moved(kernel, widget):
    def rule(widget, message):
        widget.rule = takes
        on_another_thread(moves, kernel, widget, 3)

    widget.rule = rule
    moves(kernel, widget, 2)


def closed_meanwhile(kernel, widget):
    on_another_thread(moves, kernel, widget, 2)
    say(widget, 1)
    widget.comm.close()
    say(widget, 4)


# What comes to be, what the widget holds then, and what the frontends are told.
ROWS = (
    (moved_meanwhile, 2, [1, 2]),
    (set_meanwhile, 2, [1, 2, 1, 2]),
    (alone, 1, [1, 3]),
    (alone_again, 2, [1, 2, 3]),
    (said_while_it_is_moved, 2, [1, 2, 2]),
    (set_while_it_is_moved, 3, [3, 3]),
    (refused_after_an_echo, 1, [1, 2, 1]),
    (moved_while_it_is_moved, 3, [3]),
    (closed_meanwhile, 2, [1, 2]),
)


def words_that_come_late():
    for case, held, wanted in ROWS:
        kernel = Kernel()
        widget = Holds(takes, v=0)
        kernel.came()
        case(kernel, widget)
        check(case.__name__, (widget.state["v"], [v for _, v in told(kernel)]), (held, wanted))


def echoes(widget, message):
    """As ipywidgets does; what is told last is what a page shows then."""
    say(widget, message["content"]["data"]["state"]["v"], "echo_update")
    takes(widget, message)


def storm():
    """Two threads set a widget while two pages move it. Gives what it holds at the end, and what a page shows."""
    kernel, numbers = Kernel(), iter(range(1, 1000))
    widget = Holds(echoes, v=0)

    def set_and_say(v):
        widget.state["v"] = v
        time.sleep(random.random() * 0.0002)  # in which another thread comes in between
        say(widget, v)

    def work(acts):
        for _ in range(5):
            acts(next(numbers))

    ways = set_and_say, set_and_say, lambda v: moves(kernel, widget, v), lambda v: moves(kernel, widget, v)
    threads = [threading.Thread(target=work, args=(way,)) for way in ways]
    for thread in threads:
        thread.start()
    for thread in threads:
        thread.join(SECONDS)
    return widget.state["v"], told(kernel)[-1][1]


def storms():
    interval, ends, ended = sys.getswitchinterval(), time.monotonic() + 3, []
    sys.setswitchinterval(1e-6)
    try:
        while len(ended) < 10 or time.monotonic() < ends:
            ended.append(storm())
    finally:
        sys.setswitchinterval(interval)
    check(f"a page shows what is held, of {len(ended)} storms", [it for it in ended if it[0] != it[1]], [])


if __name__ == "__main__":
    sys.exit(run(words_that_come_late, storms))
