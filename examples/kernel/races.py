"""What a kernel's threads do to its comms where a page speaks while a cell works. Each race is handed a page and `left`,
which tells how many times it is still to be tried, and yields for each time whether it went wrong."""

import json
import random
import time
import uuid
from typing import NamedTuple

CONTROL = "jupyter.widget.control"
PRELUDE = """
import collections, logging, random, sys, threading, time, warnings
import ipykernel.comm, ipywidgets
warnings.simplefilter("ignore")
try:
    import comm
    make = comm.create_comm if hasattr(ipykernel.comm.comm, "BaseComm") else ipykernel.comm.Comm
except ImportError:
    make = ipykernel.comm.Comm
manager = get_ipython().kernel.comm_manager
going = True
"""


class Race(NamedTuple):
    """What goes wrong, `run(page, left)`, from which version of ipywidgets on, how often it is tried at the least, even
    where that takes long, in a short run at most (0: not at all), and in a long run; or how many seconds that goes
    on."""

    words: str
    run: object
    widgets: int
    least: int
    short: int
    long: int
    seconds: int = 0


def said(came, method=None):
    """The data of the comms' messages, by their comms."""
    for got in came:
        if got["msg_type"] == "comm_msg" and method in (None, got["content"]["data"].get("method")):
            yield got["content"]["comm_id"], got["content"]["data"]


# ---- A page is loaded while a cell makes widgets: it asks for all states, and has to be told them.

PAGES = """
kept = [ipywidgets.IntSlider(i) for i in range(100)]
going = True
def work():
    number = 0
    while going:
        bar = ipywidgets.IntProgress(number)
        number += 1
        time.sleep(0.005)
        bar.close(); bar.layout.close(); bar.style.close()
"""


def load(page):
    """Loads the page: gives the states that it is told, or None."""
    comm_id = uuid.uuid4().hex
    page.post("comm_open", {"comm_id": comm_id, "target_name": CONTROL, "data": {}}, {"version": "1.0.0"})
    asked = page.post("comm_msg", {"comm_id": comm_id, "data": {"method": "request_states"}})
    told = [data["states"] for at, data in said(page.came(asked), "update_states") if at == comm_id]
    page.post("comm_close", {"comm_id": comm_id, "data": {}})
    return told[0] if told else None


def page_loads(page, left):
    page.run(PAGES)
    working = page.start("work()")
    while left():
        page.all_seen()
        states = load(page)
        yield states is None or len(states) < 100
    page.run("going = False", beside=True)
    page.end(working)
    page.run("ipywidgets.Widget.close_all()")


# ---- A page asks which comms are open while a cell opens and closes some.

INFOS = """
kept = [make(target_name="t") for _ in range(2000)]
going = True
def work():
    while going:
        make(target_name="t").close()
        time.sleep(0.0003)
"""


def infos(page, left):
    page.run(INFOS)
    working = page.start("work()")
    while times := min(10, left()):
        answered = page.replies([page.post("comm_info_request", {}) for _ in range(times)], 5)
        yield from [False] * answered + [True] * (times - answered)
    page.reply(page.execute("going = False", beside=True))
    page.end(working)
    page.run("for one in kept: one.close()")


# ---- A cell closes a comm, and a frontend within 0.3 ms: neither fails, and the close is told once.

CLOSES = """
def both_close(times):
    found, heard, barrier = collections.Counter(), set(), threading.Barrier(2)
    comms = [make(target_name="t") for _ in range(times)]
    def closes(name, call):
        for one in comms:
            barrier.wait()
            time.sleep(random.random() * 0.0003)
            try:
                call(one)
            except Exception as error:
                found[name + ": " + type(error).__name__] += 1
            barrier.wait()
    def by_frontend(one):
        content = dict(comm_id=one.comm_id, data={})
        manager.comm_close(None, None, dict(content=content, metadata={}, buffers=[], header={}, parent_header={}))
    for one in comms:
        one.on_close(lambda message: heard.add(message["content"]["comm_id"]))
    other = threading.Thread(target=closes, args=("the frontend", by_frontend))
    other.start()
    closes("the cell", lambda one: one.close())
    other.join()
    print(sum(found.values()), len(heard), sum(one.comm_id in manager.comms for one in comms))
logging.disable(logging.CRITICAL)
"""


def closes_of_both(page, left):
    page.run(CLOSES)
    while times := min(100, left()):
        printed, came = page.run(f"both_close({times})")
        raised, heard, open_yet = map(int, printed.split())
        sent = sum(got["msg_type"] == "comm_close" for got in came)
        wrong = min(times, raised + open_yet + abs(times - heard - sent))
        yield from [True] * wrong + [False] * (times - wrong)


# ---- A cell sets a slider while another thread handles the page's moves of it: at rest both show the same. What goes
# out last on the wire is what a page shows; after each time a comm of its own tells what the kernel holds.

SLIDER = """
slider, rest = ipywidgets.IntSlider(0, max=10**9), make(target_name="rest")
def moved(value):
    data = dict(method="update", state=dict(value=value), buffer_paths=[])
    content = dict(comm_id=slider.comm.comm_id, data=data)
    manager.comm_msg(None, None, dict(content=content, metadata={}, buffers=[], header={}, parent_header={}))
def twice(call):
    for _ in range(2):
        time.sleep(random.random() * 0.0004)
        call(random.randrange(10**6))
def moves(times):
    barrier = threading.Barrier(2)
    def page():
        for _ in range(times):
            barrier.wait()
            twice(moved)
            barrier.wait()
    other = threading.Thread(target=page)
    other.start()
    for _ in range(times):
        barrier.wait()
        twice(lambda value: setattr(slider, "value", value))
        barrier.wait()
        rest.send(dict(held=slider.value))
    other.join()
print(slider.comm.comm_id, rest.comm_id)
"""


def moves(page, left):
    slider, rest = page.run(SLIDER)[0].split()
    while times := min(100, left()):
        shown = None
        for comm_id, data in said(page.run(f"moves({times})")[1]):
            if comm_id == slider:
                shown = data["state"].get("value", shown)
            elif comm_id == rest:
                yield shown != data["held"]


# ---- The same, where the page's moves come over ZeroMQ.

SETS = """
slider = ipywidgets.IntSlider(0, max=10**9)
def sets(first):
    for number in range(8):
        slider.value = first + number
        sum(range(20000))  # it computes
print(slider.comm.comm_id)
"""


def move(page, comm_id, value):
    data = {"method": "update", "state": {"value": value}, "buffer_paths": []}
    page.post("comm_msg", {"comm_id": comm_id, "data": data})


def moves_of_a_page(page, left):
    comm_id, number = page.run(SETS)[0].strip(), 0
    while left():
        number += 1
        setting = page.start(f"sets({1000 * number})")
        for nth in range(3):
            time.sleep(random.random() * 0.004)
            move(page, comm_id, 1000 * number + 500 + nth)
        page.end(setting)
        page.settle()
        held = int(page.run("print(slider.value)")[0])
        told = [data["state"] for at, data in said(page.all_seen()) if at == comm_id]
        yield [state["value"] for state in told if "value" in state][-1:] != [held]


# ---- Eight threads make, move and close widgets while the page moves sliders, and is loaded again and again: each load
# is answered, and at rest page and kernel show the same widgets with the same values.

STORM = """
kept, failed = [[ipywidgets.IntSlider(0, max=10**9) for _ in range(4)] for _ in range(8)], []
going = True
def lives(mine):
    try:
        while going:
            made = ipywidgets.IntProgress(0)
            for value in range(3):
                made.value = random.choice(mine).value = random.randrange(10**6)
            made.close(); made.layout.close(); made.style.close()
            time.sleep(0.3)  # so that a busy page keeps up
    except Exception as error:
        failed.append(repr(error))
threads = [threading.Thread(target=lives, args=(mine,)) for mine in kept]
for one in threads: one.start()
"""
AT_REST = """
import json
print(json.dumps([failed, {one.comm.comm_id: one.value for mine in kept for one in mine}]))
"""


def storm(page, left):
    page.all_seen()
    page.run(STORM)
    is_wrong, has_begun = False, False
    while left() > 1 or not has_begun:
        if has_begun:
            yield is_wrong
        has_begun, began, states = True, time.monotonic(), load(page)
        sliders = [at for at, told in (states or {}).items() if told["model_name"] == "IntSliderModel"]
        for comm_id in random.sample(sliders, min(4, len(sliders))):
            move(page, comm_id, random.randrange(10**6))
        page.settle()
        is_wrong = len(sliders) < 32
        time.sleep(max(0, began + 0.1 - time.monotonic()))
    page.reply(page.execute("going = False; [one.join() for one in threads]", beside=True))
    failed, held = json.loads(page.run(AT_REST)[0])
    told = shown(page.all_seen())
    is_told = isinstance(told, dict) and {comm_id: told.get(comm_id) for comm_id in held} == held
    page.run("ipywidgets.Widget.close_all()")
    yield is_wrong or bool(failed) or not is_told


def shown(came):
    """What a page shows of each slider, once it heard all this; or the comm that is spoken of after its close."""
    values, closed = {}, set()
    for got in came:
        comm_id, data = got["content"].get("comm_id"), got["content"].get("data", {})
        if comm_id in closed:
            return comm_id
        if got["msg_type"] == "comm_close":
            closed.add(comm_id)
        state = data.get("state", {})
        values[comm_id] = state.get("value", values.get(comm_id))
    return values


# ipywidgets 6 has no `request_states`, and no echo, so that what its page shows isn't on the wire.
RACES = (
    Race("page loads that aren't answered", page_loads, 7, 5, 50, 100),
    Race("comm_info_requests that aren't answered", infos, 6, 10, 300, 1000),
    Race("closes of both ends that fail or aren't told once", closes_of_both, 6, 100, 500, 2000),
    Race("sliders that differ in page and kernel at rest", moves, 7, 100, 500, 10000),
    Race("the same, moved over ZeroMQ", moves_of_a_page, 7, 5, 100, 300),
    Race("loads beside eight threads that go wrong", storm, 7, 5, 0, 10**6, 60),
)
