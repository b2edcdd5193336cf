"""The test kernel with shell and control on two threads: what comes on control while a cell runs. `test_threads.py
KERNELS SECONDS`: the folder of the kernelspecs, and how long the storm takes. The last line is 'N passed, M failed'."""

import sys
import time
import traceback

from xeus_frontend import XeusFrontend, cell, check, counted, said, update

PROTOCOL = {"version": "2.1.0"}
WIDGET = {"target_name": "jupyter.widget"}


def until_busy(front, posted):
    """Waits until the kernel is busy with a message."""
    while front.client.get_iopub_msg(timeout=60)["parent_header"].get("msg_id") != posted:
        pass
    time.sleep(0.1)  # the kernel has said that it is busy, and is about to run it


def execute(front, *commands):
    """Begins a cell."""
    posted = front.post("execute_request", {"code": cell(*commands), "silent": False, "stop_on_error": False})
    until_busy(front, posted)
    return posted


def on_control(front, comm_id, **data):
    return front.post("comm_msg", {"comm_id": comm_id, "data": data}, "control")


def widget(front):
    data = {"state": {"value": 1}, "buffer_paths": []}
    front.run(cell(["reset"], ["make", "w", "jupyter.widget"], ["open", "w", "", PROTOCOL, data]))


def beside_a_cell(front):
    """What the manager answers alone doesn't wait for the cell, what the kernel's code takes does, and keeps its order
    with what comes after it."""
    widget(front)
    running = execute(front, ["sleep", 2], ["heard"])
    asked = on_control(front, "w", method="request_state")
    info = front.post("comm_info_request", {}, "control")
    moved = on_control(front, "w", **update(value=2))
    asked_again = on_control(front, "w", method="request_state")
    comms = front.reply(info, "control")["comms"]
    came, ended = front.gather(running, asked, moved, asked_again, info)
    check("comm_info on control", comms, {"w": WIDGET})
    check("what ends before the cell", set(ended[:2]), {asked, info})
    check("what ends after it", ended[2:], [running, moved, asked_again])
    check("the state before", said(came[asked]), [("comm_msg", update(value=1))])
    echo = {"method": "echo_update", "state": {"value": 2}, "buffer_paths": []}
    check("the move", said(came[moved]), [("comm_msg", echo)])
    check("the state after", said(came[asked_again]), [("comm_msg", update(value=2))])
    check("the kernel hears the move after the cell", [each[0] for each in front.heard()], ["comm_msg"])


def without_a_cell(front):
    """Where shell has nothing, the kernel's code runs for a message on control, and shell waits."""
    front.run(cell(["reset"]))
    opened = front.post("comm_open", {"comm_id": "e", "target_name": "listens", "data": {}}, "control")
    front.gather(opened)
    slow = on_control(front, "e", run=cell(["sleep", 0.5], ["print", "slow"]))
    until_busy(front, slow)
    running = front.post("execute_request", {"code": cell(["heard"]), "silent": False, "stop_on_error": False})
    came, ended = front.gather(slow, running)
    check("the cell waits", ended, [slow, running])
    check("what the callback prints", [got.content.get("text") for got in came[slow]], ["slow"])
    check("an open on control is the kernel's", front.info(), {"e": "listens"})


def stock_runs_both(front):
    """What stock does: the kernel's code for a message on control runs beside the cell's."""
    front.opens("e", "listens")
    running = execute(front, ["sleep", 1])
    moved = on_control(front, "e", n=1)
    ended = front.gather(running, moved)[1]
    check("stock: a message on control doesn't wait", ended, [moved, running])
    check("stock: two threads run the kernel's code", front.run(cell(["at_once"]))[0], "1")


def answered_beside_a_storm(front, seconds):
    """A cell opens, uses and ends comms, while control asks what the manager answers alone."""
    widget(front)
    running = execute(front, ["storm", 20, seconds, 0.001], ["print", "done"])
    wrong, order, of_cell, end = [], [], [], time.monotonic() + 0.8 * seconds
    while time.monotonic() < end and running not in order:
        info = front.post("comm_info_request", {}, "control")
        asked = on_control(front, "w", method="request_state")
        comms = front.reply(info, "control")["comms"]
        came, ended = front.gather(info, asked, beside=[running], seconds=10)
        answers = (comms.get("w"), said(came[asked]), {info, asked} <= set(ended))
        if answers != (WIDGET, [("comm_msg", update(value=1))], True):
            wrong.append((comms, came, ended))
        order += ended
        of_cell += came[running]
    if running not in order:
        came, ended = front.gather(running)
        order += ended
        of_cell += came[running]
    check("each is answered", wrong[:2], [])
    # On a busy machine the cell may end amid the last round.
    answered = order.index(running) if running in order else 0
    check("before the cell ends", (answered > 0, len(order) - 1 - answered <= 2), (True, True))
    check("the cell prints", [got.content["text"] for got in of_cell if got.kind == "stream"], ["done"])
    print(f"{answered} requests on control were answered beside a cell's storm")


def left_to_the_shell(front, seconds):
    """The same storm, while control opens, sends and closes: that waits, and nothing of it is lost."""
    widget(front)
    running, posted = execute(front, ["storm", 20, seconds, 0.005]), []
    end, number = time.monotonic() + seconds, 0
    while time.monotonic() < end:
        comm_id = f"c{number % 7}"
        posted.append(front.post("comm_open", {"comm_id": comm_id, "target_name": "echo", "data": {}}, "control"))
        posted += [on_control(front, comm_id, n=number), on_control(front, "w", **update(value=number))]
        posted.append(front.post("comm_close", {"comm_id": comm_id, "data": {}}, "control"))
        number += 1
        time.sleep(0.02)
    came, ended = front.gather(running, *posted)
    check("all end, in their order", ended, [running, *posted])
    echoes = [said(came[each]) for each in posted[1::4]]
    check("each comm answers", echoes, [[("comm_msg", {"n": each})] for each in range(number)])
    heard = [each[2]["state"]["value"] for each in front.heard() if each[1] == "w"]
    check("the widget hears each move, in order", heard, list(range(number)))
    left = front.info()
    check("what the storm left is open", [each for each in left if not each.startswith("storm")], ["w"])
    front.run(cell(["reset"]))
    check("it ends with the kernel's", front.info(), {})
    print(f"{len(posted)} messages on control were taken after a cell's storm")


def main(kernels, seconds):
    front, stock = XeusFrontend(kernels, "two_threads"), XeusFrontend(kernels, "stock_two_threads")
    parts = [(stock_runs_both, stock), (beside_a_cell, front), (without_a_cell, front)]
    parts += [(part, front, float(seconds)) for part in (answered_beside_a_storm, left_to_the_shell)]
    for part, *taken in parts:
        try:
            part(*taken)
        except Exception:
            check(f"{part.__name__} ends in no error", traceback.format_exc(), None)
    check("the kernel's code ran on one thread at a time", front.run(cell(["at_once"]))[0], "0")
    check("the kernel ends in order", front.end(), 0)
    stock.close()
    return counted()


if __name__ == "__main__":
    sys.exit(main(*sys.argv[1:]))
