"""An interrupt at any moment, as a user's Ctrl-C: no lock stays held, and nothing that is open is lost.

KeyboardInterrupt is thrown at each bytecode of the package that is come to, and before and after each call of C that it
makes; after each, another thread asks for an answer. test_interrupts.py PACKAGE, the folder where the package is built.
"""

import collections
import dis
import functools
import itertools
import os
import sys
import threading

from comms_kernel import Kernel, said  # first, since it says where the package is
import comm
import rolgunai
from checks import check, run
from rolgunai.comms import Comm
from test_widgets import Holds, takes

FOLDERS = tuple(os.path.dirname(module.__file__) for module in (rolgunai, comm))
SECONDS, AT_ONCE = 20, 8


@functools.cache
def is_watched(path):
    """Whether code is of the package, or of the comms that it has."""
    return path.startswith(FOLDERS)


def is_amid_a_call(frame):
    """Whether the names of a call's arguments are put down already: CPython 3.11 crashes where an exception is thrown
    between these bytecodes, at which no signal is looked for."""
    return dis.opname[frame.f_code.co_code[frame.f_lasti]] in ("PRECALL", "CALL")


class Interrupts:
    """Throws KeyboardInterrupt at the place of a number: a bytecode of Python's, or a call of C's, when it first comes
    there."""

    def __init__(self, at, is_of_c):
        self.at, self.is_of_c, self.places = at, is_of_c, set()

    def comes(self, frame, event):
        place = frame.f_code, frame.f_lasti, event
        if place not in self.places:
            self.places.add(place)
            if len(self.places) - 1 == self.at:
                raise KeyboardInterrupt

    def trace(self, frame, event, argument):
        if not is_watched(frame.f_code.co_filename):
            return None
        frame.f_trace_opcodes = True
        if event in ("call", "return") or (event == "opcode" and not is_amid_a_call(frame)):
            self.comes(frame, event)
        return self.trace

    def profile(self, frame, event, argument):
        if event in ("c_call", "c_return") and is_watched(frame.f_code.co_filename):
            self.comes(frame, event)

    def __enter__(self):
        if self.is_of_c:
            sys.setprofile(self.profile)
        else:
            sys.settrace(self.trace)
        return self

    def __exit__(self, kind, error, trace):
        sys.setprofile(None)
        sys.settrace(None)
        return kind is KeyboardInterrupt


class Control:
    """As the class that ipywidgets has on the control comm."""

    def hear(self, message):
        pass

    hear.__module__ = "ipywidgets.widgets.widget"


def a_comm_of_the_kernels(kernel):
    made = Comm("t", {"n": 1}, comm_id="made")
    made.send({"n": 2})
    made.close()


def a_widget_of_the_kernels(kernel):
    widget = Holds(takes, v=1)
    widget.comm.send({"method": "update", "state": {"v": 2}, "buffer_paths": []})
    widget.comm.close()


def a_comm_of_a_frontends(kernel):
    kernel.hear("comm_open", "a", {}, target_name="t")
    kernel.hear("comm_msg", "a", {"n": 1})
    kernel.hear("comm_close", "a", {})


def a_widget_that_a_frontend_moves(kernel):
    widget = Holds(lambda widget, message: widget.state.update(v=10), v=1)
    kernel.hear("comm_msg", widget.comm.comm_id, {"method": "update", "state": {"v": 50}, "buffer_paths": []})
    kernel.hear("comm_msg", widget.comm.comm_id, {"method": "request_state"})
    kernel.hear("comm_close", widget.comm.comm_id, {})


def a_page_that_is_loaded(kernel):
    Holds(takes, v=1, **{f"_model_{name}": "x" for name in ("name", "module", "module_version")})
    kernel.hear("comm_open", "control", {}, target_name="jupyter.widget.control")
    kernel.hear("comm_msg", "control", {"method": "request_states"})
    kernel.info()


PARTS = (
    a_comm_of_the_kernels,
    a_widget_of_the_kernels,
    a_comm_of_a_frontends,
    a_widget_that_a_frontend_moves,
    a_page_that_is_loaded,
)


def played(part, at, is_of_c):
    """A kernel where a part was interrupted there, and how many places there are."""
    kernel = Kernel()
    kernel.manager.register_target("t", lambda made, message: made.on_msg(lambda message: None))
    kernel.manager.register_target("jupyter.widget.control", lambda made, message: made.on_msg(Control().hear))
    kernel.other = Comm("other", comm_id="other")
    with Interrupts(at, is_of_c) as interrupts:
        part(kernel)
    return kernel, len(interrupts.places)


def answered(kernel):
    """What is wrong with what another thread is told, and with what goes out when it says something."""
    kernel.came()
    kernel.other.send({"n": 3})
    info, sent = kernel.info(), [sent for sent in kernel.came() if sent[1] == "other"]
    if info.get("other") != "other" or sent != [said("other", {"n": 3})]:
        return f"it is told {info}, and {sent} goes out"
    alone = set(info) - set(kernel.manager.comms)
    return f"open in the manager alone: {alone}" if alone else ""


def in_a_process(part, at, is_of_c):
    """Begins to say what is wrong after an interrupt there, in a process of its own: CPython 3.11 comes to harm where a
    trace function throws many times. Gives the process, and where its words are read."""
    reads, writes = os.pipe()
    pid = os.fork()
    if pid == 0:
        sys.stderr = open(os.devnull, "w")
        wrong = []
        kernel, _ = played(part, at, is_of_c)
        other = threading.Thread(target=lambda: wrong.append(answered(kernel)), daemon=True)
        other.start()
        other.join(SECONDS)
        os.write(writes, (wrong[0] if wrong else "no answer").encode())
        os._exit(0)
    os.close(writes)
    return pid, reads


def words_of(pid, reads):
    """What a process says is wrong."""
    with open(reads) as file:
        words = file.read()
    status = os.waitpid(pid, 0)[1]
    return words or (f"status {status}" if status else "")


def wrong_places(part, count, is_of_c):
    """What is wrong, by the places that an interrupt comes to."""
    running, wrong = collections.deque(), {}
    for at in itertools.chain(range(count), [None] * AT_ONCE):
        if at is not None:
            running.append((at, in_a_process(part, at, is_of_c)))
        if running and (at is None or len(running) == AT_ONCE):
            place, process = running.popleft()
            words = words_of(*process)
            if words:
                wrong[place] = words
    return wrong


def interrupted():
    for part, is_of_c in itertools.product(PARTS, (False, True)):
        what = f"{part.__name__}, {'calls of C' if is_of_c else 'bytecodes'}"
        _, count = played(part, None, is_of_c)
        check(f"{what}: there are many", count > 30, True)
        wrong = wrong_places(part, count, is_of_c)
        check(f"{what}: another thread is answered after each of {count}", wrong, {})


if __name__ == "__main__":
    sys.exit(run(interrupted))
