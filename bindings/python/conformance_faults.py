"""The ways in which conformance_kernel.py can be broken: for each scenario of the suite one that fails it.

A fault is a function of the kernel, the call (a frontend's message, or a cell by its name), and what makes the right
answer. It gives the messages that are sent.
"""

import copy
import json
import os
import time

from rolgunai.conformance.frontend import Message

ECHO = "conformance.echo"
FAULTS = {}
BEFORE_PARSING = {"deep_hangs": b"[" * 1000, "unknown_type_hangs": b"comm_conformance"}


def works(kernel, call, answer):
    return answer()


FAULTS["none"] = works


def fault(make):
    FAULTS[make.__name__] = make
    return make


def named(name):
    """The same for a function that is made."""

    def add(make):
        FAULTS[name] = make
        return make

    return add


def before_parsing(kernel, frames):
    """The faults that a message brings about before it is read: no comm answers any more, or all is slow."""
    if kernel.fault is FAULTS["slow"]:
        time.sleep(0.3)
    for name, part in BEFORE_PARSING.items():
        if kernel.fault is FAULTS.get(name) and any(part in frame for frame in frames):
            kernel.comms.dead = True


for _name in (*BEFORE_PARSING, "no_status", "slow"):
    FAULTS[_name] = lambda kernel, call, answer: answer()


def message(kind, comm_id, **content):
    return Message("iopub", kind, {"comm_id": comm_id, **content}, {}, [], "")


def id_of(call):
    return call["content"].get("comm_id")


def is_known(kernel, comm_id):
    """Whether the manager has a comm of this id, by asking it for all."""
    (info,) = kernel.comms.reference.message("comm_info_request", b"{}")
    return comm_id in info.content["comms"]


def hangs(name, when):
    """Where `when` says so of a call, no comm is answered from then on."""

    @named(name)
    def hang(kernel, call, answer):
        if when(kernel, call):
            kernel.comms.dead = True
            return []
        return answer()


hangs("raise_hangs", lambda kernel, call: call["content"].get("target_name") == "conformance.raiser")
hangs("unknown_id_hangs", lambda kernel, call: call["kind"] == "comm_msg" and not is_known(kernel, id_of(call)))
hangs("second_close_hangs", lambda kernel, call: call["kind"] == "comm_close" and not is_known(kernel, id_of(call)))
hangs("info_control_hangs", lambda kernel, call: call["kind"] == "comm_info_request" and call["channel"] == "control")
hangs("info_null_hangs", lambda kernel, call: call["content"].get("target_name", "") is None)
hangs("long_id_hangs", lambda kernel, call: len(str(id_of(call))) > 1000)
hangs("wrong_type_hangs", lambda kernel, call: call["kind"].startswith("comm_") and
      any(not isinstance(value, str) for key, value in call["content"].items() if key != "data"))


def has_long_path(kernel, call):
    data = call["content"].get("data")
    return isinstance(data, dict) and any(len(path) > 1 for path in data.get("buffer_paths", []))


hangs("bad_path_hangs", has_long_path)


def changes(name, change, kinds=("comm_msg",)):
    """Each message of these kinds that is sent is changed."""

    @named(name)
    def changed(kernel, call, answer):
        out = []
        for sent in copy.deepcopy(answer()):
            out += [change(sent)] if sent.kind in kinds else [sent]
        return out


def data_changed(change):
    def changed(sent):
        sent.content["data"] = change(sent.content["data"])
        return sent

    return changed


def everywhere(change):
    """A change of each value in data, the innermost first."""

    def inner(value):
        if isinstance(value, dict):
            value = {key: inner(each) for key, each in value.items()}
        elif isinstance(value, list):
            value = [inner(each) for each in value]
        return change(value)

    return data_changed(inner)


def state_of(sent):
    data = sent.content.get("data")
    return data.get("state", {}) if isinstance(data, dict) else {}


changes("open_loses_buffers", lambda sent: sent._replace(buffers=[]))
changes("swaps_buffers", lambda sent: sent._replace(buffers=sent.buffers[::-1]))
changes("loses_empty_buffers", lambda sent: sent._replace(buffers=[each for each in sent.buffers if each]))
changes("cuts_buffers", lambda sent: sent._replace(buffers=[each[: 1 << 20] for each in sent.buffers]))
changes("kernel_open_loses_buffers", lambda sent: sent._replace(buffers=[]), ("comm_open",))
changes("kernel_send_loses_buffers", lambda sent: sent._replace(buffers=sent.buffers[1:]))
changes("close_data_list", data_changed(lambda data: []), ("comm_close",))
changes("open_loses_metadata", data_changed(lambda data: {**data, "metadata": None}))
changes("no_parent", lambda sent: sent._replace(parent="none"))
changes("ascii_only", data_changed(lambda data: json.loads(json.dumps(data).replace("\\u", "?"))))
changes("loses_nulls", everywhere(lambda value: [] if value == {} else value))
changes("rounds_numbers", everywhere(lambda value: float(f"{value:.15g}") if isinstance(value, int) else value))
changes("cuts_texts", everywhere(lambda value: value[:1000] if isinstance(value, str) else value))
changes("loses_nested", data_changed(lambda data: json.loads(json.dumps(data).replace("[[[[]]]]", "[]"))))
changes("widget_no_version", lambda sent: sent._replace(metadata={}), ("comm_open",))
changes("state_loses_buffers", lambda sent: sent._replace(buffers=[]), ("comm_open", "comm_msg"))
changes("info_empty", lambda sent: sent.content.update(comms={}) or sent, ("comm_info_reply",))
changes("info_no_status", lambda sent: sent.content.update(status="error") or sent, ("comm_info_reply",))
changes("wrong_echo", lambda sent: state_of(sent).update(value=4) or sent)


def drops(name, when):
    """No message that `when` names, of a call, is sent."""

    @named(name)
    def dropped(kernel, call, answer):
        return [sent for sent in answer() if not when(call, sent)]


drops("unknown_target_silent", lambda call, sent: sent.kind == "comm_close")
drops("never_answers", lambda call, sent: sent.kind == "comm_msg")
drops("kernel_send_lost", lambda call, sent: call["kind"] == "send")
drops("unregistered_open_silent", lambda call, sent: call["kind"] == "open_unregistered")
drops("kernel_close_silent", lambda call, sent: call["kind"] == "close")
drops("kernel_update_silent", lambda call, sent: call["kind"] == "widget_set")
drops("widget_close_silent", lambda call, sent: call["kind"] == "widget_close")
drops("no_request_state", lambda call, sent: sent.content.get("data", {}).get("method") == "update")
drops("no_request_states", lambda call, sent: sent.content.get("data", {}).get("method") == "update_states")


def answers_to(name, kind, answers):
    """To a frontend's message of a kind something more is said."""

    @named(name)
    def answered(kernel, call, answer):
        known = is_known(kernel, id_of(call))
        return answer() + (answers(kernel, call, known) if call["kind"] == kind else [])


answers_to("close_answered", "comm_close", lambda kernel, call, known: [message("comm_close", id_of(call))])
answers_to("unknown_close_answered", "comm_close",
           lambda kernel, call, known: [] if known else [message("comm_close", id_of(call))])  # fmt: skip
answers_to("close_after_close_answered", "comm_close",
           lambda kernel, call, known: [] if known else [message("comm_close", id_of(call))])  # fmt: skip
answers_to("answers_after_close", "comm_msg",
           lambda kernel, call, known: [] if known else [message("comm_msg", id_of(call), data={})])  # fmt: skip
answers_to("unknown_method_answered", "comm_msg", lambda kernel, call, known: [message("comm_close", id_of(call))])
answers_to("closed_widget_answers", "comm_msg",
           lambda kernel, call, known: [] if known else [message("comm_msg", id_of(call), data={})])  # fmt: skip


@fault
def kernel_closes_twice(kernel, call, answer):
    return answer() or ([message("comm_close", kernel.comms.own)] if call["kind"] == "close" else [])


@fault
def sends_closed_hangs(kernel, call, answer):
    return answer() or ([message("comm_open", kernel.comms.own)] if call["kind"] == "send" else [])


@fault
def closer_twice(kernel, call, answer):
    out = answer()
    return out + [sent for sent in out if sent.kind == "comm_close"]


@fault
def unknown_target_listed(kernel, call, answer):
    """As if the open had been kept."""
    if call["kind"] == "comm_open":
        kernel.kept = id_of(call)
    out = answer()
    for sent in out:
        if sent.kind == "comm_info_reply":
            sent.content["comms"][kernel.kept] = {"target_name": "conformance.nowhere"}
    return out


@fault
def second_open_kills_both(kernel, call, answer):
    if call["kind"] == "comm_open" and is_known(kernel, id_of(call)):
        kernel.comms.reference.manager.close(id_of(call))
        return []
    return answer()


@fault
def same_id(kernel, call, answer):
    out = answer()
    if call["kind"] != "open":
        return out
    kernel.first = getattr(kernel, "first", None) or kernel.comms.own
    return [sent._replace(content={**sent.content, "comm_id": kernel.first}) for sent in out]


@fault
def unregister_ignored(kernel, call, answer):
    return [] if call["kind"] == "unregister" else answer()


@fault
def reorders(kernel, call, answer):
    """Each second answer waits for the next one."""
    out = answer()
    held, kernel.held = getattr(kernel, "held", []), []
    if call["kind"] == "comm_msg" and not held:
        kernel.held, out = out, []
    return out + held


@fault
def mixes_comms(kernel, call, answer):
    """All answers go to the comm that was opened last."""
    if call["kind"] == "comm_open":
        kernel.last = id_of(call)
    out = answer()
    for sent in out if call["kind"] == "comm_msg" else []:
        sent.content["comm_id"] = kernel.last
    return out


@fault
def hears_twice(kernel, call, answer):
    out, heard = answer(), kernel.comms.reference.heard
    if call["kind"] == "comm_msg":
        heard.append(heard[-1])
    return out


@fault
def id_burnt(kernel, call, answer):
    kernel.closed = getattr(kernel, "closed", set())
    if call["kind"] == "comm_close":
        kernel.closed.add(id_of(call))
    if call["kind"] == "comm_open" and id_of(call) in kernel.closed:
        return [message("comm_close", id_of(call))]
    return answer()


@fault
def info_ignores_target(kernel, call, answer):
    if call["kind"] == "comm_info_request":
        call["content"] = {}
    return answer()


@fault
def info_lists_all_for_unknown(kernel, call, answer):
    if call["content"].get("target_name") == "conformance.nothing":
        call["content"] = {}
    return answer()


@fault
def info_lists_closed(kernel, call, answer):
    kernel.listed = getattr(kernel, "listed", {})
    out = answer()
    for sent in out:
        if sent.kind == "comm_info_reply":
            kernel.listed.update(sent.content["comms"])
            sent.content["comms"] = kernel.listed
    return out


@fault
def update_ignored(kernel, call, answer):
    data = call["content"].get("data") or {}
    return [] if call["kind"] == "comm_msg" and data.get("method") == "update" else answer()


@fault
def update_loses_buffers(kernel, call, answer):
    if call["buffers"]:
        call["buffers"], call["content"]["data"]["buffer_paths"] = [], []
    return answer()


@fault
def custom_sets_state(kernel, call, answer):
    data = call["content"].get("data") or {}
    if data.get("method") == "custom":
        call["content"]["data"] = {"method": "update", "state": data["content"], "buffer_paths": []}
        answer()
        return []
    return answer()


@fault
def wrong_data_closes(kernel, call, answer):
    if call["kind"] == "comm_msg" and not isinstance(call["content"].get("data"), dict):
        kernel.comms.reference.manager.close(id_of(call))
        return []
    return answer()


@fault
def wrong_open_breaks_info(kernel, call, answer):
    broken = call["kind"] == "comm_open" and not isinstance(id_of(call), str)
    kernel.comms.dead = kernel.comms.dead or broken
    return answer()


@fault
def ascii_ids(kernel, call, answer):
    return [message("comm_msg", id_of(call), data={})] if not str(id_of(call)).isascii() else answer()


@fault
def forgets_comms(kernel, call, answer):
    """Of 256 and more comms."""
    kernel.opened = getattr(kernel, "opened", 0) + (call["kind"] == "comm_open")
    return [] if call["kind"] == "comm_open" and kernel.opened > 256 else answer()


@fault
def drops_some(kernel, call, answer):
    kernel.count = getattr(kernel, "count", 0) + 1
    return [] if kernel.count % 20 == 0 else answer()


@fault
def slow_iopub(kernel, call, answer):
    """This, the next two and `slow` are no scenario's, but of the suite's own tests: iopub stands still for a while."""
    kernel.count = getattr(kernel, "count", 0) + 1
    if kernel.count == 10:
        kernel.iopub_thread.schedule(lambda: time.sleep(2))
    return answer()


@fault
def kernel_ends(kernel, call, answer):
    """With a last word."""
    if call["kind"] == "comm_open":
        os.write(2, b"Traceback\nNoMoreError: as the test wants it\n")
        os._exit(3)
    return answer()


@fault
def kernel_hangs(kernel, call, answer):
    if call["kind"] == "comm_open":
        time.sleep(3600)
    return answer()


FAULTS["info_drops_some"] = FAULTS["states_drops_some"] = drops_some


@fault
def subshell_drops_some(kernel, call, answer):
    return drops_some(kernel, call, answer) if "subshell_id" in call["header"] else answer()
