"""A comm manager that keeps each number's text: what must be written for a script, by docs/FORMATS.md. It shares
nothing with the manager that is played."""
from dataclasses import dataclass

from .json_texts import compact
from .lines import KINDS, Reader
from .values import Refused, encoded, need, placed, separated

MOST_COMMS = 4096
STOCK = 2  # targets of each kind that the program has


@dataclass
class Target:
    kind: str
    messages: int = 0

    @property
    def is_widget(self):
        return self.kind in ("widget", "widget_echo")


@dataclass
class Comm:
    target: str
    state: dict | None


def told(state, **method):
    """The data that tells a state, and its buffers."""
    without, paths, buffers = separated(state)
    return {"buffer_paths": paths, "state": without, **method}, buffers


class Model:
    """Plays one script; as the program does, or with `decimals` as the library does that takes them."""

    def __init__(self, decimals, has_stock):
        self.reader = Reader(decimals)
        self.left = {kind: STOCK if has_stock else float("inf") for kind in KINDS}
        self.targets, self.comms = {}, {}
        self.changes, self.calls, self.sent = 0, {}, []

    def played(self, script):
        """All that must be written."""
        lines = script.split(b"\n")
        answers = [it for number, line in enumerate(lines, 1) if line.strip(b" \t\r") for it in self.line(number, line)]
        return "".join(it + "\n" for it in answers).encode()

    def line(self, number, line):
        self.sent = []
        try:
            client, asked, *given = self.reader.asked(line)
            words = getattr(self, asked)(*given)
        except Refused as fault:
            return [f"bad {number} {fault}"]
        if asked == "state":
            return [f"state {self.changes} {words}"]
        if asked == "listing":
            return ["out " + compact({**self.sent[0], "client": client, "front": self.changes})]
        self.changes += 1
        self.calls[client] = call = self.calls.get(client, 0) + 1
        return [f"reply {self.changes} {words}"] + [
            "out " + compact({**it, "call": call, "client": client}) for it in self.sent
        ]

    def send_out(self, kind, content, buffers=(), metadata=()):
        self.sent.append(
            {
                "buffers": encoded(buffers),
                "content": content,
                "header": {"msg_type": kind},
                "metadata": dict(metadata),
            }
        )

    def send_msg(self, comm, data, buffers):
        self.send_out("comm_msg", {"comm_id": comm, "data": data}, buffers)

    def send_close(self, comm):
        self.send_out("comm_close", {"comm_id": comm, "data": {}})

    # ---- targets

    def end_comms(self, name):
        """Closes the target's comms, and gives the list of them."""
        ended = [comm for comm, it in self.comms.items() if it.target == name]
        for comm in ended:
            del self.comms[comm]
            self.send_close(comm)
        return compact(ended)

    def register(self, kind, name):
        need(self.left[kind] > 0, "no_stock")
        self.left[kind] -= 1
        words = f"replaced {self.end_comms(name)}" if name in self.targets else "registered"
        self.targets[name] = Target(kind)
        return words

    def unregister(self, name):
        if name not in self.targets:
            return "no_target"
        del self.targets[name]
        return f"unregistered {self.end_comms(name)}"

    # ---- comms

    def open(self, comm, name, version, data, buffers):
        if comm in self.comms:
            return "id_in_use"
        try:
            need(name in self.targets, "no_target")
            need(len(self.comms) < MOST_COMMS, "too_many_comms")
            state = opening_state(version, data, buffers) if self.targets[name].is_widget else None
        except Refused as fault:
            self.send_close(comm)
            return f"refused {fault}"
        self.comms[comm] = Comm(name, state)
        return "opened"

    def launch(self, comm, name, state):
        if comm in self.comms:
            return "id_in_use"
        if name not in self.targets:
            return "no_target"
        if not self.targets[name].is_widget:
            return "not_widget"
        if len(self.comms) >= MOST_COMMS:
            return "refused too_many_comms"
        self.comms[comm] = Comm(name, state)
        data, buffers = told(state)
        content = {"comm_id": comm, "data": data, "target_name": name}
        self.send_out("comm_open", content, buffers, {"version": "2.1.0"})
        return "launched"

    def msg(self, comm, data, buffers):
        if comm not in self.comms:
            return "no_comm"
        target = self.targets[self.comms[comm].target]
        target.messages += 1
        if target.kind == "echo":
            self.send_msg(comm, data, buffers)
        elif target.kind == "counter":
            self.send_msg(comm, {"count": target.messages}, [])
        else:
            return self.widget_msg(comm, target.kind == "widget_echo", data, buffers)
        return "delivered"

    def widget_msg(self, comm, is_echoing, data, buffers):
        method = data.get("method")
        try:
            need(isinstance(method, str), "no_method")
            need(method in ("update", "request_state", "custom"), "unknown_method")
            if method == "update" and "state" in data:
                self.update(comm, is_echoing, state_of(data, buffers))
        except Refused as fault:
            return f"fault {fault}"
        if method == "request_state":
            self.send_msg(comm, *told(self.comms[comm].state, method="update"))
        if method == "custom" and "content" in data:
            return "custom " + compact({"buffers": encoded(buffers), "content": data["content"]})
        return "delivered"

    def update(self, comm, is_echoing, given):
        self.comms[comm].state |= given
        if is_echoing and given:
            self.send_msg(comm, *told(given, method="echo_update"))

    def push(self, comm, given):
        if comm not in self.comms:
            return "no_comm"
        if not self.targets[self.comms[comm].target].is_widget:
            return "not_widget"
        self.comms[comm].state |= given
        self.send_msg(comm, *told(given, method="update"))
        return "delivered"

    def send(self, comm, data, buffers):
        if comm not in self.comms:
            return "no_comm"
        self.send_msg(comm, data, buffers)
        return "delivered"

    def close(self, comm):
        return "closed" if self.comms.pop(comm, None) else "no_comm"

    def hang_up(self, comm):
        words = self.close(comm)
        if words == "closed":
            self.send_close(comm)
        return words

    # ---- reads

    def state(self, comm):
        if comm not in self.comms:
            return "no_comm"
        if self.comms[comm].state is None:
            return "no_state"
        without, paths, buffers = separated(self.comms[comm].state)
        return compact({"buffer_paths": paths, "buffers": encoded(buffers), "state": without})

    def listing(self, target):
        listed = {comm: {"target_name": it.target} for comm, it in self.comms.items() if target in (None, it.target)}
        self.send_out("comm_info_reply", {"comms": listed, "status": "ok"})


def state_of(data, buffers):
    need(isinstance(data["state"], dict), "bad_state")
    return placed(data["state"], data.get("buffer_paths"), buffers)


def opening_state(version, data, buffers):
    major = version.split(".")[0] if isinstance(version, str) else ""
    need(major == "2", "wrong_version")
    need("state" in data, "no_state")
    return state_of(data, buffers)
