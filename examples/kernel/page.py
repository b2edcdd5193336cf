"""A page beside cells: what a frontend of today sends runs in the kernel on another thread than cells do. Where the
kernel has subshells, as since ipykernel 7, the page's messages go to one, as JupyterLab 4.4 sends those of comms. Where
it has none, the page's messages go to the main shell, and a cell starts a thread."""

import queue

import jupyter_client.session
import zmq

from frontend import Frontend

SECONDS = 30  # after which a kernel that says nothing has stopped answering
jupyter_client.session.extract_dates = lambda content: content  # which nobody asks for here, and which takes long


class Stopped(Exception):
    """The kernel says nothing any more: ipykernel 7.2 does so at times, whatever its comms are."""


class Page:
    def __init__(self, kernel, **environment):
        self.front = Frontend(kernel, **environment)
        self.client = self.front.client
        self.subshell, self.seen, self.early = None, [], {}
        told = self.asked("kernel_info_request", self.client.shell_channel, self.client.get_shell_msg)
        if "kernel subshells" in told.get("supported_features", ()):
            made = self.asked("create_subshell_request", self.client.control_channel, self.client.get_control_msg)
            self.subshell = made["subshell_id"]

    def close(self):
        self.front.close()

    def asked(self, kind, channel, get):
        """The content of the reply to a request."""
        message = self.client.session.msg(kind, {})
        channel.send(message)
        return self.reply(message["header"]["msg_id"], get)

    def reply(self, message_id, get=None):
        """The content of a reply; others that come before it are kept: what runs beside it may be through earlier."""
        while message_id not in self.early:
            try:
                came = (get or self.client.get_shell_msg)(timeout=SECONDS)
            except queue.Empty:
                raise Stopped("no reply came") from None
            self.early[came["parent_header"].get("msg_id")] = came["content"]
        return self.early.pop(message_id)

    def replies(self, wanted, seconds):
        """How many of the requests are answered. No longer is waited where nothing comes for some seconds."""
        left = set(wanted)
        while left:
            try:
                left.discard(self.client.get_shell_msg(timeout=seconds)["parent_header"].get("msg_id"))
            except queue.Empty:
                break
            self.let_go()
        return len(wanted) - len(left)

    def let_go(self):
        """Lets what came on iopub go, so that what comes next isn't dropped for want of room."""
        socket = zmq.Socket.shadow(self.client.iopub_channel.socket.underlying)
        while socket.poll(0):
            socket.recv_multipart()

    def post(self, kind, content, metadata=None, beside=True):
        """Sends a message, from the page, or as a cell is sent. Gives its id."""
        message = self.client.session.msg(kind, content, metadata=metadata)
        if beside and self.subshell:
            message["header"]["subshell_id"] = self.subshell
        self.client.shell_channel.send(message)
        return message["header"]["msg_id"]

    def execute(self, code, beside):
        return self.post("execute_request", {"code": code, "silent": False, "stop_on_error": False}, beside=beside)

    def came(self, until):
        """What comes on iopub until what comes of a message is through."""
        came = []
        while True:
            try:
                came.append(self.client.get_iopub_msg(timeout=SECONDS))
            except queue.Empty:
                raise Stopped("nothing came on iopub") from None
            is_idle = came[-1]["msg_type"] == "status" and came[-1]["content"]["execution_state"] == "idle"
            if is_idle and came[-1]["parent_header"].get("msg_id") == until:
                self.seen += came
                return came

    def all_seen(self):
        """What came on iopub since this was asked for last."""
        seen, self.seen = self.seen, []
        return seen

    def run(self, code, beside=False):
        """Runs a cell. Gives what it prints, with the errors, and the comms' messages."""
        came = self.came(self.execute(code, beside))
        printed = "".join(
            got["content"].get("text") or "{ename}: {evalue}\n".format(**got["content"])
            for got in came
            if got["msg_type"] in ("stream", "error")
        )
        return printed, [got for got in came if got["msg_type"].startswith("comm_")]

    def start(self, call):
        """Has the kernel make a call beside what the page sends from now on; gives what `end` wants."""
        if self.subshell:
            return self.execute(call, beside=False)
        self.run(f"import threading; thread = threading.Thread(target=lambda: {call}); thread.start()")
        return None

    def end(self, started):
        """Waits until that call is through."""
        if started is None:
            self.run("thread.join()")
        else:
            self.reply(started)

    def settle(self):
        """Waits until what the page sent is through."""
        self.came(self.post("kernel_info_request", {}))
