"""The examples of ../*.jsonl over ZeroMQ, by the test kernel with Rolgunai's comms: each line that a frontend can send,
and the kernel's calls that xeus has too. What comes back has to be the lines `out` of the example's .expected, and
what reaches the kernel's callbacks what its replies say. `test_examples.py KERNELS`: the folder of the kernelspecs. The
last line is 'N passed, M failed'."""

import base64
import json
import pathlib
import sys
import traceback

from xeus_frontend import XeusFrontend, cell, check, counted, loads

EXAMPLES = pathlib.Path(__file__).resolve().parent.parent
FOR_KERNEL = {"opened": "comm_open", "delivered": "comm_msg", "custom": "comm_msg", "closed": "comm_close"}
COMM_TYPES = ("comm_open", "comm_msg", "comm_close")


def pairs(script):
    """Each line that isn't blank, as JSON or None, with the reply and the messages of its .expected."""
    lines = [line for line in script.read_text().splitlines() if line.strip()]
    answers = script.with_suffix(".expected").read_text().splitlines()
    while lines:
        line, head, out = parsed(lines.pop(0)), "", []
        is_info = line and line.get("header", {}).get("msg_type") == "comm_info_request"
        if not is_info:
            head = answers.pop(0)
        while answers and answers[0].startswith("out ") and (is_info or "comm_info_reply" not in answers[0]):
            out.append(loads(answers.pop(0)[4:]))
            if is_info:
                break
        yield line, head, out
    assert not answers, (script, answers)


def parsed(line):
    try:
        read = loads(line)
    except ValueError:
        return None
    return read if isinstance(read, dict) else None


def frames(encoded):
    return [base64.b64decode(each) for each in encoded]


def numbers(buffers):
    return [list(buffer) for buffer in buffers]


def wire(out):
    """A message as a frontend gets it."""
    return (out["header"]["msg_type"], out["content"], out["metadata"], frames(out["buffers"]))


class Play:
    """One script over a kernel. What isn't sent is counted, by why."""

    def __init__(self, front, script, skipped):
        self.front, self.script, self.skipped = front, script, skipped

    def skip(self, why, more=0):
        self.skipped[why] = self.skipped.get(why, 0) + 1 + more

    def check(self, number, what, got, wanted):
        check(f"{self.script.name}, line {number}: {what}", got, wanted)

    def line(self, number, line, head, out):
        if line is None or "header" not in line and "call" not in line:
            self.skip("no message")
        elif "call" in line:
            self.call(number, line, head, out)
        elif not isinstance(line["header"], dict) or line["header"].get("msg_type") not in COMM_TYPES:
            self.info(number, line, out)
        elif "bad_client" in head or "bad_buffer" in head:
            self.skip("what only a line can have")
        elif "not_whole" in head:
            self.skip("numbers that aren't whole, which the kernel takes")
        else:
            self.message(number, line, head, out)

    def info(self, number, line, out):
        if line["header"].get("msg_type") != "comm_info_request":
            return self.skip("another type")
        content = line.get("content") or {}
        reply = self.front.reply(self.front.post("comm_info_request", content), "shell")
        self.check(number, "comm_info", reply, out[0]["content"])

    def message(self, number, line, head, out):
        kind, content = line["header"]["msg_type"], line.get("content", {})
        came = self.front.send(kind, content, line.get("metadata"), frames(line.get("buffers", [])))
        self.check(number, "what comes back", [tuple(got) for got in came], [wire(each) for each in out])
        word = head.split()[2] if head.startswith("reply") else ""
        data = content.get("data", {}) if isinstance(content, dict) else {}
        is_answered = isinstance(data, dict) and data.get("method") == "request_state"
        wanted = []
        if word in FOR_KERNEL and not is_answered:
            buffers = numbers(frames(line.get("buffers", [])))
            wanted.append([FOR_KERNEL[word], content["comm_id"], data, buffers])
        self.check(number, "what the kernel hears", self.front.heard(), wanted)

    def call(self, number, line, head, out):
        call = line["call"]
        if call == "register" and "registered" in head:
            self.front.run(cell(["register", line["name"], line["kind"]]))
        elif head.startswith("bad"):
            self.skip("the kernel's calls that can't be read")
        elif call == "state":
            self.state(number, line["id"], head)
        elif call == "launch" and "launched" in head:
            opened = out[0]["content"]
            made = ["make", opened["comm_id"], opened["target_name"]]
            self.says(number, head, out, made, ["open", opened["comm_id"], "", out[0]["metadata"], opened["data"]])
        elif call == "push" and "not_widget" not in head:
            data = {"method": "update", "state": line.get("state", {}), "buffer_paths": line.get("buffer_paths", [])}
            buffers = numbers(frames(line.get("buffers", [])))
            self.says(number, head, out, ["send", line["id"], "", {}, data, buffers])
        elif call == "send":
            buffers = numbers(frames(line.get("buffers", [])))
            self.says(number, head, out, ["send", line["id"], "", {}, line["data"], buffers])
        elif call == "hang_up":
            self.says(number, head, out, ["close", line["id"], "", {}, {}])
        else:
            self.skip(f"the kernel's {call}, which xeus hasn't so")

    def says(self, number, head, out, *commands):
        """The kernel's code says it. What is refused is its error."""
        printed, came = self.front.run(cell(*commands))
        word = head.split(maxsplit=2)[2]
        is_refused = not out and word != "no_comm" or word == "no_comm" and commands[-1][0] == "send"
        if word == "no_comm" and "error: map::at" in printed:
            return self.skip("the kernel's calls on what it never opened")
        self.check(number, "the kernel's call", printed, f"error: comm_msg: {word}" if is_refused else "")
        self.check(number, "what goes out", [tuple(got) for got in came], [wire(each) for each in out])

    def state(self, number, comm_id, head):
        came = self.front.on(comm_id, method="request_state")
        word, _, text = head.partition(" ")
        if word != "state" or not text.partition(" ")[2].startswith("{"):
            self.front.heard()
            return self.skip("the state of no widget")
        state = loads(text.partition(" ")[2])
        data = {"method": "update", "state": state["state"], "buffer_paths": state["buffer_paths"]}
        wanted = [("comm_msg", {"comm_id": comm_id, "data": data}, {}, frames(state["buffers"]))]
        self.check(number, "the state", [tuple(got) for got in came], wanted)


def play(front, script, skipped):
    front.run(cell(["reset"]))
    one = Play(front, script, skipped)
    left = list(enumerate(pairs(script), 1))
    while left:
        number, (line, head, out) = left.pop(0)
        if line and line.get("call") == "unregister" or "replaced" in head:
            one.skip("a target with open comms is taken out or replaced, where xeus has its own way", len(left))
            break
        one.line(number, line, head, out)


def main(kernels):
    skipped = {}
    fronts = {True: XeusFrontend(kernels, "proved"), False: XeusFrontend(kernels, "proved_without_echoes")}
    for script in sorted(EXAMPLES.glob("*.jsonl")):
        try:
            play(fronts["widget_echo" in script.read_text()], script, skipped)
        except Exception:
            check(f"{script.name} ends in no error", traceback.format_exc(), None)
    for front in fronts.values():
        check("the kernel ends in order", front.end(), 0)
    for why, count in sorted(skipped.items()):
        print(f"{count} lines aren't sent: {why}")
    return counted()


if __name__ == "__main__":
    sys.exit(main(*sys.argv[1:]))
