"""A script and the answers that docs/FORMATS.md gives it, made side by side. Nothing here comes from the program."""
from dataclasses import dataclass

ESCAPES = {'"': '\\"', "\\": "\\\\", "\b": "\\b", "\f": "\\f", "\n": "\\n", "\r": "\\r", "\t": "\\t"}
ESCAPES |= {chr(n): f"\\u{n:04x}" for n in range(0x20) if chr(n) not in ESCAPES}
TABLE = str.maketrans(ESCAPES)

# The kinds of widgets: of those that echo, each update that brings a key is repeated.
WIDGETS = ("widget", "widget_echo")


@dataclass(frozen=True)
class Case:
    """A script, and what must be written for it, over the shared manager too where that isn't said by itself. What
    nests deep is played with a small stack."""

    name: str
    script: bytes
    answers: bytes
    is_deep: bool = False
    shared_answers: bytes | None = None

    def wanted(self, way):
        """What must be written where the program has these arguments."""
        return self.answers if self.shared_answers is None or not way else self.shared_answers


def written(text):
    """A text as the answers have it."""
    return f'"{text.translate(TABLE)}"'


def message(kind, content, rest=""):
    """A line of a frontend: the members of its content, and other keys of the line, each after a comma."""
    return f'{{"header":{{"msg_type":"{kind}"}},"content":{{{content}}}{rest}}}'


def msg(data, rest="", comm="a"):
    return message("comm_msg", f'"comm_id":"{comm}","data":{data}', rest)


def close(comm):
    return message("comm_close", f'"comm_id":"{comm}"')


def widget_open(data, rest="", comm="a"):
    content = f'"comm_id":"{comm}","target_name":"jupyter.widget","data":{data}'
    return message("comm_open", content, ',"metadata":{"version":"2.0.0"}' + rest)


def update(state, paths="[]", buffers="[]", comm="a"):
    return msg(f'{{"method":"update","state":{state},"buffer_paths":{paths}}}', f',"buffers":{buffers}', comm)


def of_update(state, paths="[]"):
    """The data of an update that a widget sends."""
    return f'{{"buffer_paths":{paths},"method":"update","state":{state}}}'


def of_echo(state, paths="[]"):
    """The data by which a widget that echoes repeats an update."""
    return f'{{"buffer_paths":{paths},"method":"echo_update","state":{state}}}'


def of_state(state, paths="[]", buffers="[]"):
    """The words of a state."""
    return f'{{"buffer_paths":{paths},"buffers":{buffers},"state":{state}}}'


class Script:
    """Lines and their answers, of client 0 where no other is named."""

    def __init__(self, kind="widget"):
        self.kind = kind
        self.given = []
        self.wanted = []
        self.changes = 0
        self.calls = [0, 0, 0, 0]

    def add(self, line, *answers):
        self.given.append(line if isinstance(line, bytes) else line.encode())
        self.wanted += [it.encode() for it in answers]

    def bad(self, line, words):
        self.add(line, f"bad {len(self.given) + 1} {words}")

    def unavailable(self, line, words):
        self.add(line, f"unavailable {len(self.given) + 1} {words}")

    def change(self, line, words, client=0):
        self.changes += 1
        self.calls[client] += 1
        self.add(line, f"reply {self.changes} {words}")

    def sends(self, kind, comm, data="{}", buffers="[]", client=0, more="", metadata="{}"):
        """The last change sends this message."""
        content = f'{{"comm_id":{written(comm)},"data":{data}{more}}}'
        head = f'"call":{self.calls[client]},"client":{client},"content":{content}'
        self.wanted.append(
            f'out {{"buffers":{buffers},{head},"header":{{"msg_type":"{kind}"}},"metadata":{metadata}}}'.encode()
        )

    def state(self, words, comm="a"):
        self.add(f'{{"call":"state","id":"{comm}"}}', f"state {self.changes} {words}")

    def lists(self, comms, target, client=0):
        """The comms of one target, in the order of their ids' bytes."""
        listed = ",".join(f'{written(it)}:{{"target_name":{written(target)}}}' for it in comms)
        head = f'"buffers":[],"client":{client},"content":{{"comms":{{{listed}}},"status":"ok"}},"front":{self.changes}'
        self.add(
            f'{{"client":{client},"header":{{"msg_type":"comm_info_request"}}}}',
            f'out {{{head},"header":{{"msg_type":"comm_info_reply"}},"metadata":{{}}}}',
        )

    def registers_widgets(self):
        self.change(f'{{"call":"register","kind":"{self.kind}","name":"jupyter.widget"}}', "registered")

    def updates(self, state, paths="[]", buffers="[]", comm="a", told=None):
        """A widget takes an update. `told` is the state that it brings, its paths and buffers as the answers have them,
        where they aren't as given."""
        self.change(update(state, paths, buffers, comm), "delivered")
        plain, places, placed = told or (state, paths, buffers)
        if self.kind == "widget_echo" and (plain, places) != ("{}", "[]"):
            self.sends("comm_msg", comm, of_echo(plain, places), placed)

    def echoes(self, data, wanted, rest="", buffers="[]"):
        """The comm `a` of an echo gives back the data as the answers have it."""
        self.change(msg(data, rest), "delivered")
        self.sends("comm_msg", "a", wanted, buffers)

    def requested(self, state, paths="[]", buffers="[]"):
        """The widget `a` is asked for its state."""
        self.change(msg('{"method":"request_state"}'), "delivered")
        self.sends("comm_msg", "a", of_update(state, paths), buffers)

    def answers(self):
        return b"".join(it + b"\n" for it in self.wanted)

    def case(self, name, is_deep=False, end=b"\n", shared=None):
        """A case of this script; `shared` has the same lines, and what is answered to them over the shared manager,
        where that differs."""
        name += ", where widgets echo" if self.kind == "widget_echo" else ""
        return Case(name, b"\n".join(self.given) + end, self.answers(), is_deep, shared and shared.answers())


def with_echo(kind="widget"):
    """A script that begins with an echo and its comm `a`. Its widgets are of this kind."""
    script = Script(kind)
    script.change('{"call":"register","kind":"echo","name":"t"}', "registered")
    script.change(message("comm_open", '"comm_id":"a","target_name":"t","data":{}'), "opened")
    return script


def with_widget(data='{"state":{"k":1}}', rest="", kind="widget"):
    """A script that begins with the widgets' target and a widget `a`."""
    script = Script(kind)
    script.registers_widgets()
    script.change(widget_open(data, rest), "opened")
    return script
