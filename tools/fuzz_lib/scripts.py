"""Scripts of chance: lines of each kind, nearly all of which can be read. Numbers that aren't whole are rare in them;
with `decimals` there are more of them than of whole ones."""
import base64
import random
import uuid

from hostile_lib.numbers import FLOATS, NEITHER

from .json_texts import Number, loose

# How often each is asked for. Too many registers and closes leave no comm to speak of.
MESSAGES = {"comm_open": 6, "comm_msg": 16, "comm_close": 1, "comm_info_request": 2}
CALLS = {"register": 4, "unregister": 1, "launch": 6, "push": 12, "send": 6, "hang_up": 2, "state": 12}

IDS = ["a", "b", "c", "d", "é", 'q"\\', ""]
LAUNCHED = [str(uuid.UUID(int=number)) for number in (1, 2, 3)]
NAMES = ["jupyter.widget", "t", "u", "v"]
KEYS = ["value", "max", "x", "y", "z", "long key of a state", "ü", ""]
WHOLE = [0, 1, -1, 7, 2**63, 2**64 - 1, -(2**63)]
# How many digits a part of a number has. A text of up to 40 bytes is kept otherwise than a longer one.
DIGITS = [1, 1, 1, 2, 3, 17, 38, 39, 40, 41, 90]


class Scripts:
    """Makes lines by one source of randomness."""

    def __init__(self, seed, decimals=False):
        self.random = random.Random(seed)
        self.decimals = decimals

    def rarely(self, often=25):
        return self.random.randrange(often) == 0

    def odd(self):
        return self.random.choice([None, 1, True, [], {}, "odd", -3, self.decimal(), [[]]])

    def one_of(self, weights):
        return self.random.choices(list(weights), list(weights.values()))[0]

    def comm_id(self):
        return self.random.choice(IDS[:2] if self.random.random() < 0.75 else IDS)

    def target_name(self):
        return NAMES[0] if self.random.random() < 0.4 else self.random.choice(NAMES)

    def digits(self):
        return "".join(self.random.choices("0123456789", k=self.random.choice(DIGITS)))

    def decimal(self):
        """A number that isn't whole, and now and then what is no number, or none that a float can hold."""
        if self.rarely(60):
            return Number(self.random.choice(NEITHER))
        if self.random.random() < 0.4:
            return Number(self.random.choice(FLOATS))
        fraction = f".{self.digits()}" if self.random.random() < 0.7 else ""
        exponent = self.random.choice("eE") + self.random.choice(["", "+", "-"]) + str(self.random.randrange(100))
        has_exponent = not fraction or self.random.random() < 0.3
        sign, front = self.random.choice(["", "-"]), self.digits().lstrip("0") or "0"
        return Number(sign + front + fraction + exponent * has_exponent)

    def number(self):
        is_whole = self.random.random() < 0.4 if self.decimals else not self.rarely()
        return self.random.choice(WHOLE) if is_whole else self.decimal()

    def value(self, depth=0):
        kind = self.random.randrange(8 if depth < 3 else 5)
        if kind == 0:
            return None
        if kind == 1:
            return self.random.random() < 0.5
        if kind in (2, 3):
            return self.number()
        if kind == 4:
            return self.random.choice(["", "text", "é\n\t\x01", '"\\', "long " * 12])
        if kind == 5:
            return [self.value(depth + 1) for _ in range(self.random.randrange(4))]
        return {self.random.choice(KEYS): self.value(depth + 1) for _ in range(self.random.randrange(4))}

    def state(self):
        return {self.random.choice(KEYS): self.value() for _ in range(self.random.randrange(6))}

    def path(self):
        if self.rarely():
            return self.odd()
        steps = [self.random.choice(KEYS)]
        while self.random.randrange(3) == 0:
            steps.append(self.random.choice([*KEYS, 0, 1, 2]))
        if self.rarely():
            steps[-1] = self.random.choice([self.number(), self.decimal()])
        return steps

    def list_with_place(self, state):
        """Puts a list of numbers in the state, and gives a path into it."""
        key, numbers = self.random.choice(KEYS), [self.number() for _ in range(self.random.randrange(1, 4))]
        is_nested = self.random.random() < 0.3
        state[key] = [self.number(), numbers] if is_nested else numbers
        return [key, *[1] * is_nested, self.random.randrange(len(numbers))]

    def buffers(self, count):
        if self.rarely():
            return self.odd()
        given = [
            base64.b64encode(self.random.randbytes(self.random.choice([0, 1, 2, 3, 50]))).decode() for _ in range(count)
        ]
        if given and self.rarely():
            given[0] = self.random.choice(["AQ", "A===", "*", 3])
        return given

    def whole(self):
        """A state with its paths, and as many buffers, nearly always."""
        count, state = self.random.choice([0, 0, 0, 1, 2]), self.state()
        paths = [self.list_with_place(state) if self.random.random() < 0.3 else self.path() for _ in range(count)]
        return state, paths, self.buffers(max(0, count + self.random.choice([0, 0, 0, 0, -1, 1])))

    def data(self):
        state, paths, buffers = self.whole()
        method = self.random.choice(
            ["update", "update", "update", "request_state", "custom", "echo_update", "other", 3]
        )
        data = {"method": method, "state": state}
        if paths or self.random.random() < 0.3:
            data["buffer_paths"] = paths
        if method == "custom":
            data["content"] = self.value()
        if self.rarely():
            data.pop(self.random.choice(list(data)))
        if self.rarely(12):
            data = state
        return (self.odd() if self.rarely(60) else data), buffers

    def message(self):
        kind = self.one_of(MESSAGES)
        content = {"comm_id": self.comm_id()}
        line = {"header": {"msg_type": kind}, "content": content}
        if kind == "comm_open" or (kind == "comm_info_request" and self.random.random() < 0.5):
            content["target_name"] = self.target_name()
        if kind in ("comm_open", "comm_msg"):
            content["data"], line["buffers"] = self.data()
        if kind == "comm_open":
            line["metadata"] = {
                "version": self.random.choice(["2.0.0", "2.0.0", "2", "2.1.0", "2.1.0", self.random.choice(["1.9", 2])])
            }
        if self.rarely(40):
            line["header"] = self.random.choice([{"msg_type": "comm_other"}, {}, None, 3])
        return line

    def command(self):
        call = "other" if self.rarely(200) else self.one_of(CALLS)
        line = {"call": call}
        if call in ("register", "unregister", "launch"):
            line["name"] = self.target_name()
        if call == "register":
            line["kind"] = self.random.choice(
                ["echo", "counter", "widget", "widget", "widget_echo"] + ["other"] * self.rarely()
            )
        if call == "launch":
            line["uuid"] = self.random.choice([*LAUNCHED, str(uuid.UUID(int=self.random.getrandbits(128)))])
        if call in ("launch", "push"):
            line["state"], line["buffer_paths"], line["buffers"] = self.whole()
        if call in ("push", "send", "hang_up", "state"):
            line["id"] = self.comm_id() if self.random.random() < 0.8 else self.random.choice(LAUNCHED)
        if call == "send":
            line["data"], line["buffers"] = self.state(), self.buffers(self.random.randrange(3))
        return line

    def line(self):
        line = self.message() if self.random.random() < 0.7 else self.command()
        if self.random.random() < 0.4:
            odd = [0, 1, 2, 3, 3, 4, None, "1", self.decimal()]
            line["client"] = self.random.choice(odd) if self.rarely() else self.random.randrange(4)
        if self.rarely():
            line[self.random.choice(list(line))] = self.odd()
        text = loose(line, self.random.random() < 0.5)
        if self.rarely():
            text = text[: self.random.randrange(len(text))]
        return self.random.choice(["", " \t\r", text]) if self.rarely(40) else text

    def start(self):
        """Lines that register targets and open a comm of two, or some of the first of these."""
        kind = self.random.choice(["widget", "widget_echo"])
        lines = [
            {"call": "register", "kind": kind, "name": name}
            for kind, name in ((kind, NAMES[0]), ("echo", "t"), ("counter", "u"))
        ]
        for comm, name in zip(IDS[:2], NAMES):
            content = {"comm_id": comm, "target_name": name, "data": {"state": self.state()}}
            header, metadata = {"msg_type": "comm_open"}, {"version": "2.0.0"}
            lines.append({"header": header, "content": content, "metadata": metadata})
        return lines[: self.random.choice([0, 1, 2, *[len(lines)] * 4])]

    def script(self, lines):
        texts = [loose(line, True) for line in self.start()]
        texts += [self.line() for _ in range(self.random.randrange(lines))]
        end = "" if self.random.random() < 0.5 else "\n"
        return ("\n".join(texts) + end).encode("utf-8", "surrogatepass")
