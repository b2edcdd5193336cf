"""Random scripts of clients who have ids and names in common. A script's first line has the number of clients, the
limit of comms, and 1 where decimals are taken; each other line a client, the client whose last number it asks for (-
for none), a call and what that takes, with tabs between. Buffers are told by their sizes."""
from dataclasses import dataclass

from fuzz_lib.json_texts import loose
from fuzz_lib.scripts import LAUNCHED
from together_lib.scripts import Shared

READS = ("state", "target", "infos", "infos_of")
KINDS = (2, 2, 3, 4, 4, 5)
FIRST = ((2, "jupyter.widget"), (3, "t"), (4, "u"), (5, "v"))
SIZES = (0, 1, 3, 3, 50, 700)


@dataclass
class Line:
    number: int
    client: int
    hear: int  # or -1
    call: str
    given: list

    @property
    def is_read(self):
        return self.call in READS

    def text(self):
        return "\t".join([str(self.client), str(self.hear) if self.hear >= 0 else "-", self.call, *self.given])


@dataclass
class Script:
    clients: int
    comms: int
    decimals: bool
    lines: list

    def text(self):
        head = f"{self.clients}\t{self.comms}\t{int(self.decimals)}"
        return "".join(line + "\n" for line in [head, *(it.text() for it in self.lines)]).encode()

    def of_client(self, client):
        return [it for it in self.lines if it.client == client]


def read_script(text):
    """The script of a file."""
    head, *lines = text.decode().splitlines()
    clients, comms, decimals = head.split("\t")
    made = []
    for number, line in enumerate(lines, 1):
        client, hear, call, *given = line.split("\t")
        made.append(Line(number, int(client), -1 if hear == "-" else int(hear), call, given))
    return Script(int(clients), int(comms), decimals == "1", made)


class Storms(Shared):
    """Makes calls by one source of randomness."""

    def sizes(self, buffers):
        count = len(buffers) if isinstance(buffers, list) else 0
        return ",".join(str(self.random.choice(SIZES)) for _ in range(min(count, 8)))

    def json(self, value):
        return loose(value, self.random.random() < 0.5)

    def of_message(self, line):
        parts = [self.json(line.get(key, {})) for key in ("header", "metadata", "content")]
        return "message", [*parts, self.sizes(line.get("buffers"))]

    def of_command(self, line):
        call, sizes = line["call"], self.sizes(line.get("buffers"))
        if call == "register":
            return call, [str(self.random.choice(KINDS)), line["name"]]
        if call == "unregister":
            return call, [line["name"]]
        if call == "launch":
            rest = [line["name"], line["uuid"], self.json(line["state"]), self.json(line["buffer_paths"])]
            return call, [*rest, sizes]
        if call == "push":
            return call, [line["id"], self.json(line["state"]), self.json(line["buffer_paths"]), sizes]
        if call == "send":
            return call, [line["id"], self.json(line["data"]), sizes]
        return {"hang_up": "close"}.get(call, call), [line["id"]]

    def some_id(self):
        return self.comm_id() if self.random.random() < 0.6 else self.random.choice(LAUNCHED)

    def a_read(self):
        call = self.random.choice(["state", "state", "target", "target", "infos", "infos_of"])
        return call, {"infos": [], "infos_of": [self.target_name()]}.get(call, [self.some_id()])

    def a_call(self):
        """A call's name, and what it takes."""
        if self.rarely(40):
            return "join", []
        if self.random.random() < 0.3:
            return self.a_read()
        line = self.asked()
        if "call" not in line:
            return self.of_message(line)
        if line["call"] in ("other", "state"):
            return self.a_read()
        return self.of_command(line)

    def storm(self, clients, lines):
        """So many lines of each client, in an order of chance. The first ones register targets."""
        whose = [client for client in range(clients) for _ in range(lines)]
        self.random.shuffle(whose)
        first = [it for it in FIRST if self.random.random() < 0.9]
        made = []
        for number, client in enumerate(whose, 1):
            if first:
                kind, name = first.pop(0)
                call, given = "register", [str(kind), name]
            else:
                call, given = self.a_call()
            hear = self.random.randrange(clients) if call in READS and self.random.random() < 0.5 else -1
            made.append(Line(number, client, hear, call, given))
        comms = self.random.choice([3, 5, 4096])
        return Script(clients, comms, self.decimals, made)


def script_of(seed, clients, lines):
    storms = Storms(seed)
    storms.decimals = storms.random.random() < 0.5
    return storms.storm(clients, lines)
