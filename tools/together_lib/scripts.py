"""Random scripts of several clients who have ids and names in common, so that what comes of a line depends on the
others."""
from fuzz_lib.json_texts import loose
from fuzz_lib.scripts import Scripts
from together_lib.lines import CLIENTS

FIRST = ((("widget", "widget_echo"), "jupyter.widget"), (("echo",), "t"), (("counter",), "u"))
FEW_IDS = ["a", "b", "é"]


def kind_of(line):
    """The command or the type of message, where it has one."""
    header = line.get("header")
    return line.get("call") or (header.get("msg_type") if isinstance(header, dict) else None)


class Shared(Scripts):
    """Makes the lines of so many clients."""

    def read(self):
        """A read of a comm's state, or of the open comms."""
        while True:
            line = self.command() if self.random.random() < 0.6 else self.message()
            if kind_of(line) in ("state", "comm_info_request"):
                return line

    def asked(self):
        """What a line asks for, of few comms mostly."""
        line = self.message() if self.random.random() < 0.65 else self.command()
        if self.random.random() < 0.2:
            line = self.read()
        for place, key in (line, "id"), (line.get("content"), "comm_id"):
            if place and key in place and self.random.random() < 0.7:
                place[key] = self.random.choice(FEW_IDS)
        return line

    def of_client(self, line, client, clients):
        """The line as this client's, who may hear another first."""
        if client or self.random.random() < 0.5:
            line["client"] = client
        if self.random.random() < 0.15:
            line["hear"] = self.random.choice(
                [it for it in range(clients) if it != client] + [client, CLIENTS, None, self.decimal()] * self.rarely()
            )
        if self.rarely(40):
            line[self.random.choice(list(line))] = self.odd()
        text = loose(line, self.random.random() < 0.5)
        if self.rarely(60):
            text = self.random.choice(["", " \t\r", text[: self.random.randrange(len(text))]])
        return text

    def script(self, clients, lines):
        """So many lines of each client, in an order of chance. The first ones register targets, whoever comes first."""
        whose = [client for client in range(clients) for _ in range(lines)]
        self.random.shuffle(whose)
        first = [
            {"call": "register", "kind": self.random.choice(kinds), "name": name}
            for kinds, name in FIRST
            if self.random.random() < 0.9
        ]
        texts = [self.of_client(first.pop(0) if first else self.asked(), client, clients) for client in whose]
        return ("\n".join(texts) + self.random.choice(["", "\n"])).encode("utf-8", "surrogatepass")
