"""What a storm wrote: of each line its status, its reply with the reason, since when it asked, what its client has seen
after it, and the sum of all its parts; then the lines whose messages were sent, one for each message, in the order in
which they were; then the status of each client's end."""
import re
from dataclasses import dataclass, fields

NUMBER = rb"([0-9]{1,20})"
ANSWER = re.compile(
    rb"line %b status %b reply %b reason %b index %b since %b seen %b shown %b sent %b crc ([0-9a-f]{8})"
    % ((NUMBER,) * 9)
)
SENT = re.compile(rb"sent %b" % NUMBER)
FREED = re.compile(rb"freed %b" % NUMBER)


@dataclass
class Answer:
    line: int
    status: int
    reply: int
    reason: int
    index: int
    since: int
    seen: int
    shown: int
    sent: int
    crc: int

    def text(self):
        numbers = [f"{it.name} {getattr(self, it.name)}" for it in fields(self)[:-1]]
        return " ".join([*numbers, f"crc {self.crc:08x}"])


@dataclass
class Log:
    answers: list
    sent: list
    freed: list

    def text(self):
        lines = [it.text() for it in self.answers]
        lines += [f"sent {it}" for it in self.sent] + [f"freed {it}" for it in self.freed]
        return "".join(line + "\n" for line in lines).encode()


class Unreadable(Exception):
    """What was written has another form."""


def read_log(text):
    lines = text.split(b"\n")
    if lines.pop() != b"":
        raise Unreadable("the last line doesn't end")
    log = Log([], [], [])
    for line in lines:
        if found := ANSWER.fullmatch(line):
            *numbers, crc = found.groups()
            log.answers.append(Answer(*map(int, numbers), int(crc, 16)))
        elif found := SENT.fullmatch(line):
            log.sent.append(int(found[1]))
        elif found := FREED.fullmatch(line):
            log.freed.append(int(found[1]))
        else:
            raise Unreadable(f"no line of a log: {line[:200]!r}")
    return log
