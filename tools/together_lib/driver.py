"""The manager of one thread: the built program comm_driver, or another that writes the same text."""
import json
import subprocess
from dataclasses import dataclass, field

INFO_END = b',"header":{"msg_type":"comm_info_reply"},"metadata":{}}'


@dataclass
class Told:
    """What is written for a line: `kind` is reply, state, info or bad; `number` the reply's, the front, or the
    line's."""

    kind: str
    number: int
    words: bytes
    outs: list = field(default_factory=list)


class DriverFault(Exception):
    """The driver didn't answer as docs/FORMATS.md says, so that nothing can be compared with it."""


def numbered(line):
    """Of `reply <number> <words>`, and of others of this form, the number and the words."""
    _, number, words = line.split(b" ", 2)
    return int(number), words


def is_info(line):
    return line.startswith(b"out ") and line.endswith(INFO_END)


def info(line):
    """The answer to a comm_info_request."""
    return Told("info", json.loads(line[4:])["front"], line[4:])


def told_of(text):
    """The answers, one for each line of the script that isn't blank."""
    told = []
    for line in text.split(b"\n")[:-1]:
        word = line.partition(b" ")[0]
        if word in (b"reply", b"state", b"bad"):
            told.append(Told(word.decode(), *numbered(line)))
        elif is_info(line):
            told.append(info(line))
        elif word == b"out" and told and told[-1].kind == "reply":
            told[-1].outs.append(line[4:])
        else:
            raise DriverFault(f"the driver wrote {line[:200]!r}")
    return told


class Driver:
    """Plays lines as one script."""

    def __init__(self, program, seconds=60):
        self.program = program
        self.seconds = seconds

    def played(self, lines):
        """What is told of each of these lines, which aren't blank."""
        return self.told([line.text for line in lines])

    def told(self, texts):
        try:
            ran = subprocess.run(
                [self.program], input=b"".join(it + b"\n" for it in texts), capture_output=True, timeout=self.seconds
            )
        except subprocess.TimeoutExpired:
            raise DriverFault(f"the driver has no end after {self.seconds} seconds") from None
        if ran.returncode != 0 or ran.stderr:
            raise DriverFault(f"the driver ended by status {ran.returncode}, and said {ran.stderr[-200:]!r}")
        told = told_of(ran.stdout)
        if len(told) != len(texts):
            raise DriverFault(f"the driver answered {len(told)} of {len(texts)} lines")
        return told
