"""What a run wrote, read and written."""
import re
from dataclasses import dataclass, field

from together_lib.driver import info, is_info, numbered

NUMBER = rb"(0|[1-9][0-9]{0,17})"
LINE = re.compile(rb"line %b client %b seen %b %b (.*)" % ((NUMBER,) * 4), re.DOTALL)
ENTRY = re.compile(rb"entry %b client %b call %b line %b (.*)" % ((NUMBER,) * 4), re.DOTALL)
END = re.compile(rb"taken %b untaken %b" % ((NUMBER,) * 2))
NUMBERED = re.compile(rb"(reply|state|bad|unavailable) %b .*" % NUMBER, re.DOTALL)


@dataclass
class Answer:
    """Of a line: what its client had seen before and after it, and what was written for it. `kind` is reply, state,
    info, bad or unavailable; `number` the reply's, the front, or the line's."""

    line: int
    client: int
    before: int
    after: int
    kind: str
    number: int
    words: bytes

    def text(self):
        if self.kind == "info":
            return b"out " + self.words
        return b"%b %d %b" % (self.kind.encode(), self.number, self.words)


@dataclass
class Entry:
    """Of the history: its number, whose it is, the number of the call among its client's, its line, the reply, and what
    it sends."""

    number: int
    client: int
    call: int
    line: int
    words: bytes
    outs: list = field(default_factory=list)


@dataclass
class Run:
    answers: list
    entries: list
    taken: int
    untaken: int

    def of_client(self, client):
        return [it for it in self.answers if it.client == client]

    def history(self):
        """What tells it from other histories of the same script: its lines in their order."""
        return tuple(it.line for it in self.entries)


class Unreadable(Exception):
    """What was written has another form."""


def answer(line):
    found = LINE.fullmatch(line)
    if not found:
        raise Unreadable(f"no answer of a line: {line[:200]!r}")
    *numbers, rest = found.groups()
    numbers = [int(it) for it in numbers]
    if is_info(rest):
        told = info(rest)
        return Answer(*numbers, "info", told.number, told.words)
    if not NUMBERED.fullmatch(rest):
        raise Unreadable(f"no answer: {line[:200]!r}")
    return Answer(*numbers, rest.partition(b" ")[0].decode(), *numbered(rest))


def entry(line):
    found = ENTRY.fullmatch(line)
    if not found:
        raise Unreadable(f"no entry: {line[:200]!r}")
    *numbers, words = found.groups()
    return Entry(*(int(it) for it in numbers), words)


def read_run(text):
    """The answers of lines, then the entries with what they send, then what was taken, and nothing else."""
    lines = text.split(b"\n")
    if len(lines) < 2 or lines.pop() != b"":
        raise Unreadable("no last line that ends")
    end = END.fullmatch(lines.pop())
    if not end:
        raise Unreadable("the last line isn't 'taken <n> untaken <m>'")
    at = next((it for it, line in enumerate(lines) if not line.startswith(b"line ")), len(lines))
    entries = []
    for line in lines[at:]:
        if line.startswith(b"out ") and entries:
            entries[-1].outs.append(line[4:])
        else:
            entries.append(entry(line))
    return Run([answer(it) for it in lines[:at]], entries, *(int(it) for it in end.groups()))


def written(run):
    """The text of a run."""
    lines = [
        b"line %d client %d seen %d %d %b" % (it.line, it.client, it.before, it.after, it.text()) for it in run.answers
    ]
    for it in run.entries:
        lines.append(b"entry %d client %d call %d line %d %b" % (it.number, it.client, it.call, it.line, it.words))
        lines += [b"out " + out for out in it.outs]
    lines.append(b"taken %d untaken %d" % (run.taken, run.untaken))
    return b"".join(it + b"\n" for it in lines)
