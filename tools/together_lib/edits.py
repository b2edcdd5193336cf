"""What falsifying takes: a run's numbers changed so that all else of it still fits."""
import re

from together_lib.driver import INFO_END

FRONT = re.compile(rb'"front":[0-9]+' + re.escape(INFO_END))


def answer_of(run, entry):
    return next(it for it in run.answers if it.line == entry.line)


def renumber(run):
    for number, it in enumerate(run.entries, 1):
        it.number = number


def see(run, answer, after):
    """The answer's client has seen so much after it, and at its next lines, as far as it had seen no more there."""
    old, answer.after = answer.after, after
    for it in run.of_client(answer.client):
        if it.line <= answer.line:
            continue
        if it.before != old:
            return
        it.before = after
        if it.kind not in ("bad", "unavailable"):
            return
        it.after = after


def read_at(run, answer, front):
    """A read says of itself that it is at this front, and gives what it gave."""
    answer.number = front
    if answer.kind == "info":
        answer.words = FRONT.sub(lambda _: b'"front":%d' % front + INFO_END, answer.words)
    see(run, answer, front)


def unmake(run, entry, kind, words):
    """The change isn't made, as its line is told, and the history is one shorter for everybody."""
    number = entry.number
    answer = answer_of(run, entry)
    run.entries.remove(entry)
    renumber(run)
    for it in run.entries:
        it.call -= it.client == entry.client and it.number >= number
    answer.kind, answer.number, answer.words, answer.after = kind, answer.line, words, answer.before
    for it in run.answers:
        it.after -= it.after >= number
        it.before -= it.before >= number
        if it.kind == "reply":
            it.number -= it.number > number
        elif it.kind in ("state", "info") and it.number >= number:
            read_at(run, it, it.number - 1)
    run.untaken = min(run.untaken, len(run.entries) + 1)
    run.taken = len(run.entries) + 1 - run.untaken


def comm_of(line):
    """The id of the comm that a line is about, or None."""
    content = line.fields.get("content")
    return (
        line.fields.get("id")
        if "call" in line.fields
        else content.get("comm_id")
        if isinstance(content, dict)
        else None
    )
