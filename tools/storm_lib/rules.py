"""What must hold of a storm's log: of each line alone, of the numbers, of what each client has seen, and of the order
in which messages were sent. Nothing that the log says is trusted."""
from collections import Counter
from dataclasses import dataclass

CHANGES = range(3, 17)  # the replies of changes
OK, NOT_JSON, BAD_NAME = 0, 10, 7


@dataclass
class Fault:
    rule: str
    text: str

    def __str__(self):
        return f"{self.rule}: {self.text}"


def is_change(line, answer):
    return answer.status == OK and answer.reply in CHANGES and not line.is_read and line.call != "join"


def lines_answered(script, log):
    """Each line is answered once, and each client ended."""
    wanted, found = list(range(1, len(script.lines) + 1)), [it.line for it in log.answers]
    if found != wanted:
        yield Fault("lines", f"{len(found)} answers, the first that's wrong at {_first_difference(found, wanted)}")
    if log.freed != [OK] * script.clients:
        yield Fault("lines", f"the clients ended by {log.freed}")


def _first_difference(found, wanted):
    return next((at for at, (one, other) in enumerate(zip(found, wanted), 1) if one != other), len(found))


def statuses_fit(script, log):
    """No line is BUSY, AGAIN or anything else but done, or no JSON."""
    for line, it in zip(script.lines, log.answers):
        if it.status not in (OK, NOT_JSON) or (it.status == NOT_JSON and (line.is_read or line.call == "join")):
            yield Fault("status", f"line {it.line}, {line.call}, gives {it.status}")


def numbers_are_once(script, log):
    """The changes are numbered from 1 on, each number once."""
    numbers = Counter(it.seen for line, it in zip(script.lines, log.answers) if is_change(line, it))
    for number in range(1, sum(numbers.values()) + 1):
        if numbers[number] != 1:
            yield Fault("numbers", f"the number {number} is answered {numbers[number]} times")
            return


def seen_grows(script, log):
    """No client has seen less than before; a change is after all that its client had seen; what isn't done changes
    nothing; and nobody has seen more than there is."""
    most = sum(is_change(line, it) for line, it in zip(script.lines, log.answers))
    for client in range(script.clients):
        before = 0
        for line in script.of_client(client):
            it = log.answers[line.number - 1]
            is_after = it.seen > before if is_change(line, it) else it.seen >= before
            if not is_after or it.seen > most or (it.status != OK and it.seen != before):
                yield Fault("seen", f"line {it.line} of client {client} has seen {it.seen}, and {before} before it")
                return
            before = it.seen


def since_is_kept(script, log):
    """A read comes after what it asked for, which its client was told of another."""
    for line, it in zip(script.lines, log.answers):
        told = {0} | {log.answers[other.number - 1].seen for other in script.of_client(line.hear)}
        if it.since not in (told if line.hear >= 0 else {0}):
            yield Fault("since", f"line {it.line} asks for {it.since}, which nobody was told")
        elif it.status == OK and it.since > it.seen:
            yield Fault("since", f"line {it.line} asks for {it.since}, and comes after {it.seen}")


def sent_in_order(script, log):
    """What changes send goes out in the order of their numbers, each message once; what another call sends, after all
    changes up to where it stands."""
    left = Counter({it.line: it.sent for it in log.answers if it.status == OK and it.sent})
    if Counter(log.sent) != left:
        yield Fault("sent", f"{len(log.sent)} messages were sent, and {left.total()} wait, or others")
        return
    numbers = {it.line: it.seen for line, it in zip(script.lines, log.answers) if is_change(line, it)}
    waiting = sorted(numbers[line] for line in left if line in numbers)  # those of changes, in their order
    place = {number: at for at, number in enumerate(waiting)}
    gone, last = 0, None
    for line in log.sent:
        if line in numbers and line != last and place[numbers[line]] != gone:
            yield Fault("sent", f"what line {line} sends, the change {numbers[line]}, isn't in its place")
            return
        if line in numbers and line != last:
            gone += 1
        elif line not in numbers and gone < len(waiting) and waiting[gone] <= log.answers[line - 1].seen:
            yield Fault("sent", f"what line {line} sends goes out before the change {waiting[gone]}")
            return
        last = line


RULES = (lines_answered, statuses_fit)
LATER_RULES = (numbers_are_once, seen_grows, since_is_kept, sent_in_order)
