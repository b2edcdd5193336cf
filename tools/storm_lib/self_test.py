"""Whether the checker passes true logs and finds what is falsified in them."""
import random

from storm_lib.log import read_log
from storm_lib.replay import checked
from storm_lib.rules import OK, is_change
from storm_lib.scripts import script_of
from storm_lib.simulated import simulated

BUSY, DELIVERED, CLOSED = 13, 8, 12
MOST = 60  # logs, until each way had a place


class Found:
    """A log to falsify, and what can be chosen in it."""

    def __init__(self, script, log, chance):
        self.script, self.log, self.chance = script, log, chance

    def before(self, answer):
        """What the answer's client had seen before it."""
        mine = [it.number for it in self.script.of_client(self.script.lines[answer.line - 1].client)]
        at = mine.index(answer.line)
        return self.log.answers[mine[at - 1] - 1].seen if at else 0

    def one(self, holds):
        """An answer that this holds of, by chance, or None."""
        fits = [it for line, it in zip(self.script.lines, self.log.answers) if holds(line, it)]
        return self.chance.choice(fits) if fits else None

    def change(self):
        return self.one(is_change)

    def read(self, holds=lambda it: True):
        return self.one(lambda line, it: line.is_read and holds(it))


def set_of(pick, **what):
    """A way that sets these of the answer that is picked; each is given the answer and the log."""

    def falsify(of):
        it = pick(of)
        if it is None:
            return False
        for key, value in what.items():
            setattr(it, key, value(it, of))
        return True

    return falsify


def cut_last(of):
    of.log.answers.pop()
    return True


def keep_a_client(of):
    of.log.freed[-1] = 1
    return True


def last_change(of):
    return max((it for line, it in zip(of.script.lines, of.log.answers) if is_change(line, it)),
               key=lambda it: it.seen, default=None)


def two_results_swapped(of):
    """Two changes of different clients have each other's result."""
    one = of.change()
    other = one and of.one(lambda line, it: is_change(line, it) and (it.reply, it.crc) != (one.reply, one.crc)
                           and line.client != of.script.lines[one.line - 1].client)
    if not other:
        return False
    for key in ("reply", "reason", "index", "crc"):
        mine = getattr(one, key)
        setattr(one, key, getattr(other, key))
        setattr(other, key, mine)
    return True


def reads_swapped(of):
    """Two reads of one call have each other's answer."""
    one = of.read()
    other = one and of.read(lambda it: it.crc != one.crc and it.sent == one.sent and (
        of.script.lines[it.line - 1].call == of.script.lines[one.line - 1].call))
    if not other:
        return False
    one.crc, other.crc, one.reply, other.reply = other.crc, one.crc, other.reply, one.reply
    return True


def sent_swapped(of):
    places = [at for at in range(len(of.log.sent) - 1) if all(
        is_change(of.script.lines[line - 1], of.log.answers[line - 1]) for line in of.log.sent[at:at + 2])
        and of.log.sent[at] != of.log.sent[at + 1]]
    if not places:
        return False
    at = of.chance.choice(places)
    of.log.sent[at], of.log.sent[at + 1] = of.log.sent[at + 1], of.log.sent[at]
    return True


def sent_early(of):
    """What is no change sends before a change that it comes after."""
    for at, line in enumerate(of.log.sent):
        it = of.log.answers[line - 1]
        if not is_change(of.script.lines[line - 1], it) and at and any(
                is_change(of.script.lines[other - 1], of.log.answers[other - 1]) for other in of.log.sent[:at]):
            of.log.sent.insert(0, of.log.sent.pop(at))
            return True
    return False


def sent_never(of):
    if not of.log.sent:
        return False
    of.log.sent.pop(of.chance.randrange(len(of.log.sent)))
    return True


def sent_twice(of):
    if not of.log.sent:
        return False
    of.log.sent.append(of.log.sent[-1])
    return True


WAYS = {
    "an answer is missing": ("lines", cut_last),
    "a client stays": ("lines", keep_a_client),
    "a call is busy": ("status", set_of(Found.change, status=lambda it, of: BUSY)),
    "a number is answered twice": ("numbers", set_of(
        lambda of: of.one(lambda line, it: is_change(line, it) and it.seen > 1), seen=lambda it, of: it.seen - 1)),
    "a number is left out": ("numbers", set_of(last_change, seen=lambda it, of: it.seen + 1)),
    "a change isn't counted": ("numbers", set_of(
        lambda of: of.one(lambda line, it: is_change(line, it) and it is not last_change(of)),
        reply=lambda it, of: 1)),
    "a read goes back": ("seen", set_of(
        lambda of: of.read(lambda it: of.before(it) > it.since), seen=lambda it, of: of.before(it) - 1)),
    "a read is older than it may be": ("since", set_of(
        lambda of: of.read(lambda it: it.since > of.before(it)), seen=lambda it, of: it.since - 1)),
    "a read asks for what nobody was told": ("since", set_of(
        lambda of: of.read(lambda it: it.since == 0 and it.seen > 0 and of.script.lines[it.line - 1].hear < 0),
        since=lambda it, of: 1)),
    "a change has another reply": ("replay", set_of(
        lambda of: of.one(lambda line, it: is_change(line, it) and it.reply == DELIVERED),
        reply=lambda it, of: CLOSED)),
    "a change has another answer": ("replay", set_of(Found.change, crc=lambda it, of: it.crc ^ 1)),
    "a reason is another": ("replay", set_of(
        lambda of: of.one(lambda line, it: it.status == OK and it.reason), reason=lambda it, of: it.reason + 1)),
    "a read has another answer": ("read", set_of(Found.read, crc=lambda it, of: it.crc ^ 1)),
    "a client has another's result": ("replay", two_results_swapped),
    "a read has another's answer": ("read", reads_swapped),
    "messages are sent in another order": ("sent", sent_swapped),
    "a message is sent too early": ("sent", sent_early),
    "a message isn't sent": ("sent", sent_never),
    "a message is sent twice": ("sent", sent_twice),
}


class SelfTest:
    """Counts what passes and fails."""

    def __init__(self, library, seed):
        self.library, self.seed = library, seed
        self.passed = self.failed = 0
        self.ways = set()

    def count(self, name, is_passed, text=""):
        self.passed += is_passed
        self.failed += not is_passed
        if not is_passed:
            print(f"storm: self-test: {name} FAILED{': ' * bool(text)}{text}", flush=True)

    def of_log(self, number):
        chance = random.Random(f"{self.seed} {number}")
        script = script_of(f"{self.seed} {number}", 2 + number % 4, 60)
        text = simulated(script, self.library, chance).text()
        self.count(f"the true log {number}", *self.is_true(script, text))
        for name, (rule, falsify) in WAYS.items():
            log = read_log(text)
            if not falsify(Found(script, log, chance)):
                continue
            found = {it.rule for it in checked(script, log.text(), self.library)}
            self.count(f"{name} in log {number}", rule in found, f"found by {', '.join(sorted(found)) or 'nothing'}")
            self.ways.add(name)
        self.count(f"a line of another form in log {number}",
                   [it.rule for it in checked(script, text + b"line\n", self.library)] == ["form"])

    def is_true(self, script, text):
        faults = checked(script, text, self.library)
        return not faults, "; ".join(map(str, faults[:3]))

    def test(self, logs):
        """At least so many logs, and more until each way to falsify one had a place."""
        number = 0
        while number < logs or (len(self.ways) < len(WAYS) and number < MOST):
            self.of_log(number)
            number += 1
        for name in sorted(WAYS.keys() - self.ways):
            self.count(f"{name} had a place in {number} logs", False)
