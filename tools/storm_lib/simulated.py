"""A log that a storm might have written, made here: a scheduler of chance takes the clients' lines in turn, and the
one-thread manager answers them."""
from storm_lib.handle import Handle
from storm_lib.log import Answer, Log
from storm_lib.rules import OK, is_change


def schedule(script, chance):
    """All lines, those of each client in their order."""
    left = {client: script.of_client(client) for client in range(script.clients)}
    order = []
    while any(left.values()):
        client = chance.choice([it for it, lines in left.items() if lines])
        turns = chance.choice([1, 1, 2, 3, 20])
        order += left[client][:turns]
        left[client] = left[client][turns:]
    return order


class Simulation:
    """One schedule. A read is at any front from what its client has seen, or asked for, on."""

    def __init__(self, script, library, chance):
        self.script, self.library, self.chance = script, library, chance
        self.seen = dict.fromkeys(range(script.clients), 0)
        self.changes = []  # their lines, in the order of their numbers
        self.answers = {}

    def answer(self, line, came, seen, since=0):
        self.seen[line.client] = seen
        self.answers[line.number] = Answer(
            line.number, came.status, came.reply, came.reason, came.index, since, seen, 1, came.sent, came.crc
        ) if came else Answer(line.number, OK, 0, 0, 0, since, seen, 1, 0, 0)

    def take(self, line, handle):
        front = len(self.changes)
        if line.call == "join":
            return self.answer(line, None, front)
        if line.is_read:
            since = self.seen[line.hear] if line.hear >= 0 else 0
            least = max(self.seen[line.client], since)
            return self.answer(line, None, self.chance.choice([front, self.chance.randint(least, front)]), since)
        came = handle.played(line)
        if came.status != OK:
            return self.answer(line, came, self.seen[line.client])
        self.answer(line, came, front)
        if is_change(line, self.answers[line.number]):
            self.changes.append(line)
            self.answer(line, came, front + 1)

    def with_handle(self, play):
        handle = Handle(self.library, self.script.comms, self.script.decimals)
        try:
            play(handle)
        finally:
            handle.end()

    def fill_reads(self, handle):
        reads = sorted((self.answers[it.number].seen, it.number) for it in self.script.lines if it.is_read)
        gone = 0
        for front, number in reads:
            for line in self.changes[gone:front]:
                handle.played(line)
            gone = front
            line, it = self.script.lines[number - 1], self.answers[number]
            self.answer(line, handle.played(line), it.seen, it.since)

    def sent(self):
        order = sorted(
            (it.seen, not is_change(self.script.lines[it.line - 1], it), it.line, it.sent)
            for it in self.answers.values()
        )
        return [line for _, _, line, sent in order for _ in range(sent)]

    def log(self):
        self.with_handle(lambda handle: [self.take(it, handle) for it in schedule(self.script, self.chance)])
        self.with_handle(self.fill_reads)
        answers = [self.answers[it.number] for it in self.script.lines]
        return Log(answers, self.sent(), [OK] * self.script.clients)


def simulated(script, library, chance):
    return Simulation(script, library, chance).log()
