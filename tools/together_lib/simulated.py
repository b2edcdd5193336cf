"""A run that threads might have made, made here: a scheduler of chance takes the clients' lines in turn, and the
one-thread manager answers them."""
from together_lib.answers import Answer, Entry, Run


class Simulation:
    """Plays one schedule."""

    def __init__(self, asked, driver, chance):
        self.asked = asked
        self.driver = driver
        self.chance = chance
        self.seen = {}
        self.stamps = {}
        self.calls = {}
        self.reads = []
        self.run = Run([], [], 0, 0)

    def schedule(self):
        """All lines, those of each client in their order. A client has some turns in a row."""
        left = {}
        for number, it in sorted(self.asked.items()):
            left.setdefault(it.client, []).append(number)
        order = []
        while left:
            client = self.chance.choice(sorted(left))
            turns = self.chance.choice([1, 1, 1, 2, 3, 20])
            order += left[client][:turns]
            left[client] = left[client][turns:]
            if not left[client]:
                del left[client]
        return order

    def hear(self, it):
        """What its client has seen, once it has heard the other one's last stamp."""
        heard = self.stamps.get(it.heard, 0)
        self.seen[it.client] = max(self.seen.get(it.client, 0), heard)
        return self.seen[it.client]

    def changed(self, number, it, told, before):
        """A change that was made has a place in the history."""
        self.calls[it.client] = self.calls.get(it.client, 0) + 1
        self.run.entries.append(Entry(told.number, it.client, self.calls[it.client], number, told.words, told.outs))
        self.stamps[it.client] = told.number
        return Answer(number, it.client, before, told.number, "reply", told.number, told.words)

    def answer(self, number, told):
        """Of the next line in turn. A read is at any front from what its client has seen on; its words come later."""
        it = self.asked[number]
        before = self.hear(it)
        if it.is_read:
            front = self.chance.choice([len(self.run.entries), self.chance.randint(before, len(self.run.entries))])
            made = Answer(number, it.client, before, front, it.told.kind, front, b"")
            self.reads.append(made)
        elif told.kind == "bad":
            made = Answer(number, it.client, before, before, "bad", number, told.words)
        else:
            made = self.changed(number, it, told, before)
        self.seen[it.client] = made.after
        self.run.answers.append(made)

    def played(self):
        """The run: first what changes come to in this order, then what reads give at their fronts."""
        order = self.schedule()
        changes = [number for number in order if not self.asked[number].is_read]
        told = dict(zip(changes, self.driver.played([self.asked[number].line for number in changes])))
        for number in order:
            self.answer(number, told.get(number))
        self.fill_reads()
        self.run.answers.sort(key=lambda it: (it.client, it.line))
        self.run.taken = self.chance.randint(0, len(self.run.entries))
        self.run.untaken = len(self.run.entries) + 1 - self.run.taken
        return self.run

    def fill_reads(self):
        """Plays the history once more, with each read at its front."""
        self.reads.sort(key=lambda it: it.number)
        order, left = [], list(self.reads)
        for place in range(len(self.run.entries) + 1):
            while left and left[0].number == place:
                order.append(left.pop(0).line)
            if place < len(self.run.entries):
                order.append(self.run.entries[place].line)
        told = dict(zip(order, self.driver.played([self.asked[number].line for number in order])))
        for it in self.reads:
            it.words = told[it.line].words


def simulated(asked, driver, chance):
    return Simulation(asked, driver, chance).played()
